"""What a refused edit would have made of the map, as far as is wanted to find where it breaks a rule.

Nothing here decides whether an edit is refused: that the program has done. Where no place is found, none is told.
"""
from __future__ import annotations

from collections.abc import Iterator, Mapping
from dataclasses import dataclass, field, replace

from lib.crossings import Place, Segment, in_order, meetings, named, on_string, same_place
from lib.exact import Position, is_inside, is_on, point_text
from lib.fans import face_text, fans_of
from lib.forms import coordinate_of, list_of, number_of
from lib.outlines import Ring, face_at, hole_places, outline_places, rings_of
from lib.records import Plan, Record, StringRow

ORDER, INSIDE = 'order', 'inside'


@dataclass
class Tried:
    """The points that an edit would bring or move, the strings that would come or have a moved end, the numbers of
    those that would go or be exchanged for these, and for a string at a point the one that had its place there."""
    moved: dict[int, Position] = field(default_factory=dict)
    come: list[StringRow] = field(default_factory=list)
    gone: set[int] = field(default_factory=set)
    gone_point: int | None = None
    was: dict[tuple[int, int], int] = field(default_factory=dict)


def tried_edit(record: Record, plan: Plan) -> Tried:
    """What the edit would make of strings and points; of an edit of another kind, nothing."""
    maker = {b'add-point': placed, b'move': moving, b'split': splitting, b'join': joining, b'divide': dividing,
             b'enclose': dividing}.get(record.kind)
    return maker(record, plan) if maker else Tried()


def placed(record: Record, plan: Plan) -> Tried:
    _, point, x, y, *_ = record.fields
    return Tried(moved={number_of(point): (coordinate_of(x), coordinate_of(y))})


def strings_at(point: int, plan: Plan) -> list[StringRow]:
    return [it for it in plan.strings.values() if point in (it.first, it.second)]


def moving(record: Record, plan: Plan) -> Tried:
    tried = placed(record, plan)
    tried.come = strings_at(number_of(record.fields[1]), plan)
    tried.gone = {it.number for it in tried.come}
    return tried


def splitting(record: Record, plan: Plan) -> Tried:
    _, string, point, x, y, first, second = record.fields
    old, new = plan.strings[number_of(string)], number_of(point)
    halves = [replace(old, number=number_of(first), second=new), replace(old, number=number_of(second), first=new)]
    return Tried({new: (coordinate_of(x), coordinate_of(y))}, halves, {old.number},
                 was={(old.first, halves[0].number): old.number, (old.second, halves[1].number): old.number})


def joining(record: Record, plan: Plan) -> Tried:
    """The joined string leads from the far end of the string with the lesser number to that of the other."""
    point, number = number_of(record.fields[1]), number_of(record.fields[2])
    low, high = sorted(strings_at(point, plan), key=lambda it: it.number)
    if low.first == point:
        low = replace(low, first=low.second, second=point, left=low.right, right=low.left)
    first, second = low.first, high.first if high.second == point else high.second
    joined = replace(low, number=number, second=second)
    return Tried({}, [joined], {low.number, high.number}, point,
                 {(first, number): low.number, (second, number): high.number})


def dividing(record: Record, plan: Plan) -> Tried:
    """The strings along the chain, the new parcel to their left."""
    _, face, points, strings, parcel, _, _ = record.fields
    chain = list_of(points)
    chain += chain[:1] if record.kind == b'enclose' else ()
    right = 0 if face == b'0' else number_of(face)
    return Tried(come=[StringRow(number, first, second, number_of(parcel), right, (), record)
                       for number, first, second in zip(list_of(strings), chain, chain[1:])])


def places_of(rule: str, record: Record, plan: Plan, at: dict[int, Position]) -> list[Place]:
    """Where the map that a refused edit would make breaks the rule, V3 to V8."""
    tried = tried_edit(record, plan)
    after = {**at, **tried.moved}
    if tried.gone_point is not None:
        del after[tried.gone_point]
    if rule == 'V3':
        return coinciding(tried, after)
    if rule == 'V4':
        return in_order({it.words: it for it in crossing(tried, plan, after)}.values())
    if rule == 'V6':
        return orders(tried, plan, at, after)
    rings_of_faces = rings_after(record, tried, plan, after).items()
    if rule == 'V7':
        return [place for face, rings in rings_of_faces for place in outline_places(face, rings, True)]
    inside = enclosed_where(record, plan, at) if record.kind == b'enclose' else []
    return inside + [place for face, rings in rings_of_faces for place in hole_places(face, rings, after, True)]


# ---- V3 and V4

def coinciding(tried: Tried, after: Mapping[int, Position]) -> list[Place]:
    """Where the new or moved point would lie on another one."""
    places = []
    for point, position in tried.moved.items():
        others = [it for it, where in after.items() if where == position and it != point]
        if others:
            places.append(same_place([point, *others], position, True))
    return places


def crossing(tried: Tried, plan: Plan, after: Mapping[int, Position]) -> Iterator[Place]:
    """What the strings and points that come meet."""
    come = [Segment(it.number, it.first, it.second, after[it.first], after[it.second]) for it in tried.come]
    ends = [position for it in come for position in (it.a, it.b)] + list(tried.moved.values())
    if not ends:
        return
    low = min(x for x, _ in ends), min(y for _, y in ends)
    high = max(x for x, _ in ends), max(y for _, y in ends)
    others = segments_in(low, high, tried, plan, after)
    for place, segment in enumerate(come):
        for other in [*come[place + 1:], *others]:
            yield from meetings(segment, other, True)
    near = {point: (x, y) for point, (x, y) in after.items() if low[0] <= x <= high[0] and low[1] <= y <= high[1]}
    yield from points_on(near, come)
    yield from points_on(tried.moved, others)


def segments_in(low: Position, high: Position, tried: Tried, plan: Plan,
                after: Mapping[int, Position]) -> list[Segment]:
    """The strings that stay, and come into the box."""
    found = []
    for row in plan.strings.values():
        if row.number not in tried.gone:
            a, b = after[row.first], after[row.second]
            if (max(a[0], b[0]) >= low[0] and min(a[0], b[0]) <= high[0] and max(a[1], b[1]) >= low[1]
                    and min(a[1], b[1]) <= high[1]):
                found.append(Segment(row.number, row.first, row.second, a, b))
    return found


def points_on(points: Mapping[int, Position], segments: list[Segment]) -> Iterator[Place]:
    for segment in segments:
        for point, where in points.items():
            if where not in (segment.a, segment.b) and is_on(where, segment.a, segment.b):
                yield on_string(point, where, segment, True)


# ---- V6

def orders(tried: Tried, plan: Plan, at: dict[int, Position], after: dict[int, Position]) -> list[Place]:
    """Round which points the strings would stand in another order."""
    points = {it for row in tried.come for it in (row.first, row.second)} & set(at)
    before = fans_of(plan.strings.values(), at, points)
    stay = [it for it in plan.strings.values() if it.number not in tried.gone]
    places = []
    for point, fan in fans_of([*stay, *tried.come], after, points).items():
        old = from_least([half.string for half in before.get(point, [])])
        now = [tried.was.get((point, half.string), half.string) for half in fan]
        new = from_least([it for it in now if it in old])
        if new != old:
            was, then = (' '.join(map(str, it)) for it in (old, new))
            words = f'round point {point}, counterclockwise, strings {was} would stand in the order {then}'
            places.append(Place(ORDER, words, point_text(after[point]), frozenset([point]), frozenset(new)))
    return places


def from_least(numbers: list[int]) -> list[int]:
    """A list that is read round, from the least number on."""
    at = numbers.index(min(numbers)) if numbers else 0
    return numbers[at:] + numbers[:at]


# ---- V7 and V8

def rings_after(record: Record, tried: Tried, plan: Plan, after: Mapping[int, Position]) -> dict[int, list[Ring]]:
    """The rings of the faces that the edit would change."""
    stay = [it for it in plan.strings.values() if it.number not in tried.gone]
    if record.kind in (b'divide', b'enclose'):
        return rings_parted(tried.come, stay, after)
    if record.kind == b'merge':
        kept, ended = (int(it) for it in record.fields[1:3])
        return rings_merged(kept, ended, stay, after)
    points = {it for row in tried.come for it in (row.first, row.second)}
    rows = [*tried.come, *(it for it in stay if it.first in points or it.second in points)]
    faces = {face for it in rows for face in (it.left, it.right)}
    found = rings_of([*stay, *tried.come], after, faces)
    return {face: found.get(face, []) for face in sorted(faces)}


def rings_parted(come: list[StringRow], stay: list[StringRow],
                 after: Mapping[int, Position]) -> dict[int, list[Ring]]:
    """The rings of a face and of the parcel that is parted off it: the new parcel's are the one to the left of the
    chain, and the holes in that."""
    parcel, face = come[0].left, come[0].right
    rings = rings_of([*stay, *(replace(it, left=face) for it in come)], after, {face})[face]
    new = next((ring for ring in rings if (come[0].first, come[0].number) in zip(ring.points, ring.strings)), None)
    if new is None:
        return {}
    of_new = [new] + [it for it in rings if it is not new and it.doubled < 0 < new.doubled
                       and is_inside(after[it.anchor], new.positions)]
    return {parcel: [replace(it, face=parcel) for it in of_new], face: [it for it in rings if it not in of_new]}


def rings_merged(kept: int, ended: int, stay: list[StringRow],
                 after: Mapping[int, Position]) -> dict[int, list[Ring]]:
    """The rings of the parcel that a merger makes of two."""
    def face(it: int) -> int:
        return kept if it == ended else it

    rows = [replace(it, left=face(it.left), right=face(it.right)) for it in stay]
    return {kept: rings_of([it for it in rows if it.left != it.right], after, {kept}).get(kept, [])}


def enclosed_where(record: Record, plan: Plan, at: Mapping[int, Position]) -> list[Place]:
    """In which faces the points of an enclosure lie, where that isn't the named one."""
    named_face = 0 if record.fields[1] == b'0' else number_of(record.fields[1])
    by_face: dict[int, list[int]] = {}
    for point in list_of(record.fields[2]):
        by_face.setdefault(face_at(at[point], plan.strings.values(), at), []).append(point)
    places = []
    for face, points in by_face.items():
        if face != named_face:
            lie = 'lie' if len(points) > 1 else 'lies'
            words = f'{named("point", points)} {lie} in {face_text(face)}, not in {face_text(named_face)}'
            places.append(Place(INSIDE, words, point_text(at[points[0]]), frozenset(points)))
    return places
