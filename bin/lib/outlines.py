"""The rings of faces, what of them breaks V7 and V8, and in which face a position lies.

Rings are found from the strings of a face alone, as a plan's are: where a ring comes to a point, it goes on along
the next string clockwise. That is right where V3, V4 and V6 are kept.
"""
from __future__ import annotations

from collections.abc import Iterable, Mapping, Sequence
from dataclasses import dataclass
from fractions import Fraction

from lib.boxes import Boxes
from lib.crossings import Place
from lib.exact import Position, doubled_area, is_counted, is_inside, is_same_direction, polygon_text
from lib.fans import Half, face_text, fan_at, halves_of
from lib.records import StringRow

MOST_NAMED = 12  # points of a ring.
OUTLINE, HOLE = 'outline', 'hole'


Side = tuple[int, int, int]  # A face, the point from which its side leads, and the side's string.


@dataclass(frozen=True, slots=True)
class Ring:
    """A ring of a face: its points from the least one on, the string that leads from each, the face to their left,
    and twice its area in square millimetres."""
    face: int
    points: tuple[int, ...]
    strings: tuple[int, ...]
    positions: tuple[Position, ...]
    doubled: int

    @property
    def anchor(self) -> int:
        """Its least point."""
        return self.points[0]

    def text(self) -> str:
        """Its points in parentheses; of a long ring the first ones."""
        more = f' .. {len(self.points)} points' if len(self.points) > MOST_NAMED else ''
        return f'({" ".join(map(str, self.points[:MOST_NAMED]))}{more})'

    def wkt(self) -> str:
        return polygon_text(self.positions)


def rings_of(strings: Iterable[StringRow], at: Mapping[int, Position],
             faces: set[int] | None = None) -> dict[int, list[Ring]]:
    """The rings of these faces, or of all that strings name. Strings with unknown points are left out."""
    fans: dict[tuple[int, int], list[Half]] = {}
    for row in strings:
        if row.first in at and row.second in at:
            for point, half in halves_of(row):
                for face in {half.left, half.right}:
                    if faces is None or face in faces:
                        fans.setdefault((face, point), []).append(half)
    after: dict[Side, Side] = {}
    for (face, point), fan in fans.items():
        after.update(followers(face, point, fan_at(point, fan, at)))
    rings: dict[int, list[Ring]] = {}
    while after:
        ring = taken_ring(after, at)
        rings.setdefault(ring.face, []).append(ring)
    return rings


def followers(face: int, point: int, fan: list[Half]) -> list[tuple[Side, Side]]:
    """For each side of the face that comes to the point, the side that goes on from there: the next one
    clockwise."""
    found = []
    for place, half in enumerate(fan):
        if half.right == face:
            turned = (fan[(place - step) % len(fan)] for step in range(1, len(fan) + 1))
            on = next((it for it in turned if it.left == face), None)
            if on:
                found.append(((face, half.far, half.string), (face, point, on.string)))
    return found


def taken_ring(after: dict[Side, Side], at: Mapping[int, Position]) -> Ring:
    """One of the rings that these sides make; its sides are taken away."""
    side = next(iter(after))
    sides = []
    while side in after:
        sides.append(side)
        side = after.pop(side)
    least = min(range(len(sides)), key=lambda it: sides[it][1])
    sides = sides[least:] + sides[:least]
    positions = tuple(at[point] for _, point, _ in sides)
    return Ring(side[0], tuple(point for _, point, _ in sides), tuple(string for _, _, string in sides), positions,
                doubled_area(positions))


# ---- V7 and V8

def outline_places(face: int, rings: Sequence[Ring], would: bool = False) -> list[Place]:
    """What breaks V7 in a face."""
    be, have, name = *(('would be', 'would have') if would else ('is', 'has')), f'parcel {face}'
    places = []
    positive = [it for it in rings if it.doubled > 0]
    for ring in rings:
        if ring.doubled == 0:
            places.append(ring_place(OUTLINE, f'ring {ring.text()} of {face_text(face)} {have} no area', ring))
        elif ring.doubled > 0 and not face:
            words = f'ring {ring.text()} runs counterclockwise, and the outside {be} in it'
            places.append(ring_place(OUTLINE, words, ring))
    if face and not rings:
        places.append(Place(OUTLINE, f'{name} {have} no boundary: no string has it on either hand', ''))
    elif face and not positive:
        places += [ring_place(OUTLINE, f'{name} {be} inside out: ring {it.text()} runs clockwise', it)
                   for it in rings]
    elif face and len(positive) > 1:
        count = f'{name} {have} {len(positive)} outer boundaries'
        places += [ring_place(OUTLINE, f'{count}, one of them ring {it.text()}', it) for it in positive]
    return places


def ring_place(kind: str, words: str, ring: Ring) -> Place:
    return Place(kind, words, ring.wkt(), frozenset(ring.points), frozenset(ring.strings))


def hole_places(face: int, rings: Sequence[Ring], at: Mapping[int, Position], would: bool = False) -> list[Place]:
    """What breaks V8 in a face: a hole's least point isn't in the outer ring, or is in another hole."""
    lies = 'would lie' if would else 'lies'
    outer, holes = [it for it in rings if it.doubled > 0], [it for it in rings if it.doubled < 0]
    boxes = Boxes([box_of(it) for it in holes])
    places = []
    for place, hole in enumerate(holes):
        anchor, of_face = at[hole.anchor], f'hole {hole.text()} of {face_text(face)}'
        places += [ring_place(HOLE, f'{of_face} {lies} outside its outer boundary {it.text()}', hole)
                   for it in outer if not is_inside(anchor, it.positions)]
        places += [ring_place(HOLE, f'{of_face} {lies} in its hole {holes[i].text()}', hole)
                   for i in boxes.near(anchor, anchor) if i != place and is_inside(anchor, holes[i].positions)]
    return places


def box_of(ring: Ring) -> tuple[Position, Position]:
    """The least and the greatest coordinates of a ring."""
    xs, ys = [x for x, _ in ring.positions], [y for _, y in ring.positions]
    return (min(xs), min(ys)), (max(xs), max(ys))


# ---- In which face a position lies

def face_at(q: Position, strings: Iterable[StringRow], at: Mapping[int, Position]) -> int:
    """The face in which a position lies that is on no string: that of the nearest string to the east, on its western
    hand. Where it is on a string, the face just to the east of it."""
    best: tuple[Fraction, Fraction] | None = None
    face = 0
    for row in strings:
        if row.first not in at or row.second not in at:
            continue
        a, b = at[row.first], at[row.second]
        if is_counted(q, a, b):
            slope = Fraction(b[0] - a[0], b[1] - a[1])
            key = a[0] + slope * (q[1] - a[1]), slope
            if best is None or key < best:
                best, face = key, row.left if a[1] < b[1] else row.right
    return face


def face_towards(point: int, to: Position, fan: Sequence[Half],
                 at: Mapping[int, Position]) -> tuple[int, int | None]:
    """Which face one enters from a point with strings towards a position, and the string if one walks along it."""
    here = at[point]
    for half in fan:
        if is_same_direction(here, at[half.far], to):
            return half.left, half.string
    far = {half.far: at[half.far] for half in fan}
    placed = fan_at(point, [*fan, Half(0, -1, 0, 0)], {**far, point: here, -1: to})
    place = next(i for i, half in enumerate(placed) if half.far == -1)
    return placed[place - 1].left, None


def face_round(ring: Ring, strings: Iterable[StringRow], at: Mapping[int, Position]) -> int:
    """The face in which a ring lies with all that is inside it: the one to the east of its easternmost position."""
    return face_at(max(ring.positions), strings, at)
