"""Where points coincide, strings cross, overlap or touch, and points lie on strings: the places that break V3 and
V4.

The tests are exact. `would` is true of a map that an edit would make: then the words say so.
"""
from __future__ import annotations

from collections.abc import Iterable, Iterator, Mapping
from dataclasses import dataclass

from lib.boxes import Boxes
from lib.exact import CROSS, OVERLAP, Position, inner, is_on, line_text, meeting_of, orientation, point_text
from lib.records import Plan

MOST_PAIRS = 2_000_000  # of strings whose boxes overlap, in one plan.
MOST_FOUND = 20_000  # places in one plan.
SAME_PLACE, ON_STRING, WHERE = 'same place', 'on string', 'where'


@dataclass(frozen=True, slots=True)
class Place:
    """A place where something is wrong: what, in words, its geometry as well-known text in metres, and the points
    and strings of which one may be wrong."""
    kind: str
    words: str
    wkt: str
    points: frozenset[int] = frozenset()
    strings: frozenset[int] = frozenset()


@dataclass(frozen=True, slots=True)
class Segment:
    """A string with its two points and their positions."""
    number: int
    first: int
    second: int
    a: Position
    b: Position

    def ends(self) -> tuple[tuple[int, Position], tuple[int, Position]]:
        return (self.first, self.a), (self.second, self.b)


def positions_of(plan: Plan) -> dict[int, Position]:
    """Where each point of the plan lies."""
    return {number: (row.x, row.y) for number, row in plan.points.items()}


def segments_of(plan: Plan, at: Mapping[int, Position]) -> list[Segment]:
    """The strings of the plan of which both points are known."""
    return [Segment(it.number, it.first, it.second, at[it.first], at[it.second])
            for it in plan.strings.values() if it.first in at and it.second in at]


def verb(would: bool, now: str, then: str) -> str:
    return f'would {then}' if would else now


def named(what: str, numbers: Iterable[int]) -> str:
    """`points 3, 5 and 9`."""
    texts = [str(it) for it in numbers]
    if len(texts) == 1:
        return f'{what} {texts[0]}'
    return f'{what}s {", ".join(texts[:-1])} and {texts[-1]}'


# ---- V3

def same_places(at: Mapping[int, Position], would: bool = False) -> list[Place]:
    """Points at one place, a place for each position that several have."""
    by_position: dict[Position, list[int]] = {}
    for number, position in at.items():
        by_position.setdefault(position, []).append(number)
    return [same_place(numbers, position, would) for position, numbers in by_position.items() if len(numbers) > 1]


def same_place(numbers: list[int], position: Position, would: bool) -> Place:
    words = f'{named("point", sorted(numbers))} {verb(would, "are", "be")} at one place'
    return Place(SAME_PLACE, words, point_text(position), frozenset(numbers))


# ---- V4

def on_string(point: int, position: Position, segment: Segment, would: bool) -> Place:
    words = f'point {point} {verb(would, "lies", "lie")} on string {segment.number}'
    return Place(ON_STRING, words, point_text(position), frozenset((point, segment.first, segment.second)),
                 frozenset([segment.number]))


def overlapping(s: Segment, t: Segment, ends: tuple[Position, ...], would: bool) -> Place:
    words = f'{named("string", sorted((s.number, t.number)))} {verb(would, "overlap", "overlap")}'
    return Place(OVERLAP, words, line_text(sorted(ends)), frozenset((s.first, s.second, t.first, t.second)),
                 frozenset((s.number, t.number)))


def forking(v: Position, p: Position, q: Position) -> tuple[Position, Position] | None:
    """What the segments vp and vq have in common beside v: from v to the nearer end, where they lie in one
    direction."""
    if orientation(v, p, q) or inner(v, p, q) <= 0:
        return None
    return (v, p) if is_on(p, v, q) else (v, q)


def common_piece(s: Segment, t: Segment) -> tuple[Position, Position] | None:
    """What two strings with a shared point have in common beside it."""
    if s.first == t.first:
        return forking(s.a, s.b, t.b)
    if s.first == t.second:
        return forking(s.a, s.b, t.a)
    if s.second == t.first:
        return forking(s.b, s.a, t.b)
    return forking(s.b, s.a, t.a)


def lying_on(s: Segment, t: Segment, would: bool) -> Iterator[Place]:
    """The ends of s that lie on t, between the ends of t."""
    for point, position in s.ends():
        if position != t.a and position != t.b and is_on(position, t.a, t.b):
            yield on_string(point, position, t, would)


def meetings(s: Segment, t: Segment, would: bool = False) -> list[Place]:
    """The places where two strings break V4. Where ends of both are at one place, that breaks V3, and is no place
    here."""
    if s.first in (t.first, t.second) or s.second in (t.first, t.second):
        piece = common_piece(s, t)
        if piece is None:
            return []
        return [overlapping(s, t, piece, would), *lying_on(s, t, would), *lying_on(t, s, would)]
    meeting = meeting_of(s.a, s.b, t.a, t.b)
    if meeting is None:
        return []
    places = [*lying_on(s, t, would), *lying_on(t, s, would)]
    if meeting.kind == CROSS:
        words = f'{named("string", sorted((s.number, t.number)))} {verb(would, "cross", "cross")}'
        points = frozenset((s.first, s.second, t.first, t.second))
        places.append(Place(CROSS, words, point_text(meeting.where[0]), points, frozenset((s.number, t.number))))
    elif meeting.kind == OVERLAP:
        places.insert(0, overlapping(s, t, meeting.where, would))
    return places


def crossings(segments: list[Segment], at: Mapping[int, Position], boxes: Boxes) -> tuple[list[Place], bool]:
    """All places where strings of a plan break V4, each once, and whether the search was cut short for too many
    pairs. The boxes are those of the strings."""
    places: dict[str, Place] = {}
    for i, j in boxes.pairs(MOST_PAIRS):
        for place in meetings(segments[i], segments[j]):
            places.setdefault(place.words, place)
        if len(places) > MOST_FOUND:
            break
    in_strings = {point for it in segments for point in (it.first, it.second)}
    for point, position in at.items():
        if point not in in_strings:
            for i in boxes.near(position, position):
                if is_on(position, segments[i].a, segments[i].b) and position not in (segments[i].a, segments[i].b):
                    place = on_string(point, position, segments[i], False)
                    places.setdefault(place.words, place)
    return in_order(places.values()), boxes.was_cut or len(places) > MOST_FOUND


def in_order(places: Iterable[Place]) -> list[Place]:
    """Crossings first, then overlaps, and then points on strings."""
    return sorted(places, key=lambda it: (CROSS, OVERLAP, ON_STRING).index(it.kind))
