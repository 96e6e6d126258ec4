"""Exact tests on positions, which are pairs of whole millimetres (x to the east, y to the north) of up to 10^10
either way.

Python's whole numbers have no limit, so nothing here is rounded, but for the place of a crossing (`Meeting.where`),
which is told to the nearest millimetre. The definitions are those of docs/MODEL.md, "Positions and exact tests".
"""
from __future__ import annotations

import functools
from collections.abc import Callable, Iterable, Sequence
from dataclasses import dataclass
from fractions import Fraction
from typing import TypeVar

Position = tuple[int, int]
T = TypeVar('T')
CROSS, TOUCH, OVERLAP = 'cross', 'touch', 'overlap'


def orientation(a: Position, b: Position, c: Position) -> int:
    """Twice the signed area of the triangle abc: positive where c lies left of the line from a to b."""
    return (b[0] - a[0]) * (c[1] - a[1]) - (b[1] - a[1]) * (c[0] - a[0])


def inner(v: Position, a: Position, b: Position) -> int:
    """The inner product of the directions from v to a and from v to b."""
    return (a[0] - v[0]) * (b[0] - v[0]) + (a[1] - v[1]) * (b[1] - v[1])


def is_same_direction(v: Position, a: Position, b: Position) -> bool:
    """Whether a and b lie in one direction from v."""
    return orientation(v, a, b) == 0 and inner(v, a, b) > 0


def is_on(q: Position, a: Position, b: Position) -> bool:
    """Whether q lies on the segment ab, its ends included."""
    return (min(a[0], b[0]) <= q[0] <= max(a[0], b[0]) and min(a[1], b[1]) <= q[1] <= max(a[1], b[1])
            and orientation(a, b, q) == 0)


def square_of_distance(a: Position, b: Position) -> int:
    """In square millimetres."""
    return (a[0] - b[0]) ** 2 + (a[1] - b[1]) ** 2


@dataclass(frozen=True, slots=True)
class Meeting:
    """What two segments have in common: one position where they cross or touch, two ends where they overlap.

    They cross where the position is inside both, and touch where it is an end of one at least. The position of a
    crossing is the nearest one of whole millimetres; all others are exact.
    """
    kind: str
    where: tuple[Position, ...]


def meeting_of(a: Position, b: Position, c: Position, d: Position) -> Meeting | None:
    """What the segments ab and cd have in common, or None."""
    of_c, of_d = orientation(a, b, c), orientation(a, b, d)
    if (of_c > 0 and of_d > 0) or (of_c < 0 and of_d < 0):
        return None
    of_a, of_b = orientation(c, d, a), orientation(c, d, b)
    if (of_a > 0 and of_b > 0) or (of_a < 0 and of_b < 0):
        return None
    if of_a == of_b == of_c == of_d == 0:
        return meeting_on_line(a, b, c, d)
    if of_a and of_b and of_c and of_d:
        return Meeting(CROSS, (location(a, b, Fraction(of_a, of_a - of_b)),))
    for q, turn, other in ((c, of_c, (a, b)), (d, of_d, (a, b)), (a, of_a, (c, d)), (b, of_b, (c, d))):
        if turn == 0 and is_on(q, *other):
            return Meeting(TOUCH, (q,))
    return None


def meeting_on_line(a: Position, b: Position, c: Position, d: Position) -> Meeting | None:
    """The same of segments on one line, or of which one is a position."""
    if a == b or c == d:
        q, other = (a, (c, d)) if a == b else (c, (a, b))
        return Meeting(TOUCH, (q,)) if is_on(q, *other) else None
    begin, end = max(min(a, b), min(c, d)), min(max(a, b), max(c, d))
    if begin > end:
        return None
    return Meeting(TOUCH, (begin,)) if begin == end else Meeting(OVERLAP, (begin, end))


def location(a: Position, b: Position, part: Fraction) -> Position:
    """The position nearest to the location that lies so far from a on the way to b."""
    return nearest(a[0] + part * (b[0] - a[0])), nearest(a[1] + part * (b[1] - a[1]))


def nearest(value: Fraction) -> int:
    """The nearest whole number, the greater one of two."""
    return (2 * value.numerator + value.denominator) // (2 * value.denominator)


def doubled_area(ring: Sequence[Position]) -> int:
    """Twice the signed area in square millimetres of a ring, positive where it runs counterclockwise."""
    return sum(a[0] * b[1] - b[0] * a[1] for a, b in zip(ring, (*ring[1:], *ring[:1])))


def is_counted(q: Position, a: Position, b: Position) -> bool:
    """Whether the ray from q to the east crosses the side between a and b: the lower end belongs to it, the upper
    not."""
    low, high = (a, b) if a[1] <= b[1] else (b, a)
    return low[1] <= q[1] < high[1] and orientation(low, high, q) > 0


def is_inside(q: Position, ring: Sequence[Position]) -> bool:
    """Whether an odd number of the ring's sides is counted at q."""
    return sum(is_counted(q, a, b) for a, b in zip(ring, (*ring[1:], *ring[:1]))) % 2 == 1


def compare_directions(a: Position, b: Position) -> int:
    """Negative where direction a comes before b, counterclockwise from the east; 0 where they are one."""
    upper_a = a[1] > 0 or (a[1] == 0 and a[0] > 0)
    upper_b = b[1] > 0 or (b[1] == 0 and b[0] > 0)
    if upper_a != upper_b:
        return -1 if upper_a else 1
    turn = a[0] * b[1] - a[1] * b[0]
    return (turn < 0) - (turn > 0)


def counterclockwise(v: Position, items: Iterable[T], at: Callable[[T], Position]) -> list[T]:
    """The items in the order of their directions from v, counterclockwise from the east."""
    placed = [((x - v[0], y - v[1]), it) for it in items for x, y in (at(it),)]

    def compare(a: tuple[Position, T], b: tuple[Position, T]) -> int:
        return compare_directions(a[0], b[0])

    placed.sort(key=functools.cmp_to_key(compare))
    return [it for _, it in placed]


# ---- Well-known text, in metres with three decimals

def metres(value: int) -> str:
    """Millimetres as metres."""
    sign, size = '-' if value < 0 else '', abs(value)
    return f'{sign}{size // 1000}.{size % 1000:03d}'


def listed(positions: Iterable[Position]) -> str:
    return ','.join(f'{metres(x)} {metres(y)}' for x, y in positions)


def point_text(q: Position) -> str:
    """A position as well-known text."""
    return f'POINT({listed([q])})'


def line_text(positions: Sequence[Position]) -> str:
    """A line as well-known text; of one position alone, a point."""
    return f'LINESTRING({listed(positions)})' if len(set(positions)) > 1 else point_text(positions[0])


def polygon_text(ring: Sequence[Position]) -> str:
    """A ring as a polygon without holes in well-known text, closed by its first position."""
    return f'POLYGON(({listed([*ring, ring[0]])}))'
