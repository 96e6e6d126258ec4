"""Which point of a plan most likely has a wrong coordinate.

It is the point that is common to most places where V3 or V4 is broken. Where several are, the one counts that fits
best where it may have been before a slip of the pen: one digit other, missing or too many, two neighbouring digits
exchanged, the sign, x and y exchanged.
"""
from __future__ import annotations

from collections import Counter
from collections.abc import Iterator
from dataclasses import dataclass, field, replace
from functools import cached_property

from lib.boxes import Boxes
from lib.crossings import Place, Segment, crossings, meetings, positions_of, same_places, segments_of
from lib.exact import Position, is_on, square_of_distance
from lib.fans import Fan, Misfit, fan_at, fans_of, gaps, misfits
from lib.records import Plan

MOST_LIKELY = 5  # points that are named for one plan.
MOST_OTHERS = 2  # points that are named beside a likely one.
MOST_TIED = 12  # points that are tried where several are common to as many places.
MOST_WORK = 3_000  # strings of a point times strings near it, for which it is tried elsewhere.


@dataclass(frozen=True, slots=True)
class Slip:
    """Where a point may have been: the coordinate that differs, what it is and what it may have been, in
    millimetres."""
    name: str
    now: str
    before: str
    position: Position

    def words(self) -> str:
        return f'with {self.name} {self.before} in the place of {self.now} it would fit'


@dataclass(frozen=True, slots=True)
class Likely:
    """A point that is likely wrong: of so many places so many are at it or at its strings, and where it may have
    been. `others` are points of which as many are, and that would fit elsewhere too."""
    point: int
    covered: int
    total: int
    slip: Slip | None
    others: tuple[tuple[int, Slip], ...] = ()

    def of(self, covered: int, total: int) -> Likely:
        return replace(self, covered=covered, total=total)

    def words(self, where: str) -> str:
        """In words, with the place of its record."""
        of = f'{self.covered} of {self.total} places are'
        if self.covered == self.total:
            of = 'the place is' if self.total == 1 else f'all {self.total} places are'
        fit = f'; {self.slip.words()}' if self.slip else ''
        others = ''.join(f'; or point {point}: {slip.words()}' for point, slip in self.others)
        return f'point {self.point} ({where}): {of} at it or at its strings{fit}{others}'


@dataclass
class Geometry:
    """A plan's geometry, and what is wrong with it."""
    plan: Plan
    at: dict[int, Position] = field(init=False)
    segments: list[Segment] = field(init=False)

    def __post_init__(self) -> None:
        self.at = positions_of(self.plan)
        self.segments = segments_of(self.plan, self.at)

    @cached_property
    def boxes(self) -> Boxes:
        return Boxes([(it.a, it.b) for it in self.segments])

    @cached_property
    def broken(self) -> tuple[list[Place], bool]:
        """All places that break V3 and V4, and whether the search was cut short."""
        places, was_cut = crossings(self.segments, self.at, self.boxes)
        return same_places(self.at) + places, was_cut

    @cached_property
    def fans(self) -> dict[int, Fan]:
        return fans_of(self.plan.strings.values(), self.at)

    def segments_at(self, points: set[int]) -> list[Segment]:
        """The strings that have one of these points."""
        numbers = {half.string for point in points for half in self.fans.get(point, [])}
        return [it for it in self.segments if it.number in numbers]

    @cached_property
    def misfits(self) -> list[Misfit]:
        return misfits(self.fans)


# ---- Slips of the pen

def slips_of(value: int) -> Iterator[int]:
    """The numbers of which this one may be a slip, some of them twice."""
    digits = str(abs(value))
    sign = -1 if value < 0 else 1
    texts = [digits[:i] + digit + digits[i + 1:] for i in range(len(digits)) for digit in '0123456789']
    texts += [digits[:i] + digits[i + 1] + digits[i] + digits[i + 2:] for i in range(len(digits) - 1)]
    texts += [digits[:i] + digits[i + 1:] for i in range(len(digits)) if len(digits) > 1]
    texts += [digits[:i] + digit + digits[i:] for i in range(len(digits) + 1) for digit in '0123456789']
    yield from (sign * int(it) for it in texts)
    yield -value


def slips_at(position: Position) -> Iterator[Slip]:
    """The positions of which this one may be a slip."""
    x, y = position
    for before in sorted(set(slips_of(x)) - {x}):
        yield Slip('x', str(x), str(before), (before, y))
    for before in sorted(set(slips_of(y)) - {y}):
        yield Slip('y', str(y), str(before), (x, before))
    yield Slip('x and y', f'{x} and {y}', f'{y} and {x}', (y, x))


# ---- Whether a point would fit elsewhere

class Surroundings:
    """What is near to where a point may have been: round its neighbours, as far again as they lie apart."""

    def __init__(self, geometry: Geometry, point: int) -> None:
        self.geometry, self.point = geometry, point
        self.fan = geometry.fans.get(point, [])
        far = [geometry.at[half.far] for half in self.fan] or [geometry.at[point]]
        low = min(x for x, _ in far), min(y for _, y in far)
        high = max(x for x, _ in far), max(y for _, y in far)
        size = max(high[0] - low[0], high[1] - low[1], 1)
        self.low, self.high = (low[0] - size, low[1] - size), (high[0] + size, high[1] + size)
        near = [geometry.segments[i] for i in geometry.boxes.near(self.low, self.high)]
        self.others = [it for it in near if point not in (it.first, it.second)]
        self.places = {it for number, it in geometry.at.items() if number != point and self.has(it)}

    def has(self, position: Position) -> bool:
        return self.low[0] <= position[0] <= self.high[0] and self.low[1] <= position[1] <= self.high[1]

    def fits(self, position: Position) -> bool:
        """Whether the point could lie there: no string of it crosses one, and the faces round it agree."""
        if not self.has(position) or position in self.places:
            return False
        at = self.geometry.at
        lines = [Segment(half.string, self.point, half.far, position, at[half.far]) for half in self.fan]
        if any(meetings(line, other) for line in lines for other in self.others):
            return False
        if any(is_on(position, it.a, it.b) for it in self.others):
            return False
        if any(is_on(it, line.a, line.b) and it not in (line.a, line.b) for line in lines for it in self.places):
            return False
        return not any(self.gaps_with(position, point) for point in [self.point, *{half.far for half in self.fan}])

    def gaps_with(self, position: Position, point: int) -> bool:
        """Whether faces round a point disagree where ours lies there."""
        moved = {**{half.far: self.geometry.at[half.far] for half in self.geometry.fans[point]},
                 point: self.geometry.at[point], self.point: position}
        return bool(gaps(fan_at(point, self.geometry.fans[point], moved)))

    def best_slip(self, weigh: set[int]) -> tuple[int, Slip] | None:
        """Where the point fits, the one that makes the strings of these points shortest, by the sum of their
        squares."""
        if len(self.fan) * len(self.others) > MOST_WORK:
            return None
        fixed = [it for it in self.geometry.segments_at(weigh) if self.point not in (it.first, it.second)]
        other = sum(square_of_distance(it.a, it.b) for it in fixed)
        far = [self.geometry.at[half.far] for half in self.fan]
        found = [(other + sum(square_of_distance(slip.position, it) for it in far), slip)
                 for slip in slips_at(self.geometry.at[self.point]) if self.fits(slip.position)]
        return min(found, key=lambda it: it[0]) if found else None


# ---- The likely points

def likely_points(geometry: Geometry) -> list[Likely]:
    """The points that most likely are wrong, the likeliest first: few points that have most places between them.
    Places at a point on no string don't count, since such a point is wrong by itself."""
    left = [place for place in geometry.broken[0] if all(point in geometry.fans for point in place.points)]
    if not left:
        return [] if geometry.broken[0] else likely_by_faces(geometry)
    total = len(left)
    likely: list[Likely] = []
    while left and len(likely) < MOST_LIKELY:
        counts = Counter(point for place in left for point in place.points)
        most = max(counts.values())
        found = likeliest(geometry, [it for it, count in counts.items() if count == most], left)
        if found is None:
            break
        likely.append(found.of(most, total))
        left = [it for it in left if found.point not in it.points]
    return likely if 2 * len(left) <= total else []  # Else a few points aren't what is wrong.


def likely_by_faces(geometry: Geometry) -> list[Likely]:
    """The same where nothing crosses and only faces disagree: the one point that has to do with all misfits."""
    found = geometry.misfits
    common = frozenset.intersection(*(it.points() for it in found)) if found else frozenset()
    best = likeliest(geometry, sorted(common), []) if common else None
    return [best.of(len(found), len(found))] if best and best.slip else []


def likeliest(geometry: Geometry, tied: list[int], places: list[Place]) -> Likely | None:
    """Of points that have to do with as many places, the one that fits best elsewhere, or else the one that has most
    of its strings in them, where that is one alone."""
    broken = {number for place in places for number in place.strings}

    def part(point: int) -> float:
        strings = {half.string for half in geometry.fans.get(point, [])}
        return len(strings & broken) / max(1, len(strings))

    tied = sorted(tied, key=lambda it: (-part(it), it))[:MOST_TIED]
    found = [(*best, point) for point in tied if (best := Surroundings(geometry, point).best_slip(set(tied)))]
    if not found:
        return Likely(tied[0], 0, 0, None) if len(tied) == 1 or part(tied[0]) > part(tied[1]) else None
    (_, slip, point), *others = sorted(found, key=lambda it: it[0])
    return Likely(point, 0, 0, slip, tuple((other, its) for _, its, other in others[:MOST_OTHERS]))
