"""The faces of a network of pieces, and which rows go round each of them.

Halves are numbered: 2k leads along piece k from its first point to its second, 2k + 1 back. A cycle is a list of
halves that has a face to its left; a face is named by the cycle round it, and the outside by OUTSIDE.
"""
from __future__ import annotations

import math
from bisect import bisect_right
from dataclasses import dataclass
from fractions import Fraction

from lib.exact import Position, compare_directions, counterclockwise
from lib.importing.noding import Cell, Piece, cells_of
from lib.importing.rings import Windings

OUTSIDE = -1
UNKNOWN = -2


class Fault(Exception):
    """The importer contradicts itself: a fault of its own."""


@dataclass
class Hit:
    """Where a ray to the west meets a half that has the east to its left."""
    at: Fraction
    lean: Fraction
    half: int


class Faces:
    """The cycles of a network: `doubled` areas, `windings` of the rows round them, and the `face` of each."""

    def __init__(self, points: list[Position], sides: dict[Piece, Windings]) -> None:
        self.points = points
        self.pieces = list(sides)
        self.differences = list(sides.values())
        self.origin = [it for piece in self.pieces for it in piece]
        self.cycle_of = [UNKNOWN] * len(self.origin)
        self.cycles: list[list[int]] = []
        self.doubled: list[int] = []
        self.find_cycles(self.followers())
        self.face = [UNKNOWN] * len(self.cycles)
        self.windings: list[Windings] = [{} for _ in self.cycles]
        self.find_faces()
        self.of_face: dict[int, list[int]] = {}
        for cycle, face in enumerate(self.face):
            self.of_face.setdefault(face, []).append(cycle)

    # -- Cycles

    def followers(self) -> list[int]:
        """Which half follows each: at its end the next one to the right of the way back."""
        origin, points = self.origin, self.points
        leaving: dict[int, list[int]] = {}
        for half, point in enumerate(origin):
            leaving.setdefault(point, []).append(half)
        follower = [0] * len(origin)
        for point, halves in leaving.items():
            if len(halves) > 2:
                halves = self.around(points[point], halves)
            for before, half in zip(halves, halves[1:] + halves[:1]):
                follower[half ^ 1] = before
        return follower

    def around(self, at: Position, halves: list[int]) -> list[int]:
        """Halves that leave a point, counterclockwise: by angles first, which is exact where neighbours agree
        exactly."""
        x, y = at
        ends = [self.points[self.origin[half ^ 1]] for half in halves]
        ways = sorted((math.atan2(v - y, u - x) % (2 * math.pi), (u - x, v - y), half)
                      for (u, v), half in zip(ends, halves))
        if all(compare_directions(a[1], b[1]) < 0 for a, b in zip(ways, ways[1:])):
            return [half for _, _, half in ways]
        return counterclockwise(at, halves, lambda half: self.points[self.origin[half ^ 1]])

    def find_cycles(self, follower: list[int]) -> None:
        """Follows the halves round."""
        for first in range(len(follower)):
            if self.cycle_of[first] == UNKNOWN:
                cycle, half = [], first
                while self.cycle_of[half] == UNKNOWN:
                    self.cycle_of[half] = len(self.cycles)
                    cycle.append(half)
                    half = follower[half]
                self.cycles.append(cycle)
                self.doubled.append(self.doubled_of(cycle))

    def doubled_of(self, cycle: list[int]) -> int:
        """Twice the signed area within a cycle."""
        ring = [self.points[self.origin[half]] for half in cycle]
        x, y = ring[0]
        return sum((a[0] - x) * (b[1] - y) - (a[1] - y) * (b[0] - x) for a, b in zip(ring, ring[1:]))

    # -- Faces

    def find_faces(self) -> None:
        """Tells each cycle's face and who goes round it, from the outside in."""
        parts, outer = self.parts()
        holders = self.holders(outer, [self.most_western(part) for part in parts])
        inside: dict[int, list[int]] = {}
        for part, cycle in enumerate(outer):
            inside.setdefault(holders.get(part, OUTSIDE), []).append(cycle)
        ready = [(cycle, OUTSIDE) for cycle in inside.get(OUTSIDE, ())]
        while ready:
            cycle, holder = ready.pop()
            self.face[cycle] = holder
            self.windings[cycle] = {} if holder == OUTSIDE else self.windings[holder]
            for found in self.spread(cycle):
                ready += [(it, found) for it in inside.get(found, ())]
        if UNKNOWN in self.face:
            raise Fault('a face isn\'t reached from the outside')

    def parts(self) -> tuple[list[list[int]], list[int]]:
        """The connected parts of the network, each as its cycles, and the cycle round each."""
        part_of = [UNKNOWN] * len(self.cycles)
        parts: list[list[int]] = []
        outer: list[int] = []
        for first in range(len(self.cycles)):
            if part_of[first] == UNKNOWN:
                part_of[first], part = len(parts), [first]
                for cycle in part:  # It grows meanwhile.
                    for half in self.cycles[cycle]:
                        other = self.cycle_of[half ^ 1]
                        if part_of[other] == UNKNOWN:
                            part_of[other] = len(parts)
                            part.append(other)
                round_it = [it for it in part if self.doubled[it] <= 0]
                if len(round_it) != 1:
                    raise Fault('a part of the network has not one cycle round it')
                parts.append(part)
                outer += round_it
        return parts, outer

    def most_western(self, part: list[int]) -> Position:
        """The most western corner of a part of the network, the most southern one of several."""
        return min(self.points[self.origin[half]] for cycle in part for half in self.cycles[cycle])

    def holders(self, outer: list[int], western: list[Position]) -> dict[int, int]:
        """The cycle whose face each part lies in, where it isn't the outside: by a ray from its most western
        point."""
        if len(outer) == 1:
            return {}
        cells = Cells(self.points, self.pieces)
        hits = {part: cells.first_to_the_west(at) for part, at in enumerate(western)}
        found = {part: self.cycle_of[hit.half] for part, hit in hits.items() if hit}
        # The nearest half may be of a part's outer cycle: then both parts lie in one face.
        part_of_outer = {cycle: part for part, cycle in enumerate(outer)}
        for part in list(found):
            seen = {part}
            while found.get(part) in part_of_outer:
                beside = part_of_outer[found[part]]
                if beside in seen:
                    raise Fault('parts of the network lie in each other')
                seen.add(beside)
                if beside in found:
                    found[part] = found[beside]
                else:
                    del found[part]
        return found

    def spread(self, first: int) -> list[int]:
        """From a cycle that is known to all of its part. Answers these others, whose faces are their own."""
        found, known = [], [first]
        for cycle in known:  # It grows meanwhile.
            for half in self.cycles[cycle]:
                other = self.cycle_of[half ^ 1]
                if self.face[other] == UNKNOWN:
                    self.face[other] = other
                    self.windings[other] = self.across(self.windings[cycle], half)
                    known.append(other)
                    found.append(other)
        return found

    def across(self, windings: Windings, half: int) -> Windings:
        """The windings on the right of a half, by those on its left."""
        other = dict(windings)
        for row, more in self.differences[half >> 1].items():
            count = other.get(row, 0) + (more if half & 1 else -more)
            if count:
                other[row] = count
            else:
                other.pop(row, None)
        return other

    # -- Checks, and what is asked

    def check(self, covered: list[int]) -> None:
        """Raises Fault where a piece's two faces don't differ as its rows say, or a row's rings don't cover its
        faces."""
        for place in range(len(self.pieces)):
            left, right = self.cycle_of[2 * place], self.cycle_of[2 * place + 1]
            if self.across(self.windings[left], 2 * place) != self.windings[right]:
                raise Fault('two faces don\'t differ as the piece between them says')
        sums = [0] * len(covered)
        for face, cycles in self.of_face.items():
            if face != OUTSIDE:
                doubled = sum(self.doubled[it] for it in cycles)
                for row, count in self.windings[face].items():
                    sums[row] += count * doubled
        if sums != covered:
            raise Fault('faces don\'t add up to what rows cover')

    def doubled_face(self, face: int) -> int:
        """Twice the area of a face, holes left out."""
        return sum(self.doubled[it] for it in self.of_face[face])

    def length(self, half: int) -> float:
        """How long a half is, in millimetres."""
        return math.dist(self.points[self.origin[half]], self.points[self.origin[half ^ 1]])

    def border(self, face: int) -> dict[int, float]:
        """How long the border of a face with each other face is, in millimetres."""
        lengths: dict[int, float] = {}
        for cycle in self.of_face[face]:
            for half in self.cycles[cycle]:
                other = self.face[self.cycle_of[half ^ 1]]
                lengths[other] = lengths.get(other, 0) + self.length(half)
        return lengths


class Cells:
    """Pieces by the cells that they meet, to be looked up to the west."""

    def __init__(self, points: list[Position], pieces: list[Piece]) -> None:
        self.points, self.pieces = points, pieces
        total = sum(math.dist(points[u], points[v]) for u, v in pieces)
        self.size = int(total / len(pieces) * 1.5) + 1
        self.at: dict[Cell, list[int]] = {}
        for place, (u, v) in enumerate(pieces):
            for cell in cells_of(points[u], points[v], self.size, 0):
                self.at.setdefault(cell, []).append(place)
        self.columns: dict[int, list[int]] = {}
        for column, line in sorted(self.at):
            self.columns.setdefault(line, []).append(column)

    def first_to_the_west(self, q: Position) -> Hit | None:
        """The first half to the west that leads by the height of q and has the east to its left. A ray just above q
        is meant, so of several that leave one point the one counts that leans most to the east."""
        line = q[1] // self.size
        columns = self.columns.get(line, [])
        best: Hit | None = None
        for column in reversed(columns[:bisect_right(columns, q[0] // self.size)]):
            for place in self.at[column, line]:
                hit = self.hit(place, q)
                if hit and (best is None or (hit.at, hit.lean) > (best.at, best.lean)):
                    best = hit
            if best is not None and best.at >= column * self.size:
                return best
        return best

    def hit(self, place: int, q: Position) -> Hit | None:
        """Where the ray from q to the west meets a piece, or None."""
        (ax, ay), (bx, by) = (self.points[it] for it in self.pieces[place])
        if (ay <= q[1]) == (by <= q[1]) or (ax >= q[0] and bx >= q[0]):
            return None
        at = ax + Fraction((bx - ax) * (q[1] - ay), by - ay)
        # Of a half that leads down the east is on its left.
        return Hit(at, Fraction(bx - ax, by - ay), 2 * place + (1 if by > ay else 0)) if at < q[0] else None
