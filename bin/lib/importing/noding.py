"""Pieces of border between points, cut until no two cross and no point lies on one: snap rounding in whole
millimetres.

First a point within the tolerance of a piece, between its ends, is put into it; once, by the pieces as they were.
Then a pixel of 1 mm lies round each point and each rounded crossing, and a piece that passes a pixel is led through
its middle (Hobby 1999; Guibas and Marimont 1998). That is done again with what has changed, until nothing changes.
"""
from __future__ import annotations

from collections.abc import Callable, Iterable

from lib.exact import Position, orientation, square_of_distance
from lib.importing.common import Refused
from lib.importing.weld import reach_of

Piece = tuple[int, int]  # Two places in `points`, the lesser first.
Cell = tuple[int, int]
Test = Callable[[Position, Position, Position], 'int | None']
MOST_ROUNDS = 30


# ---- Tests. Each answers how far along the piece from a to b the point p lies, as an inner product, or None.

def near(square: int) -> Test:
    """Whether p lies between the ends of ab, and at a distance whose square is `square` at most."""
    def test(a: Position, b: Position, p: Position) -> int | None:
        dx, dy, ex, ey = b[0] - a[0], b[1] - a[1], p[0] - a[0], p[1] - a[1]
        along = dx * ex + dy * ey
        if along <= 0:
            return None
        whole = dx * dx + dy * dy
        if along >= whole:
            return None
        away = dx * ey - dy * ex
        return along if away * away <= square * whole else None
    return test


def passes(a: Position, b: Position, p: Position) -> int | None:
    """Whether ab passes the pixel of p: a millimetre each way, its left and its lower border included, its right and
    upper one not. The test is that of the Java Topology Suite, in whole numbers."""
    along = (b[0] - a[0]) * (p[0] - a[0]) + (b[1] - a[1]) * (p[1] - a[1])
    if a[0] > b[0]:
        a, b = b, a
    ax, ay, bx, by = 2 * a[0], 2 * a[1], 2 * b[0], 2 * b[1]
    left, right, low, high = 2 * p[0] - 1, 2 * p[0] + 1, 2 * p[1] - 1, 2 * p[1] + 1
    if ax >= right or bx < left or min(ay, by) >= high or max(ay, by) < low:
        return None
    if ax == bx or ay == by:
        return along
    return along if passes_corners((ax, ay), (bx, by), (left, right, low, high)) else None


def passes_corners(a: Position, b: Position, box: tuple[int, int, int, int]) -> bool:
    """The same of a slanting piece whose box meets the pixel's, a to the west, by the sides on which the corners
    lie."""
    left, right, low, high = box
    rises = a[1] < b[1]
    upper_left = orientation(a, b, (left, high))
    if upper_left == 0:
        return not rises
    upper_right = orientation(a, b, (right, high))
    if upper_right == 0:
        return rises
    if (upper_left > 0) != (upper_right > 0):
        return True
    lower_left = orientation(a, b, (left, low))
    if lower_left == 0 or (lower_left > 0) != (upper_left > 0):
        return True
    lower_right = orientation(a, b, (right, low))
    if lower_right == 0:
        return not rises
    return (lower_right > 0) != (lower_left > 0)


def crossing_of(a: Position, b: Position, c: Position, d: Position) -> Position | None:
    """Where ab and cd cross, inside both, to the nearest whole millimetres, the greater of two; or None."""
    of_c, of_d = orientation(a, b, c), orientation(a, b, d)
    if of_c == 0 or of_d == 0 or (of_c > 0) == (of_d > 0):
        return None
    of_a, of_b = orientation(c, d, a), orientation(c, d, b)
    if of_a == 0 or of_b == 0 or (of_a > 0) == (of_b > 0):
        return None
    whole = of_c - of_d
    return ((2 * (c[0] * whole + (d[0] - c[0]) * of_c) + whole) // (2 * whole),
            (2 * (c[1] * whole + (d[1] - c[1]) * of_c) + whole) // (2 * whole))


# ---- Cells

def cells_of(a: Position, b: Position, size: int, margin: int) -> list[Cell]:
    """The cells that ab meets when it is made thicker by the margin, and perhaps a few more."""
    if a[1] > b[1]:
        a, b = b, a
    (ax, ay), (bx, by) = a, b
    first, last = (ay - margin) // size, (by + margin) // size
    west, east = (min(ax, bx) - margin) // size, (max(ax, bx) + margin) // size
    if first == last or west == east or ay == by or (last - first < 2 and east - west < 2):
        return [(column, line) for line in range(first, last + 1) for column in range(west, east + 1)]
    rise, found = by - ay, []
    for line in range(first, last + 1):
        low, high = max(ay, line * size - margin), min(by, (line + 1) * size + margin)
        u, v = ax + (bx - ax) * (low - ay) // rise, ax + (bx - ax) * (high - ay) // rise
        if u > v:
            u, v = v, u
        found += [(column, line) for column in range((u - margin - 1) // size, (v + margin + 1) // size + 1)]
    return found


# ---- Pieces

class Pieces:
    """Points and pieces. `alive` are those that stand; the others are led through other points (`ways`)."""

    def __init__(self, square: int) -> None:
        self.square, self.reach = square, reach_of(square)
        self.points: list[Position] = []
        self.index: dict[Position, int] = {}
        self.alive: dict[Piece, None] = {}
        self.ways: dict[Piece, list[int]] = {}
        self.put_in = self.crossings = self.rounds = 0
        self.size = 0
        self.points_in: dict[Cell, list[int]] = {}
        self.pieces_in: dict[Cell, list[Piece]] = {}

    def point(self, position: Position) -> int:
        """The point there, a new one where there is none."""
        place = self.index.get(position)
        if place is None:
            place = self.index[position] = len(self.points)
            self.points.append(position)
            if self.size:
                self.points_in.setdefault((position[0] // self.size, position[1] // self.size), []).append(place)
        return place

    def add(self, first: int, second: int) -> None:
        """Adds a piece, once."""
        self.alive.setdefault((first, second) if first < second else (second, first))

    def way(self, first: int, second: int) -> list[int]:
        """The points of the present way of a piece, from its first point to its second."""
        if ((first, second) if first < second else (second, first)) in self.alive:
            return [first, second]
        way, left = [first], [(first, second)]
        while left:
            u, v = left.pop()
            inner = self.ways.get((u, v) if u < v else (v, u))
            if inner is None:
                way.append(v)
            else:
                ordered = inner if u < v else inner[::-1]
                left.extend(reversed(list(zip(ordered, ordered[1:]))))
        return way

    # -- The steps

    def cut(self) -> None:
        """Cuts all pieces. Raises Refused where that comes to no end."""
        self.make_cells()
        near_ones = self.points_near(self.alive, near(self.square))
        changed = [it for piece, on in near_ones for it in self.lead(piece, on) or [piece]]
        # A piece with no point within the tolerance passes no pixel of a point, so only what was changed is looked
        # at.
        fresh = list(self.alive)
        while fresh:
            self.rounds += 1
            if self.rounds > MOST_ROUNDS:
                raise Refused('the borders don\'t settle at this tolerance: take a smaller one by --tolerance')
            met = dict(self.points_near((it for it in changed if it in self.alive), passes))
            self.add_passing(self.cross(fresh), met)
            fresh = changed = [it for piece, on in met.items() for it in self.lead(piece, on)]

    def make_cells(self) -> None:
        """Puts the points into cells of one and a half times the mean length of the pieces."""
        total = sum(square_of_distance(self.points[u], self.points[v]) ** 0.5 for u, v in self.alive)
        self.size = max(8 * self.reach, int(total / len(self.alive) * 1.5) + 1)
        for place, (x, y) in enumerate(self.points):
            self.points_in.setdefault((x // self.size, y // self.size), []).append(place)

    def points_near(self, pieces: Iterable[Piece], test: Test) -> list[tuple[Piece, dict[int, int]]]:
        """The pieces of these that have points of which the test is true, with these points and how far along they
        lie."""
        points, margin, found = self.points, self.reach, []
        for piece in pieces:
            a, b = points[piece[0]], points[piece[1]]
            west, east = (a[0] - margin, b[0] + margin) if a[0] < b[0] else (b[0] - margin, a[0] + margin)
            south, north = (a[1] - margin, b[1] + margin) if a[1] < b[1] else (b[1] - margin, a[1] + margin)
            on: dict[int, int] = {}
            for cell in cells_of(a, b, self.size, margin):
                for place in self.points_in.get(cell, ()):
                    x, y = points[place]
                    if west <= x <= east and south <= y <= north and place not in piece and place not in on:
                        along = test(a, b, (x, y))
                        if along is not None:
                            on[place] = along
            if on:
                found.append((piece, on))
        return found

    def add_passing(self, new: list[int], met: dict[Piece, dict[int, int]]) -> None:
        """Adds to what is met which pieces pass the pixels of new points."""
        points, size = self.points, self.size
        for place in new:
            p = points[place]
            for piece in self.pieces_in.get((p[0] // size, p[1] // size), ()):
                if piece in self.alive and place not in piece:
                    along = passes(points[piece[0]], points[piece[1]], p)
                    if along is not None:
                        met.setdefault(piece, {})[place] = along

    def cross(self, fresh: list[Piece]) -> list[int]:
        """Puts fresh pieces into their cells, and rounds their crossings with all that are there. Answers the new
        points."""
        points, pieces_in, before = self.points, self.pieces_in, len(self.points)
        for piece in fresh:
            i, j = piece
            a, b = points[i], points[j]
            west, east = (a[0], b[0]) if a[0] < b[0] else (b[0], a[0])
            south, north = (a[1], b[1]) if a[1] < b[1] else (b[1], a[1])
            seen: set[Piece] = set()
            for cell in cells_of(a, b, self.size, self.reach):
                others = pieces_in.setdefault(cell, [])
                for other in others:
                    if i in other or j in other or other in seen:
                        continue
                    c, d = points[other[0]], points[other[1]]
                    if (c[0] < west and d[0] < west) or (c[0] > east and d[0] > east) \
                            or (c[1] < south and d[1] < south) or (c[1] > north and d[1] > north):
                        continue
                    seen.add(other)
                    place = crossing_of(a, b, c, d) if other in self.alive else None
                    if place:
                        self.crossings += 1
                        self.point(place)
                others.append(piece)
        return list(range(before, len(points)))

    def lead(self, piece: Piece, on: dict[int, int]) -> list[Piece]:
        """Leads a piece through the points on it, by how far along they lie, where each part is shorter than the
        whole. Answers the pieces that are new."""
        points, (first, last) = self.points, piece
        a, b = points[first], points[last]
        whole = square_of_distance(a, b)
        inner = [place for _, place in sorted((along, place) for place, along in on.items())
                 if square_of_distance(a, points[place]) < whole and square_of_distance(points[place], b) < whole]
        if any(square_of_distance(points[u], points[v]) >= whole for u, v in zip(inner, inner[1:])):
            del inner[1:]
        if not inner:
            return []
        way = [first, *inner, last]
        self.put_in += len(inner)
        self.ways[piece] = way
        del self.alive[piece]
        parts = [(u, v) if u < v else (v, u) for u, v in zip(way, way[1:])]
        fresh = [it for it in dict.fromkeys(parts) if it not in self.alive and it not in self.ways]
        self.alive.update(dict.fromkeys(fresh))
        return fresh
