"""Gaps that are open to the outside, or to a wider gap, and so are no faces of their own: where borders of two rows
lie near to each other with nobody's ground between them."""
from __future__ import annotations

import math
from collections.abc import Callable

from lib.exact import Position, orientation
from lib.importing.faces import OUTSIDE, Faces
from lib.importing.noding import Piece, Pieces
from lib.importing.rows import Finding, Row

OPEN_GAP = 'open-gap'
Rows = frozenset[int]  # By their places.


class OpenBorders:
    """The borders of nobody's ground: of each piece the rows on its other side, and whether nobody's is on its
    left."""

    def __init__(self, faces: Faces, nobodys: set[int], most: float) -> None:
        self.square = max(1, int(most * most))
        self.network = Pieces(self.square)
        self.rows_beside: dict[Piece, Rows] = {}
        self.is_left: dict[Piece, bool] = {}
        self.rows_at: dict[int, Rows] = {}
        for half in range(len(faces.origin)):
            if faces.face[faces.cycle_of[half]] in nobodys:
                rows = Rows(faces.windings[faces.cycle_of[half ^ 1]])
                self.add(faces.points[faces.origin[half]], faces.points[faces.origin[half ^ 1]], rows)

    def add(self, a: Position, b: Position, rows: Rows) -> None:
        """Adds a piece that has nobody's ground on its left."""
        first, second = self.network.point(a), self.network.point(b)
        self.network.add(first, second)
        piece = (first, second) if first < second else (second, first)
        self.rows_beside[piece] = rows
        self.is_left[piece] = first < second
        for point in piece:
            self.rows_at[point] = self.rows_at.get(point, Rows()) | rows

    def level(self, a: Position, b: Position, p: Position) -> int | None:
        """How far along ab the position p lies, its ends included, where it is near enough, or None."""
        dx, dy, ex, ey = b[0] - a[0], b[1] - a[1], p[0] - a[0], p[1] - a[1]
        along, whole, away = dx * ex + dy * ey, dx * dx + dy * dy, dx * ey - dy * ex
        return along if 0 <= along <= whole and away * away <= self.square * whole else None

    def is_across(self, piece: Piece, point: int, along: int) -> bool:
        """Whether a point of other rows lies across nobody's ground. Where it lies level with an end of the piece,
        its rows have no border at that end: else it is an ordinary corner."""
        points, rows = self.network.points, self.rows_at[point]
        a, b = (points[it] for it in piece)
        if rows & self.rows_beside[piece] or (orientation(a, b, points[point]) > 0) != self.is_left[piece]:
            return False
        whole = (b[0] - a[0]) ** 2 + (b[1] - a[1]) ** 2
        level = [end for end, at in zip(piece, (0, whole)) if along == at]
        return not any(rows & self.rows_at[end] for end in level)

    def nearest(self) -> dict[tuple[int, ...], tuple[float, Position]]:
        """For the rows on both hands of each open gap how near their borders come, in millimetres, and where."""
        found: dict[tuple[int, ...], tuple[float, Position]] = {}
        if not self.network.alive:
            return found
        self.network.make_cells()
        points = self.network.points
        for piece, on in self.network.points_near(self.network.alive, self.level):
            a, b = (points[it] for it in piece)
            for point, along in on.items():
                if self.is_across(piece, point, along):
                    away = abs(orientation(a, b, points[point])) / math.dist(a, b)
                    rows = tuple(sorted(self.rows_beside[piece] | self.rows_at[point]))
                    found[rows] = min(found.get(rows, (away, points[point])), (away, points[point]))
        return found


def open_gaps(faces: Faces, rows: list[Row], width: Callable[[int], float], most: float) -> list[Finding]:
    """The open gaps between rows that come nearer than `most` millimetres to each other. Gaps that are not wider on
    the average are found as such."""
    gaps = [face for face in faces.of_face if face != OUTSIDE and not faces.windings[face]]
    nobodys = {OUTSIDE} | {face for face in gaps if width(face) > most}
    found = []
    for places, (away, place) in OpenBorders(faces, nobodys, most).nearest().items():
        numbers = [rows[it].number for it in places]
        who = ' '.join(map(str, numbers))
        text = f'borders of {who} come as near as {away:.1f} mm, and the gap is open: it is no parcel'
        found.append(Finding(OPEN_GAP, numbers, place, text, 0, away))
    return found
