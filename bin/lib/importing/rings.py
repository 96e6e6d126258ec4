"""The rings of rows as rings of points, and how often each row goes along each piece of border."""
from __future__ import annotations

import math
from dataclasses import dataclass

from lib.exact import Position, doubled_area
from lib.importing.common import FARTHEST, Refused, mm
from lib.importing.noding import Piece, Pieces
from lib.importing.rows import Finding, Ring, Row
from lib.importing.weld import weld

Windings = dict[int, int]  # By a row's place: how often it goes round more on one side than on another.


@dataclass
class Figures:
    """What is told of an import. Moves are in millimetres."""
    rows: int = 0
    parts: int = 0
    holes: int = 0
    vertices: int = 0
    welded: int = 0  # Positions that went to another one.
    no_length: int = 0  # Sides.
    put_in: int = 0  # Points put into sides.
    crossings: int = 0
    move: float = 0.0  # The largest of a vertex.
    bend: float = 0.0  # The largest of a side.
    points: int = 0
    strings: int = 0
    parcels: int = 0


@dataclass
class Extent:
    """What a row has by its source: square millimetres, millimetres of border, vertices."""
    area: float = 0.0
    border: float = 0.0
    vertices: int = 0


@dataclass
class Bound:
    """A ring of a row, by its points: an outer one counterclockwise, a hole clockwise."""
    row: int
    points: list[int]


def area_of(ring: Ring) -> float:
    """The area of a ring in square millimetres, from its first vertex so that products stay small."""
    x, y = ring[0]
    return abs(math.fsum((a[0] - x) * (b[1] - y) - (a[1] - y) * (b[0] - x) for a, b in zip(ring, ring[1:]))) / 2


def extent_of(row: Row) -> Extent:
    """The outer rings less their holes."""
    extent = Extent()
    for part in row.parts:
        for place, ring in enumerate(part):
            if len(ring) > 2:
                extent.area += area_of(ring) if place == 0 else -area_of(ring)
                extent.border += math.fsum(map(math.dist, ring, ring[1:] + ring[:1]))
                extent.vertices += len(ring)
    return extent


# ---- Rounding

def weld_rows(rows: list[Row], square: int, figures: Figures) -> dict[Position, Position]:
    """Where each rounded vertex goes. Raises Refused where one is off the map."""
    positions: dict[Position, None] = {}
    figures.rows = len(rows)
    for row in rows:
        figures.parts += len(row.parts)
        for part in row.parts:
            figures.holes += max(0, len(part) - 1)
            for ring in part:
                figures.vertices += len(ring)
                positions.update(dict.fromkeys([(math.floor(x + 0.5), math.floor(y + 0.5)) for x, y in ring]))
    if any(abs(x) > FARTHEST or abs(y) > FARTHEST for x, y in positions):
        raise Refused(off_the_map(rows))
    goes = weld(positions, square)
    figures.welded = sum(1 for place, kept in goes.items() if place != kept)
    return goes


def off_the_map(rows: list[Row]) -> str:
    """Which vertex is off the map."""
    far = [(row, x, y) for row in rows for part in row.parts for ring in part for x, y in ring
           if not (abs(x) < FARTHEST + 0.5 and abs(y) < FARTHEST + 0.5)]
    row, x, y = far[0]
    return (f'row {row.row} ({row.number}) has a vertex at {mm(x)} {mm(y)}, more than 10000 km from 0 0, as '
            f'{len(far) - 1} others: a plan goes no farther; take another reference system, or say --unit')


def points_of(ring: Ring, goes: dict[Position, Position], figures: Figures) -> list[Position]:
    """The welded vertices of a ring, sides of no length left out."""
    kept: list[Position] = []
    move = figures.move
    for x, y in ring:
        to = goes[math.floor(x + 0.5), math.floor(y + 0.5)]
        away = math.hypot(to[0] - x, to[1] - y)
        if away > move:
            move = away
        if kept and kept[-1] == to:
            figures.no_length += 1
        else:
            kept.append(to)
    while len(kept) > 1 and kept[0] == kept[-1]:
        figures.no_length += 1
        kept.pop()
    figures.move = move
    return kept


def bounds_of(rows: list[Row], goes: dict[Position, Position], pieces: Pieces, figures: Figures,
              findings: list[Finding]) -> list[Bound]:
    """The rings of all rows as rings of points, whose sides are put among the pieces."""
    bounds = []
    for place, row in enumerate(rows):
        for part in row.parts:
            for number, ring in enumerate(part):
                kept = points_of(ring, goes, figures)
                if len(kept) < 3:
                    if kept:
                        findings.append(Finding('collapsed', [row.number], kept[0],
                                                'a ring fell to a line or a point', 2 * area_of(ring)))
                    continue
                if (doubled_area(kept) < 0) == (number == 0):
                    kept.reverse()
                points = [pieces.point(it) for it in kept]
                bounds.append(Bound(place, points))
                for u, v in zip(points, points[1:] + points[:1]):
                    pieces.add(u, v)
    return bounds


# ---- Windings

@dataclass
class Borders:
    """The pieces along which rows go: for each how often a row goes round more on its left than on its right, and
    twice the area that each row's rings have."""
    sides: dict[Piece, Windings]
    covered: list[int]


def borders_of(rows: list[Row], bounds: list[Bound], pieces: Pieces, figures: Figures,
               findings: list[Finding]) -> Borders:
    """How often each row goes along each piece. Pieces along which nothing differs are left out: spikes, which are
    found, and lines between two parts of a row."""
    sides: dict[Piece, Windings] = {}
    covered = [0] * len(rows)
    for bound in bounds:
        ring: list[int] = []
        for u, v in zip(bound.points, bound.points[1:] + bound.points[:1]):
            way = pieces.way(u, v)
            ring += way[:-1]
            if len(way) > 2:
                figures.bend = max(figures.bend, bend_of([pieces.points[it] for it in way]))
        covered[bound.row] += doubled_area([pieces.points[it] for it in ring])
        for p, q in zip(ring, ring[1:] + ring[:1]):
            piece, way_along = ((p, q), 1) if p < q else ((q, p), -1)
            windings = sides.setdefault(piece, {})
            windings[bound.row] = windings.get(bound.row, 0) + way_along
    for piece, windings in sides.items():
        findings.extend(spike(rows[row], pieces, piece) for row, count in windings.items() if not count)
    kept = {piece: {row: count for row, count in windings.items() if count} for piece, windings in sides.items()}
    return Borders({piece: windings for piece, windings in kept.items() if windings}, covered)


def bend_of(way: list[Position]) -> float:
    """How far the inner points of a way lie from the line between its ends."""
    (ax, ay), (bx, by) = way[0], way[-1]
    length = math.hypot(bx - ax, by - ay)
    return max(abs((bx - ax) * (y - ay) - (by - ay) * (x - ax)) for x, y in way[1:-1]) / length


def spike(row: Row, pieces: Pieces, piece: Piece) -> Finding:
    """What is told of a line along which a row goes to and fro."""
    a, b = (pieces.points[it] for it in piece)
    return Finding('spike', [row.number], a, f'the row goes along this line to and fro, {mm(math.dist(a, b))} m: '
                   'it is left out')
