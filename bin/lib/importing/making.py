"""A plan of a layer: all steps, from rounding to the plan's records."""
from __future__ import annotations

import math
from collections.abc import Callable
from dataclasses import dataclass

from lib.exact import Position
from lib.importing.common import DISTRICTS, MOST_ROWS, MOST_STRINGS, Refused
from lib.importing.faces import Faces
from lib.importing.marks import Mark, numbers_of_points
from lib.importing.noding import Pieces
from lib.importing.open_gaps import open_gaps
from lib.importing.parcels import CROSSING, COVERED, OVERLAP, PART, Parcels
from lib.importing.rings import Extent, Figures, borders_of, bounds_of, extent_of, weld_rows
from lib.importing.rows import Finding, Layer, Row
from lib.records import record_text

SQUARE = 2  # Of the tolerance where none is given: a side, and a vertex on it, move by √2/2 when they are rounded.
SLIVER = 100.0  # Millimetres that a sliver is wide at most, where nothing else is given.
Tell = Callable[[str], None]


@dataclass
class Account:
    """A row's ground in square millimetres: by its source, in the parcel with its number, in further parts, in
    overlaps and crossings as often as it goes round them, and what is left, which is what moves made of it."""
    row: Row
    source: float = 0.0
    own: float = 0.0
    parts: float = 0.0
    shared: float = 0.0
    bound: float = 0.0

    @property
    def rest(self) -> float:
        """Square millimetres of the source that the plan doesn't have, or has too much."""
        return self.source - self.own - self.parts - self.shared


@dataclass
class Made:
    """A plan, up to its `open`, and what is told of it. `doubled` are the areas that the program has to tell."""
    plan: bytes
    doubled: dict[int, int]
    parcels: Parcels
    accounts: list[Account]
    findings: list[Finding]
    figures: Figures


def square_of(tolerance: float | None) -> int:
    """The square of the tolerance, in whole square millimetres."""
    if tolerance is None:
        return SQUARE
    if not 1 <= tolerance <= 1_000_000:
        raise Refused('--tolerance is from 1 mm, since positions are whole millimetres, to 1000000')
    return math.floor(tolerance ** 2 + 1e-9)


def make(layer: Layer, square: int, marks: list[Mark], tell: Tell, sliver: float = SLIVER) -> Made:
    """Makes a plan of a layer, by the square of the tolerance. Raises Refused where there is none."""
    figures = Figures()
    findings = list(layer.findings)
    goes = weld_rows(layer.rows, square, figures)
    tell('vertices rounded')
    pieces = Pieces(square)
    bounds = bounds_of(layer.rows, goes, pieces, figures, findings)
    if not pieces.alive:
        raise Refused('no ring has an area: at this tolerance there is nothing to make parcels of')
    pieces.cut()
    figures.put_in, figures.crossings = pieces.put_in, pieces.crossings
    tell('borders cut')
    borders = borders_of(layer.rows, bounds, pieces, figures, findings)
    if not borders.sides:
        raise Refused('no ring has an area: at this tolerance there is nothing to make parcels of')
    faces = Faces(pieces.points, borders.sides)
    faces.check(borders.covered)
    tell('faces found')
    parcels = Parcels(faces, layer.rows, findings)
    findings += open_gaps(faces, layer.rows, parcels.width, sliver)
    numbers = numbers_of_points(used_points(faces), pieces.points, marks, square, findings)
    check_limits(parcels, faces, numbers, figures)
    accounts = accounts_of(layer.rows, parcels, figures, findings)
    doubled = {it.number: parcels.doubled[it.face] for it in parcels.parcels}
    return Made(plan_of(layer.text, parcels, faces, numbers), doubled, parcels, accounts, findings, figures)


def used_points(faces: Faces) -> list[int]:
    """The points on strings, in order of use."""
    return list(dict.fromkeys(faces.origin))


def check_limits(parcels: Parcels, faces: Faces, numbers: dict[int, int], figures: Figures) -> None:
    """Raises Refused where the plan would pass a limit."""
    figures.points, figures.strings, figures.parcels = len(numbers), len(faces.pieces), len(parcels.parcels)
    for count, most, what in ((figures.points, MOST_ROWS, 'points'), (figures.strings, MOST_STRINGS, 'strings'),
                              (figures.parcels, MOST_ROWS, 'parcels')):
        if count > most:
            raise Refused(f'there would be {count} {what}, and a plan has {most} at most. {DISTRICTS}')


# ---- Areas

def accounts_of(rows: list[Row], parcels: Parcels, figures: Figures, findings: list[Finding]) -> list[Account]:
    """What became of each row's area. More than its border's moves can have made is a finding."""
    extents: list[Extent] = [extent_of(row) for row in rows]
    move = figures.move + figures.bend
    accounts = [Account(row, it.area, bound=it.border * move + it.vertices * move * move + 1)
                for row, it in zip(rows, extents)]
    for parcel in parcels.parcels:
        area = parcels.doubled[parcel.face] / 2
        for place in parcel.rows:
            account = accounts[place]
            if parcel.kind in (OVERLAP, CROSSING):
                account.shared += parcels.faces.windings[parcel.face][place] * area
            elif parcel.kind == PART:
                account.parts += area
            else:
                account.own += area
    for account in accounts:
        if abs(account.rest) > account.bound:
            findings.append(Finding('area', [account.row.number], account.row.place(),
                                    'the area changed by more than moves can have made', 2 * account.rest))
    return accounts


# ---- The plan

def plan_of(text: str, parcels: Parcels, faces: Faces, numbers: dict[int, int]) -> bytes:
    """The plan's records, up to `open`. Source 1 is the layer; parcels have a further one where their row names
    one."""
    sources = {text: 1}
    for parcel in parcels.parcels:
        if parcel.source:
            sources.setdefault(parcel.source, len(sources) + 1)
    if len(sources) > MOST_ROWS:
        raise Refused(f'there are {len(sources)} sources, and a plan has {MOST_ROWS} at most: leave --source out')
    lines = [record_text(['plan', 2])]
    lines += [record_text(['source', number, it]) for it, number in sources.items()]
    lines += [point_line(number, faces.points[place]) for place, number in numbers.items()]
    for parcel in parcels.parcels:
        second = sources.get(parcel.source, 1)
        lines.append(record_text(['parcel', parcel.number, parcel.label, '1' if second == 1 else f'1 {second}']))
    number_of = parcels.number_of
    for place, (u, v) in enumerate(faces.pieces):
        left, right = (number_of[faces.face[faces.cycle_of[half]]] for half in (2 * place, 2 * place + 1))
        lines.append(b'string,%d,%d,%d,%d,%d,1\n' % (place + 1, numbers[u], numbers[v], left, right))
    return b''.join(lines) + record_text(['open'])


def point_line(number: int, position: Position) -> bytes:
    """A point's record."""
    return b'point,%d,%d,%d,1,,\n' % (number, *position)
