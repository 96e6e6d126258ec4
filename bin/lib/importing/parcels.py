"""Which parcel each face becomes. What is one row's ground, once, has the row's number, or is a further part of it;
what is more than one row's, or nobody's, or a row goes round otherwise than once, is a parcel of its own, and a
finding.
"""
from __future__ import annotations

from dataclasses import dataclass, field

from lib.exact import Position
from lib.importing.common import GREATEST, MOST_BYTES, Refused, clipped
from lib.importing.faces import OUTSIDE, Faces
from lib.importing.rows import Finding, Row

PART, OVERLAP, GAP, HOLE, CROSSING, COVERED = 'part', 'overlap', 'gap', 'hole', 'crossing', 'covered'


@dataclass
class Parcel:
    """A parcel of the plan: its face, its kind ('' where it is a row's own ground) and the rows that cover it."""
    number: int
    label: str
    face: int
    kind: str = ''
    rows: list[int] = field(default_factory=list)
    source: str = ''


@dataclass
class Merger:
    """A narrow parcel that may be merged with a neighbour."""
    kept: int
    ended: int
    width: float


class Parcels:
    """The parcels of a network, in order: those of rows, further parts, and the others."""

    def __init__(self, faces: Faces, rows: list[Row], findings: list[Finding]) -> None:
        self.faces, self.rows, self.findings = faces, rows, findings
        self.parcels: list[Parcel] = []
        self.greatest = max(row.number for row in rows)
        self.doubled = {face: faces.doubled_face(face) for face in faces.of_face if face != OUTSIDE}
        own: list[list[int]] = [[] for _ in rows]
        other = []
        for face in self.doubled:
            windings = faces.windings[face]
            if len(windings) == 1 and 1 in windings.values():
                own[next(iter(windings))].append(face)
            else:
                other.append(face)
        parts = [it for place in range(len(rows)) for it in self.add_row(place, own[place])]
        for place, number, count, face in parts:
            self.add_part(place, number, count, face)
        self.number_of = {it.face: it.number for it in self.parcels} | {OUTSIDE: 0}
        for face in other:
            self.add_other(face)

    # -- Parcels

    def fresh_number(self) -> int:
        """A number above all others. Raises Refused where there is none."""
        if self.greatest >= GREATEST:
            raise Refused(f'a number above {self.greatest} is wanted for what isn\'t one row\'s ground, and there '
                          'is none: leave --number out and give the column as --label')
        self.greatest += 1
        return self.greatest

    def add_row(self, place: int, faces: list[int]) -> list[tuple[int, int, int, int]]:
        """The largest face of a row is its parcel. Answers its other parts: the row, which of how many it is, the
        face."""
        row = self.rows[place]
        faces = sorted(faces, key=lambda face: -self.doubled[face])
        if faces:
            self.parcels.append(Parcel(row.number, row.label, faces[0], '', [place], row.source))
        elif row.parts:
            self.findings.append(Finding(COVERED, [row.number], row.place(),
                                         'no ground is left to this row alone: it has no parcel with its number'))
        return [(place, number, len(faces), face) for number, face in enumerate(faces[1:], 2)]

    def add_part(self, place: int, number: int, count: int, face: int) -> None:
        """Adds a further part of a row."""
        row = self.rows[place]
        suffix = f' (part {number} of {count})'
        label = clipped(row.label, MOST_BYTES - len(suffix)) + suffix
        self.add(Parcel(self.fresh_number(), label, face, PART, [place], row.source), [row.number],
                 f'part {number} of {count} of {row.number} is a parcel of its own')

    def add_other(self, face: int) -> None:
        """Adds what isn't one row's ground, once."""
        windings = self.faces.windings[face]
        places = sorted(windings)
        numbers = [self.rows[it].number for it in places]
        kind = OVERLAP
        label = f'overlap of {words(numbers)}'
        if not windings:
            others = [it for it in self.faces.border(face) if it != OUTSIDE]
            beside = {it for other in others for it in self.faces.windings[other]}
            numbers = sorted(self.rows[it].number for it in beside)
            kind = HOLE if len(numbers) == 1 else GAP
            label = f'hole in {words(numbers)}' if kind == HOLE else f'gap between {words(numbers)}'
        elif any(count != 1 for count in windings.values()):
            odd = [self.rows[it].number for it in places if windings[it] != 1]
            even = [it for it in numbers if it not in odd]
            kind, numbers = CROSSING, odd + even
            label = f'self-crossing of {words(odd)}' + (f' over {words(even)}' if even else '')
        parcel = Parcel(self.fresh_number(), clipped(label), face, kind, places)
        self.number_of[face] = parcel.number
        self.add(parcel, numbers, label)

    def add(self, parcel: Parcel, numbers: list[int], text: str) -> None:
        """Adds a parcel that is a finding."""
        self.parcels.append(parcel)
        self.findings.append(Finding(parcel.kind, [parcel.number, *numbers], self.corner(parcel.face), text,
                                     self.doubled[parcel.face], self.width(parcel.face)))

    # -- What is asked

    def corner(self, face: int) -> Position:
        """The most western corner of a face."""
        return min(self.faces.points[self.faces.origin[half]] for half in self.faces.cycles[face])

    def width(self, face: int) -> float:
        """How wide a face is on the average, in millimetres: its area by half its border, which is right of a
        sliver."""
        return self.doubled[face] / sum(self.faces.border(face).values())

    def mergers(self, most: float) -> list[Merger]:
        """The gaps, overlaps and crossings that are not wider than this, the narrowest first, each with the
        neighbour that has the longest border with it: of an overlap one that covers it."""
        found = []
        for parcel in self.parcels:
            if parcel.kind in ('', PART):
                continue
            width = self.width(parcel.face)
            beside = {face: length for face, length in self.faces.border(parcel.face).items() if face != OUTSIDE}
            covering = {face: length for face, length in beside.items()
                        if set(self.faces.windings[face]) & set(parcel.rows)}
            if width <= most and beside:
                best = max((length, -self.number_of[face]) for face, length in (covering or beside).items())
                found.append(Merger(-best[1], parcel.number, width))
        return sorted(found, key=lambda it: (it.width, it.ended))


def words(numbers: list[int]) -> str:
    """Numbers with spaces between them."""
    return ' '.join(map(str, numbers))
