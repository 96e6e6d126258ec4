"""What answers say: refusals, reports and plans."""
from __future__ import annotations

import re
from collections.abc import Iterator
from typing import NamedTuple

from cadedit._faults import CadeditError, Refused, SyntaxFault

FIELD = re.compile('(?:^|,)(?:"((?:[^"]|"")*)"|([^,"]*))')


class Area(NamedTuple):
    """A parcel's area: `doubled` is twice the area in square millimetres, exactly, `area` in square metres with two
    digits behind the dot, rounded half up."""
    number: int
    label: str
    doubled: int
    area: str


class Ring(NamedTuple):
    """A ring of a face: `kind` is `outer` or `hole`, and `points` are the numbers of its points, with the face to the
    left of the way along them. The way leads on from the last one to the first."""
    kind: str
    points: tuple[int, ...]


class Position(NamedTuple):
    """A place in whole millimetres, x to the east and y to the north."""
    x: int
    y: int


def fault_of(answer: bytes, record: bytes) -> CadeditError:
    """The exception for the answer to a record that was refused, or is none."""
    fields = answer.decode().rstrip('\n').split(',')
    if fields[0] == 'refused':
        return Refused(int(fields[1]), *fields[2:5])
    return SyntaxFault(record.decode(errors='replace').rstrip('\n'))


def rows_of(answer: bytes) -> Iterator[list[str]]:
    """The fields of each record of an answer. A line feed within quotes ends no record."""
    begun = ''
    for line in answer.decode().split('\n'):
        whole = begun + line
        if '"' not in whole:
            yield whole.split(',')
        elif whole.count('"') % 2:
            begun = whole + '\n'
            continue
        else:
            yield [it[1].replace('""', '"') if it[1] is not None else it[2] for it in FIELD.finditer(whole)]
        begun = ''


def areas_of(answer: bytes) -> list[Area]:
    """The records of `areas`, without its end."""
    return [Area(int(row[1]), row[2], int(row[3]), row[4]) for row in rows_of(answer) if row[0] == 'area']


def rings_of(answer: bytes) -> list[Ring]:
    """The records of `outline`, without its end."""
    return [Ring(row[2], tuple(map(int, row[3].split()))) for row in rows_of(answer) if row[0] == 'ring']


def positions_of(plan: bytes) -> dict[int, Position]:
    """Where the points of a plan's text are."""
    return {int(row[1]): Position(int(row[2]), int(row[3])) for row in rows_of(plan) if row[0] == 'point'}
