"""What the program `cadview` tells of plans: tables, and what differs between two, as docs/FORMATS.md has them."""
from __future__ import annotations

import csv
import io
import subprocess
import sys

from lib.program import Program

Row = list[str]  # The fields of a record, in the order of its columns.
COLUMNS = {'parcels': ['number', 'label', 'area', 'doubled', 'sources', 'WKT'],
           'strings': ['number', 'from', 'to', 'left', 'right', 'sources', 'WKT'],
           'points': ['number', 'sources', 'WKT'],
           'sources': ['number', 'text'],
           'retired': ['number']}
DIFFERENCE = ['kind', 'number', 'was', 'is']
TRAP = 70  # The status of a program that tells what it shouldn't.


class NotShown(Exception):
    """The program shows nothing of a plan: the status with which it ended, and as text what it said."""

    def __init__(self, status: int, said: str) -> None:
        super().__init__(said or f'cadview ended with status {status}')
        self.status = status


def table(cadview: str, path: str, layer: str) -> list[Row]:
    """The records of a layer by `cadview table`. Raises NotShown."""
    return shown(cadview, ['table', path, '--layer', layer], COLUMNS[layer])


def difference(cadview: str, old: str, new: str) -> list[Row]:
    """The records of what differs by `cadview diff`. Raises NotShown."""
    return shown(cadview, ['diff', old, new], DIFFERENCE)


def shown(cadview: str, words: list[str], columns: list[str]) -> list[Row]:
    """The records that the program at this path writes for these words, their header left out. Raises NotShown."""
    try:
        done = subprocess.run([cadview, *words], capture_output=True, env=Program(cadview).env())
    except OSError as error:
        raise NotShown(TRAP, f'{cadview}: {error.strerror}') from error
    if done.returncode:
        raise NotShown(done.returncode, done.stderr.decode(errors='replace').strip())
    csv.field_size_limit(sys.maxsize)  # A parcel of 5,000 corners has more text than Python reads without this.
    header, *rows = csv.reader(io.StringIO(done.stdout.decode(), newline=''))
    if header != columns:
        raise NotShown(TRAP, f'cadview {words[0]} tells other columns than docs/FORMATS.md has')
    return rows
