"""Jobs whose edits are made beside few and beside many parcels that lie far away, and what is told of the instructions
that they take.

The plan is a block of nine lots, an island with four corners in the middle one, and five points on no string. Lot 5 is
in the middle; coordinates are in millimetres.

    13 ------ 14 ------ 15 ------ 16     30,000
    |    7    |    8    |    9    |
    9 ------- 10 ------ 11 ------ 12     20,000
    |    4    |    5    |    6    |
    5 ------- 6 ------- 7 ------- 8      10,000
    |    1    |    2    |    3    |
    1 ------- 2 ------- 3 ------- 4           0
    0      10,000    20,000    30,000
"""
from __future__ import annotations

import re
from collections.abc import Iterator, Sequence
from dataclasses import dataclass

from lib.forms import FIELDS

SIDE, APART = 10_000, 1_000_000  # Millimetres: of a lot and a far square, and from one far square to the next.
WIDE, ROW = 3, 100  # Lots of the block's side, and far squares in a row.
FIRST_FAR = 1_000  # The number of a far square's first point; those of the block are lower.
ISLAND = (16_000, 11_000), (18_000, 11_000), (18_000, 13_000), (16_000, 13_000)
FREE = (12_000, 15_000), (15_000, 18_000), (22_000, 12_000), (25_000, 12_500), (23_000, 16_000)
COLLECTED = re.compile(r'^==\d+== Collected : (\d+)$', re.M)
UNDO = 'undo'

# Each kind's round of records, over and over: after a round the map is as it was. No round divides the outside or splits
# a side there: these go through the rings of that face by what they do, and each far square is one (docs/SPEED.md).
DIVIDE = 'divide,5,6 11,51,11,New,1'
KINDS = {
    'move a corner of four lots': ['move,6,10500,10200', UNDO],
    "move an island's corner": ['move,23,18100,13200', UNDO],
    'move a corner at the outside': ['move,2,10500,-300', UNDO],
    'divide': [DIVIDE, UNDO],
    'divide along points': ['divide,5,6 31 32 11,51 52 53,11,New,1', UNDO],
    'divide, and do it again': [DIVIDE, UNDO, 'redo', UNDO],
    'merge two lots': ['merge,5,6', UNDO],
    'merge a lot and its island': ['merge,5,10', UNDO],
    'merge lots at the outside': ['merge,1,2', UNDO],
    'split': ['split,5,51,15000,9900,52,53', UNDO],
    'join': ['join,24,51', UNDO],
    'enclose': ['enclose,6,33 34 35,51 52 53,11,New,1', UNDO],
    'add-point': ['add-point,51,25000,18000', UNDO],
    'drop-point': ['drop-point,33', UNDO],
}
SMALL, TIMES = ('add-point', 'drop-point'), 5  # Kinds that take so little, and how many times as many rounds they have.


# ---- Plans

def points(first: int, places: Sequence[tuple[int, int]]) -> Iterator[str]:
    """Records of points at these places, in millimetres, with numbers from the first on."""
    return (f'point,{number},{x},{y}' for number, (x, y) in enumerate(places, first))


def round_trip(first: int, point: int, count: int, inside: int, outside: int) -> Iterator[str]:
    """Records of strings from each of so many points to the next, counterclockwise; the last leads to the first point."""
    return (f'string,{first + at},{point + at},{point + (at + 1) % count},{inside},{outside}' for at in range(count))


def lot(column: int, row: int) -> int:
    """The lot north-east of a point of the block; 0, the outside, where there is none."""
    return row * WIDE + column + 1 if 0 <= column < WIDE and 0 <= row < WIDE else 0


def sides() -> Iterator[str]:
    """The sides of the block's lots without their numbers: those that lead east, and then those that lead north."""
    lines = range(WIDE + 1)
    for row in lines:
        for column in range(WIDE):
            at = row * (WIDE + 1) + column + 1
            yield f'{at},{at + 1},{lot(column, row)},{lot(column, row - 1)}'
    for row in range(WIDE):
        for column in lines:
            at = row * (WIDE + 1) + column + 1
            yield f'{at},{at + WIDE + 1},{lot(column - 1, row)},{lot(column, row)}'


def block() -> Iterator[str]:
    """The records of the block."""
    lines = range(WIDE + 1)
    yield 'source,1,Survey 7'
    yield from points(1, [(column * SIDE, row * SIDE) for row in lines for column in lines])
    yield from points(21, ISLAND)
    yield from points(31, FREE)
    yield from (f'parcel,{number},Lot {number}' for number in range(1, WIDE * WIDE + 1))
    yield 'parcel,10,Island'
    yield from (f'string,{number},{side}' for number, side in enumerate(sides(), 1))
    yield from round_trip(41, 21, len(ISLAND), 10, 5)


def far_square(place: int) -> Iterator[str]:
    """The records of a far square, a parcel of its own. All lie in the east, in rows from the south to the north."""
    row, column = divmod(place, ROW)
    number, west, south = FIRST_FAR + 10 * place, (column + 1) * APART, row * APART
    east, north = west + SIDE, south + SIDE
    yield f'parcel,{number},Far'
    yield from points(number, [(west, south), (east, south), (east, north), (west, north)])
    yield from round_trip(number, number, 4, number, 0)


def job_of(squares: int, script: Sequence[str]) -> bytes:
    """The job of this script on the block and so many far squares."""
    far = (record for place in range(squares) for record in far_square(place))
    records = ['plan,2', *block(), *far, 'open', *script]
    return ''.join(it + ',' * (FIELDS - 1 - it.count(',')) + '\n' for it in records).encode()


def script_of(few: int, kind: str = '', many: int = 0) -> list[str]:
    """So few rounds of each kind, and then so many of this one."""
    script = [record for records in KINDS.values() for record in records * few]
    return script + KINDS[kind] * many if kind else script


def rounds_of(kind: str, rounds: int) -> int:
    """The rounds of a kind, of which others have so many: more where one takes little, since no two runs load alike."""
    return rounds * TIMES if kind in SMALL else rounds


def are_done(answers: bytes, script: Sequence[str]) -> bool:
    """Whether each record of a script was done."""
    return answers == b'ok,,,,,,\n' * len(script)


# ---- What is counted

def instructions_of(said: str) -> int | None:
    """The instructions that valgrind's callgrind counted, by what it said on standard error."""
    found = COLLECTED.search(said)
    return int(found.group(1)) if found else None


@dataclass(frozen=True)
class Row:
    """The instructions that a round of a kind takes, beside each count of far squares, in ascending order."""
    kind: str
    counts: Sequence[int]

    @property
    def ratio(self) -> float:
        """How many times as many a round takes at most as beside the fewest."""
        return max(self.counts[1:]) / self.counts[0]

    def text(self, most: float) -> str:
        """Its line of the table, with a word where the ratio is more than the most."""
        counts = ''.join(f'{it:14,}' for it in self.counts)
        return f'{self.kind:30}{counts}{self.ratio:8.2f}{"  TOO MANY" if self.ratio > most else ""}'


def heading(squares: Sequence[int]) -> str:
    """The line above the table."""
    return f'{"instructions beside":30}{"".join(f"{it:14,}" for it in squares)}{"ratio":>8}'


def each_round(base: int, whole: int, rounds: int) -> int:
    """The instructions of a round: of a run with so many rounds more than a run that took `base`. At least 1."""
    return max(1, (whole - base) // rounds)
