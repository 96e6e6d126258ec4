"""The records of jobs and plans: read with the lines on which they stand, made into rows, and written.

docs/FORMATS.md says what a record is. Coordinates are whole millimetres, x to the east and y to the north. A face is
a parcel's number, or 0 for the outside.
"""
from __future__ import annotations

import re
from collections.abc import Callable, Iterable, Iterator
from dataclasses import dataclass, field
from typing import Any, Union

from lib.forms import FIELDS, PLAN_FORMS, WrongForm, coordinate_of, face_of, number_of, sources_of, text_of

LIMIT = 10_000_000_000  # Millimetres, either way, that a coordinate may have.
MOST_ROWS, MOST_STRINGS = 100_000, 200_000  # of a kind other than strings, and of strings, in a map.
MOST_NUMBER = 999_999_999
BYTE_ORDER_MARK = b'\xef\xbb\xbf'
LINE = re.compile(rb'[^\r\n]+')
LINE_END = re.compile(rb'\r\n|\r|\n')
QUOTED = re.compile(rb'"([^"]*(?:""[^"]*)*)"(?!")([^,\r\n]*)')
PLAIN = re.compile(rb'[^,\r\n]*')


@dataclass(frozen=True, slots=True)
class Record:
    """A record: how many records there are up to it, the line on which it begins, its bytes there, and its
    fields."""
    number: int
    line: int
    raw: bytes
    fields: tuple[bytes, ...]
    is_open: bool = False  # A quote is opened in it and isn't closed before the end.

    @property
    def kind(self) -> bytes:
        """Its first field."""
        return self.fields[0]

    def text(self, most: int = 300) -> str:
        """The record as it stands in the file, on one line and not longer than so many characters."""
        said = shown(self.raw[:4 * most])  # A letter has four bytes at most.
        is_whole = len(said) <= most and len(self.raw) <= 4 * most
        return said if is_whole else f'{said[:most]} .. ({len(self.raw):,} bytes)'


def shown(data: bytes) -> str:
    """Bytes as text on one line: what isn't UTF-8 or can't be printed is shown by its code."""
    text = data.decode('utf-8', 'backslashreplace')
    return text if text.isprintable() else ''.join(it if it.isprintable() else ascii(it)[1:-1] for it in text)


def records_of(data: bytes) -> Iterator[Record]:
    """The records of a job. Lines count from 1, and end with LF, CR LF or CR; nothing is a fault here."""
    at = len(BYTE_ORDER_MARK) if data.startswith(BYTE_ORDER_MARK) else 0
    number, line = 0, 1
    while found := LINE.search(data, at):
        begin, end = found.span()
        line += line_ends(data[at:begin])
        number += 1
        text = found.group()
        if b'"' not in text:
            yield Record(number, line, text, tuple(text.split(b',')))
        else:
            fields, end, is_open = quoted_fields(data, begin)
            yield Record(number, line, data[begin:end], fields, is_open)
            line += line_ends(data[begin:end])
        at = end


def line_ends(data: bytes) -> int:
    """How many lines end in these bytes."""
    return 1 if data == b'\n' else len(LINE_END.findall(data))


def quoted_fields(data: bytes, at: int) -> tuple[tuple[bytes, ...], int, bool]:
    """The fields of the record that begins there, where it ends, and whether a quote in it isn't closed."""
    fields = []
    while True:
        if found := QUOTED.match(data, at):
            fields.append(found.group(1).replace(b'""', b'"') + found.group(2))
            at = found.end()
        elif data.startswith(b'"', at):
            fields.append(data[at + 1:].replace(b'""', b'"'))
            return tuple(fields), len(data), True
        else:
            found = PLAIN.match(data, at)
            assert found
            fields.append(found.group())
            at = found.end()
        if not data.startswith(b',', at):
            return tuple(fields), at, False
        at += 1


# ---- Rows

NOWHERE = Record(0, 0, b'', (b'',))  # of a row that was made and not read.


@dataclass(frozen=True, slots=True)
class SourceRow:
    """A source: its text has 1 to 80 bytes of UTF-8."""
    number: int
    text: bytes
    record: Record = field(default=NOWHERE, compare=False, repr=False)


@dataclass(frozen=True, slots=True)
class PointRow:
    """A point, its position in millimetres, and the numbers of its sources."""
    number: int
    x: int
    y: int
    sources: tuple[int, ...] = ()
    record: Record = field(default=NOWHERE, compare=False, repr=False)


@dataclass(frozen=True, slots=True)
class ParcelRow:
    """A parcel: its label has 1 to 80 bytes of UTF-8."""
    number: int
    label: bytes
    sources: tuple[int, ...] = ()
    record: Record = field(default=NOWHERE, compare=False, repr=False)


@dataclass(frozen=True, slots=True)
class StringRow:
    """A string from a first to a second point, with the faces to its left and to its right."""
    number: int
    first: int
    second: int
    left: int
    right: int
    sources: tuple[int, ...] = ()
    record: Record = field(default=NOWHERE, compare=False, repr=False)


@dataclass(frozen=True, slots=True)
class RetiredRow:
    """The number of a parcel that a merger ended."""
    number: int
    record: Record = field(default=NOWHERE, compare=False, repr=False)


Row = Union[SourceRow, PointRow, ParcelRow, StringRow, RetiredRow]


def row_of(record: Record) -> Row | None:
    """The row of a plan's record, or None where it has the form of none."""
    fields = record.fields
    wanted = PLAN_FORMS.get(fields[0])
    if not wanted or len(fields) != FIELDS or any(fields[len(wanted) + 1:]):
        return None
    try:
        return READ[fields[0]](fields, record)
    except WrongForm:
        return None


READ: dict[bytes, Callable[[tuple[bytes, ...], Record], Row]] = {
    b'source': lambda it, record: SourceRow(number_of(it[1]), text_of(it[2]), record),
    b'point': lambda it, record: PointRow(number_of(it[1]), coordinate_of(it[2]), coordinate_of(it[3]),
                                          sources_of(it[4]), record),
    b'parcel': lambda it, record: ParcelRow(number_of(it[1]), text_of(it[2]), sources_of(it[3]), record),
    b'string': lambda it, record: StringRow(number_of(it[1]), number_of(it[2]), number_of(it[3]), face_of(it[4]),
                                            face_of(it[5]), sources_of(it[6]), record),
    b'retired': lambda it, record: RetiredRow(number_of(it[1]), record),
}


@dataclass
class Plan:
    """The rows of a plan by their numbers, in the order of their records. Of a number that stands twice the first
    row counts, and the others are `doubles`; `wrong` are records of no right form."""
    sources: dict[int, SourceRow] = field(default_factory=dict)
    points: dict[int, PointRow] = field(default_factory=dict)
    parcels: dict[int, ParcelRow] = field(default_factory=dict)
    strings: dict[int, StringRow] = field(default_factory=dict)
    retired: dict[int, RetiredRow] = field(default_factory=dict)
    doubles: list[Row] = field(default_factory=list)
    wrong: list[Record] = field(default_factory=list)

    def __post_init__(self) -> None:
        self.kinds: dict[type, dict[int, Any]] = {
            SourceRow: self.sources, PointRow: self.points, ParcelRow: self.parcels, StringRow: self.strings,
            RetiredRow: self.retired}
        self.named: dict[str, dict[int, Any]] = {
            'source': self.sources, 'point': self.points, 'parcel': self.parcels, 'string': self.strings}

    def add(self, row: Row) -> None:
        """Puts a row last among those of its kind."""
        rows = self.kinds[type(row)]
        if row.number in rows:
            self.doubles.append(row)
        else:
            rows[row.number] = row

    def drop(self, row: Row) -> None:
        """Takes the row with this one's kind and number away."""
        self.kinds[type(row)].pop(row.number, None)

    def position(self, point: int) -> tuple[int, int]:
        """Where a point of the plan lies, in millimetres."""
        row = self.points[point]
        return row.x, row.y


def plan_of(records: Iterable[Record]) -> Plan:
    """The rows of the records of a plan, its first and its `open` left out."""
    plan = Plan()
    for record in records:
        row = row_of(record)
        if row is None:
            plan.wrong.append(record)
        else:
            plan.add(row)
    return plan


# ---- Writing

def record_text(fields: Iterable[object]) -> bytes:
    """A record's line, with quotes only where they are wanted; fields are filled up to seven."""
    texts = [it if isinstance(it, bytes) else str(it).encode() for it in fields]
    texts += [b''] * (FIELDS - len(texts))
    return b','.join(quoted(it) for it in texts) + b'\n'


def quoted(text: bytes) -> bytes:
    """A field as it is written: in quotes where it has a comma, a quote, CR or LF."""
    return b'"' + text.replace(b'"', b'""') + b'"' if re.search(rb'[,"\r\n]', text) else text


def plan_text(plan: Plan) -> bytes:
    """The plan as `print` writes it, of version 2."""
    def listed(numbers: Iterable[int]) -> str:
        return ' '.join(map(str, numbers))

    lines = [record_text(['plan', 2])]
    lines += [record_text(['source', it.number, it.text]) for it in plan.sources.values()]
    lines += [record_text(['point', it.number, it.x, it.y, listed(it.sources)]) for it in plan.points.values()]
    lines += [record_text(['parcel', it.number, it.label, listed(it.sources)]) for it in plan.parcels.values()]
    lines += [record_text(['string', it.number, it.first, it.second, it.left, it.right, listed(it.sources)])
              for it in plan.strings.values()]
    lines += [record_text(['retired', it.number]) for it in plan.retired.values()]
    return b''.join(lines) + record_text(['open'])
