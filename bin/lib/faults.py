"""Why the program refused a plan, in words, with the places that show it, and what else is wrong with the plan.

What the program told comes first. What else is found, and the program would tell next, is told as `further`.
"""
from __future__ import annotations

from collections import Counter
from collections.abc import Callable, Iterator, Sequence
from dataclasses import dataclass, field
from functools import cached_property

from lib.crossings import SAME_PLACE, WHERE, Place, named
from lib.exact import point_text
from lib.explain import meaning_of_fault
from lib.findings import FAULT, FURTHER, Finding, of_record
from lib.forms import FIELDS, MOST_SOURCES, PLAN_FORMS, quote, why_no_beginning, why_no_record
from lib.records import (
    LIMIT, MOST_ROWS, MOST_STRINGS, ParcelRow, Plan, PointRow, Record, RetiredRow, Row, SourceRow, StringRow,
    plan_of)
from lib.suspects import Geometry, Likely, likely_points

LIMITS = {b'1': 1_000_000_000, b'2': LIMIT}  # Millimetres, either way, by the plan's version.
MOST_FURTHER = 100
KINDS: dict[type, str] = {SourceRow: 'source', PointRow: 'point', ParcelRow: 'parcel', StringRow: 'string',
                          RetiredRow: 'parcel'}


@dataclass(frozen=True)
class Fault:
    """A plan's records up to `open`, or to the end, and what the program said of it. `left_out` counts what isn't
    told."""
    number: int
    name: str
    rest: str
    records: Sequence[Record]
    left_out: Counter[str] = field(default_factory=Counter)

    @cached_property
    def plan(self) -> Plan:
        is_whole = self.records[-1].kind == b'open' and not any(self.records[-1].fields[1:])
        return plan_of(self.records[1:-1] if is_whole else self.records[1:])

    @cached_property
    def geometry(self) -> Geometry:
        return Geometry(self.plan)

    def finding(self, words: str, record: Record | None, places: Sequence[Place] = ()) -> Finding:
        """The finding of the fault that the program told; without a record it stands at the last one's line."""
        line = (record or self.records[-1]).line
        meaning = meaning_of_fault(self.name, self.rest)
        words = words or f'{meaning.means}; no place was found'
        title = f'{self.number} {self.name} {self.rest}'.rstrip()
        return Finding(FAULT, title, words, record, line, meaning, list(places))

    def further(self, found: Sequence[tuple[Record, str]]) -> Iterator[Finding]:
        """Findings beside the one that the program told, in the order of records; of very many the first ones."""
        for record, words in sorted(found, key=lambda it: it[0].number)[:MOST_FURTHER]:
            yield of_record(FURTHER, '', words, record)
        self.left_out[FURTHER] += max(0, len(found) - MOST_FURTHER)

    def likely(self, points: Sequence[Likely]) -> list[str]:
        """The likely points in words, with their records."""
        return [it.words(where(self.plan.points[it.point].record)) for it in points]

    def record_of(self, place: Place, likely: Sequence[Likely]) -> Record | None:
        """The record to look at for a place: that of the likeliest point, or else the last one of what the place
        names."""
        if likely:
            return self.plan.points[likely[0].point].record
        is_of_points = place.kind == SAME_PLACE or not place.strings
        records = [self.plan.points[it].record for it in place.points] if is_of_points else \
            [self.plan.strings[it].record for it in place.strings]
        return max(records, key=lambda it: it.number) if records else None


def where(record: Record) -> str:
    return f'record {record.number}, line {record.line}'


def findings_of_form(fault: Fault) -> Iterator[Finding]:
    """Explains a fault that is found before the strings are looked at, and then what is wrong with the geometry of
    what could be read."""
    yield from EXPLAINERS[fault.name](fault)
    places = fault.geometry.broken[0] if fault.records and fault.name != 'version' else []
    if places:
        likely = likely_points(fault.geometry)
        record = fault.record_of(places[0], likely)
        if record:
            finding = of_record(FURTHER, '', places[0].words, record, None, places)
            finding.likely = fault.likely(likely)
            yield finding


# ---- Records that are wrong by themselves

def of_version(fault: Fault) -> Iterator[Finding]:
    first = fault.records[0]
    plan = next((it for it in fault.records if it.fields[:2] in ((b'plan', b'1'), (b'plan', b'2'))), None)
    begins = f'; a plan begins at {where(plan)}' if plan else ''
    yield fault.finding(why_no_beginning(first.fields) + begins, first)


def of_record_alone(fault: Fault) -> Iterator[Finding]:
    """A record of no right form, or a coordinate out of range."""
    told = fault.records[int(fault.rest.split()[-1]) - 1]
    version = fault.records[0].fields[1] if len(fault.records[0].fields) > 1 else b''
    yield fault.finding(why_wrong(told, version), told)
    if told.number > 1:
        others = [*fault.plan.wrong, *(it.record for it in fault.plan.points.values())]
        found = [(it, why_wrong(it, version)) for it in others if it is not told]
        yield from fault.further([(it, words) for it, words in found if words])


def why_wrong(record: Record, version: bytes) -> str:
    """In words why a record isn't one of a plan, or where its coordinates are out of range, or nothing."""
    if len(record.fields) != FIELDS:
        return f'it has {field_count(record)}'
    return '; '.join(why_no_record(record.fields, PLAN_FORMS)) + open_quote(record) or why_far(record, version)


def field_count(record: Record) -> str:
    """`1 field, 7 wanted`, and why there may be so few."""
    count = len(record.fields)
    other = next((it for it in (b';', b'\t') if record.raw.count(it) >= FIELDS - 1), b'')
    parted = f'; fields are parted by commas, not by {quote(other)}' if other else ''
    return f'{count} field{"" if count == 1 else "s"}, {FIELDS} wanted{parted}{open_quote(record)}'


def open_quote(record: Record) -> str:
    return '; a quote that is opened in it is never closed' if record.is_open else ''


def why_far(record: Record, version: bytes) -> str:
    """In words which coordinate of a point of right form is out of range, or nothing."""
    if record.kind != b'point' or version not in LIMITS:
        return ''
    limit = LIMITS[version]
    far = [f'{name} is {int(text):,} mm' for name, text in zip('xy', record.fields[2:4]) if abs(int(text)) > limit]
    most = f', and {limit:,} mm either way is the limit of version {version.decode()}'
    return ' and '.join(far) + most if far else ''


def of_full(fault: Fault) -> Iterator[Finding]:
    """The first row past a limit, or with too many sources."""
    plan = fault.plan
    past: list[tuple[Row, str]] = []
    for kind, rows in plan.kinds.items():
        most = MOST_STRINGS if kind is StringRow else MOST_ROWS
        if len(rows) > most:
            what = 'retired number' if kind is RetiredRow else KINDS[kind]
            words = f'this is {what} {most + 1:,} of the plan, and {most:,} are the most'
            past.append((list(rows.values())[most], words))
    past += [(row, f'it has {len(row.sources)} sources, and {MOST_SOURCES} are the most')
             for kind in ('point', 'parcel', 'string') for row in plan.named[kind].values()
             if len(row.sources) > MOST_SOURCES]
    found = sorted(((row.record, words) for row, words in past), key=lambda it: it[0].number)
    record, words = found[0] if found else (None, '')
    yield fault.finding(words, record)
    yield from fault.further(found[1:])


def of_no_open(fault: Fault) -> Iterator[Finding]:
    """The input ended in the plan."""
    if not fault.records:
        yield Finding(FAULT, f'{fault.number} {fault.name}', 'the input has no record', None, 1,
                      meaning_of_fault(fault.name, ''))
        return
    last = fault.records[-1]
    yield fault.finding(f'the last record is {where(last)}{open_quote(last)}', None)
    yield from fault.further([(it, words) for it in fault.plan.wrong if (words := why_wrong(it, b''))])


# ---- Numbers and names

def of_taken(fault: Fault) -> Iterator[Finding]:
    """Numbers that stand twice in a kind."""
    kind, number = fault.rest.split()
    found = [(row.record, f'{KINDS[type(row)]} {row.number} stands in {where(first.record)} already', row)
             for row in fault.plan.doubles for first in (fault.plan.kinds[type(row)][row.number],)]
    found += [(row.record, f'parcel {row.number} is a row of the plan, in {where(parcel.record)}, and retired', row)
              for row in fault.plan.retired.values() if (parcel := fault.plan.parcels.get(row.number))]
    found.sort(key=lambda it: (KINDS[type(it[2])] != kind or it[2].number != int(number), it[0].number))
    record, words, row = found[0] if found else (None, '', None)
    yield fault.finding(words, record, points_with(fault, row))
    yield from fault.further([(record, words) for record, words, _ in found[1:]])


def points_with(fault: Fault, row: Row | None) -> list[Place]:
    """The two positions of a point that stands twice."""
    if not isinstance(row, PointRow):
        return []
    rows = [fault.plan.points[row.number], row]
    return [Place(WHERE, f'point {it.number} of {where(it.record)}', point_text((it.x, it.y))) for it in rows]


def names_of(row: Row) -> Iterator[tuple[str, int]]:
    """What a row names: points, parcels, sources."""
    if isinstance(row, StringRow):
        yield from (('point', row.first), ('point', row.second))
        yield from (('parcel', face) for face in (row.left, row.right) if face)
    if isinstance(row, (PointRow, ParcelRow, StringRow)):
        yield from (('source', it) for it in row.sources)


def of_unknown(fault: Fault) -> Iterator[Finding]:
    """Rows that are named and aren't there."""
    told_kind, told_number = fault.rest.split()
    told = told_kind, int(told_number)
    naming: dict[tuple[str, int], list[Row]] = {}
    for kind in ('point', 'parcel', 'string'):
        for row in fault.plan.named[kind].values():
            for name in names_of(row):
                if name[1] not in fault.plan.named[name[0]]:
                    naming.setdefault(name, []).append(row)
    rows_of_told = naming.pop(told, [])
    yield fault.finding(why_unknown(told, rows_of_told), rows_of_told[0].record if rows_of_told else None)
    yield from fault.further([(rows[0].record, why_unknown(name, rows)) for name, rows in naming.items()])


def why_unknown(name: tuple[str, int], rows: Sequence[Row]) -> str:
    """In words which rows name it."""
    if not rows:
        return ''
    by_kind: dict[str, list[int]] = {}
    for row in rows:
        by_kind.setdefault(KINDS[type(row)], []).append(row.number)
    said = ' and '.join(named(kind, numbers[:10]) + (f' ({len(numbers)} in all)' if len(numbers) > 10 else '')
                        for kind, numbers in by_kind.items())
    return f'{said} {"names" if len(rows) == 1 else "name"} {name[0]} {name[1]}, and there is none'


EXPLAINERS: dict[str, Callable[[Fault], Iterator[Finding]]] = {
    'version': of_version, 'syntax': of_record_alone, 'range': of_record_alone, 'full': of_full,
    'no-open': of_no_open, 'taken': of_taken, 'unknown': of_unknown}
