"""What is told of a job: findings, each of one record, with words and places."""
from __future__ import annotations

from collections import Counter
from collections.abc import Iterable, Iterator
from dataclasses import dataclass, field

from lib.crossings import Place
from lib.explain import Meaning
from lib.records import Record

FAULT, FURTHER, REFUSED, SYNTAX, READ, WARNING, NOTE = (
    'plan fault', 'further', 'refused', 'syntax', 'read fault', 'warning', 'note')
MOST_PLACES = 1000  # that are listed of one finding.
MOST_LETTERS = 10_000  # of well-known text on one line.


@dataclass
class Finding:
    """Something to tell of a job. `name` is the program's own name for it; of a warning, what it warns of. `line`
    counts from 1; `record` may be missing."""
    kind: str
    name: str
    words: str
    record: Record | None
    line: int
    meaning: Meaning | None = None
    places: list[Place] = field(default_factory=list)
    likely: list[str] = field(default_factory=list)

    def head(self, file: str) -> str:
        """Its first line: `job.csv:20: record 18: refused 18 breaks V4: strings 12 and 17 would cross`."""
        if self.kind == READ:
            return f'{file}:{self.line}: {f"record {self.record.number} " if self.record else ""}{self.words}'
        parts = [f'{file}:{self.line}']
        if self.record:
            parts.append(f'record {self.record.number}')
        parts.append(f'{self.kind} {self.name}'.rstrip())
        return ': '.join([*parts, self.words] if self.words else parts)

    def lines(self, file: str) -> Iterator[str]:
        """The lines of its block."""
        yield self.head(file)
        if self.record:
            yield f'  record: {self.record.text()}'
        if self.meaning and self.meaning.means:
            yield f'  means:  {self.meaning.means}'
        for words in self.likely:
            yield f'  likely: {words}'
        for place in self.places[:MOST_PLACES]:
            text = place.wkt if len(place.wkt) <= MOST_LETTERS else \
                f'{place.wkt[:80]} .. ({len(place.wkt):,} characters; --gpkg writes all of it)'
            yield f'  place:  {": ".join(it for it in (place.words, text) if it)}'
        if len(self.places) > MOST_PLACES:
            yield f'  place:  and {len(self.places) - MOST_PLACES} more'
        if self.meaning and self.meaning.helps:
            yield f'  helps:  {self.meaning.helps}'


def of_record(kind: str, name: str, words: str, record: Record, meaning: Meaning | None = None,
              places: Iterable[Place] = ()) -> Finding:
    """A finding about a record."""
    return Finding(kind, name, words, record, record.line, meaning, list(places))


def summary(findings: Iterable[Finding], left_out: Counter[str]) -> str:
    """How many of what were explained: `3 refusals and 1 syntax explained, 2 warnings`. What is left out is counted
    too."""
    counts = Counter(it.kind for it in findings)
    explained = [counted(counts[kind], left_out[kind], one, many) for kind, one, many in (
        (READ, 'read fault', 'read faults'), (FAULT, 'plan fault', 'plan faults'), (REFUSED, 'refusal', 'refusals'),
        (SYNTAX, 'syntax', 'syntaxes')) if counts[kind]]
    beside = [counted(counts[kind], left_out[kind], one, many) for kind, one, many in (
        (FURTHER, 'further finding', 'further findings'), (WARNING, 'warning', 'warnings'), (NOTE, 'note', 'notes'))
        if counts[kind]]
    if not explained:
        return ', '.join(['nothing to explain', *beside])
    last = explained.pop()
    told = f'{", ".join(explained)} and {last}' if explained else last
    return ', '.join([f'{told} explained', *beside])


def counted(told: int, left_out: int, one: str, many: str) -> str:
    """`1 refusal`, `3 refusals`, `200 of 512 refusals`."""
    of = f'{told} of {told + left_out}' if left_out else str(told)
    return f'{of} {one if told + left_out == 1 else many}'


def status_of(findings: Iterable[Finding]) -> int:
    """1 where something is wrong; warnings and notes don't count."""
    return int(any(it.kind not in (WARNING, NOTE) for it in findings))
