"""A job's script with the program's answers: which record gave or ended a number, and what can be undone."""
from __future__ import annotations

from collections.abc import Iterator, Sequence
from dataclasses import dataclass
from functools import cached_property

from lib.forms import WrongForm, list_of
from lib.program import OK, REFUSAL, Answer
from lib.records import Plan, Record

POINT, STRING, PARCEL, SOURCE = 'point', 'string', 'parcel', 'source'
Name = tuple[str, int]
# Of each kind of edit, its fields that give a number to something new, and those whose number ends with it.
GIVES = {b'add-source': {1: SOURCE}, b'add-point': {1: POINT}, b'split': {2: POINT, 5: STRING, 6: STRING},
         b'join': {2: STRING}, b'divide': {3: STRING, 4: PARCEL}, b'enclose': {3: STRING, 4: PARCEL}}
ENDS = {b'drop-point': {1: POINT}, b'split': {1: STRING}, b'join': {1: POINT}, b'merge': {2: PARCEL}}


def names_in(record: Record, places: dict[int, str]) -> Iterator[Name]:
    """What stands in these fields of a record; of a record of no right form perhaps less."""
    for place, kind in places.items():
        try:
            numbers = list_of(record.fields[place])
        except WrongForm:
            continue
        for number in numbers:
            yield kind, number


@dataclass(frozen=True)
class Named:
    """A record of the script that gives a number, or ends it, and the answer to it."""
    place: int
    record: Record
    answer: Answer
    gives: bool


def where(record: Record) -> str:
    return f'record {record.number} (line {record.line})'


@dataclass(frozen=True)
class Script:
    """The plan of a job, its script's records and their answers. Where the job ended early, answers are fewer."""
    plan: Plan
    records: Sequence[Record]
    answers: Sequence[Answer]

    @cached_property
    def named(self) -> dict[Name, list[Named]]:
        """For each number the records that give or end it, in order."""
        found: dict[Name, list[Named]] = {}
        for place, (record, answer) in enumerate(zip(self.records, self.answers)):
            for fields, gives in ((GIVES, True), (ENDS, False)):
                for name in names_in(record, fields.get(record.kind, {})):
                    found.setdefault(name, []).append(Named(place, record, answer, gives))
        return found

    def before(self, name: Name, place: int) -> Iterator[Named]:
        """The records before this place that give or end a number, the last one first."""
        return (it for it in reversed(self.named.get(name, [])) if it.place < place)

    def why_unknown(self, name: Name, place: int) -> str:
        """Which record before would have given the number, or ended it, or nothing."""
        for it in self.before(name, place):
            it_is = where(it.record)
            if it.answer.kind == OK:
                return f'{it_is} {"gave it, and that was undone or it ended since" if it.gives else "ended it"}'
            if it.gives:
                is_refused = it.answer.kind == REFUSAL
                why = f'was refused: {it.answer.words()}' if is_refused else 'has no right form'
                return f'{it_is}, which would have given it, {why}'
        return ''

    def giver(self, name: Name, place: int) -> Record | None:
        """The record that gave a number that is in use: the last one of the script before this place, or else the
        plan's."""
        for it in self.before(name, place):
            if it.gives and it.answer.kind == OK:
                return it.record
        row = self.plan.named[name[0]].get(name[1])
        return row.record if row else None

    def who_retired(self, parcel: int, place: int) -> str:
        """The merger that ended a parcel."""
        for it in self.before((PARCEL, parcel), place):
            if not it.gives and it.answer.kind == OK:
                return f'by {where(it.record)}'
        row = self.plan.retired.get(parcel)
        return f'as {where(row.record)} of the plan says' if row else ''


class History:
    """How many edits stand, how many of them can't be undone since they are too long ago, and how many there are in
    all, the undone ones included: what answers tell of it."""

    def __init__(self, depth: int) -> None:
        self.depth, self.place, self.floor, self.last = depth, 0, 0, 0

    def take(self, record: Record, answer: Answer) -> None:
        """Goes on by a record that was answered."""
        if answer.kind != OK:
            return
        if record.kind in (b'undo', b'redo'):
            self.place += 1 if record.kind == b'redo' else -1
            return
        self.place += 1
        self.last = self.place
        self.floor = max(self.floor, self.place - self.depth)

    def why_nothing(self, kind: bytes) -> str:
        """In words why there is nothing to undo, or to redo."""
        if kind == b'redo':
            return 'nothing to redo: ' + ('no edit is undone' if self.last else 'no edit was made before it')
        if not self.last:
            return 'nothing to undo: no edit was made before it'
        if self.floor:
            last = 'edit is' if self.depth == 1 else f'{self.depth} edits are'
            return f'nothing to undo: the last {last} undone, and no older one can be (--depth)'
        return 'nothing to undo: all edits before it are undone'
