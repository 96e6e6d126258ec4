"""Explains a job: runs the program on it, and makes a finding of each fault, refusal and record of no right form."""
from __future__ import annotations

from collections import Counter
from collections.abc import Iterator, Sequence
from contextlib import closing
from dataclasses import dataclass, field

from lib.crossings import Place
from lib.explain import SYNTAX as SYNTAX_MEANING, Meaning, meaning_of_refusal
from lib.faults import EXPLAINERS as FORM_FAULTS, Fault, field_count, findings_of_form, open_quote
from lib.findings import FAULT, FURTHER, NOTE, READ, REFUSED, SYNTAX, WARNING, Finding, of_record
from lib.forms import FIELDS, SCRIPT_FORMS, why_no_record
from lib.oddities import doubled_areas, oddities_of
from lib.plan_geometry import EXPLAINERS as GEOMETRY_FAULTS, findings_of_geometry
from lib.program import (
    NO_SCRIPT, NOTHING, OK, REFUSAL, Program, Shown, Verdict, answers_of, maps_before, plan_fault_of, verdict_of)
from lib.records import Record, plan_of, records_of
from lib.refusals import Refused, told_of
from lib.scripts import History, Script

MOST_EXPLAINED = 200  # of refusals, and of other findings of a kind.
MOST_ROWS = 10_000_000  # that the program prints before refused records, all maps together.
DEPTH = 100  # edits that can be undone where nothing else is asked for.
OPEN = (b'open', b'', b'', b'', b'', b'', b'')


@dataclass
class Job:
    """A job's records, and how the program ended on it. `left_out` counts what isn't told, by kinds of findings."""
    program: Program
    records: Sequence[Record]
    verdict: Verdict
    left_out: Counter[str] = field(default_factory=Counter)

    def __post_init__(self) -> None:
        ends = next((i for i, it in enumerate(self.records) if it.fields == OPEN), len(self.records) - 1)
        self.plan_records, self.script_records = self.records[:ends + 1], self.records[ends + 1:]

    def findings(self) -> list[Finding]:
        """All findings, in the order of records; warnings come last."""
        if self.verdict.status == 2:
            return list(self.of_plan_fault())
        found = [*self.of_answers(), *self.of_end()]
        kept = []
        counts: Counter[str] = Counter()
        for it in sorted(found, key=lambda it: (it.kind == WARNING, it.line)):
            counts[it.kind] += 1
            if counts[it.kind] <= MOST_EXPLAINED:
                kept.append(it)
            else:
                self.left_out[it.kind] += 1
        return kept

    # ---- Where the job ended

    def of_plan_fault(self) -> Iterator[Finding]:
        """The plan's fault."""
        fault = Fault(*plan_fault_of(self.verdict.said), self.plan_records, self.left_out)
        if fault.name in FORM_FAULTS:
            yield from findings_of_form(fault)
        elif fault.name in GEOMETRY_FAULTS:
            yield from findings_of_geometry(fault)
        else:
            yield Finding(FAULT, '', self.verdict.said, None, 1)

    def of_end(self) -> Iterator[Finding]:
        """Why the job wasn't done to its end, where it wasn't."""
        if self.verdict.status == 3:
            yield from self.of_lengths()
        elif self.verdict.status == 4:
            past = self.script_records[1_000_000]
            helps = Meaning('', 'print the plan at the end of a job, and begin the next one with it')
            yield of_record(READ, '', 'is past the 1,000,000 that a script may have, and was not done', past, helps)
        elif self.verdict.status == 5:
            yield Finding(READ, '', 'memory ran out', None, 1, Meaning('', 'run the job where there is more'))

    def of_lengths(self) -> Iterator[Finding]:
        """Records of another length than seven: at the first one the program ended."""
        wrong = [it for it in self.records[1:] if len(it.fields) != FIELDS]
        helps = Meaning('', f'every record has {FIELDS} fields, so {FIELDS - 1} commas, also where it uses fewer')
        for it in wrong[:1]:
            yield of_record(READ, '', f'has {field_count(it)}', it, helps)
        for it in wrong[1:MOST_EXPLAINED]:
            yield of_record(FURTHER, '', f'it has {field_count(it)}', it)
        self.left_out[FURTHER] += len(wrong[MOST_EXPLAINED:])
        if not wrong:
            yield Finding(READ, '', f'the program said: {self.verdict.said}', None, 1)

    # ---- What the script's records were answered

    def of_answers(self) -> Iterator[Finding]:
        """What isn't answered by `ok` or a report, and the oddities of the map at the end."""
        if self.verdict.status and not self.verdict.output:
            return
        answers = answers_of(self.verdict.output)
        script = Script(plan_of(it for it in self.plan_records[1:-1]), self.script_records, answers)
        pairs = list(zip(self.script_records, answers))
        history, told = History(self.program.depth or DEPTH), Counter[str]()
        for record, answer in pairs:
            history.take(record, answer)
            kind = {NO_SCRIPT: SYNTAX, NOTHING: NOTE}.get(answer.kind)
            if kind:
                told[kind] += 1
                if told[kind] > MOST_EXPLAINED:
                    self.left_out[kind] += 1
                else:
                    yield of_syntax(record) if kind == SYNTAX else \
                        of_record(NOTE, '', history.why_nothing(record.kind), record)
        refused = [place for place, (_, answer) in enumerate(pairs) if answer.kind == REFUSAL]
        self.left_out[REFUSED] += len(refused[MOST_EXPLAINED:])
        yield from self.of_refusals(script, refused[:MOST_EXPLAINED])

    def of_refusals(self, script: Script, refused: Sequence[int]) -> Iterator[Finding]:
        """The refusals at these places of the script, each with the map before it, and the map at the end."""
        runs = self.runs_of(refused, script)
        done = self.script_records[:len(script.answers)]
        groups: list[list[int]] = [*runs, []]
        told = 0
        with closing(maps_before(self.program, self.plan_records, script.plan, done,
                                 [run[0] for run in runs])) as maps:
            for run, (shown, areas) in zip(groups, maps):
                for place in run:
                    yield of_refusal(script, place, shown)
                told += len(run)
                if areas:
                    yield from of_oddities(script, shown, areas)
        for place in refused[told:]:
            yield of_refusal(script, place, None)

    def runs_of(self, refused: Sequence[int], script: Script) -> list[list[int]]:
        """The refused records in groups between which the map changes, as many as can be printed."""
        runs: list[list[int]] = []
        for place in refused:
            since = script.answers[runs[-1][-1]:place] if runs else []
            if runs and not any(it.kind == OK for it in since):
                runs[-1].append(place)
            else:
                runs.append([place])
        return runs[:max(1, MOST_ROWS // max(1, len(self.plan_records)))]


def of_syntax(record: Record) -> Finding:
    """A record that is none of a script."""
    words = '; '.join(why_no_record(record.fields, SCRIPT_FORMS)) + open_quote(record)
    return of_record(SYNTAX, '', words, record, SYNTAX_MEANING)


def of_refusal(script: Script, place: int, shown: Shown | None) -> Finding:
    """A refused record. Without the map before it, it is told what the refusal means alone."""
    record, answer = script.records[place], script.answers[place]
    _, _, name, kind, number, *_ = (it.decode() for it in answer.fields)
    meaning = meaning_of_refusal(name, kind)
    words, lacking = '', 'the map before it was not printed'
    places: list[Place] = []
    if shown is not None:
        words, places = told_of(Refused(record, place, name, kind, int(number or 0), shown.plan, shown.at, script))
        lacking = 'no place was found'
    words = words or f'{meaning.means or answer.words()}; {lacking}'
    return of_record(REFUSED, answer.words(), words, record, meaning, places)


def of_oddities(script: Script, shown: Shown, areas: Sequence[bytes]) -> Iterator[Finding]:
    """The oddities of the map at the job's end, each at the record that brought it."""
    for it in oddities_of(shown.plan, shown.at, doubled_areas(areas)):
        giver = script.giver((it.kind, it.number), len(script.records))
        yield Finding(WARNING, it.name, it.words, giver, giver.line if giver else 1, None, it.places)


def explained(program: Program, data: bytes) -> tuple[list[Finding], Counter[str]]:
    """The findings of a job, and how many of each kind are left out. Raises NoProgram where the program can't be
    run."""
    job = Job(program, list(records_of(data)), verdict_of(program, data))
    return job.findings(), job.left_out

