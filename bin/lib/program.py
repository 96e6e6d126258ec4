"""Runs the program `cadedit` on a job, and ties its answers to the records of the job's script."""
from __future__ import annotations

import io
import os
import re
import subprocess
import tempfile
from collections.abc import Generator, Sequence
from dataclasses import dataclass
from typing import IO

from lib.crossings import positions_of
from lib.exact import Position
from lib.records import Plan, Record, Row, records_of, row_of

BIN = os.path.dirname(os.path.dirname(os.path.realpath(__file__)))
PRINT, AREAS = b'print,,,,,,', b'areas,,,,,,'
READ_BYTES = 1 << 22
ENDS = {b'plan': b'open', b'area': b'end', b'ring': b'end', b'end': b'end'}
OK, REFUSAL, NOTHING, NO_SCRIPT = b'ok', b'refused', b'nothing', b'syntax'


class NoProgram(Exception):
    """There is no program, or it can't be run; the text says why."""


def found_program(name: str = 'cadedit', is_told: bool = False) -> str:
    """The path of the program that bin/cadedit or bin/cadview runs, which is made where there is none. Where `is_told`
    standard error has what bin/program says of it, that it isn't proved. Raises NoProgram."""
    env = os.environ if is_told else {**os.environ, 'UNPROVED_OK': '1'}
    done = subprocess.run([os.path.join(BIN, 'program'), name], stdout=subprocess.PIPE,
                          stderr=None if is_told else subprocess.PIPE, text=True, env=env)
    if done.returncode:
        raise NoProgram((done.stderr or '').strip() or f'bin/program ended with status {done.returncode}')
    return done.stdout.strip()


@dataclass(frozen=True)
class Program:
    """The program, and how many edits can be undone, where that is told."""
    path: str
    depth: int | None = None

    def words(self) -> list[str]:
        return [self.path, *(['--depth', str(self.depth)] if self.depth else [])]

    def env(self) -> dict[str, str]:
        """As bin/cadedit starts it: it asks for large pages."""
        return {'GLIBC_TUNABLES': 'glibc.malloc.hugetlb=1', **os.environ}


@dataclass(frozen=True)
class Verdict:
    """How the program ended: its status, what it wrote, and what it said on standard error."""
    status: int
    output: bytes
    said: str


def verdict_of(program: Program, job: bytes) -> Verdict:
    """Runs the program on a job. Raises NoProgram where it can't be run or is ended by a signal or a trap."""
    try:
        done = subprocess.run(program.words(), input=job, capture_output=True, env=program.env())
    except OSError as error:
        raise NoProgram(f'{program.path}: {error.strerror}') from error
    said = done.stderr.decode(errors='replace').strip()
    if done.returncode not in (0, 2, 3, 4, 5):
        raise NoProgram(f'{program.path} ended with status {done.returncode}: {said}'.rstrip(': '))
    return Verdict(done.returncode, done.stdout, said)


# ---- Answers

@dataclass(frozen=True, slots=True)
class Answer:
    """The answer to a record of a script, by the fields of its first record; a report or a plan has more records."""
    fields: tuple[bytes, ...]

    @property
    def kind(self) -> bytes:
        """`ok`, `refused` and so on."""
        return self.fields[0]

    def words(self) -> str:
        """A refusal as it is told: `2 unknown point 99`."""
        return ' '.join(it.decode() for it in self.fields[1:] if it)


def answers_of(output: bytes) -> list[Answer]:
    """The answers that were written, in order."""
    known: dict[bytes, Answer] = {}
    answers, reader = [], Output(io.BytesIO(output))
    while lines := reader.answer():
        first = lines[0]
        if first not in known:
            known[first] = Answer(next(records_of(first)).fields)
        answers.append(known[first])
    return answers


class Output:
    """What the program writes, answer by answer."""

    def __init__(self, file: IO[bytes]) -> None:
        self.file, self.data, self.at = file, b'', 0

    def more(self) -> bool:
        """Reads on, and answers whether there was more."""
        read = self.file.read(READ_BYTES)
        self.data, self.at = self.data[self.at:] + read, 0
        return bool(read)

    def find(self, mark: bytes) -> int:
        """Where the next answer ends, which ends with these bytes outside of a quoted text; -1 where there is
        none."""
        begin = self.at
        while True:
            found = self.data.find(mark, begin)
            if found >= 0 and self.data.count(b'"', self.at, found) % 2 == 0:
                return found + len(mark)
            if found >= 0:
                begin = found + 1
                continue
            begin = max(0, len(self.data) - len(mark) - self.at)
            if not self.more():
                return -1

    def answer(self) -> list[bytes]:
        """The records of the next answer, or none at the end."""
        while self.at + 5 > len(self.data) and self.more():
            pass
        kind = self.data[self.at:self.at + 5]
        end = ENDS.get(kind.split(b',')[0])
        at = self.find(b'\n' + end + b',,,,,,\n' if end and not kind.startswith(b'end') else b'\n')
        if at < 0:
            return []
        lines, quotes = self.data[self.at:at - 1].split(b'\n'), self.data.count(b'"', self.at, at)
        self.at = at
        return joined(lines) if quotes and any(it.count(b'"') % 2 for it in lines) else lines


def joined(lines: Sequence[bytes]) -> list[bytes]:
    """The records of these lines, of which a quoted text may have several."""
    records: list[bytes] = []
    is_open = False
    for line in lines:
        if is_open:
            records[-1] += b'\n' + line
        else:
            records.append(line)
        is_open ^= line.count(b'"') % 2 == 1
    return records


# ---- The map before some records of a script

class Shown:
    """The rows of the map that the program shows: each plan that it prints is taken as a change of the one
    before."""

    def __init__(self, known: Plan) -> None:
        """Where it prints a row of this plan, that row is taken."""
        self.known = {row.record.raw: row for rows in known.kinds.values() for row in rows.values()}
        self.plan = Plan()
        self.lines: set[bytes] = set()
        self.at_now: dict[int, Position] | None = None

    @property
    def at(self) -> dict[int, Position]:
        """Where its points lie."""
        if self.at_now is None:
            self.at_now = positions_of(self.plan)
        return self.at_now

    def take(self, lines: Sequence[bytes]) -> None:
        """Takes the records of a plan, as the program writes them."""
        new = set(lines)
        self.at_now = None
        for line in self.lines - new:
            if row := self.row_of(line):
                self.plan.drop(row)
        come = new - self.lines
        for line in lines:
            if line in come and (row := self.row_of(line)):
                self.plan.add(row)
        self.lines = new

    def row_of(self, line: bytes) -> Row | None:
        """The row that the program wrote in this line."""
        return self.known.get(line) or row_of(next(records_of(line)))


def maps_before(program: Program, plan: Sequence[Record], rows: Plan, script: Sequence[Record],
                asked: Sequence[int]) -> Generator[tuple[Shown, list[bytes]], None, None]:
    """The map before the records at these places of the script, which ascend, and at last the map at the end, with
    the answer to `areas` there. `rows` are those of the plan. The program does the script with `print` put in before
    these records, which changes nothing; where it ends early there are fewer maps. The map that is given is the same
    one, changed."""
    with tempfile.TemporaryFile() as job:
        job.writelines(whole(it) for it in plan)
        prints: set[int] = set()
        count = begin = 0
        for place in [*asked, len(script)]:
            job.writelines(whole(it) for it in script[begin:place])
            count, begin = count + place - begin, place
            prints.add(count)
            count += 1
            job.write(PRINT + b'\n')
        job.write(AREAS + b'\n')
        job.seek(0)
        shown = Shown(rows)
        with subprocess.Popen(program.words(), stdin=job, stdout=subprocess.PIPE, stderr=subprocess.DEVNULL,
                              env=program.env()) as running:
            assert running.stdout
            output = Output(running.stdout)
            for place in range(count):
                answer = output.answer()
                if not answer:
                    return
                if place in prints:
                    shown.take(answer[1:-1])
                    yield shown, output.answer() if place == count - 1 else []


def whole(record: Record) -> bytes:
    """A record's bytes with a line end; a quote that is open is closed."""
    return record.raw + (b'"\n' if record.is_open else b'\n')


def plan_fault_of(said: str) -> tuple[int, str, str]:
    """Number, name and the rest of what the program says of a plan: `cadedit: plan fault 10 labels string 4`."""
    found = re.search(r'plan fault (\d+) (\S+) ?(.*)', said)
    return (int(found.group(1)), found.group(2), found.group(3)) if found else (0, '', said)
