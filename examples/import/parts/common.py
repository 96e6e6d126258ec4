"""Programs, commands and the count of what passed."""
from __future__ import annotations

import csv
import os
import subprocess
import sys
from dataclasses import dataclass

HERE = os.path.dirname(os.path.dirname(os.path.abspath(__file__)))
TOP = os.path.dirname(os.path.dirname(HERE))
DATA = os.path.join(HERE, 'data')
CADIMPORT, CADGPKG = os.path.join(TOP, 'bin', 'cadimport'), os.path.join(TOP, 'bin', 'cadgpkg')


@dataclass
class Count:
    """How many checks passed, and how many failed."""
    passed: int = 0
    failed: int = 0

    def check(self, name: str, wrong: object) -> None:
        """Counts a check, which passed where nothing is wrong; else it is shown."""
        if wrong:
            self.failed += 1
            print(f'{name}: FAILED: {wrong}', flush=True)
        else:
            self.passed += 1

    def __str__(self) -> str:
        return f'{self.passed} passed, {self.failed} failed'


@dataclass
class Done:
    """How a command ended."""
    status: int
    out: bytes
    err: str


def run(*words: str, given: bytes = b'', env: dict[str, str] | None = None) -> Done:
    """Runs a command. What bin/program says of a build without a proof isn't wanted here."""
    done = subprocess.run(words, input=given, capture_output=True,
                          env={**os.environ, 'UNPROVED_OK': '1', **(env or {})})
    return Done(done.returncode, done.stdout, done.stderr.decode(errors='replace'))


def program(name: str) -> str:
    """The path of a program, which is first made where it has to be."""
    done = subprocess.run([os.path.join(TOP, 'bin', 'program'), name], stdout=subprocess.PIPE, text=True,
                          env={**os.environ, 'UNPROVED_OK': '1'})
    if done.returncode:
        sys.exit(f'there is no program {name}')
    return done.stdout.strip()


def records(text: bytes) -> list[list[str]]:
    """The records of a CSV text."""
    return list(csv.reader(text.decode().splitlines()))


def areas(cadedit: str, plan: bytes) -> dict[int, int] | str:
    """Twice the area of each parcel in square millimetres, as the program tells it, or why it refuses the plan."""
    done = run(cadedit, given=plan + b'areas,,,,,,\n')
    if done.status:
        return f'status {done.status}: {done.err.strip()}'
    return {int(it[1]): int(it[3]) for it in records(done.out) if it[0] == 'area'}


def write(path: str, text: bytes) -> str:
    """Writes a file. Answers its path."""
    with open(path, 'wb') as file:
        file.write(text)
    return path
