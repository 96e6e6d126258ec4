"""Does a job through the C library, record by record, and writes its answers as `cadedit` does.

    cd bin && python3 -m lib.submitted LIBRARY JOB
"""
from __future__ import annotations

import os
import sys
from collections.abc import Iterator, Sequence
from itertools import islice
from typing import TYPE_CHECKING, NamedTuple

from lib.forms import FIELDS
from lib.records import Record, records_of

PYTHON = os.path.join(os.path.dirname(os.path.dirname(os.path.dirname(os.path.realpath(__file__)))), 'python')
OPEN = (b'open', *[b''] * (FIELDS - 1))
MOST_RECORDS = 1_000_000  # of a job's script.

if TYPE_CHECKING:
    from cadedit import Map


def use_library(path: str) -> None:
    """Has the module `cadedit` of this checkout found, and take this library."""
    os.environ['CADEDIT_LIBRARY'] = path
    if PYTHON not in sys.path:
        sys.path.append(PYTHON)


class Job(NamedTuple):
    """A job's plan up to its `open`, and the records of its script."""
    plan: bytes
    script: list[Record]


def whole(record: Record) -> bytes:
    """A record's bytes with a line end; a quote that is open stays so."""
    return record.raw if record.is_open else record.raw + b'\n'


def job_of(data: bytes) -> Job:
    """The two parts of a job; one without `open` is all plan."""
    records = list(records_of(data))
    ends = next((place + 1 for place, it in enumerate(records) if place and it.fields == OPEN), len(records))
    return Job(b''.join(map(whole, records[:ends])), records[ends:])


def answers_of(its_map: Map, script: Sequence[Record]) -> Iterator[bytes]:
    """The answers that a job has: up to a record of another length, and to a million."""
    for record in islice(script, MOST_RECORDS):
        if len(record.fields) != FIELDS:
            return
        yield its_map.submit(whole(record))


def main(library: str, path: str) -> None:
    use_library(library)
    from cadedit import Map
    with open(path, 'rb') as file:
        job = job_of(file.read())
    with Map(job.plan) as its_map:
        sys.stdout.buffer.writelines(answers_of(its_map, job.script))


if __name__ == '__main__':
    main(*sys.argv[1:])
