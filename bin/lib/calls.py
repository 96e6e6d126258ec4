"""Times the edits of a script as calls of the Python module: each record is a call of its method.

    cd bin && python3 -m lib.calls LIBRARY PLAN SCRIPT RUNS    prints the microseconds that a call takes

The script is timed in ten parts, on a map that is opened anew for each run, and of each part the fastest run counts.
"""
from __future__ import annotations

import sys
import time
from collections.abc import Callable, Sequence
from typing import TYPE_CHECKING, Any

from lib.forms import ITEM, LIST, SCRIPT_FORMS, TEXT
from lib.records import Record, records_of
from lib.submitted import use_library

if TYPE_CHECKING:
    from cadedit import Map

PARTS = 10
METHODS = {b'print': 'plan'}
Call = tuple[Callable[..., Any], tuple[Any, ...]]


def argument_of(form: str, field: bytes) -> object:
    """What a method is given for a field of this form."""
    if form == LIST:
        return [int(it) for it in field.split()]
    return field.decode() if form in (TEXT, ITEM) else int(field)


def call_of(its_map: Map, record: Record) -> Call:
    """The method of a map that does a record, and what it is given."""
    method = METHODS.get(record.kind, record.kind.decode().replace('-', '_'))
    wanted = SCRIPT_FORMS[record.kind]
    return getattr(its_map, method), tuple(argument_of(it.form, field) for it, field in zip(wanted, record.fields[1:]))


def seconds_of(calls: Sequence[Call], refused: type[Exception]) -> float:
    """The seconds that the calls take; some may be refused."""
    began = time.perf_counter()
    for method, given in calls:
        try:
            method(*given)
        except refused:
            pass
    return time.perf_counter() - began


def main(library: str, plan: str, script: str, runs: str) -> None:
    use_library(library)
    from cadedit import Map, Refused
    with open(script, 'rb') as file:
        records = list(records_of(file.read()))
    best = [float('inf')] * PARTS
    for _ in range(int(runs)):
        with Map.open(plan, 1000) as its_map:
            calls = [call_of(its_map, record) for record in records]
            parts = [calls[len(calls) * part // PARTS:len(calls) * (part + 1) // PARTS] for part in range(PARTS)]
            best = [min(least, seconds_of(part, Refused)) for least, part in zip(best, parts)]
    print(f'{sum(best) / len(records) * 1e6:.3f}')


if __name__ == '__main__':
    main(*sys.argv[1:])
