"""The check of a plan by the program itself: that it is a valid map, and what its areas are."""
from __future__ import annotations

import os
import subprocess

from lib.importing.common import MOST_ROWS, Refused
from lib.importing.making import Made
from lib.importing.parcels import Merger
from lib.records import record_text, records_of

TOP = os.path.realpath(os.path.join(os.path.dirname(__file__), '..', '..', '..'))
FAULT = 'a fault of cadimport, so no plan is given out; please report it with the layer'


def program(name: str) -> str:
    """The path of `cadedit` or `cadview`. Raises Refused where there is none."""
    done = subprocess.run([os.path.join(TOP, 'bin', 'program'), name], stdin=subprocess.DEVNULL,
                          stdout=subprocess.PIPE, text=True)
    if done.returncode:
        raise Refused(f'there is no program {name} to check with: bin/{name} --help says why, or builds it')
    return done.stdout.strip()


def answers(path: str, plan: bytes, script: list[bytes]) -> list[tuple[bytes, ...]]:
    """What the program answers to a script on a plan. Raises Refused where it refuses the plan."""
    done = subprocess.run([path], input=plan + b''.join(script), capture_output=True)
    if done.returncode:
        said = done.stderr.decode(errors='replace').strip() or f'status {done.returncode}'
        raise Refused(f'the program refuses the plan that was made ({said}): {FAULT}')
    return [record.fields for record in records_of(done.stdout)]


def check(path: str, made: Made) -> None:
    """Raises Refused where the program doesn't accept the plan, or its areas are not those of the faces."""
    told = {int(it[1]): int(it[3]) for it in answers(path, made.plan, [record_text(['areas'])]) if it[0] == b'area'}
    wrong = [number for number in {**told, **made.doubled} if told.get(number) != made.doubled.get(number)]
    if wrong:
        raise Refused(f'the program tells another area of parcel {wrong[0]} than its face has: {FAULT}')


def merger_text(merger: Merger) -> bytes:
    """The record of a merger."""
    return record_text(['merge', merger.kept, merger.ended])


def accepted(path: str, made: Made, mergers: list[Merger]) -> list[Merger]:
    """The mergers of these that the program makes, in their order."""
    if not mergers:
        return []
    told = answers(path, made.plan, [merger_text(it) for it in mergers[:10 * MOST_ROWS]])
    return [merger for merger, answer in zip(mergers, told) if answer[0] == b'ok']
