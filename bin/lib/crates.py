"""The crates of this repository: what stands on what, and which of them the most work waits for."""
from __future__ import annotations

import os
from collections.abc import Iterable

TOP = os.path.dirname(os.path.dirname(os.path.dirname(os.path.realpath(__file__))))
PARTS = ('src', 'specs', 'proofs')
Crates = dict[str, list[str]]


def named_in(text: str) -> Crates:
    """Each crate of the text of a crates.txt, with all that its line names, libraries of the kit too."""
    lines = (line.split('#')[0].partition(':') for line in text.splitlines())
    return {name.split()[0]: below.split() for name, colon, below in lines if colon}


def crates_of(path: str) -> Crates:
    """Each crate of a crates.txt, with those of this repository that it names."""
    with open(path, encoding='utf-8') as file:
        named = named_in(file.read())
    return {name: [it for it in below if it in named] for name, below in named.items()}


def with_below(names: Iterable[str], crates: Crates) -> list[str]:
    """These crates and all below them, each once, and lower ones first."""
    ordered: dict[str, None] = {}

    def put(name: str) -> None:
        if name not in ordered:
            for below in crates[name]:
                put(below)
            ordered[name] = None

    for name in names:
        put(name)
    return list(ordered)


def work_of(name: str) -> int:
    """How long a crate takes, roughly: in lines of code, five lines of proof for one."""
    total = 300
    for part in PARTS:
        for at, _, files in os.walk(os.path.join(TOP, 'crates', name, part)):
            for file in files:
                with open(os.path.join(at, file), 'rb') as text:
                    total += text.read().count(b'\n') * (5 if file.endswith('.rt') else 1) // 5
    return total


def work_behind(crates: Crates) -> dict[str, int]:
    """Of each crate how much work there is in the longest chain of crates that begins with it, in the same lines."""
    behind: dict[str, int] = {}

    def of(name: str) -> int:
        if name not in behind:
            behind[name] = work_of(name) + max((of(it) for it in crates if name in crates[it]), default=0)
        return behind[name]

    return {name: of(name) for name in crates}
