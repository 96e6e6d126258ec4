"""What a map doesn't do, as exceptions. That memory ran out is a MemoryError, and a map that is closed a
ValueError."""
from __future__ import annotations


class CadeditError(Exception):
    """What all exceptions of this module are."""


class Refused(CadeditError):
    """An edit or a question was refused, and nothing has changed: `number` and `name` of the refusal, as
    docs/FORMATS.md lists them, and what it is about, as a `kind` and a `value`. These are empty where there is
    nothing to name."""

    def __init__(self, number: int, name: str, kind: str = '', value: str = '') -> None:
        super().__init__(number, name, kind, value)
        self.number, self.name, self.kind, self.value = number, name, kind, value

    def __str__(self) -> str:
        return ' '.join(filter(None, (str(self.number), self.name, self.kind, self.value)))


class PlanFault(CadeditError):
    """A plan wasn't opened: the fault's `number`, and its whole `text`, as `8 dangling string 4`."""

    def __init__(self, text: str) -> None:
        super().__init__(text)
        self.number, self.text = int(text.split()[0]), text


class SyntaxFault(CadeditError):
    """What was asked for has the form of no record, and nothing has changed: a number, a coordinate, a list or a text
    isn't as docs/FORMATS.md has it."""


class ThreadFault(CadeditError):
    """A map was used on another thread than the one that opened it, and nothing has changed."""


class NoLibrary(CadeditError):
    """The C library isn't there, or can't be loaded; the text says why."""
