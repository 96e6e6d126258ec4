"""How records are written: seven fields, as docs/FORMATS.md has them. What they may be is for the library to say."""
from __future__ import annotations

import operator
import re
from collections.abc import Iterable
from typing import SupportsIndex

FIELDS = 7
ASKS_FOR_QUOTES = re.compile('[,"\r\n]').search


def number(value: SupportsIndex) -> str:
    """A number, a face or a coordinate. Raises TypeError of what is no whole number."""
    return str(operator.index(value))


def listed(numbers: Iterable[SupportsIndex]) -> str:
    """Numbers with a space between them. Raises TypeError of what is no whole number."""
    return ' '.join(map(number, numbers))


def text(value: str) -> str:
    """A text, in quotes where it has a comma, a quote or a line end."""
    return '"' + value.replace('"', '""') + '"' if ASKS_FOR_QUOTES(value) else value


def record(*fields: str) -> bytes:
    """The record of these fields, filled up with empty ones. Raises UnicodeEncodeError of a text that isn't
    Unicode."""
    return (','.join(fields) + ',' * (FIELDS - len(fields)) + '\n').encode()
