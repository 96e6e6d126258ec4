"""Vertices rounded to whole millimetres, and those that lie near to each other made one."""
from __future__ import annotations

import math
from collections.abc import Iterable

from lib.exact import Position

AROUND = [(i, j) for i in (-1, 0, 1) for j in (-1, 0, 1)]


def rounded(x: float, y: float) -> Position:
    """The nearest whole millimetres, the greater of two."""
    return math.floor(x + 0.5), math.floor(y + 0.5)


def reach_of(square: int) -> int:
    """The least whole number whose square is at least this one."""
    return math.isqrt(square - 1) + 1


def weld(positions: Iterable[Position], square: int) -> dict[Position, Position]:
    """Where each position goes: to the nearest one kept before it whose distance has a square of `square` at most,
    or else it is kept. So none moves by more than that, however long a row of near ones is."""
    reach = reach_of(square)
    kept: dict[Position, list[Position]] = {}
    goes: dict[Position, Position] = {}
    for place in positions:
        x, y = place
        column, line = x // reach, y // reach
        best, least = place, square + 1
        for i, j in AROUND:
            for other in kept.get((column + i, line + j), ()):
                away = (other[0] - x) ** 2 + (other[1] - y) ** 2
                if away < least:
                    best, least = other, away
        goes[place] = best
        if best is place:
            kept.setdefault((column, line), []).append(place)
    return goes
