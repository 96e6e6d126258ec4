"""Which segments may meet: pairs whose boxes overlap, found by the tree of boxes of Debian's python3-shapely.

Positions are whole millimetres up to 10^10, which are exact as floating-point numbers, so no pair is left out.
Whether a pair meets is for `exact` to say.
"""
from __future__ import annotations

import importlib
import warnings
from collections.abc import Iterator, Sequence
from typing import Any

from lib.exact import Position

PACKAGE = 'python3-shapely'


class Missing(Exception):
    """A package that is needed isn't there; its name is the exception's text."""


def check_package() -> None:
    """Raises Missing where shapely isn't there."""
    try:
        importlib.import_module('shapely.strtree')
    except ImportError as error:
        raise Missing(PACKAGE) from error


class Boxes:
    """Segments, to ask which of their boxes overlap."""

    def __init__(self, segments: Sequence[tuple[Position, Position]]) -> None:
        check_package()
        geometry = importlib.import_module('shapely.geometry')
        self.make_line: Any = geometry.LineString
        self.lines = [self.make_line(segment) for segment in segments]
        with warnings.catch_warnings():
            warnings.simplefilter('ignore')  # Version 1.8 tells that version 2 gives places alone.
            self.tree: Any = importlib.import_module('shapely.strtree').STRtree(self.lines)
        self.query: Any = getattr(self.tree, 'query_items', self.tree.query)

    def near(self, a: Position, b: Position) -> list[int]:
        """The places of the segments whose boxes overlap that of ab."""
        return [int(it) for it in self.query(self.make_line((a, b)))]

    def pairs(self, most: int) -> Iterator[tuple[int, int]]:
        """Each two places whose boxes overlap, the lesser first. Ends after about so many; `was_cut` then says
        so."""
        self.was_cut = False
        asked = 0
        for place, line in enumerate(self.lines):
            found = self.query(line)
            asked += len(found)
            for other in found:
                if other > place:
                    yield place, int(other)
            if asked > 2 * most:
                self.was_cut = place + 1 < len(self.lines)
                return
