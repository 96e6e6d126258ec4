"""The tables of a plan, by the program `cadview`."""
from __future__ import annotations

import re
from dataclasses import dataclass

from lib.importing.common import Refused
from lib.views import COLUMNS, NotShown, Row, table

SYSTEM = re.compile(r', (EPSG:[0-9]+)$')
ITEMS = {'parcels': 'parcel', 'strings': 'string', 'points': 'point'}  # The layers with sources, and what a row is.


@dataclass
class Tables:
    """What a plan has: a table for each layer, with the columns of docs/FORMATS.md."""
    layers: dict[str, list[Row]]

    def source_texts(self) -> dict[int, str]:
        """The text of each source by its number."""
        return {int(number): text for number, text in self.layers['sources']}

    def source_items(self) -> list[tuple[str, int, int]]:
        """Which source stands at which item: the item's kind and number, and the source's number; points come first."""
        return [(ITEMS[layer], int(row[0]), int(source)) for layer in ('points', 'parcels', 'strings')
                for row in self.layers[layer] for source in row[COLUMNS[layer].index('sources')].split()]

    def system(self) -> str | None:
        """The reference system that the sources' texts name at their ends, where they name one and no other."""
        found = {match[1] for text in self.source_texts().values() if (match := SYSTEM.search(text))}
        return found.pop() if len(found) == 1 else None


def table_of(cadview: str, path: str, layer: str) -> list[Row]:
    """The records of a table by `cadview table`. Raises Refused with the program's line where it refuses the
    plan."""
    try:
        return table(cadview, path, layer)
    except NotShown as error:
        raise Refused(f'{path}: {error}') from error


def tables_of(cadview: str, path: str) -> Tables:
    """All tables of a plan. Raises Refused where the program refuses it."""
    return Tables({layer: table_of(cadview, path, layer) for layer in (*ITEMS, 'sources')})
