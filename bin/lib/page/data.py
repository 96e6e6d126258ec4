"""The data of a page: what `cadview` tells of a plan and of what differs from an older one, as short lists of numbers.

Nothing is decided here. Rows are named by their places in their tables, and a list of numbers is written as `steps`:
its first number, and then how far each is from the one before. Positions are whole millimetres from an origin, which
has the least coordinates that occur; areas are the program's text.
"""
from __future__ import annotations

from collections.abc import Iterable, Sequence
from dataclasses import dataclass, field

from lib.views import COLUMNS, Row, difference, table

Data = dict[str, object]
Ring = list[str]  # Positions as `x y` in metres, the last one not repeated.
ADDED, REMOVED, CHANGED = 'added', 'removed', 'changed'
OUTSIDE = -1  # The place of the outside among the parcels.


def steps(values: Iterable[int]) -> list[int]:
    """The first number, and then how far each is from the one before."""
    found, last = [], 0
    for value in values:
        found.append(value - last)
        last = value
    return found


def position_of(text: str) -> tuple[int, int]:
    """A position `x y` in metres with three decimals, in millimetres."""
    x, y = text.split(' ')
    return int(x.replace('.', '', 1)), int(y.replace('.', '', 1))


def inner(wkt: str) -> str:
    """What stands between the outer brackets of well-known text."""
    return wkt[wkt.index('(') + 1:-1]


def rings_of(wkt: str) -> list[Ring]:
    """The rings of a polygon."""
    return [ring.split(',')[:-1] for ring in inner(wkt)[1:-1].split('),(')]


# ---- The rows of a plan

@dataclass
class Tables:
    """The tables of a plan, by their layers."""
    rows: dict[str, list[Row]]

    def places(self, layer: str) -> dict[str, int]:
        """The place of each row by its number."""
        return {row[0]: place for place, row in enumerate(self.rows[layer])}

    def lines(self) -> dict[str, list[str]]:
        """The ends of each string by its number, in one order whichever is first."""
        return {row[0]: sorted(inner(row[-1]).split(',')) for row in self.rows['strings']}


def tables_of(cadview: str, path: str) -> Tables:
    """All tables of a plan. Raises NotShown."""
    return Tables({layer: table(cadview, path, layer) for layer in COLUMNS})


@dataclass
class Places:
    """The places of lists of sources and of positions, as the data names them."""
    sources: dict[str, int]
    lists: dict[str, int] = field(default_factory=dict)
    points: dict[str, int] = field(default_factory=dict)

    def of_list(self, numbers: str) -> int:
        """The place of a list of sources, which is given a place where it has none."""
        return self.lists.setdefault(numbers, len(self.lists))

    def lists_told(self) -> list[list[int]]:
        """The lists, each as the places of its sources."""
        return [[self.sources[it] for it in numbers.split()] for numbers in self.lists]


def points_told(rows: list[Row], origin: tuple[int, int], places: Places) -> Data:
    """The points, whose places are kept by their positions."""
    texts = [inner(wkt) for _, _, wkt in rows]
    places.points = {text: place for place, text in enumerate(texts)}
    positions = [position_of(text) for text in texts]
    return {'number': steps(int(row[0]) for row in rows), 'sources': steps(places.of_list(row[1]) for row in rows),
            'x': steps(x - origin[0] for x, _ in positions), 'y': steps(y - origin[1] for _, y in positions)}


def strings_told(rows: list[Row], parcels: dict[str, int], places: Places) -> Data:
    """The strings, with the places of their ends and of the parcels on their two hands."""
    ends = [[places.points[it] for it in inner(row[-1]).split(',')] for row in rows]
    return {'number': steps(int(row[0]) for row in rows), 'sources': steps(places.of_list(row[5]) for row in rows),
            'first': steps(first for first, _ in ends), 'second': steps(second for _, second in ends),
            'left': steps(parcels.get(row[3], OUTSIDE) for row in rows),
            'right': steps(parcels.get(row[4], OUTSIDE) for row in rows)}


def parcels_told(rows: list[Row], places: Places) -> Data:
    """The parcels: how many rings each has, how many corners each ring has, and the places of their points."""
    rings = [rings_of(row[-1]) for row in rows]
    return {'number': steps(int(row[0]) for row in rows), 'label': [row[1] for row in rows],
            'area': [row[2] for row in rows], 'sources': steps(places.of_list(row[4]) for row in rows),
            'rings': [len(it) for it in rings], 'sizes': [len(ring) for it in rings for ring in it],
            'corners': steps(places.points[text] for it in rings for ring in it for text in ring)}


def geometry_told(tables: Tables, origin: tuple[int, int], places: Places) -> Data:
    """Points, strings and parcels."""
    return {'points': points_told(tables.rows['points'], origin, places),
            'strings': strings_told(tables.rows['strings'], tables.places('parcels'), places),
            'parcels': parcels_told(tables.rows['parcels'], places)}


# ---- What differs from an older plan

def word_of(kind: str, was: str, now: str) -> str:
    """`added`, `removed` or `changed`. A parcel that a merger ended is removed, also where it came after the older
    plan."""
    gone = ('', 'retired') if kind == 'parcel' else ('',)
    if now in gone:
        return REMOVED
    return ADDED if was in gone else CHANGED


def left_over(old: Tables, new: Tables, differing: Sequence[Row]) -> Tables:
    """The rows of the old plan that a page draws: strings and points that aren't where they were, parcels that differ
    or went, and the points that these need."""
    lines, points = new.lines(), {row[0]: row[-1] for row in new.rows['points']}
    strings = [row for row in old.rows['strings'] if lines.get(row[0]) != sorted(inner(row[-1]).split(','))]
    differ = {number for kind, number, was, _ in differing if kind == 'parcel' and was}
    parcels = [row for row in old.rows['parcels'] if row[0] in differ]
    needed = {text for row in strings for text in inner(row[-1]).split(',')}
    needed |= {text for row in parcels for ring in rings_of(row[-1]) for text in ring}
    kept = [row for row in old.rows['points'] if points.get(row[0]) != row[-1] or inner(row[-1]) in needed]
    return Tables({'points': kept, 'strings': strings, 'parcels': parcels})


def changes_told(differing: Iterable[Row]) -> list[list[object]]:
    """What differs: kind, number, the word, what was and what is."""
    return [[kind, int(number), word_of(kind, was, now), was, now] for kind, number, was, now in differing]


def origin_of(*tables: Tables) -> tuple[int, int]:
    """The least coordinates of all points, in millimetres."""
    positions = [position_of(inner(row[-1])) for it in tables for row in it.rows['points']]
    return min((x for x, _ in positions), default=0), min((y for _, y in positions), default=0)


# ---- All of it

@dataclass(frozen=True)
class Asked:
    """What a page is asked for: paths of the plan and of the older one, where there is one, its name, and a title."""
    plan: str
    title: str
    old: str | None = None
    old_name: str = ''


def data_of(cadview: str, asked: Asked) -> Data:
    """The data of a page. Raises NotShown where the program refuses a plan."""
    tables = tables_of(cadview, asked.plan)
    old = tables_of(cadview, asked.old) if asked.old is not None else None
    differing = difference(cadview, asked.old, asked.plan) if asked.old is not None else []
    left = left_over(old, tables, differing) if old else None
    origin = origin_of(tables, left) if left else origin_of(tables)
    places = Places(tables.places('sources'))
    told: Data = {'title': asked.title, 'origin': list(origin), **geometry_told(tables, origin, places)}
    told['sources'] = {'number': steps(int(row[0]) for row in tables.rows['sources']),
                       'text': [row[1] for row in tables.rows['sources']]}
    told['lists'] = places.lists_told()
    told['retired'] = [int(row[0]) for row in tables.rows['retired']]
    if left and old:
        since = geometry_told(left, origin, Places(old.places('sources')))
        told['since'] = since | {'name': asked.old_name, 'changes': changes_told(differing)}
    return told
