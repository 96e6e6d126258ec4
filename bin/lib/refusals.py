"""Why the program refused an edit, in words, and the places on the map that show it.

The map is the one before the edit, as the program printed it. What is told here is found by this file; that the edit
is refused, and for which reason, the program has said.
"""
from __future__ import annotations

from collections import Counter
from collections.abc import Callable, Sequence
from dataclasses import dataclass
from functools import cached_property

from lib.crossings import WHERE, Place, named
from lib.edits import places_of, strings_at
from lib.exact import Position, line_text, point_text
from lib.fans import Half, face_text, fans_of
from lib.forms import MOST_SOURCES, coordinate_of, face_of, list_of, number_of, quote
from lib.outlines import Ring, face_at, face_towards, rings_of
from lib.records import LIMIT, MOST_NUMBER, MOST_ROWS, MOST_STRINGS, Plan, Record, StringRow
from lib.scripts import PARCEL, POINT, STRING, Script, where

Told = tuple[str, list[Place]]


@dataclass(frozen=True)
class Refused:
    """A refused record at its place in the script, what the program said of it, and the map before it."""
    record: Record
    place: int
    name: str
    kind: str  # What the refusal is about: a kind of row, or the rule that would break; may be empty.
    number: int  # Of that row; else 0.
    plan: Plan
    at: dict[int, Position]
    script: Script

    def field(self, place: int) -> bytes:
        """A field of the record, of which the first is its kind."""
        return self.record.fields[place]

    @cached_property
    def strings(self) -> Sequence[StringRow]:
        return list(self.plan.strings.values())

    def rings(self, face: int) -> list[Ring]:
        """The rings of a face, the outer one first."""
        return sorted(rings_of(self.strings, self.at, {face}).get(face, []), key=lambda it: it.doubled < 0)

    def fan(self, point: int) -> list[Half]:
        """The strings at a point, counterclockwise."""
        return fans_of(strings_at(point, self.plan), self.at, {point}).get(point, [])

    def spot(self, kind: str, number: int, words: str) -> list[Place]:
        """A place for a row of the map: its position, its line or its outer ring."""
        if kind == POINT and number in self.at:
            return [Place(WHERE, words, point_text(self.at[number]), frozenset([number]))]
        if kind == STRING and number in self.plan.strings:
            row = self.plan.strings[number]
            line = line_text([self.at[row.first], self.at[row.second]])
            return [Place(WHERE, words, line, strings=frozenset([number]))]
        if kind == PARCEL and (rings := self.rings(number)):
            return [Place(WHERE, words, rings[0].wkt())]
        return []


def told_of(refused: Refused) -> Told:
    """In words what is the matter, and the places that show it."""
    teller = TELLERS.get(refused.name)
    return teller(refused) if teller else ('', [])


# ---- Numbers and names

def of_range(it: Refused) -> Told:
    x = 3 if it.record.kind == b'split' else 2
    far = [f'{name} is {coordinate_of(it.field(place)):,} mm' for name, place in (('x', x), ('y', x + 1))
           if abs(coordinate_of(it.field(place))) > LIMIT]
    return f'{" and ".join(far)}, and {LIMIT:,} mm either way is the limit', []


def of_unknown(it: Refused) -> Told:
    why = it.script.why_unknown((it.kind, it.number), it.place)
    return f'there is no {it.kind} {it.number} here' + (f': {why}' if why else ''), []


def of_taken(it: Refused) -> Told:
    """Which record gave the number, and a number that is free."""
    giver = it.script.giver((it.kind, it.number), it.place)
    since = f'since {where(giver)}' if giver else ''
    rows = it.plan.named[it.kind]
    free = free_number([*rows, *(it.plan.retired if it.kind == PARCEL else ())])
    words = f'{it.kind} {it.number} is in use {since}'.rstrip() + f'; {it.kind} {free} is free'
    return words, it.spot(it.kind, it.number, f'{it.kind} {it.number}')


def of_retired(it: Refused) -> Told:
    parcel = it.number
    who = it.script.who_retired(parcel, it.place)
    free = free_number([*it.plan.parcels, *it.plan.retired])
    return f'parcel {parcel} was ended {who}'.rstrip() + f'; parcel {free} is free', []


def free_number(used: Sequence[int]) -> int:
    """The number after the greatest one, or the least free one where there is none after it."""
    greatest, numbers = max(used), set(used)
    return greatest + 1 if greatest < MOST_NUMBER else next(it for it in range(1, MOST_NUMBER) if it not in numbers)


def of_no_change(it: Refused) -> Told:
    if it.record.kind == b'rename':
        return f'parcel {number_of(it.field(1))} is called {quote(it.field(2))} already', []
    point = number_of(it.field(1))
    return f'point {point} is there already', it.spot(POINT, point, f'point {point}')


def of_outside(it: Refused) -> Told:
    place = 'first' if it.field(1) == b'0' else 'second'
    return f'the {place} of the two is the outside, 0', []


def of_same_parcel(it: Refused) -> Told:
    return f'both are parcel {number_of(it.field(1))}', []


# ---- Points and chains

def of_not_free(it: Refused) -> Told:
    strings = sorted(half.string for half in it.fan(it.number))
    return f'point {it.number} is on {named("string", strings)}', it.spot(POINT, it.number, f'point {it.number}')


def of_not_degree_two(it: Refused) -> Told:
    strings = sorted(half.string for half in it.fan(it.number))
    words = f'point {it.number} is on {named("string", strings)}' if strings else \
        f'point {it.number} is on no string; `drop-point` takes it away'
    return words, it.spot(POINT, it.number, f'point {it.number}')


def of_bad_chain(it: Refused) -> Told:
    """All causes: numbers that stand twice, and how many points and strings there are."""
    if it.record.kind == b'split':
        return f'both strings are to be {number_of(it.field(5))}', []
    points, strings = list_of(it.field(2)), list_of(it.field(3))
    is_closed = it.record.kind == b'enclose'
    least, wanted = (3, len(points)) if is_closed else (2, len(points) - 1)
    causes = [f'point {n} stands twice' for n in sorted({n for n in points if points.count(n) > 1})]
    causes += [f'string {n} stands twice' for n in sorted({n for n in strings if strings.count(n) > 1})]
    if len(points) < least:
        causes.append(f'{count(len(points), "point")}, and {least} are the least')
    elif len(strings) != wanted:
        causes.append(f'{count(len(points), "point")} and {count(len(strings), "string")}, '
                      f'where {count(wanted, "string")} {"is" if wanted == 1 else "are"} wanted')
    return '; '.join(causes), []


def count(number: int, what: str) -> str:
    return f'{number or "no"} {what}{"" if number == 1 else "s"}'


def of_not_in_parcel(it: Refused) -> Told:
    """In which face the point lies, or into which the line really leads."""
    chain, face = list_of(it.field(2)), face_of(it.field(1))
    point = it.number
    towards = chain[1] if point == chain[0] else chain[-2]
    fan = it.fan(point)
    places = it.spot(POINT, point, f'point {point}')
    if not fan:
        lies = face_at(it.at[point], it.strings, it.at)
        return (f'point {point} is on no string, in {face_text(lies)}; a line begins and ends at points of the '
                f'boundary of {face_text(face)}', places)
    line = f'the line from point {point} to point {towards}'
    places.append(Place(WHERE, line, line_text([it.at[point], it.at[towards]])))
    enters, along = face_towards(point, it.at[towards], fan, it.at)
    if along is not None:
        return f'{line} runs along string {along}', places
    return f'{line} leads into {face_text(enters)}, not into {face_text(face)}', places


def of_chain_joins_rings(it: Refused) -> Told:
    """The rings on which the line begins and ends."""
    chain, face = list_of(it.field(2)), face_of(it.field(1))
    said, places = [], []
    for point in (chain[0], chain[-1]):
        for ring in it.rings(face):
            if point in ring.points:
                said.append(f'point {point} is on the {"outer ring" if ring.doubled > 0 else "ring"} {ring.text()}')
                words = f'ring {ring.text()} of {face_text(face)}'
                places.append(Place(WHERE, words, ring.wkt(), frozenset([point])))
    return ', '.join(said), places


# ---- Mergers

def borders(it: Refused, parcel: int) -> dict[int, list[StringRow]]:
    """The faces that a parcel borders on, each with their common strings."""
    found: dict[int, list[StringRow]] = {}
    for row in it.strings:
        if parcel in (row.left, row.right):
            found.setdefault(row.right if row.left == parcel else row.left, []).append(row)
    return found


def of_not_neighbours(it: Refused) -> Told:
    kept, ended = number_of(it.field(1)), number_of(it.field(2))
    between = sorted(set(borders(it, kept)) & set(borders(it, ended)) - {0})
    words = f'{named("parcel", between)} {"borders" if len(between) == 1 else "border"} on both' if between else \
        'no parcel borders on both'
    return words, it.spot(PARCEL, kept, f'parcel {kept}') + it.spot(PARCEL, ended, f'parcel {ended}')


def of_not_one_chain(it: Refused) -> Told:
    """The stretches that the two parcels have in common, and what borders on both."""
    kept, ended = number_of(it.field(1)), number_of(it.field(2))
    pieces = chains_of(borders(it, kept)[ended], it.strings)
    between = sorted(set(borders(it, kept)) & set(borders(it, ended)) - {0})
    said = [named('string', sorted(row.number for row in piece)) for piece in pieces]
    places = [Place(WHERE, words, line_text([it.at[row.first], it.at[row.second]]), strings=frozenset([row.number]))
              for words, piece in zip(said, pieces) for row in piece]
    more = f'; {named("parcel", between)} {"borders" if len(between) == 1 else "border"} on both' if between else ''
    stretches = 'one stretch' if len(pieces) == 1 else f'{len(pieces)} stretches'
    return f'they have {stretches} in common: {" | ".join(said)}{more}', places


def chains_of(rows: list[StringRow], strings: Sequence[StringRow]) -> list[list[StringRow]]:
    """These strings in chains: two hang together at a point where no third string is."""
    ends = {point for row in rows for point in (row.first, row.second)}
    degree = Counter(point for row in strings for point in (row.first, row.second) if point in ends)
    chains: list[tuple[set[int], list[StringRow]]] = []
    for row in rows:
        inner, members = {it for it in (row.first, row.second) if degree[it] == 2}, [row]
        apart = []
        for chain in chains:
            if chain[0] & inner:
                inner, members = inner | chain[0], chain[1] + members
            else:
                apart.append(chain)
        chains = [*apart, (inner, members)]
    return [members for _, members in chains]


# ---- Sources and limits

def item_of(it: Refused) -> tuple[str, int, tuple[int, ...]]:
    """The item of an attachment, and its sources."""
    kind, number = it.field(1).decode(), number_of(it.field(2))
    return kind, number, it.plan.named[kind][number].sources


def of_attached(it: Refused) -> Told:
    kind, number, sources = item_of(it)
    words = f'{kind} {number} has {named("source", sources)}' if sources else f'{kind} {number} has no source'
    return words, it.spot(kind, number, f'{kind} {number}')


def of_full(it: Refused) -> Told:
    """Which limit would be exceeded."""
    kind = it.record.kind
    if kind == b'attach':
        item, number, sources = item_of(it)
        name = f'{item} {number}'
        return f'{name} has {len(sources)} sources, and {MOST_SOURCES} is the most', it.spot(item, number, name)
    if kind == b'join':
        joined = {source for row in strings_at(number_of(it.field(1)), it.plan) for source in row.sources}
        return f'the joined string would have {len(joined)} sources, and {MOST_SOURCES} is the most', []
    new = len(list_of(it.field(3))) if kind in (b'divide', b'enclose') else 1
    limits = {b'add-source': ['sources'], b'add-point': ['points'], b'split': ['points', 'strings'],
              b'divide': ['strings', 'parcels'], b'enclose': ['strings', 'parcels'],
              b'merge': ['retired numbers']}[kind]
    rows_of = {'sources': len(it.plan.sources), 'points': len(it.plan.points), 'parcels': len(it.plan.parcels),
               'strings': len(it.plan.strings), 'retired numbers': len(it.plan.retired)}
    past = [name for name in limits if rows_of[name] + (new if name == 'strings' else 1)
            > (MOST_STRINGS if name == 'strings' else MOST_ROWS)]
    return ' and '.join(f'the map has {rows_of[name]:,} {name}, and '
                        f'{MOST_STRINGS if name == "strings" else MOST_ROWS:,} is the most' for name in past), []


# ---- Rules of validity

def of_breaks(it: Refused) -> Told:
    places = places_of(it.kind, it.record, it.plan, it.at)
    return places[0].words if places else '', places


TELLERS: dict[str, Callable[[Refused], Told]] = {
    'range': of_range, 'unknown': of_unknown, 'taken': of_taken, 'retired': of_retired, 'outside': of_outside,
    'no-change': of_no_change, 'not-free': of_not_free, 'not-degree-two': of_not_degree_two,
    'bad-chain': of_bad_chain, 'not-in-parcel': of_not_in_parcel, 'chain-joins-rings': of_chain_joins_rings,
    'same-parcel': of_same_parcel, 'not-neighbours': of_not_neighbours, 'not-one-chain': of_not_one_chain,
    'already-attached': of_attached, 'not-attached': of_attached, 'full': of_full, 'breaks': of_breaks,
}
