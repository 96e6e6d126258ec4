"""Warnings of what is valid and yet odd: parcels without ground, points and strings that are too near or too
short."""
from __future__ import annotations

import math
from collections.abc import Iterator, Mapping, Sequence
from dataclasses import dataclass

from lib.crossings import Place
from lib.exact import Position, line_text, metres, square_of_distance
from lib.outlines import rings_of
from lib.records import Plan, records_of

NEAR = 10  # Millimetres: points nearer to each other, strings shorter and parcels narrower than that are told.


@dataclass(frozen=True)
class Oddity:
    """What is odd, in words, with its place, and the rows by which it is found in the plan."""
    name: str
    words: str
    kind: str
    number: int
    places: list[Place]


def doubled_areas(answer: Sequence[bytes]) -> dict[int, int]:
    """Twice the area of each parcel in square millimetres, as the program answered `areas`."""
    return {int(it.fields[1]): int(it.fields[3]) for line in answer for it in records_of(line) if it.kind == b'area'}


def oddities_of(plan: Plan, at: Mapping[int, Position], doubled: Mapping[int, int]) -> Iterator[Oddity]:
    """All oddities of a valid map, with the areas that the program tells."""
    yield from odd_areas(plan, at, doubled)
    short = {}
    for row in plan.strings.values():
        a, b = at[row.first], at[row.second]
        if square_of_distance(a, b) < NEAR * NEAR:
            short[frozenset((row.first, row.second))] = row.number
            words = f'string {row.number} is {length_text(a, b)} m long'
            yield Oddity('short string', words, 'string', row.number, [Place('short', words, line_text([a, b]))])
    for first, second in near_points(at):
        if frozenset((first, second)) not in short:
            a, b = at[first], at[second]
            words = f'points {first} and {second} are {length_text(a, b)} m from each other'
            yield Oddity('near points', words, 'point', second, [Place('near', words, line_text([a, b]))])


def length_text(a: Position, b: Position) -> str:
    """How far two positions lie from each other, in metres, to the millimetre."""
    return metres(round(math.sqrt(square_of_distance(a, b))))


def odd_areas(plan: Plan, at: Mapping[int, Position], doubled: Mapping[int, int]) -> Iterator[Oddity]:
    """Parcels whose area is zero or negative, and those whose mean width, twice their area by the length of their
    boundary, is small."""
    length: dict[int, float] = {}
    for row in plan.strings.values():
        size = math.dist(at[row.first], at[row.second])
        for face in (row.left, row.right):
            length[face] = length.get(face, 0) + size
    odd = {number: area for number, area in doubled.items() if area < NEAR * length.get(number, 0) or area <= 0}
    rings = rings_of(plan.strings.values(), at, set(odd)) if odd else {}
    for number, area in odd.items():
        places = [Place('ring', f'ring {it.text()} of parcel {number}', it.wkt()) for it in rings.get(number, [])]
        if area <= 0:
            lacking = 'no area' if area == 0 else 'a negative area'
            words = f'parcel {number} has {lacking}: twice the area is {area:,} mm2'
            yield Oddity('area', words, 'parcel', number, places)
        else:
            words = f'parcel {number} is {metres(round(area / length[number]))} m wide on the average'
            yield Oddity('narrow parcel', words, 'parcel', number, places)


def near_points(at: Mapping[int, Position]) -> Iterator[tuple[int, int]]:
    """Each two points nearer than NEAR to each other, the lesser number first: found in a grid of such cells."""
    cells: dict[tuple[int, int], list[int]] = {}
    for number, (x, y) in at.items():
        cells.setdefault((x // NEAR, y // NEAR), []).append(number)
    for (column, row), members in cells.items():
        around = [other for across in (-1, 0, 1) for up in (-1, 0, 1)
                  for other in cells.get((column + across, row + up), ())]
        for number in members:
            for other in around:
                if number < other and square_of_distance(at[number], at[other]) < NEAR * NEAR:
                    yield number, other
