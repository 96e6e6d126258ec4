"""Boundary marks: numbers of points by their place, from a layer of points."""
from __future__ import annotations

import os
from collections.abc import Iterator
from dataclasses import dataclass
from typing import Any

from lib.exact import Position, square_of_distance
from lib.forms import WrongForm, number_of
from lib.importing.common import FARTHEST, GREATEST, Refused, modules, one_line
from lib.importing.layer import column_of, layer_of, number_text, open_set, scale_of, value_text
from lib.importing.rows import Finding, Note, Wanted
from lib.importing.weld import reach_of, rounded


@dataclass(frozen=True)
class Mark:
    """A boundary mark: the number that its point is to have, and its place in whole millimetres."""
    number: int
    place: Position


# ---- Reading

def read_marks(wanted: Wanted, notes: list[Note]) -> list[Mark]:
    """The marks of --points, which is a layer of the file or a file of its own. Raises Refused where they can't be
    read."""
    if wanted.points is None:
        return []
    if wanted.point_number is None:
        raise Refused('--points asks for --point-number: the column with the number of each mark')
    data = open_set(wanted.file)
    names = [data.GetLayer(i).GetName() for i in range(data.GetLayerCount())]
    if wanted.points in names and not (os.path.exists(wanted.points) and len(names) == 1):
        layer = data.GetLayerByName(wanted.points)
    else:
        of_marks = open_set(wanted.points)
        layer = layer_of(of_marks, None, '--points FILE, a file with one layer')
    check_systems(layer_of(data, wanted.layer), layer)
    column = column_of(layer, wanted.point_number, '--point-number')
    try:
        if layer.GetFeatureCount() == 0:
            raise Refused(f'--points {wanted.points}: the layer has no rows')
        scale = scale_of(layer, wanted.unit, notes)
        return list(marks_of(layer, column, wanted.point_number, scale))
    except RuntimeError as error:
        raise Refused(f'{wanted.points} can\'t be read: {one_line(error)}') from error


def check_systems(parcels: Any, marks: Any) -> None:
    """Raises Refused where both layers name a reference system, and not the same one."""
    of_parcels, of_marks = parcels.GetSpatialRef(), marks.GetSpatialRef()
    if of_parcels and of_marks and not of_parcels.IsSame(of_marks):
        raise Refused(f'the marks are in {of_marks.GetName()} and the layer is in {of_parcels.GetName()}: project '
                      'one of them (ogr2ogr -t_srs EPSG:..)')


def marks_of(layer: Any, column: int, name: str, scale: float) -> Iterator[Mark]:
    """The marks of a layer. Raises Refused where one is no point, or has no number of its own."""
    _, ogr, _ = modules()
    seen: dict[int, int] = {}
    for feature in layer:
        who = f'row {feature.GetFID()} of --points'
        geometry = feature.GetGeometryRef()
        if geometry is None or geometry.IsEmpty() or ogr.GT_Flatten(geometry.GetGeometryType()) != ogr.wkbPoint:
            raise Refused(f'{who} is no point: name a layer of points')
        try:
            number = number_of(number_text(feature, column))
        except WrongForm:
            raise Refused(f'{who}: {name} is {value_text(feature, column)}, and a point\'s number is 1 to '
                          '999999999: leave such marks out of the layer') from None
        if number in seen:
            raise Refused(f'{name} {number} stands in row {seen[number]} and in row {feature.GetFID()} of --points: '
                          'correct one of them')
        seen[number] = feature.GetFID()
        x, y = geometry.GetX() * scale, geometry.GetY() * scale
        if not (abs(x) <= FARTHEST and abs(y) <= FARTHEST):
            raise Refused(f'{who} is more than 10000 km from 0 0, or has a coordinate that is no number')
        yield Mark(number, rounded(x, y))


# ---- Numbers

def numbers_of_points(used: list[int], points: list[Position], marks: list[Mark], square: int,
                      findings: list[Finding]) -> dict[int, int]:
    """The number of each point that is used, in their order: that of the mark within the tolerance, the nearest one,
    or else the next one above all marks. Marks that have no point, or share one, are findings."""
    taken = marked(used, points, marks, square, findings)
    following = max((mark.number for mark in marks), default=0)
    numbers = {}
    for place in used:
        if place not in taken:
            following += 1
        numbers[place] = taken.get(place, following)
    if following > GREATEST:
        raise Refused('no number above those of the marks is left for the other points: leave --points out')
    return numbers


def marked(used: list[int], points: list[Position], marks: list[Mark], square: int,
           findings: list[Finding]) -> dict[int, int]:
    """The number of each point that has a mark."""
    if not marks:
        return {}
    reach = reach_of(square)
    near: dict[Position, list[int]] = {}
    for place in used:
        x, y = points[place]
        near.setdefault((x // reach, y // reach), []).append(place)
    found = []
    for mark in marks:
        column, line = mark.place[0] // reach, mark.place[1] // reach
        beside = [(square_of_distance(points[it], mark.place), it) for i in (-1, 0, 1) for j in (-1, 0, 1)
                  for it in near.get((column + i, line + j), ())]
        found.append((*min(beside, default=(square + 1, 0)), mark))
    taken: dict[int, int] = {}
    for away, place, mark in sorted(found, key=lambda it: (it[0], it[2].number)):
        if away > square:
            findings.append(Finding('mark', [mark.number], mark.place,
                                    f'no point of a border is at mark {mark.number}'))
        elif place in taken:
            findings.append(Finding('mark', [mark.number, taken[place]], mark.place,
                                    f'mark {mark.number} is at the point that mark {taken[place]} numbers'))
        else:
            taken[place] = mark.number
    return taken
