"""The strings round each point in their order, and which of them tell other faces than their neighbours there.

A half is a string as it leads away from one of its points. Counterclockwise round a point the face to the left of a
half is the face to the right of the next half; where it isn't, the two are a misfit: the program tells the first of
them as `labels`, and finds no follower where two halves have one direction, which it tells as `corner`.
"""
from __future__ import annotations

from collections.abc import Iterable, Mapping
from typing import NamedTuple

from lib.crossings import Place, named
from lib.exact import Position, counterclockwise, is_same_direction, point_text
from lib.records import StringRow

MISFIT, ONE_WAY = 'faces', 'one direction'


class Half(NamedTuple):
    """A string from one of its points outwards: the other point, and the faces to the left and to the right."""
    string: int
    far: int
    left: int
    right: int


Fan = list[Half]


class Misfit(NamedTuple):
    """Two halves at a point, one after the other counterclockwise, that tell two faces between them or have one
    direction."""
    point: int
    half: Half
    after: Half

    def points(self) -> frozenset[int]:
        return frozenset((self.point, self.half.far, self.after.far))


def halves_of(row: StringRow) -> tuple[tuple[int, Half], tuple[int, Half]]:
    """The two points of a string, each with its half there."""
    return ((row.first, Half(row.number, row.second, row.left, row.right)),
            (row.second, Half(row.number, row.first, row.right, row.left)))


def fans_of(strings: Iterable[StringRow], at: Mapping[int, Position],
            points: set[int] | None = None) -> dict[int, Fan]:
    """For each point with strings, or each of these, its halves counterclockwise. Strings with unknown points are
    left out."""
    loose: dict[int, Fan] = {}
    for row in strings:
        if row.first in at and row.second in at:
            for point, half in halves_of(row):
                if points is None or point in points:
                    loose.setdefault(point, []).append(half)
    return {point: fan_at(point, fan, at) for point, fan in loose.items()}


def fan_at(point: int, fan: Fan, at: Mapping[int, Position]) -> Fan:
    """These halves of a point in their order."""
    if len(fan) < 2:
        return fan
    return counterclockwise(at[point], fan, lambda half: at[half.far])


def gaps(fan: Fan) -> list[tuple[Half, Half]]:
    """Each half with the next one counterclockwise, where they tell two faces between them."""
    return [(half, after) for half, after in zip(fan, [*fan[1:], fan[0]]) if half.left != after.right]


def misfits(fans: Mapping[int, Fan]) -> list[Misfit]:
    """All misfits, by points in the order of their strings."""
    return [Misfit(point, *gap) for point, fan in fans.items() for gap in gaps(fan)]


def face_text(face: int) -> str:
    return f'parcel {face}' if face else 'the outside'


def misfit_place(misfit: Misfit, at: Mapping[int, Position]) -> Place:
    """A misfit in words."""
    half, after = misfit.half, misfit.after
    words = (f'round point {misfit.point}, between strings {half.string} and {after.string}, string {half.string} '
             f'has {face_text(half.left)} and string {after.string} has {face_text(after.right)}')
    if half is after:
        words = (f'string {half.string} ends at point {misfit.point}, with {face_text(half.left)} on one hand and '
                 f'{face_text(half.right)} on the other')
    strings = frozenset((half.string, after.string))
    return Place(MISFIT, words, point_text(at[misfit.point]), misfit.points(), strings)


def one_ways(fans: Mapping[int, Fan], at: Mapping[int, Position]) -> list[Misfit]:
    """Where two strings leave a point in one direction, or lead from it to one place."""
    return [Misfit(point, half, after) for point, fan in fans.items() for half, after in zip(fan, [*fan[1:], fan[0]])
            if half is not after and is_same_direction(at[point], at[half.far], at[after.far])]


def one_way_place(found: Misfit, at: Mapping[int, Position]) -> Place:
    """Two strings of one direction in words."""
    strings = sorted((found.half.string, found.after.string))
    words = f'{named("string", strings)} leave point {found.point} in one direction'
    return Place(ONE_WAY, words, point_text(at[found.point]), found.points(), frozenset(strings))


# ---- What the faces of strings may have been

def string_advice(found: list[Misfit], fans: Mapping[int, Fan], strings: Mapping[int, StringRow]) -> str:
    """Which one string, with other faces, would leave no misfit, and with which; or which string is missing."""
    if not found:
        return ''
    common = frozenset.intersection(*(frozenset((it.half.string, it.after.string)) for it in found))
    touched = {it.point for it in found}
    for number in sorted(common):
        row = strings[number]
        if touched <= {row.first, row.second}:
            for words, left, right in face_changes(row, fans):
                if fits(row, left, right, fans):
                    return f'string {number}: with {words} all would fit'
    return missing_string(found)


def face_changes(row: StringRow, fans: Mapping[int, Fan]) -> list[tuple[str, int, int]]:
    """A string's faces exchanged, or one of them made what a neighbour has there."""
    changes = [('its left and right faces exchanged', row.right, row.left)]
    near = [half for point in (row.first, row.second) for half in fans[point]]
    for face in sorted({face for half in near for face in (half.left, half.right)}):
        if face not in (row.left, row.right):
            changes.append((f'{face} in the place of {row.left} to its left', face, row.right))
            changes.append((f'{face} in the place of {row.right} to its right', row.left, face))
    return changes


def fits(row: StringRow, left: int, right: int, fans: Mapping[int, Fan]) -> bool:
    """Whether no misfit is left at the string's points where it has these faces."""
    for point, faces in ((row.first, (left, right)), (row.second, (right, left))):
        fan = [it._replace(left=faces[0], right=faces[1]) if it.string == row.number else it for it in fans[point]]
        if gaps(fan):
            return False
    return True


def missing_string(found: list[Misfit]) -> str:
    """The string whose absence makes these two misfits, or nothing."""
    if len(found) != 2 or found[0].point == found[1].point:
        return ''
    (p, of_p, after_p), (q, of_q, after_q) = found
    right, left = of_p.left, after_p.right
    if (of_q.left, after_q.right) != (left, right):
        return ''
    return f'a string from point {p} to point {q}, {left} to its left and {right} to its right, may be missing'
