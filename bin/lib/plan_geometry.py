"""Why the program refused a plan for its strings: each place where points, strings and faces don't go together."""
from __future__ import annotations

from collections.abc import Callable, Iterator
from dataclasses import replace

from lib.crossings import WHERE, Place
from lib.exact import metres, point_text, square_of_distance
from lib.fans import Misfit, face_text, misfit_place, missing_string, one_way_place, one_ways, string_advice
from lib.faults import Fault
from lib.findings import Finding
from lib.outlines import face_round, hole_places, outline_places, rings_of
from lib.records import StringRow
from lib.suspects import Likely, likely_points

NEAR = 1000  # Millimetres within which the nearest point is named where a string ends nowhere.
MOST_TRIED = 100  # holes for which it is found where they lie.


def findings_of_geometry(fault: Fault) -> Iterator[Finding]:
    """Explains a fault of strings, points and faces."""
    yield from EXPLAINERS[fault.name](fault)


def broken_places(fault: Fault) -> list[Place]:
    """All places that break V3 and V4."""
    places, was_cut = fault.geometry.broken
    if was_cut:
        places = [*places, Place(WHERE, 'so many strings are near to each other that the search ended here', '')]
    return places


def with_likely(fault: Fault, finding: Finding, likely: list[Likely]) -> Finding:
    finding.likely += fault.likely(likely)
    return finding


# ---- Dangling strings

def of_dangling(fault: Fault) -> Iterator[Finding]:
    """A string that ends nowhere or parts nothing, and all others."""
    told = fault.plan.strings[int(fault.rest.split()[-1])]
    degree: dict[int, int] = {}
    for row in fault.plan.strings.values():
        for point in (row.first, row.second):
            degree[point] = degree.get(point, 0) + 1
    found = [(row, words) for row in fault.plan.strings.values() if (words := why_dangling(fault, row, degree))]
    own = next((words for row, words in found if row is told), '')
    ends = [point for point in (told.first, told.second) if degree[point] == 1]
    places = [Place(WHERE, f'point {point}', point_text(fault.geometry.at[point])) for point in ends]
    finding = fault.finding(own, told.record, [*places, *broken_places(fault)])
    loose = sorted(point for point, count in degree.items() if count == 1)
    missing = missing_string(fault.geometry.misfits)
    if missing or len(loose) == 2:
        finding.likely.append(missing or f'a string from point {loose[0]} to point {loose[1]} may be missing')
    yield with_likely(fault, finding, likely_points(fault.geometry) if fault.geometry.broken[0] else [])
    yield from fault.further([(row.record, words) for row, words in found if row is not told])


def why_dangling(fault: Fault, row: StringRow, degree: dict[int, int]) -> str:
    """In words why a string ends nowhere or parts nothing, or nothing."""
    said = []
    if row.first == row.second:
        said.append(f'both points of string {row.number} are point {row.first}')
    if row.left == row.right:
        said.append(f'string {row.number} has {face_text(row.left)} on both hands')
    for point in (row.first, row.second):
        if degree[point] == 1:
            said.append(f'no string but {row.number} is at point {point}{near_text(fault, point)}')
    return '; '.join(said)


def near_text(fault: Fault, point: int) -> str:
    """`, and point 9 is 0.003 m from it`, where one is near."""
    here = fault.geometry.at[point]
    near = [(square_of_distance(here, at), other) for other, at in fault.geometry.at.items()
            if other != point and abs(at[0] - here[0]) <= NEAR and abs(at[1] - here[1]) <= NEAR]
    if not near:
        return ''
    square, other = min(near)
    return f', and point {other} is {metres(round(square ** 0.5))} m from it'


# ---- Corners and faces

def of_corner(fault: Fault) -> Iterator[Finding]:
    """A point from which two strings lead in one direction, or to one place."""
    point = int(fault.rest.split()[-1])
    geometry = fault.geometry
    round_it = {point, *(half.far for half in geometry.fans.get(point, []))}
    found = one_ways(geometry.fans, geometry.at)
    one_way = [one_way_place(it, geometry.at) for it in found]
    own = [place for place, it in zip(one_way, found) if it.point == point] or \
        [it for it in [*geometry.broken[0], *one_way] if it.points & round_it]
    places = list(dict.fromkeys([*own, *broken_places(fault), *one_way]))
    finding = fault.finding(own[0].words if own else '', fault.plan.points[point].record, places)
    yield with_likely(fault, finding, likely_points(geometry))


def of_labels(fault: Fault) -> Iterator[Finding]:
    """A string whose neighbours have other faces: for a wrong coordinate, a wrong face or a string that is gone."""
    row = fault.plan.strings[int(fault.rest.split()[-1])]
    geometry = fault.geometry
    own = [it for it in geometry.misfits if it.after.string == row.number]
    broken = broken_places(fault)
    others = [misfit_place(it, geometry.at) for it in geometry.misfits if it not in own]
    words = '; '.join(side_text(row, it) for it in own)
    places = [*(misfit_place(it, geometry.at) for it in own), *broken, *others]
    finding = fault.finding(words, row.record, places)
    advice = '' if broken else string_advice(geometry.misfits, geometry.fans, fault.plan.strings)
    if advice:
        finding.likely.append(advice)
    yield with_likely(fault, finding, [] if advice else likely_points(geometry))


def side_text(row: StringRow, misfit: Misfit) -> str:
    """In words where the follower of a string's side has another face."""
    start = row.first if misfit.point == row.second else row.second
    said, other = misfit.after.right, misfit.half
    return (f'going from point {start} to point {misfit.point} string {row.number} has {face_text(said)} to its '
            f'left, and string {other.string}, the next one round that face, has {face_text(other.left)}')


# ---- Rules of validity

def of_breaks(fault: Fault) -> Iterator[Finding]:
    """A rule of validity that the plan breaks."""
    if fault.rest in ('V7', 'V8'):
        yield of_rings(fault)
        return
    places = broken_places(fault)
    if fault.rest == 'V6':
        places += [misfit_place(it, fault.geometry.at) for it in fault.geometry.misfits]
    likely = likely_points(fault.geometry)
    record = fault.record_of(places[0], likely) if places else None
    yield with_likely(fault, fault.finding(places[0].words if places else '', record, places), likely)


def of_rings(fault: Fault) -> Finding:
    """The rings that break V7 or V8; of a hole that lies elsewhere also where."""
    plan, at, places = fault.plan, fault.geometry.at, []
    faces: list[int] = []
    rings = rings_of(plan.strings.values(), at)
    for face in [0, *plan.parcels]:
        found = outline_places(face, rings.get(face, [])) if fault.rest == 'V7' else \
            hole_places(face, rings.get(face, []), at)
        places += found
        faces += [face] * len(found)
    by_place = {ring.wkt(): ring for face in set(faces) for ring in rings.get(face, [])}
    for i, (place, face) in enumerate(zip(places[:MOST_TRIED], faces)):
        if fault.rest == 'V8':
            lies = face_round(by_place[place.wkt], plan.strings.values(), at)
            if lies != face:
                places[i] = replace(place, words=f'{place.words}: it is in {face_text(lies)}')
    is_of_parcel = fault.rest == 'V7' and faces and faces[0] > 0
    record = plan.parcels[faces[0]].record if is_of_parcel else fault.record_of(places[0], []) if places else None
    return fault.finding(places[0].words if places else '', record, places)


EXPLAINERS: dict[str, Callable[[Fault], Iterator[Finding]]] = {
    'dangling': of_dangling, 'corner': of_corner, 'labels': of_labels, 'breaks': of_breaks}
