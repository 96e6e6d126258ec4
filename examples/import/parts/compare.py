"""What a plan has, beside what its layer has, by GEOS: the polygons are those of `cadview table`, and not the
importer's."""
from __future__ import annotations

import csv
import importlib
import io
from collections.abc import Iterator
from dataclasses import dataclass
from typing import Any

from lib.importing.common import modules
from parts.common import run

gdal, ogr, _ = modules()
Polygon: Any = importlib.import_module('shapely.geometry').Polygon
MultiPolygon: Any = importlib.import_module('shapely.geometry').MultiPolygon
wkb: Any = importlib.import_module('shapely.wkb')
wkt: Any = importlib.import_module('shapely.wkt')
scale: Any = importlib.import_module('shapely.affinity').scale
unary_union: Any = importlib.import_module('shapely.ops').unary_union
prep: Any = importlib.import_module('shapely.prepared').prep
STRtree: Any = importlib.import_module('shapely.strtree').STRtree


@dataclass
class Source:
    """A row of a layer: its label and its polygon in metres."""
    label: str
    shape: Any


@dataclass
class Ground:
    """A parcel of a plan: its label, twice its area in square millimetres, and its polygon in metres."""
    label: str
    doubled: int
    shape: Any


def sources(path: str, layer: str | None, number: str | None, label: str | None, unit: float) -> dict[int, Source]:
    """The rows of a layer that have a polygon, by the numbers that the importer gives."""
    data = ogr.Open(path)
    rows = data.GetLayerByName(layer) if layer else data.GetLayer(0)
    found: dict[int, Source] = {}
    for place, feature in enumerate(rows, 1):
        geometry = feature.GetGeometryRef()
        if geometry is not None and not geometry.IsEmpty():
            flat = geometry.Clone()
            flat.FlattenTo2D()
            shape = wkb.loads(bytes(flat.ExportToWkb()))
            key = int(feature[number]) if number else place
            found[key] = Source(str(feature[label]) if label else str(key),
                                shape if unit == 1 else scale(shape, unit, unit, origin=(0, 0)))
    return found


def grounds(cadview: str, plan: str) -> dict[int, Ground]:
    """The parcels of a plan by the program's table."""
    done = run(cadview, 'table', plan)
    if done.status:
        raise ValueError(done.err)
    table = csv.DictReader(io.StringIO(done.out.decode(), newline=''))
    return {int(row['number']): Ground(row['label'], int(row['doubled']), wkt.loads(row['WKT'])) for row in table}


def wrong_grounds(parcels: dict[int, Ground]) -> Iterator[str]:
    """Parcels that aren't valid polygons, or have another area than the program tells."""
    for number, it in parcels.items():
        if not it.shape.is_valid:
            yield f'parcel {number} is not valid'
        elif abs(it.shape.area - it.doubled / 2e6) > 1e-6 * max(1.0, it.shape.area * 1e-6):
            yield f'parcel {number} has {it.shape.area} m2, and the program tells {it.doubled / 2e6}'


@dataclass
class Comparison:
    """How rows and the plan differ: the largest distance of a row's border in millimetres, how many rows were
    compared and how many are not valid polygons, and what is wrong."""
    distance: float
    compared: int
    invalid: int
    wrong: list[str]


def shape_of(parts: list[list[list[tuple[float, float]]]]) -> Any:
    """The polygons of a row whose vertices are in millimetres, in metres; None where they aren't valid."""
    polygons = [Polygon([(x / 1000, y / 1000) for x, y in part[0]],
                        [[(x / 1000, y / 1000) for x, y in ring] for ring in part[1:]])
                for part in parts if all(len(ring) > 2 for ring in part)]
    shape = MultiPolygon(polygons)
    return shape if len(polygons) == len(parts) > 0 and shape.is_valid else None


def area_off(shape: Any, parcels: dict[int, Ground]) -> float:
    """How much of a polygon the parcels that lie in it don't have, or have too much, in square metres."""
    is_in = prep(shape).contains
    found = [it.shape for it in parcels.values() if is_in(it.shape.representative_point())]
    return float(unary_union(found).symmetric_difference(shape).area) if found else float(shape.area)


def compare(rows: dict[int, Source], parcels: dict[int, Ground], bound: float, without: set[int]) -> Comparison:
    """Each valid row beside the union of the parcels that lie in it: no vertex of one border is farther from the
    other border than the bound, in millimetres, and the parcel with the row's number and label lies in it; rows
    `without` have none."""
    result = Comparison(0.0, 0, 0, [])
    shapes = [it.shape for it in parcels.values()]
    inner = {id(it): it.representative_point() for it in shapes}
    tree = STRtree(shapes)
    for number, row in rows.items():
        if not row.shape.is_valid:
            result.invalid += 1
            continue
        result.compared += 1
        is_in = prep(row.shape).contains
        own = parcels.get(number)
        if (own is None) != (number in without):
            result.wrong.append(f'row {number} has {"no" if own is None else "a"} parcel with its number')
        elif own and not (is_in(inner[id(own.shape)]) and own.label == ' '.join(row.label.split())):
            result.wrong.append(f'parcel {number}, {own.label}, does not lie in row {number}, {row.label}')
        near = [it if hasattr(it, 'area') else shapes[it] for it in tree.query(row.shape)]  # Shapely 2 tells places.
        found = [it for it in near if is_in(inner[id(it)])]
        away = 1000 * unary_union(found).boundary.hausdorff_distance(row.shape.boundary) if found else float('inf')
        result.distance = max(result.distance, away)
        if away > bound:
            result.wrong.append(f'the border of row {number} is {away:.2f} mm away from its parcels')
    return result
