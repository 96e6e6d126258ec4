"""The command bin/cadgpkg: a plan as a GeoPackage, by the program's tables."""
from __future__ import annotations

import argparse
import gc
import math
import os
import sys
import tempfile
from collections.abc import Callable
from typing import Any

from lib.importing.checking import program
from lib.importing.command import Parser
from lib.importing.common import Refused, check_writable, modules, one_line
from lib.importing.styles import STYLES
from lib.importing.tables import ITEMS, Tables, tables_of
from lib.views import Row

DONE, NOT_DONE, STOPPED = 0, 2, 130
NO_SYSTEM = 'Undefined Cartesian SRS'  # The GeoPackage standard's own name for coordinates on a plane alone.
DESCRIPTION = """Writes a plan as one GeoPackage: parcels, strings and points as `cadview table` tells them, the
sources, and which source stands at which item. QGIS draws it with labels. The
file is written whole or not at all."""


class Package:
    """A GeoPackage that is being written."""

    def __init__(self, path: str, system: str | None) -> None:
        gdal, self.ogr, self.osr = modules()
        self.system = self.system_of(system)
        self.data: Any = gdal.GetDriverByName('GPKG').Create(path, 0, 0, 0, gdal.GDT_Unknown)
        ogr = self.ogr
        self.types = {'text': ogr.OFTString, 'whole': ogr.OFTInteger64, 'real': ogr.OFTReal,
                      'time': ogr.OFTDateTime, 'flag': ogr.OFTInteger}

    def system_of(self, text: str | None) -> Any:
        """A reference system in metres on a plane, as a plan's coordinates are; without a text, that of no known
        place. Raises Refused where it is no such one."""
        system = self.osr.SpatialReference()
        if text is None:
            system.SetLocalCS(NO_SYSTEM)
            return system
        try:
            system.SetFromUserInput(text)
        except RuntimeError as error:
            raise Refused(f'--srs {text}: GDAL knows no such reference system; say it as EPSG:25832') from error
        if not system.IsProjected() or abs(system.GetLinearUnits() - 1) > 1e-9:
            raise Refused(f'--srs {text}: {system.GetName()} has no metres on a plane, and a plan has: name another')
        return system

    def layer(self, name: str, kind: int, key: str, columns: dict[str, str]) -> Any:
        """A new layer or table with the columns and their types; the column `key` is its rows' id, if there is
        one."""
        is_table = kind == self.ogr.wkbNone
        layer = self.data.CreateLayer(name, None if is_table else self.system, kind, [f'FID={key}'] if key else [])
        for column, text in columns.items():
            field = self.ogr.FieldDefn(column, self.types[text])
            if text == 'flag':
                field.SetSubType(self.ogr.OFSTBoolean)
            layer.CreateField(field)
        return layer

    def writer(self, layer: Any) -> Callable[[int | None, list[object], str], None]:
        """Adds a row to a layer: its id, the values of its columns, and its geometry as well-known text. Raises
        Refused where that isn't of the layer's kind."""
        feature = self.ogr.Feature(layer.GetLayerDefn())
        kind = layer.GetGeomType()

        def add(key: int | None, values: list[object], wkt: str) -> None:
            feature.SetFID(-1 if key is None else key)
            for place, value in enumerate(values):
                feature.SetField(place, value)
            if wkt:
                geometry = self.ogr.CreateGeometryFromWkt(wkt)
                if geometry.GetGeometryType() != kind:
                    raise Refused(f'the program tells {geometry.GetGeometryName()} of {layer.GetName()} {key}')
                feature.SetGeometryDirectly(geometry)
            layer.CreateFeature(feature)
        return add


# ---- The layers

def write_parcels(package: Package, rows: list[Row], texts: dict[int, str]) -> None:
    """Writes the parcels: areas in square metres, and twice those in square millimetres as text."""
    columns = {'label': 'text', 'area_m2': 'real', 'doubled_mm2': 'text', 'sources': 'text'}
    add = package.writer(package.layer('parcels', package.ogr.wkbPolygon, 'number', columns))
    for number, label, _, doubled, sources, wkt in rows:
        add(int(number), [label, int(doubled) / 2e6, doubled, sources_text(sources, texts)], wkt)


def write_strings(package: Package, rows: list[Row], texts: dict[int, str]) -> None:
    """Writes the strings: lengths in metres."""
    columns = {it: 'whole' for it in ('from', 'to', 'left', 'right')} | {'length_m': 'real', 'sources': 'text'}
    add = package.writer(package.layer('strings', package.ogr.wkbLineString, 'number', columns))
    for number, first, second, left, right, sources, wkt in rows:
        a, b = (tuple(map(float, it.split())) for it in wkt[wkt.index('(') + 1:-1].split(','))
        values = [int(first), int(second), int(left), int(right), math.dist(a, b), sources_text(sources, texts)]
        add(int(number), values, wkt)


def write_points(package: Package, rows: list[Row], texts: dict[int, str]) -> None:
    """Writes the points."""
    add = package.writer(package.layer('points', package.ogr.wkbPoint, 'number', {'sources': 'text'}))
    for number, sources, wkt in rows:
        add(int(number), [sources_text(sources, texts)], wkt)


def write_sources(package: Package, tables: Tables) -> None:
    """Writes the sources, and which source stands at which item."""
    add = package.writer(package.layer('sources', package.ogr.wkbNone, 'number', {'text': 'text'}))
    for number, text in tables.source_texts().items():
        add(number, [text], '')
    columns = {'kind': 'text', 'item': 'whole', 'source': 'whole'}
    add = package.writer(package.layer('source_items', package.ogr.wkbNone, '', columns))
    for item in tables.source_items():
        add(None, [*item], '')


def write_styles(package: Package) -> None:
    """The table from which QGIS takes the default style of a layer. It finds one that GDAL made, and no other."""
    columns = {it: 'text' for it in ('f_table_catalog', 'f_table_schema', 'f_table_name', 'f_geometry_column',
                                     'styleName', 'styleQML', 'styleSLD')}
    columns |= {'useAsDefault': 'flag', 'description': 'text', 'owner': 'text', 'ui': 'text', 'update_time': 'time'}
    add = package.writer(package.layer('layer_styles', package.ogr.wkbNone, 'id', columns))
    for name, text in STYLES.items():
        add(None, ['', '', name, 'geom', 'plan', text, '', 1, '', ''], '')


def sources_text(sources: str, texts: dict[int, str]) -> str:
    """The texts of a list of sources."""
    return '; '.join(texts[int(it)] for it in sources.split())


# ---- The command

def write(path: str, tables: Tables, system: str | None) -> None:
    """Writes the whole. Raises Refused or RuntimeError where that fails; then there is no file, or a part of one."""
    package = Package(path, system)
    package.data.StartTransaction()
    texts = tables.source_texts()
    write_parcels(package, tables.layers['parcels'], texts)
    write_strings(package, tables.layers['strings'], texts)
    write_points(package, tables.layers['points'], texts)
    write_sources(package, tables)
    write_styles(package)
    package.data.CommitTransaction()
    package.data = None


def run(given: argparse.Namespace) -> None:
    """Writes the file that is asked for. Raises Refused where that fails."""
    check_writable(given.out)
    if os.path.exists(given.out) and not given.overwrite:
        raise Refused(f'{given.out} is there already: --overwrite writes over it')
    if not os.path.isfile(given.plan):
        raise Refused(f'{given.plan} is no file: name a plan')
    tables = tables_of(program('cadview'), given.plan)
    system = given.srs or tables.system()
    real = os.path.realpath(given.out)
    with tempfile.TemporaryDirectory(prefix='.cadgpkg', dir=os.path.dirname(real)) as folder:
        part = os.path.join(folder, 'part.gpkg')
        try:
            write(part, tables, system)
            os.replace(part, real)
        except (RuntimeError, OSError) as error:
            raise Refused(f'{given.out} can\'t be written: {one_line(error)}') from error
    by = f'the reference system is {system}' if system else 'no reference system is named (--srs EPSG:..)'
    print('; '.join([', '.join(f'{len(tables.layers[name])} {name}' for name in ITEMS), by]), file=sys.stderr)


def main() -> int:
    """Runs the command. Answers its status."""
    words = Parser('cadgpkg', DESCRIPTION, 'status: 0 done; 2 not done, and one line says why')
    words.add_argument('plan', metavar='PLAN', help='a plan, or a job up to its `open`')
    words.add_argument('out', metavar='OUT.gpkg')
    words.add_argument('--srs', metavar='EPSG:..', help='the reference system; else what a source\'s text ends with')
    words.add_argument('--overwrite', action='store_true', help='writes over OUT.gpkg where it is there already')
    given = words.parse_args()
    gc.disable()  # As in bin/cadimport.
    try:
        run(given)
        return DONE
    except Refused as error:
        print(f'cadgpkg: {one_line(error)}', file=sys.stderr)
    except KeyboardInterrupt:
        return STOPPED
    except Exception as error:  # Python's own status would be no word of this command.
        print(f'cadgpkg: {type(error).__name__}: {one_line(error)}: a fault of cadgpkg; nothing is written',
              file=sys.stderr)
    return NOT_DONE
