"""Reads a layer of polygons by GDAL: rows, numbers, labels and vertices in millimetres."""
from __future__ import annotations

import math
import os
from typing import Any

from lib.forms import WrongForm, number_of
from lib.importing.arcs import arc_ring
from lib.importing.common import DISTRICTS, MOST_ROWS, Refused, clipped, listed, modules, one_line
from lib.importing.rows import Finding, Layer, Note, Part, Ring, Row, Wanted

UNITS = {'mm': 0.001, 'm': 1.0, 'km': 1000.0, 'ft': 0.3048, 'us-ft': 1200 / 3937}  # Metres.
DEGREES = 360
EAST, NORTH = 3, 1  # OAO_East, OAO_North of GDAL.
IS_FID = -1  # The place of the column that is the row's id.
NOTHING = 'there is nothing to make parcels of: name another layer'
UNDEFINED = 'Undefined'  # What a GeoPackage calls a system that isn't named.


# ---- The layer

def open_set(file: str) -> Any:
    """The data set of a file, or of whatever GDAL opens under this name."""
    gdal, _, _ = modules()
    try:
        return gdal.OpenEx(file, gdal.OF_VECTOR)
    except RuntimeError as error:
        raise Refused(f'{file} can\'t be opened: {one_line(error)}. What can: a GeoPackage, a Shapefile, GeoJSON, '
                      'GML, CSV with a column WKT, PG:dbname=.. (ogrinfo --formats)') from error


def layer_of(data: Any, name: str | None, option: str = '--layer') -> Any:
    """The layer with this name, or the only one."""
    names = [data.GetLayer(i).GetName() for i in range(data.GetLayerCount())]
    if name is not None:
        if name not in names:
            raise Refused(f'there is no layer {name}; name one of these by {option}: {listed(names)}')
        return data.GetLayerByName(name)
    if len(names) == 1:
        return data.GetLayer(0)
    if not names:
        raise Refused('there is no layer in it: name another file')
    raise Refused(f'there are {len(names)} layers; name one by {option}: {listed(names)}')


def column_of(layer: Any, name: str, option: str) -> int:
    """The place of a column, or IS_FID where it is that of the rows' ids."""
    layout = layer.GetLayerDefn()
    names = [layout.GetFieldDefn(i).GetName() for i in range(layout.GetFieldCount())]
    if name in names:
        return names.index(name)
    ids = layer.GetFIDColumn() or 'fid'
    if name == ids:
        return IS_FID
    raise Refused(f'there is no column {name}; name one of these by {option}: {listed([ids, *names])}')


def set_text(data: Any, layer: Any, file: str, scale: float) -> str:
    """The text of the source that the layer is to the plan: the file, the layer, and the reference system where the
    plan's coordinates are in it. The words by which a database is opened aren't told."""
    base = os.path.basename(file.rstrip('/')) if os.path.exists(file) or file.startswith('/vsi') else ''
    name = layer.GetName()
    text = base if os.path.splitext(base)[0] == name else f'{base or data.GetDriver().ShortName}, layer {name}'
    system = layer.GetSpatialRef()
    code = system.GetAuthorityCode(None) if system else None
    suffix = f', {system.GetAuthorityName(None)}:{code}' if code and scale == 1000 else ''
    return clipped(text, 80 - len(suffix)) + suffix


# ---- Units

def unit_of(text: str) -> float:
    """A unit of --unit in millimetres."""
    try:
        metres = UNITS[text] if text in UNITS else float(text)
    except ValueError:
        metres = 0
    if not (math.isfinite(metres) and metres > 0):
        raise Refused(f'--unit {text}: a unit is one of {listed(UNITS)}, or so many metres')
    return metres * 1000


def scale_of(layer: Any, unit: str | None, notes: list[Note]) -> float:
    """How many millimetres a unit of the layer's coordinates has. Degrees are refused."""
    system = layer.GetSpatialRef()
    if unit is not None:
        return unit_of(unit)
    if system is None or str(system.GetName()).startswith(UNDEFINED):
        if max(abs(float(it)) for it in layer.GetExtent()) <= DEGREES:
            raise Refused('no reference system is named, and all coordinates lie within 360. If they are degrees, '
                          'project the layer: ogr2ogr -s_srs EPSG:4326 -t_srs EPSG:.. ; if not, say --unit m')
        notes.append(Note('no reference system is named: coordinates are taken for metres (--unit says otherwise)'))
        return 1000.0
    if system.IsGeographic():
        raise Refused(f'the coordinates are degrees ({system.GetName()}), and a plan has millimetres on a plane. '
                      "Project the layer to your office's system: ogr2ogr -t_srs EPSG:.. ; or say --unit m")
    axes = [system.GetAxisOrientation(None, it - 1) for it in system.GetDataAxisToSRSAxisMapping()[:2]]
    if system.IsProjected() and sorted(axes) != [NORTH, EAST]:
        notes.append(Note(f'the axes of {system.GetName()} are not to the east and north: taken as if they were'))
    scale = float(system.GetLinearUnits()) * 1000
    if abs(scale - 1000) < 1e-9:
        return 1000.0
    notes.append(Note(f'the unit is {system.GetLinearUnitsName()}, {scale!r} mm; the plan is in millimetres'))
    return scale


# ---- Columns

class Columns:
    """The columns that are asked for."""

    def __init__(self, layer: Any, wanted: Wanted) -> None:
        self.wanted = wanted
        self.number, self.label, self.source = (
            None if name is None else column_of(layer, name, f'--{option}')
            for option, name in (('number', wanted.number), ('label', wanted.label), ('source', wanted.source)))
        self.seen: dict[int, int] = {}

    def row_of(self, feature: Any, place: int, notes: list[Note]) -> Row:
        """The row with its number and its texts, without its polygons."""
        fid = int(feature.GetFID())
        number = place if self.number is None else self.number_of(feature, self.number, fid)
        key = '' if self.label is None else text_at(feature, self.label)
        row = Row(number, clipped(key) or str(number), fid, key or str(number))
        if self.source is not None:
            text = text_at(feature, self.source)
            row.source = clipped(text)
            if row.source != text:
                changed = f'the source {text!r} became {row.source!r} (80 bytes, single spaces)'
                notes.append(Note(f'{number}: {changed}', row))
        if self.label is not None and not key.strip():
            notes.append(Note(f'{number}: the label is empty; its number is taken', row))
        elif key and row.label != key:
            notes.append(Note(f'{number}: the label {key!r} became {row.label!r} (80 bytes, single spaces)', row))
        return row

    def number_of(self, feature: Any, column: int, fid: int) -> int:
        """A row's number. Raises Refused where it is none, or another row has it."""
        name = self.wanted.number
        remedy = 'leave --number out and give the column as --label'
        try:
            number = number_of(number_text(feature, column))
        except WrongForm:
            raise Refused(f'row {fid}: {name} is {value_text(feature, column)}, and a number is 1 to 999999999: '
                          f'{remedy}') from None
        if number in self.seen:
            raise Refused(f'{name} {number} stands in row {self.seen[number]} and in row {fid}: put such rows '
                          f'together first, or {remedy}')
        self.seen[number] = fid
        return number


def text_at(feature: Any, column: int) -> str:
    """A column's value as text; what isn't UTF-8 is taken for Latin-1."""
    if column == IS_FID:
        return str(feature.GetFID())
    text = feature.GetFieldAsString(column)
    return text.decode('latin-1') if isinstance(text, bytes) else str(text)


def value_text(feature: Any, column: int) -> str:
    """A column's value as it is told."""
    return repr(text_at(feature, column)) if column == IS_FID or feature.IsFieldSetAndNotNull(column) else 'empty'


def number_text(feature: Any, column: int) -> bytes:
    """A column's value as the text of a number."""
    if column == IS_FID:
        return b'%d' % feature.GetFID()
    value = feature.GetField(column) if feature.IsFieldSetAndNotNull(column) else ''
    whole = int(value) if isinstance(value, float) and value.is_integer() else value
    return str(whole).encode(errors='replace')


# ---- Polygons

class Shapes:
    """Makes parts of geometries."""

    def __init__(self, scale: float, chord: float | None, notes: list[Note]) -> None:
        _, self.ogr, _ = modules()
        self.scale, self.chord, self.notes = scale, chord, notes
        self.has_heights = False

    def parts_of(self, row: Row, geometry: Any) -> list[Part]:
        """The parts of a row's geometry."""
        who = f'row {row.row} ({row.number})'
        if geometry.HasCurveGeometry(1):
            if self.chord is None:
                raise Refused(f'{who} has arcs, and strings are straight: --chord MM makes chords that stay so near')
            self.notes.append(Note(f'{row.number}: arcs were made chords', row))
        self.has_heights = self.has_heights or bool(geometry.Is3D())
        return [self.part_of(row, who, it) for it in self.polygons_of(who, geometry)]

    def polygons_of(self, who: str, geometry: Any) -> list[Any]:
        """The polygons of a geometry. Raises Refused where it has something else."""
        ogr = self.ogr
        kind = ogr.GT_Flatten(geometry.GetGeometryType())
        if kind in (ogr.wkbPolygon, ogr.wkbCurvePolygon):
            return [geometry]
        if kind in (ogr.wkbMultiPolygon, ogr.wkbGeometryCollection, ogr.wkbMultiSurface):
            parts = [geometry.GetGeometryRef(i) for i in range(geometry.GetGeometryCount())]
            return [it for part in parts for it in self.polygons_of(who, part)]
        name = geometry.GetGeometryName()
        raise Refused(f'{who} is or has a {name}, and only polygons become parcels: leave such rows out by --where, '
                      'or make polygons of them')

    def part_of(self, row: Row, who: str, polygon: Any) -> Part:
        """The rings of a polygon. Raises Refused where a coordinate is no number."""
        part = []
        for i in range(polygon.GetGeometryCount()):
            ring = self.ring_of(polygon.GetGeometryRef(i))
            if ring and not math.isfinite(sum(x + y for x, y in ring)):
                raise Refused(f'{who} has a coordinate that is no number: correct it, or leave it out by --where')
            if ring and ring[0] == ring[-1]:
                ring.pop()
            elif ring:
                self.notes.append(Note(f'{row.number}: a ring was not closed', row))
            part.append(ring)
        return part

    def ring_of(self, line: Any) -> Ring:
        """The vertices of a ring in millimetres, the last one too."""
        scale = self.scale
        name = line.GetGeometryName()
        if name == 'COMPOUNDCURVE':
            pieces = [self.ring_of(line.GetGeometryRef(i)) for i in range(line.GetGeometryCount())]
            return pieces[0] + [it for piece in pieces[1:] for it in piece[1:]] if pieces else []
        ring = [(x * scale, y * scale) for x, y in line.GetPoints(2) or ()]
        return arc_ring(ring, self.chord or 1.0) if name == 'CIRCULARSTRING' else ring


# ---- The whole

def read_layer(wanted: Wanted) -> Layer:
    """Reads the layer. Raises Refused where no plan can be made of it."""
    data = open_set(wanted.file)
    layer = layer_of(data, wanted.layer)
    count = count_of(layer, wanted.where)
    if count == 0:
        raise Refused('the layer has no rows' + (' of which --where is true' if wanted.where else ''))
    if count > MOST_ROWS:
        raise Refused(f'there are {count} rows, and a plan has {MOST_ROWS} parcels at most. {DISTRICTS}')
    if layer.GetGeomType() == modules()[1].wkbNone:
        raise Refused(f'the layer has no geometry, so {NOTHING} (in a CSV file it is the column WKT)')
    columns = Columns(layer, wanted)
    notes: list[Note] = []
    try:
        scale = scale_of(layer, wanted.unit, notes)
        read = Layer(set_text(data, layer, wanted.file, scale), [], notes)
        read_rows(layer, columns, Shapes(scale, wanted.chord, notes), read)
    except RuntimeError as error:
        raise Refused(f'{wanted.file} can\'t be read: {one_line(error)}') from error
    return read


def count_of(layer: Any, where: str | None) -> int:
    """How many rows there are, of which `where` is true."""
    try:
        if where is not None:
            layer.SetAttributeFilter(where)
        return int(layer.GetFeatureCount())
    except RuntimeError as error:
        what = f'--where {where!r} can\'t be understood' if where is not None else 'the layer can\'t be read'
        raise Refused(f'{what}: {one_line(error)}') from error


def read_rows(layer: Any, columns: Columns, shapes: Shapes, read: Layer) -> None:
    """Reads all rows. Raises Refused where one is no polygon, or none has a geometry."""
    for place, feature in enumerate(layer, 1):
        row = columns.row_of(feature, place, read.notes)
        read.rows.append(row)
        geometry = feature.GetGeometryRef()
        if geometry is None or geometry.IsEmpty():
            read.findings.append(Finding('no-geometry', [row.number], None,
                                         'the row has no geometry: it is not in the plan'))
        else:
            row.parts = shapes.parts_of(row, geometry)
    if not any(row.parts for row in read.rows):
        raise Refused(f'no row has a geometry, so {NOTHING}')
    if shapes.has_heights:
        read.notes.append(Note('heights were left out'))
