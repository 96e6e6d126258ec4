"""Writes findings as a GeoPackage layer, by Debian's python3-gdal."""
from __future__ import annotations

import importlib
import os
import tempfile
from collections.abc import Iterable, Iterator
from typing import Any

from lib.boxes import Missing
from lib.crossings import WHERE, Place
from lib.findings import Finding

PACKAGE = 'python3-gdal'
LAYER = 'findings'
NO_SYSTEM = 'Undefined Cartesian SRS'  # The GeoPackage standard's own name for plane coordinates of no known system.
COLUMNS = ('record', 'line', 'kind', 'name', 'words')


class NotWritten(Exception):
    """The file can't be written, or the reference system isn't one of metres; the text says why."""


def gdal() -> tuple[Any, Any]:
    """GDAL's modules of layers and of reference systems. Raises Missing."""
    try:
        ogr, osr = importlib.import_module('osgeo.ogr'), importlib.import_module('osgeo.osr')
    except ImportError as error:
        raise Missing(PACKAGE) from error
    ogr.UseExceptions()
    osr.UseExceptions()
    return ogr, osr


def system_of(name: str | None) -> Any:
    """The reference system with this name, such as EPSG:25832; without one, that of plane coordinates of no known
    system. Raises NotWritten where there is none of this name, or its unit isn't the metre."""
    _, osr = gdal()
    system = osr.SpatialReference()
    if name is None:
        system.SetLocalCS(NO_SYSTEM)
        return system
    try:
        system.SetFromUserInput(name)
    except RuntimeError as error:
        raise NotWritten(f'{name} is no reference system that GDAL knows: {error}') from error
    if system.IsGeographic() or system.GetLinearUnits() != 1:
        raise NotWritten(f"{name} isn't in metres, and positions are")
    system.SetAxisMappingStrategy(osr.OAMS_TRADITIONAL_GIS_ORDER)
    return system


def write_findings(path: str, findings: Iterable[Finding], system: Any, is_overwritten: bool) -> None:
    """Writes a row for each place of a finding, or one without geometry where a finding has none. The file is there
    whole or not at all. Raises NotWritten."""
    if os.path.exists(path) and not is_overwritten:
        raise NotWritten(f'{path} is there already; --overwrite writes over it')
    ogr, _ = gdal()
    try:
        with tempfile.TemporaryDirectory(dir=os.path.dirname(path) or '.') as room:
            part = os.path.join(room, 'part.gpkg')
            write_layer(ogr, part, findings, system)
            os.replace(part, path)
    except (OSError, RuntimeError) as error:
        why = error.strerror if isinstance(error, OSError) else error
        raise NotWritten(f"{path} can't be written: {why}") from error


def write_layer(ogr: Any, path: str, findings: Iterable[Finding], system: Any) -> None:
    """Writes the layer to a new file. Raises RuntimeError where GDAL can't."""
    source = ogr.GetDriverByName('GPKG').CreateDataSource(path)
    layer = source.CreateLayer(LAYER, system, ogr.wkbUnknown)
    for name in COLUMNS:
        layer.CreateField(ogr.FieldDefn(name, ogr.OFTInteger if name in ('record', 'line') else ogr.OFTString))
    layer.StartTransaction()
    for finding in findings:
        for values, place in rows_of(finding):
            row = ogr.Feature(layer.GetLayerDefn())
            for name, value in zip(COLUMNS, values):
                if value is not None:
                    row.SetField(name, value)
            if place and place.wkt:
                row.SetGeometry(ogr.CreateGeometryFromWkt(place.wkt))
            layer.CreateFeature(row)
    layer.CommitTransaction()


def rows_of(finding: Finding) -> Iterator[tuple[tuple[int | None, int, str, str, str], Place | None]]:
    """The rows of a finding: the values of their columns, and their places."""
    record = finding.record.number if finding.record else None
    places: list[Place | None] = [*finding.places]
    for place in places or [None]:
        yield (record, finding.line, finding.kind, finding.name, words_of(finding, place)), place


def words_of(finding: Finding, place: Place | None) -> str:
    """The words of a place; where it alone doesn't say what is wrong, after the finding's."""
    if place is None:
        return finding.words
    return f'{finding.words}: {place.words}' if place.kind == WHERE else place.words
