"""bin/cadcheck --gpkg: the layer of findings, as GDAL reads it again."""
from __future__ import annotations

import importlib
import os
import unittest
from typing import Any

from checked import TWO_LOTS, Checked, needs_gdal, needs_program, needs_shapely

JOB = TWO_LOTS + 'add-point,7,5000,0,,,\n\nrename,101,Mill Lane 2,,,,\ndrop-point,6,,,,,\n'


@needs_shapely
@needs_gdal
@needs_program
class Layers(Checked):
    def layer(self, name: str) -> tuple[list[dict[str, Any]], str]:
        """The rows of the layer, each with its geometry as well-known text, and the name of its reference system."""
        ogr = importlib.import_module('osgeo.ogr')
        source = ogr.Open(os.path.join(self.folder, name))
        layer = source.GetLayerByName('findings')
        rows = []
        for row in layer:
            geometry = row.GetGeometryRef()
            rows.append({**row.items(), 'geometry': geometry.ExportToWkt() if geometry else None})
        return rows, layer.GetSpatialRef().GetName()

    def test_rows(self) -> None:
        status, _ = self.check(JOB, '--gpkg', 'out.gpkg', '--srs', 'EPSG:25832')
        self.assertEqual(status, 1)
        rows, system = self.layer('out.gpkg')
        self.assertEqual(system, 'ETRS89 / UTM zone 32N')
        self.assertEqual(rows, [
            {'record': 19, 'line': 19, 'kind': 'refused', 'name': '18 breaks V4', 'words': 'point 7 would lie on '
                                                                                           'string 11',
             'geometry': 'POINT (5 0)'},
            {'record': 20, 'line': 21, 'kind': 'refused', 'name': '6 no-change',
             'words': 'parcel 101 is called `Mill Lane 2` already', 'geometry': None},
            {'record': 21, 'line': 22, 'kind': 'refused', 'name': '7 not-free point 6',
             'words': 'point 6 is on strings 15 and 16: point 6', 'geometry': 'POINT (0 10)'}])

    def test_lines_and_polygons_and_no_system(self) -> None:
        self.check(TWO_LOTS + 'divide,101,1 4,18,103,x,1\nattach,parcel,102,1,,,\n', '--gpkg', 'out.gpkg')
        rows, system = self.layer('out.gpkg')
        self.assertEqual(system, 'Undefined Cartesian SRS')
        self.assertEqual([it['geometry'] for it in rows], ['POINT (20 10)', 'LINESTRING (20 10,0 0)',
                                                           'POLYGON ((10 0,20 0,20 10,10 10,10 0))'])

    def test_a_file_that_is_there(self) -> None:
        self.check(TWO_LOTS, '--gpkg', 'out.gpkg')
        self.assertEqual(self.layer('out.gpkg')[0], [])
        status, out, err = self.run_it('--gpkg', 'out.gpkg', 'job.csv')
        self.assertEqual((status, out, err), (2, '', 'cadcheck: error: out.gpkg is there already; --overwrite '
                                                     'writes over it\n'))
        self.check(JOB, '--gpkg', 'out.gpkg', '--overwrite')
        self.assertEqual(len(self.layer('out.gpkg')[0]), 3)
        self.assertEqual(sorted(os.listdir(self.folder)), ['job.csv', 'out.gpkg'])

    def test_what_cannot_be_written(self) -> None:
        self.check(JOB)
        for words, told in ((['--srs', 'EPSG:4326'], "EPSG:4326 isn't in metres, and positions are"),
                            (['--srs', 'EPSG:1'], 'EPSG:1 is no reference system that GDAL knows')):
            status, out, err = self.run_it('--gpkg', 'out.gpkg', *words, 'job.csv')
            self.assertEqual((status, out), (2, ''))
            self.assertIn(told, err)
        status, out, err = self.run_it('--gpkg', 'no/out.gpkg', 'job.csv')
        self.assertEqual((status, err), (2, "cadcheck: no/out.gpkg can't be written: No such file or directory\n"))


if __name__ == '__main__':
    unittest.main()
