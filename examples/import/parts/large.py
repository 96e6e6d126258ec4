"""A layer near the limits: 280 by 280 quadrilaterals, of which every seventh has a vertex that its neighbour
hasn't."""
from __future__ import annotations

import os
import random
import resource
import time

from lib.importing.common import modules
from parts.common import CADIMPORT, Count, areas, run

gdal, ogr, osr = modules()

ACROSS = 280
MOST_SECONDS, MOST_MEGABYTES = 30, 600


def write_grid(path: str, across: int) -> None:
    """Corners are off a grid of 30 m by up to 6 m; the further vertex lies on the lower side, to within a billionth
    of a metre."""
    off = random.Random(1)
    corner = {(i, j): (500000 + 30 * i + off.uniform(-6, 6), 5000000 + 30 * j + off.uniform(-6, 6))
              for i in range(across + 1) for j in range(across + 1)}
    system = osr.SpatialReference()
    system.ImportFromEPSG(25832)
    data = gdal.GetDriverByName('GPKG').Create(path, 0, 0, 0, gdal.GDT_Unknown)
    layer = data.CreateLayer('parcels', system, ogr.wkbPolygon)
    layer.CreateField(ogr.FieldDefn('no', ogr.OFTInteger))
    layer.CreateField(ogr.FieldDefn('label', ogr.OFTString))
    layer.StartTransaction()
    for number in range(across * across):
        i, j = divmod(number, across)
        a, b, c, d = corner[i, j], corner[i + 1, j], corner[i + 1, j + 1], corner[i, j + 1]
        more = [(a[0] * .37 + b[0] * .63, a[1] * .37 + b[1] * .63)] if number % 7 == 0 else []
        feature = ogr.Feature(layer.GetLayerDefn())
        feature['no'], feature['label'] = number + 1, f'Lot {i}/{j}'
        ring = ','.join('%.9f %.9f' % it for it in (a, *more, b, c, d, a))
        feature.SetGeometry(ogr.CreateGeometryFromWkt(f'POLYGON(({ring}))'))
        layer.CreateFeature(feature)
    layer.CommitTransaction()


def check(folder: str, cadedit: str, count: Count) -> None:
    """The plan is as large as it has to be, within the time and the memory."""
    path, plan = os.path.join(folder, 'grid.gpkg'), os.path.join(folder, 'grid.csv')
    write_grid(path, ACROSS)
    began = time.monotonic()
    before = resource.getrusage(resource.RUSAGE_CHILDREN)
    done = run(CADIMPORT, path, '--number', 'no', '--label', 'label', '--output', plan)
    seconds, used = time.monotonic() - began, resource.getrusage(resource.RUSAGE_CHILDREN)
    processor = used.ru_utime + used.ru_stime - before.ru_utime - before.ru_stime
    megabytes = used.ru_maxrss / 1024
    count.check('large: status', done.status and done.err)
    with open(plan, 'rb') as file:
        told = areas(cadedit, file.read())
    count.check('large: parcels', len(told) != ACROSS * ACROSS and len(told))
    count.check('large: numbers', '90161 points, 168560 strings, 78400 parcels' not in done.err and done.err)
    count.check('large: time', seconds > MOST_SECONDS and f'{seconds:.1f} s')
    count.check('large: memory', megabytes > MOST_MEGABYTES and f'{megabytes:.0f} MB')
    print(f'large: {ACROSS * ACROSS} parcels in {seconds:.1f} s, {processor:.1f} s of a processor, and '
          f'{megabytes:.0f} MB')
