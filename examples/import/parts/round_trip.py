"""A plan to a GeoPackage and back: the same areas, numbers, labels and points, and no finding. Numbers exchanged are
seen."""
from __future__ import annotations

import os

from lib.importing.common import modules
from parts.common import CADGPKG, CADIMPORT, DATA, TOP, Count, areas, records, run, write
from parts.compare import compare, grounds, sources

gdal, ogr, _ = modules()

WORKED = ('examples/first.csv', 'examples/block.csv', 'examples/exchange/plans/touching.csv')
LABELLED = b'''plan,2,,,,,
source,1,"Plan 1987/12, sheet ""A"", EPSG:25832",,,,
point,1,0,0,1,,
point,2,30000,0,1,,
point,3,30000,40000,1,,
point,17,0,40000,1,,
parcel,12,0012,1,,,
string,1,1,2,12,0,1
string,2,2,3,12,0,1
string,3,3,17,12,0,
string,4,17,1,12,0,
open,,,,,,
'''
BACK = ('--layer', 'parcels', '--number', 'number', '--label', 'label', '--points', 'points',
        '--point-number', 'number')
TABLES = ['parcels', 'strings', 'points', 'sources', 'source_items', 'layer_styles']


def up_to_open(path: str) -> bytes:
    """The plan of a job."""
    with open(path, 'rb') as file:
        text = file.read()
    return text[:text.index(b'open,,,,,,') + len(b'open,,,,,,\n')]


def told_of(plan: bytes) -> dict[str, object]:
    """What has to come back: labels by parcels, and places by points."""
    rows = records(plan)
    return {'parcels': {it[1]: it[2] for it in rows if it[0] == 'parcel'},
            'points': {it[1]: (it[2], it[3]) for it in rows if it[0] == 'point'}}


def check_plan(name: str, plan: bytes, folder: str, cadedit: str, count: Count) -> None:
    """One plan to a GeoPackage and back."""
    path, made = os.path.join(folder, f'{name}.csv'), os.path.join(folder, f'{name}.gpkg')
    write(path, plan)
    done = run(CADGPKG, path, made)
    if done.status:
        return count.check(f'round trip {name}', done)
    back = run(CADIMPORT, made, *BACK, '--unit', 'm')
    wrong = '' if back.status == 0 else f'status {back.status}: {back.err}'
    if not wrong and areas(cadedit, back.out) != areas(cadedit, plan):
        wrong = 'areas differ'
    if not wrong and told_of(back.out) != told_of(plan):
        wrong = 'numbers, labels or points differ'
    count.check(f'round trip {name}', wrong)


def check_columns(folder: str, count: Count) -> None:
    """Texts are texts, polygons are polygons, and the tables are those that are told."""
    path, made = write(os.path.join(folder, 'columns.csv'), LABELLED), os.path.join(folder, 'columns.gpkg')
    run(CADGPKG, path, made)
    data = ogr.Open(made)
    names = [data.GetLayer(i).GetName() for i in range(data.GetLayerCount())]
    count.check('package: tables', names != TABLES and names)
    parcels = data.GetLayerByName('parcels')
    lot = parcels.GetFeature(12)
    told = (lot['label'], lot['area_m2'], lot['doubled_mm2'], lot['sources'],
            ogr.GeometryTypeToName(parcels.GetGeomType()), parcels.GetFIDColumn(),
            parcels.GetSpatialRef().GetAuthorityCode(None))
    wanted = ('0012', 1200.0, '2400000000', 'Plan 1987/12, sheet "A", EPSG:25832', 'Polygon', 'number', '25832')
    count.check('package: parcels', told != wanted and told)
    items = [(it['kind'], it['item'], it['source']) for it in data.GetLayerByName('source_items')]
    wanted_items = [('point', it, 1) for it in (1, 2, 3, 17)]
    wanted_items += [('parcel', 12, 1), ('string', 1, 1), ('string', 2, 1)]
    count.check('package: items', items != wanted_items and items)
    styles = {it['f_table_name']: it['useAsDefault'] for it in data.GetLayerByName('layer_styles')}
    count.check('package: styles', styles != {'parcels': 1, 'strings': 1, 'points': 1} and styles)
    refused: list[tuple[list[str], str]] = [(['--srs', 'EPSG:4326'], 'has no metres on a plane'),
                                            (['--srs', 'EPSG:x'], 'GDAL knows no such'),
                                            ([], 'cadview: plan fault 12 no-open')]
    for words, line in refused:
        plan = LABELLED if words else LABELLED.removesuffix(b'open,,,,,,\n')
        wrong = write(os.path.join(folder, 'wrong.csv'), plan)
        done = run(CADGPKG, wrong, os.path.join(folder, 'wrong.gpkg'), *words)
        is_there = os.path.exists(os.path.join(folder, 'wrong.gpkg'))
        count.check(f'package: {line}', (done.status != 2 or line not in done.err or is_there) and done)


def exchanged(plan: bytes, a: str, b: str) -> bytes:
    """The plan in which two parcels have each other's numbers."""
    lines = plan.decode().splitlines(keepends=True)
    other = {a: b, b: a}
    for place, line in enumerate(lines):
        if line.startswith('parcel,'):
            kind, number, rest = line.split(',', 2)
            lines[place] = f'{kind},{other.get(number, number)},{rest}'
    return ''.join(lines).encode()


def check_exchanged(folder: str, programs: tuple[str, str], count: Count) -> None:
    """A valid plan in which two lots have each other's labels: the program can't see it, and the comparison does."""
    layer = os.path.join(DATA, 'buildings.gpkg')
    done = run(CADIMPORT, layer)
    rows = sources(layer, None, None, None, 1)
    right = write(os.path.join(folder, 'right.csv'), done.out)
    count.check('exchanged: none', compare(rows, grounds(programs[1], right), 2.13, set()).wrong)
    plan = exchanged(done.out, '3', '4')
    wrong = write(os.path.join(folder, 'exchanged.csv'), plan)
    count.check('exchanged: accepted', isinstance(areas(programs[0], plan), str))
    found = compare(rows, grounds(programs[1], wrong), 2.13, set()).wrong
    count.check('exchanged: seen', len(found) != 2 and found)


def check_all(folder: str, programs: tuple[str, str], count: Count) -> None:
    """Checks plans there and back. The programs are cadedit and cadview."""
    plans = {os.path.basename(it)[:-4]: up_to_open(os.path.join(TOP, it)) for it in WORKED}
    plans['labelled'] = LABELLED
    for name in ('virginia', 'eire', 'polygon_holes'):
        words = ['--unit', '1000'] if name == 'eire' else ['--unit', '111000'] if name == 'polygon_holes' else []
        plans[name] = run(CADIMPORT, os.path.join(DATA, f'{name}.gpkg'), *words).out
    for name, plan in plans.items():
        check_plan(name, plan, folder, programs[0], count)
    check_columns(folder, count)
    check_exchanged(folder, programs, count)
    print(f'{len(plans)} plans there and back: areas, numbers, labels and points', flush=True)


