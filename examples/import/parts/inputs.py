"""Small inputs by hand: those that are refused, with their lines, and those that are told, with their findings."""
from __future__ import annotations

import math
import os
import re
import shutil
from collections.abc import Callable
from dataclasses import dataclass

from lib.importing.common import modules
from parts.common import CADIMPORT, DATA, TOP, Count, areas, records, run, write

gdal, ogr, osr = modules()

SQUARE = 'POLYGON((0 0,10 0,10 10,0 10,0 0))'
BESIDE = 'POLYGON((10 0,20 0,20 10,10 10,10 0))'
HALF_ROUND = 'CURVEPOLYGON(COMPOUNDCURVE(CIRCULARSTRING(0 0,5 5,10 0),(10 0,0 0)))'
Rows = list[tuple[str, str]]  # A key, and a geometry as well-known text.


@dataclass
class Case:
    """An input, the words beside it, the status, and what a line on standard error has to say."""
    name: str
    make: Callable[[str], str]  # The file, made in a folder.
    words: list[str]
    status: int
    line: str


def package(rows: Rows, system: int = 0, layer: str = 'lots') -> Callable[[str], str]:
    """A GeoPackage with these rows."""
    def make(folder: str) -> str:
        path = os.path.join(folder, f'{layer}.gpkg')
        data = gdal.GetDriverByName('GPKG').Create(path, 0, 0, 0, gdal.GDT_Unknown)
        reference = None
        if system:
            reference = osr.SpatialReference()
            reference.ImportFromEPSG(system)
        lots = data.CreateLayer(layer, reference, ogr.wkbUnknown)
        lots.CreateField(ogr.FieldDefn('key', ogr.OFTString))
        for key, text in rows:
            feature = ogr.Feature(lots.GetLayerDefn())
            feature['key'] = key
            if text:
                feature.SetGeometry(ogr.CreateGeometryFromWkt(text))
            lots.CreateFeature(feature)
        return path
    return make


def given(path: str) -> Callable[[str], str]:
    """A file that is there, or isn't."""
    return lambda folder: path


def table(text: str) -> Callable[[str], str]:
    """A CSV file with a column WKT."""
    return lambda folder: write(os.path.join(folder, 'lots.csv'), text.encode())


def many(count: int) -> Callable[[str], str]:
    """So many rows of one square."""
    return table('key,WKT\n' + f'1,"{SQUARE}"\n' * count)


def comb(teeth: int) -> Callable[[str], str]:
    """One polygon of twice so many vertices and two more."""
    ring = [f'{i} {j}' for i in range(teeth) for j in ((0, 5) if i % 2 == 0 else (5, 0))]
    return table(f'key,WKT\n1,"POLYGON((0 -9,{",".join(ring)},{teeth - 1} -9,0 -9))"\n')


def several(folder: str) -> str:
    """A GeoPackage with two layers."""
    path = LOTS(folder)
    data = gdal.OpenEx(path, gdal.OF_VECTOR | gdal.OF_UPDATE)
    data.CreateLayer('more', data.GetLayer(0).GetSpatialRef(), ogr.wkbPolygon)
    return path


LOTS = package([('1', SQUARE), ('2', BESIDE)], 25832)
REFUSED = [
    Case('no such file', given('/no/such.gpkg'), [], 2, r"can't be opened: .*No such file.*GeoPackage"),
    Case('no such layer', LOTS, ['--layer', 'lot'], 2, r'there is no layer lot; name one of these by --layer: lots'),
    Case('no such column', LOTS, ['--number', 'no'], 2,
         r'there is no column no; name one of these by --number: fid, key'),
    Case('wrong condition', LOTS, ['--where', 'no = 1'], 2, r"--where 'no = 1' can't be understood: "),
    Case('no rows', LOTS, ['--where', "key = '9'"], 2, r'the layer has no rows of which --where is true'),
    Case('wrong tolerance', LOTS, ['--tolerance', '0.5'], 2, r'--tolerance is from 1 mm'),
    Case('wrong sliver', LOTS, ['--sliver', '-1'], 2, r'--sliver is from 0 to 1000000 mm'),
    Case('wrong unit', LOTS, ['--unit', 'feet'], 2,
         r'--unit feet: a unit is one of mm, m, km, ft, us-ft, or so many metres'),
    Case('wrong word', LOTS, ['--lable', 'key'], 2, r'unrecognized arguments: --lable key \(cadimport --help\)'),
    Case('no folder', LOTS, ['--report', '/no/such/report.csv'], 2,
         r"/no/such/report.csv can't be written: there is no folder"),
    Case('degrees', given(os.path.join(DATA, 'nc.gpkg')), [], 2,
         r'the coordinates are degrees \(NAD27\).*ogr2ogr -t_srs EPSG'),
    Case('no system', package([('1', SQUARE)]), [], 2,
         r'no reference system is named, and all coordinates lie within 360\.'),
    Case('no number', package([('1', SQUARE), ('1234/5', BESIDE)], 25832), ['--number', 'key'], 2,
         r"row 2: key is '1234/5', and a number is 1 to 999999999: leave --number out and give the column as "
         '--label'),
    Case('number 0012', package([('0012', SQUARE)], 25832), ['--number', 'key'], 2,
         r"row 1: key is '0012', and a number is"),
    Case('empty number', package([('', SQUARE)], 25832), ['--number', 'key'], 2,
         r"row 1: key is '', and a number is"),
    Case('number twice', package([('7', SQUARE), ('7', BESIDE)], 25832), ['--number', 'key'], 2,
         r'key 7 stands in row 1 and in row 2: put such rows together first, or leave --number out'),
    Case('no number left', package([('999999999', SQUARE), ('2', 'POLYGON((5 0,20 0,20 10,5 10,5 0))')], 25832),
         ['--number', 'key'], 2, r'a number above 999999999 is wanted .* leave --number out'),
    Case('arcs', package([('1', HALF_ROUND)], 25832), [], 2, r'row 1 \(1\) has arcs, .* --chord MM'),
    Case('line', package([('1', SQUARE), ('2', 'LINESTRING(0 0,1 1)')], 25832), [], 2,
         r'row 2 \(2\) is or has a LINESTRING'),
    Case('point', package([('1', 'POINT(0 0)')], 25832), [], 2, r'row 1 \(1\) is or has a POINT, and only polygons'),
    Case('collection', package([('1', f'GEOMETRYCOLLECTION({SQUARE},POINT(1 1))')], 25832), [], 2,
         r'row 1 \(1\) is or has a POINT'),
    Case('off the map', package([('1', 'POLYGON((0 0,20000000 0,0 9,0 0))')], 25832), [], 2,
         r'row 1 \(1\) has a vertex at 20000000.000 0.000, more than 10000 km from 0 0'),
    Case('no area', package([('1', 'POLYGON((0 0,10 0,5 0,0 0))')], 25832), [], 2, r'no ring has an area'),
    Case('too many rows', many(100_001), ['--unit', 'm'], 2,
         r'there are 100001 rows, .* Cut the layer into districts by --where'),
    Case('too many points', comb(50_000), ['--unit', 'm'], 2,
         r'there would be 100002 points, and a plan has 100000 at most\. Cut the layer into districts by --where'),
    Case('survey with files', LOTS, ['--survey', '--edits', 'e.csv'], 2,
         r'--survey writes its table to standard output alone'),
    Case('no geometry at all', table('key,note\n1,a\n'), [], 2, r'the layer has no geometry.*column WKT'),
    Case('rows without geometry', package([('1', '')], 25832), [], 2, r'no row has a geometry, so there is nothing'),
    Case('one file twice', LOTS, ['--report', '/tmp/same.csv', '--edits', '/tmp/same.csv'], 2,
         r'are one file: name another'),
    Case('several layers', several, [], 2, r'there are 2 layers; name one by --layer: lots, more'),
    Case('marks without numbers', LOTS, ['--points', 'lots'], 2, r'--points asks for --point-number'),
    Case('marks that are no points', LOTS, ['--points', 'lots', '--point-number', 'key'], 2,
         r'row 1 of --points is no point'),
]
TOLD = [
    Case('nothing to tell', LOTS, ['--label', 'key'], 0, r'2 rows with 2 parts, .*: 6 points, 7 strings, 2 parcels'),
    Case('feet', package([('1', 'POLYGON((0 0,1000 0,1000 1000,0 1000,0 0))')], 2263), [], 0,
         r'note: the unit is US survey foot, 304\.8\d* mm'),
    Case('no system, far off', package([('1', 'POLYGON((400 0,1000 0,1000 1000,400 0))')]), [], 0,
         r'note: no reference system is named: coordinates are taken for metres'),
    Case('keys with letters', package([('1234/5', SQUARE)], 25832), ['--label', 'key'], 0, r'1 parcels'),
    Case('arcs as chords', package([('1', HALF_ROUND)], 25832), ['--chord', '10'], 0,
         r'note: 1: arcs were made chords'),
    Case('no geometry', package([('1', SQUARE), ('2', '')], 25832), [], 1,
         r'no-geometry: 1: 2, the row has no geometry'),
    Case('empty label', package([('', SQUARE)], 25832), ['--label', 'key'], 0, r'note: 1: the label is empty'),
    Case('long label', package([('é' * 41, SQUARE)], 25832), ['--label', 'key'], 0,
         r"note: 1: the label 'é{41}' became 'é{40}'"),
    Case('heights', package([('1', 'POLYGON Z((0 0 1,10 0 1,10 10 1,0 0 1))')], 25832), [], 0,
         r'note: heights were left out'),
    Case('ring not closed', table('key,WKT\n1,"POLYGON((0 0,10 0,10 10,0 10))"\n'), ['--unit', 'm'], 0,
         r'note: 1: a ring was not closed'),
    Case('open gap', package([('1', SQUARE), ('2', 'POLYGON((10.003 0,20 0,20 10,10.003 10,10.003 0))')], 25832),
         [], 1,
         r'open-gap: 1 at 10\.000 0\.000: 1 2, borders of 1 2 come as near as 3\.0 mm'),
    Case('open gap that is wide', package([('1', SQUARE), ('2', 'POLYGON((10.2 0,20 0,20 10,10.2 0))')], 25832),
         [], 0, r'2 parcels'),
    Case('spike', package([('1', 'POLYGON((0 0,10 0,10 10,10 12,10 10,0 10,0 0))')], 25832), [], 1,
         r'spike: 1 at 10\.000 10\.000: 1, the row goes along this line to and fro, 2\.000 m'),
    Case('collapsed', package([('1', SQUARE), ('2', 'POLYGON((30 0,40 0,30 0.0003,30 0))')], 25832), [], 1,
         r'collapsed: 1, .* at 30\.000 0\.000: 2, a ring fell to a line or a point'),
]
# What each finding is worth in square metres, and what its parcel is called: by hand.
FOUND = [
    ('overlap', [('1', SQUARE), ('2', 'POLYGON((8 0,20 0,20 10,8 10,8 0))')], 'overlap', '20.000000',
     'overlap of 1 2'),
    ('gap', [('1', SQUARE), ('2', 'POLYGON((0 20,30 20,30 -9,0 -9,0 0,10 0,10 10,12 10,12 12,0 12,0 20))'),
             ('3', 'POLYGON((0 10,10 10,10 12,0 12,0 10))')], 'gap', '4.000000', 'gap between 2 3'),
    ('hole', [('1', 'POLYGON((0 0,10 0,10 10,0 10,0 0),(2 2,2 5,5 5,5 2,2 2))')], 'hole', '9.000000', 'hole in 1'),
    ('part', [('1', f'MULTIPOLYGON({SQUARE[7:]},((20 0,22 0,22 2,20 0)))')], 'part', '2.000000', '1 (part 2 of 2)'),
    ('bow-tie', [('1', 'POLYGON((0 0,10 10,10 0,0 8,0 0))')], 'crossing', '', 'self-crossing of 1'),
    ('row twice', [('1', SQUARE), ('2', SQUARE), ('3', BESIDE)], 'overlap', '100.000000', 'overlap of 1 2'),
]


def check_case(case: Case, folder: str, count: Count) -> None:
    """One line where it is refused, and nothing given out; else a plan."""
    inner = os.path.join(folder, re.sub(r'\W', '-', case.name))
    os.mkdir(inner)
    done = run(CADIMPORT, case.make(inner), *case.words)
    lines = done.err.splitlines()
    if done.status != case.status:
        wrong = f'status {done.status}: {done.err}'
    elif case.status == 2:
        wrong = '' if len(lines) == 1 and lines[0].startswith('cadimport: ') and re.search(case.line, lines[0]) \
            and not done.out else f'{done.err}{len(done.out)} bytes'
    else:
        is_told = any(re.search(case.line, it) for it in lines)
        wrong = '' if is_told and done.out.endswith(b'open,,,,,,\n') else done.err
    count.check(f'input: {case.name}', wrong)


def check_found(name: str, rows: Rows, kind: str, area: str, label: str, folder: str, cadedit: str,
                count: Count) -> None:
    """A finding with its area, and its parcel with its label."""
    inner = os.path.join(folder, f'found-{name.replace(" ", "-")}')
    os.mkdir(inner)
    report = os.path.join(inner, 'report.csv')
    done = run(CADIMPORT, package(rows, 25832)(inner), '--report', report)
    wrong = '' if done.status == 1 else f'status {done.status}: {done.err}'
    if not wrong:
        with open(report, 'rb') as file:
            found = [it for it in records(file.read()) if it[0] == kind]
        told = areas(cadedit, done.out)
        labels = {it[2]: int(it[1]) for it in records(done.out) if it[0] == 'parcel'}
        number = labels.get(label)
        is_told = not isinstance(told, str) and number is not None and any(
            area in ('', it[4]) and it[1].split()[0] == str(number) and f'{told[number] / 2e6:.6f}' == it[4]
            for it in found)
        wrong = '' if is_told else f'{found} {labels} {told}'
    count.check(f'found: {name}', wrong)


def check_feet(folder: str, count: Count) -> None:
    """A thousand US survey feet are 304,800.61 mm."""
    inner = os.path.join(folder, 'thousand-feet')
    os.mkdir(inner)
    done = run(CADIMPORT, package([('1', 'POLYGON((0 0,1000 0,1000 1000,0 1000,0 0))')], 2263)(inner))
    places = {tuple(it[2:4]) for it in records(done.out) if it[0] == 'point'}
    count.check('feet', places != {(x, y) for x in ('0', '304801') for y in ('0', '304801')} and places)


def check_arcs(folder: str, cadedit: str, count: Count) -> None:
    """Two rows that share an arc, read in both directions and over other points of it, have the same chords."""
    inner = os.path.join(folder, 'shared-arc')
    os.mkdir(inner)
    beside = 'COMPOUNDCURVE((0 0,0 9,10 9,10 0),CIRCULARSTRING(10 0,8 4,0 0))'  # 8 4 is 5 m from 5 0, too.
    rows = [('1', HALF_ROUND), ('2', f'CURVEPOLYGON({beside})')]
    done = run(CADIMPORT, package(rows, 25832)(inner), '--chord', '10')
    told = areas(cadedit, done.out)
    half_round, bound = 12.5 * math.pi, 5 * math.pi * 0.012  # Square metres: the arc, as wide as chord and rounding.
    is_so = done.status == 0 and not isinstance(told, str) and abs(told[1] / 2e6 - half_round) < bound \
        and told[1] + told[2] == 2 * 90_000_000
    count.check('arcs', not is_so and (done, told))


def check_slivers(folder: str, cadedit: str, count: Count) -> None:
    """The mergers of slivers are made by the program, and undone to the very plan; wider ones aren't proposed."""
    inner = os.path.join(folder, 'slivers')
    os.mkdir(inner)
    rows = [('1', 'POLYGON((0 0,30 0,30 40,0 40,0 0))'), ('2', 'POLYGON((30 0,60 0,60 20,30.003 20,30 0))'),
            ('3', 'POLYGON((29.996 20,60 20,60 40,29.996 40,29.996 20))'),
            ('4', 'POLYGON((59 0,90 0,90 40,59 40,59 0))')]
    edits = os.path.join(inner, 'edits.csv')
    done = run(CADIMPORT, package(rows, 25832)(inner), '--edits', edits)
    with open(edits, 'rb') as file:
        script = file.read()
    mergers = script.count(b'\n')
    told = run(cadedit, given=done.out + script + b'undo,,,,,,\n' * mergers + b'print,,,,,,\n').out
    answers = [it[0] for it in records(told)][:2 * mergers]
    is_same = told.endswith(run(cadedit, given=done.out + b'print,,,,,,\n').out)
    wrong = '' if mergers == 2 and answers == ['ok'] * 4 and is_same else f'{script!r} {answers} {done.err}'
    wide = run(CADIMPORT, package(rows, 25832)(inner), '--edits', edits, '--sliver', '1.6')
    count.check('slivers', wrong or ('1 mergers' not in wide.err and wide.err))


def check_survey(folder: str, count: Count) -> None:
    """A table with a row for each of eight tolerances, and no plan."""
    inner = os.path.join(folder, 'survey')
    os.mkdir(inner)
    rows = [('1', SQUARE), ('2', 'POLYGON((10.004 0,20 0,20 10,10.004 10,10.004 0))'),
            ('3', 'POLYGON((0 10,20 10,20 20,0 20,0 10))'), ('4', 'POLYGON((0 -9,20 -9,20 0,0 0,0 -9))')]
    done = run(CADIMPORT, package(rows, 25832)(inner), '--survey')
    table = [(it[0], it[1], it[4]) for it in records(done.out)[1:]]
    wanted = [(it, '1', '1') for it in ('1', '1.41', '2')]
    wanted += [(it, '0', '0') for it in ('5', '10', '20', '50', '100')]
    count.check('survey', (done.status, table) != (0, wanted) and (done, table))


def check_marks(folder: str, count: Count) -> None:
    """Marks number the points where they lie; one that has no point is told."""
    inner = os.path.join(folder, 'marks')
    os.mkdir(inner)
    lots, marks = LOTS(inner), package([('501', 'POINT(10 0.001)'), ('502', 'POINT(20 10)')], 25832, 'marks')(inner)
    words = ['--points', marks, '--point-number', 'key']
    done = run(CADIMPORT, lots, *words)
    points = {it[1]: (it[2], it[3]) for it in records(done.out) if it[0] == 'point'}
    wanted = {'501': ('10000', '0'), '502': ('20000', '10000')}
    is_so = done.status == 0 and len(points) == 6 and {it: points[it] for it in wanted} == wanted
    count.check('marks', not is_so and (done.err, points))
    os.remove(marks)
    package([('501', 'POINT(10 0.002)')], 25832, 'marks')(inner)
    done = run(CADIMPORT, lots, *words)
    count.check('marks: none', (done.status != 1 or 'no point of a border is at mark 501' not in done.err) and done)
    os.remove(marks)
    package([('501', 'POINT(10 0)')], 25833, 'marks')(inner)
    done = run(CADIMPORT, lots, *words)
    is_so = done.status == 2 and 'the marks are in ETRS89 / UTM zone 33N' in done.err
    count.check('marks: another system', not is_so and done)


def check_no_gdal(folder: str, count: Count) -> None:
    """Without GDAL there is one line that says how to install it."""
    hidden = os.path.join(folder, 'hidden', 'osgeo')
    os.makedirs(hidden)
    write(os.path.join(hidden, '__init__.py'), b'raise ImportError("hidden")\n')
    done = run(CADIMPORT, 'lots.gpkg', env={'PYTHONPATH': os.path.dirname(hidden)})
    wanted = (2, b'', 'cadimport: GDAL for Python is missing: apt-get install python3-gdal\n')
    count.check('input: no GDAL', (done.status, done.out, done.err) != wanted and done)


def check_refusing_program(folder: str, count: Count) -> None:
    """Where the program refuses the plan, tells another area, or isn't there, nothing is given out."""
    top = os.path.join(folder, 'checkout')
    shutil.copytree(os.path.join(TOP, 'bin', 'lib'), os.path.join(top, 'bin', 'lib'))
    command = shutil.copy(CADIMPORT, os.path.join(top, 'bin', 'cadimport'))
    lots = LOTS(top)
    files = [os.path.join(top, it) for it in ('plan.csv', 'report.csv', 'edits.csv')]
    for find, script, line in (
            ('echo "$0.fake"', 'cat > /dev/null; echo "cadedit: plan fault 11 breaks V8" >&2; exit 2',
             'the program refuses the plan that was made (cadedit: plan fault 11 breaks V8)'),
            ('echo "$0.fake"', 'cat > /dev/null; echo area,1,1,199999998,100.00,,; echo area,2,2,200000000,100.00,,',
             'the program tells another area of parcel 1 than its face has'),
            ('exit 70', '', 'there is no program cadedit to check with')):
        for name, text in (('program', find), ('program.fake', script)):
            os.chmod(write(os.path.join(top, 'bin', name), f'#!/bin/sh\n{text}\n'.encode()), 0o755)
        done = run(command, lots)
        again = run(command, lots, '--output', files[0], '--report', files[1], '--edits', files[2])
        is_so = done.status == again.status == 2 and not done.out and line in done.err and done.err == again.err
        count.check(f'input: {line}', (not is_so or any(map(os.path.exists, files))) and (done, again))


def check_full_output(folder: str, count: Count) -> None:
    """Where the output can't be written the status says that there is no plan."""
    inner = os.path.join(folder, 'full')
    os.mkdir(inner)
    done = run('sh', '-c', f'exec "{CADIMPORT}" "{LOTS(inner)}" > /dev/full')
    count.check('input: full output', (done.status, done.err) != (
        2, "cadimport: standard output can't be written: No space left on device\n") and done)


def check_all(folder: str, cadedit: str, count: Count) -> None:
    """Checks all inputs by hand."""
    for case in REFUSED + TOLD:
        check_case(case, folder, count)
    for found in FOUND:
        check_found(*found, folder, cadedit, count)
    check_feet(folder, count)
    check_arcs(folder, cadedit, count)
    check_slivers(folder, cadedit, count)
    check_survey(folder, count)
    check_marks(folder, count)
    check_no_gdal(folder, count)
    check_refusing_program(folder, count)
    check_full_output(folder, count)
    print(f'{len(REFUSED) + 5} inputs refused with their lines, {len(TOLD) + len(FOUND)} told', flush=True)
