"""The layers of data/: what plans they come to, and how far these are from their sources."""
from __future__ import annotations

import os
from collections import Counter
from dataclasses import dataclass, field

from parts.common import CADIMPORT, DATA, Count, areas, records, run
from parts.compare import compare, grounds, sources, wrong_grounds

BOUND = 2 ** 0.5 + 0.71  # Millimetres: the tolerance where none is given, and the rounding.


@dataclass
class Real:
    """A layer, what is asked of it, and what is expected: rows and vertices, points, strings and parcels, points put
    into sides and crossings, findings by their kinds, and the rows that others cover whole."""
    name: str
    system: str = ''
    unit: float = 1.0
    number: str = ''
    label: str = ''
    read: tuple[int, int] = (0, 0)
    plan: tuple[int, int, int] = (0, 0, 0)
    cut: tuple[int, int] = (0, 0)
    findings: dict[str, int] = field(default_factory=dict)
    covered: frozenset[int] = frozenset()


LAYERS = [
    Real('nc', 'EPSG:32119', 1, 'CNTY_ID', 'NAME', (100, 2421), (1255, 1357, 108), (0, 0), {'part': 8}),
    Real('columbus', '', 1000, '', '', (49, 1147), (695, 743, 49)),
    Real('auckland', '', 100, '', '', (167, 3853), (2359, 2557, 200), (101, 12),
         {'gap': 16, 'overlap': 18, 'hole': 1, 'covered': 2}, frozenset((84, 107))),
    Real('eire', '', 1000, '', '', (26, 753), (496, 521, 27), (0, 0), {'part': 1}),
    Real('wheat', '', 1, '', '', (500, 2000), (546, 1045, 500)),
    Real('boston', 'EPSG:26986', 1, '', 'TOWN', (506, 7492), (3520, 4032, 514), (0, 0), {'gap': 7, 'hole': 1}),
    Real('virginia', '', 1, '', '', (136, 3819), (1995, 2111, 138), (0, 0), {'part': 2}),
    Real('olinda', 'EPSG:31985', 1, '', '', (470, 12235), (6038, 6507, 470)),
    Real('buildings', '', 1, '', '', (158, 1281), (1281, 1281, 158)),
    Real('polygon_holes', 'EPSG:32634', 1, '', '', (3, 67), (64, 64, 10), (0, 0), {'hole': 6, 'part': 1}),
]


def projected(layer: Real, folder: str) -> str:
    """The layer's file, in the system that is asked for."""
    path = os.path.join(DATA, f'{layer.name}.gpkg')
    if not layer.system:
        return path
    made = os.path.join(folder, f'{layer.name}.gpkg')
    done = run('ogr2ogr', '-t_srs', layer.system, made, path)
    if done.status:
        raise ValueError(done.err)
    return made


def told_numbers(err: str) -> tuple[tuple[int, ...], tuple[int, ...], tuple[int, ...]]:
    """Rows and vertices, points, strings and parcels, points put in and crossings, of the lines on standard
    error."""
    words = err.replace(':', '').replace(',', '').split()
    before = [int(words[place - 1]) for it in ('rows', 'vertices', 'points', 'strings', 'parcels')
              for place in [words.index(it)]]
    cut = [int(words[words.index('put', words.index('near')) - 2]), int(words[words.index('crossings') - 1])]
    return tuple(before[:2]), tuple(before[2:]), tuple(cut)


def check_layer(layer: Real, folder: str, programs: tuple[str, str], count: Count) -> None:
    """Imports a layer, and checks the plan by the programs and by GEOS."""
    path = projected(layer, folder)
    report, plan = os.path.join(folder, f'{layer.name}.report.csv'), os.path.join(folder, f'{layer.name}.csv')
    words = [it for option, value in (('--number', layer.number), ('--label', layer.label),
                                      ('--unit', f'{layer.unit:g}' if layer.unit != 1 or not layer.system else ''))
             for it in (option, value) if value]
    done = run(CADIMPORT, path, *words, '--report', report, '--output', plan)
    name = f'layer {layer.name}'
    count.check(f'{name}: status', done.status != bool(layer.findings) and f'{done.status}: {done.err}')
    if done.status > 1:
        return
    told = told_numbers(done.err)
    count.check(f'{name}: numbers', told != (layer.read, layer.plan, layer.cut) and told)
    with open(report, 'rb') as file:
        rows = records(file.read())[1:]
    kinds = dict(Counter(it[0] for it in rows if it[0] not in ('row', 'note')))
    count.check(f'{name}: findings', kinds != layer.findings and kinds)
    with open(plan, 'rb') as file:
        told_areas = areas(programs[0], file.read())
    parcels = grounds(programs[1], plan)
    count.check(f'{name}: accepted', isinstance(told_areas, str) and told_areas)
    count.check(f'{name}: areas', told_areas != {number: it.doubled for number, it in parcels.items()})
    count.check(f'{name}: polygons', list(wrong_grounds(parcels)))
    rows_of = sources(path, None, layer.number or None, layer.label or None, layer.unit)
    found = compare(rows_of, parcels, BOUND, set(layer.covered))
    count.check(f'{name}: rows', found.wrong[:3])
    said = ' '.join(f'{number} {kind}' for kind, number in kinds.items())
    print(f'{layer.name}: {told[1][2]} parcels; {found.compared} rows within {found.distance:.2f} mm, '
          f'{found.invalid} rows not valid; {said or "no finding"}', flush=True)


def check_all(folder: str, programs: tuple[str, str], count: Count) -> None:
    """Checks each layer. The programs are cadedit and cadview."""
    for layer in LAYERS:
        check_layer(layer, folder, programs, count)
