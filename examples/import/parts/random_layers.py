"""Random layers of the kinds that go wrong, at scales from 4 mm to 1 km, and what has to be true of each import."""
from __future__ import annotations

import math
import os
import random
from collections import Counter
from collections.abc import Callable
from typing import Any

from lib.exact import Position
from lib.importing.common import Refused, modules
from lib.importing.faces import Fault
from lib.importing.making import Made, make
from lib.importing.report import report_text
from lib.importing.rows import Finding, Layer, Part, Ring, Row
from parts.common import CADIMPORT, Count, areas, records, run, write
from parts.compare import area_off, grounds, shape_of, wrong_grounds

gdal, ogr, _ = modules()

SCALES = (4, 12, 40, 150, 600, 5_000, 60_000, 1_000_000)  # Millimetres.
SQUARES = (1, 2, 2, 2, 9, 100, 2500)  # Of tolerances.
LARGE = 5_000  # Millimetres; at smaller scales moves can make much of any area.
THROUGH_FILES = 10  # So many of the layers go through a file and the command.


class Maker:
    """Makes rows of one random layer."""

    def __init__(self, seed: int) -> None:
        self.random = random.Random(seed)
        self.size = self.random.choice(SCALES)
        self.step = self.random.choice((1, 1, 0.5, 0.125, 1e-6))  # What coordinates are multiples of.
        self.rows: list[list[Part]] = []

    def at(self, x: float, y: float) -> tuple[float, float]:
        return round(x / self.step) * self.step, round(y / self.step) * self.step

    def some(self, least: float, most: float) -> float:
        return self.random.uniform(least, most)

    def anywhere(self) -> tuple[float, float]:
        return self.at(self.some(0, self.size), self.some(0, self.size))

    # -- Kinds of layers

    def cells(self) -> None:
        """Neighbours with T-junctions: vertices that stand on one side alone, and beside it by up to a
        millimetre."""
        across = self.random.choice((2, 3, 4))
        side = self.size / across
        corner = {(i, j): self.at(i * side + self.some(-0.2, 0.2) * side, j * side + self.some(-0.2, 0.2) * side)
                  for i in range(across + 1) for j in range(across + 1)}
        for i in range(across):
            for j in range(across):
                ring: Ring = []
                around = [corner[i, j], corner[i + 1, j], corner[i + 1, j + 1], corner[i, j + 1]]
                for (ax, ay), (bx, by) in zip(around, around[1:] + around[:1]):
                    ring.append((ax, ay))
                    if self.random.random() < 0.4:
                        part = self.random.random()
                        ring.append((ax + part * (bx - ax) + self.some(-1, 1),
                                     ay + part * (by - ay) + self.some(-1, 1)))
                self.rows.append([[ring if self.random.random() < 0.5 else ring[::-1]]])

    def shifted(self) -> None:
        """Rectangles side by side that overlap or leave gaps, from nothing to a third of their size."""
        across = self.random.randint(2, 5)
        side = self.size / across
        for i in range(across):
            for j in range(self.random.randint(1, across)):
                off = self.random.choice((0, 0.4, 1, 2, 5, side / 100, side / 3))
                x, y = i * side + self.some(-off, off), j * side + self.some(-off, off)
                width, height = side + self.some(-off, off), side + self.some(-off, off)
                turn = self.some(-0.02, 0.02) if self.random.random() < 0.5 else 0
                around = [(0, 0), (width, 0), (width, height), (0, height)]
                self.rows.append([[[self.at(x + u * math.cos(turn) - v * math.sin(turn),
                                            y + u * math.sin(turn) + v * math.cos(turn)) for u, v in around]]])

    def stars(self) -> None:
        """Stars with holes, some of them in parts, over each other."""
        for _ in range(self.random.randint(1, 7)):
            row = []
            for _ in range(self.random.choice((1, 1, 1, 2, 3))):
                x, y, size = self.some(0, self.size), self.some(0, self.size), self.some(0.1, 0.6) * self.size
                part = [self.star(x, y, size)]
                if self.random.random() < 0.35:
                    part.append(self.star(x, y, 0.25 * size))
                row.append(part)
            self.rows.append(row)

    def star(self, x: float, y: float, size: float) -> Ring:
        turns = sorted(self.some(0, 2 * math.pi) for _ in range(self.random.randint(3, 11)))
        return [self.at(x + size * reach * math.cos(turn), y + size * reach * math.sin(turn))
                for turn in turns for reach in [self.some(0.2, 1)]]

    def tangles(self) -> None:
        """Bow-ties and worse: vertices in any order."""
        for _ in range(self.random.randint(1, 5)):
            self.rows.append([[[self.anywhere() for _ in range(self.random.randint(0, 9))]]])

    def zipper(self) -> None:
        """Two rows along a line that each of them has with other vertices, half a millimetre to three beside it."""
        off = self.random.choice((0.5, 1, 1.5, 3))
        sides = []
        for _ in range(2):
            along = sorted(self.some(0, self.size) for _ in range(self.random.randint(2, 25)))
            sides.append([self.at(x, self.some(-off, off)) for x in along])
        self.rows.append([[[(0, self.size / 2), (0, 0), *sides[0], (self.size, 0), (self.size, self.size / 2)]]])
        self.rows.append([[[(0, -self.size / 2), (0, 0), *sides[1], (self.size, 0), (self.size, -self.size / 2)]]])

    # -- What goes wrong in any layer

    def spoil(self) -> None:
        """Doubled rows, spikes, doubled vertices, rings that are lines, rows without polygons."""
        for row in list(self.rows):
            if self.random.random() < 0.08:
                self.rows.append([[list(ring) for ring in part] for part in row])
            for part in row:
                for ring in part:
                    if ring and self.random.random() < 0.12:
                        place = self.random.randrange(len(ring))
                        ring[place:place] = [ring[place], self.anywhere()]
                    if ring and self.random.random() < 0.08:
                        ring[:] = [it for it in ring for _ in range(2)]
        if self.random.random() < 0.1:
            a, b = self.anywhere(), self.anywhere()
            self.rows.append([[[a, b, a]]])
        if self.random.random() < 0.1:
            self.rows.append([])


def layer_of(seed: int) -> tuple[Layer, int, int]:
    """A random layer, its scale in millimetres and the square of the tolerance."""
    maker = Maker(seed)
    kinds: list[Callable[[], None]] = [maker.cells, maker.shifted, maker.stars, maker.tangles, maker.zipper]
    for kind in [kinds[seed % len(kinds)]] + ([maker.random.choice(kinds)] if maker.random.random() < 0.3 else []):
        kind()
    maker.spoil()
    layer = Layer('layer.gpkg', [], [])
    for place, parts in enumerate(maker.rows, 1):
        if not any(ring for part in parts for ring in part):
            parts = []
            layer.findings.append(Finding('no-geometry', [place], None, 'no geometry'))
        layer.rows.append(Row(place, f'row {place}', place, f'row {place}', '', parts))
    return layer, maker.size, maker.random.choice(SQUARES)


# ---- What has to be true

def wrong_import(cadedit: str, made: Made, layer: Layer, square: int) -> str:
    """What is wrong with an import, or nothing."""
    told = areas(cadedit, made.plan)
    if isinstance(told, str):
        return f'not accepted: {told}'
    if told != made.doubled:
        return 'areas differ'
    if any(it.kind == 'area' for it in made.findings):
        return 'an area changed by more than moves can have made'
    tolerance = square ** 0.5
    if made.figures.move > tolerance + 0.7072:
        return f'a vertex moved by {made.figures.move} mm'
    own = [(x, y) for row in layer.rows for part in row.parts for ring in part for x, y in ring]
    bound = max(tolerance, made.figures.bend) + 0.7072
    for record in records(made.plan):
        if record[0] == 'point':
            p = int(record[2]), int(record[3])
            if min(math.dist(p, it) for it in own) > 0.7072 and not is_near_sides(layer, p, bound + 0.7072):
                return f'point {record[1]} is at no vertex and at no side'
    return ''


def wrong_rows(cadview: str, made: Made, layer: Layer, folder: str) -> str:
    """Which valid row has other ground in the plan than moves can have made, or nothing."""
    plan = write(os.path.join(folder, 'random.csv'), made.plan)
    parcels = grounds(cadview, plan)
    if wrong := list(wrong_grounds(parcels)):
        return wrong[0]
    move = (made.figures.move + made.figures.bend + 1) / 1000
    for row in layer.rows:
        shape = shape_of(row.parts)
        if shape is not None and area_off(shape, parcels) > 2 * move * (shape.length + 4 * move):
            return f'row {row.number} has {area_off(shape, parcels)} m2 of other ground'
    return ''


def is_near_sides(layer: Layer, p: Position, bound: float) -> bool:
    """Whether a position that isn't a vertex lies within the bound of two sides, as a crossing does."""
    near = 0
    for row in layer.rows:
        for part in row.parts:
            for ring in part:
                near += sum(distance(p, a, b) <= bound for a, b in zip(ring, ring[1:] + ring[:1]))
    return near >= 2


def distance(p: tuple[float, float], a: tuple[float, float], b: tuple[float, float]) -> float:
    """How far p is from the segment ab."""
    dx, dy = b[0] - a[0], b[1] - a[1]
    whole = dx * dx + dy * dy
    part = min(1.0, max(0.0, ((p[0] - a[0]) * dx + (p[1] - a[1]) * dy) / whole)) if whole else 0.0
    return math.dist(p, (a[0] + part * dx, a[1] + part * dy))


def through_file(layer: Layer, square: int, made: Made, folder: str) -> str:
    """The same layer through a GeoPackage and the command: what differs from the plan that was made here, or
    nothing."""
    path = os.path.join(folder, 'layer.gpkg')
    if os.path.exists(path):
        os.remove(path)
    data = gdal.GetDriverByName('GPKG').Create(path, 0, 0, 0, gdal.GDT_Unknown)
    rows = data.CreateLayer('layer', None, ogr.wkbMultiPolygon)
    rows.CreateField(ogr.FieldDefn('label', ogr.OFTString))
    for row in layer.rows:
        feature = ogr.Feature(rows.GetLayerDefn())
        feature['label'] = row.label
        feature.SetGeometry(geometry_of(row))
        rows.CreateFeature(feature)
    del rows, data
    report = os.path.join(folder, 'report.csv')
    done = run(CADIMPORT, path, '--unit', 'mm', '--label', 'label', '--tolerance', repr(square ** 0.5),
               '--report', report)
    if done.status != bool(made.findings):
        return f'status {done.status}: {done.err}'
    return '' if done.out == made.plan else 'another plan by the command'


def geometry_of(row: Row) -> Any:
    geometry = ogr.Geometry(ogr.wkbMultiPolygon)
    for part in row.parts:
        polygon = ogr.Geometry(ogr.wkbPolygon)
        for ring in part:
            line = ogr.Geometry(ogr.wkbLinearRing)
            for x, y in ring + ring[:1]:
                line.AddPoint_2D(x, y)
            polygon.AddGeometry(line)
        geometry.AddGeometry(polygon)
    return geometry


def check_all(how_many: int, folder: str, programs: tuple[str, str], count: Count) -> None:
    """Imports so many random layers. Refused ones have to say why. The programs are cadedit and cadview."""
    kinds: Counter[str] = Counter()
    refused: Counter[str] = Counter()
    worst = 0.0
    for seed in range(how_many):
        layer, size, square = layer_of(seed)
        name = f'random layer {seed} ({size} mm, tolerance √{square})'
        try:
            made = make(layer, square, [], lambda done: None)
        except Fault as error:
            count.check(name, error)
            continue
        except Refused as error:
            refused[str(error)] += 1
            count.check(name, 'no ring has an area' not in str(error) and str(error))
            continue
        worst = max(worst, made.figures.bend / square ** 0.5)
        kinds.update(it.kind for it in made.findings)
        wrong = wrong_import(programs[0], made, layer, square)
        if not wrong and size >= LARGE:
            wrong = wrong_rows(programs[1], made, layer, folder)
        if not wrong and not report_text(made, layer.notes):
            wrong = 'no report'
        if not wrong and seed < THROUGH_FILES:
            wrong = through_file(layer, square, made, folder)
        count.check(name, wrong)
    reasons = ', '.join(f'{number} since {why}' for why, number in refused.items())
    print(f'{how_many} random layers: {how_many - sum(refused.values())} plans, {sum(refused.values())} refused '
          f'({reasons or "none"}); a side moved by {worst:.2f} tolerances at most; findings: '
          f'{", ".join(f"{number} {kind}" for kind, number in sorted(kinds.items()))}', flush=True)
