"""bin/cadimport: welding, snap rounding, windings, parcels and their numbers, and the check by the program. No GDAL
is needed."""
from __future__ import annotations

import math
import os
import shutil
import sys
import tempfile
import unittest

from made_up import TOP, write

sys.path.insert(0, os.path.join(TOP, 'bin'))

from lib.importing.arcs import arc_ring, chords_of  # noqa: E402
from lib.importing.checking import accepted, check  # noqa: E402
from lib.importing.common import Refused, check_writable, clipped, write_whole  # noqa: E402
from lib.importing.making import Made, accounts_of, make, square_of  # noqa: E402
from lib.importing.marks import Mark, numbers_of_points  # noqa: E402
from lib.importing.noding import Pieces, crossing_of, near, passes  # noqa: E402
from lib.importing.report import report_text, worst_first  # noqa: E402
from lib.importing.rows import Finding, Layer, Note, Part, Ring, Row  # noqa: E402
from lib.importing.tables import Tables  # noqa: E402
from lib.importing.weld import reach_of, rounded, weld  # noqa: E402


def box(west: float, south: float, east: float, north: float) -> Ring:
    return [(west, south), (east, south), (east, north), (west, north)]


def made(*rows: list[Part], square: int = 2, marks: list[Mark] | None = None) -> Made:
    """An import of rows with the numbers 1, 2 .."""
    layer = Layer('lots', [Row(place, f'Lot {place}', 100 + place, f'key {place}', '', parts)
                           for place, parts in enumerate(rows, 1)], [])
    return make(layer, square, marks or [], lambda done: None)


def told(it: Made) -> list[tuple[str, list[int], float]]:
    """Findings with twice their areas."""
    return [(finding.kind, finding.numbers, finding.doubled) for finding in worst_first(it.findings)]


class Welding(unittest.TestCase):
    def test_nearest_whole_millimetres(self) -> None:
        self.assertEqual(rounded(0.5, -0.5), (1, 0))
        self.assertEqual(rounded(-1.5, 2.49), (-1, 2))

    def test_reach(self) -> None:
        self.assertEqual([reach_of(it) for it in (1, 2, 4, 5, 9, 10)], [1, 2, 2, 3, 3, 4])

    def test_a_row_of_near_ones_moves_none_far(self) -> None:
        row = [(0, 0), (1, 0), (2, 0), (3, 0)]
        self.assertEqual(weld(row, 1), {(0, 0): (0, 0), (1, 0): (0, 0), (2, 0): (2, 0), (3, 0): (2, 0)})

    def test_the_nearest_kept_one(self) -> None:
        self.assertEqual(weld([(0, 0), (-10, 0), (-6, 0)], 36)[-6, 0], (-10, 0))

    def test_the_tolerance_counts(self) -> None:
        self.assertEqual(weld([(0, 0), (1, 1)], 2)[1, 1], (0, 0))
        self.assertEqual(weld([(0, 0), (1, 1)], 1)[1, 1], (1, 1))


class Tests(unittest.TestCase):
    def test_near(self) -> None:
        test = near(2)
        self.assertEqual(test((0, 0), (100, 0), (50, 1)), 5000)
        for p in ((50, 2), (0, 1), (100, 1), (-1, 0), (101, 0)):
            self.assertIsNone(test((0, 0), (100, 0), p))

    def test_passes_the_middle_of_a_pixel(self) -> None:
        self.assertEqual(passes((0, 0), (10, 0), (5, 0)), 50)
        self.assertEqual(passes((10, 0), (0, 0), (4, 0)), 60)
        self.assertIsNone(passes((0, 0), (10, 0), (5, 1)))

    def test_passes_slanting(self) -> None:
        self.assertEqual(passes((0, 0), (2, 1), (1, 0)), 2)  # At x = 0.5 it is at y = 0.25.
        self.assertEqual(passes((0, 0), (2, 1), (1, 1)), 3)  # From x = 1 on it is at y = 0.5 and above.

    def test_a_corner_belongs_to_one_pixel(self) -> None:
        # The corner (0.5, 0.5) is the lower left one of the pixel of (1, 1), and of no other.
        self.assertIsNone(passes((0, 0), (1, 1), (1, 0)))
        self.assertIsNone(passes((0, 0), (1, 1), (0, 1)))
        self.assertEqual(passes((1, 0), (0, 1), (1, 1)), 1)
        self.assertIsNone(passes((1, 0), (0, 1), (0, 0)))

    def test_crossing(self) -> None:
        self.assertEqual(crossing_of((0, 0), (10, 10), (0, 10), (10, 0)), (5, 5))
        self.assertEqual(crossing_of((0, 0), (3, 3), (0, 3), (3, 0)), (2, 2))  # 1.5, to the greater.
        self.assertEqual(crossing_of((0, 0), (-3, -3), (0, -3), (-3, 0)), (-1, -1))
        self.assertIsNone(crossing_of((0, 0), (10, 0), (5, 0), (5, 9)))
        self.assertIsNone(crossing_of((0, 0), (10, 0), (0, 1), (10, 1)))

    def test_crossing_far_off(self) -> None:
        far = 10 ** 10
        # They cross at 0.5 and the hundred thousand millionth part of a millimetre more.
        self.assertEqual(crossing_of((-far, -far), (far, far), (-far, far), (far, -far + 2)), (1, 1))
        self.assertEqual(crossing_of((-far, -far), (far, far), (-far, far), (far, -far)), (0, 0))


class Cutting(unittest.TestCase):
    def pieces(self, *ends: tuple[tuple[int, int], tuple[int, int]], square: int = 2) -> Pieces:
        pieces = Pieces(square)
        for a, b in ends:
            pieces.add(pieces.point(a), pieces.point(b))
        pieces.cut()
        return pieces

    def test_a_vertex_beside_a_side_is_put_into_it(self) -> None:
        pieces = self.pieces(((0, 0), (100, 0)), ((50, 1), (50, 90)))
        self.assertEqual(pieces.way(0, 1), [0, 2, 1])
        self.assertEqual(pieces.way(1, 0), [1, 2, 0])
        self.assertEqual((pieces.put_in, pieces.crossings), (1, 0))

    def test_one_farther_off_is_not(self) -> None:
        self.assertEqual(self.pieces(((0, 0), (100, 0)), ((50, 2), (50, 90))).way(0, 1), [0, 1])

    def test_a_crossing(self) -> None:
        pieces = self.pieces(((0, 0), (100, 100)), ((0, 100), (100, 0)))
        self.assertEqual(pieces.points[4:], [(50, 50)])
        self.assertEqual([pieces.way(0, 1), pieces.way(2, 3)], [[0, 4, 1], [2, 4, 3]])
        self.assertEqual(pieces.crossings, 1)

    def test_a_crossing_at_a_vertex_that_is_there(self) -> None:
        # Both cross at 49.98 50.02, whose pixel is that of the third piece's end.
        pieces = self.pieces(((0, 0), (100, 100)), ((0, 100), (100, 0)), ((50, 50), (50, 90)))
        self.assertEqual([pieces.way(0, 1), pieces.way(2, 3)], [[0, 4, 1], [2, 4, 3]])

    def test_pieces_on_one_line_share_their_parts(self) -> None:
        pieces = self.pieces(((0, 0), (100, 0)), ((40, 0), (160, 0)))
        self.assertEqual([pieces.way(0, 1), pieces.way(2, 3)], [[0, 2, 1], [2, 1, 3]])
        self.assertEqual(set(pieces.alive), {(0, 2), (1, 2), (1, 3)})


class Windings(unittest.TestCase):
    def test_neighbours(self) -> None:
        it = made([[box(0, 0, 100, 100)]], [[box(100, 0, 200, 100)]])
        self.assertEqual(told(it), [])
        self.assertEqual(it.doubled, {1: 20000, 2: 20000})
        self.assertEqual((it.figures.points, it.figures.strings, it.figures.parcels), (6, 7, 2))

    def test_an_overlap(self) -> None:
        it = made([[box(0, 0, 100, 100)]], [[box(90, 0, 200, 100)]])
        self.assertEqual(told(it), [('overlap', [3, 1, 2], 2000)])
        self.assertEqual(it.doubled, {1: 18000, 2: 20000, 3: 2000})
        self.assertAlmostEqual(it.findings[0].width, 1000 / 110)  # Its area by half its border.
        self.assertEqual([(a.source, a.own, a.shared, a.rest) for a in it.accounts],
                         [(10000, 9000, 1000, 0), (11000, 10000, 1000, 0)])

    def test_a_bow_tie(self) -> None:
        it = made([[[(0, 0), (100, 100), (100, 0), (0, 100)]]])
        self.assertEqual(told(it), [('crossing', [2, 1], 5000)])  # Round one lobe it goes clockwise.
        self.assertEqual(it.doubled, {1: 5000, 2: 5000})

    def test_a_hole(self) -> None:
        self.assertEqual(told(made([[box(0, 0, 100, 100), box(20, 20, 80, 80)]])), [('hole', [2, 1], 7200)])

    def test_a_hole_and_an_island_in_it(self) -> None:
        hole = box(20, 20, 80, 80)[::-1]
        it = made([[box(0, 0, 100, 100), hole]], [[box(40, 40, 60, 60)]])
        self.assertEqual(told(it), [('gap', [3, 1, 2], 6400)])
        self.assertEqual(it.doubled, {1: 12800, 2: 800, 3: 6400})

    def test_an_island_of_which_the_ray_meets_a_vertex(self) -> None:
        # Two diamonds that touch at 100 50, and an island in the eastern one whose western corner is at that height.
        west: Ring = [(0, 50), (50, 0), (100, 50), (50, 100)]
        east: Ring = [(x + 100, y) for x, y in west]
        ground: Ring = [(120, 50), (150, 20), (180, 50), (150, 80)]
        it = made([[west]], [[east, ground]], [[ground]])
        self.assertEqual(told(it), [])
        self.assertEqual(it.doubled, {1: 10000, 2: 10000 - 3600, 3: 3600})

    def test_parts(self) -> None:
        it = made([[box(0, 0, 10, 10)], [box(50, 0, 90, 40)]])
        self.assertEqual(told(it), [('part', [2, 1], 200)])
        self.assertEqual(it.doubled, {1: 3200, 2: 200})  # The larger part has the row's number.
        self.assertIn(b'parcel,2,Lot 1 (part 2 of 2),1,,,\n', it.plan)

    def test_a_spike_and_a_row_that_others_cover(self) -> None:
        spiked: Ring = [(0, 0), (100, 0), (100, 100), (100, 140), (100, 100), (0, 100)]
        it = made([[spiked]], [[box(0, 0, 100, 100)]])
        self.assertEqual([(f.kind, f.numbers) for f in worst_first(it.findings)],
                         [('covered', [1]), ('covered', [2]), ('overlap', [3, 1, 2]), ('spike', [1])])
        self.assertEqual(it.doubled, {3: 20000})

    def test_nothing_with_an_area(self) -> None:
        rings: list[Ring] = [[(0, 0), (100, 0), (50, 0)], [(0, 0), (0.2, 0), (0, 0.2)]]
        for ring in rings:
            with self.assertRaisesRegex(Refused, 'no ring has an area'):
                made([[ring]])

    def test_slivers(self) -> None:
        it = made([[box(0, 0, 100, 1000)]], [[box(103, 0, 200, 1000)]], [[box(0, 1000, 200, 1100)]],
                  [[box(0, -100, 200, 0)]])
        self.assertEqual(told(it), [('gap', [5, 1, 2, 3, 4], 6000)])
        self.assertEqual([(m.kept, m.ended) for m in it.parcels.mergers(10)], [(1, 5)])
        self.assertEqual(it.parcels.mergers(2), [])


class OpenGaps(unittest.TestCase):
    LEFT = box(0, 0, 30000, 40000)

    def test_two_lots_side_by_side(self) -> None:
        it = made([[self.LEFT]], [[box(30003, 0, 60000, 40000)]])
        self.assertEqual([(f.kind, f.numbers, f.width) for f in it.findings], [('open-gap', [1, 2], 3.0)])

    def test_a_wedge(self) -> None:
        it = made([[self.LEFT]], [[[(30000, 0), (60000, 0), (60000, 40000), (30003, 40000)]]])
        self.assertEqual([(f.kind, f.place) for f in it.findings], [('open-gap', (30000, 40000))])
        self.assertAlmostEqual(it.findings[0].width, 3, 6)  # The other lot's side slants a little.

    def test_one_into_a_street(self) -> None:
        street = [box(-5000, -5000, 65000, 45000), box(0, -2000, 60000, 42000)]
        it = made([[self.LEFT]], [[box(30003, 0, 60000, 42000)]], [street])
        self.assertEqual(sorted((f.kind, f.numbers) for f in it.findings),
                         [('gap', [4, 1, 2, 3]), ('open-gap', [1, 2])])

    def test_what_is_none(self) -> None:
        for other in (box(30101, 0, 60000, 40000), box(30000, 0, 60000, 40000), box(30000, 0, 30100, 39950)):
            self.assertEqual(made([[self.LEFT]], [[other]]).findings, [])

    def test_a_closed_one_is_found_once(self) -> None:
        it = made([[self.LEFT]], [[box(30003, 0, 60000, 40000)]], [[box(0, 40000, 60000, 50000)]],
                  [[box(0, -9000, 60000, 0)]])
        self.assertEqual([f.kind for f in it.findings], ['gap'])

    def test_an_inlet_of_one_row_is_its_own(self) -> None:
        inlet = [(0, 0), (100, 0), (100, 90), (103, 90), (103, 0), (200, 0), (200, 100), (0, 100)]
        self.assertEqual(made([[[(float(x), float(y)) for x, y in inlet]]]).findings, [])


class Plans(unittest.TestCase):
    def test_the_records(self) -> None:
        it = made([[[(0, 0), (30.4, 0), (0, 40)]]])
        self.assertEqual(it.plan.decode().splitlines(), [
            'plan,2,,,,,', 'source,1,lots,,,,', 'point,1,0,0,1,,', 'point,2,30,0,1,,', 'point,3,0,40,1,,',
            'parcel,1,Lot 1,1,,,', 'string,1,1,2,1,0,1', 'string,2,2,3,1,0,1', 'string,3,1,3,0,1,1', 'open,,,,,,'])
        self.assertAlmostEqual(it.figures.move, 0.4)

    def test_sources_of_parcels(self) -> None:
        rows = [Row(1, 'a', 1, 'a', 'Deed 7', [[box(0, 0, 9, 9)]]), Row(2, 'b', 2, 'b', '', [[box(9, 0, 18, 9)]])]
        plan = make(Layer('lots', rows, []), 2, [], lambda done: None).plan
        self.assertIn(b'source,2,Deed 7,,,,\n', plan)
        self.assertIn(b'parcel,1,a,1 2,,,\nparcel,2,b,1,,,\n', plan)

    def test_an_area_that_moves_can_not_have_made(self) -> None:
        it = made([[box(0, 0, 100, 100)]])
        row = it.accounts[0].row
        for east, kinds in ((100.0, []), (101.0, []), (103.0, ['area'])):  # 400 mm of border, by moves of 0.71 mm.
            row.parts = [[box(0, 0, east, 100)]]
            findings: list[Finding] = []
            it.figures.move = 0.71
            accounts_of([row], it.parcels, it.figures, findings)
            self.assertEqual([finding.kind for finding in findings], kinds)

    def test_tolerances(self) -> None:
        self.assertEqual([square_of(it) for it in (None, 1, 2 ** 0.5, 1.5, 20)], [2, 1, 2, 2, 400])
        for wrong in (0.5, 0, -1, math.nan, math.inf):
            with self.assertRaises(Refused):
                square_of(wrong)

    def test_texts_that_fit(self) -> None:
        self.assertEqual(clipped('  a \n b '), 'a b')
        self.assertEqual(clipped('é' * 41), 'é' * 40)
        self.assertEqual(clipped('aé', 2), 'a')

    def test_a_report(self) -> None:
        it = made([[box(0, 0, 10000, 10000)]], [[box(9000, 0, 20000, 10000)]])
        lines = report_text(it, [Note('told')]).decode().splitlines()
        self.assertEqual(lines[1], 'overlap,3 1 2,9.000,0.000,10.000000,909.1,overlap of 1 2,,,,,,,')
        self.assertEqual(lines[2], 'row,1,0.000,0.000,,,Lot 1,101,key 1,'
                         '100.000000,90.000000,0.000000,10.000000,0.000000')
        self.assertEqual(lines[4], 'note,,,,,,told,,,,,,,')


class Marks(unittest.TestCase):
    POINTS = [(0, 0), (1000, 0), (1000, 1000)]

    def test_numbers_by_place(self) -> None:
        findings: list[Finding] = []
        marks = [Mark(70, (1000, 1)), Mark(7, (0, 0))]
        self.assertEqual(numbers_of_points([0, 1, 2], self.POINTS, marks, 2, findings), {0: 7, 1: 70, 2: 71})
        self.assertEqual(findings, [])

    def test_marks_without_a_point(self) -> None:
        findings: list[Finding] = []
        marks = [Mark(5, (1000, 1)), Mark(6, (1000, 0)), Mark(7, (500, 500))]
        self.assertEqual(numbers_of_points([0, 1, 2], self.POINTS, marks, 2, findings), {0: 8, 1: 6, 2: 9})
        self.assertEqual([it.numbers for it in findings], [[5, 6], [7]])


class Arcs(unittest.TestCase):
    def test_a_half_circle_in_two_chords(self) -> None:
        most = 5 * (1 - math.sqrt(0.5)) + 1e-9  # A quarter of a circle of 5 m is that far from its chord.
        for ends, last in ((((0, 0), (5, 5), (10, 0)), (10, 0)), (((10, 0), (5, 5), (0, 0)), (0, 0))):
            points = chords_of(*ends, most)
            self.assertEqual(points[1:], [last])
            self.assertAlmostEqual(math.dist(points[0], (5, 5)), 0)

    def test_chords_stay_near(self) -> None:
        ring = [(0.0, 0.0), *chords_of((0, 0), (1, 7), (10, 0), 0.01)]
        centre = (5.0, 40 / 14)  # As far from 0 0 as from 1 7.
        radius = math.dist(centre, (0, 0))
        middles = [((a[0] + b[0]) / 2, (a[1] + b[1]) / 2) for a, b in zip(ring, ring[1:])]
        self.assertLess(max(radius - math.dist(centre, it) for it in middles), 0.01 + 1e-9)
        self.assertLess(max(abs(radius - math.dist(centre, it)) for it in ring), 1e-9)

    def test_the_same_points_both_ways(self) -> None:
        there = [(3.0, 1.0), *chords_of((3, 1), (4, 9), (12, 2), 0.05)]
        back = [(12.0, 2.0), *chords_of((12, 2), (4, 9), (3, 1), 0.05)]
        self.assertEqual(there, back[::-1])

    def test_a_circle(self) -> None:
        ring = arc_ring([(0, 0), (10, 0), (0, 0)], 0.1)
        self.assertEqual((ring[0], ring[-1]), ((0, 0), (0, 0)))
        self.assertLess(max(abs(math.dist((5, 0), it) - 5) for it in ring), 1e-9)
        self.assertGreater(len(ring), 12)

    def test_an_arc_that_is_straight(self) -> None:
        self.assertEqual(chords_of((0, 0), (5, 0), (10, 0), 0.1), [(5, 0), (10, 0)])


class Checking(unittest.TestCase):
    def program(self, script: str) -> str:
        folder = tempfile.mkdtemp(prefix='checking-')
        self.addCleanup(shutil.rmtree, folder)
        write(f'{folder}/program', f'#!/bin/sh\ncat > /dev/null\n{script}\n', 0o755)
        return f'{folder}/program'

    def test_a_plan_that_is_accepted(self) -> None:
        check(self.program('echo area,1,Lot 1,1200,0.00,,; echo end,,,,,,'), made([[[(0, 0), (30, 0), (0, 40)]]]))

    def test_a_plan_that_is_refused(self) -> None:
        with self.assertRaisesRegex(Refused, r'the program refuses the plan .*\(cadedit: plan fault 11 breaks V8\)'):
            check(self.program('echo "cadedit: plan fault 11 breaks V8" >&2; exit 2'),
                  made([[[(0, 0), (30, 0), (0, 40)]]]))

    def test_other_areas(self) -> None:
        for told_area in ('area,1,Lot 1,1202,0.00,,', 'end,,,,,,', 'area,2,Lot 1,1200,0.00,,'):
            with self.assertRaisesRegex(Refused, 'another area of parcel [12]'):
                check(self.program(f'echo "{told_area}"'), made([[[(0, 0), (30, 0), (0, 40)]]]))

    def test_mergers_that_are_accepted(self) -> None:
        it = made([[box(0, 0, 100, 1000)]], [[box(97, 0, 200, 1000)]], [[box(300, 0, 400, 1000)]],
                  [[box(395, 0, 500, 1000)]])
        mergers = it.parcels.mergers(10)
        self.assertEqual([(m.kept, m.ended) for m in mergers], [(1, 5), (3, 6)])
        path = self.program('echo refused,14,not-one-chain,,,,; echo ok,,,,,,')
        self.assertEqual(accepted(path, it, mergers), mergers[1:])


class Files(unittest.TestCase):
    def test_whole_or_not_at_all(self) -> None:
        with tempfile.TemporaryDirectory() as folder:
            write_whole(f'{folder}/out.csv', b'text')
            with open(f'{folder}/out.csv', 'rb') as file:
                self.assertEqual(file.read(), b'text')
            with self.assertRaisesRegex(Refused, "out.csv/no can't be written: "):
                write_whole(f'{folder}/out.csv/no', b'text')
            self.assertEqual(os.listdir(folder), ['out.csv'])

    def test_a_link_stays(self) -> None:
        with tempfile.TemporaryDirectory() as folder:
            write(f'{folder}/real.csv', 'old')
            os.symlink('real.csv', f'{folder}/link.csv')
            write_whole(f'{folder}/link.csv', b'new')
            self.assertTrue(os.path.islink(f'{folder}/link.csv'))
            with open(f'{folder}/real.csv', 'rb') as file:
                self.assertEqual(file.read(), b'new')
        with self.assertRaisesRegex(Refused, "/dev/null can't be written whole"):
            check_writable('/dev/null')

    def test_the_system_that_sources_name(self) -> None:
        one = Tables({'sources': [['1', 'a.gpkg, layer lots, EPSG:25832'], ['2', 'Deed 7']]})
        self.assertEqual(one.system(), 'EPSG:25832')
        two = Tables({'sources': [['1', 'a, EPSG:1'], ['2', 'b, EPSG:2']]})
        self.assertIsNone(two.system())


if __name__ == '__main__':
    unittest.main()
