"""A map on the lots of examples/block.csv, and on two lots of ten metres:

    6 ---15--- 5 ---14--- 4     10 m
    |          |          |
    16   101   17   102   13
    |          |          |
    1 ---11--- 2 ---12--- 3      0 m
    0 m       10 m       20 m
"""
from __future__ import annotations

import copy
import gc
import json
import pickle
import threading
import unittest
from collections.abc import Callable
from pathlib import Path
from typing import Any
from unittest import mock

from cadedit import Area, CadeditError, Map, PlanFault, Position, Refused, Ring, SyntaxFault, ThreadFault, _library

EXAMPLES = Path(__file__).resolve().parents[2] / 'examples'
EMPTY = b'plan,2,,,,,\nopen,,,,,,\n'
TWO_LOTS = b"""plan,2,,,,,
source,1,Survey 7,,,,
point,1,0,0,1,,
point,2,10000,0,1,,
point,3,20000,0,1,,
point,4,20000,10000,1,,
point,5,10000,10000,1,,
point,6,0,10000,1,,
parcel,101,Mill Lane 2,1,,,
parcel,102,Mill Lane 4,1,,,
string,11,1,2,101,0,
string,12,2,3,102,0,
string,13,3,4,102,0,
string,14,4,5,102,0,
string,15,5,6,101,0,
string,16,6,1,101,0,
string,17,2,5,101,102,1
open,,,,,,
"""

# A square of thirty metres round a triangle that touches its corner.
TOUCHING = b"""plan,2,,,,,
point,1,0,0,,,
point,2,30000,0,,,
point,3,30000,30000,,,
point,4,0,30000,,,
point,5,20000,10000,,,
point,6,10000,20000,,,
parcel,101,Field,,,,
parcel,102,Pond,,,,
string,11,1,2,101,0,
string,12,2,3,101,0,
string,13,3,4,101,0,
string,14,4,1,101,0,
string,21,1,5,102,101,
string,22,5,6,102,101,
string,23,6,1,102,101,
open,,,,,,
"""


def block_parts() -> tuple[bytes, list[bytes]]:
    """The plan of examples/block.csv, and the records of its script, of which none has a line feed within."""
    lines = (EXAMPLES / 'block.csv').read_bytes().splitlines(keepends=True)
    end = lines.index(b'open,,,,,,\n') + 1
    return b''.join(lines[:end]), lines[end:]


class Case(unittest.TestCase):
    def two_lots(self, depth: int = 100) -> Map:
        """The two lots, closed when the test ends."""
        lots = Map(TWO_LOTS, depth)
        self.addCleanup(lots.close)
        return lots

    def assert_refused(self, number: int, name: str, kind: str = '', value: str = '') -> Any:
        """That what follows is refused so."""
        text = ' '.join(filter(None, (str(number), name, kind, value)))
        return self.assertRaisesRegex(Refused, f'^{text}$')


class Records(Case):
    def test_the_answers_of_the_block(self) -> None:
        plan, script = block_parts()
        with Map(plan) as block:
            answers = b''.join(map(block.submit, script))
        self.assertEqual(answers, (EXAMPLES / 'block.out').read_bytes())

    def test_submit_raises_nothing_of_an_answer(self) -> None:
        lots = self.two_lots()
        self.assertEqual(lots.submit(b'merge,101,999,,,,'), b'refused,2,unknown,parcel,999,,\n')
        self.assertEqual(lots.submit(b'frob,,,,,,\n'), b'syntax,,,,,,\n')
        self.assertEqual(lots.submit(b'undo\n'), b'syntax,,,,,,\n')
        self.assertEqual(lots.submit(b'rename,101,\xff,,,,\n'), b'syntax,,,,,,\n')
        self.assertEqual(lots.submit(b'undo,,,,,,\n'), b'nothing,,,,,,\n')
        self.assertEqual(lots.plan(), TWO_LOTS)

    def test_not_one_record(self) -> None:
        lots = self.two_lots()
        for record in (b'', b'\n', b'undo,,,,,,\nundo,,,,,,\n'):
            with self.assertRaises(SyntaxFault):
                lots.submit(record)

    def test_an_answer_of_many_bytes(self) -> None:
        points = b''.join(b'point,%d,%d,%d,,,\n' % (it, 7 * it, -it * it) for it in range(1, 2001))
        plan = b'plan,2,,,,,\n' + points + b'open,,,,,,\n'
        with Map(plan) as its_map:
            self.assertEqual(its_map.plan(), plan)
            self.assertEqual(its_map.submit(b'undo,,,,,,'), b'nothing,,,,,,\n')
            self.assertEqual(its_map.positions()[2000], (14000, -4000000))


class Edits(Case):
    def test_sources(self) -> None:
        lots = self.two_lots()
        lots.add_source(2, 'Field book 3, "north"\nand south')
        lots.attach('parcel', 101, 2)
        lots.attach('point', 1, 2)
        lots.attach('string', 17, 2)
        lots.detach('string', 17, 1)
        plan = lots.plan()
        for line in (b'source,2,"Field book 3, ""north""\nand south",,,,\n', b'parcel,101,Mill Lane 2,1 2,,,\n',
                     b'point,1,0,0,1 2,,\n', b'string,17,2,5,101,102,2\n'):
            self.assertIn(line, plan)

    def test_points(self) -> None:
        lots = self.two_lots()
        lots.add_point(7, 25000, -3)
        self.assertEqual(lots.positions()[7], Position(25000, -3))
        lots.move(7, 26000, 0)
        self.assertEqual(lots.positions()[7], Position(26000, 0))
        lots.drop_point(7)
        self.assertNotIn(7, lots.positions())
        with self.assert_refused(7, 'not-free', 'point', '1'):
            lots.drop_point(1)

    def test_split_and_join(self) -> None:
        lots = self.two_lots()
        lots.split(17, 7, 10000, 4000, 18, 19)
        self.assertEqual(lots.outline(101), [Ring('outer', (1, 2, 7, 5, 6))])
        lots.join(7, 17)
        self.assertEqual(lots.plan(), TWO_LOTS)

    def test_divide_and_merge(self) -> None:
        lots = self.two_lots()
        lots.divide(101, [2, 6], [18], 103, 'Mill Lane 2a', 1)
        self.assertEqual(lots.areas(), [Area(101, 'Mill Lane 2', 100000000, '50.00'),
                                        Area(102, 'Mill Lane 4', 200000000, '100.00'),
                                        Area(103, 'Mill Lane 2a', 100000000, '50.00')])
        self.assertEqual(lots.outline(103), [Ring('outer', (1, 2, 6))])
        lots.merge(101, 103)
        self.assertEqual(lots.outline(101), [Ring('outer', (1, 2, 5, 6))])
        with self.assert_refused(4, 'retired', 'parcel', '103'):
            lots.divide(101, [2, 6], [18], 103, 'Mill Lane 2a', 1)

    def test_enclose(self) -> None:
        lots = self.two_lots()
        for point, x, y in ((7, 2000, 2000), (8, 4000, 2000), (9, 2000, 5000)):
            lots.add_point(point, x, y)
        lots.enclose(101, (7, 8, 9), (21, 22, 23), 103, 'Station', 1)
        self.assertEqual(lots.outline(101), [Ring('outer', (1, 2, 5, 6)), Ring('hole', (7, 9, 8))])
        self.assertEqual(lots.areas()[2], Area(103, 'Station', 6000000, '3.00'))

    def test_rename(self) -> None:
        lots = self.two_lots()
        lots.rename(101, 'Größe, "A"')
        self.assertEqual(lots.areas()[0].label, 'Größe, "A"')
        with self.assert_refused(6, 'no-change'):
            lots.rename(101, 'Größe, "A"')

    def test_undo_and_redo(self) -> None:
        lots = self.two_lots(depth=1)
        self.assertIs(lots.undo(), False)
        lots.move(4, 20000, 11000)
        lots.move(4, 20000, 12000)
        self.assertIs(lots.undo(), True)
        self.assertIs(lots.undo(), False)
        self.assertIs(lots.redo(), True)
        self.assertIs(lots.redo(), False)
        self.assertEqual(lots.positions()[4], Position(20000, 12000))

    def test_refused(self) -> None:
        lots = self.two_lots()
        with self.assertRaises(Refused) as caught:
            lots.merge(101, 999)
        told = caught.exception
        self.assertEqual((told.number, told.name, told.kind, told.value), (2, 'unknown', 'parcel', '999'))
        again = pickle.loads(pickle.dumps(told))
        self.assertEqual((type(again), str(again)), (Refused, '2 unknown parcel 999'))
        with self.assert_refused(18, 'breaks', 'V3'):
            lots.move(3, 0, 0)
        with self.assert_refused(2, 'unknown', 'parcel', '7'):
            lots.outline(7)
        self.assertEqual(lots.plan(), TWO_LOTS)

    def test_what_is_no_record(self) -> None:
        lots = self.two_lots()
        edits: list[tuple[Callable[..., Any], tuple[Any, ...]]] = [
            (lots.move, (-1, 0, 0)), (lots.add_point, (10 ** 9, 0, 0)), (lots.add_source, (2, '')),
            (lots.add_source, (2, 'x' * 81)), (lots.attach, ('face', 1, 1)), (lots.outline, (-1,))]
        for edit, given in edits:
            with self.assertRaises(SyntaxFault):
                edit(*given)
        self.assertEqual(lots.plan(), TWO_LOTS)

    def test_a_number_is_a_whole_number(self) -> None:
        lots = self.two_lots()
        edits: list[tuple[Callable[..., Any], tuple[Any, ...]]] = [
            (lots.move, ('4,20000', 11000, 0)), (lots.move, (4, 20000.0, 11000)), (lots.outline, ('101',)),
            (lots.divide, (101, '26', [18], 103, 'A', 1))]
        for edit, given in edits:
            with self.assertRaises(TypeError):
                edit(*given)
        with self.assertRaises(UnicodeEncodeError):
            lots.rename(101, '\udc80')
        self.assertEqual(lots.plan(), TWO_LOTS)

    def test_a_text_is_one_field(self) -> None:
        lots = self.two_lots()
        for label in ('A,B', '"', '"A"', 'A\r\nB', '\n', '\r', ' A ', "'", '\ufeffA', 'A\0B', ',\0"', 'x' * 80, '"' * 80,
                      '\u2028', '\narea,7,A,2,0.00,,', '"\nend,,,,,,'):
            lots.rename(101, label)
            self.assertEqual([it.label for it in lots.areas()], [label, 'Mill Lane 4'])
            self.assertEqual(len(lots.positions()), 6)
        with self.assertRaises(SyntaxFault):
            lots.attach('parcel,101', 1, 1)


class Opening(Case):
    def test_plan_faults(self) -> None:
        for plan, number, text in (
                (b'', 12, '12 no-open'), (b'plan,2,,,,,\npoint,1,0,0,1,,\nopen,,,,,,\n', 6, '6 unknown source 1'),
                (TWO_LOTS.replace(b'string,17,2,5,101,102,1\n', b''), 10, '10 labels string 11')):
            with self.assertRaises(PlanFault) as caught:
                Map(plan)
            self.assertEqual((caught.exception.number, caught.exception.text), (number, text))

    def test_bytes_of_any_kind(self) -> None:
        for plan in (bytearray(TWO_LOTS), memoryview(TWO_LOTS)):
            with Map(plan) as lots:
                self.assertEqual(lots.plan(), TWO_LOTS)
        wrong: Any
        for wrong in ('plan,2,,,,,\nopen,,,,,,\n', 7, None):
            with self.assertRaises(TypeError):
                Map(wrong)

    def test_depths(self) -> None:
        for depth in (0, -1, 1001, 1 << 32, (1 << 64) + 5, 1 << 200):
            with self.assertRaises(ValueError):
                Map(EMPTY, depth)
        for depth in (1, 1000):
            Map(EMPTY, depth).close()

    def test_a_file(self) -> None:
        with Map.open(EXAMPLES / 'block.csv') as block:
            self.assertEqual([it.number for it in block.areas()], [101, 102])
        with self.assertRaises(FileNotFoundError):
            Map.open(EXAMPLES / 'nothing.csv')

    def test_closed(self) -> None:
        with self.two_lots() as lots:
            self.assertFalse(lots.closed)
        self.assertTrue(lots.closed)
        uses: list[tuple[Callable[..., Any], tuple[Any, ...]]] = [
            (lots.areas, ()), (lots.undo, ()), (lots.plan, ()), (lots.positions, ()), (lots.position, (1,)),
            (lots.geometry, (101,)), (lots.submit, (b'undo,,,,,,',))]
        for use, given in uses:
            with self.assertRaisesRegex(ValueError, 'closed'):
                use(*given)
        lots.close()

    def test_no_copies(self) -> None:
        lots = self.two_lots()
        makers: list[Callable[[Map], object]] = [copy.copy, copy.deepcopy, pickle.dumps]
        for make in makers:
            with self.assertRaises(TypeError):
                make(lots)

    def test_it_is_let_go(self) -> None:
        for _ in range(20):
            Map(TWO_LOTS).rename(101, 'A')
        gc.collect()


class Memory(Case):
    """What is said where memory ran out; bin/try-embedding has it run out in C."""

    def with_status(self, lots: Map, status: int) -> None:
        lots._library = lots._library._replace(submit=lambda *_: status)

    def test_nothing_was_done(self) -> None:
        lots = self.two_lots()
        positions = lots.positions()
        self.with_status(lots, _library.MEMORY)
        with self.assertRaisesRegex(MemoryError, 'nothing has changed'):
            lots.move(4, 20001, 10000)
        self.assertIs(lots.positions(), positions)

    def test_done_and_untold(self) -> None:
        lots = self.two_lots()
        positions, library = lots.positions(), lots._library
        self.with_status(lots, _library.UNTOLD)
        with self.assertRaisesRegex(MemoryError, 'once the record was done'):
            lots.move(4, 20001, 10000)
        lots._library = library
        self.assertIsNot(lots.positions(), positions)

    def test_opening(self) -> None:
        for status in (_library.MEMORY, _library.PLAN):  # A fault without its text: there was no room for that.
            full = _library.library()._replace(open=lambda *_, status=status: status)
            with mock.patch('cadedit._map.library', return_value=full), self.assertRaisesRegex(MemoryError, 'not open'):
                Map(EMPTY)


class Threads(Case):
    def run_beside(self, *works: Any) -> None:
        threads = [threading.Thread(target=work) for work in works]
        for it in threads:
            it.start()
        for it in threads:
            it.join()

    def test_another_thread(self) -> None:
        lots = self.two_lots()
        told: list[type[CadeditError]] = []

        def work() -> None:
            for use in (lots.undo, lots.areas, lots.close):
                try:
                    use()
                except CadeditError as fault:
                    told.append(type(fault))

        self.run_beside(work)
        self.assertEqual(told, [ThreadFault] * 3)
        self.assertEqual(lots.plan(), TWO_LOTS)

    def test_maps_side_by_side(self) -> None:
        counts: list[int] = []

        def work() -> None:
            with Map(EMPTY) as its_map:
                for source in range(1, 301):
                    its_map.add_source(source, f'Survey {source}')
                counts.append(its_map.plan().count(b'source,'))

        self.run_beside(*[work] * 8)
        self.assertEqual(counts, [300] * 8)


class Geometry(Case):
    def test_a_polygon(self) -> None:
        lots = self.two_lots()
        self.assertEqual(lots.geometry(101), {
            'type': 'Polygon',
            'coordinates': [[(0.0, 0.0), (10.0, 0.0), (10.0, 10.0), (0.0, 10.0), (0.0, 0.0)]]})
        self.assertEqual(lots.wkt(102), 'POLYGON((10.000 0.000,20.000 0.000,20.000 10.000,10.000 10.000,10.000 0.000))')

    def test_millimetres(self) -> None:
        lots = self.two_lots()
        lots.move(1, -1, -12007)
        self.assertTrue(lots.wkt(101).startswith('POLYGON((-0.001 -12.007,10.000 0.000,'), lots.wkt(101))
        self.assertEqual(lots.geometry(101)['coordinates'][0][0], (-0.001, -12.007))

    def test_a_hole(self) -> None:
        plan, script = block_parts()
        with Map(plan) as block:
            for record in script:
                block.submit(record)
            self.assertIn('),(512350.000 5403150.000,512350.000 5403153.000,512354.000 5403153.000,512354.000 5403150.000,'
                          '512350.000 5403150.000))', block.wkt(101))

    def test_positions_are_those_of_now(self) -> None:
        lots = self.two_lots()
        before = lots.positions()
        self.assertIs(lots.positions(), before)
        lots.areas()
        with self.assertRaises(Refused):
            lots.move(3, 0, 0)
        self.assertIs(lots.positions(), before)
        lots.move(4, 20001, 10000)
        self.assertEqual(lots.positions()[4], (20001, 10000))
        lots.undo()
        self.assertEqual(lots.positions(), before)
        lots.submit(b'redo,,,,,,')
        self.assertEqual(lots.positions()[4], (20001, 10000))

    def test_a_position(self) -> None:
        lots = self.two_lots()
        lots.move(3, 20001, -10000)
        self.assertEqual(lots.position(3), Position(20001, -10000))
        for point in (0, -1, 7, 101, 10 ** 9, (1 << 32) + 4, 1 << 64):
            with self.assertRaises(KeyError):
                lots.position(point)

    def test_a_ring_that_passes_a_point_twice_is_cut(self) -> None:
        with Map(TOUCHING) as touching:
            self.assertEqual([len(it.points) for it in touching.outline(101)], [7])
            outline, hole = touching.geometry(101)['coordinates']
        self.assertEqual({*outline}, {(0.0, 0.0), (30.0, 0.0), (30.0, 30.0), (0.0, 30.0)})
        self.assertEqual({*hole}, {(0.0, 0.0), (10.0, 20.0), (20.0, 10.0)})
        self.assertEqual((len(outline), len(hole)), (5, 4))

    def test_a_long_shape(self) -> None:
        corners = [(place * 1000, 0) for place in range(500)] + [(499000, 1000), (0, 1000)]
        rows = [f'point,{place},{x},{y},,,' for place, (x, y) in enumerate(corners, 1)] + ['parcel,1,Lane,,,,'] + [
            f'string,{place},{place},{place % len(corners) + 1},1,0,' for place in range(1, len(corners) + 1)]
        with Map('\n'.join(['plan,2,,,,,', *rows, 'open,,,,,,', '']).encode()) as lane:
            text, ring = lane.wkt(1), lane.geometry(1)['coordinates'][0]
        self.assertGreater(len(text), 4096)
        self.assertEqual({*ring}, {(x / 1000, y / 1000) for x, y in corners})
        self.assertEqual((ring[0], len(ring)), (ring[-1], len(corners) + 1))

    def test_a_shape_for_which_memory_runs_out(self) -> None:
        lots = self.two_lots()
        lots._library = lots._library._replace(shape=lambda *_: _library.MEMORY)
        with self.assertRaisesRegex(MemoryError, 'nothing has changed'):
            lots.wkt(101)
        self.assertEqual([it.number for it in lots.areas()], [101, 102])

    def test_the_outside(self) -> None:
        lots = self.two_lots()
        self.assertEqual(lots.outline(0), [Ring('hole', (1, 6, 5, 4, 3, 2))])
        for ask in (lots.geometry, lots.wkt):
            with self.assertRaises(ValueError):
                ask(0)
        with self.assert_refused(2, 'unknown', 'parcel', '7'):
            lots.wkt(7)

    def test_geo_interface(self) -> None:
        lots = self.two_lots()
        told = json.loads(json.dumps(lots.__geo_interface__))
        self.assertEqual([it['id'] for it in told['features']], [101, 102])
        self.assertEqual(told['features'][1]['properties'], {'number': 102, 'label': 'Mill Lane 4', 'area': '100.00'})
        self.assertEqual(told['features'][0]['geometry']['coordinates'][0][2], [10.0, 10.0])


if __name__ == '__main__':
    unittest.main()
