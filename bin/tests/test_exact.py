"""bin/lib/exact.py: exact tests on positions, also where floating point would be wrong."""
from __future__ import annotations

import itertools
import unittest

import checked  # noqa: F401  The folder bin is on the path by it.

from lib.exact import (
    CROSS, OVERLAP, TOUCH, Meeting, counterclockwise, doubled_area, is_inside, is_on, line_text,
    meeting_of, metres, orientation, point_text, polygon_text)

FAR = 10_000_000_000  # The limit of a coordinate.
SQUARE = [(0, 0), (4, 0), (4, 4), (0, 4)]


class Meetings(unittest.TestCase):
    def test_crossing(self) -> None:
        self.assertEqual(meeting_of((0, 0), (10, 10), (0, 10), (10, 0)), Meeting(CROSS, ((5, 5),)))

    def test_crossing_at_the_nearest_millimetre(self) -> None:
        # The lines y = x / 3 and x = 5 meet at 5/3; y = x / 2 and x = 5 at 5/2, the middle of two millimetres.
        self.assertEqual(meeting_of((0, 0), (9, 3), (5, 0), (5, 9)), Meeting(CROSS, ((5, 2),)))
        self.assertEqual(meeting_of((0, 0), (8, 4), (5, 0), (5, 9)), Meeting(CROSS, ((5, 3),)))

    def test_touching(self) -> None:
        self.assertEqual(meeting_of((0, 0), (10, 0), (5, 0), (5, 7)), Meeting(TOUCH, ((5, 0),)))
        self.assertEqual(meeting_of((0, 0), (10, 0), (10, 0), (12, 7)), Meeting(TOUCH, ((10, 0),)))
        self.assertEqual(meeting_of((0, 0), (10, 0), (10, 0), (20, 0)), Meeting(TOUCH, ((10, 0),)))

    def test_overlapping(self) -> None:
        self.assertEqual(meeting_of((0, 0), (10, 0), (15, 0), (4, 0)), Meeting(OVERLAP, ((4, 0), (10, 0))))
        self.assertEqual(meeting_of((0, 0), (0, 9), (0, 2), (0, 5)), Meeting(OVERLAP, ((0, 2), (0, 5))))

    def test_apart(self) -> None:
        self.assertIsNone(meeting_of((0, 0), (10, 0), (0, 1), (10, 1)))
        self.assertIsNone(meeting_of((0, 0), (10, 0), (11, 0), (20, 0)))
        self.assertIsNone(meeting_of((0, 0), (10, 10), (6, 5), (10, 6)))  # Their boxes overlap.

    def test_a_segment_of_one_position(self) -> None:
        self.assertEqual(meeting_of((0, 0), (10, 10), (3, 3), (3, 3)), Meeting(TOUCH, ((3, 3),)))
        self.assertIsNone(meeting_of((0, 0), (10, 10), (3, 4), (3, 4)))

    def test_a_millimetre_off_a_line_of_twenty_thousand_kilometres(self) -> None:
        a, b = (-FAR, -FAR), (FAR, FAR - 1)
        self.assertGreater(orientation(a, b, (0, 0)), 0)  # The line passes half a millimetre below.
        self.assertLess(orientation(a, b, (0, -1)), 0)
        self.assertFalse(is_on((0, 0), a, b))
        self.assertIsNone(meeting_of(a, b, (0, 0), (-1, 5)))
        self.assertEqual(meeting_of(a, b, (0, 0), (0, -1)), Meeting(CROSS, ((0, 0),)))

    def test_either_way_round(self) -> None:
        grid = [(x, y) for x in range(3) for y in range(3)]
        for a, b, c, d in itertools.product(grid, repeat=4):
            found = meeting_of(a, b, c, d)
            for other in (meeting_of(b, a, c, d), meeting_of(a, b, d, c), meeting_of(c, d, a, b)):
                self.assertEqual(found and found.kind, other and other.kind)


class Directions(unittest.TestCase):
    def test_counterclockwise_from_the_east(self) -> None:
        directions = [(5, 0), (5, 1), (0, 5), (-5, 1), (-5, 0), (-5, -1), (0, -5), (5, -1)]
        shuffled = [directions[i] for i in (3, 0, 7, 5, 1, 6, 2, 4)]
        at = {number: (100 + x, 200 + y) for number, (x, y) in enumerate(directions)}
        numbers = [directions.index(it) for it in shuffled]
        self.assertEqual(counterclockwise((100, 200), numbers, lambda it: at[it]), list(range(8)))


class Rings(unittest.TestCase):
    def test_areas(self) -> None:
        self.assertEqual(doubled_area(SQUARE), 32)
        self.assertEqual(doubled_area(SQUARE[::-1]), -32)
        self.assertEqual(doubled_area([(0, 0), (5, 5), (9, 9)]), 0)

    def test_inside(self) -> None:
        self.assertTrue(is_inside((2, 2), SQUARE))
        self.assertFalse(is_inside((5, 2), SQUARE))
        self.assertFalse(is_inside((-1, 0), SQUARE))  # The ray passes two corners.
        self.assertTrue(is_inside((0, 0), SQUARE))  # A lower end belongs to its side, an upper one doesn't.
        self.assertFalse(is_inside((0, 4), SQUARE))


class Texts(unittest.TestCase):
    def test_metres(self) -> None:
        self.assertEqual([metres(it) for it in (0, 7, -7, 1234567, -1000)],
                         ['0.000', '0.007', '-0.007', '1234.567', '-1.000'])

    def test_well_known_text(self) -> None:
        self.assertEqual(point_text((512340000, 5403120001)), 'POINT(512340.000 5403120.001)')
        self.assertEqual(line_text([(0, 0), (1000, -5)]), 'LINESTRING(0.000 0.000,1.000 -0.005)')
        self.assertEqual(line_text([(3, 3), (3, 3)]), 'POINT(0.003 0.003)')
        self.assertEqual(polygon_text([(0, 0), (1000, 0), (0, 1000)]),
                         'POLYGON((0.000 0.000,1.000 0.000,0.000 1.000,0.000 0.000))')


if __name__ == '__main__':
    unittest.main()
