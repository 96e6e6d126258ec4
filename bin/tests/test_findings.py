"""bin/lib: what is found of a map's geometry agrees with the program, and a point that was moved is named."""
from __future__ import annotations

import os
import random
import subprocess
import sys
import unittest
from collections.abc import Iterator
from dataclasses import replace

from checked import TOP, TWO_LOTS, found_program, needs_program, needs_shapely

from lib.crossings import positions_of
from lib.edits import places_of
from lib.fans import fans_of
from lib.jobs import explained
from lib.outlines import face_at, face_towards, rings_of
from lib.program import Program, Shown, answers_of, maps_before, verdict_of
from lib.records import Plan, Record, plan_of, records_of
from lib.suspects import Geometry, likely_points

SLIPS = 38
RULES = ['V3', 'V4', 'V6', 'V7', 'V8']


def plan_in(text: str) -> Plan:
    return plan_of(list(records_of(text.encode()))[1:-1])


class Faces(unittest.TestCase):
    """Rings and faces of the two lots."""

    def setUp(self) -> None:
        self.plan = plan_in(TWO_LOTS)
        self.at = positions_of(self.plan)
        self.strings = list(self.plan.strings.values())

    def test_rings(self) -> None:
        rings = rings_of(self.strings, self.at)
        self.assertEqual({face: [(it.text(), it.doubled) for it in found] for face, found in rings.items()}, {
            101: [('(1 2 5 6)', 200_000_000)], 102: [('(2 3 4 5)', 200_000_000)], 0: [('(1 6 5 4 3 '
                                                                                       '2)', -400_000_000)]})

    def test_the_face_of_a_position(self) -> None:
        for position, face in (((5000, 5000), 101), ((15000, 5000), 102), ((25000, 5000), 0), ((-1, 0), 0),
                               ((5000, 10001), 0), ((9999, 9999), 101)):
            self.assertEqual(face_at(position, self.strings, self.at), face)

    def test_the_face_into_which_a_line_leads(self) -> None:
        fan = fans_of(self.strings, self.at)[5]
        self.assertEqual([half.string for half in fan], [14, 15, 17])  # East, west and south of point 5.
        for to, told in (((5000, 0), (101, None)), ((15000, 0), (102, None)), ((10000, 20000), (0, None)),
                         ((10000, 5000), (102, 17)), ((30000, 10000), (0, 14))):
            self.assertEqual(face_towards(5, to, fan, self.at), told)


@needs_shapely
class Likely(unittest.TestCase):
    """The point that likely has a wrong coordinate."""

    def test_two_points(self) -> None:
        # The two lots, and the same again 500 m to the east with numbers greater by 200.
        plan = plan_in(TWO_LOTS.replace('point,5,10000,', 'point,5,50000,'))
        for row in plan_in(TWO_LOTS.replace('point,5,10000,10000', 'point,5,10000,50000')).points.values():
            plan.add(replace(row, number=row.number + 200, x=row.x + 500_000))
        for string in plan_in(TWO_LOTS).strings.values():
            plan.add(replace(string, number=string.number + 200, first=string.first + 200,
                             second=string.second + 200))
        self.assertEqual([(it.point, it.covered) for it in likely_points(Geometry(plan))], [(5, 3)])
        plan.points[205] = replace(plan.points[205], x=550_000, y=10000)
        self.assertEqual([(it.point, it.covered, it.total, it.slip and it.slip.before)
                          for it in likely_points(Geometry(plan))], [(5, 3, 6, '10000'), (205, 3, 6, '510000')])

    def test_none(self) -> None:
        self.assertEqual(likely_points(Geometry(plan_in(TWO_LOTS))), [])

    def test_a_point_on_no_string_says_nothing_of_others(self) -> None:
        plan = plan_in(TWO_LOTS.replace('parcel,101', 'point,7,5000,0,,,\nparcel,101'))
        geometry = Geometry(plan)
        self.assertEqual([it.words for it in geometry.broken[0]], ['point 7 lies on string 11'])
        self.assertEqual(likely_points(geometry), [])


@needs_shapely
@needs_program
class Slips(unittest.TestCase):
    """One digit wrong in a grid of 900 parcels."""

    def plans(self) -> Iterator[tuple[int, bytes]]:
        """Plans of the grid with a slip each, and the points that have it."""
        bench = [sys.executable, '-B', os.path.join(TOP, 'bin', 'bench'), '--write', 'grid', '30']
        written = subprocess.run(bench, stdout=subprocess.PIPE, check=True).stdout
        lines = written.splitlines()
        points = [place for place, line in enumerate(lines) if line.startswith(b'point,')]
        chosen = random.Random(30)
        for _ in range(SLIPS):
            place, field = chosen.choice(points), chosen.choice((2, 3))
            fields = lines[place].split(b',')
            text = fields[field].decode()
            digit = chosen.randrange(len(text))
            other = chosen.choice([it for it in '0123456789' if it != text[digit]])
            fields[field] = str(int(text[:digit] + other + text[digit + 1:])).encode()
            yield int(fields[1]), b'\n'.join([*lines[:place], b','.join(fields), *lines[place + 1:], b''])

    def test_each_refused_plan_names_the_point(self) -> None:
        refused = 0
        for point, data in self.plans():
            findings, _ = explained(Program(found_program()), data)
            faults = [it for it in findings if it.kind == 'plan fault']
            if faults:
                refused += 1
                fault, = faults
                self.assertTrue(fault.likely and fault.likely[0].startswith(f'point {point} (record {point + 2}, '
                                                                            f'line {point + 2})'),
                                (point, fault.head('plan.csv'), fault.likely))
                self.assertTrue(fault.places)
        self.assertGreater(refused, 3)


@needs_shapely
@needs_program
class Agrees(unittest.TestCase):
    """Of random edits each that breaks a rule has a place for it, and none that keeps a rule has one."""

    def script(self, seed: int) -> Iterator[str]:
        """Edits round the two lots, many of them wrong."""
        chosen = random.Random(seed)
        points, parcels, strings, number = list(range(1, 7)), [101, 102], list(range(11, 18)), 200

        def position() -> str:
            x, y = chosen.choice([(chosen.randrange(-1000, 21000), chosen.randrange(-1000, 11000)),
                                  (chosen.randrange(0, 21) * 1000, chosen.randrange(0, 11) * 1000)])
            return f'{x},{y}'

        for _ in range(60):
            kind, number = chosen.randrange(6), number + 10
            if kind == 0:
                yield f'move,{chosen.choice(points)},{position()},,,'
            elif kind == 1:
                yield f'split,{chosen.choice(strings)},{number},{position()},{number},{number + 1}'
                points.append(number)
                strings += [number, number + 1]
            elif kind == 2:
                yield f'join,{chosen.choice(points)},{number},,,,'
                strings.append(number)
            elif kind == 3:
                yield f'merge,{chosen.choice(parcels)},{chosen.choice(parcels)},,,,'
            else:
                inner = range(number, number + kind - 3 + (kind == 5) * 1)
                yield from (f'add-point,{it},{position()},,,' for it in inner)
                ends = [chosen.choice(points), chosen.choice(points)] if kind == 4 else []
                chain = [*ends[:1], *inner, *ends[1:]] if kind == 4 else list(inner)
                names = ' '.join(str(number + it) for it in range(len(chain) - (kind == 4)))
                edit = 'divide' if kind == 4 else 'enclose'
                for face in chosen.sample([0, *parcels], 2):
                    yield f'{edit},{face},{" ".join(map(str, chain))},{names},{number},Lot,1'
                parcels.append(number)
                points += inner

    def test_places_where_a_rule_is_broken_and_nowhere_else(self) -> None:
        program, seen = Program(found_program()), set()
        for seed in range(12):
            records = list(records_of((TWO_LOTS + '\n'.join(self.script(seed))).encode()))
            plan, script = records[:18], records[18:]
            answers = answers_of(verdict_of(program, TWO_LOTS.encode() + b'\n'.join(it.raw for it in script)).output)
            asked = list(range(len(script)))
            for place, (shown, _) in zip(asked, maps_before(program, plan, plan_of(plan[1:-1]), script, asked)):
                told = [it.decode() for it in answers[place].fields[:4]]
                if told[0] == 'ok' or told[2] == 'breaks':
                    broken = told[3] if told[0] == 'refused' else ''
                    seen.add(broken)
                    self.check(script[place], broken, shown)
        self.assertLessEqual({'', 'V3', 'V4', 'V7', 'V8'}, seen)

    def check(self, record: Record, broken: str, shown: Shown) -> None:
        """The places for the rule that is broken, if one is, and for those before it."""
        for rule in RULES:
            places = places_of(rule, record, shown.plan, shown.at)
            if rule == broken:
                self.assertTrue(places, record.text())
                return
            self.assertEqual(places, [], record.text())


if __name__ == '__main__':
    unittest.main()
