"""bin/lib/near.py: the plans and scripts of bin/try-near, and what is told of a count."""
from __future__ import annotations

import unittest

from checked import found_program, needs_program

from lib.near import KINDS, Row, are_done, each_round, far_square, heading, instructions_of, job_of, rounds_of, script_of
from lib.program import Program, verdict_of

SAID = """==17== Callgrind, a call-graph generating cache profiler
==17== Events    : Ir
==17== Collected : 19441893
==17==
==17== I   refs:      19,441,893
"""


class Jobs(unittest.TestCase):
    def test_far_squares(self) -> None:
        self.assertEqual(list(far_square(0))[:5], [
            'parcel,1000,Far', 'point,1000,1000000,0', 'point,1001,1010000,0', 'point,1002,1010000,10000',
            'point,1003,1000000,10000'])
        self.assertEqual(list(far_square(101))[5:], [
            'string,2010,2010,2011,2010,0', 'string,2011,2011,2012,2010,0', 'string,2012,2012,2013,2010,0',
            'string,2013,2013,2010,2010,0'])
        self.assertEqual(list(far_square(101))[1], 'point,2010,2000000,1000000')

    def test_records_of_a_job(self) -> None:
        lines = job_of(3, ['undo']).decode().splitlines()
        self.assertEqual({it.count(',') for it in lines}, {6})
        self.assertEqual((lines[0], lines[-2:]), ('plan,2,,,,,', ['open,,,,,,', 'undo,,,,,,']))
        self.assertEqual(len(lines) - len(job_of(0, ['undo']).splitlines()), 3 * 9)

    def test_scripts(self) -> None:
        rounds = sum(map(len, KINDS.values()))
        self.assertEqual(len(script_of(2)), 2 * rounds)
        self.assertEqual(script_of(1, 'join', 2)[rounds:], ['join,24,51', 'undo'] * 2)
        self.assertEqual((rounds_of('join', 200), rounds_of('add-point', 200)), (200, 1000))

    @needs_program
    def test_each_record_is_done(self) -> None:
        script = script_of(2)
        answers = verdict_of(Program(found_program()), job_of(12, [*script, 'undo']))
        self.assertEqual((answers.status, answers.said), (0, ''))
        done, _, last = answers.output.rpartition(b'nothing,,,,,,\n')
        self.assertTrue(are_done(done, script))
        self.assertEqual(last, b'')


class Counts(unittest.TestCase):
    def test_what_valgrind_said(self) -> None:
        self.assertEqual(instructions_of(SAID), 19_441_893)
        self.assertIsNone(instructions_of('==17== Events    : Ir\n'))

    def test_are_done(self) -> None:
        self.assertTrue(are_done(b'ok,,,,,,\nok,,,,,,\n', ['join,24,51', 'undo']))
        self.assertFalse(are_done(b'ok,,,,,,\nnothing,,,,,,\n', ['join,24,51', 'undo']))
        self.assertFalse(are_done(b'ok,,,,,,\n', ['join,24,51', 'undo']))

    def test_each_round(self) -> None:
        self.assertEqual(each_round(1000, 3050, 20), 102)
        self.assertEqual(each_round(1000, 990, 20), 1)

    def test_rows(self) -> None:
        head = heading([10, 100, 1000])
        self.assertEqual(head, f'{"instructions beside":30}            10           100         1,000   ratio')
        row = Row('split', [100, 130, 110])
        self.assertEqual(row.ratio, 1.3)
        self.assertEqual(row.text(1.3), f'{"split":30}           100           130           110    1.30')
        self.assertEqual(row.text(1.25), f'{row.text(1.3)}  TOO MANY')


if __name__ == '__main__':
    unittest.main()
