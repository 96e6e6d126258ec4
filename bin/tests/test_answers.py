"""bin/lib/program.py, bin/lib/scripts.py: answers are tied to their records, and maps to the places of a script."""
from __future__ import annotations

import importlib
import io
import unittest
import unittest.mock
from types import ModuleType

from checked import TWO_LOTS, Checked, found_program, needs_program, needs_shapely

from lib.program import Answer, Output, Program, answers_of, maps_before, plan_fault_of
from lib.records import plan_of, records_of
from lib.scripts import History

WRITTEN = [[b'ok,,,,,,'], [b'plan,2,,,,,', b'source,1,"a\nopen,,,,,,\n""b""",,,,', b'open,,,,,,'], [b'end,,,,,,'],
           [b'area,1,"x, y",2,0.00,,', b'end,,,,,,'], [b'refused,2,unknown,point,5,,']]


class Answers(unittest.TestCase):
    def test_answer_by_answer_however_it_is_read(self) -> None:
        data = b''.join(line + b'\n' for answer in WRITTEN for line in answer)
        for size in (1, 4, 5, 11, 30, 1000):
            with unittest.mock.patch('lib.program.READ_BYTES', size):
                output = Output(io.BytesIO(data))
                self.assertEqual([output.answer() for _ in range(6)], [*WRITTEN, []])

    def test_kinds_and_words(self) -> None:
        answers = answers_of(b''.join(line + b'\n' for answer in WRITTEN for line in answer))
        self.assertEqual([it.kind for it in answers], [b'ok', b'plan', b'end', b'area', b'refused'])
        self.assertEqual(answers[-1].words(), '2 unknown point 5')

    def test_faults(self) -> None:
        self.assertEqual(plan_fault_of('cadedit: plan fault 10 labels string 4'), (10, 'labels', 'string 4'))
        self.assertEqual(plan_fault_of('cadedit: plan fault 12 no-open'), (12, 'no-open', ''))


class Histories(unittest.TestCase):
    def why(self, depth: int, *kinds: str) -> str:
        """Why the last of these, which are all done but for it, finds nothing."""
        history = History(depth)
        records = [next(records_of(f'{kind},,,,,,'.encode())) for kind in kinds]
        for record in records[:-1]:
            history.take(record, Answer((b'ok',)))
        history.take(records[-1], Answer((b'nothing',)))
        return history.why_nothing(records[-1].kind)

    def test_why_nothing(self) -> None:
        self.assertEqual(self.why(100, 'undo'), 'nothing to undo: no edit was made before it')
        self.assertEqual(self.why(100, 'redo'), 'nothing to redo: no edit was made before it')
        self.assertEqual(self.why(100, 'move', 'redo'), 'nothing to redo: no edit is undone')
        self.assertEqual(self.why(100, 'move', 'undo', 'undo'), 'nothing to undo: all edits before it are undone')
        self.assertEqual(self.why(2, 'move', 'move', 'move', 'undo', 'undo', 'undo'),
                         'nothing to undo: the last 2 edits are undone, and no older one can be (--depth)')


@needs_program
class Maps(unittest.TestCase):
    def test_maps_before_records(self) -> None:
        script = (b'rename,101,"two\nopen,,,,,,\nlines",,,,\nareas,,,,,,\nmove,6,500,10000,,,\nprint,,,,,,\n'
                  b'split,17,7,10000,5000,21,22\n')
        records = list(records_of(TWO_LOTS.encode() + script))
        plan, rest = records[:18], records[18:]
        seen = []
        for shown, areas in maps_before(Program(found_program()), plan, plan_of(plan[1:-1]), rest, [0, 2, 3]):
            parcel = shown.plan.parcels[101]
            seen.append((parcel.label, shown.at[6], sorted(shown.plan.strings), len(areas)))
        strings = list(range(11, 18))
        renamed = b'two\nopen,,,,,,\nlines'
        self.assertEqual(seen, [
            (b'Mill Lane 2', (0, 10000), strings, 0), (renamed, (0, 10000), strings, 0),
            (renamed, (500, 10000), strings, 0), (renamed, (500, 10000), [*strings[:-1], 21, 22], 3)])


class Packages(Checked):
    def without(self, package: str, *words: str) -> tuple[int, str, str]:
        """Runs the command as if a package weren't there."""
        found = importlib.import_module

        def import_module(name: str) -> ModuleType:
            if name.startswith(package):
                raise ImportError(name)
            return found(name)

        with unittest.mock.patch('importlib.import_module', import_module):
            return self.run_it(*words)

    def test_shapely_is_missing(self) -> None:
        self.assertEqual(self.without('shapely', 'job.csv'), (
            2, '', "cadcheck: Debian's package python3-shapely is missing: apt-get install python3-shapely\n"))

    @needs_shapely
    def test_gdal_is_missing(self) -> None:
        self.assertEqual(self.without('osgeo', '--gpkg', 'out.gpkg', 'job.csv'), (
            2, '', "cadcheck: Debian's package python3-gdal is missing: apt-get install python3-gdal\n"))


@needs_shapely
@needs_program
class Alone(Checked):
    """In a process of its own, as a user runs it."""

    def test_a_job(self) -> None:
        job = TWO_LOTS + 'drop-point,1,,,,,\n'
        status, out, err = self.run_alone('-', given=job.encode())
        self.assertEqual((status, err), (1, ''))
        self.assertEqual(out.splitlines(), [
            '-:19: record 19: refused 7 not-free point 1: point 1 is on strings 11 and 16',
            '  record: drop-point,1,,,,,', "  means:  the point is on a string: it can't be dropped, nor be inside "
                                           "a new line",
            '  place:  point 1: POINT(0.000 0.000)', '  helps:  `join` it away, or lead the line so that it ends '
                                                     'there',
            '1 refusal explained'])

    def test_nothing_to_explain(self) -> None:
        self.assertEqual(self.run_alone('-', given=TWO_LOTS.encode()), (0, 'nothing to explain\n', ''))


if __name__ == '__main__':
    unittest.main()
