"""The command bin/cadimport: its words, its statuses, and the order of its steps."""
from __future__ import annotations

import argparse
import gc
import os
import sys
import time
from collections.abc import Callable
from typing import NoReturn

from lib.importing.checking import FAULT, accepted, check, merger_text, program
from lib.importing.common import Refused, check_writable, one_line, write_whole
from lib.importing.layer import read_layer
from lib.importing.making import SLIVER, Made, make, square_of
from lib.importing.marks import read_marks
from lib.importing.report import SURVEY_HEADER, csv_text, report_text, survey_row, told
from lib.importing.rows import Wanted

PLAN, FINDINGS, NO_PLAN, STOPPED = 0, 1, 2, 130
SQUARES = {'1': 1, '1.41': 2, '2': 4, '5': 25, '10': 100, '20': 400, '50': 2500, '100': 10000}  # Of tolerances.
DESCRIPTION = """Makes a plan for cadedit of a layer of polygons, and writes it to standard output.

What isn't one row's ground becomes a parcel of its own and is told: an overlap, a gap, a further part. The plan is
checked by the program before it is given out. docs/IMPORT.md has examples, and what each finding means."""
STATUSES = """status: 0 a plan, and nothing to look at; 1 a plan, and findings; 2 no plan, and one line says why and
what helps"""


class Parser(argparse.ArgumentParser):
    """The words of a command. A wrong one is told on one line."""

    def __init__(self, name: str, description: str, statuses: str) -> None:
        super().__init__(prog=name, description=description, epilog=statuses,
                         formatter_class=argparse.RawDescriptionHelpFormatter)

    def error(self, message: str) -> NoReturn:
        """Ends with the status that says that there is no plan."""
        self.exit(NO_PLAN, f'{self.prog}: {message} ({self.prog} --help)\n')


def parser() -> Parser:
    """The words of bin/cadimport."""
    words = Parser('cadimport', DESCRIPTION, STATUSES)
    words.add_argument('file', metavar='FILE',
                       help='what GDAL opens: GeoPackage, Shapefile, GeoJSON, CSV with WKT, PG:dbname=..')
    for name, metavar, text in (
            ('layer', 'LAYER', 'its layer, where there are several'),
            ('where', 'SQL', 'a condition on the rows that are taken'),
            ('number', 'COL', 'the column with parcels\' numbers, 1 to 999999999; else rows are counted'),
            ('label', 'COL', 'the column with parcels\' labels, or with keys that are no numbers'),
            ('source', 'COL', 'the column with the text of each parcel\'s own source'),
            ('unit', 'UNIT', 'mm, m, km, ft, us-ft, or so many metres; else that of the reference system'),
            ('points', 'LAYER-or-FILE', 'boundary marks, which number the points where they lie'),
            ('point-number', 'COL', 'the column with their numbers')):
        words.add_argument(f'--{name}', metavar=metavar, help=text)
    for name, text in (('tolerance', 'how near is the same place; 1.41 (√2) if not given'),
                       ('chord', 'makes chords of arcs, which stay so near to them'),
                       ('sliver', 'how wide a sliver is at most; 100 if not given')):
        words.add_argument(f'--{name}', metavar='MM', type=float, help=text)
    for name, text in (('output', 'where the plan is written, whole or not at all'),
                       ('report', 'findings, rows and notes as CSV with x and y in metres'),
                       ('edits', 'mergers of slivers with a neighbour, as a script for cadedit')):
        words.add_argument(f'--{name}', metavar='FILE', help=text)
    words.add_argument('--survey', action='store_true', help='no plan, but a table of what comes of tolerances')
    return words


class Progress:
    """Tells on a terminal what was done, and after how many seconds."""

    def __init__(self) -> None:
        self.began = time.monotonic()

    def __call__(self, done: str) -> None:
        if sys.stderr.isatty():
            print(f'{time.monotonic() - self.began:6.1f} s: {done}', file=sys.stderr, flush=True)


def write_out(text: bytes) -> None:
    """Writes to standard output. Raises Refused where that fails."""
    try:
        left = memoryview(text)
        while left:
            left = left[os.write(1, left):]
    except OSError as error:
        raise Refused(f'standard output can\'t be written: {error.strerror}') from error


def run(given: argparse.Namespace) -> int:
    """Does what the words ask for. Answers the status. Raises Refused where there is no plan."""
    check_words(given)
    tell = Progress()
    wanted = Wanted(given.file, given.layer, given.where, given.number, given.label, given.source, given.unit,
                    given.chord, given.points, given.point_number)
    layer = read_layer(wanted)
    marks = read_marks(wanted, layer.notes)
    tell(f'{len(layer.rows)} rows read')
    path = program('cadedit')
    sliver = SLIVER if given.sliver is None else given.sliver

    def made_at(square: int) -> Made:
        """The plan at a tolerance with this square, checked by the program."""
        made = make(layer, square, marks, tell, sliver)
        check(path, made)
        tell('plan checked')
        return made

    if given.survey:
        write_out(csv_text(survey(made_at)))
        return PLAN
    made = made_at(square_of(given.tolerance))
    lines = told(made, layer.notes)
    if given.report:
        write_whole(given.report, report_text(made, layer.notes))
    if given.edits:
        lines.append(write_edits(path, made, given.edits, sliver))
    if given.output:
        write_whole(given.output, made.plan)
    else:
        write_out(made.plan)
    print('\n'.join(lines), file=sys.stderr)
    return FINDINGS if made.findings else PLAN


def check_words(given: argparse.Namespace) -> None:
    """Raises Refused where words don't go together, or a file can't be written."""
    square_of(given.tolerance)
    if given.chord is not None and not given.chord > 0:
        raise Refused('--chord is more than 0 mm')
    if given.sliver is not None and not 0 <= given.sliver <= 1_000_000:
        raise Refused('--sliver is from 0 to 1000000 mm')
    if given.point_number and not given.points:
        raise Refused('--point-number asks for --points: the layer of the marks')
    files = [it for it in (given.output, given.report, given.edits) if it]
    for path in files:
        check_writable(path)
    if len({os.path.realpath(it) for it in [given.file, *files]}) <= len(files):
        raise Refused('two of FILE, --output, --report and --edits are one file: name another one')
    if given.survey and files:
        raise Refused('--survey writes its table to standard output alone: leave --output, --report and --edits out')


def survey(made_at: Callable[[int], Made]) -> list[list[object]]:
    """The table of tolerances; where there is no plan, the reason is told."""
    rows: list[list[object]] = [list(SURVEY_HEADER)]
    for text, square in SQUARES.items():
        try:
            rows.append(survey_row(text, made_at(square)))
        except Refused as error:
            rows.append([text, *[''] * (len(SURVEY_HEADER) - 2), str(error)])
    return rows


def write_edits(path: str, made: Made, file: str, most: float) -> str:
    """Writes the mergers that the program makes, and says how many they are."""
    tried = made.parcels.mergers(most)
    done = accepted(path, made, tried)
    write_whole(file, b''.join(map(merger_text, done)))
    if not tried:
        return f'edits: none, since no gap or overlap is up to {most:g} mm wide'
    refused = f'; {len(tried) - len(done)} others are refused by the program' if len(tried) > len(done) else ''
    return f'edits: {len(done)} mergers of slivers up to {most:g} mm wide, the widest last{refused}'


def main() -> int:
    """Runs the command. Answers its status."""
    given = parser().parse_args()
    gc.disable()  # There are no cycles to collect, and looking for them took a third of the time.
    try:
        return run(given)
    except Refused as error:
        print(f'cadimport: {one_line(error)}', file=sys.stderr)
    except KeyboardInterrupt:
        return STOPPED
    except MemoryError:
        print('cadimport: memory ran out: cut the layer into districts by --where (docs/SCALE.md)', file=sys.stderr)
    except Exception as error:  # Python's own status, 1, would say that there is a plan.
        print(f'cadimport: {type(error).__name__}: {one_line(error)}: {FAULT}', file=sys.stderr)
    return NO_PLAN
