"""The command bin/cadpage: a plan as one HTML file, by the program's tables."""
from __future__ import annotations

import argparse
import gc
import os
import sys
import tempfile
from typing import NoReturn

from lib.boxes import Missing
from lib.page.data import Asked, data_of
from lib.page.sheet import leaflet, page
from lib.program import NoProgram, found_program
from lib.views import NotShown

DONE, NO_PACKAGE, NOT_WRITTEN, WRONG_WORDS, NO_PROGRAM, STOPPED = 0, 1, 3, 64, 70, 130
DESCRIPTION = """Makes one HTML file of a plan, which shows its map in a browser without a network: parcels, boundaries
and points, each with what the plan says of it, a search, and what was added, changed or removed since an older
plan. It is written to standard output."""
STATUS = """PLAN and OLD are as for cadview: plans, jobs up to `open`, or answers that end with a plan; `-` is standard
input.

status: 0 done; 1 Debian's package libjs-leaflet is missing; 64 the arguments aren't as above; else that of cadview:
2 a plan is at fault, 3 a plan can't be read or the page not written, 5 memory ran out, 70 there is no program"""


class Parser(argparse.ArgumentParser):
    """A parser that ends with cadview's status where the arguments are wrong."""

    def error(self, message: str) -> NoReturn:
        self.exit(WRONG_WORDS, f'cadpage: {message}\n')


def arguments(words: list[str] | None) -> argparse.Namespace:
    """The arguments; wrong ones end the program."""
    parser = Parser(prog='cadpage', description=DESCRIPTION, epilog=STATUS, allow_abbrev=False,
                    formatter_class=argparse.RawDescriptionHelpFormatter)
    parser.add_argument('plan', metavar='PLAN')
    parser.add_argument('--since', metavar='OLD', help='an older plan: what differs from it is shown and listed')
    parser.add_argument('--title', metavar='TEXT', help="the page's title; else the name of PLAN without its ending")
    given = parser.parse_args(words)
    if given.plan == given.since == '-':
        parser.error('standard input is one plan: name PLAN or OLD')
    return given


def name_of(path: str) -> str:
    """The name of a plan: that of its file, without folder and ending."""
    return 'Standard input' if path == '-' else os.path.splitext(os.path.basename(path))[0] or path


def kept(path: str, copy: str) -> str:
    """The path of a copy, so that each table is of the same bytes. Where the plan can't be read it is its own path:
    then the program says so."""
    try:
        if path == '-':
            data = sys.stdin.buffer.read()
        else:
            with open(path, 'rb') as file:
                data = file.read()
    except OSError:
        return path
    with open(copy, 'wb') as file:
        file.write(data)
    return copy


def make(given: argparse.Namespace) -> bytes:
    """The page. Raises Missing, NoProgram, NotShown or OSError."""
    leaflet()
    cadview = found_program('cadview', is_told=True)
    title = given.title or name_of(given.plan)
    with tempfile.TemporaryDirectory(prefix='cadpage') as folder:
        plan = kept(given.plan, os.path.join(folder, 'plan.csv'))
        old = None if given.since is None else kept(given.since, os.path.join(folder, 'old.csv'))
        data = data_of(cadview, Asked(plan, title, old, name_of(given.since or '')))
    return page(title, data).encode(errors='replace')


def write(text: bytes) -> None:
    """Writes to standard output. Raises OSError."""
    sys.stdout.buffer.write(text)
    sys.stdout.buffer.flush()


def main(words: list[str] | None = None) -> int:
    """Runs the command with these words, or with those of the command line. Answers its status."""
    given = arguments(words)
    gc.disable()  # A plan is a million small things without a cycle; looking for one takes a third of the time.
    try:
        write(make(given))
        return DONE
    except Missing as missing:
        status, said = NO_PACKAGE, f"cadpage: Debian's package {missing} is missing: apt-get install {missing}"
    except NoProgram as error:
        status, said = NO_PROGRAM, str(error)
    except NotShown as error:
        status, said = error.status, str(error)
    except KeyboardInterrupt:
        return STOPPED
    except OSError as error:
        os.dup2(os.open(os.devnull, os.O_WRONLY), 1)  # Python would write what is left when it ends.
        status, said = NOT_WRITTEN, f'cadpage: the page can\'t be written: {error.strerror}'
    print(said, file=sys.stderr)
    return status
