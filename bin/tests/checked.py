"""A small map, and the program and the packages that tests of bin/cadcheck need; a test without them is skipped.

    6 ---15--- 5 ---14--- 4     10 m
    |          |          |
    16   101   17   102   13
    |          |          |
    1 ---11--- 2 ---12--- 3      0 m
    0 m       10 m       20 m
"""
from __future__ import annotations

import contextlib
import functools
import gc
import importlib.machinery
import importlib.util
import io
import os
import shutil
import subprocess
import sys
import tempfile
import unittest
import unittest.mock
from typing import Any

sys.dont_write_bytecode = True
TOP = os.path.dirname(os.path.dirname(os.path.dirname(os.path.realpath(__file__))))
sys.path.insert(0, os.path.join(TOP, 'bin'))
COMMAND = os.path.join(TOP, 'bin', 'cadcheck')
PATH = '/usr/bin:/bin'

TWO_LOTS = """plan,2,,,,,
source,1,Survey 7,,,,
point,1,0,0,1,,
point,2,10000,0,1,,
point,3,20000,0,1,,
point,4,20000,10000,1,,
point,5,10000,10000,1,,
point,6,0,10000,1,,
parcel,101,Mill Lane 2,1,,,
parcel,102,Mill Lane 4,1,,,
string,11,1,2,101,0,
string,12,2,3,102,0,
string,13,3,4,102,0,
string,14,4,5,102,0,
string,15,5,6,101,0,
string,16,6,1,101,0,
string,17,2,5,101,102,1
open,,,,,,
"""


@functools.cache
def command() -> Any:
    """The module of bin/cadcheck, which has no ending."""
    loader = importlib.machinery.SourceFileLoader('cadcheck', COMMAND)
    spec = importlib.util.spec_from_loader('cadcheck', loader)
    assert spec
    module = importlib.util.module_from_spec(spec)
    loader.exec_module(module)
    return module


@functools.cache
def why_no_program(name: str = 'cadedit') -> str:
    """Why there is no program that is built already, or nothing. No build is started."""
    built = [os.path.join(TOP, it) for it in (f'crates/{name}/out/{name}', f'out/unproved/{name}')]
    if not any(os.access(it, os.X_OK) for it in built):
        return 'the program is not built'
    if shutil.which('rt', path=PATH):
        return 'a kit on the path would build a program where a source has changed'
    return '' if found_program(name) else 'a source is newer than the program'


@functools.cache
def found_program(name: str = 'cadedit') -> str:
    """The path of the program, or nothing where it would have to be built: there is no kit on this path."""
    done = subprocess.run([os.path.join(TOP, 'bin', 'program'), name], capture_output=True, text=True,
                          env={**os.environ, 'PATH': PATH, 'UNPROVED_OK': '1'})
    return done.stdout.strip() if done.returncode == 0 else ''


def why_no_package(name: str) -> str:
    """Why a module can't be imported by this Python, or nothing."""
    if importlib.util.find_spec(name):
        return ''
    return f'{name} is missing: run the tests by /usr/bin/python3 of Debian'


needs_shapely = unittest.skipIf(why_no_package('shapely'), why_no_package('shapely'))
needs_gdal = unittest.skipIf(why_no_package('osgeo'), why_no_package('osgeo'))
needs_program = unittest.skipIf(why_no_program(), why_no_program())
needs_viewer = unittest.skipIf(why_no_program('cadview'), why_no_program('cadview'))


class Checked(unittest.TestCase):
    """A case with an empty folder, in which `check` runs bin/cadcheck on a job."""

    def setUp(self) -> None:
        self.folder = tempfile.mkdtemp(prefix='checked-')
        self.addCleanup(shutil.rmtree, self.folder)
        self.addCleanup(os.chdir, os.getcwd())
        os.chdir(self.folder)

    def run_it(self, *words: str, given: bytes = b'') -> tuple[int, str, str]:
        """The status of bin/cadcheck, what it writes, and what it says on standard error; run in this process."""
        out, err = io.StringIO(), io.StringIO()
        with contextlib.redirect_stdout(out), contextlib.redirect_stderr(err), \
                unittest.mock.patch('sys.stdin', io.TextIOWrapper(io.BytesIO(given))), \
                unittest.mock.patch.dict(os.environ, PATH=PATH, UNPROVED_OK='1'):
            try:
                status = command().main(list(words))
            except SystemExit as error:  # of arguments that are wrong
                status = int(error.code or 0)
        gc.enable()
        return status, out.getvalue(), err.getvalue()

    def run_alone(self, *words: str, given: bytes = b'') -> tuple[int, str, str]:
        """The same in a process of its own, as a user runs it."""
        done = subprocess.run([COMMAND, *words], cwd=self.folder, input=given, capture_output=True,
                              env={**os.environ, 'PATH': PATH, 'UNPROVED_OK': '1'})
        return done.returncode, done.stdout.decode(), done.stderr.decode()

    def check(self, job: str | bytes, *words: str) -> tuple[int, list[str]]:
        """The status and the lines that are written of a job, which is `job.csv`."""
        with open(os.path.join(self.folder, 'job.csv'), 'wb') as file:
            file.write(job if isinstance(job, bytes) else job.encode())
        status, out, err = self.run_it(*words, 'job.csv')
        self.assertEqual(err, '')
        return status, out.splitlines()

    def places(self, lines: list[str]) -> list[str]:
        return [line.removeprefix('  place:  ') for line in lines if line.startswith('  place:')]

    def likely(self, lines: list[str]) -> list[str]:
        return [line.removeprefix('  likely: ') for line in lines if line.startswith('  likely:')]

    def heads(self, lines: list[str]) -> list[str]:
        return [line for line in lines if line.startswith('job.csv:')]
