"""The module against include/cadedit.h, and where it finds its library."""
from __future__ import annotations

import ctypes
import os
import re
import unittest
from pathlib import Path
from unittest import mock

from cadedit import NoLibrary, _library

HEADER = Path(__file__).resolve().parents[2] / 'include' / 'cadedit.h'
CALL = re.compile(r'^(\w+) (cadedit_\w+)\(([^)]*)\);', re.M)


def told() -> str:
    """The header without its comments."""
    return re.sub(r'/\*.*?\*/', '', HEADER.read_text(encoding='utf-8'), flags=re.S)


class Header(unittest.TestCase):
    def test_calls(self) -> None:
        declared = {name: (returns, [re.sub(r'\w+$', '', ' '.join(it.split())).strip() for it in given.split(',')])
                    for returns, name, given in CALL.findall(told())}
        self.assertEqual(declared, _library.CALLS)

    def test_statuses(self) -> None:
        for name, number in re.findall(r'CADEDIT_(\w+) = (\d+)', told()):
            self.assertEqual(getattr(_library, name), int(number))

    def test_struct(self) -> None:
        fields = re.findall(r'^    (\w+ \*?)(\w+);', told(), re.M)
        types = {'uint64_t ': ctypes.c_uint64, 'void *': ctypes.c_void_p}
        self.assertEqual([(name, types[of]) for of, name in fields], _library.Handle._fields_)


class Found(unittest.TestCase):
    def setUp(self) -> None:
        clean = {key: text for key, text in os.environ.items()
                 if key not in ('CADEDIT_LIBRARY', 'PROVED_ONLY', 'UNPROVED_OK')}
        patch = mock.patch.dict(os.environ, clean, clear=True)
        patch.start()
        self.addCleanup(patch.stop)

    def test_the_one_that_is_named(self) -> None:
        os.environ['CADEDIT_LIBRARY'] = '/some/where.so'
        self.assertEqual(_library.found_path(), Path('/some/where.so'))

    def test_one_without_a_proof(self) -> None:
        path = Path('/x/unproved/libcadedit.so')
        with mock.patch('sys.stderr') as said:
            self.assertEqual(_library.unproved(path), path)
            self.assertTrue(said.write.called)
            said.reset_mock()
            os.environ['UNPROVED_OK'] = '1'
            self.assertEqual(_library.unproved(path), path)
            self.assertFalse(said.write.called)
        os.environ['PROVED_ONLY'] = '1'
        with self.assertRaisesRegex(NoLibrary, 'not proved'):
            _library.unproved(path)

    def test_none(self) -> None:
        with self.assertRaisesRegex(NoLibrary, 'no checkout round it'):
            _library.built_path(Path('/nowhere/bin/build-library'))
        with self.assertRaisesRegex(NoLibrary, 'status 1'):
            _library.built_path(Path('/bin/false'))

    def test_one_that_is_no_library(self) -> None:
        for path in ('/nowhere.so', __file__):
            os.environ['CADEDIT_LIBRARY'] = path
            with self.assertRaises(NoLibrary):
                _library.library.__wrapped__()


if __name__ == '__main__':
    unittest.main()
