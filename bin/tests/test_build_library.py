"""bin/build-library: which library it prints, and what is said and kept where none can be made; what a crate
exports."""
from __future__ import annotations

import os
import re
import sys
import unittest
from typing import NamedTuple

from made_up import TOP, WRONG_PROGRAM, MadeUp, write

sys.path.insert(0, os.path.join(TOP, 'bin'))
from lib.exports import check_text, exports_of, program_text, put_program, statuses_of

NOT_PROVED = 'bin/build-library: this build is not proved; bin/prove cadedit_c proves and builds the library\n'
CRATE = """//! Calls for C.
#![tactic(auto)]

use cad_handle::{Handle, open_plan};
use std::alloc::Global;

/// It was done.
const DONE: u32 = 0;
const UNKNOWN: u32 = 7;

/// Tells where a point is.
#[unsafe(no_mangle)]
pub extern "C" fn cadedit_point(
    alloc: Global,
    handle: &mut Handle,
    number: u32,
    x: &mut i64,
    room: &mut [u8],
) -> u32
    ensures { result ≡ 0 }
{
    DONE
}

mod closing;

fn put(text: &[u8], room: &mut [u8]) -> u64 {
    0
}
"""
CLOSING = """//! Closing.
#[unsafe(no_mangle)]
pub extern "C" fn cadedit_close(alloc: Global, handle: &mut Handle)
    ensures { handle.new.kept.state ≡ None }
{
}
"""


HANDLE = """/// What C holds.
#[repr(C)]
#[derive(Drop)]
pub struct Handle {
    opened: u64,
    pub kept: Kept,
    ghost known: { opened ≡ flag_of kept.state },
}

#[repr(C)]
pub struct Kept {
    at: *mut u8,
    pub ghost state: { Option State },
}

pub struct State {
    pub answer: Vec<u8>,
}
"""


class Told(NamedTuple):
    """How bin/build-library ended, and what it wrote and said."""
    status: int
    path: str
    said: str


class Library(MadeUp):
    def ask(self, *words: str, **env: str) -> Told:
        status, out, err = self.run_to_end(f'{self.top}/bin/build-library', *words, **env)
        return Told(status, out.strip(), err)

    def unproved(self) -> str:
        return f'{self.top}/out/unproved/libcadedit.so'

    def proved(self) -> str:
        return f'{self.top}/out/library/libcadedit.so'

    def prove(self) -> None:
        status, _, err = self.run_to_end(f'{self.top}/bin/prove', '--lanes', '1', 'cadedit_c')
        self.assertEqual(status, 0, err)

    def rooms(self) -> list[str]:
        return os.listdir(f'{self.folder}/tmp')

    def test_made_once_and_said_each_time(self) -> None:
        told = self.ask()
        self.assertEqual((told.status, told.path), (0, self.unproved()), told.said)
        self.assertTrue(told.said.endswith(NOT_PROVED))
        self.assertEqual(self.ask(), Told(0, self.unproved(), NOT_PROVED))
        self.assertEqual(self.ask(UNPROVED_OK='1'), Told(0, self.unproved(), ''))
        self.assertEqual(self.calls(), ['try'])
        self.assertEqual(self.rooms(), [])
        self.assertTrue(os.path.isfile(f'{self.top}/out/unproved/libcadedit.a'))

    def test_a_source_has_changed(self) -> None:
        self.ask()
        self.touch('crates/low/src/lib.rt')
        self.ask()
        self.assertEqual(self.calls(), ['try', 'try'])

    def test_proved_only(self) -> None:
        for _ in range(2):
            for told in (self.ask(PROVED_ONLY='1'), self.ask('--proved')):
                self.assertEqual((told.status, told.path), (70, ''))
                self.assertIn('bin/prove cadedit_c proves and builds it', told.said)
            self.ask()  # Nor is one that was made used.

    def test_the_proved_one_while_no_source_is_newer(self) -> None:
        self.prove()
        self.assertEqual(self.ask(PROVED_ONLY='1'), Told(0, self.proved(), ''))
        self.assertTrue(os.path.isfile(f'{self.top}/out/library/libcadedit.a'))
        os.remove(f'{self.top}/crates/cadedit_c/out/libcadedit_c.a')  # As the gate does.
        self.assertEqual(self.ask('--proved'), Told(0, self.proved(), ''))
        self.touch('crates/low/src/lib.rt')
        self.assertEqual(self.ask('--proved').status, 70)
        self.assertEqual(self.ask().path, self.unproved())

    def test_a_crate_that_is_not_proved(self) -> None:
        status, _, err = self.run_to_end(f'{self.top}/bin/prove', 'cadedit_c', FAILS='cadedit_c')
        self.assertEqual(status, 1)
        self.assertIn('cadedit_c was not proved or not built', err)
        self.assertFalse(os.path.exists(self.proved()))

    def test_by_the_other_compiler(self) -> None:
        self.assertEqual(self.ask('--by-rattle').status, 70)
        self.prove()
        with open(f'{self.top}/crates/cadedit_c/out/libcadedit_c.a', encoding='utf-8') as file:
            first = file.read()
        write(f'{self.folder}/module', WRONG_PROGRAM)
        other = f'{self.top}/out/library/by-rattle/libcadedit.so'
        self.assertEqual(self.ask('--by-rattle').path, other)
        for path, text in ((f'{self.top}/crates/cadedit_c/out/libcadedit_c.a', first), (self.proved(), first),
                           (other, WRONG_PROGRAM)):
            with open(path, encoding='utf-8') as file:
                self.assertEqual(file.read(), text)
        self.assertEqual(self.ask('--proved'), Told(0, self.proved(), ''))
        self.assertEqual(self.ask('--by-rattle'), Told(0, other, ''))

    def test_the_other_compiler_makes_none(self) -> None:
        self.prove()
        told = self.ask('--by-rattle', FAILS='cadedit_c')
        self.assertEqual(told.status, 70)
        self.assertIn("Rattle's own compiler did not make it", told.said)
        self.assertEqual(self.ask('--proved'), Told(0, self.proved(), ''))

    def test_wrong_answers_are_not_kept(self) -> None:
        write(f'{self.folder}/module', WRONG_PROGRAM)
        told = self.ask()
        self.assertEqual((told.status, told.path), (70, ''))
        self.assertIn('no build without a proof could be made; bin/prove cadedit_c proves and builds it', told.said)
        self.assertFalse(os.path.exists(self.unproved()))
        self.assertEqual(self.rooms(), [])

    def test_no_kit(self) -> None:
        told = self.ask(PATH='/usr/bin:/bin')
        self.assertEqual((told.status, told.path), (70, ''))
        self.assertIn('there is no Rattle kit on this machine', told.said)


class Version(unittest.TestCase):
    def test_the_module_has_the_version_of_the_program(self) -> None:
        told = []
        for path, form in (('crates/cadedit/src/main.rt', r'VERSION: &str = "(.*)"'),
                           ('python/pyproject.toml', r'^version = "(.*)"')):
            with open(os.path.join(TOP, path), encoding='utf-8') as file:
                told += re.findall(form, file.read(), re.M)
        self.assertEqual(told, [told[0]] * 2)


class Exports(MadeUp):
    def setUp(self) -> None:
        super().setUp()
        write(f'{self.top}/crates/cadedit_c/src/lib.rt', CRATE)
        write(f'{self.top}/crates/cadedit_c/src/closing.rt', CLOSING)
        write(f'{self.top}/crates/cad_handle/src/handle.rt', HANDLE)

    def test_what_is_exported(self) -> None:
        told = [(it.path(), it.pointer()) for it in exports_of(self.top)]
        self.assertEqual(told, [('closing::cadedit_close', 'void (*)(cadedit_map *)'),
                                ('cadedit_point', 'uint32_t (*)(cadedit_map *, uint32_t, int64_t *, uint8_t *, size_t)')])
        self.assertEqual(statuses_of(self.top), {'DONE': 0, 'UNKNOWN': 7})

    def test_what_is_checked(self) -> None:
        text = check_text(self.top)
        self.assertIn('_Static_assert(CADEDIT_UNKNOWN == 7, "CADEDIT_UNKNOWN");\n', text)
        self.assertIn('_Static_assert(IS(void (*)(cadedit_map *), &cadedit_close), "cadedit_close");\n', text)
        self.assertIn('_Static_assert(offsetof(cadedit_map, at) == 8, "at");\n', text)
        self.assertIn('_Static_assert(sizeof(cadedit_map) == 16, "cadedit_map");\n', text)

    def test_the_program(self) -> None:
        text = program_text(CRATE, exports_of(self.top))
        self.assertEqual(text.count('use std::io;\n'), 1)
        self.assertEqual(len(re.findall(r'^use cad_handle', text, re.M)), 1)
        self.assertIn('    let returned = cadedit_point(rt.alloc(), &mut handle, 9, &mut cadedit_point_x, '
                      '&mut cadedit_point_room);\n    println!(rt; "{cadedit_point_x} {returned}")?;\n', text)
        self.assertIn('    closing::cadedit_close(rt.alloc(), &mut handle);\n', text)

    def test_where_it_is_put(self) -> None:
        folder = f'{self.folder}/tried'
        put_program(self.top, folder)
        self.assertEqual(sorted(os.listdir(f'{folder}/crates/library/src')), ['closing.rt', 'main.rt'])
        self.assertTrue(os.path.isfile(f'{folder}/crates/low/src/lib.rt'))
        with open(f'{folder}/crates.txt', encoding='utf-8') as file:
            self.assertIn('library: high\n', file.read())
