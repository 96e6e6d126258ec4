"""What the crate `cadedit_c` exports to C, read from its source, and what follows from that: a program that calls all
of it, and checks in C that a header declares it so.

    cd bin && python3 -m lib.exports TOP FOLDER    puts the program into FOLDER, a copy of the crates of TOP

A parameter whose type stands in none of the tables below is a KeyError.
"""
from __future__ import annotations

import os
import re
import shutil
import sys
from collections.abc import Iterator, Sequence
from typing import NamedTuple

CRATE, PROGRAM, HELD = 'cadedit_c', 'library', 'cad_handle'
EXPORT = re.compile(r'#\[unsafe\(no_mangle\)\]\s*pub extern "C" fn (\w+)\(([^()]*)\)(?:\s*->\s*(\w+))?')
STRUCT = re.compile(r'#\[repr\(C\)\]\s*(?:#\[[^\]]*\]\s*)*pub struct (\w+) \{(.*?)\n\}', re.S)
FIELD = re.compile(r'^ *(?:pub(?:\(crate\))? )?(\w+): ([^{},]+),$', re.M)
STATUS = re.compile(r'^(?:pub(?:\(crate\))? )?const ([A-Z_]+): u32 = (\d+);', re.M)

# What C passes for a parameter. An allocator has no bytes, so nothing is passed for it.
IN_C: dict[str, tuple[str, ...]] = {
    'Global': (), '&mut Handle': ('cadedit_map *',), '&[u8]': ('const uint8_t *', 'size_t'),
    '&mut [u8]': ('uint8_t *', 'size_t'), 'u32': ('uint32_t',), 'u64': ('uint64_t',), 'i64': ('int64_t',),
    '&mut u64': ('uint64_t *',), '&mut i64': ('int64_t *',)}
# The fields of a struct, each of eight bytes.
WORDS_IN_C = {'u64': 'uint64_t', '*mut u8': 'void *'}
# A variable for a parameter, and what is passed of it.
IN_RATTLE = {
    'Global': ('', 'rt.alloc()'), '&mut Handle': ('', '&mut handle'), '&[u8]': ('', r'b"plan,2,,,,,\nopen,,,,,,\n"'),
    '&mut [u8]': ('[0u8; 200]', '&mut {}'), 'u32': ('', '9'), 'u64': ('', '9'), 'i64': ('', '9'),
    '&mut u64': ('0u64', '&mut {}'), '&mut i64': ('0i64', '&mut {}')}


class Export(NamedTuple):
    """A function: the file of the crate's src/ that it is in, its parameters' names and types, and what it returns."""
    name: str
    file: str
    parameters: tuple[tuple[str, str], ...]
    returns: str

    def path(self) -> str:
        """Its name, as the crate's root calls it."""
        module = self.file.removesuffix('.rt').replace('/', '::')
        return self.name if module == 'lib' else f'{module}::{self.name}'

    def pointer(self) -> str:
        """The type of a pointer to it in C."""
        given = [it for _, of in self.parameters for it in IN_C[of]]
        return f'{IN_C[self.returns][0] if self.returns else "void"} (*)({", ".join(given)})'


def source_files(top: str, crate: str) -> Iterator[tuple[str, str]]:
    """The files of a crate's src/, as paths there, and their texts, in the order of their names."""
    folder = os.path.join(top, 'crates', crate, 'src')
    for at, _, files in sorted(os.walk(folder)):
        for file in sorted(files):
            with open(os.path.join(at, file), encoding='utf-8') as text:
                yield os.path.relpath(os.path.join(at, file), folder), text.read()


def exports_of(top: str) -> list[Export]:
    """What the crate exports."""
    found = []
    for file, text in source_files(top, CRATE):
        for name, parameters, returns in EXPORT.findall(text):
            pairs = [it.strip().partition(': ') for it in parameters.split(',') if it.strip()]
            found.append(Export(name, file, tuple((its_name, of) for its_name, _, of in pairs), returns))
    return found


def statuses_of(top: str) -> dict[str, int]:
    """The statuses that the crate's calls return, by their names."""
    return {name: int(number) for _, text in source_files(top, CRATE) for name, number in STATUS.findall(text)}


def fields_of(top: str, struct: str = 'Handle') -> list[tuple[str, str]]:
    """The fields of what C keeps, and their types, those of a struct within in its place. Ghost fields have no bytes."""
    structs = {name: fields for _, text in source_files(top, HELD) for name, fields in STRUCT.findall(text)}

    def flat(name: str) -> Iterator[tuple[str, str]]:
        for field, of in FIELD.findall(structs[name]):
            if of in structs:
                yield from flat(of)
            else:
                yield field, of

    return list(flat(struct))


# ---- The program that is tried

def call_of(export: Export) -> str:
    """The lines that call an export and print what it returns and changes."""
    lets, given, told = [], [], []
    for name, of in export.parameters:
        variable, passed = IN_RATTLE[of]
        its_name = f'{export.name}_{name}'
        if variable:
            lets.append(f'    let mut {its_name} = {variable};\n')
        if variable and 'u8' not in variable:
            told.append(f'{{{its_name}}}')
        given.append(passed.format(its_name))
    call = f'{export.path()}({", ".join(given)})'
    if export.returns:
        told.append('{returned}')
        call = f'let returned = {call}'
    words = ' '.join(told)
    return ''.join(lets) + f'    {call};\n' + (f'    println!(rt; "{words}")?;\n' if words else '')


def program_text(root: str, exports: Sequence[Export]) -> str:
    """The crate's root file with a `main` that calls what is exported."""
    uses = '' if re.search(r'^use std::io;', root, re.M) else 'use std::io;\n'
    if not re.search(r'^use cad_handle::(\{[^}]*)?\bHandle\b', root, re.M):
        uses += 'use cad_handle::Handle;\n'
    root = re.sub(r'^use ', lambda first: uses + first.group(), root, count=1, flags=re.M)
    calls = ''.join(map(call_of, exports))
    return (f'{root}\nfn main(rt: HostRuntime) -> io::Result<()> {{\n    let mut handle = Handle::closed();\n{calls}'
            '    Ok(())\n}\n')


def copy_crate(crate: str, to: str) -> None:
    """Copies what a crate is made of, but for its proofs."""
    for part in ('src', 'specs'):
        if os.path.isdir(os.path.join(crate, part)):
            shutil.copytree(os.path.join(crate, part), os.path.join(to, part))


def put_program(top: str, folder: str) -> None:
    """Puts the program into a folder as the crate `library`, among copies of the crates of a checkout."""
    source = os.path.join(folder, 'crates', PROGRAM, 'src')
    for name in os.listdir(os.path.join(top, 'crates')):
        copy_crate(os.path.join(top, 'crates', name), os.path.join(folder, 'crates', PROGRAM if name == CRATE else name))
    with open(os.path.join(top, 'crates.txt'), encoding='utf-8') as file:
        lines = [re.sub(rf'^{CRATE} +staticlib *:', f'{PROGRAM}:', line) for line in file]
    with open(os.path.join(folder, 'crates.txt'), 'w', encoding='utf-8') as file:
        file.writelines(lines)
    root = os.path.join(source, 'lib.rt')
    with open(root, encoding='utf-8') as file:
        text = program_text(file.read(), exports_of(top))
    os.remove(root)
    with open(os.path.join(source, 'main.rt'), 'w', encoding='utf-8') as file:
        file.write(text)


# ---- Checks of the header

def check_text(top: str) -> str:
    """A C file that a compiler takes only where the header declares each export, each status and the struct as they
    are."""
    lines = ['#include "cadedit.h"', '#define IS(type, of) __builtin_types_compatible_p(type, __typeof__(of))']
    for export in exports_of(top):
        lines.append(f'_Static_assert(IS({export.pointer()}, &{export.name}), "{export.name}");')
    for name, number in statuses_of(top).items():
        lines.append(f'_Static_assert(CADEDIT_{name} == {number}, "CADEDIT_{name}");')
    fields = fields_of(top)
    for place, (name, of) in enumerate(fields):
        lines.append(f'_Static_assert(IS({WORDS_IN_C[of]}, ((cadedit_map *)0)->{name}), "{name}");')
        lines.append(f'_Static_assert(offsetof(cadedit_map, {name}) == {8 * place}, "{name}");')
    lines.append(f'_Static_assert(sizeof(cadedit_map) == {8 * len(fields)}, "cadedit_map");')
    return '\n'.join(lines) + '\n'


if __name__ == '__main__':
    put_program(*sys.argv[1:])
