"""The C library that include/cadedit.h declares: where it is, and how its calls are made."""
from __future__ import annotations

import ctypes
import functools
import os
import subprocess
import sys
from collections.abc import Callable
from pathlib import Path
from typing import Any, NamedTuple

from cadedit._faults import NoLibrary

HERE = Path(__file__).resolve().parent
NAME = 'libcadedit.so'
DONE, CLOSED, PLAN, NOT_ONE, DEPTH, MEMORY, UNTOLD, UNKNOWN = range(8)
NOT_PROVED = 'cadedit: this library is not proved; a wheel of a library that `bin/prove cadedit_c` proved is'


class Handle(ctypes.Structure):
    """What the library keeps of a map. It is all zero while the map is closed."""
    _fields_ = [('opened', ctypes.c_uint64), ('at', ctypes.c_void_p)]


# The types in C, and what is passed for them: a buffer as bytes or as an array.
TYPES = {'cadedit_map *': ctypes.POINTER(Handle), 'const uint8_t *': ctypes.c_char_p, 'uint8_t *': ctypes.c_char_p,
         'size_t': ctypes.c_size_t, 'uint64_t': ctypes.c_uint64, 'uint64_t *': ctypes.POINTER(ctypes.c_uint64),
         'int64_t *': ctypes.POINTER(ctypes.c_int64), 'uint32_t': ctypes.c_uint32, 'void': None}
ROOM = ['uint8_t *', 'size_t', 'uint64_t *']
CALLS = {'cadedit_open': ('uint32_t', ['cadedit_map *', 'const uint8_t *', 'size_t', 'uint64_t', 'uint64_t', *ROOM]),
         'cadedit_submit': ('uint32_t', ['cadedit_map *', 'const uint8_t *', 'size_t', *ROOM]),
         'cadedit_answer': ('uint32_t', ['cadedit_map *', 'uint64_t', *ROOM]),
         'cadedit_point': ('uint32_t', ['cadedit_map *', 'uint32_t', 'int64_t *', 'int64_t *']),
         'cadedit_shape': ('uint32_t', ['cadedit_map *', 'uint32_t', *ROOM]),
         'cadedit_close': ('void', ['cadedit_map *'])}


class Library(NamedTuple):
    """The library's calls."""
    open: Callable[..., int]
    submit: Callable[..., int]
    answer: Callable[..., int]
    point: Callable[..., int]
    shape: Callable[..., int]
    close: Callable[..., object]


def found_path() -> Path:
    """Where the library is: where CADEDIT_LIBRARY says, in this package, or in the checkout that this is a part of,
    where it is built if there is none. Raises NoLibrary."""
    if named := os.environ.get('CADEDIT_LIBRARY'):
        return Path(named)
    if (HERE / NAME).exists():
        return HERE / NAME
    if (HERE / 'unproved' / NAME).exists():
        return unproved(HERE / 'unproved' / NAME)
    return built_path(HERE.parents[1] / 'bin' / 'build-library')


def unproved(path: Path) -> Path:
    """The path of a library without a proof, which is told on standard error; UNPROVED_OK and PROVED_ONLY mean what
    they mean to bin/cadedit. Raises NoLibrary."""
    if os.environ.get('PROVED_ONLY'):
        raise NoLibrary('the library in this package is not proved')
    if not os.environ.get('UNPROVED_OK'):
        print(NOT_PROVED, file=sys.stderr)
    return path


def built_path(command: Path) -> Path:
    """The path that bin/build-library prints, which says on standard error what there is to say. Raises NoLibrary."""
    try:
        done = subprocess.run([str(command)], stdin=subprocess.DEVNULL, stdout=subprocess.PIPE, text=True)
    except OSError as error:
        raise NoLibrary(f'this package has no {NAME}, and there is no checkout round it: {error}') from error
    if done.returncode:
        raise NoLibrary(f'{command} ended with status {done.returncode}')
    return Path(done.stdout.strip())


def call_in(loaded: ctypes.CDLL, name: str) -> Callable[..., int]:
    """A call of a library. Raises AttributeError where it has none of this name."""
    call: Any = getattr(loaded, name)
    returns, parameters = CALLS[name]
    call.restype, call.argtypes = TYPES[returns], [TYPES[it] for it in parameters]
    typed: Callable[..., int] = call
    return typed


@functools.cache
def library() -> Library:
    """The library, loaded once. Raises NoLibrary."""
    try:
        loaded = ctypes.CDLL(str(found_path()))
        return Library(*(call_in(loaded, f'cadedit_{name}') for name in Library._fields))
    except (AttributeError, OSError) as error:
        raise NoLibrary(str(error)) from error
