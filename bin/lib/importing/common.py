"""What all parts of the importer share: refusals, limits, texts that fit a plan, files written whole."""
from __future__ import annotations

import importlib
import os
import sys
import tempfile
from collections.abc import Iterable
from typing import Any

FARTHEST = 10 ** 10  # Millimetres, either way.
MOST_ROWS = 100_000  # Points, parcels and sources each.
MOST_STRINGS = 200_000
GREATEST = 999_999_999  # Number.
MOST_BYTES = 80  # Of a label or a source's text.
DISTRICTS = 'Cut the layer into districts by --where (docs/SCALE.md)'


class Refused(Exception):
    """There is no plan. The text says why, and what helps, on one line."""


def modules() -> tuple[Any, Any, Any]:
    """GDAL's modules `gdal`, `ogr` and `osr`, which raise RuntimeError from now on. Raises Refused where they aren't
    there."""
    try:
        gdal, ogr, osr = (importlib.import_module(f'osgeo.{name}') for name in ('gdal', 'ogr', 'osr'))
    except ImportError as error:
        this = sys.executable
        python = '' if this.startswith('/usr/bin/') else f' (for /usr/bin/python3; this is {this})'
        raise Refused(f'GDAL for Python is missing: apt-get install python3-gdal{python}') from error
    for module in (gdal, ogr, osr):
        module.UseExceptions()
    gdal.SetErrorHandler('CPLQuietErrorHandler')
    return gdal, ogr, osr


def clipped(text: str, most: int = MOST_BYTES) -> str:
    """The text with single spaces, cut to so many bytes of UTF-8 between two letters."""
    return ' '.join(text.split()).encode(errors='replace')[:most].decode(errors='ignore').rstrip()


def one_line(error: object) -> str:
    """What an error says, on one line, without a dot at its end."""
    return ' '.join(str(error).split()).rstrip('.')


def listed(items: Iterable[object], most: int = 20) -> str:
    """The items with commas between them, and how many more there are."""
    texts = [str(it) for it in items]
    return ', '.join(texts[:most]) + (f' and {len(texts) - most} more' if len(texts) > most else '')


def mm(value: float) -> str:
    """Millimetres as metres."""
    return f'{value / 1000:.3f}'


def m2(square: float) -> str:
    """Square millimetres as square metres."""
    return f'{square / 1e6:.6f}'


def check_writable(path: str) -> None:
    """Raises Refused where no file can be written beside this one."""
    real = os.path.realpath(path)
    folder = os.path.dirname(real)
    if not os.path.isdir(folder):
        raise Refused(f'{path} can\'t be written: there is no folder {folder}')
    if (os.path.exists(real) and not os.path.isfile(real)) or not os.access(folder, os.W_OK):
        raise Refused(f'{path} can\'t be written whole: name another file')


def write_whole(path: str, text: bytes) -> None:
    """Writes a file beside, and renames it when it is whole. Raises Refused where that fails; then no part is
    left."""
    try:
        real = os.path.realpath(path)
        folder, name = os.path.split(real)
        handle, part = tempfile.mkstemp(prefix=f'.{name}.', dir=folder)
        try:
            with os.fdopen(handle, 'wb') as file:
                file.write(text)
            mask = os.umask(0)
            os.umask(mask)
            os.chmod(part, 0o666 & ~mask)
            os.replace(part, real)
        except BaseException:
            os.unlink(part)
            raise
    except OSError as error:
        raise Refused(f'{path} can\'t be written: {error.strerror}') from error
