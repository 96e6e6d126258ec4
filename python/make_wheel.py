#!/usr/bin/env python3
"""Makes a wheel of this module and the C library, with Python's standard library alone:

    python3 python/make_wheel.py [FOLDER]      writes it into FOLDER, here where none is named, and prints its path

The library is the one whose path bin/build-library prints: the proved one, or a build without a proof. That lies in a
folder `unproved` of the package, and the version ends with `+unproved`. `pip install ./python` calls the functions
below for the same (PEP 517); it fetches nothing.
"""
from __future__ import annotations

import base64
import hashlib
import re
import subprocess
import sys
import zipfile
from pathlib import Path

HERE = Path(__file__).resolve().parent
TOP = HERE.parent
TAG = 'py3-none-manylinux2014_x86_64'
NAME = 'libcadedit.so'
MADE = (1980, 1, 1, 0, 0, 0)  # The time of all files in a wheel, so that the same files make the same wheel.
FILE, PROGRAM = 0o100644 << 16, 0o100755 << 16
Files = dict[str, bytes]


def told() -> dict[str, str]:
    """What pyproject.toml says of the project."""
    project = (HERE / 'pyproject.toml').read_text(encoding='utf-8').partition('[project]\n')[2]
    return dict(re.findall(r'^([\w-]+) = "(.*)"$', project, re.M))


def library_path() -> Path:
    """The library's path. Raises CalledProcessError where there is none."""
    done = subprocess.run([str(TOP / 'bin' / 'build-library')], stdin=subprocess.DEVNULL, stdout=subprocess.PIPE, text=True,
                          check=True)
    return Path(done.stdout.strip())


def is_proved(library: Path) -> bool:
    """Whether the library is a proved one: the others lie in a folder of their own."""
    return library.parent.name != 'unproved'


def version_of(library: Path) -> str:
    """The version of a wheel with this library."""
    return told()['version'] + ('' if is_proved(library) else '+unproved')


def metadata_of(version: str) -> Files:
    """The files that say what is in a wheel, but for the list of all files."""
    project = told()
    fields = [('Metadata-Version', '2.1'), ('Name', project['name']), ('Version', version), ('Summary', project['description']),
              ('License', project['license']), ('Requires-Python', project['requires-python'])]
    wheel = [('Wheel-Version', '1.0'), ('Generator', 'make_wheel'), ('Root-Is-Purelib', 'false'), ('Tag', TAG)]
    texts = {name: ''.join(f'{key}: {value}\n' for key, value in pairs) for name, pairs in
             (('METADATA', fields), ('WHEEL', wheel))}
    folder = folder_of(version)
    return {**{f'{folder}/{name}': text.encode() for name, text in texts.items()},
            f'{folder}/LICENSE': (TOP / 'LICENSE').read_bytes()}


def folder_of(version: str) -> str:
    """The folder of a wheel for what is said of it."""
    return f'cadedit-{version}.dist-info'


def files_of(library: Path) -> Files:
    """The files of a wheel, but for the list of them."""
    package = {f'cadedit/{it.name}': it.read_bytes() for it in sorted((HERE / 'cadedit').glob('*.py'))}
    folder = 'cadedit' if is_proved(library) else 'cadedit/unproved'
    return {**package, 'cadedit/py.typed': b'', f'{folder}/{NAME}': library.read_bytes(), **metadata_of(version_of(library))}


def record_of(files: Files, path: str) -> bytes:
    """The list of all files of a wheel, with their sums and sizes; it is a file of this path itself."""
    def line(name: str, data: bytes) -> str:
        digest = base64.urlsafe_b64encode(hashlib.sha256(data).digest()).rstrip(b'=').decode()
        return f'{name},sha256={digest},{len(data)}\n'

    return (''.join(line(*it) for it in files.items()) + f'{path},,\n').encode()


def make_wheel(folder: Path) -> Path:
    """Writes a wheel into a folder, and answers its path."""
    library = library_path()
    version, files = version_of(library), files_of(library)
    record = f'{folder_of(version)}/RECORD'
    path = folder / f'cadedit-{version}-{TAG}.whl'
    with zipfile.ZipFile(path, 'w', zipfile.ZIP_DEFLATED) as wheel:
        for name, data in {**files, record: record_of(files, record)}.items():
            its_info = zipfile.ZipInfo(name, MADE)
            its_info.external_attr = PROGRAM if name.endswith('.so') else FILE
            wheel.writestr(its_info, data, zipfile.ZIP_DEFLATED)
    return path


# ---- What pip calls

def build_wheel(wheel_directory: str, config_settings: object = None, metadata_directory: str | None = None) -> str:
    """Writes a wheel, and answers the name of its file."""
    return make_wheel(Path(wheel_directory)).name


def build_sdist(sdist_directory: str, config_settings: object = None) -> str:
    """A source archive would need the whole repository. Raises UnsupportedOperation."""
    raise UnsupportedOperation('a wheel is made from a checkout: there is no source archive')


class UnsupportedOperation(Exception):
    """What pip takes for the answer that there is no such archive."""


def main() -> None:
    folder = Path(*sys.argv[1:])
    folder.mkdir(parents=True, exist_ok=True)
    print(make_wheel(folder))


if __name__ == '__main__':
    main()
