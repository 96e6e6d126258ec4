"""What is in a wheel, with a file in the library's place."""
from __future__ import annotations

import base64
import hashlib
import tempfile
import unittest
import zipfile
from pathlib import Path
from unittest import mock

import make_wheel


class Wheel(unittest.TestCase):
    def setUp(self) -> None:
        folder = tempfile.TemporaryDirectory()
        self.addCleanup(folder.cleanup)
        self.folder = Path(folder.name)

    def made(self, its_folder: str) -> zipfile.ZipFile:
        """A wheel of a library in a folder of this name."""
        library = self.folder / its_folder / 'libcadedit.so'
        library.parent.mkdir()
        library.write_bytes(b'a library')
        with mock.patch('make_wheel.library_path', return_value=library):
            wheel = zipfile.ZipFile(self.folder / make_wheel.build_wheel(str(self.folder)))
        self.addCleanup(wheel.close)
        return wheel

    def test_of_a_proved_library(self) -> None:
        wheel = self.made('library')
        version = make_wheel.told()['version']
        self.assertTrue(str(wheel.filename).endswith(f'cadedit-{version}-py3-none-manylinux2014_x86_64.whl'))
        self.assertEqual(wheel.read('cadedit/libcadedit.so'), b'a library')
        self.assertIn(f'Name: cadedit\nVersion: {version}\n', wheel.read(f'cadedit-{version}.dist-info/METADATA').decode())

    def test_of_one_without_a_proof(self) -> None:
        wheel = self.made('unproved')
        version = make_wheel.told()['version'] + '+unproved'
        self.assertTrue(str(wheel.filename).endswith(f'cadedit-{version}-py3-none-manylinux2014_x86_64.whl'))
        self.assertEqual(wheel.read('cadedit/unproved/libcadedit.so'), b'a library')
        self.assertNotIn('cadedit/libcadedit.so', wheel.namelist())
        self.assertIn(f'Version: {version}\n', wheel.read(f'cadedit-{version}.dist-info/METADATA').decode())

    def test_the_list_of_its_files(self) -> None:
        wheel = self.made('library')
        path = next(it for it in wheel.namelist() if it.endswith('/RECORD'))
        rows = [line.split(',') for line in wheel.read(path).decode().splitlines()]
        self.assertEqual(sorted(row[0] for row in rows), sorted(wheel.namelist()))
        for name, digest, size in rows:
            data = wheel.read(name)
            wanted = base64.urlsafe_b64encode(hashlib.sha256(data).digest()).rstrip(b'=').decode()
            self.assertEqual((digest, size), ('', '') if name == path else (f'sha256={wanted}', str(len(data))))
        self.assertIn('cadedit/py.typed', wheel.namelist())

    def test_the_same_files_make_the_same_wheel(self) -> None:
        first = Path(str(self.made('library').filename)).read_bytes()
        self.assertEqual(Path(str(self.made('other').filename)).read_bytes(), first)

    def test_no_source_archive(self) -> None:
        with self.assertRaises(make_wheel.UnsupportedOperation):
            make_wheel.build_sdist(str(self.folder))


if __name__ == '__main__':
    unittest.main()
