"""Where the shared object is looked for, and what is said where it can't be taken."""

import os
import shutil
import subprocess
import sys
import tempfile
import unittest
from pathlib import Path

import mundeziwa
from mundeziwa import library

PACKAGE = Path(mundeziwa.__file__).parent
SCRIPT = """
import mundeziwa
try:
    print(mundeziwa.key("é").hex())
except mundeziwa.LibraryError as error:
    print(error)
"""
OTHER_INTERFACE = "{} has interface {}, and this package is written for interface 2"


class Loading(unittest.TestCase):
    def setUp(self):
        folder = tempfile.TemporaryDirectory()
        self.addCleanup(folder.cleanup)
        self.folder = Path(folder.name)

    def shared_object(self, source, name="other.so"):
        """A shared object of some lines of C; of two with one name the loader would give the first again."""
        path, lines = self.folder / name, self.folder / "other.c"
        lines.write_text(source)
        subprocess.run(["cc", "-shared", "-fPIC", "-o", path, lines], check=True)
        return path

    def run_python(self, folder, named=None):
        """What a fresh Python says that imports the package from a folder and makes a call."""
        environment = {key: value for key, value in os.environ.items() if key not in ("MUNDEZIWA_LIBRARY", "PYTHONPATH")}
        if named:
            environment["MUNDEZIWA_LIBRARY"] = str(named)
        command = [sys.executable, "-B", "-c", SCRIPT]
        return subprocess.run(command, cwd=folder, env=environment, check=True, capture_output=True, text=True).stdout.strip()

    def copied(self, place):
        """The folder of a copy of the package, so many folders below the temporary one."""
        shutil.copytree(PACKAGE, self.folder / place / "mundeziwa", ignore=shutil.ignore_patterns("lib", "__pycache__"))
        return self.folder / place

    def with_interface(self, number):
        """A shared object that has nothing but an interface's number."""
        return self.shared_object(f"unsigned mz_interface(void) {{ return {number}; }}", f"interface_{number}.so")

    def test_another_interface(self):
        # 1 is that of earlier libraries, whose calls are lent no pages.
        for number in (1, 7):
            path = self.with_interface(number)
            with self.assertRaises(mundeziwa.LibraryError) as caught:
                library.load(path)
            self.assertEqual(str(caught.exception), OTHER_INTERFACE.format(path, number))

    def test_an_earlier_library_is_not_found(self):
        place = self.folder / "build/lib"
        place.mkdir(parents=True)
        shutil.copyfile(library.library()._name, place / "libmundeziwa.so.1")
        self.assertRegex(self.run_python(self.copied("bindings/python")), "^the library is not there ")

    def test_calls_that_are_missing(self):
        path = self.with_interface(library.INTERFACE)
        with self.assertRaisesRegex(mundeziwa.LibraryError, f"^{path} has no call mz_[a-z_]*: .*, so run make lib again$"):
            library.load(path)

    def test_what_is_no_library(self):
        path = self.folder / "text.so"
        path.write_text("no shared object")
        with self.assertRaisesRegex(mundeziwa.LibraryError, f"^{path} can't be loaded as the library: "):
            library.load(path)
        path = self.shared_object("int nothing;")
        with self.assertRaisesRegex(mundeziwa.LibraryError, f"^{path} can't be loaded as the library: "):
            library.load(path)

    def test_none_is_found(self):
        folder = self.copied("one/two")
        looked = [folder / "mundeziwa/lib" / library.FILE_NAME, self.folder / "build/lib" / library.FILE_NAME]
        said = "the library is not there (looked for {} and {}): run make lib in the checkout, or install the wheel"
        self.assertEqual(self.run_python(folder), said.format(*looked))

    def test_the_one_that_is_named_is_missing(self):
        named = self.folder / "nowhere.so"
        said = f"the library is not there (looked for {named}): run make lib in the checkout, or install the wheel"
        self.assertEqual(self.run_python(PACKAGE.parent, named), said)

    def test_each_place(self):
        real, folder = library.library()._name, self.copied("bindings/python")
        self.assertEqual(self.run_python(folder, named=real), "45cc81")
        wrong = self.with_interface(7)
        for place, found in ((self.folder / "build/lib", wrong), (folder / "mundeziwa/lib", real)):
            place.mkdir(parents=True)
            shutil.copyfile(found, place / library.FILE_NAME)
            said = "45cc81" if found is real else OTHER_INTERFACE.format(place / library.FILE_NAME, 7)
            self.assertEqual(self.run_python(folder), said)

    def test_the_interface_is_the_headers(self):
        header = (PACKAGE.parents[2] / "include/mundeziwa.h").read_text()
        self.assertIn(f"\n#define MZ_INTERFACE {library.INTERFACE}\n", header)


if __name__ == "__main__":
    unittest.main()
