"""The wheel and `pip install`, and what bindings/python/README.md says.

pip is tried only where MZ_TEST_PIP=1 says so, in a virtual environment of its own and without the network.
"""

import base64
import csv
import hashlib
import io
import os
import re
import shutil
import subprocess
import sys
import tempfile
import unittest
import venv
import zipfile
from pathlib import Path

import mundeziwa
from mundeziwa import library

SOURCE = Path(__file__).parents[2] / "bindings" / "python"
README = (SOURCE / "README.md").read_text("utf-8")
INFO = f"mundeziwa-{mundeziwa.__version__}.dist-info"
CLEAN = {key: value for key, value in os.environ.items() if key not in ("MUNDEZIWA_LIBRARY", "PYTHONPATH")}


def block(language):
    """The block of bindings/python/README.md in that language."""
    return re.search(rf"```{language}\n(.*?)```", README, re.DOTALL).group(1)


def files():
    """The files of the source folder, but for what Python itself keeps there."""
    return {path for path in SOURCE.rglob("*") if "__pycache__" not in path.parts}


class Wheel(unittest.TestCase):
    def setUp(self):
        folder = tempfile.TemporaryDirectory()
        self.addCleanup(folder.cleanup)
        self.folder = Path(folder.name)

    def checkout(self):
        """A copy of the source folder in a checkout of its own, with no library built."""
        ignored = shutil.ignore_patterns("__pycache__")
        return Path(shutil.copytree(SOURCE, self.folder / "checkout" / "bindings" / "python", ignore=ignored))

    def with_library(self):
        """The same with the library that these tests run on."""
        source, built = self.checkout(), self.folder / "checkout" / "build" / "lib"
        built.mkdir(parents=True)
        shutil.copyfile(library.library()._name, built / library.FILE_NAME)
        return source

    def build(self, source):
        """Builds the wheel as pip does, by the backend that pyproject.toml names."""
        script = "import sys, wheel_backend; print(wheel_backend.build_wheel(sys.argv[1]))"
        command = [sys.executable, "-B", "-c", script, str(self.folder)]
        return subprocess.run(command, cwd=source, env=CLEAN, capture_output=True, text=True)

    def test_contents(self):
        source = self.with_library()
        run = self.build(source)
        self.assertEqual(run.stderr, "")
        name = run.stdout.strip()
        self.assertRegex(name, rf"^mundeziwa-{re.escape(mundeziwa.__version__)}-py3-none-[a-z0-9_]+\.whl$")
        with zipfile.ZipFile(self.folder / name) as wheel:
            held = {entry: wheel.read(entry) for entry in wheel.namelist()}
        modules = {path.relative_to(SOURCE).as_posix() for path in files() if path.suffix == ".py" and path.parent != SOURCE}
        others = {"mundeziwa/data/EDITION", "mundeziwa/data/UnicodeData-15.0.0.txt", f"mundeziwa/lib/{library.FILE_NAME}"}
        info = {f"{INFO}/{name}" for name in ("METADATA", "WHEEL", "entry_points.txt", "RECORD")}
        self.assertEqual(set(held), modules | others | info)
        self.assertEqual(held[f"mundeziwa/lib/{library.FILE_NAME}"], Path(library.library()._name).read_bytes())
        self.check_record(held)
        self.assertIn(f"\nVersion: {mundeziwa.__version__}\n".encode(), held[f"{INFO}/METADATA"])

    def check_record(self, held):
        """The RECORD has each file with its length and digest, and itself with neither."""
        recorded = {row[0]: row[1:] for row in csv.reader(io.StringIO(held[f"{INFO}/RECORD"].decode()))}
        self.assertEqual(set(recorded), set(held))
        self.assertEqual(recorded.pop(f"{INFO}/RECORD"), ["", ""])
        for name, (digest, length) in recorded.items():
            sha256 = base64.urlsafe_b64encode(hashlib.sha256(held[name]).digest()).decode().rstrip("=")
            self.assertEqual((digest, length), (f"sha256={sha256}", str(len(held[name]))), name)

    def test_no_library(self):
        source = self.checkout()
        run = self.build(source)
        path = self.folder.resolve() / "checkout" / "build" / "lib" / library.FILE_NAME
        self.assertNotEqual(run.returncode, 0)
        self.assertEqual(run.stderr, f"{path} is not there: run make lib in the checkout before pip install\n")

    @unittest.skipUnless(os.environ.get("MZ_TEST_PIP") == "1", "MZ_TEST_PIP=1 tries pip install")
    def test_pip_install(self):
        before, folder = files(), self.folder / "environment"
        venv.create(folder, with_pip=True)
        python = str(folder / "bin" / "python3")
        environment = {**CLEAN, "PIP_NO_INDEX": "1", "PIP_CONFIG_FILE": os.devnull, "PIP_DISABLE_PIP_VERSION_CHECK": "1"}
        install = [python, "-m", "pip", "install", str(SOURCE)]
        run = subprocess.run(install, cwd=self.folder, env=environment, capture_output=True, text=True)
        self.assertEqual(run.returncode, 0, run.stderr)
        self.assertEqual(files(), before)
        for command in ([str(folder / "bin" / "mundeziwa")], [python, "-m", "mundeziwa"]):
            run = subprocess.run([*command, "--version"], cwd=self.folder, env=CLEAN, capture_output=True, text=True)
            self.assertEqual(run.returncode, 0, run.stderr)
            self.assertIn(mundeziwa.__version__, run.stdout)
            self.assertIn("15.0.0", run.stdout)
        script = "import mundeziwa.library; print(mundeziwa.library.library()._name)"
        run = subprocess.run([python, "-c", script], cwd=self.folder, env=CLEAN, check=True, capture_output=True, text=True)
        self.assertTrue(run.stdout.startswith(str(folder)), run.stdout)


class Readme(unittest.TestCase):
    def test_the_program_prints_what_is_said(self):
        run = subprocess.run([sys.executable, "-B", "-X", "utf8", "-c", block("python")], capture_output=True, check=True)
        self.assertEqual(run.stdout.decode(), block("text"))


if __name__ == "__main__":
    unittest.main()
