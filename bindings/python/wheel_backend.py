"""Builds the wheel: `pip install bindings/python` in a checkout, after `make lib`.

pip calls `build_wheel` (PEP 517). setuptools before 70.1 makes no wheel without the package `wheel`, which pip would fetch from
the network; and none of its parts are needed, since nothing is compiled here. A wheel is a zip file with four more texts in it,
and so it is written with zipfile: without the network, and on a Python that has pip alone.
"""

import base64
import hashlib
import pathlib
import sys
import sysconfig
import zipfile

HERE = pathlib.Path(__file__).resolve().parent
PACKAGE = HERE / "mundeziwa"
# What the package has beside the shared object: its modules and its table.
PATTERNS = ("**/*.py", "data/*")
# The least date that a zip file can have: two wheels of the same files are the same octets.
DATE = (1980, 1, 1, 0, 0, 0)

METADATA = """\
Metadata-Version: 2.1
Name: mundeziwa
Version: {version}
Summary: Names compared by RFC 4790 and RFC 5051: which are one, and which of them two lists share
Requires-Python: >=3.9
Description-Content-Type: text/markdown

{readme}"""
WHEEL = "Wheel-Version: 1.0\nGenerator: mundeziwa\nRoot-Is-Purelib: false\nTag: {tag}\n"
ENTRY_POINTS = "[console_scripts]\nmundeziwa = mundeziwa.command.main:main\n"


def package():
    """The package that is built; its import loads no shared object."""
    sys.path.insert(0, str(HERE))
    import mundeziwa.library

    return mundeziwa


def shared_object(name):
    """The path of the shared object that `make lib` left."""
    path = HERE.parents[1] / "build" / "lib" / name
    if not path.is_file():
        # With the sentence alone, pip shows no traceback.
        sys.exit(f"{path} is not there: run make lib in the checkout before pip install")
    return path


def contents(version, tag, library_name):
    """What the wheel has: each file's name and octets."""
    files = sorted({path for pattern in PATTERNS for path in PACKAGE.glob(pattern)})
    held = {path.relative_to(HERE).as_posix(): path.read_bytes() for path in files}
    held[f"mundeziwa/lib/{library_name}"] = shared_object(library_name).read_bytes()
    info = f"mundeziwa-{version}.dist-info"
    readme = (HERE / "README.md").read_text("utf-8")
    held[f"{info}/METADATA"] = METADATA.format(version=version, readme=readme).encode()
    held[f"{info}/WHEEL"] = WHEEL.format(tag=tag).encode()
    held[f"{info}/entry_points.txt"] = ENTRY_POINTS.encode()
    record = "".join(map(recorded, held, held.values())) + f"{info}/RECORD,,\n"
    held[f"{info}/RECORD"] = record.encode()
    return held


def recorded(name, octets):
    """A file's line in the RECORD."""
    digest = base64.urlsafe_b64encode(hashlib.sha256(octets).digest()).rstrip(b"=").decode()
    return f"{name},sha256={digest},{len(octets)}\n"


def build_wheel(wheel_directory, config_settings=None, metadata_directory=None):
    """Writes the wheel into a folder, and gives its file name."""
    mundeziwa = package()
    version, library_name = mundeziwa.__version__, mundeziwa.library.FILE_NAME
    platform = sysconfig.get_platform().replace("-", "_").replace(".", "_")
    # Any Python 3 of this machine's kind: the shared object calls nothing of Python.
    tag = f"py3-none-{platform}"
    name = f"mundeziwa-{version}-{tag}.whl"
    held = contents(version, tag, library_name)
    with zipfile.ZipFile(pathlib.Path(wheel_directory) / name, "w", zipfile.ZIP_DEFLATED) as wheel:
        for path, octets in held.items():
            entry = zipfile.ZipInfo(path, DATE)
            entry.compress_type, entry.external_attr = zipfile.ZIP_DEFLATED, 0o100644 << 16
            wheel.writestr(entry, octets)
    return name


def build_sdist(sdist_directory, config_settings=None):
    """There is no source archive: the library is built in the checkout."""
    sys.exit("mundeziwa has no source archive: clone the repository, run make lib, and pip install bindings/python")
