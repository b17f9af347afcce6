#!/usr/bin/env python3
"""Builds the wheel of the package, as pip asks for it (PEP 517), with std alone.

usage: backend.py [FOLDER]

The wheel goes to FOLDER, or to `dist` of this folder; its name is told. The program comes into it from crates/pyc/out of the
checkout, or from pyc/bin beside this file, with its stamp; where it is in neither, the wheel has none, which is told.
"""
import base64
import hashlib
import os
import pathlib
import sys
import sysconfig
import zipfile

HERE = pathlib.Path(__file__).resolve().parent
# Where the program may be.
PROGRAMS = (HERE.parent / "crates" / "pyc" / "out" / "pyc", HERE / "pyc" / "bin" / "pyc")
# Where VERSION may be.
VERSIONS = (HERE.parent / "VERSION", HERE / "pyc" / "VERSION")
# What of the package comes into the wheel beside its modules.
DATA = (".json", ".css", ".js", ".typed")
# The date of all files in a wheel, so that equal files make equal wheels.
DATE = (1980, 1, 1, 0, 0, 0)

METADATA = """Metadata-Version: 2.1
Name: pyc
Version: %s
Summary: Compiles Python sources by a program that is proved
License: MIT
Requires-Python: >=3.8
"""
WHEEL = """Wheel-Version: 1.0
Generator: pyc
Root-Is-Purelib: %s
Tag: %s
"""
SCRIPTS = """[console_scripts]
pyc = pyc.__main__:main
"""


def first_of(paths):
    """The first of these files that is there, or None."""
    return next((it for it in paths if it.is_file()), None)


def version():
    """The version of the package."""
    found = first_of(VERSIONS)
    if found is None:
        sys.exit("backend.py: there is no file VERSION")
    return found.read_text(encoding="ascii").strip()


def tag(program):
    """What the wheel fits: any machine without the program, and machines as this one with it."""
    return "py3-none-any" if program is None else "py3-none-" + sysconfig.get_platform().replace("-", "_").replace(".", "_")


def files(program):
    """The files of the wheel: their names in it, their bytes, and whether they are run."""
    for path in sorted((HERE / "pyc").rglob("*")):
        name = path.relative_to(HERE)
        if path.suffix in (".py", *DATA) and "__pycache__" not in name.parts:
            yield name.as_posix(), path.read_bytes(), False
    yield "pyc/VERSION", (version() + "\n").encode(), False
    if program is not None:
        yield "pyc/bin/pyc", program.read_bytes(), True
        stamp = program.with_name(program.name + ".stamp")
        if stamp.is_file():
            yield "pyc/bin/pyc.stamp", stamp.read_bytes(), False


def about(program):
    """The files that say what the wheel is."""
    folder = "pyc-%s.dist-info/" % version()
    texts = {"METADATA": METADATA % version(), "WHEEL": WHEEL % ("true" if program is None else "false", tag(program)), "entry_points.txt": SCRIPTS}
    for name, text in texts.items():
        yield folder + name, text.encode(), False
    licence = HERE.parent / "LICENSE"
    if licence.is_file():
        yield folder + "LICENSE", licence.read_bytes(), False


def record(entries):
    """The list of the files of the wheel, with their sums."""
    name = "pyc-%s.dist-info/RECORD" % version()
    lines = []
    for path, data, _ in entries:
        digest = base64.urlsafe_b64encode(hashlib.sha256(data).digest()).rstrip(b"=").decode()
        lines.append("%s,sha256=%s,%d\n" % (path, digest, len(data)))
    return name, "".join([*lines, name + ",,\n"]).encode(), False


def build_wheel(wheel_directory, config_settings=None, metadata_directory=None):
    """Writes the wheel into a folder. Its name."""
    program = first_of(PROGRAMS)
    if program is None:
        print("backend.py: the program is not built, so the wheel has none: sh pyc.sh --prove builds it", file=sys.stderr)
    name = "pyc-%s-%s.whl" % (version(), tag(program))
    entries = [*files(program), *about(program)]
    with zipfile.ZipFile(os.path.join(wheel_directory, name), "w", zipfile.ZIP_DEFLATED) as wheel:
        for path, data, is_run in [*entries, record(entries)]:
            info = zipfile.ZipInfo(path, DATE)
            info.compress_type = zipfile.ZIP_DEFLATED
            info.external_attr = (0o100755 if is_run else 0o100644) << 16
            wheel.writestr(info, data)
    return name


def get_requires_for_build_wheel(config_settings=None):
    """What is wanted to build the wheel: nothing."""
    return []


def main():
    words = sys.argv[1:]
    if words in (["-h"], ["--help"]) or len(words) > 1:
        print(__doc__.strip(), file=sys.stdout if len(words) == 1 else sys.stderr)
        return 0 if len(words) == 1 else 2
    folder = pathlib.Path(words[0]) if words else HERE / "dist"
    folder.mkdir(parents=True, exist_ok=True)
    print(folder / build_wheel(str(folder)))
    return 0


if __name__ == "__main__":
    sys.exit(main())
