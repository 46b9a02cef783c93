"""Builds the shared library of the port into the package; everything else stands in pyproject.toml.

With YARROWBLEAT_ARCHIVE set that static library is taken. Otherwise `tools/build exports` proves and builds it first.
"""
import os
import re
import shutil
import subprocess
import sys
import tempfile
from pathlib import Path

from setuptools import setup
from setuptools.command.build_py import build_py

try:
    from setuptools.command.bdist_wheel import bdist_wheel
except ImportError:  # before setuptools 70 it is wheel's
    from wheel.bdist_wheel import bdist_wheel

ROOT = Path(__file__).resolve().parent.parent


def version() -> str:
    """The version, which rust/Cargo.toml states."""
    found = re.search(r'^version = "(.*)"$', (ROOT / "rust/Cargo.toml").read_text(), re.M)
    if found is None:
        sys.exit("rust/Cargo.toml states no version")
    return found[1]


def archive() -> Path:
    """The static library, by the variable or built now."""
    named = os.environ.get("YARROWBLEAT_ARCHIVE")
    if named:
        return Path(named).resolve()
    if shutil.which("rt") is None:
        sys.exit("set YARROWBLEAT_ARCHIVE to libyarrowbleat.a, or put `rt` on the path: there is no library to link")
    subprocess.run([ROOT / "tools/build", "exports"], check=True)
    return ROOT / "target/staticlib/libexports.a"


class BuildWithLibrary(build_py):
    """Copies the package and links the shared library beside it."""

    def run(self) -> None:
        super().run()
        with tempfile.TemporaryDirectory() as folder:
            subprocess.run([ROOT / "c/shared", archive(), folder], check=True)
            place = Path(self.build_lib) / "yarrowbleat"
            self.copy_file(str(Path(folder) / "libyarrowbleat.so.0"), str(place / "libyarrowbleat.so.0"))


class AnyPython3(bdist_wheel):
    """The library is the machine's, and no version of Python's: ctypes loads it."""

    def finalize_options(self) -> None:
        super().finalize_options()
        self.root_is_pure = False

    def get_tag(self) -> "tuple[str, str, str]":
        return "py3", "none", super().get_tag()[2]


setup(version=version(), cmdclass={"build_py": BuildWithLibrary, "bdist_wheel": AnyPython3})
