# SPDX-License-Identifier: Apache-2.0
"""Puts the proved library into the Python package; pyproject.toml says all else."""
import os
import pathlib
import shutil
import sys

from setuptools import Distribution, setup
from setuptools.command.build_py import build_py

try:
    from setuptools.command.bdist_wheel import bdist_wheel
except ImportError:
    from wheel.bdist_wheel import bdist_wheel

TOP = pathlib.Path(__file__).resolve().parent
BUILT = TOP / "callers" / "out" / "libvortex_ffi.so"
MISSING = (
    "foalmorrow: the proved library isn't in {}: a release's wheel has it inside; in a checkout checks/callers.sh --build proves and"
    " builds it by the Rattle toolchain in 20 to 40 minutes, and FOALMORROW_LIBRARY names one that is built elsewhere."
)


class BuildWithLibrary(build_py):
    """Copies the shared object, and what is told of its proofs, beside the package's modules."""

    def run(self):
        library = pathlib.Path(os.environ.get("FOALMORROW_LIBRARY") or BUILT)
        if not library.is_file():
            sys.exit(MISSING.format(library))
        print(f"foalmorrow: the library inside comes from {library}.", file=sys.stderr)
        super().run()
        # An editable package finds the library where it was built.
        if not getattr(self, "editable_mode", False):
            self.copy_library(library)

    def copy_library(self, library):
        package = pathlib.Path(self.build_lib) / "foalmorrow"
        shutil.copyfile(library, package / "libfoalmorrow.so")
        proved = library.with_name("PROVED.json")
        if proved.is_file():
            shutil.copyfile(proved, package / "PROVED.json")


class WheelOfLibrary(bdist_wheel):
    """A wheel for every Python 3, since no module of the package is compiled, on Linux with the C library that the shared object is built beside."""

    def get_tag(self):
        return "py3", "none", "manylinux_2_36_x86_64"


class WithLibrary(Distribution):
    """A distribution that is of one platform."""

    def has_ext_modules(self):
        return True


setup(cmdclass={"build_py": BuildWithLibrary, "bdist_wheel": WheelOfLibrary}, distclass=WithLibrary)
