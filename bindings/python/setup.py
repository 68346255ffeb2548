"""Builds the library of the proved text, by the Makefile of the sources, into the package. pyproject.toml has all else."""
import os
import shutil
import subprocess

from setuptools import Distribution, setup
from setuptools.command.build_py import build_py

try:
    from setuptools.command.bdist_wheel import bdist_wheel
except ImportError:  # setuptools below 70.1
    from wheel.bdist_wheel import bdist_wheel

ROOT = os.path.join(os.path.dirname(os.path.abspath(__file__)), "..", "..")


def soname(library):
    """The name by which the loader asks for the library, which the package has it by."""
    told = subprocess.run(["readelf", "-d", library], check=True, stdout=subprocess.PIPE, universal_newlines=True)
    return told.stdout.partition("Library soname: [")[2].partition("]")[0]


class BuildWithLibrary(build_py):
    def run(self):
        super().run()
        out = os.path.abspath(os.path.join(self.build_lib, "..", "library"))
        library = os.path.join(out, "librafendilo.so")
        # of another processor, where its compiler is named
        compiler = [f"CC={os.environ['CC']}"] if "CC" in os.environ else []
        subprocess.run(["make", "-C", ROOT, f"OUT={out}", *compiler, library], check=True)
        shutil.copy(library, os.path.join(self.build_lib, "rafendilo", soname(library)))


class WithLibrary(Distribution):
    """It goes where packages for one processor lie."""

    def has_ext_modules(self):
        return True


class Wheel(bdist_wheel):
    """One for any Python 3 on this processor: the library is no extension of an interpreter."""

    def get_tag(self):
        return ("py3", "none", super().get_tag()[2])


setup(distclass=WithLibrary, cmdclass={"build_py": BuildWithLibrary, "bdist_wheel": Wheel})
