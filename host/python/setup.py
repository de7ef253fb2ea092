"""Builds a wheel with the shared library inside: pip wheel host/python

The library is the one that CAUCHY_SO names. Otherwise gcc makes it of libcauchy.a in CAUCHY_LIB_DIR, or in the
repository's target/staticlib. The rest stands in pyproject.toml.
"""
import atexit
import os
import shutil
import subprocess
import tempfile
from pathlib import Path

from setuptools import Distribution, setup
from setuptools.command.build_py import build_py

try:
    from setuptools.command.bdist_wheel import bdist_wheel
except ImportError:  # setuptools below 70
    try:
        from wheel.bdist_wheel import bdist_wheel
    except ImportError:
        bdist_wheel = object  # no wheel can be built; setuptools says so


REPOSITORY = Path(__file__).resolve().parents[2]


def make_library(target):
    """Puts libcauchy.so where the package is built."""
    named = os.environ.get("CAUCHY_SO")
    if named:
        shutil.copyfile(named, target)
        return
    place = os.environ.get("CAUCHY_LIB_DIR") or REPOSITORY / "target/staticlib"
    archive = Path(place) / "libcauchy.a"
    if not archive.is_file():
        raise SystemExit(f"{archive} is not there: run host/archive, or set CAUCHY_LIB_DIR or CAUCHY_SO")
    whole = ["-Wl,--whole-archive", str(archive), "-Wl,--no-whole-archive"]
    subprocess.run(["gcc", "-shared", "-o", str(target), *whole, "-Wl,-z,text", "-s"], check=True)


class WithLibrary(build_py):
    def run(self):
        super().run()
        package = Path(self.build_lib) / "cauchy"
        library = package / "lib/libcauchy.so"  # in a folder of its own: beside the modules it would be taken for one
        library.parent.mkdir(exist_ok=True)
        make_library(library)
        notice = REPOSITORY / "NOTICE"  # the licence of what the library was carried across from
        if notice.is_file():
            shutil.copyfile(notice, package / "NOTICE")


class ForAnyPython3(bdist_wheel):
    """A wheel for any Python 3 of this platform: the library is no module of one version's."""

    def get_tag(self):
        return "py3", "none", super().get_tag()[2]


class ForOnePlatform(Distribution):
    def has_ext_modules(self):
        return True


# What setuptools makes on the way is kept out of the repository, where it would also be found by the next build.
scratch = tempfile.mkdtemp(prefix="cauchy-wheel.")
atexit.register(shutil.rmtree, scratch, ignore_errors=True)
setup(
    distclass=ForOnePlatform,
    cmdclass={"build_py": WithLibrary, **({} if bdist_wheel is object else {"bdist_wheel": ForAnyPython3})},
    options={"build": {"build_base": scratch}, "egg_info": {"egg_base": scratch}},
)
