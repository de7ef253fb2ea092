"""The wheel, built and installed into a fresh venv without a network, and its examples there."""
import importlib.util
import os
import re
import shutil
import subprocess
import sys
import tempfile
import unittest
import zipfile
from pathlib import Path

PACKAGE = Path(__file__).resolve().parents[1]
BUILDERS = (sys.executable, "python3", "/usr/bin/python3")


def run(*words, **more):
    """A command's output; its words where it fails."""
    done = subprocess.run([str(word) for word in words], stdout=subprocess.PIPE, stderr=subprocess.STDOUT, **more)
    if done.returncode != 0:
        raise AssertionError(f"{words}: {done.stdout.decode()}")
    return done.stdout.decode().strip()


def builder():
    """A Python that can build a wheel, or None."""
    look = "import importlib.util as u, sys; sys.exit(not all(map(u.find_spec, sys.argv[1:])))"
    for python in filter(shutil.which, BUILDERS):
        for makes_wheels in ("wheel", "setuptools.command.bdist_wheel"):
            words = [python, "-c", look, "pip", "setuptools", makes_wheels]
            if subprocess.run(words, stderr=subprocess.DEVNULL).returncode == 0:
                return python
    return None


def from_the_archive():
    """Surroundings in which the library is made of the archive, where that is named and gcc is there."""
    archive = Path(os.environ.get("CAUCHY_LIB_DIR") or PACKAGE / "../../target/staticlib") / "libcauchy.a"
    made = archive.is_file() and shutil.which("gcc") is not None
    return {name: value for name, value in os.environ.items() if name != "CAUCHY_SO" or not made}


class Wheel(unittest.TestCase):
    def test_installed_in_a_fresh_venv(self):
        python = builder()
        if python is None:
            self.skipTest("no Python here has pip, setuptools and wheel")
        if importlib.util.find_spec("ensurepip") is None:
            self.skipTest("this Python makes no venv with pip")
        with tempfile.TemporaryDirectory() as folder:
            self.installed(Path(folder), self.built(Path(folder), python))

    def built(self, folder, python):
        before = sorted(PACKAGE.iterdir())
        run(python, "-m", "pip", "wheel", "--no-build-isolation", "--no-deps", "--no-index", "-w", folder, PACKAGE,
            env=from_the_archive())
        self.assertEqual(sorted(PACKAGE.iterdir()), before, "the build left something in the repository")
        (wheel,) = folder.glob("*.whl")
        self.assertRegex(wheel.name, r"^cauchy-[\d.]+-py3-none-linux_x86_64\.whl$")
        names = zipfile.ZipFile(wheel).namelist()
        for name in ("lib/libcauchy.so", "py.typed", "store.py", "NOTICE"):
            self.assertIn(f"cauchy/{name}", names)
        self.assertFalse([name for name in names if "test" in name])
        return wheel

    def installed(self, folder, wheel):
        clean = {name: value for name, value in os.environ.items() if not name.startswith(("CAUCHY", "PYTHON", "PIP"))}
        clean["PIP_CONFIG_FILE"] = os.devnull
        run(sys.executable, "-m", "venv", folder / "venv")
        python = folder / "venv/bin/python"
        run(python, "-m", "pip", "install", "--no-index", "--disable-pip-version-check", wheel, env=clean, cwd=folder)
        told = run(python, "-m", "cauchy", env=clean, cwd=folder)
        found = re.search(r"^(\d+) examples, 0 failed$", told, re.M)
        self.assertTrue(found and int(found[1]) > 100, told)
        where = "import cauchy, cauchy.library as l; print(cauchy.__version__, cauchy.__file__, l._library._name)"
        version, package, library = run(python, "-c", where, env=clean, cwd=folder).split()
        self.assertIn(f"cauchy-{version}-", wheel.name)
        inside = (folder / "venv").resolve()
        self.assertTrue(inside in Path(package).resolve().parents and inside in Path(library).resolve().parents)


if __name__ == "__main__":
    unittest.main()
