"""How the library is built and the package installed, tried in a copy."""

from __future__ import annotations

import os
import re
import shutil
import subprocess
import sys
import tempfile
import unittest
import zipfile
from pathlib import Path
from typing import List

PACKAGE = Path(__file__).resolve().parent.parent
ROOT = PACKAGE.parent.parent
ARCHIVE = ROOT / "target/staticlib/libnoontrough.a"
CALLS = [
    "noontrough_afm_export", "noontrough_afm_import",
    "noontrough_check", "noontrough_clash", "noontrough_create", "noontrough_get", "noontrough_put",
]
#: What the script runs, rt not among it.
TOOLS = "cat", "cc", "cp", "dirname", "ld", "mkdir", "mktemp", "mv", "rm", "sh"


def setUpModule() -> None:
    """The static library is no reason to skip either."""
    if not ARCHIVE.is_file():
        raise AssertionError(f"The engine's static library is missing: {ARCHIVE}. Run {PACKAGE / 'build'}")


class Copied(unittest.TestCase):
    """A test with a copy of this folder in a repository of its own, and a path with the needed tools only."""

    def setUp(self) -> None:
        folder = tempfile.TemporaryDirectory()
        self.addCleanup(folder.cleanup)
        self.root = Path(folder.name).resolve()
        self.package = self.root / "bindings/python"
        shutil.copytree(PACKAGE, self.package, ignore=shutil.ignore_patterns("*.so", "__pycache__"))
        self.archive = self.root / "target/staticlib/libnoontrough.a"
        self.archive.parent.mkdir(parents=True)
        shutil.copy(PACKAGE.parent / "archive", self.root / "bindings/archive")
        self.crate = self.root / "crates/noontrough_c"
        (self.crate / "out").mkdir(parents=True)
        self.library = self.package / "noontrough/libnoontrough.so"
        self.tools = self.root / "tools"
        self.tools.mkdir()
        for tool in TOOLS:
            found = shutil.which(tool)
            assert found is not None, f"{tool} is needed to build the library"
            (self.tools / tool).symlink_to(found)

    def build(self) -> "subprocess.CompletedProcess[str]":
        """Runs the script from another folder, as a user may."""
        environment = {name: value for name, value in os.environ.items() if name != "CC"}
        environment["PATH"] = str(self.tools)
        return subprocess.run(
            [str(self.package / "build")],
            cwd="/",
            env=environment,
            stdout=subprocess.PIPE,
            stderr=subprocess.PIPE,
            universal_newlines=True,
        )

    def assert_library_works(self, folder: Path) -> None:
        environment = {name: value for name, value in os.environ.items() if name != "NOONTROUGH_LIBRARY"}
        script = "import sys, noontrough; print(noontrough.check(open(sys.argv[1], 'rb').read()))"
        done = subprocess.run(
            [sys.executable, "-c", script, str(ROOT / "examples/k/program.table")],
            cwd=folder,
            env=environment,
            stdout=subprocess.PIPE,
            stderr=subprocess.STDOUT,
            universal_newlines=True,
        )
        self.assertEqual(done.stdout, "15\n")


class Build(Copied):
    """The script."""

    def test_links_the_static_library(self) -> None:
        shutil.copy(ARCHIVE, self.archive)
        done = self.build()
        self.assertEqual((done.returncode, done.stdout, done.stderr), (0, f"build: {self.library}\n", ""))
        self.assert_library_works(self.package)
        self.assertEqual(self.left_over(), [])

    def test_links_anew_each_time(self) -> None:
        shutil.copy(ARCHIVE, self.archive)
        self.library.write_bytes(b"an old one")
        self.assertEqual(self.build().returncode, 0)
        self.assert_library_works(self.package)

    def test_runs_rt_where_the_static_library_is_missing(self) -> None:
        self.write_rt(f'cp "{ARCHIVE}" out/libnoontrough_c.a')
        done = self.build()
        self.assertEqual(done.returncode, 0, done.stderr)
        self.assertIn("about seven minutes", done.stdout)
        self.assertIn(f"rt ran with: lib in {self.crate}\n", done.stdout)
        self.assert_library_works(self.package)

    def test_rt_that_fails(self) -> None:
        self.write_rt("exit 3")
        self.assert_fails("build: bindings/archive did not succeed\n")

    def test_rt_that_makes_nothing(self) -> None:
        self.write_rt("exit 0")
        made = self.crate / "out/libnoontrough_c.a"
        self.assert_fails(f"archive: rt lib left no {made}\nbuild: bindings/archive did not succeed\n")

    def test_no_rt(self) -> None:
        self.assert_fails(
            "build: the engine's static library is missing, and rt, the Rattle toolchain that makes it, is not on the PATH\n"
        )

    def test_no_compiler(self) -> None:
        (self.tools / "cc").unlink()
        self.assert_fails("build: there is no C compiler 'cc' to link with: install one, or name it in CC\n")

    def test_what_can_not_be_linked_leaves_the_library_as_it_was(self) -> None:
        self.archive.write_bytes(b"no archive")
        self.library.write_bytes(b"an old one")
        self.assertNotEqual(self.build().returncode, 0)
        self.assertEqual(self.library.read_bytes(), b"an old one")
        self.assertEqual(self.left_over(), [])

    def write_rt(self, command: str) -> None:
        """Something in rt's place that says how it was run."""
        rt = self.tools / "rt"
        rt.write_text(f'#!/bin/sh\necho "rt ran with: $* in $(pwd)"\n{command}\n', "utf-8")
        rt.chmod(0o755)

    def assert_fails(self, told: str) -> None:
        done = self.build()
        self.assertEqual((done.returncode, done.stderr), (1, told))
        self.assertFalse(self.library.exists())
        self.assertEqual(self.left_over(), [])

    def left_over(self) -> List[str]:
        """Files of a build that are still there."""
        return [path.name for path in (self.package / "noontrough").iterdir() if path.name.startswith(".")]


class Wheel(Copied):
    """What pip asks of backend.py."""

    def build_wheel(self) -> "subprocess.CompletedProcess[str]":
        return subprocess.run(
            [sys.executable, "-B", "-c", "import backend, sys; print(backend.build_wheel(sys.argv[1]))", str(self.root)],
            cwd=self.package,
            stdout=subprocess.PIPE,
            stderr=subprocess.PIPE,
            universal_newlines=True,
        )

    def test_wheel(self) -> None:
        shutil.copy(ARCHIVE, self.archive)
        self.assertEqual(self.build().returncode, 0)
        before = sorted(self.package.rglob("*"))
        done = self.build_wheel()
        self.assertEqual(done.stdout, "noontrough-0.1.0-py3-none-linux_x86_64.whl\n", done.stderr)
        self.assertEqual(sorted(self.package.rglob("*")), before)
        with zipfile.ZipFile(self.root / done.stdout.strip()) as wheel:
            names = set(wheel.namelist())
            record = wheel.read("noontrough-0.1.0.dist-info/RECORD").decode("ascii")
            wheel.extractall(self.root / "installed")
        self.assertEqual({line.split(",")[0] for line in record.splitlines()}, names)
        self.assertEqual(
            {name for name in names if name.startswith("noontrough/")},
            {"noontrough/__init__.py", "noontrough/py.typed", "noontrough/libnoontrough.so"},
        )
        self.assert_library_works(self.root / "installed")

    def test_wheel_before_the_build(self) -> None:
        done = self.build_wheel()
        self.assertNotEqual(done.returncode, 0)
        self.assertIn(f"{self.library} is missing: run {self.package / 'build'} first", done.stderr)


class Library(unittest.TestCase):
    """The library that was built here."""

    LIBRARY = PACKAGE / "noontrough/libnoontrough.so"

    def test_is_not_older_than_the_static_library(self) -> None:
        self.assertTrue(self.LIBRARY.is_file(), f"{self.LIBRARY} is missing: run {PACKAGE / 'build'}")
        older = self.LIBRARY.stat().st_mtime < ARCHIVE.stat().st_mtime
        self.assertFalse(older, f"{self.LIBRARY} is older than {ARCHIVE}: run {PACKAGE / 'build'} again")

    def test_shows_the_five_calls_only(self) -> None:
        shown = subprocess.run(
            ["nm", "-D", "--defined-only", str(self.LIBRARY)], stdout=subprocess.PIPE, universal_newlines=True
        )
        self.assertEqual(sorted(re.findall(r" (\S+)$", shown.stdout, re.MULTILINE)), CALLS)


if __name__ == "__main__":
    unittest.main()
