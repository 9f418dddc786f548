"""What `--version` of both programs prints: the version that the sources name in one place, which is that
of the package."""
from __future__ import annotations

import os
import re
import subprocess
import unittest

import helpers

# Where the version is written: for the programs, and for the package if it is here.
PROGRAMS = os.path.join(helpers.TOP, "crates", "regatta_version", "src", "lib.rt")
PACKAGE = os.path.join(helpers.TOP, "raceoffice", "version.py")


def version_in(path: str) -> str:
    """The version that a file of sources names."""
    with open(path, encoding="utf-8") as file:
        found = re.findall(r'^(?:pub const )?VERSION\b[^=]*= "(\d+(?:\.\d+)+)"', file.read(), re.MULTILINE)
    if len(found) != 1:
        raise AssertionError(f"{path} names {len(found)} versions")
    return str(found[0])


class Version(unittest.TestCase):
    def prints(self, program: str, name: str) -> None:
        """Shows that both words print the version and nothing else."""
        for word in ("--version", "-V"):
            with self.subTest(word):
                done = subprocess.run([program, word], stdin=subprocess.DEVNULL, capture_output=True,
                                      encoding="utf-8", timeout=helpers.PATIENCE)
                self.assertEqual((done.stdout, done.stderr, done.returncode),
                                 (f"{name} {version_in(PROGRAMS)}\n", "", 0))

    def test_the_office(self) -> None:
        self.prints(helpers.PROGRAM, "regatta")

    @helpers.needs_times
    def test_corrected_times(self) -> None:
        self.prints(helpers.TIMES, "times")

    @unittest.skipUnless(os.path.exists(PACKAGE), "there is no package here")
    def test_the_package_has_the_same(self) -> None:
        self.assertEqual(version_in(PACKAGE), version_in(PROGRAMS))
