"""The plain program of bench/peer, which measurements compare with, gives the same bytes as the program."""
from __future__ import annotations

import os
import shutil
import subprocess
import sys
import tempfile
import unittest

import helpers

PEER = os.path.join(helpers.TOP, "bench", "peer")
# Quick to build, and it stops at a sum that is too large.
CHECKED = ("-C", "opt-level=0", "-C", "debug-assertions=on")
# Chosen so that they find wrong tie breaks, late entries and merges of the ranking. One is served, too.
SERIES = ("--count", "5", "--seed", "101")


@unittest.skipUnless(shutil.which("rustc"), "there is no rustc")
class Peers(unittest.TestCase):
    def test_gives_the_same_bytes(self) -> None:
        """Random series with refusals, redress, penalties and corrected times, replayed and served, in both
        ways of ranking."""
        with tempfile.TemporaryDirectory() as folder:
            peer = os.path.join(folder, "peer")
            subprocess.run([os.path.join(PEER, "build.sh"), peer, *CHECKED], check=True)
            done = subprocess.run(
                [sys.executable, os.path.join(PEER, "compare.py"), peer, helpers.PROGRAM, *SERIES],
                stdout=subprocess.PIPE, stderr=subprocess.STDOUT, text=True, timeout=helpers.PATIENCE)
        self.assertEqual(done.stdout, "5 series: the same bytes in both ways\n")


if __name__ == "__main__":
    unittest.main()
