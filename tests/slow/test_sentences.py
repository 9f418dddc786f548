"""The sentences of Appendix A are told from their mutants by tables that are worked by hand."""
from __future__ import annotations

import os
import re
import subprocess
import sys
import unittest

import helpers

SCRIPT = os.path.join(helpers.TOP, "bench", "sentences.py")


class Sentences(unittest.TestCase):
    def test_mutants(self) -> None:
        """Each mutant refuses a right table or accepts a wrong one; the fields are those of the sources."""
        done = subprocess.run([sys.executable, SCRIPT], capture_output=True, encoding="utf-8",
                              timeout=helpers.PATIENCE * 4)
        self.assertEqual(done.returncode, 0, done.stdout[-2000:] + done.stderr[-2000:])
        said = re.search(r"([0-9]+) mutants, ([0-9]+) told, 0 not told", done.stdout)
        assert said
        self.assertEqual(said[1], said[2])
        self.assertGreaterEqual(int(said[1]), 60)


if __name__ == "__main__":
    unittest.main()
