"""The pictures in docs/ can be made again, and none is large.

Making them takes longest of all, and only a change of the pages can break it, so that the whole test
leaves it out: `tests/run.py PROGRAM pictures` tries it.
"""
from __future__ import annotations

import os
import shutil
import subprocess
import sys
import tempfile
import unittest

import browser
import helpers
import web_screens


@unittest.skipUnless(browser.program() and shutil.which("pdftoppm"), "Chromium or pdftoppm isn't installed")
class Pictures(unittest.TestCase):
    def test_board(self) -> None:
        self.need_same("screens.py", [helpers.PROGRAM], ["board-phone.png", "board-desktop.png", "board-print.png"])

    def test_office(self) -> None:
        self.need_same("web_screens.py", [], web_screens.NAMES)

    def need_same(self, script: str, words: list[str], names: list[str]) -> None:
        """Makes pictures again, and needs those in docs/ to have the same size."""
        with tempfile.TemporaryDirectory() as here:
            subprocess.run([sys.executable, os.path.join(helpers.TOP, "tests", script), *words, here], check=True,
                           stdout=subprocess.DEVNULL)
            for name in names:
                heads = []
                for folder in (here, os.path.join(helpers.TOP, "docs")):
                    with open(os.path.join(folder, name), "rb") as file:
                        data = file.read()
                    self.assertLess(len(data), 150_000, name)
                    heads.append(data[:24])
                self.assertEqual(heads[0], heads[1], f"{name} has another size than in docs/")


if __name__ == "__main__":
    unittest.main()
