"""Folders whose names aren't UTF-8 text, or are those of others: what the package writes of them, and say."""
from __future__ import annotations

import os
import unittest

import helpers
from raceoffice.errors import Trouble
from raceoffice.series import settings
from raceoffice.series.create import settings_with
from raceoffice.series.folder import Folder

# A name that isn't UTF-8, as a stick of another computer may have it.
ODD = os.fsdecode(b"cup\xff")


class Names(helpers.Series):
    def setUp(self) -> None:
        super().setUp()
        self.odd = self.make(ODD)

    def run_tool(self, *words: str) -> tuple[str, int]:
        said, status = helpers.run(*words, cwd=self.here)
        self.assertNotIn("has a fault", said)
        return said, status

    def test_warning(self) -> None:
        """The office's window warns those who type whatever the name of a file is that it names."""
        folder = Folder(os.path.join(self.here, "cup"))
        folder.make_private()
        folder.set_beware(f"its trace is in {self.odd}.")
        self.assertEqual(folder.beware(), f"its trace is in {self.here}/cup?.")

    def test_pages(self) -> None:
        """The pages of such a folder are written, and can be verified."""
        said, status = self.run_tool("board", ODD, "cup", "--page", "out", "--once")
        self.assertEqual(status, 0, said)
        self.assertEqual(sorted(os.listdir(os.path.join(self.here, "out"))),
                         ["cup", "cup?", "index.html", "now.json"])
        said, status = self.run_tool("export", ODD, "cup", "--html", "results.html")
        self.assertEqual(status, 0, said)
        pages = ["results.html", "out/index.html", "out/cup?/index.html"]
        said, status = self.run_tool("verify", *pages, "--program", helpers.PROGRAM)
        self.assertEqual((said.count(": verified."), status), (3, 0), said)

    def test_office(self) -> None:
        """The program takes no such path, and the package says so."""
        for command in ("check", "open"):
            said, status = self.run_tool(command, ODD)
            self.assertIn(f"The program takes no path that isn't UTF-8, as {self.here}/cup?/journal.txt "
                          "isn't: rename that folder.", said)
            self.assertEqual(status, 1)

    def test_new(self) -> None:
        """A new series doesn't note a program at such a path."""
        values = {"title": "Autumn Cup", "program": "../regatta", "copy": ""}
        self.assertEqual(settings.values_of(settings_with(values).decode())["program"], "../regatta")
        for key, value in (("program", f"../../{ODD}/regatta"), ("copy", f"/{ODD}"),
                           ("copy", "/a\nseats = 3")):
            with self.assertRaisesRegex(Trouble, f"series.ini can't hold {key} = "):
                settings_with(values | {key: value})

    def test_two_of_one_name(self) -> None:
        """Two folders of one name are two series that a page couldn't tell apart."""
        os.mkdir(os.path.join(self.here, "other"))
        os.rename(os.path.join(self.here, ODD), os.path.join(self.here, "other", "cup"))
        said, status = self.run_tool("export", "cup", "other/cup", "--html", "results.html")
        self.assertEqual((said, status), ("two of the folders are called cup, and each needs a name of its "
                                          "own.\n", 1))
        self.assertFalse(os.path.exists(os.path.join(self.here, "results.html")))


if __name__ == "__main__":
    unittest.main()
