"""Lines that were answered and are lost: those that the log has, and the journal hasn't at their place."""
from __future__ import annotations

import unittest

import helpers
from raceoffice.series.log import Logged
from raceoffice.series.lost_lines import as_kept, Unsaved

HEAD = "These lines were answered, and are lost. Type them again in this order, before any other:"


class Lost(helpers.Series):
    def said(self, journal: list[str], *lines: tuple[str, str]) -> list[str]:
        """What is said of a log, a line and its answer each, beside a journal."""
        logged = [Logged("", "1", "Ann", "2", "FINISH", line, answer) for line, answer in lines]
        entries = [f"2 {at} FINISH {line}" for at, line in enumerate(journal, 1)]
        return [line.strip() for line in Unsaved.read(entries, logged).in_words()]

    def test_at_its_place(self) -> None:
        """An older journal in which others typed since has other lines at the same numbers."""
        lines = [("ENTER A", "OK 1 1 0.0"), ("FINISH 1 A", "OK 2 1 0.0"), ("SCORE 1", "OK 3")]
        self.assertEqual(self.said(["ENTER A", "FINISH 1 A", "SCORE 1"], *lines), [])
        self.assertEqual(self.said(["ENTER A"], *lines), [
            f"journal.txt has 1 entry. {HEAD}", "2  FINISH  FINISH 1 A   (Ann)",
            "3  FINISH  SCORE 1   (Ann)"])
        self.assertEqual(self.said(["ENTER A", "FINISH 2 A", "SCORE 1"], *lines), [
            f"journal.txt has 3 entries. {HEAD}", "2  FINISH  FINISH 1 A   (Ann)"])
        self.assertEqual(self.said(["ENTER A", "FINISH 2 A"], *lines, ("closed", "2 entries")), [])

    def test_typed_again(self) -> None:
        """The last line that had a number counts."""
        lines = [("FINISH 1 A", "OK 2 1 0.0"), ("opened", "1 entry"), ("FINISH 1 B", "OK 2 1 0.0")]
        self.assertEqual(self.said(["ENTER A", "FINISH 1 B"], *lines), [])
        self.assertEqual(self.said(["ENTER A", "FINISH 1 A"], *lines)[1:], ["2  FINISH  FINISH 1 B   (Ann)"])

    def test_no_answer(self) -> None:
        """A number that no journal reaches, as after a bit of the log has changed, is no answer."""
        lines = [("ENTER A", "OK 1 1 0.0"), ("ENTER B", "OK 8193 1 0.0"), ("ENTER C", "OK 999999999 1 0.0")]
        self.assertEqual(self.said(["ENTER A"], *lines), [])
        self.assertEqual(self.said(["ENTER A"], *lines, ("SCORE 1", "OK 8192"))[1], "8192  FINISH  SCORE 1   (Ann)")

    def test_one_form(self) -> None:
        """A line is known however it was typed."""
        for typed, kept in [("finish 01 gbr7", "FINISH 1 GBR7"), ("TIME 1 A 000042", "TIME 1 A 42"),
                            ("redress 1 a 02", "REDRESS 1 A 2.0"), ("REDRESS 1 A 2.5", "REDRESS 1 A 2.5"),
                            ("redress 1 a all", "REDRESS 1 A ALL"), ("ENTER 007", "ENTER 007"),
                            ("SCORE 007", "SCORE 7"), ("QUIT", "QUIT"), ("", ""), ("TIME", "TIME"),
                            ("score " + "9" * 5000, "SCORE " + "9" * 5000)]:
            self.assertEqual(as_kept(typed), kept)


if __name__ == "__main__":
    unittest.main()
