"""What reads files and answers meets anything, and says what is wrong in words: only a Trouble ever comes.

TRIALS says how many random inputs each reader gets; the gate gives 1,000.
"""
from __future__ import annotations

import contextlib
import os
import random
import re
import tempfile
import unittest
from collections.abc import Callable, Iterator

import helpers
from raceoffice.corrected import sheets, times
from raceoffice.decisions import decision_lines
from raceoffice.errors import Trouble
from raceoffice.files import edited_text
from raceoffice.program import journal, replay
from raceoffice.program.standing import Score, Standing
from raceoffice.series import entry_list, headings, read_list, settings
from raceoffice.series.folder import Folder, entries_of
from raceoffice.typing_window import batch

# Pieces of which inputs are made: signs that part and end, other alphabets, odd bytes, long numbers.
SIGNS = [b",", b";", b"\t", b"\n", b"\r", b"\r\n", b'"', b"'", b" ", b"=", b"[", b"]", b"#", b":", b"/", b"-",
         b"+", b"%",
         b".", b"\0", b"\x0b", b"\x0c", b"\x1b[2K", b"\x1c", b"\x7f", b"\x85", b"\xa0", b"\xff", b"\xff\xfe",
         b"\xfe\xff",
         b"\xef\xbb\xbf", "\u2028".encode(), "\u0085".encode(), "\u017f".encode(), "\u00df".encode(),
         "\u0130".encode(),
         "\u0663".encode(), "\u202e".encode(), "\ud83d".encode("utf-8", "surrogatepass"),
         "\U0001f6a9".encode(),
         b"9" * 4400, b"0", b"1", b"12", b"-1", b"99999999999999999999", b"A" * 40, b"x"]
WORDS = {
    "list": ["Sail", "Helm", "Boat", "Club", "Rating", "PY from 5", "Rating from \u0663", "GBR 7", "gbr7",
             "K/12", "NED 12",
             "1,103", "0.985", "Segel", "N\u00b0 de voile", "PK\x03\x04"],
    "sheet": ["Sail", "Start", "Finish", "Elapsed", "Laps", "Distance", "Code", "GBR 7", "NED 12", "14:05:00",
              "14:05", "3600",
              "1:02:31", "DNF", "dsq", "TLE", "24:00:00", "1:99", "\u0661:02:03"],
    "settings": [f"{key} = " for keys in settings.KEYS.values() for key in keys]
    + [f"[{section}]\n" for section in settings.KEYS] + ["Cup", "none", "yes", "a53", "2,4", "Europe/Lisbon",
                                                         "../x"],
    "decisions": ["race ", "3 ", "GBR7 ", *(f"{kind} " for kind in decision_lines.KINDS), "30%", "last+2",
                  "1,2,4", "sailed", "2.5",
                  "# note"],
    "table": ["TABLE ", "2 ", "RACES", " 1 2", "1 ", "2= ", "GBR7 ", "4.0", "(4.0/DNF)", " 5.0/ZFP", "END",
              "JOURNAL 2"],
    "journal": ["REGATTA 2", "1 1 SCORER ", "ENTER ", "FINISH ", "TIE ", "BEFORE ", "TIME ", "MARK ",
                "PENALTY ", "REDRESS ",
                "CLEAR ", "STRIKE ", "SCORE ", "UNSCORE ", "1 ", "GBR7 ", "NED12 ", "DNF", "3600"],
    "log": ["2026-11-26T09:00:00+0000\t", "1\t", "Ann\t", "SCORER\t", "opened\t", "closed\t", "came\t",
            "OK 10", "7 entries"],
}


@contextlib.contextmanager
def folder_in_memory() -> Iterator[str]:
    """A folder whose files are written thousands of times."""
    with tempfile.TemporaryDirectory(dir="/dev/shm" if os.access("/dev/shm", os.W_OK) else None) as name:
        yield name


def made(chosen: random.Random, kind: str) -> bytes:
    """A random input: words of its kind, signs between them, and now and then a byte that is another."""
    known = [word.encode() for word in WORDS[kind]]
    pieces = chosen.choices([*known * 3, *SIGNS, b"\n", b"\n", b",", b";"], k=chosen.randint(0, 40))
    data = bytearray(b"".join(pieces))
    for _ in range(chosen.choice((0, 0, 1, 3))):
        if data:
            data[chosen.randrange(len(data))] = chosen.randrange(256)
    text = bytes(data)
    if chosen.random() < 0.05:
        text = text.decode("utf-8", "replace").encode(chosen.choice(("utf-16", "utf-16-le", "utf-32")))
    return text


class Readers(unittest.TestCase):
    def setUp(self) -> None:
        self.chosen = random.Random(self.id())

    def each(self, kind: str, read: Callable[[bytes], object]) -> None:
        """Gives a reader many inputs; nothing but a Trouble may come."""
        for at in range(helpers.trials(1000)):
            data = made(self.chosen, kind)
            try:
                read(data)
            except Trouble:
                pass
            except Exception as cause:
                raise AssertionError(f"input {at}, {data[:400]!r}: {cause!r}") from cause

    def test_entry_lists(self) -> None:
        """A list without a problem has boats whose names go to any terminal, and the program's sails."""
        with folder_in_memory() as name:
            path = os.path.join(name, "list.csv")

            def read(data: bytes) -> None:
                with open(path, "wb") as file:
                    file.write(data)
                wrong, boats = entry_list.problems(data, path), entry_list.read(path)
                entry_list.left_in_words(data)
                for is_rated in (True, False):
                    entry_list.rating_note(data, path, is_rated)
                assert bool(wrong) != bool(boats)
                for sail, boat in boats.items():
                    assert re.fullmatch("[A-Z0-9-]{1,12}", sail) and entry_list.plain(boat.sail) == sail
                    assert all(text.isprintable() for text in (boat.sail, boat.helm, boat.name, boat.club))
                assert entry_list.given(path) == "".join(f"{sail}\n" for sail in ["Sail", *boats]).encode()

            self.each("list", read)

    def test_ratings(self) -> None:
        for system in times.SYSTEMS:
            def read(data: bytes, system: str = system) -> None:
                times.rated(data, "list.csv", self.chosen.randint(1, 40), system)

            self.each("list", read)

    def test_sheets(self) -> None:
        """A sheet without a fault gives rows that the program can part."""
        def read(data: bytes) -> None:
            found, wrong = sheets.entries_of(data, "race-1.csv")
            if wrong:
                return
            given = sheets.for_program([entry for entry in found if entry.is_timed])
            rows = read_list.rows_of(read_list.decoded(given), ",")
            assert all(len(row) == len(sheets.HEADS) for _, row in rows)
            assert headings.columns(rows[0][1], headings.SHEET).keys() >= sheets.HEADS.keys()

        self.each("sheet", read)

    def test_settings(self) -> None:
        """Whatever is taken has values on one line each; a changed value is read again."""
        with folder_in_memory() as name:
            path = os.path.join(name, settings.NAME)

            def read(data: bytes) -> None:
                with open(path, "wb") as file:
                    file.write(data)
                found = settings.read(name)
                assert all(len(str(value).splitlines()) < 2 for value in vars(found).values())
                found.options(), found.in_words()
                changed = settings.with_value(edited_text(path), "notice", "reason", "why")
                assert settings.problems(changed) == []

            self.each("settings", read)

    def test_rules_of_times(self) -> None:
        with folder_in_memory() as name:
            path = os.path.join(name, "times", "rules.ini")
            os.mkdir(os.path.dirname(path))
            with open(os.path.join(name, settings.NAME), "w", encoding="utf-8") as file:
                file.write("[series]\ntitle = Cup\n")
            folder = Folder(name)

            def read(data: bytes) -> None:
                with open(path, "wb") as file:
                    file.write(data)
                times.Rules.read(folder)

            self.each("settings", read)

    def test_decisions(self) -> None:
        with folder_in_memory() as name:
            path = os.path.join(name, decision_lines.NAME)

            def read(data: bytes) -> None:
                with open(path, "wb") as file:
                    file.write(data)
                for ruling in decision_lines.rulings_of(decision_lines.read(name))[0]:
                    decision_lines.ruling_text(ruling, "2.0")
                    assert 1 <= ruling.race <= 40 and entry_list.fault_of(ruling.sail) == ""

            self.each("decisions", read)

    def test_answers(self) -> None:
        """Tables, journals and sheets as another program might print them."""
        def text(data: bytes) -> list[str]:
            return data.decode("ascii", "replace").splitlines()

        self.each("table", lambda data: Standing.read(text(data)))
        self.each("table", lambda data: replay.sheet_of(text(data)))
        self.each("table", lambda data: Score.read(data.decode("ascii", "replace")))
        self.each("journal", lambda data: journal.Series.read(text(data)))

    def test_series_files(self) -> None:
        """The journal's file, the log, and the lines of a file that somebody sends."""
        with folder_in_memory() as name:
            with open(os.path.join(name, settings.NAME), "w", encoding="utf-8") as file:
                file.write("[series]\ntitle = Cup\n")
            folder = Folder(name)

            def write(file: str, data: bytes) -> None:
                with open(folder.file(file), "wb") as opened:
                    opened.write(data)

            def journal(data: bytes) -> None:
                write("journal.txt", data)
                assert all("\n" not in line for line in folder.kept())
                folder.torn_end()

            def log(data: bytes) -> None:
                write("office.log", data)
                folder.logged()

            self.each("journal", journal)
            self.each("log", log)
            self.each("journal", lambda data: [line.isprintable() or self.fail(line)
                                               for line in batch.lines_of(data)])
            self.each("journal", entries_of)


if __name__ == "__main__":
    unittest.main()
