"""What `raceoffice` reads of the program's checks of a journal: what it says of spoilt files, beside what `serve --keep` does
with them, and that a file that hasn't changed is asked about once."""
from __future__ import annotations

import dataclasses
import os
import subprocess
import time
import unittest
from unittest import mock

import helpers
from helpers import ran
from kept import DEVICE, NOWHERE, VERSION
from raceoffice.errors import NoCheck, Trouble
from raceoffice.program import checking
from raceoffice.program.checking import Check, End, LineFault, Remembered, checked
from raceoffice.program.messages import BYTES, EDITED, OTHER_RULES, SHOWN, UNLIKE, start_fault
from raceoffice.series import health
from raceoffice.series.entry_list import FAULTS
from raceoffice.series.folder import Folder, whole_part
from raceoffice.series.run_program import rules_of
from test_check import ENDS, TORN, Spoiler
from test_explain import journal_of, words_of

A, B = "1 1 SCORER ENTER A\n", "1 2 SCORER ENTER B\n"
SOUND, CUT = VERSION + A, "1 2 SC"
LONG, MOST = "journal.txt is longer than 1,048,576 bytes.", 1_048_576
# A program that is older than checks.
OLDER = f"""#!/bin/sh
[ "$1" = check ] && echo "error: unrecognized subcommand 'check'" >&2 && exit 2
exec {helpers.PROGRAM} "$@"
"""
# A program that hangs when it is asked for one.
HANGING = f"""#!/bin/sh
[ "$1" = check ] && exec sleep 1000
exec {helpers.PROGRAM} "$@"
"""


class Records(unittest.TestCase):
    def test_document(self) -> None:
        """Each line's fault, and the end, of the file that is worked out by hand."""
        found = checked(helpers.PROGRAM, [], TORN.encode())
        self.assertEqual(found, Check((LineFault(3, 29, 1, "BadLine", 22), LineFault(4, 31, 21, "Refused", 7),
                                       LineFault(6, 72, 18, "Refused", 3)), End(6, 91, False)))

    def test_other_documents(self) -> None:
        """What isn't such a document is none."""
        for text in ["", "[]", "{}", "7", '{"faults":[],"torn":null}', '{"faults":[7],"torn":{"lines":1,"at":1,"damaged":true}}',
                     '{"faults":[{}],"torn":{"lines":1,"at":1,"damaged":true}}', "[" * 100_000]:
            with self.subTest(text[:60]), mock.patch.object(checking, "printed", return_value=text), self.assertRaises(NoCheck):
                checked(helpers.PROGRAM, [], b"")

    def test_not_checked(self) -> None:
        """Rules that are none say nothing of a file, and a file that is too long is refused."""
        self.assertRaisesRegex(NoCheck, "rules fault 1", checked, helpers.PROGRAM, ["--scp", "0"], b"")
        self.assertRaisesRegex(Trouble, f"^{LONG}$", checked, helpers.PROGRAM, [], b"\n" * (MOST + 1))
        self.assertRaisesRegex(NoCheck, "can't be run", checked, "/none", [], b"")

    def test_shown(self) -> None:
        """A line is shown as an editor shows it, without its carriage return, and cut after 80 letters."""
        for line, shown in [("X\r", "X"), ("\u00e9" * 200, "\u00e9" * 80), ("\U0001f600" * 90, "\U0001f600" * 80), ("", "")]:
            data = f"ab\n{line}\n".encode()
            self.assertEqual(LineFault(2, 3, len(line.encode()), "BadLine", 22).shown(data), shown)
        self.assertEqual(BYTES, 4 * SHOWN)


class Spoilt(helpers.Series):
    """Journals of a series that a crash, or somebody, has spoilt."""

    def setUp(self) -> None:
        super().setUp()
        self.folder = Folder(os.path.join(self.here, "cup"))
        self.folder.make_private()

    def put(self, text: str) -> None:
        with open(self.folder.journal, "wb") as file:
            file.write(text.encode())

    def in_file(self) -> bytes:
        with open(self.folder.journal, "rb") as file:
            return file.read()

    def served(self, words: list[str]) -> tuple[str, bytes]:
        """What `serve --keep` says of the journal when it can't make its socket, and what it leaves of it."""
        path = os.path.join(self.here, "served")
        with open(path, "wb") as file:
            file.write(self.in_file())
        said = ran("serve", *words, "--keep", path, "--socket", NOWHERE)[1]
        with open(path, "rb") as file:
            return said, file.read()

    def told(self) -> list[str]:
        return health.faults(self.folder)

    def test_beside_serving(self) -> None:
        """Of random files: what the tools say has what `serve --keep` says, they say nothing of a file that it takes, and
        what counts for them is what it leaves."""
        seen: set[str] = set()
        for number in range(helpers.trials(150)):
            dice = Spoiler(number)
            rules = dice.rules()
            words = words_of(rules)
            self.put(dice.spoilt(journal_of(rules, dice.lines(rules))))
            self.folder.settings = dataclasses.replace(self.folder.settings, **rules_of(words))
            with self.subTest(number):
                told, (said, left) = self.told(), self.served(words)
                if said.endswith(DEVICE):
                    self.assertEqual(told, [])
                    self.assertEqual(self.folder.parts(), (left, self.in_file()[len(left):]))
                    seen.add("cut" if said != DEVICE else "whole")
                    continue
                first = start_fault(said, os.path.join(self.here, "served"), "entries.csv")[0].replace("served", "journal.txt")
                self.assertIn(first, told)
                seen.add(said.split(" line")[0].split(" at")[0])
        if helpers.trials(150) >= 150:
            self.assertGreater(len(seen), 6, seen)

    def test_ends(self) -> None:
        """What opening would cut off is apart from what counts, and what it would refuse is said."""
        for text, (lines, at, length, damaged) in ENDS:
            self.put(text)
            with self.subTest(text[:60]):
                data = text.encode()
                if not damaged:
                    self.assertEqual(self.folder.parts(), (data[:at], data[at:]))
                    self.assertEqual(len(data[at:]), length)
                    continue
                with self.assertRaises(Trouble) as raised:
                    self.folder.parts()
                self.assertIn(f"is damaged after line {lines}." if lines else "is no journal", str(raised.exception))

    def test_all_are_named(self) -> None:
        """Each line that is wrong is named, with what to do once."""
        read = "Line 3 of journal.txt isn't a line of a journal: 'X'."
        why = "Line 4 of journal.txt is refused: a boat that is named isn't entered. It is '1 2 FINISH FINISH 1 B'."
        old = "Line 6 of journal.txt is refused: this seat has used up its numbers. It is '1 3 SCORER ENTER C'."
        none, kind = "1 1 SCORER ENTER A\nX\r\n\n", "1 2 FINISH TIME 1 A 7\n1 3 SCORER SCORE 1\n"
        for text, wanted in [(TORN, [read, why, old, EDITED]),
                             (none, [read.replace("3", "2"), read.replace("X", ""), UNLIKE]),
                             # That nobody has finished follows from the first line that is refused.
                             (A + kind, [OTHER_RULES]),
                             (A + kind + "X\n", [read.replace("3", "4"), UNLIKE, OTHER_RULES]),
                             (f"regatta 2\n{A}1 2 FINISH FINISH 1 B\n", [why.replace("Line 4", "Line 3"), EDITED])]:
            self.put(text)
            with self.subTest(text):
                self.assertEqual(self.told(), wanted)

    def test_many(self) -> None:
        """No more are named than of a list."""
        self.put(SOUND + "X\n" * (FAULTS + 7))
        told = self.told()
        self.assertEqual((len(told), told[-1]), (FAULTS + 1, UNLIKE))
        self.assertTrue(told[-2].startswith(f"Line {FAULTS + 2} of "))

    def test_unknown_version(self) -> None:
        """A file that names another version is refused, as the program does, and no new journal takes its place."""
        self.put("REGATTA 3\n")
        self.assertEqual(self.told(), ["Line 1 of journal.txt names a version that this program doesn't read: 'REGATTA 3'.",
                                       UNLIKE])
        self.assertEqual(helpers.run("open", "cup", cwd=self.here)[1], 1)
        self.assertEqual(self.in_file(), b"REGATTA 3\n")

    def test_too_long(self) -> None:
        """A file is as long as all of it, with what a crash has left."""
        for text in (SOUND + "\n" * MOST, (A + "\r" * (MOST - 21) + "\n")[:MOST - 1] + "\n1 2 SC"):
            self.put(text)
            self.assertEqual(self.told(), [LONG])
            self.assertIn("keep too long", self.served([])[0])

    # ---- what is asked, and how often

    def asked(self) -> mock.Mock:
        """The calls of the program from here on."""
        patch = mock.patch.object(checking, "checked", side_effect=checking.checked)
        self.addCleanup(patch.stop)
        return patch.start()

    def looks(self, calls: mock.Mock, wanted: int) -> None:
        before = calls.call_count
        for _ in range(3):
            self.folder.kept()
            self.folder.torn_end()
        self.assertEqual(calls.call_count - before, wanted)

    def test_looks(self) -> None:
        """A look at whole lines asks no program, and one at a file that hasn't changed asks once."""
        program = os.path.join(self.here, "program")
        self.write(f'#!/bin/sh\nexec {helpers.PROGRAM} "$@"\n', "program")
        os.chmod(program, 0o755)
        self.folder.settings = dataclasses.replace(self.folder.settings, program=program)
        calls = self.asked()
        with mock.patch.object(subprocess, "run", side_effect=AssertionError("a program is asked")):
            for text in ("", SOUND, SOUND + B):
                self.put(text)
                self.looks(calls, 0)
        for text in (SOUND + "1 2 SCORER", SOUND + "1 3 SCORER", SOUND + B + "1 3 SCORER"):
            self.put(text)
            self.looks(calls, 1)
        self.write(f'#!/bin/sh\n\nexec {helpers.PROGRAM} "$@"\n', "program")
        self.looks(calls, 1)

    def test_room(self) -> None:
        """The ends of 32 files are remembered, and no more."""
        remembered = Remembered()
        for number in range(checking.ENDS + 3):
            self.assertEqual(remembered.end_of(helpers.PROGRAM, f"{SOUND}{number}".encode()), End(2, len(SOUND), False))
        self.assertEqual(len(remembered.found), checking.ENDS)

    def without_checks(self, script: str) -> None:
        """Has a program that can't say what is torn; without a script there is none."""
        path = os.path.join(self.here, "other")
        if script:
            self.write(script, "other")
            os.chmod(path, 0o755)
        self.folder.settings = dataclasses.replace(self.folder.settings, program=path)

    def test_no_answer(self) -> None:
        """Of a program that isn't there, hangs or is older a file with whole lines has them all the same, and one without is
        no journal. It is asked again after a minute."""
        calls = self.asked()
        with mock.patch.object(checking, "PATIENCE", 0.3):
            for script, why in [("", "No such file or directory"), ("#!/bin/sh\nexec sleep 1000\n", "does not end"),
                                (OLDER, "unrecognized subcommand")]:
                self.without_checks(script)
                for torn in (CUT, "x" * 5000):
                    self.put(SOUND + torn)
                    self.looks(calls, 1)
                    self.assertEqual(self.folder.parts(), (SOUND.encode(), torn.encode()))
                self.put("SQLite")
                for _ in range(2):
                    with self.assertRaises(Trouble) as raised:
                        self.folder.kept()
                    self.assertIn(why, str(raised.exception))
            with mock.patch("time.monotonic", return_value=time.monotonic() + checking.AGAIN + 1):
                before = calls.call_count
                self.assertRaises(Trouble, self.folder.kept)
                self.assertEqual(calls.call_count, before + 1)

    def test_older(self) -> None:
        """A program that is older than checks, or hangs, says the first fault, and opens what it opened before."""
        first = ["Line 3 of journal.txt isn't a line of a journal: 'X'.", UNLIKE]
        cases = [(SOUND, list[str]()), (SOUND + CUT, []), (SOUND + "X\nY\n", first),
                 (SOUND + "1 2 FINISH TIME 1 A 7\n", [OTHER_RULES])]
        for script in (OLDER, HANGING):
            self.without_checks(script)
            for text, wanted in cases:
                self.put(text)
                with self.subTest(script, text=text), mock.patch.object(checking, "PATIENCE", 0.3):
                    self.assertEqual(self.told(), wanted)

    def test_whole_part(self) -> None:
        """What counts for a look that asks no program is what counts for the program."""
        for number in range(helpers.trials(60)):
            dice = Spoiler(number)
            text = "".join(dice.choice(["1 2", "\n", "\0", "X\n", "R", "REGATTA 2\n"]) for _ in range(dice.randint(0, 9)))
            found = checked(helpers.PROGRAM, [], text.encode()).end
            whole = whole_part(text.encode())
            with self.subTest(text):
                self.assertEqual((found.at, found.lines), (len(whole), whole.count(b"\n")))


if __name__ == "__main__":
    unittest.main()
