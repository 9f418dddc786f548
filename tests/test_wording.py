"""What the package says of numbers, signs and faults."""
from __future__ import annotations

import hashlib
import os
import random
import unicodedata
import unittest

import helpers
from raceoffice import characters, remarks, wording
from raceoffice.program import messages


class Words(unittest.TestCase):
    def test_numbers(self) -> None:
        self.assertEqual([wording.ordinal(number) for number in (1, 2, 3, 4, 11, 12, 13, 21, 111, 122)],
                         ["1st", "2nd", "3rd", "4th", "11th", "12th", "13th", "21st", "111th", "122nd"])
        self.assertEqual([wording.count(number, "boat") for number in (0, 1, 2)],
                         ["no boats", "1 boat", "2 boats"])
        self.assertEqual(wording.joined(["A", "B", "C"], "or"), "A, B or C")
        self.assertEqual(wording.spans([1, 2, 3, 5, 7, 8]), "1–3, 5, 7, 8")

    def test_signs(self) -> None:
        self.assertEqual(wording.sign("\u00a0"), "a no-break space (U+00A0), which looks like a space")
        self.assertEqual(wording.sign("\u200b"), "the invisible sign U+200B")
        self.assertEqual(wording.sign("é"), "the sign 'é'")

    def test_signs_of_all(self) -> None:
        """Signs, words and names are the same in every Python: what Unicode 3.2 doesn't know is shown by its number, and isn't
        said to be invisible."""
        for letter, name, kind, shown in [("\U0001fae8", "the sign U+1FAE8", "sign-seen", "U+1FAE8"),
                                          ("\U0001f6a4", "the sign U+1F6A4", "sign-seen", "U+1F6A4"),
                                          ("\ue000", "the sign U+E000", "sign-seen", "U+E000"),
                                          ("\u2066", "the sign U+2066", "sign-seen", "U+2066"),
                                          ("\u00ad", "the invisible sign U+00AD", "sign-unseen", "U+00AD"),
                                          ("\u202e", "the invisible sign U+202E", "sign-unseen", "U+202E"),
                                          ("\u0416", "the sign '\u0416'", "sign-seen", "\u0416"),
                                          ("\u4e00", "the sign '\u4e00'", "sign-seen", "\u4e00"), ("'", "the sign \"'\"", "sign-seen", "'")]:
            made = remarks.sign_remark(letter)
            self.assertEqual((wording.sign(letter), made.kind, made.values), (name, kind, {"name": name, "sign": shown}))
        for text, shown in [("a\u0416 '\\\u4e00", "\"a\u0416 '\\\\\u4e00\""), ("'\"", "'\\'\"'"), ("", "''"),
                            ("\U0001fae8\u2066\u202e\x1b", "'\\U0001fae8\\u2066\\u202e\\x1b'")]:
            self.assertEqual(repr(characters.Written(text)), shown)
        # Not each Python knows of the last one that it stands for a letter.
        for text, form, is_composed in [
                ("Zo\u00eb \u212a", "Zoe\u0308 K", False), ("\ufb01\u3000", "fi ", False), ("\uac00", "\u1100\u1161", True), ("a^-]", "a^-]", True),
                ("\U00011935\U00011930", "\U00011935\U00011930", False), ("\U0001e030\u00e9\u0316", "\U0001e030e\u0316\u0301", True)]:
            self.assertEqual((characters.in_one_form(text), characters.is_composed(text)), (form, is_composed))
        self.assertEqual([characters.is_word(text) for text in ("D\u0416", "D1", "D\U0001e030", "\u1c89")], [True, False, False, False])

    def test_known_of_old(self) -> None:
        """What each Python is known to say of the signs of Unicode 3.2."""
        known = list(filter(characters.is_known, map(chr, range(0x110000))))
        self.assertEqual([len(known), *(sum(map(has, known)) for has in (characters.is_unseen, characters.is_word))], [95221, 216, 89957])
        forms = "|".join(map(characters.in_one_form, known)).encode()
        self.assertEqual(hashlib.sha256(forms).hexdigest()[:16], "2b15f8caba1e69e3")
        self.assertEqual([sign for sign in known if not characters.is_unseen(sign) and not sign.isprintable()], [])
        # Names in one form are those that Python makes, which takes longer.
        chosen, marks = random.Random(7), [sign for sign in known if unicodedata.combining(sign)]
        for _ in range(helpers.trials(500)):
            text = "".join(chosen.choice(chosen.choice((marks, known))) for _ in range(chosen.randint(0, 12)))
            self.assertEqual(characters.in_one_form(text), unicodedata.normalize("NFKD", text), ascii(text))
            self.assertEqual(characters.is_composed(text), unicodedata.normalize("NFKC", text) == text, ascii(text))

    def test_names(self) -> None:
        """What isn't seen, or lies over the lines around, is no part of a name."""
        for text, name in [("Mo\u200bss\u202e", "Moss"), ("M\ua670oss", "Moss"), ("Mo\U0001d159ss", "Moss"),
                           ("\u0e01" + "\u0e49" * 9, "\u0e01"), ("\u0e01\u0e34\u0e49", "\u0e01\u0e34\u0e49"),
                           ("Zo\u0308e\u0301", "Zo\u0308e\u0301")]:
            self.assertEqual(wording.on_one_line(text), name)

    def test_faults(self) -> None:
        """A fault of a file is shown with the line that is meant."""
        with helpers.folder() as name:
            journal = os.path.join(name, "journal.txt")
            with open(journal, "w", encoding="ascii") as file:
                file.write("REGATTA 2\n1 1 SCORER ENTER A\n1 2 FINISH FINISH 1 B\n")
            said = messages.start_fault("regatta: start refused 7 at 2\n", journal, "entries.csv")
            self.assertEqual(said[0], "Line 3 of journal.txt is refused: a boat that is named isn't "
                             "entered. It is '1 2 FINISH FINISH 1 B'.")
            with open(journal, "wb") as binary:
                binary.write(b"regatta 2\r\n1 1 SCORER\rENTER A\r\n1 2 FINISH FINISH 1 B\r\n")
            again = messages.start_fault("regatta: start refused 7 at 2\n", journal, "entries.csv")
            self.assertEqual(again, said)
            for fault, text in [
                    ("regatta: rules fault 3", "series.ini: exclude has to be none"),
                    ("regatta: entries fault 4 row 9", "entries.csv, row 9: the sail is in an"),
                    ("regatta: journal fault 1 line 2", r"isn't a line of a journal: '1 1 SCORER\rENTER A'."),
                    ("regatta: start refused 16 at 2", "disagree on handicap"),
                    ("regatta: keep taken", "Another office has journal.txt"),
                    ("regatta: keep fault", "Is the disk full?"),
                    ("regatta: keep fault: no space left", "The disk is full: make space."),
                    ("regatta: keep fault: no permission", "This account may not write journal.txt"),
                    ("regatta: keep damaged after line 2", "journal.txt is damaged after line 2."),
                    ("regatta: keep damaged after line 0", "journal.txt is no journal"),
                    ("regatta: keep journal fault 1 line 2", "isn't a line of a journal: '1 1 SCORER"),
                    ("regatta: keep differs at 2", "different entries, first at 2."),
                    ("regatta: keep too long", "longer than 1,048,576 bytes"),
                    ("error: unexpected argument '--keep' found", "older than raceoffice"),
                    ("regatta: no memory", "The program says: regatta: no memory.")]:
                for note in ("", "regatta: keep cut 3 bytes after line 3\n1 3\n"):
                    said = messages.start_fault(f"{note}{fault}\n", journal, "entries.csv")
                    self.assertIn(text, said[0])

    def test_cut(self) -> None:
        """What was cut off is shown, with what it may have been."""
        said = messages.cut_note("regatta: keep cut 12 bytes after line 3\n1 3 FINI??\nregatta: keep fault\n")
        self.assertEqual(said.splitlines()[0],
                         "journal.txt ended in a torn line, as after a crash. What came "
                         "after line 3 was cut off, and is in journal.txt.cut now (12 bytes):")
        self.assertEqual(said.splitlines()[1], "   1 3 FINI??")
        self.assertEqual(messages.cut_note("regatta: keep fault\n"), "")


if __name__ == "__main__":
    unittest.main()
