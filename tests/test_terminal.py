"""What a tool says is broken at spaces, as wide as the terminal; what is an answer to its questions."""
from __future__ import annotations

import concurrent.futures
import contextlib
import io
import itertools
import os
import time
import unicodedata
import unittest
from unittest import mock

import helpers
from raceoffice import characters
from raceoffice.terminal import question, say_if_heard, visible, wrapped


class Prompt(unittest.TestCase):
    def test_wrapped(self) -> None:
        text = "OK 8   cup: 1st in race 1; 1 finished, 0 coded"
        self.assertEqual(wrapped(text, 30), "OK 8   cup: 1st in race 1; 1\n  finished, 0 coded")
        self.assertEqual(wrapped(text, 0), text)
        self.assertEqual(wrapped(text, 80), text)
        self.assertEqual(wrapped("   Enter DEN16? Only remove takes her out. [y/N] ", 30),
                         "   Enter DEN16? Only remove\n     takes her out. [y/N] ")

    def test_command(self) -> None:
        """A command at the end is to be copied, and stays in one line."""
        self.assertEqual(wrapped('Next: raceoffice amended cup "the reason"', 40),
                         'Next:\n  raceoffice amended cup "the reason"')


class Questions(helpers.Series):
    def meant(self, *given: str | None, yes: bool, terminal: bool = True) -> tuple[bool, int]:
        """What these answers mean at last, and how often it was asked."""
        with mock.patch("raceoffice.terminal.typed",
                        side_effect=given) as typed, mock.patch("raceoffice.terminal.say"), \
                mock.patch("sys.stdin.isatty", return_value=terminal):
            return question("Go on?", yes), typed.call_count

    def test_answers(self) -> None:
        for default in (False, True):
            for given, meant in [("y", True), ("YES", True), ("n", False), ("No", False), ("", default),
                                 (None, False)]:
                self.assertEqual(self.meant(given, yes=default), (meant, 1), (given, default))
        self.assertEqual(self.meant("", yes=True, terminal=False), (False, 1))

    def test_asked_again(self) -> None:
        self.assertEqual(self.meant("ja", "412", "y", yes=False), (True, 3))
        self.assertEqual(self.meant("x", None, yes=True), (False, 2))

    def test_ctrl_c(self) -> None:
        """Ctrl-C and the end of the input at [Y/n] leave all as it is."""
        self.write(helpers.ENTRIES.replace("FRA 9", "FRA/9"), "list.csv")
        for key in ("\x03", "\x04"):
            window = self.window("new", "other")
            for line, wanted in [("Cup", "Class .*: $"), ("", "Club .*: $"), ("", r"Entry list .*: $"),
                                 ("list.csv", r"Look again\? \[Y/n.*\] $")]:
                window.say(line, wanted)
            window.press(key)
            self.assertEqual(window.rest(), ("\nno answer came. Nothing was written.\n", 1))
            self.assertFalse(os.path.exists(os.path.join(self.here, "other")))


class Several(unittest.TestCase):
    """Several threads say something at once, as those that keep the offices of several classes."""

    def test_at_once(self) -> None:
        """Each line is said once, whole, and nobody stumbles over what another says."""
        def takes_more(_: float) -> bool:
            # Another thread has its turn here.
            time.sleep(0.0005)
            return True

        texts = [[f"{name} {at} " + "." * 600 for at in range(40)] for name in range(4)]

        def say_all(own: list[str]) -> None:
            for text in own:
                say_if_heard(text)

        said = io.StringIO()
        with mock.patch("raceoffice.terminal.takes_more", takes_more), contextlib.redirect_stdout(said), \
                concurrent.futures.ThreadPoolExecutor(len(texts)) as pool:
            for done in [pool.submit(say_all, own) for own in texts]:
                done.result()
        self.assertEqual(sorted(said.getvalue().splitlines()), sorted(itertools.chain(*texts)))


# What has the property Default_Ignorable_Code_Point, but for signs of direction and the like (Cf).
IGNORED = [(0x34f, 0x34f), (0x115f, 0x1160), (0x17b4, 0x17b5), (0x180b, 0x180f), (0x2065, 0x2065), (0x3164, 0x3164),
           (0xfe00, 0xfe0f), (0xffa0, 0xffa0), (0xfff0, 0xfff8), (0x1bca0, 0x1bca3), (0x1d173, 0x1d17a), (0xe0000, 0xe0fff)]

HONEST = ["राजेश कुमार", "श्रीमती लक्ष्मीबाई", "कार्त्स्न्यों", "ज्योत्स्ना", "สมชาย น้ำเพชร", "ณัฏฐ์ เพ็ชรน้ำหนึ่ง", "ນ້ຳໃຈ ຄຳແກ້ວ", "Nguyễn Thị Hồng Ngọc",
          "Đặng Ngữ", "김철수", "황보 혜진", "뷁쀍꿻뛟", "ကျွန်ုပ် မောင်မောင်", "လျှို့ဝှက်", "སྟྲཱི་ ཧྲཱིཾ", "សុវណ្ណារាជស្ត្រី", "བསྒྲུབས་", "ꦱꦿꦶꦩꦸꦭꦾꦤꦶ",
          "சண்முகசுந்தரம்", "ശ്രീകൃഷ്ണൻ", "שָׁלוֹם", "مُحَمَّد", "👍🏽👍🏽👍🏽", "Zoë Kübler"]


class Shown(unittest.TestCase):
    def test_visible(self) -> None:
        """No sign moves the cursor or turns what is shown: it is shown by its number."""
        for text, shown in [("Wind\x1b[2K\x1b[1A", r"Wind\x1b[2K\x1b[1A"),
                            ("a\rb\x07\x7f", r"a\x0db\x07\x7f"),
                            ("\u202eGBR\u200b 7", r"\u202eGBR\u200b 7"), ("a\x85b\u2028c", r"a\x85b\u2028c"),
                            ("J\u00fcrgen\u00a0S.\n\tx", "J\u00fcrgen\u00a0S.\n\tx")]:
            self.assertEqual(visible(text), shown)

    def test_overlays(self) -> None:
        """Each sign that lies over the one before it is named to who verifies a page."""
        signs = [chr(number) for number in range(0x110000) if unicodedata.combining(chr(number)) == 1]
        self.assertEqual([sign for sign in signs if not characters.has_odd(f"A{sign}")], [])

    def test_without_width(self) -> None:
        """So is each sign that Unicode says is to be ignored where it isn't known, and each mark of another script,
        as a Duployan one after a Latin letter. A letter of its own script may have it."""
        signs = [chr(number) for first, last in IGNORED for number in range(first, last + 1)]
        signs += [sign for sign in map(chr, range(0x110000)) if unicodedata.category(sign) == "Cf" or
                  unicodedata.category(sign) == "Mn" and not unicodedata.name(sign).startswith("COMBINING")]
        self.assertIn("\U0001bc9d", signs)
        self.assertEqual([hex(ord(sign)) for sign in signs if not characters.has_odd(f"Mo{sign}ss")], [])
        for name in ("\u1780\u17d2\u179a", "\u1019\u1039\u1019", "\u0e01\u0e34\u0e49", "\u0915\u094d\u0937", "Zoe\u0308"):
            self.assertFalse(characters.has_odd(name), name)

    def test_unbroken(self) -> None:
        """A letter of more signs than any writing makes one of is named, since no line is broken in it: it would push what
        is beside it off a page."""
        marks = [sign for sign in map(chr, range(0x110000)) if unicodedata.category(sign)[0] == "M"]
        texts = [sign * 9 for sign in [*marks, *"\u0e33\u0eb3\uff9e\uff9f\U0001f3fb"]]
        texts += [sign * 9 for sign in "\u1100\ua960\u1161\ud7b0\u11a8\ud7cb\u0d4e\U00011d46"]
        texts += ["\u0915\u094d" * 7, "\u0915\u094d\u093c" * 5, "\u1780\u17d2" * 7, "\u0e33\u0903" * 5, "\u1100" * 6 + "\uac00" + "\u1161" * 4 + "\u11a8" * 4]
        for text in texts:
            self.assertTrue(characters.has_odd(f"\u0915{text}"), text)
            self.assertFalse(characters.is_piled(characters.replaced(f"\u0915{text}", lambda _: "")), text)

    def test_honest_names(self) -> None:
        """No name as people write it is: from Hindi and Sanskrit, Thai, Lao, Korean, Vietnamese, Burmese, Khmer, Tibetan,
        Javanese, Hebrew and Arabic, in whatever form of Unicode."""
        for name in HONEST:
            for form in ("NFC", "NFD"):
                self.assertFalse(characters.has_odd(unicodedata.normalize(form, name)), (name, form))

    def test_blanks(self) -> None:
        """The blanks of hieroglyphs, which not each Python knows, aren't seen in any."""
        for sign in "\U00013441\U00013442":
            self.assertTrue(characters.has_odd(f"Dragon{sign}"))
            self.assertEqual(characters.replaced(f"Dragon{sign}", lambda _: ""), "Dragon")



if __name__ == "__main__":
    unittest.main()
