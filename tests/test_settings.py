"""The settings: every key, its misspelling, and what a change leaves as it was."""
from __future__ import annotations

import contextlib
import datetime
import os
import unittest
import unittest.mock
import zoneinfo

import helpers
from raceoffice import time_zones
from raceoffice.errors import Trouble
from raceoffice.series import settings


class Clocks(unittest.TestCase):
    """By how much the clock of a zone is ahead of UTC."""

    def changes(self, zone: datetime.tzinfo | None) -> list[tuple[str, float]]:
        found = time_zones.changes_of(zone, datetime.datetime(2026, 6, 1, tzinfo=datetime.timezone.utc))
        return [(f"{datetime.datetime.fromtimestamp(since / 1000, datetime.timezone.utc):%Y-%m-%d %H:%M:%S}", ahead / 3_600_000)
                for since, ahead in found]

    def test_changes(self) -> None:
        """From the beginning of last year to the end of the next one, to the second."""
        self.assertEqual(self.changes(zoneinfo.ZoneInfo("Europe/Berlin")), [
            ("2025-01-01 00:00:00", 1.0), ("2025-03-30 01:00:00", 2.0), ("2025-10-26 01:00:00", 1.0), ("2026-03-29 01:00:00", 2.0),
            ("2026-10-25 01:00:00", 1.0), ("2027-03-28 01:00:00", 2.0), ("2027-10-31 01:00:00", 1.0)])
        self.assertEqual(self.changes(zoneinfo.ZoneInfo("Australia/Lord_Howe"))[:2],
                         [("2025-01-01 00:00:00", 11.0), ("2025-04-05 15:00:00", 10.5)])

    def test_of_this_computer(self) -> None:
        with helpers.time_zone("Asia/Kathmandu"):
            self.assertEqual(self.changes(None), [("2025-01-01 00:00:00", 5.75)])

    def test_names(self) -> None:
        """The name of this computer's zone is one of a zone with its clock. A clock without a name is like that of some zone."""
        for name in ("Europe/Berlin", ":Europe/Berlin", "/usr/share/zoneinfo/Europe/Berlin"):
            with helpers.time_zone(name):
                self.assertEqual((time_zones.of_this_computer(), time_zones.like_computer()), ("Europe/Berlin",) * 2)
        with helpers.time_zone("XYZ-1ABC,M3.5.0,M10.5.0/3"):
            self.assertEqual(time_zones.of_this_computer(), "")
            self.assertEqual(self.changes(zoneinfo.ZoneInfo(time_zones.like_computer())), self.changes(zoneinfo.ZoneInfo("Europe/Berlin")))
        with helpers.time_zone("XYZ-1:07"):
            self.assertEqual((time_zones.of_this_computer(), time_zones.like_computer()), ("", ""))

    def test_moments_in_words(self) -> None:
        """The words that a page has of a moment are taken for some computer's, whatever zone a computer may have."""
        for zone in ("Europe/Lisbon", "UTC0", "JST-9", "<->5", "A1B-3", "AAA-15", "AAA+14:30", "AAA-3:30:15", "AAA+3:30:45",
                     "AAA-23:59:59", "AAA+23:59:59", "AAA-24", "AAA+24:59:59", "AAA0:00:30", "UTC-0:0:30", "Africa/Monrovia",
                     "<+00>0", "<-00>0:00:30"):
            for year in (1970, 2026, 9998):
                for second in (0, 15, 29, 30, 45, 59):
                    moment = datetime.datetime(year, 3, 1, 10, 0, second, tzinfo=datetime.timezone.utc)
                    with self.subTest(zone=zone, moment=str(moment)), helpers.time_zone(zone):
                        words = time_zones.of_computer(moment)
                        self.assertTrue(time_zones.is_of_some_computer(words, moment), words)

    def test_number_of_no_hours(self) -> None:
        """A zone that is named by a number, and has the clock of UTC, is called UTC: as that of the Azores in summer."""
        moment = datetime.datetime(2026, 7, 18, 15, 30, tzinfo=datetime.timezone.utc)
        wanted = "Sat 18 Jul 2026, 15:30 UTC"
        self.assertEqual(time_zones.moment_text(moment.astimezone(zoneinfo.ZoneInfo("Atlantic/Azores"))), wanted)
        for zone in ("Atlantic/Azores", "<+00>0", "<-00>0", "UTC0"):
            with self.subTest(zone=zone), helpers.time_zone(zone):
                self.assertEqual(time_zones.of_computer(moment), wanted)
                self.assertTrue(time_zones.is_of_some_computer(wanted, moment))

    def test_name_in_a_file(self) -> None:
        """Without TZ it is the one to which /etc/localtime leads, or that of /etc/timezone, if this is its clock."""
        with helpers.folder() as here, helpers.time_zone("Europe/Berlin"), contextlib.ExitStack() as stack:
            local, name = os.path.join(here, "localtime"), os.path.join(here, "timezone")
            stack.enter_context(unittest.mock.patch.multiple(time_zones, LOCAL_TIME=local, ZONE_NAME=name))
            del os.environ["TZ"]
            self.assertEqual(time_zones.of_this_computer(), "")
            for written in ("Europe/Lisbon", "Europe/Berlin"):
                with open(name, "w", encoding="ascii") as file:
                    file.write(f"{written}\n")
                self.assertEqual(time_zones.of_this_computer(), written if written == "Europe/Berlin" else "")
            os.remove(name)
            os.symlink("/usr/share/zoneinfo/Europe/Berlin", local)
            self.assertEqual(time_zones.of_this_computer(), "Europe/Berlin")


class Settings(unittest.TestCase):
    def read(self, text: str, encoding: str = "utf-8") -> settings.Settings:
        with helpers.folder() as name:
            with open(os.path.join(name, settings.NAME), "w", encoding=encoding, newline="") as file:
                file.write(text)
            return settings.read(name)

    def test_defaults_and_marks(self) -> None:
        text = settings.filled_in({"title": "Cup"})
        for given in (text, text.replace("\n", "\r\n")):
            self.assertEqual(self.read(given, "utf-8-sig").options(),
                             ["--exclude", "2", "--absent", "a52"])
        self.assertEqual(self.read("[series]\ntitle = Cup\n"), self.read(text))

    def test_rules(self) -> None:
        text = settings.filled_in({"title": "Cup", "exclude": "4,8", "absent": "a53", "scp": "3",
                                 "handicap": "yes"})
        self.assertEqual(self.read(text).options(), ["--exclude", "4,8", "--absent", "a53", "--scp",
                                                     "3", "--handicap"])
        self.assertEqual(self.read(text).in_words(),
                         "Scores excluded: one from 4 races and two from 8 races. RRS A5.3. Scoring "
                         "Penalty 3 points. By corrected time.")

    def test_each_key_misspelt(self) -> None:
        known = [(section, key) for section, keys in settings.KEYS.items() for key in keys]
        for section, key in known:
            wrong = settings.problems(f"[series]\ntitle = Cup\n[{section}]\n{key}x = 1\n")
            self.assertEqual(wrong, [f"series.ini, line 4: [{section}] has no key '{key}x'. "
                                     f"Did you mean '{key}'?"])

    def test_wrong_values(self) -> None:
        for key, value in [("exclude", "1"), ("exclude", "8,4"), ("exclude", "4,"),
                           ("exclude", "2,3,4,5,6"), ("exclude", "41"), ("absent", "a5.3"),
                           ("scp", "0"), ("scp", "20%"), ("handicap", "1"), ("seats", "17"),
                           ("zone", "Europe/Lisboa"), ("zone", "../x"), ("zone", "localtime"),
                           ("zone", "posixrules"), ("zone", "Factory"), ("zone", "right/UTC"),
                           ("zone", "posix/Europe/Lisbon"), ("zone", "a/" * 3000 + "x"),
                           ("zone", "." * 300 + "/x"), ("state", "done"),
                           ("every", "0"), ("port", "70000"), ("address", "localhost"),
                           ("address", "10.0.0.256"),
                           ("title", "")]:
            text = settings.filled_in({"title": "Cup", key: value})
            wrong = settings.problems(text)
            self.assertEqual(len(wrong), 1, (key, value))
            line = int(wrong[0].split("line ")[1].split(":")[0])
            self.assertEqual(text.splitlines()[line - 1].rstrip(), f"{key} = {value}".rstrip())
            self.assertRaises(Trouble, self.read, text)

    def test_long_numbers(self) -> None:
        """Numbers of any length are wrong values, and no page of Python."""
        for key in ("seats", "every", "port", "scp", "exclude"):
            wrong = settings.problems(settings.filled_in({"title": "Cup", key: "1" * 10_000}))
            self.assertEqual(len(wrong), 1)
            self.assertIn(f"{key} is '1111", wrong[0])
        in_arabic = settings.filled_in({"title": "Cup", "exclude": "\u0664,\u0668"})
        self.assertNotEqual(settings.problems(in_arabic), [])

    def test_line_ends(self) -> None:
        """Lines end where every editor ends them; what else would end one is named, and sets nothing."""
        for sign, name in [("\x85", "U+0085"), ("\x0b", "U+000B"), ("\x0c", "U+000C"), ("\u2028", "U+2028"),
                           ("\u2029", "U+2029"), ("\x1e", "U+001E"), ("\0", "U+0000"), ("\x1b", "U+001B")]:
            text = f"[series]\ntitle = A{sign}[rules]{sign}exclude = none\n"
            self.assertEqual(settings.problems(text),
                             [f"series.ini, line 2: title has the invisible sign {name}.",
                                                       "series.ini: title is empty. It has to be a title."])
            hidden = f"[series]\n# a note{sign}title = B\ntitle = A\n"
            self.assertEqual(self.read(hidden).title, "A")
            self.assertEqual(settings.with_value(hidden, "series", "title", "C"),
                             hidden.replace("= A", "= C"))
        self.assertEqual(self.read("[series]\rtitle = A\r[rules]\r\nexclude = none\n").exclude, "none")
        self.assertEqual(self.read("[series]\ntitle = A\u00a0B\tC\n").title, "A\u00a0B\tC")

    def test_one_line(self) -> None:
        """What somebody types at a question is one value."""
        text = settings.filled_in({"title": "A\x85[rules]\nexclude = none\x1b", "copy": "/a  b"})
        self.assertEqual((self.read(text).title, self.read(text).copy), ("A [rules] exclude = none", "/a  b"))

    def test_files(self) -> None:
        with helpers.folder() as name:
            os.mkfifo(os.path.join(name, settings.NAME))
            self.assertRaisesRegex(Trouble, "no plain file", settings.read, name)
        with helpers.folder() as name:
            os.mkdir(os.path.join(name, settings.NAME))
            self.assertRaisesRegex(Trouble, "Is a directory", settings.read, name)
        self.assertRaisesRegex(Trouble, "is longer than 1,048,576 bytes", self.read, "#" * (1 << 20) + "\n")
        self.assertRaisesRegex(Trouble, "isn't UTF-8 text", self.read, "[series]\ntitle = \u00fc\n",
                               "latin-1")

    def test_twice_and_no_section(self) -> None:
        self.assertEqual(settings.problems("[series]\ntitle = A\ntitle = B\nodd\n[rule]\n"), [
            "series.ini, line 3: title is in line 2 already.", "series.ini, line 4: 'odd' has no =.",
            "series.ini, line 5: no section is called [rule]."])

    def test_one_value_changed(self) -> None:
        text = settings.filled_in({"title": "Cup"}).replace("[notice]", "[notice] \n# mine")
        changed = settings.with_value(text, "notice", "state", "final")
        self.assertEqual(changed, text.replace("state = provisional", "state = final"))
        self.assertEqual(self.read(changed).state, "final")
        short = settings.with_value("[series]\ntitle = Cup\n", "notice", "state", "final")
        self.assertEqual(self.read(short).state, "final")

    def test_changed_as_it_is_read(self) -> None:
        """However the settings are written, a change can be read, and is the only one."""
        notice = "state = provisional\nreason = \n"
        for text in (f"[ notice ]\n{notice}", f"[notice]\n[board]\n[notice]\n{notice}", "[ notice ]\n",
                     "[notice]\nreason = \n[\tnotice ]  \nstate=provisional\n", f"  [notice]\n  {notice}",
                     "[notice]\n# state = final\n", "[board]\nport = 80\n[notice]\n[notice]"):
            changed = settings.with_value(f"[series]\ntitle = Cup\n{text}", "notice", "state", "final")
            changed = settings.with_value(changed, "notice", "reason", "[rules] = x")
            found = self.read(changed)
            self.assertEqual((found.state, found.reason), ("final", "[rules] = x"), text)
            given = f"[series]\ntitle = Cup\nstate = final\nreason = [rules] = x\n{text}".splitlines()
            left = [line for line in changed.splitlines()
                    if line.partition("=")[0].strip() not in ("state", "reason")]
            self.assertLessEqual(set(left), {*given, "[notice]", ""}, text)

    def test_no_value_of_two_lines(self) -> None:
        """A value that would be read as something else isn't written."""
        for value in ("done", "final\n[rules]\nexclude = none", "final\nport = 1"):
            self.assertRaises(Trouble, settings.with_value, "[series]\ntitle = Cup\n", "notice", "state",
                              value)


if __name__ == "__main__":
    unittest.main()
