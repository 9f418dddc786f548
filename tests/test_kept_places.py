"""office/places: what was kept is there again, whatever was killed, torn, forged or full."""
from __future__ import annotations

import contextlib
import fcntl
import itertools
import json
import os
import random
import resource
import shutil
import stat
import sys
import traceback
import unittest
from collections.abc import Callable
from unittest import mock

import helpers
from raceoffice import files, system
from raceoffice.errors import NotSent, Trouble
from raceoffice.office.backups import Backups
from raceoffice.office.keeping import Keeping
from raceoffice.program.journal import Race
from raceoffice.series import kept_places, taken_out
from raceoffice.series.continuity import note_now
from raceoffice.series.folder import Folder
from raceoffice.series.kept_places import History, Note, Places, Twin, command_of, history_of
from raceoffice.series.remove_boat import Removal, also_changed, take_out, without
from raceoffice.series.taken_out import digest_of, those_that_count
from raceoffice.series.twins import Twins
from raceoffice.session.dialogue import Said
from raceoffice.session.finishers import keep
from raceoffice.session.sending import note_answer
from raceoffice.session.session import Session
from raceoffice.session.undo import undo
from test_unknown_finishers import dropped, kept

# Signs and values that break readers.
ODD = [b"\0", b"\n", b"\r", b"\xff", b'"', b"\\", b"{", b"}", b"[", b"]", b",", b"\xe2\x80\xa8", b"\x1b",
       b"1" * 5000]
VALUES: list[object] = [None, True, -1, 10 ** 400, 1.5, "", "?", "\x1b[2K", "\ud800", [], [1], ["A" * 99], {},
                        "x" * 5000, [[]] * 9]

# Entries 8 to 10 are those of a boat that is taken out. ?1 is kept behind GBR 101, who is struck and finishes last.
ENTRIES = [*(f"ENTER GBR{number}" for number in (101, 7, 1, 2, 3, 4, 5)),
           "ENTER USA4", "FINISH 2 USA4", "STRIKE 2 USA4", "FINISH 1 GBR101", "FINISH 1 GBR7", "STRIKE 1 GBR101", "FINISH 1 GBR101"]
# Here the entries of such a boat are the last, so that the same lines make the same journal. ?1 is kept behind her.
HERS = ["ENTER USA4", "FINISH 1 USA4"]
AT_THE_END = ["ENTER GBR101", "ENTER GBR7", "FINISH 1 GBR101", *HERS]


class Removals(helpers.Series):
    """A series in which a place is kept, and a boat is taken out."""

    def setUp(self) -> None:
        super().setUp()
        self.folder = Folder(os.path.join(self.here, "cup"))
        self.folder.make_private()
        self.places = Places(self.folder, "Ann")

    def put(self, entries: list[str]) -> None:
        lines = [f"- {at} SCORER {line}\n" for at, line in enumerate(entries, 1)]
        self.write("REGATTA 2\n" + "".join(lines), "cup", "journal.txt")

    def ahead(self) -> list[object]:
        """The boats ahead of each place, by the files."""
        return [unread.ahead for unread in history_of(self.folder).waiting.all]

    def noted(self) -> list[str]:
        """What is noted of the removals that count, by the files."""
        journal = [command_of(line) for line in self.folder.kept()]
        return [out.what for _, out in those_that_count(self.places.read().removals, journal)]

    def removal(self, sail: str) -> Removal:
        held = self.folder.parts()[0]
        about = {at: line for at, line in enumerate(self.folder.kept(), 1) if line.endswith(f" {sail}")}
        return Removal(sail, held, about, without(held, set(about)), len(self.folder.kept()))

    def take_out(self, sail: str = "USA4") -> None:
        take_out(self.folder, self.removal(sail))

    def killed(self, stop: int) -> bool:
        """Takes her out in a process that is killed before a step of its own; whether it was."""
        steps = itertools.count(1)

        def counted(do: Callable[..., object]) -> Callable[..., object]:
            def done(*given: object) -> object:
                if next(steps) == stop:
                    os._exit(9)
                return do(*given)
            return done
        child = os.fork()
        if not child:
            with contextlib.ExitStack() as stack:
                for name in ("write", "fsync", "replace", "open"):
                    stack.enter_context(mock.patch.object(os, name, counted(getattr(os, name))))
                self.take_out()
                os._exit(0)
            os._exit(1)
        return os.waitstatus_to_exitcode(os.waitpid(child, 0)[1]) == 9


class TakenOut(Removals):
    """A boat is taken out of a journal while a place is kept, which stays the first of its race."""

    def setUp(self) -> None:
        super().setUp()
        self.put(ENTRIES)
        self.assertEqual(self.places.keep(Race(1, [["GBR101"]]), "", 11), "?1")
        self.assertEqual(self.ahead(), [set()])

    def test_place_stays(self) -> None:
        self.take_out()
        self.assertEqual(len(self.folder.kept()), len(ENTRIES) - 3)
        self.assertEqual((self.ahead(), history_of(self.folder).fault), ([set()], ""))
        # Whoever drops her place and keeps it again has it by its new number.
        self.places.drop(history_of(self.folder).waiting.all, "undone")
        self.places.keep_again(1, "?1")
        self.assertEqual(self.ahead(), [set()])
        self.assertEqual(json.loads(self.places.lines()[-1])["entries"], 8)

    def test_kills(self) -> None:
        """After a kill before any step she is in or out, and the place is as it was; also after the next opening, and
        once she is taken out at last."""
        before, places = self.text("cup", "journal.txt"), self.places.data()
        kept: set[int] = set()
        for stop in itertools.count(1):
            self.write(before, "cup", "journal.txt")
            self.write(places.decode(), "cup", "office", "places")
            was_killed = self.killed(stop)
            kept.add(len(self.folder.kept()))
            self.assertEqual(self.ahead(), [set()], stop)
            Backups(self.folder).note_removals()
            self.assertEqual(self.ahead(), [set()], stop)
            if len(self.folder.kept()) == len(ENTRIES):
                self.assertEqual(self.places.read().waiting.all[0].ahead, {"GBR101"})
                self.take_out()
                self.assertEqual(self.ahead(), [set()], stop)
            if not was_killed:
                break
        self.assertEqual(kept, {len(ENTRIES), len(ENTRIES) - 3})

    def test_put_back(self) -> None:
        """Somebody puts the journal with her back, and takes another boat out."""
        before = self.text("cup", "journal.txt")
        self.take_out()
        self.write(before, "cup", "journal.txt")
        self.assertEqual(self.ahead(), [set()])
        Backups(self.folder).note_removals()
        self.write(before.replace("USA4", "GBR4"), "cup", "journal.txt")
        self.assertEqual(self.ahead(), [set()])

    def test_lines_out_of_the_file(self) -> None:
        """Somebody takes the note of the removal out of the file of an open office."""
        self.take_out()
        lines = self.places.lines()
        for at in range(len(lines)):
            for left in ([*lines[:at], *lines[at + 1:]], lines[:at]):
                self.write(b"".join(left).decode(), "cup", "office", "places")
                self.places.put_in_again(lines)
                self.assertEqual(self.ahead(), [set()], at)
                self.assertEqual(self.noted(), ["out"], at)

    def test_not_noted(self) -> None:
        """Nothing is taken out if that can't be noted beside the places."""
        with mock.patch.object(Places, "add_lines", side_effect=OSError(28, "No space left on device")):
            with self.assertRaisesRegex(Trouble, "can't be written"):
                self.take_out()
        self.assertEqual(len(self.folder.kept()), len(ENTRIES))


class EnteredAgain(Removals):
    """A boat was taken out, comes after all, and finishes behind the place."""

    def setUp(self) -> None:
        super().setUp()
        self.put(AT_THE_END)
        self.folder.log("", "", "", "closed", note_now(self.folder, self.folder.parts()[0]))
        self.assertEqual(self.places.keep(Race(1, [["GBR101"], ["USA4"]]), "", 5), "?1")

    def begin(self) -> None:
        """What an opening does with the notes."""
        Backups(self.folder).note_removals()
        self.note("opened")

    def note(self, what: str) -> None:
        self.folder.log("", "", "", what, note_now(self.folder, self.folder.parts()[0]))

    def test_same_lines(self) -> None:
        """After a kill at each step of the removal, and after further openings, closed before or not."""
        names = (["journal.txt"], ["office", "places"], ["office.log"])
        texts, is_killed, kept = [self.text("cup", *name) for name in names], True, set[int]()
        for stop in itertools.takewhile(lambda _: is_killed, itertools.count(1)):
            self.write(texts[0], "cup", *names[0])
            self.write(texts[1], "cup", *names[1])
            self.write(texts[2], "cup", *names[2])
            is_killed = self.killed(stop)
            self.begin()
            kept.add(len(self.folder.kept()))
            self.assertEqual(self.ahead(), [{"GBR101", "USA4"}], stop)
            if len(self.folder.kept()) < len(AT_THE_END):
                self.check_typed_again(stop)
        self.assertEqual(kept, {3, len(AT_THE_END)})

    def check_typed_again(self, stop: int) -> None:
        self.put([*AT_THE_END[:3], HERS[0]])
        self.places.keep_ahead(history_of(self.folder).waiting.all[0], "USA4", 4)
        self.put(AT_THE_END)
        for closes in (False, True, True):
            self.assertEqual((self.ahead(), self.noted()), ([{"GBR101"}], ["out"]), stop)
            if closes:
                self.note("closed")
            self.begin()

    def test_put_back(self) -> None:
        """Somebody puts the journal with her back while the office is closed: the next opening notes it."""
        before = self.text("cup", "journal.txt")
        self.take_out()
        for more in ("", "- 4 SCORER FINISH 1 GBR7\n- 5 SCORER STRIKE 1 GBR7\n- 6 SCORER ENTER GBR5\n"):
            self.write(self.text("cup", "journal.txt") + more, "cup", "journal.txt")
            self.note("closed")
            self.write(before, "cup", "journal.txt")
            self.begin()
            self.assertEqual((self.ahead(), self.noted()), ([{"GBR101", "USA4"}], []))
            self.take_out()

    def test_another_after_her(self) -> None:
        """Her same lines are found by her old numbers, once a boat before her is taken out."""
        self.take_out()
        self.begin()
        self.put([*AT_THE_END[:3], "FINISH 2 GBR101", *HERS])
        self.places.keep_ahead(history_of(self.folder).waiting.all[0], "USA4", 5)
        self.take_out("GBR7")
        self.assertEqual([command_of(line) for line in self.folder.kept()[3:]], HERS)
        self.assertEqual((self.ahead(), self.noted()), ([{"GBR101"}], ["out", "out"]))


class SaidToBeHer(Removals):
    """A place is kept behind GBR 101, and said to be a boat that is taken out then: the place is kept again."""

    def setUp(self) -> None:
        super().setUp()
        self.put(["ENTER GBR101", "FINISH 1 GBR101", HERS[0], HERS[1], "FINISH 1 GBR101"])
        self.make("fleet", entries="Sail\nNED 80\n")
        self.fleet = Folder(os.path.join(self.here, "fleet"))
        self.fleet.make_private()
        self.places.keep(Race(1, [["GBR101"]]), "4", 2, Twin("0123456789abcdef", ("../fleet",)))
        fleet = Places(self.fleet, "Ann")
        fleet.keep(Race(1), "4", 0, Twin("0123456789abcdef", ("../cup",)))
        self.resolve()
        fleet.drop_known(fleet.read().kept[1, "4?"], "she is known in cup")

    def resolve(self, entry: int = 4) -> None:
        waiting = self.places.read().waiting.all[0]
        self.places.note_sent(waiting, HERS[1], entry - 1, None)
        self.places.note_answer(waiting, HERS[1], f"OK {entry}")

    def marks(self) -> tuple[list[str], list[str]]:
        cup, fleet = (history_of(folder).waiting.marks(1) for folder in (self.folder, self.fleet))
        return cup, fleet

    def test_kept_again(self) -> None:
        self.assertEqual(self.marks(), ([], []))
        # Before she is taken out it is said; of another boat there is nothing to say.
        self.assertEqual([also_changed(self.folder, self.removal(sail)) for sail in ("USA4", "GBR101")],
                         ["Kept without a sail again, since she was said to be there: 4? in race 1.", ""])
        self.take_out()
        self.assertEqual((self.marks(), self.ahead()), ((["4?"], ["4?"]), [{"GBR101"}]))
        # She is entered again, and finishes by a line that isn't for the place.
        before = [command_of(line) for line in self.folder.kept()]
        self.put([*before, *HERS])
        self.assertEqual(self.marks(), (["4?"], ["4?"]))
        # Afterwards somebody says so again.
        self.put([*before, HERS[0]])
        self.resolve(len(before) + 2)
        self.put([*before, *HERS])
        self.assertEqual(self.marks()[0], [])

    def test_kills(self) -> None:
        """After a kill before any step either the boat is in and the place is hers, or it is kept again."""
        names = [("cup", "journal.txt"), ("cup", "office", "places"), ("fleet", "office", "places")]
        texts, is_killed, kept = [self.text(*name) for name in names], True, set[int]()
        for stop in itertools.takewhile(lambda _: is_killed, itertools.count(1)):
            for text, name in zip(texts, names):
                self.write(text, *name)
            is_killed = self.killed(stop)
            Backups(self.folder).note_removals()
            entries = len(self.folder.kept())
            kept.add(entries)
            Twins(self.folder).follow(history_of(self.folder), "Bea")
            again = [] if entries == 5 else ["4?"]
            self.assertEqual(self.marks(), (again, again), stop)
        self.assertEqual(kept, {3, 5})

    def test_another_boat(self) -> None:
        """A boat that is taken out earlier in the journal leaves the place to her."""
        self.put(["ENTER GBR101", "ENTER GBR7", HERS[0], HERS[1], "FINISH 1 GBR101"])
        self.take_out("GBR7")
        self.assertEqual(self.marks(), ([], []))
        self.take_out()
        self.assertEqual(self.marks(), (["4?"], ["4?"]))


class OlderJournal(Removals):
    """A place is kept behind GBR 101, and said to be GBR 7, who was struck before; then journal.txt is another."""
    SAILED = ["ENTER GBR101", "ENTER GBR7", "FINISH 1 GBR7", "STRIKE 1 GBR7", "FINISH 1 GBR101", "FINISH 1 GBR7"]

    def setUp(self) -> None:
        super().setUp()
        self.put(self.SAILED[:5])
        self.places.keep(Race(1, [["GBR101"]]), "", 5)
        waiting = self.places.read().waiting.all[0]
        self.places.note_sent(waiting, self.SAILED[5], 5, None)
        self.places.note_answer(waiting, self.SAILED[5], "OK 6")

    def opened(self, *entries: str) -> list[str]:
        """The places that are kept once an office was opened with these entries."""
        self.put([*entries])
        Backups(self.folder).keep_lost()
        return history_of(self.folder).waiting.marks(1)

    def test_without_her_line(self) -> None:
        """She isn't in the order: the place is kept where it was."""
        self.assertEqual(self.opened(*self.SAILED[:5], "FINISH 2 GBR7"), ["?1"])
        self.assertEqual(self.ahead(), [{"GBR101"}])

    def test_held_meanwhile(self) -> None:
        """A window that was stopped holds the file at the opening: the place is kept again once it is free, though others
        have finished since."""
        keeping = Keeping(self.folder, print, lambda: False)
        with open(self.places.path, "rb") as file, mock.patch.object(kept_places, "LOCK", 0.0), \
                mock.patch.object(keeping, "save"), mock.patch.object(keeping.service, "link", create=True):
            self.put(self.SAILED[:5])
            fcntl.flock(file, fcntl.LOCK_EX)
            keeping.begin()
            keeping.look()
            self.assertEqual(history_of(self.folder).waiting.marks(1), [])
            self.put([*self.SAILED[:5], "ENTER GBR5", "FINISH 1 GBR5"])
            fcntl.flock(file, fcntl.LOCK_UN)
            keeping.look()
        self.assertEqual((history_of(self.folder).waiting.marks(1), self.ahead()), (["?1"], [{"GBR101"}]))
        size = os.path.getsize(self.places.path)
        with mock.patch.object(keeping, "save"), mock.patch.object(keeping.service, "link", create=True):
            keeping.look()
        self.assertEqual(os.path.getsize(self.places.path), size)

    def test_put_back_again(self) -> None:
        """The journal that has her line comes back, or it is typed again after fewer others: she is in the place."""
        for journal in (self.SAILED, [*self.SAILED[:4], self.SAILED[5]]):
            self.assertEqual(self.opened(*self.SAILED[:4]), ["?1"])
            self.assertEqual(self.opened(*journal), [])

    def test_in_one_piece(self) -> None:
        """An office that is killed meanwhile has kept the place again with her lost line, or not at all."""
        with mock.patch.object(kept_places, "write_all", wraps=files.write_all) as written:
            self.assertEqual(self.opened(*self.SAILED[:5]), ["?1"])
        self.assertEqual(written.call_count, 1)

    def test_as_it_was(self) -> None:
        """The journal has the line, also if she was struck or got a code since."""
        self.assertEqual(self.opened(*self.SAILED), [])
        for more in ("STRIKE 1 GBR7", "MARK 1 GBR7 DNF"):
            self.assertEqual(self.opened(*self.SAILED, more), [])

    def test_in_the_order(self) -> None:
        """Somebody has taken lines out by hand, so that hers has another number, or has put her elsewhere."""
        self.assertEqual(self.opened(*self.SAILED[:2], *self.SAILED[4:]), [])
        self.assertEqual(self.opened(*self.SAILED[:5], "BEFORE 1 GBR7 GBR101"), [])

    def test_empty(self) -> None:
        """A journal without entries says nothing of her."""
        self.assertEqual(self.opened(), [])


class Files(helpers.Series):
    def setUp(self) -> None:
        super().setUp()
        os.mkdir(os.path.join(self.here, "cup", "office"))
        self.path = os.path.join(self.here, "cup", "office", "places")
        self.folder = Folder(os.path.join(self.here, "cup"))
        self.places = Places(self.folder, "Ann")

    def data(self) -> bytes:
        with open(self.path, "rb") as file:
            return file.read()

    def put(self, data: bytes) -> None:
        with open(self.path, "wb") as file:
            file.write(data)

    def marks(self, race: int = 1) -> list[str]:
        return self.places.read().waiting.marks(race)

    def keep(self, typed: str = "") -> str:
        return self.places.keep(Race(1, [["GBR7"], ["NED12", "FRA9"]]), typed, 12)

    def test_odd_journal(self) -> None:
        """A line of the journal that has no command keeps nobody from knowing who is kept."""
        self.keep()
        with open(self.folder.journal, "wb") as file:
            file.write(b"REGATTA 2\n1 1 SCORER ENTER GBR7\n1 2\n")
        self.assertEqual(kept_places.kept_in_words(self.folder), "Kept without a sail: ?1 in race 1.")

    def test_damaged(self) -> None:
        """Who asks before an office closes is told of a line that can't be read: a place may be in it."""
        beware = ("Beware: line 1 of office/places can't be read, and is left out. A finisher without a sail "
                  "may be missing.")
        self.put(b"x\n")
        self.assertEqual(kept_places.kept_in_words(self.folder), beware)
        self.keep()
        self.assertEqual(kept_places.kept_in_words(self.folder),
                         f"Kept without a sail: ?1 in race 1. {beware}")

    def test_form(self) -> None:
        """A line has all that is known of a place, and the file is this account's alone."""
        before = os.umask(0)
        self.addCleanup(os.umask, before)
        self.assertEqual((self.keep(), self.keep("101")), ("?1", "101?"))
        os.chmod(self.path, 0o666)
        self.places.drop(self.places.read().waiting.of(1)[:1], "none")
        first, second, third = map(json.loads, self.data().splitlines())
        for line in (first, second, third):
            self.assertRegex(line.pop("time"), r"^\d{4}-\d\d-\d\dT\d\d:\d\d:\d\d[+-]\d{4}$")
        of_all = {"race": 1, "by": "Ann", "window": os.getpid()}
        self.assertEqual(first, of_all | {"what": "kept", "place": "?1", "typed": "", "entries": 12,
                                          "behind": ["GBR7", "NED12", "FRA9"]})
        self.assertEqual(second, first | {"place": "101?", "typed": "101"})
        self.assertEqual(third, of_all | {"what": "dropped", "place": "?1", "why": "none"})
        self.assertEqual(stat.S_IMODE(os.stat(self.path).st_mode), 0o600)

    def test_torn(self) -> None:
        """A line that was torn at any byte hides no other, and is no place before it is whole."""
        self.keep()
        whole = self.data()
        self.keep("101")
        second = self.data()[len(whole):]
        for cut in range(len(second)):
            self.put(whole + second[:cut])
            is_whole = cut == len(second) - 1
            self.assertEqual(self.marks(), ["?1", "101?"] if is_whole else ["?1"], cut)
            self.assertEqual(self.places.read().faults, [])
            self.keep("33")
            self.assertEqual(self.marks(), ["?1", "101?", "33?"] if is_whole else ["?1", "33?"], cut)
            self.assertEqual(self.places.read().faults, [])

    def test_bad_lines(self) -> None:
        """A line that can't be read is left out, and said; it hides no other."""
        self.keep()
        self.keep()
        good = self.data().splitlines(keepends=True)
        for bad in [b"x\n", b"{}\n", b"[]\n", b"7\n", b"\xff\n", b"\0\n", b"[" * 200_000 + b"\n", b"null\n",
                    b'{"what": []}\n', b'{"what": "kept"}\n', b"1" * 5000 + b"\n",
                    kept("?1", race=41).text(), kept("?1", race=0).text(), kept("?x").text(),
                    kept("x").text(),
                    kept("?1").text().replace(b'"?1"', b"1"), kept("?1").text().replace(b"[]", b'[1]'),
                    kept("?1").text().replace(b"[]", b'["a b"]'), kept("?1").text().replace(b": 0", b": -1"),
                    Note("resolved", 1, "?1", line="FINISH 2 A", entry=1).text(),
                    Note("resolved", 1, "?1", line="STRIKE 1 A", entry=1).text(),
                    Note("sent", 1, "?1", line="FINISH 1").text()]:
            self.put(good[0] + bad + good[1])
            found = self.places.read()
            self.assertEqual((found.waiting.marks(1), found.faults), (["?1", "?2"], [2]), bad[:60])
            self.assertEqual(self.keep(), "?3", bad[:60])

    def test_fuzz(self) -> None:
        """Whatever one line has, nothing stops, and the places of the other lines stay."""
        dice = random.Random(63)
        good = [kept("?1", "AB"), kept("101?", "AB"), Note("sent", 1, "101?", line="FINISH 1 A", entries=3),
                kept("?2", "ABC"), dropped("101?"), kept("?3", "ABC"),
                Note("kept", 1, "?4", finisher="0123456789abcdef", also=("../fleet",)),
                Note("leaving", 1, "101?", line="STRIKE 1 A", entries=3)]
        journal = ["FINISH 1 A"] * 5
        out = taken_out.TakenOut("removed", "USA4", ("2 ENTER USA4", "4 FINISH 1 USA4"), 5, digest_of(journal), "Sue", 7,
                                 "12:00")
        lines = [*(note.text() for note in good), out.text(), out.noted("out").text()]
        for _ in range(1200):
            at = dice.randrange(len(lines))
            mixed = [*lines[:at], self.spoilt(lines[at], dice), *lines[at + 1:]]
            self.put(b"".join(mixed))
            history = self.places.read(journal)
            marks = {unread.mark for unread in history.waiting.all if unread.race == 1}
            others = {note.place for note in good[:at] + good[at + 1:] if note.place != "101?"}
            self.assertLessEqual(others, marks, mixed[at])
            for key in history.ended:
                history.end(*key)
        self.keep()

    def spoilt(self, line: bytes, dice: random.Random) -> bytes:
        """A line in which something is changed. It still ends where it ended, and no other place's name
        is put into it."""
        if dice.random() < 0.5:
            values = json.loads(line)
            values[dice.choice(list(values))] = dice.choice(VALUES)
            return json.dumps(values).encode() + b"\n"
        data = bytearray(line[:-1])
        for _ in range(dice.randint(1, 4)):
            at = dice.randrange(len(data))
            data[at:at + dice.randint(0, 3)] = dice.choice([*ODD, bytes([dice.randrange(256)])])
        return bytes(data) + b"\n"

    def test_not_a_file(self) -> None:
        """A link is followed by neither reader nor writer, and nothing but a plain file is opened."""
        other = os.path.join(self.here, "other")
        self.write("precious", other)
        makes: list[tuple[Callable[[], object], Callable[[str], object]]] = [
            (lambda: os.symlink(other, self.path), os.remove),
            (lambda: os.symlink("/nowhere", self.path), os.remove),
            (lambda: os.mkfifo(self.path), os.remove), (lambda: os.mkdir(self.path), os.rmdir)]
        for make, clear in makes:
            make()
            self.assertRaisesRegex(Trouble, "office/places can't be read", self.places.read)
            self.assertRaisesRegex(NotSent, "can't be written: .*Write her down on paper", self.keep)
            clear(self.path)
        self.assertEqual(self.text(other), "precious")
        with open(self.path, "wb") as file:
            file.truncate(kept_places.LARGEST + 1)
        self.assertRaisesRegex(Trouble, "has more than 4,194,304 bytes", self.places.read)

    def test_largest(self) -> None:
        """A file never grows beyond what is read of one, so that no place is lost by another."""
        self.keep()
        before = self.data()
        self.put(before + b" " * (kept_places.LARGEST - len(before) - 300) + b"\n")
        self.assertEqual(self.keep(), "?2")
        self.assertRaisesRegex(NotSent, "would have more than .*Write her down on paper", self.keep)
        self.assertEqual(self.marks(), ["?1", "?2"])

    def test_gone(self) -> None:
        """A place that isn't noted any more, since somebody has removed the file, isn't kept again."""
        self.keep()
        os.remove(self.path)
        self.assertRaisesRegex(NotSent, r"\?1 of race 1 isn't noted any more", self.places.keep_again, 1,
                               "?1")

    def test_unreadable_just_then(self) -> None:
        """Who was told that her place is kept doesn't keep it twice, though the file can't be read just
        then."""
        said: list[Said] = []
        session = Session(self.folder, "FINISH", "Ann", said.append, bool)
        with mock.patch.object(session.places, "data", side_effect=Trouble("it can't be read")):
            self.assertTrue(keep(session, Race(1)))
        self.assertIn("?1 keeps her place", said[-1].text)
        self.assertRaisesRegex(NotSent, "office/places can't be read", undo, session)
        self.assertEqual(self.marks(), ["?1"])

    def test_full(self) -> None:
        """On a full disk nothing is kept, and it is said; what was kept stays as it was."""
        self.keep()
        before = self.data()
        limits = resource.getrlimit(resource.RLIMIT_FSIZE)
        for room in (0, 1, 100):
            resource.setrlimit(resource.RLIMIT_FSIZE, (len(before) + room, limits[1]))
            try:
                self.assertRaisesRegex(NotSent, "can't be written", self.keep)
            finally:
                resource.setrlimit(resource.RLIMIT_FSIZE, limits)
            self.assertEqual(self.data(), before)
        self.assertEqual(self.keep(), "?2")

    def test_lock(self) -> None:
        """A window that holds the file holds up others for a moment only, and hides nothing."""
        self.keep()
        with open(self.path, "rb") as file, mock.patch.object(kept_places, "LOCK", 0.1):
            fcntl.flock(file, fcntl.LOCK_EX)
            self.assertEqual(self.marks(), ["?1"])
            self.assertRaisesRegex(NotSent, "another window is writing it", self.keep)

    def test_replaced(self) -> None:
        """A file that is replaced while a window waits for its lock isn't added to: nobody would read it."""
        take_lock = system.take_lock
        ways: list[tuple[Callable[[], object], list[str]]] = [
            (lambda: os.replace(self.copy(), self.path), ["?1", "?2"]),
            (lambda: os.remove(self.path), ["?1"])]
        for replace, marks in ways:
            self.put(b"")
            self.keep()
            left = [replace]

            def late(file: int, patience: float) -> bool:
                """Takes the lock once the file has been replaced."""
                if left:
                    left.pop()()
                return take_lock(file, patience)

            with mock.patch.object(system, "take_lock", late):
                self.keep()
            self.assertEqual(self.marks(), marks)

    def test_replaced_always(self) -> None:
        """A file that is replaced all the time holds nobody up for ever."""
        def always(_file: int, _patience: float) -> bool:
            os.replace(self.copy(), self.path)
            return True

        self.keep()
        with mock.patch.object(system, "take_lock", always):
            self.assertRaisesRegex(NotSent, "it is being replaced", self.keep)
        self.assertEqual(self.marks(), ["?1"])

    def copy(self) -> str:
        """A copy of the file, beside it."""
        shutil.copy(self.path, f"{self.path}.copy")
        return f"{self.path}.copy"

    def test_line_taken_out(self) -> None:
        """If any line is taken out while the office is open, each place is afterwards as it was: one that has
        ended isn't open again."""
        self.keep()
        unread = self.places.read().waiting.all[0]
        self.places.note_sent(unread, "FINISH 1 A", 12, None)
        self.places.note_answer(unread, "FINISH 1 A", "OK 13 1 1.0")
        self.keep()
        noted = self.places.lines()
        for at in range(len(noted)):
            for more in ([], ["dropped"]):
                self.put(b"".join(noted[:at] + noted[at + 1:]))
                if more and at != 3:
                    self.places.drop(self.places.read().waiting.of(1)[-1:], "none")
                self.assertEqual(self.places.put_in_again(noted), (1, ""))
                self.assertEqual(self.marks(), [] if more and at != 3 else ["?2"], at)
                self.assertEqual(self.places.read().boat(1, "?1"), "A")

    def test_side_by_side(self) -> None:
        """Windows that keep places at once give each a mark of her own."""
        # Each waits for all the others, however slow the machine is.
        with mock.patch.object(kept_places, "LOCK", helpers.PATIENCE):
            children = [forked(lambda: [self.keep() for _ in range(20)]) for _ in range(4)]
        for child in children:
            self.assertEqual(os.waitpid(child, 0)[1], 0)
        self.assertEqual(self.marks(), [f"?{at}" for at in range(1, 81)])

    def test_line_without_an_answer(self) -> None:
        """What was sent is looked for in the journal from its own time on. A refusal is only of her own
        line."""
        sent = Note("sent", 1, "?1", "Ann", 7, line="FINISH 1 X", entries=2)
        notes = [kept("?1"), sent, Note("refused", 1, "?1", "Eve", 8, line="FINISH 1 X", answer="NO 8")]
        data = b"".join(note.text() for note in notes)
        for journal, entry in [(["FINISH 1 X", "STRIKE 1 X"], 0), (["ENTER X", "ENTER Y", "FINISH 1 X"], 3),
                               (["ENTER X", "ENTER Y", "FINISH 1 Y", "FINISH 2 X", "FINISH 1 XY"], 0)]:
            history = History.read(data, journal)
            self.assertEqual([note.entry for note in history.found], [entry] if entry else [])
            self.assertEqual(history.waiting.marks(1), [] if entry else ["?1"])
        data += Note("refused", 1, "?1", "Ann", 7, line="FINISH 1 X", answer="NO 8").text()
        self.assertEqual(History.read(data, ["A", "B", "FINISH 1 X"]).waiting.marks(1), ["?1"])

    def test_somebody_else(self) -> None:
        """Two windows don't send two boats for one place."""
        self.keep()
        unread = self.places.read().waiting.all[0]
        self.places.note_sent(unread, "FINISH 1 A", 12, None)
        other = Places(self.folder, "Eve")
        self.assertRaisesRegex(NotSent, r"somebody else types for \?1 just now", other.note_sent, unread,
                               "FINISH 1 B", 12, None)
        self.places.note_answer(unread, "FINISH 1 A", "OK 13 1 1.0")
        self.assertRaises(NotSent, other.note_sent, unread, "FINISH 1 B", 13, other.read().open_line(unread))
        self.places.note_answer(unread, "FINISH 1 A", "OK 13 1 1.0")
        self.places.note_found(["FINISH 1 A"] * 20)
        self.assertEqual(self.data().count(b'"resolved"'), 1)

    def test_stopped_before_it_sent(self) -> None:
        """A window that was stopped after its note learns that somebody else's boat has the place."""
        self.keep()
        unread, said = self.places.read().waiting.all[0], list[str]()
        other = Places(self.folder, "Eve")
        self.places.note_sent(unread, "FINISH 1 A", 12, None)
        other.note_sent(unread, "FINISH 1 B", 12, other.read().open_line(unread))
        other.note_answer(unread, "FINISH 1 B", "OK 13 1 1.0")
        session = Session(self.folder, "FINISH", "Ann", lambda told: said.append(told.text), bool)
        note_answer(session, unread, "FINISH 1 A", "OK 14 1 1.0")
        self.assertRegex(said[0], r"Beware: \?1 of race 1 is B, by Eve at \d\d:\d\d: entry 13, FINISH 1 B\. "
                                  r"Two boats have her place now")
        note_answer(session, unread, "FINISH 1 B", "OK 13 1 1.0")
        self.assertEqual(len(said), 1)


def forked(do: Callable[[], object]) -> int:
    """The number of a child that does something, and ends."""
    if child := os.fork():
        return child
    try:
        do()
        os._exit(0)
    except BaseException:
        traceback.print_exc(file=sys.__stderr__)
    finally:
        os._exit(1)


if __name__ == "__main__":
    unittest.main()
