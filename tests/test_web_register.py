"""The register of taps by itself: damaged files, and entries that have other numbers since a boat was taken out."""
from __future__ import annotations

import json
import os
import sys
import tempfile
import threading
import unittest
from collections.abc import Callable
from unittest import mock

from raceoffice.errors import Trouble
from raceoffice.series.kept_places import History
from raceoffice.web import taps
from raceoffice.web.gate import Gate
from raceoffice.web.race_start import starts_given
from raceoffice.web.room import held_alone, outcome_of
from raceoffice.web.row_changes import entries_of_starts, taps_since
from raceoffice.web.taps import Register, Sent, last_numbers, number_of
from web_devices import new_id


class Damaged(unittest.TestCase):
    """Files of the web that a disk or somebody has damaged."""

    def setUp(self) -> None:
        # In memory, if there is such a folder: each try is synced.
        holder = tempfile.TemporaryDirectory(dir="/dev/shm" if os.path.isdir("/dev/shm") else None)
        self.addCleanup(holder.cleanup)
        self.here = holder.name
        self.path = os.path.join(self.here, "web.taps")

    def test_a_place_that_another_has_now(self) -> None:
        """An older office/places was put back, and the next finisher got the name of a place that it lacks: the place is that
        of who kept it last."""
        register = Register(self.path)
        self.addCleanup(register.close)
        for name, race, mark in ("Ann", 1, "?1"), ("Ann", 1, "?2"), ("Bob", 1, "?2"), ("Ann", 2, "?2"):
            id = new_id()
            register.begin(Sent(id, "FINISH", f"? {race}", 6, name, 2, 9))
            register.end(id, "NOTED", mark)
        self.assertEqual([register.places_by(name, 1) for name in ("Ann", "Bob")], [{"?1"}, {"?2"}])

    def test_refused(self) -> None:
        """What a tap costs doesn't grow by all that was ever refused, now or before the register was opened again; what has
        changed a sheet all the same counts."""
        register, wanted = Register(self.path), list[str]()
        for at, answer in enumerate(("OK 1", "NO 8", "NO 9", "NOTED", "NO")):
            wanted.append(new_id())
            register.begin(Sent(wanted[-1], "FINISH", "FINISH 1 GBR7", at, "Ann", 1, 9, made={"finish": "1"} if at == 2 else {}))
            self.assertEqual(register.all()[-1].id, wanted[-1])
            register.end(wanted[-1], answer)
        register.refuse(Sent(new_id(), "FINISH", "FINISH 1 GBR7", 6, "Bob", 1))
        for again in range(2):
            self.assertEqual([sent.id for sent in register.all()], [wanted[at] for at in (0, 2, 3)])
            self.assertEqual([sent.id for sent in register.all_reversed()], [wanted[at] for at in (3, 2, 0)])
            self.assertEqual(register.who_tapped_too(register.sent[wanted[0]]), "Bob")
            self.assertFalse(register.has_place(Sent(new_id(), "FINISH", "? 1", 7, "Ann", 1, 9, "NO", "?1"), History()))
            register.close()
            register = Register(self.path)
        register.close()

    def test_each_bit(self) -> None:
        """Whichever bit of the register rots, the others of its taps are known, and nothing goes wrong."""
        journal, ids = ["1 1 SCORER ENTER GBR7", "1 2 FINISH FINISH 1 GBR7"], [new_id(), new_id()]
        register = Register(self.path)
        register.begin(Sent(ids[0], "FINISH", "FINISH 1 GBR7", 5, "Ann", 1, 9, numbers={"1": 1}))
        # After a crash its entry is looked for, and noted.
        self.assertEqual(register.found(register.sent[ids[0]], journal), 2)
        register.end(ids[0], "OK 2 1= 0.0", "", [["OK 2", "answer", "finished", {"entry": 2}]])
        register.begin(Sent(ids[1], "FINISH", "? 1", 6, "Ann", 2, 9))
        register.end(ids[1], "NOTED", "?1")
        register.close()
        with open(self.path, "rb") as file:
            data = file.read()
        for bit in range(8 * len(data)):
            changed = bytearray(data)
            changed[bit // 8] ^= 1 << bit % 8
            with open(self.path, "wb") as file:
                file.write(changed)
            with self.subTest(bit=bit, byte=chr(changed[bit // 8])):
                register = Register(self.path)
                register.moments(journal)
                register.marks_of(1, 9)
                for sent in register.sent.values():
                    register.found(sent, journal)
                    if sent.answer:
                        outcome_of(sent, True)
                self.assertTrue(set(ids) & register.sent.keys())
                register.close()

    def test_endless(self) -> None:
        """A register that no devices can have filled isn't read."""
        with open(self.path, "wb") as file:
            file.truncate(taps.LARGEST_REGISTER + 1)
        with self.assertRaisesRegex(Trouble, "web.taps is longer than 268,435,456 bytes"):
            Register(self.path)

    def test_no_plain_files(self) -> None:
        """A pipe holds nobody up, and a folder or a link is named."""
        os.mkfifo(self.path)
        with self.assertRaisesRegex(Trouble, "web.taps is no plain file"):
            Register(self.path)
        os.makedirs(os.path.join(self.here, "office", "web.lock"))
        with self.assertRaisesRegex(Trouble, "web.lock can't be used: Is a directory"):
            held_alone(mock.Mock(file=lambda *names: os.path.join(self.here, *names)))

    def test_devices(self) -> None:
        """A file of devices that can't be read lets nobody in; so does one with a part of another type."""
        device = {"mark": "a", "role": "FINISH", "name": "Ann", "since": "now", "heard": 1.0}
        for text in ("[" * 100_000, json.dumps({"keys": {}, "devices": {"a": device}})):
            with open(self.path, "w", encoding="ascii") as file:
                file.write(text)
            self.assertEqual(Gate(self.path).devices, {})


class Renumbered(unittest.TestCase):
    """The register, when entries have other numbers than those with which they were answered."""
    JOURNAL = ["1 1 SCORER ENTER GBR7", "1 2 SCORER ENTER USA4", "2 1 FINISH PENALTY 1 GBR7 ZFP", "2 2 FINISH FINISH 1 USA4",
               "2 3 FINISH PENALTY 1 GBR7 ZFP", "3 1 FINISH FINISH 1 GBR7"]

    def setUp(self) -> None:
        holder = tempfile.TemporaryDirectory()
        self.addCleanup(holder.cleanup)
        self.path = os.path.join(holder.name, "web.taps")

    def opened(self) -> Register:
        """The register as a web has it that has just come."""
        register = Register(self.path)
        self.addCleanup(register.close)
        return register

    def begun(self, register: Register, line: str, held: int) -> str:
        """The id of a tap that was begun when the journal had `held` entries."""
        journal, id = self.JOURNAL[:held], new_id()
        register.begin(Sent(id, "FINISH", line, 5, "Ann", held, 9, numbers=last_numbers(journal)))
        return id

    def test_taken_out(self) -> None:
        """A boat is taken out after taps were taken whose answers the register lacks: each knows its own entry, and
        one that was never taken has none."""
        register = self.opened()
        first = self.begun(register, "PENALTY 1 GBR7 ZFP", 2)
        register.end(first, "OK 3 1 0.0")
        register.learn(self.JOURNAL[:3])
        second, finished = self.begun(register, "PENALTY 01 GBR7 ZFP", 4), self.begun(register, "FINISH 1 GBR7", 5)
        never = self.begun(register, "PENALTY 1 GBR7 ZFP", 6)
        register.end(first, "OK 3 1 0.0")
        left, register = [line for line in self.JOURNAL if "USA4" not in line], self.opened()
        sent = register.sent
        self.assertEqual([register.found(sent[id], left) for id in (second, finished, never)], [3, 4, 0])
        register.end(finished, "OK 4")
        for again in (register, self.opened()):
            self.assertEqual([number_of(again.sent[id], left) for id in (first, finished)], [2, 4])
            self.assertEqual(again.moments(left), {(1, "GBR7"): (5, "Ann")})
        # Without her finish the tap has no entry any more.
        self.assertEqual(outcome_of(sent[finished], True, left[:3])["entry"], 0)

    def test_learnt(self) -> None:
        """The web dies before it has noted the entry of an answer. Once the next one has read the journal, the entry is
        known to all that come later, whoever is taken out."""
        register = self.opened()
        unsent, id = self.begun(register, "PENALTY 1 GBR7 ZFP", 4), self.begun(register, "PENALTY 1 GBR7 ZFP", 4)
        register.end(id, "OK 5 1 0.0")
        self.opened().learn(self.JOURNAL)
        left, register = [line for line in self.JOURNAL if "USA4" not in line], self.opened()
        self.assertEqual(outcome_of(register.sent[id], True, left)["entry"], 3)
        # It isn't taken for that of a tap that was begun before, and never sent.
        self.assertEqual(register.found(register.sent[unsent], left), 0)

    def test_older_journal(self) -> None:
        """An older journal was put in place of a newer one: an entry that looks like one of a tap that was answered
        before is that of the tap that was begun since."""
        register = self.opened()
        lost = self.begun(register, "PENALTY 1 GBR7 ZFP", 2)
        register.end(lost, "OK 3")
        register.learn(self.JOURNAL)
        register.end(lost, "OK 3")
        again = self.begun(register, "PENALTY 1 GBR7 ZFP", 2)
        register = self.opened()
        self.assertEqual(register.found(register.sent[again], self.JOURNAL[:3]), 3)

    def test_read_beside(self) -> None:
        """Whatever is read of the taps, others may be noted meanwhile."""
        register, journal = self.opened(), self.JOURNAL
        finish, kept = (Sent(new_id(), "FINISH", line, 5, "Ann", 0) for line in ("FINISH 1 GBR7", "? 1"))
        kept.mark = "?2"

        def note() -> None:
            for _ in range(1000):
                register.follow({"id": new_id(), "role": "FINISH", "line": "? 1", "at": 5, "by": "Bea", "entries": 0, "mark": "?1"})
        reads: list[Callable[[], object]] = [
            lambda: register.entries_by("Ann", journal), lambda: register.who_tapped_too(finish),
            lambda: register.marks_of(1, 9), register.moments_of_places, lambda: register.has_place(kept, History()),
            lambda: register.places_by("Ann", 1), lambda: register.found(finish, journal),
            lambda: register.moments(journal), lambda: starts_given(register, 1), lambda: entries_of_starts(register),
            lambda: taps_since(register, finish)]
        self.addCleanup(sys.setswitchinterval, sys.getswitchinterval())
        sys.setswitchinterval(1e-6)
        for number, read in enumerate(reads):
            register.sent = {sent.id: sent for sent in (finish, kept)}
            register.not_refused = dict(register.sent)
            thread = threading.Thread(target=note)
            thread.start()
            with self.subTest(number):
                while thread.is_alive():
                    read()
            thread.join()

    def test_rotten_line(self) -> None:
        """A tap whose race has a rotten bit has no moment; its entry stays known, and the others have theirs."""
        register = self.opened()
        for at in (4, 6):
            id = self.begun(register, self.JOURNAL[at - 1].split(maxsplit=3)[3], at - 1)
            register.end(id, f"OK {at} 1 1.0")
        register.learn(self.JOURNAL)
        both = register.moments(self.JOURNAL)
        self.assertEqual(len(both), 2)
        first, second = list(register.sent.values())
        for line in (first.line.replace(" 1 ", " q "), first.line.replace(" 1 ", " 1`"), first.line.split()[0]):
            with mock.patch.object(first, "line", line):
                self.assertEqual(list(register.moments(self.JOURNAL)), list(both)[1:], line)


if __name__ == "__main__":
    unittest.main()
