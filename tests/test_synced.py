"""What `regatta serve --keep` asks of the disk before each reply. No proof sees which file a call of the
system is made of, so a library between the program and the system notes it (noting.c)."""
from __future__ import annotations

import os
import unittest

import kept
from kept import DEVICE, VERSION, Kept, needs_compiler

A = "1 1 SCORER ENTER A\n"
# What puts the file in order at an opening, before it has its name and after that.
RENEWED = ["write kept.opening", "fsync kept.opening", "rename kept.opening kept", "fsync ."]
# What puts entries on the disk.
ADDED = ["write kept", "fdatasync kept"]


@needs_compiler
class Synced(Kept):
    def setUp(self) -> None:
        super().setUp()
        self.notes = os.path.join(self.here, "notes")
        self.noting = {"LD_PRELOAD": kept.library(kept.NOTING, self.here), "NOTED": self.notes}

    def noted(self) -> list[str]:
        """What was noted since the last time, by the names of files in the folder of the kept one."""
        with open(self.notes, encoding="ascii") as file:
            lines = file.read().splitlines()
        os.truncate(self.notes, 0)
        return [self.in_short(line) for line in lines]

    def in_short(self, line: str) -> str:
        """A note without its folder, and without the size of what was written."""
        call, _, rest = line.partition(" ")
        if call == "reply":
            return line
        names = [os.path.relpath(name, self.here) if name.startswith(self.here) else name
                 for name in rest.split(" ") if name.startswith("/")]
        return " ".join([call, *names])

    def test_opening(self) -> None:
        """A fresh file is on the disk before it takes the name, and the name and all boats before the first
        reply, also to a line that needs none of them."""
        self.write(self.boats, "Sail\nA\n")
        for text, wanted in [("", [*RENEWED, *ADDED]), (VERSION + A, RENEWED)]:
            self.write(self.kept, text)
            with self.subTest(text):
                office, link = self.opened("--entries", self.boats, **self.noting)
                self.assertEqual(link.ask("ROLE JURY"), "ROLE JURY")
                self.killed(office)
                self.assertEqual(self.noted(), [*wanted, "reply ROLE JURY"])

    def test_torn_end(self) -> None:
        """What is cut off is on the disk, with its name, before the file changes."""
        for saved in ("", "1 2 SC"):
            self.write(self.kept, VERSION + A + "1 2 FIN")
            if saved:
                self.write(self.kept + ".cut", saved)
            with self.subTest(saved):
                self.path = kept.NOWHERE
                office = self.start(**self.noting)
                said = "regatta: keep cut 7 bytes after line 2\n1 2 FIN\n"
                self.assertEqual(self.ended(office), ("", said + DEVICE, 3))
                self.assertEqual(self.noted(), ["write kept.cut", "fsync kept.cut", "fsync .", *RENEWED])
                self.assertEqual(self.text(".cut"), saved + "1 2 FIN")
                os.remove(self.kept + ".cut")

    def test_replies(self) -> None:
        """An entry is on the disk before its own reply, and before one that shows it. What adds nothing
        asks the disk for nothing."""
        office, link = self.opened(**self.noting)
        other = self.client()
        nothing: list[str] = []
        for client, line, reply, wanted in [
                (link, "ENTER A", "OK 1 1 0.0", RENEWED + ADDED), (other, "FINISH 1 A", "OK 2 1 0.0", ADDED),
                (link, "RANK A", "RANK 1 0.0", nothing), (link, "ENTER A", "NO 6", nothing),
                (other, "X", "NO 21", nothing), (link, "ROLE JURY", "ROLE JURY", nothing),
                (link, "MARK 1 A DSQ", "OK 3 1 0.0", ADDED)]:
            with self.subTest(line):
                self.assertEqual(client.ask(line), reply)
                self.assertEqual(self.noted(), [*wanted, f"reply {reply}"])
        self.assertEqual(len(other.sheet().journal), 3)
        self.assertEqual(self.noted()[0], "reply JOURNAL 3")
        self.killed(office)

    def test_nobody_to_wait_for(self) -> None:
        """A client alone waits for no others before a sync, and two don't wait for each other where nothing
        has to be put on the disk."""
        office, link = self.opened(**self.noting, NOTED_YIELDS="1")
        other = self.client()
        for sail in "ABCDE":
            link.ask(f"ENTER {sail}")
        for client in (other, link) * 5:
            client.ask("RANK A")
        self.assertEqual(self.noted().count("yield"), 0)
        # Two who both enter boats wait for each other, so that they may share a sync.
        for at, client in enumerate((other, link) * 5):
            client.ask(f"ENTER {at}")
        self.assertGreater(self.noted().count("yield"), 0)
        self.killed(office)

    def test_batches(self) -> None:
        """A hundred boats need three syncs."""
        sails = range(100, 200)
        self.write(self.boats, "Sail\n" + "".join(f"{sail}\n" for sail in sails))
        office, link = self.opened("--entries", self.boats, **self.noting)
        self.assertEqual(link.ask("RANK 100"), "RANK 1= 0.0")
        self.killed(office)
        self.assertEqual(self.noted(), [*RENEWED, *ADDED * 3, "reply RANK 1= 0.0"])


if __name__ == "__main__":
    unittest.main()
