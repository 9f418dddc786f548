"""`regatta serve --keep` on a disk that fails: nobody is answered any more, and the office ends soon.
bench/keep.py tries it at length."""
from __future__ import annotations

import os
import subprocess
import sys
import unittest

import helpers
import kept
from kept import FAULT, NO_SPACE, Kept, needs_compiler, next_reply, reply_to, send

BENCH = os.path.join(helpers.TOP, "bench")
# The calls of the disk that fail: the write of the first entry, and its sync. Four calls open a new file.
WRITE, SYNC = 5, 6
# What nobody may read a reply to any more, whatever it would be made from.
LINES = ["ROLE JURY", "RANK A", "SHOW", "QUIT", "X", "ENTER A", "ENTER B", ""]


@needs_compiler
class Failing(Kept):
    def test_nobody_is_answered(self) -> None:
        """Once the disk has failed under one client, none of the others gets a reply, not even to a line
        that needs no entry. The office says that the disk is full, if it is."""
        library = kept.library(os.path.join(BENCH, "failing.c"), self.here)
        for nth, fault in ((WRITE, NO_SPACE), (SYNC, FAULT)):
            count = os.path.join(self.here, f"count{nth}")
            self.write(count, "\0" * 16)
            self.kept, self.path = (os.path.join(self.here, f"{name}{nth}") for name in ("kept", "race.sock"))
            with self.subTest(nth):
                office, first = self.opened("--clients", "16", LD_PRELOAD=library, FAIL_NTH=str(nth),
                                            FAIL_COUNT=count)
                others = [self.client() for _ in LINES]
                for link in others:
                    self.assertEqual(link.ask("RANK A"), "NO 7")
                self.assertEqual(reply_to(first, "ENTER A"), "")
                for link, line in zip(others, LINES):
                    send(link, line)
                self.assertEqual([next_reply(link) for link in others], [""] * len(LINES))
                self.assertEqual(self.ended(office), ("", fault, 3))

    def test_each_call(self) -> None:
        """Each write, sync and rename fails in turn: the office says so and ends, beside clients who are
        silent and who never end a line, and the same command goes on."""
        done = subprocess.run(
            [sys.executable, os.path.join(BENCH, "keep.py"), "--rounds", "12", "--only", "failing",
             helpers.PROGRAM], text=True, stdout=subprocess.PIPE, stderr=subprocess.STDOUT,
            timeout=2 * helpers.PATIENCE)
        self.assertEqual(done.returncode, 0, done.stdout)


if __name__ == "__main__":
    unittest.main()
