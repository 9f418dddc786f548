"""Logs that refused taps have made long stop nothing."""
from __future__ import annotations

import json
import os
import time
import unittest
from unittest import mock

import helpers

from raceoffice.errors import Trouble
from raceoffice.series import log
from raceoffice.series.folder import Folder
from raceoffice.web import taps
from raceoffice.web.taps import Register, Sent
from web_devices import SAILS, Web, new_id

REFUSED = b"2026-11-29T03:00:00+0000\t1\tFin\t2\tFINISH\tFINISH 1 GBR101\tNO 8\n"


class OfficeLog(helpers.Series):
    """office.log of 70 MiB."""

    def setUp(self) -> None:
        super().setUp()
        self.folder = Folder(os.path.join(self.here, "cup"))
        self.folder.log("Ann", "", "", "final", "0123456789ab")
        with open(self.folder.file(log.LOG), "ab") as file:
            file.write(REFUSED * ((70 << 20) // len(REFUSED)))

    def test_read(self) -> None:
        """What was announced before and after the refused lines is known, and of a torn or endless line nothing is."""
        self.folder.log("Ben", "2", "FINISH", "FINISH 1 GBR7", "OK 12")
        with open(self.folder.file(log.LOG), "ab") as file:
            file.write(b"x" * (1 << 20) + REFUSED.replace(b"NO 8", b"OK 13") + REFUSED.replace(b"NO 8", b"OK 14").strip())
        self.assertEqual([entry.answer for entry in self.folder.logged()], ["0123456789ab", "OK 12"])

    def test_read_again(self) -> None:
        """A page that asks again costs next to nothing: only what has come since is read. Another file in its place is read
        whole, also one that is as long, and one that was changed."""
        self.folder.logged()
        used = time.process_time()
        for answer in ("OK 12", "OK 13"):
            self.folder.log("Ben", "2", "FINISH", "FINISH 1 GBR7", answer)
            self.assertEqual(self.folder.logged()[-1].answer, answer)
        self.assertLess(time.process_time() - used, 0.3)
        path = self.folder.file(log.LOG)
        self.folder.logged().clear()
        self.assertEqual(len(self.folder.logged()), 3)
        line = REFUSED.replace(b"NO 8", b"OK 14")
        for at, (is_new, data) in enumerate([(True, line), (False, line.replace(b"14", b"15")), (True, line), (False, line * 3), (False, b"")]):
            if is_new:
                os.remove(path)
            with open(path, "wb") as file:
                file.write(data)
            os.utime(path, (at, at))
            self.assertEqual([entry.answer for entry in self.folder.logged()],
                             [text.rsplit("\t", 1)[1] for text in data.decode().splitlines()], at)

    def test_commands(self) -> None:
        """The series is checked, and its results are announced."""
        for words in (["check", "cup"], ["provisional", "cup"]):
            said, status = helpers.run(*words, cwd=self.here)
            self.assertEqual(status, 0, said)


class Registers(helpers.Series):
    """A register that is longer than it should be."""

    def setUp(self) -> None:
        super().setUp()
        self.path = os.path.join(self.here, "web.taps")
        for name, value in (("SHORTENED", 4000), ("REFUSED_KEPT", 3), ("LARGEST_REGISTER", 20_000)):
            patch = mock.patch.object(taps, name, value)
            patch.start()
            self.addCleanup(patch.stop)

    def made(self, answers: list[str]) -> list[str]:
        """A register with taps of these answers; their identities."""
        register, made = Register(self.path), []
        for answer in answers:
            made.append(new_id())
            register.begin(Sent(made[-1], "FINISH", "FINISH 1 GBR7", 1, "Ann", 12))
            if answer:
                register.end(made[-1], answer, "?1" if answer == "NOTED" else "")
        register.close()
        return made

    def known(self) -> list[str]:
        register = Register(self.path)
        register.close()
        return list(register.sent)

    def test_refused(self) -> None:
        """All but the last refused taps go. What was taken, noted or never answered stays, also parts of a decision."""
        answers = ["NO 8"] * 10 + ["OK 13", "NOTED", "", "NO"] + ["NO 8"] * 5
        made = self.made(answers)
        with open(self.path, "a", encoding="utf-8") as file:
            part = {"id": f"{made[0]}/0", "role": "JURY", "line": "CLEAR 1 GBR7", "at": 1, "by": "Ann", "entries": 12}
            file.write(f"{json.dumps(part)}\n" + json.dumps({"id": part["id"], "answer": "NO 4", "mark": "", "said": []}) + "\n")
        self.assertEqual(self.known(), [*made[10:13], *made[-3:], f"{made[0]}/0"])
        self.assertEqual(os.stat(self.path).st_mode & 0o777, 0o600)

    def test_too_long(self) -> None:
        """If it is too long all the same, it is said what to do, and what that costs."""
        self.made(["OK 13"] * 100)
        with self.assertRaises(Trouble) as found:
            Register(self.path)
        said = str(found.exception)
        self.assertIn("web.taps is longer than 20,000 bytes. When no device holds taps any more, move it", said)
        self.assertIn("may be done twice", said)


class Flood(Web):
    """A device that sends one refused tap after another."""

    def test_flood(self) -> None:
        """After a hundred it is held back, and the others aren't; what it sends again is answered."""
        device, other, first = self.device("finish"), self.device("finish", "Ben"), new_id()
        self.assertEqual(other.tap(f"FINISH 1 {SAILS[0]}")[0], 200)
        self.assertEqual(device.tap(f"FINISH 1 {SAILS[0]}", first)[1]["outcome"], "refused")
        taken = 1
        while device.tap(f"FINISH 1 {SAILS[0]}")[0] == 200 and taken < 400:
            taken += 1
            # What a device may write at all in a second isn't reached.
            time.sleep(0.09)
        self.assertIn(taken, range(100, 300))
        self.assertEqual(device.tap(f"FINISH 1 {SAILS[0]}", first)[1]["again"], True)
        self.assertEqual(other.tap(f"FINISH 1 {SAILS[1]}")[1]["outcome"], "taken")


if __name__ == "__main__":
    unittest.main()
