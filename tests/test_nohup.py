"""Commands without the terminal that they usually have: under `nohup`, and with streams that a shell has closed."""
from __future__ import annotations

import os
import re
import signal
import subprocess
import unittest

import helpers

# Each command, and what it says once it runs.
COMMANDS = [(["open", "cup"], "The office is open"), (["serve", "cup", "--http", "PORT"], "Ctrl-C closes the office"),
            (["board", "cup", "--http", "PORT"], "try one phone")]


class Nohup(helpers.Series):
    def test_hang_up(self) -> None:
        """A hang-up is passed over, as `nohup` has it, and an end that is wanted still ends each in order."""
        port = str(helpers.free_port(self))
        for words, said in COMMANDS:
            command = [port if word == "PORT" else word for word in words]
            with self.subTest(command=words[0]):
                window = helpers.Terminal("sh", "-c", 'trap "" HUP; exec "$@"', "sh", *helpers.COMMAND, *command, cwd=self.here)
                self.addCleanup(self.stop, "cup")
                self.addCleanup(window.close)
                window.read(said)
                self.assertEqual(self.ways_of_hang_up(window.process.pid), (True, False, False))
                window.process.send_signal(signal.SIGTERM)
                self.assertEqual(window.rest()[1], 0)

    def test_closed_streams(self) -> None:
        """What a shell has closed isn't taken for a file of the series."""
        for closed in (">&-", "<&-", "2>&-", "<&- >&- 2>&-"):
            page = os.path.join(self.here, f"page{len(closed)}")
            command = f'"$@" board cup --page "{page}" --once {closed}'
            done = subprocess.run(["sh", "-c", command, "sh", *helpers.COMMAND], cwd=self.here, check=False, timeout=helpers.PATIENCE)
            self.assertEqual((done.returncode, os.path.exists(os.path.join(page, "index.html"))), (0, True), closed)

    def ways_of_hang_up(self, process: int) -> tuple[bool, ...]:
        """Whether a process passes a hang-up over, keeps it for later, or does something at it."""
        with open(f"/proc/{process}/status", encoding="utf-8") as file:
            text = file.read()
        masks = [int(re.findall(rf"^{name}:\s+([0-9a-f]+)$", text, re.MULTILINE)[0], 16) for name in ("SigIgn", "SigBlk", "SigCgt")]
        return tuple(bool(mask & 1 << signal.SIGHUP - 1) for mask in masks)


if __name__ == "__main__":
    unittest.main()
