"""`raceoffice serve` is stopped while it opens its offices: no question waits any more, and no program is left alone."""
from __future__ import annotations

import os
import re
import signal
import socket
import subprocess
import unittest

import helpers

ASKED = r"\[y/N\] $"
NAMES = ("cup", "fleet", "old")
# What a shell says of a command that these have ended.
STATUSES = {signal.SIGINT: 130, signal.SIGTERM: 143, signal.SIGHUP: 129}


class Opening(helpers.Series):
    """Three series: of the second, the rules are others than at its last opening."""

    def setUp(self) -> None:
        super().setUp()
        self.make("fleet", title="Folkboats")
        self.make("old", title="Dinghies")
        self.port = helpers.free_port(self)
        for name in NAMES:
            self.addCleanup(self.stop, name)
        window = self.open("fleet")
        self.client("fleet", "--role", "finish").say("finish 1 7", "1st in race 1")
        window.process.terminate()
        window.rest()
        text = self.text("fleet", "series.ini")
        self.write(re.sub(r"(?m)^exclude = .*$", "exclude = none", text), "fleet", "series.ini")

    def asked(self, *names: str) -> helpers.Terminal:
        """The window of a web that asks about the rules."""
        window = self.window("serve", *names, "--http", str(self.port))
        window.read(ASKED)
        return window

    def need_closed(self) -> None:
        """No program is there, and nobody is answered at the port."""
        for name in NAMES:
            self.assertFalse(helpers.is_listening(os.path.join(self.here, name, "office", "race.sock")), name)
        with socket.socket() as link:
            self.assertNotEqual(link.connect_ex(("127.0.0.1", self.port)), 0)

    def test_ctrl_c(self) -> None:
        """It is no to the question; what was opened before is closed in order, and no more is opened."""
        window = self.asked("cup", "fleet", "old")
        window.press()
        said, status = window.rest()
        self.assertEqual(status, 130, said)
        self.assertRegex(said, r"cup: (\S+ )?Closed\. journal\.txt has 7 entries")
        self.assertNotIn("Traceback", said)
        self.assertNotIn("old", said)
        self.assertNotIn("/office/in#", said)
        self.need_closed()

    def test_signals(self) -> None:
        """Others end it likewise, with the status that a shell has for them."""
        for number, wanted in STATUSES.items():
            with self.subTest(number.name):
                window = self.asked("fleet")
                window.process.send_signal(number)
                said, status = window.rest()
                self.assertEqual(status, wanted, said)
                self.assertNotIn("Closing", said)
                self.assertNotIn("fault", said)
                self.need_closed()

    def test_terminal_gone(self) -> None:
        """The terminal goes away at the question: no fault is noted."""
        terminal = helpers.Window("serve", "cup", "fleet", "--http", str(self.port), cwd=self.here)
        self.addCleanup(helpers.end, terminal.process)
        terminal.read(ASKED)
        os.close(terminal.master)
        try:
            self.assertEqual(terminal.process.wait(helpers.PATIENCE), 129)
        except subprocess.TimeoutExpired:
            self.fail("the web didn't end")
        faults = [name for name in NAMES if os.path.exists(os.path.join(self.here, name, "office", "faults.txt"))]
        self.assertEqual(faults, [])
        self.need_closed()

    def test_answered(self) -> None:
        """Yes opens it, also after what is neither yes nor no."""
        window = self.asked("fleet")
        window.say("perhaps", ASKED)
        window.type("y")
        window.read(r"Ctrl-C closes the office\.")
        window.press()
        self.assertEqual(window.rest()[1], 0)
        self.need_closed()


if __name__ == "__main__":
    unittest.main()
