"""Ctrl-C while a command is still being loaded: it ends with its status, and Python says nothing. And a signal that waits
until something is done whole."""
from __future__ import annotations

import os
import shutil
import signal
import subprocess
import sys
import time
import unittest
from unittest import mock

import helpers
from raceoffice import system

# Presses Ctrl-C when a module is looked for that wasn't loaded yet.
PRESSES = """\
import os, sys


class Presses:
    @staticmethod
    def find_spec(name, path=None, target=None):
        if name == os.environ["PRESSED_AT"]:
            os.kill(os.getpid(), 2)


sys.meta_path.insert(0, Presses)
"""
# Modules that a command needs, from the first on that it loads itself; and those that its launcher loads before.
LOADED = ["raceoffice.interruption", "raceoffice.cli", "argparse", "raceoffice.commands.check", "raceoffice.exit_status",
          "raceoffice.remarks", "raceoffice.series.folder"]
BEFORE = ["raceoffice", "raceoffice.__main__"]


class Interrupted(helpers.Series):
    def pressed(self, module: str, *command: str, **environment: str) -> tuple[str, int]:
        """What a command prints that looks at a series, and its status, if Ctrl-C comes when it loads a module."""
        def own() -> None:
            signal.signal(signal.SIGINT, signal.SIG_DFL)
        done = subprocess.run([sys.executable, *command, "check", "cup"], cwd=self.here, text=True, preexec_fn=own,
                              stdin=subprocess.DEVNULL, stdout=subprocess.PIPE, stderr=subprocess.STDOUT,
                              timeout=helpers.PATIENCE, env={**os.environ, "PRESSED_AT": module, **environment})
        return done.stdout, done.returncode

    def need_quiet(self, modules: list[str], *command: str, path: str) -> None:
        os.mkdir(os.path.join(self.here, "presses"))
        self.write(PRESSES, "presses", "sitecustomize.py")
        path = os.path.join(self.here, "presses") + os.pathsep + path
        for module in modules:
            with self.subTest(module):
                self.assertEqual(self.pressed(module, *command, PYTHONPATH=path), ("", 130))
        said, status = self.pressed("none", *command, PYTHONPATH=path)
        self.assertEqual(status, 0, said)

    def test_module(self) -> None:
        self.need_quiet(LOADED, "-m", "raceoffice", path=helpers.TOP)

    def test_launcher(self) -> None:
        """The launcher of an installation, with the package where that has it."""
        for folder in ("bin", os.path.join("share", "raceoffice")):
            os.makedirs(os.path.join(self.here, folder))
        launcher = os.path.join(self.here, "bin", "raceoffice")
        shutil.copy(os.path.join(helpers.TOP, "packaging", "raceoffice"), launcher)
        os.symlink(os.path.join(helpers.TOP, "raceoffice"), os.path.join(self.here, "share", "raceoffice", "raceoffice"))
        self.need_quiet([*BEFORE, *LOADED], launcher, path="")

    def test_entry_point(self) -> None:
        """An installation by pip begins as they do."""
        with open(os.path.join(helpers.TOP, "pyproject.toml"), encoding="utf-8") as file:
            self.assertIn('raceoffice = "raceoffice.__main__:main"\n', file.read())

    def test_without_effect(self) -> None:
        """Whoever starts a command in such a way that Ctrl-C is without effect, as a shell's script with `&`, has it so."""
        os.mkdir(os.path.join(self.here, "presses"))
        self.write(PRESSES, "presses", "sitecustomize.py")
        done = subprocess.run(
            ["sh", "-c", 'trap "" INT; exec "$@"', "sh", sys.executable, "-m", "raceoffice", "check", "cup"], cwd=self.here,
            stdin=subprocess.DEVNULL, stdout=subprocess.PIPE, stderr=subprocess.STDOUT, timeout=helpers.PATIENCE,
            env={**os.environ, "PRESSED_AT": "raceoffice.cli",
                 "PYTHONPATH": os.pathsep.join([os.path.join(self.here, "presses"), helpers.TOP])})
        self.assertEqual(done.returncode, 0, done.stdout)


class Deferred(unittest.TestCase):
    """A signal that comes while something is done of which a part alone would be wrong."""

    def setUp(self) -> None:
        self.addCleanup(signal.signal, signal.SIGINT, signal.getsignal(signal.SIGINT))
        signal.signal(signal.SIGINT, signal.default_int_handler)

    def press(self) -> None:
        """Presses Ctrl-C, and does what follows."""
        signal.raise_signal(signal.SIGINT)
        self.done.append("done")

    def test_afterwards(self) -> None:
        """It comes when all is done, and no clock goes on."""
        self.done = list[str]()
        before = signal.getsignal(signal.SIGALRM)
        with self.assertRaises(KeyboardInterrupt), system.stops_deferred():
            self.press()
            self.assertGreater(signal.getitimer(signal.ITIMER_REAL)[0], 0)
        self.assertEqual((self.done, signal.getitimer(signal.ITIMER_REAL)[0]), (["done"], 0))
        self.assertEqual(signal.getsignal(signal.SIGALRM), before)

    def test_as_it_ends(self) -> None:
        """One that comes as it ends sets no clock, which would end the process later."""
        clock = signal.setitimer
        self.addCleanup(clock, signal.ITIMER_REAL, 0)

        def pressed(which: int, seconds: float) -> None:
            clock(which, seconds)
            if not seconds:
                signal.raise_signal(signal.SIGINT)
        with mock.patch.object(signal, "setitimer", pressed), self.assertRaises(KeyboardInterrupt), system.stops_deferred():
            pass
        self.assertEqual(signal.getitimer(signal.ITIMER_REAL)[0], 0)

    def test_another(self) -> None:
        """Ctrl-C keeps none back that ends the window."""
        heard: list[int] = []
        self.addCleanup(signal.signal, signal.SIGTERM, signal.getsignal(signal.SIGTERM))
        signal.signal(signal.SIGTERM, lambda number, _: heard.append(number))
        with self.assertRaises(KeyboardInterrupt), system.stops_deferred():
            signal.raise_signal(signal.SIGINT)
            signal.raise_signal(signal.SIGTERM)
        self.assertEqual(heard, [signal.SIGTERM])

    def test_what_hangs(self) -> None:
        """What hangs is ended by it all the same: nothing else would end the window."""
        self.done = list[str]()
        end = time.monotonic() + helpers.PATIENCE
        with mock.patch.object(system, "DEFERRED", 0.05), self.assertRaises(KeyboardInterrupt), system.stops_deferred():
            self.press()
            while time.monotonic() < end:
                time.sleep(0.01)
            self.done.append("too late")
        self.assertEqual(self.done, ["done"])

    def test_what_goes_wrong(self) -> None:
        """Whoever hears why something went wrong isn't told of Ctrl-C instead."""
        self.done = list[str]()
        with self.assertRaisesRegex(ValueError, "the disk is full"), system.stops_deferred():
            self.press()
            raise ValueError("the disk is full")


if __name__ == "__main__":
    unittest.main()
