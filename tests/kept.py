"""What the checks of `regatta serve --keep` share: a kept file, offices that keep it, and a C library that
is put between them and the system."""
from __future__ import annotations

import contextlib
import os
import shutil
import signal
import subprocess
import tempfile
import unittest

import helpers
from raceoffice.errors import Trouble
from raceoffice.program.link import Link

HERE = os.path.dirname(os.path.abspath(__file__))
DEVICE, FAULT = "regatta: device fault\n", "regatta: keep fault\n"
NO_SPACE, NO_PERMISSION = "regatta: keep fault: no space left\n", "regatta: keep fault: no permission\n"
NOWHERE = "/no/such/folder/race.sock"
VERSION = "REGATTA 2\n"
# A library that notes what is asked of the disk.
NOTING = os.path.join(HERE, "noting.c")


def compiler() -> str:
    """The C compiler of this computer; empty if it has none."""
    found = (shutil.which(name) for name in (os.environ.get("CC", ""), "cc", "gcc", "clang") if name)
    return next((path for path in found if path), "")


# Skips what is put between a program and the system, if nothing compiles it.
needs_compiler = unittest.skipUnless(compiler(), "there is no C compiler")


def library(source: str, folder: str) -> str:
    """The path of a C source's library, which is made in a folder, to be preloaded."""
    path = os.path.join(folder, os.path.basename(source) + ".so")
    subprocess.run([compiler(), "-O2", "-Wall", "-Werror", "-shared", "-fPIC", "-o", path, source],
                   check=True)
    return path


def send(link: Link, line: str) -> None:
    """Sends a line. A stream that has ended takes none."""
    with contextlib.suppress(OSError):
        link.socket.sendall(line.encode() + b"\n")


def next_reply(link: Link) -> str:
    """The next reply; empty if the stream ends without one."""
    try:
        return link.line()
    except Trouble:
        return ""


def reply_to(link: Link, line: str) -> str:
    """The reply to a line; empty if the stream ends without one."""
    send(link, line)
    return next_reply(link)


class Kept(unittest.TestCase):
    """A trial in a folder of its own, with a name for a kept file, a journal, a list and a socket."""

    def setUp(self) -> None:
        holder = tempfile.TemporaryDirectory()
        self.addCleanup(holder.cleanup)
        self.here = os.path.realpath(holder.name)
        self.kept, self.journal, self.boats, self.path = (
            os.path.join(self.here, name) for name in ("kept", "journal", "boats.csv", "race.sock"))
        self.write(self.boats, "Sail\n")

    def write(self, path: str, text: str) -> None:
        with open(path, "w", encoding="ascii", newline="") as file:
            file.write(text)

    def text(self, end: str = "") -> str:
        """What the kept file has, or one beside it whose name has this end."""
        with open(self.kept + end, encoding="ascii", newline="") as file:
            return file.read()

    def said(self, *words: str, path: str = NOWHERE) -> tuple[str, str, int]:
        """What an office prints and says that can't make its socket, and its status."""
        return helpers.ran("serve", "--keep", self.kept, "--socket", path, *words)

    def start(self, *words: str, **environment: str) -> subprocess.Popen[str]:
        """An office that is started."""
        office = subprocess.Popen(
            [helpers.PROGRAM, "serve", "--keep", self.kept, "--socket", self.path, *words],
            stdin=subprocess.DEVNULL, stdout=subprocess.PIPE, stderr=subprocess.PIPE, text=True,
            env={**os.environ, **environment}, restore_signals=False)
        self.addCleanup(office.communicate)
        self.addCleanup(office.kill)
        return office

    def opened(self, *words: str, **environment: str) -> tuple[subprocess.Popen[str], Link]:
        """An office that serves, and a client of it."""
        office = self.start(*words, **environment)
        helpers.until("an office", lambda: office.poll() is not None or helpers.is_listening(self.path))
        return office, self.client()

    def client(self) -> Link:
        link = Link(self.path, helpers.PATIENCE)
        self.addCleanup(link.close)
        return link

    def ended(self, office: subprocess.Popen[str]) -> tuple[str, str, int]:
        """What an office prints and says until it ends, and its status. Its socket's file is removed."""
        printed, said = office.communicate(timeout=helpers.PATIENCE)
        if os.path.lexists(self.path):
            os.unlink(self.path)
        return printed, said, office.returncode

    def killed(self, office: subprocess.Popen[str]) -> None:
        """Kills an office, and removes the file of its socket."""
        office.send_signal(signal.SIGKILL)
        self.ended(office)
