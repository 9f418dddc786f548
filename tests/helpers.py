"""What the checks share: the program, offices and windows to try the package with."""
from __future__ import annotations

import codecs
import contextlib
import fcntl
import os
import pty
import re
import resource
import select
import signal
import socket
import subprocess
import sys
import tempfile
import termios
import time
import unittest
import unittest.mock
from collections.abc import Callable, Iterator, Mapping
from typing import Any

TOP = os.path.dirname(os.path.dirname(os.path.abspath(__file__)))
# The command as an installation makes it, run with the package of this folder.
COMMAND = [sys.executable, os.path.join(TOP, "tests", "bin", "raceoffice")]
PROGRAM = os.path.realpath(os.environ.get("REGATTA", os.path.join(TOP, "crates/regatta/out/regatta")))
# The program of corrected times.
TIMES = os.path.realpath(os.environ.get("TIMES", os.path.join(TOP, "crates/times/out/times")))
# Skips what needs it if it isn't there.
needs_times = unittest.skipUnless(os.access(TIMES, os.X_OK), f"there is no program of times at {TIMES}")
# Seconds for what has to come about. A slow machine with other work gets there, too.
PATIENCE = 120.0
# Seconds that a command has for its end when a trial needs it no more.
SOON = 5.0
ENTRIES = """\
Boat,Sail,Helm,Club
Kestrel,GBR 101,A. Moss,Sandhaven
Sea Pink,GBR 7,J. Hale,Sandhaven
Windhover,NED 12,P. de Wit,Zierik
Plover,FRA 9,C. Blanc,Brest
Turnstone,GBR 33,R. Shaw,Sandhaven
Curlew,IRL 5,M. Byrne,Howth
Dunlin,IRL 55,O. Roche,Howth
"""
sys.path.insert(0, TOP)
# What measures the tests is loaded from a folder of its own.
os.environ["PYTHONPATH"] = os.pathsep.join([TOP, *filter(None, [os.environ.get("PYTHONPATH")])])


def trials(usual: int) -> int:
    """How many random trials a check makes: TRIALS, or those of the gate."""
    return int(os.environ.get("TRIALS", usual))


def until(what: str, holds: Callable[[], object], patience: float = PATIENCE) -> None:
    """Waits for what has to come about."""
    end = time.monotonic() + patience
    while not holds():
        if time.monotonic() > end:
            raise AssertionError(f"{what} didn't come about")
        time.sleep(0.02)


def next_second() -> None:
    """Waits until the clock shows another second: what comes then is later in a log, too."""
    now = int(time.time())
    until("another second", lambda: int(time.time()) > now)


def run(*words: str, lines: str = "", cwd: str | None = None) -> tuple[str, int]:
    """What a command prints, fed by a pipe, and its status."""
    done = subprocess.run([*COMMAND, *words], cwd=cwd, input=lines, encoding="utf-8",
                          stdout=subprocess.PIPE, stderr=subprocess.STDOUT, timeout=PATIENCE)
    return done.stdout, done.returncode


def held_port() -> socket.socket:
    """A port of this computer, taken in such a way that a board may listen there and no other
    program is given it."""
    holder = socket.socket()
    holder.setsockopt(socket.SOL_SOCKET, socket.SO_REUSEADDR, 1)
    # At all addresses: else a phone of another check, which has one of its own, could come to this port.
    holder.bind(("", 0))
    return holder


def free_port(trial: unittest.TestCase) -> int:
    """A port for a board, until the trial has ended."""
    holder = held_port()
    trial.addCleanup(holder.close)
    port: int = holder.getsockname()[1]
    return port


def replayed(*words: str, lines: str | bytes = b"") -> tuple[str, str, int]:
    """What a replay prints and says of these lines, with these options, and its status."""
    return ran("replay", *words, lines=lines)


def ran(*words: str, lines: str | bytes = b"", **more: object) -> tuple[str, str, int]:
    """What the program prints and says for these words, over this input, and its status."""
    data = lines.encode() if isinstance(lines, str) else lines
    given: dict[str, Any] = {} if "stdin" in more else {"input": data}
    given.update(stdout=subprocess.PIPE, stderr=subprocess.PIPE)
    given.update(more)
    done = subprocess.run([PROGRAM, *words], timeout=PATIENCE, **given)
    printed, said = ((part or b"").decode("ascii", "replace") for part in (done.stdout, done.stderr))
    return printed, said, done.returncode


def states(number: int, leader: bool = False) -> set[str]:
    """The states of a process's threads, or of its first: R runs, S waits, T is stopped."""
    names = [str(number)] if leader else os.listdir(f"/proc/{number}/task")
    found = set()
    for name in names:
        # A thread may have ended meanwhile.
        with contextlib.suppress(OSError), open(f"/proc/{number}/task/{name}/stat", "rb") as file:
            found.add(file.read().rpartition(b")")[2].split()[0].decode())
    return found


def freeze(number: int) -> None:
    """Stops a process, and waits until all its threads have stopped."""
    os.kill(number, signal.SIGSTOP)
    until("a stopped process", lambda: states(number) == {"T"})


def end(process: subprocess.Popen[Any]) -> None:
    """Ends a process, if it still runs. One that doesn't end by itself is killed."""
    process.terminate()
    try:
        process.wait(SOON)
    except subprocess.TimeoutExpired:
        process.kill()
        process.wait()


class Terminal:
    """A terminal and the command that runs in it, as at a person's desk."""

    def __init__(self, *command: str, cwd: str | None = None, **environment: str) -> None:
        self.master, slave = pty.openpty()
        modes = termios.tcgetattr(slave)
        modes[1] &= ~termios.OPOST
        modes[3] &= ~termios.ECHO
        termios.tcsetattr(slave, termios.TCSANOW, modes)

        def own() -> None:
            """The terminal is the command's own, so that Ctrl-C reaches it."""
            fcntl.ioctl(0, termios.TIOCSCTTY, 0)
            signal.signal(signal.SIGINT, signal.SIG_DFL)

        self.process = subprocess.Popen(
            command, cwd=cwd, stdin=slave, stdout=slave, stderr=slave, start_new_session=True,
            preexec_fn=own, env={**os.environ, "TERM": "dumb", "PYTHONIOENCODING": "utf-8", **environment})
        os.close(slave)
        self.text, self.is_at_end = "", False
        # A sign may come in two parts.
        self.decoder = codecs.getincrementaldecoder("utf-8")("replace")

    def read(self, wanted: str, patience: float = PATIENCE) -> str:
        """What is printed up to a text, which a regular expression names."""
        end = time.monotonic() + patience
        while not (found := re.search(wanted, self.text, re.MULTILINE)):
            left = end - time.monotonic()
            if left < 0 or not self.more(left):
                raise AssertionError(f"{wanted!r} didn't come; what came is\n{self.text}")
        text, self.text = self.text[:found.end()], self.text[found.end():]
        return text

    def more(self, left: float) -> bool:
        """Reads what comes; whether anything did. At the end of the tool nothing more does."""
        if self.is_at_end or not select.select([self.master], [], [], left)[0]:
            return False
        try:
            data = os.read(self.master, 65536)
        except OSError:
            data = b""
        self.text += self.decoder.decode(data, not data)
        self.is_at_end = not data
        return bool(data)

    def type(self, line: str) -> None:
        os.write(self.master, line.encode() + b"\n")

    def say(self, line: str, wanted: str) -> str:
        """Types a line, and reads up to a text."""
        self.type(line)
        return self.read(wanted)

    def press(self, key: str = "\x03") -> None:
        """Presses a key once the tool waits: a signal just before it begins to would go unheard."""
        until("a tool that waits", lambda: states(self.process.pid, leader=True) <= {"S", "Z"})
        os.write(self.master, key.encode())

    def rest(self) -> tuple[str, int]:
        """What is printed until the tool ends, and its status."""
        end = time.monotonic() + PATIENCE
        while self.more(max(0.0, end - time.monotonic())):
            pass
        try:
            return self.text, self.process.wait(max(1.0, end - time.monotonic()))
        except subprocess.TimeoutExpired:
            raise AssertionError(f"the tool didn't end; what came is\n{self.text}") from None

    def close(self) -> None:
        """Ends the command, if it still runs."""
        end(self.process)
        os.close(self.master)


class Window(Terminal):
    """A terminal in which a command of the race office runs. `waits` are seconds for which it waits, by
    their names in the package, as in `{"series.second_folder.PATIENCE": 1}`."""

    def __init__(self, *words: str, cwd: str | None = None, waits: Mapping[str, float] = {}) -> None:
        super().__init__(*COMMAND, *words, cwd=cwd,
                         WAITS=" ".join(f"raceoffice.{name}={seconds}" for name, seconds in waits.items()))


@contextlib.contextmanager
def served(*words: str, name: str = "race.sock",
           folder: str | None = None) -> Iterator[tuple[str, subprocess.Popen[str]]]:
    """A program that serves, and the path of its socket, whose file it leaves behind."""
    with contextlib.ExitStack() as stack:
        folder = folder or stack.enter_context(tempfile.TemporaryDirectory())
        path = os.path.join(folder, name)
        if os.path.lexists(path):
            os.remove(path)
        serving = subprocess.Popen([PROGRAM, "serve", "--socket", name, *words], cwd=folder,
                                   stdin=subprocess.DEVNULL, stdout=subprocess.PIPE,
                                   stderr=subprocess.DEVNULL, text=True)
        assert serving.stdout
        stack.enter_context(contextlib.closing(serving.stdout))
        stack.callback(serving.wait)
        stack.callback(serving.kill)
        until("the socket", lambda: is_listening(path))
        yield path, serving


def is_listening(path: str) -> bool:
    """Whether a program listens at a socket's file, which is there a moment before that."""
    from raceoffice import system
    return os.path.exists(path) and True in system.sockets_at(path)


def kill_office(folder: str) -> None:
    """Kills an office that a trial has left, by the number that its window has noted."""
    with contextlib.suppress(OSError, ValueError):
        with open(os.path.join(folder, "office", "pid"), encoding="ascii") as file:
            number = int(file.read().split()[0])
        # Another process may have this number by now.
        if os.path.samefile(f"/proc/{number}/cwd", os.path.join(folder, "office")):
            os.kill(number, signal.SIGKILL)


class Series(unittest.TestCase):
    """A trial in a folder of its own, with one series `cup`."""

    def setUp(self) -> None:
        # A process that has been told to end may still write into it.
        holder = tempfile.TemporaryDirectory(ignore_cleanup_errors=True)
        self.addCleanup(holder.cleanup)
        self.here = holder.name
        self.make("cup")

    def make(self, name: str, entries: str = ENTRIES, **values: str) -> str:
        """A folder with a series of these settings."""
        from raceoffice.series import settings
        folder = os.path.join(self.here, name)
        os.mkdir(folder)
        with open(os.path.join(folder, "entries.csv"), "w", encoding="utf-8") as file:
            file.write(entries)
        with open(os.path.join(folder, "series.ini"), "w", encoding="utf-8") as file:
            file.write(settings.filled_in({"title": "Autumn Cup", "program": PROGRAM, "zone": "UTC",
                                         **values}))
        return folder

    def window(self, *words: str, waits: Mapping[str, float] = {}) -> Terminal:
        window = Window(*words, cwd=self.here, waits=waits)
        self.addCleanup(window.close)
        return window

    def open(self, name: str = "cup", waits: Mapping[str, float] = {}) -> Terminal:
        """The window of an office that is open."""
        window = self.window("open", name, waits=waits)
        window.read(r"The office is open")
        self.addCleanup(self.stop, name)
        return window

    def stop(self, name: str) -> None:
        kill_office(os.path.join(self.here, name))

    def client(self, *words: str, waits: Mapping[str, float] = {}) -> Terminal:
        window = self.window("type", *words, waits=waits)
        window.read("> $")
        return window

    def typist(self, role: str = "finish", *more: str, waits: Mapping[str, float] = {}) -> Terminal:
        """The window of somebody who types for `cup`."""
        return self.client("cup", "--role", role, *more, waits=waits)

    def play(self, window: Terminal, talk: str) -> None:
        """Each line of a talk that begins with > is typed; the others have to come, in order."""
        for step in talk.strip("\n").split("\n> "):
            line, _, wanted = step.removeprefix("> ").partition("\n")
            said = window.say(line, r"(> |\] )$")
            missing = [text for text in wanted.splitlines() if text not in said]
            self.assertEqual(missing, [], f"{line} said\n{said}")

    def text(self, *names: str) -> str:
        with open(os.path.join(self.here, *names), encoding="utf-8") as file:
            return file.read()

    def held(self, name: str = "cup", file: str = "journal.txt") -> int:
        """How many entries a file of a series has: its lines without the version; 0 without a file."""
        if not os.path.exists(os.path.join(self.here, name, file)):
            return 0
        return sum(line != "REGATTA 2" for line in self.text(name, file).splitlines())

    def write(self, text: str, *names: str) -> None:
        with open(os.path.join(self.here, *names), "w", encoding="utf-8") as file:
            file.write(text)


@contextlib.contextmanager
def file_size(most: int) -> Iterator[None]:
    """A limit of the size of files, as on a full disk: Python is told of it, and isn't ended."""
    before = resource.getrlimit(resource.RLIMIT_FSIZE)
    resource.setrlimit(resource.RLIMIT_FSIZE, (most, before[1]))
    try:
        yield
    finally:
        resource.setrlimit(resource.RLIMIT_FSIZE, before)


@contextlib.contextmanager
def time_zone(name: str) -> Iterator[None]:
    """A computer that is in another time zone, for this process and those that it starts."""
    try:
        with unittest.mock.patch.dict(os.environ, TZ=name):
            time.tzset()
            yield
    finally:
        time.tzset()


@contextlib.contextmanager
def folder() -> Iterator[str]:
    with tempfile.TemporaryDirectory() as name:
        yield name
