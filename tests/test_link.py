"""The link to an office, and the file of its socket: every refusal, strangers, and offices that are
open, full, ending or gone."""
from __future__ import annotations

import contextlib
import os
import resource
import socket
import subprocess
import tempfile
import threading
import unittest
from collections.abc import Callable, Iterator
from typing import Any
from unittest import mock

import helpers
from raceoffice import system
from raceoffice.program import messages
from raceoffice.errors import NoSeat, Trouble
from raceoffice.program import link as links
from raceoffice.program.link import Link, remove_socket

# Lines of a client, each followed by the number of its refusal, if it is refused.
REFUSED = """\
ENTER A
ENTER A/6
FINISH 1 B/7
ENTER B
TIE 1 A B/9
TIME 1 A 3605/16
SCORE 1/15
UNSCORE 1/14
CLEAR 1 A/12
FINISH 1 A
FINISH 1 A/8
SCORE 1
SCORE 1/13
MARK 1 A DSQ/4
PENALTY 1 A ZFP/11
ROLE JURY
MARK 1 A DSQ
REDRESS 1 A ALL/10
SHOOT/21
SHOW ME/22
ENTER A_B/23
FINISH 41 A/24
REDRESS 1 A 0.9/25
TIME 1 A 1000000/29
MARK 1 A ZFP/26
ROLE KING/27
""".replace("PENALTY 1 A ZFP", "PENALTY 1 A ZFP\n" * 9 + "PENALTY 1 A ZFP")
STARTS = {
    "ENTER B/3": "1 4294967295 SCORER ENTER A\n",
    "ENTER A/5": "".join(f"1 {at} SCORER ENTER B{at}\n" for at in range(1, 501)),
    "ENTER B/2\n" + "X" * 81 + "/20": "1 1 SCORER ENTER A\n" + "".join(
        f"1 {at} FINISH {('FINISH', 'STRIKE')[at % 2]} 1 A\n" for at in range(2, 8193)),
}


def hanging(call: Callable[..., Any], folder: str) -> Callable[..., Any]:
    """A call of the system that fails where it would hang: in a folder, or in that of a process that works there."""
    def asked(path: Any, *words: Any, **more: Any) -> Any:
        place = os.readlink(path) if str(path).startswith("/proc/") and str(path).endswith("/cwd") else str(path)
        if system.is_inside(place, folder):
            raise AssertionError(f"{path} is asked")
        return call(path, *words, **more)
    return asked


class Replies(unittest.TestCase):
    def refused(self, lines: str, *options: str) -> set[int]:
        """The numbers of the refusals, each of which has to follow its line."""
        met = set()
        with helpers.served(*options) as (path, _), contextlib.closing(Link(path)) as link:
            for text in lines.splitlines():
                line, _, number = text.partition("/")
                answer = link.ask(line)
                self.assertEqual(answer.startswith("NO "), bool(number), text[:60])
                if number:
                    self.assertEqual(answer, f"NO {number}", text[:60])
                    self.assertEqual(messages.refusal(answer), messages.NUMBERS[int(number)])
                    met.add(int(number))
        return met

    def test_numbers(self) -> None:
        """Each number but that of memory is answered to a line that it fits, and has its words."""
        met = self.refused(REFUSED)
        with tempfile.TemporaryDirectory() as folder:
            for lines, journal in STARTS.items():
                path = os.path.join(folder, "journal")
                with open(path, "w", encoding="ascii") as file:
                    file.write(journal)
                met |= self.refused(lines, "--journal", path)
        self.assertEqual(met | {1}, set(messages.NUMBERS))


@contextlib.contextmanager
def stood_in(answer: bytes, lines: int = 0) -> Iterator[str]:
    """The socket of somebody who sends these bytes to whoever comes, and with `lines` leaves after
    that number of lines."""
    with tempfile.TemporaryDirectory() as folder, contextlib.ExitStack() as stack:
        path = os.path.join(folder, "race.sock")
        door = stack.enter_context(socket.socket(socket.AF_UNIX, socket.SOCK_STREAM))
        door.bind(path)
        door.listen()

        def welcome() -> None:
            with contextlib.suppress(OSError):
                guest = stack.enter_context(door.accept()[0])
                guest.sendall(answer)
                heard = b""
                while lines and heard.count(b"\n") < lines:
                    heard += guest.recv(65536)
                if lines:
                    guest.close()

        threading.Thread(target=welcome, daemon=True).start()
        yield path


class Strangers(unittest.TestCase):
    def trouble(self, answer: bytes, lines: int = 0, patience: float = helpers.PATIENCE) -> str:
        """What is said of an answer to SHOW that no office gives."""
        with stood_in(answer, lines) as path, contextlib.closing(Link(path, patience)) as link:
            with self.assertRaises(Trouble) as raised:
                link.sheet()
        return str(raised.exception)

    def test_answers(self) -> None:
        stranger = "what answers there is no office: "
        endless = b"JOURNAL 1\n" + (b"X" * 79 + b"\n") * (links.LARGEST // 80 + 1)
        for answer, said in [
                (b"CLOSED\n", "the office lets nobody in any more (CLOSED)"),
                (b"X" * (links.LARGEST + 65536), stranger + "its answer has no end"),
                (endless, stranger + "its sheet has no end"),
                (b"HTTP/1.1 400\n", "the office doesn't show its journal: it said 'HTTP/1.1 400'"),
                (b"JOURNAL X\nEND\n", "the office doesn't show its journal: it said 'JOURNAL X'"),
                (b"JOURNAL 9\nTABLE 0 RACES\nEND\n", stranger + "it said 'JOURNAL 9'")]:
            self.assertEqual(self.trouble(answer), said)

    def test_office_that_goes(self) -> None:
        self.assertEqual(self.trouble(b"", lines=1), "the office has gone")
        self.assertEqual(self.trouble(b"JOURNAL 1\n", lines=1), "the office has gone")

    def test_silence(self) -> None:
        """Half an answer is none."""
        self.assertEqual(self.trouble(b"JOURNAL", patience=0.1),
                         "the office hasn't answered for 0.1 seconds")

    def test_no_seat(self) -> None:
        with helpers.served("--clients", "1") as (path, _), contextlib.closing(Link(path)) as first:
            first.ask("ROLE JURY")
            with contextlib.closing(Link(path)) as second, self.assertRaises(NoSeat):
                second.ask("SHOW")
            self.assertEqual(first.ask("RANK A"), "NO 7")


class Ways(unittest.TestCase):
    """A socket's file goes if nobody serves there, and stays if somebody does."""

    def setUp(self) -> None:
        holder = tempfile.TemporaryDirectory()
        self.addCleanup(holder.cleanup)
        self.addCleanup(os.chdir, os.getcwd())
        os.chdir(holder.name)
        self.here = holder.name

    def stays(self, path: str, why: str) -> None:
        with self.assertRaises(Trouble) as raised:
            remove_socket(path)
        self.assertIn(why, str(raised.exception))
        self.assertTrue(os.path.exists(path))

    def test_open_full_and_left(self) -> None:
        self.assertFalse(remove_socket("race.sock"))
        with helpers.served("--clients", "1", folder=self.here) as (path, _):
            self.stays(path, "an office is open at")
            with contextlib.closing(Link(path)) as link:
                link.ask("RANK A")
                self.stays(path, "an office is open at")
        self.assertTrue(remove_socket("race.sock"))
        self.assertEqual(os.listdir(), [])

    def test_another_file(self) -> None:
        with open("saturday.txt", "w") as file:
            file.write("1 1 SCORER ENTER A\n")
        self.stays("saturday.txt", "is no file that an office leaves")

    def test_looks_use_up_no_session(self) -> None:
        with helpers.served("--sessions", "2", folder=self.here) as (path, serving):
            for _ in range(3):
                self.stays(path, "an office is open at")
            for link in [Link(path), Link(path)]:
                self.assertEqual(link.ask("QUIT"), "BYE")
                link.close()
            self.assertEqual(serving.wait(helpers.PATIENCE), 0)
        self.assertTrue(remove_socket("race.sock"))

    def test_last_clients(self) -> None:
        """While an office has its last clients the file stays, by whichever name one looks for it."""
        os.mkdir("other")
        whole = os.path.abspath("race.sock")
        for name in ["race.sock", "./race.sock", "other/../race.sock", whole]:
            with helpers.served("--sessions", "1", name=name, folder=self.here) as (path, serving):
                with contextlib.closing(Link(path)) as link:
                    link.ask("RANK A")
                    helpers.until("the end at the door", lambda: not helpers.is_listening(path))
                    for other in ["race.sock", "other/../race.sock", whole]:
                        self.stays(other, "still there with its last clients")
                    self.assertEqual(link.ask("QUIT"), "BYE")
                self.assertEqual(serving.wait(helpers.PATIENCE), 0)
            self.assertTrue(remove_socket("race.sock"), name)

    def test_office_elsewhere(self) -> None:
        with helpers.served(folder=self.here):
            pass
        os.mkdir("other")
        with helpers.served(folder=os.path.join(self.here, "other")):
            self.assertTrue(remove_socket("race.sock"))
            self.assertTrue(os.path.exists("other/race.sock"))

    def goes_on(self, path: str, serving: subprocess.Popen[str]) -> None:
        """Another client is served once the first has gone; if the door then fails, the table comes."""

        def is_served() -> bool:
            # Until the office has parted with the first client it may have no room for another, who gets
            # BUSY, or is left without an answer.
            with contextlib.closing(Link(path)) as again, contextlib.suppress(Trouble):
                return again.ask("RANK A") == "RANK 1= 0.0"
            return False

        helpers.until("a client after the first", is_served)
        resource.prlimit(serving.pid, resource.RLIMIT_NOFILE, (3, 3))
        with socket.socket(socket.AF_UNIX, socket.SOCK_STREAM) as refused:
            refused.connect(path)
            helpers.until("the end at the door", lambda: not helpers.is_listening(path))
        self.assertEqual(serving.wait(helpers.PATIENCE), 3)
        assert serving.stdout
        self.assertEqual(serving.stdout.read(), "TABLE 2 RACES\n1= A 0.0\n1= B 0.0\n")

    def test_link_of_another_account(self) -> None:
        """A socket of another account isn't the office's, wherever links lead from its name by now: it would
        keep the office shut, and those who type away from it."""
        os.mkdir("other")
        name = f"race-{os.getpid()}.sock"
        made = os.path.join(self.here, "other", name)
        with socket.socket(socket.AF_UNIX, socket.SOCK_STREAM) as door:
            door.bind(made)
            door.listen()
            os.remove(made)
            os.rmdir("other")
            os.symlink(self.here, "other")
            self.assertEqual(system.sockets_at(name), [True])
            with mock.patch.object(system, "folders_of_sockets", return_value={}):
                self.assertEqual(system.sockets_at(name), [])
                self.assertEqual(system.sockets_at(name, ours=False), [True])

    def test_folder_of_another_office(self) -> None:
        """It isn't asked, since it may be on a drive that hangs. Nor is a file system in which this one isn't, whatever its
        sockets are called."""
        with tempfile.TemporaryDirectory() as held, helpers.served(folder=self.here) as (path, own), \
                helpers.served(folder=held) as (_, serving), socket.socket(socket.AF_UNIX, socket.SOCK_STREAM) as door:
            other = os.path.realpath(held)
            os.mkdir(os.path.join(other, "in"))
            # The name of this one has slashes, and begins with no folder of a process.
            door.bind(os.path.join(other, "in", "race.sock"))
            door.listen()
            mounted = {"/": system.Mount(1, ["rw"]), other: system.Mount(2, ["rw"])}
            with mock.patch.object(system, "mounts", return_value=mounted), \
                    mock.patch.object(os, "lstat", hanging(os.lstat, other)), mock.patch.object(os, "stat", hanging(os.stat, other)):
                self.assertEqual(system.sockets_at(path), [True])
                self.assertTrue(system.works_in(own.pid, os.path.dirname(path)))
                self.assertFalse(system.works_in(serving.pid, os.path.dirname(path)))

    def test_another_path(self) -> None:
        """A process is found in its folder by any path of that, as where it is mounted twice."""
        with tempfile.TemporaryDirectory() as other, helpers.served(folder=self.here) as (path, own):
            folder = os.path.dirname(path)
            with mock.patch.object(os.path, "realpath", return_value="/mnt/club/cup"):
                self.assertTrue(system.works_in(own.pid, folder))
                self.assertFalse(system.works_in(own.pid, other))

    def test_no_descriptor(self) -> None:
        """A client for whom the office has no descriptor gets BUSY, and the office goes on."""
        with helpers.served(folder=self.here) as (path, serving):
            with contextlib.closing(Link(path)) as link:
                link.ask("ENTER A")
                most = 1 + max(map(int, os.listdir(f"/proc/{serving.pid}/fd")))
                resource.prlimit(serving.pid, resource.RLIMIT_NOFILE, (most, most))
                # The office has a descriptor at hand for the first, and has to find one for each other.
                for _ in range(3):
                    with socket.socket(socket.AF_UNIX, socket.SOCK_STREAM) as turned_away:
                        turned_away.settimeout(helpers.PATIENCE)
                        turned_away.connect(path)
                        self.assertEqual(turned_away.recv(100), b"BUSY\n")
                self.assertTrue(helpers.is_listening(path))
                self.assertEqual(link.ask("ENTER B"), "OK 2 1= 0.0")
                self.assertEqual(link.ask("QUIT"), "BYE")
            self.goes_on(path, serving)

    def test_few_descriptors(self) -> None:
        """However many descriptors there are, a client has a seat or gets BUSY, as often as clients come."""
        with helpers.served("--clients", "16", folder=self.here) as (path, serving):
            opened = f"/proc/{serving.pid}/fd"
            held = len(os.listdir(opened))
            hard = resource.prlimit(serving.pid, resource.RLIMIT_NOFILE)[1]
            for most in [*range(held + 4, held + 9), *range(held + 9, held + 4, -1)]:
                resource.prlimit(serving.pid, resource.RLIMIT_NOFILE, (most, hard))
                with contextlib.ExitStack() as stack, self.subTest(most):
                    turned_away = 0
                    while turned_away < 3:
                        link = stack.enter_context(contextlib.closing(Link(path)))
                        try:
                            self.assertEqual(link.ask("RANK A"), "NO 7")
                        except NoSeat:
                            turned_away += 1
                helpers.until("descriptors that are free", lambda: len(os.listdir(opened)) <= held)

    def test_no_thread(self) -> None:
        """A client for whom no thread can be started gets BUSY, and the office goes on."""
        with helpers.served(folder=self.here) as (path, serving):
            with contextlib.closing(Link(path)) as link:
                link.ask("ENTER A")
                with open(f"/proc/{serving.pid}/statm") as file:
                    space = int(file.read().split()[0]) * resource.getpagesize()
                # A thread's stack needs 8 MiB of addresses.
                resource.prlimit(serving.pid, resource.RLIMIT_AS, (space + (2 << 20), -1))
                with socket.socket(socket.AF_UNIX, socket.SOCK_STREAM) as turned_away:
                    turned_away.settimeout(helpers.PATIENCE)
                    turned_away.connect(path)
                    self.assertEqual(turned_away.recv(100), b"BUSY\n")
                self.assertEqual(link.ask("ENTER B"), "OK 2 1= 0.0")
                self.assertEqual(link.ask("QUIT"), "BYE")
            self.goes_on(path, serving)

    def test_failed_door(self) -> None:
        """An office whose `accept` keeps failing lets nobody in, and still serves those who are there."""
        with helpers.served(folder=self.here) as (path, serving):
            with contextlib.closing(Link(path)) as link:
                self.assertEqual(link.ask("ENTER A"), "OK 1 1 0.0")
                resource.prlimit(serving.pid, resource.RLIMIT_NOFILE, (3, 3))
                with socket.socket(socket.AF_UNIX, socket.SOCK_STREAM) as refused:
                    refused.connect(path)
                    helpers.until("the end at the door", lambda: not helpers.is_listening(path))
                self.stays(path, "still there with its last clients")
                self.assertEqual(link.ask("ENTER B"), "OK 2 1= 0.0")
                self.assertEqual(link.ask("QUIT"), "BYE")
            self.assertEqual(serving.wait(helpers.PATIENCE), 3)
            assert serving.stdout
            self.assertEqual(serving.stdout.read(), "TABLE 2 RACES\n1= A 0.0\n1= B 0.0\n")
        self.assertTrue(remove_socket("race.sock"))


if __name__ == "__main__":
    unittest.main()
