"""`regatta serve` over real sockets and threads: all seats at once, clients who come, leave, fail and are
turned away, and the door."""
from __future__ import annotations

import contextlib
import os
import resource
import signal
import socket
import subprocess
import tempfile
import unittest
from collections.abc import Iterator
from concurrent.futures import ThreadPoolExecutor

import helpers
from raceoffice.errors import NoSeat
from raceoffice.program.link import Link, Sheet

SEATS, FULL = 16, 8192
# Lines of a client, each with its reply. The last is 80 bytes long, and a CR.
ODD = [
    (b"X" * 81, b"NO 20"), (b"X" * 5000, b"NO 20"), (b"\xff\0", b"NO 21"), (b"\r", b"NO 21"),
    (b"ENTER\tA", b"NO 21"), (b"SHOW\r\r", b"NO 21"), (b"ENTER \xc3\xa9", b"NO 23"),
    (b"ENTER A" + b" " * 74, b"NO 20"), (b"ENTER A" + b" " * 73 + b"\r", b"OK 1 1 0.0"),
]
# The scorer's lines, and the jury's from ROLE on, which may enter no boat. The last has no end.
JURY = b"SHOW\r\nENTER A\nRANK A\nROLE JURY\nENTER B\nMARK 1 A DSQ\nNOPE\nENT"
JURY_REPLIES = (b"JOURNAL 0\nTABLE 0 RACES\nEND\nOK 1 1 0.0\nRANK 1 0.0\nROLE JURY\nNO 4\n"
                b"OK 2 1 0.0\nNO 21\n")
# Two boats with equal times; then one time is struck out and handed in again.
TIMES = (b"ENTER A\nENTER B\nENTER C\nTIME 1 A 3605\nTIME 1 B 3600\nTIME 1 C 3605\nSCORE 1\n"
         b"STRIKE 1 A\nTIME 1 A 03599\nFINISH 1 B\nQUIT\n")
TIMES_REPLIES = (b"OK 1 1 0.0\nOK 2 1= 0.0\nOK 3 1= 0.0\nOK 4 1= 0.0\nOK 5 1= 0.0\nOK 6 1= 0.0\nOK 7\n"
                 b"OK 8 3 4.0\nOK 9 1 1.0\nNO 16\nBYE\n")


def by_turns(count: int) -> list[str]:
    """Entries of seat 1: A is entered, finishes race 1 and is struck out of it, by turns."""
    more = (f"1 {at} SCORER {('FINISH', 'STRIKE')[at % 2]} 1 A" for at in range(2, count + 1))
    return ["1 1 SCORER ENTER A", *more]


def connected(path: str) -> socket.socket:
    """A client's end of a stream to the office."""
    client = socket.socket(socket.AF_UNIX, socket.SOCK_STREAM)
    client.settimeout(helpers.PATIENCE)
    client.connect(path)
    return client


def rest(client: socket.socket) -> bytes:
    """All that comes up to the end of the stream. A stream that is reset has no such end."""
    pieces = []
    while piece := client.recv(1 << 20):
        pieces.append(piece)
    return b"".join(pieces)


def send(client: socket.socket, text: bytes) -> None:
    """Sends a text. A client who is turned away can't, and has yet to read why."""
    with contextlib.suppress(BrokenPipeError):
        client.sendall(text)


def answers(path: str, text: bytes) -> bytes:
    """What a client reads who sends this text, up to the end of the stream."""
    with connected(path) as client:
        send(client, text)
        return rest(client)


@contextlib.contextmanager
def frozen(serving: subprocess.Popen[str]) -> Iterator[None]:
    """An office that is stopped, so that what clients do is there at once when it goes on."""
    helpers.freeze(serving.pid)
    try:
        yield
    finally:
        os.kill(serving.pid, signal.SIGCONT)


class Office(unittest.TestCase):
    def setUp(self) -> None:
        holder = tempfile.TemporaryDirectory()
        self.addCleanup(holder.cleanup)
        self.here = holder.name

    def serve(self, *words: str) -> tuple[str, subprocess.Popen[str]]:
        """An office, and the path of its socket."""
        stack = contextlib.ExitStack()
        self.addCleanup(stack.close)
        return stack.enter_context(helpers.served(*words, folder=self.here))

    def start(self, entries: list[str]) -> str:
        """A file with these entries."""
        path = os.path.join(self.here, "start")
        with open(path, "w", encoding="ascii") as file:
            file.write("".join(f"{entry}\n" for entry in entries))
        return path

    def asked(self, client: socket.socket, line: bytes, reply: bytes) -> None:
        """A client sends a line, and reads this reply and no more."""
        client.sendall(line + b"\n")
        self.assertEqual(client.recv(len(reply) + 100), reply + b"\n")

    def seated(self, path: str, line: bytes, reply: bytes) -> socket.socket:
        """A client who comes again until a seat is free, and whose line is answered so."""
        found = []

        def comes() -> bool:
            client = connected(path)
            send(client, line + b"\n")
            heard = client.recv(1000)
            if heard == b"BUSY\n":
                client.close()
                return False
            found.append((client, heard))
            return True

        helpers.until("a seat that is free", comes)
        client, heard = found[0]
        self.addCleanup(client.close)
        self.assertEqual(heard, reply + b"\n")
        return client

    def shown(self, path: str) -> Sheet:
        """The sheet that a client reads who comes once a seat is free."""
        found = []

        def comes() -> bool:
            with contextlib.closing(Link(path, helpers.PATIENCE)) as link:
                with contextlib.suppress(NoSeat):
                    found.append(link.sheet())
            return bool(found)

        helpers.until("a seat that is free", comes)
        return found[0]

    def ended(self, serving: subprocess.Popen[str], table: str) -> None:
        """The office ends, and all that it has printed is this table."""
        self.assertEqual(serving.wait(helpers.PATIENCE), 0)
        assert serving.stdout
        self.assertEqual(serving.stdout.read(), table)


class AtOnce(Office):
    def test_all_seats(self) -> None:
        """Sixteen clients have a seat each, one more has none, and all of them read sheets at once."""
        start = by_turns(FULL - SEATS)
        path, serving = self.serve("--clients", str(SEATS), "--sessions", str(SEATS + 1),
                                   "--journal", self.start(start))
        clients = []
        for seat in range(1, SEATS + 1):
            client = connected(path)
            self.addCleanup(client.close)
            self.asked(client, b"ENTER %d" % (seat + 9), b"OK %d 1= 0.0" % (FULL - SEATS + seat))
            clients.append(client)
        self.assertEqual(answers(path, b"ENTER Z\n"), b"BUSY\n")
        entered = [f"{seat} {FULL - SEATS + 1 if seat == 1 else 1} SCORER ENTER {seat + 9}"
                   for seat in range(1, SEATS + 1)]
        table = ["TABLE 17 RACES", *(f"1= {sail} 0.0" for sail in range(10, 26)), "1= A 0.0"]
        sheet = "\n".join([f"JOURNAL {FULL}", *start, *entered, *table, "END\n"]).encode()

        def shows(client: socket.socket) -> bytes:
            client.sendall(b"SHOW\nQUIT\n")
            return rest(client)

        with ThreadPoolExecutor(SEATS) as pool:
            for heard in pool.map(shows, clients):
                self.assertTrue(heard == sheet + b"BYE\n", heard[:100])
        self.ended(serving, "\n".join([*table, ""]))

    def test_small_sheets(self) -> None:
        """All seats read small sheets at once, again and again, and each is let in each time."""
        path, _ = self.serve("--clients", str(SEATS))
        entered = b"OK 1 1 0.0\nOK 2 1= 0.0\nOK 3 1= 0.0\n"
        sheet = (b"JOURNAL 3\n1 1 SCORER ENTER A\n1 2 SCORER ENTER B\n1 3 SCORER ENTER C\n"
                 b"TABLE 3 RACES\n1= A 0.0\n1= B 0.0\n1= C 0.0\nEND\n")
        self.assertEqual(answers(path, b"ENTER A\nENTER B\nENTER C\nSHOW\nQUIT\n"),
                         entered + sheet + b"BYE\n")
        with ThreadPoolExecutor(SEATS) as pool:
            for heard in pool.map(answers, [path] * SEATS, [b"SHOW\n" * 500 + b"QUIT\n"] * SEATS):
                self.assertTrue(heard == sheet * 500 + b"BYE\n", heard[:1000])

    def test_side_by_side(self) -> None:
        """A client who sends nothing keeps nobody waiting. Each has the lowest free seat."""
        path, serving = self.serve("--clients", "2", "--sessions", "2")
        with connected(path) as first, connected(path) as second:
            self.asked(second, b"ENTER B", b"OK 1 1 0.0")
            self.asked(first, b"ENTER A", b"OK 2 1= 0.0")
            second.sendall(b"SHOW\nQUIT\n")
            self.assertEqual(rest(second), b"JOURNAL 2\n2 1 SCORER ENTER B\n1 1 SCORER ENTER A\n"
                             b"TABLE 2 RACES\n1= A 0.0\n1= B 0.0\nEND\nBYE\n")
            first.shutdown(socket.SHUT_WR)
            self.assertEqual(rest(first), b"")
        self.ended(serving, "TABLE 2 RACES\n1= A 0.0\n1= B 0.0\n")

    def test_four_write_and_four_watch(self) -> None:
        """Four clients fill the journal while four others, who are told of no entry, read sheets: each
        goes on from the one before. The last has the standing of its journal."""
        path, _ = self.serve("--clients", "8", "--sessions", "8")
        links = [Link(path, helpers.PATIENCE) for _ in range(8)]
        for link in links:
            self.addCleanup(link.close)
            self.assertEqual(link.ask("RANK A"), "NO 7")

        def writes(link: Link, sail: str) -> int:
            turns = (f"{('STRIKE', 'FINISH')[at % 2]} 1 {sail}" for at in range(1, FULL // 4))
            lines = [f"ENTER {sail}", *turns]
            link.socket.sendall("".join(f"{line}\n" for line in lines).encode())
            return sum(link.line().startswith("OK ") for _ in lines)

        def watches(link: Link) -> Sheet:
            last = link.sheet()
            while len(last.journal) < FULL:
                sheet = link.sheet()
                if sheet.journal[:len(last.journal)] != last.journal:
                    raise AssertionError("a sheet doesn't go on from the one before")
                last = sheet
            return last

        with ThreadPoolExecutor(8) as pool:
            watched = [pool.submit(watches, link) for link in links[4:]]
            written = [pool.submit(writes, link, sail) for link, sail in zip(links, "ABCD")]
            self.assertEqual([done.result() for done in written], [FULL // 4] * 4)
            sheets = {done.result() for done in watched}
        self.assertEqual(len(sheets), 1)
        sheet = sheets.pop()
        printed, said, status = helpers.replayed("--journal", self.start(list(sheet.journal)))
        self.assertEqual((printed.splitlines(), said, status), (list(sheet.table), "", 0))


class Sessions(Office):
    def test_odd_lines(self) -> None:
        path, _ = self.serve()
        text, replies = (b"".join(part + b"\n" for part in parts) for parts in zip(*ODD))
        self.assertEqual(answers(path, text + b"QUIT\n"), replies + b"BYE\n")

    def test_role(self) -> None:
        """A last line without its end isn't answered. The next client at the seat is the scorer."""
        path, _ = self.serve("--clients", "1")
        with connected(path) as client:
            client.sendall(JURY)
            client.shutdown(socket.SHUT_WR)
            self.assertEqual(rest(client), JURY_REPLIES)
        self.seated(path, b"ENTER B", b"OK 3 1= 0.0").close()
        journal = ("1 1 SCORER ENTER A", "1 2 JURY MARK 1 A DSQ", "1 3 SCORER ENTER B")
        self.assertEqual(self.shown(path).journal, journal)

    def test_corrected_times(self) -> None:
        path, _ = self.serve("--handicap")
        self.assertEqual(answers(path, TIMES), TIMES_REPLIES)

    def test_failed_write(self) -> None:
        """The line whose reply can't be written took effect, no later one did, and the seat is free."""
        path, _ = self.serve("--clients", "1")
        with connected(path) as client:
            self.asked(client, b"ENTER A", b"OK 1 1 0.0")
            client.shutdown(socket.SHUT_RD)
            client.sendall(b"ENTER B\nENTER C\n")
            self.seated(path, b"ENTER C", b"OK 3 1= 0.0").close()
        journal = ("1 1 SCORER ENTER A", "1 2 SCORER ENTER B", "1 3 SCORER ENTER C")
        self.assertEqual(self.shown(path).journal, journal)

    def test_failed_read(self) -> None:
        """A client who leaves replies unread resets the stream: the read fails in mid-line."""
        path, _ = self.serve("--clients", "1")
        with connected(path) as client:
            client.sendall(b"ENTER A\nENT")
            self.assertEqual(client.recv(100, socket.MSG_PEEK), b"OK 1 1 0.0\n")
        self.seated(path, b"ENTER B", b"OK 2 1= 0.0").close()
        self.assertEqual(self.shown(path).journal, ("1 1 SCORER ENTER A", "1 2 SCORER ENTER B"))


class Leaving(Office):
    def test_bytes_after_quit(self) -> None:
        """A client reads the replies and the end of the stream, whatever was sent after QUIT. When
        they come again they get the lowest seat once more, and nobody is let in after them."""
        path, serving = self.serve("--clients", "2", "--sessions", "2")
        opened = os.listdir(f"/proc/{serving.pid}/fd")
        with frozen(serving):
            client = connected(path)
            self.addCleanup(client.close)
            client.sendall(b"ENTER A\nQUIT\nENTER B\n" + b"X" * 100_000)
        # The client reads when the office has let go of the stream: bytes left unread would reset it.
        self.assertEqual(client.recv(100, socket.MSG_PEEK)[:2], b"OK")
        helpers.until("a closed stream", lambda: os.listdir(f"/proc/{serving.pid}/fd") == opened)
        self.assertEqual(rest(client), b"OK 1 1 0.0\nBYE\n")
        self.assertEqual(answers(path, b"ENTER B\nSHOW\nQUIT\n"),
                         b"OK 2 1= 0.0\nJOURNAL 2\n1 1 SCORER ENTER A\n1 2 SCORER ENTER B\n"
                         b"TABLE 2 RACES\n1= A 0.0\n1= B 0.0\nEND\nBYE\n")
        self.assertRaises(ConnectionRefusedError, connected, path)
        self.ended(serving, "TABLE 2 RACES\n1= A 0.0\n1= B 0.0\n")

    def test_seat_is_free_at_the_end(self) -> None:
        """Who has read the end of their stream may come again at once."""
        path, _ = self.serve("--clients", "1")
        for _ in range(200):
            self.assertEqual(answers(path, b"RANK A\nQUIT\n"), b"NO 7\nBYE\n")

    def test_one_seat(self) -> None:
        """While the first client has the seat, the second goes before they can read BUSY, and the
        third reads it; their lines are never read. The fourth comes after the first."""
        path, serving = self.serve("--clients", "1", "--sessions", "4",
                                   "--journal", self.start(["1 1 SCORER ENTER A"]))
        with connected(path) as first:
            self.asked(first, b"ENTER B", b"OK 2 1= 0.0")
            connected(path).close()
            with connected(path) as third:
                send(third, b"ENTER Z\n")
                self.assertEqual(rest(third), b"BUSY\n")
                first.sendall(b"QUIT\n")
                self.assertEqual(rest(first), b"BYE\n")
                self.assertEqual(answers(path, b"ENTER C\nQUIT\n"), b"OK 3 1= 0.0\nBYE\n")
        self.ended(serving, "TABLE 3 RACES\n1= A 0.0\n1= B 0.0\n1= C 0.0\n")

    def test_leaving_beside_another(self) -> None:
        """A client who leaves without QUIT gives the seat back, also if another comes, or is turned
        away, at that moment."""
        path, serving = self.serve("--clients", "1")
        for _ in range(20):
            first = self.seated(path, b"RANK A", b"NO 7")
            self.assertEqual(answers(path, b"RANK A\nQUIT\n"), b"BUSY\n")
            with frozen(serving):
                second = connected(path)
                self.addCleanup(second.close)
                second.sendall(b"RANK A\nQUIT\n")
                first.close()
            self.assertIn(rest(second), (b"BUSY\n", b"NO 7\nBYE\n"))
        self.seated(path, b"ENTER A", b"OK 1 1 0.0").close()
        self.assertEqual(self.shown(path).journal, ("1 1 SCORER ENTER A",))


class Door(Office):
    def test_without_an_end(self) -> None:
        """A door that was opened for any number of clients gives each of them."""
        path, serving = self.serve("--clients", str(SEATS))
        with frozen(serving):
            clients = [connected(path) for _ in range(SEATS)]
            for sail, client in enumerate(clients, 10):
                self.addCleanup(client.close)
                client.sendall(b"RANK %d\nQUIT\n" % sail)
        for client in clients:
            self.assertEqual(rest(client), b"NO 7\nBYE\n")
        for _ in range(5):
            self.assertEqual(answers(path, b"QUIT\n"), b"BYE\n")
        self.assertIsNone(serving.poll())

    def stopped(self, path: str, most: int) -> tuple[str, str, int]:
        """What an office prints that serves one client at this path, of at most `most` bytes, what it
        says, and its status."""

        def limit() -> None:
            signal.signal(signal.SIGXFSZ, signal.SIG_IGN)
            resource.setrlimit(resource.RLIMIT_FSIZE, (most, most))

        with open(os.path.join(self.here, "printed"), "w+b") as printed, subprocess.Popen(
                [helpers.PROGRAM, "serve", "--socket", path, "--sessions", "1"], cwd=self.here,
                stdin=subprocess.DEVNULL, stdout=printed, stderr=subprocess.PIPE, text=True,
                preexec_fn=limit, restore_signals=False) as serving:
            self.addCleanup(serving.kill)
            socket_path = os.path.join(self.here, path)
            helpers.until("a socket, or the end",
                          lambda: serving.poll() is not None or helpers.is_listening(socket_path))
            if serving.poll() is None:
                self.assertEqual(answers(socket_path, b"ENTER A\nQUIT\n"), b"OK 1 1 0.0\nBYE\n")
            said = serving.communicate(timeout=helpers.PATIENCE)[1]
            printed.seek(0)
            return printed.read().decode(), said, serving.returncode

    def test_faults(self) -> None:
        """A table that can't be printed whole, and a path that is there already, are device faults."""
        self.assertEqual(self.stopped("race.sock", 10), ("TABLE 1 RA", "regatta: device fault\n", 3))
        self.assertEqual(self.stopped("race.sock", 100), ("", "regatta: device fault\n", 3))
        os.remove(os.path.join(self.here, "race.sock"))
        self.assertEqual(self.stopped("race.sock", 100), ("TABLE 1 RACES\n1 A 0.0\n", "", 0))


if __name__ == "__main__":
    unittest.main()
