#!/usr/bin/env python3
"""Tries what `regatta serve --keep` promises, and times it.

    bench/keep.py [--rounds R] [--folder FOLDER] [--only TRIAL,..] PROGRAM

The trials, each with R rounds (default 200):

- `killed`: writers and watchers, and the office is killed at a random moment;
- `torn`: the file ends at each length of the last lines, with a NUL at each place of what is left;
- `failing`: each write, sync and rename fails in turn (failing.c is preloaded);
- `full`: the disk has room for some lines only (a small tmpfs, which root alone can mount);
- `taken`: two offices are started on one file at one moment, and a third one later.

After each round the same command is given again, and the office then shows its journal. It must have
each command that was answered OK, at its place, and begin with each sheet that was shown. An office
whose file fails must say so and end with status 3, and nobody is answered after that.

`timed` gives replies a second with 1, 4 and 12 clients, beside the program without `--keep`, how many
replies there are for each sync, and how long a sync takes on the disk of FOLDER (default: the
system's folder for temporary files); and the same with each sync made 2 ms longer, as on slower disks.

It ends with status 1 if anything was missing.
"""
import argparse
import contextlib
import os
import random
import signal
import socket
import statistics
import subprocess
import sys
import tempfile
import threading
import time

from compiled import compiled

TRIALS = ("killed", "torn", "failing", "full", "taken", "timed")
SEATS, RACES = 16, 40
# Seconds that an office may take to open, to answer or to end.
PATIENCE = 30.0
# A kept file goes on over rounds until it has so many entries.
MOST_ENTRIES = 6000
# What an office says whose file fails.
FAULTS = (b"regatta: keep fault\n", b"regatta: keep fault: no space left\n")
# Microseconds by which syncs are made longer, for a disk slower than that of FOLDER.
SLOWER = 2000
# How many of twelve clients have to share such a sync.
SHARED = 8
VERSION = b"REGATTA 2\n"


class Wrong(Exception):
    """What an office did against its promise."""


class Client:
    """One client: what was answered OK, by its place, and the longest journal that was shown."""

    def __init__(self, path):
        self.socket = socket.socket(socket.AF_UNIX, socket.SOCK_STREAM)
        self.socket.settimeout(PATIENCE)
        self.socket.connect(path)
        self.rest, self.answered, self.shown = b"", {}, []

    def line(self):
        """The next line without its end; None at the end of the stream."""
        while b"\n" not in self.rest:
            try:
                data = self.socket.recv(65536)
            except ConnectionError:
                data = b""
            if not data:
                return None
            self.rest += data
        line, self.rest = self.rest.split(b"\n", 1)
        return line

    def ask(self, line):
        with contextlib.suppress(ConnectionError, BrokenPipeError):
            self.socket.sendall(line + b"\n")
        return self.line()

    def command(self, line):
        """Sends a command. False at the end of the stream."""
        reply = self.ask(line)
        if reply and reply.startswith(b"OK "):
            self.answered[int(reply.split()[1])] = line
        return reply is not None

    def show(self):
        """Asks for the sheet. False at the end of the stream."""
        first = self.ask(b"SHOW")
        if first is None or not first.startswith(b"JOURNAL "):
            return False
        lines = []
        while not lines or lines[-1] != b"END":
            line = self.line()
            if line is None:
                return False
            lines.append(line)
        self.shown = lines[:int(first.split()[1])]
        return True

    def close(self):
        self.socket.close()


class Office:
    """A program that serves with a kept file."""

    def __init__(self, program, file, path, *words, env=None, sessions=0):
        self.path, self.words = path, [program, "serve", "--keep", file, "--socket", path, "--clients",
                                       str(SEATS), "--sessions", str(sessions), *words]
        self.run = subprocess.Popen(self.words, stdout=subprocess.PIPE, stderr=subprocess.PIPE,
                                    env={**os.environ, **env} if env else None)

    def client(self):
        """A client of the open office; None if it ends before it is open."""
        ends = time.monotonic() + PATIENCE
        while time.monotonic() < ends:
            with contextlib.suppress(FileNotFoundError, ConnectionRefusedError):
                return Client(self.path)
            if self.run.poll() is not None:
                return None
            time.sleep(0.001)
        self.kill()
        raise Wrong("the office doesn't open")

    def kill(self):
        self.run.send_signal(signal.SIGKILL)
        return self.ended()

    def ended(self):
        """The status, and what was written to standard error. The socket's file is removed."""
        try:
            _, errors = self.run.communicate(timeout=PATIENCE)
        except subprocess.TimeoutExpired:
            self.run.kill()
            self.run.communicate()
            raise Wrong("the office doesn't end") from None
        with contextlib.suppress(FileNotFoundError):
            os.unlink(self.path)
        return self.run.returncode, errors


def writer(client, race, count):
    """Sends so many commands of one race, one after another, until the stream ends."""
    for i in range(count):
        if not client.command((b"FINISH %d GBR1", b"STRIKE %d GBR1")[i % 2] % race):
            return


def trickle(client):
    """Sends bytes without the end of a line, until the stream ends."""
    with contextlib.suppress(OSError):
        while True:
            client.socket.sendall(b"x")
            time.sleep(0.2)


def watcher(client, count):
    for _ in range(count):
        if not client.show():
            return


def clients_at(office, writers, watchers, commands):
    """The clients of an office and their threads, which have started."""
    clients = [office.client() for _ in range(writers + watchers)]
    works = [threading.Thread(target=writer, args=(clients[i], i + 1, commands))
             for i in range(writers)]
    works += [threading.Thread(target=watcher, args=(client, commands)) for client in clients[writers:]]
    for work in works:
        work.start()
    return clients, works


def check(journal, clients):
    """Each line that was answered is in the journal, and it begins with each sheet."""
    for client in clients:
        for place, line in client.answered.items():
            found = journal[place - 1].split(b" ", 3)[3] if place <= len(journal) else None
            if found != line:
                raise Wrong(f"entry {place} was answered as {line!r} and is {found!r}")
        if journal[:len(client.shown)] != client.shown:
            raise Wrong(f"a sheet of {len(client.shown)} entries was shown that isn't kept")


def lines_of(file):
    """The entries of a kept file that count: whole lines, up to the first with a NUL."""
    with open(file, "rb") as opened:
        whole = opened.read().split(b"\n")[:-1]
    torn = next((i for i, line in enumerate(whole) if b"\0" in line), len(whole))
    return whole[1:torn]


def opened_again(program, file, path, *words):
    """The journal that an office shows when the same command is given again, and what it notes."""
    office = Office(program, file, path, *words, sessions=1)
    client = office.client()
    if client is None:
        raise Wrong(f"the same command doesn't go on: {office.ended()}")
    if not client.show():
        raise Wrong(f"no sheet is shown: {office.ended()}")
    client.ask(b"QUIT")
    client.close()
    status, errors = office.ended()
    if status != 0:
        raise Wrong(f"status {status}: {errors!r}")
    return client.shown, errors


class Trials:
    def __init__(self, asked):
        self.program, self.rounds, self.folder = asked.program, asked.rounds, asked.folder
        self.file = os.path.join(self.folder, "kept.journal")
        self.path = os.path.join(self.folder, "socket")
        self.boats = os.path.join(self.folder, "boats.csv")
        with open(self.boats, "w") as boats:
            boats.write("Sail\n" + "".join(f"GBR{i}\n" for i in range(1, 9)))
        self.words = ["--entries", self.boats]

    def clear(self):
        for end in ("", ".cut", ".opening"):
            with contextlib.suppress(FileNotFoundError):
                os.unlink(self.file + end)
        with contextlib.suppress(FileNotFoundError):
            os.unlink(self.path)

    def killed(self):
        """The office is killed beside writers and watchers."""
        answered = 0
        for _ in range(self.rounds):
            if os.path.exists(self.file) and len(lines_of(self.file)) > MOST_ENTRIES:
                self.clear()
            office = Office(self.program, self.file, self.path, *self.words)
            clients, works = clients_at(office, 8, 2, 10_000)
            time.sleep(random.uniform(0.001, 0.2))
            office.kill()
            for work in works:
                work.join()
            answered += sum(len(client.answered) for client in clients)
            check(lines_of(self.file), clients)
            journal, _ = opened_again(self.program, self.file, self.path, *self.words)
            check(journal, clients)
        return f"{answered} commands answered"

    def torn(self):
        """What a crash may leave of the lines that were written and not yet synced."""
        synced = VERSION + b"".join(b"1 %d SCORER ENTER GBR%d\n" % (i, i) for i in range(1, 5))
        written = b"2 1 FINISH FINISH 1 GBR2\n1 5 SCORER ENTER GBR5\n"
        cases = [(length, nul) for length in range(len(written) + 1) for nul in range(-1, length)]
        if len(cases) > self.rounds > 200:
            cases = random.sample(cases, self.rounds)
        refused = 0
        for length, nul in cases:
            self.clear()
            left = bytearray(written[:length])
            if nul >= 0:
                left[nul] = 0
            text = synced + bytes(left)
            with open(self.file, "wb") as file:
                file.write(text)
            whole = lines_of(self.file)
            rest = text[len(VERSION) + sum(len(line) + 1 for line in whole):]
            # A whole good line after one with a NUL isn't cut off: a person has to look.
            if any(b"\0" not in line for line in rest.split(b"\n")[:-1]):
                refused += 1
                status, errors = Office(self.program, self.file, self.path).ended()
                with open(self.file, "rb") as file:
                    same = file.read() == text
                if (status, errors, same) != (1, b"regatta: keep damaged after line %d\n"
                                              % (len(whole) + 1), True):
                    raise Wrong(f"{text!r} isn't refused: {status} {errors!r}")
                continue
            journal, errors = opened_again(self.program, self.file, self.path)
            if journal != whole or lines_of(self.file) != whole:
                raise Wrong(f"{text!r} is opened as {journal}")
            if rest and b"keep cut %d bytes after line %d\n" % (len(rest), len(whole) + 1) not in errors:
                raise Wrong(f"no note of {rest!r}: {errors!r}")
            if rest:
                with open(self.file + ".cut", "rb") as file:
                    if file.read() != rest:
                        raise Wrong(f"{rest!r} isn't saved")
        return f"{len(cases)} files, {refused} of them refused and left as they were"

    def failing(self):
        """Each write, sync and rename fails in turn."""
        library = compiled(self.folder, "failing.c", "-shared", "-fPIC")
        count = os.path.join(self.folder, "count")
        failed, answered = 0, 0
        for nth in range(1, self.rounds + 1):
            self.clear()
            with open(count, "wb") as file:
                file.write(bytes(16))
            env = {"LD_PRELOAD": library, "FAIL_NTH": str(nth), "FAIL_COUNT": count}
            office = Office(self.program, self.file, self.path, *self.words, env=env)
            clients, works = self.clients_of_failing(office, 4, 300)
            for work in works:
                work.join()
            with open(count, "rb") as file:
                calls = int.from_bytes(file.read(8), sys.byteorder)
            if calls < nth:
                office.kill()
                raise Wrong(f"only {calls} calls were made")
            failed += 1
            self.ended_by_fault(office, clients)
            answered += sum(len(client.answered) for client in clients)
            journal, _ = opened_again(self.program, self.file, self.path, *self.words)
            check(journal, clients)
        return f"{failed} calls failed, {answered} commands answered before"

    @staticmethod
    def clients_of_failing(office, writers, commands):
        """Writers, and clients who are silent or never end a line, of an office that may end before it
        is open."""
        first = office.client()
        if first is None:
            return [], []
        clients, works = [first], []
        with contextlib.suppress(OSError):
            threading.Thread(target=trickle, args=(Client(office.path),), daemon=True).start()
        for race in range(1, writers + 1):
            with contextlib.suppress(OSError):
                clients.append(Client(office.path))
                works.append(threading.Thread(target=writer, args=(clients[-1], race, commands)))
                works[-1].start()
        return clients, works

    @staticmethod
    def ended_by_fault(office, clients):
        """The office has ended since its file failed, and answers nobody."""
        status, errors = office.ended()
        if status != 3 or errors not in FAULTS:
            raise Wrong(f"status {status}: {errors!r}")
        for client in clients:
            reply = client.ask(b"ROLE JURY")
            if reply not in (None, b"BUSY"):
                raise Wrong(f"somebody was answered {reply!r} after the failure")
            client.close()

    def full(self):
        """The disk has room for some lines only."""
        disk = os.path.join(self.folder, "disk")
        os.makedirs(disk, exist_ok=True)
        mount = ["mount", "-t", "tmpfs", "-o", "size=64k", "tmpfs", disk]
        if subprocess.run(mount, stderr=subprocess.DEVNULL).returncode != 0:
            return None
        failed, answered = 0, 0
        file, filler = os.path.join(disk, "kept.journal"), os.path.join(disk, "filler")
        try:
            for _ in range(self.rounds):
                for name in os.listdir(disk):
                    os.unlink(os.path.join(disk, name))
                with open(filler, "wb") as opened:
                    opened.write(bytes(4096 * random.randint(10, 15)))
                office = Office(self.program, file, self.path, *self.words)
                clients, works = self.clients_of_failing(office, 4, 1500)
                for work in works:
                    work.join()
                self.ended_by_fault(office, clients)
                failed += 1
                answered += sum(len(client.answered) for client in clients)
                # Space is made, and the same command goes on.
                os.unlink(filler)
                journal, _ = opened_again(self.program, file, self.path, *self.words)
                check(journal, clients)
        finally:
            subprocess.run(["umount", disk])
        return f"{failed} disks were full, {answered} commands answered before"

    def taken(self):
        """Two offices on one file, and a third one while one of them serves."""
        other = self.path + "2"
        for _ in range(self.rounds):
            offices = [Office(self.program, self.file, path, *self.words) for path in (self.path, other)]
            ends = time.monotonic() + PATIENCE
            while all(office.run.poll() is None for office in offices):
                if time.monotonic() > ends:
                    raise Wrong("neither of two offices ends")
                time.sleep(0.001)
            offices.sort(key=lambda office: office.run.poll() is None)
            if offices[0].ended() != (3, b"regatta: keep taken\n"):
                raise Wrong("an office ends otherwise")
            client = offices[1].client()
            if client is None or not client.command(b"RANK GBR1"):
                raise Wrong(f"the other office doesn't serve: {offices[1].ended()}")
            third = Office(self.program, self.file, self.path + "3", *self.words)
            if third.ended() != (3, b"regatta: keep taken\n"):
                raise Wrong("a third office isn't refused")
            client.close()
            offices[1].kill()
        return f"{self.rounds} times two offices, and a third one"

    def timed(self):
        """Replies a second, and replies for each sync."""
        library = compiled(self.folder, "failing.c", "-shared", "-fPIC")
        load = compiled(self.folder, "load.c", "-pthread")
        print(f"  a sync takes {self.sync_time():.2f} ms at the median here")
        for clients in (1, 4, 12):
            free = [self.rate(load, library, clients)[0] for _ in range(5)]
            print(f"  {clients} clients: {statistics.median(free):.0f} replies a second without --keep")
            for pause in (0, SLOWER):
                kept = [self.rate(load, library, clients, pause) for _ in range(5)]
                rate, syncs = (statistics.median(one) for one in zip(*kept))
                print(f"    with it, a sync {pause / 1000:.0f} ms longer: {rate:.0f}, "
                      f"{syncs:.1f} for each sync")
                if clients == 12 and pause == SLOWER and syncs < SHARED:
                    raise Wrong(f"only {syncs:.1f} replies share a sync")
        return "5 rounds each"

    def sync_time(self):
        """Milliseconds for a sync of 30 bytes more, at the median."""
        times = []
        with open(os.path.join(self.folder, "synced"), "ab", buffering=0) as file:
            for _ in range(200):
                file.write(b"2 1000 FINISH FINISH 10 GBR7\n")
                began = time.perf_counter()
                os.fdatasync(file.fileno())
                times.append(time.perf_counter() - began)
        return 1000 * statistics.median(times)

    def rate(self, load, library, clients, pause=None):
        """Replies a second, and replies for each sync: without --keep if no pause is given."""
        self.clear()
        count = os.path.join(self.folder, "count")
        with open(count, "wb") as file:
            file.write(bytes(16))
        words = [self.program, "serve", "--socket", self.path, "--clients", str(SEATS)]
        env = dict(os.environ)
        if pause is not None:
            words += ["--keep", self.file]
            env |= {"LD_PRELOAD": library, "FAIL_NTH": "0", "FAIL_COUNT": count,
                    "FAIL_PAUSE": str(pause)}
        run = subprocess.Popen(words, env=env, stdout=subprocess.DEVNULL)
        try:
            while not os.path.exists(self.path):
                time.sleep(0.01)
            time.sleep(0.05)
            client = Client(self.path)
            client.ask(b"ENTER A")
            before = self.syncs(count)
            commands = 6000 if pause is None else 400 * clients
            told = subprocess.run([load, self.path, str(clients), "0", str(commands)], check=True,
                                  stdout=subprocess.PIPE).stdout.decode().splitlines()
            rows = [line.split(" ") for line in told]
            seconds = max(float(row[2]) for row in rows) - min(float(row[1]) for row in rows)
            replies = sum(int(row[3]) for row in rows)
            syncs = self.syncs(count) - before
        finally:
            run.kill()
            run.wait()
        return replies / seconds, replies / max(syncs, 1)

    @staticmethod
    def syncs(count):
        with open(count, "rb") as file:
            return int.from_bytes(file.read(16)[8:], sys.byteorder)


def main():
    parser = argparse.ArgumentParser(usage=__doc__.split("\n\n")[1])
    parser.add_argument("--rounds", type=int, default=200)
    parser.add_argument("--folder")
    parser.add_argument("--only", default=",".join(TRIALS))
    parser.add_argument("program")
    asked = parser.parse_args()
    asked.program = os.path.abspath(asked.program)
    wrong = 0
    for name in asked.only.split(","):
        if name not in TRIALS:
            parser.error(f"there is no trial {name}")
        with tempfile.TemporaryDirectory(dir=asked.folder) as asked_folder:
            trials = Trials(argparse.Namespace(**{**vars(asked), "folder": asked_folder}))
            try:
                told = getattr(trials, name)()
                print(f"{name}: {told or 'not tried, since no tmpfs can be mounted here'}", flush=True)
            except Wrong as why:
                wrong += 1
                print(f"{name}: WRONG: {why}", flush=True)
    return 1 if wrong else 0


if __name__ == "__main__":
    sys.exit(main())
