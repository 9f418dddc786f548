#!/usr/bin/env python3
"""Times `regatta serve` over a real Unix socket, or soaks it.

    bench/serve.py [--clients N] [--watchers M] [--entries E] [--commands C] [--rounds R]
                   [--counting] [--native] [--beside WORDS] PROGRAM WORD..
    bench/serve.py --soak [--lines L] [--seed S] [--replay PROGRAM] PROGRAM WORD..

PROGRAM WORD.. is what serves, such as `crates/regatta/out/regatta serve`; `--socket`, `--clients` and
`--sessions` are added to it.

The first form starts the program R times. N clients, each a process with a race of its own, send C
commands in all (default 4,000), one line at a time, and all of them are accepted. Meanwhile M watchers
ask for SHOW without a pause. With E the journal has E entries before the clock starts. Accepted
commands a second, how long a line waited for its reply, SHOWs a second, and the peak memory of the
program are printed.

With `--counting` there are 200 boats, and each client's race counts: by turns its first finisher is
struck and finishes last, so that each command changes what some boats score.

With `--native` the clients and watchers are threads of a program in C (load.c), which is compiled
first: a client in Python is slower than the program. With `--beside` the program of those words runs,
too, in each round, and the two are compared.

The second form is in soak.py.
"""
import argparse
import multiprocessing
import os
import shlex
import statistics
import subprocess
import sys
import tempfile
import time

from compiled import compiled

sys.path.append(os.path.dirname(os.path.dirname(os.path.abspath(__file__))))
from raceoffice.errors import Gone  # noqa: E402
from raceoffice.program.link import Link  # noqa: E402

SEATS, COMMANDS, RACES, JOURNAL = 16, 4000, 40, 8192
# The boats of a series whose races count, and how many finish in each race.
BOATS, FINISHERS = 200, 20
# Seconds that an answer may take.
PATIENCE = 60.0


class Server:
    """A program that serves, and its socket."""

    def __init__(self, words, clients, sessions):
        self.folder = tempfile.TemporaryDirectory()
        self.path = os.path.join(self.folder.name, "socket")
        words = words + ["--socket", self.path, "--clients", str(clients)]
        self.out = tempfile.TemporaryFile()
        self.errors = tempfile.TemporaryFile()
        self.program = subprocess.Popen(words + ["--sessions", str(sessions)],
                                        stdout=self.out, stderr=self.errors)
        for _ in range(1000):
            if os.path.exists(self.path) or self.program.poll() is not None:
                break
            time.sleep(0.01)
        if self.program.poll() is not None:
            status, _, errors = self.end()
            sys.exit(f"{words[0]} ended with status {status}: {errors.decode()}")

    def memory(self):
        """The peak memory of the program so far, in MiB."""
        with open(f"/proc/{self.program.pid}/status") as status:
            kib = next(line.split()[1] for line in status if line.startswith("VmHWM"))
        return int(kib) / 1024

    def end(self):
        """Waits for the program to end. Returns its status and what it wrote."""
        status = self.program.wait(timeout=60)
        self.out.seek(0)
        self.errors.seek(0)
        return status, self.out.read(), self.errors.read()


def commands_of(race, counting, count):
    """The commands that a client sends."""
    turn = [f"FINISH {race} A", f"STRIKE {race} A"]
    if counting:
        turn = [f"{word} {race} B{boat + 1}" for boat in range(FINISHERS) for word in ("STRIKE", "FINISH")]
    return [f"{turn[i % len(turn)]}\n".encode() for i in range(count)]


def write_commands(path, race, counting, count, start, results):
    """Sends `count` commands of one race, each after the reply to the one before."""
    client = Link(path, PATIENCE)
    client.ask("RANK A")
    lines = commands_of(race, counting, count)
    # A reply is so short that it comes whole. A socket without a time limit makes one system call
    # fewer for each reply.
    client.socket.settimeout(None)
    send, receive, clock = client.socket.send, client.socket.recv, time.perf_counter
    waits, replies = [], []
    start.wait()
    began = clock()
    for line in lines:
        before = clock()
        send(line)
        replies.append(receive(128))
        waits.append(clock() - before)
    ended = clock()
    accepted = sum(reply.startswith(b"OK") for reply in replies)
    results.put(("writer", began, ended, accepted, waits))
    client.ask("QUIT")


def watch(path, done, start, results):
    """Asks for SHOW until the writers are done."""
    client = Link(path, PATIENCE)
    client.ask("RANK A")
    start.wait()
    waits = []
    began = time.perf_counter()
    while not done.is_set():
        before = time.perf_counter()
        read_sheet(client)
        waits.append(time.perf_counter() - before)
    results.put(("watcher", began, time.perf_counter(), len(waits), waits))
    client.ask("QUIT")


def read_sheet(client):
    """Reads the answer to SHOW as bytes: what a client makes of it isn't timed."""
    client.socket.sendall(b"SHOW\n")
    end = b""
    while not end.endswith(b"\nEND\n"):
        data = client.socket.recv(1 << 20)
        if not data:
            sys.exit("the program ended within a sheet")
        end = (end + data)[-5:]


def first_link(path):
    """A link to an office that has just begun: its socket's file is there before it listens."""
    for _ in range(1000):
        try:
            return Link(path, PATIENCE)
        except Gone:
            time.sleep(0.01)
    sys.exit("the program doesn't listen")


def first_lines(asked):
    """What is entered before the clock starts: two boats and `--entries` entries more; or a series whose
    races count, one for each client."""
    lines = ["ENTER A", "ENTER B"]
    lines += [f"{('FINISH', 'STRIKE')[i % 2]} {RACES} B" for i in range(asked.entries)]
    if asked.counting:
        lines += [f"ENTER B{boat + 1}" for boat in range(BOATS - 2)]
        for race in range(1, asked.clients + 1):
            lines += [f"FINISH {race} B{boat + 1}" for boat in range(FINISHERS)] + [f"SCORE {race}"]
    return lines


def begin(server, lines):
    """Sends the first lines, each of which is accepted."""
    client = first_link(server.path)
    for line in lines:
        if not client.ask(line).startswith("OK"):
            sys.exit(f"the program refuses {line}")
    client.ask("QUIT")
    client.close()
    time.sleep(0.05)


def told_by_threads(server, asked, commands):
    """The report of each client and watcher of the program in C."""
    words = [asked.native, server.path, str(asked.clients), str(asked.watchers), str(commands)]
    words += [str(FINISHERS)] if asked.counting else []
    told = []
    for line in subprocess.run(words, check=True, stdout=subprocess.PIPE).stdout.splitlines():
        kind, began, ended, accepted, *waits = line.decode().split(" ")
        told.append((kind, float(began), float(ended), int(accepted), [float(w) for w in waits]))
    return told


def told_by_processes(server, asked, commands):
    """The report of each client and watcher of this program."""
    clients, watchers = asked.clients, asked.watchers
    start = multiprocessing.Barrier(clients + watchers)
    done, results = multiprocessing.Event(), multiprocessing.Queue()
    shares = [commands // clients + (i < commands % clients) for i in range(clients)]
    processes = [multiprocessing.Process(target=write_commands,
                                         args=(server.path, i + 1, asked.counting, share, start,
                                               results))
                 for i, share in enumerate(shares)]
    processes += [multiprocessing.Process(target=watch, args=(server.path, done, start, results))
                  for _ in range(watchers)]
    for process in processes:
        process.start()
    told = [results.get(timeout=120)]
    while len(told) < len(processes):
        if sum(kind == "writer" for kind, *_ in told) == clients:
            done.set()
        told.append(results.get(timeout=120))
    for process in processes:
        process.join()
    return told


def run_once(words, asked):
    """One round: its seconds, how many commands were accepted, the waits of both kinds, the memory."""
    server = Server(words, asked.clients + asked.watchers, asked.clients + asked.watchers + 2)
    lines = first_lines(asked)
    begin(server, lines)
    commands = min(asked.commands, JOURNAL - len(lines))
    told = (told_by_threads if asked.native else told_by_processes)(server, asked, commands)
    memory = server.memory()
    last = Link(server.path, PATIENCE)
    last.ask("QUIT")
    status, _, errors = server.end()
    if status != 0:
        sys.exit(f"the program ended with status {status}: {errors.decode()}")
    writers = [one for one in told if one[0] == "writer"]
    seconds = max(one[2] for one in writers) - min(one[1] for one in writers)
    waits = [wait for one in writers for wait in one[4]]
    shows = [wait for one in told if one[0] == "watcher" for wait in one[4]]
    return seconds, sum(one[3] for one in writers), waits, shows, memory


def percentiles(waits):
    """The waits that 50, 99 and 99.9 percent of all don't exceed, in microseconds."""
    waits = sorted(waits)
    at = [waits[min(len(waits) - 1, int(len(waits) * part))] for part in (0.5, 0.99, 0.999)]
    return "50% {:.0f}, 99% {:.0f}, 99.9% {:.0f} microseconds".format(*(1e6 * x for x in at))


class Told:
    """The figures of all rounds of one program."""

    def __init__(self, words):
        self.words, self.rates, self.waits, self.memory = words, [], [], 0
        self.shows, self.show_rates = [], []

    def run(self, asked):
        seconds, accepted, waits, shows, memory = run_once(self.words, asked)
        self.rates.append(accepted / seconds)
        self.waits += waits
        self.shows += shows
        self.show_rates.append(len(shows) / seconds)
        self.memory = max(self.memory, memory)

    def rate(self):
        return statistics.median(self.rates)

    def print(self):
        print(" ".join(self.words))
        print(f"  {self.rate():.0f} accepted commands a second "
              f"({min(self.rates):.0f} to {max(self.rates):.0f})")
        print(f"  a command waits {percentiles(self.waits)}")
        if self.shows:
            print(f"  {statistics.median(self.show_rates):.0f} times SHOW a second, "
                  f"which waits {percentiles(self.shows)}")
        print(f"  {self.memory:.1f} MiB at most")


def print_ratios(one, other):
    """How the first program compares with the other."""
    print(f"{one.rate() / other.rate():.2f} times as fast as the other")
    if one.shows and other.shows:
        rate = statistics.median(one.show_rates) / statistics.median(other.show_rates)
        wait = statistics.median(one.shows) / statistics.median(other.shows)
        print(f"{rate:.2f} times as many SHOWs a second; "
              f"the median SHOW waits {wait:.2f} times as long")


def bench(asked):
    programs = [Told(asked.words)]
    if asked.beside:
        programs.append(Told(shlex.split(asked.beside)))
    for _ in range(asked.rounds):
        for program in programs:
            program.run(asked)
    print(f"{asked.clients} clients, {asked.watchers} watchers, {asked.rounds} rounds")
    for program in programs:
        program.print()
    if asked.beside:
        print_ratios(*programs)
    return 0


def main():
    parser = argparse.ArgumentParser(usage=__doc__.split("\n\n")[1])
    parser.add_argument("--clients", type=int, default=4)
    parser.add_argument("--watchers", type=int, default=0)
    parser.add_argument("--entries", type=int, default=0)
    parser.add_argument("--commands", type=int, default=COMMANDS)
    parser.add_argument("--rounds", type=int, default=5)
    parser.add_argument("--counting", action="store_true")
    parser.add_argument("--native", action="store_true")
    parser.add_argument("--beside")
    parser.add_argument("--soak", action="store_true")
    parser.add_argument("--lines", type=int, default=200_000)
    parser.add_argument("--seed", type=int, default=1)
    parser.add_argument("--replay")
    parser.add_argument("words", nargs=argparse.REMAINDER)
    asked = parser.parse_args()
    if not asked.words:
        parser.error("no program is named")
    if asked.soak:
        from soak import soak
        return soak(asked.words, asked.replay or asked.words[0], asked.lines, asked.seed)
    if asked.clients < 1 or asked.clients + asked.watchers > SEATS:
        parser.error("there are 16 seats")
    with tempfile.TemporaryDirectory() as folder:
        asked.native = compiled(folder, "load.c", "-pthread") if asked.native else None
        return bench(asked)


if __name__ == "__main__":
    multiprocessing.set_start_method("fork")
    sys.exit(main())
