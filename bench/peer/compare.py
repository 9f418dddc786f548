#!/usr/bin/env python3
"""Compares the peer with `regatta` on random series, byte for byte and in both ways of ranking.

    bench/peer/compare.py PEER REGATTA [--count N] [--seed S]

A series has few or many boats and races, rules of any kind, commands of any kind and role, many of which
are refused, lines that can't be read, SHOW and RANK. Some series begin with a journal file and an entry
list. Each is replayed, and every fourth is served to one client, too. The first difference ends the run
with status 1.
"""
import argparse
import os
import random
import socket
import subprocess
import sys
import tempfile
import threading
import time

WAYS = ("lazy", "sorted")
FORMS = ("table", "csv", "journal")
CODES = "DNC DNS OCS UFD BFD DNF RET DSQ DNE".split()
ROLES = "FINISH JURY SCORER".split()
FAULTS = ("", "FOO", "SHOW X", "ENTER A_B", "FINISH 0 A", "FINISH 41 B1", "FINISH 1", "REDRESS 1 B1 0.9",
          "REDRESS 1 B1 7.55", "MARK 1 B1 ZFP", "PENALTY 1 B1 DSQ", "ROLE KING", "TIME 1 B1 1000000",
          "RANK B1 B2", "X" * 81, "FINISH 1 B1" + " " * 69, "FINISH 1 B1" + " " * 70)


class Series:
    """A random series: its options and lines."""

    def __init__(self, seed):
        self.rng = rng = random.Random(seed)
        self.boats = [f"B{i}" if i % 7 else f"LONG-SAIL-{i % 100}" for i in range(rng.choice((3, 4, 5, 8, 25, 60)))]
        self.races = rng.choice((1, 3, 8, 20, 40))
        self.by_times = rng.random() < 0.3
        # Few different times, so that some boats are tied.
        self.seconds = rng.choice((3, 50, 999_999))
        self.faulty = rng.choice((0.0, 0.02, 0.2))

    def options(self):
        rng, found = self.rng, ["--handicap"] if self.by_times else []
        if rng.random() < 0.5:
            found += ["--absent", rng.choice(("a52", "A53"))]
        if rng.random() < 0.5:
            found += ["--scp", str(rng.randint(1, 99))]
        if rng.random() < 0.6:
            found += ["--exclude", rng.choice(("none", "2,4", "3,5,7", "2,3,4,5", "2,8,20", "4"))]
        return found

    def decision(self):
        """A command about what a boat holds, which often needs another role."""
        rng, boat, race = self.rng, self.rng.choice(self.boats), self.rng.randint(1, self.races)
        kind = rng.choice(("MARK", "MARK", "PENALTY", "REDRESS", "REDRESS", "CLEAR", "CLEAR"))
        value = {"MARK": rng.choice(CODES), "PENALTY": rng.choice(("ZFP", "SCP")), "CLEAR": "",
                 "REDRESS": rng.choice(("ALL", "PRIOR", "PRIOR", f"{rng.randint(1, 40)}", f"{rng.randint(1, 999)}.5"))}
        return f"{kind} {race} {boat} {value[kind]}".strip()

    def placing(self):
        rng, race = self.rng, self.rng.randint(1, self.races)
        boat, other = rng.choice(self.boats), rng.choice(self.boats)
        kind = rng.choice(("FINISH", "FINISH", "FINISH", "TIE", "BEFORE", "STRIKE"))
        if self.by_times and kind != "STRIKE" and rng.random() < 0.95:
            return f"TIME {race} {boat} {rng.randint(0, self.seconds)}"
        return f"{kind} {race} {boat} {other if kind in ('TIE', 'BEFORE') else ''}".strip()

    def line(self):
        rng, turn = self.rng, self.rng.random()
        if turn < self.faulty:
            return rng.choice(FAULTS)
        if turn < 0.5:
            return self.placing()
        if turn < 0.8:
            return self.decision()
        return rng.choice((f"ENTER {rng.choice(self.boats)}", f"SCORE {rng.randint(1, self.races)}",
                           f"SCORE {rng.randint(1, self.races)}", f"UNSCORE {rng.randint(1, self.races)}",
                           f"RANK {rng.choice(self.boats)}", "SHOW" if rng.random() < 0.1 else "ROLE SCORER",
                           f"ROLE {rng.choice(ROLES)}"))

    def sailed(self):
        """Races in which most boats finish, and which count. Few boats are often tied after them."""
        rng, found = self.rng, []
        for race in range(1, min(self.races, rng.choice((2, 4, 6, 12))) + 1):
            order, placed = rng.sample(self.boats, len(self.boats)), None
            for boat in order[:rng.choice((len(order), len(order), 3))]:
                if self.by_times:
                    found.append(f"TIME {race} {boat} {rng.randint(0, self.seconds)}")
                else:
                    ties = placed and rng.random() < 0.1
                    found.append(f"TIE {race} {boat} {placed}" if ties else f"FINISH {race} {boat}")
                placed = boat
            found.append(f"SCORE {race}")
        return found

    def lines(self, count):
        """Lines, some of them of another form with the same meaning, in roles that mostly fit."""
        rng = self.rng
        found = [f"ENTER {boat}" for boat in self.boats if rng.random() < 0.8]
        if rng.random() < 0.7:
            found += self.sailed()
        for _ in range(count):
            line = self.line()
            jury = line.startswith("REDRESS") or line.endswith(("DSQ", "DNE"))
            if rng.random() < 0.9:
                found += ["ROLE JURY", line, "ROLE SCORER"] if jury else [line]
            else:
                found.append(line)
            if rng.random() < 0.05:
                found[-1] = rng.choice((found[-1].lower(), found[-1].replace(" ", "  "), found[-1] + "\r",
                                        " " + found[-1], found[-1] + " "))
        return found


def run(program, words, text, way):
    environment = dict(os.environ, PEER_RANKING=way)
    done = subprocess.run([program, "replay", *words], input=text, env=environment, capture_output=True)
    return done.stdout, done.stderr, done.returncode


def connected(path, program):
    """A client of a program that has just been started."""
    client = socket.socket(socket.AF_UNIX, socket.SOCK_STREAM)
    client.settimeout(60)
    while program.poll() is None:
        try:
            client.connect(path)
            return client
        except OSError:
            time.sleep(0.01)
    sys.exit(f"the program ended with status {program.returncode}")


def serve(program, words, text, way):
    """What one client of `PROGRAM serve` reads, what the program then prints, and its status."""
    environment = dict(os.environ, PEER_RANKING=way)
    with tempfile.TemporaryDirectory() as folder:
        path = os.path.join(folder, "socket")
        command = [program, "serve", "--socket", path, "--sessions", "1", *words]
        serving = subprocess.Popen(command, stdout=subprocess.PIPE, env=environment)
        with connected(path, serving) as client:
            def send():
                client.sendall(text)
                client.shutdown(socket.SHUT_WR)

            # A program that waits for its replies to be read reads nothing.
            sender = threading.Thread(target=send)
            sender.start()
            replies = b"".join(iter(lambda: client.recv(65536), b""))
            sender.join()
        printed, _ = serving.communicate(timeout=60)
        return replies, printed, serving.returncode


def start_files(series, regatta, folder):
    """A journal file and an entry list, if the series has them."""
    words = []
    if series.rng.random() < 0.4:
        text = "\n".join(series.lines(60) + ["ROLE SCORER", "QUIT"]).encode()
        made = run(regatta, ["--print", "journal"] + ["--handicap"] * series.by_times, text, "lazy")[0]
        path = os.path.join(folder, "journal")
        with open(path, "wb") as file:
            file.write(made.split(b"\nBYE\n")[-1])
        words += ["--journal", path]
    if series.rng.random() < 0.3:
        path = os.path.join(folder, "entries.csv")
        with open(path, "w", encoding="ascii") as file:
            file.write("Boat,Sail No\n" + "".join(f'"{i}",C {i}\r\n' for i in range(series.rng.randint(0, 6))))
        words += ["--entries", path]
    return words


def differs(peer, regatta, seed):
    """Says where the peer differs for a seed, if it does."""
    series = Series(seed)
    with tempfile.TemporaryDirectory() as folder:
        words, start = series.options(), start_files(series, regatta, folder)
        lines = series.lines(series.rng.choice((20, 200, 1000, 3000)))
        text = "\n".join(lines + ["QUIT", ""] * (seed % 8 < 5)).encode()
        tried = [(run, words + ["--print", series.rng.choice(FORMS)] + start)]
        if seed % 4 == 0:
            tried.append((serve, words + start))
        for ask, given in tried:
            wanted = ask(regatta, given, text, "lazy")
            for way in WAYS:
                found = ask(peer, given, text, way)
                if found != wanted:
                    pairs = zip(found[0].split(b"\n"), wanted[0].split(b"\n"))
                    at = next((pair for pair in pairs if pair[0] != pair[1]), (found[1:], wanted[1:]))
                    return f"seed {seed}, {ask.__name__}, {way}, {' '.join(given)}: {at[0]!r}, not {at[1]!r}"
    return None


def main():
    parser = argparse.ArgumentParser(usage=__doc__.split("\n\n")[1])
    parser.add_argument("peer")
    parser.add_argument("regatta")
    parser.add_argument("--count", type=int, default=300)
    parser.add_argument("--seed", type=int, default=1)
    asked = parser.parse_args()
    for seed in range(asked.seed, asked.seed + asked.count):
        found = differs(asked.peer, asked.regatta, seed)
        if found:
            print(found)
            return 1
    print(f"{asked.count} series: the same bytes in both ways")
    return 0


if __name__ == "__main__":
    sys.exit(main())
