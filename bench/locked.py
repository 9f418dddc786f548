#!/usr/bin/env python3
"""Counts the instructions of a line under the desk's lock, by valgrind's callgrind.

    bench/locked.py PROGRAM

An office with two or sixteen seats serves 200 boats and 15 races that count; the first 180 boats
finish in each race, in one order. Each line is sent after these, and what a run without it takes is
subtracted. `Office::desk`, which takes the lock, is counted, and the functions that are called under
it: `Desk::confirm` and `Desk::reply`; or `Board::prepare` alone. Giving the lock back isn't counted,
nor is `Desk::tell`, which `Desk::reply` calls too, nor a function that the compiler has inlined: the
script names that, and ends with status 1 if it is `Desk::reply` or `Board::prepare`.
"""
import argparse
import os
import re
import subprocess
import sys
import tempfile
import time

from serve import first_link

BOATS, FINISHERS, RACES = 200, 180, 15
# None of these calls another: callgrind stops counting when it enters a second one.
UNDER_THE_LOCK = ["regatta_desk::office::Office::desk::*", "regatta_desk::desk::Desk::confirm*",
                  "regatta_desk::desk::Desk::reply*"]
PREPARE = ["regatta_board::board::Board::prepare*"]
# Without these, the count says nothing.
NEEDED = ("regatta_desk::desk::Desk::reply*", *PREPARE)
FINISH = ("FINISH, the race doesn't count", f"FINISH {RACES + 1} B9")
# What is counted, by the seats of the office. The last BEFORE moves nearly every boat that finished.
ROWS = (
    (2, "RANK", "RANK B9"),
    (2, *FINISH),
    (16, *FINISH),
    (2, "BEFORE the first of 180 finishers", f"BEFORE 10 B{FINISHERS} B0"),
)


def series():
    """The lines of the series."""
    lines = [f"ENTER B{boat}" for boat in range(BOATS)]
    for race in range(1, RACES + 1):
        lines += [f"FINISH {race} B{boat}" for boat in range(FINISHERS)] + [f"SCORE {race}"]
    return lines


def counted(program, seats, functions, lines):
    """The instructions of these functions, and of what they call, for the lines of a client."""
    with tempfile.TemporaryDirectory() as folder:
        path = os.path.join(folder, "socket")
        words = ["valgrind", "--tool=callgrind", "--callgrind-out-file=/dev/null"]
        words += [f"--toggle-collect={name}" for name in functions]
        words += [program, "serve", "--socket", path, "--clients", str(seats), "--sessions", "1"]
        office = subprocess.Popen(words, stdout=subprocess.DEVNULL, stderr=subprocess.PIPE)
        while not os.path.exists(path) and office.poll() is None:
            time.sleep(0.05)
        client = first_link(path)
        for line in lines:
            if not client.ask(line).startswith(("OK", "RANK")):
                sys.exit(f"the program refuses {line}")
        client.ask("QUIT")
        client.close()
        said = office.communicate()[1].decode()
        return int(re.search(r"Collected : (\d+)", said)[1])


def name_inlined(program):
    """Names each function without a count: all are called for these lines, unless inlined."""
    for name in UNDER_THE_LOCK + PREPARE:
        if counted(program, 2, [name], ["ENTER A", "RANK A"]) == 0:
            if name in NEEDED:
                sys.exit(f"{name} can't be counted: it is inlined, or has another name")
            print(f"not counted, as it is inlined: {name}", file=sys.stderr)


def main():
    parser = argparse.ArgumentParser(
        description=__doc__, formatter_class=argparse.RawDescriptionHelpFormatter)
    parser.add_argument("program", metavar="PROGRAM")
    program = parser.parse_args().program
    name_inlined(program)
    before = {(seats, kind): counted(program, seats, functions, series())
              for seats in {row[0] for row in ROWS}
              for kind, functions in enumerate((UNDER_THE_LOCK, PREPARE))}
    print("| line | seats | under the lock | of that `Board::prepare` |")
    print("|---|---|---|---|")
    for seats, name, line in ROWS:
        locked, prepare = (
            counted(program, seats, functions, series() + [line]) - before[seats, kind]
            for kind, functions in enumerate((UNDER_THE_LOCK, PREPARE)))
        print(f"| {name} | {seats} | {locked:,} | {prepare:,} |", flush=True)
    return 0


if __name__ == "__main__":
    sys.exit(main())
