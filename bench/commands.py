#!/usr/bin/env python3
"""Counts the instructions that each command takes, by valgrind's callgrind.

    bench/commands.py PROGRAM

Each series has some boats and 15 races that count; nine boats of ten finish in each race. Each command
is the last line of a run of `PROGRAM replay`. What the same run without it takes is subtracted, so a
figure includes what a longer input, a longer table and the allocator add. The figures are the same
on a busy machine. They are printed in thousands.
"""
import argparse

from season import instructions, text

RACES, FLEETS = 15, (25, 200, 450)
# Each boat whose number is a multiple of this one doesn't finish.
ABSENT = 10
# The race that the lines below change.
CHANGED = 10

# What is counted, and its lines: all but the last are part of what is subtracted. `first` won the race
# that is changed, `middle` is in the middle of its finishers, `absent` finished in no race.
LINES = (
    ("a line that is no command", ["NOTHING"]),
    ("RANK", ["RANK {middle}"]),
    ("SHOW", ["SHOW"]),
    ("a refused command", ["FINISH 10 {middle}"]),
    ("ENTER before a race counts", None),
    ("ENTER, all races counting", ["ENTER NEW"]),
    ("FINISH, the race doesn't count", ["FINISH 16 {middle}"]),
    ("FINISH, last", ["FINISH 10 {absent}"]),
    ("STRIKE, in mid-fleet", ["STRIKE 10 {middle}"]),
    ("BEFORE, in mid-fleet", ["BEFORE 10 {absent} {middle}"]),
    ("BEFORE the first boat", ["BEFORE 10 {absent} {first}"]),
    ("TIE, in mid-fleet", ["TIE 10 {absent} {middle}"]),
    ("MARK of a boat in mid-fleet", ["MARK 10 {middle} RET"]),
    ("PENALTY", ["PENALTY 10 {middle} SCP"]),
    ("REDRESS in points", ["ROLE JURY", "REDRESS 10 {middle} 2.5"]),
    ("REDRESS, an average", ["ROLE JURY", "REDRESS 10 {middle} ALL"]),
    ("CLEAR of a penalty", ["PENALTY 10 {middle} SCP", "CLEAR 10 {middle}"]),
    ("UNSCORE", ["UNSCORE 10"]),
    ("SCORE", ["UNSCORE 10", "SCORE 10"]),
)


def entered(boats):
    return [f"ENTER GBR{boat + 1}" for boat in range(boats)]


def finishers(boats, race):
    """The boats that finish in a race, the best first: in another order in each race."""
    order = sorted(range(boats), key=lambda boat: (boat * 7919 + race * 104729) % 10007)
    return [f"GBR{boat + 1}" for boat in order if boat % ABSENT != ABSENT - 1]


def sailed(boats):
    """The lines of the races."""
    lines = []
    for race in range(1, RACES + 1):
        lines += [f"FINISH {race} {boat}" for boat in finishers(boats, race)] + [f"SCORE {race}"]
    return lines


def counted(program, boats, lines):
    """The instructions of the last line, in a series of `boats` boats."""
    if lines is None:
        before, last = entered(boats - 1), entered(boats)[-1]
    else:
        order = finishers(boats, CHANGED)
        names = {"first": order[0], "middle": order[len(order) // 2], "absent": f"GBR{ABSENT}"}
        *more, last = [line.format(**names) for line in lines]
        before = entered(boats) + sailed(boats) + more
    return instructions(program, [], text(before + [last])) - instructions(program, [], text(before))


def main():
    parser = argparse.ArgumentParser(
        description=__doc__, formatter_class=argparse.RawDescriptionHelpFormatter)
    parser.add_argument("program", metavar="PROGRAM")
    asked = parser.parse_args()
    print("| command | " + " | ".join(f"{boats} boats" for boats in FLEETS) + " |")
    print("|---|" + "---|" * len(FLEETS))
    for name, lines in LINES:
        found = [counted([asked.program], boats, lines) / 1000 for boats in FLEETS]
        print(f"| {name} | " + " | ".join(f"{number:,.0f}" for number in found) + " |", flush=True)


if __name__ == "__main__":
    main()
