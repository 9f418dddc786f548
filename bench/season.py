#!/usr/bin/env python3
"""Makes full seasons and times `regatta replay` on them.

    bench/season.py [--boats B] [--races N] [--entries E] [--corrected] [--rounds R]
                    [--beside WORDS] [--peer PEER] PROGRAM [WORD..]
    bench/season.py [--boats B] [--races N] [--entries E] [--corrected] --instructions
                    [--beside WORDS] [--peer PEER] PROGRAM
    bench/season.py [--boats B] [--races N] [--entries E] [--corrected] [--shows] [--handicap]
                    --write FILE

A season has B boats, N races and at most E commands, all of them accepted. The defaults are 500, 40
and 8,192, which is as large as a series may grow. First the boats enter. Then every command of a race
is a finish, a tie, a code, a penalty or redress, and one of the last scores it. With --corrected, as
in most real seasons, a third of the commands come after the race counts: boats are struck out and
placed again, given codes, penalties and redress, or cleared, and now and then a race is unscored and
scored. PROGRAM (the built `regatta`) is run R times (default 9) as `PROGRAM replay WORD..` on each of:

- the season;
- the season with a SHOW after each sixteenth command;
- the journal of the season as a start, without lines, which computes the standing once;
- seasons of an eighth, a quarter, a half and all of the boats;
- the season with 40 late entries, and with 40 times UNSCORE and SCORE, when all races count; the time
  of one of these is printed.

With --handicap among the WORDs each finish, tie and place before another is a corrected time, in no
order.

The least processor time of each is printed, and the peak memory. With --beside the program of those
words runs, too, in each round, and the two are compared. With --peer the plain program of bench/peer
runs, too, in both ways of ranking: when a rank is asked, and kept sorted. With --write the season's lines are written
to FILE, with --shows or --handicap if these are given.

With --instructions the instructions of the season, of the season with SHOWs and of the season by
corrected times are counted instead, by valgrind. They are the same on a busy machine.
"""
import argparse
import itertools
import math
import os
import re
import shlex
import subprocess
import sys
import tempfile
import zlib

import corrected

BOATS, RACES, ENTRIES, SHOW_EVERY, LATE = 500, 40, 8192, 16, 40
# What the peer of bench/peer takes from its environment: how it ranks.
RANKINGS = ("PEER_RANKING=lazy", "PEER_RANKING=sorted")


def race_lines(race, boats, count):
    """At most `count` commands of a race, at most one for each boat, and SCORE last."""
    step = next(step for step in (7, 11, 13, 1) if math.gcd(step, boats) == 1)
    order = [(race * 37 + i * step) % boats for i in range(boats)]
    lines, placed = [], None
    for i, boat in enumerate(order[:count - 1]):
        sail = f"GBR{boat + 1}"
        if i % 23 == 11 and placed:
            lines.append(f"TIE {race} {sail} {placed}")
            placed = sail
        elif i % 17 == 13:
            lines.append(f"MARK {race} {sail} {('DNF', 'RET', 'OCS', 'DNS')[i % 4]}")
        elif i % 19 == 7:
            lines.append(f"PENALTY {race} {sail} {('ZFP', 'SCP')[i % 2]}")
        else:
            lines.append(f"FINISH {race} {sail}")
            placed = sail
    lines.append(f"SCORE {race}")
    return lines


def season(boats, races, entries):
    """The lines of a season with `boats` boats, `races` races and at most `entries` commands."""
    lines = [f"ENTER GBR{boat + 1}" for boat in range(boats)]
    left = entries - boats - races
    for race in range(1, races + 1):
        lines += race_lines(race, boats, left // races + (1 if race <= left % races else 0))
        if race % 4 == 0:
            lines += ["ROLE JURY", f"REDRESS {race} GBR{(race - 1) % boats + 1} ALL", "ROLE SCORER"]
        else:
            lines += [f"PENALTY {race} GBR{(race + boats // 2 - 1) % boats + 1} ZFP"]
    return lines


def with_shows(lines):
    """The lines with a SHOW after each sixteenth command."""
    shown, commands = [], 0
    for line in lines:
        shown.append(line)
        commands += not line.startswith("ROLE")
        if commands % SHOW_EVERY == 0 and not line.startswith("ROLE"):
            shown.append("SHOW")
    return shown


def journal(lines):
    """The journal text of the lines, which are all accepted. It has no version line, so that a program
    from before there was one reads it, too."""
    role, entries = "SCORER", []
    for line in lines:
        if line.startswith("ROLE "):
            role = line[5:]
        else:
            entries.append(f"1 {len(entries) + 1} {role} {line}")
    return entries


def by_times(lines):
    """The lines with a corrected time instead of each place."""
    timed = []
    for line in lines:
        place = re.search(r"(FINISH|TIE|BEFORE) (\d+) (\S+)(?: (\S+))?$", line)
        if place:
            how, race, sail, other = place.groups()
            seconds = 3000 + zlib.crc32(f"{race} {other or sail}".encode()) % 3000
            seconds -= how == "BEFORE"
            line = f"{line[:place.start()]}TIME {race} {sail} {seconds}"
        timed.append(line)
    return timed


def text(lines):
    return "".join(line + "\n" for line in lines).encode()


def split_settings(program):
    """The environment and the words of a program, which settings such as `NAME=value` may precede."""
    count = sum(1 for _ in itertools.takewhile(lambda word: "=" in word, program))
    return dict(os.environ, **dict(word.split("=", 1) for word in program[:count])), program[count:]


def run(program, words, data):
    """The processor seconds, peak MiB, accepted and refused commands of one run."""
    environment, program = split_settings(program)
    with tempfile.TemporaryFile() as source, tempfile.TemporaryFile() as out:
        source.write(data)
        source.seek(0)
        child = subprocess.Popen(program + ["replay"] + words, stdin=source, stdout=out, env=environment)
        _, status, use = os.wait4(child.pid, 0)
        child.returncode = os.waitstatus_to_exitcode(status)
        if child.returncode != 0:
            sys.exit(f"{program[0]} ended with {child.returncode}")
        # Line by line, since the memory of this process counts in the peak of the next child.
        out.seek(0)
        accepted, refused = 0, 0
        for reply in out:
            accepted += reply.startswith(b"OK")
            refused += reply.startswith(b"NO")
    return use.ru_utime + use.ru_stime, use.ru_maxrss / 1024, accepted, refused


def instructions(program, words, data):
    """The number of instructions of one run."""
    environment, program = split_settings(program)
    counted = subprocess.run(
        ["valgrind", "--tool=callgrind", "--callgrind-out-file=/dev/null", *program, "replay", *words],
        input=data, stdout=subprocess.DEVNULL, stderr=subprocess.PIPE, env=environment)
    found = re.search(rb"Collected : (\d+)", counted.stderr)
    if counted.returncode != 0 or not found:
        sys.exit(f"{program[0]} ended with {counted.returncode} under valgrind")
    return int(found[1])


def compared(figures):
    """How the figure of the first program compares with that of each other one."""
    ratios = [f"{figures[0] / max(other, 1e-9):.2f}" for other in figures[1:]]
    names = "the other" if len(ratios) == 1 else "the others"
    return [f"{' and '.join(ratios)} times {names}"] if ratios else []


def count(programs, full):
    """Prints the instructions of each program, in millions."""
    for name, words, lines in (("a season", [], full), ("a season with SHOWs", [], with_shows(full)),
                               ("a season by times", ["--handicap"], by_times(full))):
        counts = [instructions(program, words, text(lines)) for program in programs]
        parts = [f"{number / 1e6:9.1f} million" for number in counts]
        parts += compared(counts)
        print(f"{name:34} {'   '.join(parts)}")


class Bench:
    """Programs that take turns on the same input."""

    def __init__(self, programs, words, rounds):
        self.programs, self.words, self.rounds = programs, words, rounds

    def least(self, lines, start=None):
        """The least seconds and the most memory of each program; all must accept the same commands."""
        words, turned = list(self.words), by_times if "--handicap" in self.words else list
        data = text(turned(lines))
        with tempfile.NamedTemporaryFile() as file:
            if start is not None:
                file.write(text(turned(start)))
                file.flush()
                words += ["--journal", file.name]
            runs = [[run(program, words, data) for program in self.programs]
                    for _ in range(self.rounds)]
        if len({r[2:] for turn in runs for r in turn}) > 1:
            sys.exit("the programs accept other commands")
        return [(min(turn[i][0] for turn in runs), max(turn[i][1] for turn in runs), *runs[0][i][2:])
                for i in range(len(self.programs))]

    def show(self, name, found):
        parts = [f"{seconds * 1000:8.2f} ms, {peak:5.1f} MiB" for seconds, peak, _, _ in found]
        parts += compared([seconds for seconds, *_ in found])
        print(f"{name:34} {'   '.join(parts)}")

    def each(self, name, base, more, count):
        """Shows the cost of one of the `count` commands in `more`, which follow those in `base`."""
        before, after = self.least(base), self.least(base + more)
        found = [((a[0] - b[0]) / count, a[1], 0, 0) for a, b in zip(after, before)]
        self.show(name, found)


def measure(bench, make, boats, races, entries):
    full = make(boats, races, entries)
    found = bench.least(full)
    print(f"{found[0][2]} commands accepted and {found[0][3]} refused")
    bench.show("a season", found)
    bench.show("a season with SHOWs", bench.least(with_shows(full)))
    bench.show("the standing of its journal", bench.least([], journal(full)))
    sizes = [boats // part for part in (8, 4, 2, 1)]
    growth = [bench.least(make(size, races, entries)) for size in sizes]
    for size, found in zip(sizes, growth):
        bench.show(f"{size} boats, {found[0][2]} commands", found)
    times = growth[-1][0][0] / growth[0][0][0]
    print(f"{times:.1f} times as long for {sizes[-1]} boats as for {sizes[0]}")
    base = make(boats - LATE, races, entries - 4 * LATE)
    late = [f"ENTER NED{boat + 1}" for boat in range(LATE)]
    bench.each(f"one late entry, {races} races counting", base, late, LATE)
    again = [f"UNSCORE {races}", f"SCORE {races}"] * LATE
    bench.each("one Unscore and Score, the same", base, again, LATE)


def main():
    words = argparse.ArgumentParser(description=__doc__.split("\n")[0])
    words.add_argument("--boats", type=int, default=BOATS)
    words.add_argument("--races", type=int, default=RACES)
    words.add_argument("--entries", type=int, default=ENTRIES)
    words.add_argument("--rounds", type=int, default=9)
    words.add_argument("--beside", type=shlex.split)
    words.add_argument("--peer")
    words.add_argument("--corrected", action="store_true")
    words.add_argument("--shows", action="store_true")
    words.add_argument("--handicap", action="store_true")
    words.add_argument("--instructions", action="store_true")
    words.add_argument("--write")
    words.add_argument("program", nargs="?")
    words.add_argument("words", nargs=argparse.REMAINDER)
    given = words.parse_args()
    size = given.boats, given.races, given.entries
    if not 1 <= given.races <= RACES or given.entries < sum(size[:2]) * 3:
        words.error(f"1 to {RACES} races, and entries for them and the boats")
    if given.program and not given.instructions and given.boats <= LATE:
        words.error(f"more than {LATE} boats")
    make = corrected.season if given.corrected else season
    if given.write:
        lines = make(*size)
        lines = with_shows(lines) if given.shows else lines
        lines = by_times(lines) if given.handicap else lines
        with open(given.write, "wb") as file:
            file.write(text(lines))
    if given.program:
        programs = [[given.program]] + ([given.beside] if given.beside else [])
        programs += [[ranking, given.peer] for ranking in RANKINGS if given.peer]
        if given.instructions:
            count(programs, make(*size))
        else:
            measure(Bench(programs, given.words, given.rounds), make, *size)
    return 0


if __name__ == "__main__":
    sys.exit(main())
