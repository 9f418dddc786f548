#!/usr/bin/env python3
"""Compares corrected times of the program `times` with exact fractions.

    tests/times_exact.py PROGRAM [--count N] [--seed S]

Random sheets of up to 500 boats, of each system and each rule for rounding, are given to the program.
Its lines are compared with what Python's fractions come to. N is the least number of times, by
default 20,000. The last line is `N passed, M failed`.
"""
from __future__ import annotations

import argparse
import math
import random
import subprocess
import sys
from fractions import Fraction

HALF = Fraction(1, 2)
RULES = {
    "half-up": lambda time: math.floor(time + HALF),
    "half-down": lambda time: math.ceil(time - HALF),
    "down": math.floor,
    "up": math.ceil,
}
SYSTEMS = ["tcf", "py", "py with laps", "tod"]
BOATS = 500
LARGEST = 999_999


class Sheet:
    """A random sheet, and the seconds that each boat has to get."""

    def __init__(self, dice: random.Random, system: str, rule: str) -> None:
        self.dice, self.system, self.rule = dice, system, rule
        self.rows: list[str] = []
        self.wanted: list[str] = []
        self.race = dice.randint(1, 40)
        self.most = dice.randint(1, 99)
        # The boat with the most laps is always there, as the first.
        while len(self.rows) < BOATS:
            self.add(f"B{len(self.rows)}", self.most if not self.rows else dice.randint(1, self.most))

    def add(self, sail: str, laps: int) -> None:
        """A boat, unless her time is outside the range: then the program refuses the sheet."""
        elapsed = self.dice.choice([self.dice.randint(0, 20_000), self.dice.randint(0, LARGEST)])
        rating, distance, time = self.rated(elapsed, laps)
        seconds = RULES[self.rule](time)
        if time < 0 or seconds > LARGEST:
            return
        text, start, finish = self.clocked(elapsed)
        lapped = str(laps) if self.system == "py with laps" else ""
        self.rows.append(f"{sail},{rating},{text},{start},{finish},{lapped},{distance}")
        self.wanted.append(f"TIME {self.race} {sail} {seconds}")

    def rated(self, elapsed: int, laps: int) -> tuple[str, str, Fraction]:
        """A rating, the distance if it needs one, and the exact corrected time."""
        dice = self.dice
        if self.system == "tcf":
            places = dice.randint(0, 4)
            factor = Fraction(dice.randint(1, 10 ** (places + 1) - 1), 10 ** places)
            return decimal(factor, places), "", elapsed * factor
        if self.system == "tod":
            allowance = Fraction(dice.randint(-99_999, 99_999), 100)
            miles = Fraction(dice.randint(1, dice.choice([2_000, 99_999])), 100)
            return decimal(allowance, 2), decimal(miles, 2), elapsed - allowance * miles
        number = dice.choice([dice.randint(1, 9_999), dice.randint(700, 1_700)])
        time = Fraction(elapsed * 1000, number)
        return str(number), "", time * self.most / laps if "laps" in self.system else time

    def clocked(self, elapsed: int) -> tuple[str, str, str]:
        """The elapsed time in one of its forms, or a start and a finish, perhaps the next day."""
        form = self.dice.randint(0, 3)
        if form == 0 or elapsed >= 86_400 and form == 3:
            return str(elapsed), "", ""
        if form == 1:
            return f"{elapsed // 60}:{elapsed % 60:02}", "", ""
        if form == 2:
            return hms(elapsed), "", ""
        start = self.dice.randint(0, 86_399)
        return "", hms(start), hms((start + elapsed) % 86_400)

    @property
    def text(self) -> str:
        return "Sail,Rating,Elapsed,Start,Finish,Laps,Distance\n" + "\n".join(self.rows) + "\n"


def decimal(value: Fraction, places: int) -> str:
    """A number with this number of decimals."""
    units = abs(value) * 10 ** places
    whole, part = divmod(int(units), 10 ** places)
    return ("-" if value < 0 else "") + (f"{whole}.{part:0{places}}" if places else str(whole))


def hms(seconds: int) -> str:
    return f"{seconds // 3600}:{seconds // 60 % 60:02}:{seconds % 60:02}"


def differences(program: str, sheet: Sheet) -> list[str]:
    """The boats whose line isn't the one that the fractions give."""
    words = ["--race", str(sheet.race), "--system", sheet.system.split()[0], "--rounding", sheet.rule,
             "--overnight"]
    done = subprocess.run([program, "lines", *words], input=sheet.text, capture_output=True,
                          encoding="utf-8", timeout=120)
    if done.returncode:
        return [f"{sheet.system}, {sheet.rule}: {done.stderr.strip()}"] * len(sheet.rows)
    lines = done.stdout.splitlines()
    wrong = [f"{sheet.system}, {sheet.rule}: {row}: {got!r}, and not {wanted!r}"
             for row, got, wanted in zip(sheet.rows, lines, sheet.wanted) if got != wanted]
    return wrong + ["a line too many or too few"] * abs(len(lines) - len(sheet.wanted))


def main() -> int:
    parser = argparse.ArgumentParser(description="Corrected times beside exact fractions.")
    parser.add_argument("program")
    parser.add_argument("--count", type=int, default=20_000, help="the least number of times")
    parser.add_argument("--seed", type=int, default=2026)
    asked = parser.parse_args()
    dice = random.Random(asked.seed)
    passed = failed = 0
    kinds = [(system, rule) for system in SYSTEMS for rule in RULES]
    while passed + failed < asked.count:
        for system, rule in kinds:
            sheet = Sheet(dice, system, rule)
            wrong = differences(asked.program, sheet)
            for text in wrong[:5]:
                print(text)
            failed += len(wrong)
            passed += len(sheet.rows) - min(len(wrong), len(sheet.rows))
            if passed + failed >= asked.count:
                break
    print(f"{passed} passed, {failed} failed")
    return 1 if failed else 0


if __name__ == "__main__":
    sys.exit(main())
