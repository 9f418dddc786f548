"""A series at its limits: 500 boats, a full journal, and a whole season."""
from __future__ import annotations

import os
import tempfile
import unittest

from helpers import replayed

BOATS, FULL, RACES = 500, 8192, 40
SAILS = range(100, 100 + BOATS)
ENTRIES = [f"1 {nth} SCORER ENTER {sail}" for nth, sail in enumerate(SAILS, 1)]
TABLE = [f"TABLE {BOATS} RACES", *(f"1= {sail} 0.0" for sail in SAILS)]
# How many boats finish in each race of the season, and the longest time in seconds.
FINISHERS, LONGEST = 189, 999_999


def by_turns(count: int) -> list[str]:
    """Lines: A is entered, finishes race 1 and is struck out of it, by turns."""
    return ["ENTER A", *(f"{('FINISH', 'STRIKE')[at % 2]} 1 A" for at in range(2, count + 1))]


def sail(boat: int) -> str:
    """The sail of one of the season's boats."""
    return f"S{boat % BOATS:03}"


def season() -> list[str]:
    """The lines of a season, all of which are accepted: 500 boats and 40 races, in each of which other
    boats finish, one has a penalty and one an average as redress; then some are disqualified in the
    first race."""
    lines = [f"ENTER {sail(boat)}" for boat in range(BOATS)]
    for race in range(1, RACES + 1):
        lines += ["ROLE FINISH", *(f"FINISH {race} {sail(race * 10 + place)}" for place in range(FINISHERS)),
                  f"PENALTY {race} {sail(race)} ZFP",
                  "ROLE JURY", f"REDRESS {race} {sail(race + 100)} ALL", "ROLE SCORER", f"SCORE {race}"]
    return [*lines, "ROLE JURY", *(f"MARK 1 {sail(boat)} DSQ" for boat in range(480, 492)), "ROLE SCORER"]


def timed_season() -> tuple[list[str], dict[str, int]]:
    """The lines of a season by times, all of which are accepted, up to the longest time that there is:
    the boats that are handed in first took longest. And the net points of each boat, whose four worst
    scores of 40 are excluded."""
    boats, finishers = 60, 50
    lines = [f"ENTER {sail(boat)}" for boat in range(boats)]
    points = {sail(boat): [boats + 1] * RACES for boat in range(boats)}
    for race in range(1, RACES + 1):
        for nth in range(finishers):
            boat = sail((race * 7 + nth) % boats)
            lines.append(f"TIME {race} {boat} {LONGEST - 19_000 * nth}")
            points[boat][race - 1] = finishers - nth
        lines.append(f"SCORE {race}")
    return lines, {boat: sum(sorted(scores)[:-4]) for boat, scores in points.items()}


class Limits(unittest.TestCase):
    def printed(self, *words: str, lines: list[str] = [], journal: list[str] = []) -> list[str]:
        """What a replay that starts with a journal prints of these lines."""
        with tempfile.TemporaryDirectory() as folder:
            path = os.path.join(folder, "journal")
            with open(path, "w", encoding="ascii") as file:
                file.write("".join(f"{entry}\n" for entry in journal))
            text = "".join(f"{line}\n" for line in lines)
            printed, said, status = replayed("--journal", path, *words, lines=text)
        self.assertEqual((said, status), ("", 0))
        return printed.splitlines()

    def test_all_boats(self) -> None:
        """The texts of 500 boats are printed. A boat more is refused, and each of the 500."""
        lines = ["ENTER 600", "ENTER 100", "SHOW"]
        self.assertEqual(self.printed(lines=lines, journal=ENTRIES),
                         ["NO 5", "NO 6", f"JOURNAL {BOATS}", *ENTRIES, *TABLE, "END", *TABLE])
        results = ["rank,sail,net", *(f"1=,{sail},0.0" for sail in SAILS)]
        self.assertEqual(self.printed("--print", "csv", journal=ENTRIES), results)

    def test_all_finish(self) -> None:
        """All of 500 boats finish one race, and each has the points of her place."""
        lines = [*(f"FINISH 1 {sail}" for sail in SAILS), "SCORE 1"]
        found = self.printed(lines=lines, journal=ENTRIES)
        self.assertEqual(found[:BOATS], [f"OK {nth} 1= 0.0" for nth in range(BOATS + 1, 2 * BOATS + 1)])
        points = [f"{place} {sail} {place}.0 {place}.0" for place, sail in enumerate(SAILS, 1)]
        self.assertEqual(found[BOATS:], [f"OK {2 * BOATS + 1}", f"TABLE {BOATS} RACES 1", *points])

    def test_timed_season(self) -> None:
        """A season by times, up to the longest there is."""
        lines, nets = timed_season()
        found = self.printed("--handicap", "--exclude", "4,8,16,30", lines=lines)
        replies, table = found[:len(lines)], found[len(lines):]
        self.assertEqual([reply for reply in replies if not reply.startswith("OK ")], [])
        self.assertEqual({row.split()[1]: row.split()[2] for row in table[1:]},
                         {boat: f"{net}.0" for boat, net in nets.items()})
        by_net = sorted(nets.values())
        self.assertEqual([row.split()[2] for row in table[1:]], [f"{net}.0" for net in by_net])

    def test_many_fields(self) -> None:
        """An entry list may have many columns, and long ones."""
        with tempfile.TemporaryDirectory() as folder:
            path = os.path.join(folder, "boats.csv")
            with open(path, "w", encoding="ascii") as file:
                file.write(",".join([*map(str, range(2000)), "Sail"]) + "\n")
                file.write(",".join([*["x" * 50] * 2000, "A"]) + "\n")
            self.assertEqual(self.printed("--entries", path), ["TABLE 1 RACES", "1 A 0.0"])

    def test_nine_penalties(self) -> None:
        """A boat has at most nine penalties of a kind in a race."""
        lines = ["ENTER A", *["PENALTY 2 A ZFP"] * 10, "PENALTY 2 A SCP"]
        replies = [f"OK {place} 1 0.0" for place in range(1, 11)]
        self.assertEqual(self.printed(lines=lines),
                         [*replies, "NO 11", "OK 11 1 0.0", "TABLE 1 RACES", "1 A 0.0"])

    def test_full_journal(self) -> None:
        """A full journal takes no line more, is printed, and is a start like others."""
        table = ["TABLE 1 RACES", "1 A 0.0"]
        replies = [f"OK {place} 1 0.0" for place in range(1, FULL + 1)]
        lines = by_turns(FULL)
        self.assertEqual(self.printed(lines=[*lines, "STRIKE 1 A"]), [*replies, "NO 2", *table])
        journal = ["REGATTA 2", *(f"1 {nth} SCORER {line}" for nth, line in enumerate(lines, 1))]
        self.assertEqual(self.printed("--print", "journal", lines=lines), [*replies, *journal])
        self.assertEqual(self.printed("--print", "journal", journal=journal), journal)
        self.assertEqual(self.printed(lines=["STRIKE 1 A"], journal=journal), ["NO 2", *table])

    def test_season(self) -> None:
        """A season runs whole. Its table, results and sheet have a line for each boat."""
        refused = ["ENTER S500", "ENTER S000"]
        lines = season()
        lines = [*lines[:BOATS], *refused, *lines[BOATS:], "UNSCORE 1"]
        rules = ["--exclude", "4,8,16,30"]
        found = self.printed(*rules, lines=[*lines, "SHOW"])
        replies, rest = found[:len(lines)], found[len(lines):]
        self.assertEqual(replies[BOATS:BOATS + 2], ["NO 5", "NO 6"])
        self.assertEqual(sum(reply.startswith("OK ") for reply in replies), FULL)
        self.assertEqual([reply for reply in replies if reply.startswith("NO ")], ["NO 5", "NO 6", "NO 2"])
        journal, table, end = rest[1:FULL + 1], rest[FULL + 1:-BOATS - 2], rest[-BOATS - 2]
        self.assertEqual((rest[0], journal[0], end), (f"JOURNAL {FULL}", "1 1 SCORER ENTER S000", "END"))
        self.assertEqual(table, rest[-BOATS - 1:])
        races = range(1, RACES + 1)
        self.assertEqual(table[0], f"TABLE {BOATS} RACES {' '.join(map(str, races))}")
        self.assertEqual({len(row.split()) for row in table[1:]}, {3 + RACES})
        self.assertEqual(sorted(row.split()[1] for row in table[1:]), [sail(boat) for boat in range(BOATS)])
        results = self.printed(*rules, "--print", "csv", journal=journal)
        self.assertEqual(results[0], ",".join(["rank", "sail", "net", *(f"R{race}" for race in races)]))
        self.assertEqual([row.replace(",", " ") for row in results[1:]], table[1:])


if __name__ == "__main__":
    unittest.main()
