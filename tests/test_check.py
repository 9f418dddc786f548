"""`regatta check`: its form, documents worked out by hand, what it doesn't take, and random spoilt files beside what
`replay` and `serve --keep` say of them."""
from __future__ import annotations

import json
import os
from typing import Any

import helpers
from helpers import ran
from kept import DEVICE, NOWHERE, VERSION, Kept
from test_explain import Dice, journal_of, words_of
from test_program import failing, fits

MOST = 1_048_576
FOUND = "regatta: check found faults\n"
A, B, C = (f"1 {at} SCORER ENTER {sail}\n" for at, sail in enumerate("ABC", 1))
# The file, the list and the document that the crate's specs/Worked.antt has, worked out by hand.
TORN = VERSION + A + "X\n1 2 FINISH FINISH 1 B\n1 3 SCORER ENTER B\n1 3 SCORER ENTER C\n1 4 SCORER EN"
BOATS = "Boat,Sail\nWind,A\nWave,C\nTide,C_1\nFoam,c\n"
WORKED = """\
{"faults":[
{"line":3,"at":29,"bytes":1,"fault":"BadLine","number":22,"name":"WrongCount"},
{"line":4,"at":31,"bytes":21,"fault":"Refused","number":7,"name":"NotEntered"},
{"line":6,"at":72,"bytes":18,"fault":"Refused","number":3,"name":"OldNumber"}
],
"torn":{"lines":6,"at":91,"bytes":13,"damaged":false},
"rows":[
{"row":4,"fault":"BadSail"},
{"row":5,"fault":"Twice"}
]}
"""
EMPTY = '{"faults":[\n\n],\n"torn":null,\n"rows":[\n\n]}\n'
# A journal, and its faults: line, first byte, length, and the fault with its number.
JOURNALS: list[tuple[str, list[tuple[int, int, int, str, int]]]] = [
    ("", []),
    (A + B, []),
    (VERSION + A + B.rstrip("\n"), []),
    ("REGATTA 3\nX\n" + A, [(1, 0, 9, "BadVersion", 0)]),
    ("REGATTA 2 X\n", [(1, 0, 11, "BadVersion", 0)]),
    # Of words that name no entry: the line's faults come first, in the order of its arguments.
    (VERSION + "1 1 SCORER FINISH 1 A_B\n", [(2, 10, 23, "BadLine", 23)]),
    (VERSION + "1 1 SCORER FINISH 41 A_B\n", [(2, 10, 24, "BadLine", 24)]),
    (VERSION + "1 1 SCORER JUMP\n" + A, [(2, 10, 15, "BadLine", 21)]),
    (A + "\n" + B, [(2, 19, 0, "BadLine", 22)]),
    (A + VERSION, [(2, 19, 9, "BadLine", 22)]),
    (A + "1 2 SCORER " + "B" * 70 + "\n", [(2, 19, 81, "BadLine", 20)]),
    # The CR isn't counted among the 80, but is a byte of the line.
    (A + B.rstrip("\n") + "\r\n" + "X" * 80 + "\r\n", [(3, 39, 81, "BadLine", 22)]),
    # Each reason on its own: an old number, a role that doesn't send it, one that is entered already, two that aren't.
    (A + "1 1 SCORER ENTER B\n", [(2, 19, 18, "Refused", 3)]),
    (A + "1 2 JURY ENTER B\n", [(2, 19, 16, "Refused", 4)]),
    (A + "1 2 SCORER ENTER a\n", [(2, 19, 18, "Refused", 6)]),
    (A + "1 2 FINISH TIE 1 A B\n", [(2, 19, 20, "Refused", 7)]),
    (A + "1 2 FINISH FINISH 1 A\n1 3 FINISH FINISH 1 A\n", [(3, 41, 21, "Refused", 8)]),
    (A + "1 2 FINISH STRIKE 1 A\n", [(2, 19, 21, "Refused", 9)]),
    (A + "1 2 JURY CLEAR 1 A\n", [(2, 19, 18, "Refused", 12)]),
    (A + "1 2 SCORER UNSCORE 1\n", [(2, 19, 20, "Refused", 14)]),
    (A + "1 2 SCORER SCORE 1\n", [(2, 19, 18, "Refused", 15)]),
    (A + "1 2 FINISH TIME 1 A 7\n", [(2, 19, 21, "Refused", 16)]),
    # A boat whose Enter doesn't read isn't entered, so each line that names her is at fault.
    ("1 1 SCORER ENTER A-B-\u00e9\n1 2 FINISH FINISH 1 A\n1 3 SCORER ENTER A\n1 4 FINISH FINISH 1 A\n",
     [(1, 0, 23, "BadLine", 23), (2, 24, 21, "Refused", 7)]),
]
NAMES = {3: "OldNumber", 4: "NotYours", 6: "AlreadyEntered", 7: "NotEntered", 8: "AlreadyPlaced", 9: "NotPlaced",
         12: "NothingToClear", 14: "NotScored", 15: "NoFinisher", 16: "WrongSystem", 20: "TooLong", 21: "NoSuchWord",
         22: "WrongCount", 23: "BadSail", 24: "BadRace"}
# An entry list, whether it follows a kept file, and the faults of its rows. A is entered before it.
LISTS: list[tuple[str, bool, list[tuple[int, str, int]]]] = [
    ("Sail\nB\nC\n", False, []),
    ("", False, [(1, "NoColumn", 0)]),
    ("Boat\nWind\n", False, [(1, "NoColumn", 0)]),
    ("Boat,Sail\nWind\n,\nWave,B\n", False, [(2, "BadRow", 0)]),
    ("Sail\nB_1\n1234567890ABC\nB\n", False, [(2, "BadSail", 0), (3, "BadSail", 0)]),
    ("Sail\nB\nb\nC\nB\n", False, [(3, "Twice", 0), (5, "Twice", 0)]),
    ("Sail\nB\nA\nC\n", False, [(3, "Refused", 6)]),
    ("Sail\nB\nA\nC\n", True, []),
    ("Sail\nA\na\nC\n", True, [(3, "Twice", 0)]),
]
# A kept file, and its end: whole lines, first byte, length, and whether opening refuses it.
ENDS: list[tuple[str, tuple[int, int, int, bool]]] = [
    ("", (0, 0, 0, False)),
    (VERSION + A, (2, 29, 0, False)),
    (VERSION + A + "1 2 SC", (2, 29, 6, False)),
    (VERSION + A + "1 2 SC\0\n", (2, 29, 8, False)),
    (VERSION + A + "\0\0", (2, 29, 2, False)),
    ("REGA", (0, 0, 4, False)),
    ("SQLite", (0, 0, 6, True)),
    ("\0\0\0\0", (0, 0, 4, True)),
    (VERSION + A + "1 2 SCORER \0\n" + B, (2, 29, 32, True)),
    (VERSION + A + "1" * 4096, (2, 29, 4096, False)),
    (VERSION + A + "1" * 4097, (2, 29, 4097, True)),
]
READ = {"BadLine": 1, "TooMany": 2, "BadVersion": 4}
LISTED = {"NoColumn": 1, "BadRow": 2, "BadSail": 3, "Twice": 4, "TooMany": 5}


class Spoiler(Dice):
    """Files at random, most of them spoilt."""

    def spoilt_line(self, line: str) -> str:
        kind = self.randrange(6)
        if kind == 0:
            return line[:self.randint(0, len(line))]
        if kind == 1:
            at = self.randint(0, len(line))
            return line[:at] + self.choice("X1 _\0\r") + line[at + 1:]
        if kind == 2:
            return line + self.choice([" A", "X" * 80, "\r"])
        words = line.split()
        if len(words) > 3 and kind == 3:
            words[self.randint(0, 2)] = self.choice(["0", "1", "9999", "JURY", "FINISH", "17"])
            return " ".join(words)
        return self.choice(["", "X", "REGATTA 2", "1 1 SCORER ENTER A", line + "\n" + line])

    def spoilt(self, journal: str) -> str:
        lines = journal.splitlines()
        for _ in range(self.choice([0, 0, 1, 1, 2, 4])):
            at = self.randrange(len(lines))
            kind = self.randrange(4)
            if kind == 0:
                del lines[at]
            elif kind == 1:
                other = self.randrange(len(lines))
                lines[at], lines[other] = lines[other], lines[at]
            else:
                lines[at] = self.spoilt_line(lines[at])
            if not lines:
                break
        return "".join(f"{line}\n" for line in lines) + self.choice(["", "", "1 9 SCO", "REGATTA", "\0", "1 1 SCORER ENTER Q"])

    def boats(self, journal: str) -> str:
        known = [line.split()[4] for line in journal.splitlines() if " ENTER " in line]
        rows = [self.choice(["Boat,Sail,Club", "Sail", "Sail No,Boat", "Boat"] if self.random() < 0.2 else ["Boat,Sail"])]
        for _ in range(self.randint(0, 5)):
            sail = self.choice([*known[:2], *(f"N{number}" for number in range(1, 8))])
            rows.append(self.choice(["Wind," + sail] * 12 + ["", ",", "Wind", "Wind,A_B", "Wind," + sail.lower(), f"{sail},B{sail}"]))
        return "".join(f"{row}\n" for row in rows)


class Checks(Kept):
    def setUp(self) -> None:
        super().setUp()
        with open(os.path.join(helpers.TOP, "docs", "check.schema.json"), encoding="ascii") as file:
            self.schema = json.load(file)

    def put(self, path: str, text: str | bytes) -> None:
        with open(path, "wb") as file:
            file.write(text if isinstance(text, bytes) else text.encode())

    def checked(self, *words: str) -> tuple[str, dict[str, Any]]:
        """The document for these words, which fits its schema. Its status says whether something is wrong, and no
        file is changed, made or removed."""
        before = self.all_files()
        text, said, status = ran("check", *words, cwd=self.here)
        self.assertEqual(self.all_files(), before)
        whole = json.loads(text)
        self.assertTrue(fits(whole, self.schema, self.schema), text)
        wrong = bool(whole["faults"] or whole["rows"] or whole["torn"] and whole["torn"]["damaged"])
        self.assertEqual((said, status), (FOUND, 1) if wrong else ("", 0))
        return text, whole

    def all_files(self) -> dict[str, bytes]:
        found = {}
        for name in os.listdir(self.here):
            with open(os.path.join(self.here, name), "rb") as file:
                found[name] = file.read()
        return found

    def test_worked(self) -> None:
        self.put(self.kept, TORN)
        self.put(self.boats, BOATS)
        self.assertEqual(self.checked("--keep", self.kept, "--entries", self.boats)[0], WORKED)

    def test_nothing(self) -> None:
        """Without files nothing is wrong, and the input isn't read."""
        self.assertEqual(ran("check"), (EMPTY, "", 0))
        with failing(b"X\n") as stdin:
            self.assertEqual(ran("check", stdin=stdin), (EMPTY, "", 0))

    def test_journals(self) -> None:
        for journal, wanted in JOURNALS:
            self.put(self.journal, journal)
            with self.subTest(journal):
                whole = self.checked("--journal", self.journal)[1]
                rows = [{"line": line, "at": at, "bytes": length, "fault": fault,
                         **({"number": number, "name": NAMES[number]} if number else {})}
                        for line, at, length, fault, number in wanted]
                self.assertEqual(whole, {"faults": rows, "torn": None, "rows": []})

    def test_too_many(self) -> None:
        """The line after 8,192 entries is one too many, whatever it holds. No other is read, and the list is too long
        for the journal, too. Without a version line it is one line earlier."""
        lines = [A, *(f"1 {at} FINISH {'FINISH' if at % 2 == 0 else 'STRIKE'} 1 A\n" for at in range(2, 8193))]
        whole = VERSION + "".join(lines)
        self.put(self.boats, "Sail\nB\n")
        for text, line in [(whole, 8194), ("".join(lines), 8193)]:
            for more in ("X\nY\n", "1 8193 SCORER ENTER C\n"):
                self.put(self.journal, text + more)
                found = self.checked("--journal", self.journal, "--entries", self.boats)[1]
                first = more.index("\n")
                self.assertEqual(found["faults"], [{"line": line, "at": len(text), "bytes": first, "fault": "TooMany"}])
                self.assertEqual(found["rows"], [{"row": 2, "fault": "Refused", "number": 2, "name": "JournalFull"}])
        self.put(self.journal, whole)
        self.assertEqual(self.checked("--journal", self.journal)[1]["faults"], [])

    def test_many_boats(self) -> None:
        """The 501st boat of a list is one too many; so is the 501st of the series."""
        self.put(self.boats, "Sail\n" + "".join(f"N{number}\n" for number in range(502)))
        found = self.checked("--entries", self.boats)[1]["rows"]
        self.assertEqual(found, [{"row": 502, "fault": "TooMany"}, {"row": 503, "fault": "TooMany"}])
        self.put(self.boats, "Sail\n" + "".join(f"N{number}\n" for number in range(500)))
        self.put(self.journal, A)
        found = self.checked("--journal", self.journal, "--entries", self.boats)[1]["rows"]
        self.assertEqual(found, [{"row": 501, "fault": "Refused", "number": 5, "name": "EntryFull"}])

    def test_lists(self) -> None:
        """A journal and a list that don't agree: a series that goes on from a kept file skips the boats that it has."""
        for boats, is_kept, wanted in LISTS:
            path, option = (self.kept, "--keep") if is_kept else (self.journal, "--journal")
            self.put(path, VERSION + A)
            self.put(self.boats, boats)
            with self.subTest(boats, kept=is_kept):
                rows = [{"row": row, "fault": fault, **({"number": number, "name": NAMES[number]} if number else {})}
                        for row, fault, number in wanted]
                whole = self.checked(option, path, "--entries", self.boats)[1]
                self.assertEqual((whole["faults"], whole["rows"]), ([], rows))

    def test_ends(self) -> None:
        """What opening would cut off isn't wrong, and what it would refuse is."""
        for text, (lines, at, length, damaged) in ENDS:
            self.put(self.kept, text)
            with self.subTest(text[:60]):
                whole = self.checked("--keep", self.kept)[1]
                self.assertEqual(whole, {"faults": [], "rows": [],
                                         "torn": {"lines": lines, "at": at, "bytes": length, "damaged": damaged}})

    def test_rules(self) -> None:
        """A journal of finishes is none of corrected times, and the other way round. Each such line is named."""
        finishes, times = ([A, B] + [f"1 {at} FINISH {verb} 1 {sail}{more}\n" for at, sail in ((3, "A"), (4, "B"))]
                           for verb, more in (("FINISH", ""), ("TIME", " 7")))
        for lines, words in [(finishes, ["--handicap"]), (times, list[str]())]:
            self.put(self.journal, "".join(lines))
            found = self.checked("--journal", self.journal, *words)[1]["faults"]
            self.assertEqual([(row["line"], row["number"]) for row in found], [(3, 16), (4, 16)])
            words = [] if words else ["--handicap"]
            self.assertEqual(self.checked("--journal", self.journal, *words)[1]["faults"], [])
        self.assertEqual(ran("check", "--scp", "0"), ("", "regatta: rules fault 1\n", 2))

    def test_not_taken(self) -> None:
        """One text is checked, and not two. A file that can't be read is a fault of the device."""
        self.put(self.kept, VERSION)
        self.put(self.journal, VERSION)
        self.assertEqual(ran("check", "--keep", self.kept, "--journal", self.journal),
                         ("", "regatta: check takes --keep or --journal, and not both\n", 2))
        for option in ("--keep", "--journal", "--entries"):
            for path in (self.here, os.path.join(self.here, "none"), ""):
                self.assertEqual(ran("check", option, path), ("", DEVICE, 3))
        self.assertEqual(sorted(os.listdir(self.here)), ["boats.csv", "journal", "kept"])

    def test_length(self) -> None:
        """The last byte that is taken, and one more."""
        for option, said in [("--keep", "keep too long"), ("--journal", "input too long"), ("--entries", "input too long")]:
            text = "Sail\n" if option == "--entries" else VERSION + A
            self.put(self.journal, text + "\r" * (MOST - len(text)))
            ran_words = ("check", option, self.journal)
            self.assertIn(ran(*ran_words)[2], (0, 1))
            self.put(self.journal, text + "\r" * (MOST + 1 - len(text)))
            self.assertEqual(ran(*ran_words), ("", f"regatta: {said}\n", 1))

    # ---- beside the start of a series

    def in_place(self, text: str, whole: dict[str, Any]) -> None:
        """Each fault is at the line of its number, and so is the end."""
        data, lines = text.encode(), text.encode().split(b"\n")
        for row in whole["faults"]:
            self.assertEqual(data[row["at"]:row["at"] + row["bytes"]], lines[row["line"] - 1])
            self.assertTrue(row["at"] == 0 or data[row["at"] - 1:row["at"]] == b"\n")
        if torn := whole["torn"]:
            self.assertEqual(torn["at"] + torn["bytes"], len(data))
            self.assertEqual(data[:torn["at"]].count(b"\n"), torn["lines"])

    def entered(self, whole: dict[str, Any], boats: str, known: set[str]) -> dict[int, int]:
        """For each row of a list that has a boat, how many boats of rows before it are entered: those that aren't
        known. For a list that reads."""
        header, *rows = boats.splitlines()
        cells = [cell.replace(" ", "").upper() for cell in header.split(",")]
        column = cells.index("SAIL") if "SAIL" in cells else cells.index("SAILNO")
        found: dict[int, int] = {}
        count, number = 0, 1
        for row in rows:
            if not row:
                continue
            number += 1
            fields = row.split(",")
            if any(fields):
                found[number] = count
                count += fields[column].upper() not in known
        return found

    def first_said(self, whole: dict[str, Any], text: str, boats: str, is_kept: bool) -> str:
        """What the program says first of what a check found: of a kept file the list comes first, then the end."""
        reads = [f"keep journal fault {READ[row['fault']]} line {row['line']}" if is_kept else
                 f"journal fault {READ[row['fault']]} line {row['line']}" for row in whole["faults"] if row["fault"] in READ]
        listed = [f"entries fault {LISTED[row['fault']]} row {row['row']}" for row in whole["rows"] if row["fault"] in LISTED]
        ends = [f"keep damaged after line {whole['torn']['lines']}"] if is_kept and whole["torn"]["damaged"] else []
        first = [*listed, *ends, *reads] if is_kept else [*reads, *listed]
        if first:
            return first[0]
        body = text[:whole["torn"]["at"]] if is_kept else text
        ahead = int(body.split("\n")[0].split()[:1] == ["REGATTA"])
        for row in whole["faults"]:
            return f"start refused {row['number']} at {row['line'] - ahead}"
        lines = body.removesuffix("\n").split("\n")[ahead:] if body else []
        known = {line.split()[4].upper() for line in lines if line.split()[3] == "ENTER"}
        for row in whole["rows"]:
            return f"start refused {row['number']} at {len(lines) + self.entered(whole, boats, known if is_kept else set())[row['row']] + 1}"
        return ""

    def test_by_starts(self) -> None:
        """Of random files: what is first in a check is what stops a replay, or a serving that goes on from the file;
        and both take what a check finds nothing wrong with, and cut off what it says."""
        seen: set[str] = set()
        for number in range(helpers.trials(300)):
            dice = Spoiler(number)
            rules = dice.rules()
            journal = journal_of(rules, dice.lines(rules))
            text, boats = dice.spoilt(journal), dice.boats(journal)
            words = words_of(rules)
            for path, option, is_kept in [(self.journal, "--journal", False), (self.kept, "--keep", True)]:
                self.put(path, text)
                self.put(self.boats, boats)
                with self.subTest(number, kept=is_kept):
                    both = [*words, "--entries", self.boats]
                    whole = self.checked(*both, option, path)[1]
                    self.in_place(text, whole)
                    first = self.first_said(whole, text, boats, is_kept)
                    seen.add(first.partition(" at")[0].rpartition(" line")[0] or first[:15])
                    if not is_kept:
                        printed, said, status = ran("replay", *both, option, path)
                        self.assertEqual((said, status), (f"regatta: {first}\n", 1) if first else ("", 0))
                        continue
                    said = ran("serve", *both, option, path, "--socket", NOWHERE)[1]
                    note = f"regatta: keep cut {whole['torn']['bytes']} bytes after line {whole['torn']['lines']}\n"
                    if not first:
                        self.assertTrue(said.endswith(DEVICE), said)
                        self.assertEqual(said.startswith(note), whole["torn"]["bytes"] > 0)
                        with open(path, "rb") as file:
                            self.assertEqual(file.read(), text.encode()[:whole["torn"]["at"]])
                        self.assertEqual(self.checked(*both, option, path)[1]["torn"]["bytes"], 0)
                    else:
                        self.assertEqual(said, f"regatta: {first}\n")
                    for name in os.listdir(self.here):
                        os.remove(os.path.join(self.here, name))
        if helpers.trials(300) >= 300:
            self.assertGreater(len(seen), 12, seen)

    def test_each_alone(self) -> None:
        """Of random journals: without the lines and rows that a check names a replay starts, and with any one of them,
        and those before it that aren't named, it stops at that one."""
        for number in range(helpers.trials(100)):
            dice = Spoiler(number)
            rules = dice.rules()
            text = dice.spoilt(journal_of(rules, dice.lines(rules)))
            self.put(self.journal, text)
            words = [*words_of(rules), "--journal", self.journal]
            found = self.checked(*words)[1]["faults"]
            lines = text.split("\n")
            named = {row["line"] for row in found}
            if 1 in named and lines[0].startswith("REGATTA"):
                continue
            ahead = int(lines[0].split()[:1] == ["REGATTA"])
            for row in [*found, None]:
                last = row["line"] if row else len(lines)
                kept = [line for at, line in enumerate(lines[:last], 1) if at not in named or row and at == last]
                self.put(self.journal, "\n".join(kept) + ("\n" if row else ""))
                said, status = ran("replay", *words)[1:]
                with self.subTest(number, row=row):
                    if row is None:
                        self.assertEqual((said, status), ("", 0))
                    elif row["fault"] == "Refused":
                        self.assertEqual(said, f"regatta: start refused {row['number']} at {len(kept) - ahead}\n")
                    else:
                        self.assertEqual(said, f"regatta: journal fault {READ[row['fault']]} line {len(kept)}\n")
