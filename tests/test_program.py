"""The program over its arguments, its start files and its standard streams: what it prints, what it says
on standard error, and its status."""
from __future__ import annotations

import contextlib
import itertools
import json
import os
import re
import resource
import shlex
import signal
import socket
import tempfile
import unittest
from collections.abc import Iterator
from typing import Any

import helpers
from helpers import ran, replayed
from raceoffice.program.codes import CODES

DEVICE = "regatta: device fault\n"
NOWHERE = "/no/such/folder/race.sock"
# One race of three boats, of whom one didn't finish, one didn't come, and one has a penalty.
RACE = "ENTER A\nENTER B\nENTER C\nFINISH 1 A\nMARK 1 B DNF\nPENALTY 1 A SCP\nSCORE 1\n"
RACE_REPLIES = "OK 1 1 0.0\n" + "".join(f"OK {place} 1= 0.0\n" for place in range(2, 7)) + "OK 7\n"
RACE_TABLE = "TABLE 3 RACES 1\n1 A 2.0 2.0/SCP\n2= B 4.0 4.0/DNF\n2= C 4.0 4.0/DNC\n"
RACE_JOURNAL = """\
REGATTA 2
1 1 SCORER ENTER A
1 2 SCORER ENTER B
1 3 SCORER ENTER C
1 4 SCORER FINISH 1 A
1 5 SCORER MARK 1 B DNF
1 6 SCORER PENALTY 1 A SCP
1 7 SCORER SCORE 1
"""
# Options, each with what is printed after the replies to that race.
RACES = {
    "": RACE_TABLE,
    "--exclude none --print table": RACE_TABLE,
    "--absent A53": "TABLE 3 RACES 1\n1 A 2.0 2.0/SCP\n2 B 3.0 3.0/DNF\n3 C 4.0 4.0/DNC\n",
    "--scp 2": "TABLE 3 RACES 1\n1 A 3.0 3.0/SCP\n2= B 4.0 4.0/DNF\n2= C 4.0 4.0/DNC\n",
    "--print csv": "rank,sail,net,R1\n1,A,2.0,2.0/SCP\n2=,B,4.0,4.0/DNF\n2=,C,4.0,4.0/DNC\n",
    "--print=journal": RACE_JOURNAL,
}
# Two races of two boats, each of which wins one, and one of which doesn't come to the other.
TWO_RACES = "ENTER A\nENTER B\nFINISH 1 A\nFINISH 1 B\nFINISH 2 B\nSCORE 1\nSCORE 2\n"
TWO_REPLIES = "OK 1 1 0.0\n" + "".join(f"OK {place} 1= 0.0\n" for place in range(2, 6)) + "OK 6\nOK 7\n"
# By default one score is excluded from two races on (RRS A2.1).
TWO = {
    "": "TABLE 2 RACES 1 2\n1 B 1.0 (2.0) 1.0\n2 A 1.0 1.0 (3.0/DNC)\n",
    "--exclude none": "TABLE 2 RACES 1 2\n1 B 3.0 2.0 1.0\n2 A 4.0 1.0 3.0/DNC\n",
}
# Corrected times: two boats have equal seconds; then a time is struck out and handed in again, and lines
# are refused. Each line is followed by its reply (RRS A3, A7).
TIMES = """\
ENTER A/OK 1 1 0.0
ENTER B/OK 2 1= 0.0
ENTER C/OK 3 1= 0.0
TIME 1 A 3605/OK 4 1= 0.0
TIME 1 B 3600/OK 5 1= 0.0
TIME 1 C 3605/OK 6 1= 0.0
SCORE 1/OK 7
STRIKE 1 A/OK 8 3 4.0
TIME 1 A 3599/OK 9 1 1.0
FINISH 1 B/NO 16
TIME 1 B 1/NO 8
TIME 1 X 1/NO 7
TIME 1 A 1000000/NO 29
TIME 1 A/NO 22
ROLE JURY/ROLE JURY
TIME 1 B 1/NO 4
""".splitlines()
# The tables after the first seven lines, and after all.
TIMED = {
    7: "TABLE 3 RACES 1\n1 B 1.0 1.0\n2= A 2.5 2.5\n2= C 2.5 2.5\n",
    16: "TABLE 3 RACES 1\n1 A 1.0 1.0\n2 B 2.0 2.0\n3 C 3.0 3.0\n",
}
# Arguments whose rules can't be, each with the number of their fault.
NO_RULES = {
    "--scp 0": 1, "--scp 0 --journal /no/such/file": 1, "--scp 100": 1, "--exclude 2,3,4,5,6": 2,
    "--exclude 3,3": 3, "--exclude 1": 4, "--exclude 41": 5, "--exclude ''": 6, "--absent a54": 6,
}
# Arguments that lack something, or that the program doesn't know.
REFUSED = [
    "", "serve", "serve --socket s --clients 0", "serve --socket s --clients 17",
    "serve --socket s --sessions 1000001", "serve --socket s --print csv", "replay --socket s", "Replay",
    "replay replay", "words words", "words --scp 3", "explain --print csv", "replay --print pdf", "replay --scp",
    "replay --scp 3 --scp 3", "replay --speed", "preview --print csv", "preview --role office", "preview --role",
    "preview --role jury --role jury", "explain --role jury", "replay --role jury", "replay --keep k", "check --print csv",
    "check --keep", "check --keep k --keep k", "check --socket s", "check --role jury",
]
# Arguments that ask for help, and what it names.
HELP = {
    "--help": ["regatta replay --help", "regatta preview --role jury"],
    "replay --help": [
        "regatta replay", "--absent", "A5.3", "--scp", "44.3(c)", "--exclude", "A2.1", "--handicap", "A3",
        "TIME 1 GBR1 3605", "--journal", "--entries", "--print", "sed '1,/^BYE$/d'"],
    "serve --help": [
        "FINISH 1 GBR7", "SHOW", "regatta serve --socket race.sock", "nc -U race.sock",
        "regatta replay --print journal", "--clients", "BUSY", "--sessions", "--entries", "--handicap"],
    "words --help": ["JSON", "regatta words > words.json"],
    "explain --help": ["JSON", "regatta explain --journal", "--entries", "--exclude", "--handicap"],
    "check --help": ["JSON", "regatta check --keep saturday.journal", "--journal", "--entries", "--exclude", "--handicap"],
    "preview --help": ["JSON", "regatta preview --role jury --journal", "--entries", "--exclude", "finish, jury, scorer"],
}
# The text of a journal file and of an entry list; what a run of the line `ENTER C` then prints, and what
# it says. Rules, journal file, entry list and start are checked in this order.
STARTS = [
    ("1 1 SCORER ENTER A\n2 1 JURY REDRESS 1 A 7.5\n", "Sail\nb\n",
     "OK 4 1= 0.0\nTABLE 3 RACES\n1= A 0.0\n1= B 0.0\n1= C 0.0\n", ""),
    ("REGATTA 2\n1 1 SCORER ENTER A\n", "Sail\nb\n",
     "OK 3 1= 0.0\nTABLE 3 RACES\n1= A 0.0\n1= B 0.0\n1= C 0.0\n", ""),
    ("regatta  2\r\n", "Boat,Sail No\nX, gbr 7\n,\n",
     "OK 2 1= 0.0\nTABLE 2 RACES\n1= C 0.0\n1= GBR7 0.0\n", ""),
    ("1 4294967295 SCORER ENTER A\n", "Sail\n", "NO 3\nTABLE 1 RACES\n1 A 0.0\n", ""),
    ("1 1 SCORER ENTER A\nX\n", "Sail\n", "", "journal fault 1 line 2"),
    ("X", "Boat\nX\n", "", "journal fault 1 line 1"),
    ("REGATTA 2\nX\n", "Sail\n", "", "journal fault 1 line 2"),
    ("1 1 SCORER ENTER A\nREGATTA 2\n", "Sail\n", "", "journal fault 1 line 2"),
    ("REGATTA 3\nX\n", "Boat\nX\n", "", "journal fault 4 line 1"),
    ("REGATTA\n", "Sail\n", "", "journal fault 4 line 1"),
    ("REGATTA 2 X\n", "Sail\n", "", "journal fault 4 line 1"),
    ("", "Boat\nX\n", "", "entries fault 1 row 1"),
    ("", "Boat,Sail\nX\n", "", "entries fault 2 row 2"),
    ("", "Sail\nA_B\n", "", "entries fault 3 row 2"),
    ("", "Sail\nA\na\n", "", "entries fault 4 row 3"),
    ("1 1 SCORER ENTER A\n", "Sail\nA\n", "", "start refused 6 at 2"),
    ("1 1 SCORER ENTER A\n1 1 SCORER ENTER B\n", "Sail\n", "", "start refused 3 at 2"),
    ("1 1 JURY ENTER A\n", "Boat\nX\n", "", "entries fault 1 row 1"),
    ("1 1 JURY ENTER A\n", "Sail\nB\n", "", "start refused 4 at 1"),
]
# The socket, the amount of a Scoring Penalty and the start files of a run of `serve`; what it says, and
# its status.
SERVINGS = [
    (NOWHERE, "0", "X\n", "Boat\n", "rules fault 1", 2),
    (NOWHERE, "1", "1 1 JURY ENTER A\nX\n", "Boat\n", "journal fault 1 line 2", 1),
    (NOWHERE, "1", "1 1 JURY ENTER A\n", "Boat\n", "entries fault 1 row 1", 1),
    (NOWHERE, "1", "1 1 JURY ENTER A\n", "Sail\n", "start refused 4 at 1", 1),
    (NOWHERE, "1", "", "Sail\n", "device fault", 3),
    ("", "1", "", "Sail\n", "device fault", 3),
]
# Inputs near the limit of 1,048,576 bytes, what is printed, and whether they are too long. QUIT ends
# what is read.
LONG = [
    (b"ENTER A\n" + b"X" * 1_048_569, "OK 1 1 0.0\n", True),
    (b"ENTER A\n" + b"X" * 1_048_568, "OK 1 1 0.0\nNO 20\nTABLE 1 RACES\n1 A 0.0\n", False),
    (b"QUIT\n" + b"X" * 2_000_000, "BYE\nTABLE 0 RACES\n", False),
    (b"X" * 1_048_570 + b"\nQUIT\nENTER A\n", "NO 20\nBYE\nTABLE 0 RACES\n", False),
    (b"X" * 1_048_571 + b"\nQUIT\n", "NO 20\n", True),
]

# The names of the refusals, from 1 on, and of the faults of a line, from 20 on.
REFUSALS = """
NoMemory JournalFull OldNumber NotYours EntryFull AlreadyEntered NotEntered AlreadyPlaced NotPlaced Decided
PenaltyLimit NothingToClear AlreadyScored NotScored NoFinisher WrongSystem
""".split()
FAULTS = """
TooLong NoSuchWord WrongCount BadSail BadRace BadPoints BadCode BadRole BadNumber BadSeconds
""".split()
ROLES = ["FINISH", "JURY", "SCORER"]
# What may stand for each argument of a line.
ARGUMENTS = {
    "race": ["1"], "sail": ["A"], "other": ["B"], "seconds": ["5"], "how": ["ALL", "7.5"], "role": ["JURY"],
    "code": list(CODES), "kind": ["ZFP", "SCP"],
}
LIMITS = {
    "boats": 500, "races": 40, "entries": 8192, "penalties": 9, "scp_points": 99, "line_bytes": 80, "seats": 16,
}


def fits(value: Any, form: dict[str, Any], whole: dict[str, Any]) -> bool:
    """Whether a JSON value fits the form that a part of a schema has."""
    if "$ref" in form:
        return fits(value, whole["$defs"][form["$ref"].rpartition("/")[2]], whole)
    if "enum" in form:
        return value in form["enum"]
    for word in ("oneOf", "anyOf"):
        if word in form:
            return any(fits(value, one, whole) for one in form[word])
    match form["type"]:
        case "object":
            parts = form["properties"]
            return (type(value) is dict and list(value) == form["required"]
                    and all(fits(part, parts[name], whole) for name, part in value.items()))
        case "array":
            return type(value) is list and all(fits(one, form["items"], whole) for one in value)
        case "integer":
            return type(value) is int and form.get("minimum", 0) <= value <= form.get("maximum", value)
        case "number":
            return type(value) in (int, float) and value >= form.get("minimum", value)
        case "boolean":
            return type(value) is bool
        case "null":
            return value is None
    return type(value) is str and bool(re.search(form.get("pattern", ""), value))


def is_sent(role: str, line: str) -> bool:
    """Whether a role may send a line: it isn't refused for the role, which comes before other refusals."""
    printed, _, status = replayed(lines=f"ROLE {role}\n{line}\n")
    first, answer = printed.split("\n")[:2]
    return (first, answer != "NO 4", status) == (f"ROLE {role}", True, 0)


class Arguments(unittest.TestCase):
    def test_options(self) -> None:
        """The options are the rules and the form; what is left out has its default."""
        for lines, replies, cases in [(RACE, RACE_REPLIES, RACES), (TWO_RACES, TWO_REPLIES, TWO)]:
            for words, last in cases.items():
                with self.subTest(words):
                    self.assertEqual(replayed(*shlex.split(words), lines=lines), (replies + last, "", 0))

    def test_corrected_times(self) -> None:
        for count, table in TIMED.items():
            lines, replies = ("".join(f"{text}\n" for text in texts)
                              for texts in zip(*(line.split("/") for line in TIMES[:count])))
            self.assertEqual(replayed("--handicap", lines=lines), (replies + table, "", 0))
        self.assertEqual(replayed(lines="ENTER A\nTIME 1 A 5\n"),
                         ("OK 1 1 0.0\nNO 16\nTABLE 1 RACES\n1 A 0.0\n", "", 0))

    def test_rules_refused(self) -> None:
        for words, number in NO_RULES.items():
            with self.subTest(words):
                self.assertEqual(replayed(*shlex.split(words), lines="ENTER A\n"),
                                 ("", f"regatta: rules fault {number}\n", 2))

    def test_refused(self) -> None:
        for words in REFUSED:
            with self.subTest(words):
                printed, said, status = ran(*shlex.split(words), lines="ENTER A\n")
                self.assertEqual((printed, bool(said), status), ("", True, 2))

    def test_no_text(self) -> None:
        """A word that is no text, as a shell may pass it."""
        for words in (["\udcff"], ["replay", "--scp", "\udcff"], ["serve", "--socket", "a\udcc3"]):
            self.assertEqual(ran(*words), ("", "error: a word isn't UTF-8\n", 2))

    def test_help(self) -> None:
        for words, names in HELP.items():
            printed, said, status = ran(*shlex.split(words), lines="ENTER A\n")
            self.assertEqual((said, status), ("", 0))
            self.assertEqual([name for name in names if name not in printed], [], words)


class Words(unittest.TestCase):
    """The vocabulary, as JSON."""
    text: str
    whole: dict[str, Any]

    @classmethod
    def setUpClass(cls) -> None:
        cls.text, said, status = ran("words", lines="ENTER A\n")
        assert (said, status) == ("", 0), (said, status)
        cls.whole = json.loads(cls.text)

    def named(self, table: str) -> list[tuple[int, str]]:
        return [(row["number"], row["name"]) for row in self.whole[table]]

    def test_form(self) -> None:
        """The document fits its schema, and has a line for each row."""
        with open(os.path.join(helpers.TOP, "docs", "words.schema.json"), encoding="ascii") as file:
            schema = json.load(file)
        self.assertTrue(fits(self.whole, schema, schema))
        self.assertFalse(fits({**self.whole, "roles": [{}]}, schema, schema))
        rows = [line.rstrip(",") for line in self.text.splitlines()
                if line.startswith("{") and not line.endswith("[")]
        tables = [table for table in self.whole.values() if isinstance(table, list)]
        self.assertEqual([json.loads(row) for row in rows], [row for table in tables for row in table])

    def test_numbers(self) -> None:
        """Refusals and faults have their numbers, names and sentences, and limits their figures."""
        self.assertEqual(self.named("refusals"), list(enumerate(REFUSALS, 1)))
        self.assertEqual(self.named("faults"), list(enumerate(FAULTS, 20)))
        sentences = {row["text"] for table in ("refusals", "faults") for row in self.whole[table]}
        self.assertEqual(len(sentences), len(REFUSALS) + len(FAULTS))
        self.assertEqual(self.whole["limits"], LIMITS)

    def test_codes(self) -> None:
        """Each code is as the tools have it."""
        found = {}
        for row in self.whole["codes"]:
            rule = "" if row["rule"] == "A10" else f" (RRS {row['rule']})"
            meaning = row["meaning"].replace("'", "’") + rule
            found[row["code"]] = (meaning, row["hearing"], row["breach"], row["scores_as"] == "DNF")
            self.assertEqual((row["came"], row["excludable"]), (row["code"] != "DNC", row["code"] != "DNE"))
        self.assertEqual(found, {word: (code.meaning, code.is_of_jury, code.is_breach, code.is_as_dnf)
                                 for word, code in CODES.items()})
        self.assertEqual([row["kind"] for row in self.whole["penalties"]], ["ZFP", "SCP"])
        self.assertEqual([row["role"] for row in self.whole["roles"]], ROLES)

    def test_who_sends(self) -> None:
        """A role may send a line, and give a code, exactly if the program takes it."""
        for row in self.whole["lines"]:
            verb, *names = row["line"].split()
            lines = [" ".join((verb, *words)) for words in itertools.product(*[ARGUMENTS[name] for name in names])]
            sent = {role: any(is_sent(role, line) for line in lines) for role in ROLES}
            self.assertEqual(row["sent_by"], sent, row["line"])
        for row in self.whole["codes"]:
            given = {role: is_sent(role, f"MARK 1 A {row['code']}") for role in ROLES}
            self.assertEqual(row["given_by"], given, row["code"])


class Files(unittest.TestCase):
    def setUp(self) -> None:
        holder = tempfile.TemporaryDirectory()
        self.addCleanup(holder.cleanup)
        self.journal, self.boats = (os.path.join(holder.name, name) for name in ("journal", "boats.csv"))
        self.both = ["--journal", self.journal, "--entries", self.boats]

    def write(self, journal: str, boats: str = "") -> None:
        for path, text in [(self.journal, journal), (self.boats, boats)]:
            with open(path, "w", encoding="ascii", newline="") as file:
                file.write(text)

    def test_starts(self) -> None:
        for journal, boats, printed, said in STARTS:
            self.write(journal, boats)
            with self.subTest(journal=journal, boats=boats):
                wanted = (printed, "", 0) if printed else ("", f"regatta: {said}\n", 1)
                self.assertEqual(replayed(*self.both, lines="ENTER C\n"), wanted)

    def test_servings(self) -> None:
        for path, scp, journal, boats, said, status in SERVINGS:
            self.write(journal, boats)
            with self.subTest(said, path=path):
                words = ["--socket", path, "--sessions", "1", "--scp", scp, *self.both]
                self.assertEqual(ran("serve", *words), ("", f"regatta: {said}\n", status))

    def test_missing(self) -> None:
        """A file that isn't there is a device fault."""
        for words in (["replay"], ["serve", "--socket", NOWHERE]):
            for option in ("--journal", "--entries"):
                self.assertEqual(ran(*words, option, "/no/such/file"), ("", DEVICE, 3))

    def test_systems(self) -> None:
        """A journal of finishes is no start of corrected times, and the other way round."""
        said = "regatta: start refused 16 at 2\n"
        for handicap, command in [(["--handicap"], "FINISH 1 A"), (list[str](), "TIME 1 A 7")]:
            self.write(f"1 1 SCORER ENTER A\n1 2 SCORER {command}\n")
            words = [*handicap, "--journal", self.journal]
            self.assertEqual(replayed(*words), ("", said, 1))
            self.assertEqual(ran("serve", "--socket", NOWHERE, *words), ("", said, 1))

    def test_both_forms(self) -> None:
        """A journal with its version line and an older one without it are the same."""
        entries = "1 1 SCORER ENTER A\n2 1 JURY REDRESS 1 A 7.5\n"
        for journal in ("REGATTA 2\n" + entries, entries):
            self.write(journal)
            words = ["--journal", self.journal]
            self.assertEqual(replayed(*words), ("TABLE 1 RACES\n1 A 0.0\n", "", 0))
            self.assertEqual(replayed(*words, "--print", "journal"), ("REGATTA 2\n" + entries, "", 0))

    def test_limits(self) -> None:
        """A journal file has a line too many, or a byte too many; an entry list a boat too many."""
        entry = "1 1 SCORER ENTER A\n"
        for journal, said in [
                ("REGATTA 2\n" + entry * 8193, "journal fault 2 line 8194"),
                (entry * 8193, "journal fault 2 line 8193"),
                ("\n" * 1_048_577, "input too long"), ("\n" * 1_048_576, "journal fault 1 line 1")]:
            self.write(journal)
            with self.subTest(said):
                self.assertEqual(replayed("--journal", self.journal), ("", f"regatta: {said}\n", 1))
        boats = ["Sail", *map(str, range(1, 502))]
        self.write("", "\n".join(boats))
        self.assertEqual(replayed(*self.both), ("", "regatta: entries fault 5 row 502\n", 1))
        self.write("", "\n".join(boats[:-1]))
        printed, said, status = replayed(*self.both, "--print", "journal")
        wanted = ["REGATTA 2", *(f"1 {sail} SCORER ENTER {sail}" for sail in range(1, 501))]
        self.assertEqual((printed.splitlines(), said, status), (wanted, "", 0))


@contextlib.contextmanager
def failing(text: bytes) -> Iterator[socket.socket]:
    """A stream that gives this text, and whose next read fails: it was reset."""
    ours, theirs = socket.socketpair(socket.AF_UNIX, socket.SOCK_STREAM)
    with theirs:
        theirs.sendall(b"X")
        ours.sendall(text)
        ours.close()
        yield theirs


def ten_bytes() -> None:
    """Lets a process write ten bytes to a file; a write after them fails."""
    signal.signal(signal.SIGXFSZ, signal.SIG_IGN)
    resource.setrlimit(resource.RLIMIT_FSIZE, (10, 10))


class Devices(unittest.TestCase):
    def test_input(self) -> None:
        """The input fails in mid-line. Where it ends there, the last line counts."""
        text = b"ENTER A\nENTER B"
        with failing(text) as stdin:
            self.assertEqual(ran("replay", stdin=stdin), ("OK 1 1 0.0\n", DEVICE, 3))
        written = "OK 1 1 0.0\nOK 2 1= 0.0\nTABLE 2 RACES\n1= A 0.0\n1= B 0.0\n"
        self.assertEqual(replayed(lines=text), (written, "", 0))

    def test_output(self) -> None:
        """What fits is printed, also of help."""
        for words, start in [(["replay"], "OK 1 1 0.0"), (["words"], '{"codes":['), (["explain"], '{"rules":{'),
                             (["preview"], '{"role":"'), (["check"], '{"faults":'), (["--help"], "")]:
            with tempfile.TemporaryFile() as printed:
                _, said, status = ran(*words, lines=RACE, stdout=printed, preexec_fn=ten_bytes,
                                      restore_signals=False)
                printed.seek(0)
                found = printed.read().decode()
            self.assertEqual((said, status, len(found)), (DEVICE, 3, 10))
            self.assertTrue(found.startswith(start))

    def test_errors(self) -> None:
        """Nothing more can be said if standard error fails."""
        for words in (["replay", "--scp", "0"], ["serve"]):
            with open("/dev/full", "wb") as full:
                self.assertEqual(ran(*words, stderr=full), ("", "", 3))

    def test_long_input(self) -> None:
        for text, printed, is_too_long in LONG:
            wanted = (printed, *(("regatta: input too long\n", 1) if is_too_long else ("", 0)))
            self.assertEqual(replayed(lines=text), wanted)


if __name__ == "__main__":
    unittest.main()
