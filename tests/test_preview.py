"""`regatta preview`: its form, a worked document, replies beside those of sessions, and who moves beside a script
written from the rules."""
from __future__ import annotations

import json
import os
import socket
import subprocess
import tempfile
import unittest
from fractions import Fraction
from typing import Any

import helpers
from explained_by_rules import Rules
from helpers import ran, replayed
from previewed_by_rules import changes, moves, reply, without_sheets
from test_explain import Dice, journal_of, words_of
from test_program import DEVICE, failing, fits

ROLES = ["finish", "jury", "scorer"]
# The document that the crate's specs/Worked.antt has, worked out by hand. A, B and C finish race 1 in this order, and
# the jury disqualifies A.
ONE_RACE = """\
1 1 SCORER ENTER A
1 2 SCORER ENTER B
1 3 SCORER ENTER C
1 4 SCORER FINISH 1 A
1 5 SCORER FINISH 1 B
1 6 SCORER FINISH 1 C
1 7 SCORER SCORE 1
"""
LINES = "MARK 1 A DSQ\nENTER D\nMARK\nRANK D\nSHOW\nROLE SCORER\nENTER D\nRANK A\nQUIT\nENTER E\n"
WORKED = """\
{"role":"JURY",
"replies":[
{"reply":"OK","entry":8,"boat":{"rank":3,"tied":false,"net":4.0}},
{"reply":"NO","number":4,"name":"NotYours"},
{"reply":"NO","number":22,"name":"WrongCount"},
{"reply":"NO","number":7,"name":"NotEntered"},
{"reply":"JOURNAL","entries":8},
{"reply":"ROLE","role":"SCORER"},
{"reply":"OK","entry":9,"boat":{"rank":3,"tied":true,"net":5.0}},
{"reply":"RANK","boat":{"rank":3,"tied":true,"net":5.0}},
{"reply":"BYE"}
],
"moves":[
{"sail":"B","before":{"rank":2,"tied":false,"net":2.0},"after":{"rank":1,"tied":false,"net":1.0}},
{"sail":"C","before":{"rank":3,"tied":false,"net":3.0},"after":{"rank":2,"tied":false,"net":2.0}},
{"sail":"A","before":{"rank":1,"tied":false,"net":1.0},"after":{"rank":3,"tied":true,"net":5.0}},
{"sail":"D","before":null,"after":{"rank":3,"tied":true,"net":5.0}}
],
"changes":[
{"sail":"B","before":{"rank":2,"tied":false,"net":2.0},"after":{"rank":1,"tied":false,"net":1.0},"scores":[
{"race":1,"before":{"points":2.0,"mark":null,"excluded":false},"after":{"points":1.0,"mark":null,"excluded":false}}
]},
{"sail":"C","before":{"rank":3,"tied":false,"net":3.0},"after":{"rank":2,"tied":false,"net":2.0},"scores":[
{"race":1,"before":{"points":3.0,"mark":null,"excluded":false},"after":{"points":2.0,"mark":null,"excluded":false}}
]},
{"sail":"A","before":{"rank":1,"tied":false,"net":1.0},"after":{"rank":3,"tied":true,"net":5.0},"scores":[
{"race":1,"before":{"points":1.0,"mark":null,"excluded":false},"after":{"points":5.0,"mark":"DSQ","excluded":false}}
]},
{"sail":"D","before":null,"after":{"rank":3,"tied":true,"net":5.0},"scores":[
{"race":1,"before":null,"after":{"points":5.0,"mark":"DNC","excluded":false}}
]}
]}
"""
EMPTY = '{"role":"SCORER",\n"replies":[\n\n],\n"moves":[\n\n],\n"changes":[\n\n]}\n'
MOST = 1_048_576


class Wishes(Dice):
    """Lines at random that somebody thinks of."""

    def wishes(self, rules: Rules, sails: list[str]) -> str:
        lines: list[str] = []
        for _ in range(self.randint(0, 12)):
            sail, kind = self.choice([*sails, "NEW1", "NEW2"]), self.random()
            if kind < 0.15:
                lines.append(f"ENTER {sail}")
            elif kind < 0.3:
                lines.append(self.choice([f"RANK {sail}", "SHOW", "", "MARK", f"rank  {sail.lower()}\r"]))
            elif kind < 0.4:
                lines.append(f"ROLE {self.choice(ROLES)}")
            else:
                # Without its line ROLE it may be refused.
                both = self.line(rules, self.randint(1, 7), [*sails, sail])
                lines += both if self.random() < 0.6 else both[1:]
        if self.random() < 0.3:
            lines.insert(self.randint(0, len(lines)), "QUIT")
        return "\n".join(lines) + self.choice(["\n", ""])


class Previews(unittest.TestCase):
    def setUp(self) -> None:
        holder = tempfile.TemporaryDirectory()
        self.addCleanup(holder.cleanup)
        self.folder = holder.name
        self.path = os.path.join(holder.name, "journal.txt")
        with open(os.path.join(helpers.TOP, "docs", "preview.schema.json"), encoding="ascii") as file:
            self.schema = json.load(file)

    def write(self, text: str) -> None:
        with open(self.path, "w", encoding="ascii") as file:
            file.write(text)

    def read(self) -> str:
        with open(self.path, encoding="ascii") as file:
            return file.read()

    def previewed(self, rules: Rules, journal: str, role: str, lines: str) -> tuple[str, dict[str, Any]]:
        """The document of these lines, which fits its schema. The journal stays, and nothing is put beside it."""
        self.write(journal)
        text, said, status = ran("preview", *words_of(rules), "--journal", self.path, "--role", role, lines=lines,
                                 cwd=self.folder)
        self.assertEqual((said, status), ("", 0))
        self.assertEqual((self.read(), os.listdir(self.folder)), (journal, ["journal.txt"]))
        self.assertTrue(fits(json.loads(text), self.schema, self.schema), text)
        return text, json.loads(text, parse_float=Fraction)

    def sent(self, rules: Rules, journal: str, role: str, lines: str, form: str) -> str:
        """What a replay writes for these lines, if they are sent in that role, and then its final part."""
        self.write(journal)
        printed, said, status = replayed(*words_of(rules), "--journal", self.path, "--print", form,
                                         lines=f"ROLE {role}\n{lines}")
        self.assertEqual((said, status), ("", 0))
        return printed.removeprefix(f"ROLE {role.upper()}\n")

    def test_worked(self) -> None:
        text, whole = self.previewed(Rules(), ONE_RACE, "jury", LINES)
        self.assertEqual(text, WORKED)
        after = ONE_RACE + "1 8 JURY MARK 1 A DSQ\n1 9 SCORER ENTER D\n"
        self.assertEqual(whole["moves"], moves(Rules(), ONE_RACE, after))
        self.assertEqual(whole["changes"], changes(Rules(), ONE_RACE, after))

    def test_nothing(self) -> None:
        """No line of nobody moves nobody."""
        self.assertEqual(ran("preview"), (EMPTY, "", 0))
        self.assertEqual(self.previewed(Rules(), ONE_RACE, "scorer", "")[0], EMPTY)

    def test_roles(self) -> None:
        """Each role may send its own lines, and a scorer is meant if none is named."""
        self.write(ONE_RACE)
        for role, (entered, marked, struck) in {
                "finish": ("NO", "NO", "OK"), "jury": ("NO", "OK", "NO"), "scorer": ("OK", "NO", "OK")}.items():
            whole = self.previewed(Rules(), ONE_RACE, role, "ENTER D\nMARK 1 A DSQ\nSTRIKE 1 B\n")[1]
            self.assertEqual(whole["role"], role.upper())
            self.assertEqual([row["reply"] for row in whole["replies"]], [entered, marked, struck])
        named = ran("preview", "--journal", self.path, "--role", "scorer", lines=LINES)
        self.assertEqual(ran("preview", "--journal", self.path, lines=LINES), named)
        self.assertEqual(named[2], 0)

    def test_by_rules(self) -> None:
        """Of random series: the replies are those of a replay in that role, and who moves is what a script says that
        was written from the rules."""
        for number in range(helpers.trials(200)):
            dice = Wishes(number)
            rules = dice.rules()
            journal = journal_of(rules, dice.lines(rules))
            sails = [line.split()[4] for line in journal.splitlines() if " ENTER " in line] or ["A"]
            role, lines = dice.choice(ROLES), dice.wishes(rules, sails)
            with self.subTest(number):
                whole = self.previewed(rules, journal, role, lines)[1]
                after = "REGATTA 2\n" + self.sent(rules, journal, role, lines, "journal").rpartition("REGATTA 2\n")[2]
                self.assertEqual(whole["moves"], moves(rules, journal, after))
                self.assertEqual(whole["changes"], changes(rules, journal, after))
                table = self.sent(rules, journal, role, lines, "table").rpartition("TABLE ")[0]
                self.assertEqual([reply(row) for row in whole["replies"]], without_sheets(table))
                self.assertEqual(whole["role"], role.upper())

    def test_score_alone(self) -> None:
        """A boat's excluded score gets its redress: it changes, and counts as excluded before and after. Neither her rank
        nor her net moves, nor does any other boat (RRS A2.1)."""
        journal = ONE_RACE + "".join(f"1 {at} SCORER {line}\n" for at, line in enumerate(
            ["FINISH 2 B", "FINISH 2 A", "FINISH 2 C", "SCORE 2"], 8))
        whole = self.previewed(Rules(), journal, "jury", "REDRESS 2 A 1.5\n")[1]
        self.assertEqual([(one["sail"], one["before"]["net"], one["after"]["net"]) for one in whole["moves"]], [])
        place = {"rank": 2, "tied": False, "net": 1}
        self.assertEqual(whole["changes"], [{"sail": "A", "before": place, "after": place, "scores": [
            {"race": 1, "before": {"points": 1, "mark": None, "excluded": False},
             "after": {"points": 1, "mark": None, "excluded": False}},
            {"race": 2, "before": {"points": 2, "mark": None, "excluded": True},
             "after": {"points": Fraction(3, 2), "mark": "RDG", "excluded": True}}]}])

    def test_other_races(self) -> None:
        """A race that begins to count, and one that no longer does: each boat's score in it has no other side."""
        journal = ONE_RACE + "1 8 SCORER FINISH 3 C\n"
        whole = self.previewed(Rules(), journal, "scorer", "SCORE 3\nUNSCORE 1\n")[1]
        self.assertEqual([one["sail"] for one in whole["changes"]], ["C", "A", "B"])
        points = [[(score["race"], score["before"] and score["before"]["points"], score["after"] and score["after"]["points"])
                   for score in one["scores"]] for one in whole["changes"]]
        self.assertEqual(points, [[(1, 3, None), (3, None, 1)], [(1, 1, None), (3, None, 4)], [(1, 2, None), (3, None, 4)]])

    def test_session(self) -> None:
        """A client of an office who sends the same lines in that role gets the same replies."""
        self.write(ONE_RACE)
        path = os.path.join(self.folder, "race.sock")
        words = [helpers.PROGRAM, "serve", "--socket", path, "--sessions", "1", "--journal", self.path]
        with subprocess.Popen(words, stdout=subprocess.DEVNULL) as serving:
            helpers.until("the socket", lambda: os.path.exists(path))
            with socket.socket(socket.AF_UNIX, socket.SOCK_STREAM) as client:
                client.settimeout(helpers.PATIENCE)
                client.connect(path)
                client.sendall(f"ROLE JURY\n{LINES}".encode())
                printed = b""
                while piece := client.recv(1 << 16):
                    printed += piece
            self.assertEqual(serving.wait(helpers.PATIENCE), 0)
        os.remove(path)
        whole = self.previewed(Rules(), ONE_RACE, "jury", LINES)[1]
        self.assertEqual(["ROLE JURY", *(reply(row) for row in whole["replies"])], without_sheets(printed.decode()))

    def test_refused(self) -> None:
        """What a replay says of its start, `preview` says too, and prints nothing."""
        for journal, said in [
                ("1 1 SCORER ENTER A\n1 2 SCORER ENTER A\n", "regatta: start refused 6 at 2\n"),
                ("1 1 SCORER ENTER A\nX\n", "regatta: journal fault 1 line 2\n"),
                ("1 1 SCORER ENTER A\n1 1 SCORER ENTER B\n", "regatta: start refused 3 at 2\n")]:
            self.write(journal)
            for command in ("replay", "preview"):
                self.assertEqual(ran(command, "--journal", self.path, lines="ENTER B\n"), ("", said, 1))
        self.assertEqual(ran("preview", "--scp", "0"), ("", "regatta: rules fault 1\n", 2))
        self.assertEqual(ran("preview", "--journal", os.path.join(self.folder, "none.txt")), ("", DEVICE, 3))

    def test_length(self) -> None:
        """The last byte that is taken, and one more. Nothing is printed for a text that is too long, whatever it has."""
        lines = "ENTER A\nQUIT\n"
        fills = lines + "\n" * (MOST - len(lines))
        whole = ran("preview", lines=lines)
        self.assertEqual(json.loads(whole[0])["moves"][0]["sail"], "A")
        self.assertEqual(ran("preview", lines=fills), whole)
        self.assertEqual(ran("preview", lines=fills + "\n"), ("", "regatta: input too long\n", 1))

    def test_input(self) -> None:
        """The input fails: nothing is printed."""
        with failing(b"ENTER A\nENTER B\n") as stdin:
            self.assertEqual(ran("preview", stdin=stdin), ("", DEVICE, 3))
