"""A page that was changed anywhere is found, and what was changed is named.

`CHANGES=100` in the environment tries 100 one-character changes, and not 1,000.
"""
from __future__ import annotations

import contextlib
import io
import json
import os
import random
import re
import shutil
import stat
import subprocess
import time
import unittest
import unittest.mock
import zoneinfo
from collections.abc import Callable
from typing import Any

import helpers

from forger import block_in, journal_of, resealed
from raceoffice.errors import ForeignPage, Unsure
from raceoffice.program.standing import Score
from raceoffice.results import exports
from raceoffice.results.html import notice_board, overall
from raceoffice.results.html.listing import listing
from raceoffice.results.html.markup import Markup, tag
from raceoffice.results.html.page import confirmed, styles
from raceoffice.results.html.sealing import NUMBER
from raceoffice.results.snapshot import Snapshot
from raceoffice.verify import page_data, verifier

COUNT = int(os.environ.get("CHANGES", "1000"))
SIGNS = "0123456789ABCXYZabcxyz .,-=/()<>&\"'\\éß"
HOSTILE = """\
Boat,Sail,Helm,Club
</script><script>alert(1)</script>,GBR 101,A. Moss,Sandhaven
<!--,GBR 7,"J. ""Jo"" Hale",--> & co
Windhover,NED 12,\u2028P. de Wit\u2029,Zierik
Plover,FRA 9,C. Blanc\\u003c,Brest
Turnstone,GBR 33,R. Shaw,<script type="application/json" id="proof">
Curlew,IRL 5,M. Byrne,]]>
Dunlin,IRL 55,O. Roche,Howth
"""
# Three boats tie, GBR101 ahead by A8.2 and two with the same scores; all kinds of cells.
LINES = ["FINISH 1 GBR101", "FINISH 1 GBR7", "TIE 1 NED12 GBR7", "FINISH 1 FRA9", "MARK 1 IRL5 OCS",
         "PENALTY 1 FRA9 ZFP", "PENALTY 1 FRA9 ZFP", "SCORE 1", "FINISH 2 GBR7", "TIE 2 NED12 GBR7",
         "FINISH 2 GBR33", "FINISH 2 GBR101", "ROLE JURY", "REDRESS 2 IRL5 ALL", "MARK 2 GBR33 DNE",
         "ROLE SCORER", "SCORE 2", "FINISH 3 FRA9", "FINISH 3 IRL55", "FINISH 3 GBR101", "SCORE 3",
         "ROLE JURY", "REDRESS 3 GBR101 5.0", "ROLE SCORER", "FINISH 4 GBR7"]


class Pages(helpers.Series):
    def setUp(self) -> None:
        super().setUp()
        self.folder = self.make("tide", HOSTILE, title="Autumn </script> Cup", reason="<!-- & -->",
                                exclude="3", **{"class": "A <b>"})
        self.write(journal_of(self.folder, *LINES), "tide", "journal.txt")
        self.write("race 3 GBR101 DPI 2  # <!-- hearing 1\nrace 1 IRL55 </script>\n"
                   "race 1 GBR7 PRP 30%\n", "tide", "decisions.txt")
        self.verifier = verifier.Verifier(helpers.PROGRAM)

    def page(self, *names: str) -> str:
        return notice_board.results([self.view(name) for name in names or ("tide",)])

    def view(self, name: str = "tide") -> Snapshot:
        return exports.view_of(os.path.join(self.here, name), lambda _: None)

    def odd(self, page: str) -> str:
        """Why a page isn't verified."""
        with self.assertRaises(ForeignPage) as found:
            self.verifier.verified(page)
        return str(found.exception)

    def test_each_change(self) -> None:
        """Each one-character change of settings, journal or table is found."""
        dice, page = random.Random(8), self.page()
        self.verifier.verified(page)
        begin = page.index(page_data.START)
        spans = {"settings": (page.index('"settings"', begin), page.index('"decisions"', begin)),
                 "journal": (page.index('"journal"', begin), page.index("</script>", begin)),
                 "table": (page.index("<table>"), page.index("</table>")),
                 "chart": (page.index("<svg"), page.index("</details>"))}
        unfound, why = [], []
        for at in range(COUNT):
            kind = list(spans)[at % len(spans)]
            place = dice.randrange(*spans[kind])
            sign = dice.choice([sign for sign in SIGNS if sign != page[place]] + [""] * 3)
            try:
                self.verifier.verified(page[:place] + sign + page[place + 1:])
                unfound.append((kind, page[place - 20:place + 20], sign))
            except ForeignPage as odd:
                why.append((kind, str(odd)))
        self.assertEqual(unfound, [])
        said = {kind: [text for name, text in why if name == kind] for kind in spans}
        self.assertGreater(sum("entry " in text for text in said["journal"]), COUNT // 10)
        self.assertGreater(sum("isn't as it was written" in text for text in said["settings"]),
                           COUNT // 20)
        self.assertGreater(sum("Overall results, " in text for text in said["table"]), COUNT // 50)

    def test_long_block(self) -> None:
        """Of a page whose block would take gigabytes nothing can be said: it isn't read."""
        page = self.page()
        begin = page.index(page_data.START) + len(page_data.START)
        room = page_data.BLOCK - len(page_data.block_of(page))
        self.assertNotIn("longer", self.odd(page[:begin] + " " * room + page[begin:]))
        with self.assertRaisesRegex(Unsure, "^its block is longer than 12,582,912 characters, and no more are read$"):
            self.verifier.verified(page[:begin] + " " * (room + 1) + page[begin:])

    def test_named(self) -> None:
        """The first cell, line or setting that differs is named."""
        page = self.page()
        for old, new, why in [
                ('<span class="p">1<i>.0</i>', '<span class="p">2<i>.0</i>',
                 "row 1 ('GBR 101, A. Moss'), R1: the page has '2.0', and not '1.0'"),
                ("<abbr class=\"kind\" title=\"discretionary penalty\">DPI", "<abbr>SCP",
                 "R3: the page has '(5.0) excluded SCP', and not '(5.0) excluded DPI'"),
                ('class="m1">1</span>', 'class="m1">2</span>', "Rank: the page has '2', and not '1"),
                ("A8.1", "A8.2", "the text"), (">Provisional<", ">Final<", "'Final' of the page has "),
                ('helm">O. Roche', 'helm">O. Rocha', "the page has 'IRL 55, O. Rocha'"),
                ("font: 1rem", "font: 2rem", "no cell or text that differs was found, but line "),
                ('"1 1 SCORER ENTER GBR101"', '"1 1 SCORER ENTER GBR102"',
                 "entry 1 isn't as it was written: '1 1 SCORER ENTER GBR102'"),
                ('"exclude": "3"', '"exclude": "4"', "the setting exclude isn't as it was written: '4'"),
                ('"R. Shaw"', '"R. Show"', "boat 5 isn't as it was written")]:
            self.assertIn(old, page)
            self.assertIn(why, self.odd(page.replace(old, new, 1)))

    def test_forged(self) -> None:
        """Data with seals that are right for them are scored: what the table has not is named."""
        page = self.page()

        def settings(name: str, value: str) -> Callable[[dict[str, Any]], None]:
            def change(whole: dict[str, Any]) -> None:
                whole["series"][0]["settings"][name] = value
            return change

        def entry(was: str, now: str) -> Callable[[dict[str, Any]], None]:
            def change(whole: dict[str, Any]) -> None:
                journal = whole["series"][0]["journal"]
                at = [line.split(maxsplit=3)[3] for line in journal].index(was)
                journal[at] = journal[at].replace(was, now)
            return change

        for change, why in [
                (settings("exclude", "none"), "Overall results, A <b>"),
                (settings("absent", "a53"), "Overall results, A <b>"),
                (settings("title", "Spring Cup"), "the text 'Autumn </script> Cup · provisional'"),
                (settings("state", "final"), "provisional"), (settings("state", "x"), "the setting state"),
                (settings("exclude", "--help"), "the setting exclude is '--help'"),
                (entry("FINISH 3 FRA9", "FINISH 3 IRL5"), "Overall results, A <b>"),
                (entry("SCORE 3", "SCORE 4"), "of the journal is refused"),
                (entry("FINISH 3 FRA9", "FINISH 3 IRL6"), "entry 23 of the journal is refused: a boat"),
                (entry("SCORE 3", "SCORED 3"), "can't be read"),
                (entry("SCORE 3", "score 3"), "isn't written as the program writes it"),
                (lambda whole: whole["series"][0]["decisions"].pop(0), "DPI")]:
            self.assertIn(why, self.odd(resealed(page, change)))

    def test_every_page(self) -> None:
        """All pages of the board and of the results are verified, as files and from a terminal."""
        self.write(journal_of(os.path.join(self.here, "cup"), "FINISH 1 GBR7", "SCORE 1"), "cup",
                   "journal.txt")
        self.make("empty")
        names = ["tide", "cup", "empty"]
        helpers.run("board", *names, "--page", "out", "--once", cwd=self.here)
        helpers.run("board", "tide", "--page", "alone", "--once", cwd=self.here)
        helpers.run("export", *names, "--html", "all.html", cwd=self.here)
        pages = ["all.html"] + [
            os.path.relpath(os.path.join(top, name), self.here) for folder in ("out", "alone")
            for top, _, found in os.walk(os.path.join(self.here, folder)) for name in found
            if name.endswith(".html")]
        self.assertEqual(len(pages), 16)
        said, status = helpers.run("verify", *pages, "--program", helpers.PROGRAM, cwd=self.here)
        self.assertEqual(status, 0, said)
        self.assertEqual(said.count(": verified."), 16)
        self.assertIn("Class 'A <b>': 7 boats, 3 races, 28 entries, provisional. Scored again: every cell is "
                      "the same.", said)
        self.assertIn("Program: the one that the page names, SHA-256 ", said)

    def test_no_way_out(self) -> None:
        """No name, title, reason, decision or journal ends the block or begins another."""
        page = self.page()
        self.assertEqual(page.count("<script"), 2)
        self.assertEqual(page.count("</script"), 2)
        block = block_in(page)
        self.assertEqual([sign for sign in "<>&\u2028\u2029" if sign in block], [])
        series = json.loads(block)["series"][0]
        self.assertEqual(series["boats"][0][3], "</script><script>alert(1)</script>")
        self.assertEqual(series["decisions"][:2], ["race 3 GBR101 DPI 2", "race 1 IRL55 </script>"])
        self.assertNotIn("hearing 1", page)
        # Where the program and the folder are is nobody's business.
        self.assertNotIn(self.here, page)

    def test_blocks(self) -> None:
        """A page without a block, with two, or with one that isn't one, is no page to verify."""
        page = self.page()
        block = f"{page_data.START}{block_in(page)}</script>"
        for text, why in [(page.replace(block, block * 2), "2 blocks"),
                          (page.replace(block, block.removesuffix("</script>")), "isn't JSON at its"),
                          (page[:page.index("</script>")], "the block has no end"),
                          (page.replace('"marks"', '"mark"'), "the parts of one"),
                          (page.replace('"journal": [', '"journal": [1,'), "the parts of one"),
                          (page.replace('"kind": "results"', '"kind": "list"'), "seal"),
                          (page.replace('"kind": "results"', '"kind": "x"'), "the parts of one"),
                          (page.replace('"settings": {', '"settings": ['), "isn't JSON at its line"),
                          (page.replace(block, block.replace('": "', '":  "', 1)), "seal"),
                          (page.replace("</body>", "<p>More</p></body>"), "the text 'More'"),
                          (page.replace("</style>", ".r { display: none }</style>"), "A browser may show something else")]:
            self.assertIn(why, self.odd(text))
        for text, why in [(page.replace(block, ""), "it has no block"),
                          (page.replace(f'"regatta": "{NUMBER}-', f'"regatta": "{NUMBER - 1}-'), "an older version"),
                          (page.replace(f'"regatta": "{NUMBER}-', f'"regatta": "{NUMBER + 1}-'), "a newer version"),
                          (re.sub(f'"regatta": "{NUMBER}-[0-9a-f]{{8}}"', f'"regatta": "{NUMBER}-00000000"', page),
                           "another version"),
                          (re.sub('"regatta": "[^"]*"', '"regatta": 1', page), "an older version")]:
            with self.assertRaisesRegex(Unsure, why):
                self.verifier.verified(text)

    def test_wrong_tools(self) -> None:
        """If the package itself wrote a cell wrongly, and would do so again, the cell is named."""
        right = overall.cell
        for was, now, why in [("3<i>.0", "4<i>.0", "('GBR 101, A. Moss')"), ("DNE", "DSQ", "('GBR 33, "),
                              ("<s>)", "<s>", "")]:
            def wrong(score: Score) -> Markup:
                return Markup(right(score).html.replace(was, now))

            with unittest.mock.patch("raceoffice.results.html.overall.cell", wrong):
                written = self.page()
                self.verifier = verifier.Verifier(helpers.PROGRAM)
                self.assertIn(why, self.odd(written))
        with unittest.mock.patch("raceoffice.results.html.overall.rank",
                                 lambda *_: tag("td", tag("span", 1), class_="rank")):
            written = self.page()
            self.verifier = verifier.Verifier(helpers.PROGRAM)
            self.assertIn("row 2 (", self.odd(written))

    def test_alike(self) -> None:
        """Sail and helm of one boat, with a blank between them, read as those of another, and each row is the program's."""
        folder = self.make("alike", "Sail,Helm\nGBR 7,1 Smith\nGBR 7 1,Smith\nGBR 9,Z\n", title="Autumn Cup")
        self.write(journal_of(folder, "FINISH 1 GBR71", "FINISH 1 GBR7", "FINISH 1 GBR9", "SCORE 1"), "alike", "journal.txt")
        self.verifier.verified(self.page("alike"))

    def test_many_first(self) -> None:
        """The list names three of the boats that share the first rank, and says how many others do."""
        sails = [f"GBR {number}" for number in range(1, 7)]
        self.make("even", "\n".join(["Sail", *sails, ""]))
        for boats, words in (2, "GBR 1</b> and <b>GBR 2</b></p>"), (3, " and <b>GBR 3</b></p>"), (6, " and <b>GBR 3</b> and 3 more</p>"):
            lines = ["FINISH 1 GBR1", *(f"TIE 1 GBR{number} GBR1" for number in range(2, boats + 1)), "SCORE 1"]
            self.write(journal_of(os.path.join(self.here, "even"), *lines), "even", "journal.txt")
            page = confirmed(listing([self.view("even")]), "2026-03-01T10:00:00+00:00", "once")
            self.assertIn(words, page)
            self.verifier.verified(page)

    def test_programs(self) -> None:
        """Another program is named apart; without any, or with one that isn't regatta, nothing is."""
        self.write(self.page(), "page.html")
        other = os.path.join(self.here, "other")
        self.write(f"#!/bin/sh\nexec {helpers.PROGRAM} \"$@\"\n", "other")
        os.chmod(other, stat.S_IRWXU)
        said, status = helpers.run("verify", "page.html", "--program", other, cwd=self.here)
        self.assertEqual(status, 0)
        self.assertIn("Program: another than the page names, which wasn't asked.", said)
        os.mkdir(os.path.join(self.here, "beside"))
        os.symlink(helpers.PROGRAM, os.path.join(self.here, "beside", "regatta"))
        with unittest.mock.patch.dict(os.environ, {"PATH": os.path.join(self.here, "beside")}):
            for words in (list[str](), ["--program", "regatta"]):
                said, status = helpers.run("verify", "page.html", *words, cwd=self.here)
                self.assertEqual((status, "verified. " in said or ": verified." in said), (0, True), said)
            # A program that came with a page doesn't judge it, unless somebody names it by its path.
            os.symlink(other, os.path.join(self.here, "regatta"))
            for words, text in (list[str](), "the one that"), (["--program", "./regatta"],
                                                                "another than the page"):
                said, status = helpers.run("verify", "page.html", *words, cwd=self.here)
                self.assertEqual((status, f"Program: {text}" in said), (0, True), said)
        for program, why in (("nowhere", "There is no program at nowhere"),
                             ("/bin/true", "not verified: the program doesn't show its journal")):
            said, status = helpers.run("verify", "page.html", "--program", program, cwd=self.here)
            self.assertEqual(status, 2)
            self.assertIn(why, said)

    def test_decisions(self) -> None:
        """Notes, blank lines and other ends of lines in decisions.txt are no hindrance, however many there are."""
        for text in ("race 1 GBR7 PRP 30%\r\n# a note\r\n", "\n\n# a note", "x\x0b\x85y\u2028# z\n\n \n"):
            self.write(text, "tide", "decisions.txt")
            with self.subTest(text=text):
                self.verifier.verified(self.page())
        # Signs and letters that not each Python knows are said alike by all, so that a page is the same.
        self.write("race 1 GBR\U0001fae87 PRP 30%\nrace 1 GBR7 DPI \ua7c010\nrace 1 GBR7 \U0001df00 foo\n", "tide", "decisions.txt")
        page = self.page()
        for text in ("the sail &quot;GBR\U0001fae87&quot; has the sign U+1FAE8.", "or points, and not &#x27;\\ua7c010&#x27;.",
                     "decisions.txt, line 3: foo is no kind of decision"):
            self.assertIn(text, page)
        self.verifier.verified(page)
        for lines in (1000, 1001):
            self.write("\n" * lines, "tide", "decisions.txt")
            with self.subTest(lines=lines):
                self.verifier.verified(self.page())

    def test_patience(self) -> None:
        """A program that doesn't end leaves nothing to say, also if it does so with the decisions."""
        # Nothing is excluded: the program is asked for the results, and then for the decisions alone.
        folder = self.make("simple", exclude="none")
        self.write(journal_of(folder, "FINISH 1 GBR7", "SCORE 1"), "simple", "journal.txt")
        self.write("race 1 GBR7 PRP 30%\n", "simple", "decisions.txt")
        self.write(confirmed(overall.overall(self.view("simple")), "2026-03-01T10:00:00+00:00", "once"),
                   "page.html")
        for name, text in [("slow", "exec sleep 60"), ("later", f"""if test -e {self.here}/once
then exec sleep 60; fi\n: > {self.here}/once\nexec {helpers.PROGRAM} "$@\"""")]:
            self.write(f"#!/bin/sh\n{text}\n", name)
            os.chmod(os.path.join(self.here, name), stat.S_IRWXU)
            told = io.StringIO()
            with unittest.mock.patch("raceoffice.program.replay.PATIENCE",
                                     3.0), contextlib.redirect_stdout(told):
                status = verifier.verify([os.path.join(self.here, "page.html")],
                                         os.path.join(self.here, name))
            self.assertEqual(status, 2, told.getvalue())
            self.assertIn("can't be run: it does not end", told.getvalue())

    def test_zones(self) -> None:
        """A page whose series names no zone is verified on a computer of another zone."""
        self.make("home", zone="")
        for zone, words in [("Europe/Lisbon", r"WES?T \(UTC\+[01]\)"), ("Asia/Kolkata", r"IST \(UTC\+5:30\)"),
                            ("America/St_Johns", r"N[SD]T \(UTC-[23]:30\)"), ("UTC0", "UTC"),
                            ("Race-3", r"UTC\+3"), ("Asia/Dubai", r"UTC\+4"), ("AAA-15", r"UTC\+15"),
                            ("AAA+14:30", "UTC-14:30"), ("AAA-3:30:15", r"UTC\+3:30"), ("AAA+23:59:59", "UTC-23:59"),
                            ("AAA-24:30", "UTC")]:
            with unittest.mock.patch.dict(os.environ, TZ=zone):
                time.tzset()
                page = self.page("home")
            with unittest.mock.patch.dict(os.environ, TZ="Asia/Tokyo"):
                time.tzset()
                self.verifier.verified(page)
            time.tzset()
            self.assertRegex(page, rf"<time [^>]*>[^<]*, [0-9:]{{5}} {words}</time>")

    def test_old_files(self) -> None:
        """A series whose files are dated before 1970 changed then, and its page is verified."""
        for zone, words in ("", ""), ("America/New_York", "Wed 31 Dec 1969, 19:00 EST (UTC-5)"):
            for seconds in (-1, -2_000_000_000):
                name = f"old{zone[:1]}{seconds}"
                folder = self.make(name, zone=zone, state="final")
                self.write(journal_of(folder, "FINISH 1 GBR7", "SCORE 1"), name, "journal.txt")
                for file in ("journal.txt", "series.ini"):
                    os.utime(os.path.join(folder, file), (seconds, seconds))
                page = self.page(name)
                self.assertIn(f'<time datetime="1970-01-01T00:00:00+00:00">{words}', page)
                self.verifier.verified(page)

    def test_unknown_zone(self) -> None:
        """Nor can it say so of a page whose zone it doesn't know, as that of newer data."""
        self.make("named", zone="Europe/Lisbon")
        self.write(self.page("named"), "page.html")
        known = next(os.path.join(path, "UTC") for path in zoneinfo.TZPATH if os.path.exists(os.path.join(path, "UTC")))
        os.mkdir(os.path.join(self.here, "zones"))
        shutil.copy(known, os.path.join(self.here, "zones", "UTC"))
        with unittest.mock.patch.dict(os.environ, PYTHONTZPATH=os.path.join(self.here, "zones")):
            said, status = helpers.run("verify", "page.html", "--program", helpers.PROGRAM, cwd=self.here)
        self.assertEqual((said, status), ("page.html: not verified: this computer doesn't know the time zone 'Europe/Lisbon' "
                                          "(packages tzdata, tzdata-legacy).\n", 2))

    def test_styles(self) -> None:
        """A style sheet has the same title on each computer, whatever letters its Python knows: those of ASCII alone are
        as they are."""
        self.assertEqual(styles("Jürgen (2), 名"), '"J\\fc rgen (2), \\540d "')

    def test_no_zones(self) -> None:
        """A computer without data of time zones can't say whether a page's times are right, and doesn't say that they
        aren't."""
        for name, zone in ("named", "Europe/Lisbon"), ("universal", "UTC"), ("unnamed", ""):
            with self.subTest(zone):
                self.make(name, zone=zone)
                self.write(self.page(name), "page.html")
                with unittest.mock.patch.dict(os.environ, PYTHONTZPATH="/nonexistent"):
                    said, status = helpers.run("verify", "page.html", "--program", helpers.PROGRAM, cwd=self.here)
                self.assertEqual((said, status), (
                    "page.html: not verified: this computer has no data of time zones (package tzdata), and the times of a "
                    "page are in words.\n", 2))

    def test_pipe(self) -> None:
        """Whoever writes into a pipe is waited for; nobody is at one into which nobody writes."""
        self.write(self.page(), "page.html")
        os.mkfifo(os.path.join(self.here, "pipe"))
        words = ["verify", "/dev/stdin", "--program", helpers.PROGRAM]
        with subprocess.Popen(["cat", "page.html"], cwd=self.here, stdout=subprocess.PIPE) as writer:
            done = subprocess.run([*helpers.COMMAND, *words], stdin=writer.stdout, capture_output=True,
                                  text=True)
        self.assertIn("\n/dev/stdin: verified.\n", done.stdout)
        said, status = helpers.run("verify", "pipe", "--program", helpers.PROGRAM, cwd=self.here)
        self.assertEqual((said, status), ("pipe: not verified: it has no block that can be verified, so it "
                                          "is no page of results.\n", 2))

    def test_statuses(self) -> None:
        """1 is for what differs, and 2 for what nothing can be said of; 1 counts more."""
        page = self.page()
        self.write(page, "good.html")
        self.write(page.replace(">M. Byrne<", ">M. Burne<"), "other.html")
        self.write("<p>Results</p>", "note.html")
        with open(os.path.join(self.here, "byte.html"), "wb") as file:
            file.write(page.encode() + b"\xff")
        with open(os.path.join(self.here, "picture.html"), "wb") as file:
            file.write(b"\x89PNG\r\n")
        for names, wanted, why in [
                (["good"], 0, "good.html: verified."), (["other"], 1, "NOT VERIFIED: 'Overall results, "),
                (["note"], 2, "not verified: it has no block"), (["byte"], 1, "NOT VERIFIED: byte "),
                (["picture"], 2, "it is no page of "), (["no"], 2, "can't be read: No such file"),
                (["good", "note"], 2, "good.html: verified."), (["note", "other", "good"], 1, "NOT ")]:
            said, status = helpers.run("verify", *(f"{name}.html" for name in names), "--program",
                                       helpers.PROGRAM, cwd=self.here)
            self.assertEqual(status, wanted, said)
            self.assertIn(why, said)


if __name__ == "__main__":
    unittest.main()
