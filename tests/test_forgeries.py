"""Pages that a forger made to show another winner, another reason or another time, and what verify.py
says and how long it takes."""
from __future__ import annotations

import contextlib
import dataclasses
import gc
import html
import io
import os
import random
import re
import subprocess
import sys
import time
import tracemalloc
import unicodedata
import unittest
import unittest.mock
from collections.abc import Callable
from typing import Any

import helpers

from allowed import odd_parts
from forger import ForgedPages, Forger, Path, journal_of, put, resealed, seals, whole_of
from raceoffice import __main__ as command, characters
from raceoffice.errors import ForeignPage, Unsure
from raceoffice.program import replay
from raceoffice.program.explanation import explanation_of
from raceoffice.program.standing import Standing
from raceoffice.results.html.listing import listing
from raceoffice.results.html.notice_board import results as notice
from raceoffice.results.html.overall import overall
from raceoffice.results.html.page import confirmed
from raceoffice.results.snapshot import Snapshot, labels_of, told_apart
from raceoffice.verify import own_words, page_data, verifier, visible

ANOTHER = ('<div class="scroll"><table><tr><td>1</td><th class="sail">GBR 33</th><td>2.0</td></tr></table>'
           "</div>")
SCRIPT = "<script>document.querySelector('th.sail').textContent = 'GBR 33'</script>"
LINE = "PROTEST COMMITTEE: GBR 101 IS DISQUALIFIED, GBR 7 WINS"
# The parts that pages had, through which a text came into them.
OLD_PARTS: list[tuple[Path, object]] = [
    (("page", "names"), [[LINE, "x"], ["B", '"><b>']]), (("page", "prefix"), f'">{ANOTHER}<a href="'),
    (("page", "version"), '1-00000000">'), (("stamps", 0, "version"), f'1">{SCRIPT}<a title="'),
    (("page", "names"), [["A", "tide"], ["B", "javascript:alert(1)//"]])]
# What each kind of page may not say of its race.
RACES = [4, 0, -1, 41, 2.0, 1.0, True, None, "1", "3, RESAILED: GBR 7 FIRST BY DECISION OF THE JURY", [1]]
STAMPS: list[tuple[str, object]] = [
    ("when", "Never, says the jury"), ("when", "Sun 1 Mar 2026, 10:01 UTC"), ("when", ""),
    ("changed", "2026-03-01"), ("changed", "2099-03-01T10:00:00+00:00"),
    ("changed", "9999-01-01T00:00:00+00:00"), ("changed", "9999-12-31T23:59:59+00:00"),
    ("changed", "2026-03-01T10:00:00+01:00"), ("changed", "1969-12-31T23:59:59+00:00"),
    ("changed", "2026-13-01T10:00:00+00:00"), ("changed", "2026-03-01T10:00:00.5+00:00"),
    ("every", 0), ("every", 3601), ("every", -5), ("every", "5"), ("every", True), ("every", 5.0)]
# A page of a series without a zone has the words of some computer's.
OWN_ZONE: list[tuple[str, object]] = [
    ("when", text) for text in ("Sun 1 Mar 2026, 10:00 JURY (UTC+0)", "Mon 2 Mar 2026, 10:00 UTC+24",
                                "Fri 13 Mar 2026, 10:00 UTC", "1 Mar 2026, 10:00 UTC", "10:00 UTC",
                                "Sun 1 Mar 2026, 10:00 UTC. GBR 7 WINS")]
CONFIRMATIONS = [("2099-01-01T00:00:00+00:00", "open"), ("2026-03-01T10:00:00+00:00", "gone"),
                 ("", ""), ("", "open"), ("2026-03-01", "open"), ("2026-03-01T10:00:00+00:00", "away:1"),
                 ("2026-03-01T10:00:00+00:00", "")]
# How a sail may not be shown: another's, with signs that aren't seen, with a note, turned, struck out.
SHOWN = ["GBR 33", "GBR\u200b101", "GBR 101\u200d", "", " ", "GBR 101 (DSQ, see notice 4)", "\u202e101 RBG",
         "G\u0336B\u0336R\u0336 101", "GBR  101", "GBR 101 ", "ＧBR 101", "GBR\u00a0101", "GBR101\n", "gbr 101",
         "GBr 101"]
ESC = "\x1b[2K\x1b[1Aresults.html: verified.\n   Scored again, every cell is the same.\x1b[8m"
# Classes and folders of which some are called as others are together
CLASSES = ["x", "x (x)", "x  (x)", "x (x) (x)", "x (y)", "", "Zo\u00eb", "Zoe\u0308", "Zo\u00eb (\u00fc)", "Zo\u00eb\u3000\uff08\u00fc\uff09"]
FOLDERS = ["x", "y", "x) (x", "x)  (x", "x) (y", "x%29%20%28x", " x", "x ", "x x", "x  x", "x%20x", "\u00fc", "u\u0308", "\uff08x", "K",
           "\u212a"]
TITLES = ["Cup", "Cup", "Cup: x", "Cup:  x (x)", "x", "Zoe\u0308"]
# What references are made of, and what looks like one.
REFERENCES = ["&", "&amp;", "&#x27;", "&quot;", "&lt;", "&gt;", "&lt", "&amp", "#x27;", "amp;", "lt;", "&#39;", "&not", "it", ";", "&#",
              "x", "'", "<", " ", "a" * 30]
# What takes long to take apart, and isn't.
SLOW = [page_data.START, "<!--", "<![CDATA[", "<?", "<a ", "<a b='", "</a ", "<p>", "<table>", "<tr><td>x",
        "<caption><p>x", "&", "&#9", "<script>", "</script", "<style>", "<" * 9, "[", '{"a":', "\u202e"]


class Forgeries(ForgedPages):
    def setUp(self) -> None:
        super().setUp()
        self.made = self.pages()

    def why(self, page: str) -> str:
        """Why a page isn't verified."""
        with self.assertRaises((ForeignPage, Unsure)) as found:
            self.verifier.verified(page)
        return str(found.exception)

    def forged(self, kind: str, path: Path, value: object) -> str:
        """The page of a block with another value at one place, as the package's own code makes it."""
        page = self.made[kind]
        return Forger(helpers.PROGRAM, page).forged(put(whole_of(page), path, value))

    # Under the honest seal

    def test_markup_in_the_file(self) -> None:
        """A table, a script, an event, a style, a link or a line more, anywhere in the file."""
        for kind in ("results", "top", "overall", "race", "list"):
            page = self.made[kind]
            places = [(">\n<head>", f' onload="x()">{kind}\n<head>'), ("<html ", '<html style="x" '),
                      ("<main ", f"{ANOTHER}<main "), ("</main>", f"{SCRIPT}</main>"),
                      ("<header>", f"<p>{LINE}</p><header>"), ("</style>", ".r { color: red }</style>"),
                      ('<a class="skip" href="#', '<a class="skip" href="//example.org/#'),
                      ('"Reload", "?"', '"Reload", "javascript:x()"'), ('role="alert" hidden>', f'role="alert">{LINE}'),
                      ("</html>", f"</html>{ANOTHER}"),
                      ("<!DOCTYPE html>\n", f"<!DOCTYPE html>\n<!--{LINE}-->"),
                      ('data-version="', 'data-version="1"><script>x()</script><p title="'),
                      ('data-now="', 'data-now="//example.org/')]
            for old, new in places:
                with self.subTest(kind=kind, new=new):
                    self.assertIn(old, page)
                    self.why(page.replace(old, new, 1))

    def test_parts_of_old_pages(self) -> None:
        """A part of the block through which a text came into a page is no part any more."""
        for kind, page in self.made.items():
            for path, value in OLD_PARTS:
                with self.subTest(kind=kind, path=path):
                    self.assertIn("the parts of one", self.why(resealed(
                        page, lambda whole: self.set(whole, path, value))))

    def set(self, whole: dict[str, Any], path: Path, value: object) -> None:
        whole.update(put(whole, path, value))

    def test_races(self) -> None:
        """A race's page is that of a race that was sailed, by its number."""
        for race in RACES:
            with self.subTest(race=race):
                self.why(self.forged("race", ("page", "race"), race))
        self.assertTrue(self.is_verified(self.forged("race", ("page", "race"), 2)))

    def test_kinds(self) -> None:
        for kind, page in self.made.items():
            for other in ("top", "overall", "race", "list", "results", "", "x", 1):
                if other != whole_of(page)["page"]["kind"]:
                    with self.subTest(kind=kind, other=other):
                        self.why(resealed(page, lambda whole: whole["page"].update(kind=other)))

    def test_stamps(self) -> None:
        """The time of the last change is a moment of the past, and its words are those of its zone."""
        for kind in ("results", "overall", "list", "alone"):
            for name, value in [*STAMPS, *OWN_ZONE] if kind == "alone" else STAMPS:
                with self.subTest(kind=kind, name=name, value=value):
                    self.why(self.forged(kind, ("stamps", 0, name), value))

    def moved(self, kind: str, changed: str, when: str) -> str:
        """A page that was changed at another time, with the right words for it."""
        whole = put(whole_of(self.made[kind]), ("stamps", 0, "changed"), changed)
        return Forger(helpers.PROGRAM, self.made[kind]).forged(put(whole, ("stamps", 0, "when"), when))

    def test_moments(self) -> None:
        """A change wasn't before 1970, nor when the years have no words any more, also if its words are
        right."""
        for changed, when in [("1969-03-01T10:00:00+00:00", "Sat 1 Mar 1969, 10:00 UTC"),
                              ("9999-03-01T10:00:00+00:00", "Mon 1 Mar 9999, 10:00 UTC")]:
            for kind in ("results", "alone", "list"):
                with self.assertRaisesRegex(ForeignPage, "the time of change is"):
                    self.verifier.verified(self.moved(kind, changed, when))

    def test_clocks(self) -> None:
        """Of a page that was changed or confirmed in the future nothing can be said, since a clock is wrong.
        If anything else is, the page differs."""
        for kind in ("results", "alone", "list"):
            made = self.moved(kind, "2099-03-01T10:00:00+00:00", "Sun 1 Mar 2099, 10:00 UTC")
            with self.assertRaisesRegex(Unsure, "^it was changed at 2099-03-01T10:00:00.00:00 by its own word"):
                self.verifier.verified(made)
            with self.assertRaises(ForeignPage):
                self.verifier.verified(made.replace("</main>", f"{LINE}</main>"))
        for kind in ("overall", "race", "list"):
            late = re.sub('data-checked="[^"]*"', 'data-checked="2099-03-01T10:00:00+00:00"', self.made[kind],
                          count=1)
            with self.assertRaisesRegex(Unsure, "^it was confirmed at 2099-03-01T10:00:00.00:00 by its own"):
                self.verifier.verified(late)
            with self.assertRaises(ForeignPage):
                self.verifier.verified(late.replace("</main>", f"{LINE}</main>"))

    def test_confirmed(self) -> None:
        """A page was confirmed in the past, by an office of this page; that of results.py never was."""
        for kind in ("overall", "race", "results"):
            plain = {"overall": overall(self.tide, True), "results": notice([self.tide])}.get(
                kind) or re.sub(' data-checked="[^"]*" data-office="[^"]*"',
                                ' data-checked="" data-office=""', self.made[kind], count=1)
            for checked, office in CONFIRMATIONS:
                if (checked, office) == ("", "") and kind == "results":
                    continue
                with self.subTest(kind=kind, checked=checked, office=office):
                    self.why(confirmed(plain, checked, office))
        for office in ("away:2", "away:1,0", "away:0,0", "away:01", "away:", "open:1", "journal", "away:1,"):
            self.why(self.made["list"].replace('data-office="away:1"', f'data-office="{office}"', 1))

    def test_narrow(self) -> None:
        """A program is a SHA-256, a folder has a name, and settings are in plain signs."""
        for path, values in [
                (("program",), ["x", "0" * 63, "0" * 65, "g" * 64, "0" * 64 + "\n", "A" * 64]),
                (("name",), ["", ".", "..", "a/b", "/", "a\0", "a" * 256, "é" * 128]),
                (("settings", "exclude"), ["٢", "2,٤", "2\n", "1", "", "--help", "2, 4"]),
                (("settings", "scp"), ["٣", "0", "100", "-1", "1.5", " 1"]),
                (("settings", "absent"), ["a54", "", "A52"]), (("settings", "handicap"), ["", "Yes", "true"]),
                (("settings", "state"), ["", "Final", "final now"]), (("settings", "title"), [""]),
                (("settings", "zone"),
                 ["localtime", "Mars/Base", "../UTC", "/etc/passwd", "UTC\0", "Europe", "x" * 9000, "a/" * 3000 + "x",
                  "." * 300 + "/x", "a." * 3000 + "/x"])]:
            for value in values:
                with self.subTest(path=path, value=value[:20]):
                    self.why(self.forged("results", ("series", 0, *path), value))

    def test_series_twice(self) -> None:
        """No series is there twice, also not under other rules."""
        for kind in ("both", "list"):
            whole = whole_of(self.made[kind])
            for name in ("series", "stamps"):
                whole[name] = [whole[name][1], *whole[name]]
            whole["series"][0] = {**whole["series"][0], "settings": {
                **whole["series"][0]["settings"], "exclude": "none"}}
            made = Forger(helpers.PROGRAM, self.made[kind]).forged(whole)
            self.assertRegex(self.why(made), "the series '(tide|fleet)' twice")

    # Under another seal

    def test_sails(self) -> None:
        """A sail is shown as the journal has it, apart from spaces: a small letter may look as another's capital."""
        for shown in SHOWN:
            with self.subTest(shown=shown):
                self.assertIn("the sail GBR101 is shown as", self.why(
                    self.forged("results", ("series", 0, "boats", 0, 1), shown)))
        self.assertIn("GBR7 has names twice", self.why(self.forged(
            "results", ("series", 0, "boats", 0), ["GBR7", "GBR 7", "A. Moss", "", ""])))
        self.assertIn("is no sail", self.why(self.forged(
            "results", ("series", 0, "boats", 0), ["", "", "A. Moss", "", ""])))
        for shown in ("GBR101", "G B R 1 0 1"):
            self.assertTrue(self.is_verified(
                self.forged("results", ("series", 0, "boats", 0, 1), shown)))

    def test_other_results(self) -> None:
        """The page of another journal, other rules or another reason is right for them: its seal, which
        it shows, is another."""
        page = self.made["results"]
        journal = whole_of(page)["series"][0]["journal"]
        for path, value in [(("series", 0, "settings", "reason"), LINE),
                            (("series", 0, "settings", "state"), "final"),
                            (("series", 0, "settings", "exclude"), "none"),
                            (("series", 0, "journal"),
                             [*journal[:-1], journal[-1].replace("3 GBR7", "3 IRL5")]),
                            (("series", 0, "journal"), journal[:-1]),
                            (("series", 0, "decisions"), [])]:
            with self.subTest(path=path):
                made = self.forged("results", path, value)
                self.assertTrue(self.is_verified(made))
                self.assertNotEqual(seals(made), seals(page))
                self.assertIn(f"Seal {seals(made)[0]}:", made)
                self.assertEqual(odd_parts(made), [])

    def test_many_series(self) -> None:
        """A page whose series take minutes together isn't waited for."""
        looks = 0
        def now() -> float:
            nonlocal looks
            looks += 1
            return 310.0 if looks > late else 290.0 if looks > 1 else 0.0

        late = 1000
        verifier.Verifier(helpers.PROGRAM, now).verified(self.made["both"])
        # The time is looked at before each of two series, in them, before each is written, and before each table is compared.
        right = looks
        self.assertGreaterEqual(right, 2 * 5 + 3)
        forged, looks = self.made["both"].replace("1<i>.0", "9<i>.0", 1), 0
        with self.assertRaises(ForeignPage):
            verifier.Verifier(helpers.PROGRAM, now).verified(forged)
        # It is looked at while the first difference is looked for, too.
        most = looks
        self.assertGreater(most, right)
        for late in range(1, most):
            looks = 0
            with self.assertRaisesRegex(Unsure, "^it takes longer than 300 seconds to score and to compare$"):
                verifier.Verifier(helpers.PROGRAM, now).verified(forged)
            self.assertEqual(looks, late + 1)
        looks, late = 0, 1000
        visible.Seen("<p>x" * 20_000, lambda: None if now() else None)
        self.assertEqual(looks, 5)

    def test_time_of_each(self) -> None:
        """Each page has its own time, also if it carries what another did."""
        moment = 0.0
        patient = verifier.Verifier(helpers.PROGRAM, lambda: moment)
        patient.verified(self.made["both"])
        moment = 1000.0
        with self.assertRaises(ForeignPage):
            patient.verified(self.made["both"].replace("1<i>.0", "9<i>.0", 1))

    def test_tables_longer_than_the_page(self) -> None:
        """A small page may carry series whose tables would be without end: they aren't written."""
        sails = [str(number) for number in range(1, 501)]
        folder = self.make("wide", "\n".join(["Sail", *sails, ""]), exclude="none")
        journal = journal_of(folder, *(line for race in range(1, 41) for line in (f"FINISH {race} {race}", f"SCORE {race}")))
        for kind in ("alone", "overall", "top"):
            page = resealed(self.made[kind], lambda whole: whole["series"][0].update(journal=journal.splitlines()[1:]))
            with unittest.mock.patch.object(verifier, "page_of", side_effect=AssertionError("page_of")):
                self.assertEqual(self.why(page), "it is shorter than the tables of its series are")

    def test_classes_of_one_name(self) -> None:
        """Classes that are called the same are told apart by their folders, so that each seal is one's own."""
        made = self.forged("both", ("series", 1, "settings", "class"), "A <b>")
        status, said = self.said(made)
        self.assertEqual(status, 0)
        lines = [line for line in said.splitlines() if line.startswith(("   Class", "   Seal"))]
        for at, (name, seal) in enumerate(zip(("fleet", "tide"), seals(made))):
            self.assertTrue(lines[2 * at].startswith(f"   Class 'A <b> ({name})': 4 boats"), lines)
            self.assertEqual(lines[2 * at + 1], f"   Seal {seal}")

    def called(self, *series: tuple[str, str], titles: tuple[str, ...] = ()) -> list[Snapshot]:
        """Series with these folders, classes and titles."""
        own = self.tide.settings
        return [dataclasses.replace(self.tide, name=name, settings=dataclasses.replace(own, group=group, title=title))
                for (name, group), title in zip(series, titles or (own.title,) * len(series))]

    def test_class_with_a_folder(self) -> None:
        """A class may be called as another is with its folder: all are told apart nevertheless, in each list and heading."""
        views = self.called(("a", "Dragon (x)"), ("x", "Dragon"), ("c", "Dragon"))
        wanted = ["Dragon (x) (a)", "Dragon (x)", "Dragon (c)"]
        self.assertEqual(labels_of(views), wanted)
        page, front = notice(views), confirmed(listing(views), "2026-03-01T10:00:00+00:00", "open")
        for text, form in ((page, '<li><a href="#c[0-9]-class">(.*?)</a>'),
                           (page, "<h1><small>[^<]*</small> Autumn Cup: (.*?)</h1>"), (page, "Overall results, (.*?): "), (page, "Rank after each race, (.*?)</caption>"),
                           (front, '<h2><a href="[^"]*">(.*?)</a>')):
            self.assertEqual(re.findall(form, text), wanted, form)
        for text in (page, front):
            status, said = self.said(text)
            self.assertEqual(status, 0, said)
            self.assertEqual(re.findall("Class '(.*?)': ", said), wanted)

    def test_classes_at_random(self) -> None:
        """Whatever titles, classes and folders are called, no two series are called the same or have the same heading, nor
        would with fewer spaces or with other signs that look alike."""
        chosen = random.Random(11)
        for _ in range(helpers.trials(2000)):
            series = [(name, chosen.choice(CLASSES)) for name in chosen.sample(FOLDERS, chosen.randint(2, len(FOLDERS)))]
            views = told_apart(self.called(*series, titles=tuple(chosen.choice(TITLES) for _ in series)))
            for texts in ([view.label for view in views], [view.title for view in views]):
                self.assertEqual(len({" ".join(unicodedata.normalize("NFKC", text).split()) for text in texts}), len(views), (series, texts))
            self.assertEqual(labels_of(views), [view.label for view in views])

    def test_headings(self) -> None:
        """A title may be as that of another with her class: they are told apart in their headings, too."""
        views = self.called(("a", ""), ("b", "Dragon"), ("c", "Star"), titles=("Autumn: Dragon", "Autumn", "Autumn"))
        self.assertEqual(labels_of(views), ["Autumn: Dragon (a)", "Dragon (b)", "Star"])
        self.assertEqual(re.findall("<h1><small>[^<]*</small> (.*?)</h1>", notice(views)),
                         ["Autumn: Dragon (a)", "Autumn: Dragon (b)", "Autumn: Star"])
        status, said = self.said(notice(views))
        self.assertEqual(status, 0, said)

    def test_letters_that_look_alike(self) -> None:
        """A letter with its mark is as both in one sign, and a Kelvin sign is a K: what looks the same is told apart by folders."""
        views = self.called(("a", "Zo\u00eb Kiel"), ("b", "Zoe\u0308 Kiel"), ("c", "Zo\u00eb \u212aiel"), ("d", "Zoe Kiel"))
        self.assertEqual(labels_of(views), ["Zo\u00eb Kiel (a)", "Zoe\u0308 Kiel (b)", "Zo\u00eb \u212aiel (c)", "Zoe Kiel"])
        self.assertEqual(labels_of(self.called(("\u00fc", "x"), ("u\u0308", "x"))), ["x (\u00fc)", "x (u%CC%88)"])
        # Each Python knows that this sign means an A, this mark is in either order, and not each that that sign means a letter.
        for one, other in (("Star \U0001f130", "Star A"), ("Ho\u0358\u0300", "H\u00f2\u0358"), ("\ufa70", "\u4e26")):
            self.assertEqual(labels_of(self.called(("a", one), ("b", other))), [f"{one} (a)", f"{other} (b)"])
        newer = ["Star \U0001e030", "Star \u0430"]
        self.assertEqual(labels_of(self.called(("a", newer[0]), ("b", newer[1]))), newer)
        status, said = self.said(notice(views))
        self.assertEqual(status, 0, said)

    def test_right_to_left(self) -> None:
        """Digits, brackets and other letters are shown in another order beside letters that are written from right to left:
        what may look the same is told apart by folders, and names that don't are as they are."""
        for one, other in (("\u05d01", "1\u05d0"), ("\u05d0 1", "1 \u05d0"), ("A\u05d01", "A1\u05d0"), ("(\u05d1)\u05d2", "\u05d2(\u05d1)"),
                           ("\u0627-1", "1-\u0627"), ("\U0001e9001", "1\U0001e900"), ("\u05d0\u2e021", "1\u2e03\u05d0")):
            with self.subTest(one=one):
                views = self.called(("1", one), ("2", other), ("x", "Star"))
                self.assertEqual(labels_of(views), [f"{one} (folder 1)", f"{other} (folder 2)", "Star"])
                for page in (notice(views), confirmed(listing(views), "2026-03-01T10:00:00+00:00", "open")):
                    self.assertEqual(self.said(page)[0], 0)
        self.assertEqual(labels_of(self.called(("\u05d01", "A"), ("1\u05d0", "A"))), ["A (%D7%901)", "A (1%D7%90)"])
        honest = ["\u05db\u05d9\u05ea\u05d4 1", "\u05db\u05d9\u05ea\u05d4 2", "\u0641\u0626\u0629 (1)", "\u0641\u0626\u0629"]
        self.assertEqual(labels_of(self.called(*zip("abcd", honest))), honest)
        for path in (("series", 0, "boats", 0, 2), ("series", 0, "boats", 0, 4)):
            self.assertTrue(self.is_verified(self.forged("results", path, "\u05d3\u05d5\u05d3 7")))

    def test_long_names(self) -> None:
        """Each name is looked at once to tell series apart, and marks without end keep nobody waiting."""
        marks, same = (f"A{one * 50_000}{other * 50_000}" for one, other in (("\u0315", "\u0316"), ("\u0316", "\u0315")))
        begun = time.process_time()
        looked: list[str] = []

        def form(text: str) -> str:
            looked.append(text)
            return characters.in_one_form(text)

        with unittest.mock.patch("raceoffice.results.snapshot.in_one_form", form):
            self.assertEqual(labels_of(self.called(("a", marks), ("b", "Star"), ("c", same), ("d", f"{same}x"))),
                             [f"{marks} (a)", "Star", f"{same} (c)", f"{same}x"])
            looked.clear()
            # Each is called as the one before it with its folder.
            names = ("x", *("x" + "".join(f" (a{at})" for at in range(many)) for many in range(20)))
            found = labels_of(self.called(*((f"a{at}", name) for at, name in enumerate(names))))
        self.assertEqual((len(set(found)), len(looked)), (len(names), len(set(looked))))
        self.assertTrue(self.is_verified(notice(self.called(("a", marks), ("b", "Star")))))
        self.assertTrue(self.is_verified(self.forged("alone", ("series", 0, "settings", "class"), marks)))
        self.assertLess(time.process_time() - begun, 20)

    def test_classes_on_a_poor_terminal(self) -> None:
        """Classes that the terminal's letters don't tell apart have their places on the page said."""
        path = os.path.join(self.here, "page.html")
        self.write(notice(self.called(("a", "Gr\u00f6\u00dfe"), ("b", "Gr\u00fc\u00dfe"), ("c", "Gr\u00f6\u00dfte"))), path)
        for encoding, wanted in (("ascii", ["Class 1 of the page, 'Gr??e'", "Class 2 of the page, 'Gr??e'", "Class 'Gr??te'"]),
                                 ("utf-8", ["Class 'Gr\u00f6\u00dfe'", "Class 'Gr\u00fc\u00dfe'", "Class 'Gr\u00f6\u00dfte'"])):
            done = subprocess.run([sys.executable, "-m", "raceoffice", "verify", path, "--program", helpers.PROGRAM], cwd=helpers.TOP,
                                  capture_output=True, env={**os.environ, "PYTHONIOENCODING": encoding, "PYTHONUTF8": "0"}, check=True)
            self.assertEqual(re.findall("   (Class .*?): 4 boats", done.stdout.decode(encoding)), wanted)

    def test_long_classes(self) -> None:
        """If what is shown of two classes' names is the same, their places on the page are said."""
        for name, shown in (("x" * 70, ["Class 1 of the page, 'x", "Class 2 of the page, 'x"]),
                            ("x", ["Class 'x (a)'", "Class 'x (b)'"])):
            said = self.said(notice(self.called(("a", name), ("b", name))))[1]
            found = [line.strip() for line in said.splitlines() if line.startswith("   Class ")]
            self.assertEqual([line.startswith(start) for line, start in zip(found, shown)], [True] * 2, said)

    def test_seal_of_another(self) -> None:
        """The seal of an honest page on one of another journal is found."""
        page = self.made["results"]
        made = self.forged("results", ("series", 0, "settings", "reason"), LINE)
        self.assertIn("Seal", self.why(made.replace(seals(made)[0], seals(page)[0])))

    # What is said

    def said(self, *texts: str) -> tuple[int, str]:
        """The status and the words of verify.py about pages of these texts."""
        names = [os.path.join(self.here, f"{at}.html") for at, _ in enumerate(texts)]
        for name, text in zip(names, texts):
            self.write(text, name)
        told = io.StringIO()
        with contextlib.redirect_stdout(told):
            status = verifier.verify(names, helpers.PROGRAM)
        return status, told.getvalue()

    def test_words(self) -> None:
        """No text of a page moves the cursor, begins a line or says that a page is verified."""
        class_, page = ("series", 0, "settings", "class"), self.made["results"]
        texts = [self.forged("results", path, ESC) for path in (
            class_, ("series", 0, "settings", "title"), ("series", 0, "program"),
            ("series", 0, "boats", 0, 2), ("series", 0, "name"), ("series", 0, "journal", 2),
            ("series", 0, "settings", "absent"), ("stamps", 0, "when"), ("regatta",))]
        decisions = [ESC, "race 1 GBR7 PRP 3"]
        texts += [resealed(page, lambda whole: whole["series"][0].update(decisions=decisions)),
                  page.replace("Windhover", ESC), page.replace('"tide"', f'"{ESC}"'),
                  page.replace(">A. Moss<", f">{ESC}<", 1)]
        for text in texts:
            status, said = self.said(text)
            lines = said.splitlines()
            self.assertEqual([sign for sign in said if not sign.isprintable() and sign != "\n"], [])
            self.assertEqual(said.split("\n"), [*lines, ""])
            path = os.path.join(self.here, "0.html")
            lines = [line for line in lines if not line.startswith(f"{path}: Beware: ")]
            self.assertEqual([line for line in lines[1:] if not line.startswith("   ")], [])
            self.assertTrue(lines[0].startswith(f"{path}: {'' if status == 0 else 'NOT VERIFIED: '}"), said)
            self.assertEqual(lines[0] == f"{path}: verified.", status == 0)
            self.assertLess(max(map(len, lines)), 700)

    def test_lines(self) -> None:
        """At a terminal of any width no line begins with words of a page: what is quoted of it has 60 signs at most, and
        is on one line, after its quotation mark."""
        page, words = self.made["results"], f"{'x ' * 40}VERIFIED VERIFIED VERIFIED"
        for text in (page.replace("Windhover", words), page.replace(">A. Moss<", f">{words}<", 1), f"{words}\n{page}",
                     self.forged("results", ("series", 0, "settings", "absent"), words.replace("x ", ""))):
            self.write(text, "page.html")
            found = verifier.outcome(self.verifier, os.path.join(self.here, "page.html"))
            for columns in range(70, 130):
                lines = own_words.laid_out(found.lines, columns).split("\n")
                self.assertEqual([line for line in lines if line.split()[:1] in (["VERIFIED"], ["x"])], [])
            self.assertEqual(found.status, 1)
            why = str(found.value["why"])
            self.assertLessEqual(max(map(len, re.findall("'([^']{9,})'", why)), default=0), 61, why)
            self.assertIn("VERIFIED" if "absent" in why else "…", why)

    def test_name_of_file(self) -> None:
        """Nor does the name of a file: one that may be words is in quotation marks, on one line."""
        path, told = os.path.join(self.here, "x\na.html: verified.\x1b[2K"), io.StringIO()
        self.write("<p>Results</p>", path)
        with contextlib.redirect_stdout(told):
            self.assertEqual(verifier.verify([path, f"{path} no"], helpers.PROGRAM), 2)
        self.assertEqual([line.startswith(f'"{self.here}') for line in told.getvalue().splitlines()], [True] * 2)
        self.assertEqual(told.getvalue().count("\\x0aa.html: verified.\\x1b[2K"), 2)

    def test_name_that_quotes(self) -> None:
        """Nor can such a name close its quotation marks, or have spaces that are none."""
        for name, shown in (('a.html": verified. "b', r'a.html\": verified. \"b"'),
                            ("a.html:\u2423verified.", r'a.html:\u2423verified."'), ("a\\ b", r'a\\ b"')):
            (said,) = verifier.outcome(self.verifier, os.path.join(self.here, name)).lines
            line, *more = own_words.laid_out([said], 0).split("\n")
            self.assertTrue(line.startswith(f'"{self.here}/{shown}: not verified: '), line)
            self.assertEqual(more, [])

    def test_quoted_space(self) -> None:
        """What looks as a space that isn't broken, and is no space, is shown by its number."""
        self.assertIn(r"'GBR 101, A. Mo\u2423ss'", self.said(self.made["results"].replace(">A. Moss<", ">A. Mo\u2423ss<", 1))[1])

    def test_row_of_names(self) -> None:
        """Names that have points, a sail or a leader as a page has are said: a browser of texts may break a line before them. The
        sail may be that of no boat, and letters and signs may look like digits, a point or a comma. One number is no row, nor is
        a sail without its comma and its rank. A class may look like a leader, too."""
        for text, is_odd in ("Leads: GBR 33", True), ("First Series: GBR 33", False):
            status, said = self.said(self.forged("list", ("series", 0, "settings", "club"), text))
            self.assertEqual((status, "names a leader as a page does" in said), (0, is_odd), said)
        for text, is_odd in (("x 1 GBR 101, A. Moss 2.0 1.0 1.0", True), ("2,0 \uff11\uff0e\uff10", True), ("Elan 3.1", False),
                             ("x 1 GBR 101, A. Moss 1.0", True), ("x 1 ned12\uff0c Al", True), ("NED 12 Friends", False),
                             ("Al, Bo, 101, Ned", False), ("Al " * 27, True), ("Al " * 18, False),
                             ("x 1 GBR 33, Jo", True), ("x GBR 33X, Jo", True), ("x 1= K 6, Jo", True), ("x G\u0412R 33, Jo", True),
                             ("x 1 GBR 7\u201a Jo", True), ("x 1 GBR 7 \u060c Jo", True), ("x 1 GBR 7\ua4f9 Jo", True), ("x 1 6\u0326 Jo", True),
                             ("x GBR 7; Jo", True), ("1\ua4f80 1\u06d40", True), ("x Leads: GBR 33", True), ("x first\u2236 33", True),
                             ("x 1 GBR \u0417\u0417, Jo", True), ("x l GBR lOl, Jo", True), ("x 1 G B R 7, Jo", True), ("x l 33, Jo", True),
                             ("x 1 K \u0431, Jo", True), ("x 1 GBR 33. Jo", True), ("x 1 GBR 33 Jo", True), ("l.O 1.O", True),
                             (", Jo x 1 GBR \u0417\u0417", True), ("x Le\u0430ds: GBR 33", True), ("x Le\u0430ds\ua789 GBR 33", True),
                             ("x Leads GBR 33", True), ("x 1 GBR \u10d5\u10d5, Jo", True), ("; x" * 17, True), ("; x" * 5, False),
                             ("SMITH, John", False), ("Al \u2013 RYC", False), ("1st Sea Scouts, Ely", False),
                             ("2 Fast 4 You", False), ("Zo\u00eb 2.0", False), ("R. Y. C. 1 A. Moss", False), ("Kestrel 3 Howth, IRL", False),
                             ("\u0418\u0432\u0430\u043d \u0438 \u041f\u0451\u0442\u0440, \u041a\u043b\u0443\u0431", False),
                             ("First Light", False), ("Dehler 34, Blue", False), ("12 Metre, Blue", False), ("J\u00fcrgen 7, \u00d8rn", False),
                             ("\u00d3 R\u00edor\u00e1in 12 \u00c9lan", False), ("\u0418\u0432\u0430\u043d 12, \u041f\u0451\u0442\u0440", False)):
            with self.subTest(text=text):
                status, said = self.said(self.forged("results", ("series", 0, "boats", 0, 2), text))
                self.assertEqual((status, "may be taken for a row of it" in said), (0, is_odd), said)

    def test_beware(self) -> None:
        """Signs that turn others, or that aren't seen, are said of a page that is verified."""
        for text, is_odd in [("Moss\u202e", True), ("Mo\u200bss", True), ("M\u0336oss", True),
                             ("Mo\u3164ss", True), ("Mo\ufffcss", True), ("Moss\ufe0f", True), ("Mos\u0301\u0301\u0301s", True),
                             ("Mo\U0001d159ss", True), ("M\ua670oss", True), ("M" + "\u1dc0" * 4, True),
                             ("\u0e01" + "\u0e49" * 4, True), ("\u0e01\u0e34\u0e49", False),
                             ("Mo\U0001bc9dss", True), ("Mo\u2d7fss", True),
                             ("\u0915" + "\u093e" * 9, True), ("\u1112" + "\u1161" * 13, True), ("\u0e01" + "\u0e33" * 9, True),
                             ("\u0ea5\u0eb3" * 9, False), ("\u1112\u1161\u11ab" * 9, False), ("\u0e19\u0e49\u0e33" * 9, False),
                             ("Mo\U00013441ss", True), ("Mo\U00013442ss", True),
                             ("\u05e9\u05c1\u05bc\u05b8\u05dc\u05d5\u05b9\u05dd", False),
                             ("Jürgen", False), ("Ju\u0308rgen", False), ("名取", False), ("Ó Ríoráin", False)]:
            with self.subTest(text=text):
                status, said = self.said(self.forged("results", ("series", 0, "boats", 0, 2), text))
                self.assertEqual(status, 0)
                self.assertEqual("has a sign that isn't seen" in said, is_odd)
        many = put(whole_of(self.made["results"]), ("series", 0, "boats"), [
            ["GBR101", "GBR 101", *["\u202eX"] * 3], ["GBR7", "GBR 7", *["\u202eX"] * 3]])
        status, said = self.said(Forger(helpers.PROGRAM, self.made["results"]).forged(many))
        self.assertIn("Beware: and so have 1 other texts", said)

    def test_own_word(self) -> None:
        """What nothing shows to be right is said to be the page's own word."""
        self.assertIn("by the page's own word", self.said(self.made["results"])[1])

    # Size and time

    def test_long(self) -> None:
        """Of a page that is longer than what is read nothing can be said, wherever it is cut."""
        page = self.made["results"]
        with unittest.mock.patch.object(verifier, "LARGEST", len(page.encode())):
            self.assertEqual(self.said(page)[0], 0)
            for more in (" ", ANOTHER):
                status, said = self.said(page + more)
                self.assertEqual(status, 2)
                self.assertRegex(said, "it is longer than [0-9,]+ bytes, and no more are read")
            status, said = self.said("\0" * (len(page.encode()) + 1))
            self.assertEqual(status, 2)
            self.assertIn("it is no page of results", said)

    def test_line_ends(self) -> None:
        """A page whose line ends were changed on the way is none of which something can be said."""
        status, said = self.said(self.made["results"].replace("\n", "\r\n"))
        self.assertEqual(status, 2)
        self.assertIn("its line ends were changed to CR LF on the way", said)

    def test_memory(self) -> None:
        """A long file that begins as a page does isn't held line by line."""
        page = self.made["results"]
        tracemalloc.start()
        self.addCleanup(tracemalloc.stop)
        status, said = self.said(page + "ab\n" * 10_000_000)
        self.assertEqual(status, 1)
        self.assertIn("the page is longer than the right one", said)
        self.assertLess(tracemalloc.get_traced_memory()[1], 300_000_000)

    def test_memory_of_parts(self) -> None:
        """A page of parts or lines that the right one hasn't is taken apart no further than that has any."""
        page = self.made["results"]
        for piece in ("<td>", "<p>x", "ab\n"):
            text = page[:page.index("<main")] + "<table><tr>" + piece * (70_000 // len(piece))
            with self.subTest(piece=piece):
                tracemalloc.start()
                self.addCleanup(tracemalloc.stop)
                self.assertNotEqual(verifier.first_difference(text, page, lambda: None), "")
                self.assertLess(tracemalloc.get_traced_memory()[1], 1_000_000)
                tracemalloc.stop()
        self.assertIn("has more cells and texts than the right one, and line ", self.why(page.replace("</main>", "<p>x" * 9000)))

    def test_line_found(self) -> None:
        """The first line that differs is that which lists of lines give."""
        chosen = random.Random(7)
        for trial in range(helpers.trials(3000)):
            one, other = ("".join(chosen.choice("ab\n") for _ in range(chosen.randint(0, 7))) for _ in range(2))
            if one != other:
                ours, others = one.split("\n"), other.split("\n")
                at = visible.first_of(ours, others)
                assert at is not None
                wanted = (at + 1, ours[at].strip() if at < len(ours) else "nothing")
                before = visible.STEP if trial % 50 == 0 else 0
                long = "x\n" * before
                self.assertEqual(visible.line_of(long + one, long + other), (wanted[0] + before, wanted[1]), (one, other))

    def test_spaces(self) -> None:
        """Of a long text the words are those of any."""
        words = "  a\u00a0b\x1c\x85c \u2003\n d\u200be\t"
        for many in (1, visible.LONGEST):
            self.assertEqual(visible.single_spaced(words * many), " ".join((words * many).split()))
        self.assertEqual(visible.single_spaced(" " * visible.LONGEST), "")

    def test_no_memory(self) -> None:
        """Where the memory runs out nothing can be said of a page, and of the next one all."""
        page = self.made["results"]
        took: list[Callable[[str], page_data.Kept]] = [unittest.mock.Mock(side_effect=MemoryError), page_data.found_in]
        with unittest.mock.patch("raceoffice.traces.fault_sentence", side_effect=MemoryError), \
                unittest.mock.patch.object(verifier, "found_in", lambda text: took.pop(0)(text)):
            status, said = self.said(page, page)
        self.assertEqual(status, 2)
        self.assertIn("0.html: not verified: this computer gives no more memory, and the page takes more.\n", said)
        self.assertIn("1.html: verified.\n", said)
        told = io.StringIO()
        with unittest.mock.patch("raceoffice.cli.main", side_effect=MemoryError), contextlib.redirect_stderr(told):
            self.assertEqual(command.main(), 2)
        self.assertEqual(told.getvalue(), "this computer gives no more memory\n")

    def test_memory_of_charts(self) -> None:
        """Of the standings after each race the ranks are kept, and not all scores again: a page may have many series."""
        sails = [str(number) for number in range(1, 81)]
        folder = self.make("long", "\n".join(["Sail", *sails, ""]))
        journal = journal_of(folder, *(line for race in range(1, 21) for line in (f"FINISH {race} {race}", f"SCORE {race}")))
        entries = journal.splitlines()[1:]
        standing = Standing.read(list(replay.scored(helpers.PROGRAM, ["--exclude", "2"], entries).table))
        tracemalloc.start()
        self.addCleanup(tracemalloc.stop)
        kept = explanation_of(helpers.PROGRAM, ["--exclude", "2"], entries, standing)
        gc.collect()
        self.assertEqual(len(kept.course), 20)
        self.assertLess(tracemalloc.get_traced_memory()[0], 800 * 20 * len(sails))

    def test_memory_of_pages(self) -> None:
        """A long page is put together with few copies of it, each of which takes four bytes a sign if one is beyond U+FFFF."""
        long = dataclasses.replace(self.tide, settings=dataclasses.replace(self.tide.settings, reason="\U0001f600" + "x" * 4_000_000))
        size = sys.getsizeof(notice([long]))
        tracemalloc.start()
        self.addCleanup(tracemalloc.stop)
        notice([long])
        self.assertLess(tracemalloc.get_traced_memory()[1], 4 * size)

    def test_time(self) -> None:
        """What isn't a page is found out in a second, however it is written."""
        page = self.made["results"]
        cases = [page_data.START * 20_000]
        for piece in SLOW:
            few, many = 60_000 // len(piece), 1_000_000 // len(piece)
            cases += [page + piece * few, page + piece * many,
                      page_data.START + piece * many + page_data.END,
                      page.replace("<main", f"{piece * few}<main"), page.replace("</td>", piece * few, 1)]
        for text in cases:
            begun = time.process_time()
            with contextlib.suppress(ForeignPage, Unsure):
                self.verifier.verified(text)
                self.fail(text[:80])
            self.assertLess(time.process_time() - begun, 1, f"{text[:40]!r} .. {text[-40:]!r}")

    def test_many_quotes(self) -> None:
        """Of a page with millions of signs that take six letters each in HTML nothing can be said, in some seconds. What the
        package writes is read without looking for the references of others, and means the same."""
        begun = time.process_time()
        long = resealed(self.made["results"], lambda whole: whole["series"][0]["settings"].update(reason="'" * 5_000_000))
        self.assertRaisesRegex(Unsure, "as HTML, which would take too long", self.verifier.verified, long)
        self.assertLess(time.process_time() - begun, 20)
        page = self.forged("results", ("series", 0, "boats", 0, 2), "'&amp;<&lt;\"" * 100)
        with unittest.mock.patch("html.unescape", side_effect=AssertionError("html.unescape")):
            self.assertEqual(self.said(page)[0], 0)
        chosen = random.Random(5)
        for _ in range(helpers.trials(3000)):
            text = "".join(chosen.choice(REFERENCES) for _ in range(chosen.randint(1, 9)))
            self.assertEqual(visible.unescaped(text, False), html.unescape(text), text)

    def test_many_references(self) -> None:
        """A page full of references that the package never writes isn't verified, in some seconds."""
        page = self.made["results"]
        forged = page.replace("</h1>", "&notit" * 10_000 + "</h1>", 1)
        self.assertIn("\u00acit", self.why(forged))
        honest = resealed(page, lambda whole: whole["series"][0]["settings"].update(reason="." * 2_000_000))
        with unittest.mock.patch("html.unescape", side_effect=AssertionError("html.unescape")):
            self.assertIn("line", self.why(honest.replace("</h1>", "&x" * 2_000_000 + "</h1>", 1)))

    def test_long_texts(self) -> None:
        """A text that has no end is refused before a page is made of it: that of `top` has the name of its folder a hundred
        times, percent-quoted."""
        for path, why in ((("series", 0, "name"), "is no name of a folder"),
                          (("stamps", 0, "when"), "the time of change in words is .*, which is longer than that of any moment")):
            page = resealed(self.made["top"], lambda whole: self.set(whole, path, "é" * 1_000_000))
            with unittest.mock.patch.object(self.verifier, "rebuilt", side_effect=AssertionError("rebuilt")):
                self.assertRegex(self.why(page), why)
        for name in ("a" * 255, "é" * 127):
            self.assertTrue(self.is_verified(self.forged("top", ("series", 0, "name"), name)), name)

    def test_long_decisions(self) -> None:
        """Decisions that are as long, or as many, as can be take a page no longer than a second."""
        page = self.made["results"]
        for lines in (["race 1 GBR7 AVG " + ",".join(["3"] * 500_000)], ["race 1 GBR7 " + "x" * 1_000_000],
                      [f"race {race} GBR{boat} AVG {','.join(str(one) for one in range(1, 41) if one != race)}"
                       for boat in range(25) for race in range(1, 41)]):
            made, begun = resealed(page, lambda whole: whole["series"][0].update({"decisions": lines})), time.process_time()
            self.why(made)
            self.assertLess(time.process_time() - begun, 2, lines[0][:40])

    def test_hundred_series(self) -> None:
        """Of a page of more series than are worked out nothing can be said: an office may have as many."""
        makes: dict[str, Callable[[list[Snapshot]], str]] = {"list": listing, "results": notice}
        for kind, make in makes.items():
            page = make([dataclasses.replace(self.tide, name=f"tide-{at}") for at in range(101)])
            shown = page if kind == "results" else confirmed(page, "2026-03-01T10:00:00+00:00", "once")
            with self.assertRaisesRegex(Unsure, "^it has 101 series, and more than 100 take too long to score$"):
                self.verifier.verified(shown)

    def test_long_block(self) -> None:
        """A block of more than the program reads, or of numbers without end, isn't scored."""
        page, whole = self.made["results"], whole_of(self.made["results"])
        series = whole["series"][0]
        for name, value in [("journal", series["journal"] * 1000),
                            ("decisions", ["race 1 GBR7 DPI 1"] * 3000),
                            ("boats", [["A", "A", "", "", ""]] * 600)]:
            self.assertIn("is too long", self.why(resealed(
                page, lambda whole: whole["series"][0].update({name: value}))))
        for line in ("race 1 GBR7 NSC\nrace 2 GBR7 NSC", "race 1 GBR7 NSC\r", "race 1 GBR7 NSC # a note", " race 1 GBR7 NSC"):
            self.assertIn("is no line of the decisions", self.why(resealed(
                page, lambda whole: whole["series"][0].update({"decisions": [line]}))))
        for number in ("9" * 5_000_000, "1e999999999", "-0.0", "NaN", "Infinity", "1" * 5):
            self.assertIn("a number that raceoffice never writes", self.why(
                page.replace('"every": 5', f'"every": {number}')))
        self.assertIn("inside one another", self.why(
            page.replace('"every": 5', '"every": ' + "[" * 200_000)))


if __name__ == "__main__":
    unittest.main()
