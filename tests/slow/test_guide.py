"""The guide: the boxes of its chapter about the typing window are played, and what both say of pages and commands is
what those say."""
from __future__ import annotations

import json
import os
import re
import unittest
from typing import Any

import guide
import helpers
from raceoffice.program import messages
from raceoffice.session import parse

TEXTS = os.path.join(helpers.TOP, "raceoffice", "web", "static", "texts")
# The most words of the guide, and the least letters of a text with values that is recognised by them.
MOST, LETTERS = 3200, 5
ROLES = {"finish": "FINISH", "jury": "JURY", "scorer": "SCORER"}


def slug(heading: str) -> str:
    """The anchor of a heading."""
    return re.sub(r"[^\w\- ]", "", heading.lower()).replace(" ", "-")


def page(name: str) -> str:
    with open(os.path.join(helpers.TOP, "docs", name), encoding="utf-8") as file:
        return file.read()


def seen_on_pages() -> list[str]:
    """What the pages say in English, as patterns: each form of a text, with anything for its values; and its part
    before a colon."""
    texts: dict[str, Any] = {}
    for name in ("en.json", "en-desk.json"):
        with open(os.path.join(TEXTS, name), encoding="utf-8") as file:
            texts |= json.load(file)
    forms = [form for text in texts.values() for form in (text.values() if isinstance(text, dict) else [text])]
    forms += [form.partition(":")[0] for form in forms if ":" in form]
    wordy = [form for form in forms if "{" not in form or len(re.sub(r"\{\w+\}|\W", "", form)) >= LETTERS]
    return [re.sub(r"\\\{\w+\\\}", ".+", re.escape(form)) for form in wordy]


class Pages(unittest.TestCase):
    """The guide of the office in browsers."""

    def test_words(self) -> None:
        """It is short, and each button, field and sign that it names is on the pages."""
        text = page("GUIDE.md")
        self.assertLessEqual(len(text.split()), MOST)
        named = re.findall(r"\*\*([^*]+)\*\*", text)
        self.assertGreater(len(named), 60)
        seen = re.compile("|".join(seen_on_pages()))
        self.assertEqual([words for words in named if words != "?" and not seen.fullmatch(words)], [])

    def test_contents(self) -> None:
        """Each section of both pages is in the contents, in order."""
        for name in ("GUIDE.md", "TYPING.md"):
            text = page(name)
            contents = re.findall(r"^\d+\. \[([^\]]*)\]\(#([^)]*)\)$", text, re.MULTILINE)
            headings = re.findall("^## (.*)$", text, re.MULTILINE)
            self.assertEqual(contents, [(text, slug(text)) for text in headings if text != "Contents"])


class Guide(unittest.TestCase):
    """The chapter about the typing window."""
    text: str

    @classmethod
    def setUpClass(cls) -> None:
        cls.text = guide.read()

    @helpers.needs_times
    def test_boxes(self) -> None:
        guide.play(self.text)

    def test_wrong_boxes(self) -> None:
        """The play stops at what isn't so."""
        files = "```file cup/entries.csv\nSail\nA\n```\n```file cup/series.ini\n[series]\ntitle = Cup\n```\n"
        check = "$ raceoffice check cup"
        good = ["cup can be opened: Cup: 1 boat, no races scored, 1 entry",
                "Scores excluded: one from 2 races. RRS A5.2. Scoring Penalty 20%. By order of finishing."]
        for box, lines, wrong in [
                ("window a", [check, *good], ""),
                ("window a", [check, good[0].replace("1 boat", "2 boats"), good[1]], "but what came is"),
                ("window a", [check, good[0]], "but what came is"),
                ("window a", [check, *good, "Good luck."], "but what came is"),
                ("window a stays", [check, *good, "> quit"], "what ran here has ended"),
                ("window a", ["$ raceoffice new fleet", "Title: B"], "nothing is typed at"),
                ("window a", ["$ rm cup/series.ini"], "needs no other command"),
                ("window a", good, "nothing is running in this window"),
                ("sh", [check], "a box has to be a file or a window")]:
            body = "\n".join(lines)
            text = f"{files}```{box}\n{body}\n```\n"
            if wrong:
                self.assertRaisesRegex(guide.Wrong, wrong, guide.play, text)
            else:
                self.assertEqual(guide.play(text), text)

    def test_all_is_played(self) -> None:
        """No box is hidden from the player, and there are many."""
        marks = len(re.findall("^ *(?:```|~~~)", self.text, re.MULTILINE))
        boxes = [step for step in guide.STEP.finditer(self.text) if not step[3]]
        self.assertEqual(marks, 2 * len(boxes))
        self.assertGreater(len(boxes), 20)

    def test_refusals(self) -> None:
        """The guide explains refusals in the words that the package has for them."""
        table = self.text.partition("\n## If a line is refused")[2].partition("\n##")[0]
        said = re.findall(r"^\| ([^|]*) \| [^|]* \|$", table, re.MULTILINE)[1:]
        self.assertGreater(len(said), 5)
        self.assertEqual([text for text in said if text not in messages.NUMBERS.values()], [])

    def test_roles(self) -> None:
        """The lines of each role are those that the program takes of it."""
        table = self.text.partition("\n## Who types what")[2].partition("\n## ")[0]
        said: dict[str, set[str]] = {role: set() for role in parse.MAY}
        for whose, rows in re.findall(r"^\| \*\*([^*]*)\*\* \| \|\n((?:\| `.*\n)*)", table, re.MULTILINE):
            lines = re.findall(r"`([A-Z]+) ", rows)
            for role in ROLES.values() if whose == "all" else [ROLES[one] for one in whose.split(" and ")]:
                said[role].update(lines)
        self.assertEqual(said, parse.MAY)


if __name__ == "__main__":
    unittest.main()
