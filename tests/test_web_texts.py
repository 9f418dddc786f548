"""The words of the office's pages: each key in each language, each with the same values, none without a use."""
from __future__ import annotations

import ast
import json
import os
import re
import string
import unittest

import helpers
from raceoffice.program.codes import CODES, OF_COMMITTEE, OF_JURY
from raceoffice.program.messages import NUMBERS
from raceoffice.remarks import ENGLISH
from raceoffice.series.settings import STATES
from raceoffice.session.dialogue import Value
from raceoffice.session.question_words import WORDS
from raceoffice.session.said_words import WORDS as SAID, SaidWords
from script_names import Script

STATIC = os.path.join(helpers.TOP, "raceoffice", "web", "static")
LANGUAGES = ["de", "en", "es", "fr", "it", "nl"]
# What Unicode calls the plural forms that these languages have below a million, and English ordinals besides.
PLURALS, ORDINALS = {"one", "other"}, {"one", "two", "few", "other"}
VALUE = re.compile(r"\{(\w+)\}")
# Keys that scripts make of a value: what comes before it, and what may follow.
MADE = {
    "role.": ["FINISH", "JURY", "SCORER"], "enter.before.": ["finish", "jury", "scorer"],
    "enter.as.": ["finish", "jury", "scorer"], "scorer.tab.": ["races", "results", "links", "office", "times",
                                                                       "settings", "new"],
    "new.": ["oneFrom", "twoFrom", "threeFrom", "fourFrom"], "new.rounding.": ["half-up", "half-down", "down", "up"], "new.wrong.": ["title", "zone", "exclude", "scp"],
    "times.": ["start", "laps", "distance", "elapsed", "finish", "corrected"], "rules.from.": ["1", "2", "3", "4"],
    "settings.key.": ["title", "class", "club", "zone", "exclude", "absent", "scp", "handicap"],
    "code.": [*OF_COMMITTEE, "ZFP", "SCP"],
    "finish.": ["level", "code", "round"], "jury.head.": ["CLEAR", "REINSTATE", "SHARE"],
    "jury.takes.": ["points", "penalty", "limit", "races"],
    "jury.what.": [*OF_JURY, "ALL", "PRIOR", "POINTS", "ZFP", "SCP", "CLEAR", "DPI", "PRP", "T1", "SHARE", "TLE", "NSC",
                   "AVG", "DUTY", "REINSTATE"],
    "refused.": [str(number) for number in NUMBERS if number < 20],
    "results.state.": STATES, "results.declare.": STATES,
    "results.file.": ["html", "csv", "semicolons", "json", "text"],
    "trouble.": ["401", "403", "429", "devices-full"],
}
# The questions with words of their own for some values, and what comes before any question about a race that counts.
VARIANTS = ["ask.after-since.changed", "ask.announce.amended", "ask.announce.provisional", "ask.correction.amended",
            "ask.correction.final", "ask.counts", "ask.declared.amended",
            "ask.take-over.since", "ask.score-penalised.a53", "ask.redress-unplaced.a53", "ask.abandon.places", "ask.new-rules.reopen",
            "ask.others-recorded.ahead", "ask.others-recorded.changed", "ask.others-recorded.changed.ahead",
            "ask.others-recorded.untimed", "ask.others-recorded.ahead.untimed"]


# What is said in words that the pages have for something else
SAID_OTHERWISE = {"refused", "moved"}
REMARKED_OTHERWISE = {"office-rules", "office-move"}
# Values that the page makes of others
MADE_OF_OTHERS = {"n", "why"}


class Asked(dict[str, Value]):
    """Values that are whatever is asked for: all of them something, or all nothing. `names` are those that were."""

    def __init__(self, is_something: bool) -> None:
        super().__init__()
        self.is_something, self.names = is_something, set[str]()

    def __missing__(self, name: str) -> Value:
        self.names.add(name)
        return int(self.is_something)


def values_said(kind: str) -> set[str]:
    """The values of which the terminal's words for a kind of what is said are made."""
    found = set()
    for is_something in (False, True):
        values = Asked(is_something)
        SAID[kind](SaidWords(str, "", values))
        found |= values.names
    return found


def variants_said() -> set[str]:
    """The keys of what is said in other words for some values, as the script has them."""
    with open(os.path.join(STATIC, "said-words.js"), encoding="utf-8") as file:
        part = file.read().partition("const VARIANTS = {")[2].partition("};")[0]
    rows = re.findall(r'"([a-z-]+)": values => (.*)', part)
    return {f"said.{kind}{end}" for kind, rest in rows for end in re.findall(r'"(\.\w+)"', rest)}


def remarks_made() -> dict[str, list[set[str]]]:
    """The values with which each kind of remark is made in the package, as often as it is. A kind that is worked out
    is named in a table of its module."""
    found: dict[str, list[set[str]]] = {}
    for folder, _, names in os.walk(os.path.join(helpers.TOP, "raceoffice")):
        for name in (one for one in names if one.endswith(".py")):
            with open(os.path.join(folder, name), encoding="utf-8") as file:
                calls = [node for node in ast.walk(ast.parse(file.read())) if isinstance(node, ast.Call)]
            for call in calls:
                if isinstance(call.func, ast.Name) and call.func.id in MAKERS and call.args:
                    values = {str(one.arg) for one in call.keywords if one.arg}
                    values |= {"why"} if call.func.id == "as_trouble" else set()
                    for kind in kinds_of(call.args[0]):
                        found.setdefault(kind, []).append(values)
    return found


# What makes a remark
MAKERS = ("remark", "as_trouble")
# The exceptions of which pages show what they say
SHOWN = {"Trouble", "NotSent", "NotNow", "Gone", "NoSeat", "NotThere", "NoTable", "NoJournal", "NoCheck",
         "Served"}
# What is for terminals alone: packages and modules, and single texts by how they begin
TERMINALS = ("commands/", "typing_window/", "verify/", "series/sender.py", "results/server.py", "web/serving.py", "system.py",
             "exit_status.py")
AT_TERMINALS = ("CLEAR takes away", "no answer came", "the entry list isn't right", " isn't a series by corrected time",
                " is no race: a number")


def plain_texts() -> list[str]:
    """The texts without a kind that are shown as why something can't be done, with their places."""
    top, found = os.path.join(helpers.TOP, "raceoffice"), []
    for folder, _, names in os.walk(top):
        for name in (one for one in names if one.endswith(".py")):
            path = os.path.relpath(os.path.join(folder, name), top)
            if not path.startswith(TERMINALS):
                with open(os.path.join(top, path), encoding="utf-8") as file:
                    found += [f"{path}, line {node.lineno}" for node in ast.walk(ast.parse(file.read()))
                              if isinstance(node, ast.Call) and any(map(is_plain, said_in(node)))]
    return found


def said_in(call: ast.Call) -> list[ast.expr]:
    """What a call has an exception say; nothing if it makes none that pages show."""
    name = call.func.id if isinstance(call.func, ast.Name) else ""
    if name == "Wrong" and call.args and isinstance(call.args[0], ast.Constant) and call.args[0].value in (422, 503):
        return [] if any(one.arg == "said" for one in call.keywords) else call.args[1:]
    return call.args if name in SHOWN else []


def is_plain(node: ast.expr) -> bool:
    """Whether a text is put together where it is said, and not of a kind."""
    parts = node.values if isinstance(node, ast.JoinedStr) else [node]
    words = "".join(str(part.value) for part in parts if isinstance(part, ast.Constant))
    is_made = isinstance(node, (ast.BinOp, ast.JoinedStr)) or isinstance(node, ast.Call) and (
        isinstance(node.func, ast.Attribute) and node.func.attr in ("join", "format", "removesuffix")
        or isinstance(node.func, ast.Name) and node.func.id == "str")
    return (is_made or bool(words)) and not words.startswith(AT_TERMINALS)


def kinds_of(node: ast.expr) -> list[str]:
    """The kinds that an argument may be: a text, one of two, or all that begin so."""
    if isinstance(node, ast.Constant):
        return [str(node.value)]
    if isinstance(node, ast.IfExp):
        return [*kinds_of(node.body), *kinds_of(node.orelse)]
    if isinstance(node, ast.JoinedStr) and isinstance(node.values[0], ast.Constant):
        return [kind for kind in ENGLISH if kind.startswith(str(node.values[0].value))]
    return []


def fields_of(kind: str) -> set[str]:
    """The values that the English words of a kind need."""
    words = ENGLISH[kind]
    one = words if isinstance(words, str) else "".join(words)
    return {name for _, name, _, _ in string.Formatter().parse(one) if name}


def table(language: str) -> dict[str, str | dict[str, str]]:
    """The texts of a language: those of the finish page and of all, and the others."""
    return part(language) | part(f"{language}-desk")


def part(name: str) -> dict[str, str | dict[str, str]]:
    with open(os.path.join(STATIC, "texts", f"{name}.json"), encoding="utf-8") as file:
        held: dict[str, str | dict[str, str]] = json.load(file)
    return held


def forms(text: str | dict[str, str]) -> dict[str, str]:
    return text if isinstance(text, dict) else {"other": text}


# The first words of keys
FIRSTS = "|".join(sorted({key.split(".")[0] for key in table("en")}))


def scripts() -> str:
    """All scripts of the pages."""
    parts = []
    for name in sorted(os.listdir(STATIC)):
        if name.endswith(".js"):
            with open(os.path.join(STATIC, name), encoding="utf-8") as file:
                parts.append(file.read())
    return "\n".join(parts)


def used() -> set[str]:
    """The keys that the scripts name whole or make of a value."""
    named = set(re.findall(r'"((?:%s)\.[\w.-]+)"' % FIRSTS, scripts()))
    return {*(key for key in named if not key.endswith((".js", ".css", ".webmanifest"))),
            *(before + rest for before, all_rest in MADE.items() for rest in all_rest),
            *(f"ask.{kind}" for kind in WORDS), *VARIANTS,
            *(f"said.{kind}" for kind in SAID.keys() - SAID_OTHERWISE), *variants_said(),
            *(f"remark.{kind}" for kind in ENGLISH.keys() - REMARKED_OTHERWISE)}


def values_of_questions() -> dict[str, set[str]]:
    """The values of each kind of question, as docs/BROWSER.md lists them."""
    with open(os.path.join(helpers.TOP, "docs", "BROWSER.md"), encoding="utf-8") as file:
        part = file.read().partition("## Questions")[2].partition("\n## ")[0]
    found = {}
    for kinds, values in re.findall(r"^\| (`[a-z-]+`(?:, `[a-z-]+`)*) \| (.*?) \|", part, re.MULTILINE):
        for kind in re.findall(r"`([a-z-]+)`", kinds):
            found[kind] = set(re.findall(r"`(\w+)`", values))
    return found


class Texts(unittest.TestCase):
    def test_languages(self) -> None:
        """There is a table for each language that the pages offer, and no other."""
        offered = re.search(r"LANGUAGES = \{(.*?)\}", scripts())
        assert offered
        self.assertEqual(sorted(re.findall(r"(\w+):", offered[1])), LANGUAGES)
        self.assertEqual(sorted(os.listdir(os.path.join(STATIC, "texts"))),
                         sorted(f"{one}{end}.json" for one in LANGUAGES for end in ("", "-desk")))

    def test_parts(self) -> None:
        """The finish page, which loads the first part alone, has all that it names; no key is in both parts. Why something isn't
        taken is said once the second part is there."""
        with open(os.path.join(STATIC, "worker.js"), encoding="utf-8") as file:
            names = {*re.findall(r'"([\w-]+\.js)"', file.read())} - needed_by("sheet-why.js", IMPORT)
        names |= needed_by("finish.js", IMPORT)
        needed = set()
        for name in names:
            with open(os.path.join(STATIC, name), encoding="utf-8") as file:
                needed |= set(re.findall(r'"((?:%s)\.[\w.-]+)"' % FIRSTS, file.read()))
        keys = {key for key in needed if not key.endswith((".js", ".css", ".webmanifest"))}
        self.assertEqual(keys - set(part("en")), set())
        self.assertEqual(set(part("en")) & set(part("en-desk")), set())

    def test_keys(self) -> None:
        """Each language has each key that the scripts use, and none besides, in the same order."""
        english = list(table("en"))
        self.assertEqual(set(english) - used(), set(), "used by no script")
        self.assertEqual(used() - set(english), set(), "in no table")
        for language in LANGUAGES:
            self.assertEqual(list(table(language)), english, language)

    def test_values(self) -> None:
        """Each form of a text has the same values in braces in each language; a form for nought may leave out
        the number."""
        english = table("en")
        for language in LANGUAGES:
            for key, text in table(language).items():
                wanted = set(VALUE.findall(forms(english[key])["other"]))
                for form, words in forms(text).items():
                    with self.subTest(language=language, key=key, form=form):
                        self.assertNotEqual(words.strip(), "")
                        self.assertEqual(set(VALUE.findall(words)) | ({"n"} & wanted if form == "zero" else set()),
                                         wanted)

    def test_named_button(self) -> None:
        """What is said of a late entry without a name has the words of the button that names her, in each language."""
        for language in LANGUAGES:
            words = table(language)
            for form in forms(words["said.entered.unlisted"]).values():
                self.assertIn(forms(words["scorer.nameHer"])["other"], form, language)

    def test_plurals(self) -> None:
        """A text that English has for one and several has both in each language, and no form that none asks for."""
        english = table("en")
        for language in LANGUAGES:
            for key, text in table(language).items():
                with self.subTest(language=language, key=key):
                    self.assertEqual(isinstance(text, dict), isinstance(english[key], dict))
                    needed = ORDINALS if key == "common.ordinal" else PLURALS
                    if isinstance(text, dict):
                        self.assertEqual(set(text) - {"zero"}, needed)

    def test_questions(self) -> None:
        """Each question of the office has words here, of no values but its own."""
        asked = values_of_questions()
        self.assertEqual(set(asked), set(WORDS))
        for key, text in table("en").items():
            kind = key.removeprefix("ask.").split(".")[0]
            if key.startswith("ask.") and kind != "counts":
                of_text = set(VALUE.findall(forms(text)["other"])) - {"n", "held"}
                self.assertEqual(of_text - asked[kind], set(), key)

    def test_said(self) -> None:
        """Whatever a session can say has words here, of no values but its own."""
        self.assertGreater(len(variants_said()), 4)
        for key, text in table("en").items():
            kind = key.removeprefix("said.").split(".")[0]
            if key.startswith("said.") and kind in SAID:
                of_text = set(VALUE.findall(forms(text)["other"])) - MADE_OF_OTHERS
                self.assertEqual(of_text - values_said(kind), set(), key)

    def test_remarks(self) -> None:
        """Each kind of remark that is made anywhere has words here, of no values but those that it always has."""
        made = remarks_made()
        self.assertEqual(made.keys() - ENGLISH.keys(), set())
        # Signs and separators are looked up in tables.
        left = {kind for kind in ENGLISH if not kind.startswith("sign-")} - made.keys()
        self.assertEqual(left, {"list-semicolons", "list-tabs"})
        for kind in ENGLISH.keys() - REMARKED_OTHERWISE:
            always = set.intersection(*made[kind]) if kind in made else fields_of(kind) | {"sign"}
            with self.subTest(kind=kind):
                self.assertEqual(fields_of(kind) - always, set())
                for text in forms(table("en")[f"remark.{kind}"]).values():
                    self.assertEqual(set(VALUE.findall(text)) - always, set())

    def test_all_have_kinds(self) -> None:
        """Whatever a page shows of why something can't be done has a kind."""
        self.assertEqual(plain_texts(), [], "these need a kind of raceoffice/remarks.py")

    def test_codes_and_lines(self) -> None:
        """Codes and words of lines are the same in each language."""
        words = re.compile(r"\b(DN[CSFE]|OCS|UFD|BFD|RET|DSQ|TIME|FINISH|TIE|BEFORE|A\d\.\d|A9\([abc]\)|30\.[234]|44\.3"
                           r"|CSV|raceoffice remove)")
        english = table("en")
        for language in LANGUAGES:
            for key, text in table(language).items():
                for form, said in forms(text).items():
                    expected = sorted(words.findall(forms(english[key]).get(form, forms(english[key])["other"])))
                    if language != "en" and key not in ("new.scpUsual",):
                        self.assertEqual(sorted(words.findall(said)), expected, f"{language} {key}")


IMPORT = r'from "\./([\w.-]+)"'


def needed_by(script: str, pattern: str) -> set[str]:
    """A script, and all that it and these load by what a pattern finds."""
    needed, waiting = {script}, [script]
    while waiting:
        with open(os.path.join(STATIC, waiting.pop()), encoding="utf-8") as file:
            found = set(re.findall(pattern, file.read())) - needed
        needed |= found
        waiting += found
    return needed


class Scripts(unittest.TestCase):
    def test_strict(self) -> None:
        """Each script begins with 'use strict', and a line says what it is for."""
        for name in os.listdir(STATIC):
            if name.endswith(".js"):
                with open(os.path.join(STATIC, name), encoding="utf-8") as file:
                    first, second = file.read().splitlines()[:2]
                self.assertEqual((first, second[:3]), ("'use strict';", "// "), name)

    def test_names(self) -> None:
        """Each name that a script uses is declared there, or imported, or known to browsers; and each import is needed."""
        for name in sorted(os.listdir(STATIC)):
            if name.endswith(".js"):
                with open(os.path.join(STATIC, name), encoding="utf-8") as file:
                    script = Script(file.read())
                self.assertEqual(script.unknown(), [], name)
                for imported in script.imported:
                    script.scopes[0].names.remove(imported)
                    self.assertNotEqual(script.unknown(), [], f"{name} imports {imported}")
                    script.scopes[0].names.add(imported)

    def test_unknown_names(self) -> None:
        """A name is known where it is declared, and not elsewhere: in a function, a text in backquotes or a pattern."""
        declared = ("const a = {b: 1, c};\nconst c = /[d/`]/g;\nfunction e({f: g = c, h}, ...i) { return `${g}${h.f} {j} ${i}`; }\n"
                    "class K { l(m) { for (const n of e(m)) n.o(a / c / n); } }\nconst p = q => ({q, r: new K()});\n"
                    "p(async (s) => { try { await s; } catch (t) { p(t ? a : c); } }); // u")
        self.assertEqual(Script(declared).unknown(), [])
        for used, wanted in (("v", "v"), ("`${w}`", "w"), ("a.x(y)", "y"), ("{z}", "z"), ("q", "q"), ("n + 1", "n"), ("{f: f}", "f"),
                             ("p(q => 1, q)", "q"), ("a ? m : c", "m"), ("(b = s) => b", "s")):
            self.assertEqual(Script(f"{declared}\np({used});").unknown(), [f"line 7: {wanted}"], used)

    def test_codes(self) -> None:
        """The pages have the codes of the package, each with who gives it and whether she broke a rule."""
        with open(os.path.join(STATIC, "sails.js"), encoding="utf-8") as file:
            lists = {name: set(re.findall(r"\w+", words))
                     for name, words in re.findall(r"const (\w+) = \[(.*?)\]", file.read())}
        self.assertEqual(lists["CODES"], set(OF_COMMITTEE))
        self.assertEqual(lists["JURY_CODES"], set(OF_JURY))
        self.assertEqual((lists["HARD"] - {"JURY_CODES"}) | lists["JURY_CODES"],
                         {word for word, code in CODES.items() if code.is_breach})

    def test_nothing_inline(self) -> None:
        """Pages have no script, style or handler of their own, and nothing from elsewhere."""
        for name in os.listdir(STATIC):
            if name.endswith(".html"):
                with open(os.path.join(STATIC, name), encoding="utf-8") as file:
                    page = file.read()
                self.assertEqual(re.findall(r"<style|style=| on\w+=|<script(?![^>]*src=)[^>]*>|https?:", page), [], name)
                for path in re.findall(r'(?:href|src)="([^"]*)"', page):
                    self.assertTrue(os.path.exists(os.path.join(STATIC, path.removeprefix("/office/static/"))), path)

    def test_no_html_of_texts(self) -> None:
        """What a list or a device is called is never taken for HTML."""
        self.assertEqual(re.findall(r"innerHTML|outerHTML|insertAdjacentHTML|document\.write|\beval\(|new Function",
                                    scripts()), [])

    def test_kept_files(self) -> None:
        """The finish page's worker keeps all that its page loads, at first and later."""
        with open(os.path.join(STATIC, "worker.js"), encoding="utf-8") as file:
            kept = set(re.findall(r'"([\w-]+\.(?:css|js|webmanifest))"', file.read()))
        needed, later = {"finish.css", "base.css", "finish.webmanifest", *needed_by("finish.js", IMPORT)}, r'(?:from |import\()"\./([\w.-]+)"'
        self.assertEqual(kept, needed | needed_by("finish.js", later))
        with open(os.path.join(STATIC, "finish.html"), encoding="utf-8") as file:
            loaded = set(re.findall(r'/office/static/([\w.-]+)"', file.read()))
        self.assertEqual(loaded, needed)


if __name__ == "__main__":
    unittest.main()
