"""The script of docs/STATEMENT.md follows the names that a definition cites, and no bound ones."""
from __future__ import annotations

import os
import pathlib
import sys
import tempfile
import unittest

import helpers

sys.path.insert(0, os.path.join(helpers.TOP, "bench"))

import statement  # noqa: E402

# A piece of a definition, the names that are bound before it, and those that it cites.
CITED = [
    ("plain same rules race", "rules race", "plain same"),
    ("map (λ race. race.points) races", "", "map races"),
    ("map (λ (race : ℕ). order race) order", "", "map ℕ order"),
    ("λ x y. x", "", ""),
    ("let held = held journal in held", "", "held journal"),
    ("record { order = order journal; held = held }", "journal", "order held"),
    ("(n : ℕ) × Appends old (take n text)", "old text", "ℕ Appends take"),
    ("(λ order. order) order", "", "order"),
    ("code.Dne", "", "code.Dne"),
    ('f "text of f" 12 -- and a comment', "", "f"),
    ("if same a b then a ∷ [] else []", "a b", "if◌then◌else◌ same ∷ []"),
]


# A module with a record under parameters that has comments between its fields.
RECORDS = """-- Records.
use Rattle.std.specs.Prelude.{◌≡◌, ℕ, List, length}

module _ (scores : List ℕ) where
  -- how many scores there are
  abbrev pub many : ℕ
  many = length scores

  -- a row
  pub record IsRow (row : List ℕ) : Type 0 where
    -- A2.2: she is scored in each race
    pub a2_2 : length row ≡ many
    -- A8.1: the first
    -- and more
    pub a8 : (n : ℕ) → first row ≡ n →
        n ≡ best row
    pub last : a8 ≡ n
"""


class Statement(unittest.TestCase):
    def test_cited_names(self) -> None:
        for text, bound, cited in CITED:
            with self.subTest(text=text):
                found = statement.cited_names(
                    statement.tokens(text), statement.Scope(set(bound.split())))
                self.assertEqual(set(found), set(cited.split()))

    def test_unknown_name(self) -> None:
        """A name that is neither bound, defined nor imported stops the script."""
        module = next(iter(statement.Sources().specs.values()))
        with self.assertRaises(statement.Unreadable):
            statement.Sources().in_specs(module, "no_such_name")

    def test_modules_in_order(self) -> None:
        """Modules come in the order given, others after them, but each after those that it cites."""
        places = ["A", "B", "C", "D", "E"]
        items = {place: statement.Item(("crate", place, "f"), [], []) for place in places}
        items["D"].cited = {items["A"].key, items["C"].key}
        found = statement.modules_in_order(list(items.values()), ["D", "C", "B"])
        self.assertEqual(found, ["C", "A", "D", "B", "E"])

    def test_missing_module(self) -> None:
        """A module of the order that isn't there stops the script."""
        with self.assertRaises(statement.Unreadable):
            statement.modules_in_order([statement.Item(("crate", "A", "f"), [], [])], ["A", "B"])

    def test_record_of_sentences(self) -> None:
        """Each field's type is read, and a comment above a field is none of it."""
        with tempfile.TemporaryDirectory() as folder:
            path = pathlib.Path(folder) / "Records.antt"
            path.write_text(RECORDS, encoding="utf-8")
            module = statement.Specs("crate", path)
        row = module.items["IsRow"]
        self.assertEqual(module.names(row), set("List ℕ length ≡ many first best n".split()))
        self.assertEqual(statement.rules_cited(row), {"A2.2", "A8.1"})
        self.assertEqual(row.lines(), 5)

    def test_parts(self) -> None:
        """No definition stands in both parts, and the first stays short."""
        parts = statement.parts_of(statement.Sources())
        first, second = ({item.key for item in items} for items in (parts.first, parts.second))
        self.assertFalse(first & second)
        self.assertIn(("regatta_scores", "AppendixA", "IsAppendixA"), first)
        definitions, lines, _ = statement.figures(parts.first)
        self.assertLessEqual(definitions, 70)
        self.assertLessEqual(lines, 310)

    def test_sentences_compute_nothing(self) -> None:
        """The first part cites nothing by which a table is computed."""
        parts = statement.parts_of(statement.Sources())
        computed = set("Standing Lines Ranking Exclusions Averages Outcomes".split())
        places = {item.key[1] for item in parts.first}
        self.assertFalse(places & computed)

    def test_rules_cited(self) -> None:
        item = statement.Item(("", "", ""), ["-- her rank (A8.1, 44.3(c)), `A1`; A9 (a), (b)"], [])
        self.assertEqual(statement.rules_cited(item), {"A8.1", "44.3(c)", "A9(a)", "A9(b)"})


if __name__ == "__main__":
    unittest.main()
