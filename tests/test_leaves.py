"""Whatever is put into any place of a page's block, with marks and seal made again: outside of the series
it is refused, and inside them it has another seal and makes no markup.

`MUTATIONS=100000` in the environment tries so many random changes, and not 1,000; `SEED` chooses which.
"""
from __future__ import annotations

import copy
import os
import random
import unittest
from collections.abc import Callable, Iterator
from typing import Any

import helpers

from allowed import odd_parts
from forger import MARKUP, ForgedPages, Forger, Path, leaves, others, put, seals, whole_of
from raceoffice.results.html.listing import listing
from raceoffice.results.html.notice_board import results as notice
from raceoffice.results.html.overall import overall
from raceoffice.results.html.race import one_race
from raceoffice.verify.visible import Seen

COUNT = int(os.environ.get("MUTATIONS", "1000"))
SEED = int(os.environ.get("SEED", "11"))
SIGNS = ["", "0", "9", "a", "A", " ", "-", '"', "<", ">", "&", "'", "=", "/", ":", ";", "%", "#", "\\",
         "\n", "\t", "\0", "\x1b", "\u2028", "\u202e", "\u200b", "\ud800", "é", "名", "٣", "ſ", "..", "://"]


class Leaves(ForgedPages):
    """What becomes of pages whose blocks are changed."""

    def texts(self, page: str) -> list[str]:
        """What is seen of a page, without the moment of the last change."""
        found = Seen(page)
        cells = [cell.text for table in found.tables for row in table.rows for cell in row]
        return [table.caption for table in found.tables] + cells + [
            text for tag, text in found.texts if tag != "time" and "Last changed" not in text]

    def honest(self, whole: dict[str, Any], page: str) -> str:
        """The page of this kind that raceoffice writes of the series with these seals."""
        views = {seals(notice([view]))[0]: view for view in (self.tide, self.fleet)}
        mine, said = [views[seal] for seal in seals(page)], whole["page"]
        if said["kind"] == "results":
            return notice(mine)
        if said["kind"] == "list":
            return listing(mine)
        if said["kind"] == "race":
            return one_race(mine[0], said["race"], said["among"])
        return overall(mine[0], said.get("among", False), said["kind"] == "top")

    def look(self, whole: dict[str, Any], page: str, known: set[str]) -> str:
        """What is wrong with a page that is verified though its block was changed; empty if nothing is.

        With the seals of honest pages it shows what they show. No page has a tag, an attribute or an
        address that isn't allowed.
        """
        if odd := odd_parts(page):
            return f"it has {odd[:3]}"
        if not set(seals(page)) <= known:
            return ""
        one, other = self.texts(page), self.texts(self.honest(whole, page))
        return "" if one == other else f"{set(one) ^ set(other)} under an honest seal"

    # Each leaf alone

    def test_leaves(self) -> None:
        """Each leaf of each kind of page has once markup in it, and once values of other types."""
        for kind, page in self.pages().items():
            self.assertTrue(self.is_verified(page), kind)
            self.assertEqual(odd_parts(page), [])
            whole, forger = whole_of(page), Forger(helpers.PROGRAM, page)
            for at, (path, value) in enumerate(leaves(whole)):
                types = others(value)
                # Of a series each leaf has one of the types: its lists are read in one way.
                chosen = [types[at % len(types)]] if path[0] == "series" else [f"{value}{MARKUP}", *types]
                for other in [MARKUP, *chosen]:
                    fresh = put(whole, path, other)
                    with self.subTest(kind=kind, path=path, value=other):
                        self.leaf(fresh, forger.forged(fresh), path, page)

    def leaf(self, whole: dict[str, Any], made: str, path: Path, page: str) -> None:
        if path[0] in ("seal", "marks"):
            # The forger makes these again: the page is as it was.
            return
        is_verified = self.is_verified(made)
        if path[0] != "series" or not isinstance(self.at(whole, path), str):
            self.assertFalse(is_verified)
        elif is_verified:
            self.assertNotEqual(seals(made), seals(page))
            self.assertEqual(odd_parts(made), [])

    def at(self, whole: dict[str, Any], path: Path) -> object:
        found: object = whole
        for name in path:
            found = found[name]  # type: ignore[index]
        return found

    def test_names_of_series(self) -> None:
        """Titles, names, notes and decisions may hold markup: it is seen as text, and the seal is
        another."""
        for kind, page in self.pages().items():
            whole, forger = whole_of(page), Forger(helpers.PROGRAM, page)
            for path in ([("series", 0, "settings", name) for name in ("title", "class", "club", "reason")]
                         + [("series", 0, "boats", 0, at) for at in (2, 3, 4)]
                         + [("series", 0, "name")]):
                with self.subTest(kind=kind, path=path):
                    text = MARKUP.replace("/", "") if path[-1] == "name" else MARKUP
                    made = forger.forged(put(whole, path, text))
                    self.assertTrue(self.is_verified(made))
                    self.assertNotEqual(seals(made), seals(page))
                    self.assertEqual(odd_parts(made), [])

    # At random

    def test_mutations(self) -> None:
        """Random changes of a block, with a page that the package's own code makes of it."""
        dice, pages = random.Random(SEED), list(self.pages().values())
        known = {seal for page in pages for seal in seals(page)}
        wrong, verified = [], 0
        for at in range(COUNT):
            page = pages[at % len(pages)]
            fresh = mutated(dice, whole_of(page))
            made = Forger(helpers.PROGRAM, page).forged(fresh)
            try:
                is_verified = self.is_verified(made)
            except Exception as cause:  # noqa: BLE001
                wrong.append(f"{at}: {type(cause).__name__}: {cause}")
                continue
            verified += is_verified
            if is_verified and (problem := self.look(fresh, made, known)):
                wrong.append(f"{at}: {problem}")
        self.assertEqual(wrong, [])
        # Not all are refused: names, titles and settings may be others, with another seal.
        self.assertGreater(verified, COUNT // 50)


# Random changes

def places(value: object, path: Path = ()) -> Iterator[tuple[Path, object]]:
    """Each list and each object in a value, with the way to it."""
    if isinstance(value, (dict, list)):
        yield path, value
        for name, part in value.items() if isinstance(value, dict) else enumerate(value):
            yield from places(part, (*path, name))


def mutated(dice: random.Random, whole: dict[str, Any]) -> dict[str, Any]:
    """The block after one to three changes."""
    for _ in range(dice.choice([1, 1, 1, 2, 3])):
        change: Callable[[random.Random, dict[str, Any]], dict[str, Any]] = dice.choice(
            [changed_leaf, changed_leaf, changed_leaf, changed_part, moved_part])
        whole = change(dice, copy.deepcopy(whole))
    return whole


def changed_leaf(dice: random.Random, whole: dict[str, Any]) -> dict[str, Any]:
    """Another value of a leaf. Each part of a block has the same chance, however long it is."""
    every = [(path, value) for path, value in leaves(whole) if path[0] != "seal"]
    groups: dict[object, list[tuple[Path, object]]] = {}
    for path, value in every:
        groups.setdefault((path[0], path[2] if path[0] == "series" and len(path) > 2 else ""), []).append(
            (path, value))
    path, value = dice.choice(dice.choice(list(groups.values())))
    return put(whole, path, other_value(dice, value, [text for _, text in every]))


def other_value(dice: random.Random, value: object, texts: list[object]) -> object:
    if not isinstance(value, str) or dice.random() < 0.15:
        return dice.choice([MARKUP, 0, 1, 2, 3, 5, 41, -1, True, False, None, [], {}, "1", value])
    kind, at = dice.random(), dice.randrange(len(value) + 1)
    if kind < 0.55:
        return value[:at] + dice.choice(SIGNS) + value[at + dice.randrange(2):]
    if kind < 0.75:
        return dice.choice(texts)
    return value[:at] + MARKUP + value[at:]


def changed_part(dice: random.Random, whole: dict[str, Any]) -> dict[str, Any]:
    """A part taken out, added, named otherwise or there twice."""
    _, part = dice.choice(list(places(whole)))
    name = dice.choice(list(part)) if isinstance(part, dict) and part else None
    kind = dice.randrange(3)
    if isinstance(part, dict):
        if name is not None and kind < 2:
            value = part.pop(name)
            part |= {dice.choice([f"{name}x", "version", "names", "prefix"]): value} if kind else {}
        else:
            part[dice.choice(["race", "among", "version", "names", MARKUP])] = dice.choice([1, True, MARKUP])
    elif isinstance(part, list):
        at = dice.randrange(len(part) + 1)
        if kind < 1:
            part[at:at + 1] = []
        else:
            part.insert(at, copy.deepcopy(dice.choice(part)) if part and kind == 1 else MARKUP)
    return whole


def moved_part(dice: random.Random, whole: dict[str, Any]) -> dict[str, Any]:
    """Two items of a list, or two parts of an object, in each other's place."""
    _, part = dice.choice([each for each in places(whole) if len(each[1]) > 1])  # type: ignore[arg-type]
    names = list(part) if isinstance(part, dict) else list(range(len(part)))  # type: ignore[arg-type]
    one, other = dice.sample(names, 2)
    part[one], part[other] = part[other], part[one]  # type: ignore[index]
    return whole


if __name__ == "__main__":
    unittest.main()
