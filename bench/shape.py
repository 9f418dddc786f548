#!/usr/bin/env python3
"""Counts how often the code says one thing: decisions and frames of one FINISH, lines of contracts,
and the size of each crate.

    bench/shape.py             all crates
    bench/shape.py CRATE ..    contracts and sizes of these crates

Run it from the repository's root. PATH lists the calls that one `FINISH 3 GBR7` makes, from the socket
to the disk and back (`serve --keep`). A call that decides is there as often as it is made, any
other once. Whoever changes these calls changes the list with them: a name that the script can't find
stops it.

A decision is a match or a test on a type of DECIDED, or on the words of the line. A chain of tests on
one word counts once. A contract's lines are those from its first clause to the body, with comments,
without blank lines. With its own records, it also has the lines of each record of `specs/` that no
other function's contract cites. The mean is of the functions that have a contract.
"""
from __future__ import annotations

import re
import sys
from collections import Counter
from collections.abc import Iterable, Iterator
from dataclasses import dataclass
from pathlib import Path

CRATES = Path("crates")
# Crates that are there for tests alone. Modules of tests aren't counted in any crate.
FOR_TESTS = {"regatta_trials"}
TESTS = {"tests", "tests.rt"}
DECIDED = "Command Line AskedLine DeskLine Step Change Update Reply".split()

# Module: calls in it, in the order in which a FINISH first comes to the module.
PATH = """
service/sessions: take_all answer_line answer do_command at_once
service/connection: read write
service/stopping: read_patiently read_once
talk/cutter: take
office/stopping_gate: before after
terms/reading: read_line read_words read_command finish two_words one_word read_race
terms/words: first_word has_word
terms/digits: number_within
terms/numbers: new
desk/office: desk
desk/desk: board confirm cover tell run append commit_and_publish note_published receipt
desk/told: cover_all known_of learn
desk/pass: begins entry
watch/history: copy_of cover
keeper/sealed: of_desk cover
keeper/reply_room: with_text_of
desk/answers: command_reply
board/board: prepare stage commit touched row
board/ledger: update
board/kept: number placed is_scored put_sheet
board/refusals: act command_act finish of_system unplaced number is_placed
board/act: on_sheet
terms/roles: may
scores/sheet: placed after changed with_order with_places
scores/groups: contains
scores/orders: with_last
terms/laws: parts_are_in_range
board/update: of update_of_sheet move_in put_column put_changed
board/scoring: remade_lines touched
board/column: made_column
watch/publication: new absorb_first
watch/publisher: append publish
keeper/covers: need_of_all cover
keeper/mark: of_desk catch_up
talk/room: write_fitting
tables/replies: write_reply
keeper/need: meet cover_mark join wait_for_others
keeper/keeper: cover lead visit
keeper/store: keep_all keep_batch token
keep/keeping: keep
keep/file_log: append sync
keep/system: append sync
streams/whole: write_all
streams/foreign: write
keeper/kept: learn
keeper/outlet: write_reply
service/writing: write_again write_once
"""

HEAD = re.compile(r"( *)(?:pub(?:\([a-z ]+\))? )?(?:const )?fn (\w+)")
CLAUSE = re.compile(r" *(?:requires|ensures)\b")
RECORD = re.compile(r"(?:pub )?(?:abbrev )?record (\w+)")
TEST = re.compile(r".*matches!\((.*)|.*?(?:if let |while let |\blet )(.*)")


@dataclass
class Function:
    crate: str
    module: str
    name: str
    contract: list[str]
    body: list[str]

    def clauses(self) -> int:
        return sum(bool(CLAUSE.match(line)) for line in self.contract)


def is_test(path: Path) -> bool:
    return path.parts[1] in FOR_TESTS or not TESTS.isdisjoint(path.parts)


def files(crate: Path, folder: str, ending: str) -> Iterator[Path]:
    yield from (path for path in sorted((crate / folder).rglob("*" + ending)) if not is_test(path))


def is_definition(line: str) -> bool:
    return bool(line.strip()) and not line.strip().startswith("--")


def is_closed(contract: list[str]) -> bool:
    """Whether no clause is open: a `;` then ends a function that has no body."""
    text = "\n".join(contract)
    return text.count("{") == text.count("}")


def function_at(crate: str, module: str, lines: list[str], at: int) -> Function | None:
    """The function whose head begins at this line."""
    head = HEAD.match(lines[at])
    if head is None:
        return None
    found = Function(crate, module, head[2], [], [])
    while at < len(lines):
        line = lines[at].rstrip()
        if line == head[1] + "{" or not found.contract and line.endswith(" {"):
            break
        if line == head[1] + "{}" or not found.contract and line.endswith(" {}"):
            return found
        if CLAUSE.match(line) or found.contract:
            found.contract += [line] if line.strip() else []
        if line.endswith(";") and is_closed(found.contract):
            return found
        at += 1
    for line in lines[at + 1:]:
        if line.rstrip() == head[1] + "}":
            break
        found.body.append(line)
    return found


def functions_of(crate: Path) -> Iterator[Function]:
    for path in files(crate, "src", ".rt"):
        lines = path.read_text().splitlines()
        for at in range(len(lines)):
            found = function_at(crate.name, path.stem, lines, at)
            if found is not None:
                yield found


def patterns(body: list[str]) -> Iterator[str]:
    """What each match of a body tests (the patterns of all its arms), and each single test."""
    for at, line in enumerate(body):
        if re.search(r"\bmatch .*\{$", line):
            indent = len(line) - len(line.lstrip())
            arms = []
            for arm in body[at + 1:]:
                if arm.startswith(" " * indent + "}"):
                    break
                if re.match(rf" {{{indent + 4}}}[^ }}]", arm):
                    arms.append(arm.split("=>")[0])
            yield "\n".join(arms)
        elif test := TEST.match(line):
            yield (test[1] or test[2]).split(" = ")[0]


def decisions(function: Function) -> Counter[str]:
    """The decisions of a function, by what they are about."""
    found: Counter[str] = Counter()
    for pattern in patterns(function.body):
        about = next((name for name in DECIDED if re.search(rf"\b{name}::[A-Z]", pattern)), None)
        if about is None and re.match(r" *\[", pattern):
            about = "words"
        if about is not None:
            found[about] += 1
    if any(re.search(r"is_keyword\(|has_word\(", line) for line in function.body):
        found["words"] += 1
    return found


def path_calls(functions: list[Function]) -> list[Function]:
    """The functions of PATH. Of several with one name in a module, it is the one that decides most."""
    calls = []
    for line in PATH.split("\n"):
        module, _, names = line.partition(": ")
        for name in names.split():
            found = [each for each in functions if each.name == name
                     and f"regatta_{module}" == f"{each.crate}/{each.module}"]
            if not found:
                sys.exit(f"no function {name} in {module}: correct PATH")
            calls.append(max(found, key=lambda each: decisions(each).total()))
    return calls


def records(crate: Path) -> Iterator[tuple[str, int]]:
    """The records of a crate's specs, and how many lines each has."""
    for path in files(crate, "specs", ".antt"):
        lines = path.read_text().splitlines()
        for at, line in enumerate(lines):
            head = RECORD.match(line)
            if head is not None:
                rest = lines[at + 1:]
                ends = (k for k, each in enumerate(rest) if each and not each.startswith(" "))
                yield head[1], 1 + sum(map(is_definition, rest[:next(ends, len(rest))]))


def own_lines(functions: list[Function], crates: Iterable[Path]) -> Counter[str]:
    """The lines of records that one function alone cites, by its crate."""
    words = [set(re.findall(r"\w+", "\n".join(each.contract))) for each in functions]
    found: Counter[str] = Counter()
    for crate in crates:
        for name, size in records(crate):
            citing = [each for each, cited in zip(functions, words) if name in cited]
            if len(citing) == 1:
                found[citing[0].crate] += size
    return found


def size(crate: Path, folder: str, ending: str) -> int:
    return sum(len(path.read_text().splitlines()) for path in files(crate, folder, ending))


def print_crates(functions: list[Function], crates: list[Path], asked: list[str]) -> None:
    """One row a crate, and one of all of them."""
    own = own_lines(functions, crates)
    print(f"{'crate':18}contracts  lines of each  with own records  most clauses"
          f"{'src':>8}{'specs':>8}{'proofs':>8}")
    shown = [crate for crate in crates if crate.name in asked]
    rows = [(crate.name, [crate]) for crate in shown] + [("all", shown)]
    for title, parts in rows:
        names = {part.name for part in parts}
        these = [each for each in functions if each.crate in names and each.contract]
        count = max(1, len(these))
        lines = sum(len(each.contract) for each in these)
        with_own = lines + sum(own[name] for name in names)
        sizes = [sum(size(part, folder, ending) for part in parts)
                 for folder, ending in (("src", ".rt"), ("specs", ".antt"), ("proofs", ".antt"))]
        print(f"{title:18}{len(these):9}{lines / count:15.2f}{with_own / count:18.2f}"
              f"{max((each.clauses() for each in these), default=0):14}"
              + "".join(f"{each:8,}" for each in sizes))


def main() -> None:
    crates = [path for path in sorted(CRATES.iterdir()) if path.name not in FOR_TESTS]
    asked = sys.argv[1:] or [path.name for path in crates]
    functions = [each for crate in crates for each in functions_of(crate)]
    if not sys.argv[1:]:
        calls = path_calls(functions)
        about = sum((decisions(each) for each in calls), Counter[str]())
        print(f"one FINISH: {len(calls)} frames, {about.total()} decisions: "
              + ", ".join(f"{name} {about[name]}" for name in [*DECIDED, "words"]))
    print_crates(functions, crates, asked)


if __name__ == "__main__":
    main()
