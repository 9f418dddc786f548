#!/usr/bin/env python3
"""Makes docs/STATEMENT.md: what the sentences of Appendix A and the contract of `replay` say, down to
the last definition.

    bench/statement.py             writes the page
    bench/statement.py --check     compares the page with the sources; status 1 if it is out of date
    bench/statement.py --figures   prints the numbers of definitions and lines

The first part of the page has the sentences and what they rest on, the second part the contract and
what else it rests on: definitions of `specs/`, and the types and constants of the Rust code that
these name. It has nothing else. The script follows each name from where it is cited to where it is
defined. A name that is bound (a parameter, a field, after `λ` or `let`) cites
nothing. A name that is neither bound, defined nor imported stops the script, and so does a part of
`specs/` that it can't read, so nothing is left out silently.
"""
from __future__ import annotations

import argparse
import re
import sys
from collections.abc import Iterator
from dataclasses import dataclass, field
from pathlib import Path

ROOT = Path(__file__).resolve().parent.parent
PAGE = ROOT / "docs" / "STATEMENT.md"
CONTRACT = ("regatta_office", "run", "replay")
# The crate of the rules, and its law that at most one table fits the sentences.
RULES = "regatta_scores"
SENTENCES = (RULES, "AppendixLaws", "AtMostOneFits")
# The modules of the sentences, which come first, and those of the facts of a journal.
SENTENCES_FIRST = "AppendixA AppendixLaws".split()
FACTS = "Order CorrectedTimes Journal".split()
# The modules of a crate in the order in which they read best; others come after these.
READING = {RULES: """Order CorrectedTimes Journal RacePoints Marks Abbreviations Outcomes Averages
           Exclusions Ranking Lines Standing""".split()}

# What the language of definitions has itself.
BUILT_IN = set("Type Unit tt record data where abbrev unfoldable pub let in do Prim".split())
BUILT_IN |= set(": = → ← λ × ; , . ( ) { } _ ⊥ |".split())
IF = "if◌then◌else◌"
PATTERN_WORDS = {"true", "false", "zero", "suc", "refl"}

TOKEN = re.compile(r'"[^"]*"|[(){};,]|[^\s(){};,"]+')
# A rule, and the parts of it that are named: `A9 (a), (b)`.
RULE = re.compile(r"(?<![\w.])(A\d+(?:\.\d+)?|30\.2|44\.3|90\.3)((?:,? ?\([a-z]\))*)(?!\w)")

Key = tuple[str, str, str]


class Unreadable(Exception):
    """A part of the sources that the script can't place."""


@dataclass
class Item:
    """A definition, or a type, constant or trait of the Rust code."""

    key: Key
    comment: list[str]
    text: list[str]
    header: str = ""
    order: int = 0
    rust: bool = False
    cited: set[Key] = field(default_factory=set)
    words: set[tuple[str, str]] = field(default_factory=set)

    def lines(self) -> int:
        """How many lines it has, without comments."""
        return sum(not re.match(r"\s*(--|///?)", line) for line in self.text)


# ---- tokens

def tokens(text: str) -> list[str]:
    """The tokens of a piece of a definition, without comments. A dot after a name is one."""
    found = []
    for line in text.splitlines():
        line = re.sub(r"(^|\s)--(\s.*|$)", "", line)
        for token in TOKEN.findall(line):
            if len(token) > 1 and token.endswith("."):
                found += [token[:-1], "."]
            else:
                found.append(token)
    return found


def is_name(token: str) -> bool:
    return token != "_" and (bool(re.match(r"[^\W\d]", token)) or token[0] == "◌")


def bound_in_pattern(token: str) -> bool:
    return (is_name(token) and "." not in token and token[0].islower()
            and token not in PATTERN_WORDS)


class Scope:
    """Follows the names that are bound while tokens are read from left to right."""

    def __init__(self, bound: set[str]) -> None:
        self.levels = [set(bound)]
        self.lets: list[str] = []

    def has(self, name: str) -> bool:
        return any(name in level for level in self.levels)

    def bind(self, name: str) -> None:
        self.levels[-1].add(name)


def binders(found: list[str], at: int) -> list[str]:
    """The names that a parenthesis binds, as `(a b : ℕ)`; none if it isn't of that kind."""
    names: list[str] = []
    for token in found[at + 1:]:
        if token == ":":
            return names
        if not is_name(token) and token != "_":
            return []
        names.append(token)
    return []


def lambda_names(found: list[str], at: int) -> list[str]:
    """The names that the λ at this place binds."""
    names: list[str] = []
    depth, typed = 0, False
    for token in found[at + 1:]:
        if token == "." and depth == 0:
            break
        depth += (token in "({") - (token in ")}")
        typed = token == ":" or (typed and depth > 0)
        if is_name(token) and not typed:
            names.append(token)
    return names


def cited_names(found: list[str], scope: Scope) -> Iterator[str]:
    """The names of an expression that aren't bound, and its operators."""
    for at, token in enumerate(found):
        after = found[at + 1] if at + 1 < len(found) else ""
        if token in "({":
            for name in binders(found, at):
                scope.bind(name)
            scope.levels.append(set())
        elif token in ")}":
            scope.levels.pop()
        elif token == "λ":
            for name in lambda_names(found, at):
                scope.bind(name)
        elif token == "let":
            scope.lets.append(after)
        elif token == "in":
            scope.bind(scope.lets.pop())
        elif after == "←":
            scope.bind(token)
        elif token == "if":
            yield IF
        elif token in ("then", "else") or token[0] == '"' or token[0].isdigit():
            continue
        elif token == "do":
            yield ">>="
        elif token in BUILT_IN or token.startswith("."):
            continue
        elif after == "=" and len(scope.levels) > 1:
            continue
        elif scope.lets and token == scope.lets[-1] and found[at - 1] == "let":
            continue
        elif not scope.has(token.split(".")[0]):
            yield token


def names_of_clause(found: list[str], name: str, bound: set[str]) -> set[str]:
    """The names that a clause of a definition cites, in its pattern and after its `=`."""
    depth, equals = 0, 0
    for at, token in enumerate(found):
        depth += (token in "({") - (token in ")}")
        if token == "=" and depth == 0:
            equals = at
            break
    pattern = {token for token in found[:equals] if is_name(token) and token != name}
    mine = {token for token in pattern if bound_in_pattern(token)}
    return pattern - mine | set(cited_names(found[equals:], Scope(bound | mine)))


# ---- specs/

def units(lines: list[str]) -> list[str]:
    """The signature of a definition and its clauses: each line that isn't indented more starts one,
    unless it only closes what is open."""
    indent = len(lines[0]) - len(lines[0].lstrip())
    found: list[list[str]] = []
    for line in lines:
        text = line.lstrip()
        if not found or (len(line) - len(text) == indent and text[0] not in ")}"):
            found.append([])
        found[-1].append(line)
    return ["\n".join(unit) for unit in found]


def chunks(lines: list[str]) -> Iterator[list[str]]:
    """The runs of lines between blank lines; a header of a module is one of its own."""
    chunk: list[str] = []
    for line in lines + [""]:
        alone = line.startswith("module ")
        if (not line.strip() or alone) and chunk:
            yield chunk
            chunk = []
        if alone:
            yield [line]
        elif line.strip():
            chunk.append(line)


HEAD = re.compile(r"\s*(?:abbrev |unfoldable )?(?:pub )?(?:record |data )?(\S+)")


class Specs:
    """A module of `specs/`."""

    def __init__(self, crate: str, path: Path) -> None:
        self.crate, self.name = crate, path.stem
        self.about: list[str] = []
        self.items: dict[str, Item] = {}
        self.parts: dict[str, str] = {}
        self.imports: dict[str, tuple[str, str]] = {}
        header = ""
        for number, chunk in enumerate(chunks(path.read_text(encoding="utf-8").splitlines())):
            while chunk and re.match(r"(pub )?(use|mod) ", chunk[0]):
                self.take_use(chunk.pop(0))
            comment = []
            while chunk and re.match(r"\s*--", chunk[0]):
                comment.append(chunk.pop(0).strip())
            if number == 0 and comment:
                self.about = comment
                while chunk and re.match(r"(pub )?(use|mod) ", chunk[0]):
                    self.take_use(chunk.pop(0))
                comment = []
            if not chunk:
                continue
            if chunk[0].startswith("module "):
                header = chunk[0]
                continue
            self.take(comment, chunk, header if chunk[0].startswith(" ") else "")

    def take_use(self, line: str) -> None:
        line = line.removeprefix("pub ")
        listed = re.fullmatch(r"use (\S+)\.\{(.*)\}", line)
        alias = re.fullmatch(r"use (\S+)(?: as (\S+))?", line)
        if listed:
            for name in listed[2].split(","):
                name, _, other = name.strip().partition(" as ")
                self.imports[other or name] = (listed[1], name)
        elif alias:
            self.imports[alias[2] or alias[1].split(".")[-1]] = (alias[1], "")
        elif not line.startswith("mod "):
            raise Unreadable(f"{self.crate}/{self.name}: {line}")

    def take(self, comment: list[str], chunk: list[str], header: str) -> None:
        first = chunk[1] if chunk[0].lstrip().startswith("infix") else chunk[0]
        name = HEAD.match(first)
        if not name or " : " not in f"{first} : ":
            raise Unreadable(f"{self.crate}/{self.name}: {first}")
        item = Item((self.crate, self.name, name[1]), comment, chunk, header, len(self.items))
        self.items[name[1]] = item
        if re.search(r"\bdata ", first):
            for line in chunk[1:]:
                self.parts[line.split()[0]] = name[1]

    def bound_by(self, header: str) -> set[str]:
        found = tokens(header)
        return {name for at, token in enumerate(found) if token in "({"
                for name in binders(found, at)}

    def names(self, item: Item) -> set[str]:
        """The names that a definition cites."""
        lines = [line for line in item.text if not line.lstrip().startswith("infix")]
        bound = self.bound_by(item.header)
        header = item.header.removeprefix("module _").removesuffix("where")
        found = set(cited_names(tokens(header), Scope(bound)))
        if re.match(r"\s*pub (record|data) ", lines[0]):
            found |= self.names_of_parts(item, lines, bound)
        else:
            signature, *clauses = [tokens(unit) for unit in units(lines)]
            signature = signature[signature.index(item.key[2]) + 1:]
            found |= set(cited_names(signature, Scope(bound)))
            for clause in clauses:
                found |= names_of_clause(clause, item.key[2], bound)
        return found - {item.key[2]} - set(item.key[2].replace("◌", " ").split())

    def names_of_parts(self, item: Item, lines: list[str], bound: set[str]) -> set[str]:
        """The names in the header of a record or data type, and in the types of its parts."""
        scope = Scope(bound)
        found: set[str] = set()
        text = "\n".join(lines)
        head, _, rest = text.partition("where")
        words = tokens(head)
        found |= set(cited_names(words[words.index(item.key[2]) + 1:], scope))
        first = next((line for line in rest.splitlines() if line.strip()), "")
        indent = len(first) - len(first.lstrip())
        for part in re.split(rf"\n(?= {{{indent}}}(?:pub )?\S+ : )", rest):
            words = tokens(part.strip().removeprefix("pub "))
            if words:
                found |= set(cited_names(words[1:], Scope(scope.levels[0])))
                scope.bind(words[0])
        return found


# ---- src/

RUST = re.compile(r"^pub(?:\([^)]*\))? (?:struct|enum|trait|type|const) (\w+)", re.M)


class Source:
    """A file of the Rust code."""

    def __init__(self, crate: str, path: Path) -> None:
        self.crate = crate
        inside = path.relative_to(ROOT / "crates" / crate / "src").with_suffix("")
        self.name = ".".join(inside.parts)
        self.text = path.read_text(encoding="utf-8")
        self.items: dict[str, Item] = {}
        lines = self.text.splitlines()
        for number, line in enumerate(lines):
            declared = RUST.match(line)
            if declared:
                self.items[declared[1]] = self.item(lines, number, declared[1])

    def item(self, lines: list[str], number: int, name: str) -> Item:
        start = number
        while start and re.match(r"///|#\[", lines[start - 1]):
            start -= 1
        end = number
        while not (lines[end].endswith(";") and end == number) and lines[end] != "}" and not (
                end == number and lines[end].endswith("}")):
            end += 1
        kept = [line for line in lines[start:end + 1] if not line.lstrip().startswith("#[")]
        value = re.search(rf"^impl(?:<[^>]*>)? Model for {name}\b.*?^\s+ghost Value = \{{(.*?)\}};",
                          self.text, re.M | re.S)
        if value:
            docs = [line for line in kept if line.startswith("///")]
            seen = f"// A contract sees {value[1].strip()}."
            kept = [*docs, lines[number].rstrip(" {") + ";", seen]
        return Item((self.crate, f"src.{self.name}", name), [], kept, "", number, True)

    def ghost_imports(self) -> dict[str, tuple[str, str]]:
        found = {}
        for path, names in re.findall(r"^\s*ghost use (\S+)\.\{(.*?)\};", self.text, re.M):
            for name in names.split(","):
                name, _, other = name.strip().partition(" as ")
                found[other or name] = (path, name)
        return found


# ---- the whole

class Sources:
    """All definitions and declarations of the repository."""

    def __init__(self) -> None:
        rows = (ROOT / "crates.txt").read_text(encoding="utf-8").splitlines()
        self.crates = [row.partition(":")[0].strip() for row in rows if row and row[0] != "#"]
        self.specs: dict[tuple[str, str], Specs] = {}
        self.sources: dict[tuple[str, str], Source] = {}
        for crate in self.crates:
            for path in sorted((ROOT / "crates" / crate / "specs").glob("*.antt")):
                if path.stem != "Lib" and not path.stem.startswith("Worked"):
                    self.specs[crate, path.stem] = Specs(crate, path)
            for path in sorted((ROOT / "crates" / crate / "src").rglob("*.rt")):
                source = Source(crate, path)
                self.sources[crate, source.name] = source

    def imported(self, path: str, name: str) -> Item | tuple[str, str]:
        """What an import leads to: an item of this repository, or a word of the library."""
        parts = path.split(".")
        if len(parts) < 4 or not parts[1].startswith("regatta_"):
            return (path, name)
        crate, place = parts[1], parts[3:]
        if place[0] != "declared":
            return self.in_specs(self.specs[crate, ".".join(place)], name)
        place = [part for part in place[1:] if part != "TheVariants"]
        if place[-1] == "TheConstants":
            return self.sources[crate, ".".join(place[:-1])].items[name]
        return self.sources[crate, ".".join(place[:-1])].items[place[-1]]

    def in_specs(self, module: Specs, name: str) -> Item | tuple[str, str]:
        """What a name means in a module of `specs/`."""
        head, _, rest = name.partition(".")
        if name in module.items:
            return module.items[name]
        if name in module.parts:
            return module.items[module.parts[name]]
        if name in module.imports and module.imports[name][1]:
            return self.imported(*module.imports[name])
        if rest and head in module.imports and not module.imports[head][1]:
            return self.imported(module.imports[head][0], rest.partition(".")[0])
        for defined in [*module.items, *module.imports]:
            if "◌" in defined and name in defined.replace("◌", " ").split():
                return self.in_specs(module, defined)
        raise Unreadable(f"{module.crate}/{module.name}: what is {name}?")

    def in_rust(self, source: Source, name: str) -> Item | None:
        """The declaration that a name of the Rust code means; None for one of std."""
        if name in source.items:
            return source.items[name]
        if not name.isidentifier():
            return None
        path = rf"^use (crate|regatta_\w+)(?:::\w+)*(?:::\{{[^}}]*)?\b{name}\b"
        used = re.search(path, source.text, re.M)
        if not used:
            return None
        crate = source.crate if used[1] == "crate" else used[1]
        found = [other.items[name] for (of, _), other in self.sources.items()
                 if of == crate and name in other.items]
        if len(found) > 1:
            raise Unreadable(f"{crate}: {name} is declared {len(found)} times")
        return found[0] if found else None

    def follow(self, item: Item) -> None:
        """Fills in what an item cites."""
        crate, place, _ = item.key
        if not item.rust:
            module = self.specs[crate, place]
            found = [self.in_specs(module, name) for name in sorted(module.names(item))]
        else:
            source = self.sources[crate, place.removeprefix("src.")]
            found = self.cited_by_rust(source, "\n".join(item.text))
        item.cited = {other.key for other in found if isinstance(other, Item)}
        item.words = {other for other in found if not isinstance(other, Item)}

    def cited_by_rust(self, source: Source, text: str) -> list[Item | tuple[str, str]]:
        """What a declaration cites, and the clauses in it."""
        ghost = source.ghost_imports()
        found: list[Item | tuple[str, str]] = []
        seen = re.search(r"// A contract sees (.*)\.$", text, re.M)
        clauses = [seen[1]] if seen else clauses_of(text)
        bare = re.sub("//.*", "", text)
        if clauses and not seen:
            bare = re.sub(r"\{[^{}]*\}", "", bare)
        for name in set(re.findall(r"\b[A-Z]\w+\b", bare)):
            other = self.in_rust(source, name)
            if other:
                found.append(other)
        bound = set(re.findall(r"\b(\w+):", bare)) | {"result", "self", "Self"}
        bound |= set(re.findall(r"[<,] ?([A-Z]\w?)\b", bare))
        names = {name for clause in clauses for name in cited_names(tokens(clause), Scope(bound))}
        for name in sorted(names):
            declared = self.in_rust(source, name.split(".")[0])
            operators = [it for it in ghost if name in it.replace("◌", " ").split()]
            if declared:
                found.append(declared)
            elif name in ghost or operators:
                found.append(self.imported(*ghost[name if name in ghost else operators[0]]))
            elif name in ("List", "ℕ"):
                found.append(("Rattle.std.specs.Prelude", name))
            else:
                raise Unreadable(f"{source.crate}/{source.name}: what is {name}?")
        return found

    def contract(self) -> Item:
        """The contract, as an item without a body."""
        crate, file, name = CONTRACT
        source = self.sources[crate, file]
        lines = source.text.splitlines()
        number = next(at for at, line in enumerate(lines) if line.startswith(f"pub fn {name}"))
        start, end = number, number
        while lines[start - 1].startswith("///"):
            start -= 1
        while lines[end] != "{":
            end += 1
        item = Item((crate, f"src.{file}", name), [], lines[start:end], rust=True)
        self.follow(item)
        return item

    def get(self, key: Key) -> Item:
        crate, place, name = key
        if place.startswith("src."):
            return self.sources[crate, place.removeprefix("src.")].items[name]
        return self.specs[crate, place].items[name]

    def closure(self, start: Item) -> dict[Key, Item]:
        """All items that the start rests on."""
        found: dict[Key, Item] = {}
        todo = list(start.cited)
        while todo:
            key = todo.pop()
            if key not in found:
                found[key] = self.get(key)
                self.follow(found[key])
                todo += found[key].cited
        return found


def clauses_of(text: str) -> list[str]:
    """The text in the braces of `requires`, `ensures` and `ghost`."""
    found = []
    for start in re.finditer(r"\b(?:requires|ensures)(?: \w+)? \{|ghost \w+: \{| = \{", text):
        depth, at = 1, start.end()
        while depth:
            depth += (text[at] == "{") - (text[at] == "}")
            at += 1
        found.append(text[start.end():at - 1])
    return found


def in_order(items: list[Item]) -> list[Item]:
    """The items, each after those that it cites, else as they are given."""
    mine = {item.key: item for item in items}
    done: dict[Key, Item] = {}

    def add(item: Item, above: tuple[Key, ...]) -> None:
        if item.key not in done and item.key not in above:
            for key in sorted(item.cited & mine.keys(), key=lambda key: mine[key].order):
                add(mine[key], (*above, item.key))
            done[item.key] = item

    for item in items:
        add(item, ())
    return list(done.values())


def modules_in_order(items: list[Item], reading: list[str]) -> list[str]:
    """The modules of one crate that have items here, each after those whose definitions it cites,
    else in the order in which they read best, else by name."""
    needs: dict[str, set[str]] = {}
    for item in items:
        crate, place, _ = item.key
        needs.setdefault(place, set()).update(
            other for of, other, _ in item.cited if of == crate and not other.startswith("src."))
    for place in reading:
        if place not in needs:
            raise Unreadable(f"no module {place} to read")
    done: list[str] = []

    def order(place: str) -> tuple[int, str]:
        return reading.index(place) if place in reading else len(reading), place

    def add(place: str) -> None:
        if place not in done:
            for other in sorted(needs[place] & needs.keys() - {place}, key=order):
                add(other)
            done.append(place)

    for place in sorted(needs, key=order):
        add(place)
    return done


# ---- the page

INTRODUCTION = """# The statement

This page says what is proved of scores and of a whole run, down to the last definition. The script [`bench/statement.py`](../bench/statement.py) makes it from the sources; change those, and run the script.

1. [The sentences](#the-sentences) are Appendix A as a relation between a journal and a table: a field for each sentence of the rules, and the facts of a journal that they rest on. Whoever believes them knows what a table means. At most one table fits them (the law `at_most_one_table_fits`), and each table that the program makes does: the contracts of `Board::standing`, `standing_of`, `Pass::show` and `replay` say so first, in the clause `appendix_a`.
2. [How it is computed](#how-it-is-computed) has the contract of `replay`, and each definition that it rests on besides. Nobody has to believe those of scores: by the law `only_the_standing_fits` the table that they compute is the one that fits.

The prover checks that the code meets the contracts. Only reading shows that the sentences say what the racing rules mean: compare them with the rules, by the [table of rules](#by-rule) at the end. [SCORING](SCORING.md) and [FORMATS](FORMATS.md) say the same in words, and the modules `Worked..` of `specs/` compute examples.

| notation | meaning |
|---|---|
| `ℕ`, `List ℕ` | the whole numbers from 0 on; a list of them, and any text as its bytes |
| `x ∷ xs`, `xs ++ ys`, `[]` | a list with its first item; one list after another; no items |
| `λ x. e`, `A → B` | a function; the type of a function, and of facts "if A then B" |
| `(a, b)`, `p.0` | a pair, and its first part |
| `≡`, `×`, `⊎`, `⊥` | equality, "and", "or", what never holds |
| `A ↔ B` | A if and only if B |
| `(n : ℕ) × P` | "for some n" |
| `codes "QUIT"` | the bytes of a word |
| `x.old`, `x.new`, `x.now` | a value before the call, after it, and throughout |
"""

FIRST_PART = """## The sentences

What has to be believed about scores, and all of it, with the [words of the library](#words-of-the-library). The sentences come first; after them each definition comes after those that it cites.
"""

SECOND_PART = """## How it is computed

The contract of `replay`, and what it rests on besides the first part. Each definition comes after those that it cites.
"""


def heading(crate: str, place: str, more: bool = False) -> str:
    """The heading of a module, or of the types and constants of a crate; `more` if the first part
    of the page has some of it."""
    named = "types and constants" if place.startswith("src.") else place
    if more:
        named = f"more {named}" if place.startswith("src.") else f"more of {named}"
    return f"{crate}: {named}"


def slug(text: str) -> str:
    return re.sub(r"[^\w\- ]", "", text.lower()).replace(" ", "-")


def plain(comment: list[str]) -> str:
    text = " ".join(line.removeprefix("--").strip() for line in comment)
    return text if text.endswith((".", ":")) else text + "."


def shown(items: list[Item]) -> list[str]:
    """The lines of definitions, with their comments and the headers that they are under."""
    lines: list[str] = []
    header = ""
    for item in items:
        if lines:
            lines.append("")
        if item.header != header and item.header:
            lines.append(item.header)
        header = item.header
        indent = "  " if item.header else ""
        lines += [indent + line for line in item.comment] + item.text
    return lines


def fenced(kind: str, lines: list[str]) -> list[str]:
    return [f"```{kind}", *lines, "```", ""]


def rules_cited(item: Item) -> set[str]:
    """The rules of the RRS that the comments of an item cite."""
    lines = item.comment + [line for line in item.text if re.match(r"\s*(--|///)", line)]
    text = re.sub(r"`[^`]*`", "", " ".join(line.strip().lstrip("-/ ") for line in lines))
    return {rule + part for rule, parts in RULE.findall(text)
            for part in re.findall(r"\([a-z]\)", parts) or [""]}


def rule_order(rule: str) -> tuple[bool, list[int]]:
    parts = re.findall(r"\d+|[a-z]", rule)
    return rule[0] != "A", [int(part) if part.isdigit() else ord(part) for part in parts]


def figures(items: list[Item]) -> tuple[int, int, int]:
    """How many definitions, their lines, and how many types and constants."""
    own = [item for item in items if not item.rust]
    return len(own), sum(item.lines() for item in own), len(items) - len(own)


@dataclass
class Parts:
    """The items of the first part, and what the second part has besides."""

    first: list[Item]
    second: list[Item]


def parts_of(sources: Sources) -> Parts:
    law = sources.get(SENTENCES)
    sources.follow(law)
    first = {law.key: law, **sources.closure(law)}
    whole = sources.closure(sources.contract())
    cited = {key[:2] for key in [*first, *whole]}
    for place in READING[RULES]:
        if (RULES, place) not in cited:
            raise Unreadable(f"no module {place} to read")
    return Parts(list(first.values()), [item for key, item in whole.items() if key not in first])


def is_fact(item: Item) -> bool:
    crate, place, _ = item.key
    return crate != RULES or place in FACTS


def table_of_figures(parts: Parts) -> list[str]:
    rows = {
        "the sentences": [item for item in parts.first if not is_fact(item)],
        "the facts of a journal that they rest on": list(filter(is_fact, parts.first)),
        "the first part": parts.first,
        "how it is computed": parts.second,
    }
    lines = ["| what | definitions | their lines | types and constants |", "|---|---|---|---|"]
    lines += [f"| {name} | {' | '.join(map(str, figures(items)))} |" for name, items in rows.items()]
    return lines + [""]


class Page:
    """Writes the sections of the page, and remembers which definition cites which rule."""

    def __init__(self, sources: Sources) -> None:
        self.sources = sources
        self.rules: dict[str, list[str]] = {}
        self.headings: set[str] = set()

    def titled(self, crate: str, place: str, items: list[Item]) -> list[str]:
        """The heading of a section; the rules that its items cite are noted under it."""
        title = heading(crate, place)
        if title in self.headings:
            title = heading(crate, place, more=True)
        self.headings.add(title)
        for item in items:
            for rule in rules_cited(item):
                self.rules.setdefault(rule, []).append(f"[`{item.key[2]}`](#{slug(title)})")
        return [f"### {title}", ""]

    def module(self, crate: str, place: str, items: list[Item]) -> list[str]:
        own = sorted((item for item in items if item.key[:2] == (crate, place)),
                     key=lambda item: item.order)
        about = plain(self.sources.specs[crate, place].about)
        return self.titled(crate, place, own) + [about, ""] + fenced("text", shown(own))

    def types(self, crate: str, items: list[Item]) -> list[str]:
        rust = sorted((item for item in items if item.rust),
                      key=lambda item: (item.key[1], item.order))
        code = [line for item in in_order(rust) for line in [*item.text, ""]]
        return self.titled(crate, "src.", in_order(rust)) + fenced("rust", code[:-1])

    def crates(self, items: list[Item]) -> list[str]:
        """The types, constants and modules of all crates, the lowest crate first."""
        lines: list[str] = []
        for crate in self.sources.crates:
            mine = [item for item in items if item.key[0] == crate]
            specs = [item for item in mine if not item.rust]
            if len(specs) < len(mine):
                lines += self.types(crate, mine)
            places = {item.key[1] for item in specs}
            reading = [place for place in READING.get(crate, []) if place in places]
            for place in modules_in_order(specs, reading):
                lines += self.module(crate, place, specs)
        return lines

    def first_part(self, items: list[Item]) -> list[str]:
        lines = [*FIRST_PART.splitlines(), ""]
        for place in SENTENCES_FIRST:
            lines += self.module(RULES, place, items)
        return lines + self.crates([item for item in items if item.key[1] not in SENTENCES_FIRST])

    def second_part(self, contract: Item, items: list[Item]) -> list[str]:
        lines = [*SECOND_PART.splitlines(), "", "### The contract of `replay`", ""]
        return lines + fenced("rust", contract.text) + self.crates(items)

    def by_rule(self) -> list[str]:
        lines = ["## By rule", "", "Which definitions and types cite which rule of the RRS.", "",
                 "| rule | definitions |", "|---|---|"]
        return lines + [f"| {rule} | {', '.join(self.rules[rule])} |"
                        for rule in sorted(self.rules, key=rule_order)]


def library_words(items: list[Item]) -> list[str]:
    words: dict[str, set[str]] = {}
    for item in items:
        for path, name in item.words:
            words.setdefault(path, set()).add(name)
    lines = ["## Words of the library", "",
             "The toolchain's library defines these, and its pages explain them.", "",
             "| module | words |", "|---|---|"]
    for path in sorted(words):
        named = ", ".join(f"`{name}`" for name in sorted(words[path]))
        lines.append(f"| `{path.removeprefix('Rattle.')}` | {named} |")
    return lines + [""]


def page(sources: Sources) -> str:
    contract, parts, made = sources.contract(), parts_of(sources), Page(sources)
    lines = [*INTRODUCTION.splitlines(), "", *table_of_figures(parts)]
    lines += made.first_part(parts.first) + made.second_part(contract, parts.second)
    lines += library_words([contract, *parts.first, *parts.second]) + made.by_rule()
    return "\n".join(lines) + "\n"


def main() -> int:
    parser = argparse.ArgumentParser(description=__doc__.split("\n")[0])
    parser.add_argument("--check", action="store_true")
    parser.add_argument("--figures", action="store_true")
    asked = parser.parse_args()
    try:
        sources = Sources()
        if asked.figures:
            print("\n".join(table_of_figures(parts_of(sources))))
            return 0
        made = page(sources)
    except Unreadable as why:
        sys.exit(f"bench/statement.py can't place a part of the sources: {why}")
    if not asked.check:
        PAGE.write_text(made, encoding="utf-8")
    elif not PAGE.exists() or PAGE.read_text(encoding="utf-8") != made:
        print("docs/STATEMENT.md is out of date: run bench/statement.py")
        return 1
    return 0


if __name__ == "__main__":
    sys.exit(main())
