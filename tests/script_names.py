"""Which names a script of the pages uses without anything that declares them: neither the script itself, by an import or
otherwise, nor a browser. It reads JavaScript as these scripts are written: each statement ends in a semicolon, and a key
of an object has its colon right after it.
"""
from __future__ import annotations

import re
from collections.abc import Iterator
from dataclasses import dataclass, field

# What browsers know, as far as pages need it, and what their workers know besides
OF_BROWSERS = set("""AbortController Boolean Date Error EventSource FormData Infinity Intl JSON Map Math NaN Node Number Object
    Promise Response Set String SyntaxError URL Uint8Array Array addEventListener btoa caches clearTimeout clients crypto
    document encodeURIComponent fetch isSecureContext localStorage location navigator performance registration
    requestAnimationFrame scrollY sessionStorage setInterval setTimeout skipWaiting structuredClone undefined window""".split())
WORDS = set("""await break case catch class const continue default delete do else export extends false finally for function
    if import in instanceof let new null return static super switch this throw true try typeof var void while yield""".split())
NAME = r"[A-Za-z_$][\w$]*"
TOKEN = re.compile(rf"""(?P<space>\s+|//[^\n]*|/\*.*?\*/)|(?P<name>{NAME})|(?P<number>\d[\w.]*)
    |(?P<text>"(?:[^"\\\n]|\\.)*"|'(?:[^'\\\n]|\\.)*')|(?P<sign>=>|\.\.\.|\?\.|\?\?=?|\|\|=?|&&=?|[-+*/%<>=!&|^~?:;,.(){{}}\[\]])""",
    re.DOTALL | re.VERBOSE)
PATTERN = re.compile(r"/(?:[^/\\\[\n]|\\.|\[(?:[^\]\\\n]|\\.)*\])+/[a-z]*")
OPEN, CLOSE = {"(": ")", "[": "]", "{": "}"}, {")", "]", "}"}
# After these a slash is a division.
ENDS = {*CLOSE, "name", "number", "text"}


@dataclass(frozen=True)
class Token:
    kind: str
    text: str
    line: int
    # Whether a key's colon may follow: it comes without a space.
    is_before_colon: bool = False


def tokens_of(script: str, line: int = 1) -> Iterator[Token]:
    """The parts of a script without spaces, comments, texts and patterns. What a text in backquotes has in braces follows
    in brackets of its own."""
    at, last = 0, ""
    while at < len(script):
        if script[at] == "`":
            end, inside = template(script, at + 1)
            yield Token("text", "`", line)
            for part, where in inside:
                yield from (Token("sign", "(", line), *tokens_of(part, line + script.count("\n", at, where)), Token("sign", ")", line))
            line, at, last = line + script.count("\n", at, end), end, "text"
            continue
        found = PATTERN.match(script, at) if script[at] == "/" and last not in ENDS and script[at:at + 2] not in ("//", "/*") else None
        kind = "text" if found else ""
        if not found:
            found = TOKEN.match(script, at)
            assert found, f"line {line}: {script[at:at + 20]!r}"
            kind = str(found.lastgroup)
        if kind != "space":
            yield Token(kind, found[0], line, script[found.end():found.end() + 1] == ":")
            last = kind if kind != "sign" and found[0] not in WORDS - {"this"} else found[0]
        line, at = line + found[0].count("\n"), found.end()


def template(script: str, at: int) -> tuple[int, list[tuple[str, int]]]:
    """Where a text in backquotes ends that begins here, and what it has in braces, with where each begins."""
    inside = []
    while script[at] != "`":
        if script[at] == "\\":
            at += 2
        elif script.startswith("${", at):
            begin, depth = at + 2, 1
            at = begin
            while depth:
                if script[at] == "`":
                    at = template(script, at + 1)[0]
                    continue
                depth += {"{": 1, "}": -1}.get(script[at], 0)
                at += 1
            inside.append((script[begin:at - 1], begin))
        else:
            at += 1
    return at + 1, inside


@dataclass
class Scope:
    """A part of a script, from one token to another, and the names that are declared for it."""
    begin: int
    end: int
    names: set[str] = field(default_factory=set)


class Script:
    """A script, taken apart."""

    def __init__(self, text: str) -> None:
        self.tokens = list(tokens_of(text))
        self.pairs = self.paired()
        self.scopes = [Scope(0, len(self.tokens)), *(Scope(at, end) for at, end in self.pairs.items() if self.text(at) == "{")]
        # Names that are no uses: those that are declared, and keys
        self.others: set[int] = set()
        self.imported: list[str] = []
        self.declare()

    def text(self, at: int) -> str:
        return self.tokens[at].text if 0 <= at < len(self.tokens) and self.tokens[at].kind != "text" else ""

    def paired(self) -> dict[int, int]:
        """The bracket that closes each one."""
        found, left = {}, list[int]()
        for at in range(len(self.tokens)):
            if self.text(at) in OPEN:
                left.append(at)
            elif self.text(at) in CLOSE:
                found[left.pop()] = at
        return found

    def inner(self, at: int) -> Scope:
        """The smallest block that a token is in."""
        return min((one for one in self.scopes if one.begin <= at <= one.end), key=lambda one: one.end - one.begin)

    def note(self, scope: Scope, begin: int, end: int) -> None:
        """Declares the names of a pattern: not its keys, and not what stands for what is missing."""
        at = begin
        while at < end:
            token = self.tokens[at]
            if self.text(at) == "=":
                at = self.after_value(at + 1, end)
                continue
            if token.kind == "name" and token.text not in WORDS:
                self.others.add(at)
                if not token.is_before_colon:
                    scope.names.add(token.text)
            at += 1

    def after_value(self, at: int, end: int) -> int:
        """Where an expression ends that begins here: at a comma, a semicolon or a bracket that closes what it is in."""
        while at < end and self.text(at) not in {",", ";", *CLOSE}:
            at = self.pairs.get(at, at) + 1
        return at

    def declare(self) -> None:
        for at in range(len(self.tokens)):
            word = self.text(at)
            if word in ("const", "let", "var"):
                self.declare_values(at)
            elif word == "import" and self.text(at + 1) == "{":
                self.declare_imports(at + 1)
            elif word in ("function", "class") and self.text(at - 1) != "." and self.tokens[at + 1].kind == "name":
                self.inner(at).names.add(self.text(at + 1))
                self.others.add(at + 1)
            if word == "=>":
                self.declare_arrow(at)
            elif word == "(" and self.text(self.pairs[at] + 1) == "{" and self.text(at - 1) not in ("if", "for", "while", "switch"):
                self.declare_function(at)

    def declare_imports(self, begin: int) -> None:
        for at in range(begin + 1, self.pairs[begin]):
            self.others.add(at)
            if self.tokens[at].kind == "name" and self.text(at) != "as" and self.text(at + 1) != "as":
                self.imported.append(self.text(at))
        self.scopes[0].names.update(self.imported)

    def declare_values(self, at: int) -> None:
        """`const a = 1, {b, c: d} = e;`, or the same after `for (`."""
        scope, at = self.inner(at), at + 1
        while True:
            end = self.pairs.get(at, at) + 1
            self.note(scope, at, end)
            at = self.after_value(end, len(self.tokens))
            if self.text(at) != ",":
                return
            at += 1

    def declare_function(self, at: int) -> None:
        """Names of a function, a method or `catch`, for as long as its body is."""
        body = self.pairs[at] + 1
        scope = Scope(at, self.pairs[body])
        self.note(scope, at + 1, self.pairs[at])
        self.scopes.append(scope)
        # The name of a method
        if self.tokens[at - 1].kind == "name" and self.text(at - 2) in {"{", "}", "async", "get", ";", ","}:
            self.others.add(at - 1)

    def declare_arrow(self, at: int) -> None:
        begin = at - 1
        if self.text(begin) == ")":
            begin = next(one for one, end in self.pairs.items() if end == at - 1)
        end = self.pairs[at + 1] if self.text(at + 1) == "{" else self.after_value(at + 1, len(self.tokens))
        scope = Scope(begin, end)
        self.note(scope, begin, at)
        self.scopes.append(scope)

    def is_use(self, at: int) -> bool:
        token, before = self.tokens[at], self.text(at - 1)
        is_key = token.is_before_colon and before in ("{", ",")
        return (token.kind == "name" and token.text not in WORDS and at not in self.others and not is_key
                and before not in (".", "?.") and not self.is_of_grammar(at))

    def is_of_grammar(self, at: int) -> bool:
        """Whether it is one of the words that may be names elsewhere."""
        word, after = self.text(at), self.tokens[at + 1] if at + 1 < len(self.tokens) else None
        if word == "of":
            return self.tokens[at - 1].kind == "name" or self.text(at - 1) in CLOSE
        return after is not None and (word == "from" and after.kind == "text" or word == "get" and after.kind == "name"
                                      or word == "async" and (after.kind == "name" or after.text == "("))

    def unknown(self) -> list[str]:
        """The names that nothing declares where they are used, with their lines."""
        return [f"line {self.tokens[at].line}: {self.text(at)}" for at in range(len(self.tokens)) if self.is_use(at)
                and self.text(at) not in OF_BROWSERS
                and not any(one.begin <= at <= one.end and self.text(at) in one.names for one in self.scopes)]
