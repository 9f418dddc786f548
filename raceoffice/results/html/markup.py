"""HTML that is built from its parts. A text is escaped wherever it is put; only what is made here counts
as markup."""
from __future__ import annotations

import functools
import html
import re
from collections.abc import Iterable
from dataclasses import dataclass
from typing import Union

# Parts that have no end, and those of a picture, which end themselves.
VOID = {"img", "input", "meta"}
SHAPES = {"circle", "line", "path", "polyline", "rect"}
NAME = re.compile(r"[A-Za-z][A-Za-z0-9]*(?:-[a-z]+)*")
# An address leads to a place in a page, to a page of the same site or a place in it, or to a picture.
ADDRESS = re.compile(r"\?|#[A-Za-z0-9-]+|(?:\.\./)?(?:(?!\.\.?/)[A-Za-z0-9%._~-]+/)?"
                     r"[a-z0-9-]+\.(?:html(?:#[A-Za-z0-9-]+)?|csv|png)")
# What could end a script or a style sheet, or hide its end.
END = re.compile("</|<!--")


@dataclass(frozen=True)
class Markup:
    """A piece of a page whose texts are escaped. It is no `str`: what is put together without this
    module is a text, and is escaped."""
    html: str

    def __bool__(self) -> bool:
        return self.html != ""


Part = Union[Markup, str, int]
NOTHING = Markup("")


def escaped(part: Part) -> str:
    return part.html if isinstance(part, Markup) else html.escape(str(part))


def together(*parts: Part) -> Markup:
    """Parts one after another."""
    return Markup("".join(map(escaped, parts)))


def separated(parts: Iterable[Part], between: str) -> Markup:
    """Parts with a text between each two."""
    return Markup(html.escape(between).join(map(escaped, parts)))


@functools.cache
def name_of(word: str) -> str:
    """The name of a tag or an attribute: `class_` is `class`, and `data_find` is `data-find`."""
    name = word.rstrip("_").replace("_", "-")
    if not NAME.fullmatch(name):
        raise ValueError(f"{word!r} is no name of a tag or an attribute")
    return name


def attribute(word: str, value: object) -> str:
    name = name_of(word)
    if value is None or value is False:
        return ""
    if value is True:
        return f" {name}"
    if name in ("href", "src") and not ADDRESS.fullmatch(str(value)):
        raise ValueError(f"{value!r} is no address of a page")
    return f' {name}="{html.escape(str(value))}"'


def attributes(**values: object) -> str:
    """Attributes as they are written after the name of a tag. None and False leave one out; True writes
    its name alone."""
    return "".join(attribute(word, value) for word, value in values.items())


def tag(name: str, /, *parts: Part, **values: object) -> Markup:
    """A part of a page with what is in it."""
    opened = f"<{name_of(name)}{attributes(**values)}"
    if name in VOID:
        return Markup(f"{opened}>")
    if name in SHAPES:
        return Markup(f"{opened}/>")
    return Markup("".join([opened, ">", *map(escaped, parts), f"</{name}>"]))


def raw(name: str, text: str, **values: object) -> Markup:
    """A script, a style sheet or data, in which a browser reads no escapes."""
    if END.search(text):
        raise ValueError(f"the text of a {name} could end it")
    return Markup(f"<{name_of(name)}{attributes(**values)}>{text}</{name}>")


def document(whole: Markup) -> str:
    """A page from its `html` part."""
    return f"<!DOCTYPE html>\n{whole.html}\n"
