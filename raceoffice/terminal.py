"""Questions at a terminal, and what a command says."""
from __future__ import annotations

import collections
import io
import json
import os
import select
import sys
import textwrap
import threading
import unicodedata
from collections.abc import Callable

from raceoffice.characters import code_of
from raceoffice.errors import Explained, Stopped, Unheard, said_of
from raceoffice.remarks import Remark

# Control signs, signs of direction and of no width, and ends of lines that an editor doesn't show.
HIDDEN = {"Cc", "Cf", "Zl", "Zp"}
# Clears the rest of a line.
CLEARED = "\x1b[K"
YES_OR_NO = "   Type y for yes, or n for no."
# Seconds between two looks whether an answer is still waited for.
LOOK = 0.1
# What windows that outlive their terminal have said, and it hasn't taken; how many signs it is given at once.
UNSAID: collections.deque[str] = collections.deque(maxlen=1000)
PIECE = 500
# Held by the thread that gives the terminal a piece.
SAYING = threading.RLock()
ANSWERS = {"y": True, "yes": True, "n": False, "no": False}


class TypedLines:
    """The lines of standard input, of which no more is read than is asked for."""

    def __init__(self) -> None:
        self.rest = b""

    def line(self, patience: float | None = None) -> str | None:
        """The next line; None if none comes within these seconds, and EOFError at the end."""
        while b"\n" not in self.rest:
            if not select.select([0], [], [], patience)[0]:
                return None
            try:
                data = os.read(0, 4096)
            except OSError:
                # The terminal has gone.
                data = b""
            if not data and not self.rest:
                raise EOFError
            self.rest += data or b"\n"
        line, _, self.rest = self.rest.partition(b"\n")
        return line.decode("utf-8", "replace").strip()

    def taken(self) -> bytes:
        """What was read of later lines, which isn't there any more."""
        rest, self.rest = self.rest, b""
        return rest


TYPED = TypedLines()


def command_name() -> str:
    """How this package was started, as somebody can type it again."""
    return "python3 -m raceoffice" if os.path.basename(sys.argv[0]) == "__main__.py" else "raceoffice"


def take_any_sign() -> None:
    """From now on a sign that the terminal's encoding lacks is printed as `?`, and a byte that it lacks is
    read as a sign of its own."""
    for stream in (sys.stdin, sys.stdout):
        if isinstance(stream, io.TextIOWrapper):
            stream.reconfigure(errors="replace")


def as_put_out(text: str) -> str:
    """A text as it is printed, with `?` for each sign that the terminal's encoding lacks."""
    encoding = sys.stdout.encoding or "utf-8"
    return text.encode(encoding, "replace").decode(encoding)


def put_out(text: str) -> None:
    """Prints a text; Unheard if it can't be written."""
    try:
        print(text, flush=True)
    except BrokenPipeError:
        raise
    except OSError as cause:
        raise Unheard(f"what is said can't be written: {cause.strerror}") from None


def say(text: str) -> None:
    put_out(wrapped(visible(text)))


def say_json(value: object) -> None:
    """Prints a value for programs, in signs that every terminal has."""
    put_out(json.dumps(value, indent=1))


def visible(text: str) -> str:
    """A text without signs that would move the cursor, or turn what is shown: they are shown by their
    numbers, whoever wrote them into a file or a line."""
    if text.isascii() and text.replace("\n", "").isprintable():
        return text
    return "".join(letter if letter in "\n\t" or unicodedata.category(letter) not in HIDDEN
                   else code_of(letter) for letter in text)


def say_if_heard(text: str, end: str = "\n") -> None:
    """Says something if there is still a terminal to say it at, for a window that outlives its own."""
    UNSAID.append(wrapped(visible(text)) + end)
    say_what_waits()


def say_what_waits(patience: float = 0.0) -> None:
    """Says what the terminal hasn't taken yet. One whose output is stopped, as by Ctrl-S, holds nobody up for
    longer than these seconds for each piece: this is called again later."""
    with SAYING:
        try:
            while UNSAID and takes_more(patience):
                text = UNSAID.popleft()
                if rest := text[PIECE:]:
                    UNSAID.appendleft(rest)
                print(text[:PIECE], end="", flush=True)
        except OSError:
            say_no_more()


def takes_more(patience: float) -> bool:
    """Whether a piece can be printed within these seconds."""
    try:
        return bool(select.select([], [sys.stdout.fileno()], [], patience)[1])
    except (OSError, ValueError):
        # There is nothing to wait for.
        return True


def say_no_more() -> None:
    """From now on nothing is printed: what is left in the buffer would fail again when this program ends."""
    nowhere = os.open(os.devnull, os.O_WRONLY)
    os.dup2(nowhere, sys.stdout.fileno())
    os.close(nowhere)


def width(untold: int = 0) -> int:
    """The columns of the terminal, `untold` if it doesn't tell them, and 0 if there is none."""
    try:
        return os.get_terminal_size(sys.stdout.fileno()).columns or untold
    except (OSError, ValueError):
        return 0


def wrapped(text: str, columns: int | None = None) -> str:
    """A text whose lines break at spaces, as wide as the terminal."""
    columns = width() if columns is None else columns
    return "\n".join(broken(line, columns) for line in text.split("\n")) if columns else text


def broken(line: str, columns: int) -> str:
    """A line in pieces that fit, the later ones further in. A command at its end stays whole."""
    if len(line) <= columns:
        return line
    indent = " " * (len(line) - len(line.lstrip()) + 2)
    # A command is to be copied whole.
    if f"{command_name()} " in line.strip()[1:]:
        before, command, after = line.rpartition(f"{command_name()} ")
        return f"{broken(before.rstrip(), columns)}\n{indent}{command}{after}"
    end = " " * (len(line) - len(line.rstrip()))
    return textwrap.fill(line, columns, subsequent_indent=indent, break_long_words=False,
                         break_on_hyphens=False) + end


def sentence(text: object) -> str:
    """A text with a full stop, unless it has an end. A remark stays one."""
    one = said_of(text) if isinstance(text, Explained) else text
    words = str(one) if str(one).endswith((".", "?")) else f"{one}."
    return one.in_words(words) if isinstance(one, Remark) else words


def typed(text: str, is_over: Callable[[], bool] | None = None, is_stopped: bool = False) -> str | None:
    """What somebody types to a question; None at the end of the input, after Ctrl-C, and once it `is_over`. Ctrl-C is
    Stopped where that `is_stopped` by it."""
    try:
        *lines, asked = wrapped(text).split("\n")
        for line in lines:
            print(line)
        if sys.stdin.isatty() and is_over is None:
            return input(asked).strip()
        print(asked, end="", flush=True)
        given = line_before(is_over) if is_over else TYPED.line() or ""
    except (EOFError, KeyboardInterrupt) as cause:
        print(flush=True)
        if is_stopped and isinstance(cause, KeyboardInterrupt):
            raise Stopped from None
        return None
    if not sys.stdin.isatty():
        say(given)
    return given


def line_before(is_over: Callable[[], bool]) -> str:
    """The next line that is typed; EOFError if it is over before."""
    while not is_over():
        if (given := TYPED.line(LOOK)) is not None:
            return given
    raise EOFError


def is_yes(given: str, default: bool = False) -> bool | None:
    """Whether an answer is yes; None if it is neither yes nor no. Enter alone is the default."""
    return ANSWERS.get(given.lower()) if given else default


def answer(text: str) -> str:
    """What somebody types to a question; nothing after Ctrl-C."""
    return typed(text) or ""


def question(text: str, yes: bool = False, tell: Callable[[str], None] = lambda given: None,
             is_over: Callable[[], bool] | None = None, is_stopped: bool = False) -> bool:
    """Whether somebody says yes. Enter alone is the capital letter. Ctrl-C and the end of the input are
    no, and so is a question that `is_over`; but Ctrl-C is Stopped where that `is_stopped` by it. Whatever is neither yes
    nor no is told, and asked again."""
    asked = f"{text} [{'Y/n' if yes else 'y/N'}] "
    while (given := typed(asked, is_over, is_stopped)) is not None:
        meant = is_yes(given, yes and sys.stdin.isatty())
        if meant is not None:
            return meant
        tell(given)
        say(YES_OR_NO)
    return False


class Once:
    """Says a thing when it is new, and not again until it has changed."""

    def __init__(self) -> None:
        self.said: dict[str, str] = {}

    def is_new(self, about: str, text: str) -> bool:
        """Whether this has to be said, which it then is."""
        before, self.said[about] = self.said.get(about), text
        return bool(text) and before != text
