"""What happens to an office while somebody types a line: the prompt is interrupted at once."""
from __future__ import annotations

import contextlib
import os
import select
import threading
import time

from raceoffice import system
from raceoffice.errors import Trouble
from raceoffice.program.link import PATIENCE, Link
from raceoffice.session.session import Session
from raceoffice.terminal import say, sentence
from raceoffice.traces import guarded

try:
    # Arrow keys, and the lines typed before.
    import readline

    # Answers to questions aren't lines.
    readline.set_auto_history(False)
    if os.environ.get("TERM", "dumb") != "dumb":
        # Pasted lines come together, and wait for Enter.
        readline.parse_and_bind("set enable-bracketed-paste on")
except ImportError:
    readline = None  # type: ignore[assignment]

# Seconds between two looks, and between two tries at an office whose seats are all taken, or that doesn't answer; and those
# that one has for an answer.
LOOK, AGAIN, SOON = 0.5, 5.0, 3.0


class News(Exception):
    """Something came while a line was being typed: an office has gone, come back, or is closing."""


class Watcher(threading.Thread):
    """Looks at the offices while the window waits at its prompt, and interrupts it at news."""

    def __init__(self, sessions: list[Session]) -> None:
        super().__init__(daemon=True)
        self.sessions, self.half, self.not_before = sessions, "", 0.0
        # The line of this prompt, once its Enter was taken.
        self.typed: list[str] = []
        # The links to offices that have come back, until the window takes them.
        self.reached: dict[Session, Link] = {}
        # What of the offices' windows was said here.
        self.told: dict[Session, str] = {}
        self.faults: set[str] = set()
        self.at_prompt, self.begun, self.prompts, self.interrupted = False, False, 0, 0
        # The window's own thread, which makes this one.
        self.window = threading.get_ident()
        system.on_interruption(self.interrupt)

    def ask(self, prompt: str) -> str:
        """A line from the prompt, at which it may be interrupted. What was typed by then is kept,
        and is there again at the next prompt."""
        self.prompts += 1
        self.typed.clear()
        self.begun, self.at_prompt = False, True
        if readline:
            readline.set_startup_hook(self.begin)
        try:
            # The line is noted before Python does anything else: no signal comes between.
            self.typed.extend(map(input, [prompt]))
        except SystemError as fault:
            # Python makes one of Ctrl-C, or of news, that comes with another signal.
            raise fault.__cause__ or fault from None
        finally:
            self.at_prompt = False
            if readline:
                readline.set_startup_hook(None)
        typed, self.half = self.typed[0], "" if self.begun else self.half
        if readline and typed:
            readline.add_history(typed)
        return typed

    def begin(self) -> None:
        """Begins the line at the prompt with what is left of the one before."""
        # Readline takes no notice of what is raised here, as by Ctrl-C.
        self.at_prompt = False
        half, self.half = self.half, ""
        try:
            readline.insert_text(half)
        finally:
            self.begun = self.at_prompt = True

    def interrupt(self) -> None:
        # The prompt that is meant may have been answered, and another come, before the signal. News that comes with the
        # Enter is told at the next prompt.
        if self.at_prompt and self.prompts == self.interrupted and not self.typed:
            self.at_prompt = False
            self.half = readline.get_line_buffer() if self.begun else self.half
            raise News

    def run(self) -> None:
        while True:
            try:
                with guarded(self.sessions[0].folder.path if self.sessions else ""):
                    self.look()
            except Trouble as trouble:
                self.tell_once(sentence(trouble))
                time.sleep(LOOK)

    def tell_once(self, text: str) -> None:
        """Says what is wrong with the looks themselves; the same fault only once."""
        if text not in self.faults:
            self.faults.add(text)
            say(text)

    def look(self) -> None:
        """Waits for a moment, and interrupts the prompt if there is news."""
        if self.is_heard(LOOK) and not self.at_prompt:
            # Nobody is at the prompt to be told of it.
            time.sleep(LOOK / 10)
        prompt = self.prompts
        is_news = self.at_prompt and (self.is_heard(0) or self.is_closing() or self.is_back()
                                      or self.is_warned())
        # What comes from an office is news only if nobody has sent a line meanwhile.
        if is_news and self.at_prompt and self.prompts == prompt:
            self.interrupted = prompt
            system.interrupt(self.window)
            time.sleep(LOOK)

    def is_heard(self, patience: float) -> bool:
        """Whether anything comes from an office within the patience."""
        links = [session.link for session in self.sessions if session.link]
        try:
            return bool(select.select(links, [], [], patience)[0])
        except (OSError, ValueError):
            # The window has closed one of them meanwhile.
            return False

    def is_closing(self) -> bool:
        return any(session.link and session.folder.is_closing() for session in self.sessions)

    def is_warned(self) -> bool:
        """Whether an office's window says that something is wrong, which wasn't said here yet."""
        return any(text and text != self.told.get(session) for session, text in self.warnings().items())

    def warnings(self) -> dict[Session, str]:
        """What the windows of the offices say is wrong."""
        found = {session: session.folder.beware() for session in self.sessions if session.link}
        for session, text in found.items():
            if not text:
                # It may come again.
                self.told.pop(session, None)
        return found

    def is_back(self) -> bool:
        """Whether an office that has gone is there again, and answers."""
        return time.monotonic() > self.not_before and any(
            session.link is None and self.is_reached(session) for session in self.sessions)

    def is_reached(self, session: Session) -> bool:
        """Whether an office answers. One that hangs is waited for here, and not by the window, which goes on with others."""
        if session.folder.is_closing():
            self.let_go(session)
        elif session not in self.reached and is_open(session):
            self.reach(session)
        return session in self.reached

    def reach(self, session: Session) -> None:
        """Links to an office that has gone, if it answers."""
        try:
            link = session.folder.link(SOON)
        except Trouble:
            self.wait()
            return
        try:
            link.ask(f"ROLE {session.role}")
        except Trouble:
            link.close()
            self.wait()
            return
        link.wait_for(PATIENCE)
        self.reached[session] = link

    def let_go(self, session: Session) -> None:
        """Leaves an office that is being closed."""
        if link := self.reached.pop(session, None):
            link.close()

    def wait(self) -> None:
        """Leaves offices without a free seat alone for a while: each try counts as a client there."""
        self.not_before = time.monotonic() + AGAIN


def is_open(session: Session) -> bool:
    """Whether an office lets clients in, has a free seat, and isn't closing. To ask the system costs the
    office nothing."""
    with contextlib.suppress(Trouble):
        found = system.sockets_at(session.folder.socket)
        return not session.folder.is_closing() and True in found and not session.folder.is_full(found)
    return False
