"""The office of one class as the web has it: opened and kept by this process, or joined if a window has it."""
from __future__ import annotations

import collections
import contextlib
import dataclasses
import threading
import time
from collections.abc import Callable

from raceoffice import system
from raceoffice.errors import Fault, NotSent, Stopped, Trouble
from raceoffice.office.before_opening import Ask, is_meant, is_right, keep_rules, mend, question_of_rules
from raceoffice.office.keeping import Keeping
from raceoffice.program.messages import ROLES, move_text
from raceoffice.remarks import Remark, in_a_row, remark
from raceoffice.series import settings
from raceoffice.series.folder import Folder, Lock, clock
from raceoffice.series.health import disk_fault, faults, journal_fault, notes, summary
from raceoffice.series.remove_boat import also_changed, moves_without, removal_of, take_out
from raceoffice.series.run_program import settings_in_force
from raceoffice.series.windows import TYPING, Presence
from raceoffice.session.dialogue import Question
from raceoffice.session.question_words import question
from raceoffice.terminal import sentence
from raceoffice.traces import guarded
from raceoffice.web.series_zone import keep_zone
from raceoffice.web.states import Values, remarks_of
from raceoffice.web.tap_session import Asked

# Seconds between two looks at an office, and how often one that has gone is opened again by itself within how
# many seconds.
LOOK, TIMES, LONG = 0.2, 3, 600.0
# Seconds until an office that couldn't be opened again is tried once more: at first, and at most.
SOON, LATE = 1.0, 60.0
# The seats that the web needs of an office: one to keep it, one to look, and one for each role.
SEATS = 2 + len(ROLES)
# How many of an office's words are kept for the scorer's page.
SAID = 60
# What the window of an office is shown of the devices that may write.
DEVICES = "devices in browsers"


class KeptOffice:
    """The office of one class. `tell` hears what its window would say."""

    def __init__(self, folder: Folder, tell: Callable[[str], None]) -> None:
        self.folder, self.tell = folder, tell
        # With the moment of each, in milliseconds
        self.said: collections.deque[tuple[str, int]] = collections.deque(maxlen=SAID)
        self.lock = threading.Lock()
        self.keeping: Keeping | None = None
        # What shows to an office's window that devices may write.
        self.presence: Presence | None = None
        self.opened: list[float] = []
        self.is_asked_to_close, self.is_hurried, self.is_ended = False, False, threading.Event()
        # Whether an office that is asked to close is opened again at once.
        self.comes_back = False
        self.is_ended.set()
        # Whether nobody wants this process to open it by itself any more, and whether it opens it in no case.
        self.is_left, self.is_over = threading.Event(), False

    def say(self, *said: str) -> None:
        at = int(time.time() * 1000)
        for text in said:
            lines: list[str] = [text] if isinstance(text, Remark) else text.splitlines()
            self.said.extend((line, at) for line in lines)
        self.tell("\n".join(said))

    def words(self) -> list[Values]:
        """What it said, as a page gets it: with the moment of each."""
        said = list(self.said)
        return [{**words, "at": at} for words, (_, at) in zip(remarks_of(text for text, _ in said), said)]

    def is_there(self) -> bool:
        """Whether the office lets clients in."""
        with contextlib.suppress(Trouble):
            return True in system.sockets_at(self.folder.socket)
        return False

    def has_window(self) -> bool:
        """Whether this process keeps the office, or a window does. If that has gone, nobody copies the journal."""
        return self.keeping is not None or self.folder.has_window()

    def show_devices(self, are_any: bool) -> None:
        """Shows to the window that keeps the office that devices may write, or that none may: it asks before it closes the
        office. Nothing is shown of an office that this process keeps."""
        if are_any and self.keeping is None and self.folder.has_window():
            if self.presence is None:
                self.presence = Presence(self.folder, TYPING, DEVICES, "web")
        elif self.presence:
            self.presence.close()
            self.presence = None

    def takes_lines(self) -> bool:
        """Whether this process keeps an office that isn't being closed for good."""
        return self.keeping is not None and (self.comes_back or not self.is_asked_to_close)

    def copy_to(self, path: str) -> None:
        """Makes a folder the second one at once, for an office that this process keeps or that is closed. Another window's has
        its own."""
        keeping = self.keeping
        if keeping:
            keeping.folder.settings = dataclasses.replace(keeping.folder.settings, copy=path)
        if keeping or not self.is_there():
            self.folder.settings = dataclasses.replace(self.folder.settings, copy=path)

    def second_trouble(self) -> str:
        """Why an office that this process keeps has no second copy; empty if it has one."""
        keeping = self.keeping
        return keeping.backups.trouble if keeping else ""

    def warned(self) -> str:
        """What is wrong with the journal of an office that this process keeps; empty if nothing is."""
        keeping = self.keeping
        return keeping.warned if keeping else ""

    # Opening

    def open(self, ask: Ask, as_it_was: bool = False, is_again: bool = False, need: Callable[[], None] = lambda: None) -> bool:
        """Opens the office, joins one that a window has, or takes over one whose window has gone; whether one
        is open then. One that is opened `as_it_was` goes by the rules in force, and nobody is asked about others. One that
        is opened again by itself stays closed if somebody has closed it meanwhile. `need` raises what keeps it from being
        opened once others are done with it."""
        if self.is_shut() and not self.is_asked_to_close:
            return self.open_again_with_settings(ask, need)
        with self.lock:
            if self.is_asked_to_close:
                # Its last copy may still be being made.
                self.is_ended.wait()
            need()
            if self.keeping:
                return True
            if self.is_over or is_again and self.is_left.is_set():
                return False
            try:
                with guarded(self.folder.path, Asked, Stopped):
                    return self.is_opened(ask, as_it_was)
            except Trouble as trouble:
                self.say(sentence(trouble))
                return False

    def is_shut(self) -> bool:
        """Whether the office that this process keeps has lent its last session: it serves on, and lets nobody in."""
        keeping = self.keeping
        return keeping is not None and not keeping.service.is_over() and not keeping.service.lets_in()

    def is_opened(self, ask: Ask, as_it_was: bool) -> bool:
        # The settings may have been changed since. Taps go by the rules in force meanwhile.
        fresh = Folder(self.folder.path)
        if as_it_was:
            keep_rules(fresh, self.say)
        try:
            return self.is_kept(fresh, ask)
        finally:
            self.take_settings(fresh)

    def take_settings(self, fresh: Folder) -> None:
        """Takes over the settings after an opening that began with those of a fresh folder. Rules that nobody has agreed to
        wait, and another window's office has its own; names and the second folder may have been given meanwhile."""
        with contextlib.suppress(Trouble):
            fresh = Folder(fresh.path)
        self.folder.settings = settings_in_force(fresh)
        if self.keeping:
            self.copy_to(fresh.settings.copy)

    def is_kept(self, folder: Folder, ask: Ask) -> bool:
        """Whether the office is open with the settings as this folder has them."""
        folder.make_private()
        folder.settings = dataclasses.replace(folder.settings, seats=max(SEATS, folder.settings.seats))
        keep_zone(folder, self.say)
        if fault := disk_fault(folder):
            self.say(fault)
            return False
        keeping = Keeping(folder, self.say, lambda: self.is_hurried)
        try:
            is_open = self.is_begun(keeping, ask)
        except BaseException:
            keeping.service.undo_start()
            leave(keeping)
            raise
        if is_open:
            self.keep(keeping)
        else:
            leave(keeping)
        return is_open or self.is_there()

    def is_begun(self, keeping: Keeping, ask: Ask) -> bool:
        """Whether this process keeps the office now."""
        folder = keeping.folder
        try:
            is_there = keeping.service.lock.is_taken() and keeping.is_taken_over(is_yes)
        except Trouble as trouble:
            self.say(in_a_row(sentence(trouble), remark("office-joined")))
            return False
        if not is_there:
            mend(folder, ask)
            if not (is_right(folder, self.say) and is_meant(folder, self.say, ask)):
                self.say(remark("office-nothing"))
                return False
            keeping.start()
        keeping.begin()
        for text in notes(folder):
            self.say(text)
        keeping.note_opened()
        self.say(summary(folder), settings.rules_remark(folder.settings), remark("office-open", time=clock()))
        return True

    def keep(self, keeping: Keeping) -> None:
        """Keeps an office from now on, in a thread of its own."""
        self.keeping = keeping
        self.opened.append(time.monotonic())
        self.is_asked_to_close = False
        self.is_left.clear()
        self.is_ended.clear()
        threading.Thread(target=self.stay, args=(keeping,), daemon=True).start()

    # While it is open

    def stay(self, keeping: Keeping) -> None:
        """Keeps an office until it is closed or has gone by itself."""
        is_gone = False
        while not self.is_asked_to_close and not is_gone:
            time.sleep(LOOK)
            is_gone = keeping.looks.has_come() and not self.goes_on(keeping)
        try:
            with guarded(self.folder.path):
                if is_gone:
                    keeping.crashed()
                else:
                    keeping.close(self.comes_back)
        except Trouble as trouble:
            self.say(sentence(trouble))
        finally:
            # Whoever closes the office waits for that.
            leave(keeping)
            self.keeping = None
            self.is_ended.set()
        if is_gone:
            self.open_again()

    def goes_on(self, keeping: Keeping) -> bool:
        """Looks at the office; whether its program is still there. A fault in saying what is wrong leaves a trace,
        and ends nothing."""
        with contextlib.suppress(Fault), guarded(self.folder.path):
            return keeping.goes_on()
        return True

    def open_again(self) -> None:
        """Opens an office that has gone by itself, a few times."""
        recent = [at for at in self.opened if at > time.monotonic() - LONG]
        if self.is_asked_to_close:
            return
        if len(recent) > TIMES:
            self.say(remark("office-gone-often", times=len(recent), minutes=f"{LONG / 60:.0f}"))
            return
        self.keep_trying()

    def keep_trying(self, agreed: Question | None = None) -> None:
        """Opens the office as it was, or with the rules that somebody has `agreed` to. If it can't be opened that is tried
        again, after a pause that grows, until somebody closes it. What has to be asked waits for the scorer. If the rules
        would come to something else by now, it goes on with those in force."""
        asked: list[Question] = []

        def note(question: Question) -> bool:
            if question.kind == "new-rules":
                return question == agreed
            asked.append(question)
            return False
        pause = SOON
        while not self.is_left.is_set() and not self.open(note, as_it_was=agreed is None, is_again=True):
            if asked:
                self.say(remark("office-waits"))
                return
            self.say(remark("office-again", time=clock(), seconds=f"{pause:.0f}"))
            if self.is_left.wait(pause):
                return
            pause = min(2 * pause, LATE)

    # Closing

    def close(self, comes_back: bool = False, need: Callable[[], None] = lambda: None) -> bool:
        """Closes the office, which lets everybody leave first; whether it was this process that kept it. One
        that a window keeps stays open. One that `comes_back` is opened again by whoever closes it. `need` raises what keeps
        it from being closed once others are done with it."""
        with self.lock:
            need()
            if not comes_back:
                self.is_left.set()
            # One that is being opened just now is closed, too.
            if not self.keeping:
                return False
        self.comes_back = comes_back
        self.is_asked_to_close = True
        self.is_ended.wait()
        return True

    def end(self) -> bool:
        """Closes the office for the last time; whether it was this process that kept it."""
        self.is_over = True
        return self.close()

    def come_back(self, ask: Ask, as_it_was: bool, agreed: Question | None = None) -> bool:
        """Opens the office again that was closed for a moment, unless somebody has closed it meanwhile; whether it is
        open. If it can't be opened, that is tried again. If something has to be asked, it is opened as it was before that."""
        try:
            is_open = self.open(ask, as_it_was, is_again=True)
        except Asked:
            self.come_back(no, as_it_was=True)
            raise
        if not is_open:
            threading.Thread(target=self.keep_trying, args=(agreed,), daemon=True).start()
        return is_open

    def take_out(self, sail: str, by: str, ask: Ask, need: Callable[[], None] = lambda: None) -> str:
        """Takes a boat out of the journal, for which the office is closed and opened again: the dated copy that has her
        still. What goes and whom that moves is asked while the office is open. `by` is who does, and `need` as of `close`."""
        fresh = self.folder_alone()
        # Once it is closed, an office that can't be kept couldn't be opened again.
        if fault := journal_fault(fresh) or disk_fault(fresh):
            raise NotSent(fault)
        wanted = question_of_removal(fresh, sail)
        if not ask(wanted):
            raise NotSent(remark("boat-stays", sail=sail))
        was_open = self.close(comes_back=True, need=need)
        try:
            copy, fault = self.taken_out(fresh, sail, by, wanted)
        finally:
            if was_open:
                self.come_back(no, as_it_was=True)
        self.say(remark("office-out", sail=sail, copy=copy), *([remark("office-no-copy", why=fault)] if fault else []))
        return copy

    def taken_out(self, folder: Folder, sail: str, by: str, wanted: Question) -> tuple[str, str]:
        """Takes a boat out while nobody can open the office, on a page or in a window: a line that is answered meanwhile
        would be lost. The copy that has her, and why there is no second copy, if there is none."""
        lock = Lock(folder)
        try:
            with self.lock:
                if lock.is_taken():
                    raise NotSent(self.who_keeps())
                # Somebody may have typed until it was closed.
                if (now := question_of_removal(folder, sail)) != wanted:
                    raise Asked(now, [])
                return take_out(folder, removal_of(folder, sail), by)
        finally:
            lock.leave()

    def folder_alone(self) -> Folder:
        """The folder as it is now, if its office is closed or this process keeps it; else NotSent."""
        if not self.keeping and self.is_there():
            raise NotSent(self.who_keeps())
        return Folder(self.folder.path)

    def who_keeps(self) -> Remark:
        """What is said of an office that this process doesn't keep."""
        return remark("other-window" if self.has_window() else "window-gone")

    def open_again_with_settings(self, ask: Ask, need: Callable[[], None] = lambda: None) -> bool:
        """Closes the office and opens it with the settings as they are now; whether it is open then. What they
        would change is asked while it is still open. NotSent if it can't be, and nothing is closed then. `need` as of
        `close`."""
        fresh = self.folder_alone()
        if wrong := faults(fresh) or [fault for fault in [disk_fault(fresh)] if fault]:
            raise NotSent(*wrong)
        asked = question_of_rules(fresh)
        agreed = asked if asked and ask(asked) else None
        with self.lock:
            need()
            # Somebody wants it open, whoever has closed it before.
            self.is_left.clear()
        self.close(comes_back=True, need=need)
        return self.come_back(ask, asked != agreed, agreed)


def question_of_removal(folder: Folder, sail: str) -> Question:
    """What is asked before a boat is taken out: the entries that go, whom that moves, and what else it changes; NotSent if
    she can't be."""
    try:
        found = removal_of(folder, sail)
        moves, also = moves_without(folder, found), also_changed(folder, found)
    except Trouble as trouble:
        raise NotSent(*trouble.said) from None
    lines = [" ".join(line.split()[2:]) for line in found.about.values()]
    return question("remove-boat", str, sail=sail, lines=lines, moves=map(move_text, moves), also=also)


def no(_: Question) -> bool:
    """What has to be asked isn't agreed to: nobody is there to say so."""
    return False


def is_yes(_: Question) -> bool:
    """A program whose window has gone is always taken over."""
    return True


def leave(keeping: Keeping) -> None:
    """Leaves what a window holds of an office: the lock, the second folder, and that it is open."""
    keeping.backups.second.close()
    keeping.service.lock.leave()
    if keeping.service.presence:
        keeping.service.presence.close()
