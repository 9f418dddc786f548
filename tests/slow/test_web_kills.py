"""Nothing that a page saves is lost, doubled or half written: the web, or the office's program, is killed before each
step of each address that writes, and the page's next try does the whole."""
from __future__ import annotations

import contextlib
import json
import os
import shutil
import signal
import socket
import sys
import traceback
import unittest
from collections.abc import Sequence
from dataclasses import dataclass
from typing import Any
from unittest import mock

import helpers
from raceoffice.errors import NotSent, Trouble
from raceoffice.program.journal import Series
from raceoffice.series import settings
from raceoffice.series.folder import Folder
from raceoffice.corrected.unsent import in_sheet
from raceoffice.web import new_series, times_sheet
from raceoffice.web.declarations import Declarations
from raceoffice.web.gate import Device, Gate
from raceoffice.web.kept_office import KeptOffice
from raceoffice.web.requests import Reply, Request, Wrong
from raceoffice.web.room import Room
from raceoffice.web.routes import Routes
from raceoffice.web.series_settings import tag_of
from raceoffice.web.tap_session import Asked
from raceoffice.web.web_office import Class, WebOffice
from test_kills import Served, Steps

# Every call by which the web changes anything, or learns of it.
CALLS = [(os, "write"), (os, "fsync"), (os, "replace"), (os, "rename"), (os, "ftruncate"), (socket.socket, "sendall"),
         (socket.socket, "recv")]
# What a series has, and a page may change. Each of the first is replaced whole.
WHOLE = ("series.ini", "entries.csv", "decisions.txt", "times/rules.ini", "times/race-1.csv")
FILES = (*WHOLE, "journal.txt", "office.log", "office/web.taps")
SAILS = ["GBR101", "GBR7", "NED12", "FRA9", "GBR33", "IRL5", "IRL55"]
BY = "Bea"
# How many looks in a row have to find a program that has nothing to do.
STILL = 50
Held = dict[str, bytes]


@dataclass(frozen=True)
class Sent:
    """A request of a page: the role, its address, its values, and the device. Without values it is a GET."""
    role: str
    rest: tuple[str, ...]
    values: dict[str, Any] | None = None
    by: str = BY


class Trial(Served):
    """One series, of which each trial begins with the same files: these `names`, the log and the register last."""
    names: tuple[str, ...] = FILES

    def setUp(self) -> None:
        super().setUp()
        self.stick = os.path.join(self.here, "stick")
        os.mkdir(self.stick)
        # The fewest files that the program ever had: those that it has without a link
        self.least = 0

    # The program

    def typed(self, *lines: str) -> None:
        """Has the office take lines, each with its role."""
        with contextlib.closing(self.folder.link()) as link:
            for line in lines:
                role, text = line.split(maxsplit=1)
                link.ask(f"ROLE {role}")
                self.assertTrue(link.ask(text).startswith("OK"), line)

    def settle(self) -> None:
        """Waits until the program has done with all that was sent to it: its links have ended."""
        files = f"/proc/{self.serving().pid}/fd"
        if not self.least:
            # At first nobody knows how many it has without a link.
            seen: list[int] = []

            def is_still() -> bool:
                seen.append(len(os.listdir(files)))
                return len(seen) >= STILL and len(set(seen[-STILL:])) == 1
            helpers.until("an idle program", is_still)
            self.least = seen[-1]
        helpers.until("the end of its links", lambda: len(os.listdir(files)) <= self.least)
        self.least = min(self.least, len(os.listdir(files)))

    def files(self) -> Held:
        """The files of the series."""
        found = {}
        for name in self.names:
            with contextlib.suppress(FileNotFoundError), open(self.folder.file(name), "rb") as file:
                found[name] = file.read()
        return found

    def restore(self, before: Held) -> None:
        """Makes the series what it was, and starts its program if that is another then."""
        now = self.files()
        if now.get("journal.txt") != before["journal.txt"]:
            self.close()
        for name in self.names:
            path = self.folder.file(name)
            if now.get(name) == before.get(name):
                continue
            if name in before:
                with open(path, "wb") as file:
                    file.write(before[name])
            else:
                os.remove(path)
        self.serving()

    # The web, in a process of its own

    def asked(self, some: Sequence[Sent], stop: int = 0, victim: str = "") -> tuple[list[Any], list[str]]:
        """The answers to requests, each with its status, until the web is killed; and the steps of the last one."""
        out, into = os.pipe()
        program = self.serving().pid
        child = os.fork()
        if not child:
            os.close(out)
            self.answer(some, stop, victim, program, into)
        os.close(into)
        with open(out, encoding="utf-8") as pipe:
            said = pipe.read()
        _, status = os.waitpid(child, 0)
        if os.WIFEXITED(status):
            self.assertEqual(os.WEXITSTATUS(status), 0)
        answers, steps = json.loads(said or "[[], []]")
        return answers, steps

    def answer(self, some: Sequence[Sent], stop: int, victim: str, program: int, into: int) -> None:
        """Answers all requests. The steps of the last one are counted."""
        write, status = os.write, 1

        def kill() -> None:
            if victim in ("program", "both"):
                os.kill(program, signal.SIGKILL)
            if victim != "program":
                os.kill(os.getpid(), signal.SIGKILL)
        steps = Steps(stop, kill, victim == "torn")
        try:
            with contextlib.ExitStack() as stack:
                for where, name in CALLS:
                    stack.enter_context(mock.patch.object(where, name, steps.wrapped(name, getattr(where, name))))
                stack.enter_context(mock.patch("raceoffice.web.sticks.sticks_in", lambda: {self.stick: 1}))
                routes, answers = self.routes(), []
                for at, one in enumerate(some, 1):
                    steps.is_on = at == len(some)
                    answers.append(answer_to(routes, one))
                steps.is_on = False
            write(into, json.dumps([answers, steps.taken]).encode())
            status = 0
        except BaseException:
            traceback.print_exc(file=sys.__stderr__)
        finally:
            os._exit(status)

    def routes(self) -> Routes:
        """The web of this series, without threads."""
        office = WebOffice(Gate(""), self.here, "", lambda text: None)
        room = Room(self.folder, lambda: None)
        with contextlib.suppress(Trouble):
            room.look()
        kept = KeptOffice(self.folder, lambda text: None)
        office.classes["cup"] = Class(room, kept, Declarations(room, kept))
        return Routes(office)

    # The trials

    def each_step(self, *some: Sent, victims: Sequence[str] = ("web", "program"), wanted: Sequence[str] = ()) -> list[str]:
        """Kills before each step of the last request, and has it sent again; the steps. `wanted` are the files that it
        changes."""
        self.settle()
        before = self.files()
        answers, steps = self.asked(some)
        self.assertEqual({status for status, _ in answers}, {200}, answers)
        after, outcomes = self.files(), outcomes_of(answers)
        changed = [name for name in self.names[:-2] if before.get(name) != after.get(name)]
        changed += ["office.log"] if deeds(before) != deeds(after) else []
        self.assertEqual(changed, list(wanted))
        for victim in victims:
            # Before the first change one step is as good as another.
            reading = next((at for at, step in enumerate(steps) if step not in ("sendall", "recv")), 0)
            for stop, step in list(enumerate(steps, 1))[reading:]:
                if victim == "web" or step in ("sendall", "recv"):
                    with self.subTest(victim=victim, stop=stop, step=step):
                        self.trial(some, stop, victim, before, after, outcomes)
                if victim == "web" and step == "write":
                    with self.subTest(victim="torn", stop=stop):
                        self.trial(some, stop, "torn", before, after, outcomes)
        self.restore(before)
        return steps

    def each_undone(self, tap: Sent, victims: Sequence[str] = ("web", "program"), is_at_once: bool = True) -> None:
        """Kills before each step of a tap that is undone then: sent again before that, and if `is_at_once` also not."""
        undone = Sent(tap.role, tap.rest, tap_of(9, "UNDO", undoes=(tap.values or {})["id"]))
        self.settle()
        before = self.files()
        _, steps = self.asked([tap])
        answers, _ = self.asked([undone])
        self.assertEqual([status for status, _ in answers], [200], answers)
        after = self.files()
        self.assertEqual(self.race_shown(after), self.race_shown(before))
        for victim in victims:
            for stop, step in enumerate(steps, 1):
                for some in [[tap, undone], [undone, tap]][:1 + is_at_once]:
                    if victim == "web" or step in ("sendall", "recv"):
                        with self.subTest(victim=victim, stop=stop, step=step, undone_first=some[0] is undone):
                            self.trial_undone(tap, some, stop, victim, before)
        self.restore(before)

    def trial_undone(self, tap: Sent, some: Sequence[Sent], stop: int, victim: str, before: Held) -> None:
        """Kills before this step of a tap, and sends what is left: nothing is left of the tap."""
        self.restore(before)
        program = self.serving()
        self.asked([tap], stop, victim)
        if victim == "program":
            program.wait()
        else:
            self.settle()
        answers, _ = self.asked(some)
        self.assertEqual([status for status, _ in answers], [200] * len(some), answers)
        self.assertEqual(self.race_shown(self.files()), self.race_shown(before))

    def race_shown(self, held: Held) -> object:
        """What a page shows of race 1 by these files."""
        race = Series.read(held["journal.txt"].decode().split("\n")[1:-1]).race(1)
        return race.order, race.times, race.codes, race.penalties, [held.get(name) for name in WHOLE]

    def trial(self, some: Sequence[Sent], stop: int, victim: str, before: Held, after: Held,
              wanted: Sequence[str] = ()) -> None:
        """Kills before this step, and looks at what is left, and at what the next try makes of it. `wanted` are the
        outcomes of the taps."""
        self.restore(before)
        program = self.serving()
        answers, _ = self.asked(some, stop, victim)
        if victim == "program":
            program.wait()
        else:
            self.assertEqual(answers, [])
            self.settle()
        left = self.files()
        for name in WHOLE:
            self.assertIn(left.get(name), (before.get(name), after.get(name)), name)
        lines = lines_of(left)
        self.assertEqual(lines_of(after)[:len(lines)], lines)
        answers, _ = self.asked(some)
        self.assertEqual([status for status, _ in answers], [200] * len(some), answers)
        self.assertEqual(outcomes_of(answers), wanted)
        self.same(self.files(), after)

    def same(self, found: Held, after: Held) -> None:
        """What a series has in the end is what it has without a kill; so is what the log says that devices did."""
        for name in WHOLE:
            self.assertEqual(found.get(name), after.get(name), name)
        self.assertEqual(lines_of(found), lines_of(after))
        self.assertEqual(deeds(found), deeds(after))


def answer_to(routes: Routes, sent: Sent) -> tuple[int, Any]:
    """The status and the values of the answer to a request, as the web gives them."""
    body = json.dumps(sent.values).encode()
    request = Request("POST", "/", {"content-type": "application/json"}, "127.0.0.1", body)
    try:
        if sent.values is None:
            reply: Reply = getattr(routes, sent.rest[0])(*sent.rest[1:-1], [routes.one(sent.rest[-1])])
        else:
            now = routes.gate.clock.now()
            device = routes.gate.devices[""] = Device("", sent.role, sent.by, now, now)
            reply = routes.write(request, sent.role, device, list(sent.rest))
    except NotSent as why:
        return 422, str(why)
    except Asked as asked:
        return 409, asked.question.text
    except Wrong as wrong:
        return wrong.status, str(wrong)
    except Trouble as trouble:
        return 503, str(trouble)
    is_text = reply.kind == "application/json"
    return reply.status, json.loads(reply.data) if is_text else reply.data.decode("utf-8", "replace")


def outcomes_of(answers: Sequence[Any]) -> list[str]:
    """What came of each of some taps, in a word."""
    return [values.get("outcome", "") if isinstance(values, dict) else "" for _, values in answers]


def lines_of(held: Held) -> list[str]:
    """The roles and commands of a journal, without a line that is torn."""
    return [line.split(maxsplit=2)[2] for line in held["journal.txt"].decode().split("\n")[1:-1]]


def deeds(held: Held) -> list[str]:
    """What the log says that devices did beside lines."""
    rows = [line.split("\t") for line in held.get("office.log", b"").decode().splitlines()]
    return ["\t".join(row[5:]) for row in rows if row[2:5] == [BY, "", ""] and "(torn)" not in row[-1]]


def tap_of(number: int, line: str = "", **more: Any) -> dict[str, Any]:
    return {"id": f"{number:08x}" * 4, "line": line, "at": 1, "seen": 0, "agreed": [], **more}


def question(kind: str, **values: Any) -> dict[str, Any]:
    return {"kind": kind, "values": values}


class Order(Trial):
    """A class by the order of finishing."""

    def tag(self, name: str) -> str:
        """The tag of a file as it is now."""
        with contextlib.suppress(FileNotFoundError), open(self.folder.file(name), encoding="utf-8") as file:
            return tag_of(file.read())
        return tag_of("")

    def test_settings(self) -> None:
        """Names, and a class that comes to be one by corrected time with the rules of that."""
        self.serving()
        given = {"settings": {"title": "Winter Cup", "club": "SC", "handicap": "yes"}, "system": "py",
                 "tag": self.tag("series.ini")}
        self.each_step(Sent("SCORER", ("save", "cup"), given), victims=("web",),
                       wanted=("series.ini", "times/rules.ini", "office.log"))

    def test_second(self) -> None:
        """A stick becomes the second folder."""
        self.serving()
        self.each_step(Sent("SCORER", ("second", "cup"), {"path": self.stick}), victims=("web",),
                       wanted=("series.ini", "office.log"))

    def test_late(self) -> None:
        """A boat comes late, with her name."""
        self.serving()
        entered = Sent("SCORER", ("line", "cup"), tap_of(1, "ENTER USA4", agreed=[question("enter-unlisted", sail="USA4")]))
        self.each_step(entered, wanted=("journal.txt",))
        self.each_step(entered, Sent("SCORER", ("listed", "cup"), {"sail": "USA 4", "name": "Petrel", "helm": "K. Dow"}),
                       wanted=("entries.csv", "journal.txt", "office.log"))

    def test_declared(self) -> None:
        """Results are final, and amended."""
        self.sailed()
        for number, state in enumerate(("final", "amended", "provisional"), 1):
            given = tap_of(number, state=state, reason="GBR 7 is given redress" if state == "amended" else "")
            (_, said), = self.asked([Sent("SCORER", ("declare", "cup"), given)])[0]
            given["agreed"] = [question(said["question"]["kind"], **said["question"]["values"])]
            sent = Sent("SCORER", ("declare", "cup"), given)
            self.each_step(sent, victims=("web",), wanted=("series.ini", "office.log"))
            self.asked([sent])

    def sailed(self) -> None:
        """A race that counts."""
        self.serving()
        self.typed(*(f"FINISH FINISH 1 {sail}" for sail in SAILS), "SCORER SCORE 1")

    def test_amended(self) -> None:
        """A decision is kept, and amended with its note: two lines."""
        self.sailed()
        self.decide(1, (), line="race 1 GBR7 DPI 2", note="hearing 4")
        amended = self.decide(2, ("web", "program"), line="race 1 GBR7 DPI 3", note="hearing 5")
        self.assertEqual(amended, ["JURY CLEAR 1 GBR7", "JURY REDRESS 1 GBR7 5.0"])

    def test_taken_out(self) -> None:
        """Another note alone, and a decision that is taken out."""
        self.sailed()
        self.decide(1, (), line="race 1 GBR7 DPI 2", note="hearing 4")
        self.decide(3, ("web",), line="race 1 GBR7 DPI 2", note="hearing 6")
        self.decide(4, ("web", "program"), line="race 1 GBR7 DPI 2  # hearing 6", out=True)

    def decide(self, number: int, victims: Sequence[str], **given: Any) -> list[str]:
        """Kills at each step of a decision, and sends it; its lines."""
        values = tap_of(number, agreed=[question("correction", race=1)], **given) | given
        (status, shown), = self.asked([Sent("JURY", ("ruling", "cup"), given)])[0]
        self.assertEqual(status, 200, shown)
        sent = Sent("JURY", ("decide", "cup"), values | {"lines": shown["lines"], "tag": shown["tag"]})
        lines = ["journal.txt"] if shown["lines"] else []
        self.each_step(sent, victims=victims, wanted=["decisions.txt", *lines])
        self.asked([sent])
        found: list[str] = shown["lines"]
        return found

    def test_exports(self) -> None:
        """A file of the results changes nothing, and is the same again."""
        self.sailed()
        for form in ("html", "csv"):
            self.each_step(Sent("SCORER", ("export", form, "cup")), victims=("web",))


class Prepared(Trial):
    """A class by corrected time."""

    def setUp(self) -> None:
        super().setUp()
        self.write("Sail,Boat,TCF\nGBR 101,Kestrel,1.000\nGBR 7,Sea Pink,0.900\nNED 12,Windhover,1.250\n", "cup", "entries.csv")
        self.write(settings.filled_in({"title": "Autumn Cup", "program": helpers.PROGRAM, "zone": "UTC",
                                       "handicap": "yes"}), "cup", "series.ini")
        os.mkdir(self.folder.file("times"))
        self.write(f"[times]\nsystem = tcf\nprogram = {helpers.TIMES}\n", "cup", "times", "rules.ini")
        self.write("Sail,Start,Finish,Code\nGBR101,14:00:00,15:00:00,\nGBR7,14:00:00,15:05:00,\n", "cup", "times", "race-1.csv")
        self.folder = Folder(self.folder.path)
        self.words = ("--handicap",)


@helpers.needs_times
class Time(Prepared):
    """What pages change of a class by corrected time."""

    def test_sheet(self) -> None:
        """Starts are put in, and the times are sent that follow from them: 3,600 s x 1.000, and from 14:10 3,300 s
        x 0.900 instead of 3,900 s x 0.900."""
        self.serving()
        self.typed("FINISH TIME 1 GBR101 3600", "FINISH TIME 1 GBR7 3510")
        data = self.files()["times/race-1.csv"]
        rows = {"GBR7": {"start": "14:10"}, "NED12": {"start": "14:10"}}
        sheet = Sent("SCORER", ("sheet", "cup"), {"race": 1, "rows": rows, "tag": times_sheet.tag_of(data), "overnight": True})
        self.each_step(sheet, victims=("web",), wanted=("times/rules.ini", "times/race-1.csv"))
        self.each_step(sheet, Sent("SCORER", ("line", "cup"), tap_of(1, "TIMES 1")),
                       wanted=("times/rules.ini", "times/race-1.csv", "journal.txt"))
        self.asked([sheet, Sent("SCORER", ("line", "cup"), tap_of(1, "TIMES 1"))])
        self.assertEqual(lines_of(self.files())[-2:], ["SCORER STRIKE 1 GBR7", "SCORER TIME 1 GBR7 2970"])

    def test_taps(self) -> None:
        """A code for a boat that has a time takes two lines; strike, clear and undo take what isn't there once it was
        taken. Each is done whole, once, and answered so."""
        self.serving()
        self.typed("FINISH TIME 1 GBR101 3600", "FINISH TIME 1 GBR7 3510")
        sheet, marked = "times/race-1.csv", Sent("FINISH", ("line", "cup"), tap_of(1, "MARK 1 GBR7 RET"))
        self.each_step(marked, wanted=(sheet, "journal.txt"))
        self.each_step(Sent("FINISH", ("line", "cup"), tap_of(2, "STRIKE 1 GBR101")), wanted=(sheet, "journal.txt"))
        self.asked([marked])
        self.assertEqual(lines_of(self.files())[-2:], ["FINISH MARK 1 GBR7 RET", "FINISH STRIKE 1 GBR7"])
        self.each_step(Sent("FINISH", ("line", "cup"), tap_of(3, "CLEAR 1 GBR7")), wanted=(sheet, "journal.txt"))
        undone = Sent("FINISH", ("line", "cup"), tap_of(4, "UNDO", undoes=tap_of(1)["id"]))
        self.each_step(undone, wanted=(sheet, "journal.txt"))

    def test_strike_undone(self) -> None:
        """A strike that is killed at each step notes the finish that it takes away, and its undo puts back just that."""
        self.serving()
        self.typed("FINISH TIME 1 GBR101 3600", "FINISH TIME 1 GBR7 3510")
        sheet, struck = "times/race-1.csv", Sent("FINISH", ("line", "cup"), tap_of(1, "STRIKE 1 GBR7"))
        undone = Sent("FINISH", ("line", "cup"), tap_of(2, "UNDO", undoes=tap_of(1)["id"]))
        self.settle()
        before = self.files()
        _, steps = self.asked([struck])
        for stop, step in enumerate(steps, 1):
            with self.subTest(stop=stop, step=step):
                self.restore(before)
                self.asked([struck], stop, "web")
                self.settle()
                self.assertEqual(outcomes_of(self.asked([struck, undone])[0]), ["taken", "taken"])
                self.assertEqual(self.files()[sheet], before[sheet])
        self.restore(before)
        self.asked([struck])
        self.each_step(undone, wanted=(sheet, "journal.txt"))
        self.asked([undone])
        self.assertIn(b"GBR7,14:00:00,15:05:00,", self.files()[sheet])
        self.assertEqual(lines_of(self.files())[-2:], ["FINISH STRIKE 1 GBR7", "FINISH TIME 1 GBR7 3510"])

    def test_undone(self) -> None:
        """A tap that was killed at each step comes again, and is undone: the sheet and the journal are what they were."""
        self.serving()
        self.typed("FINISH TIME 1 GBR101 3600", "FINISH TIME 1 GBR7 3510")
        for number, line in enumerate(("MARK 1 GBR7 RET", "STRIKE 1 GBR101", "FINISH 1 GBR7 15:10:00 15:05:00"), 1):
            self.each_undone(Sent("FINISH", ("line", "cup"), tap_of(number, line)), victims=("web",), is_at_once=False)

    def test_others_line(self) -> None:
        """A boat whose finish was before her start is struck, for whom no line has to be sent. So the other one's time is
        known, 3,900 s x 0.900, and that line is no answer to the tap, also after a kill."""
        self.write("Sail,Start,Finish,Code\nGBR101,14:00:00,13:59:00,\nGBR7,14:00:00,15:05:00,\n", "cup", "times", "race-1.csv")
        self.serving()
        struck = Sent("FINISH", ("line", "cup"), tap_of(1, "STRIKE 1 GBR101"))
        self.each_step(struck, wanted=("times/race-1.csv", "journal.txt"))
        self.assertEqual(outcomes_of(self.asked([struck])[0]), ["noted"])
        self.assertEqual(lines_of(self.files())[-1], "FINISH TIME 1 GBR7 3510")

    def test_by_hand(self) -> None:
        """A finish is typed in place of another: 3,900 s x 0.900 before, and 4,200 s x 0.900 then; a code for a boat that
        has no time, and another rounding."""
        self.serving()
        self.typed("FINISH TIME 1 GBR101 3600", "FINISH TIME 1 GBR7 3510")
        finish = Sent("SCORER", ("line", "cup"), tap_of(1, "FINISH 1 GBR7 15:10:00 15:05:00"))
        self.each_step(finish, wanted=("times/race-1.csv", "journal.txt"))
        code = Sent("SCORER", ("line", "cup"), tap_of(2, "MARK 1 NED12 DNF"))
        self.each_step(code, wanted=("times/race-1.csv", "journal.txt"))
        self.asked([finish, code])
        self.assertEqual(lines_of(self.files())[-3:], ["SCORER STRIKE 1 GBR7", "SCORER TIME 1 GBR7 3780", "SCORER MARK 1 NED12 DNF"])

    def test_rounding(self) -> None:
        """Another rounding is saved beside a setting: both come to be there."""
        self.serving()
        text = self.files()["series.ini"].decode()
        values = {"settings": {"club": "Sailing Club"}, "rounding": "up", "rounding_was": "half-up", "tag": tag_of(text)}
        self.each_step(Sent("SCORER", ("save", "cup"), values), victims=("web",),
                       wanted=("series.ini", "times/rules.ini", "office.log"))


@helpers.needs_times
class Cleared(Prepared):
    """The jury clears a boat: its CLEAR is sent, and then her time as the scorer's line."""

    def test_cleared(self) -> None:
        """She had retired after her finish, in a race that counts: 3,900 s x 0.900."""
        self.serving()
        self.typed("FINISH TIME 1 GBR101 3600", "FINISH TIME 1 GBR7 3510", "SCORER SCORE 1")
        counts = [question("correction", race=1)]
        self.asked([Sent("FINISH", ("line", "cup"), tap_of(1, "MARK 1 GBR7 RET", agreed=counts))])
        self.settle()
        self.seen.clear()
        self.each_step(Sent("JURY", ("line", "cup"), tap_of(2, "CLEAR 1 GBR7", agreed=counts)),
                       wanted=("times/race-1.csv", "journal.txt"))
        self.assertEqual(self.seen, {"code", "time", "waits"})

    def setUp(self) -> None:
        self.seen: set[str] = set()
        super().setUp()

    def files(self) -> Held:
        """Looks at what she has, also after each kill: her code, her time, or a row that pages name as one that waits."""
        found = super().files()
        race = Series.read(found.get("journal.txt", b"").decode().split("\n")[1:-1]).race(1)
        ways = {"code": "GBR7" in race.codes, "time": "GBR7" in race.times, "waits": "GBR7" in in_sheet(self.folder, 1)}
        has = next((name for name, is_so in ways.items() if is_so), "")
        self.assertNotEqual(has, "")
        self.seen.add(has)
        return found


class Fresh(helpers.Series):
    """A new series."""

    def test_new(self) -> None:
        """A folder comes to be whole, or not at all; the same again gives it."""
        values = {"name": "next", "text": "Sail,Boat\nGBR 1,A\nGBR 2,B\n", "system": "py",
                  "settings": {"title": "Next", "zone": "UTC", "handicap": "yes"}}
        path = os.path.join(self.here, "next")
        steps = self.made(values, 0)
        wanted = files_of(path)
        self.assertEqual(sorted(wanted), ["entries.csv", "series.ini", "times/rules.ini"])
        for stop in range(1, len(steps) + 1):
            shutil.rmtree(path)
            with self.subTest(stop=stop, step=steps[stop - 1]):
                self.made(values, stop)
                self.assertIn(files_of(path), ({}, wanted))
                self.made(values, 0)
                self.assertEqual(files_of(path), wanted)
        self.assertEqual(steps.count("rename"), 1)

    def made(self, values: dict[str, Any], stop: int) -> list[str]:
        """Makes a series in a process that is killed before a step; the steps."""
        out, into = os.pipe()
        child = os.fork()
        if not child:
            steps, write, status = Steps(stop, lambda: os.kill(os.getpid(), signal.SIGKILL)), os.write, 1
            try:
                with contextlib.ExitStack() as stack:
                    for where, name in CALLS:
                        stack.enter_context(mock.patch.object(where, name, steps.wrapped(name, getattr(where, name))))
                    steps.is_on = True
                    new_series.folder_made(self.here, values)
                    steps.is_on = False
                write(into, json.dumps(steps.taken).encode())
                status = 0
            finally:
                os._exit(status)
        os.close(into)
        with open(out, encoding="utf-8") as pipe:
            said = pipe.read()
        self.assertEqual(os.waitpid(child, 0)[1], 9 if stop else 0)
        found: list[str] = json.loads(said or "[]")
        return found


def files_of(folder: str) -> Held:
    """All files of a folder."""
    found = {}
    for path, _, names in os.walk(folder):
        for name in names:
            with open(os.path.join(path, name), "rb") as file:
                found[os.path.relpath(os.path.join(path, name), folder)] = file.read()
    return found


if __name__ == "__main__":
    unittest.main()
