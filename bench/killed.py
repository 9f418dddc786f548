#!/usr/bin/env python3
"""Kills an office in browsers at random, and judges whether a tap was lost or done twice.

    bench/killed.py [--kills K] [--minutes M] [--seed S] [--keep FOLDER] REGATTA TIMES

`raceoffice serve` serves a class by order, `cup`, and one by corrected time, `fleet`. Three finish boats, two scorers and a
jury are processes that tap in both, as their pages do (killed_device.py): they keep each tap, send it again until it is
answered, answer what they are asked, take back, abandon races, take boats out of the journal, close and open the office. The
web, the programs, both at once and the devices are killed at random, just when a journal was replaced, and just when it has
grown: then nobody may have noted the answer. Whoever was killed is started again. In the end all send what they have left,
and killed_judge.py compares what they were answered with the journals, the places, the sheets and the log. The status is 0
if nothing was wrong.

FOLDER keeps all files. Without it, they go unless something was wrong.
"""
from __future__ import annotations

import argparse
import contextlib
import datetime
import http.client
import json
import os
import random
import re
import shutil
import signal
import subprocess
import sys
import tempfile
import threading
import time
from dataclasses import dataclass, field
from typing import Any

HERE = os.path.dirname(os.path.abspath(__file__))
TOP = os.path.dirname(HERE)
sys.path[1:1] = [TOP]
from killed_judge import Generation, judge_class  # noqa: E402
from raceoffice.series import settings  # noqa: E402

COMMAND = [sys.executable, "-m", "raceoffice"]
DEVICE = os.path.join(HERE, "killed_device.py")
READY, LINK = "Ctrl-C closes the office.", re.compile(r"^(Finish|Jury|Scorer) +https?://[^/]+/office/in#\w+\.(\S+)$",
                                                      re.MULTILINE)
CLASSES = ("cup", "fleet")
BOATS = {"cup": 18, "fleet": 12}
# The devices, each with its role and the number by which it has races of its own
DEVICES = {"f0": ("finish", 0), "f1": ("finish", 1), "f2": ("finish", 2), "s0": ("scorer", 0), "s1": ("scorer", 1),
           "j0": ("jury", 0)}
# Seconds for the beginning, and for what is left in the end
PATIENCE, LAST = 60.0, 240.0
LOOK = 0.003
# Seconds for which a line is waited for
LINE = 4.0


def east_of_afternoon() -> int:
    """How far east a zone is in which it is one o'clock in the afternoon: no race goes past midnight."""
    return 13 - datetime.datetime.now(datetime.timezone.utc).hour


@dataclass
class Soak:
    """The processes, and what was killed."""
    top: str
    programs: tuple[str, str]
    chance: random.Random
    east: int = field(default_factory=east_of_afternoon)
    kills: dict[str, int] = field(default_factory=dict)
    generations: dict[str, list[Generation]] = field(default_factory=lambda: {name: [] for name in CLASSES})
    links: dict[str, str] = field(default_factory=dict)
    devices: dict[str, subprocess.Popen[bytes]] = field(default_factory=dict)
    # What was asked before an office was opened again
    questions: list[str] = field(default_factory=list)
    is_over: threading.Event = field(default_factory=threading.Event)

    def __post_init__(self) -> None:
        self.port = free_port()
        self.printed = os.path.join(self.top, "serve.txt")
        self.changed = threading.Event()
        for name in CLASSES:
            self.make(name)

    def make(self, name: str) -> None:
        """A series of its own folder."""
        folder = os.path.join(self.top, name)
        os.mkdir(folder)
        zone = f"Etc/GMT{-self.east:+d}" if self.east else "Etc/GMT"
        is_timed = name == "fleet"
        with open(os.path.join(folder, "series.ini"), "w", encoding="utf-8") as file:
            file.write(settings.filled_in({"title": name, "class": name, "program": self.programs[0], "zone": zone,
                                           "handicap": "yes" if is_timed else "no"}))
        sails = [f"GBR{number}" for number in range(1, BOATS[name] + 1)]
        with open(os.path.join(folder, "entries.csv"), "w", encoding="utf-8") as file:
            file.write("Sail,Boat,Helm" + (",TCF" if is_timed else "") + "\n")
            for at, sail in enumerate(sails):
                file.write(f"{sail},Boat {at},Helm {at}" + (f",0.{900 + at}" if is_timed else "") + "\n")
        if is_timed:
            os.mkdir(os.path.join(folder, "times"))
            with open(os.path.join(folder, "times", "rules.ini"), "w", encoding="utf-8") as file:
                file.write(f"[times]\nsystem = tcf\nprogram = {self.programs[1]}\n")

    # The web

    def serve(self) -> None:
        """Starts the web, and waits until it is ready."""
        with open(self.printed, "ab") as out:
            before = self.said().count(READY)
            self.web = subprocess.Popen([*COMMAND, "serve", *CLASSES, "--http", str(self.port)], cwd=self.top,
                                        stdin=subprocess.DEVNULL, stdout=out, stderr=subprocess.STDOUT,
                                        env={**os.environ, "PYTHONPATH": TOP})
        end = time.monotonic() + PATIENCE
        while self.said().count(READY) == before and time.monotonic() < end:
            if self.web.poll() is not None:
                raise SystemExit(f"the web has ended:\n{self.said()[-3000:]}")
            time.sleep(0.05)
        self.links |= {role.lower(): secret for role, secret in LINK.findall(self.said())}

    def said(self) -> str:
        if not os.path.exists(self.printed):
            return ""
        with open(self.printed, encoding="utf-8", errors="replace") as file:
            return file.read()

    def start_device(self, who: str) -> None:
        role, number = DEVICES[who]
        with open(os.path.join(self.top, "devices.txt"), "ab") as out:
            self.devices[who] = subprocess.Popen(
                [sys.executable, DEVICE, self.top, who, role, str(self.port), str(number), self.links[role]],
                stdin=subprocess.DEVNULL, stdout=out, stderr=subprocess.STDOUT, env={**os.environ, "EAST": str(self.east), "PYTHONPATH": TOP})

    # The journals

    def watch(self) -> None:
        """Holds each journal that there is, so that what it had last can be read when another has taken its place."""
        while not self.is_over.wait(LOOK):
            for name in CLASSES:
                self.look(name)

    def look(self, name: str) -> None:
        path, known = os.path.join(self.top, name, "journal.txt"), self.generations[name]
        with contextlib.suppress(OSError):
            if known and os.stat(path).st_ino == known[-1].inode:
                return
            file = os.open(path, os.O_RDONLY)
            known.append(Generation(file, os.fstat(file).st_ino, time.time()))
            self.changed.set()

    # Kills

    def kill_web(self) -> None:
        self.web.kill()
        self.web.wait()

    def program_of(self, name: str) -> int:
        """The process of a class's program; 0 if it doesn't run."""
        with contextlib.suppress(OSError, ValueError, IndexError):
            with open(os.path.join(self.top, name, "office", "pid"), encoding="ascii") as file:
                number = int(file.read().split()[0])
            if os.path.samefile(f"/proc/{number}/cwd", os.path.join(self.top, name, "office")):
                return number
        return 0

    def kill_program(self, name: str) -> bool:
        """Kills the program of a class, if it runs; whether it did."""
        number = self.program_of(name)
        with contextlib.suppress(ProcessLookupError):
            if number:
                os.kill(number, signal.SIGKILL)
        return number > 0

    def kill_at_a_line(self) -> None:
        """Kills the web, or a program, once a journal has grown: nobody may have noted the answer yet."""
        name, is_web = self.chance.choice(CLASSES), self.chance.random() < 0.7
        file, number = self.generations[name][-1].file, self.web.pid if is_web else self.program_of(name)
        size, end = os.fstat(file).st_size, time.monotonic() + LINE
        while os.fstat(file).st_size == size and time.monotonic() < end:
            # A look that sleeps would come too late.
            pass
        if not number:
            return
        with contextlib.suppress(ProcessLookupError):
            os.kill(number, signal.SIGKILL)
        self.count("web at a line" if is_web else "program at a line")
        if is_web:
            self.web.wait()
            self.serve()

    def count(self, what: str) -> None:
        self.kills[what] = self.kills.get(what, 0) + 1

    def kill(self) -> None:
        """Kills somebody, who is started again."""
        chance = self.chance.random()
        if self.chance.random() < 0.4:
            self.kill_at_a_line()
        elif chance < 0.27:
            self.kill_web()
            self.count("web")
            if self.chance.random() < 0.2:
                for _ in filter(None, [self.kill_program(name) for name in CLASSES]):
                    self.count("program with the web")
            time.sleep(self.chance.choice((0.0, 0.0, 0.5, 2.0)))
            self.serve()
        elif chance < 0.64:
            if self.kill_program(self.chance.choice(CLASSES)):
                self.count("program")
        else:
            who = self.chance.choice(list(DEVICES))
            self.devices[who].kill()
            self.devices[who].wait()
            self.count("device")
            time.sleep(self.chance.choice((0.0, 0.3, 1.5)))
            self.start_device(who)

    def wait_for_next(self) -> None:
        """Waits for the next kill: sometimes until a journal has just been replaced."""
        self.changed.clear()
        if self.chance.random() < 0.25 and self.changed.wait(12):
            time.sleep(self.chance.choice((0.0, 0.002, 0.01, 0.03, 0.1, 0.3)))
        else:
            time.sleep(self.chance.uniform(0.3, 4.0))

    # Those who open a closed office

    def open_all(self, scorer: Scorer) -> None:
        """Opens each office that is closed for a while, and notes what is asked."""
        closed: dict[str, float] = {}
        while not self.is_over.wait(1.0):
            for name in CLASSES:
                if scorer.is_open(name) is not False:
                    closed.pop(name, None)
                elif time.monotonic() - closed.setdefault(name, time.monotonic()) > 6:
                    self.questions += [f"{time.strftime('%H:%M:%S')} {name}: {text}" for text in scorer.open(name)]


class Scorer:
    """The scorer who opens what is closed."""

    def __init__(self, port: int, secret: str) -> None:
        self.port, self.host = port, f"127.0.0.1:{port}"
        self.cookie = self.token = ""
        _, said = self.ask("POST", "/office/in", {"role": "scorer", "key": secret, "name": "opener"})
        self.learn()

    def learn(self) -> None:
        self.token = self.ask("GET", "/office/scorer/me")[1].get("token", self.token)

    def ask(self, method: str, path: str, body: object = None) -> tuple[int, dict[str, Any]]:
        link = http.client.HTTPConnection("127.0.0.1", self.port, timeout=30)
        try:
            link.request(method, path, None if body is None else json.dumps(body),
                         {"Host": self.host, "Origin": f"http://{self.host}", "Content-Type": "application/json",
                          "Cookie": self.cookie, "X-Token": self.token})
            answer = link.getresponse()
            self.cookie = (answer.getheader("Set-Cookie") or self.cookie).partition(";")[0]
            return answer.status, json.loads(answer.read())
        except (OSError, http.client.HTTPException, ValueError):
            return 0, {}
        finally:
            link.close()

    def is_open(self, name: str) -> bool | None:
        """Whether an office is open; None if nobody says."""
        status, said = self.ask("GET", f"/office/scorer/state/{name}")
        return not said["trouble"] if status == 200 else None

    def open(self, name: str) -> list[str]:
        """Opens an office; what was asked."""
        agreed: list[object] = []
        asked: list[str] = []
        for _ in range(6):
            status, said = self.ask("POST", f"/office/scorer/open/{name}", {"agreed": agreed})
            if status == 403:
                self.learn()
            elif status == 409:
                asked.append(f"{said['question']['kind']}: {said['question']['text']}")
                agreed.append({"kind": said["question"]["kind"], "values": said["question"]["values"]})
            else:
                break
        return asked

    def send_times(self, name: str, race: int) -> None:
        """Sends what a sheet has and the journal lacks."""
        agreed: list[object] = []
        tap: dict[str, object] = {"id": f"{random.getrandbits(128):032x}", "line": f"TIMES {race}",
                                  "at": int(time.time() * 1000), "seen": 0}
        for _ in range(40):
            status, said = self.ask("POST", f"/office/scorer/line/{name}", tap | {"agreed": agreed})
            if status == 403:
                self.learn()
            elif status == 409:
                agreed.append({"kind": said["question"]["kind"], "values": said["question"]["values"]})
            elif status in (200, 422):
                return
            else:
                time.sleep(0.5)


def free_port() -> int:
    import socket
    with socket.socket() as holder:
        holder.bind(("127.0.0.1", 0))
        port: int = holder.getsockname()[1]
        return port


def run(soak: Soak, asked: argparse.Namespace) -> None:
    """The soak itself, until enough was killed or the time is over."""
    go = os.path.join(soak.top, "go")
    open(go, "wb").close()
    soak.serve()
    threading.Thread(target=soak.watch, daemon=True).start()
    scorer = Scorer(soak.port, soak.links["scorer"])
    threading.Thread(target=soak.open_all, args=(scorer,), daemon=True).start()
    for who in DEVICES:
        soak.start_device(who)
    end = time.monotonic() + 60 * asked.minutes
    while sum(soak.kills.values()) < asked.kills and time.monotonic() < end:
        soak.wait_for_next()
        soak.kill()
        for who, process in list(soak.devices.items()):
            if process.poll() is not None:
                print(f"device {who} has ended with {process.poll()}", flush=True)
                soak.start_device(who)
    os.remove(go)
    end = time.monotonic() + LAST
    for who, process in soak.devices.items():
        try:
            process.wait(max(1.0, end - time.monotonic()))
        except subprocess.TimeoutExpired:
            print(f"device {who} has taps left", flush=True)
            process.kill()
    for race in range(1, 10):
        scorer.send_times("fleet", race)
    soak.is_over.set()
    time.sleep(0.1)
    for name in CLASSES:
        soak.look(name)
    soak.web.send_signal(signal.SIGTERM)
    with contextlib.suppress(subprocess.TimeoutExpired):
        soak.web.wait(60)


def end(soak: Soak) -> None:
    """Ends whatever was started and still runs."""
    for process in [*filter(None, [getattr(soak, 'web', None)]), *soak.devices.values()]:
        if process.poll() is None:
            process.kill()
            process.wait()
    for name in CLASSES:
        soak.kill_program(name)


def keep_journals(soak: Soak) -> None:
    """Keeps each journal beside the series, so that it can be read afterwards."""
    for name in CLASSES:
        for at, one in enumerate(soak.generations[name]):
            with open(os.path.join(soak.top, f"{name}-journal-{at:04d}.txt"), "w", encoding="ascii") as file:
                file.write(f"{one.began}\n" + "".join(f"{entry}\n" for entry in one.entries()))


def judge(soak: Soak) -> bool:
    """Prints the figures, and what is wrong; whether nothing is."""
    print(f"kills: {sum(soak.kills.values())} {json.dumps(soak.kills)}")
    wrong: list[str] = []
    for name in CLASSES:
        verdict = judge_class(name, soak.top, soak.generations[name], soak.east)
        print(f"{name}: {json.dumps(verdict.figures)}")
        wrong += verdict.wrong
    print(f"asked before an office was opened again: {len(soak.questions)}")
    for question in soak.questions:
        print(f"   {question}")
    print(f"mismatches: {len(wrong)}")
    for text in wrong:
        print(f"   {text}")
    return not wrong


def main() -> int:
    parser = argparse.ArgumentParser(description="Kills an office in browsers at random, and judges its taps.")
    parser.add_argument("regatta")
    parser.add_argument("times")
    parser.add_argument("--kills", type=int, default=300)
    parser.add_argument("--minutes", type=float, default=60)
    parser.add_argument("--seed", type=int, default=1)
    parser.add_argument("--keep", default="")
    asked = parser.parse_args()
    top = asked.keep or tempfile.mkdtemp(prefix="killed-")
    os.makedirs(top, exist_ok=True)
    soak = Soak(top, (os.path.realpath(asked.regatta), os.path.realpath(asked.times)), random.Random(asked.seed))
    begun = time.monotonic()
    try:
        run(soak, asked)
        keep_journals(soak)
        is_good = judge(soak)
    finally:
        end(soak)
    print(f"{time.monotonic() - begun:.0f} s, seed {asked.seed}, load {os.getloadavg()[0]:.1f}, files in {top}")
    if is_good and not asked.keep:
        shutil.rmtree(top)
    return 0 if is_good else 1


if __name__ == "__main__":
    sys.exit(main())
