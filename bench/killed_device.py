"""A device of `killed.py`: a process that may be killed at any time, with a file as its memory.

It keeps each tap in its file before it is sent, sends the taps of a class one after another, and the same tap again until
somebody has answered, as the script of the pages does. It answers what it is asked. When it is started again, it
reads its file, and sends what wasn't answered. While the file `go` is there it taps; without it, it sends what is
left and ends.
"""
from __future__ import annotations

import http.client
import json
import os
import random
import secrets
import subprocess
import sys
import threading
import time
from dataclasses import dataclass, field
from typing import Any

Values = dict[str, Any]

# Seconds for an answer, as long as a page waits; and between two tries
PATIENCE, AGAIN = 8.0, (0.2, 0.5, 1.0, 2.0)
TIMED = ("fleet",)
# How many hours east of UTC the series is
EAST = int(os.environ.get("EAST", "0"))
LATE = [f"USA{number}" for number in range(1, 7)]
CODES, PENALTIES = ("DNF", "RET", "OCS", "DNS", "BFD"), ("ZFP", "SCP")
# Milliseconds by which the clock of a device may be wrong, where no sheet has its times
WRONG = (0, 0, 0, 0, -4_000, 30_000, -3_600_000, 3_600_000)
# Of how many taps at the finish one takes a race away
ABANDONED = 0.04
# Of how many taps one is dropped by a person when the office asks.
DROPPED = 0.15


@dataclass
class Tap:
    """A tap, and what came of it. `sent` and `ended` are the moments, since 1970, of its first sending and of its end."""
    id: str
    name: str
    kind: str
    body: Values
    sent: float = 0.0
    ended: float = 0.0
    status: int = 0
    said: Values = field(default_factory=dict)
    # Whether a person dropped it after it was sent
    is_dropped: bool = False

    @property
    def outcome(self) -> str:
        return str(self.said.get("outcome", ""))

    @property
    def line(self) -> str:
        return str(self.body.get("line", ""))


class Memory:
    """What a device keeps in its file: the taps in their order, and by what it is let in."""

    def __init__(self, path: str) -> None:
        self.path, self.lock = path, threading.Lock()
        self.taps: dict[str, Tap] = {}
        self.cookie = self.token = ""
        if os.path.exists(path):
            with open(path, encoding="utf-8") as file:
                for line in file:
                    if line.endswith("\n"):
                        self.follow(json.loads(line))
                    else:
                        # What a kill has torn was never followed by anything that was sent.
                        with open(path, "r+b") as torn:
                            torn.truncate(os.path.getsize(path) - len(line.encode()))
        self.file = open(path, "a", encoding="utf-8")

    def note(self, **values: Any) -> None:
        """Keeps something: the file has it before anything is sent."""
        with self.lock:
            self.file.write(json.dumps(values) + "\n")
            self.file.flush()
            self.follow(values)

    def follow(self, values: Values) -> None:
        match values["what"]:
            case "in":
                self.cookie, self.token = values["cookie"], values["token"]
            case "tap":
                self.taps[values["id"]] = Tap(values["id"], values["name"], values["kind"], values["body"])
            case "sent":
                tap = self.taps[values["id"]]
                tap.sent = tap.sent or values["at"]
            case "agreed":
                self.taps[values["id"]].body.update(values["body"])
            case "ended":
                tap = self.taps[values["id"]]
                tap.ended, tap.status, tap.said = values["at"], values["status"], values["said"]
            case "dropped":
                tap = self.taps[values["id"]]
                tap.ended, tap.is_dropped = values["at"], True

    def waiting(self, name: str) -> list[Tap]:
        with self.lock:
            return [tap for tap in self.taps.values() if tap.name == name and not tap.ended]


class Hand:
    """What one device does in one class."""

    def __init__(self, memory: Memory, name: str, role: str, port: int, number: int, folder: str) -> None:
        self.memory, self.name, self.role, self.port, self.number = memory, name, role, port, number
        self.go = os.path.join(folder, "go")
        self.chance = random.Random(secrets.randbits(64))
        self.state: Values = {}
        self.link: http.client.HTTPConnection | None = None
        # Those that were answered while this process ran, which it may undo
        self.own: list[Tap] = []
        self.ahead = 0 if name in TIMED else self.chance.choice(WRONG)

    # Asking

    def ask(self, method: str, path: str, body: object = None) -> tuple[int, Values]:
        """The status and the values of an answer; 0 if nobody answers."""
        host = f"127.0.0.1:{self.port}"
        fields = {"Host": host, "Origin": f"http://{host}", "Content-Type": "application/json",
                  "Cookie": self.memory.cookie, "X-Token": self.memory.token}
        try:
            if self.link is None:
                self.link = http.client.HTTPConnection("127.0.0.1", self.port, timeout=PATIENCE)
            self.link.request(method, f"/office/{self.role}/{path}", None if body is None else json.dumps(body), fields)
            answer = self.link.getresponse()
            values = json.loads(answer.read())
        except (OSError, http.client.HTTPException, ValueError):
            if self.link is not None:
                self.link.close()
            self.link = None
            return 0, {}
        return answer.status, values

    def look(self) -> None:
        """Looks at the class; what was seen last stays if nobody answers."""
        status, values = self.ask("GET", f"state/{self.name}")
        if status == 200:
            self.state = values

    # Sending

    def work(self) -> None:
        tries = 0
        while True:
            waiting = self.memory.waiting(self.name)
            if not waiting:
                if not os.path.exists(self.go):
                    return
                self.think()
                continue
            if self.send(waiting[0]):
                tries = 0
            else:
                time.sleep(AGAIN[min(tries, len(AGAIN) - 1)])
                tries += 1

    def send(self, tap: Tap) -> bool:
        """Sends a tap; whether it has its end."""
        self.memory.note(what="sent", id=tap.id, at=time.time())
        status, said = self.ask("POST", f"{tap.kind}/{tap.name}", {**tap.body, "id": tap.id})
        if status == 403:
            self.come_again()
            return False
        if status == 409:
            return self.answer(tap, said)
        if status in (200, 400, 401, 404, 413, 422):
            self.memory.note(what="ended", id=tap.id, at=time.time(), status=status, said=said)
            self.own.append(tap)
            return True
        return False

    def come_again(self) -> None:
        status, me = self.ask("GET", "me")
        if status == 200:
            self.memory.note(what="in", cookie=self.memory.cookie, token=me["token"])

    def answer(self, tap: Tap, said: Values) -> bool:
        """Answers what the office asks about a tap, or drops it; whether that ends it."""
        if self.chance.random() < DROPPED:
            self.memory.note(what="dropped", id=tap.id, at=time.time())
            return True
        question = {"kind": said["question"]["kind"], "values": said["question"]["values"]}
        body: Values = {"agreed": [*tap.body.get("agreed", []), question]}
        if said.get("outcome") == "elsewhere":
            if said.get("clock") and self.chance.random() < 0.5:
                body["by_clock"] = True
            else:
                body = {"behind": None}
        self.memory.note(what="agreed", id=tap.id, body=body)
        return False

    def add(self, line: str, kind: str = "line", **more: Any) -> None:
        """Keeps a new tap."""
        body = {"line": line, "at": int(time.time() * 1000) + self.ahead, "seen": self.state.get("entries", 0),
                "series": self.state.get("series", ""), **more}
        if kind == "line" and not line:
            del body["line"]
        self.memory.note(what="tap", id=secrets.token_hex(16), name=self.name, kind=kind, body=body)

    # Tapping

    def think(self) -> None:
        """Waits a moment and adds some taps, as a person does."""
        time.sleep(self.chance.choice((0.05, 0.2, 0.4, 0.8)))
        self.look()
        if not self.state.get("boats"):
            return
        for _ in range(self.chance.choice((1, 1, 1, 2, 3))):
            self.tap()

    def sails(self) -> list[str]:
        return [boat[0] for boat in self.state["boats"]]

    def race_of(self, number: int) -> Values:
        empty: Values = {"order": [], "codes": {}, "unread": [], "counts": False, "penalties": {}, "sheet": None}
        return {**empty, **self.state.get("races", {}).get(str(number), {})}

    def own_race(self) -> int:
        """A race of this device, or that which all sail."""
        if self.chance.random() < 0.25 and self.name not in TIMED:
            return 20
        return 3 * self.number + self.chance.choice((1, 2, 3))

    def undo_last(self) -> bool:
        """Takes back the last tap of this device, if something came of it."""
        done = [tap for tap in self.own if tap.kind == "line" and tap.outcome in ("taken", "noted")
                and not tap.line.startswith(("UNDO", "ENTER", "SCORE", "UNSCORE", "TIMES", "START", "ABANDON"))
                and not self.is_of_abandoned(tap)]
        if not done:
            return False
        self.own.remove(done[-1])
        self.add("UNDO", undoes=done[-1].id)
        return True

    def is_of_abandoned(self, tap: Tap) -> bool:
        """Whether a tap for a sheet is of a race that this device has abandoned since: it isn't taken back."""
        taps = list(self.memory.taps.values())
        return self.name in TIMED and any(one.name == self.name and one.line == f"ABANDON {tap.line.split()[1]}"
                                          for one in taps[taps.index(tap):])

    def tap(self) -> None:
        if self.role == "finish" and self.chance.random() < ABANDONED:
            self.add(f"ABANDON {self.own_race()}")
        elif self.role == "scorer":
            self.tap_as_scorer()
        elif self.role == "jury":
            self.tap_as_jury()
        elif self.name in TIMED:
            self.tap_by_time()
        else:
            self.tap_at_finish()

    def tap_at_finish(self) -> None:
        """What a finish page of a class by order sends."""
        number, pick = self.own_race(), self.chance.choice
        race = self.race_of(number)
        placed = [sail for group in race["order"] for sail in group]
        out = [sail for sail in [*self.sails(), pick(LATE)] if sail not in placed] or LATE
        marks, sail, chance = [one["mark"] for one in race["unread"]], pick(out), self.chance.random()
        last = race["order"][-1][-1] if race["order"] else ""
        if chance < 0.42 or not placed:
            self.add(f"FINISH {number} {sail}", behind=pick((last, last, None)))
        elif chance < 0.47:
            self.add(f"TIE {number} {sail} {pick(placed)}")
        elif chance < 0.55:
            self.add(f"BEFORE {number} {sail} {pick(placed)}")
        elif chance < 0.70:
            self.add(f"STRIKE {number} {pick(placed)}")
        elif chance < 0.75:
            self.add(f"MARK {number} {sail} {pick(CODES)}")
        elif chance < 0.80:
            self.add(f"PENALTY {number} {pick(self.sails())} {pick(PENALTIES)}")
        elif chance < 0.83:
            self.add(f"CLEAR {number} {pick(self.sails())}")
        elif chance < 0.88:
            self.add(f"? {number}", behind=pick((last, None)))
        elif chance < 0.93 and marks:
            self.add(f"{pick(marks)} {number} {pick((sail, sail, 'NONE'))}")
        else:
            self.undo_last()

    def tap_by_time(self) -> None:
        """What a finish page of a class by corrected time sends."""
        number, pick = self.own_race(), self.chance.choice
        race, boats = self.race_of(number), [*self.sails(), pick(LATE)]
        rows: Values = (race["sheet"] or {}).get("rows", {})
        timed = [sail for sail, row in rows.items() if row["finish"]]
        out, chance = [sail for sail in boats if sail not in rows] or LATE, self.chance.random()
        start = (race["sheet"] or {}).get("start", "")
        if not start and chance < 0.3:
            clock = time.strftime("%H:%M:%S", time.gmtime(time.time() - 3000 + 3600 * EAST))
            self.add(f"START {number} {clock}", was="")
        elif chance < 0.55 or not timed:
            self.add(f"FINISH {number} {pick(out)}")
        elif chance < 0.72:
            self.add(f"STRIKE {number} {pick(timed)}")
        elif chance < 0.80:
            self.add(f"MARK {number} {pick(boats)} {pick(CODES)}")
        elif chance < 0.86:
            self.add(f"CLEAR {number} {pick([*rows, *boats])}")
        elif chance < 0.91:
            self.add(f"PENALTY {number} {pick(boats)} {pick(PENALTIES)}")
        else:
            self.undo_last()

    def tap_as_jury(self) -> None:
        number, pick = self.chance.randint(1, 9), self.chance.choice
        sail, chance = pick(self.sails()), self.chance.random()
        if self.name in TIMED:
            # What the jury clears changes sheets, each of which is one device's here.
            self.add(f"PENALTY {number} {sail} SCP")
        elif chance < 0.4:
            self.add(f"MARK {number} {sail} DSQ")
        elif chance < 0.6:
            self.add(f"PENALTY {number} {sail} SCP")
        elif chance < 0.8:
            self.add(f"CLEAR {number} {sail}")
        else:
            self.add(f"REDRESS {number} {sail} {pick(('2.0', '3.5', 'ALL'))}")

    def tap_as_scorer(self) -> None:
        pick, chance, sails = self.chance.choice, self.chance.random(), self.sails()
        late = [sail for sail in LATE if sail in sails]
        absent = [sail for sail in LATE if sail not in sails]
        if chance < 0.30 and absent:
            self.add(f"ENTER {pick(absent)}")
        elif chance < 0.45 and late:
            self.remove(pick(late))
        elif chance < 0.55:
            self.close_and_open()
        elif chance < 0.65 and self.name not in TIMED:
            self.correct()
        elif chance < 0.70 and self.name not in TIMED:
            self.add(f"ABANDON {pick((*range(1, 10), 20))}")
        elif chance < 0.75:
            number = self.chance.randint(1, 9)
            self.add(f"{'UNSCORE' if self.race_of(number)['counts'] else 'SCORE'} {number}")
        elif chance < 0.85 and self.name in TIMED:
            self.add(f"TIMES {self.chance.randint(1, 9)}")
        else:
            self.open()

    # What the scorer does beside lines

    def correct(self) -> None:
        """Moves a boat ahead of another by one request."""
        number = self.chance.randint(1, 9)
        placed = [sail for group in self.race_of(number)["order"] for sail in group]
        if len(placed) > 1:
            sail, other = self.chance.sample(placed, 2)
            self.add("", kind="correct", lines=[f"STRIKE {number} {sail}", f"BEFORE {number} {sail} {other}"])

    def asked(self, path: str, **body: Any) -> tuple[int, Values]:
        """Sends something that the office asks about, and says yes each time."""
        agreed: list[Values] = []
        for _ in range(6):
            status, said = self.ask("POST", f"{path}/{self.name}", {**body, "agreed": agreed})
            if status != 409:
                break
            agreed.append({"kind": said["question"]["kind"], "values": said["question"]["values"]})
        self.memory.note(what="did", path=path, at=time.time(), body=body, status=status, said=said, agreed=agreed)
        return status, said

    def remove(self, sail: str) -> None:
        """Takes a boat out on the page, or at a terminal while the office is closed."""
        if self.chance.random() < 0.7:
            self.asked("remove", sail=sail)
            return
        self.asked("close")
        done = subprocess.run([sys.executable, "-m", "raceoffice", "remove", self.name, sail], cwd=os.path.dirname(self.go),
                              input="y\n", encoding="utf-8", stdout=subprocess.PIPE, stderr=subprocess.STDOUT)
        self.memory.note(what="did", path="remove at a terminal", at=time.time(), body={"sail": sail}, status=done.returncode,
                         said=done.stdout)
        self.open()

    def close_and_open(self) -> None:
        self.asked("close")
        time.sleep(self.chance.choice((0.0, 0.3, 1.0)))
        self.open()

    def open(self) -> None:
        self.asked("open")


def main() -> None:
    folder, who, role, port, number, link = sys.argv[1:]
    memory = Memory(os.path.join(folder, f"device-{who}.jsonl"))
    hands = [Hand(memory, name, role, int(port), int(number), folder) for name in ("cup", "fleet")]
    while not memory.cookie:
        come(memory, hands[0], role, who, link)
    threads = [threading.Thread(target=hand.work) for hand in hands]
    for thread in threads:
        thread.start()
    for thread in threads:
        thread.join()


def come(memory: Memory, hand: Hand, role: str, who: str, link: str) -> None:
    """Comes in by the link of a role."""
    host = f"127.0.0.1:{hand.port}"
    try:
        way = http.client.HTTPConnection("127.0.0.1", hand.port, timeout=PATIENCE)
        way.request("POST", "/office/in", json.dumps({"role": role, "key": link, "name": who}),
                    {"Host": host, "Origin": f"http://{host}", "Content-Type": "application/json"})
        answer = way.getresponse()
        answer.read()
        cookie = (answer.getheader("Set-Cookie") or "").partition(";")[0]
    except (OSError, http.client.HTTPException):
        time.sleep(0.3)
        return
    memory.cookie = cookie
    status, me = hand.ask("GET", "me")
    memory.cookie = ""
    if status == 200:
        memory.note(what="in", cookie=cookie, token=me["token"])


if __name__ == "__main__":
    main()
