"""Devices that send taps over lines which drop: a connection is cut before a request or after it, or an answer
is lost."""
from __future__ import annotations

import contextlib
import http.client
import random
import socket
import threading
import time
from collections.abc import Callable, Sequence
from typing import Any

from web_devices import Device, new_id

# Seconds until a device tries again, and for an answer.
PAUSE = 0.05


class Line:
    """A network between a device and the office. It passes all on; `drop` cuts what is there, and may lose the
    next answer instead: the office has done what the device never hears of."""

    def __init__(self, port: int) -> None:
        self.port, self.is_deaf, self.drops = port, False, 0
        self.pairs: set[tuple[socket.socket, socket.socket]] = set()
        self.door = socket.create_server(("127.0.0.1", 0))
        self.own = int(self.door.getsockname()[1])
        threading.Thread(target=self.accept, daemon=True).start()

    def accept(self) -> None:
        with contextlib.suppress(OSError):
            while True:
                near, _ = self.door.accept()
                far = socket.create_connection(("127.0.0.1", self.port))
                self.pairs.add((near, far))
                for one, other, is_answer in ((near, far, False), (far, near, True)):
                    threading.Thread(target=self.pass_on, args=(one, other, is_answer), daemon=True).start()

    def pass_on(self, one: socket.socket, other: socket.socket, is_answer: bool) -> None:
        with contextlib.suppress(OSError):
            while data := one.recv(65536):
                if is_answer and self.is_deaf:
                    self.is_deaf = False
                    break
                other.sendall(data)
        for end in (one, other):
            with contextlib.suppress(OSError):
                end.shutdown(socket.SHUT_RDWR)

    def drop(self, is_answer_lost: bool) -> None:
        self.drops += 1
        if is_answer_lost:
            self.is_deaf = True
            return
        for pair in list(self.pairs):
            self.pairs.discard(pair)
            for end in pair:
                with contextlib.suppress(OSError):
                    end.shutdown(socket.SHUT_RDWR)

    def close(self) -> None:
        self.door.close()
        self.drop(False)


class Sender(threading.Thread):
    """A device that sends lines one after another, each until it has its answer."""

    def __init__(self, device: Device, lines: Sequence[str]) -> None:
        super().__init__(daemon=True)
        self.device, self.lines, self.done = device, list(lines), 0
        self.wrong: list[Any] = []
        self.again = 0

    def run(self) -> None:
        for line in self.lines:
            id = new_id()
            while not self.wrong:
                status, said = self.tried(line, id)
                if status == 200:
                    if said["outcome"] != "taken":
                        self.wrong.append((line, said))
                    break
                self.again += 1
                time.sleep(PAUSE)
            self.done += 1

    def tried(self, line: str, id: str) -> tuple[int, Any]:
        """The answer to a tap; status 0 if none came."""
        try:
            return self.device.tap(line, id)
        except (OSError, http.client.HTTPException, ValueError):
            self.device.link.close()
            return 0, {}


def played(port: int, owners: Sequence[Device], plans: Sequence[Sequence[str]], drops: int, seed: int,
           until: Callable[[str, Callable[[], object]], None]) -> tuple[list[Sender], int]:
    """Has each device send its lines while lines drop at random; the devices at the end, and how often
    their lines dropped."""
    chance = random.Random(seed)
    lines = [Line(port) for _ in owners]
    senders = [Sender(over(owner, line), plan) for owner, line, plan in zip(owners, lines, plans)]
    for sender in senders:
        sender.start()
    whole = sum(map(len, plans))
    for goal in sorted(chance.randrange(whole - len(plans)) for _ in range(drops)):
        until(f"{goal} taps", lambda: sum(sender.done for sender in senders) >= goal
              or any(sender.wrong for sender in senders))
        chance.choice(lines).drop(chance.random() < 0.5)
    until("all taps", lambda: not any(sender.is_alive() for sender in senders))
    for line in lines:
        line.close()
    return senders, sum(line.drops for line in lines) - len(lines)


def over(owner: Device, line: Line) -> Device:
    """The same device over a line. It is still at the office's own address, as its pages are."""
    found = Device(line.own, owner.role, owner.cookie, owner.token)
    found.host = owner.host
    return found
