#!/usr/bin/env python3
"""Measures the office in browsers over the real program.

    bench/taps.py [--watchers N] [--taps T] [--boats B] [--pause SECONDS] PROGRAM
    bench/taps.py --drops D [--devices N] [--seeds S] PROGRAM

The first form serves a series with B boats to N phones that look at the board. One device sends T finishes, with a
pause between. Printed are how long a tap waited for its answer, how soon the phones had the page with it, what else
they asked for, and the processor time of web and program.

In the second form N devices send 600 taps each over lines that drop D times at random, with each of S
seeds; the journal has to be the taps.
"""
from __future__ import annotations

import argparse
import asyncio
import json
import os
import statistics
import sys
import threading
import time
import zlib
from typing import Any

HERE = os.path.dirname(os.path.abspath(__file__))
sys.path[1:1] = [os.path.join(os.path.dirname(HERE), "tests"), os.path.join(os.path.dirname(HERE), "tests", "slow"),
                 os.path.dirname(HERE)]
from raceoffice import system  # noqa: E402

TICK = os.sysconf("SC_CLK_TCK")
MINUTE = 60.0


class Phones:
    """Phones that look at the board, each as the script of its page does: it waits for news, which has the page when
    that is another, and asks for what the news leaves out. Once a minute it asks all the same."""

    def __init__(self, port: int, number: int) -> None:
        self.port, self.ready, self.number = port, 0, number
        system.room_for_files(4 * number + 100)
        self.pages: list[float] = []
        self.asked = 0
        self.loop = asyncio.new_event_loop()
        threading.Thread(target=self.loop.run_forever, daemon=True).start()
        # Python forgets a task that nobody holds.
        self.tasks: set[asyncio.Task[None]] = set()
        self.loop.call_soon_threadsafe(self.begin)

    def begin(self) -> None:
        for at in range(self.number):
            task = self.loop.create_task(self.look(at))
            self.tasks.add(task)
            task.add_done_callback(self.note)

    @staticmethod
    def note(done: asyncio.Task[None]) -> None:
        """Says why a phone doesn't look any more."""
        if not done.cancelled() and done.exception():
            print(f"a phone has gone: {done.exception()!r}")

    async def look(self, at: int) -> None:
        pages = await asyncio.open_connection("127.0.0.1", self.port)
        reader, writer = await asyncio.open_connection("127.0.0.1", self.port)
        writer.write(b"GET /live?page=/cup/ HTTP/1.1\r\nHost: 127.0.0.1\r\nAccept-Encoding: gzip\r\n\r\n")
        await reader.readuntil(b"\r\n\r\n")
        self.ready += 1
        minute = self.loop.create_task(self.ask_each_minute(pages, MINUTE * (at + 1) / self.number))
        self.tasks.add(minute)
        unpacked, text, version = zlib.decompressobj(31), b"", ""
        while data := await reader.read(1 << 16):
            *events, text = (text + unpacked.decompress(data)).split(b"\n\n")
            for event in filter(lambda event: event.startswith(b"data: "), events):
                now = json.loads(event[6:])
                if version and now["version"] != version:
                    if "page" not in now:
                        await self.ask(*pages, b"/cup/")
                    self.pages.append(time.monotonic())
                version = now["version"]

    async def ask_each_minute(self, pages: tuple[asyncio.StreamReader, asyncio.StreamWriter], first: float) -> None:
        await asyncio.sleep(first)
        while True:
            await self.ask(*pages, b"/cup/now.json")
            await asyncio.sleep(MINUTE)

    async def ask(self, reader: asyncio.StreamReader, writer: asyncio.StreamWriter, path: bytes) -> None:
        self.asked += 1
        writer.write(b"GET " + path + b" HTTP/1.1\r\nHost: 127.0.0.1\r\nAccept-Encoding: gzip\r\n\r\n")
        head = await reader.readuntil(b"\r\n\r\n")
        size = next(line for line in head.lower().split(b"\r\n") if line.startswith(b"content-length:"))
        await reader.readexactly(int(size.split()[1]))


def seconds_of(number: int) -> float:
    """The processor time of a process; 0 if it has ended."""
    try:
        with open(f"/proc/{number}/stat", "rb") as file:
            fields = file.read().rpartition(b")")[2].split()
    except OSError:
        return 0.0
    return (int(fields[11]) + int(fields[12])) / TICK


def said_of(name: str, seconds: list[float]) -> str:
    """Median, 99 % and the longest of some times."""
    if not seconds:
        return f"{name}: none"
    found = sorted(1000 * one for one in seconds)
    return (f"{name}: median {statistics.median(found):.0f} ms, 99 % {found[int(len(found) * .99)]:.0f}, "
            f"longest {found[-1]:.0f} ({len(found)})")


def office_of(boats: int) -> Any:
    """A web that serves a series with n boats."""
    from web_devices import Web, list_of

    class Office(Web):
        def prepare(self) -> None:
            self.write(list_of([(f"GBR {number}", f"Boat {number}", "A. Helm")
                                for number in range(1, boats + 1)]), "cup", "entries.csv")

    office = Office()
    office.setUp()
    return office


def measure(asked: argparse.Namespace) -> None:
    """Taps with phones beside."""
    office = office_of(asked.boats)
    try:
        phones = Phones(office.port, asked.watchers)
        end = time.monotonic() + 120
        while phones.ready < asked.watchers and time.monotonic() < end:
            time.sleep(0.1)
        assert phones.ready == asked.watchers, phones.ready
        time.sleep(1)
        with open(os.path.join(office.here, "cup", "office", "pid"), encoding="ascii") as file:
            program = int(file.read().split()[0])
        numbers = {"web": office.web.pid, "program": program}
        before, begun = {name: seconds_of(number) for name, number in numbers.items()}, time.monotonic()
        tap_all(asked, office, phones)
        whole = time.monotonic() - begun
        spent = {name: seconds_of(number) - before[name] for name, number in numbers.items()}
        print(", ".join(f"{name} {used:.2f} s of processor time ({100 * used / whole:.1f} % of one)"
                        for name, used in spent.items()))
    finally:
        office.doCleanups()


def tap_all(asked: argparse.Namespace, office: Any, phones: Phones) -> None:
    """Sends the finishes, and says how long each took."""
    device, last = office.device("finish"), ""
    took: list[float] = []
    pages: list[float] = []
    for at in range(asked.taps):
        race, sail = at // asked.boats + 1, f"GBR{at % asked.boats + 1}"
        phones.pages.clear()
        start = time.monotonic()
        _, said = device.tap(f"FINISH {race} {sail}", seen=asked.boats, behind=last)
        took.append(time.monotonic() - start)
        assert said["outcome"] == "taken", said
        last = "" if sail == f"GBR{asked.boats}" else sail
        time.sleep(max(0.0, start + asked.pause - time.monotonic()))
        pages += [when - start for when in phones.pages]
    print(f"{asked.boats} boats, {phones.ready} phones, {asked.taps} taps, load {os.getloadavg()[0]:.1f}")
    print(said_of("a tap to its answer", took))
    print(said_of("a tap to the page on a phone", pages))
    print(f"requests of phones beside their news: {phones.asked}")


def drop(asked: argparse.Namespace) -> None:
    """Devices over lines that drop."""
    import test_web_lines
    test_web_lines.DEVICES, test_web_lines.DROPS = asked.devices, asked.drops
    test_web_lines.RACES, test_web_lines.FINISHERS = 3, 100
    for seed in range(1, asked.seeds + 1):
        os.environ["SEED"] = str(seed)
        trial = test_web_lines.Drops("test_drops")
        begun = time.monotonic()
        result = trial.run()
        assert result is not None
        for _, text in [*result.failures, *result.errors]:
            print(text)
        print(f"seed {seed}: {'the journal is the taps' if result.wasSuccessful() else 'FAILED'}, "
              f"{time.monotonic() - begun:.0f} s, load {os.getloadavg()[0]:.1f}", flush=True)


def main() -> None:
    parser = argparse.ArgumentParser(description="Measures the office in browsers over the real program.")
    parser.add_argument("program", help="the built program")
    parser.add_argument("--watchers", type=int, default=300, metavar="N")
    parser.add_argument("--taps", type=int, default=120, metavar="T")
    parser.add_argument("--boats", type=int, default=100, metavar="B")
    parser.add_argument("--pause", type=float, default=1.0, metavar="SECONDS")
    parser.add_argument("--drops", type=int, default=0, metavar="D")
    parser.add_argument("--devices", type=int, default=5, metavar="N")
    parser.add_argument("--seeds", type=int, default=10, metavar="S")
    asked = parser.parse_args()
    os.environ["REGATTA"] = os.path.realpath(asked.program)
    if asked.drops:
        drop(asked)
    else:
        measure(asked)


if __name__ == "__main__":
    main()
