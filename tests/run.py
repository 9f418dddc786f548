#!/usr/bin/env python3
"""Runs the tests of the package against a built program, some side by side.

    run.py PROGRAM [NAME ...] [--quick] [--workers N]

A NAME is a module, a class or a check: test_board, test_board.Boards.test_files. The last line is
`N passed, M failed`. A check that can't be tried here, as without Chromium, is named in a line
`not tried: ..` and counts as neither.
"""
from __future__ import annotations

import argparse
import importlib
import json
import os
import pkgutil
import queue
import subprocess
import sys
import tempfile
import threading
import time
import unittest
from collections.abc import Callable, Iterator
from dataclasses import asdict, dataclass, field
from types import TracebackType
from typing import Union

# What was raised, as unittest hands it over.
Raised = Union[tuple[type[BaseException], BaseException, TracebackType], tuple[None, None, None]]
HERE = os.path.dirname(os.path.abspath(__file__))
# The tests that need a browser, or take more than some seconds.
SLOW = os.path.join(HERE, "slow")
sys.path[1:1] = [SLOW, os.path.dirname(HERE)]
# Seconds after which a worker that still tries the same check is ended; a slow machine may need more.
PATIENCE = float(os.environ.get("PATIENCE", "900"))
# Seconds that a worker has for its end when there are no more checks.
LEAVE = 60.0
# How many checks are tried at a time: many wait for a clock or a browser most of their time, so two more than processors.
WORKERS = min(6, max(4, len(os.sched_getaffinity(0)) + 2))
# How many of the slowest checks are named.
SLOWEST = 10
PASSED, FAILED, SKIPPED = "passed", "failed", "not tried"


@dataclass
class Report:
    """What became of a check: how it ended, why, in how many seconds, and in how many of a processor."""
    name: str
    end: str = PASSED
    text: str = ""
    seconds: float = 0.0
    processor: float = 0.0


def processor_seconds() -> float:
    """The processor time of this process and of those that it has waited for."""
    return sum(os.times()[:4])


class Result(unittest.TestResult):
    """Makes a report of each check. One whose parts fail has failed once, however many they are."""

    def __init__(self, begins: Callable[[], object] = bool) -> None:
        super().__init__()
        self.begins = begins
        self.reports: dict[str, Report] = {}
        self.begun, self.used = time.monotonic(), processor_seconds()

    def note(self, trial: unittest.TestCase, end: str = PASSED, text: str = "") -> None:
        """Notes an end of a check, or of a part of it: a failure outweighs what else is noted."""
        name = getattr(trial, "test_case", trial).id()
        report = self.reports.setdefault(name, Report(name, end))
        report.text += text
        if end == FAILED:
            report.end = FAILED

    def startTest(self, test: unittest.TestCase) -> None:
        super().startTest(test)
        self.begins()
        self.begun, self.used = time.monotonic(), processor_seconds()

    def stopTest(self, test: unittest.TestCase) -> None:
        super().stopTest(test)
        if test.id() in self.reports:
            report = self.reports[test.id()]
            report.seconds = time.monotonic() - self.begun
            report.processor = processor_seconds() - self.used

    def addSuccess(self, test: unittest.TestCase) -> None:
        super().addSuccess(test)
        self.note(test)

    def addSkip(self, test: unittest.TestCase, reason: str) -> None:
        super().addSkip(test, reason)
        self.note(test, SKIPPED, reason)

    def addFailure(self, test: unittest.TestCase, err: Raised) -> None:
        super().addFailure(test, err)
        self.note(test, FAILED, self.failures[-1][1])

    def addError(self, test: unittest.TestCase, err: Raised) -> None:
        super().addError(test, err)
        self.note(test, FAILED, self.errors[-1][1])

    def addSubTest(self, test: unittest.TestCase, subtest: unittest.TestCase,
                   err: Raised | None) -> None:
        super().addSubTest(test, subtest, err)
        if err is not None and err[0] is not None:
            kinds = self.failures if issubclass(err[0], test.failureException) else self.errors
            self.note(test, FAILED, f"{subtest}\n{kinds[-1][1]}")

    def addUnexpectedSuccess(self, test: unittest.TestCase) -> None:
        super().addUnexpectedSuccess(test)
        self.note(test, FAILED, "it passed, which wasn't expected\n")


# A worker

def work() -> None:
    """Tries the checks that each line of the input names, and answers each line with an empty one as each begins, and
    one of reports.

    What the checks and their children print goes to a file of its own.
    """
    orders, answers = os.fdopen(os.dup(0)), os.fdopen(os.dup(1), "w", buffering=1)
    with tempfile.TemporaryFile("w+", errors="replace") as printed, open(os.devnull) as nothing:
        os.dup2(nothing.fileno(), 0)
        os.dup2(printed.fileno(), 1)
        os.dup2(printed.fileno(), 2)
        for line in orders:
            found = Result(lambda: answers.write("\n"))
            unittest.defaultTestLoader.loadTestsFromNames(line.split()).run(found)
            sys.stdout.flush()
            sys.stderr.flush()
            printed.seek(0)
            text = printed.read()
            printed.seek(0)
            printed.truncate()
            json.dump([text, [asdict(report) for report in found.reports.values()]], answers)
            answers.write("\n")


def line_in_time(process: subprocess.Popen[str]) -> str:
    """The next line that a worker answers; empty if it ends, or is ended."""
    assert process.stdout
    alarm = threading.Timer(PATIENCE, process.kill)
    alarm.start()
    try:
        return process.stdout.readline()
    finally:
        alarm.cancel()


class Worker:
    """A process that tries checks, and is started again if they end it."""

    def __init__(self) -> None:
        self.process: subprocess.Popen[str] | None = None

    def tried(self, names: list[str]) -> tuple[str, list[Report]]:
        """What some checks printed, and the report of each."""
        if self.process is None:
            self.process = subprocess.Popen(
                [sys.executable, os.path.abspath(__file__), "--work"], stdin=subprocess.PIPE,
                stdout=subprocess.PIPE, text=True)
        process = self.process
        assert process.stdin and process.stdout
        answer = "\n"
        try:
            process.stdin.write(" ".join(names) + "\n")
            process.stdin.flush()
            while answer == "\n":
                answer = line_in_time(process)
        except BrokenPipeError:
            answer = ""
        if not answer:
            self.end()
            why = f"its process ended with status {process.returncode}\n"
            return "", [Report(name, FAILED, why) for name in names]
        text, reports = json.loads(answer)
        return text, [Report(**report) for report in reports]

    def end(self) -> None:
        """Ends the process: it does so by itself when no more checks can come, or else is killed."""
        if self.process is None:
            return
        try:
            self.process.communicate(timeout=LEAVE)
        except subprocess.TimeoutExpired:
            self.process.kill()
            self.process.communicate()
        self.process = None


# All checks

def discovered(loader: unittest.TestLoader, is_quick: bool) -> unittest.TestSuite:
    """The tests of both folders, or only those that take some seconds at most. The others come first, so
    that no worker has one alone at the end."""
    return unittest.TestSuite(loader.discover(folder, top_level_dir=folder)
                              for folder in ([HERE] if is_quick else [SLOW, HERE]) if os.path.isdir(folder))


@dataclass
class Tried:
    """What was tried up to now, which several threads add to."""
    reports: list[Report] = field(default_factory=list)
    lock: threading.Lock = field(default_factory=threading.Lock)

    def add(self, text: str, reports: list[Report]) -> None:
        """Adds the reports of some checks, and shows them and what they printed together."""
        with self.lock:
            self.reports += reports
            for report in reports:
                print(f"{report.end:9} {report.seconds:6.1f} s  {report.name}")
                if report.end == FAILED:
                    print(report.text)
            if text:
                print(f"Printed by these:\n{text}")
            sys.stdout.flush()

    def named(self, end: str) -> list[Report]:
        return [report for report in self.reports if report.end == end]


def checks_in(suite: unittest.TestSuite) -> Iterator[unittest.TestCase]:
    for part in suite:
        if isinstance(part, unittest.TestSuite):
            yield from checks_in(part)
        else:
            yield part


def parts_of(checks: list[unittest.TestCase]) -> list[list[str]]:
    """What a worker is given at a time: one check, or all of a class that sets something up for them.

    These take longest, and come first.
    """
    whole: dict[type, list[str]] = {}
    single = []
    for check in checks:
        kind = type(check)
        if any("setUpClass" in vars(base) for base in kind.__mro__ if base is not unittest.TestCase):
            whole.setdefault(kind, []).append(check.id())
        else:
            single.append([check.id()])
    return [*whole.values(), *single]


def try_all(parts: list[list[str]], workers: int) -> Tried:
    """Has the workers try all checks."""
    waiting: queue.SimpleQueue[list[str]] = queue.SimpleQueue()
    for part in parts:
        waiting.put(part)
    tried = Tried()

    def go_on() -> None:
        worker = Worker()
        try:
            while True:
                part = waiting.get_nowait()
                tried.add(*worker.tried(part))
        except queue.Empty:
            worker.end()

    threads = [threading.Thread(target=go_on, daemon=True) for _ in range(min(workers, len(parts)))]
    for thread in threads:
        thread.start()
    for thread in threads:
        thread.join()
    return tried


def summary(tried: Tried, faults: list[str], seconds: float) -> int:
    """Says what took longest, what wasn't tried, what failed and how many passed; the status."""
    processor = sum(report.processor for report in tried.reports)
    print(f"\nThe slowest of {len(tried.reports)} checks, which took {seconds:.0f} s together, and "
          f"{processor:.0f} s of processor time:")
    for report in sorted(tried.reports, key=lambda report: -report.seconds)[:SLOWEST]:
        print(f"{report.seconds:6.1f} s, {report.processor:6.1f} s  {report.name}")
    for report in tried.named(SKIPPED):
        print(f"not tried: {report.name}: {report.text}")
    for fault in faults:
        print(fault)
    for report in tried.named(FAILED):
        print(f"failed: {report.name}")
    failed = len(tried.named(FAILED)) + len(faults)
    print(f"{len(tried.named(PASSED))} passed, {failed} failed")
    return 1 if failed or not tried.reports else 0


def asked_of() -> argparse.Namespace:
    parser = argparse.ArgumentParser(description="Runs the tests of the package against a built program.")
    parser.add_argument("program", help="the built program")
    parser.add_argument("name", nargs="*", help="a module, a class or a check; all if none is named")
    parser.add_argument("--quick", action="store_true", help="leave out the tests of the folder slow")
    parser.add_argument("--workers", type=int, default=WORKERS, metavar="N",
                        help=f"how many are tried at a time ({WORKERS} here)")
    asked = parser.parse_args()
    if not os.access(asked.program, os.X_OK):
        parser.error(f"{asked.program} is no program that can be run")
    return asked


def compile_all() -> None:
    """Loads each module of the package, and so has it compiled with all that it loads."""
    for module in pkgutil.walk_packages([os.path.join(os.path.dirname(HERE), "raceoffice")], "raceoffice."):
        if not module.name.endswith(".__main__"):
            importlib.import_module(module.name)


def main() -> int:
    asked = asked_of()
    begun = time.monotonic()
    with tempfile.TemporaryDirectory() as compiled:
        # Each tool is compiled once, and nothing is written beside the sources.
        os.environ.pop("PYTHONDONTWRITEBYTECODE", None)
        os.environ["PYTHONPYCACHEPREFIX"] = sys.pycache_prefix = compiled
        os.environ["REGATTA"] = os.path.realpath(asked.program)
        loader = unittest.defaultTestLoader
        suite = loader.loadTestsFromNames(asked.name) if asked.name else discovered(loader, asked.quick)
        faults = [str(error) for error in loader.errors]
        checks = [check for check in checks_in(suite) if not check.id().startswith("unittest.loader.")]
        subprocess.run([sys.executable, os.path.abspath(__file__), "--compile"], stdin=subprocess.DEVNULL, check=True)
        # From now on nobody adds to it: a process whose files may not grow would leave a part of one, which none can read.
        os.environ["PYTHONDONTWRITEBYTECODE"] = "1"
        tried = try_all(parts_of(checks), asked.workers)
    return summary(tried, faults, time.monotonic() - begun)


if __name__ == "__main__":
    if sys.argv[1:] == ["--work"]:
        work()
    elif sys.argv[1:] == ["--compile"]:
        compile_all()
    else:
        sys.exit(main())
