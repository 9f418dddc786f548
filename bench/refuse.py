#!/usr/bin/env python3
"""Runs the built programs with each of their requests for memory refused in turn.

    bench/refuse.py PROGRAM [TIMES]

The Nth request of a run is refused, for N = 1, 2, .. up to as many as the run makes. The runs of
`regatta` are:

- replays of all commands, by finishes and by corrected times;
- replays of the weekend of `examples/`, with and without start files, in each form;
- the vocabulary, a journal explained, a preview of lines, and a check of files;
- help, and arguments that are refused;
- serving one client, without a kept file and with one;
- serving one client and two, without a kept file, who are shown the sheet again after newer entries.

Those of `times`, if that program is named too, are lines and sums of each system, with the ratings in
the sheet or in a list; help; and arguments, settings, lists and sheets that are refused.

A heap that refuses one request (refuse.c) is built with the machine's C compiler and preloaded.

A refused run must say `regatta: no memory` or `times: no memory`, end with status 3, and print nothing
but whole replies to some first lines. There are two exceptions. If `clap` refuses the arguments, it asks
again for its own text, so the usual answer may be given. Serving may also succeed, if the refused
request was for a thread or met a session: the client then reads `BUSY` alone, or whole replies to some
first lines, of which one may be `NO 1`. If the request came after the office was opened, the table is
printed although no memory is reported.

Clients who wait for each answer must also be answered as in a run of the answered lines alone, and the
table must be the one of that run. Each other answer is reported, and the script then ends with status 1.

The script also ends with status 1 if a client's second sheet, or one after a newer entry, makes more
than half as many requests as the first: the ledger of the last sheet isn't kept then.
"""
import contextlib
import itertools
import os
import re
import subprocess
import sys
import tempfile
import threading
import time

from compiled import HERE, compiled

sys.path.append(os.path.dirname(HERE))
from raceoffice.errors import Gone, Trouble  # noqa: E402
from raceoffice.program.link import Link  # noqa: E402

# Seconds that an answer may take.
PATIENCE = 60.0
EXAMPLES = os.path.join(os.path.dirname(HERE), "examples")
SHEET = os.path.join(os.path.dirname(HERE), "crates", "times")
NO_MEMORY = (3, b"regatta: no memory\n")
NO_MEMORY_FOR_TIMES = (3, b"times: no memory\n")
DEVICE_FAULT = (3, b"regatta: device fault\n")
COMMANDS = b"""ENTER A
ENTER B
ENTER C
FINISH 1 A
TIE 1 B A
BEFORE 1 C A
STRIKE 1 B
SCORE 1
MARK 1 B DNF
PENALTY 1 A ZFP
FINISH 2 B
SCORE 2
ROLE JURY
REDRESS 1 C ALL
CLEAR 1 B
ROLE SCORER
UNSCORE 2
NOPE
RANK A
SHOW
ENTER D
QUIT
"""
TIMES = b"""ENTER A
ENTER B
TIME 1 A 3605
TIME 1 B 3605
SCORE 1
STRIKE 1 A
TIME 1 A 3599
FINISH 1 B
ENTER C
RANK B
SHOW
QUIT
"""
# The lines of two clients, A and B.
TURNS = b"""A SHOW
B RANK GBR7
B FINISH 1 GBR7
B SCORE 1
A SHOW
A MARK 1 NED12 DNF
B SHOW
B FINISH 1 FRA9
A SHOW
A QUIT
B QUIT
"""


RATED = b"""Sail,Rating,Start,Finish,Elapsed,Laps,Distance
GBR 201,1103,23:05:00,0:07:31,,3,
NED 80,985,,23:54:02,,4,
FRA 9,1150,,,1:02:31,,
"""
BY_DISTANCE = b"""Sail,Rating,Elapsed,Distance
A,-12.5,1:02:31,6.25
B,120.25,3600,
"""


def text_at(folder, name):
    with open(os.path.join(folder, name), "rb") as file:
        return file.read()


def example(name):
    return text_at(EXAMPLES, name)


class Run:
    """A run of the program that is repeated, each time with a later request refused."""
    no_memory = NO_MEMORY

    def __init__(self, folder, program, name, words, text=b"", asks_again=False):
        self.folder, self.program, self.name = folder, program, name
        self.words, self.text, self.asks_again = words, text, asks_again
        self.lines, self.again = text.splitlines(keepends=True), 0
        self.count = os.path.join(folder, "count")

    def start(self, library, refused, words, **streams):
        with open(self.count, "wb") as file:
            file.write(bytes(8))
        env = {"LD_PRELOAD": library, "REFUSE_NTH": str(refused), "REFUSE_COUNT": self.count}
        return subprocess.Popen([self.program] + words, env=env, **streams)

    def ended(self, library, refused, words=None, text=None):
        """The status, what was written to standard error, and what was printed."""
        pipe = subprocess.PIPE
        run = self.start(library, refused, self.words if words is None else words,
                         stdin=pipe, stdout=pipe, stderr=pipe)
        printed, said = run.communicate(self.text if text is None else text, timeout=60)
        return run.returncode, said, printed

    def requests(self):
        with open(self.count, "rb") as file:
            return int.from_bytes(file.read(), sys.byteorder)

    def first_replies(self, library):
        """All that a refused run may print: the replies to no line, to the first, to the first two, .."""
        words = list(self.words)
        if "--print" in words:
            words[words.index("--print") + 1] = "table"
        replies = {b""}
        for count in range(len(self.lines) + 1) if self.words[:1] == ["replay"] else ():
            _, _, printed = self.ended(library, 0, words, b"".join(self.lines[:count]))
            replies.add(printed[:printed.rfind(b"TABLE ")])
        return replies

    def sweep(self, library):
        """How many requests the run makes, and each answer that doesn't report the refused one."""
        whole = self.ended(library, 0)
        requests = self.requests()
        replies = self.first_replies(library)
        others = []
        for refused in range(1, requests + 1):
            status, said, printed = self.ended(library, refused)
            if self.asks_again and (status, said, printed) == whole:
                self.again += 1
            elif (status, said) != self.no_memory or printed not in replies:
                same = " (the ordinary answer)" if (status, said, printed) == whole else ""
                others.append(f"request {refused}: status {status}, {said[:60]!r}, "
                              f"{len(printed)} bytes printed{same}")
        return requests, others


class Timing(Run):
    """A run of `times`, which prints nothing before all is computed."""
    no_memory = NO_MEMORY_FOR_TIMES


class Serving(Run):
    """A run of `serve`, with a client that sends all of its lines at once and reads to the end."""

    def link(self, path):
        """A link to the office, once it is open; None if there is none before the run is over."""
        while not self.over.is_set():
            try:
                return Link(path, PATIENCE)
            except Gone:
                time.sleep(0.0005)
            except Trouble:
                break
        return None

    def asked(self, path, replies):
        """Sends all lines at once, and reads what comes."""
        if link := self.link(path):
            with contextlib.closing(link), contextlib.suppress(OSError):
                link.socket.sendall(self.text)
                while data := link.socket.recv(65536):
                    replies.append(data)

    def served(self, library, refused):
        path = os.path.join(self.folder, "socket")
        replies, self.over = [], threading.Event()
        client = threading.Thread(target=self.asked, args=(path, replies))
        client.start()
        pipe = subprocess.PIPE
        run = self.start(library, refused, self.words + ["--socket", path],
                         stdin=subprocess.DEVNULL, stdout=pipe, stderr=pipe)
        printed, said = run.communicate(timeout=60)
        self.over.set()
        client.join()
        if os.path.exists(path):
            os.unlink(path)
        return run.returncode, said, printed, self.received(replies)

    @staticmethod
    def received(replies):
        return b"".join(replies)

    def first_replies(self, library):
        lines = self.whole[3].splitlines(keepends=True)
        return {b"".join(lines[:count]) for count in range(len(lines) + 1)}

    def may_be(self, library, ended):
        """Whether a refused run may end in this way."""
        status, said, printed, replies = ended
        is_whole = printed.endswith(b"\n") and printed.startswith(b"TABLE ")
        is_cut = replies in self.replies or b"NO 1\n" in replies or replies == b"BUSY\n"
        if (status, said) in (NO_MEMORY, DEVICE_FAULT):
            return is_cut and (printed == b"" or is_whole)
        return (status, said) == (0, b"") and is_whole and is_cut and ended != self.whole

    def sweep(self, library):
        self.whole = self.served(library, 0)
        requests = self.requests()
        self.replies = self.first_replies(library)
        others, kinds = [], {}
        for refused in range(1, requests + 1):
            ended = self.served(library, refused)
            kind = ended[1].decode().strip() or "well"
            kinds[kind] = kinds.get(kind, 0) + 1
            if not self.may_be(library, ended):
                same = " (the ordinary answer)" if ended == self.whole else ""
                others.append(f"request {refused}: {ended}{same}")
        print("    " + ", ".join(f"{count} ended {kind!r}" for kind, count in kinds.items()))
        return requests, others


class Keeping(Serving):
    """A run of `serve` with a new kept file. If memory runs out, a reply that can't be kept isn't written."""

    def served(self, library, refused):
        file = os.path.join(self.folder, "kept.journal")
        for end in ("", ".opening", ".cut"):
            with contextlib.suppress(FileNotFoundError):
                os.unlink(file + end)
        words, self.words = self.words, self.words + ["--keep", file]
        try:
            return super().served(library, refused)
        finally:
            self.words = words


class Turns(Serving):
    """A run of `serve` with clients who wait for each answer. A line begins with its client's letter.

    The answers that were given, and the table, must be those of a run of the answered lines alone."""
    # What a line gets for which there was no memory: nothing once its client's session has ended.
    MISSED = (b"", b"BUSY\n", b"NO 1\n")

    def asked(self, path, replies):
        links = {}
        with contextlib.ExitStack() as stack:
            # A client without a turn comes, too, since the office waits for each of its sessions.
            for line in self.turns + self.lines:
                client = line[:1]
                if client not in links:
                    links[client] = self.link(path)
                    if links[client]:
                        stack.callback(links[client].close)
                if len(replies) < len(self.turns):
                    replies.append(self.answer(links[client], line[2:]))

    @staticmethod
    def answer(link, line):
        """The whole answer to a line, or what comes of it before the link ends."""
        answer = b""
        if link is None:
            return answer
        # A client who is turned away can't write any more, and has yet to read why.
        with contextlib.suppress(OSError):
            link.socket.sendall(line)
        with contextlib.suppress(OSError):
            while not answer.endswith(b"\nEND\n" if answer.startswith(b"JOURNAL ") else b"\n"):
                if not (data := link.socket.recv(65536)):
                    break
                answer += data
        return answer

    @staticmethod
    def received(replies):
        return tuple(replies)

    def served(self, library, refused, turns=None):
        self.turns = self.lines if turns is None else turns
        return super().served(library, refused)

    def first_replies(self, library):
        """The runs of some lines alone, by these lines. They are made when they are asked for."""
        return {}

    def alone(self, library, turns):
        """What is printed in an unrefused run of these lines, and the answers."""
        if tuple(turns) not in self.replies:
            self.replies[tuple(turns)] = self.served(library, 0, turns)[2:]
        return self.replies[tuple(turns)]

    @staticmethod
    def without_seats(answers):
        """The answers without the seat and number of each entry: a client who is turned away leaves
        another seat to the next one."""
        return [re.sub(rb"(?m)^\d+ \d+ (?=[A-Z])", b"", answer) for answer in answers]

    def may_be(self, library, ended):
        status, said, printed, answers = ended
        answered = [i for i, answer in enumerate(answers) if answer not in self.MISSED]
        table, wanted = self.alone(library, [self.lines[i] for i in answered])
        refusals = sum(answer in self.MISSED[1:] for answer in answers)
        if self.without_seats(answers[i] for i in answered) != self.without_seats(wanted) or refusals > 1:
            return False
        if (status, said) in (NO_MEMORY, DEVICE_FAULT):
            return printed in (b"", table)
        return (status, said, printed) == (0, b"", table) and len(answered) < len(self.lines)


def requests_of_lines(run, library):
    """How many requests each line of a client makes, except the last, which is QUIT."""
    counts = []
    for end in range(len(run.lines)):
        run.served(library, 0, run.lines[:end] + run.lines[-1:])
        counts.append(run.requests())
    return [after - before for before, after in itertools.pairwise(counts)]


def are_sheets_kept(folder, program, library):
    """Whether a second sheet, and one after a newer entry, make few requests."""
    words = ["serve", "--sessions", "1", "--clients", "1", "--entries", os.path.join(EXAMPLES, "boats.csv")]
    lines = b"A SHOW\nA SHOW\nA FINISH 1 GBR7\nA SHOW\nA QUIT\n"
    first, again, _, newer = requests_of_lines(Turns(folder, program, "sheets", words, lines), library)
    print(f"sheets: {first} requests for the first, {again} for the second, {newer} after a newer entry")
    return 2 * max(again, newer) <= first


def runs(folder, program):
    def run(name, words, text=b"", kind=Run, asks_again=False):
        return kind(folder, program, name, words, text, asks_again)

    boats = ["--entries", os.path.join(EXAMPLES, "boats.csv")]
    journal = ["--journal", os.path.join(EXAMPLES, "weekend.journal")]
    weekend = example("weekend.txt")
    yield run("all commands", ["replay", "--exclude", "none"], COMMANDS)
    yield run("corrected times", ["replay", "--handicap"], TIMES)
    yield run("the weekend", ["replay"] + boats, weekend)
    yield run("the weekend as CSV", ["replay", "--print", "csv"] + boats, weekend)
    yield run("the weekend's journal", ["replay", "--print", "journal"] + boats, weekend)
    yield run("a start file", ["replay"] + journal, b"SHOW\nRANK GBR7\n")
    yield run("an entry list", ["replay"] + boats)
    yield run("nothing", ["replay"])
    yield run("the vocabulary", ["words"])
    yield run("a journal explained", ["explain"] + journal)
    yield run("a preview", ["preview", "--role", "jury"] + journal, b"MARK 1 GBR7 DSQ\nENTER X\nSHOW\nRANK GBR7\n")
    yield run("a check", ["check"] + journal + boats)
    yield run("help", ["--help"])
    yield run("help of replay", ["replay", "--help"])
    yield run("an unknown word", ["replay", "--speed"], asks_again=True)
    yield run("no word", [], asks_again=True)
    yield run("an unknown rule", ["replay", "--scp", "0"])
    yield run("a bad journal", ["replay", "--journal", os.path.join(EXAMPLES, "boats.csv")])
    lines = b"FINISH 1 GBR7\nSCORE 1\nRANK GBR7\nSHOW\nQUIT\n"
    yield run("serving", ["serve", "--sessions", "1", "--clients", "2"] + boats, lines, Serving)
    yield run("serving a kept series", ["serve", "--sessions", "1", "--clients", "2"] + boats, lines,
              Keeping)
    yield run("a sheet after newer entries", ["serve", "--sessions", "1", "--clients", "1"] + boats,
              b"A FINISH 1 GBR7\nA SHOW\nA SCORE 1\nA SHOW\nA RANK GBR7\nA SHOW\nA QUIT\n", Turns)
    yield run("a sheet after another's entries", ["serve", "--sessions", "2", "--clients", "2"] + boats,
              TURNS, Turns)


def runs_of_times(folder, program):
    def run(name, words, text=b"", asks_again=False):
        return Timing(folder, program, name, words, text, asks_again)

    race = ["--race", "1", "--system"]
    boats = ["--entries", os.path.join(SHEET, "data", "boats.csv")]
    sheet = text_at(SHEET, "stdin")
    yield run("times, from a list", ["lines", *race, "py", *boats], sheet)
    yield run("the sums", ["sums", *race, "py", *boats], sheet)
    yield run("ratings in the sheet, overnight", ["lines", *race, "py", "--overnight"], RATED)
    yield run("time on distance", ["sums", *race, "tod", "--rounding", "down"], BY_DISTANCE)
    yield run("time on time", ["lines", *race, "tcf", "--rating", "tcf"], b"Sail,TCF,Elapsed\nA,0.985,3700\n")
    yield run("a sheet without boats", ["lines", *race, "py"], b"Sail,Rating\n")
    yield run("help of times", ["--help"])
    yield run("help of lines", ["lines", "--help"])
    yield run("an unknown option of lines", ["lines", *race, "py", "--speed"], asks_again=True)
    yield run("an option that is missing", ["lines", "--race", "1"], asks_again=True)
    yield run("an unknown system", ["lines", *race, "irc"], RATED)
    yield run("a bad list", ["lines", *race, "tcf", *boats], sheet)
    yield run("a bad sheet", ["lines", *race, "py"], RATED)
    yield run("no sheet", ["lines", *race, "py"])


def main():
    if len(sys.argv) not in (2, 3):
        sys.exit(__doc__)
    program, *times = map(os.path.abspath, sys.argv[1:])
    total, wrong = 0, 0
    with tempfile.TemporaryDirectory() as folder:
        library = compiled(folder, "refuse.c", "-shared", "-fPIC")
        every = itertools.chain(runs(folder, program), *(runs_of_times(folder, it) for it in times))
        for run in every:
            requests, others = run.sweep(library)
            total += requests
            wrong += len(others)
            again = f", {run.again} asked for again by clap" if run.again else ""
            print(f"{run.name}: {requests} requests refused{again}, {len(others)} answered otherwise")
            for other in others:
                print(f"    {other}")
        are_kept = are_sheets_kept(folder, program, library)
    print(f"{total} requests refused in all, {wrong} answered otherwise")
    if not are_kept:
        print("a later sheet makes its ledger again from all entries")
    return 0 if are_kept and not wrong else 1


if __name__ == "__main__":
    sys.exit(main())
