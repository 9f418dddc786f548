"""The soak of `regatta serve`: sixteen clients, well behaved and not, and a judge.

Eleven clients send lines of all kinds, at times many at once and cut anywhere, and come back in new
sessions. Each has boats and a race of its own, so that it knows every reply except places, ranks and
nets. The other five each misbehave in one way: one hangs up in mid-line again and again, one never
reads, one sends random bytes, one sends lines of 1 MiB, and one sends further lines after QUIT. A
seventeenth client comes while all seats are taken. When they are done, SHOW gives the journal, and it
is judged:

- each accepted command is in its place of the journal, and nothing that wasn't sent is in it;
- `regatta replay` of the commands in this order gives exactly the replies that the clients read;
- the table that the program prints is that of the journal, replayed from a file.

It ends with status 0 if nothing was wrong.
"""
import multiprocessing
import random
import re
import socket
import subprocess
import tempfile
import time

from serve import JOURNAL, SEATS, Server

TALKERS = 11
MEBIBYTE = 1 << 20
WORDS = (b"ENTER FINISH TIE BEFORE TIME STRIKE MARK PENALTY REDRESS CLEAR SCORE UNSCORE ROLE RANK "
         b"SHOW QUIT").split()
SESSIONS = 2500


class Client:
    """One connection to the program, over which anything may be sent: it misbehaves on purpose."""

    def __init__(self, path):
        self.socket = socket.socket(socket.AF_UNIX, socket.SOCK_STREAM)
        self.socket.settimeout(60)
        self.socket.connect(path)
        self.rest = b""

    def send(self, data):
        self.socket.sendall(data)

    def line(self):
        """The next line of a reply without its LF; None at the end of the stream."""
        while b"\n" not in self.rest:
            data = self.socket.recv(65536)
            if not data:
                return None
            self.rest += data
        line, self.rest = self.rest.split(b"\n", 1)
        return line

    def ask(self, line):
        self.send(line + b"\n")
        return self.line()

    def show(self):
        """The reply to SHOW as bytes. Nothing else may be asked before its end."""
        self.send(b"SHOW\n")
        text, self.rest = bytearray(self.rest), b""
        while not text.endswith(b"\nEND\n"):
            data = self.socket.recv(1 << 20)
            if not data:
                break
            text += data
        return bytes(text)

    def sheet(self):
        """The reply to SHOW: the entries of the journal, and the lines of the table."""
        lines = self.show().split(b"\n")
        count = int(lines[0].removeprefix(b"JOURNAL "))
        return lines[1:count + 1], lines[count + 1:-2]

    def is_at_end(self):
        """Whether the stream ends here as it should, with no further byte and no reset."""
        try:
            return self.rest == b"" and self.socket.recv(1) == b""
        except OSError:
            return False

    def close(self):
        self.socket.close()


class Caller:
    """What one process does at the socket, and what it has to report."""

    def __init__(self, path, number, seed):
        self.path, self.number = path, number
        self.rng = random.Random(seed * 100 + number)
        self.sessions, self.busy, self.lines = 0, 0, 0
        self.accepted, self.wrong = [], []
        self.client, self.full = None, False

    def connect(self):
        """Begins a new session, once a seat is free. Its first line shows that it has begun."""
        while True:
            self.client = Client(self.path)
            self.sessions += 1
            try:
                self.client.send(b"RANK NOBODY\n")
            except BrokenPipeError:
                pass  # BUSY and the end of the stream may come before the line is sent
            try:
                reply = self.client.line()
            except OSError as why:
                reply = b"BUSY"
                self.wrong.append(f"a client found neither a seat nor BUSY: {why}")
            if reply != b"BUSY":
                self.lines += 1
                self.expect(b"RANK NOBODY", reply, rb"NO 7")
                return
            self.busy += 1
            self.client.close()
            time.sleep(0.001)

    def expect(self, line, reply, pattern):
        if reply is None or not re.fullmatch(pattern, reply):
            self.wrong.append(f"{line[:60]!r} was answered {reply!r}, not {pattern!r}")

    def quit(self):
        self.lines += 1
        self.expect(b"QUIT", self.client.ask(b"QUIT"), rb"BYE")
        if not self.client.is_at_end():
            self.wrong.append("a stream didn't end well after BYE")
        self.client.close()

    def report(self):
        return (self.number, self.sessions, self.busy, self.lines, self.accepted, self.wrong,
                self.full)


class Talker(Caller):
    """A client that knows the reply to each line, since its boats and its race are its own."""

    def __init__(self, path, number, seed):
        super().__init__(path, number, seed)
        self.boats = [b"S%dX%d" % (number, i) for i in range(3)]
        self.race = number
        self.entered, self.placed, self.scores = set(), set(), False
        self.role = b"SCORER"

    def command(self):
        """A command, and the number of its refusal; 0 if it is accepted."""
        boat, other = self.rng.sample(self.boats, 2)
        kind = self.rng.choice((b"ENTER", b"FINISH", b"FINISH", b"STRIKE", b"TIE", b"SCORE", b"MARK"))
        if kind == b"ENTER":
            return kind + b" " + boat, 6 if boat in self.entered else 0
        if kind == b"SCORE":
            return b"SCORE %d" % self.race, 13 if self.scores else 0 if self.placed else 15
        if kind == b"MARK":
            return b"MARK %d %s DSQ" % (self.race, boat), 4
        named = {boat, other} if kind == b"TIE" else {boat}
        line = b"%s %d %s" % (kind, self.race, b" ".join([boat] + [other] * (kind == b"TIE")))
        if not named <= self.entered:
            return line, 7
        if kind == b"STRIKE":
            return line, 0 if boat in self.placed else 9
        if boat in self.placed:
            return line, 8
        return line, 0 if kind == b"FINISH" or other in self.placed else 9

    def note(self, line):
        """Keeps what the client knows after this command was accepted."""
        words = line.split()
        if words[0] == b"ENTER":
            self.entered.add(words[1])
        elif words[0] in (b"FINISH", b"TIE"):
            self.placed.add(words[2])
        elif words[0] == b"STRIKE":
            self.placed.discard(words[2])
        elif words[0] == b"SCORE":
            self.scores = True

    def question(self):
        """A line that is no command or has a fault, and the pattern of its reply."""
        boat = self.rng.choice(self.boats)
        known = rb"RANK \d+=? \d+\.\d" if boat in self.entered else rb"NO 7"
        return self.rng.choice((
            (b"RANK " + boat, known), (b"  rank  " + boat.lower() + b"\r", known),
            (b"NOPE", rb"NO 21"), (b"", rb"NO 21"), (b"X" * 81, rb"NO 20"), (b"ENTER A_B", rb"NO 23"),
            (b"FINISH 0 " + boat, rb"NO 24"), (b"FINISH 1", rb"NO 22"), (b"ROLE KING", rb"NO 27"),
            (b"TIME 1 " + boat + b" 1000000", rb"NO 29"),
            (b"RANK \xff", rb"NO 23"), (b"SHOW\r\r", rb"NO 21")))

    def next_line(self):
        """A line with the pattern of its reply. Few are commands that are accepted, since the journal
        has room for 8,192 alone."""
        if self.role != b"SCORER":
            self.role = b"SCORER"
            return b"ROLE SCORER", rb"ROLE SCORER"
        turn = self.rng.random()
        if turn < 0.02:
            self.role = b"JURY"
            return b"role jury", rb"ROLE JURY"
        line, refusal = self.command()
        if turn < 0.5 and refusal != 0:
            return line, b"NO 2|NO %d" % refusal
        if turn < 0.95:
            return self.question()
        while refusal != 0:
            line, refusal = self.command()
        self.note(line)
        return line, rb"NO 2|OK .*"

    def burst(self):
        """Sends some lines at once, cut anywhere, and reads their replies."""
        asked = [(self.role, *self.next_line()) for _ in range(self.rng.choice((1, 1, 1, 5, 40)))]
        data = b"".join(line + b"\n" for _, line, _ in asked)
        at = self.rng.randrange(len(data))
        self.client.send(data[:at])
        self.client.send(data[at:])
        self.lines += len(asked)
        for _, line, pattern in asked:
            reply = self.client.line()
            self.expect(line, reply, pattern)
            self.full |= reply == b"NO 2"
            if reply and reply.startswith(b"OK"):
                self.accepted.append((int(reply.split()[1]), line, reply))
                if self.full:
                    self.wrong.append(f"{line!r} was accepted after NO 2")

    def run(self, count, gather):
        self.connect()
        gather.wait()
        gather.wait()
        while self.lines < count:
            if self.rng.random() < 0.01:
                self.quit()
                self.role = b"SCORER"
                self.connect()
            if self.rng.random() < 0.002:
                self.lines += 1
                self.client.sheet()
            self.burst()
        self.quit()


class HangsUp(Caller):
    """Closes the stream in the middle of a line, with replies unread."""

    def run(self, count, gather):
        boat = b"S%dX0" % self.number
        self.connect()
        gather.wait()
        gather.wait()
        for turn in range(min(200, count)):
            for line in (b"ENTER " + boat, b"FINISH %d %s" % (self.number, boat)):
                reply = self.client.ask(line)
                self.lines += 1
                self.expect(line, reply, rb"OK .*|NO [268]")
                if reply and reply.startswith(b"OK"):
                    self.accepted.append((int(reply.split()[1]), line, reply))
            self.lines += 2
            if turn % 40 == 0:
                self.client.send(b"STRIKE %d %s\n" % (self.number, boat))
            self.client.send(b"RANK A\nENTER UNSENT%d" % turn)
            self.client.close()
            self.connect()
        self.quit()


class NeverReads(Caller):
    """Asks for sheets until nothing more can be sent, and holds its seat until it goes away."""

    def run(self, count, gather):
        self.connect()
        gather.wait()
        gather.wait()
        self.client.socket.settimeout(2)
        try:
            while self.lines < count:
                self.client.send(b"SHOW\n" * 100)
                self.lines += 100
        except TimeoutError:
            pass
        time.sleep(2)
        self.client.close()


class RandomBytes(Caller):
    """Sends bytes that hold no word of a command."""

    def pattern(self, line):
        line = line.removesuffix(b"\r")
        return rb"NO 20" if len(line) > 80 else rb"NO 21"

    def run(self, count, gather):
        self.connect()
        gather.wait()
        gather.wait()
        while self.lines < count:
            data = self.rng.randbytes(self.rng.randrange(1, 4000)) + b"\n"
            lines = data.split(b"\n")[:-1]
            if any(word in line.upper() for line in lines for word in WORDS):
                continue
            self.client.send(data)
            self.lines += len(lines)
            for line in lines:
                self.expect(line, self.client.line(), self.pattern(line))
        self.quit()


class LongLines(Caller):
    """Sends lines of 1 MiB, every second of which never ends."""

    def run(self, count, gather):
        self.connect()
        gather.wait()
        gather.wait()
        for turn in range(20):
            self.client.send(b"X" * MEBIBYTE)
            if turn % 2 == 0:
                self.lines += 1
                self.expect(b"1 MiB", self.client.ask(b""), rb"NO 20")
            else:
                self.client.close()
                self.connect()
        self.quit()


class QuitsEarly(Caller):
    """Sends lines after QUIT, which aren't answered; every reply up to BYE arrives."""

    def run(self, count, gather):
        self.connect()
        gather.wait()
        gather.wait()
        for _ in range(100):
            self.client.send(b"NOPE\nQUIT\n" + b"ENTER UNSENT\n" * 50)
            self.lines += 2
            self.expect(b"NOPE", self.client.line(), rb"NO 21")
            self.expect(b"QUIT", self.client.line(), rb"BYE")
            if not self.client.is_at_end():
                self.wrong.append("a stream didn't end well after BYE, with lines unread")
            self.client.close()
            self.connect()
        self.quit()


def work(kind, path, number, seed, count, gather, reports):
    caller = kind(path, number, seed)
    try:
        caller.run(count, gather)
    except Exception as fault:
        caller.wrong.append(f"{kind.__name__} stopped: {fault!r}")
        gather.abort()
    reports.put(caller.report())


def turned_away(path, wrong):
    """Checks that clients who come while all seats are taken read BUSY, whatever they send."""
    for sent in (b"", b"ENTER UNSENT\n", b"SHOW\n" * 1000):
        client = Client(path)
        try:
            if sent:
                client.send(sent)
        except OSError:
            pass
        try:
            reply = client.line()
        except OSError as fault:
            reply = fault
        if reply != b"BUSY":
            wrong.append(f"a client too many read {reply!r}")
        elif not client.is_at_end():
            wrong.append(f"a stream didn't end well after BUSY, {len(sent)} bytes unread")
        client.close()
    return 3


def last_session(path, left, wrong):
    """Uses up the sessions that are left. The last of them asks for the sheet, and a client who comes
    while it runs must not be let in."""
    for _ in range(left - 1):
        client = Client(path)
        client.ask(b"QUIT")
        client.is_at_end()
        client.close()
    last = Client(path)
    journal, table = last.sheet()
    try:
        late = Client(path)
        late.socket.settimeout(2)
        late.line()
        wrong.append("a client that came after the last was let in")
    except ConnectionError:
        pass
    except TimeoutError:
        wrong.append("a client that came after the last hangs")
    last.ask(b"QUIT")
    return journal, table


def replayed(program, words, text):
    run = subprocess.run([program, "replay"] + words, input=text, stdout=subprocess.PIPE, check=True)
    return run.stdout.split(b"\n")[:-1]


def judge(program, journal, accepted, table, printed, wrong):
    """Compares the journal with what clients read and what the program printed."""
    lines, role = [], None
    numbers = {}
    for entry in journal:
        seat, number, sent_as, command = entry.split(b" ", 3)
        if sent_as != role:
            role = sent_as
            lines.append(b"ROLE " + role)
        lines.append(command)
        numbers.setdefault(seat, []).append(int(number))
    replies = [line for line in replayed(program, [], b"\n".join(lines) + b"\n")
               if line.startswith(b"OK")]
    if len(replies) != len(journal):
        wrong.append(f"of {len(journal)} entries {len(replies)} are accepted by replay")
    for place, line, reply in accepted:
        command = journal[place - 1].split(b" ", 3)[3] if place <= len(journal) else None
        if command != line or replies[place - 1] != reply:
            wrong.append(f"{line!r} was answered {reply!r}; entry {place} is {command!r}")
    if len({place for place, _, _ in accepted}) != len(accepted):
        wrong.append("two commands have one place")
    for seat, sent in numbers.items():
        if sent != list(range(1, len(sent) + 1)):
            wrong.append(f"the numbers of seat {seat!r} don't rise one by one")
    if any(b"UNSENT" in entry for entry in journal):
        wrong.append("the journal has a line that wasn't finished")
    with tempfile.NamedTemporaryFile() as file:
        file.write(b"".join(line + b"\n" for line in [b"REGATTA 2"] + journal))
        file.flush()
        by_file = replayed(program, ["--journal", file.name], b"")
    if not by_file == table == printed:
        wrong.append("the tables of SHOW, of the program and of the replayed journal differ")


def soak(words, program, lines, seed):
    server = Server(words, SEATS, SESSIONS)
    kinds = [Talker] * TALKERS + [HangsUp, NeverReads, RandomBytes, LongLines, QuitsEarly]
    gather, reports = multiprocessing.Barrier(SEATS + 1), multiprocessing.Queue()
    processes = [multiprocessing.Process(target=work, args=(
        kind, server.path, i + 1, seed, lines // (TALKERS + 1), gather, reports))
        for i, kind in enumerate(kinds)]
    began = time.monotonic()
    for process in processes:
        process.start()
    wrong = []
    gather.wait(timeout=60)
    sessions = turned_away(server.path, wrong)
    gather.wait(timeout=60)
    told = [reports.get(timeout=600) for _ in processes]
    for process in processes:
        process.join()
    seconds = time.monotonic() - began
    time.sleep(0.5)
    memory = server.memory()
    sessions += sum(one[1] for one in told)
    journal, table = last_session(server.path, SESSIONS - sessions, wrong)
    status, printed, errors = server.end()
    if any(one[6] for one in told) and len(journal) < JOURNAL:
        wrong.append("a journal that isn't full was said to be")
    accepted = [one for report in told for one in report[4]]
    wrong += [text for report in told for text in report[5]]
    if status != 0 or errors:
        wrong.append(f"the program ended with status {status}: {errors!r}")
    judge(program, journal, accepted, table, printed.split(b"\n")[:-1], wrong)
    print(f"{sum(one[3] for one in told)} lines of {SEATS} clients in {sessions} sessions, "
          f"{sum(one[2] for one in told)} of them BUSY, in {seconds:.1f} s")
    print(f"{len(journal)} entries of {JOURNAL}, {len(accepted)} of them answered to a reader; "
          f"{memory:.1f} MiB at most")
    for text in wrong[:20]:
        print("WRONG:", text)
    print(f"{len(wrong)} wrong, seed {seed}")
    return 1 if wrong else 0
