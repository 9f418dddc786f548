#!/usr/bin/env python3
"""Runs a built `regatta` on hostile input, and reports each run that ended badly.

    bench/hostile.py PROGRAM [SEED]

The input is random bytes, junk up to the limit and past it, long lines, and lines of known words in
random order. Start files are made of all these, too. A run may end with status 0 or 1, and with at
most one line on standard error. A crash, a signal or another status is reported, and the script then
ends with status 1.
"""
import os
import random
import subprocess
import sys
import tempfile

WORDS = ("ENTER FINISH TIE BEFORE TIME STRIKE MARK PENALTY REDRESS CLEAR SCORE UNSCORE ROLE RANK "
         "SHOW QUIT FINISH JURY SCORER ALL PRIOR DNF DSQ DNE ZFP SCP A B C 1 2 40 41 0 7.5 999.9 "
         "1000 3600 3605 999999 1000000 enter \xff GBR-123 GBRGBRGBRGBRG").split()


def lines_of_words(rng, count):
    """Lines of random words. There are few boats and races, so that some lines are accepted."""
    return "\n".join(" ".join(rng.choices(WORDS, k=rng.randint(0, 6))) for _ in range(count))


def inputs(rng):
    yield "no bytes", b""
    yield "all bytes", bytes(range(256)) * 4
    for size in (1, 100, 10_000, 1_048_575, 1_048_576, 1_048_577, 3_000_000):
        yield f"{size} random bytes", rng.randbytes(size)
        yield f"{size} bytes X", b"X" * size
        yield f"{size} line feeds", b"\n" * size
    for count in (10, 1000, 50_000):
        yield f"{count} lines of words", lines_of_words(rng, count).encode("latin-1")
    yield "long lines", b"\n".join(b"ENTER " + b"A" * n for n in range(0, 300))
    yield "SHOW without end", b"ENTER A\n" + b"SHOW\n" * 20_000
    yield "carriage returns", b"\r\n".join([b"ENTER A\r", b"SHOW", b"QUIT\r\r"])
    yield "a version line", b"REGATTA 2\r\n" + lines_of_words(rng, 100).encode("latin-1")
    yield "another version", b"REGATTA 3\n1 1 SCORER ENTER A\n"
    for count in (8192, 8193):
        entries = "".join(f"1 {n + 1} SCORER ENTER S{n}\n" for n in range(count))
        yield f"{count} entries", b"REGATTA 2\n" + entries.encode()


def main():
    program = os.path.abspath(sys.argv[1])
    seed = int(sys.argv[2]) if len(sys.argv) > 2 else 1
    rng = random.Random(seed)
    runs, wrong, statuses = 0, 0, {}
    with tempfile.TemporaryDirectory() as folder:
        path = os.path.join(folder, "file")
        for name, data in inputs(rng):
            with open(path, "wb") as f:
                f.write(data)
            for words in ([], ["--journal", path], ["--entries", path], ["--print", "csv"],
                          ["--handicap"], ["--handicap", "--journal", path]):
                stdin = b"ENTER Z\nSHOW\n" if path in words else data
                run = subprocess.run([program, "replay"] + words, input=stdin, timeout=120,
                                     stdout=subprocess.DEVNULL, stderr=subprocess.PIPE)
                runs += 1
                statuses[run.returncode] = statuses.get(run.returncode, 0) + 1
                if run.returncode not in (0, 1) or len(run.stderr.split(b"\n")) > 2:
                    wrong += 1
                    print(f"{name} {words[:1]}: status {run.returncode}, {run.stderr[:80]!r}")
    print(f"{runs} runs with seed {seed}, {wrong} wrong, statuses {statuses}")
    return 1 if wrong else 0


if __name__ == "__main__":
    sys.exit(main())
