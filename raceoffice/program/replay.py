"""A journal that the program scores again, perhaps with more lines after it. Nothing is kept of them:
they ask what the program would say."""
from __future__ import annotations

import hashlib
import os
import re
import stat
import subprocess
from collections.abc import Sequence
from dataclasses import dataclass

from raceoffice import system
from raceoffice.errors import Trouble
from raceoffice.program.link import Sheet
from raceoffice.program.messages import refusal
from raceoffice.remarks import Remark, remark, system_remark

# Seconds that the program may take for a replay, and for each 1,000 bytes of its journal.
PATIENCE, FOR_JOURNAL = 60.0, 1.0


@dataclass(frozen=True)
class Line:
    """A line of the program and the role that sends it."""
    role: str
    text: str

    def __str__(self) -> str:
        return self.text


def ran(program: str, words: list[str], typed: str = "", journal: bytes | None = None,
        boats: bytes | None = None) -> subprocess.CompletedProcess[str]:
    """A replay of these lines, run to its end, after the journal and the entry list that are given. The
    cause of a Trouble is why the program can't be run, or doesn't end."""
    try:
        with system.lent_files({"--journal": journal, "--entries": boats}) as (files, numbers):
            return subprocess.run([program, "replay", *words, *files], input=typed, capture_output=True,
                                  encoding="utf-8", errors="replace", timeout=patience(journal),
                                  pass_fds=numbers)
    except (OSError, subprocess.TimeoutExpired) as cause:
        raise not_run(program, cause) from cause


def patience(journal: bytes | None) -> float:
    return PATIENCE + FOR_JOURNAL * len(journal or b"") / 1000


def not_run(program: str, cause: OSError | subprocess.TimeoutExpired) -> Trouble:
    """Why a program can't be run, or doesn't end."""
    why = system_remark(cause) if isinstance(cause, OSError) and cause.strerror else remark("why-endless")
    return Trouble(remark("program-unrun", path=program, why=why))


def program_said(said: str) -> Remark:
    """What a program says of its own end."""
    return remark("program-says", said=said) if said else remark("program-says-nothing")


def printed(program: str, words: list[str], typed: str, journal: bytes | None = None,
            boats: bytes | None = None) -> list[str]:
    """What a replay prints for these lines, after the journal and the entry list that are given."""
    done = ran(program, words, typed, journal, boats)
    if done.returncode:
        raise Trouble(program_said(done.stderr.strip()))
    return done.stdout.splitlines()


def sheet_of(lines: list[str]) -> Sheet:
    """The sheet that a replay prints for SHOW."""
    head = re.fullmatch("JOURNAL ([0-9]{1,9})", lines[0]) if lines else None
    if not head or "END" not in lines:
        raise Trouble(remark("program-no-journal"))
    count = int(head[1])
    return Sheet(tuple(lines[1:count + 1]), tuple(lines[count + 1:lines.index("END")]))


def typed_lines(lines: Sequence[Line]) -> list[str]:
    """What is typed to send these lines, each in its role."""
    typed, role = [], "SCORER"
    for line in lines:
        if line.role != role:
            typed.append(f"ROLE {line.role}")
        role = line.role
        typed.append(line.text)
    return typed


def scored(program: str, options: list[str], journal: Sequence[str],
           lines: Sequence[Line] = ()) -> Sheet:
    """The sheet of a journal and of the lines after it. A Trouble names a line that is refused."""
    typed = typed_lines(lines)
    said = printed(program, options, "\n".join([*typed, "SHOW", "QUIT", ""]), bytes_of(journal))
    for line, answer in zip(typed, said):
        if not answer.startswith(("OK ", "ROLE ")):
            raise Trouble(remark("program-refuses", line=line, answer=answer, why=refusal(answer)))
    return sheet_of(said[len(typed):])


def bytes_of(journal: Sequence[str]) -> bytes:
    return "".join(f"{line}\n" for line in journal).encode()


KNOWN: dict[tuple[str, int, int], str] = {}


def digest_of(program: str) -> str:
    """The SHA-256 of the program's file; empty if it can't be read."""
    try:
        found = os.stat(program)
        key = (os.path.realpath(program), found.st_mtime_ns, found.st_size)
        if not stat.S_ISREG(found.st_mode):
            return ""
        if key not in KNOWN:
            with open(program, "rb") as file:
                KNOWN[key] = hashlib.sha256(file.read()).hexdigest()
    except OSError:
        return ""
    return KNOWN[key]
