"""The stored evening: three clients at one office, and a fourth who finds no seat."""
from __future__ import annotations

import os
import tempfile
import unittest

import helpers
from raceoffice.errors import NoSeat, Trouble
from raceoffice.program.link import Link

EXAMPLES = os.path.join(helpers.TOP, "examples")
SEATS, SESSIONS = 3, 4


def steps() -> list[tuple[str, bool, str]]:
    """Whose line each of the talk is, whether she sends it, and the line."""
    with open(os.path.join(EXAMPLES, "evening.talk"), encoding="ascii") as talk:
        lines = [line.rstrip("\n").partition(" ") for line in talk]
    return [(name[:-1], name[-1] == ">", line) for name, _, line in lines]


def last_journal() -> list[str]:
    """The journal that the last SHOW of the talk gives: nothing is entered after it."""
    lines = [line for _, is_sent, line in steps() if not is_sent]
    start = max(at for at, line in enumerate(lines) if line.startswith("JOURNAL "))
    return lines[start + 1:start + 1 + int(lines[start].split()[1])]


class Evening(unittest.TestCase):
    def test_talk(self) -> None:
        """What a client reads is what the talk has, in its order. After BYE and BUSY the stream
        ends; at last the program ends with status 0 and its table."""
        holder = tempfile.TemporaryDirectory()
        self.addCleanup(holder.cleanup)
        kept = os.path.join(holder.name, "evening.journal")
        words = ["--clients", str(SEATS), "--sessions", str(SESSIONS), "--keep", kept, "--entries",
                 os.path.join(EXAMPLES, "boats.csv")]
        links: dict[str, Link] = {}
        with helpers.served(*words) as (path, serving):
            for at, (name, is_sent, line) in enumerate(steps(), 1):
                if name not in links:
                    links[name] = Link(path, helpers.PATIENCE)
                    self.addCleanup(links[name].close)
                with self.subTest(line=at):
                    if is_sent:
                        links[name].socket.sendall(line.encode() + b"\n")
                    elif line == "BUSY":
                        self.assertRaises(NoSeat, links[name].line)
                    else:
                        self.assertEqual(links[name].line(), line)
                    if line in ("BYE", "BUSY"):
                        self.assertRaises(Trouble, links[name].line)
            printed, _ = serving.communicate(timeout=helpers.PATIENCE)
        with open(os.path.join(EXAMPLES, "evening.table"), encoding="ascii") as table:
            self.assertEqual((printed, serving.returncode), (table.read(), 0))
        with open(kept, encoding="ascii") as journal:
            self.assertEqual(journal.read().splitlines(), ["REGATTA 2", *last_journal()])


if __name__ == "__main__":
    unittest.main()
