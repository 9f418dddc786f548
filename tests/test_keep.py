"""`regatta serve --keep`: what a kept file is opened as, what is said of it, and that it survives a kill.
`bench/keep.py` tries crashes and failures at length."""
from __future__ import annotations

import contextlib
import os
import signal
import socket
import stat

from kept import DEVICE, FAULT, NO_PERMISSION, VERSION, Kept

A, B, C = (f"1 {at} SCORER ENTER {sail}\n" for at, sail in enumerate("ABC", 1))
MANY = range(100, 200)
# What a file has, the journal file and the entry list; what the file has once the office serves.
STARTS = [
    ("", "", "Sail\nA\nB\n", VERSION + A + B),
    (VERSION + A, "", "Sail\nA\nB\n", VERSION + A + B),
    (VERSION + A + B, "", "Sail\nA\nB\n", VERSION + A + B),
    (VERSION + A + B, "", "Sail\nB\n", VERSION + A + B),
    ("", VERSION + A + B, "Sail\n", VERSION + A + B),
    ("", VERSION + A, "Sail\na\nb\n", VERSION + A + B),
    (VERSION + A, VERSION + A + B, "Sail\nC\n", VERSION + A + B + C),
    (VERSION + A + B, VERSION + A, "Sail\nC\n", VERSION + A + B + C),
    # More boats than are kept at a time.
    ("", "", "Sail\n" + "".join(f"{sail}\n" for sail in MANY),
     VERSION + "".join(f"1 {at} SCORER ENTER {sail}\n" for at, sail in enumerate(MANY, 1))),
    # An older journal, and one that was written by hand, go on as they are.
    (A, "", "Sail\nB\n", A + B),
    ("regatta 2\r\n1 1 scorer enter a\r\n", "", "Sail\nB\n", "regatta 2\r\n1 1 scorer enter a\r\n" + B),
]
# What a file has, the journal file, and what is said of it. It stays as it was.
FAULTS = [
    ("Sail\nA\n", "", "keep journal fault 1 line 1"),
    (VERSION + A + "X\n", "", "keep journal fault 1 line 3"),
    ("REGATTA 3\n", "", "keep journal fault 4 line 1"),
    ("SQLite format 3\0\x10\0", "", "keep damaged after line 0"),
    ("A list without line ends", "", "keep damaged after line 0"),
    ("\0\0\0\0", "", "keep damaged after line 0"),
    (VERSION + A + "1 2 SCORER \0\n" + B, "", "keep damaged after line 2"),
    (VERSION + A + "1" * 4097, "", "keep damaged after line 2"),
    (VERSION + A, VERSION + "1 1 SCORER ENTER X\n", "keep differs at 1"),
    (VERSION + A + B + "1 3 SC", VERSION + A + "1 2 SCORER ENTER X\n" + C, "keep differs at 2"),
    (VERSION + "1 1 SCORER FINISH 1 A\n", "", "start refused 7 at 1"),
    (VERSION + "1 1 SCORER FINISH 1 A\n1 2 SC", "", "start refused 7 at 1"),
    ("\n" * 1_048_577, "", "keep too long"),
]
# The end of a file, and how it is shown.
CUTS = [("1 2 SCORER ENTER B", "1 2 SCORER ENTER B"), ("1 2 SC\0\n", "1 2 SC??"), ("\0\0", "??")]


def entries(length: int) -> list[str]:
    """A journal of so many entries: a boat finishes, and is struck, again and again."""
    race = ["FINISH 1 A", "STRIKE 1 A"]
    return ["1 1 SCORER ENTER A", *(f"1 {at} SCORER {race[at % 2]}" for at in range(2, length + 1))]


class Keeping(Kept):
    def test_starts(self) -> None:
        for kept, journal, boats, wanted in STARTS:
            self.write(self.kept, kept)
            self.write(self.journal, journal)
            self.write(self.boats, boats)
            with self.subTest(kept=kept, journal=journal, boats=boats):
                for _ in range(2):
                    office, link = self.opened("--journal", self.journal, "--entries", self.boats)
                    # Nobody is answered before the start is kept.
                    link.ask("RANK A")
                    link.close()
                    self.killed(office)
                    self.assertEqual(self.text(), wanted)

    def test_long_journal(self) -> None:
        """A start of 4,097 entries is kept in batches. A client who comes to this number is answered, shown
        it, and goes on. No other check has a journal of this length."""
        lines = entries(4097)
        whole = VERSION + "".join(f"{line}\n" for line in lines)
        self.write(self.journal, whole)
        office, link = self.opened("--journal", self.journal)
        self.assertEqual(link.sheet().journal, tuple(lines))
        self.assertEqual(self.text(), whole)
        self.killed(office)
        self.write(self.kept, whole[:-len(lines[-1]) - 1])
        office, link = self.opened()
        for line, reply in [("ENTER B", "OK 4097 1= 0.0"), ("RANK B", "RANK 1= 0.0"), ("ENTER B", "NO 6"),
                            ("ENTER C", "OK 4098 1= 0.0"), ("RANK B", "RANK 1= 0.0")]:
            self.assertEqual(link.ask(line), reply)
            self.assertEqual(link.sheet().journal[:4096], tuple(lines[:-1]))
        self.killed(office)
        self.assertEqual(self.text().count("\n"), 4099)

    def test_faults(self) -> None:
        """A file with a fault is named, and stays as it was."""
        for kept, journal, said in FAULTS:
            self.write(self.kept, kept)
            self.write(self.journal, journal)
            with self.subTest(said):
                self.assertEqual(self.said("--journal", self.journal), ("", f"regatta: {said}\n", 1))
                self.assertEqual(self.text(), kept)

    def test_cuts(self) -> None:
        """A torn end is shown, saved and cut off."""
        saved = ""
        for end, shown in CUTS:
            self.write(self.kept, VERSION + A + end)
            with self.subTest(end):
                note = f"regatta: keep cut {len(end)} bytes after line 2\n{shown}\n"
                self.assertEqual(self.said(), ("", note + DEVICE, 3))
                self.assertEqual(self.text(), VERSION + A)
                saved += end
                self.assertEqual(self.text(".cut"), saved)

    def test_devices(self) -> None:
        """A file that can't be opened or made, or is no plain file, is a fault."""
        for path in ("/no/such/folder/kept", "/dev/null", os.path.dirname(self.kept)):
            self.kept = path
            self.assertEqual(self.said(), ("", FAULT, 3))

    def test_no_permission(self) -> None:
        """A file that may not be written is named as such. Nobody may write this one."""
        self.kept = "/proc/sys/kernel/ostype"
        self.assertEqual(self.said(), ("", NO_PERMISSION, 3))

    def test_pipes(self) -> None:
        """A pipe under a name that the opening of a torn file wants is refused, and left."""
        for end in (".cut", ".opening"):
            self.write(self.kept, VERSION + A + "1 2 SC")
            os.mkfifo(self.kept + end)
            with self.subTest(end):
                self.assertEqual(self.said()[1:], (FAULT, 3))
                self.assertEqual(self.text(), VERSION + A + "1 2 SC")
            os.remove(self.kept + end)

    def test_rules_first(self) -> None:
        """Rules, journal file and entry list are read before a file is made."""
        self.write(self.boats, "Boat\nX\n")
        for words, said, status in [(["--scp", "0"], "rules fault 1", 2),
                                    (["--journal", "/no/such/file"], "device fault", 3),
                                    (["--entries", self.boats], "entries fault 1 row 1", 1)]:
            self.assertEqual(self.said(*words), ("", f"regatta: {said}\n", status))
            self.assertFalse(os.path.exists(self.kept))

    def test_links_beside(self) -> None:
        """What is cut off goes into a plain file beside, and never where a link or a second name of it
        leads. The file stays as it was."""
        other, torn = self.kept + "-other", VERSION + A + "1 2 SC"
        self.write(self.kept, torn)
        os.symlink(other, self.kept + ".cut")
        self.assertEqual(self.said(), ("", FAULT, 3))
        self.assertFalse(os.path.exists(other))
        self.write(other, "mine\n")
        for is_link in (True, False):
            os.remove(self.kept + ".cut")
            if is_link:
                os.symlink(other, self.kept + ".cut")
            else:
                os.link(other, self.kept + ".cut")
            with self.subTest(is_link=is_link):
                self.assertEqual(self.said(), ("", FAULT, 3))
                self.assertEqual((self.text("-other"), self.text()), ("mine\n", torn))

    def test_permissions(self) -> None:
        """The file keeps its permissions, and what is cut off has the same, whatever is usual here."""
        for mode in (0o600, 0o640, 0o606):
            self.write(self.kept, VERSION + A + "1 2 SC")
            os.chmod(self.kept, mode)
            with self.subTest(oct(mode)):
                self.assertEqual(self.said()[2], 3)
                for end in ("", ".cut"):
                    self.assertEqual(stat.S_IMODE(os.stat(self.kept + end).st_mode), mode)
            os.remove(self.kept + ".cut")

    def test_two_names(self) -> None:
        """A file with a second name is refused; a link to one isn't."""
        self.write(self.kept, VERSION + A)
        other = self.kept + "-link"
        os.link(self.kept, other)
        self.assertEqual(self.said(), ("", FAULT, 3))
        os.unlink(other)
        os.symlink(self.kept, other)
        self.kept = other
        self.assertEqual(self.said(), ("", DEVICE, 3))
        self.assertTrue(os.path.islink(other))

    def test_killed(self) -> None:
        """What was answered is there when the same command is given again; nobody else has the file."""
        self.write(self.boats, "Sail\nA\nB\n")
        words = ["--entries", self.boats]
        office, link = self.opened(*words)
        self.assertEqual(link.ask("FINISH 1 B"), "OK 3 1= 0.0")
        self.assertEqual(self.text(), VERSION + A + B + "1 3 SCORER FINISH 1 B\n")
        self.assertEqual(self.said(path=self.path + "2"), ("", "regatta: keep taken\n", 3))
        self.killed(office)
        _, link = self.opened(*words)
        self.assertEqual(link.sheet().journal[2:], ("1 3 SCORER FINISH 1 B",))

    def test_path_that_is_there(self) -> None:
        """An office that can't make its socket adds nothing, and ends none that is open there."""
        self.write(self.kept, VERSION + A)
        self.write(self.boats, "Sail\nB\n")
        with contextlib.closing(socket.socket(socket.AF_UNIX)) as other:
            other.bind(self.path)
            other.listen()
            other.setblocking(False)
            self.assertEqual(self.said("--entries", self.boats, path=self.path), ("", DEVICE, 3))
            self.assertRaises(BlockingIOError, other.accept)
        self.assertEqual(self.text(), VERSION + A)

    def test_stopped_and_continued(self) -> None:
        """A client who waits stays when the office's window is stopped and goes on (Ctrl-Z, fg)."""
        office, link = self.opened()
        self.assertEqual(link.ask("ENTER A"), "OK 1 1 0.0")
        office.send_signal(signal.SIGSTOP)
        os.waitpid(office.pid, os.WUNTRACED)
        office.send_signal(signal.SIGCONT)
        self.assertEqual(link.ask("ENTER B"), "OK 2 1= 0.0")
