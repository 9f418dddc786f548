"""Files are read whole, replaced whole and added to whole, whoever else writes in their folder."""
from __future__ import annotations

import errno
import os
import stat
import subprocess
import sys
import threading
import unittest
from collections.abc import Callable
from unittest import mock

import helpers
from raceoffice import files, system
from raceoffice.errors import Trouble
from raceoffice.program.replay import digest_of
from raceoffice.series import log
from raceoffice.series.folder import Folder


def mode(path: str) -> int:
    return stat.S_IMODE(os.lstat(path).st_mode)


class Replaced(helpers.Series):
    def setUp(self) -> None:
        super().setUp()
        self.path = os.path.join(self.here, "file")
        self.addCleanup(os.umask, os.umask(0o022))

    def test_modes(self) -> None:
        """A new file lets in this account alone, whatever the umask; a public one goes by it. An old file's
        mode stays."""
        for umask, public in [(0o000, 0o666), (0o002, 0o664), (0o022, 0o644), (0o077, 0o600)]:
            os.umask(umask)
            for name, is_public, wanted in [("a", False, 0o600), ("b", True, public)]:
                path = f"{self.path}{umask}{name}"
                files.replace_whole(path, b"1", is_public)
                self.assertEqual(mode(path), wanted)
                for kept in (0o640, 0o444, 0o755):
                    os.chmod(path, kept)
                    files.replace_whole(path, b"2", is_public)
                    self.assertEqual((mode(path), files.read_whole(path, 9)), (kept, b"2"))

    def test_stamp(self) -> None:
        """A file that was replaced has another stamp, also if the new one has as many bytes and came in the same moment."""
        files.replace_whole(self.path, b"15:07:31")
        moment, before = os.stat(self.path).st_mtime_ns, files.stamp_of(self.path)
        self.assertEqual(files.stamp_of(self.path), before)
        files.replace_whole(self.path, b"15:07:32")
        os.utime(self.path, ns=(moment, moment))
        self.assertNotEqual(files.stamp_of(self.path), before)

    def test_link(self) -> None:
        """A link of this account stays, and what it leads to is replaced; another's is replaced itself."""
        os.symlink("target", self.path)
        for data in (b"1", b"2"):
            files.replace_whole(self.path, data)
            self.assertEqual(os.readlink(self.path), "target")
            self.assertEqual(self.text("target"), data.decode())
        with mock.patch("os.geteuid", return_value=os.geteuid() + 1):
            files.replace_whole(self.path, b"3")
        self.assertEqual((self.text("target"), self.text("file"), os.path.islink(self.path)),
                         ("2", "3", False))

    def test_names_in_the_way(self) -> None:
        """Files that another account has put there are neither followed nor taken."""
        self.write("secret", "target")
        with mock.patch("secrets.token_hex", return_value="guessed"):
            os.symlink(os.path.join(self.here, "target"), os.path.join(self.here, ".guessed.new"))
            with self.assertRaisesRegex(Trouble, "can't be written: File exists"):
                files.replace_whole(self.path, b"1")
        self.assertEqual(self.text("target"), "secret")
        for number in range(os.getpid() - 5, os.getpid() + 5):
            os.symlink(os.path.join(self.here, "target"), f"{self.path}.{number}.new")
        files.replace_whole(self.path, b"1")
        self.assertEqual((self.text("target"), self.text("file")), ("secret", "1"))

    def test_no_plain_file(self) -> None:
        os.mkfifo(self.path)
        self.assertRaisesRegex(Trouble, "no plain file", files.replace_whole, self.path, b"1")
        self.assertRaisesRegex(Trouble, "no plain file", files.replace_whole, self.here, b"1")
        self.assertRaisesRegex(Trouble, "no plain file", files.append_whole, self.path, b"1")
        self.assertTrue(stat.S_ISFIFO(os.lstat(self.path).st_mode))

    def test_pipe_without_words(self) -> None:
        """A pipe in place of a file that may be missing has no text and no sum, whoever has it open."""
        os.mkfifo(self.path)
        with system.opened(self.path, os.O_RDWR):
            self.assertEqual(files.text_if_any(self.path), "")
        self.assertEqual(digest_of(self.path), "")

    def test_full_disk(self) -> None:
        """What can't be written whole leaves the old file, and no other."""
        files.replace_whole(self.path, b"old")
        before = sorted(os.listdir(self.here))
        with helpers.file_size(10):
            self.assertRaisesRegex(Trouble, "File too large", files.replace_whole, self.path, b"x" * 11)
        for call in ("fsync", "replace"):
            with mock.patch(f"os.{call}", side_effect=OSError(errno.EIO, "Input/output error")):
                self.assertRaisesRegex(Trouble, "Input/output error", files.replace_whole, self.path, b"new")
        self.assertEqual((self.text("file"), sorted(os.listdir(self.here))), ("old", before))


class Added(helpers.Series):
    def setUp(self) -> None:
        super().setUp()
        self.folder = Folder(os.path.join(self.here, "cup"))
        self.path = self.folder.file("office.log")

    def log(self, line: str = "SHOW", name: str = "Ann") -> None:
        self.folder.log(name, "1", "SCORER", line, "OK 1")

    def test_whole_or_not(self) -> None:
        """With room for a part of a line none of it is added, and the next line stands alone."""
        self.log()
        size = os.path.getsize(self.path)
        for room in (1, 20, size - 1):
            with helpers.file_size(size + room):
                self.assertRaisesRegex(Trouble, "^office.log can't be written: File too large$", self.log)
            self.assertEqual(os.path.getsize(self.path), size)
        with mock.patch("os.fsync", side_effect=OSError(errno.EIO, "Input/output error")):
            self.assertRaises(Trouble, self.log)
        self.assertEqual(os.path.getsize(self.path), size)
        self.log("QUIT")
        self.assertEqual([entry.line for entry in self.folder.logged()], ["SHOW", "QUIT"])

    def test_short_writes(self) -> None:
        """A write that takes a part is gone on with."""
        write = os.write
        with mock.patch("os.write", lambda number, data: write(number, data[:3])):
            self.log("FINISH 1 GBR101")
        self.assertEqual([entry.line for entry in self.folder.logged()], ["FINISH 1 GBR101"])

    def test_beside_another(self) -> None:
        """What can't be written whole is taken back, but not if another may have added a line meanwhile."""
        path, write = os.path.join(self.here, "log"), os.write

        def a_sign(number: int, data: bytes) -> int:
            """Writes a sign of a line, and has no room for the rest."""
            if data == b"two\n":
                return write(number, data[:1])
            raise OSError(errno.ENOSPC, "No space left on device")

        for is_alone, left in ((True, b"one\n"), (False, b"one\nt")):
            with open(path, "wb") as file:
                file.write(b"one\n")
            number = os.open(path, os.O_RDWR | os.O_APPEND)
            with mock.patch("os.write", a_sign), self.assertRaises(OSError):
                files.write_all(number, b"two\n", is_alone)
            os.close(number)
            with open(path, "rb") as read:
                self.assertEqual(read.read(), left)

    def test_endless(self) -> None:
        """Of a file with a terabyte of zeros no more is read than has room, and of such a log its end."""
        with open(self.path, "wb") as file:
            file.truncate(1 << 40)
        self.assertEqual(len(files.text_if_any(self.path)), files.LARGEST_SHOWN)
        with mock.patch.object(log, "READ_OF_END", 1 << 20):
            self.assertEqual(self.folder.logged(), [])
            self.log("SHOW")
            self.assertEqual([entry.line for entry in self.folder.logged()], ["SHOW"])

    def test_torn(self) -> None:
        """A line that a power cut has torn is never joined by the next, and counts nowhere."""
        self.log("SHOW")
        whole = files.read_whole(self.path, 999)
        for end in range(1, len(whole)):
            with open(self.path, "wb") as file:
                file.write(whole + whole[:end])
            self.assertEqual([entry.line for entry in self.folder.logged()], ["SHOW"], end)
            self.log("QUIT")
            self.assertEqual([entry.line for entry in self.folder.logged()], ["SHOW", "QUIT"], end)

    def test_no_sign_parts_it(self) -> None:
        """Whatever a name or a line holds is one column of one line."""
        odd = "Eva\rX\n\t\x85\u2028\x0b\x0c\x1c\0\udcff"
        self.log(odd, odd)
        self.log("QUIT")
        self.assertEqual([entry.line for entry in self.folder.logged()], [f"Eva X{' ' * 8}?", "QUIT"])

    def test_old_logs(self) -> None:
        """A carriage return that an older log has in a name parts no line."""
        self.write("2026-11-26T09:00:00+0000\t1\tEva\rX\t2\tSCORER\tSCORE 1\tOK 10\n", "cup", "office.log")
        self.assertEqual([entry.name for entry in self.folder.logged()], ["Eva\rX"])

    def test_side_by_side(self) -> None:
        """Lines of several windows don't mix, and one that has been stopped holds nobody up for long."""
        def log(at: int) -> None:
            for _ in range(20):
                self.log(f"RANK {at}{'x' * 5000}")

        threads = [threading.Thread(target=log, args=(at,)) for at in range(4)]
        for thread in threads:
            thread.start()
        for thread in threads:
            thread.join()
        self.assertEqual(len(self.folder.logged()), 80)
        holder = subprocess.Popen([sys.executable, "-c", "import fcntl, sys, time; f = open(sys.argv[1]); "
                                   "fcntl.flock(f, fcntl.LOCK_EX); print(flush=True); time.sleep(600)",
                                   self.path],
                                  stdout=subprocess.PIPE)
        self.addCleanup(holder.communicate)
        self.addCleanup(holder.kill)
        assert holder.stdout
        holder.stdout.readline()
        with mock.patch("raceoffice.files.PATIENCE", 0.05):
            self.log()
        self.assertEqual(len(self.folder.logged()), 81)

    def test_not_followed(self) -> None:
        """A log that is a link, a pipe or a folder is a sentence."""
        os.symlink("series.ini", self.path)
        before = self.text("cup", "series.ini")
        self.assertRaisesRegex(Trouble, "office.log can't be written", self.log)
        self.assertEqual(self.text("cup", "series.ini"), before)
        os.remove(self.path)
        os.mkfifo(self.path)
        self.assertRaisesRegex(Trouble, "office.log can't be written: it is no plain file", self.log)
        self.assertRaisesRegex(Trouble, "office.log is no plain file", self.folder.logged)
        os.remove(self.path)
        os.mkdir(self.path)
        self.assertRaisesRegex(Trouble, "office.log can't be written: Is a directory", self.log)
        self.assertRaisesRegex(Trouble, "office.log can't be read: Is a directory", self.folder.logged)
        for words in (("check", "cup"), ("open", "cup"), ("export", "cup", "--text")):
            said, status = helpers.run(*words, cwd=self.here)
            self.assertNotIn("Traceback", said)
            self.assertEqual((status, "office.log can't be read" in said), (1, True), said)

    def test_torn_journal(self) -> None:
        """What a crash has torn off is never added to a file that has another name, or is a link."""
        makes: dict[str, Callable[[str, str], object]] = {"linked": os.link, "symbolic": os.symlink}
        for name, make in makes.items():
            folder = Folder(self.make(name))
            self.write("1 1 SCORER ENTER A\n1 2 SC", name, "journal.txt")
            self.write("other", name, "other")
            make(folder.file("other"), folder.file("journal.txt.cut"))
            self.assertRaisesRegex(Trouble, "journal.txt.cut can't be written", folder.save_torn)
            self.assertEqual(self.text(name, "other"), "other")
        self.write("1 1 SCORER ENTER A\n1 2 SC", "cup", "journal.txt")
        self.folder.save_torn()
        self.assertEqual(self.text("cup", "journal.txt.cut"), "1 2 SC")


class Umask(helpers.Series):
    def test_series(self) -> None:
        """No file of a series lets another account in, whatever the umask under which it was made."""
        for umask in (0o000, 0o002):
            before, name = os.umask(umask), f"open{umask}"
            try:
                self.write(helpers.ENTRIES, f"{name}.csv")
                lines = ["Cup", "", "", f"{name}.csv", "1", "", "", "", f"{self.here}/stick", ""]
                os.makedirs(os.path.join(self.here, "stick"), exist_ok=True)
                said, status = helpers.run("new", name, lines="\n".join(lines), cwd=self.here)
                self.assertEqual(status, 0, said)
                text = self.text(name, "series.ini").replace("program = ", f"program = {helpers.PROGRAM}\n#")
                self.write(text, name, "series.ini")
                window = self.open(name)
                typist = self.client(name, "--role", "scorer", "--name", "Ann")
                typist.say("finish 1 101", "OK 8")
                typist.say("?", "> $")
                helpers.run("export", name, "--csv", f"{name}-out.csv", cwd=self.here)
                typist.type("quit")
                typist.rest()
                window.press()
                window.rest()
            finally:
                os.umask(before)
            found = [os.path.join(place, each)
                     for place, folders, names in os.walk(os.path.join(self.here, name))
                     for each in [*folders, *names]]
            self.assertGreater(len(found), 7)
            self.assertEqual([path for path in found if mode(path) & 0o077], [])
            self.assertEqual(mode(os.path.join(self.here, name)), 0o755)
            self.assertEqual(mode(os.path.join(self.here, f"{name}-out.csv")), 0o666 & ~umask)
        self.assertEqual(mode(os.path.join(self.here, "stick", "open0-journal.txt")), 0o600)


if __name__ == "__main__":
    unittest.main()
