"""The whole test fails if a part of it fails, or doesn't say that it passed."""
from __future__ import annotations

import hashlib
import os
import shutil
import subprocess
import tempfile
import textwrap
import unittest

import helpers

GOOD = ("61 passed, 0 failed", 0)
# What a part prints last and its status, how many of it passed, and how many failed.
ENDS = [
    (("205 passed, 0 failed", 0), 205, 0),
    (("204 passed, 1 failed", 1), 204, 1),
    (("203 passed, 2 failed", 0), 203, 2),
    (("205 passed, 0 failed", 1), 205, 1),
    (("205 passed, 0 failed", 137), 205, 1),
    (("0 passed, 0 failed", 0), 0, 1),
    (("Killed", 0), 0, 1),
    (("205 passed, 0 failed\nKilled", 0), 0, 1),
    (("", 0), 0, 1),
]


class Scripts(unittest.TestCase):
    """A script of tests/ in a folder of its own, whose parts are stand-ins."""

    def setUp(self) -> None:
        holder = tempfile.TemporaryDirectory()
        self.addCleanup(holder.cleanup)
        self.here = holder.name

    def copy(self, name: str) -> None:
        os.makedirs(os.path.join(self.here, "tests"), exist_ok=True)
        shutil.copy(os.path.join(helpers.TOP, "tests", name), os.path.join(self.here, "tests"))

    def stand_in(self, path: str, said: tuple[str, int]) -> None:
        """A part that prints this, and ends with this status."""
        path = os.path.join(self.here, path)
        os.makedirs(os.path.dirname(path), exist_ok=True)
        with open(path, "w", encoding="ascii") as file:
            file.write(f"#!/bin/sh\nprintf '%s\\n' 'first' '{said[0]}'\nexit {said[1]}\n")
        os.chmod(path, 0o755)

    def ran(self, *words: str, path: str = os.environ["PATH"]) -> tuple[str, int]:
        """The last line of a script, and its status; all that it prints is in `printed`."""
        environment = {**os.environ, "PATH": os.path.join(self.here, "bin") + os.pathsep + path,
                       "TIMES": os.path.join(self.here, "times")}
        done = subprocess.run([os.path.join(self.here, words[0]), *words[1:]], text=True,
                              stdin=subprocess.DEVNULL, stdout=subprocess.PIPE,
                              stderr=subprocess.STDOUT, env=environment)
        self.printed = done.stdout.splitlines()
        return self.printed[-1], done.returncode

    def only(self, *names: str) -> str:
        """A folder in which a script finds these programs and no others."""
        folder = os.path.join(self.here, "only")
        os.mkdir(folder)
        for name in names:
            os.symlink(shutil.which(name) or name, os.path.join(folder, name))
        return folder


class Gate(Scripts):
    def setUp(self) -> None:
        super().setUp()
        self.copy("gate.sh")
        self.stand_in("tests/all.sh", GOOD)
        self.stand_in("bin/rt", GOOD)

    def test_gate(self) -> None:
        """What `rt ci` says, and what the checks say, counts alike."""
        for part in ("bin/rt", "tests/all.sh"):
            for said, passed, failed in ENDS:
                with self.subTest(part=part, said=said):
                    self.stand_in(part, said)
                    self.assertEqual(self.ran("tests/gate.sh"), (
                        f"{61 + passed} passed, {failed} failed", 1 if failed else 0))
            self.stand_in(part, GOOD)

    @unittest.skipUnless(shutil.which("git"), "there is no git here")
    def test_what_is_tried(self) -> None:
        """It names the commit, says if there are changes, and names the kit and both programs."""
        programs = ["crates/regatta/out/regatta", "crates/times/out/times"]
        for path in programs:
            self.stand_in(path, GOOD)

        def git(*words: str) -> str:
            who = ["-c", "user.name=A. Moss", "-c", "user.email=moss@example.org"]
            return subprocess.run(["git", *who, *words], cwd=self.here, check=True, text=True,
                                  stdout=subprocess.PIPE).stdout.strip()

        git("init", "-q")
        git("add", "-A")
        git("commit", "-q", "-m", "All")
        for changes in ("", " with changes"):
            if changes:
                self.stand_in("more", GOOD)
            self.ran("tests/gate.sh")
            self.assertEqual(self.printed[:2], [f"commit {git('rev-parse', 'HEAD')}{changes}", "kit first"])
            for path in programs:
                with open(os.path.join(self.here, path), "rb") as file:
                    self.assertIn(f"{hashlib.sha256(file.read()).hexdigest()}  {path}", self.printed[:-1])

    @unittest.skipUnless(shutil.which("git"), "there is no git here")
    def test_changed_meanwhile(self) -> None:
        """What is changed or checked out while it runs is named before its last line."""
        who = "-c user.name=A.Moss -c user.email=moss@example.org"
        commit = f"git {who} add -A && git {who} commit -q -m More"
        subprocess.run(f"git init -q && {commit}", shell=True, cwd=self.here, check=True)
        for more, changes in [(commit, ""), ("touch another", " with changes")]:
            path = os.path.join(self.here, "tests", "all.sh")
            with open(path, "w", encoding="ascii") as file:
                file.write(f"#!/bin/sh\necho new > new\n{more}\necho '{GOOD[0]}'\n")
            subprocess.run(commit, shell=True, cwd=self.here, check=True)
            self.ran("tests/gate.sh")
            head = subprocess.run(["git", "rev-parse", "HEAD"], cwd=self.here, check=True, text=True,
                                  stdout=subprocess.PIPE).stdout.strip()
            self.assertEqual(self.printed[-2], f"commit {head}{changes}")
            self.assertNotEqual(self.printed[0], self.printed[-2])

    def test_missing_part(self) -> None:
        os.remove(os.path.join(self.here, "tests", "all.sh"))
        self.assertEqual(self.ran("tests/gate.sh"), ("61 passed, 1 failed", 1))

    def test_both_fail(self) -> None:
        self.stand_in("bin/rt", ("3 passed, 2 failed", 1))
        self.stand_in("tests/all.sh", ("4 passed, 5 failed", 1))
        self.assertEqual(self.ran("tests/gate.sh"), ("7 passed, 7 failed", 1))


class Merge(Scripts):
    """What a merge runs, where nothing of what the checks use is installed."""

    def setUp(self) -> None:
        super().setUp()
        self.stand_in("tests/gate.sh", GOOD)
        os.mkdir(os.path.join(self.here, ".ci"))
        shutil.copy(os.path.join(helpers.TOP, ".ci", "run"), os.path.join(self.here, ".ci"))
        # Whoever isn't root asks sudo.
        self.path = self.only("bash", "sh", "dirname", "realpath", "env", "timeout", "id", "printf")
        os.symlink(shutil.which("env") or "env", os.path.join(self.path, "sudo"))
        self.stand_in("bin/apt-get", ("Setting up", 0))

    def test_installed(self) -> None:
        """What is installed is shown, and the whole test ends as it ends."""
        for said in (GOOD, ("3 passed, 2 failed", 1), ("Killed", 137)):
            self.stand_in("tests/gate.sh", said)
            self.assertEqual(self.ran(".ci/run", path=self.path), said)
            self.assertIn("chromium poppler-utils mypy pyflakes3 gcc", self.printed[0])
            self.assertEqual(self.printed.count("Setting up"), 2)
            self.assertNotIn("not installed", " ".join(self.printed))

    def test_not_installed(self) -> None:
        """A test that can't have all it uses runs all the same."""
        self.stand_in("bin/apt-get", ("E: no network", 100))
        self.assertEqual(self.ran(".ci/run", path=self.path), GOOD)
        self.assertIn("E: no network", self.printed)
        self.assertIn("not installed: chromium", " ".join(self.printed))


class All(Scripts):
    PARTS = ("examples/check.sh", "bench/links.py", "bench/statement.py", "tests/times_exact.py",
             "bin/mypy", "bin/pyflakes3")

    def setUp(self) -> None:
        super().setUp()
        self.copy("all.sh")
        for part in (*self.PARTS, "times"):
            self.stand_in(part, ("as it was", 0))
        self.stand_in("tests/run.py", GOOD)

    def test_all(self) -> None:
        for said, passed, failed in ENDS:
            if not said[0].startswith("0 "):
                with self.subTest(said=said):
                    self.stand_in("tests/run.py", said)
                    self.assertEqual(self.ran("tests/all.sh", "/bin/true"), (
                        f"{len(self.PARTS) + passed} passed, {failed} failed", 1 if failed else 0))
        self.stand_in("tests/run.py", GOOD)
        for part in self.PARTS:
            with self.subTest(part=part):
                self.stand_in(part, ("1c1", 1))
                self.assertEqual(self.ran("tests/all.sh", "/bin/true"), ("66 passed, 1 failed", 1))
            self.stand_in(part, ("as it was", 0))

    def test_missing(self) -> None:
        """What a part needs and isn't here is said, and the part counts as neither."""
        path = self.only("bash", "sh", "dirname", "realpath", "mktemp", "rm", "tee", "tail", "printf")
        for name, part in (("bin/mypy", "types"), ("bin/pyflakes3", "names"), ("times", "times")):
            os.remove(os.path.join(self.here, name))
            self.ran("tests/all.sh", "/bin/true", path=path)
            self.assertRegex(" ".join(self.printed), f"not tried: [a-z ]*{part}.*there is no ")
        self.assertEqual(self.ran("tests/all.sh", "/bin/true", path=path), ("64 passed, 0 failed", 0))

    def test_run(self) -> None:
        """`run.py` counts each check once, and fails if there is nothing to try."""
        self.copy("run.py")
        parts = "for at in range(3):\n            with self.subTest(at=at): self.fail()"
        for text, end in [(parts, ("0 passed, 1 failed", 1)),
                          ("self.skipTest('')", ("0 passed, 0 failed", 0)),
                          ("self.fail()", ("0 passed, 1 failed", 1)), ("1 / 0", ("0 passed, 1 failed", 1)),
                          ("pass", ("1 passed, 0 failed", 0)), ("", ("0 passed, 0 failed", 1))]:
            body = f"class T(unittest.TestCase):\n    def test(self):\n        {text}\n" if text else ""
            with open(os.path.join(self.here, "tests", "test_one.py"), "w", encoding="ascii") as file:
                file.write(f"import unittest\n{body}")
            self.assertEqual(self.ran("tests/run.py", "/bin/true"), end)

    def test_run_side_by_side(self) -> None:
        """What a check prints comes with it, one that ends its process has failed, and the others
        are tried all the same."""
        self.copy("run.py")
        self.write("test_one.py", """
            import os, time, unittest
            class One(unittest.TestCase):
                def test_first(self): print("a"); os.system("echo b"); time.sleep(0.2); print("c")
                def test_second(self): print("d"); time.sleep(0.1); print("e")
                def test_third(self): os._exit(7)
                def test_fourth(self): self.skipTest("no wind")
            class Two(unittest.TestCase):
                @classmethod
                def setUpClass(cls): cls.count = 0
                def test_first(self): type(self).count += 1
                def test_second(self): self.assertEqual(self.count, 1)""")
        self.write("test_two.py", "import nothing_of_this_name")
        self.assertEqual(self.ran("tests/run.py", "/bin/true"), ("4 passed, 2 failed", 1))
        printed = "\n".join(self.printed)
        self.assertIn("Printed by these:\na\nb\nc\n", printed)
        self.assertIn("Printed by these:\nd\ne\n", printed)
        self.assertIn("not tried: test_one.One.test_fourth: no wind\n", printed)
        self.assertIn("its process ended with status 7\n", printed)
        self.assertIn("No module named 'nothing_of_this_name'", printed)
        self.assertIn("failed: test_one.One.test_third\n", printed)
        self.assertEqual(self.ran("tests/run.py", "/bin/true", "test_one.Two.test_first"),
                         ("1 passed, 0 failed", 0))

    def test_run_compiled(self) -> None:
        """A process whose files may not grow leaves no half of a compiled module to the checks after it."""
        self.copy("run.py")
        self.write("late.py", "NUMBERS = " + repr([[at] for at in range(1000)]))
        self.write("test_one.py", """
            import os, subprocess, sys, unittest
            class One(unittest.TestCase):
                def test_limited(self): self.asked("trap '' XFSZ; ulimit -f 1; ")
                def test_others(self): self.asked("")
                def asked(self, before):
                    command = before + f"'{sys.executable}' -c 'import late'"
                    self.assertEqual(subprocess.run(["sh", "-c", command], cwd=os.path.dirname(__file__)).returncode, 0)""")
        self.assertEqual(self.ran("tests/run.py", "/bin/true", "--workers", "1"), ("2 passed, 0 failed", 0))

    def write(self, name: str, text: str) -> None:
        with open(os.path.join(self.here, "tests", name), "w", encoding="ascii") as file:
            file.write(textwrap.dedent(text))


if __name__ == "__main__":
    unittest.main()
