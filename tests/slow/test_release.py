"""A release is made of a commit that was tried, and of nothing else; what it holds plays the guide alone."""
from __future__ import annotations

import os
import re
import shutil
import subprocess
import tempfile
import unittest

import guide
import helpers
from raceoffice.version import VERSION

NEEDED = ["git", "tar", "xz", "gzip", "dpkg-deb"]
MISSING = [name for name in NEEDED if not shutil.which(name)]
ARCHIVE, PACKAGE = f"regatta-{VERSION}-x86_64.tar.xz", f"regatta_{VERSION}-1_amd64.deb"
KIT = "rattle-kit-0 logic 0123456789abcdef"
# What a release is made of, besides the programs.
PARTS = ["raceoffice", "docs", "packaging", ".gitignore"]
LEFT_OUT = shutil.ignore_patterns("__pycache__", "out", "commit.txt")
PROGRAMS = {"crates/regatta/out/regatta": helpers.PROGRAM, "crates/times/out/times": helpers.TIMES}
# A commit has this author and this date, and so the same name in each clone.
GIT = {"GIT_CONFIG_GLOBAL": "/dev/null", "GIT_CONFIG_NOSYSTEM": "1", "PATH": os.environ["PATH"],
       **{f"GIT_{who}_{what}": text for who in ("AUTHOR", "COMMITTER") for what, text in {
           "NAME": "A. Moss", "EMAIL": "moss@example.org", "DATE": "1790000000 +0200"}.items()}}


class Clone:
    """A repository with one commit: what a release is made of, as it is in this tree, and both programs."""

    def __init__(self, folder: str) -> None:
        self.folder = folder
        for part in PARTS:
            source, place = os.path.join(helpers.TOP, part), os.path.join(folder, part)
            if os.path.isdir(source):
                shutil.copytree(source, place, ignore=LEFT_OUT)
            else:
                shutil.copy(source, place)
        for path, program in PROGRAMS.items():
            os.makedirs(os.path.dirname(self.file(path)))
            shutil.copy(program, self.file(path))
        for words in (["init", "-q"], ["add", "-A"], ["commit", "-q", "-m", "All"]):
            self.git(*words)
        self.commit = self.git("rev-parse", "HEAD").strip()
        sums = self.ran("sha256sum", *PROGRAMS)[1].splitlines()
        self.log = [f"commit {self.commit}", f"kit {KIT}", "205 passed, 0 failed", *sums,
                    "301 passed, 0 failed"]

    def file(self, *names: str) -> str:
        return os.path.join(self.folder, *names)

    def ran(self, *words: str, umask: int = -1) -> tuple[int, str]:
        done = subprocess.run(words, cwd=self.folder, env=GIT, umask=umask, text=True, stdout=subprocess.PIPE,
                              stderr=subprocess.STDOUT, timeout=10 * helpers.PATIENCE)
        return done.returncode, done.stdout

    def git(self, *words: str) -> str:
        status, said = self.ran("git", *words)
        if status:
            raise AssertionError(said)
        return said

    def released(self, log: list[str], version: str = VERSION, umask: int = -1) -> tuple[int, str]:
        """What a release with this log says, and its status."""
        with tempfile.NamedTemporaryFile("w", encoding="utf-8") as file:
            file.write("".join(f"{line}\n" for line in log))
            file.flush()
            return self.ran("packaging/release.sh", version, file.name, umask=umask)

    def out(self) -> dict[str, bytes]:
        """The files that were made, and what they hold."""
        folder, found = self.file("packaging", "out"), {}
        for name in os.listdir(folder) if os.path.isdir(folder) else []:
            with open(os.path.join(folder, name), "rb") as file:
                found[name] = file.read()
        return found


def ended(trial: unittest.TestCase, *words: str, cwd: str) -> str:
    """What a command prints that ends well."""
    done = subprocess.run(words, cwd=cwd, text=True, stdout=subprocess.PIPE, stderr=subprocess.STDOUT,
                          timeout=10 * helpers.PATIENCE)
    trial.assertEqual(done.returncode, 0, done.stdout)
    return done.stdout


@unittest.skipIf(MISSING, f"there is no {' and no '.join(MISSING)} here")
@helpers.needs_times
class Releases(unittest.TestCase):
    """A release, made once and unpacked as the archive and as the package."""
    here: str
    clone: Clone

    @classmethod
    def setUpClass(cls) -> None:
        cls.here = tempfile.mkdtemp()
        cls.addClassCleanup(shutil.rmtree, cls.here)
        cls.clone = Clone(os.path.join(cls.here, "first"))
        status, said = cls.clone.released(cls.clone.log)
        if status:
            raise AssertionError(said)

    def unpacked(self, *words: str) -> str:
        """An empty folder in which a command has unpacked a part of the release."""
        folder = tempfile.mkdtemp(dir=self.here)
        ended(self, *words, cwd=folder)
        return folder

    def archive(self) -> str:
        folder = self.unpacked("tar", "-xf", self.clone.file("packaging", "out", ARCHIVE))
        self.assertEqual(os.listdir(folder), [ARCHIVE.removesuffix(".tar.xz")])
        return os.path.join(folder, ARCHIVE.removesuffix(".tar.xz"))

    def package(self) -> str:
        return self.unpacked("dpkg-deb", "-x", self.clone.file("packaging", "out", PACKAGE), ".")

    def command(self, prefix: str) -> list[str]:
        """The command of what is unpacked there, with nothing of this tree's or of this computer's
        environment, and no other program on its PATH."""
        return ["/usr/bin/env", "-i", f"PATH={prefix}/bin", f"HOME={self.here}", "TERM=dumb",
                "LC_ALL=C.UTF-8", f"{prefix}/bin/raceoffice"]

    def plays(self, prefix: str) -> None:
        with tempfile.TemporaryDirectory() as folder:
            guide.Play(folder, command=self.command(prefix)).run(guide.read())

    def alike(self, one: str, other: str) -> None:
        with open(one, "rb") as first, open(other, "rb") as second:
            self.assertTrue(first.read() == second.read(), f"{one} isn't {other}")

    def test_again(self) -> None:
        """The same commit, elsewhere and under another umask, gives the same bytes."""
        again = Clone(os.path.join(self.here, "second", "with a space"))
        self.assertEqual(again.commit, self.clone.commit)
        status, said = again.released(again.log, umask=0o077)
        self.assertEqual(status, 0, said)
        self.assertEqual(sorted(again.out()), sorted([ARCHIVE, PACKAGE, "SHA256SUMS"]))
        self.assertTrue(again.out() == self.clone.out(), said)

    def test_archive(self) -> None:
        prefix = self.archive()
        ended(self, "sha256sum", "--check", "--quiet", "--strict", "SHA256SUMS", cwd=prefix)
        sums = lines_of(os.path.join(prefix, "SHA256SUMS"))
        self.assertEqual(sorted(line.split("  ", 1)[1] for line in sums), files_of(prefix, "SHA256SUMS"))
        self.assertEqual(lines_of(os.path.join(prefix, "LICENSE")),
                         lines_of("/usr/share/common-licenses/Apache-2.0"))
        self.plays(prefix)

    def test_package(self) -> None:
        """The package has what the archive has, to the byte, and plays the guide, too."""
        prefix, other = os.path.join(self.package(), "usr"), self.archive()
        for folder in ("bin", "share"):
            theirs = files_of(os.path.join(other, folder))
            self.assertLessEqual(set(theirs), set(files_of(os.path.join(prefix, folder))))
            for name in theirs:
                self.alike(os.path.join(prefix, folder, name), os.path.join(other, folder, name))
        self.plays(prefix)

    def test_proof(self) -> None:
        """What is released says of which commit it is, and by what it was proved and tried."""
        prefix = self.archive()
        said = lines_of(os.path.join(prefix, "share", "doc", "regatta", "PROOF"))
        for line in (f"commit  {self.clone.commit}", f"kit     {KIT}", f"    {self.clone.log[2]}",
                     f"    {self.clone.log[-1]}"):
            self.assertIn(line, said)
        for path, name in zip(PROGRAMS, ("regatta", "regatta-times")):
            self.alike(self.clone.file(path), os.path.join(prefix, "bin", name))
        self.assertEqual(ended(self, *self.command(prefix), "--version", cwd=prefix),
                         f"raceoffice {VERSION}, commit {self.clone.commit[:12]}\n")

    def test_manual(self) -> None:
        """Each command has a page that names it, and bash completes each."""
        from raceoffice.cli import COMMANDS
        share = os.path.join(self.archive(), "share")
        pages = sorted(os.listdir(os.path.join(share, "man", "man1")))
        self.assertEqual(pages, sorted(f"{name}.1.gz" for name in (
            "raceoffice", "regatta", "regatta-times", *(f"raceoffice-{name}" for name in COMMANDS))))
        for page in pages:
            text = ended(self, "gzip", "-cd", os.path.join(share, "man", "man1", page), cwd=share)
            self.assertIn(f"\n.SH NAME\n{page.removesuffix('.1.gz')} ".replace("-", "\\-"), text)
        complete = os.path.join(share, "bash-completion", "completions", "raceoffice")
        script = (f"source {complete}; COMP_WORDS=(raceoffice ''); COMP_CWORD=1; "
                  "_raceoffice raceoffice '' raceoffice; echo \"${COMPREPLY[@]}\"")
        self.assertEqual(set(ended(self, "bash", "-c", script, cwd=share).split()) - {"--help", "--version"},
                         set(COMMANDS))

    def test_pages(self) -> None:
        """Each link of the pages leads to a place in one of them, and each box and picture of the guide is there."""
        folder = os.path.join(self.archive(), "share", "doc", "regatta", "html")
        texts = {name: "\n".join(lines_of(os.path.join(folder, name))) for name in os.listdir(folder)
                 if name.endswith(".html")}
        links = [(name, link) for name, text in texts.items() for link in re.findall('href="([^"]*)"', text)]
        self.assertGreater(len(links), 50)
        for name, link in links:
            page, _, place = link.partition("#")
            self.assertIn(page or name, texts)
            self.assertTrue(not place or f'id="{place}"' in texts[page or name], link)
        boxes = len(re.findall("^```[a-z]", guide.read(), re.MULTILINE))
        self.assertGreaterEqual(texts["typing.html"].count("<pre>"), boxes)
        pictures = re.findall('<img src="([^"]*)"', "".join(texts.values()))
        self.assertGreater(len(pictures), 5)
        self.assertEqual([name for name in pictures if not os.path.exists(os.path.join(folder, name))], [])

    def test_lintian(self) -> None:
        if not shutil.which("lintian"):
            self.skipTest("there is no lintian here")
        ended(self, "lintian", "--allow-root", "--fail-on", "error",
              self.clone.file("packaging", "out", PACKAGE), cwd=self.here)


@unittest.skipIf(MISSING, f"there is no {' and no '.join(MISSING)} here")
@helpers.needs_times
class Refusals(unittest.TestCase):
    def setUp(self) -> None:
        holder = tempfile.TemporaryDirectory()
        self.addCleanup(holder.cleanup)
        self.clone = Clone(os.path.join(holder.name, "clone"))

    def refused(self, wanted: str, log: list[str], version: str = VERSION) -> None:
        """Nothing is made, and the reason is said."""
        status, said = self.clone.released(log, version)
        self.assertEqual(status, 1, said)
        self.assertRegex(said, f"^no release: .*{wanted}")
        self.assertEqual(self.clone.out(), {})

    def test_logs(self) -> None:
        """A log has to be of this commit and of these programs, whole and without a failure."""
        first, kit, *rest, last = self.clone.log
        other = f"commit {'0' * 40}"
        logs: list[tuple[str, list[str]]] = [
            ("is of 'commit 000", [other, kit, *rest, last]),
            ("with changes'", [f"{first} with changes", kit, *rest, last]),
            ("is of", [first, other, kit, *rest, last]),
            ("is of ''", [kit, *rest, last]),
            ("is of ''", []),
            ("ends in '301 passed, 2 failed'", [first, kit, *rest, "301 passed, 2 failed"]),
            ("ends in '0 passed, 0 failed'", [first, kit, *rest, "0 passed, 0 failed"]),
            ("ends in 'Killed'", [*self.clone.log, "Killed"]),
            ("ends in", [first, kit, *rest]),
            ("names no kit", [first, *rest, last]),
            ("regatta isn't the program", [first, kit, *rest[:-2], rest[-1], last]),
            ("times isn't the program", [first, kit, *rest[:-1], last])]
        for wanted, log in logs:
            with self.subTest(wanted=wanted):
                self.refused(wanted, log)

    def test_version(self) -> None:
        self.refused(f"says {VERSION}, and not {VERSION}.1", self.clone.log, f"{VERSION}.1")

    def test_changes(self) -> None:
        """A file that was changed, added or taken away keeps a release from being made."""
        path = self.clone.file("docs", "GUIDE.md")
        with open(path, "ab") as file:
            file.write(b"More.\n")
        self.refused("changes that aren't committed", self.clone.log)
        self.clone.git("checkout", "-q", "--", "docs")
        os.remove(path)
        self.refused("changes that aren't committed", self.clone.log)
        self.clone.git("checkout", "-q", "--", "docs")
        with open(self.clone.file("raceoffice", "extra.py"), "wb"):
            self.refused("changes that aren't committed", self.clone.log)

    def test_programs(self) -> None:
        """A program that was built again since, or isn't there, is none that was proved."""
        path = self.clone.file("crates", "times", "out", "times")
        with open(path, "ab") as file:
            file.write(b"\0")
        self.refused("isn't the program of the log", self.clone.log)
        os.remove(path)
        self.refused("there is no program at", self.clone.log)


def lines_of(path: str) -> list[str]:
    with open(path, encoding="utf-8") as file:
        return file.read().splitlines()


def files_of(folder: str, *left_out: str) -> list[str]:
    """The files below a folder, by their paths from there, in order."""
    found = [os.path.relpath(os.path.join(place, name), folder)
             for place, _, names in os.walk(folder) for name in names]
    return sorted(set(found) - set(left_out))


if __name__ == "__main__":
    unittest.main()
