"""A module imports only from the layers below its own, and one module alone knows Linux."""
from __future__ import annotations

import ast
import functools
import pathlib
import re
import subprocess
import sys
import textwrap
import unittest

import helpers

PACKAGE = pathlib.Path(helpers.TOP, "raceoffice")
# From the lowest to the highest. A package here means all of its modules that aren't named apart.
LAYERS = [
    ["characters", "interruption", "time_zones", "version"],
    ["wording"],
    ["remarks"],
    ["errors"],
    ["system"],
    ["files", "terminal", "side_by_side"],
    ["traces"],
    ["exit_status"],
    ["program"],
    ["series"],
    ["corrected"],
    ["decisions", "session"],
    ["results"],
    ["verify", "office", "typing_window"],
    ["web"],
    ["commands"],
    ["cli"],
    ["__main__"],
]
# What only `system` may import or ask for.
LINUX_MODULES = {"fcntl", "termios", "tty", "pty", "pwd", "grp", "resource", "syslog"}
LINUX_NAMES = {"memfd_create", "O_PATH", "O_NOFOLLOW", "O_NONBLOCK", "O_CLOEXEC", "geteuid", "getuid",
               "AF_UNIX", "SO_PEERCRED", "sigtimedwait", "sigwaitinfo", "pthread_sigmask", "pthread_kill",
               "SIGUSR1", "SIGHUP"}
LIKE_PROC = re.compile(r"^/(proc|sys|dev)/")
# A system that isn't Linux, as far as Python tells.
ELSEWHERE = """
    import os, signal, socket, sys
    here, sys.platform = sys.platform, "other"
    import raceoffice.system
    sys.platform = here
    for name in {modules!r}:
        sys.modules[name] = None
    for holder in (os, signal, socket):
        for name in {names!r}:
            if hasattr(holder, name):
                delattr(holder, name)
    from raceoffice.cli import main
    sys.exit(main(sys.argv[1:]))
"""


@functools.cache
def trees() -> dict[str, ast.Module]:
    """The modules of the package, by their names in it."""
    found = {}
    for path in sorted(PACKAGE.rglob("*.py")):
        name = path.relative_to(PACKAGE).with_suffix("").as_posix().replace("/", ".")
        found[name.removesuffix(".__init__")] = ast.parse(path.read_text(encoding="utf-8"))
    return found


def imported(tree: ast.Module) -> set[str]:
    """The modules of all that a module imports, whole."""
    found = set()
    for node in ast.walk(tree):
        if isinstance(node, ast.Import):
            found |= {alias.name for alias in node.names}
        elif isinstance(node, ast.ImportFrom):
            found |= {f"{node.module}.{alias.name}" for alias in node.names} | {str(node.module)}
    return found


class Layers(unittest.TestCase):
    def setUp(self) -> None:
        self.trees = trees()
        self.needs = {name: self.ours(tree) - {name} for name, tree in self.trees.items()}

    def ours(self, tree: ast.Module) -> set[str]:
        """The modules of the package that a module imports."""
        names = {name.removeprefix("raceoffice.") for name in imported(tree)
                 if name.startswith("raceoffice.")}
        return {name for name in names if name in self.trees and not self.is_package(name)}

    def is_package(self, name: str) -> bool:
        return (PACKAGE / name.replace(".", "/")).is_dir()

    def layer(self, name: str) -> int:
        """The number of a module's layer."""
        parts = name.split(".")
        owners = [".".join(parts[:end]) for end in range(len(parts), 0, -1)]
        return next(at for owner in owners for at, names in enumerate(LAYERS) if owner in names)

    def test_layers(self) -> None:
        """No module imports from a layer above its own, nor from another package of its own layer."""
        wrong = []
        for name, needs in self.needs.items():
            if name == "__init__":
                continue
            for other in needs:
                same = name.split(".")[0] == other.split(".")[0]
                if self.layer(other) > self.layer(name) or self.layer(other) == self.layer(name) and not same:
                    wrong.append(f"{name} imports {other}")
        self.assertEqual(wrong, [])

    def test_no_cycle(self) -> None:
        """No module needs itself, by whatever others."""
        left = dict(self.needs)
        while free := [name for name, needs in left.items() if not needs & left.keys()]:
            for name in free:
                del left[name]
        self.assertEqual(sorted(left), [])

    def test_decisions_of_pages(self) -> None:
        """In the web one module alone asks how decisions are worked out."""
        found = {name for name, needs in self.needs.items() if name.startswith("web.")
                 and any(other.startswith("decisions.") for other in needs)}
        self.assertEqual(found, {"web.preview"})

    def test_all_have_a_layer(self) -> None:
        for name in self.trees:
            if name != "__init__":
                self.layer(name)

    def test_linux(self) -> None:
        """Only `system` has what only Linux has."""
        wrong = []
        for name, tree in self.trees.items():
            if name == "system":
                continue
            wrong += [f"{name} imports {other}" for other in imported(tree) & LINUX_MODULES]
            wrong += [f"{name}, line {node.lineno}: {node.attr}" for node in ast.walk(tree)
                      if isinstance(node, ast.Attribute) and node.attr in LINUX_NAMES]
            wrong += [f"{name}, line {node.lineno}: {node.value}" for node in ast.walk(tree)
                      if isinstance(node, ast.Constant) and isinstance(node.value, str)
                      and LIKE_PROC.search(node.value)]
        self.assertEqual(wrong, [])


class Elsewhere(helpers.Series):
    """What runs where the program does, and what says that it needs Linux."""

    def elsewhere(self, *words: str) -> tuple[str, int]:
        script = textwrap.dedent(ELSEWHERE).format(modules=sorted(LINUX_MODULES), names=sorted(LINUX_NAMES))
        done = subprocess.run([sys.executable, "-c", script, *words], cwd=self.here, text=True,
                              stdin=subprocess.DEVNULL, stdout=subprocess.PIPE, stderr=subprocess.STDOUT)
        return done.stdout, done.returncode

    def test_export_and_verify(self) -> None:
        self.write("1 1 SCORER ENTER A\n1 2 SCORER FINISH 1 A\n1 3 SCORER SCORE 1\n", "cup", "journal.txt")
        said, status = self.elsewhere("export", "cup", "--html", "page.html", "--csv", "table.csv", "--text")
        self.assertEqual(status, 0, said)
        said, status = self.elsewhere("verify", "page.html", "--program", helpers.PROGRAM)
        self.assertEqual((said.partition("\n")[0], status), ("page.html: verified.", 0), said)

    def test_open(self) -> None:
        said, status = self.elsewhere("open", "cup")
        self.assertEqual((said, status), ("an office needs Linux.\n", 1))


if __name__ == "__main__":
    unittest.main()
