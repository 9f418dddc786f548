#!/usr/bin/env python3
"""Tries the edits of `plants/` on a copy of the repository: the prover must refuse each.

    plants/run.py                   the edits of every crate
    plants/run.py CRATE             those of one crate
    plants/run.py CRATE WORD        those of one crate whose name contains WORD

Each edit plants one bug in the code. The gate tries the edits of `crates/CRATE/must-fail/` only,
since each of them costs it half a minute. The others are in `plants/CRATE/`. Run those of a crate
after you change one of its contracts.

In the copy they replace all must-fail edits, and `rt must-fail CRATE` tries them. It needs the crates
below, and takes what `rt check` or `rt lib` made of them here before: otherwise they are proved first.

A line for each edit says why it is refused. It counts as failed if the prover accepts it, if it
can't be applied or read, or if the refusal shows no open goal of a contract (for example, if only
the borrow checker refuses it). The last line is `N refused, M failed`, and the status is 1 if one
failed.
"""
import argparse
import re
import shutil
import subprocess
import sys
import tempfile
from collections.abc import Iterator
from pathlib import Path

PLANTS = Path(__file__).resolve().parent
ROOT = PLANTS.parent

REFUSED = "refused, as it must be: "
# What a refusal says if a goal of a contract, or of an invariant, is open.
OPEN_GOAL = re.compile(
    r"it is not proved that (?:what the function ensures|what `[^`]+` requires"
    r"|the invariant of the loop|the `invariant` of )"
)
# A proof by hand names its goal.
GOAL_OF_PROOF = re.compile(
    r"proofs/\S+: error: `(?:returns|loop|invariant_of|[^`]+-requires)[^`]*`: "
)


def planted(crate: str, word: str) -> list[Path]:
    """The edits of a crate whose name contains the word."""
    return sorted(it for it in (PLANTS / crate).glob("*.edit") if word in it.stem)


def crates() -> list[str]:
    """The crates that have edits here, in the order of crates.txt (one that it lacks, last)."""
    rows = (ROOT / "crates.txt").read_text(encoding="utf-8").splitlines()
    place = {row.partition(":")[0].strip(): number for number, row in enumerate(rows)}
    found = {it.parent.name for it in PLANTS.glob("*/*.edit")}
    return sorted(found, key=lambda name: (place.get(name, len(rows)), name))


def below(crate: str) -> set[str]:
    """The crates that a crate uses, and those that they use."""
    rows = (ROOT / "crates.txt").read_text(encoding="utf-8").splitlines()
    uses = {row.partition(":")[0].strip(): row.partition(":")[2].split() for row in rows if row}
    direct = {name for name in uses[crate] if name in uses}
    return direct.union(*map(below, direct))


def copy_to(copy: Path, made: set[str]) -> None:
    """Copies what `rt` reads, and what it made of some crates."""
    def left_out(folder: str, names: list[str]) -> set[str]:
        return set(names) & {"out"} if Path(folder).name not in made else set()
    shutil.copytree(ROOT / "crates", copy / "crates", ignore=left_out)
    for name in ("crates.txt", "HANDLES"):
        shutil.copy(ROOT / name, copy / name)


def verdicts(copy: Path, crate: str, edits: list[Path]) -> Iterator[tuple[str, str]]:
    """Has `rt` try the edits of one crate, and gives the name and the verdict of each."""
    for room in copy.glob("crates/*/must-fail"):
        shutil.rmtree(room)
    room = copy / "crates" / crate / "must-fail"
    room.mkdir()
    for edit in edits:
        shutil.copy(edit, room)
    print(f"{crate}: trying {len(edits)} edits", file=sys.stderr)
    ran = subprocess.run(["rt", "must-fail", crate], cwd=copy, text=True, errors="replace",
                         stdin=subprocess.DEVNULL, stdout=subprocess.PIPE, stderr=subprocess.STDOUT)
    said = dict(re.findall(rf"^(?:rt: )?must-fail {crate}/(\S+)\.edit: (.*)$", ran.stdout, re.M))
    if len(said) < len(edits):
        print(ran.stdout[-2000:])
    for edit in edits:
        yield edit.stem, said.get(edit.stem, "NOT TRIED: see what rt said, above")


def is_refused(verdict: str) -> bool:
    """Whether the verdict is a refusal that shows an open goal of a contract."""
    goal = OPEN_GOAL.search(verdict) or GOAL_OF_PROOF.search(verdict)
    return verdict.startswith(REFUSED) and goal is not None


def counts(copy: Path, crate: str, word: str) -> tuple[int, int]:
    """Prints the verdict of each of a crate's edits, and returns how many are refused and fail."""
    refused = failed = 0
    for name, verdict in verdicts(copy, crate, planted(crate, word)):
        if is_refused(verdict):
            refused += 1
        else:
            failed += 1
            if verdict.startswith("refused"):
                verdict = f"NO OPEN GOAL OF A CONTRACT: {verdict}"
        print(f"{crate}/{name}: {verdict.removeprefix(REFUSED)}", flush=True)
    return refused, failed


def main() -> int:
    parser = argparse.ArgumentParser(
        description=__doc__, formatter_class=argparse.RawDescriptionHelpFormatter
    )
    parser.add_argument("crate", metavar="CRATE", nargs="?", choices=crates())
    parser.add_argument("word", metavar="WORD", nargs="?", default="")
    asked = parser.parse_args()
    if not shutil.which("rt"):
        parser.error("the toolchain's command rt isn't on the path")
    chosen = [asked.crate] if asked.crate else crates()
    if not any(planted(crate, asked.word) for crate in chosen):
        parser.error(f"no edit of {asked.crate} has {asked.word} in its name")
    with tempfile.TemporaryDirectory(prefix="regatta-plants-") as room:
        copy = Path(room)
        copy_to(copy, set().union(*map(below, chosen)))
        found = [counts(copy, crate, asked.word) for crate in chosen]
    failed = sum(number for _, number in found)
    print(f"{sum(number for number, _ in found)} refused, {failed} failed")
    return 1 if failed else 0


if __name__ == "__main__":
    sys.exit(main())
