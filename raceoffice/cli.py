"""A race office for sailing clubs, under Appendix A of the Racing Rules of Sailing 2025-2028.

    raceoffice new cup                       asks what the sailing instructions say, and makes a series
    raceoffice open cup                      opens its office, and is the office's window
    raceoffice type cup --role finish        types the finishes, in a window of its own
    raceoffice board cup --http              shows the results to phones
    raceoffice final cup                     says that the results are final
    raceoffice export cup --html page.html   writes the page for the notice board

A series is a folder. `raceoffice COMMAND --help` has the form of a command, its files, its statuses and
examples.
"""
from __future__ import annotations

import argparse
import importlib
import os
import sys
from types import ModuleType

# Each command, the module of `commands` that does it, and what it does.
COMMANDS = {
    "new": ("new", "ask for the settings of a new series, and write them"),
    "check": ("check", "say what is wrong with a series, and open nothing"),
    "open": ("open", "open the office of a series, and be its window"),
    "type": ("type", "type finishes, codes and decisions, in a window or from a file"),
    "board": ("board", "show the results, to phones and as files"),
    "serve": ("serve", "run the whole office for browsers: finish, scorer, jury and board"),
    "export": ("export", "write the results as a page, as CSV or as a text for a mail"),
    "provisional": ("announce", "say that the results are provisional"),
    "final": ("announce", "say that the results are final"),
    "amended": ("announce", "say that the results are amended, and why"),
    "remove": ("remove", "take a boat that was entered by mistake out of the journal"),
    "decisions": ("decisions", "work out decisions for which the program has no line"),
    "times": ("times", "correct the times of a race by the boats' ratings"),
    "verify": ("verify", "verify a page of results"),
}


def module_of(command: str) -> ModuleType:
    return importlib.import_module(f"raceoffice.commands.{COMMANDS[command][0]}")


class Version(argparse.Action):
    """Says the version, which git is asked for only then."""

    def __call__(self, parser: argparse.ArgumentParser, *_: object) -> None:
        from raceoffice import version
        print(version.version_text())
        parser.exit()


def parser_for(words: list[str]) -> argparse.ArgumentParser:
    """What reads a command line. Only the command that it names is loaded."""
    plain = argparse.RawDescriptionHelpFormatter
    parser = argparse.ArgumentParser("raceoffice", description=__doc__, formatter_class=plain)
    parser.add_argument("--version", action=Version, nargs=0, help="say the version and the commit, and end")
    commands = parser.add_subparsers(dest="command", required=True, metavar="COMMAND")
    named = next((word for word in words if not word.startswith("-")), "")
    for name, (_, text) in COMMANDS.items():
        command = commands.add_parser(name, help=text, formatter_class=plain)
        if name == named:
            module = module_of(name)
            command.description = module.__doc__
            module.arguments(command)
    return parser


def open_closed_streams() -> None:
    """Has nothing read and what is said go nowhere where a shell has closed input or output, as by `>&-`. Else a file that
    is opened later would be taken for it."""
    for name, mode in (("stdin", "r"), ("stdout", "w"), ("stderr", "w")):
        if getattr(sys, name) is None:
            setattr(sys, name, open(os.devnull, mode, encoding="utf-8"))


def main(words: list[str] | None = None) -> int:
    """Does what a command line asks for; the status."""
    open_closed_streams()
    words = sys.argv[1:] if words is None else words
    parser = parser_for(words)
    if not words:
        # Who doesn't know a command yet sees all of them.
        parser.print_help(sys.stderr)
        return 2
    asked = parser.parse_args(words)
    status: int = module_of(asked.command).run(asked)
    return status
