#!/usr/bin/env python3
"""Makes the manual pages, from the help texts of the command and of both programs, and bash's completion.

    packaging/manual.py DATE MANUAL COMPLETION REGATTA TIMES

DATE is that of the pages, MANUAL their folder and COMPLETION the file of bash. The programs are run for their
help. A help text has the forms of its command in its first indented block and examples in its last one; the
paragraph that begins with `The status` is the page's EXIT STATUS.
"""
from __future__ import annotations

import argparse
import os
import re
import subprocess
import sys
import textwrap
from collections.abc import Iterator

sys.path.insert(1, os.path.dirname(os.path.dirname(os.path.abspath(__file__))))

from raceoffice import cli, version

# The programs as they are installed, with what each does.
PROGRAMS = {"regatta": "score one series of races under Appendix A of the Racing Rules of Sailing",
            "regatta-times": "correct the times of a race by the boats' ratings"}
HTML = "/usr/share/doc/regatta/html"
WIDTH = 76
CODE = re.compile("`([^`]*)`")
# The paths of pages in the sources, as an installation has them.
PAGE = re.compile(r"docs/([A-Z]+)\.md")


def plain(text: str) -> str:
    """A line of text as troff prints it."""
    text = text.replace("\\", "\\e").replace("-", "\\-")
    return f"\\&{text}" if text[:1] in (".", "'") else text


def prose(text: str) -> str:
    """A paragraph; what is in backquotes is bold."""
    text = PAGE.sub(lambda found: f"`{HTML}/{found[1].lower()}.html`", " ".join(text.split()))
    parts = CODE.split(text)
    return "".join(f"\\fB{plain(part)}\\fP" if at % 2 else plain(part) for at, part in enumerate(parts))


def as_it_is(text: str) -> str:
    """Lines that are printed as they are."""
    return "\n".join([".nf", *map(plain, textwrap.dedent(text).splitlines()), ".fi"])


def is_block(part: str) -> bool:
    return part.startswith("    ")


def section(name: str, parts: list[str]) -> str:
    """A section of a page, with its paragraphs and its indented blocks; nothing if it has none."""
    shown = [f".PP\n.RS 4\n{as_it_is(part)}\n.RE" if is_block(part) else f".PP\n{prose(part)}"
             for part in parts]
    return "\n".join([f".SH {name}", *shown]) + "\n" if parts else ""


def option(action: argparse.Action) -> str:
    """An option or an argument, and what it is for."""
    value = str(action.metavar or action.dest.upper())
    if action.option_strings:
        takes = "" if action.nargs == 0 else f" [{value}]" if action.nargs == "?" else f" {value}"
        names = ", ".join(f"{name}{takes}" for name in action.option_strings)
    else:
        names = "|".join(action.choices) if action.choices else str(action.metavar or action.dest)
    return f".TP\n\\fB{plain(names)}\\fP\n{prose(action.help or '')}"


def options(parser: argparse.ArgumentParser) -> str:
    shown = [option(action) for action in parser._actions
             if not isinstance(action, argparse._SubParsersAction)]
    return "\n".join([".SH OPTIONS", *shown]) + "\n"


def head(name: str, text: str, date: str) -> str:
    shown = plain(name)
    return (f'.TH {name.upper()} 1 "{date}" "Regatta {version.VERSION}" "Race office"\n'
            f".SH NAME\n{shown} \\- {plain(text)}\n")


def see_also(names: list[str]) -> str:
    listed = ", ".join(f"\\fB{plain(name)}\\fP(1)" for name in names)
    return f".SH SEE ALSO\n{listed}\n.PP\nThe guide: {plain(HTML)}/guide.html\n"


def command_page(name: str, text: str, parser: argparse.ArgumentParser, date: str) -> str:
    """The page of a command of `raceoffice`."""
    parts = (parser.description or "").strip("\n").split("\n\n")
    blocks = [part for part in parts if is_block(part)]
    status = [part for part in parts if part.startswith("The status") or "with status" in part]
    rest = [part for part in parts if part not in (blocks[0], blocks[-1], *status)]
    return (head(f"raceoffice-{name}", text, date) + section("SYNOPSIS", blocks[:1])
            + section("DESCRIPTION", rest) + options(parser) + section("EXIT STATUS", status)
            + section("EXAMPLES", blocks[-1:]) + see_also(["raceoffice"]))


def main_page(parser: argparse.ArgumentParser, date: str) -> str:
    """The page of `raceoffice`, with a line for each command."""
    parts = (parser.description or "").strip("\n").split("\n\n")
    lines = [f".TP\n\\fB{name}\\fP\n{prose(text)}" for name, (_, text) in cli.COMMANDS.items()]
    return (head("raceoffice", "race office for sailing clubs", date)
            + section("SYNOPSIS", ["    raceoffice COMMAND ...\n    raceoffice --version"])
            + section("DESCRIPTION", [part for part in parts if not is_block(part)])
            + "\n".join([".SH COMMANDS", *lines]) + "\n" + options(parser)
            + section("EXAMPLES", [part for part in parts if is_block(part)])
            + see_also([*(f"raceoffice-{name}" for name in cli.COMMANDS), *PROGRAMS]))


def help_of(program: str, *words: str) -> str:
    """What a program says for --help, in lines that fit."""
    done = subprocess.run([program, *words, "--help"], capture_output=True, text=True, check=True, timeout=60)
    return "\n".join(line if len(line) <= WIDTH else textwrap.fill(line, WIDTH, subsequent_indent=" " * 10)
                     for line in done.stdout.splitlines())


def program_page(name: str, program: str, date: str) -> str:
    """The page of a program: its help, and that of each of its commands."""
    whole = help_of(program)
    commands = [found for found in re.findall("^  ([a-z]+)  ", whole, re.MULTILINE) if found != "help"]
    shown = "".join(f".SH {command.upper()}\n{as_it_is(help_of(program, command))}\n" for command in commands)
    return (head(name, PROGRAMS[name], date) + f".SH DESCRIPTION\n{as_it_is(whole)}\n" + shown
            + see_also(["raceoffice"]))


def manual(date: str, programs: list[str]) -> Iterator[tuple[str, str]]:
    """Each page, by its name."""
    yield "raceoffice", main_page(cli.parser_for([]), date)
    for name, (_, text) in cli.COMMANDS.items():
        yield f"raceoffice-{name}", command_page(name, text, parser_of(name), date)
    for name, program in zip(PROGRAMS, programs):
        yield name, program_page(name, program, date)


def parser_of(command: str) -> argparse.ArgumentParser:
    """What reads the words of a command."""
    trees = [action for action in cli.parser_for([command])._actions
             if isinstance(action, argparse._SubParsersAction)]
    found: argparse.ArgumentParser = trees[0].choices[command]
    return found


COMPLETION = """\
# The completion of `raceoffice` for bash.
_raceoffice() {
    local word=$2 before=$3 words=
    COMPREPLY=()
    case $COMP_CWORD,$before in
        1,*) words='@commands@ --help --version' ;;
        *,--role) words='finish jury scorer' ;;
        *,--html | *,--csv | *,--program) compopt -o default; return ;;
        *,--name | *,--from | *,--http | *,--address) return ;;
    esac
    if [[ -z $words && $word == -* ]]; then
        case ${COMP_WORDS[1]} in
@options@        esac
    fi
    if [[ -n $words ]]; then
        mapfile -t COMPREPLY < <(compgen -W "$words" -- "$word")
    elif [[ ${COMP_WORDS[1]} == verify ]]; then
        compopt -o default
    else
        compopt -o filenames
        mapfile -t COMPREPLY < <(compgen -d -- "$word")
    fi
}
complete -F _raceoffice raceoffice
"""


def completion() -> str:
    """What bash completes of a command line: commands, options, roles, and folders or files."""
    cases = [f"            {name}) words='{' '.join(long_options(parser_of(name)))}' ;;\n"
             for name in cli.COMMANDS]
    return COMPLETION.replace("@commands@", " ".join(cli.COMMANDS)).replace("@options@", "".join(cases))


def long_options(parser: argparse.ArgumentParser) -> list[str]:
    return [name for action in parser._actions for name in action.option_strings if name.startswith("--")]


def main(date: str, folder: str, completed: str, *programs: str) -> None:
    os.makedirs(folder, exist_ok=True)
    for name, text in manual(date, list(programs)):
        with open(os.path.join(folder, f"{name}.1"), "w", encoding="utf-8") as file:
            file.write(text)
    os.makedirs(os.path.dirname(completed), exist_ok=True)
    with open(completed, "w", encoding="utf-8") as file:
        file.write(completion())


if __name__ == "__main__":
    main(*sys.argv[1:])
