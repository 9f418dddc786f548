"""What is said of a list, of settings, of a decision or of what was asked for: its kind, which is a fixed word, and its
values. The English words of each kind are made of its values alone. Pages make words of their own of both."""
from __future__ import annotations

import errno
from collections.abc import Mapping, Sequence
from typing import Any, Union

from raceoffice.characters import is_known, is_unseen, number_of
from raceoffice.wording import joined, sign

# Several may be named in one value. A remark may be inside another.
Value = Union[str, int, Sequence[str]]
# Signs that are named for what they are like on paper, and look like another.
DASHES, SPACES = "\u2013\u2014", "\u00a0"

# A kind's words; two if it has others for one and for several, by its value `n`, and three if also for none.
ENGLISH: dict[str, str | tuple[str, str] | tuple[str, str, str]] = {
    # What an office says
    "office-rules": "{words}",
    "office-open": "{time} The office is open.",
    "office-nothing": "Nothing was opened.",
    "office-gone-often": "The office has gone {times} times within {minutes} minutes. It isn't opened again by itself.",
    "office-waits": "The office waits for an answer: open it on the scorer's page.",
    "office-again": "{time} It is tried again in {seconds} seconds.",
    "office-out": "{sail} is taken out: {copy} has the journal with her.",
    "office-no-copy": "No second copy: {why}.",
    "office-summary": "{title}: {boats}, {races}, {entries}",
    "some-boats": ("{n} boat", "{n} boats", "no boats"),
    "some-scored": ("{n} race scored", "{n} races scored", "no races scored"),
    "some-entries": ("{n} entry", "{n} entries", "no entries"),
    "some-lines": ("{n} line", "{n} lines", "no lines"),
    "office-rules-were": "The rules were: {rules}",
    "office-rules-now": "They are now: {rules}",
    "office-rules-kept": "The office goes on with the old rules. Those of series.ini wait until somebody agrees to them.",
    "office-move": "   {words}",
    "office-shut": "The office lets nobody in any more. Close it by Ctrl-C, and open it again.",
    "office-crashed": "The office wasn't closed properly last time. Its old socket has been removed.",
    "office-places-taken": "The places of finishers without a sail are taken up from the second folder.",
    "office-gone": "The office has gone.",
    "office-open-again": "Open it again: {command}",
    "office-stopped": "The office is stopped without its windows.",
    "office-still-there": "still there after {seconds} seconds: {names}",
    "office-still-somebody": "still there after {seconds} seconds: somebody who isn't in office.log",
    "office-closed": "Closed.",
    "office-joined": "It is joined.",
    "office-other-window": "the office is open in another window, since {since} (process {process})",
    "office-opening-there": "the office is being opened in another window",
    "office-opened-anew": "the office was opened anew meanwhile",
    "office-goes-on": "the office goes on without a window",
    "office-not-opened": "the office can't be opened: {why}",
    "office-unsaid": "the program ended, and didn't say why",
    "office-no-socket": "the office doesn't open its socket",
    "office-folder-gone": "the folder of the office has gone",
    "office-lets-in": "the office goes on letting clients in",
    "office-no-end": "the program didn't end in {seconds} seconds",
    "office-silent": "the office hasn't answered for {seconds} seconds",
    "office-lost": "the office has gone",
    "office-full": "all seats of the office are taken",
    "office-closed-to-all": "the office lets nobody in any more (CLOSED)",
    "no-office": "no office is open",
    "office-closing": "the office is being closed",
    "line-before": "another line is being sent: wait",
    "line-unanswered": "the office hasn't answered a line yet",
    "class-opening": "this class is being opened",
    "no-class": "there is no such class",
    "served-already": "{name} is served to browsers already, by another raceoffice serve",
    "served-at": "{name} is served to browsers already, at {address}",
    "folders-twice": "two of the folders are called {name}, and each needs a name of its own",
    "folder-foreign": "{name} isn't a folder of this account",
    "table-cell": "the table has a cell {said}, which isn't a score",
    "table-begin": "the table begins with {said}",
    "table-row": "the table has a row {said}",
    "table-explained": "the program explains another table",
    "table-previewed": "the program's preview can't be read",
    "journal-entry": "the journal has an entry {said}",
    "office-denied": "this account may not open {path}",
    "office-unreached": "{path} can't be reached: {why}",
    "office-owes": "the office still owes an answer",
    "office-deaf": "the office hasn't listened for {seconds} seconds",
    "office-no-journal": "the office doesn't show its journal: it said {said}",
    "office-unasked": "the office said {said}, which nobody had asked for",
    "stranger-answer": "what answers there is no office: its answer has no end",
    "stranger-sheet": "what answers there is no office: its sheet has no end",
    "stranger-said": "what answers there is no office: it said {said}",
    "socket-other": "{path} is no file that an office leaves. It stays as it is",
    "socket-open": "an office is open at {path}: find its window, and press Ctrl-C there",
    "socket-held": "an office is still there with its last clients: it lets nobody in at {path} any more, and ends when "
                   "they leave. The file stays until then",
    "socket-unknown": "nobody can say whether an office is still at {path}: {why}. The file stays as it is",
    "office-none": "no office is open there",
    "office-left": "no office is open there, and the last one wasn't closed properly",
    "beware": "Beware: {said}",
    "program-fault": "raceoffice has a fault, {name}; its trace is in {path}. Send that to whoever gave you raceoffice",
    "program-fault-untold": "raceoffice has a fault, {name}; its trace couldn't be written. "
                            "Send that to whoever gave you raceoffice",
    # What an office has, and what its copies have
    "journal-has": "journal.txt has {entries}.",
    "journal-has-so": "journal.txt has {entries}, and so has {copy}.",
    "journal-has-other": "journal.txt has {entries}, and isn't what the office kept.",
    "journal-other": "journal.txt isn't what it kept: that is in {copy}.",
    "journal-changed": "journal.txt isn't what the office keeps: somebody has changed or replaced it",
    "journal-beside": "The journal of the office is in {copy}. Compare it with journal.txt before you open it again.",
    "journal-close-it": "Close the office: its journal then goes to kept/, too.",
    "journal-waits": "The office stays until its journal is in kept/: {why}. Once more Ctrl-C shows it here, and closes "
                     "the office.",
    "copy-same-disk": "The second copy, {path}, is on the same disk as journal.txt. Is the stick in?",
    "copy-none-dated": "No dated copy: {why}",
    "copy-other-lines": "{path} holds lines that the office doesn't have. It is left as it is",
    "folder-silent": "{path} doesn't answer",
    "folder-gone": "{path} isn't there",
    "places-again": ("Beware: somebody has changed office/places. {n} line that it had is there again.",
                     "Beware: somebody has changed office/places. {n} lines that it had are there again."),
    "places-not-again": ("Beware: somebody has changed office/places. {n} line that it had is there again. "
                         "Not {others}: another finisher is called so by now.",
                         "Beware: somebody has changed office/places. {n} lines that it had are there again. "
                         "Not {others}: another finisher is called so by now.",
                         "Beware: somebody has changed office/places. no lines that it had are there again. "
                         "Not {others}: another finisher is called so by now."),
    # What a crash has left
    "lost-lines": "journal.txt has {entries}. These lines were answered, and are lost. Type them again in this order, "
                  "before any other:",
    "lost-missing": "   {numbers}: answered to somebody whose lines aren't in office.log. Ask who typed without a window.",
    "lost-unanswered": "These lines had no answer. Look whether they are in the journal before you type them again:",
    "torn-end": "journal.txt ends in a torn line, as after a crash, which isn't counted: {line!r}. "
                "The office cuts it off when it is opened, and keeps it in journal.txt.cut.",
    "journal-damaged": "journal.txt is damaged after line {line}. If a crash did that, all that was answered is in the "
                       "lines up to it. In its folder this keeps those alone:\n"
                       "   head -n {line} journal.txt > good.txt\n   cp good.txt journal.txt\n"
                       "Otherwise compare it with the copies in kept/.",
    "no-journal": "journal.txt is no journal: none of its lines is whole. Compare it with the copies in kept/.",
    # What keeps an office shut, and what should be known before
    "folder-odd": "The program takes no path that isn't UTF-8, as {path} isn't: rename that folder.",
    "journal-unplain": "journal.txt is no plain file.",
    "journal-linked": "journal.txt has a second name (a hard link), and the office would keep it under one alone. "
                      "Copy it to another file, and rename that to journal.txt.",
    "journal-denied": "This account may not write {path}, or its folder.",
    "journal-lost": "journal.txt is empty or gone, but the series had {entries}.",
    "journal-lost-copy": "journal.txt is empty or gone, but the series had {entries}. {copy} has {held}.",
    "disk-full": "The disk is full. Nothing was opened or changed.",
    "disk-unwritten": "The disk can't be written: {why}. Nothing was opened or changed.",
    "disk-make-space": "The disk is full: make space.",
    "disk-no-sockets": "This disk takes no sockets (often a stick). Copy the folder to the computer's own disk.",
    "boats-left": "On the entry list, but not entered: {boats}. The scorer enters a late boat by ENTER.",
    "other-journals": "Beside journal.txt there is {names}. Only journal.txt is used. If a cloud folder made the other, "
                      "move the series out of it.",
    "places-kept": "Kept without a sail: {places:,}.",
    "places-of-race": "{marks} in race {race}",
    "program-gone": "The program isn't at {path}: correct `program` in series.ini.",
    "program-denied": "The program may not be run: type chmod +x {path}",
    "program-endless": "{path} isn't regatta: it doesn't end.",
    "program-foreign": "The program at {path} can't be run: it is made for another system.",
    "program-other": "{path} isn't regatta: it said {said}.",
    "journal-taken": "Another office has journal.txt, which wasn't opened here. End that one first.",
    "journal-fault": "journal.txt can't be opened, or can't be put on the disk. Is the disk full? May this account write "
                     "the file? It must be a plain file with one name, and nobody else may change, move or remove it "
                     "while the office is open.",
    "journal-begun-otherwise": "journal.txt and the journal that the office was to begin with have different entries, "
                               "first at {entry}.",
    "journal-forbidden": "This account may not write journal.txt, or a file beside it.",
    "journal-long": "journal.txt is longer than 1,048,576 bytes.",
    # How journal.txt and office/places don't go on from what the office had
    "journal-unknown": "Nobody knows whether journal.txt is what the office had: {why}.",
    "places-unknown": "Nobody knows whether office/places is what the office had: {why}.",
    "places-differ": "office/places isn't what the office had. It has {lines}. When the office was {when}, it had {had}. "
                     "A finisher without a sail may be missing.",
    "places-differ-same": "office/places isn't what the office had. It has {lines}. When the office was {when}, it had "
                          "{had}, and these aren't the same. A finisher without a sail may be missing.",
    "when-opened": "opened", "when-closed": "closed", "when-restored": "restored",
    "journal-added": "journal.txt has {entries}, {more} more than when the office was closed: it was kept without "
                     "raceoffice, or somebody has added to it.",
    "journal-differs": "journal.txt isn't what the office had. It has {entries}, and {copy} has {had}.",
    "journal-differs-version": "Its first line is {line}, and that of the copy {other}.",
    "journal-differs-one": "One of these isn't in journal.txt at its place, entry {entry}:",
    "journal-differs-more": "{n} of these aren't in journal.txt at their place, first entry {entry}:",
    "journal-in-copy": "   {line}   in the copy", "journal-in-file": "   {line}   in journal.txt",
    "journal-in-file-none": "   nothing   in journal.txt",
    "journal-compare": "If nobody meant that, compare the two before you open the office.",
    "journal-short": "journal.txt isn't what the office had. It has {entries}. When the office was {when}, it had {had}, "
                     "and no copy in kept/ has the others.",
    "journal-not-same": "journal.txt isn't what the office had. It has {entries}. When the office was {when}, it had "
                        "{had}, and these aren't the same. No copy in kept/ shows which differs.",
    # Why a file can't be read or written
    "file-unplain": "{name} is no plain file",
    "file-gone": "{name} isn't there",
    "file-unread": "{name} can't be read: {why}",
    "file-unwritten": "{name} can't be written: {why}",
    "file-unmade": "{name} can't be made: {why}",
    "file-unused": "{name} can't be used: {why}",
    "file-stays": "{name} can't be removed: {why}",
    "folder-unwritten": "nothing can be written in {name}: {why}",
    "file-odd-name": "{name!r} can't be the name of a file",
    "taps-long": "{name} is longer than {most} bytes. When no device holds taps any more, move it to another folder, and serve "
                 "the class again. A tap that a device sends again after that may be done twice, and no page can undo earlier taps",
    "taps-replaced": "{name} was replaced, or somebody has written into it, while the class was served: taps wait until it is "
                     "opened again",
    "file-long": "{name} is longer than {most} bytes",
    "file-not-utf8": "{name} isn't UTF-8 text: save it as UTF-8",
    "why-unplain": "it is no plain file",
    "why-not-plain": "it isn't a plain file",
    "why-written": "another window is writing it",
    "why-replaced": "it is being replaced",
    "why-too-long": "it would have more than {most} bytes",
    "why-long": "it has more than {most} bytes",
    "why-linked": "it has a second name (a hard link)",
    # What the system says, by its own names
    "system-EPERM": "Operation not permitted", "system-ENOENT": "No such file or directory",
    "system-EIO": "Input/output error", "system-ENXIO": "No such device or address",
    "system-EACCES": "Permission denied", "system-EBUSY": "Device or resource busy",
    "system-EEXIST": "File exists", "system-ENODEV": "No such device",
    "system-ENOTDIR": "Not a directory", "system-EISDIR": "Is a directory",
    "system-ENFILE": "Too many open files in system", "system-EMFILE": "Too many open files",
    "system-EFBIG": "File too large", "system-ENOSPC": "No space left on device",
    "system-EROFS": "Read-only file system", "system-ENAMETOOLONG": "File name too long",
    "system-ELOOP": "Too many levels of symbolic links", "system-ESTALE": "Stale file handle",
    "system-EDQUOT": "Disk quota exceeded", "system-EHOSTDOWN": "Host is down",
    # Signs, by their names
    "sign-seen": "{name}", "sign-tab": "{name}", "sign-space": "{name}", "sign-dash": "{name}", "sign-unseen": "{name}",
    # What was done to a list that somebody gave
    "the-list": "The list",
    "list-column": "column {number}",
    "list-encoding": "It was {encoding}.",
    "list-letters": "Its letters were not UTF-8: look at names with accents.",
    "list-semicolons": "Its columns were separated by semicolons.",
    "list-tabs": "Its columns were separated by tabs.",
    "list-above": ("{n} row above the headings left out.", "{n} rows above the headings left out."),
    "list-sails": "The column {column} is taken for the sails.",
    "list-unread": "Not read: {columns}.",
    "list-unrated": "No column of {name} has the heading Rating, PY or TCF: raceoffice times needs one.",
    "list-rated": "Read in a series by corrected time alone: {columns}.",
    # What is wrong with a list
    "list-spreadsheet": "{name} is a spreadsheet, not CSV. Save it as \"Text CSV\".",
    "list-unmarked": "{name} is UTF-16 without its mark (\"Unicode text\"). Save it as CSV, UTF-8.",
    "list-empty": "{name} is empty.",
    "list-title": "Row {title} of {name} is a title; the headings are in row {first}. Take out what is above row {first}.",
    "list-no-sails": "No column of {name} has the heading Sail, SailNo or SailNumber.",
    "list-like-sails": "No column of {name} has the heading Sail, SailNo or SailNumber. {heading!r} isn't one of them.",
    "list-headless": "{name}, row {row}: {written} stands where the headings have to be. Put a row above it with what is in each column, "
                     "as Sail, Boat and Helm.",
    "list-row": "{name}, row {row}: {fault}",
    "list-row-of": "{name}, row {row} ({helm}): {fault}",
    "list-no-boats": "{name} has headings, but no boats.",
    "list-too-many": ("{name} has {n} boat, and {room} fit.", "{name} has {n} boats, and {room} fit."),
    "row-short": "it ends before the column of sails.",
    "row-quoted": "it ends before the column of sails. Is a quotation mark not closed?",
    "row-unclosed": "a quotation mark isn't closed where its cell ends, so rows below are read as part of it.",
    "row-sail": "{fault}. A sail has 1 to 12 letters, digits and dashes.",
    "row-twice": "{written} is in row {above}, too.",
    "sail-none": "there is no sail",
    "sail-sign": "the sail \"{written}\" has {sign}",
    "sail-long": "the sail \"{written}\" has {n} letters and digits",
    # What is wrong with a file of settings
    "ini-place": "{name}, line {line}",
    "ini-section": "{name}, line {line}: no section is called [{section}].",
    "ini-line": "{name}, line {line}: {fault}",
    "ini-twice": "{name}, line {line}: {key} is in line {other} already.",
    "ini-no-equals": "{key!r} has no =.",
    "ini-no-key": "[{section}] has no key {key!r}.",
    "ini-like-key": "[{section}] has no key {key!r}. Did you mean {near!r}?",
    "ini-sign": "{key} has {sign}.",
    "ini-value": "{place}: {key} is {value}. It has to be {wanted}.",
    "ini-empty": "empty",
    "setting-value": "{key} is {value}. It has to be {wanted}.",
    "wanted-title": "a title",
    "wanted-zone": "the name of a time zone, as Europe/Lisbon",
    "wanted-exclude": "none, or up to four rising numbers from 2 to 40, as 4,8",
    "wanted-absent": "a52 or a53",
    "wanted-scp": "whole points from 1 to 99",
    "wanted-handicap": "yes or no",
    "wanted-entries": "the entry list's file",
    "wanted-seats": "a number from 2 to 16",
    "wanted-state": "provisional, final or amended",
    "wanted-every": "seconds from 1 to 3600",
    "wanted-address": "an address, as 192.168.1.20",
    "wanted-port": "a number from 1 to 65535",
    # What the program says
    "program-says": "the program says {said}",
    "program-says-nothing": "the program says nothing",
    "program-refuses": "the program refuses {line}: {why}",
    "program-unrun": "the program at {path} can't be run: {why}",
    "why-endless": "it does not end",
    "program-no-journal": "the program doesn't show its journal: is it regatta?",
    # Why a line of decisions.txt is none
    "not-entered": "{sail} isn't entered",
    "no-race": "{written} is no race: a number from 1 to 40",
    "decision-form": "a decision is written as: race 3 GBR7 PRP 30%",
    "decision-kind": "{written} is no kind of decision, which are {kinds}.",
    "decision-like": "{written} is no kind of decision, which are {kinds}. Is {near} meant?",
    "decision-takes": "{kind} takes {wanted}",
    "decision-takes-not": "{kind} takes {wanted}, and not {how!r}",
    "decision-percent": "{how} isn't from 1% to 100%",
    "decision-few": "{how} points are too few",
    "decision-itself": "the average of race {race} can't count race {race} itself",
    "decision-races": "{how} has a race twice, or one that isn't from 1 to 40",
    "decision-line": "decisions.txt, line {line}: {why}",
    "decision-twice": "decisions.txt, line {line}: line {other} decides about {sail} in race {race} already",
    "decisions-long": "decisions.txt has {number} lines, and {most} fit",
    "decisions-fault": "decisions.txt can't be worked out: {why}",
    "takes-penalty": "a percentage from 1% to 100%, or points",
    "takes-limit": "last+2, or points",
    "takes-races": "races as 1,2,4, or sailed, all or before",
    "takes-nothing": "nothing",
    # Why a decision can't be given
    "barred-undecided": "the jury has decided nothing about her there",
    "barred-code": "she holds {code} there, which no points replace",
    "barred-redress": "she holds redress {how} there, which isn't of decisions.txt",
    "barred-holds": "she holds {code} there",
    "barred-open": "race {races} doesn't count",
    "barred-nobody": "nobody finished in race {race}",
    "barred-average": "race {races} is an average itself",
    "barred-alone": "she has no other race yet",
    "decision-gone": "decisions.txt doesn't have this any more: look again",
    "decisions-changed": "decisions.txt has been changed meanwhile: look again",
    "decision-needed": "a decision is needed",
    "decision-changed": "somebody else has typed meanwhile, and it comes to something else: look again",
    # Why a boat can't be taken out of a journal
    "removal-beside": "{sail} can't be taken out: entry {number}, {line}, places another boat beside her: "
                      "strike {boat} in race {race} first",
    "removal-open": "the office is open: close it first, by Ctrl-C in its window",
    "removal-absent": "{sail} isn't in journal.txt",
    "removal-torn": "journal.txt ends in a torn line, as after a crash: first open the office, and close it",
    "removal-empty": "journal.txt has no entry",
    "removal-refused": "{sail} can't be taken out: {why}",
    "removal-line": "{line} would be refused without her: {why}",
    "removal-sheets": "She is taken out of these sheets of times, too: {names:,}.",
    "removal-places": "Kept without a sail again, since she was said to be there: {places:,}.",
    "removal-last": "{sail} can't be taken out: no boat would be left",
    # Why a line isn't sent
    "role-line": "{written} isn't a line of this role",
    "no-words": "an empty line isn't a line of this role",
    "no-line": "{written} is no line. help lists the lines",
    "which-race": "first say which race: at 3",
    "race-missing": "the race is missing",
    "race-after": "{written} is no race: the number of the race comes after {command}",
    "line-short": "{command} needs more words: {form}, after at 3 without the race",
    "line-unmeant": "type the race and all of her sail: {form}",
    "own-word": "{written} is typed as {form}",
    "decision-file": "{code} goes into decisions.txt, not into a line: raceoffice decisions --help says how",
    "time-missing": "her corrected time is missing: {written} and its seconds",
    "two-sails": "two sails are needed",
    "second-sail": "it isn't clear where the second sail begins: write each sail without spaces",
    "sail-several": "{typed} may be {names:or}: type more of her sail",
    "numbers-several": "{written} are several numbers: type one boat in a line",
    "sail-odd": "{written} has {sign}, which no sail has: type one boat in a line",
    "not-entered-near": "{sail} isn't entered. Do you mean {names:or}?",
    "abandon-role": "abandon {race} needs {lines}, which the {role} doesn't send: let the scorer type it",
    "no-clock": "no clock shows the moment of this tap: look at the clock of this device",
    # Why nothing is taken back
    "undo-none": "nothing has been typed here yet that changes anything",
    "undo-nothing": "there is nothing to undo: that tap changed nothing",
    "undo-gone": "{line} isn't in the journal any more",
    "undo-place": "type {mark} and her sail",
    "undo-typed": "somebody has typed for {mark} in race {race} since",
    "undo-enter": "{sail} stays while the office is open. When it is closed, raceoffice remove takes her out",
    "undo-later": "something has been typed about the same since: entry {number}, {line}, by {by}",
    "undo-level": "{sail} was level with {mark}: say first who {mark} was, or that nobody was there",
    "undo-lines": "no one line does it. Type {lines}",
    "undo-abandon": "race {race} was taken away by {lines}: type again what stays of it",
    # Why a place isn't kept, or nobody is put there
    "places-line": "line {line} of office/places can't be read, and is left out. A finisher without a sail may be missing.",
    "finisher-unwritten": "{name} can't be written: {why}. Write her down on paper",
    "places-unread": "office/places can't be read",
    "places-several": "more than one place is kept: type {marks:or} and her sail",
    "places-most": "race {race} keeps {kept} places, more than boats are entered: write her down on paper, and say first who was there, or that nobody was",
    "places-many": "{kept} places are kept in all races: write her down on paper, and say first who was there, or that nobody was",
    "places-among": "race {race} keeps places among these boats: {marks}. Say first who was there. Or move the boats ahead of a place by "
                    "themselves, and then those behind it: the place stays in race {race}",
    "no-place": "no finisher {mark} is kept in race {race}",
    "no-place-only": "no finisher {mark} is kept in race {race}, only {marks}",
    "no-place-here": "{why}. Race {races} has one: type at {race} first",
    "no-mark": "{written} is no place: type ?, ?1 or 101?",
    "place-role": "the places of finishers are for the finish and the scorer",
    "place-timed": "in a series by corrected time the order of lines doesn't matter: send her TIME when she is known",
    "place-whose": "type {mark} and her sail, or {mark} none",
    "place-gone": "{mark} of race {race} isn't noted any more",
    "place-busy": "somebody else types for {mark} just now: look at race {race}",
    "place-again": "{mark} of race {race} is kept again already",
    # Why a sheet of times stays as it is
    "no-sheet": "race {race} has no sheet of times",
    "no-finish": "{boat} has no finish in race {race}",
    "start-again": "type the right start of race {race}",
    "times-again": "put the sheet of race {race} right, and send its times again",
    "start-form": "a race of a series by corrected time has a start: START race 14:05:00",
    "times-form": "a race of a series by corrected time has a sheet: TIMES race",
    "start-wrong": "{written} isn't {wanted}",
    "finish-wrong": "{written} isn't {wanted}",
    "finish-changed": "{sail} hasn't {was} in {name} any more: look again",
    "starts-several": "{name} has several starts: change them there",
    "sheet-has": "{sail} has {before} in {name} already: strike or clear her first",
    "reason-needed": "amended results need a reason. Nothing was announced",
    # What is wrong with a sheet of times, with its rules or with the ratings
    "sheet-cell": "{name}, row {row}, column {column}: {written!r} isn't {wanted}",
    "sheet-wide": "{name} has more than {most} columns",
    "sheet-no-sails": "{name}, row 1: no column of sails, as Sail, SailNo or SailNumber",
    "sheet-no-times": "{name}, row 1: no column of times, as Elapsed, or Start and Finish",
    "sheet-decided": "{code} isn't for a sheet of times. docs/JURY.md says where it is typed",
    "sheet-codes": "{code} and {other} are two codes, and a sheet has one of a boat",
    "sheet-no-code": "{code} is neither a time nor a code",
    "sheet-sail": "{sail} is in row {above}, too",
    "wanted-start": "a time of the clock, as 14:05 or 14:05:30",
    "wanted-finish": "a time of the clock with its seconds, as 15:07:31",
    "wanted-elapsed": "an elapsed time, as 1:02:31, 62:31 or 3751",
    "wanted-laps": "laps from 1 to 99",
    "wanted-distance": "nautical miles, as 12.5",
    "times-rule": "{name}: {key} has to be {wanted}",
    "wanted-system": "tcf, py or tod",
    "wanted-rounding": "half-up, half-down, down or up",
    "wanted-races": "numbers of races, as 4,5",
    "ratings-missing-tcf": "{name}, row {row}: no column of ratings. It is headed Rating or TCF",
    "ratings-missing-py": "{name}, row {row}: no column of ratings. It is headed Rating or PY",
    "ratings-missing-tod": "{name}, row {row}: no column of ratings. It is headed Rating",
    "timing-8": "the rating isn't one of the system",
    "timing-9": "{sail} has no rating",
    "rating-odd": "{sail}: {written} isn't a rating of the system",
    "start-missing": "her start isn't recorded, or is after her finish",
    "laps-missing": "{sail} has no laps: the times of this race wait until they are put in on the page \"Times\"",
    "distance-missing": "{sail} has no distance: the times of this race wait until it is put in on the page \"Times\"",
    "sheet-fault": "the sheet waits: {why}",
    "timing-10": "a time can't be read",
    "timing-11": "neither an elapsed time, nor a start and a finish",
    "timing-12": "an elapsed time and a finish",
    "timing-13": "{sail} finishes before she starts",
    "timing-14": "the laps aren't 1 to 99, or boats above have none",
    "timing-15": "the distance is missing, or isn't 0.01 to 999.99 miles",
    "timing-16": "{sail} has laps, which only Portsmouth takes",
    "timing-17": "the corrected time of {sail} is below zero",
    "timing-18": "the corrected time of {sail} is above 999999 seconds",
    "times-no-sums": "the program at {path} doesn't show sums: is it times?",
    "sheet-untimed": "a sheet of times belongs to a series by corrected time",
    "sheet-unread": "the sheet can't be read: put it right first",
    "sheet-changed": "the sheet has been changed meanwhile: look again",
    "sheet-odd": "what was sent is no sheet of times",
    "sheet-boat": "{sail}: {written!r} isn't {wanted}",
    # Why settings, a list or a name aren't taken
    "no-series": "{name} has no series.ini: it isn't a series. {command} makes one",
    "ini-by-editor": "series.ini can't be changed here: write {line} into it below [{section}]",
    "ini-there": "{name} has a series.ini already. Nothing was changed",
    "ini-unheld": "series.ini can't hold {key} = {value}: rename its folders. Nothing was written",
    "ini-gone": "series.ini is gone",
    "ini-changed": "somebody else has changed series.ini meanwhile: look again",
    "settings-missing": "the settings are missing",
    "setting-long": "{key} has more than {most} letters",
    "rounding-wrong": "{written} is no rounding, which are {roundings:or}",
    "rounding-changed": "somebody else has changed the rounding meanwhile: look again",
    "zone-in-race": "race {race} has a start and doesn't count yet: its times are those of this time zone. Score or abandon "
                    "it first",
    "zone-kept": "Race {race} goes on by the clock of {zone}, by which it began. That of {other} holds once the race counts and "
                 "the office is opened again.",
    "rules-refused": "the program refuses these rules",
    "list-not-whole": "the list didn't come whole",
    "list-too-long": "the list is longer than {most} bytes",
    "short-name": "the short name has small letters, digits and dashes, as autumn-cup",
    "folder-there": "there is a folder called {name} already",
    "list-by-editor": "{name} can't be changed here: add her there with an editor",
    "list-has": "{name} has {before} as her {heading} already: change it there",
    "list-bytes": "{name} has bytes that are no letters: save it as UTF-8",
    "list-encoded": "{name} is saved in {encoding}, which hasn't {sign}: save it as UTF-8",
    "no-sail-entered": "a boat without a sail isn't entered",
    "key-sail": "sail", "key-name": "name", "key-helm": "helm", "key-club": "club", "key-rating": "rating",
    "name-no-text": "her {key} isn't a text",
    "name-long": "her {key} has more than {most} letters",
    "name-no-column": "the entry list has no column for her {key}",
    "rating-form": "her rating is {written}, which isn't one of the class's system. PY is a whole number, as 1050; TCF is as 0.953; TOD is "
                   "in seconds a mile, as 612.5",
    "no-series-beside": "there is no such series that isn't open already: look again",
    "stick-gone": "that stick isn't in any more: look again",
    "reason-long": "the reason has more than {most} letters",
    "other-window": "another window keeps this office: close it there, and open it again",
    "window-gone": "the window that kept this office has gone: open the office here first",
    "boat-stays": "{sail} stays in the journal",
}


class Remark(str):
    """What is said, in English, with its kind and the values that it is made of."""
    kind: str
    values: Mapping[str, Value]

    def in_words(self, text: str) -> Remark:
        """The same in other English words."""
        made = Remark(text)
        made.kind, made.values = self.kind, self.values
        return made


class Several(list[str]):
    """Some that are named in one value, with `and`, with the word that the format gives, or with commas alone."""

    def __format__(self, last: str) -> str:
        return ", ".join(self) if last == "," else joined(self, last or "and")


def words_of(kind: str, values: Mapping[str, Value]) -> str:
    """The English words of these values."""
    words = ENGLISH[kind]
    form = words if isinstance(words, str) else words[2 if values["n"] == 0 and len(words) == 3 else values["n"] != 1]
    return form.format(**{name: value if isinstance(value, (str, int)) else Several(value)
                          for name, value in values.items()})


def remark(kind: str, /, **values: Value) -> Remark:
    """What is said of these values, with its words."""
    made = Remark(words_of(kind, values))
    made.kind, made.values = kind, values
    return made


def sign_remark(letter: str) -> Remark:
    """A sign by its name. Those that are seen say themselves what they are."""
    kind = ("sign-tab" if letter == "\t" else "sign-space" if letter in SPACES else "sign-dash" if letter in DASHES
            else "sign-unseen" if is_unseen(letter) else "sign-seen")
    return remark(kind, name=sign(letter), sign=letter if kind == "sign-seen" and is_known(letter) else number_of(letter))


def in_a_row(*said: str) -> Remark:
    """Several sentences, one after another: remarks, or texts that are the same in every language."""
    made = Remark(" ".join(said))
    made.kind, made.values = "sentences", {"said": list(said)}
    return made


def on_lines(*said: str) -> Remark:
    """Several remarks or texts, each on a line of its own."""
    made = Remark("\n".join(said))
    made.kind, made.values = "lines", {"said": list(said)}
    return made


def packed(one: object) -> object:
    """A remark as it goes to another process or into a file; any other value as it is."""
    if isinstance(one, (list, tuple)):
        return [packed(part) for part in one]
    if not isinstance(one, Remark):
        return one
    return {"kind": one.kind, "text": str(one), "values": {name: packed(value) for name, value in one.values.items()}}


def unpacked(held: Any) -> Any:
    """What another process has packed, or a file has."""
    if isinstance(held, list):
        return [unpacked(part) for part in held]
    if not isinstance(held, dict):
        return held
    made = Remark(held["text"])
    made.kind, made.values = held["kind"], {name: unpacked(value) for name, value in held["values"].items()}
    return made


def system_remark(cause: OSError) -> str:
    """What the system says of a fault, which has a kind if it is a usual one, or if this package found it itself."""
    if isinstance(cause.strerror, Remark):
        return cause.strerror
    name = errno.errorcode.get(cause.errno or 0, "")
    return remark(f"system-{name}") if f"system-{name}" in ENGLISH else str(cause.strerror)
