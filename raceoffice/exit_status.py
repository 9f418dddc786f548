"""The status of a command, and what is said if its work ends otherwise than it should."""
from __future__ import annotations

import contextlib
import os
import sys
from collections.abc import Callable

from raceoffice.errors import Trouble, Unheard
from raceoffice.interruption import INTERRUPTED, heard
from raceoffice.terminal import say, say_json, say_no_more, sentence, take_any_sign
from raceoffice.traces import guarded


def need_folder_here() -> None:
    """A Trouble if the folder in which a command was typed has been removed: no path can be followed from there."""
    try:
        os.getcwd()
    except OSError:
        raise Trouble("the folder in which this was typed isn't there any more") from None


def tell_json(text: str) -> None:
    """Says to a program, in JSON, why there is no answer."""
    say_json({"trouble": text})


def status_of(work: Callable[[], int], folder: str = "", tell: Callable[[str], None] = say,
              failed: int = 1) -> int:
    """Does the work of a command; its status. After a Trouble, which `tell` says in a sentence, it is `failed`.
    It is so, too, if what is said can't be written, or if nobody reads it any more. After Ctrl-C it is 130."""
    take_any_sign()
    try:
        try:
            with heard(), guarded(folder, BrokenPipeError, Unheard):
                need_folder_here()
                return work()
        except Trouble as trouble:
            tell(sentence(trouble))
            return failed
        except KeyboardInterrupt:
            say("")
            return INTERRUPTED
    except BrokenPipeError:
        say_no_more()
        return failed
    except Unheard as unheard:
        say_no_more()
        with contextlib.suppress(OSError):
            print(sentence(unheard), file=sys.stderr, flush=True)
        return failed
