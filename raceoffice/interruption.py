"""What Ctrl-C does while a command is being loaded, and once its work has ended."""
from __future__ import annotations

import contextlib
import os
import signal
from collections.abc import Iterator

# What a shell says of a command that Ctrl-C has ended.
INTERRUPTED = 130


def end_at_once(*_: object) -> None:
    """Ends this process: nothing is open, and Python has nothing to say of it."""
    if os.isatty(1):
        os.write(1, b"\n")
    os._exit(INTERRUPTED)


def end_quietly() -> None:
    """From now on Ctrl-C ends this process at once, unless whoever has started it wanted it to be without effect."""
    if signal.getsignal(signal.SIGINT) is signal.default_int_handler:
        signal.signal(signal.SIGINT, end_at_once)


@contextlib.contextmanager
def heard() -> Iterator[None]:
    """Meanwhile Ctrl-C is a KeyboardInterrupt, which the work of a command hears."""
    is_quiet = signal.getsignal(signal.SIGINT) is end_at_once
    if is_quiet:
        signal.signal(signal.SIGINT, signal.default_int_handler)
    try:
        yield
    finally:
        if is_quiet:
            signal.signal(signal.SIGINT, end_at_once)
