"""Standard streams that a caller has closed, and signals that end a command."""

from __future__ import annotations

import contextlib
import os
import signal
import sys
from pathlib import Path
from types import FrameType
from typing import NoReturn


def open_closed() -> set[int]:
    """Opens each of the streams 0 to 2 that is closed onto /dev/null, so that no file that is opened later gets its number.

    Returns the numbers of those streams. Call it before any file is opened.
    """
    closed = set()
    for number in range(3):
        try:
            os.fstat(number)
        except OSError:
            closed.add(number)
            os.open(os.devnull, os.O_RDWR)  # the least number that is free, which is this one
    return closed


def say(text: str, end: str = "\n") -> None:
    """Prints text on standard error, if that can be written."""
    with contextlib.suppress(OSError):
        os.write(2, (text + end).encode(errors="backslashreplace"))


ENDING = (signal.SIGHUP, signal.SIGINT, signal.SIGQUIT, signal.SIGTERM)


def end(number: int, _: FrameType | None) -> None:
    """Ends this process in order. A second signal does not cut that short."""
    for each in ENDING:
        signal.signal(each, signal.SIG_IGN)
    sys.exit(128 + number)


def end_on_signals() -> None:
    """Lets signals end this process in order. One that `nohup` ignores stays so."""
    for number in ENDING:
        if number != signal.SIGHUP or signal.getsignal(number) != signal.SIG_IGN:
            signal.signal(number, end)


def become(program: Path, *words: str) -> NoReturn:
    """Runs another program in this process, so that a signal to it ends all. A stream that was closed is so again."""
    for number in (signal.SIGPIPE, signal.SIGXFSZ):
        signal.signal(number, signal.SIG_DFL)  # Python ignores them
    os.execv(program, [str(program), *words])
