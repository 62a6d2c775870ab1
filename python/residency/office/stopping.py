"""Ctrl-C, SIGTERM and a hang-up: the command stops once, says so in one line, and leaves nothing half made behind.

A signal that is ignored at the start stays ignored, as `nohup` has it.
"""
import os
import shutil
import signal
import subprocess
import sys
from contextlib import contextmanager
from pathlib import Path
from types import FrameType
from typing import Any, Iterator, List, Optional, Set

# What starts a program, and so many seconds later it has done so.
STARTS = (subprocess.Popen.__init__.__code__,)
LATER = 0.01
SIGNALS = (signal.SIGINT, signal.SIGTERM, signal.SIGHUP)
# Files and folders under way, by the names that they have until they are whole.
UNFINISHED: Set[Path] = set()


class Stopped(BaseException):
    """A signal asked the command to end."""


def ignore() -> None:
    for number in SIGNALS:
        signal.signal(number, signal.SIG_IGN)


def stop(number: int, frame: Optional[FrameType]) -> None:
    """Asks the command to end; what comes after the first signal changes nothing, so that nothing breaks off the cleaning. While a
    program is being started it comes again a moment later, when the program can be ended too."""
    ignore()
    while frame is not None:
        if frame.f_code in STARTS:
            signal.signal(signal.SIGALRM, stop)
            signal.setitimer(signal.ITIMER_REAL, LATER)
            return
        frame = frame.f_back
    raise Stopped(number)


def is_asked() -> bool:
    """Whether a stop is to come again in a moment. A program that the same signal ended isn't at fault."""
    return signal.getsignal(signal.SIGALRM) is stop


def lost(trouble: Any) -> None:
    """Ends the command where a stop came in the midst of what lets no exception through, as when an object is given up."""
    if isinstance(trouble.exc_value, Stopped):
        clean()
        os.write(2, b"office: interrupted\n")
        os._exit(1)
    sys.__unraisablehook__(trouble)


def give_back(hook: Any, before: List[Any]) -> None:
    """Makes signals and what nobody can raise what they were before."""
    if is_asked():
        signal.setitimer(signal.ITIMER_REAL, 0)
        signal.signal(signal.SIGALRM, signal.SIG_DFL)
    sys.unraisablehook = hook
    for number, handler in before:
        signal.signal(number, handler)


@contextmanager
def stoppable() -> Iterator[None]:
    """Lets signals stop the command while it runs. Elsewhere than in a main thread no signal comes."""
    before: List[Any] = []
    hook = sys.unraisablehook
    try:
        for number in SIGNALS:
            if signal.getsignal(number) not in (signal.SIG_IGN, None):
                before.append((number, signal.signal(number, stop)))
        sys.unraisablehook = lost
    except ValueError:
        pass
    try:
        yield
    finally:
        try:
            give_back(hook, before)
        except Stopped:
            # What it was to stop is done. After the first signal no other one stops anything.
            give_back(hook, before)


def remove(path: Path) -> None:
    """Removes a file or a folder, where it is there."""
    if path.is_dir():
        shutil.rmtree(path, ignore_errors=True)
    else:
        try:
            path.unlink()
        except OSError:
            pass


def clean() -> None:
    """Removes all that is under way."""
    for path in list(UNFINISHED):
        remove(path)
        UNFINISHED.discard(path)


@contextmanager
def unfinished(path: Path) -> Iterator[Path]:
    """A file or folder under way at this path, which is removed at the end if it is still there."""
    UNFINISHED.add(path)
    try:
        yield path
    finally:
        remove(path)
        UNFINISHED.discard(path)
