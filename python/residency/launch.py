"""What stands on the path where a wheel with the programs was installed: a script that becomes the program of its name."""
from __future__ import annotations

import os
import signal
import sys
from pathlib import Path

from .program import WITHIN, environment

__all__ = ["main"]


def main() -> int:
    """Becomes the program of the package that has this script's name; without it, says so in one line and answers 1."""
    name = os.path.basename(os.path.realpath(sys.argv[0]))
    program = Path(__file__).resolve().parent / WITHIN / name
    # Python ignores these, and the program is to meet them as it does when it is started by itself.
    for ignored in (signal.SIGPIPE, signal.SIGXFSZ):
        signal.signal(ignored, signal.SIG_DFL)
    try:
        os.execve(program, [name, *sys.argv[1:]], environment())
    except OSError as error:
        print(f"residency: {program} can't be started: {error.strerror}; install the package again", file=sys.stderr)
    return 1
