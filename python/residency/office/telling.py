"""What the command says: lines on standard output, and complaints on standard error, if anybody has these."""
import json
import os
import re
import sys
from typing import Any

# What steers a terminal, or turns the direction of a line, but for the end of one.
STEERS = re.compile("[\x00-\x09\x0b-\x1f\x7f-\x9f\u2028-\u202e\u2066-\u2069]")


def silence(number: int = 1) -> None:
    """Lets what is still to be written to a stream go nowhere, so that the end of the program has nothing to fail at."""
    try:
        nowhere = os.open(os.devnull, os.O_WRONLY)
        os.dup2(nowhere, number)
        if nowhere != number:
            os.close(nowhere)
    except OSError:
        pass


def failed(text: str, status: int) -> int:
    """Complains of a text, line by line, and answers the status."""
    for line in text.split("\n"):
        complain(line)
    return status


def complain(line: str) -> None:
    """A line on standard error, if anybody has that."""
    if sys.stderr is None:
        return
    try:
        print(f"office: {line}", file=sys.stderr, flush=True)
    except (OSError, ValueError):
        silence(2)


def say(line: str) -> None:
    """A line on standard output, or several, of which nothing steers the terminal. OSError where that is closed or full."""
    if sys.stdout is None:
        raise OSError(0, "it is closed")
    print(STEERS.sub(lambda found: repr(found[0])[1:-1], line))


def as_json(value: Any) -> str:
    """A value as one line of JSON, of which nothing steers the terminal."""
    return STEERS.sub(lambda found: f"\\u{ord(found[0]):04x}", json.dumps(value, ensure_ascii=False))
