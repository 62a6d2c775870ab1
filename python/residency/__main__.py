"""Runs the built program, and writes its answer as JSON where it is asked to.

    python3 -m residency WORD..                               the program with these words
    python3 -m residency match|audit|replay --json WORD..     its answer as one line of JSON

Names are those of the docket, and the exit status is the program's. A fault is the program's own line on standard error; of a
docket at fault all faults are written, as `{"faults": [..]}`. What is proved of the program is proved of its own rows: this form of
them is only tested.
"""
from __future__ import annotations

import json
import os
import subprocess
import sys
from typing import Callable, Dict, List, Optional, Sequence, Union

from .answers import read_audit, read_replay, read_sheet
from .errors import ResidencyError
from .lint import lint
from .program import environment, find_program
from .results import Audit, Match, Replay

Answer = Union[Match, Audit, Replay]
# What reads the answer of each command, by its exit status and its bytes.
READERS: Dict[str, Callable[[int, bytes], Answer]] = {
    "match": lambda status, answer: read_sheet(answer), "audit": read_audit, "replay": read_replay}


def as_json(command: str, status: int, answer: bytes) -> str:
    """A command's answer as one line of JSON; ValueError for what is no answer of it."""
    try:
        return json.dumps(READERS[command](status, answer).to_dict())
    except (IndexError, KeyError, ValueError) as error:
        raise ValueError(f"the program wrote an answer that isn't a {command}'s") from error


def faults_of(data: bytes) -> str:
    """Every fault of a docket as one line of JSON; one that the program alone tells isn't among them."""
    return json.dumps({"faults": [fault.to_dict() for fault in lint(data)]})


def written(line: str, status: int) -> int:
    """Writes a line, and answers the status; another one where it can't be written."""
    try:
        sys.stdout.write(line + "\n")
        sys.stdout.flush()
    except OSError:
        # What is left in the buffer goes nowhere, so that the end of Python has nothing to fail at.
        os.dup2(os.open(os.devnull, os.O_WRONLY), sys.stdout.fileno())
        return told("the output could not be written", 1)
    return status


def told(text: str, status: int) -> int:
    """Says what is wrong in one line, and answers the status."""
    print(f"residency: {text}", file=sys.stderr)
    return status


def main(words: Optional[Sequence[str]] = None) -> int:
    """Does what the words of a command line say, and answers the exit status."""
    given: List[str] = list(sys.argv[1:] if words is None else words)
    try:
        program = str(find_program())
    except ResidencyError as error:
        return told(str(error), 1)
    left = [word for word in given if word != "--json"]
    wants_json = len(left) < len(given) and not {"--help", "-h", "--version"} & set(left)
    if wants_json and left[:1] not in [[command] for command in READERS]:
        return told(f"--json goes with {', '.join(READERS)}", 2)
    if not wants_json:
        return subprocess.run([program, *left], env=environment(), check=False).returncode
    data = b"" if sys.stdin is None else sys.stdin.buffer.read()
    done = subprocess.run([program, *left], input=data, stdout=subprocess.PIPE, env=environment(), check=False)
    if done.returncode not in (0, 3, 4):
        return done.returncode if done.returncode > 0 else told(f"the program ended by signal {-done.returncode}", 1)
    try:
        line = as_json(left[0], done.returncode, done.stdout) if done.returncode != 3 else faults_of(data)
    except ValueError as error:
        return told(str(error), 1)
    return written(line, done.returncode)


if __name__ == "__main__":
    sys.exit(main())
