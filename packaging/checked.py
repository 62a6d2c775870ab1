#!/usr/bin/env python3
"""Notes what ./check has passed, so that a release is made of nothing else.

checked.py begin: before the first part. checked.py end: after the last one; what it notes is kept in .build/passed.
checked.py end --anew: nothing counted that an earlier check kept."""
from __future__ import annotations

import hashlib
import json
import os
import sys
from typing import Any, Dict, List, Optional

sys.dont_write_bytecode = True
from programs import PROGRAMS, listed  # noqa: E402
from tree import said_by, state_of  # noqa: E402

# A note names one, so a note that an earlier form of this file left is none.
FORM = 2


def built(top: str, name: str) -> str:
    """Where a program is when it is built here."""
    return f"{top}/crates/{PROGRAMS[name]}/out/{PROGRAMS[name]}"


def tried(top: str, name: str) -> str:
    """Where the program is that a trial is made of: what RESIDENCY_BIN tells, or what is built here."""
    told = os.environ.get("RESIDENCY_BIN", "")
    return f"{told}/{name}" if told else built(top, name)


def sum_of(path: str) -> str:
    """The SHA-256 of a file, or no text where there is none."""
    try:
        with open(path, "rb") as file:
            return hashlib.sha256(file.read()).hexdigest()
    except OSError:
        return ""


def sums_of(top: str) -> Dict[str, str]:
    return {name: sum_of(built(top, name)) for name in listed(top)}


def toolchain(top: str) -> str:
    return said_by(top, "rt", "version") or said_by(top, "/opt/rattle/bin/rt", "version")


def note_of(top: str) -> Optional[Dict[str, Any]]:
    """What ./check noted when it passed last, if it did."""
    try:
        with open(f"{top}/.build/passed") as file:
            note = json.load(file)
    except (OSError, ValueError):
        return None
    return note if isinstance(note, dict) and note.get("form") == FORM else None


def lines_of(path: str) -> List[str]:
    try:
        with open(path) as file:
            return file.read().splitlines()
    except OSError:
        return []


def begin(top: str) -> None:
    """Forgets what was passed before, and keeps what is checked out now."""
    os.makedirs(f"{top}/.build", exist_ok=True)
    for name in ("passed", "parts"):
        if os.path.exists(f"{top}/.build/{name}"):
            os.remove(f"{top}/.build/{name}")
    with open(f"{top}/.build/begun", "w") as file:
        json.dump(state_of(top), file)


def end(top: str, anew: bool) -> str:
    """Notes that all has passed, and answers what is to be told of it."""
    with open(f"{top}/.build/begun") as file:
        before = json.load(file)
    now = state_of(top)
    if not now["commit"]:
        return "check: passed; no release can be made of it, since this is no git checkout"
    if before != now or now["changed"]:
        what = f"has changes ({now['changed'].splitlines()[0].strip()})" if now["changed"] else "changed meanwhile"
        return f"check: passed; no release can be made of it, since the checkout {what}"
    note = {"form": FORM, "commit": now["commit"], "tree": now["tree"], "toolchain": toolchain(top), "programs": sums_of(top),
            "parts": lines_of(f"{top}/.build/parts"), "anew": anew}
    with open(f"{top}/.build/passed", "w") as file:
        json.dump(note, file, indent=1)
    if not anew:
        return "check: passed; tools/release makes a release of what ./check --anew has passed"
    return f"check: passed; tools/release may make a release of {now['commit'][:12]}"


if __name__ == "__main__":
    ROOT = os.path.dirname(os.path.dirname(os.path.abspath(__file__)))
    if sys.argv[1:] == ["begin"]:
        begin(ROOT)
    elif sys.argv[1:] in (["end"], ["end", "--anew"]):
        print(end(ROOT, "--anew" in sys.argv))
    else:
        sys.exit("checked.py: begin or end is wanted")
