"""Keeps what was refused on this machine, by a sum of all that a verdict stands on, outside any clone."""
from __future__ import annotations

import contextlib
import hashlib
import os
from typing import Dict, List

from edits import Edit

PARTS = ("src", "specs", "proofs")


def place() -> str:
    """The folder of the verdicts that are kept."""
    return os.path.join(os.environ.get("XDG_CACHE_HOME") or os.path.expanduser("~/.cache"), "residency", "refused")


def files_below(folder: str) -> List[str]:
    return sorted(f"{at}/{it}" for at, folders, names in os.walk(folder) for it in names if "__pycache__" not in at)


def sum_of(top: str, crates: List[str], listed: Dict[str, str], toolchain: str) -> str:
    """A sum of these crates' texts and lines in crates.txt, of the handles, the toolchain, and of this program itself."""
    made = hashlib.sha256(toolchain.encode())
    paths = [it for crate in crates for part in PARTS for it in files_below(f"{top}/crates/{crate}/{part}")]
    own = [it for it in files_below(os.path.dirname(os.path.abspath(__file__))) if it.endswith((".py", "/run"))]
    for path in [*paths, f"{top}/HANDLES", *own]:
        with open(path, "rb") as file:
            text = file.read()
        name = os.path.relpath(path, top) if path.startswith(f"{top}/crates/") else os.path.basename(path)
        made.update(f"{name} {len(text)}\n".encode() + text)
    made.update("".join(listed[it] for it in crates).encode())
    return made.hexdigest()


def is_same(text: str, other: str) -> bool:
    """Whether two folders of a crate have the same texts."""
    texts: List[Dict[str, bytes]] = []
    for folder in (text, other):
        texts.append({})
        for path in [it for part in PARTS for it in files_below(f"{folder}/{part}")]:
            with open(path, "rb") as file:
                texts[-1][os.path.relpath(path, folder)] = file.read()
    return texts[0] == texts[1]


def key_of(edit: Edit, sum_of_crate: str) -> str:
    return hashlib.sha256(f"{sum_of_crate} {edit.label}\n{edit.text}".encode()).hexdigest()


def find(key: str) -> str:
    """By what the edit of this key was refused, or no text."""
    try:
        with open(f"{place()}/{key}", encoding="utf-8") as file:
            first, _, why = file.read().partition("\n")
    except OSError:
        return ""
    return why if first == key else ""


def keep(key: str, why: str) -> None:
    """Keeps why an edit is refused; where the folder can't be written, each run tries the edit again."""
    with contextlib.suppress(OSError):
        os.makedirs(place(), exist_ok=True)
        with open(f"{place()}/{key}.{os.getpid()}", "w", encoding="utf-8") as file:
            file.write(f"{key}\n{why}")
        os.replace(file.name, f"{place()}/{key}")
