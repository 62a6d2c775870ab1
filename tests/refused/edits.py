"""Reads the edits of a crate that must be refused, and says which function each changes."""
from __future__ import annotations

import os
import re
from typing import Dict, List, NamedTuple, Optional, Tuple

from functions import Function, block_of, functions_of, rest_of


class Edit(NamedTuple):
    """An edit: the crate, its name, its own bytes, and pairs of a file, an old text and a new one."""

    crate: str
    name: str
    text: str
    pairs: Tuple[Tuple[str, str, str], ...]

    @property
    def label(self) -> str:
        return f"{self.crate}/{self.name}"


class Wrong(Exception):
    """Why an edit can't be tried."""


class Change(NamedTuple):
    """The one function that an edit changes: its file, where it stands there, and its block with the change."""

    path: str
    function: Function
    block: str


def read(crate: str, path: str) -> Edit:
    """An edit as it stands in its file."""
    with open(path, encoding="utf-8") as file:
        text = file.read()
    at = old = ""
    pairs: List[Tuple[str, str, str]] = []
    for line in text.split("\n"):
        if line.startswith("file: "):
            at = line[6:].strip()
        elif line.startswith("old: "):
            old = line[5:]
        elif line.startswith("new:") and at and old:
            pairs.append((at, old, line[5:]))
            old = ""
    return Edit(crate, os.path.basename(path)[:-len(".edit")], text, tuple(pairs))


def edits_of(top: str, crate: str) -> List[Edit]:
    folder = f"{top}/crates/{crate}/must-fail"
    names = sorted(os.listdir(folder)) if os.path.isdir(folder) else []
    return [read(crate, f"{folder}/{it}") for it in names if it.endswith(".edit")]


def changed_files(edit: Edit, folder: str) -> Dict[str, Tuple[str, str]]:
    """By its path each file that the edit changes, as it is and as it becomes; each old text stands there once."""
    found: Dict[str, Tuple[str, str]] = {}
    for path, old, new in edit.pairs:
        if path not in found:
            try:
                with open(f"{folder}/{path}", encoding="utf-8") as file:
                    text = file.read()
            except OSError as fault:
                raise Wrong(f"there is no file {path}") from fault
            found[path] = (text, text)
        was, now = found[path]
        if now.count(old) != 1:
            raise Wrong(f"its old text is in {path} {now.count(old)} times, and not once: {old.strip()}")
        found[path] = (was, now.replace(old, new))
    if not found:
        raise Wrong("it has no pair of an old and a new text")
    if all(was == now for was, now in found.values()):
        raise Wrong("it changes nothing")
    return found


def change_of(edit: Edit, folder: str) -> Optional[Change]:
    """The one function that the edit changes, or None where it changes more, or something else."""
    files = changed_files(edit, folder)
    path, (was, now) = next(iter(files.items()))
    before, after = functions_of(was), functions_of(now)
    if len(files) > 1 or not path.startswith("src/") or rest_of(was) != rest_of(now) or len(before) != len(after):
        return None
    changed = [(one, block_of(now, other)) for one, other in zip(before, after) if block_of(was, one) != block_of(now, other)]
    if len(changed) != 1 or not changed[0][0].stands_free:
        return None
    function, block = changed[0]
    is_alone = re.search(r"#\[cycle\(|#\[test\]|#\[unsafe\(no_mangle", block)
    return None if is_alone else Change(path, function, block)
