"""Puts each wrong body into a copy of a crate, as a sibling beside the function that it changes, with a copy of its proof folder."""
from __future__ import annotations

import os
import re
import shutil
from typing import Dict, List, NamedTuple, Tuple

from edits import Change, Edit
from functions import block_of


class Sibling(NamedTuple):
    """A sibling's name, its function's name, its place (a file and its lines there), and its proof folder if it has one."""

    name: str
    of: str
    path: str
    lines: range
    proof: str


class Planted(NamedTuple):
    """What stands in a copy: by its sibling's name each edit, and the siblings that are as their functions."""

    edits: Dict[str, Edit]
    unchanged: List[str]
    siblings: Dict[str, Sibling]


def module_of(path: str) -> List[str]:
    """The module of a source file, by its steps below the crate."""
    steps = path[len("src/"):-len(".rt")].split("/")
    return steps[:-1] if steps[-1] in ("lib", "main", "mod") else steps


def proof_of(change: Change) -> str:
    """The folder of a function's own proof."""
    return "/".join(["proofs", *module_of(change.path), *([change.function.owner] if change.function.owner else []), change.function.name])


def free_name(words: str, text: str) -> str:
    """The name with a number behind it that the crate's text doesn't have."""
    number = 1
    while re.search(rf"\b{words}_{number}\b", text):
        number += 1
    return f"{words}_{number}"


def copy_proof(crate: str, folder: str, change: Change, name: str) -> str:
    """Copies a function's proof folder for its sibling, whose modules it then names; its path, or no text."""
    was = proof_of(change)
    if not os.path.isdir(f"{folder}/{was}"):
        return ""
    now = f"{os.path.dirname(was)}/{name}"
    shutil.copytree(f"{folder}/{was}", f"{folder}/{now}")
    steps = r"\.".join(was.split("/")[1:-1])
    own = re.compile(rf"(Rattle\.{crate}\.(?:proofs|specs\.contracts)\.{steps}{'[.]' if steps else ''}){change.function.name}\b(?!-)")
    for at, _, files in os.walk(f"{folder}/{now}"):
        for it in files:
            with open(f"{at}/{it}", encoding="utf-8") as file:
                text = file.read()
            with open(f"{at}/{it}", "w", encoding="utf-8") as file:
                file.write(re.sub(rf"\b{change.function.name}_spec\b", f"{name}_spec", own.sub(rf"\g<1>{name}", text)))
    return now


def whole_text(folder: str) -> str:
    found = []
    for at, _, files in os.walk(f"{folder}/src"):
        for it in files:
            with open(f"{at}/{it}", encoding="utf-8") as file:
                found.append(file.read())
    return "\n".join(found)


def plant(crate: str, folder: str, changes: "List[Tuple[Edit, Change]]") -> Planted:
    """Changes the copy of a crate that stands in the folder. A function with a proof by hand gets one unchanged sibling too."""
    planted, known = Planted({}, [], {}), whole_text(folder)
    by_file: Dict[str, List[Tuple[int, str, str, Change]]] = {}
    seen = set()
    for edit, change in changes:
        function = change.function
        with open(f"{folder}/{change.path}", encoding="utf-8") as file:
            block = block_of(file.read(), function)
        kinds = [("wrong", change.block)]
        if (change.path, function) not in seen and os.path.isdir(f"{folder}/{proof_of(change)}"):
            kinds.append(("unchanged", block))
        seen.add((change.path, function))
        for kind, text in kinds:
            name = free_name(f"{function.name}_{kind}", known)
            known += f" {name}"
            if kind == "wrong":
                planted.edits[name] = edit
            else:
                planted.unchanged.append(name)
            text = re.sub(rf"\bfn {function.name}\b", f"fn {name}", text, count=1)
            by_file.setdefault(change.path, []).append((function.last, name, text, change))
    for path, added in by_file.items():
        write(crate, folder, path, added, planted)
    return planted


def write(crate: str, folder: str, path: str, added: "List[Tuple[int, str, str, Change]]", planted: Planted) -> None:
    """Writes a file's siblings, each below its function, and notes where they stand."""
    with open(f"{folder}/{path}", encoding="utf-8") as file:
        lines = file.read().split("\n")
    made: List[str] = []
    for at, line in enumerate(lines):
        made.append(line)
        for last, name, text, change in added:
            if last == at:
                block = ["", *text.split("\n")]
                proof = copy_proof(crate, folder, change, name)
                # (lines are counted from 1, and the first is empty)
                planted.siblings[name] = Sibling(name, change.function.name, path, range(len(made) + 2, len(made) + len(block) + 1), proof)
                made += block
    with open(f"{folder}/{path}", "w", encoding="utf-8") as file:
        file.write("\n".join(made))
