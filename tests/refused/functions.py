"""Finds the functions of a source file by its layout, which is rt fmt's: a function ends with a brace as far in as it begins."""
from __future__ import annotations

import re
from typing import List, NamedTuple

HEAD = re.compile(r"^( *)(?:pub(?:\([^)]*\))? )?(?:const )?(?:unsafe )?fn (\w+)")
BLOCK = re.compile(r"^(?:pub(?:\([^)]*\))? )?(?:unsafe )?(impl|trait|mod)\b(.*)")
OWNER = re.compile(r"^(?:<(?:[^<>]|<[^<>]*>)*>)? ?(\w+)")


class Function(NamedTuple):
    """A function of a file: its name, the type that owns it if one does, the lines that it takes, and where it stands."""

    name: str
    owner: str
    # The first line of its attributes, and its last line, from 0.
    first: int
    last: int
    # Whether it stands by itself, or in a block that gives a type functions of its own.
    stands_free: bool


def attributes_above(lines: List[str], head: int) -> int:
    """The first line of the attributes right above a function's head."""
    at = head
    while at and (re.match(r" *(#\[|//)", lines[at - 1]) or re.match(r" *\)\]$", lines[at - 1])):
        at -= 1
        if re.match(r" *\)\]$", lines[at]):
            while not re.match(r" *#\[", lines[at]):
                at -= 1
    while re.match(r" *//", lines[at]):
        at += 1
    return at


def end_of(lines: List[str], head: int, indent: str) -> int:
    """The last line of the function whose head is there."""
    for at in range(head, len(lines)):
        line = lines[at]
        if line in (f"{indent}}}", f"{indent}{{}}") or at == head and line.endswith("}") and line.startswith(f"{indent}") and "{" in line:
            return at
        if line.endswith(";") and line[:len(indent) + 1].strip() and at == head:
            return at
    return head


def functions_of(text: str) -> List[Function]:
    """The functions of a file, in the order of its lines; one that stands in another isn't told."""
    lines, found = text.split("\n"), []
    kind, rest, past = "", "", -1
    for at, line in enumerate(lines):
        block = BLOCK.match(line)
        if block:
            kind, rest = block[1], block[2]
        elif line == "}":
            kind = ""
        head = HEAD.match(line)
        if not head or at <= past:
            continue
        past = end_of(lines, at, head[1])
        is_own = kind == "impl" and not re.search(r"\bfor\b", rest)
        owner = OWNER.match(rest) if kind == "impl" and is_own and head[1] else None
        free = not head[1] and not kind or owner is not None
        found.append(Function(head[2], owner[1] if owner else "", attributes_above(lines, at), past, free))
    return found


def block_of(text: str, function: Function) -> str:
    return "\n".join(text.split("\n")[function.first:function.last + 1])


def rest_of(text: str) -> str:
    """The text with each of its functions cut to its name."""
    lines = text.split("\n")
    for it in reversed(functions_of(text)):
        lines[it.first:it.last + 1] = [f"fn {it.owner}::{it.name}"]
    return "\n".join(lines)
