"""The programs of a release, each with the crate that builds it: a program more is a line here.

A release has those whose crates stand in crates.txt. The office's command is Python, and comes with the package."""
from __future__ import annotations

from typing import Dict

PROGRAMS = {
    "residency": "residency_cli",
    "residency-why": "residency_why",
    "residency-national": "residency_national",
    "residency-why-national": "residency_why_national",
    "residency-audit": "residency_audit",
    "residency-seal": "residency_seal",
}
OFFICE = "residency-office"
# A program of the national limits has the words of the one of the standard limits, and its help and version have that one's name.
CALLED = {"residency-national": "residency", "residency-why-national": "residency-why"}


def listed(top: str) -> Dict[str, str]:
    """The programs that this checkout has, each with its crate."""
    with open(f"{top}/crates.txt") as file:
        crates = {line.split(":")[0].strip() for line in file if ":" in line and not line.startswith("#")}
    return {name: crate for name, crate in PROGRAMS.items() if crate in crates}


def called(name: str) -> str:
    """The name that a program's help and version have."""
    return CALLED.get(name, name)
