"""Reads what the program writes: a sheet with its journal, an audit and a replay. ValueError and its like for anything else."""
from __future__ import annotations

from typing import Callable, Dict, List, Mapping, Optional, Tuple

from .results import Audit, Match, Replay

__all__ = ["Called", "as_is", "cut", "read_audit", "read_replay", "read_sheet", "rows_of"]

# What a member of a side is called by its docket's name.
Called = Callable[[str, str], str]


def as_is(side: str, name: str) -> str:
    """A member by its docket's name."""
    return name


def rows_of(answer: bytes) -> List[List[str]]:
    """The rows of an answer, each its fields."""
    return [line.split(",") for line in answer.decode("ascii", "replace").splitlines()]


def cut(answer: bytes) -> Tuple[bytes, bytes]:
    """A match's answer as its sheet and its journal, which is empty where none was asked for."""
    at = 0 if answer.startswith(b"C,") else answer.find(b"\nC,") + 1 or len(answer)
    return answer[:at], answer[at:]


def read_sheet(answer: bytes) -> Match:
    """What a match answers, in the docket's names. ValueError for what is no sheet by itself."""
    sheet, journal = cut(answer)
    places: Dict[str, Optional[str]] = {}
    filled: Dict[str, int] = {}
    quotas: Dict[str, int] = {}
    for row in rows_of(sheet):
        if (row[0], len(row)) in (("M", 3), ("U", 2)) and row[1] not in places:
            places[row[1]] = row[2] if row[0] == "M" else None
        elif (row[0], len(row)) == ("F", 4) and row[1] not in filled:
            filled[row[1]], quotas[row[1]] = int(row[2]), int(row[3])
        else:
            raise ValueError(row)
    if _counted(places, filled) != filled:
        raise ValueError("counts")
    return Match(places, filled, quotas, sheet, journal)


def _counted(places: Mapping[str, Optional[str]], programmes: Mapping[str, int]) -> Dict[str, int]:
    """How many residents each programme has; KeyError for one that isn't there."""
    counted = dict.fromkeys(programmes, 0)
    for programme in places.values():
        if programme is not None:
            counted[programme] += 1
    return counted


def read_audit(status: int, answer: bytes, called: Called = as_is) -> Audit:
    """What an audit answers. ValueError, KeyError or IndexError for what is none."""
    rows = rows_of(answer)
    pairs: Dict[str, List[Tuple[str, str]]] = {"X": [], "B": []}
    over_quota: List[Tuple[str, int, int]] = []
    stable = {0: True, 4: False}[status]
    for row in rows[1:]:
        if row[0] == "O":
            over_quota.append((called("P", row[1]), int(row[2]), int(row[3])))
        else:
            pairs[row[0]].append((called("R", row[1]), called("P", row[2])))
    if rows[0] != ["S", "stable" if stable else "unstable"] or stable == (len(rows) > 1):
        raise ValueError(rows[0])
    return Audit(stable, tuple(pairs["X"]), tuple(over_quota), tuple(pairs["B"]))


def read_replay(status: int, answer: bytes, called: Called = as_is) -> Replay:
    """What a replay answers. ValueError, KeyError or IndexError for what is none."""
    rows = rows_of(answer)
    kind, first = rows[0][0], rows[0][1]
    if (kind == "G") != (status == 0) or kind != "G" and len(rows) > 1:
        raise ValueError(kind)
    if kind == "G":
        if any(row[:2] != ["K", str(worker)] for worker, row in enumerate(rows[1:])):
            raise ValueError(rows)
        return Replay(True, int(first), tuple(int(row[2]) for row in rows[1:]))
    if kind == "D":
        return Replay(False, differs=called("R", first))
    if kind != "N":
        raise KeyError(kind)
    if rows[0][2] != "still-pending":
        return Replay(False, place=int(first), word=rows[0][2])
    what, at = rows[0][3:]
    side = {"offers": "R", "due": "R", "answers": "P", "wish": "P"}[what]
    return Replay(False, place=int(first), word="still-pending", pending=what, at=called(side, at))
