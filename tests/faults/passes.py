"""The first fault of a market's files: the one that their records, one file after another, have by the four passes of docs/format.md. A
record of another part is a fault of the first pass at its place in its file. Rows are plain: no field is quoted."""
from __future__ import annotations

import re
from typing import Dict, Iterator, List, NamedTuple, Optional, Set, Tuple

# The kinds of records that each part may have; in one file all kinds may stand.
KINDS = {"docket": "VQPRW", "sheet": "MUF", "journal": "CE", "whole": "VQPRWMUFCE"}
# By kind, or by an event's word, how many fields a record has; None where there may be more than so many.
EXACTLY = {"V": 2, "Q": 3, "W": 3, "M": 3, "U": 2, "F": 4, "offer": 4, "take": 4, "answer": 5, "hear": 5, "close": 2}
AT_LEAST = {"P": 2, "R": 2}
NAMES = {"Q": slice(1, 2), "P": slice(1, None), "R": slice(1, None), "W": slice(2, 3), "M": slice(1, 3), "U": slice(1, 2), "F": slice(1, 2),
         "E": slice(2, 4)}
ANSWERS = ("hold", "decline", "release")
QUOTA, ROOM, WORKERS = 10_000, 1_024, 8


class Record(NamedTuple):
    """A record, its file, and its number there from 1."""

    part: str
    number: int
    row: List[str]


class Fault(NamedTuple):
    """The file, the record's number there, and what is said of it; number 0 stands for a file without a record."""

    part: str
    number: int
    why: str

    def text(self) -> str:
        return f"record {self.number}: {self.why}" if self.number else self.why


def records_of(parts: Dict[str, bytes]) -> List[Record]:
    return [Record(part, number, line.split(",")) for part in KINDS if part in parts
            for number, line in enumerate(parts[part].decode().splitlines(), 1)]


def number_of(text: str) -> Optional[int]:
    return int(text) if re.fullmatch("[0-9]{1,9}", text) else None


class First:
    """The first pass: each record by itself, after what the ones before it declared."""

    def __init__(self) -> None:
        self.is_second_version, self.is_first, self.has_capacity = False, True, False
        self.workers: Optional[int] = None
        self.declared: Set[Tuple[str, ...]] = set()

    def why(self, part: str, row: List[str]) -> Optional[str]:
        kind, is_first = row[0], self.is_first
        self.is_first = False
        if kind in [*KINDS["whole"]] and kind not in [*KINDS[part]]:
            return "belongs to another part"
        if kind not in [*KINDS["whole"]] or kind == "V" and not is_first or kind == "W" and not self.is_second_version:
            return "unknown kind of row"
        return self.fields(kind, row) or self.values(kind, row) or self.context(kind, row)

    def fields(self, kind: str, row: List[str]) -> Optional[str]:
        if kind == "E":
            if len(row) > 1 and row[1] not in EXACTLY:
                return "bad journal row"
            if len(row) < 2 or len(row) != EXACTLY[row[1]] + (self.workers is not None):
                return "wrong number of fields"
            return None
        is_right = len(row) in (2, 3) if kind == "C" else len(row) >= AT_LEAST[kind] if kind in AT_LEAST else len(row) == EXACTLY[kind]
        if not is_right:
            return "wrong number of fields"
        if kind == "V" and row[1] != "2":
            return "unknown version"
        return "bad withdrawal row" if kind == "W" and row[1] not in ("P", "R") else None

    def values(self, kind: str, row: List[str]) -> Optional[str]:
        names = row[NAMES[kind]] if kind in NAMES and row[:2] != ["E", "close"] else []
        if not all(re.fullmatch("[A-Za-z0-9_.-]{1,32}", name) for name in names):
            return "bad name"
        if kind == "Q" and number_of(row[2]) is None:
            return "bad quota"
        if kind == "F" and None in (number_of(row[2]), number_of(row[3])):
            return "bad sheet"
        if kind == "C":
            room, workers = number_of(row[1]), number_of(row[2]) if len(row) > 2 else 1
            if row[1] != "full" and not 1 <= (room or 0) <= ROOM or not 1 <= (workers or 0) <= WORKERS:
                return "bad journal row"
        if kind == "E":
            is_kind = row[1] not in ("answer", "hear") or row[4] in ANSWERS
            worker = 0 if self.workers is None else number_of(row[-1])
            if not is_kind or worker is None or worker >= (self.workers or 1):
                return "bad journal row"
        return None

    def context(self, kind: str, row: List[str]) -> Optional[str]:
        owner = (kind, *row[1:3]) if kind == "W" else (kind, row[1])
        if kind in ("Q", "P", "R", "W"):
            if owner in self.declared:
                return "declared twice"
            self.declared.add(owner)
        if kind == "C" and self.has_capacity or kind == "E" and not self.has_capacity:
            return "bad journal row"
        if kind == "C":
            self.has_capacity, self.workers = True, number_of(row[2]) if len(row) > 2 else None
        self.is_second_version |= kind == "V"
        return f"quota over {QUOTA}" if kind == "Q" and int(row[2]) > QUOTA else None


def of_lists(records: List[Record], known: Dict[str, Set[str]]) -> Iterator[Fault]:
    """The second pass: lists and withdrawals."""
    for part, number, row in records:
        if row[0] == "W" and row[2] not in known[row[1]]:
            yield Fault(part, number, "unknown name")
        if row[0] in known:
            other = known["R" if row[0] == "P" else "P"]
            if row[1] not in known[row[0]] or not other.issuperset(row[2:]):
                yield Fault(part, number, "unknown name")
            elif len({*row[2:]}) < len(row) - 2:
                yield Fault(part, number, "a name is listed twice")


def of_sheet(records: List[Record], known: Dict[str, Set[str]], quotas: Dict[str, int]) -> Iterator[Fault]:
    """The third pass, three walks over the sheet, if there is one."""
    rows = [record for record in records if record.row[0] in [*KINDS["sheet"]]]
    if not rows:
        return
    seen: Set[Tuple[str, str]] = set()
    for part, number, row in rows:
        side = "P" if row[0] == "F" else "R"
        if row[1] not in known[side] or row[0] == "M" and row[2] not in known["P"]:
            yield Fault(part, number, "unknown name")
        if (side, row[1]) in seen:
            yield Fault(part, number, "bad sheet")
        seen.add((side, row[1]))
    if len(seen) < sum(map(len, known.values())):
        yield Fault(rows[-1].part, max(it.number for it in records if it.part == rows[-1].part), "bad sheet")
    for part, number, row in rows:
        filled = sum(other.row[0] == "M" and other.row[2] == row[1] for other in rows)
        if row[0] == "F" and (int(row[2]), int(row[3])) != (filled, quotas.get(row[1])):
            yield Fault(part, number, "bad sheet")


def all_faults(parts: Dict[str, bytes]) -> Iterator[Fault]:
    """The faults of files in the order in which they are looked for; only the first need be right."""
    records, first = records_of(parts), First()
    for part, number, row in records:
        why = first.why(part, row)
        if why:
            yield Fault(part, number, why)
    known = {"P": {it.row[1] for it in records if it.row[0] == "Q"}, "R": {it.row[1] for it in records if it.row[0] == "R"}}
    quotas = {it.row[1]: int(it.row[2]) for it in records if it.row[0] == "Q"}
    yield from of_lists(records, known)
    yield from of_sheet(records, known, quotas)
    for part, number, row in records:
        if row[0] == "E" and row[1] != "close":
            p, r = (row[2], row[3]) if row[1] in ("offer", "hear") else (row[3], row[2])
            if p not in known["P"] or r not in known["R"]:
                yield Fault(part, number, "unknown name")
    # A docket of nobody has a sheet without a row.
    if parts.get("sheet") == b"" and any(known.values()):
        yield Fault("sheet", 0, "no sheet")
    if parts.get("journal") == b"":
        yield Fault("journal", 0, "no journal")


def first_fault(parts: Dict[str, bytes]) -> Optional[Fault]:
    return next(all_faults(parts), None)
