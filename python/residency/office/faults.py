"""Faults of tables as values: each has a code, the cells that it is about, what stands there, and the settings that may mend it.

No sentence is here: `sentences` has these, in the words of the command.
"""
from dataclasses import dataclass, field
from typing import Any, Dict, List, Mapping, NamedTuple, Optional, Sequence, Tuple

from .. import text

# How many faults a report shows, unless all are asked for; after them a line says how many more there are, by kind.
MOST_SHOWN = 20
# So many faults of a kind are kept, and of others it is kept how many there are.
MOST_KEPT = 50_000
# How much a line shows of a cell, and of a path on the command line: the end of a path says which file it is, and no system takes more.
MOST_LETTERS, MOST_OF_PATH = 80, 4_096
Values = Mapping[str, Any]
counted = text.counted


def shown(text: str, most: int = MOST_LETTERS) -> str:
    """A text from a table as one line that a terminal can print: without control characters, and not too long."""
    if len(text) <= most and text.isprintable():
        return text
    cut = text if len(text) <= most else f"{text[:most]}... ({len(text):,} letters)"
    return "".join(c if c.isprintable() else repr(c)[1:-1] for c in cut)


def column_letters(cell: int) -> str:
    """What a spreadsheet calls the column of this cell, which counts from 1: A, B, .., Z, AA."""
    letters = ""
    while cell > 0:
        cell, last = divmod(cell - 1, 26)
        letters = chr(ord("A") + last) + letters
    return letters


class Cell(NamedTuple):
    """Where a cell stands: its table, and its row and column from 1."""

    table: str
    row: int
    column: int


@dataclass(frozen=True)
class Remedy:
    """A change of settings that may mend a fault: which setting, by its name in a settings file, what it is to be (of a setting
    with several words, one more of them), and whose it is where it is of one table."""

    setting: str
    value: Any
    table: str = ""


@dataclass
class Fault:
    """One cause. `code` is its kind, a point, and what it is; `row` and `column` are where it shows first, if anywhere; `cells` are
    all cells that it is about; `values` are what its sentence names, and `remedies` the settings that may mend it."""

    code: str
    table: str
    row: Optional[int] = None
    column: Optional[int] = None
    cells: List[Cell] = field(default_factory=list)
    values: Values = field(default_factory=dict)
    remedies: Tuple[Remedy, ...] = ()

    @property
    def kind(self) -> str:
        return self.code.partition(".")[0]


class OfficeError(Exception):
    """A step can't be done: `fault` says why, as a value. `status` is the exit status of its command, and `at` the folder or the file
    that it is about, as it was given, where it is about one; `table` is the file in that folder."""

    def __init__(self, code: str, status: int = 1, at: str = "", table: str = "", row: Optional[int] = None, **values: Any) -> None:
        super().__init__(code, values)
        self.fault = Fault(code, table, row, values=values)
        self.status, self.at = status, at

    def __str__(self) -> str:
        said = ", ".join(f"{name} {value}" for name, value in self.fault.values.items())
        return self.fault.code + (f": {said}" if said else "")


# The kinds of what tables and settings have, in the order in which one mends them.
KINDS = ("file", "heading", "row", "name", "places", "rank", "unknown", "twice", "limit")


class Faults:
    """All faults found so far; causes that are given the same key stand together as one."""

    def __init__(self) -> None:
        self.kept: Dict[str, List[Fault]] = {kind: [] for kind in KINDS}
        self.counts: Dict[str, int] = dict.fromkeys(KINDS, 0)
        self.by_key: Dict[Tuple[str, ...], Fault] = {}
        # Whether what is told is left out, while rows are only looked at.
        self.is_deaf = False

    def __len__(self) -> int:
        return sum(self.counts.values())

    def tell(self, code: str, table: str, row: Optional[int], column: Optional[int], values: Optional[Values] = None,
             key: Tuple[str, ...] = (), remedies: Sequence[Remedy] = ()) -> None:
        """Notes a fault. One with a key that was told before is a further cell of that one."""
        if self.is_deaf:
            return
        kind = code.partition(".")[0]
        cell = [] if row is None or column is None else [Cell(table, row, column)]
        before = self.by_key.get((kind,) + key)
        if before is not None:
            before.cells += cell
            return
        self.counts[kind] += 1
        if self.counts[kind] > MOST_KEPT:
            return
        fault = Fault(code, table, row, column, cell, values or {}, tuple(remedies))
        self.kept[kind].append(fault)
        if key:
            self.by_key[(kind,) + key] = fault

    def is_full(self, kind: str) -> bool:
        """Whether so many faults of a kind are kept that another one is only counted."""
        return self.counts[kind] >= MOST_KEPT

    def ordered(self, kind: str) -> List[Fault]:
        """The faults of a kind, as they stand in the tables."""
        return sorted(self.kept[kind], key=lambda fault: (fault.table, fault.row or 0, fault.column or 0))

    def every(self) -> List[Fault]:
        """All that are kept, in the order in which one mends them."""
        return [fault for kind in KINDS for fault in self.ordered(kind)]


class FaultsError(OfficeError):
    """What was read is at fault: every fault at once. Exit status 3."""

    def __init__(self, faults: Faults) -> None:
        super().__init__("file.faults", 3)
        self.faults = faults


