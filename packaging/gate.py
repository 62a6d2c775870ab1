"""What a whole run of ./check takes: of each part, and of each crate's proof and edits. ./check writes the table, and pages are made of it."""
from __future__ import annotations

import csv
import os
import threading
from typing import Dict, Iterator, List, NamedTuple, Tuple

# Seconds between two looks at the processes; what a process does after the last look isn't counted.
PAUSE = 1.0
# The words of the run that a table for pages is of: nothing of it counts that an earlier run kept.
ANEW = "./check --anew"


class At(NamedTuple):
    """A process that proves or builds a crate, and the seconds of a processor that it has taken by itself."""

    process: int
    crate: str
    seconds: float


def crates_below(ancestor: int) -> Iterator[At]:
    """The processes below this one that prove or build a crate, by the words that they were started with."""
    above: Dict[int, int] = {}
    found: List[At] = []
    for it in filter(str.isdecimal, os.listdir("/proc")):
        try:
            with open(f"/proc/{it}/stat") as file:
                fields = file.read().rpartition(")")[2].split()
            with open(f"/proc/{it}/cmdline", errors="replace") as file:
                given = file.read().split("\0")
        except OSError:  # it ended meanwhile
            continue
        above[int(it)] = int(fields[1])
        # Each word ends with a zero, so the last piece is no word; and a name has to follow.
        if "--crate-name" in given[:-2]:
            taken = sum(map(int, fields[11:13])) / os.sysconf("SC_CLK_TCK")
            found.append(At(int(it), given[given.index("--crate-name") + 1], taken))

    def is_below(process: int) -> bool:
        while process in above and process != ancestor:
            process = above[process]
        return process == ancestor

    return (it for it in found if is_below(it.process))


def crates_at_work(ancestor: int) -> List[str]:
    return sorted({it.crate for it in crates_below(ancestor)})


class Counter:
    """Counts the processor time of each crate's processes below a process, from its start to its end."""

    def __init__(self, ancestor: int) -> None:
        self.ancestor = ancestor
        self.seconds: Dict[Tuple[int, str], float] = {}
        self.ended = threading.Event()
        self.thread = threading.Thread(target=self.count, daemon=True)

    def count(self) -> None:
        while True:
            for it in crates_below(self.ancestor):
                self.seconds[it.process, it.crate] = it.seconds
            if self.ended.wait(PAUSE):
                return

    def __enter__(self) -> Counter:
        self.thread.start()
        return self

    def __exit__(self, *fault: object) -> None:
        self.ended.set()
        self.thread.join()

    def minutes(self) -> Dict[str, float]:
        by_crate: Dict[str, float] = {}
        for (_, crate), seconds in self.seconds.items():
            by_crate[crate] = by_crate.get(crate, 0.0) + seconds / 60
        return by_crate


class Row(NamedTuple):
    """A part, or a crate's proof or edits in one of them: how many were tried, and the minutes on the clock and of processors."""

    part: str
    crate: str
    tried: int
    minutes: float
    worked: float


class Table(NamedTuple):
    """A whole run: its words, its day, how many processors it had, its minutes on the clock, and its rows."""

    words: str
    day: str
    processors: int
    minutes: float
    rows: Tuple[Row, ...]

    @property
    def worked(self) -> float:
        return sum(it.worked for it in self.rows if not it.crate)


def number(count: int) -> str:
    """A small number as a word."""
    words = ("no", "one", "two", "three", "four", "five", "six", "seven", "eight")
    return words[count] if count < len(words) else str(count)


def write(path: str, table: Table) -> None:
    with open(path, "w", newline="") as file:
        out = csv.writer(file, lineterminator="\n")
        out.writerow(["run", table.words, table.day, table.processors, f"{table.minutes:.1f}"])
        for it in table.rows:
            out.writerow([it.part, it.crate, it.tried, f"{it.minutes:.1f}", f"{it.worked:.1f}"])


def read(path: str) -> Table:
    """The table that `write` wrote; a ValueError where it is none."""
    with open(path, newline="") as file:
        rows = list(csv.reader(file))
    if not rows or len(rows[0]) != 5 or rows[0][0] != "run" or any(len(it) != 5 for it in rows):
        raise ValueError(f"{path} is no table of a run")
    _, words, day, processors, minutes = rows[0]
    return Table(words, day, int(processors), float(minutes), tuple(Row(it[0], it[1], int(it[2]), float(it[3]), float(it[4])) for it in rows[1:]))


def told(path: str) -> str:
    """How long the run of a table took, in a sentence."""
    run = read(path)
    return (f"`{run.words}` took {run.minutes:.0f} minutes on {number(run.processors)} processors on {run.day}, "
            f"and {run.worked:.0f} minutes of processor time.")
