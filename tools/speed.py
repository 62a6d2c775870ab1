"""What docs/speed.md and README.md say of speed, by the figures that the benchmarks wrote beside themselves.

The first line of such a file says of which commit of crates/ it is, of which day, of which builds, of which machine, and how many
processes ran or waited on it."""
from __future__ import annotations

import csv
import math
from typing import Dict, Iterable, List, NamedTuple, Sequence, Tuple

from statements.antt import Missing

Row = Dict[str, str]
DOCKETS = {
    "everybody": "10 lists of 20,000, 200,000 pairs",
    "market-200000": "market of 2,000 and 20,000, 200,000 pairs",
    "reversed": "lists against one another",
    "ladder": "2,000 programmes of one place, 100 residents who like the later programmes better",
    "chain": "one displacement after another, after 18,000 residents who list nobody",
}
# How our program ran, by the name of its runs.
RUNS = {"full": "2 workers", "one": "2 workers, mailboxes of 1 place", "workers-1": "1 worker", "workers-4": "4 workers", "workers-8": "8 workers",
        "bare": "2 workers, without memory settings"}
PLAIN = ("same_job", "usual", "lean")
MARKET = "market-200000"
# By its folder each benchmark of a part, with the nanoseconds or bytes of a unit, and what its runs are.
PARTS: Dict[str, Dict[str, Tuple[str, float]]] = {
    "docket": {f"{name}:{kind}": (f"reading {of}, {unit}", scale)
               for name, of in (("records", "2,000,000 records"), ("lists", "20,020 rows, 400,000 names in lists"), ("journal", "22,000 members, 1,160,001 events"))
               for kind, unit, scale in (("time", "ms", 1e6), ("memory", "MB", 2.0 ** 20))},
    "core": {f"{name}:{call}": (f"`{told}`, {of}, ms", 1e6)
             for name, of in (("10x20000", "10 lists of 20,000"), ("2000x100", "2,000 lists of 100"))
             for call, told in (("finish", "finish"), ("open", "Core::new"))},
    "ledger": {"long-settled": ("an entry, 10 lists of 20,000, ns", 0.0), "short-settled": ("an entry, 2,000 lists of 100, ns", 0.0)},
    "audit": {f"{name}:{call}": (f"{told}, {of}, ms", 1e6)
              for name, of in (("long", "10 lists of 20,000"), ("short", "2,000 lists of 100"))
              for name, call, told in ((f"{name}-empty", "audit", "audit of an empty sheet"), (f"{name}-settled", "audit", "audit of the result"),
                                       (f"{name}-settled", "replay", "replay"))},
    "mailbox": {"alone": ("messages on one thread, ms", 1e6), "room-for-all": ("messages between threads, room for all, ms", 1e6),
                "one-place": ("messages between threads, 1 place, ms", 1e6), "most-places": ("messages between threads, 1,024 places, ms", 1e6),
                "most-places-pausing": ("messages between threads, 1,024 places, refused ones pause, ms", 1e6)},
}


class Figures(NamedTuple):
    """The figures of a benchmark, and what they are of."""

    commit: str
    day: str
    built: str
    machine: str
    load: str
    rows: List[Row]

    def told(self) -> str:
        load = f", load {float(self.load):.0f}" if self.load else ""
        return f"commit `{self.commit}`, {self.day}, {self.built} builds{load}"


class Goal(NamedTuple):
    """Figures of one kind, in a form with its unit, and the most that they are to be, where that is set."""

    what: str
    figures: List[float]
    form: str
    most: float = math.inf

    def row(self) -> Sequence[str]:
        number, _, unit = self.form.partition(" ")
        shown = [format(it, number) for it in self.figures]
        figures = " and ".join([", ".join(shown[:-1]), shown[-1]] if len(shown) > 1 else shown)
        if self.most == math.inf:
            return self.what, f"{figures} {unit}", ""
        kept = sum(float(it) <= self.most for it in shown)
        met = "met" if kept == len(shown) else "missed in part" if kept else "missed"
        return self.what, f"{figures} {unit}", f"{self.most:g} {unit}, {met}"


def read(top: str, path: str) -> Figures:
    """The figures in bench/PATH."""
    with open(f"{top}/bench/{path}", encoding="utf-8", newline="") as file:
        lines = list(csv.reader(file))
    if len(lines) < 3 or lines[0][:1] != ["measured"] or len(lines[0]) != 6 or any(len(it) != len(lines[1]) for it in lines[2:]):
        raise Missing(f"bench/{path} has no figures")
    commit, day, built, machine, load = lines[0][1:]
    return Figures(commit, day, built, machine, load, [dict(zip(lines[1], row)) for row in lines[2:]])


def table(heads: str, rows: Iterable[Iterable[str]]) -> str:
    """A table with these heads, which bars part."""
    count = heads.count("|") + 1
    return "\n".join([f"| {heads} |", "|" + "---|" * count, *(f"| {' | '.join(row)} |" for row in rows)])


def whole(of: Figures, lines: str, more: str = "") -> str:
    """A table below a line that says what it is of."""
    return f"Measured: {of.told()}{more}.\n\n{lines}"


def millions(count: str) -> str:
    return f"{int(count) / 1e6:,.1f}" if count else ""


def costs(top: str) -> str:
    """The instructions of whole matches, ours with one worker, beside those of plain Rust and of an audit."""
    of = read(top, "match/instructions.csv")
    rows = []
    for it in of.rows:
        mine, same, lean, audit = (int(it[name]) for name in ("program", "same_job", "lean", "audit"))
        rows.append([DOCKETS[it["docket"]], millions(it["program"]), millions(it["same_job"]), f"{mine / same:.2f}", millions(it["usual"]),
                     millions(it["lean"]), f"{mine / lean:.2f}", f"{same / lean:.2f}", millions(it["audit"]), f"{audit / mine:.2f}"])
    return whole(of, table("docket | program | same job | ratio | usual | lean | program to lean | same job to lean | `./audit` | to program", rows))


class Seconds:
    """The runs of whole matches, by docket and program."""

    def __init__(self, top: str) -> None:
        self.of = read(top, "match/figures.csv")
        self.runs = {(it["docket"], it["program"]): it for it in self.of.rows}

    def median(self, docket: str, program: str, kind: str = "processor") -> float:
        return float(self.runs[docket, program][kind])

    def ratio(self, docket: str, program: str, other: str, kind: str = "processor") -> float:
        return self.median(docket, program, kind) / self.median(docket, other, kind)

    def both(self, docket: str, program: str, kind: str = "processor") -> str:
        run = self.runs.get((docket, program))
        return f"{float(run[f'{kind}_best']):.2f}, {float(run[kind]):.2f}" if run else ""

    def row(self, docket: str, program: str, is_first: bool) -> List[str]:
        cells = [DOCKETS[docket] if is_first else "", RUNS[program], self.both(docket, program)]
        for other in PLAIN:
            has = (docket, other) in self.runs
            cells += [self.both(docket, other) if is_first else "", f"{self.ratio(docket, program, other):.2f}" if has else ""]
        cells += [self.both(docket, program, "wall"), f"{self.median(docket, program, 'mb'):.0f}"]
        return cells + [f"{self.median(docket, it, 'mb'):.0f}" if is_first and (docket, it) in self.runs else "" for it in PLAIN]


def matches(top: str) -> str:
    """The seconds and the memory of whole matches, the best and the median of all rounds."""
    seconds = Seconds(top)
    keys = [(docket, program) for docket in DOCKETS for program in RUNS if (docket, program) in seconds.runs]
    rows = [seconds.row(docket, program, program == "full") for docket, program in keys]
    lines = table("docket | run | processor, s | same job | ratio | usual | ratio | lean | ratio | wall, s | memory, MB | same job | usual | lean", rows)
    return whole(seconds.of, lines, f", {seconds.of.rows[0]['rounds']} rounds")


def beyond(top: str) -> str:
    """Markets up to the national limits."""
    of = read(top, "limits/beyond.csv")
    rows = [[it["docket"], f"{int(it['bytes']) / 1e6:.1f}", f"{int(it['pairs']):,}", f"{int(it['events']):,}",
             *(f"{float(it[name]):.2f}" for name in ("seconds", "lean_seconds", "same_seconds")),
             *(f"{int(it[name]) / 1e6:,.0f}" for name in ("instructions", "lean_instructions", "same_instructions")),
             *(f"{float(it[name]):.0f}" for name in ("mb", "lean_mb", "same_mb"))] for it in of.rows]
    return whole(of, table("docket | MB | pairs | events | processor, s | lean | same job | instructions, millions | lean | same job | memory, MB | lean | same job", rows))


def longest(top: str) -> str:
    """Dockets that are made to cost much."""
    of = read(top, "limits/figures.csv")
    return whole(of, table("docket | MB | the docket is | processor, s | memory, MB", (
        [it["docket"], f"{int(it['bytes']) / 1e6:,.0f}", it["ends"], it["processor"], f"{float(it['mb']):.0f}"] for it in of.rows)))


def unit(row: Row, scale: float) -> float:
    """What the figures of a row are divided by: a scale of 0 is for figures of one of the things found."""
    return scale or float(row["found"])


def parts(top: str) -> str:
    """Parts of a match beside plain Rust, by the benchmarks of these parts."""
    told: Dict[str, List[str]] = {}
    rows: List[List[str]] = []
    for folder, names in PARTS.items():
        of = read(top, f"{folder}/figures.csv")
        told.setdefault(of.told(), []).append(f"`{folder}`")
        for it in of.rows:
            if it["what"] not in names:
                continue
            name, scale = names[it["what"]]
            mine, other = ([float(it[f"{side}{kind}"]) / unit(it, scale) for kind in ("_best", "")] for side in ("rattle", "rust"))
            rows.append([name, *(", ".join(f"{figure:.1f}" for figure in figures) for figures in (mine, other)),
                         ", ".join(f"{a / b:.2f}" for a, b in zip(mine, other))])
    lines = "; ".join(f"{', '.join(folders)}: {it}" for it, folders in told.items())
    return f"Measured: {lines}.\n\n{table('part | Rattle, best and median | Rust | ratio', rows)}"


def part_ratios(top: str, folder: str, ending: str = "") -> List[float]:
    """The ratios of the medians of those runs of a benchmark that end so."""
    return [int(it["rattle"]) / int(it["rust"]) for it in read(top, f"{folder}/figures.csv").rows if it["what"].endswith(ending)]


def of_matches(top: str) -> List[Goal]:
    """The goals of whole matches."""
    it = Seconds(top)
    growths = [it.median(f"market-{2 * pairs}", run) / it.median(f"market-{pairs}", run) for run in ("full", "one") for pairs in (25_000, 50_000, 100_000)]
    workers = [it.ratio(docket, run, "workers-1") for docket in ("everybody", MARKET) for run in ("full", "workers-4", "workers-8")]
    two = ("full", "one")
    return [
        Goal("a whole match at the limits, processor time", [it.median(MARKET, "full")], ".2f s"),
        Goal("a whole match at the limits, compared with the usual program on one thread", [it.ratio(MARKET, "full", "usual")], ".2f times", 1.3),
        Goal("a whole match at the limits, compared with the lean program on one thread", [it.ratio(MARKET, "full", "lean")], ".2f times", 2.3),
        Goal("a whole match at the limits, compared with the same-job program", [it.ratio(MARKET, "full", "same_job")], ".2f times"),
        Goal("10 lists of 20,000, compared with the lean program; full, narrow mailboxes", [it.ratio("everybody", run, "lean") for run in two], ".2f times", 2.5),
        Goal("memory of a whole match at the limits, with full mailboxes", [it.median(MARKET, "full", "mb")], ".0f MB", 48),
        Goal("memory of a whole match at the limits, with narrow mailboxes", [it.median(MARKET, "one", "mb")], ".0f MB", 35),
        Goal("a match where residents prefer the later programmes, compared with the usual program; full, narrow mailboxes",
             [it.ratio("ladder", run, "usual") for run in two], ".2f times", 1.7),
        Goal("a match where each offer displaces another one, compared with a match at the limits; full, narrow mailboxes",
             [it.median("chain", run) / it.median(MARKET, run) for run in two], ".2f times", 2),
        Goal("growth of the processor time at each doubling of the pairs from 25,000 to 200,000; full, then narrow mailboxes", growths, ".1f times", 2.3),
        Goal("processor time of 2, 4 and 8 workers, compared with one, on 10 lists of 20,000 and at the limits", workers, ".2f times", 1.2),
        Goal("wall time of 2 workers, compared with one, on 10 lists of 20,000 and at the limits", [it.ratio(docket, "full", "workers-1", "wall") for docket in ("everybody", MARKET)], ".2f times", 1),
        Goal("processor time with the memory settings, compared with none", [it.ratio(MARKET, "full", "bare")], ".2f times"),
    ]


def of_parts(top: str) -> List[Goal]:
    """The goals of audits, of long lists, and of the parts of a match."""
    counts = read(top, "match/instructions.csv").rows
    lists = read(top, "limits/figures.csv").rows[:2]
    audits = [int(it["rattle"]) / 1e9 for it in read(top, "audit/figures.csv").rows]
    return [
        Goal("instructions of `./audit` with docket and sheet, compared with a match, for the five dockets of *What the promises cost*", [int(it["audit"]) / int(it["program"]) for it in counts], ".2f times", 1.3),
        Goal("wall time of the longest audit or replay at the limits", [max(audits)], ".2f s", 5),
        Goal("wall time of an audit of the result of 10 lists of 20,000 and of 2,000 lists of 100, compared with Rust", part_ratios(top, "audit", "settled:audit"), ".2f times", 1.5),
        Goal("processor time of a match of the longest lists, with short names and with names of 32 bytes", [float(it["processor"]) for it in lists], ".1f s", 5),
        Goal("memory of a match of these lists", [float(it["mb"]) for it in lists], ".0f MB", 512),
        Goal("processor time of reading many records, long lists and many events, compared with Rust", part_ratios(top, "docket", ":time"), ".2f times", 1.3),
        Goal("memory of reading many records, long lists and many events, compared with Rust", part_ratios(top, "docket", ":memory"), ".2f times", 3),
        Goal("wall time of an entry into the ledger, with 10 lists of 20,000 and with 2,000 lists of 100, compared with Rust", part_ratios(top, "ledger"), ".2f times", 1.5),
        Goal("wall time of messages through a mailbox, in the five cases of *Parts of a match*, compared with Rust", part_ratios(top, "mailbox"), ".2f times", 2),
    ]


def short(top: str) -> str:
    """All goals, and whether the figures meet them."""
    return table("What | Figure | Goal, at most", (it.row() for it in [*of_matches(top), *of_parts(top)]))


def commits(top: str) -> str:
    """The instructions of two commits' programs."""
    of = read(top, "commits/figures.csv")
    before, after = list(of.rows[0])[1:3]
    rows = []
    for it in of.rows:
        goal = Goal("", [int(it[after]) / int(it[before])], ".4f times", float(it["goal"] or math.inf)).row()[2].replace(" times", "")
        rows.append([it["run"], millions(it[before]), millions(it[after]), f"{int(it[after]) / int(it[before]):.4f}", goal])
    return whole(of, table(f"run | {before} | {after} | ratio | goal", rows))


def readme(top: str) -> str:
    """The speed of a match at the limits, in a sentence."""
    it = Seconds(top)
    return (f"A match at the limits of `./residency` took {it.median(MARKET, 'full'):.2f} s of processor time and {it.median(MARKET, 'full', 'mb'):.0f} MB of memory "
            f"on {it.of.day} ([docs/speed.md](docs/speed.md)).")


# By its name each part of docs/speed.md, and of README.md the part `speed`.
TABLES = {"short": short, "costs": costs, "matches": matches, "beyond": beyond, "longest": longest, "parts": parts, "commits": commits, "speed": readme}
