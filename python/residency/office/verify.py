"""What an auditor wants of a folder of results, in one run: each check is one line, and the last says in numbers what held.

Nothing here trusts who made the folder. Each part is read from a file of its own, what the programs are given is written anew from
the records that were told apart, and every file that follows from the parts is made again and compared byte by byte."""
import csv
import hashlib
import io
import json
import subprocess
import sys
from collections import Counter, defaultdict
from dataclasses import dataclass, field
from pathlib import Path
from typing import Any, Callable, Dict, List, NamedTuple, Optional, Sequence

from ..dictionaries import limits, sizes
from ..errors import ResidencyError
from ..key import read_key, write_key
from ..market import Market
from ..names import PROGRAMME, RESIDENT
from ..passes import NATIONAL, STANDARD
from ..program import run_program
from . import folder, remade, rosters, rounds, seal, tree
from .faults import MOST_SHOWN, OfficeError, counted, shown
from .outcome import Became, Details, Lists, outcome_of
from .remade import Source
from .running import Run
from .sentences import cause, said_by
from .steps import details_of
from .tables import Table
from .tree import Roots
from .writing import cause_of

# By the part that a file is read as: the letters of its records.
PARTS = {folder.DOCKET: "VQPRW", folder.SHEET: "MUF", folder.JOURNAL: "CE"}
OPINION = "second-opinion.py"
# What the program says of a choice up to the match, by what became of it.
ANSWERS = {Became.YOU_WITHDREW: "withdrawn", Became.IT_WITHDREW: "withdrawn", Became.MATCHED: "matched", Became.NOT_RANKED: "unranked",
           Became.NO_PLACES: "full", Became.FULL: "full"}


class Published(NamedTuple):
    """A root as it was published, and the number of members with it, where that was given, too."""

    root: str
    members: Optional[int]


class FromTables(NamedTuple):
    """What the office's two tables have: their market, what they have besides, and the digest of each file."""

    market: Market
    details: Details
    digests: List[str]

    @classmethod
    def of(cls, tables: Sequence[Table], market: Market) -> "FromTables":
        return cls(market, details_of(tables[1], market), [table.sha256 for table in tables])


class Checked(NamedTuple):
    """One line of what is told of a folder: what it is about, if it is about one thing, what is said of that, and whether it
    holds, where that is what was checked."""

    what: str
    said: str
    holds: Optional[bool] = None

    def line(self) -> str:
        return f"{self.what}: {self.said}" if self.what else self.said


@dataclass
class Verified:
    """All that is told of a folder, what of it doesn't hold, what held in numbers, and what wasn't checked for want of a part."""

    lines: List[Checked] = field(default_factory=list)
    wrong: List[str] = field(default_factory=list)
    held: List[str] = field(default_factory=list)
    unchecked: List[str] = field(default_factory=list)

    def verdict(self) -> str:
        left = f"not checked: {'; '.join(self.unchecked)}" if self.unchecked else ""
        told = f"this does not hold: {', '.join(self.wrong)}" if self.wrong else ", ".join(self.held)
        return "; ".join(part for part in (told, left) if part)


class Verifier:
    """The checks of one folder, with an empty room for the program that reads files. `progress` is given each line as soon as it is
    known."""

    def __init__(self, path: str, timeout: float, published: Dict[str, Published], tables: Optional[FromTables], room: Path,
                 progress: Callable[[Checked], object], after: Optional[str] = None) -> None:
        self.path, self.at, self.timeout = Path(path), path, timeout
        self.published, self.tables, self.room, self.progress, self.after = published, tables, room, progress, after
        self.done = Verified()
        if not self.path.is_dir():
            raise OfficeError("folder.none", 1, path)
        self.there = folder.files_below(self.path)
        if folder.DOCKET not in self.there:
            raise OfficeError("folder.missing", 3, path, folder.DOCKET)
        self.data: Dict[str, bytes] = {}
        self.files = [name for name in PARTS if name in self.there]
        self.rows: Dict[str, List[List[str]]] = {}
        self.program = "residency"

    def add(self, what: str, said: str, holds: Optional[bool] = None) -> None:
        self.done.lines.append(Checked(what, said, holds))
        self.progress(self.done.lines[-1])

    def tell(self, what: str, said: str, holds: bool) -> bool:
        self.add(what, said, holds)
        if not holds:
            self.done.wrong.append(what)
        return holds

    def leave(self, what: str, part: str) -> None:
        """Says what isn't checked for want of a part."""
        self.add(what, f"not checked: needs {part}")
        self.done.unchecked.append(f"{what}, for want of {part}")

    def bytes_of(self, name: str) -> bytes:
        """A file's bytes, read once. A link is none of a folder's files."""
        if name not in self.data:
            path = self.there[name]
            if path.is_symlink() or not path.is_file():
                raise OfficeError("folder.no-file", 3, self.at, name)
            try:
                self.data[name] = path.read_bytes()
            except OSError as error:
                raise OfficeError("folder.unread", 1, self.at, name, cause=cause_of(error)) from None
        return self.data[name]

    def parts(self) -> bool:
        """Whether each file has only records of its own part, each file read by itself."""
        wrong = []
        for name in self.files:
            try:
                rows = rows_of(self.bytes_of(name).decode("utf-8-sig"))
            except (UnicodeDecodeError, csv.Error) as error:
                wrong.append(f"{name}: {error}")
                continue
            at = next((at for at, row in enumerate(rows, 1) if row[0] not in list(PARTS[name])), None)
            if at is not None:
                wrong.append(f"{name}: record {at}: belongs to another part")
            self.rows[name] = rows
        return self.tell("parts", "; ".join(wrong) or "each file has its own records alone", not wrong)

    def joined(self, *names: str) -> bytes:
        """These parts as one docket, written anew from the records that were told apart: what is read is what was checked."""
        text = io.StringIO()
        csv.writer(text, lineterminator="\n").writerows(row for name in names for row in self.rows.get(name, []))
        return text.getvalue().encode("utf-8")

    def facts(self) -> None:
        for name in self.files:
            self.add(name, f"SHA-256 {hashlib.sha256(self.bytes_of(name)).hexdigest()}")
        rows = self.rows[folder.DOCKET]
        gone = [f"{'programme' if row[1:2] == ['P'] else 'resident'} {shown(','.join(row[2:]))}" for row in rows if row[0] == "W"]
        counts = Counter(row[0] for row in rows)
        self.program = "national" if is_national(rows) else self.program
        self.add("members", f"{counts['Q']:,} programmes and {counts['R']:,} residents")
        self.add("withdrawn", ", ".join(gone) or "nobody")

    def asked(self, what: str, word: str, *names: str) -> Optional[List[str]]:
        """The lines that the program answers of these parts, or none where it refuses them, which is told."""
        try:
            _, answer = run_program(self.program, [word], self.joined(*names), self.timeout)
        except ResidencyError as fault:
            self.tell(what, str(fault), False)
            return None
        return answer.decode("ascii", "replace").splitlines()

    def checks(self) -> List[str]:
        """Audit, result and replay; what a second opinion has to say, too."""
        wanted = []
        lines = self.asked("audit", "audit", folder.DOCKET, folder.SHEET)
        if lines is not None:
            causes = Counter(line[0] for line in lines[1:])
            words = {"X": "unacceptable pair", "O": "overfull programme", "B": "blocking pair"}
            self.tell("audit", lines[0] + "".join(f"; {counted(count, words[kind])}" for kind, count in causes.items()), lines[0] == "S,stable")
            wanted.append(lines[0])
        self.result()
        if folder.JOURNAL not in self.files:
            self.leave("replay", "the journal")
            return wanted
        lines = self.asked("replay", "replay", folder.DOCKET, folder.SHEET, folder.JOURNAL)
        if lines is not None:
            if self.tell("replay", lines[0], lines[0].startswith("G,")):
                self.done.held.append(f"the journal of {counted(int(lines[0][2:]), 'event')}")
            wanted += lines
        return wanted

    def result(self) -> None:
        """Whether the sheet is the result: what a fresh match of the docket gives, without the folder's own journal."""
        lines = self.asked("result", "match", folder.DOCKET)
        if lines is None:
            return
        given = {row[1]: tuple(row) for row in self.rows[folder.SHEET] if row[0] in "MU"}
        other = [row[1] for row in (line.split(",") for line in lines) if row[0] in "MU" and given.get(row[1]) != tuple(row)]
        if self.tell("result", f"D,{other[0]}" if other else "Y,result", not other):
            self.done.held.append("the result")

    def opinion(self, wanted: List[str]) -> None:
        """The second opinion, from the package's own place and in the same run: it must say what the program says."""
        script = second_opinion()
        if script is None:
            self.tell("second opinion", f"{OPINION} isn't in this package; install it again", False)
            return
        done = subprocess.run([sys.executable, "-I", "-S", str(script), *(str(self.there[name].absolute()) for name in self.files)],
                              capture_output=True, text=True, encoding="utf-8", errors="replace", timeout=self.timeout, check=False)
        said = done.stdout.splitlines()
        is_same = done.returncode == 0 and said == wanted
        told = " ".join(said) if done.returncode == 0 else (done.stderr.strip().splitlines() or ["it failed"])[-1]
        self.tell("second opinion", f"{shown(told, 300)}{', the same' if is_same else '; the program says something else'}", is_same)

    def manifest(self) -> Optional[Dict[str, Any]]:
        """The manifest, from which what the folder has to have is taken; none where office wrote no such one, which is told."""
        try:
            found = json.loads(self.bytes_of(folder.MANIFEST).decode("utf-8")) if folder.MANIFEST in self.there else None
            cause = "it is missing" if folder.MANIFEST not in self.there else remade.fault_of(found)
        except (ValueError, RecursionError):
            found, cause = None, "it is none that office wrote"
        if cause:
            self.tell(folder.MANIFEST, f"{cause}; without it nothing is made again", False)
        return None if cause else found

    def names_and_market(self) -> Optional[Market]:
        """The folder's market, in real names where the key is there; none where they are at fault, which is told."""
        data = self.joined(folder.DOCKET)
        try:
            if folder.KEY not in self.there:
                return Market.from_docket(data, most=NATIONAL)
            market = Market.from_docket(data, read_key(self.bytes_of(folder.KEY)), NATIONAL)
            return Market.from_docket(data, remade.own_names(market), NATIONAL)
        except ResidencyError as fault:
            self.tell("docket and key", shown(str(fault), 300), False)
            return None

    def details(self, manifest: Dict[str, Any], market: Market) -> Details:
        """The family names and kept columns, as the folder has them; none where its file isn't one that office wrote."""
        name = folder.MATCHES if remade.is_matched(manifest) else folder.DETAILS
        if not manifest.get("details") or name not in self.there or folder.KEY not in self.there:
            return Details()
        try:
            return rosters.details_of(self.bytes_of(name), market.names, name == folder.MATCHES)
        except (ValueError, LookupError, csv.Error):
            return Details()

    def source(self, manifest: Dict[str, Any]) -> Optional[Source]:
        """What the folder is made again from: the tables, where they are given, and else its own docket and key."""
        market = self.names_and_market()
        if market is None:
            return None
        details, has_key = self.details(manifest, market), folder.KEY in self.there
        if self.tables is None:
            self.done.unchecked.append("lists and names, for want of the tables (--tables)")
        else:
            market, details = self.from_tables(market, manifest), self.tables.details
        gone = manifest["withdrawn"]
        parts = (self.joined(folder.JOURNAL) if folder.JOURNAL in self.there else None,
                 self.bytes_of(folder.SECRET) if folder.SECRET in self.there and has_key else None)
        return Source(remade.in_order(market, gone), details, manifest, *parts, has_key, self.timeout, self.earlier(manifest, market))

    def earlier(self, manifest: Dict[str, Any], market: Market) -> bytes:
        """What the folder of a second round keeps of the rounds before it, made again from the folder before where that is given."""
        there = self.bytes_of(folder.EARLIER) if folder.EARLIER in self.there else b""
        if self.after is None or "after" not in manifest or folder.KEY not in self.there:
            wanting = "the folder before (--after)" if self.after is None else "the key"
            self.done.unchecked += [f"who was free, for want of {wanting}"] * ("after" in manifest)
            return there
        run = Run(self.after)
        before = rounds.Before(run)
        causes = [cause(fault) for fault in before.faults(market, True).every()] + ["another folder"] * (run.digests() != manifest["after"])
        self.tell("the round before", "; ".join(causes[:3]) or "nobody has two places, and no place is given twice", not causes)
        return before.earlier

    def from_tables(self, market: Market, manifest: Dict[str, Any]) -> Market:
        """The market of the tables, with those withdrawn who are in the folder; whether it gives the folder's docket and key."""
        assert self.tables is not None
        made, docket = self.tables.market, market.in_docket_names()
        try:
            already = {*made.withdrawn_programmes, *made.withdrawn_residents}
            gone = [[name for name in (made.names.name(side, name) for name in names) if name not in already] for side, names in
                    (("P", docket.withdrawn_programmes), ("R", docket.withdrawn_residents))]
            made = made.withdraw(programmes=gone[0], residents=gone[1])
        except (KeyError, ResidencyError):
            pass
        wanted = [(folder.DOCKET, made.docket()), (folder.KEY, write_key(made.names))]
        other = [difference(name, self.bytes_of(name), data).line() for name, data in wanted if name in self.there and self.bytes_of(name) != data]
        digests = [table.get("sha256") for table in manifest.get("tables", []) if isinstance(table, dict)]
        same = "the files that the manifest names" if digests == self.tables.digests else "other files than the manifest names"
        self.tell("tables", "; ".join(other) or f"{same}, and the docket and key that they give", not other)
        return made

    def again(self, source: Source) -> None:
        """Every file that follows from the source, made again and compared."""
        sums = folder.sums_of(self.bytes_of(folder.SUMS)) if folder.SUMS in self.there else {}
        without = source.without()
        claimed = {name: folder.digest(self.bytes_of(name)) if name in self.there else claimed_sum for name, claimed_sum in sums.items()
                   if folder.needs(name, without)}
        try:
            made = remade.remade(self.room, source, claimed)
        except OSError as error:
            raise OfficeError("out.no-room", 1, str(self.room.parent), cause=cause_of(error)) from None
        except (ResidencyError, OfficeError, ValueError, LookupError, csv.Error) as fault:
            self.tell("made again", shown(said_by(fault), 300), False)
            return
        if remade.is_matched(source.manifest):
            self.reasons(source)
        self.roots(source, made)
        self.compare(made, without)

    def compare(self, made: Dict[str, bytes], without: "set[str]") -> None:
        """Each file that the folder has to have against the one that was made again, and what there is more."""
        told = [Checked(shown(name), "missing", False) for name in made if name not in self.there]
        told += [difference(name, self.bytes_of(name), data) for name, data in made.items() if name in self.there
                 and name != folder.JOURNAL and self.bytes_of(name) != data]
        left = [name for name in self.there if name not in made and folder.needs(name, without)]
        told += [Checked(shown(name), "more than the folder has", False) for name in self.there if name not in made and name not in left]
        for checked in sorted(told, key=Checked.line)[:MOST_SHOWN]:
            self.add(*checked)
        if len(told) > MOST_SHOWN:
            self.add("", f"and {len(told) - MOST_SHOWN:,} more files", False)
        for names, what, part in ((folder.NEEDS_SECRET, "roots and receipts", "the key and " * (folder.KEY not in self.there) + "the secret"), (folder.NEEDS_KEY, "names", "the key")):
            if names <= without:
                count = len([name for name in left if folder.needs(name, names)])
                self.leave(what + f" and {counted(count, 'file')} made of them" * bool(count), part)
        same = len(made) - len([name for name in made if name not in self.there or self.bytes_of(name) != made[name]])
        receipts = len([name for name in made if name.startswith(f"{folder.RECEIPTS}/")])
        if not told:
            self.done.held[:0] = [f"{counted(same - receipts, 'file')} made again"] + [counted(receipts, "receipt")] * bool(receipts)
        self.tell("files", f"{counted(len(told), 'file')} of {len(made):,} differ, are missing or are more" if told
                  else f"{len(made):,} as made again", not told)

    def reasons(self, source: Source) -> None:
        """Whether the program says of each choice of each resident what the letters say."""
        market = source.market
        try:
            match = market.match(timeout=self.timeout)
            _, answer = run_program(market.program("why"), ["--all"], market.docket() + match.sheet, self.timeout)
        except ResidencyError as fault:
            self.tell("reasons", str(fault), False)
            return
        said: Dict[str, List[str]] = defaultdict(list)
        for row in list(csv.reader(io.StringIO(answer.decode("ascii", "replace"))))[1:]:
            said[row[0]].append(row[3])
        lists, other = Lists(market), []
        for resident in outcome_of(market, match.places).residents.values():
            became = [what for _, what in lists.became(resident)]
            upto = became.index(Became.NOT_NEEDED) if Became.NOT_NEEDED in became else len(became)
            answers = said.get(resident.docket_name, [])
            is_rest_free = all(word in ("better", "unranked", "withdrawn") for word in answers[upto:])
            if len(answers) != len(became) or answers[:upto] != [ANSWERS[what] for what in became[:upto]] or not is_rest_free:
                other.append(resident.docket_name)
        told = f"the program says something else of {', '.join(other[:3])}" if other else "the program says what the letters say"
        self.tell("reasons", told, not other)

    def roots(self, source: Source, made: Dict[str, bytes]) -> None:
        """The roots of a sealed match against those that were published, which are the ones that are given, whatever the folder says."""
        if "sealed" not in source.manifest:
            if self.published:
                self.tell("published", "this match isn't sealed, and has no roots", False)
            return
        roots = Roots.read(made[folder.ROOTS])
        if source.secret is not None:
            by = "by the program seal and by the office's own trees" if seal.is_built() else "by the office's own trees; the program seal isn't here"
            self.tell("roots", f"{' and '.join(made[folder.ROOTS].decode('ascii').split())}, {by}", True)
        other = []
        for word, own in ((tree.LISTS, roots.lists), (tree.RESULT, roots.result)):
            given = self.published.get(word)
            if given is not None and given.root != own:
                other.append(f"for the {word} {given.root} was published")
            if given is not None and given.members not in (None, roots.count):
                other.append(f"{given.members:,} members were published for the {word}, and there are {roots.count:,}")
        missing = [f"--{word}" for word, own in ((tree.LISTS, roots.lists), (tree.RESULT, roots.result)) if own and word not in self.published]
        if other or not missing:
            self.tell("published", "; ".join(other) or f"the same roots, of {counted(roots.count, 'member')}", not other)
        if missing:
            self.done.unchecked.append(f"what was published, for want of {' and '.join(missing)}")
        elif any(given.members is None for given in self.published.values()):
            self.done.unchecked.append("how many members were published, for want of N,ROOT")

    def verify(self) -> Verified:
        """All checks."""
        manifest = self.manifest()
        if folder.SHEET not in self.there and (manifest is None or remade.is_matched(manifest)):
            raise OfficeError("folder.missing", 3, self.at, folder.SHEET)
        if self.parts():
            self.facts()
            if folder.SHEET in self.there:
                self.opinion(self.checks())
            if manifest is not None:
                source = self.source(manifest)
                if source is not None and not self.is_older():
                    self.again(source)
        return self.done

    def is_older(self) -> bool:
        """Whether an earlier version made the folder, by its receipts, which is told: this one makes other files."""
        endings = {name[-4:] for name in self.there if folder.needs(name, {folder.RECEIPTS})}
        return endings == {".csv"} and not self.tell("files", "an earlier version of office made this folder, whose receipts are .csv files: verify "
                                                     "it with that version", False)


def is_national(rows: List[List[str]]) -> bool:
    """Whether a docket's records are over a standard limit, so that the programs of the national limits answer."""
    quotas, programmes, residents = ({row[1]: row[2:] for row in rows if row[0] == kind and len(row) > 1} for kind in "QPR")
    left, gone = ([row[2] for row in rows if row[0] == "W" and row[1:2] == [side] and len(row) > 2] for side in (PROGRAMME, RESIDENT))
    return bool(limits(sizes(dict.fromkeys(quotas, 0), programmes, residents, left, gone), STANDARD))


def rows_of(text: str) -> List[List[str]]:
    return [row for row in csv.reader(io.StringIO(text, newline="")) if row]


def difference(name: str, there: bytes, wanted: bytes) -> Checked:
    """Where a file begins to differ from the one that was made again."""
    lines = list(zip(there.split(b"\n"), wanted.split(b"\n")))
    at = next((at for at, (line, other) in enumerate(lines, 1) if line != other), len(lines) + 1)
    return Checked(shown(name), f"differs, first at line {at:,}", False)


def second_opinion() -> Optional[Path]:
    """Where the second opinion is: in this package or, in a clone, among the clone's examples, and nowhere else."""
    script = Path(__file__).resolve().with_name(OPINION)
    clone = script.parents[3]
    if (clone / "crates").is_dir() and script.parent == clone / "python" / "residency" / "office":
        script = clone / "examples" / OPINION
    return script if script.is_file() else None
