"""The office's steps as a library: bytes and settings in, values out.

Nothing here prints, ends a process, or reads a path that isn't given. What strangers send, the two tables, a docket, or a folder that
is checked, is read in a process of its own, whose limits grow with the bytes. A step that may take long tells its progress by a call.
"""
import json
import tempfile
from contextlib import ExitStack, closing, contextmanager
from dataclasses import dataclass, field
from datetime import date
from itertools import chain, islice
from pathlib import Path
from types import MappingProxyType
from typing import TYPE_CHECKING, Any, Callable, Dict, Iterator, List, Mapping, Optional, Sequence, Set, Tuple

from ..errors import DocketFault, ResidencyError
from ..market import Market
from ..names import PROGRAMME, RESIDENT
from ..passes import Passes
from ..program import DEFAULT_TIMEOUT
from ..records import records
from ..results import Why
from . import compare as changes_of
from . import folder, leftover, letters as written, running, sealing, seal as seals, stopping
from .apart import Costly, Limits, Progress, apart, told
from .compare import Change
from .faults import Fault, Faults, FaultsError, OfficeError
from .headings import Words, bare
from .lists import market_of
from .outcome import Details
from .page import About
from .phrases import Language, english
from .running import Kept, Matched, Run, Wishes
from .settings import TABLES, Settings, from_values
from .tables import Given, Table, headed, heading_of, opened, read_table
from .text import title_of
from .tree import Roots
from .who import the_one
from .writing import cause_of, draft_of

if TYPE_CHECKING:
    from .rounds import Before
    from .verify import Checked, FromTables, Published, Verified

__all__ = ["Compared", "Given", "Kept", "Limits", "Look", "Matched", "Read", "Run", "Seen", "Settings", "Wishes", "Withdrawn", "check", "compare",
           "details_of", "letters", "lint", "look", "match", "next", "seal", "sealed", "see", "tables", "verify", "why", "withdraw", "write"]
OWNERS = dict(zip(TABLES, ("programme", "resident")))
# So many rows below the heading are shown of a table, and so many faults of a docket are told together.
MOST_PREVIEW, MOST_TOGETHER = 10, 1000
# So many faults are shown in their rows, and so many further rows of a table for them.
MOST_IN_ROWS, MOST_AT_FAULT = 200, 60


def quietly(_: object) -> None:
    """Says nothing of the progress."""


@dataclass
class Read:
    """Both tables as they were read: their market, where there is no fault."""

    tables: Tuple[Table, ...]
    faults: Faults
    market: Optional[Market] = None

    def notes(self) -> List[Fault]:
        return [note for table in self.tables for note in table.notes]

    def sheets(self) -> Dict[str, str]:
        """The sheet of each table that is a workbook."""
        return {table.name: table.rows.sheet for table in self.tables if table.rows.sheet is not None}


class TablesError(FaultsError):
    """The tables are at fault: what was read of them has every fault. Exit status 3."""

    def __init__(self, read: Read) -> None:
        super().__init__(read.faults)
        self.read = read


@dataclass
class Look:
    """What one table is, before it is read as a whole: its character set and what parts its cells, the sheets of a workbook, the
    heading row with what each column means, the first rows below it, and further rows that are asked for."""

    table: str
    encoding: str = ""
    delimiter: str = ""
    sheet: Optional[str] = None
    sheets: Sequence[str] = ()
    heading_row: int = 0
    headings: Sequence[str] = ()
    meanings: Sequence[str] = ()
    preview: Sequence[Tuple[int, List[str]]] = ()
    faults: Faults = field(default_factory=Faults)
    notes: Sequence[Fault] = ()
    language: str = "English"
    more: Sequence[Tuple[int, List[str]]] = ()

    def as_dict(self, most: int = 80) -> Dict[str, Any]:
        """All of it that is shown, as JSON has it, with so many columns, and the word by which each would be a rank's."""
        headings = list(self.headings)[:most]
        shown = {name: getattr(self, name) for name in ("encoding", "delimiter", "sheet", "sheets", "heading_row", "meanings")}
        return {**shown, "title": title_of(self.encoding), "headings": headings, "bare": [bare("rank", heading) for heading in headings],
                "rows": [(number, row[:most]) for number, row in (*self.preview, *self.more)]}


@dataclass
class Seen:
    """Tables as they are mended, one or both: what was read of them, and by its name the look of each, with its rows at fault."""

    read: Read
    looks: Dict[str, Look]


def read(programmes: Given, residents: Given, settings: Settings, progress: Progress = quietly) -> Read:
    """Reads both tables in this process."""
    return read_given(dict(zip(TABLES, (programmes, residents))), settings, progress)


def read_given(given: Mapping[str, Given], settings: Settings, progress: Progress) -> Read:
    """Reads the tables that are there in this process; where both are, their market too."""
    faults, words, tables = Faults(), Words(settings.heading, settings.ignore, settings.kept()), []
    for name in TABLES:
        if name in given:
            progress(name)
            tables.append(read_table(given[name], name, OWNERS[name], words, settings, faults))
    progress("lists")
    done = Read(tuple(tables), faults, market_of(tables[0], tables[1], faults, settings) if len(tables) == len(TABLES) else None)
    for table in tables:
        # The lists are in the market now, or nobody asks for them.
        table.rows.unread = iter(())
        table.unread = {}
        for entry in table.entries:
            entry.items = []
    return done


def check(programmes: Given, residents: Given, settings: Settings, progress: Progress = quietly, limits: Optional[Limits] = None) -> Read:
    """Reads both tables in a process of its own. What needs more than the limits is a fault of the table that was being read."""
    most = limits or Limits.of(len(programmes.data) + len(residents.data))
    try:
        done = apart(most, "read", (programmes, residents, settings), progress)
    except Costly as costly:
        return Read((), costly_at(costly))
    assert isinstance(done, Read)
    return done


def tables(programmes: Given, residents: Given, settings: Settings, before: "Optional[Before]" = None, allow_new: bool = False,
           progress: Progress = quietly) -> Tuple[Sequence[Table], Market]:
    """Both tables and their market, which fits the round before. TablesError where they are at fault."""
    done = check(programmes, residents, settings, progress)
    if done.market is not None and before is not None:
        done.faults = before.faults(done.market, allow_new, done.tables)
    if done.market is None or len(done.faults):
        raise TablesError(done)
    return done.tables, done.market


def costly_at(costly: Costly) -> Faults:
    faults = Faults()
    values = {"seconds": costly.limits.seconds, "megabytes": costly.limits.megabytes}
    faults.tell(f"file.{costly.what}", costly.at if costly.at in TABLES else TABLES[0], None, None, values)
    return faults


def looked_at(given: Given, name: str, settings: Settings, progress: Progress = quietly, wanted: Optional[Set[int]] = None) -> Look:
    """Looks at one table in this process, and at the rows of it that are wanted."""
    progress(name)
    look, words = Look(name), Words(settings.heading, settings.ignore, settings.kept())
    text, rows, _ = opened(given.data, name, words, settings, look.faults)
    look.encoding, look.delimiter, look.sheet = text.encoding, rows.delimiter, rows.sheet
    look.sheets = rows.sheets or [name for fault in look.faults.every() for name in fault.values.get("sheets", ())]
    look.heading_row, look.headings, look.notes = heading_of(rows, settings.heading_row.get(name), name, words)
    look.preview = list(islice(rows.unread, MOST_PREVIEW))
    if wanted is not None:
        below = list(rows.unread)
        look.more, rows.unread = [row for row in below if row[0] in wanted][:MOST_AT_FAULT], iter(below)
    if look.heading_row:
        rows.unread = chain(look.preview, rows.unread)
        columns = headed(name, OWNERS[name], look.heading_row, list(look.headings), rows, words, look.faults)
        if columns is not None:
            look.meanings, look.language = columns.meanings(OWNERS[name]), columns.language
    return look


def look(given: Given, name: str, settings: Settings, progress: Progress = quietly, limits: Optional[Limits] = None) -> Look:
    """Looks at one table, `programmes` or `residents`, in a process of its own."""
    try:
        done = apart(limits or Limits.of(len(given.data)), "looked_at", (given, name, settings), progress)
    except Costly as costly:
        return Look(name, faults=costly_at(costly))
    assert isinstance(done, Look)
    return done


def seen(given: Mapping[str, Given], settings: Settings, progress: Progress = quietly) -> Seen:
    """Reads the tables that are there in this process, and looks at each, with its rows at fault."""
    done = read_given(given, settings, progress)
    rows: Dict[str, Set[int]] = {name: set() for name in given}
    for fault in done.faults.every()[:MOST_IN_ROWS]:
        for cell in fault.cells:
            rows[cell.table].add(cell.row)
    return Seen(done, {name: looked_at(table, name, settings, progress, rows[name]) for name, table in given.items()})


def see(given: Mapping[str, Given], settings: Settings, progress: Progress = quietly, limits: Optional[Limits] = None) -> Seen:
    """Reads the tables that are there, one or both, in a process of its own, for whoever mends them."""
    most = limits or Limits.of(sum(len(table.data) for table in given.values()))
    try:
        done = apart(most, "seen", (given, settings), progress)
    except Costly as costly:
        return Seen(Read((), costly_at(costly)), {name: Look(name) for name in given})
    assert isinstance(done, Seen)
    return done


def linted(docket: bytes, progress: Callable[[List[DocketFault]], object]) -> None:
    """Tells every fault of a docket in this process: the first alone, then more and more together."""
    found, most = Passes().faults(records(docket)), 1
    for part in iter(lambda: list(islice(found, most)), []):
        progress(part)
        most = min(2 * most, MOST_TOGETHER)


def lint(docket: bytes, progress: Progress = quietly, limits: Optional[Limits] = None) -> Iterator[DocketFault]:
    """Every fault of a docket, as they are found in a process of its own. OfficeError for what needs more than the limits."""
    progress("docket")
    try:
        with closing(told(limits or Limits.of(len(docket)), "linted", (docket,))) as parts:
            for part in parts:
                yield from part
    except Costly as costly:
        raise too_costly(costly) from None


def limits_of(path: str) -> Limits:
    """The limits for a folder that is checked: what is read of it isn't made into more than some times its bytes."""
    size = folder.size_of(path)
    return Limits(Limits.of(size).seconds, Limits.of(size // 5).megabytes)


def too_costly(costly: Costly, at: str = "") -> OfficeError:
    if costly.what == "slow":
        return OfficeError("reader.slow", 3, at, seconds=costly.limits.seconds)
    return OfficeError("reader.memory", 3, at, megabytes=costly.limits.megabytes)


def details_of(residents: Table, market: Market) -> Details:
    """What the table of residents has besides, in the market's names, which are in its order."""
    named = list(zip(market.resident_lists, residents.entries))
    return Details({name: entry.family for name, entry in named if entry.family}, tuple(residents.kept),
                   {name: tuple(entry.kept) for name, entry in named if entry.kept})


def match(market: Market, details: Details, timeout: float = DEFAULT_TIMEOUT, progress: Progress = quietly) -> Matched:
    """Matches a market, audits its sheet and replays its journal by the built program."""
    progress("match")
    return running.matched(market, timeout, details)


def write(out: str, matched: Matched, wishes: Wishes, manifest: Dict[str, object], secret: bytes = b"", before: Optional[Kept] = None,
          changes: Optional[Sequence[Change]] = None, progress: Progress = quietly) -> Optional[Roots]:
    """Writes all that comes of a match into a new folder. With a secret it is a sealed one, whose roots are answered, and where
    another was sealed `before`, the lists have to be those."""
    progress("folder")
    with folder.new_folder(out, private=bool(secret), readable=wishes.readable) as draft:
        if changes is not None:
            draft.write(folder.CHANGES, changes_of.changes_table(changes, wishes.language.phrases()))
        roots = running.fill(draft, matched, wishes, manifest, secret)
        return roots if before is None else sealing.checked_roots(before, roots)


def seal(out: str, market: Market, details: Details, wishes: Wishes, manifest: Dict[str, object], progress: Progress = quietly) -> Roots:
    """Seals a market into a new folder."""
    progress("folder")
    return sealing.seal(out, market, details, wishes, manifest)


def sealed(path: str) -> Kept:
    """A folder that was sealed, read again. OfficeError for any other."""
    kept = Kept(path)
    if not kept.is_sealed():
        raise OfficeError("folder.not-sealed", 3, kept.at, folder.SECRET)
    return kept


@dataclass(frozen=True)
class Withdrawn:
    """A folder's market with members withdrawn besides: who they are, and where it was matched, its match and what changed."""

    before: Kept
    market: Market
    gone: Sequence[str]
    matched: Optional[Matched] = None
    changes: Sequence[Change] = ()

    def secret(self) -> bytes:
        """A new secret, where the folder was sealed."""
        return seals.new_secret() if self.before.is_sealed() else b""


def withdraw(before: Kept, programmes: Sequence[str] = (), residents: Sequence[str] = (), either: Sequence[str] = (),
             timeout: float = DEFAULT_TIMEOUT, progress: Progress = quietly) -> Withdrawn:
    """Matches a folder's market again with these members withdrawn; one without a match stays without."""
    market = running.withdrawn(before, programmes, residents, either)
    out_before = {*before.market.withdrawn_programmes, *before.market.withdrawn_residents}
    gone = [name for name in (*market.withdrawn_programmes, *market.withdrawn_residents) if name not in out_before]
    if not isinstance(before, Run):
        return Withdrawn(before, market, gone)
    result = match(market, before.details, timeout, progress)
    return Withdrawn(before, market, gone, result, changes_of.changes(before.outcome, result.outcome))


@dataclass(frozen=True)
class Compared:
    """Two matches side by side: each figure of both, and every member who stands otherwise."""

    before: Run
    now: Run
    figures: Sequence[Tuple[str, str, str]]
    changes: Sequence[Change]


def compare(before: Run, now: Run, progress: Progress = quietly) -> Compared:
    """Compares two matches."""
    progress("compare")
    pairs = zip(*(changes_of.figures_of(run.outcome, english()) for run in (before, now)))
    return Compared(before, now, [(what, was, is_now) for (what, was), (_, is_now) in pairs],
                    changes_of.changes(before.outcome, now.outcome))


def letters(run: Run, template: written.Templates = None, day: Optional[date] = None, title: str = "", language: Optional[Language] = None,
            texts: Mapping[str, str] = MappingProxyType({}), progress: Progress = quietly) -> written.Letters:
    """The letters of a match: `letter()` is that of one of its `members()`, and `page()` has all of them on one page; in the folder's language, where no
    other is named."""
    progress("letters")
    spoken = language or run.language()
    about = About(title or run.title(), day or run.day(), run.digests(), run.roots(), spoken.phrases())
    return written.Letters(run.market, run.outcome, about, template, column=spoken.column, texts={**run.texts(), **texts})


def why(run: Run, resident: str, programme: str = "", timeout: float = DEFAULT_TIMEOUT, progress: Progress = quietly) -> Tuple[Why, ...]:
    """What became of each programme on a resident's list, best first, or of one programme, by the built program. Both may be named as
    the tables have them, by ID, or as the docket has them."""
    progress("why")
    asked = [(RESIDENT, resident), *([(PROGRAMME, programme)] if programme else [])]
    found = {side: run.names.name(side, the_one(run.names, text, side).docket_name) for side, text in asked}
    return run.market.why(run.places, found[RESIDENT], found.get(PROGRAMME), timeout)


def next(path: str, progress: Progress = quietly) -> Settings:
    """The settings for the next year: those by which the tables of a folder were read."""
    progress("folder")
    results = folder.Results(path)
    try:
        return from_values(results.manifest.get("reading", {}))
    except ValueError:
        raise OfficeError("folder.no-manifest", 3, path, folder.MANIFEST) from None


@contextmanager
def room_for(what: str) -> Iterator[Path]:
    """A folder for what a step's programs read as files, which is gone at the end, whatever ends the step. It has a name by which the
    next command knows what a killed one left."""
    at = tempfile.gettempdir()
    with stopping.unfinished(draft_of(str(Path(at) / what))) as room, ExitStack() as held:
        try:
            held.enter_context(leftover.made(room))
        except OSError as error:
            raise OfficeError("out.no-room", 1, at, cause=cause_of(error)) from None
        yield room


def read_by(path: str, limits: Optional[Limits] = None) -> Settings:
    """How the tables of a folder were read, by its manifest; nothing of it where that says nothing, or needs more than the limits."""
    try:
        found = apart(limits or limits_of(path), "reading_of", (path,), quietly)
    except Costly:
        return Settings()
    assert isinstance(found, Settings)
    return found


def reading_of(path: str, progress: Progress) -> Settings:
    """How the tables of a folder were read, by its manifest, with the columns of residents that were kept; nothing of it where the manifest
    says nothing."""
    try:
        manifest = json.loads((Path(path) / folder.MANIFEST).read_bytes().decode("utf-8"))
        found = from_values(manifest.get("reading", {}))
        found.keep = found.keep or [str(detail) for detail in manifest.get("details", []) if detail != "family_name"]
        return found
    except (OSError, ValueError, AttributeError, TypeError, KeyError, RecursionError, ResidencyError):
        return Settings()


def verified(path: str, timeout: float, published: "Dict[str, Published]", tables: "Optional[FromTables]", room: Path, after: Optional[str],
             progress: "Callable[[Checked], object]") -> "Verified":
    """Checks a folder of results in this process."""
    from .verify import Verifier

    return Verifier(path, timeout, published, tables, room, progress, after).verify()


def verify(path: str, timeout: float = DEFAULT_TIMEOUT, published: "Optional[Dict[str, Published]]" = None, tables: "Optional[FromTables]" = None,
           progress: "Callable[[Checked], object]" = quietly, limits: Optional[Limits] = None, after: Optional[str] = None) -> "Verified":
    """Checks a folder of results in a process of its own, against the roots that were published where it was sealed, and the tables and the
    folder of the round before where they are given; `progress` is given each line as soon as it is known. OfficeError for a folder that needs more than the limits, which
    hold for each program that is asked, too."""
    try:
        with room_for("verify") as room:
            done: Verified = apart(limits or limits_of(path), "verified", (path, timeout, published or {}, tables, room, after), progress)
            return done
    except Costly as costly:
        raise too_costly(costly, path) from None
