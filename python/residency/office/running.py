"""A run: from a market to a folder with all that an office, an auditor and each member wants of its match."""
from dataclasses import dataclass, field
from datetime import date
from typing import Any, Callable, Dict, Iterable, List, Mapping, Optional, Sequence, TypeVar

from ..errors import DocketFault
from ..key import read_key, write_key
from ..market import Market
from ..names import PROGRAMME, RESIDENT, Names
from ..passes import NATIONAL
from ..program import DEFAULT_TIMEOUT, run_program
from . import folder, public, rosters, rounds, seal
from .cells import no_cell
from .faults import OfficeError
from .folder import Draft, Results, digest, file_names
from .letters import Letters, Templates
from .outcome import Details, Outcome, outcome_of
from .page import About, Page
from .phrases import Language
from .tree import Roots
from .who import the_one

TITLE = "The match"
Read = TypeVar("Read")


@dataclass(frozen=True)
class Wishes:
    """What the command line says of a run: the page's title and day, the order of names, the letters' template, whether each
    programme's last rank may be published, and whether others may read a folder that isn't sealed."""

    title: str = TITLE
    day: date = field(default_factory=date.today)
    order: str = "name"
    template: Templates = None
    timeout: float = DEFAULT_TIMEOUT
    cut_offs: bool = False
    readable: bool = False
    language: Language = Language()
    texts: Mapping[str, str] = field(default_factory=dict)
    # Of a second round: what its folder keeps of the rounds before it.
    earlier: bytes = b""

    def settings(self) -> Dict[str, Any]:
        """What a manifest keeps of these, so that the folder can be made again."""
        return {"order": self.order, "cut_offs": self.cut_offs, "template": self.template, **({"letter": self.texts} if self.texts else {})}

    def about(self, digests: Dict[str, str], roots: Optional[Roots]) -> About:
        return About(self.title, self.day, digests, roots, self.language.phrases())


@dataclass(frozen=True)
class Matched:
    """A market that was matched and checked: its docket, and what the program answered, as bytes."""

    market: Market
    docket: bytes
    sheet: bytes
    journal: bytes
    audit: bytes
    replay: bytes
    program: str
    outcome: Outcome


def matched(market: Market, timeout: float, details: Details) -> Matched:
    """Matches a market, audits its sheet and replays its journal by the built program. OfficeError where a check fails,
    which no whole program gives a cause for."""
    docket = market.docket()
    match = market.match(workers=1, journal=True, timeout=timeout)
    program = market.program("residency")
    _, audit = run_program(program, ["audit"], docket + match.sheet, timeout)
    _, replay = run_program(program, ["replay"], docket + match.sheet + match.journal, timeout)
    if audit != b"S,stable\n" or not replay.startswith(b"G,"):
        raise OfficeError("program.unchecked")
    _, version = run_program(program, ["--version"], b"", timeout)
    return Matched(market, docket, match.sheet, match.journal, audit, replay, version.decode("utf-8", "replace").strip(),
                   outcome_of(market, match.places, details))


def fill(draft: Draft, result: Matched, wishes: Wishes, manifest: Dict[str, Any], secret: bytes = b"",
         roots: Optional[Roots] = None) -> Optional[Roots]:
    """Writes every file of a run; with a secret those of a sealed match too, whose roots it answers. `roots` are those of a sealed
    match whose secret isn't known."""
    outcome = result.outcome
    digests = {}
    for name, data in ((folder.DOCKET, result.docket), (folder.KEY, write_key(result.market.names)), (folder.SHEET, result.sheet)):
        digests[name] = draft.write(name, data)
    roots = seal.write(draft, result.docket, secret, True, wishes.timeout, roots)
    about = wishes.about(digests, roots)
    if roots is not None:
        public.write(draft, outcome, roots, about, wishes.order, wishes.cut_offs)
    draft.write(folder.JOURNAL, result.journal)
    draft.write(folder.AUDIT, result.audit)
    draft.write(folder.REPLAY, result.replay)
    draft.write(folder.PAGE, Page(outcome, about, wishes.order).text().encode("utf-8"))
    draft.write(folder.MATCHES, rosters.matches(outcome))
    draft.write(folder.RESULTS, rounds.results(outcome, about.phrases, wishes.order, wishes.earlier))
    if "after" in manifest:
        draft.write(folder.EARLIER, wishes.earlier)
    draft.write(folder.UNFILLED, rosters.unfilled(outcome, about.phrases))
    names = file_names((member.docket_name for member in outcome.programmes.values()), ".csv")
    for programme in outcome.programmes.values():
        ranks = result.market.programme_lists.get(programme.name, ())
        draft.write(f"{folder.ROSTERS}/{names[programme.docket_name]}", rosters.roster(outcome, programme, ranks, about.phrases))
    letters = Letters(result.market, outcome, about, wishes.template, wishes.order, wishes.language.column, wishes.texts)
    write_letters(draft, letters, folder.LETTERS + "/")
    write_letters(draft, letters.programmes(), folder.ROSTERS + "/")
    details = ["family_name"] * any(resident.family for resident in outcome.residents.values()) + list(outcome.columns)
    draft.finish({**begun(wishes, result.program), **wishes.settings(), **manifest, **ended(result.market, details, roots)})
    return roots


def begun(wishes: Wishes, program: str) -> Dict[str, Any]:
    """What each manifest begins with."""
    return {"title": wishes.title, "date": wishes.day.isoformat(), "program": program, **wishes.language.entry()}


def ended(market: Market, details: List[str], roots: Optional[Roots]) -> Dict[str, Any]:
    """What each manifest ends with: who is withdrawn, which details there are, and what was sealed."""
    gone = [[PROGRAMME, name] for name in market.withdrawn_programmes] + [[RESIDENT, name] for name in market.withdrawn_residents]
    sealed = {"sealed": {"members": roots.count, "lists": roots.lists, "result": roots.result}} if roots else {}
    return {"withdrawn": gone, **({"details": details} if details else {}), **sealed}


def fill_sealed(draft: Draft, market: Market, details: Details, wishes: Wishes, manifest: Dict[str, Any], secret: bytes,
                known: Optional[Roots] = None) -> Roots:
    """Writes every file of a market that is sealed before its match; `known` are its roots where the secret isn't."""
    docket = market.docket()
    digests = {folder.DOCKET: draft.write(folder.DOCKET, docket), folder.KEY: draft.write(folder.KEY, write_key(market.names))}
    roots = seal.write(draft, docket, secret, False, wishes.timeout, known)
    assert roots is not None
    public.write_check(draft, roots, wishes.about(digests, roots))
    has = ["family_name"] * bool(details.families) + list(details.columns)
    if has:
        names = {name: market.names.docket_name(RESIDENT, name) for name in market.resident_lists}
        draft.write(folder.DETAILS, rosters.details_table(details, names))
    _, version = run_program(market.program("residency"), ["--version"], b"", wishes.timeout)
    draft.finish({**begun(wishes, version.decode("utf-8", "replace").strip()), **manifest, **ended(market, has, roots)})
    return roots


def write_letters(draft: Draft, letters: Letters, inside: str) -> int:
    """Writes each member's letter, and the page of all of them, and answers how many there are."""
    names = file_names((member.docket_name for member in letters.members()), ".txt")
    for member in letters.members():
        draft.write(inside + names[member.docket_name], letters.letter(member).encode("utf-8"))
    draft.write(letters.page_name, (part.encode("utf-8") for part in letters.parts()))
    return len(names)


class Kept:
    """A folder that was made before, read again: its market, checked against its manifest."""

    def __init__(self, path: str) -> None:
        self.results = Results(path)
        self.at = path
        self.names = self.key()
        self.market = self.sound(folder.DOCKET, lambda data: Market.from_docket(data, self.names, NATIONAL))
        self.details = self.read_details()

    def sound(self, name: str, reads: Callable[[bytes], Read], data: Optional[bytes] = None) -> Read:
        """What a file says. OfficeError where it is at fault, or was changed."""
        try:
            return reads(self.results.checked(name) if data is None else data)
        except (DocketFault, ValueError) as fault:
            raise OfficeError("folder.fault", 3, self.at, name, cause=str(fault)) from None

    def key(self) -> Names:
        """Who is who. A key that a spreadsheet saved again is taken where it says the same."""
        data = self.results.read(folder.KEY)
        wanted = self.results.manifest["sha256"].get(folder.KEY)
        names = self.sound(folder.KEY, read_key, data)
        if digest(data) != wanted and digest(write_key(names)) != wanted:
            raise OfficeError("folder.other-key", 3, self.at, folder.KEY)
        self.refuse_odd(folder.KEY, (text for member in names.members() for text in (member.name, member.id)))
        return names

    def refuse_odd(self, name: str, texts: Iterable[str]) -> None:
        """OfficeError for a text of a file with a character that no table brings there: it would come into letters."""
        for text in texts:
            if letter := no_cell(text):
                raise OfficeError("folder.no-letter", 3, self.at, name, text=text, letter=letter)

    def is_sealed(self) -> bool:
        """Whether the folder was sealed."""
        return folder.SECRET in self.results.names()

    def is_matched(self) -> bool:
        return folder.SHEET in self.results.names()

    def roots(self) -> Optional[Roots]:
        """The roots of a sealed folder."""
        return self.sound(folder.ROOTS, Roots.read) if self.is_sealed() else None

    def secret(self) -> bytes:
        """The secret of a sealed folder, as it stands in its file."""
        self.sound(folder.SECRET, seal.secret_of)
        return self.results.checked(folder.SECRET)

    def read_details(self) -> Details:
        """The family names and kept columns, where the folder has some."""
        if not self.results.manifest.get("details"):
            return Details()
        is_matched = self.is_matched() or not self.is_sealed()
        name = folder.MATCHES if is_matched else folder.DETAILS
        details = rosters.details_of(self.results.checked(name), self.names, is_matched)
        self.refuse_odd(name, (*details.columns, *details.families.values(), *(cell for cells in details.kept.values() for cell in cells)))
        return details

    def day(self) -> date:
        try:
            return date.fromisoformat(str(self.results.manifest.get("date")))
        except ValueError:
            raise OfficeError("folder.no-date", 3, self.at, folder.MANIFEST) from None

    def language(self) -> Language:
        try:
            return Language.of(self.results.manifest)
        except ValueError:
            raise OfficeError("folder.no-manifest", 3, self.at, folder.MANIFEST) from None

    def earlier(self) -> bytes:
        """What a second round's folder keeps of the rounds before it."""
        return self.results.checked(folder.EARLIER) if "after" in self.results.manifest else b""

    def texts(self) -> Dict[str, str]:
        """What the settings said of every letter."""
        return found if isinstance(found := self.results.manifest.get("letter"), dict) else {}

    def about(self) -> About:
        """What its page says of itself."""
        return About(self.title(), self.day(), self.digests(), self.roots(), self.language().phrases())

    def title(self) -> str:
        return str(self.results.manifest.get("title", TITLE))

    def digests(self) -> Dict[str, str]:
        return {name: str(self.results.manifest["sha256"].get(name, "")) for name in (folder.DOCKET, folder.KEY, folder.SHEET)}


class Run(Kept):
    """A folder with a match, read again: its market and its outcome."""

    def __init__(self, path: str) -> None:
        super().__init__(path)
        if self.is_sealed() and not self.is_matched():
            raise OfficeError("folder.no-match", 3, self.at)
        self.places = self.sound(folder.SHEET, lambda data: self.market.read_match(data).places)
        self.outcome = outcome_of(self.market, self.places, self.details)


def said_of(path: str) -> Dict[str, Any]:
    """What a folder says of itself, for a list of folders; nothing where office didn't write it."""
    try:
        manifest = Results(path).manifest
        phrases, day = Language.of(manifest).phrases(), date.fromisoformat(str(manifest["date"]))
        return {"title": str(manifest["title"]), "day": phrases.day(day), "language": phrases.language, "sealed": manifest.get("sealed"),
                "is_matched": folder.SHEET in manifest["sha256"]}
    except (OfficeError, ValueError, LookupError, TypeError):
        return {}


def opened(path: str) -> Kept:
    """A folder read again: a `Run`, but where it was sealed and has no match yet."""
    names = Results(path).names()
    return Kept(path) if folder.SECRET in names and folder.SHEET not in names else Run(path)


def withdrawn(run: Kept, programmes: Sequence[str], residents: Sequence[str], either: Sequence[str]) -> Market:
    """The market of a run with these members withdrawn besides. OfficeError for a name that nobody or more than one has, or
    whose owner is withdrawn already."""
    gone: Dict[str, List[str]] = {PROGRAMME: [], RESIDENT: []}
    before = {PROGRAMME: set(run.market.withdrawn_programmes), RESIDENT: set(run.market.withdrawn_residents)}
    named = [(docket_name, "") for docket_name in either] + [(programme, PROGRAMME) for programme in programmes] + [(resident, RESIDENT) for resident in residents]
    for text, side in named:
        try:
            member = the_one(run.names, text, side)
        except OfficeError as error:
            error.at = run.at
            raise
        name = run.names.name(member.side, member.docket_name)
        if name in before[member.side] or name in gone[member.side]:
            raise OfficeError("member.withdrawn", 3, run.at, name=name)
        gone[member.side].append(name)
    return run.market.withdraw(programmes=gone[PROGRAMME], residents=gone[RESIDENT])
