"""A folder of results made again, from its docket, journal, secret, key and the manifest's settings, by the very code that wrote it.
Nothing is written but a secret, a key and a sheet, for the program that reads them as files, in a room that is for its owner alone."""
from dataclasses import replace
from datetime import date
from pathlib import Path
from typing import Any, Dict, Iterable, Iterator, List, NamedTuple, Optional, Set, Tuple, Union

from ..key import write_key
from ..market import Market
from ..names import PROGRAMME, RESIDENT, Names
from ..passes import NATIONAL
from ..program import run_program
from . import auditor, compare, folder, running
from .faults import OfficeError
from .folder import Draft, digest
from .outcome import Details, outcome_of
from .phrases import Language
from .running import Matched, Wishes
from .text import TEXTS, refuse_odd
from .tree import Roots

# As many ways from a folder before to this one are tried, the likely ones first.
MOST_WAYS = 2000
Manifest = Dict[str, Any]


class Source(NamedTuple):
    """What a folder is made again from; `has_key` is false where the names are the docket's alone, and `earlier` has
    the rounds before it."""

    market: Market
    details: Details
    manifest: Manifest
    journal: Optional[bytes]
    secret: Optional[bytes]
    has_key: bool
    timeout: float
    earlier: bytes = b""

    def without(self) -> Set[str]:
        """The files that can't be made for want of a part."""
        no_secret = "sealed" in self.manifest and self.secret is None
        return (set() if self.has_key else folder.NEEDS_KEY) | (folder.NEEDS_SECRET if no_secret else set())

    def roots(self) -> Optional[Roots]:
        """The roots as a sealed folder claims them, for want of the secret. ValueError where they are none."""
        if "sealed" not in self.manifest or self.secret is not None:
            return None
        rows = [f"{word},{self.manifest['sealed'].get('members')},{self.manifest['sealed'].get(word)}\n" for word in ("lists", "result")]
        return Roots.read("".join(rows[:1 + is_matched(self.manifest)]).encode("utf-8", "replace"))


def is_matched(manifest: Manifest) -> bool:
    """Whether a folder of this manifest has a match: each but one that was sealed and has no root of a result."""
    return "sealed" not in manifest or bool(manifest["sealed"].get("result"))


def fault_of(manifest: Any) -> str:
    """What is amiss with the settings of a manifest, or no text."""
    if not isinstance(manifest, dict):
        return "it is none that office wrote"
    kinds = {"title": str, "date": str, "program": str, "order": str, "cut_offs": bool, "withdrawn": list, "details": list,
             "sealed": dict, "from": dict, "after": dict, "auditor": dict, "language": dict, "letter": dict, "tables": list, "reading": dict, "sha256": dict}
    wrong = [name for name, kind in kinds.items() if name in manifest and not isinstance(manifest[name], kind)]
    wrong += [name for name in ("title", "date", "program", "withdrawn", "sha256") if name not in manifest]
    own = manifest.get("template")
    if not isinstance(own, (str, type(None))) and not (isinstance(own, dict) and all(isinstance(value, str) for value in own.values())):
        wrong.append("template")
    if "letter" not in wrong and any(name not in TEXTS or not isinstance(text, str) for name, text in manifest.get("letter", {}).items()):
        wrong.append("letter")
    if any(not (isinstance(pair, list) and len(pair) == 2 and all(isinstance(part, str) for part in pair)) for pair in
           (manifest["withdrawn"] if "withdrawn" not in wrong else [])):
        wrong.append("withdrawn")
    return f"its {wrong[0]} is none that office wrote" if wrong else ""


def wishes_of(manifest: Manifest, columns: Tuple[str, ...], timeout: float) -> Wishes:
    """What was wished of a run, as its manifest has it. ValueError for a day that is none; OfficeError for such a text of its own."""
    refuse_odd(manifest)
    return Wishes(manifest["title"], date.fromisoformat(manifest["date"]), manifest.get("order", "name"), manifest.get("template"), timeout,
                  manifest.get("cut_offs", False), texts=manifest.get("letter", {}), language=language_of(manifest, columns))


def language_of(manifest: Manifest, columns: Tuple[str, ...]) -> Language:
    """In which words a folder is written. ValueError where the manifest says of no language; OfficeError for phrases at fault."""
    language = Language.of(manifest)
    language.phrases()
    if language.column and language.column not in columns:
        raise ValueError("its language is none that office wrote")
    return language


def in_order(market: Market, gone: List[List[str]]) -> Market:
    """The same market with its withdrawn members in the order of a manifest, where it has the same ones."""
    there = [[PROGRAMME, name] for name in market.withdrawn_programmes] + [[RESIDENT, name] for name in market.withdrawn_residents]
    if sorted(there) != sorted(gone):
        return market
    return with_withdrawn(market, *([name for side, name in gone if side == wanted] for wanted in (PROGRAMME, RESIDENT)))


def with_withdrawn(market: Market, programmes: List[str], residents: List[str]) -> Market:
    return Market(market.quotas, market.programme_lists, market.resident_lists, programmes, residents, market.names, NATIONAL)


def befores(market: Market) -> Iterator[Market]:
    """The markets of which this one may have come by withdrawals, the last ones first."""
    programmes, residents = list(market.withdrawn_programmes), list(market.withdrawn_residents)
    ways = sorted(((a, b) for a in range(len(programmes) + 1) for b in range(len(residents) + 1)), key=sum)
    for a, b in ways[1:MOST_WAYS]:
        yield with_withdrawn(market, programmes[:len(programmes) - a], residents[:len(residents) - b])


def before_of(market: Market, wanted: str) -> Market:
    """The market before the last withdrawals, by its docket's digest. OfficeError where there is none."""
    found = next((earlier for earlier in befores(market) if digest(earlier.docket()) == wanted), None)
    if found is None:
        raise OfficeError("before.no-way", table=folder.MANIFEST)
    return found


class Remade(Draft):
    """The files of a folder that is made again."""

    def __init__(self, room: Path, source: Source, claimed: Dict[str, str]) -> None:
        super().__init__(room)
        self.source, self.claimed = source, claimed
        self.files: Dict[str, bytes] = {}

    def write(self, name: str, data: Union[bytes, Iterable[bytes]]) -> str:
        data = data if isinstance(data, bytes) else b"".join(data)
        if name in (folder.KEY, folder.SECRET, folder.SHEET):
            super().write(name, data)
        self.files[name], self.sums[name] = data, digest(data)
        return self.sums[name]

    def finish(self, manifest: Manifest) -> None:
        """As a folder's own end; without the key, what only it could make is as the folder claims it."""
        own, without = self.source.manifest, self.source.without()
        self.files = {name: data for name, data in self.files.items() if not folder.needs(name, without)}
        self.sums = {**{name: self.sums[name] for name in self.files}, **self.claimed}
        if not self.source.has_key:
            manifest = {**manifest, **{name: own[name] for name in ("withdrawn", "details") if name in own}}
        if "auditor" in own:
            has_key = own["auditor"].get("key") is True
            self.write(auditor.PAGE, auditor.page(own, has_key))
            manifest = {**manifest, "auditor": {"key": has_key}}
        super().finish({name: manifest[name] for name in folder.ENTRIES if name in manifest})


def remade(room: Path, source: Source, claimed: Dict[str, str]) -> Dict[str, bytes]:
    """Every file that follows from a source, by its name. OfficeError, ValueError, ResidencyError."""
    manifest = source.manifest
    draft = Remade(room, source, claimed)
    wishes = replace(wishes_of(manifest, source.details.columns, source.timeout), earlier=source.earlier)
    kept = {name: manifest[name] for name in ("program", "tables", "reading", "from", "after") if name in manifest}
    if not is_matched(manifest):
        running.fill_sealed(draft, source.market, source.details, wishes, kept, source.secret or b"", source.roots())
        came_from(source, None)
        return draft.files
    result = matched_again(source)
    changes = came_from(source, result)
    if changes is not None:
        draft.write(folder.CHANGES, changes)
    running.fill(draft, result, wishes, kept, source.secret or b"" if "sealed" in manifest else b"", source.roots())
    return draft.files


def matched_again(source: Source) -> Matched:
    """The match made again, with the folder's own journal where it has one."""
    result = running.matched(source.market, source.timeout, source.details)
    if source.journal is None:
        return result
    _, replay = run_program(source.market.program("residency"), ["replay"], result.docket + result.sheet + source.journal, source.timeout)
    return replace(result, journal=source.journal, replay=replay)


def came_from(source: Source, result: Optional[Matched]) -> Optional[bytes]:
    """The table of changes, where a folder came from a match before. OfficeError where it came from no such folder as it says."""
    before = source.manifest.get("from")
    if before is None:
        return None
    names = source.market.names
    if source.has_key and before.get(folder.KEY) != digest(write_key(names)):
        raise OfficeError("before.other-key", table=folder.MANIFEST)
    docket = before.get(folder.DOCKET)
    if result is not None and not before.get(folder.SHEET):
        if docket != digest(source.market.docket()):
            raise OfficeError("before.other-docket", table=folder.MANIFEST)
        return None
    earlier = before_of(source.market, docket)
    if result is None:
        return None
    match = earlier.match(workers=1, timeout=source.timeout)
    if before[folder.SHEET] != digest(match.sheet):
        raise OfficeError("before.other-sheet", table=folder.MANIFEST)
    phrases = Language.of(source.manifest).phrases()
    return compare.changes_table(compare.changes(outcome_of(earlier, match.places, source.details), result.outcome), phrases)


def own_names(market: Market) -> Names:
    """The names of a market's members alone, in the docket's order: what a key has to have, and no more."""
    docket = market.in_docket_names()
    by_name = {(member.side, member.docket_name): member for member in market.names.members()}
    return Names([by_name[PROGRAMME, name] for name in docket.quotas] + [by_name[RESIDENT, name] for name in docket.resident_lists])
