"""Which column of a table is what, by its heading: wide tables have a column for each rank, long ones a row."""
import re
import unicodedata
from dataclasses import dataclass, field
from functools import lru_cache
from typing import Dict, FrozenSet, Iterator, List, Optional, Sequence, Tuple, TypeVar

from ..passes import NATIONAL
from ..near import edits
from .faults import Faults, OfficeError, Remedy, Values
from .languages import COUNTS, WORDS

# What a heading is known by: its role, or a rank.
Key = TypeVar("Key", str, int)

# What the report calls a column that is missing.
TITLES = {"programme": "Programme", "resident": "Applicant", "places": "Places", "rank": "Rank", "id": "ID",
          "given": "First name", "family": "Last name", "withdrawn": "Withdrawn"}
# The longest list has as many columns as there are residents at most, and a few stand before it.
MOST_COLUMNS = NATIONAL.residents + 100
ROLES = ("programme", "resident", "places", "rank", "id", "given", "family", "withdrawn")
HEADING = f"ROLE=WORD, where ROLE is one of {', '.join(ROLES)}"
NUMBERED = re.compile(r"(?P<before>.*?)\s*(?:(?<!\w)(?:no|nr|num)|#)?\s*0*(?P<number>[0-9]{1,5})(?P<ending>\s?[a-z]{1,4})?(?!\w)\s*(?P<after>.*)")
NUMBER = re.compile(r"\s*[0-9]+\s*")
PLAIN = str.maketrans({"ı": "i", "ł": "l", "’": "'", **dict.fromkeys("._:-()/", " ")})
OTHER = {"programme": "resident", "resident": "programme"}


@lru_cache(1 << 16)
def plain(heading: str) -> str:
    """A heading without accents, capitals, points and doubled spaces."""
    folded = unicodedata.normalize("NFKD", heading.casefold())
    return " ".join("".join(c for c in folded if not unicodedata.combining(c)).translate(PLAIN).split())


class Words:
    """The words of a language that columns may be headed by, and those that the command line adds; and which columns it leaves out or
    keeps."""

    def __init__(self, added: Sequence[str] = (), ignored: Sequence[str] = (), kept: Sequence[str] = (), language: str = "English") -> None:
        self.language, self.known = language, {role: words.split(", ") for role, words in WORDS[language].items()}
        self.roles = {plain(word): role for role, words in self.known.items() for word in words}
        self.ignored = {plain(word) for word in ignored}
        self.kept = {plain(word): word for word in kept}
        for setting in added:
            role, _, word = setting.partition("=")
            if role not in ROLES or not plain(word):
                raise OfficeError("setting.heading", 2, text=setting, roles=ROLES)
            self.roles[plain(bare(role, word))] = role
        ending, ordinals, endings = COUNTS[language]
        self.endings = {*plain(ending).split("|"), ""}
        self.ordinals = {plain(word) + end: number for number, word in enumerate(ordinals.split(), 1) for end in ("", *endings.split())}
        self.said, self.others = (added, ignored, kept), {language: self}

    def each(self) -> "Iterator[Words]":
        """These in every language, the own one first."""
        for language in WORDS:
            if language not in self.others:
                self.others[language] = Words(*self.said, language)
            yield self.others[language]

    def role(self, heading: str) -> Optional[str]:
        return self.roles.get(plain(heading))

    def rank(self, heading: str, items: str) -> Optional[int]:
        """The rank that a heading of a wide table numbers: `Rank 2`, `2nd choice`, `Programme 2`, `Second` or `2`."""
        folded = plain(heading)
        words = folded.split()
        if words and words[0] in self.ordinals and (len(words) == 1 or self.counts(" ".join(words[1:]), items)):
            return self.ordinals[words[0]]
        found = NUMBERED.fullmatch(folded)
        if found is None or int(found["number"]) == 0:
            return None
        ending = (found["ending"] or "").strip()
        around = " ".join(f"{found['before']} {'' if ending in self.endings else ending} {found['after']}".split())
        return int(found["number"]) if not around or self.counts(around, items) else None

    def counts(self, word: str, items: str) -> bool:
        return bool({"rank", items} & set(self.roles.get(word, "").split("|")))

    def is_heading(self, cells: List[str]) -> bool:
        """Whether two cells or more are headings of either table in one language, one of them of names or IDs."""
        return len([cell for cell in cells if cell]) > 1 and any(language.heads(cells) for language in self.each())

    def knows(self, cell: str) -> bool:
        """Whether a cell is a heading in some language."""
        return any(language.role(cell) is not None or language.rank(cell, "") is not None for language in self.each())

    def heads(self, cells: List[str]) -> bool:
        known = sum(bool(cell) and (self.role(cell) is not None or plain(cell) in self.ignored
                                    or any(self.rank(cell, items) for items in OTHER)) for cell in cells)
        return known >= 2 and any(self.role(cell) in ("programme", "resident", "name", "first", "id", "family") for cell in cells)

    def near(self, heading: str) -> bool:
        """Whether a heading is nearly a known one, so that a misspelt column isn't left out: `Rnak 3`, `Choice three`."""
        bare = re.sub("[0-9]+", "", plain(heading)).strip()
        words = [(word, role) for word, role in self.roles.items() if role in ("rank", "places", "programme", "resident")]
        return any(len(word) > 3 and edits(bare, word, 2) <= (1 if len(word) < 6 else 2)
                   or role == "rank" and bare.startswith(word + " ") for word, role in words)


@dataclass
class Columns:
    """Which cells of a row are what, counted from 0. A wide table has `ranks`, a long one `rank` and `item`; `known` are the
    cells that have a heading, and `width` is how many cells the heading has. Where first and last name stand in two columns,
    `owner` or `item` is the first name's. `kept` are the columns that are asked for, `unread` those that nothing is read of."""

    owner: int
    places: Optional[int] = None
    ident: Optional[int] = None
    ranks: List[Tuple[int, int]] = field(default_factory=list)
    rank: Optional[int] = None
    item: Optional[int] = None
    known: FrozenSet[int] = frozenset()
    width: int = 0
    family: Optional[int] = None
    owner_family: Optional[int] = None
    item_family: Optional[int] = None
    kept: List[Tuple[int, str]] = field(default_factory=list)
    unread: List[Tuple[int, str]] = field(default_factory=list)
    withdrawn: Optional[int] = None
    language: str = field(default="English", compare=False)

    @property
    def is_long(self) -> bool:
        return self.item is not None

    def meanings(self, owners: str) -> List[str]:
        """What each column is: the owners' names, `places`, `id`, `rank` or `rank 3`, the names that are ranked, `kept`, or nothing."""
        named = {self.owner: owners, self.owner_family: "family", self.item_family: "family", self.item: OTHER[owners], self.family: "family",
                 self.places: "places", self.ident: "id", self.rank: "rank", self.withdrawn: "withdrawn", **dict.fromkeys((cell for cell, _ in self.kept), "kept")}
        named.update({cell: f"rank {number}" for number, cell in self.ranks})
        return [named.get(cell, "") for cell in range(self.width)]


class Reader:
    """Reads one heading row; `owners` says whose table it is, `programme` or `resident`."""

    def __init__(self, table: str, owners: str, row: int, heading: List[str], words: Words, faults: Faults) -> None:
        self.table, self.owners, self.row, self.heading = table, owners, row, heading
        self.words, self.faults = words, faults
        self.items = OTHER[owners]
        self.at: Dict[str, int] = {}
        self.ranks: Dict[int, int] = {}
        self.unknown: List[int] = []
        # The headings that may mean several things, and where one is that is asked for.
        self.several: List[Tuple[int, List[str]]] = []
        self.is_asked = False
        self.kept: List[Tuple[int, str]] = []
        self.told = False
        self.is_parted = False

    def tell(self, cell: int, what: str, values: Optional[Values] = None, remedies: Sequence[Remedy] = ()) -> None:
        self.told = True
        self.faults.tell(f"heading.{what}", self.table, self.row, cell, values, remedies=remedies)

    def absent(self, what: str, values: Optional[Values] = None) -> None:
        """Tells a column that isn't there, at the first cell where it could be."""
        free = next((cell for cell, heading in enumerate(self.heading) if not heading), len(self.heading))
        self.tell(free + 1, what, values)

    def beside(self, title: str, cell: int) -> None:
        """Tells a column that isn't there, where another one says that it has to be."""
        self.absent("beside", {"title": title, "column": cell + 1, "heading": self.heading[cell]})

    def columns(self) -> Optional[Columns]:
        """The columns, or None where the heading is at fault, which is told."""
        if len(self.heading) > MOST_COLUMNS:
            self.tell(MOST_COLUMNS + 1, "cells", {"cells": len(self.heading), "most": MOST_COLUMNS})
            return None
        for cell, heading in enumerate(self.heading):
            if heading:
                self.sort(cell, heading)
        if not self.at and all(heading.isdecimal() for heading in map(self.heading.__getitem__, self.ranks.values())):
            self.tell(1, "none", {"owners": self.owners, "cells": tuple(self.heading[:4])})
            return None
        if self.looks_exchanged():
            self.tell(1, "exchanged", {"items": self.items})
            return None
        self.first_names()
        self.settle()
        if self.is_asked:
            return None
        self.two_names()
        self.missing()
        self.missing_kept()
        return None if self.told else self.made()

    def missing_kept(self) -> None:
        """Tells a column that is to be kept and isn't there."""
        there = {plain(heading) for heading in self.heading}
        for folded, word in self.words.kept.items() if self.owners == "resident" else ():
            if folded not in there:
                self.absent("keep", {"heading": word})

    def first_names(self) -> None:
        """Takes `Nombre` for the given name beside a family name, and else for the name of whoever has no column."""
        if "first" in self.at:
            is_given = "family" in self.at and "given" not in self.at
            role = "given" if is_given else self.owners if self.owners not in self.at else self.items
            self.once(self.at, role, self.at.pop("first"))

    def settle(self) -> None:
        """Takes a heading of several meanings for the one that no other column has, or asks which it is."""
        for cell, roles in self.several:
            fits = {"places": self.owners == "programme", "rank": not self.ranks and self.items in self.at}
            free = [role for role in roles if role not in self.at and fits.get(role, True)]
            if len(free) == 1:
                self.at[free[0]] = cell
            elif free:
                self.is_asked = True
                heading = self.heading[cell]
                self.tell(cell + 1, "several", {"heading": heading, "roles": free}, [Remedy("heading", f"{role}={heading}") for role in free])
            else:
                self.unknown.append(cell)

    def two_names(self) -> None:
        """Takes a first and a last name in two columns for the column of residents; `Name` beside a first name is the last."""
        whose = "resident"
        at = self.at
        if "given" in at and "family" not in at and whose in at and self.words.role(self.heading[at[whose]]) == "name":
            at["family"] = at.pop(whose)
        if "given" in at and "family" in at and whose not in at:
            at[whose] = at["given"]
            self.is_parted = True
        elif "given" in at and "family" not in at and whose not in at:
            self.beside(TITLES["family"], at["given"])
        elif "family" in at and "given" not in at and whose not in at:
            self.beside(TITLES["given"], at["family"])

    def sort(self, cell: int, heading: str) -> None:
        """Notes what one column is."""
        role = self.words.role(heading)
        if role == "name":
            role = self.owners
        if plain(heading) in self.words.ignored:
            return None
        if plain(heading) in self.words.kept and self.owners == "resident":
            if role is not None:
                return self.tell(cell + 1, "kept-twice", {"heading": heading})
            return self.kept.append((cell, heading))
        if role is None or role in ("rank", self.items) or "|" in role:
            number = self.words.rank(heading, self.items)
            if number is not None:
                return self.once(self.ranks, number, cell)
        if role is None:
            return self.unknown.append(cell)
        if "|" in role:
            return self.several.append((cell, role.split("|")))
        return self.once(self.at, role, cell)

    def once(self, at: Dict[Key, int], what: Key, cell: int) -> None:
        if what in at:
            self.tell(cell + 1, "twice", {"heading": self.heading[cell], "first": at[what] + 1, "second": cell + 1})
        at.setdefault(what, cell)

    def looks_exchanged(self) -> bool:
        """Whether the owner's column is missing and the other side's is there as in a table of that side."""
        return self.owners not in self.at and self.items in self.at and (bool(self.ranks) or "places" in self.at)

    def missing(self) -> None:
        """Tells each column that is wanted and isn't there, then each heading that is none."""
        for role in (self.owners,) + (("places",) if self.owners == "programme" else ()):
            if role not in self.at:
                self.absent("missing", {"title": TITLES[role], "role": role, "others": self.words.known[role][1:4]})
        if self.owners == "resident" and "places" in self.at:
            self.tell(self.at["places"] + 1, "places")
        self.missing_ranks()
        wanted = (self.owners,) + (("places",) if self.owners == "programme" else ()) + ("rank",)
        absent = [role for role in wanted if role not in self.at and not (role == "rank" and self.ranks)]
        for cell in self.unknown:
            if self.told or self.words.near(self.heading[cell]):
                heading, role = self.heading[cell], absent[0] if absent else "rank"
                values = {"heading": heading, "role": role, "word": bare(role, heading)}
                self.tell(cell + 1, "unknown", values, meanings(role, heading))

    def missing_ranks(self) -> None:
        rank, item = self.at.get("rank"), self.at.get(self.items)
        last = max(self.ranks, default=0)
        gap = next((number for number in range(1, last) if number not in self.ranks), None)
        if rank is not None and self.ranks:
            self.tell(rank + 1, "long-and-wide")
        elif rank is not None and item is None:
            self.beside(TITLES[self.items], rank)
        elif item is not None and rank is None:
            self.beside(TITLES["rank"], item)
        elif rank is None and not self.ranks:
            self.absent("no-rank")
        elif gap is not None:
            self.beside(f"Rank {gap}", self.ranks[last])

    def made(self) -> Columns:
        at = self.at
        known = frozenset(cell for cell, heading in enumerate(self.heading) if heading)
        family, owns = at.get("family"), self.owners == "resident"
        return Columns(at[self.owners], at.get("places"), at.get("id"), sorted(self.ranks.items()), at.get("rank"),
                       at.get(self.items) if "rank" in at else None, known, max(known) + 1, family,
                       family if self.is_parted and owns else None, family if self.is_parted and not owns else None,
                       self.kept, [(cell, self.heading[cell]) for cell in self.unknown], at.get("withdrawn"), self.words.language)


def bare(role: str, heading: str) -> str:
    """The word by which a heading says a role: of one that numbers a rank, the word beside the number."""
    return NUMBER.sub(" ", heading).strip(" .:-") or heading if role == "rank" else heading


def meanings(role: str, heading: str) -> Tuple[Remedy, Remedy]:
    """What may be said of a column whose heading is unknown: what it is, or that it is left out."""
    return Remedy("heading", f"{role}={bare(role, heading)}"), Remedy("ignore", heading)


def columns_of(table: str, owners: str, row: int, heading: List[str], words: Words, faults: Faults) -> Optional[Columns]:
    """Which column is what, by the heading in this row and the words of the language that knows most of it; None where that is at
    fault, or where two languages take it otherwise."""
    readers: List[Reader] = []
    found: List[Optional[Columns]] = []
    for language in words.each():
        readers.append(Reader(table, owners, row, heading, language, Faults()))
        found.append(readers[-1].columns())
        if found[-1] is not None and not readers[-1].unknown:
            break
    fits = [(columns is not None, reader.is_asked, -len(reader.unknown), len(reader.at) + len(reader.ranks)) for columns, reader in zip(found, readers)]
    best = max(range(len(fits)), key=lambda index: (fits[index], -index))
    other = next((index for index, fit in enumerate(fits) if fit == fits[best] and fit[0] and found[index] != found[best]), None)
    reader = Reader(table, owners, row, heading, readers[best].words, faults)
    if other is None:
        return reader.columns()
    first, second = (columns.meanings(owners) for columns in (found[best], found[other]) if columns is not None)
    cell = next(cell for cell, (meaning, two) in enumerate(zip(first, second)) if meaning != two)
    reader.tell(cell + 1, "languages", {"heading": heading[cell], "language": readers[best].words.language, "is": first[cell] or "no column",
                                        "other": readers[other].words.language, "or": second[cell] or "no column"},
                [Remedy("heading", f"{role}={heading[cell]}") for role in (first[cell], second[cell]) if role in ROLES])
    return None
