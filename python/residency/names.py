"""Names: from any text to a docket's names and back.

A docket's name is 1 to 32 of the letters A-Z and a-z, the digits, `-`, `_` and `.`. The caller's names may be any text.
"""
from __future__ import annotations

import itertools
import unicodedata
from pathlib import Path
from typing import Any, Dict, Iterable, Iterator, List, NamedTuple, Optional, Sequence, Tuple, Union

from .errors import KeyFault
from .ordered import NotRead, as_items, as_list, as_name, of_kind
from .text import sections, shown

PROGRAMME, RESIDENT = "P", "R"
SIDES = {PROGRAMME: "programme", RESIDENT: "resident"}
MOST_LETTERS = 32
# A name that isn't alone is cut to so many letters, so that a number has room after it.
_STEM = 26
# What letters are in plain ones, where Unicode doesn't say it.
_LETTERS = str.maketrans({**sections(Path(__file__).with_name("letters.txt"))["LETTERS"], "&": " and "})
# A member as a caller gives it: its name, or its name and its ID.
Named = Union[str, Tuple[str, str]]


class Member(NamedTuple):
    """A row of a key: the side (`P` or `R`), the docket's name, the caller's name and the ID, which may be empty."""

    side: str
    docket_name: str
    name: str
    id: str = ""

    @property
    def label(self) -> str:
        """The name, with the ID where there is one: `Anna Kovács (1042)`."""
        return f"{self.name} ({self.id})" if self.id else self.name


def _words(text: str) -> List[str]:
    """The words of a text in small plain letters; what has none is left out."""
    composed = unicodedata.normalize("NFC", text.casefold() if text.isascii() else text.lower())
    plain = unicodedata.normalize("NFKD", composed.translate(_LETTERS)).translate(_LETTERS)
    kept = "".join(c if c.isascii() and c.isalnum() else "" if unicodedata.combining(c) or c in "'’." else " "
                   for c in plain.lower())
    return kept.split()


def _codes(text: str) -> List[str]:
    """The words of a text in another script, each as the code points of its letters and signs; a text of nothing else has none."""
    words = ("".join(f"{ord(c):x}" for c in word if not unicodedata.category(c).startswith(("C", "M", "P", "Z"))) for word in text.split())
    return [f"u{word}" for word in words if word]


def _fit(words: List[str], most: int) -> str:
    """The words with `-` between them in at most so many letters: the longest words lose letters at their ends."""
    name = "-".join(words)
    if len(name) <= most:
        return name
    if len(words) > most // 2:
        words = words[:most // 4] + words[-(most // 4):]
    room = most - (len(words) - 1)
    cap = room // len(words)
    while cap < most and sum(min(len(word), cap + 1) for word in words) <= room:
        cap += 1
    spare = room - sum(min(len(word), cap) for word in words)
    cut = []
    for word in words:
        more = 1 if spare and len(word) > cap else 0
        spare -= more
        cut.append(word[:cap + more])
    return "-".join(cut)


def _made(texts: Iterable[str], letter: str) -> Iterator[str]:
    """A docket name for each of these texts in turn, unlike those before it."""
    used = set()
    counts: Dict[str, int] = {}
    for text in texts:
        words = _words(text) or _codes(text) or [letter]
        name = _fit(words, MOST_LETTERS)
        if name in used:
            stem = _fit(words, _STEM)
            count = counts.get(stem, 1)
            while name in used:
                count += 1
                name = f"{stem[:MOST_LETTERS - 1 - len(str(count))]}-{count}"
            counts[stem] = count
        used.add(name)
        yield name


def docket_names(names: Iterable[str], letter: str = "n") -> Dict[str, str]:
    """A docket name for each of these texts, unlike one another: a dictionary from text to docket name, in their order.

    Names are in small letters. What has no plain letters (another script) is called by its code points, and what has no
    letters at all by the letter and a number. The time grows with the number of names, whatever they are. NotRead, a
    TypeError, for a text, a set or what is no list.

    >>> made = docket_names(["St. Mary's, East", "St Marys East", "Universitätsklinik Köln – Chirurgie", "王芳", "李娜"], "p")
    >>> list(made.values())
    ['st-marys-east', 'st-marys-east-2', 'universitatsklini-koln-chirurgie', 'u738b82b3', 'u674e5a1c']
    """
    texts = list(dict.fromkeys(of_kind("a name is a text", str, as_name(name)) for name in as_items(names)))
    return dict(zip(texts, _made(texts, letter)))


def _pair(given: Any) -> Tuple[str, str]:
    """A name and an ID, of a name or of a pair of both; whole numbers are read as their digits."""
    both = (given, "") if isinstance(as_name(given), str) else as_list(given)
    if len(both) != 2:
        raise NotRead(f"a member is a name, or a pair of a name and an ID, and this has {len(both)} parts")
    name, id_ = (of_kind("a name or an ID is a text", str, as_name(text)) for text in both)
    return name, id_


class Names:
    """Who is who: the docket's name and the caller's name of each member, for programmes and residents apart.

    The caller's name of a member is unique on its side; two members of one name are told apart by their IDs, and then
    each is called by its label, `name (ID)`. KeyFault where two members have one docket name, or can't be told apart.

    >>> names = Names.of(["North"], [("Anna Kovács", "1042"), ("Anna Kovács", "1043"), ("Zoë O'Connor", "1044")])
    >>> [names.name("R", made) for made in ("anna-kovacs", "anna-kovacs-2", "zoe-oconnor")]
    ['Anna Kovács (1042)', 'Anna Kovács (1043)', "Zoë O'Connor"]
    >>> names.docket_name("R", "Anna Kovács (1043)"), names.id("R", "zoe-oconnor")
    ('anna-kovacs-2', '1044')
    """

    def __init__(self, members: Iterable[Member] = (), rows: Optional[Sequence[int]] = None) -> None:
        """The names of these members, and the rows of a key that they stand in (from 1, one after another)."""
        self._members: Dict[str, Dict[str, Member]] = {PROGRAMME: {}, RESIDENT: {}}
        self._names: Dict[str, Dict[str, str]] = {PROGRAMME: {}, RESIDENT: {}}
        self._docket_names: Dict[str, Dict[str, str]] = {PROGRAMME: {}, RESIDENT: {}}
        counts: Dict[Tuple[str, str], int] = {}
        numbered = list(zip(itertools.count(1) if rows is None else rows, members))
        for number, member in numbered:
            counts[member.side, member.name] = counts.get((member.side, member.name), 0) + 1
            if self._members[member.side].setdefault(member.docket_name, member) is not member:
                raise KeyFault(number, f"{shown(member.docket_name)} has a row before", 2)
        for number, member in numbered:
            self._call(number, member, member.name if counts[member.side, member.name] == 1 else member.label)

    def _call(self, number: int, member: Member, called: str) -> None:
        """Notes what a member is called: its name, or its label where others have its name."""
        if self._docket_names[member.side].setdefault(called, member.docket_name) != member.docket_name:
            who = "programmes" if member.side == PROGRAMME else "residents"
            raise KeyFault(number, f"two {who} are called {shown(called)}, and no IDs tell them apart", 3)
        self._names[member.side][member.docket_name] = called

    @classmethod
    def of(cls, programmes: Iterable[Named], residents: Iterable[Named]) -> Names:
        """Names for these members, each a name or a pair of a name and an ID; docket names are made.

        NotRead, a TypeError, for a text, a set or what is no list.
        """
        members: List[Member] = []
        for side, named in ((PROGRAMME, programmes), (RESIDENT, residents)):
            pairs = [_pair(member) for member in as_items(named)]
            made = _made((name for name, _ in pairs), side.lower())
            members += [Member(side, docket_name, *pair) for docket_name, pair in zip(made, pairs)]
        return cls(members)

    def name(self, side: str, docket_name: str) -> str:
        """The caller's name of a docket's name, which is itself where nobody here has it."""
        return self._names[side].get(docket_name, docket_name)

    def docket_name(self, side: str, name: str) -> str:
        """The docket's name of a caller's name; KeyError where there is none."""
        return self._docket_names[side][name]

    def id(self, side: str, docket_name: str) -> str:
        """The ID of a docket's name, or an empty text."""
        member = self._members[side].get(docket_name)
        return member.id if member else ""

    def members(self, side: Optional[str] = None) -> Iterator[Member]:
        """The members of a side, or of both, programmes first, in their order."""
        for this_side in (PROGRAMME, RESIDENT) if side is None else (side,):
            yield from self._members[this_side].values()
