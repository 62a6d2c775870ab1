"""The hash trees of a sealed match, made from docket, key, sheet and secret by docs/sealed.md alone: what the program `seal` writes is
compared with it. Nothing here asks a program."""
import hashlib
import re
from dataclasses import dataclass
from typing import Dict, Iterable, Iterator, List, Mapping, Optional, Sequence, Tuple

from ..docket import Docket, bytes_of, read_docket
from ..errors import DocketFault
from ..key import csv_row, read_key, to_cell
from ..names import PROGRAMME, RESIDENT, Member
from ..passes import NATIONAL

LISTS, RESULT = "lists", "result"
Row = Sequence[object]
Places = Mapping[str, Optional[str]]
DIGITS = "[0-9a-f]{64}"
ROOTS = re.compile(f"lists,([0-9]+),({DIGITS})\n(?:result,\\1,({DIGITS})\n)?")


@dataclass(frozen=True)
class Roots:
    """What is published of a sealed match: how many members there are, the root of their lists, and the result's after the match."""

    count: int
    lists: str
    result: str = ""

    def rows(self) -> bytes:
        rows: List[Row] = [(LISTS, self.count, self.lists)]
        return bytes_of(rows + [(RESULT, self.count, self.result)] * bool(self.result))

    @classmethod
    def read(cls, data: bytes) -> "Roots":
        """The roots of such rows; ValueError where these are none."""
        found = ROOTS.fullmatch(data.decode("ascii", "replace"))
        if found is None:
            raise ValueError("these are no roots")
        return cls(int(found[1]), found[2], found[3] or "")


def members(docket: Docket) -> List[Tuple[str, str]]:
    """Each member's side and name: the programmes first, then the residents, in the docket's order."""
    return [(PROGRAMME, name) for name in docket.quotas] + [(RESIDENT, name) for name in docket.resident_lists]


def list_texts(docket: Docket, named: Mapping[Tuple[str, str], Member]) -> Iterator[bytes]:
    """Each member's list as it was written, and the real name and ID as the key has them, in the members' order."""
    gone = {PROGRAMME: docket.withdrawn_programmes, RESIDENT: docket.withdrawn_residents}
    for side, name in members(docket):
        rows: List[Row] = [("R", name, *docket.resident_lists[name])] if side == RESIDENT else [("Q", name, docket.quotas[name])]
        if side == PROGRAMME and name in docket.programme_lists:
            rows.append(("P", name, *docket.programme_lists[name]))
        member = named.get((side, name))
        real = csv_row(("N", *(to_cell(text) for text in member[2:] if text)), ',"') if member else ""
        yield bytes_of(rows + [("W", side, name)] * (name in gone[side])) + real.encode("utf-8")


class Reasons:
    """Why a resident is with no programme of its list that it is not with, by the lists as they were written."""

    def __init__(self, docket: Docket, places: Places) -> None:
        self.docket, self.places = docket, places
        self.rank = {name: {listed_name: rank for rank, listed_name in enumerate(listed, 1)} for name, listed in docket.programme_lists.items()}
        self.members: Dict[str, List[str]] = {name: [] for name in docket.quotas}
        for resident in docket.resident_lists:
            programme = places[resident]
            if programme is not None:
                self.members[programme].append(resident)
        self.last = {name: max((self.rank.get(name, {}).get(placed, 0) for placed in those), default=0) for name, those in self.members.items()}

    def rows(self, resident: str) -> Iterator[Row]:
        """A row for each programme of the resident's list, in order."""
        where, is_past = self.places[resident], False
        is_gone = resident in self.docket.withdrawn_residents
        for choice, programme in enumerate(self.docket.resident_lists[resident], 1):
            rank = self.rank.get(programme, {}).get(resident)
            row = (resident, programme, choice)
            if is_gone or programme in self.docket.withdrawn_programmes:
                yield (*row, "withdrawn", "", "", "")
            elif rank is None:
                yield (*row, "unranked", "", "", "")
            elif programme == where:
                yield (*row, "matched", "", "", "")
            elif is_past:
                yield (*row, "better", "", "", "")
            else:
                yield (*row, "full", rank, self.last[programme] or "", self.docket.quotas[programme])
            is_past = is_past or programme == where


def result_texts(docket: Docket, places: Places) -> Iterator[bytes]:
    """Each member's result, in the members' order."""
    reasons = Reasons(docket, places)
    for side, name in members(docket):
        if side == PROGRAMME:
            those = reasons.members[name]
            yield bytes_of([("F", name, len(those), docket.quotas[name]), *(("M", resident, name) for resident in those)])
        else:
            where = places[name]
            yield bytes_of([("U", name) if where is None else ("M", name, where), *reasons.rows(name)])


def sha(*parts: bytes) -> bytes:
    return hashlib.sha256(b"".join(parts)).digest()


def salt(secret: bytes, tag: bytes, index: int) -> bytes:
    return sha(secret, tag, index.to_bytes(8, "big"))


class Tree:
    """A tree over these texts: neighbours are paired level by level, and an odd last one goes up as it is."""

    def __init__(self, texts: Iterable[bytes], secret: bytes, tag: bytes) -> None:
        self.texts, self.secret, self.tag = list(texts), secret, tag
        self.levels = [[sha(b"\0", salt(secret, tag, index), text) for index, text in enumerate(self.texts)]]
        while len(self.levels[-1]) > 1:
            below = self.levels[-1]
            pairs = [sha(b"\1", below[at], below[at + 1]) for at in range(0, len(below) - 1, 2)]
            self.levels.append(pairs + below[len(pairs) * 2:])

    def root(self) -> str:
        """The published root, which has the number of members in it."""
        return sha(b"\2", len(self.texts).to_bytes(8, "big"), self.levels[-1][0] if self.texts else sha()).hex()

    def part(self, word: str, index: int) -> bytes:
        """What a receipt says of the leaf of this index, after the root: the opening and the text."""
        path = "".join(f",{level[sibling].hex()}" for depth, level in enumerate(self.levels[:-1])
                       for sibling in [(index >> depth) ^ 1] if sibling < len(level))
        return f"opens,{word},{index},{salt(self.secret, self.tag, index).hex()}{path}\n".encode("ascii") + self.texts[index]


class Sealed:
    """The trees of a docket with its key's names and, with a sheet, of its result. DocketFault, KeyFault."""

    def __init__(self, docket: bytes, secret: bytes, sheet: Optional[bytes] = None, key: bytes = b"") -> None:
        read = read_docket(docket + (sheet or b""), NATIONAL)
        self.members = members(read)
        self.trees = {LISTS: Tree(list_texts(read, {member[:2]: member for member in read_key(key).members()}), secret, b"L")}
        if sheet is not None:
            if read.sheet is None and self.members:
                raise DocketFault(0, "no sheet in the docket")
            self.trees[RESULT] = Tree(result_texts(read, read.sheet or {}), secret, b"R")

    def roots(self) -> Roots:
        """The roots as they are published."""
        return Roots(len(self.members), *(tree.root() for tree in self.trees.values()))

    def receipts(self) -> Iterator[Tuple[Tuple[str, str], bytes]]:
        """Each member's receipt, in order."""
        heads = {word: bytes_of([(word, len(self.members), tree.root())]) for word, tree in self.trees.items()}
        for index, member in enumerate(self.members):
            yield member, bytes_of([("receipt", 2, *member)]) + b"".join(heads[word] + tree.part(word, index) for word, tree in self.trees.items())
