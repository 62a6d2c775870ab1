"""Rows of cells, wide or long, made into dictionaries in the caller's names; what is wrong is told with its row and cell."""
from __future__ import annotations

from typing import Any, Dict, Iterable, Iterator, List, NamedTuple, Optional, Sequence, Set, Tuple, Union

from .errors import MarketFault
from .names import Member, Named, Names
from .near import MOST_NEAR, NearNames
from .ordered import NotRead, as_list, is_nothing
from .passes import MOST_PLACES
from .text import shown, tidy

# A cell of a row: text, a whole number, or nothing (None, or the NaN of a data frame).
Cell = Union[str, int, float, None]
Lists = Dict[str, Tuple[str, ...]]
# Up to here each whole number is a float of its own; beyond, a float may stand for another number than was written.
_EXACT = 2 ** 53


class Read(NamedTuple):
    """What two tables say."""

    quotas: Dict[str, int]
    programme_lists: Lists
    resident_lists: Lists
    names: Names


def text_of(cell: Cell) -> str:
    """A cell as text: a whole number as its digits, nothing as an empty text; TypeError for anything else, a float that
    isn't whole or that is too large to be exact among it.

    >>> text_of("  Zoë  Weiß "), text_of(7), text_of(7.0), text_of(float("nan")), text_of(None)
    ('Zoë Weiß', '7', '7', '', '')
    """
    if isinstance(cell, str):
        return tidy(cell)
    if is_nothing(cell):
        return ""
    # A data frame's own numbers are Python's by their index or their value.
    number = cell if isinstance(cell, (int, float)) else getattr(cell, "item", lambda: None)()
    if isinstance(number, bool) or not isinstance(number, (int, float)) or number != number // 1:
        raise TypeError(f"{cell!r} is neither text nor a whole number")
    if isinstance(number, float) and abs(number) > _EXACT:
        raise TypeError(f"{cell!r} is a float that is too large to be exact; give it as text")
    return str(int(number))


def number_in(text: str, most: int) -> Optional[int]:
    """The number that a text of digits writes, where it is at most `most`; else None.

    >>> number_in("0012", 99), number_in("100", 99), number_in("-1", 99), number_in("9" * 5000, 99)
    (12, None, None, None)
    """
    if not (text.isascii() and text.isdigit()):
        return None
    digits = text.lstrip("0") or "0"
    return int(digits) if len(digits) <= len(str(most)) and int(digits) <= most else None


class Side:
    """The members of a side by all that a list may call them: the name that one alone has, the ID, or `name (ID)`."""

    def __init__(self, side: str) -> None:
        self.side = side
        self.who = "programme" if side == "P" else "resident"
        self.members: List[Tuple[str, str]] = []
        # The members whom a text may mean, by their places.
        self._by_text: Dict[str, List[int]] = {}
        self._pairs: Set[Tuple[str, str]] = set()
        self._names: Set[str] = set()
        self._ids: Set[str] = set()
        self._near: Optional[NearNames] = None

    def add(self, name: str, id: str = "") -> Optional[str]:
        """Adds a member; or says why it can't be told apart from another."""
        if not name:
            return "no name"
        if (name, id) in self._pairs or not id and name in self._names:
            return f"{shown(name)} has a row before" + (", and has no ID here" if (name, id) not in self._pairs else "")
        if (name, "") in self._pairs:
            return f"{shown(name)} has a row before, which has no ID"
        if id in self._ids:
            return f"the ID {shown(id)} has a row before"
        index = len(self.members)
        self.members.append((name, id))
        self._pairs.add((name, id))
        self._names.add(name)
        self._ids.update({id} - {""})
        for text in {name, id, Member(self.side, "", name, id).label} - {""}:
            self._by_text.setdefault(text, []).append(index)
        return None

    def find(self, text: str) -> Union[int, str]:
        """The member that a cell names, by its place; or what is wrong with the cell."""
        found = self._by_text.get(text, [])
        if len(found) == 1:
            return found[0]
        if found:
            ids = ", ".join(shown(self.members[index][1]) or "no ID" for index in found[:5])
            return f"{len(found)} {self.who}s are named {shown(text)}: name one by its ID ({ids})"
        if self._near is None:
            self._near = NearNames(dict.fromkeys(name for name, _ in self.members), MOST_NEAR)
        near = self._near.near(text)
        return f"no {self.who} is named {shown(text)}" + (f"; is it {shown(near)}?" if near else "")

    def named(self) -> List[Named]:
        """The members as `Names.of` takes them."""
        return [(name, id) if id else name for name, id in self.members]


class Tables:
    """Two tables in the making: their members, and what is wrong with them."""

    def __init__(self) -> None:
        self.faults: List[str] = []
        # The cells that are told already: of each the first fault is told, and what follows from it isn't.
        self._told: Set[Tuple[str, int, int]] = set()
        self.sides = {"P": Side("P"), "R": Side("R")}
        self.places: List[int] = []

    def tell(self, table: str, row: int, cell: int, what: str) -> None:
        if (table, row, cell) not in self._told:
            self.faults.append(f"{table}, row {row}, cell {cell}: {what}")
        self._told.add((table, row, cell))

    def rows(self, table: str, rows: Any) -> Iterator[Tuple[int, List[str]]]:
        """The rows of a table that have a cell which isn't empty, with their numbers. What is no table, or no row, is told."""
        for number, cells in enumerate(self.members(table, 0, rows), 1):
            texts = self.texts(table, number, self.members(table, number, cells))
            if any(texts):
                yield number, texts

    def members(self, table: str, row: int, given: Any) -> List[Any]:
        """What stands in a table (row 0) or in a row of it; what is no list is told, and taken for empty."""
        try:
            return as_list(given, 1 if row else 2)
        except NotRead as why:
            self.faults.append(f"{table}, row {row}: {why}" if row else
                               f"{table}: {why} of rows; of a data frame give itertuples(index=False, name=None)")
            return []

    def texts(self, table: str, row: int, cells: Sequence[Cell]) -> List[str]:
        """The cells of a row as text, one that is no cell told and taken for empty."""
        texts = []
        for place, cell in enumerate(cells, 1):
            try:
                texts.append(text_of(cell))
            except (TypeError, ValueError) as error:
                self.tell(table, row, place, shown(str(error), 100))
                texts.append("")
        return texts

    def add(self, side: str, table: str, row: int, name: str, id: str = "") -> Optional[int]:
        """Adds a member; tells why not, and then gives None."""
        wrong = self.sides[side].add(name, id)
        if wrong:
            self.tell(table, row, 1, wrong)
            return None
        return len(self.sides[side].members) - 1

    def add_programme(self, table: str, row: int, name: str, id: str, places: str, cell: int) -> Optional[int]:
        quota = number_in(places, MOST_PLACES)
        if quota is None:
            self.tell(table, row, cell, f"{shown(places)} is no number of places from 0 to {MOST_PLACES}" if places else
                      f"programme {shown(name) or 'without a name'} has no places")
        owner = self.add("P", table, row, name, id)
        if owner is not None:
            self.places.append(quota or 0)
        return owner

    def ranked(self, side: str, table: str, row: int, cells: Sequence[str], first: int) -> List[int]:
        """The members of a side that the cells of a row name, best first; empty cells count for nothing."""
        ranked: Dict[int, None] = {}
        for cell in range(first, len(cells)):
            if cells[cell]:
                found = self.sides[side].find(cells[cell])
                if isinstance(found, str):
                    self.tell(table, row, cell + 1, found)
                elif found in ranked:
                    self.tell(table, row, cell + 1, f"{shown(cells[cell])} is listed twice")
                else:
                    ranked[found] = None
        return list(ranked)

    def read(self, programme_lists: Dict[int, List[int]], resident_lists: Dict[int, List[int]]) -> Read:
        """What the tables say in the caller's names; MarketFault where anything was told."""
        if self.faults:
            raise MarketFault(self.faults)
        names = Names.of(self.sides["P"].named(), self.sides["R"].named())
        called = {side: [names.name(side, member.docket_name) for member in names.members(side)] for side in ("P", "R")}
        return Read(dict(zip(called["P"], self.places)),
                    {called["P"][p]: tuple(called["R"][r] for r in listed) for p, listed in programme_lists.items()},
                    {name: tuple(called["P"][p] for p in resident_lists.get(r, ())) for r, name in enumerate(called["R"])},
                    names)


def read_wide(programmes: Iterable[Sequence[Cell]], residents: Iterable[Sequence[Cell]], programme_ids: bool,
              resident_ids: bool) -> Read:
    """What two wide tables say; see `Market.from_tables`. A row without a cell that isn't empty is none."""
    tables = Tables()
    wide: List[Tuple[str, int, int, List[str], int]] = []
    for side, table, rows, ids in (("P", "programmes", programmes, programme_ids), ("R", "residents", residents, resident_ids)):
        for number, row in tables.rows(table, rows):
            row += [""] * (2 + ids - len(row))
            id = row[1] if ids else ""
            if side == "P":
                owner = tables.add_programme(table, number, row[0], id, row[1 + ids], 2 + ids)
            else:
                owner = tables.add(side, table, number, row[0], id)
            wide.append((side, -1 if owner is None else owner, number, row, 1 + ids + (side == "P")))
    lists: Dict[str, Dict[int, List[int]]] = {"P": {}, "R": {}}
    for side, owner, number, row, first in wide:
        table, other = ("programmes", "R") if side == "P" else ("residents", "P")
        lists[side][owner] = tables.ranked(other, table, number, row, first)
    return tables.read(lists["P"], lists["R"])


def read_long(places: Iterable[Sequence[Cell]], programme_ranks: Iterable[Sequence[Cell]],
              resident_ranks: Iterable[Sequence[Cell]], residents: Iterable[Union[Cell, Sequence[Cell]]], allow_gaps: bool) -> Read:
    """What three long tables say; see `Market.from_ranks`."""
    tables = Tables()
    for number, row in tables.rows("places", places):
        row += [""]
        tables.add_programme("places", number, row[0], "", row[1], 2)
    whole = (who if isinstance(who, Iterable) and not isinstance(who, str) else (who,)
             for who in tables.members("residents", 0, residents))
    for number, row in tables.rows("residents", whole):
        tables.add("R", "residents", number, row[0], (row + [""])[1])
    choices = list(tables.rows("resident ranks", resident_ranks))
    if not tables.sides["R"].members:
        # Without a table of residents they are those who have a row.
        for name in dict.fromkeys(row[0] for _, row in choices if row[0]):
            tables.sides["R"].add(name)
    ranks = list(tables.rows("programme ranks", programme_ranks))
    return tables.read(_by_rank(tables, "programme ranks", "P", "R", ranks, allow_gaps),
                       _by_rank(tables, "resident ranks", "R", "P", choices, allow_gaps))


def _by_rank(tables: Tables, table: str, side: str, other: str, rows: Iterable[Tuple[int, List[str]]],
             allow_gaps: bool) -> Dict[int, List[int]]:
    """The lists that rows (owner, rank, member) say; one that has an owner alone says that it ranks nobody."""
    ranked: Dict[int, Dict[int, int]] = {}
    listed: Set[Tuple[int, int]] = set()
    # Of whom a row is at fault, so that a gap is only its consequence.
    broken: Set[Optional[int]] = set()
    for number, cells in rows:
        row, before = cells + [""] * 3, len(tables.faults)
        owner = _found(tables, table, number, side, row, 0)
        if not row[1] and not row[2]:
            if owner is not None:
                ranked.setdefault(owner, {})
            continue
        member = _found(tables, table, number, other, row, 2)
        rank = number_in(row[1], 10 ** 9)
        if rank is None:
            tables.tell(table, number, 2, f"{shown(row[1])} is no rank" if row[1] else f"{shown(row[2])} has no rank")
        if owner is None or member is None or rank is None:
            broken.add(owner)
            continue
        if rank in ranked.setdefault(owner, {}):
            tables.tell(table, number, 2, f"{shown(row[0])} has two of rank {rank}")
        elif (owner, member) in listed:
            tables.tell(table, number, 3, f"{shown(row[2])} is listed twice by {shown(row[0])}")
        ranked[owner].setdefault(rank, member)
        listed.add((owner, member))
        broken |= {owner} if len(tables.faults) > before else set()
    for owner, by_rank in ranked.items():
        gap = next((rank for rank in range(1, len(by_rank) + 1) if rank not in by_rank), None)
        if gap is not None and not allow_gaps and owner not in broken:
            tables.faults.append(f"{table}: {shown(tables.sides[side].members[owner][0])} has no rank {gap}; is a row lost? allow_gaps=True takes the "
                                 "ranks in their order")
    return {owner: [member for _, member in sorted(by_rank.items())] for owner, by_rank in ranked.items()}


def _found(tables: Tables, table: str, number: int, side: str, row: List[str], cell: int) -> Optional[int]:
    """The member that a cell of a row names; what is wrong with it is told."""
    if not row[cell]:
        tables.tell(table, number, cell + 1, f"nobody stands at rank {shown(row[1])} of {shown(row[0])}" if cell else "no name")
        return None
    found = tables.sides[side].find(row[cell])
    if isinstance(found, str):
        tables.tell(table, number, cell + 1, found)
        return None
    return found
