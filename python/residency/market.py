"""A market in the caller's own names: programmes with quotas and lists, residents with lists, and who is withdrawn."""
from __future__ import annotations

from typing import Dict, Iterable, Mapping, Optional, Sequence, Tuple, Union

from . import calls
from .dictionaries import Reader, limits, sizes, told_name, withdrawals
from .docket import Docket, read_docket, write_docket
from .errors import KeyFault, MarketFault, OtherOptimum
from .names import Member, Names
from .passes import NATIONAL, STANDARD, Most
from .program import DEFAULT_TIMEOUT
from .results import Match
from .tables import Cell, Read, read_long, read_wide

Places = Union[Match, Mapping[str, Optional[str]]]


def _renamed(lists: Mapping[str, Sequence[str]], owners: Mapping[str, str],
             others: Mapping[str, str]) -> Dict[str, Tuple[str, ...]]:
    """The lists with other names for their owners and for those whom they list."""
    return {owners[owner]: tuple(others[name] for name in listed) for owner, listed in lists.items()}


class Market:
    """Programmes with quotas and lists, residents with lists, and who is withdrawn.

    `quotas`, `programme_lists`, `resident_lists`, `withdrawn_programmes` and `withdrawn_residents` are in the caller's
    names, which may be any text, in the caller's order; `names` says who is who in the docket. A programme without a list
    ranks nobody. A list is a list, a tuple, an iterator, a Series of pandas or an array of numpy; a dictionary may be a
    Series, too. MarketFault tells everything that is wrong at once: what has no order (a set, a mapping, a text) in a
    list's place, a name that nobody has, a name listed twice, a number of places that is missing or isn't a whole one
    from 0 to 10,000, and more members or pairs than are matched at once. `most` may be the national limits; a market over
    the standard ones `is_national`, and the programs of the national limits answer for it.

    >>> market = Market.from_dictionaries({"Zoë Weiß": ["Köln", "Łódź"], "Ana": ["Köln"]},
    ...                                   {"Köln": ["Ana", "Zoë Weiß"], "Łódź": ["Zoë Weiß"]}, {"Köln": 1, "Łódź": 2})
    >>> print(market.docket().decode(), end="")
    Q,koln,1
    Q,lodz,2
    P,koln,ana,zoe-weiss
    P,lodz,zoe-weiss
    R,zoe-weiss,koln,lodz
    R,ana,koln
    >>> match = market.match(journal=True)
    >>> match.places
    {'Zoë Weiß': 'Łódź', 'Ana': 'Köln'}
    >>> market.audit(match).stable, market.replay(match).good
    (True, True)
    """

    def __init__(self, quotas: Mapping[str, int], programme_lists: Mapping[str, Sequence[str]],
                 resident_lists: Mapping[str, Sequence[str]], withdrawn_programmes: Iterable[str] = (),
                 withdrawn_residents: Iterable[str] = (), names: Optional[Names] = None, most: Most = STANDARD) -> None:
        read = Reader(quotas, programme_lists, resident_lists)
        self.quotas: Dict[str, int] = read.quotas()
        self.programme_lists = read.lists("programme")
        self.resident_lists = read.lists("resident")
        self.withdrawn_programmes = read.withdrawn("programme", withdrawn_programmes)
        self.withdrawn_residents = read.withdrawn("resident", withdrawn_residents)
        if read.told:
            raise MarketFault(read.told)
        found = sizes(self.quotas, self.programme_lists, self.resident_lists, self.withdrawn_programmes, self.withdrawn_residents)
        if limits(found, most):
            raise MarketFault(limits(found, most))
        self.is_national = bool(limits(found, STANDARD))
        self.names: Names = Names.of(self.quotas, self.resident_lists) if names is None else names
        self._docket, self._bytes = self._in_docket_names(), b""

    def _in_docket_names(self) -> Docket:
        programmes = {name: self._made("P", name) for name in self.quotas}
        residents = {name: self._made("R", name) for name in self.resident_lists}
        return Docket({programmes[name]: quota for name, quota in self.quotas.items()},
                      _renamed(self.programme_lists, programmes, residents), _renamed(self.resident_lists, residents, programmes),
                      frozenset(map(programmes.__getitem__, self.withdrawn_programmes)),
                      frozenset(map(residents.__getitem__, self.withdrawn_residents)))

    def _made(self, side: str, name: str) -> str:
        try:
            return self.names.docket_name(side, name)
        except KeyError:
            raise KeyFault(0, f"the key has no {'programme' if side == 'P' else 'resident'} {told_name(name)}") from None

    @classmethod
    def from_dictionaries(cls, resident_prefs: Mapping[str, Sequence[str]], programme_prefs: Mapping[str, Sequence[str]],
                          capacities: Mapping[str, int], withdrawn_programmes: Iterable[str] = (),
                          withdrawn_residents: Iterable[str] = ()) -> Market:
        """From the dictionaries that Python's `matching` takes: residents' lists, programmes' lists, places by programme."""
        return cls(capacities, programme_prefs, resident_prefs, withdrawn_programmes, withdrawn_residents)

    @classmethod
    def from_tables(cls, programmes: Iterable[Sequence[Cell]], residents: Iterable[Sequence[Cell]],
                    programme_ids: bool = False, resident_ids: bool = False) -> Market:
        """From wide rows without headings: programme, places, residents best first; resident, programmes best first.

        Empty cells count for nothing, and a row of such cells is none. With IDs the second cell of each row of that table
        is the member's ID. Then lists may name a member by its name, where one alone has it, by its ID, or by
        `name (ID)`, and two of one name are called `name (ID)`.

        >>> market = Market.from_tables([("North", 1, "7", "Kim (8)")], [("Kim", 7, "North"), ("Kim", 8, "North")],
        ...                             resident_ids=True)
        >>> market.programme_lists
        {'North': ('Kim (7)', 'Kim (8)')}
        """
        return cls._of(read_wide(programmes, residents, programme_ids, resident_ids))

    @classmethod
    def from_ranks(cls, places: Iterable[Sequence[Cell]], programme_ranks: Iterable[Sequence[Cell]],
                   resident_ranks: Iterable[Sequence[Cell]],
                   residents: Iterable[Union[Cell, Sequence[Cell]]] = (), allow_gaps: bool = False) -> Market:
        """From long rows without headings: (programme, places); (programme, rank, resident); (resident, rank, programme).

        The ranks of a list count from 1, each once; `allow_gaps` takes them in their order where one is left out. A row whose rank and last cell are
        empty says that its member is there, and ranks nobody; a row of empty cells is none. `residents` has every
        resident, each a name or a pair of a name and an ID; without it the residents are those who have a row.

        >>> Market.from_ranks([("North", 1)], [("North", 2, "Kim"), ("North", 1, "Lee")], [("Kim", 1, "North")],
        ...                   ["Kim", "Lee"]).programme_lists
        {'North': ('Lee', 'Kim')}
        """
        return cls._of(read_long(places, programme_ranks, resident_ranks, residents, allow_gaps is True))

    @classmethod
    def _of(cls, read: Read) -> Market:
        return cls(read.quotas, read.programme_lists, read.resident_lists, names=read.names)

    @classmethod
    def from_docket(cls, data: bytes, names: Optional[Names] = None, most: Most = STANDARD) -> Market:
        """From a docket's bytes and, where there is one, its key; a sheet or a journal in the docket isn't used.

        DocketFault for the docket's first fault; KeyFault where the key lacks a member. Without a key the docket's names
        are the caller's.
        """
        docket = read_docket(data, most)
        if names is None:
            names = Names([Member("P", name, name) for name in docket.quotas] +
                          [Member("R", name, name) for name in docket.resident_lists])
        for side, members in (("P", docket.quotas), ("R", docket.resident_lists)):
            known = {member.docket_name for member in names.members(side)}
            lacking = next((name for name in members if name not in known), None)
            if lacking is not None:
                raise KeyFault(0, f"the key has no {'programme' if side == 'P' else 'resident'} {lacking} of the docket")
        programme = {name: names.name("P", name) for name in docket.quotas}
        resident = {name: names.name("R", name) for name in docket.resident_lists}
        return cls({programme[name]: quota for name, quota in docket.quotas.items()},
                   _renamed(docket.programme_lists, programme, resident), _renamed(docket.resident_lists, resident, programme),
                   [programme[name] for name in docket.quotas if name in docket.withdrawn_programmes],
                   [resident[name] for name in docket.resident_lists if name in docket.withdrawn_residents], names, most)

    def __repr__(self) -> str:
        gone = len(self.withdrawn_programmes) + len(self.withdrawn_residents)
        return (f"<Market of {len(self.quotas)} programmes and {len(self.resident_lists)} residents"
                + (f", {gone} withdrawn>" if gone else ">"))

    def docket(self) -> bytes:
        """The docket's bytes, in the docket's names: quotas, lists and withdrawals; the same market gives the same bytes."""
        self._bytes = self._bytes or write_docket(self._docket)
        return self._bytes

    def in_docket_names(self) -> Docket:
        """What the docket says, in its names."""
        return self._docket

    def withdraw(self, programmes: Iterable[str] = (), residents: Iterable[str] = ()) -> Market:
        """This market with these members withdrawn besides; MarketFault for a name that no member has, or for no list."""
        gone, left = withdrawals("programme", programmes), withdrawals("resident", residents)
        return Market(self.quotas, self.programme_lists, self.resident_lists, (*self.withdrawn_programmes, *gone),
                      (*self.withdrawn_residents, *left), self.names, NATIONAL if self.is_national else STANDARD)

    def program(self, name: str) -> str:
        """The program that answers for a market of this size: this one, or the one of the national limits."""
        return {"residency": "national", "why": "why-national"}[name] if self.is_national else name

    def solve(self, optimal: str = "programmes", timeout: float = DEFAULT_TIMEOUT) -> Match:
        """The match, as `match` gives it: the programmes' optimum, the one that is answered here.

        OtherOptimum for `"residents"`, and for any other word, with what to do.
        """
        if optimal != "programmes":
            raise OtherOptimum(optimal)
        return self.match(timeout=timeout)

    def check_stability(self, places: Places, timeout: float = DEFAULT_TIMEOUT) -> bool:
        """Whether no pair blocks: `audit` lists those that do. As in the package `matching`; raises as `audit`."""
        return not self.audit(places, timeout).blocking

    # The questions to the built program, each of which is a call with a market, too.
    match, audit, replay, why = calls.match, calls.audit, calls.replay, calls.why
    check_validity, read_match = calls.check_validity, calls.read_match
