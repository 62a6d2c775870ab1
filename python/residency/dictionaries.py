"""Reads a market's dictionaries, and tells all that is wrong with them at once, in the caller's names."""
from __future__ import annotations

from typing import Any, Dict, List, Mapping, Sequence, Tuple

from .errors import MarketFault
from .near import MOST_NEAR, NearNames
from .ordered import NotRead, as_dictionary, as_list, as_name, as_names, is_nothing, whole
from .passes import MOST_PLACES, Most
from .text import shown

__all__ = ["Reader", "dictionary", "limits", "sizes", "told_name", "withdrawals"]


def told_name(name: object) -> str:
    """A name, or what stands in a name's place, as a person may be told of it."""
    return shown(name) if isinstance(name, str) and name else shown(repr(name))


def dictionary(what: str, value: Any) -> Dict[Any, Any]:
    """A mapping or a Series as a dictionary by names; MarketFault says what it was to be, or which name comes twice."""
    try:
        given = as_dictionary(value)
    except NotRead as why:
        raise MarketFault([f"{what}: {why}"]) from None
    read = {as_name(name): item for name, item in given.items()}
    if len(read) < len(given):
        names = [as_name(name) for name in given]
        raise MarketFault([f"{what}: {told_name(name)} comes twice" for name in read if names.count(name) > 1])
    return read


def withdrawals(who: str, names: Any) -> List[Any]:
    """Who of a side is said to be withdrawn; MarketFault for what is neither a list nor a set."""
    try:
        return list(map(as_name, as_names(names)))
    except NotRead as why:
        raise MarketFault([f"the withdrawn {who}s: {why}"]) from None


def _is_name(name: object) -> bool:
    """Whether a member may be called that: a text that isn't empty and that UTF-8 can write."""
    if not isinstance(name, str) or not name:
        return False
    try:
        name.encode("utf-8")
    except UnicodeEncodeError:
        return False
    return True


def _number(quota: Any) -> int:
    """A whole number; -1 for anything else."""
    found = whole(quota)
    return -1 if found is None else found


def _places_fault(name: object, quota: object) -> str:
    if is_nothing(quota):
        return f"programme {told_name(name)} has no places"
    return f"programme {told_name(name)}: {told_name(quota)} is no number of places from 0 to {MOST_PLACES}"


class Reader:
    """Reads the dictionaries of a market; `told` has a line for each thing that is wrong."""

    def __init__(self, quotas: Any, programme_lists: Any, resident_lists: Any) -> None:
        self.told: List[str] = []
        self._quotas = dictionary("the places of programmes", quotas)
        self._given = {"programme": dictionary("the lists of programmes", programme_lists),
                       "resident": dictionary("the lists of residents", resident_lists)}
        self._members: Dict[str, Dict[Any, Any]] = {"programme": self._quotas, "resident": self._given["resident"]}
        self._near: Dict[str, NearNames] = {}

    def quotas(self) -> Dict[str, int]:
        """How many places each programme has."""
        for who in ("programme", "resident"):
            self.told += [f"a {who} is called {told_name(name)}, which is no name" for name in self._members[who]
                          if not _is_name(name)]
        read = {name: -1 if is_nothing(quota) else _number(quota) for name, quota in self._quotas.items()}
        self.told += [_places_fault(name, self._quotas[name]) for name, quota in read.items() if not 0 <= quota <= MOST_PLACES]
        return read

    def lists(self, who: str) -> Dict[str, Tuple[str, ...]]:
        """The lists of a side's members, as they were given."""
        read = {}
        for owner, listed in self._given[who].items():
            if owner not in self._members[who]:
                self.told.append(f"programme {told_name(owner)} has no places{self._is_it('programme', owner)}")
            try:
                members = list(map(as_name, as_list(listed)))
            except NotRead as why:
                self.told.append(f"{who} {told_name(owner)}: {why}")
                continue
            self._choices(who, owner, members)
            read[owner] = tuple(members)
        return read

    def _is_it(self, who: str, name: object) -> str:
        """The end of a line on a name that no member of a side has: the name that is likely to be meant."""
        if who not in self._near:
            self._near[who] = NearNames((name for name in self._members[who] if isinstance(name, str)), MOST_NEAR)
        near = self._near[who].near(name) if isinstance(name, str) else None
        return f"; is it {shown(near)}?" if near else ""

    def _unknown(self, who: str, name: object) -> str:
        """What is wrong with a name that no member of a side has."""
        return f"no {who} is named {told_name(name)}{self._is_it(who, name)}"

    def _choices(self, who: str, owner: object, listed: Sequence[object]) -> None:
        other = "resident" if who == "programme" else "programme"
        seen = set()
        if {*map(type, listed)} <= {str} and len({*listed}) == len(listed) and {*listed} <= self._members[other].keys():
            return
        for place, name in enumerate(listed, 1):
            if not isinstance(name, str) or name not in self._members[other]:
                # A programme that has a list and no places is told once, at its list.
                if other == "resident" or not isinstance(name, str) or name not in self._given[other]:
                    self.told.append(f"{who} {told_name(owner)}, choice {place}: {self._unknown(other, name)}")
            elif name in seen:
                self.told.append(f"{who} {told_name(owner)}, choice {place}: {told_name(name)} is listed twice")
            else:
                seen.add(name)

    def withdrawn(self, who: str, names: Any) -> Tuple[str, ...]:
        """Who of a side is withdrawn, each once."""
        try:
            given = withdrawals(who, names)
        except MarketFault as fault:
            self.told += fault.faults
            return ()
        self.told += [f"withdrawn: {self._unknown(who, name)}" for name in given
                      if not isinstance(name, str) or name not in self._members[who]]
        return tuple(dict.fromkeys(str(name) for name in given))


def limits(found: Most, most: Most) -> List[str]:
    """What is more of a market than is matched at once."""
    named = zip(found[:3], most, ("programmes", "residents", "acceptable pairs"))
    return [f"{count} {what}, of at most {limit}" for count, limit, what in named if count > limit]


def sizes(quotas: Mapping[str, int], programme_lists: Mapping[str, Sequence[str]], resident_lists: Mapping[str, Sequence[str]],
          withdrawn_programmes: Sequence[str], withdrawn_residents: Sequence[str]) -> Most:
    """How many members and acceptable pairs a market has."""
    gone, left = set(withdrawn_residents), set(withdrawn_programmes)
    ranked = {name: set(listed) for name, listed in resident_lists.items() if name not in gone}
    pairs = sum(programme in ranked.get(name, ()) for programme, listed in programme_lists.items() if programme not in left
                for name in listed)
    return Most(len(quotas), len(resident_lists), pairs, 0)
