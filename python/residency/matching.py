"""The game of hospitals and residents as the package `matching` has it, solved and checked by the built program.

`from matching.games import HospitalResident` becomes `from residency.matching import HospitalResident`. The page
docs/from-matching.md says which calls are the same, and which aren't.
"""
from __future__ import annotations

from typing import Any, Dict, Iterable, List, Mapping, Optional, Sequence, Tuple

from .dictionaries import told_name
from .errors import MarketFault, NotValid, OtherOptimum
from .market import Market
from .ordered import as_name

__all__ = ["Hospital", "HospitalResident", "MatchingError", "Player"]

# What an invalid matching raises.
MatchingError = NotValid


class Player:
    """A resident: its `name`, whom it ranks (`prefs`, best first) and its `matching`, a hospital or None."""

    def __init__(self, name: str) -> None:
        self.name = name
        self.prefs: List[Any] = []
        self.matching: Any = None

    def __repr__(self) -> str:
        return str(self.name)

    @property
    def pref_names(self) -> List[str]:
        """The names of those whom it ranks, best first."""
        return [each.name for each in self.prefs]

    def set_prefs(self, players: Sequence[Any]) -> None:
        """Sets whom it ranks, best first."""
        self.prefs = list(players)

    def prefers(self, player: Any, other: Any) -> bool:
        """Whether it ranks one player before another; ValueError for one that it doesn't rank."""
        return self.prefs.index(player) < self.prefs.index(other)


class Hospital(Player):
    """A hospital: a player with a `capacity`, whose `matching` is a list of residents, best first."""

    def __init__(self, name: str, capacity: int) -> None:
        super().__init__(name)
        self.capacity = capacity
        self.matching = []


def _lists(players: Sequence[Player]) -> Dict[str, List[str]]:
    """Whom each of these players ranks, by name; MarketFault for two of one name."""
    lists = {as_name(each.name): each.pref_names for each in players}
    if len(lists) < len(players):
        names = [as_name(each.name) for each in players]
        raise MarketFault([f"two players are called {told_name(name)}" for name in lists if names.count(name) > 1])
    return lists


class HospitalResident:
    """A game between residents and hospitals.

    >>> game = HospitalResident.create_from_dictionaries({"x": ["b", "a"], "y": ["a", "b"]}, {"a": ["x", "y"], "b": ["y", "x"]},
    ...                                                  {"a": 1, "b": 1})
    >>> game.solve(optimal="hospital")
    {a: [x], b: [y]}
    >>> game.check_validity(), game.check_stability()
    (True, True)
    """

    def __init__(self, residents: Iterable[Player], hospitals: Iterable[Hospital], clean: bool = False) -> None:
        """The game of these players. `clean` changes nothing: a pair that isn't mutual is never matched. MarketFault for
        two players of one name, or for whatever else is wrong with them."""
        self.residents: List[Player] = list(residents)
        self.hospitals: List[Hospital] = list(hospitals)
        self.clean = clean
        self.matching: Optional[Dict[Hospital, List[Player]]] = None
        self.blocking_pairs: Optional[List[Tuple[Player, Hospital]]] = None
        self._market()

    @classmethod
    def create_from_dictionaries(cls, resident_prefs: Mapping[str, Sequence[str]], hospital_prefs: Mapping[str, Sequence[str]],
                                 capacities: Mapping[str, int], clean: bool = False) -> HospitalResident:
        """The game that dictionaries tell; MarketFault for all that is wrong with them."""
        market = Market.from_dictionaries(resident_prefs, hospital_prefs, capacities)
        residents = {name: Player(name) for name in market.resident_lists}
        hospitals = {name: Hospital(name, quota) for name, quota in market.quotas.items()}
        for name, listed in market.resident_lists.items():
            residents[name].set_prefs([hospitals[each] for each in listed])
        for name, listed in market.programme_lists.items():
            hospitals[name].set_prefs([residents[each] for each in listed])
        return cls(residents.values(), hospitals.values(), clean)

    def _market(self) -> Market:
        """The market of the players as they are now."""
        residents, hospitals = _lists(self.residents), _lists(self.hospitals)
        return Market.from_dictionaries(residents, hospitals, {as_name(each.name): each.capacity for each in self.hospitals})

    def solve(self, optimal: str = "resident") -> Dict[Hospital, List[Player]]:
        """The hospitals' optimum, each hospital with its residents, best first, which becomes each player's `matching`.

        OtherOptimum, which explains why, for `"resident"`, the default of the package `matching`.
        """
        if optimal != "hospital":
            raise OtherOptimum(optimal, "hospital")
        places = self._market().match().places
        by_name = {as_name(each.name): each for each in self.hospitals}
        for hospital in self.hospitals:
            hospital.matching = []
        for resident in self.residents:
            name = places[as_name(resident.name)]
            resident.matching = None if name is None else by_name[name]
            if resident.matching is not None:
                resident.matching.matching.append(resident)
        for hospital in self.hospitals:
            hospital.matching.sort(key=hospital.prefs.index)
        self.matching = {hospital: list(hospital.matching) for hospital in self.hospitals}
        return self.matching

    def _places(self) -> Dict[str, Optional[str]]:
        """Each resident's hospital as the players have it now."""
        return {as_name(each.name): None if each.matching is None else each.matching.name for each in self.residents}

    def check_validity(self) -> bool:
        """True where the residents' matchings are acceptable and no hospital is over its capacity; else MatchingError."""
        return self._market().check_validity(self._places())

    def check_stability(self) -> bool:
        """Whether no pair blocks the residents' matchings; `blocking_pairs` has those that do."""
        residents = {as_name(each.name): each for each in self.residents}
        hospitals = {as_name(each.name): each for each in self.hospitals}
        pairs = self._market().audit(self._places()).blocking
        self.blocking_pairs = [(residents[resident], hospitals[hospital]) for resident, hospital in pairs]
        return not pairs

