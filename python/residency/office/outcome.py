"""How a match went, in the office's own names: who is where, at which ranks of the lists as written, and why not."""
from collections import Counter
from dataclasses import dataclass, field
from enum import Enum
from typing import Dict, Iterable, List, Mapping, Optional, Sequence, Tuple, TypeVar, Union

from ..market import Market
from ..names import PROGRAMME, RESIDENT
from .phrases import Phrases


class Word(Enum):
    """A word of an outcome; `key` is the end of the names of its phrases."""

    def __init__(self, word: str) -> None:
        self.key = word.replace(" ", "-")


class Standing(Word):
    """How a resident stands after a match; the value is the word in tables."""

    MATCHED = "matched"
    RANKED_NOBODY = "ranked nobody"
    NOT_RANKED_BACK = "ranked back by nobody"
    LOST_OUT = "lost out"
    WITHDRAWN = "withdrawn"


class Became(Word):
    """What became of one programme on a resident's list: the first of these that holds."""

    YOU_WITHDREW = "you withdrew"
    IT_WITHDREW = "it withdrew"
    MATCHED = "matched"
    NOT_NEEDED = "not needed"
    NOT_RANKED = "not ranked back"
    NO_PLACES = "no places"
    FULL = "full"


UNMATCHED = (Standing.LOST_OUT, Standing.NOT_RANKED_BACK, Standing.RANKED_NOBODY)


@dataclass(frozen=True)
class Resident:
    """A resident's outcome. `choice` is the programme's rank on the resident's list as written, `rank` the resident's on
    the programme's, both from 1; `ranked` is how many the resident's list has. `family` is the family name, where the table
    has it in a column of its own, and `kept` are the cells of the columns that are kept."""

    name: str
    id: str
    docket_name: str
    standing: Standing
    programme: Optional[str]
    choice: Optional[int]
    rank: Optional[int]
    ranked: int
    family: str = ""
    kept: Tuple[str, ...] = ()


@dataclass(frozen=True)
class Details:
    """What the table of residents has besides, by resident: family names, and the cells of the columns that are kept."""

    families: Mapping[str, str] = field(default_factory=dict)
    columns: Tuple[str, ...] = ()
    kept: Mapping[str, Tuple[str, ...]] = field(default_factory=dict)


@dataclass(frozen=True)
class Programme:
    """A programme's outcome: its residents in the order of its list, and the rank of the last on its list as written."""

    name: str
    id: str
    docket_name: str
    places: int
    residents: Tuple[str, ...]
    last_rank: Optional[int]
    ranked: int
    withdrawn: bool

    @property
    def filled(self) -> int:
        return len(self.residents)

    @property
    def unfilled(self) -> int:
        """How many places stay empty; a programme that is withdrawn has none to give."""
        return 0 if self.withdrawn else max(0, self.places - self.filled)


@dataclass(frozen=True)
class Outcome:
    """A whole match's outcome, members in the order of the tables; `columns` are the headings of the columns that are kept."""

    residents: Dict[str, Resident]
    programmes: Dict[str, Programme]
    columns: Tuple[str, ...] = ()

    def standing(self, standing: Standing) -> List[Resident]:
        return [resident for resident in self.residents.values() if resident.standing is standing]

    def choices(self) -> List[int]:
        """How many residents got their first choice, their second, and so on."""
        counts = Counter(resident.choice for resident in self.residents.values() if resident.choice is not None)
        return [counts[choice] for choice in range(1, max(counts, default=0) + 1)]

    def unfilled(self) -> List[Programme]:
        return [programme for programme in self.programmes.values() if programme.unfilled]

    def taking_part(self) -> int:
        """How many residents aren't withdrawn."""
        return sum(resident.standing is not Standing.WITHDRAWN for resident in self.residents.values())

    def places(self) -> int:
        return sum(programme.places for programme in self.programmes.values() if not programme.withdrawn)


def outcome_of(market: Market, places: Mapping[str, Optional[str]], details: Details = Details()) -> Outcome:
    """The outcome of these places, in the market's names."""
    gone = set(market.withdrawn_residents)
    gone_programmes = set(market.withdrawn_programmes)
    ranks = {programme: {resident: rank for rank, resident in enumerate(listed, 1)}
             for programme, listed in market.programme_lists.items()}
    residents = {}
    members: Dict[str, List[Tuple[int, str]]] = {programme: [] for programme in market.quotas}
    for name, listed in market.resident_lists.items():
        programme = places.get(name)
        back = [listed_name for listed_name in listed if listed_name not in gone_programmes and name in ranks.get(listed_name, {})]
        choice = rank = None
        if programme is not None:
            choice, rank = list(listed).index(programme) + 1, ranks[programme][name]
            members[programme].append((rank, name))
        standing = (Standing.WITHDRAWN if name in gone else Standing.MATCHED if programme is not None
                    else Standing.RANKED_NOBODY if not listed else Standing.LOST_OUT if back else Standing.NOT_RANKED_BACK)
        made = market.names.docket_name(RESIDENT, name)
        residents[name] = Resident(name, market.names.id(RESIDENT, made), made, standing, programme, choice, rank, len(listed),
                                   details.families.get(name, ""), details.kept.get(name, ("",) * len(details.columns)))
    programmes = {}
    for name, quota in market.quotas.items():
        taken = sorted(members[name])
        made = market.names.docket_name(PROGRAMME, name)
        last, ranked = taken[-1][0] if taken else None, len(market.programme_lists.get(name, ()))
        programmes[name] = Programme(name, market.names.id(PROGRAMME, made), made, quota, tuple(member for _, member in taken),
                                     last, ranked, name in gone_programmes)
    return Outcome(residents, programmes, details.columns)


def called(member: Union[Resident, Programme]) -> str:
    """A member's name, with its ID where it has one that isn't in the name."""
    return member.name if not member.id or member.name.endswith(f"({member.id})") else f"{member.name} ({member.id})"


def name_key(member: Union[Resident, Programme], phrases: Phrases) -> Tuple[Tuple[str, str], Tuple[str, str]]:
    """What a member is sorted by: the family name first, where there is one."""
    whole = phrases.alphabetical(member.name)
    family = getattr(member, "family", "")
    return phrases.alphabetical(family) if family else whole, whole


Member = TypeVar("Member", Resident, Programme)


def by_name(members: Iterable[Member], phrases: Phrases, order: str = "name") -> Sequence[Member]:
    """Members in the order that is asked for: by name as the language sorts them, or as the table has them."""
    return sorted(members, key=lambda member: name_key(member, phrases)) if order == "name" else list(members)


class Lists:
    """The lists of a market, as they tell what became of each programme on a resident's."""

    def __init__(self, market: Market) -> None:
        self.ranked_by = {programme: frozenset(listed) for programme, listed in market.programme_lists.items()}
        self.quotas, self.lists, self.gone = market.quotas, market.resident_lists, frozenset(market.withdrawn_programmes)

    def became(self, resident: Resident) -> List[Tuple[str, Became]]:
        """Each programme on the list, best first, with what became of it."""
        return [(programme, self.of_choice(resident, choice, programme))
                for choice, programme in enumerate(self.lists[resident.name], 1)]

    def of_choice(self, resident: Resident, choice: int, programme: str) -> Became:
        if resident.standing is Standing.WITHDRAWN:
            return Became.YOU_WITHDREW
        if programme in self.gone:
            return Became.IT_WITHDREW
        if choice == resident.choice:
            return Became.MATCHED
        if resident.choice is not None and choice > resident.choice:
            return Became.NOT_NEEDED
        if resident.name not in self.ranked_by.get(programme, ()):
            return Became.NOT_RANKED
        return Became.FULL if self.quotas[programme] else Became.NO_PLACES
