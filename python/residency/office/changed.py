"""What two tables say otherwise than a folder: whose list, by name and rank, and who came, went or withdrew."""
from difflib import SequenceMatcher
from typing import Dict, List, Mapping, Sequence, Tuple

from ..market import Market
from ..names import PROGRAMME, RESIDENT, SIDES, Member
from .compare import is_one
from .faults import Fault


def members_of(market: Market, side: str) -> Dict[str, Member]:
    """The members of a side by what the market calls them."""
    there = list(market.quotas) if side == PROGRAMME else list(market.resident_lists)
    named = {market.names.name(side, member.docket_name): member for member in market.names.members(side)}
    return {name: named[name] for name in there}


def same(before: Mapping[str, Member], now: Mapping[str, Member], exactly: bool) -> Dict[str, str]:
    """By the name of each member that was there before too its name then: by IDs where all have one and the names agree, else by names."""
    if exactly or not all(member.id for member in (*before.values(), *now.values())):
        return {name: name for name in now if name in before}
    ids = {member.id: name for name, member in before.items()}
    return {name: ids[member.id] for name, member in now.items() if member.id in ids and is_one(before[ids[member.id]].name, member.name)}


def moves(before: Sequence[str], now: Sequence[str]) -> List[Tuple[str, int, int]]:
    """Who stands elsewhere on a list, with the rank before and now, 0 where there is none. Who only makes room for others stays."""
    blocks = SequenceMatcher(None, list(before), list(now), False).get_matching_blocks()
    stay = {name for block in blocks for name in before[block.a:block.a + block.size]}
    ranks = [{name: rank for rank, name in enumerate(listed, 1)} for listed in (before, now)]
    return [(name, ranks[0].get(name, 0), ranks[1].get(name, 0)) for name in dict.fromkeys((*now, *before)) if name not in stay]


def since(before: Market, now: Market, exactly: bool = False) -> List[Fault]:
    """Each difference as a value; `exactly` where a name that is written otherwise is another member's."""
    found: List[Tuple[str, str, str, Dict[str, object]]] = []
    there = {side: (members_of(before, side), members_of(now, side)) for side in SIDES}
    known = {side: same(*those, exactly) for side, those in there.items()}
    lists = {PROGRAMME: (before.programme_lists, now.programme_lists), RESIDENT: (before.resident_lists, now.resident_lists)}
    gone = {PROGRAMME: (before.withdrawn_programmes, now.withdrawn_programmes), RESIDENT: (before.withdrawn_residents, now.withdrawn_residents)}
    for side, what in SIDES.items():
        other, still = known[RESIDENT if side == PROGRAMME else PROGRAMME], {*known[side].values()}
        out, out_now = ({*those} for those in gone[side])
        found += [("gone", what, name, {}) for name in there[side][0] if name not in still]
        for name in there[side][1]:
            first = known[side].get(name)
            if first is None:
                found.append(("new", what, name, {}))
                continue
            moved = moves(lists[side][0].get(first, ()), [other.get(listed_name, listed_name) for listed_name in lists[side][1].get(name, ())])
            if moved:
                found.append(("list", what, name, {"moves": moved}))
            if (name in out_now) != (first in out):
                found.append(("withdrawn" if name in out_now else "back", what, name, {}))
            if side == PROGRAMME and before.quotas[first] != now.quotas[name]:
                found.append(("places", what, name, {"was": before.quotas[first], "now": now.quotas[name]}))
    return [Fault(f"changed.{code}", f"{what}s", values={"what": what, "name": name, **values}) for code, what, name, values in found]
