"""Which member a name means: one, or else nobody, and then who may be meant."""
from typing import List

from .. import naming
from ..names import Member, Names
from ..near import NearNames, folded
from .cells import name_of
from .faults import OfficeError


def the_one(names: Names, given: str, side: str = "") -> Member:
    """The member whom a text means. OfficeError where that is nobody, with those who are likely to be meant, or several; `side` is
    empty where it may be either."""
    text = name_of(given)
    if not text:
        raise OfficeError("member.empty", 2)
    members = list(names.members(side or None))
    family, comma, first = text.partition(",")
    found = naming.meant(members, text) or (naming.meant(members, f"{first.strip()} {family.strip()}") if comma else [])
    if not found:
        raise nobody(names, text, side)
    if len(found) > 1:
        raise OfficeError("member.several", 3, name=text, members=found)
    return found[0]


def nobody(names: Names, text: str, side: str) -> OfficeError:
    """What is said of a text that means nobody: that one of the other side is meant by it, or who has a name near it."""
    if side and naming.meant(names.members(), text):
        return OfficeError("member.other-side", 3, name=text, side=side)
    everybody = list(names.members(side or None))
    near = NearNames(dict.fromkeys(member.name for member in everybody)).near(text)
    return OfficeError("member.nobody", 3, name=text, side=side, near=[member for member in everybody if member.name == near])


def found(names: Names, part: str, side: str = "") -> List[Member]:
    """The members whose name, ID or docket's name has words that begin with these, whatever the accents and capitals; none for no word."""
    words = folded(part).split()

    def has_all(member: Member) -> bool:
        there = " ".join(["", *map(folded, (member.name, member.id, member.docket_name))])
        return all(f" {word}" in there for word in words)

    return [member for member in names.members(side or None) if words and has_all(member)]
