"""Whom a name means: one member, nobody, or more than one.

A text means a member where it is the docket's name, the ID, the real name, or the real name with the ID in parentheses. Of a
member without an ID the docket's name stands in the ID's place. Nobody may be taken for another, so a text that means more
than one is told with the labels of all, and means nobody. `residency-why --key` goes by the same rule.
"""
from __future__ import annotations

from typing import Iterable, List, Sequence

from .names import Member
from .text import shown

# So many labels are told where more than one is meant.
MOST_LABELS = 10


def label(member: Member) -> str:
    """What tells a member apart from others of its name: `NAME (ID)`.

    >>> label(Member("R", "ana", "Ana", "7")), label(Member("R", "ana-2", "Ana"))
    ('Ana (7)', 'Ana (ana-2)')
    """
    return f"{member.name} ({member.id or member.docket_name})"


def means(member: Member, text: str) -> bool:
    """Whether a text means this member.

    >>> [means(Member("R", "ana", "Ana", "7"), text) for text in ("ana", "7", "Ana", "Ana (7)", "Ana (ana)", "")]
    [True, True, True, True, False, False]
    """
    return text != "" and text in (member.docket_name, member.id, member.name, label(member))


def meant(members: Iterable[Member], text: str) -> List[Member]:
    """The members whom a text means, in their order: where there is one, it alone is meant.

    >>> anas = [Member("R", "ana", "Ana", "7"), Member("R", "ana-2", "Ana", "8"), Member("R", "bo", "ana", "9")]
    >>> [[one.id for one in meant(anas, text)] for text in ("Ana", "Ana (8)", "ana", "9", "Bo")]
    [['7', '8'], ['8'], ['7', '9'], ['9'], []]
    """
    return [member for member in members if means(member, text)]


def labels(members: Sequence[Member]) -> str:
    """The labels of members in one line: ten at most, and how many more there are.

    >>> labels([Member("R", f"ana-{n}", "Ana", str(n)) for n in range(12)])[-27:]
    'Ana (8), Ana (9) and 2 more'
    """
    told = ", ".join(shown(label(member)) for member in members[:MOST_LABELS])
    more = len(members) - MOST_LABELS
    return f"{told} and {more:,} more" if more > 0 else told
