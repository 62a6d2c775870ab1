"""What the command does with sealed folders: it seals before the match, matches what was sealed, and seals anew."""
from dataclasses import replace
from typing import Dict, List, Optional

from ..market import Market
from ..names import SIDES, Member, Names, docket_names
from . import changed, folder, running
from . import seal as seals
from .faults import Fault, OfficeError
from .outcome import Details
from .running import Kept, Wishes
from .tree import Roots


def refuse_readable(is_readable: bool) -> None:
    """OfficeError where others are to read a sealed folder."""
    if is_readable:
        raise OfficeError("out.readable", 2)


def refuse_alike(names: Names) -> None:
    """OfficeError where a docket's name tells a reader not whose it is: another's has the same letters, or the name has none."""
    for side in SIDES:
        first: Dict[str, Member] = {}
        for member in names.members(side):
            (own,) = docket_names([member.name], side.lower()).values()
            other = first.setdefault(own, member)
            if not member.id and (other is not member or own == side.lower()):
                raise OfficeError("seal.alike", 3, table=SIDES[side], name=member.name, made=member.docket_name, other=other.name, others=other.docket_name)


def seal(out: str, market: Market, details: Details, wishes: Wishes, manifest: Dict[str, object]) -> Roots:
    """Seals a market into a new folder."""
    if "from" not in manifest:
        refuse_alike(market.names)
    with folder.new_folder(out, private=True) as draft:
        return running.fill_sealed(draft, market, details, wishes, manifest, seals.new_secret())


class OtherTables(OfficeError):
    """Tables say otherwise than what was sealed: each difference, as a fault. Exit status 3."""

    def __init__(self, at: str, faults: List[Fault]) -> None:
        super().__init__("folder.other-tables", 3, at)
        self.faults = faults


def refuse_others(sealed: Kept, now: Market) -> None:
    """OtherTables where tables say otherwise than what was sealed; who withdrew since may stand in a column."""
    found = [replace(change, code=f"sealed{change.code[7:]}") if change.code == "changed.withdrawn" else change
             for change in changed.since(sealed.market, now, True) if change.code != "changed.back"]
    if found:
        raise OtherTables(sealed.at, found)


def checked_roots(sealed: Kept, roots: Optional[Roots]) -> Roots:
    """The roots of what was matched. OfficeError where that of the lists is another one than was sealed."""
    before = sealed.roots()
    if before is None or roots is None or (before.count, before.lists) != (roots.count, roots.lists):
        raise OfficeError("folder.other-root", 3, sealed.at, folder.ROOTS)
    return roots
