"""What the names of a table leave in doubt, once all of its rows are read: each doubt is one fault, with every cell."""
import re
import unicodedata
from collections import Counter
from typing import Dict, Iterator, List, Sequence, Set

from ..near import folded
from .faults import Cell, Fault, Faults, Remedy
from .headings import plain
from .languages import sections
from .settings import Settings
from .tables import Entry, Item, Table

# A sign that takes the place of a letter that a character set doesn't have, inside a word or at its edge.
LOST = "\ufffd"
ASKED = re.compile(r"[^\W\d_]\?|\?[^\W\d_]")
# So many names are told of those that are in doubt.
MOST_NAMES = 3
# So many addresses that have others' names are no chance.
FEW_MAILS = 10
# Signs that stand in no name, words of remarks, and small words that stand in names.
SIGNS = re.compile(r"[0-9:;!?*=#@%&/\\<>\[\]{}_+|…•§$€£©†‡~^]|--|(?<!\b[JSjs]r)\.\s*$|^[-–—.\"'(]|[)\"]$")
REMARKS, PARTICLES = (frozenset(sections("words.txt")["REMARKS"][kind].split()) for kind in ("words", "particles"))
# With so many other names of its table one is compared.
MOST_COMPARED = 100


def names_of(table: Table) -> Iterator[Item]:
    """Each name of a table, of its members and in their lists."""
    for entry in table.entries:
        yield Item(entry.name, entry.row, entry.cell)
        yield from entry.items


def tell_lost_letters(table: Table, options: Settings, faults: Faults) -> None:
    """Tells names with a sign where a letter was."""
    found: List[Item] = []
    if not options.allow_lost_letters:
        found = [item for item in names_of(table) if LOST in item.text or "?" in item.text and ASKED.search(item.text)]
        found += [Item(text, entry.row, cell + 1) for entry in table.entries for cell, text in zip(table.kept_at, entry.kept) if LOST in text]
    names = list(dict.fromkeys(item.text for item in found))
    values = {"count": len(names), "names": names[:MOST_NAMES]}
    for item in sorted(found, key=lambda item: (item.row, item.cell)):
        faults.tell("row.lost-letters", table.name, item.row, item.cell, values, (table.name, "lost"), (Remedy("allow_lost_letters", True),))


def bare(name: str) -> str:
    """A name without capitals, blanks and accents."""
    small = name.casefold()
    letters = small if small.isascii() else "".join(c for c in unicodedata.normalize("NFKD", small) if not unicodedata.combining(c))
    return letters.replace(" ", "")


def tell_alike(table: Table, options: Settings, faults: Faults) -> None:
    """Tells members whose names differ in capitals, blanks and accents alone: they may be one person. Those with IDs are two."""
    known: Dict[str, Entry] = {}
    for entry in table.entries if not options.allow_alike else ():
        before = known.setdefault(bare(entry.name), entry)
        if before.name != entry.name and not (before.id and entry.id):
            faults.tell("name.alike", table.name, entry.row, entry.cell, {"name": entry.name, "before": before.name, "row": before.row},
                        remedies=(Remedy("allow_alike", True),))


def tell_mails(table: Table, faults: Faults) -> None:
    """Tells names beside which most e-mail addresses have words of other names: a column was sorted alone."""
    names = {entry.row: {*folded(entry.name).split()} for entry in table.entries if entry.mail}
    every = set().union(*names.values())
    wrong = [entry for entry in table.entries if entry.mail and {*folded(entry.mail.partition("@")[0]).split()} & every - names[entry.row]]
    for entry in wrong if len(wrong) >= FEW_MAILS and 2 * len(wrong) > len(names) else ():
        values = {"count": len(wrong), "owners": table.owners, "mail": wrong[0].mail, "name": wrong[0].name}
        faults.tell("row.mail", table.name, entry.row, entry.cell, values, (table.name, "mail"))


def note_empty(table: Table, lists: Sequence[Sequence[int]], others: Sequence[Sequence[int]]) -> None:
    """Notes members with an empty list whom others rank, those whom most rank first."""
    ranked = Counter(member for listed in others for member in listed)
    empty = [(entry, ranked[index]) for index, (entry, listed) in enumerate(zip(table.entries, lists)) if not listed and ranked[index]]
    if empty:
        empty.sort(key=lambda counted: -counted[1])
        cells = [Cell(table.name, entry.row, entry.cell) for entry, _ in empty]
        values = {"owners": table.owners, "names": [(entry.name, count) for entry, count in empty]}
        table.notes.append(Fault("note.empty", table.name, cells[0].row, cells[0].column, cells, values))


def tell(table: Table, options: Settings, faults: Faults) -> None:
    """Tells all doubts."""
    tell_lost_letters(table, options, faults)
    tell_alike(table, options, faults)
    tell_mails(table, faults)


def signs_of(text: str) -> Set[str]:
    """What about a text is unusual in a name."""
    words = text.split()
    found = {"signs" for _ in SIGNS.finditer(text)}
    found |= {"words" for word in plain(text).split() if word in REMARKS}
    found |= {"small" for word in words if word[:1].islower() and word.lower() not in PARTICLES}
    return found | ({"long"} if len(words) > 6 or len(text) > 60 else set()) | ({"one word"} if len(words) == 1 else set())


def is_remark(entry: Entry, table: Table) -> bool:
    """Whether the name of this entry, who has no list and is in none, reads like a remark: as other names of its table don't.

    A remark is a row of its own: below the table, or between its parts. A name is a few words, most of them with a capital; a
    remark mostly has a digit, a sign, a word of remarks, small words, or another number of words than all names of its table.
    """
    if entry.after_blank:
        return True
    unusual = signs_of(entry.name)
    others = [signs_of(other.name) for other in table.entries[:MOST_COMPARED] if other is not entry]
    few = 4 if "one word" in unusual else 1
    return len(others) >= few and any(10 * sum(sign in other for other in others) < len(others) for sign in unusual)
