"""Two tables made one market: each name in a list is found in the other table, and what isn't is told."""
import re
from typing import Callable, Dict, List, Optional, Sequence, Tuple

from ..market import Market
from ..names import PROGRAMME, RESIDENT, Member, Names, docket_names
from ..near import NearNames, edits, folded
from ..passes import NATIONAL
from ..records import is_name
from . import doubts
from .faults import Cell, Fault, Faults, Remedy, Values
from .headings import bare, meanings
from .settings import Settings
from .tables import SCIENTIFIC, Entry, Item, Table

# For how many names that no row has the near ones are looked up.
MOST_SEARCHED = 200
# How many names that no row has may mean that the two tables aren't of one match.
FEW_NAMES = 10
# So many numbers that all are IDs are no other numbers.
FEW_IDS = 3
SEVERAL = re.compile(r"[;,|/\n]|\s-\s")


def bare_id(text: str) -> str:
    """An ID without signs, blanks and capitals."""
    return "".join(c for c in text.casefold() if c.isalnum())


class Directory:
    """Who may be meant by a cell: a member's name where one alone has it, its ID, or `name (ID)`."""

    def __init__(self, table: Table) -> None:
        self.table = table
        self.meant: Dict[str, List[int]] = {}
        self.near: Optional[NearNames] = None
        for index, entry in enumerate(table.entries):
            turned = f"{entry.family}, {entry.given}" if entry.given and entry.family else ""
            for text in {entry.name, entry.id, label_of(entry), turned} - {""}:
                self.meant.setdefault(text, []).append(index)

    def find(self, text: str) -> List[int]:
        return self.meant.get(text, [])

    def hint(self, text: str) -> Tuple[str, Values]:
        """Who or what is likely to be meant by a name that no row has; `name` where that isn't known."""
        try:
            mended = text.encode("cp1252").decode("utf-8")
        except UnicodeError:
            mended = ""
        if mended in self.meant:
            return "set", {"meant": mended}
        parts = [part.strip() for part in SEVERAL.split(text)]
        if len(parts) > 1 and all(part in self.meant for part in parts):
            return "several", {"count": len(parts)}
        if self.near is None:
            self.near = NearNames(entry.name for entry in self.table.entries)
        near = self.near.near(text)
        return ("near", {"meant": near}) if near and is_likely(text, near) else ("name", {})


def is_likely(text: str, near: str) -> bool:
    """Whether a near name is likely to be meant: word by word it differs in few letters. Hanna Abel isn't Ana Abel."""
    words, others = folded(text).split(), folded(near).split()
    if len(words) != len(others):
        return True
    return any(all(edits(word, other, 2) <= (len(word) >= 4) + (len(word) >= 8) for word, other in zip(first, second))
               for first, second in ((words, others), (sorted(words), sorted(others))))


def label_of(entry: Entry) -> str:
    return f"{entry.name} ({entry.id})" if entry.id else entry.name


class Joiner:
    """Finds the names of both tables' lists, and tells what is wrong between them."""

    def __init__(self, programmes: Table, residents: Table, faults: Faults) -> None:
        self.programmes, self.residents, self.faults = programmes, residents, faults
        self.unknown: Dict[Tuple[str, str], List[Item]] = {}

    def lists(self) -> Tuple[List[List[int]], List[List[int]]]:
        """The lists of both sides, as numbers of members of the other."""
        residents, programmes = Directory(self.residents), Directory(self.programmes)
        self.one_side_each(programmes)
        both = (self.side(self.programmes, residents), self.side(self.residents, programmes))
        self.tell_unread(self.programmes, residents)
        self.tell_unread(self.residents, programmes)
        self.tell_unknown({self.programmes.name: residents, self.residents.name: programmes})
        return both

    def one_side_each(self, programmes: Directory) -> None:
        """A row of one table that has a name of the other in its first cells is most likely one that lost a cell or was split."""
        named = {text for entry in self.programmes.entries for text in (entry.name, label_of(entry))}
        for entry in self.residents.entries:
            for what, text, meant in (("name", entry.name, programmes.meant), ("ID", entry.id, named)):
                if text and text in meant and not (what == "name" and entry.id and text not in named and text.isdecimal()):
                    other = self.programmes.entries[programmes.find(text)[0]]
                    values = {"name": text, "what": "name" if text == other.name else "ID", "table": self.programmes.name, "row": other.row}
                    self.faults.tell("name.both-sides", self.residents.name, entry.row, entry.cell, values, ("both sides", what))

    def side(self, table: Table, directory: Directory) -> List[List[int]]:
        return [self.found(table, entry, directory) for entry in table.entries]

    def found(self, table: Table, entry: Entry, directory: Directory) -> List[int]:
        """A list as numbers; names that aren't found, or that several have, or that stand twice, are told."""
        numbers: Dict[int, Item] = {}
        for item in entry.items:
            meant = directory.find(item.text)
            if len(meant) == 1:
                before = numbers.setdefault(meant[0], item)
                if before is not item:
                    what, number = ("cell", before.cell) if before.row == item.row else ("row", before.row)
                    self.faults.tell("twice.listed", table.name, item.row, item.cell,
                                     {"name": item.text, "owner": entry.name, "what": what, "number": number})
            elif meant:
                values = {"count": len(meant), "owners": directory.table.owners, "name": item.text,
                          "ids": tuple(directory.table.entries[row].id for row in meant[:4])}
                self.faults.tell("twice.meant", table.name, item.row, item.cell, values, (table.name, "several", item.text))
            else:
                self.unknown.setdefault((table.name, item.text), []).append(item)
        return list(numbers)

    def tell_unknown(self, directories: Dict[str, Directory]) -> None:
        """Tells the names that no row has: one cause where most have the same, else each, those in most cells first, with
        the likely meant ones."""
        for table, directory in directories.items():
            unknown = {text: items for (name, text), items in self.unknown.items() if name == table}
            for cause in (self.with_point, self.with_zeros, self.scientific, self.written_otherwise, self.sorted_alone, self.another_year):
                told = cause(table, directory, unknown) if unknown else ()
                unknown = {text: items for text, items in unknown.items() if text not in told}
            often = sorted(unknown, key=lambda text: -len(unknown[text]))
            for count, text in enumerate(often):
                hint, values = directory.hint(text) if count < MOST_SEARCHED else ("name", {})
                values = {"owners": directory.table.owners, "name": text, **values}
                for item in unknown[text]:
                    self.faults.tell(f"unknown.{hint}", table, item.row, item.cell, values, (table, text))

    def tell_together(self, table: str, items: Sequence[Item], code: str, values: Values) -> None:
        """Tells one cause of many names that no row has."""
        for item in sorted(items, key=lambda each_item: (each_item.row, each_item.cell)):
            self.faults.tell(code, table, item.row, item.cell, values, (table, code))

    def told_where(self, table: str, directory: Directory, unknown: Dict[str, List[Item]], meant: Callable[[str], str],
                   code: str) -> List[str]:
        """The names that mean a member once they are written otherwise, which are told as one cause."""
        found = [text for text in unknown if meant(text) != text and directory.find(meant(text))]
        if found:
            ids = "IDs" if any(entry.id == meant(found[0]) for entry in directory.table.entries) else "names"
            first = min((unknown[text][0] for text in found), key=lambda item: (item.row, item.cell))
            self.tell_together(table, [item for text in found for item in unknown[text]], code, {
                "things": ids, "text": first.text, "meant": meant(first.text), "owners": directory.table.owners})
        return found

    def with_point(self, table: str, directory: Directory, unknown: Dict[str, List[Item]]) -> List[str]:
        """IDs that were made numbers with a point in one table."""
        found = self.told_where(table, directory, unknown, lambda text: text[:-2] if text.endswith(".0") else text, "file.without-point")
        return found + self.told_where(table, directory, unknown, lambda text: text + ".0" if text.isdecimal() else text, "file.with-point")

    def with_zeros(self, table: str, directory: Directory, unknown: Dict[str, List[Item]]) -> List[str]:
        """IDs that lost the zeros before them in one table."""
        bare: Dict[str, List[str]] = {}
        for entry in directory.table.entries:
            for text in (entry.id, entry.name):
                if text.isdecimal():
                    bare.setdefault(text.lstrip("0"), []).append(text)
        alone = {text: whole[0] for text, whole in bare.items() if len(whole) == 1}

        def meant(text: str) -> str:
            return alone.get(text.lstrip("0"), text) if text.isdecimal() else text

        return self.told_where(table, directory, unknown, meant, "file.zeros")

    def scientific(self, table: str, directory: Directory, unknown: Dict[str, List[Item]]) -> List[str]:
        """IDs of which the spreadsheet kept the first digits alone."""
        found = [text for text in unknown if SCIENTIFIC.fullmatch(text)]
        if found:
            self.tell_together(table, [item for text in found for item in unknown[text]], "file.scientific", {"id": found[0]})
        return found

    def written_otherwise(self, table: str, directory: Directory, unknown: Dict[str, List[Item]]) -> List[str]:
        """IDs that have a sign, a blank or a capital more or less in one table."""
        by_bare: Dict[str, List[str]] = {}
        for entry in directory.table.entries:
            if entry.id:
                by_bare.setdefault(bare_id(entry.id), []).append(entry.id)
        alone = {text: whole[0] for text, whole in by_bare.items() if len(whole) == 1}
        return self.told_where(table, directory, unknown, lambda text: alone.get(bare_id(text), text), "file.written")

    def sorted_alone(self, table: str, directory: Directory, unknown: Dict[str, List[Item]]) -> List[str]:
        """Names of which each part stands in a row of its own: one of the two columns of names was sorted, and the other wasn't."""
        given, family = ({getattr(entry, part) for entry in directory.table.entries} - {""} for part in ("given", "family"))
        found = [text for text in unknown if any(text[:at] in given and text[at + 1:] in family for at, c in enumerate(text) if c == " ")]
        if len(found) < FEW_NAMES or 2 * len(found) < len(unknown):
            return []
        self.tell_together(table, [item for text in found for item in unknown[text]], "file.sorted", {
            "count": len(found), "owners": directory.table.owners, "name": found[0]})
        return found

    def another_year(self, table: str, directory: Directory, unknown: Dict[str, List[Item]]) -> List[str]:
        """Lists of which most names are in no row, and in which most rows have no name: the tables aren't of one match. Not so where they
        are like other names."""
        source = self.programmes if table == self.programmes.name else self.residents
        cells = [item.text for entry in source.entries for item in entry.items]
        named = set(cells)
        listed = {index for text in named for index in directory.find(text)}
        if len(unknown) < FEW_NAMES or 2 * len(unknown) <= len(named) or 2 * sum(map(len, unknown.values())) <= len(cells) \
                or 2 * len(listed) > len(directory.table.entries):
            return []
        tried = sorted(unknown, key=lambda text: -len(unknown[text]))[:MOST_SEARCHED]
        if 5 * sum(directory.hint(text)[0] != "name" for text in tried) > len(tried):
            return []
        are_ids = all(any(c.isdecimal() for c in text) and " " not in text for text in tried)
        self.tell_together(table, [item for items in unknown.values() for item in items], "file.another-year", {
            "unknown": len(unknown), "named": len(named), "things": "IDs" if are_ids else "names", "owners": directory.table.owners})
        return list(unknown)

    def tell_unread(self, table: Table, directory: Directory) -> None:
        """Tells a column that isn't read and yet has names of the other table: it may be a rank under another heading."""
        for cell, (heading, texts) in table.unread.items():
            known = [text for text in sorted(texts) if directory.find(text)]
            # Numbers may be anything; they are IDs where all of them are.
            is_named = known and 2 * len([text for text in known if any(c.isalpha() for c in text)]) >= len(texts)
            if is_named or len(texts) == len(known) >= FEW_IDS:
                values = {"heading": heading, "owners": directory.table.owners, "name": known[0], "word": bare("rank", heading)}
                self.faults.tell("heading.members", table.name, table.heading_row, cell + 1, values, remedies=meanings("rank", heading))


def docket_names_of(table: Table, letter: str) -> List[str]:
    """The docket's names of a table's members: their IDs where all are names of a docket, else made of their own names."""
    if table.entries and all(is_name(entry.id) for entry in table.entries):
        return [entry.id for entry in table.entries]
    labels = [label_of(entry) for entry in table.entries]
    made = docket_names(labels, letter)
    return [made[label] for label in labels]


def market_of(programmes: Table, residents: Table, faults: Faults, options: Settings) -> Optional[Market]:
    """The market of two tables, or None where there is a fault, which is told."""
    for table in (programmes, residents):
        doubts.tell(table, options, faults)
    if not programmes.whole or not residents.whole:
        return None
    programme_lists, resident_lists = Joiner(programmes, residents, faults).lists()
    note_alone(programmes, programme_lists, resident_lists, faults, options)
    note_alone(residents, resident_lists, programme_lists, faults, options)
    doubts.note_empty(programmes, programme_lists, resident_lists)
    doubts.note_empty(residents, resident_lists, programme_lists)
    for table in (programmes, residents):
        note_shared(table)
    wanted = [set(listed) for listed in resident_lists]
    pairs = sum(programme in wanted[resident] for programme, listed in enumerate(programme_lists) for resident in listed)
    if pairs > NATIONAL.pairs:
        faults.tell("limit.pairs", programmes.name, None, None, {"pairs": pairs, "most": NATIONAL.pairs})
    if len(faults):
        return None
    names = Names([Member(PROGRAMME, made, entry.name, entry.id)
                   for made, entry in zip(docket_names_of(programmes, "p"), programmes.entries)]
                  + [Member(RESIDENT, made, entry.name, entry.id)
                     for made, entry in zip(docket_names_of(residents, "r"), residents.entries)])
    of_programmes = [names.name(PROGRAMME, member.docket_name) for member in names.members(PROGRAMME)]
    of_residents = [names.name(RESIDENT, member.docket_name) for member in names.members(RESIDENT)]
    market = Market({name: entry.places or 0 for name, entry in zip(of_programmes, programmes.entries)},
                    {name: [of_residents[number] for number in listed] for name, listed in zip(of_programmes, programme_lists)},
                    {name: [of_programmes[number] for number in listed] for name, listed in zip(of_residents, resident_lists)},
                    names=names, most=NATIONAL)
    gone = [[name for name, entry in zip(called, table.entries) if entry.withdrawn]
            for called, table in ((of_programmes, programmes), (of_residents, residents))]
    return market.withdraw(*gone) if any(gone) else market


def note_alone(table: Table, lists: List[List[int]], others: List[List[int]], faults: Faults, options: Settings) -> None:
    """Notes members who rank nobody and whom nobody ranks; one that looks like a remark that stands in the table is a fault."""
    ranked = {member for listed in others for member in listed}
    alone = [entry for index, (entry, listed) in enumerate(zip(table.entries, lists)) if not listed and index not in ranked]
    for entry in alone if table.owners == "resident" and not options.allow_alone else ():
        if not entry.items and doubts.is_remark(entry, table):
            faults.tell("row.remark", table.name, entry.row, entry.cell, {"name": entry.name}, remedies=(Remedy("allow_alone", True),))
    if alone:
        values = {"owners": table.owners, "names": [(lone_entry.name, lone_entry.row) for lone_entry in alone]}
        table.notes.append(Fault("note.alone", table.name, alone[0].row, alone[0].cell,
                                 [Cell(table.name, lone_entry.row, lone_entry.cell) for lone_entry in alone], values))


def note_shared(table: Table) -> None:
    """Notes the names that several members have, with their IDs."""
    named: Dict[str, List[Entry]] = {}
    for entry in table.entries:
        named.setdefault(entry.name, []).append(entry)
    shared = [those for those in named.values() if len(those) > 1]
    if shared:
        cells = [Cell(table.name, twin.row, twin.cell) for those in shared for twin in those]
        values = {"names": [(those[0].name, [twin.id for twin in those]) for those in shared]}
        table.notes.append(Fault("note.shared", table.name, cells[0].row, cells[0].column, cells, values))
