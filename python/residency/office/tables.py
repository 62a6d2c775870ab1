"""One table of the two: its members, their places and IDs, and their lists as written, each name with its cell."""
import hashlib
import re
from dataclasses import dataclass, field
from itertools import chain, islice
from typing import Dict, List, NamedTuple, Optional, Sequence, Set, Tuple

from ..passes import MOST_PLACES, NATIONAL
from . import sheets
from .cells import Cells, Rows, other_mark, rows_of, tidied
from .faults import Cell, Fault, Faults, Remedy, Values
from .headings import Columns, Words, columns_of, plain
from .languages import NO, YES, sections
from .settings import Settings
from .text import Text, table_text

NUMBER = re.compile(r"0*([0-9]{1,9})(?:\.0+)?")
RANK = re.compile(r"0*([0-9]{1,7})(?:\.0+|\.|st|nd|rd|th)?", re.IGNORECASE)
# A number that has a point or a comma where thousands have it.
THOUSANDS = re.compile(r"[1-9][0-9]{0,2}(?:[.,][0-9]{3})+")
# A long number as a spreadsheet writes it where its column is too narrow for it.
SCIENTIFIC = re.compile(r"[0-9](?:[.,][0-9]+)?E\+[0-9]+", re.IGNORECASE)
TOTALS = frozenset(sections("words.txt")["TOTALS"]["words"].split(", "))
# What may stand behind such a word in its cell: a number, and what was counted.
COUNTED = re.compile("(?: (?:of|von|de|di|du|der|des))? (?:places|platze|stellen|plazas|posti|miejsc|miejsca|yer|postes)$|[ 0-9=]+$")
# Of a column that isn't read, so many different cells are compared with the other table's names.
MOST_COMPARED = 100
# So many gaps of blank rows part a table from remarks below it; more are its form.
MOST_GAPS = 2
# So many rows below one that is no heading are looked at for it, and so many of one cell each are titles above it.
MOST_ABOVE, MOST_TITLES = 20, 5
NOTHING: Tuple[int, List[str]] = (0, [])
# So many rows with too few cells are told by their places.
MOST_SHORT = 1000


class Item(NamedTuple):
    """A name in a list, with the row and the cell where it stands."""

    text: str
    row: int
    cell: int


@dataclass
class Entry:
    """A member of a table: its name and ID, its places where it is a programme, and its list as written. `family` is the
    family name where a column has it, `kept` are the cells of the columns that are kept, `mail` is an e-mail address in any other."""

    name: str
    id: str
    row: int
    cell: int
    places: Optional[int] = None
    items: List[Item] = field(default_factory=list)
    family: str = ""
    given: str = ""
    kept: List[str] = field(default_factory=list)
    after_blank: bool = False
    withdrawn: bool = False
    mail: str = ""


@dataclass(frozen=True)
class Given:
    """A table as it is given: its file's name, or its path, and its bytes."""

    name: str
    data: bytes


@dataclass
class Table:
    """A table that was read: whose it is, how, its members in their order, and what is worth a note."""

    name: str
    owners: str
    path: str
    sha256: str
    text: Text
    rows: Rows
    is_long: bool = False
    entries: List[Entry] = field(default_factory=list)
    notes: List[Fault] = field(default_factory=list)
    whole: bool = False
    # The headings of the columns that are kept, and where these are; and by its cell each column that isn't read, with some of what stands there.
    kept: List[str] = field(default_factory=list)
    kept_at: List[int] = field(default_factory=list)
    unread: Dict[int, Tuple[str, Set[str]]] = field(default_factory=dict)
    heading_row: int = 1
    # The language of the headings.
    language: str = "English"


def number_of(text: str) -> Optional[int]:
    """A whole number of plain digits, or None; leading zeros are none, and a number too long to count is the largest."""
    if not text.isascii():
        return None
    found = NUMBER.fullmatch(text)
    if found is None:
        return 10 ** 9 if text.isdigit() else None
    return int(found.group(1))


class Members:
    """Takes in the rows of one table."""

    def __init__(self, table: Table, heading: List[str], columns: Columns, options: Settings, faults: Faults) -> None:
        self.table, self.columns, self.options, self.faults = table, columns, options, faults
        self.head, self.most = heading, getattr(NATIONAL, f"{table.owners}s")
        self.by_name: Dict[str, Entry] = {}
        self.by_id: Dict[str, Entry] = {}
        self.ranks: Dict[int, Dict[int, Item]] = {}
        self.gaps: List[Item] = []
        # Those of whom a rank is at fault already, so that a gap is only its consequence.
        self.broken: Set[int] = set()
        self.has_other_cells = len(columns.known) < columns.width or bool(columns.unread)
        # Rows with fewer cells than the heading: the first ones, how many, and how many rows there are, ended by empty cells
        # or not.
        self.short: List[Tuple[int, int]] = []
        self.short_count, self.count, self.padded = 0, 0, False
        self.last = table.heading_row
        # The rows that have no ID where a column is headed so.
        self.without_id: List[Item] = []
        # The columns without a heading in which nothing stands.
        self.blank = set(range(columns.width)) - columns.known
        # How many gaps of blank rows stand before a row.
        self.gaps_before = 0
        table.kept_at, table.kept = [cell for cell, _ in columns.kept], [heading for _, heading in columns.kept]
        table.unread = {cell: (heading, set()) for cell, heading in columns.unread}
        self.mails = [*table.unread, *table.kept_at]

    def tell(self, code: str, row: int, cell: int, values: Optional[Values] = None, key: Tuple[str, ...] = (),
             remedies: Sequence[Remedy] = ()) -> None:
        self.faults.tell(code, self.table.name, row, cell + 1, values, (self.table.name,) + key if key else (), remedies)

    def take(self, number: int, row: List[str]) -> None:
        """One row below the heading."""
        columns, cells = self.columns, len(row)
        if number > self.last + 1:
            self.gaps_before += 1
        self.last = number
        if columns.width > 1:
            other = other_mark(row, self.table.rows.delimiter)
            if other is not None:
                rows = self.table.rows
                values = {"other": other, "delimiter": rows.delimiter, "declared": rows.declared, "sheet": rows.sheet}
                return self.tell("row.other-mark", number, 0, values, (other,))
        self.count += 1
        if cells < columns.width:
            self.short_count += 1
            self.short += [(number, cells)] * (len(self.short) < MOST_SHORT)
        elif not row[-1]:
            self.padded = True
        if self.has_other_cells or cells > columns.width:
            self.other_cells(number, row)
        name = self.name_in(row, columns.owner, columns.owner_family)
        if not name:
            return self.tell("row.no-name", number, self.columns.owner, {"owners": self.table.owners}, ("no name",))
        if name not in self.by_name and not self.is_member(number, row, name):
            return
        entry = self.entry(number, row, name)
        if entry is None:
            return
        entry.mail = entry.mail or next((row[cell] for cell in self.mails if "@" in cell_of(row, cell)), "")
        if self.columns.kept:
            self.keep(number, entry, row)
        if self.columns.places is not None:
            self.places(number, entry, cell_of(row, self.columns.places))
        if self.columns.withdrawn is not None:
            self.withdraws(number, entry, cell_of(row, self.columns.withdrawn))
        if self.columns.is_long:
            self.ranked(number, entry, row)
        else:
            self.listed(number, entry, row)

    @staticmethod
    def name_in(row: List[str], cell: int, family: Optional[int]) -> str:
        """A name that stands in one cell, or the first name and the last in two."""
        name = row[cell] if cell < len(row) else ""
        return name if family is None else f"{name} {cell_of(row, family)}".strip()

    def is_member(self, number: int, row: List[str], name: str) -> bool:
        """Whether a new name can be a member's; a total, a formula's error or a second heading can't, and is told."""
        cell = self.columns.owner
        if len(name) < 30 and COUNTED.sub("", plain(name)) in TOTALS:
            self.tell("row.total", number, cell, {"name": name, "owners": self.table.owners})
        elif sheets.IS_ERROR.fullmatch(name):
            self.tell("row.formula", number, cell, {"name": name})
        elif row[:self.columns.width] == self.head[:self.columns.width]:
            self.tell("row.heading", number, cell, key=("heading again",))
        else:
            return True
        return False

    def other_cells(self, number: int, row: List[str]) -> None:
        """Tells cells in columns without a heading, and notes what stands in columns that aren't read."""
        for cell, text in enumerate(row):
            if text and cell not in self.columns.known:
                self.blank.discard(cell)
                self.tell("heading.nothing", number, cell, {"text": text}, (f"no heading {min(cell, self.columns.width)}",))
            elif text and cell in self.table.unread and len(self.table.unread[cell][1]) < MOST_COMPARED:
                self.table.unread[cell][1].add(text)

    def entry(self, number: int, row: List[str], name: str) -> Optional[Entry]:
        """The member whose row this is; in a wide table a second row is a fault, and two of one name need IDs."""
        ident = ""
        if self.columns.ident is not None:
            ident = cell_of(row, self.columns.ident)
            if sheets.IS_ERROR.fullmatch(ident):
                self.tell("name.no-id", number, self.columns.ident, {"name": name}, ("no id",))
                return None
            if not ident:
                self.without_id.append(Item(name, number, self.columns.ident + 1))
        known = self.by_id.get(ident) if ident else self.by_name.get(name)
        if known is None:
            return self.added(number, row, name, ident)
        if self.columns.is_long and known.name == name:
            return known
        if self.faults.is_full("name"):
            self.faults.counts["name"] += 1
            return None
        if known.name != name:
            self.tell("name.same-id", number, self.columns.ident or 0, {"id": ident, "name": known.name, "row": known.row})
        elif ident:
            self.tell("name.id-again", number, self.columns.ident or 0, {"id": ident, "row": known.row})
        else:
            self.tell("name.again", number, self.columns.owner, {"name": name, "row": known.row})
        return None

    def added(self, number: int, row: List[str], name: str, ident: str) -> Entry:
        if SCIENTIFIC.fullmatch(ident):
            self.tell("name.scientific", number, self.columns.ident or 0, {"id": ident}, ("scientific",))
        entry = Entry(name, ident, number, self.columns.owner + 1, after_blank=self.gaps_before > 0)
        if self.columns.family is not None and self.table.owners == "resident":
            entry.family = cell_of(row, self.columns.family)
            entry.given = cell_of(row, self.columns.owner) if self.columns.owner_family is not None else ""
        self.by_name.setdefault(name, entry)
        if ident:
            self.by_id[ident] = entry
        self.table.entries.append(entry)
        if len(self.table.entries) == self.most + 1:
            self.tell("limit.members", number, self.columns.owner, {"most": self.most, "things": f"{self.table.owners}s"})
        return entry

    def keep(self, number: int, entry: Entry, row: List[str]) -> None:
        """Notes what stands in the columns that are kept; in the rows of a long table it is the same, or nothing."""
        entry.kept = entry.kept or [""] * len(self.columns.kept)
        for index, (cell, heading) in enumerate(self.columns.kept):
            text, before = cell_of(row, cell), entry.kept[index]
            if text and before and text != before:
                self.tell("row.kept", number, cell, {"name": entry.name, "text": text, "before": before})
            entry.kept[index] = before or text

    def withdraws(self, number: int, entry: Entry, text: str) -> None:
        """Notes who takes no part, as a column says; what is neither yes nor no is told."""
        cell = self.columns.withdrawn or 0
        if plain(text) in YES:
            entry.withdrawn = True
        elif plain(text) and plain(text) not in NO:
            self.tell("row.withdrawn", number, cell, {"name": entry.name, "text": text, "heading": self.head[cell]}, ("withdrawn", text),
                      (Remedy("ignore", self.head[cell]),))

    def places(self, number: int, entry: Entry, text: str) -> None:
        cell = self.columns.places or 0
        if not text:
            if not self.columns.is_long:
                self.tell("places.none", number, cell, {"name": entry.name})
            return
        places = number_of(text)
        if THOUSANDS.fullmatch(text):
            self.tell("places.point", number, cell, {"text": text, "few": int(re.split("[.,]", text)[0]), "many": int(re.sub("[.,]", "", text))})
        elif places is None:
            self.tell("places.no-number", number, cell, {"text": text})
        elif places > MOST_PLACES:
            self.tell("places.many", number, cell, {"text": text, "most": MOST_PLACES})
        elif entry.places is not None and entry.places != places:
            self.tell("places.differ", number, cell, {"name": entry.name, "places": places, "before": entry.places})
        # A number at fault counts as one, so that it is told once.
        entry.places = places if entry.places is None and places is not None else entry.places or 0

    def listed(self, number: int, entry: Entry, row: List[str]) -> None:
        """The list of a wide row; an empty cell between names is noted."""
        last = 0
        for place, (rank, cell) in enumerate(self.columns.ranks):
            text = row[cell] if cell < len(row) else ""
            if text:
                if place > last:
                    self.gaps.append(Item(entry.name, number, cell + 1))
                last = place + 1
                entry.items.append(Item(text, number, cell + 1))

    def ranked(self, number: int, entry: Entry, row: List[str]) -> None:
        """The rank of a long row; a member who ranks nobody has one row with both cells empty."""
        rank_cell, item_cell = self.columns.rank or 0, self.columns.item or 0
        rank, item = cell_of(row, rank_cell), self.name_in(row, item_cell, self.columns.item_family)
        if not rank and not item:
            return
        found = RANK.fullmatch(rank) if rank.isascii() else None
        place = int(found.group(1)) if found else 0
        ranks = self.ranks.setdefault(id(entry), {})
        if item and place and place not in ranks:
            ranks[place] = Item(item, number, item_cell + 1)
            return
        self.broken.add(id(entry))
        if not item:
            self.tell("rank.nobody", number, item_cell, {"rank": rank, "name": entry.name})
        elif place:
            before = ranks[place]
            self.tell("rank.two", number, rank_cell, {
                "name": entry.name, "rank": place, "before": before.text, "row": before.row, "item": item})
        elif rank:
            self.tell("rank.no-number", number, rank_cell, {"rank": rank}, ("rank", rank))
        else:
            self.tell("rank.none", number, rank_cell, {"item": item})

    def finish(self) -> None:
        """What is known once all rows are read."""
        self.tell_short()
        self.tell_some_ids()
        labels = {f"{entry.name} ({entry.id})": entry for entry in self.table.entries if entry.id}
        for entry, other in ((entry, labels[entry.name]) for entry in self.table.entries if entry.name in labels):
            self.tell("name.label", entry.row, entry.cell - 1, {"name": entry.name, "other": other.name, "row": other.row})
        for entry in self.table.entries:
            # Where there are many gaps, they say nothing of what stands below.
            entry.after_blank = entry.after_blank and self.gaps_before <= MOST_GAPS
            ranks = self.ranks.get(id(entry), {})
            entry.items += [ranks[rank] for rank in sorted(ranks)]
            if len(ranks) != max(ranks, default=0) and id(entry) not in self.broken:
                self.gap(entry, ranks)
            if self.columns.places is not None and entry.places is None:
                if self.columns.is_long:
                    self.tell("places.in-no-row", entry.row, self.columns.places, {"name": entry.name})
                entry.places = 0
        if self.gaps:
            values = {"count": len(self.gaps), "name": self.gaps[0].text, "row": self.gaps[0].row}
            self.note("note.gaps", [Cell(self.table.name, gap.row, gap.cell) for gap in self.gaps], values)
        if not self.table.entries and not len(self.faults):
            self.tell("file.no-rows", self.table.heading_row + 1, self.columns.owner, {"owners": self.table.owners})
        self.note_hidden()
        if self.columns.withdrawn is not None:
            gone = [entry for entry in self.table.entries if entry.withdrawn]
            cells = [Cell(self.table.name, gone_entry.row, gone_entry.cell) for gone_entry in gone] or [Cell(self.table.name, self.table.heading_row, self.columns.withdrawn + 1)]
            self.note("note.withdrawn", cells, {"heading": self.head[self.columns.withdrawn], "names": [gone_entry.name for gone_entry in gone]})
        if self.blank:
            columns = sorted(cell + 1 for cell in self.blank)
            self.note("note.blank-columns", [Cell(self.table.name, self.table.heading_row, column) for column in columns], {"columns": columns})
        if self.table.unread:
            unread = [(heading, cell + 1) for cell, (heading, _) in self.table.unread.items()]
            self.note("note.unread", [Cell(self.table.name, self.table.heading_row, column) for _, column in unread],
                      {"columns": unread, "keeps": self.table.owners == "resident"})

    def note_hidden(self) -> None:
        """Notes hidden rows, each with its member, and hidden columns with something in them, each with its heading."""
        rows, columns = self.table.rows.hidden, [column for column in self.table.rows.hidden_columns if column <= self.columns.width]
        named = {entry.row: entry.name for entry in self.table.entries}
        if rows:
            self.note("note.hidden", [Cell(self.table.name, row, self.columns.owner + 1) for row in rows],
                      {"rows": [(row, named.get(row, "")) for row in rows]})
        if columns:
            self.note("note.hidden-columns", [Cell(self.table.name, self.table.heading_row, column) for column in columns],
                      {"columns": [(column, cell_of(self.head, column - 1)) for column in columns]})

    def note(self, code: str, cells: List[Cell], values: Values) -> None:
        self.table.notes.append(Fault(code, self.table.name, cells[0].row, cells[0].column, cells, values))

    def tell_short(self) -> None:
        """Tells rows with fewer cells than the heading, where other rows have all of them: they may be parts of one row. A
        table without any empty cell at the end of a row may be one whose writer leaves these out."""
        few = 10 * self.short_count <= self.count or self.short_count <= 2 and self.count >= 8
        if self.options.allow_short or self.table.rows.sheet is not None or not self.short or not (self.padded or few):
            return
        for number, cells in self.short:
            self.tell("row.short", number, 0, {"cells": cells, "width": self.columns.width}, ("short",), (Remedy("allow_short", True),))

    def tell_some_ids(self) -> None:
        """Tells that some members have an ID and others none. A column of IDs without any says nothing."""
        if not self.by_id:
            self.without_id = []
        names = {item.text for item in self.without_id}
        values = {"count": len(names), "of": len({entry.name for entry in self.table.entries}), "owners": self.table.owners,
                  "name": min(names, default="")}
        for item in self.without_id:
            self.tell("file.some-ids", item.row, item.cell - 1, values, ("some ids",))

    def gap(self, entry: Entry, ranks: Dict[int, Item]) -> None:
        """Ranks that don't count on may mean a row that is lost, or a name that is misspelt in one of the rows."""
        wanted = next(rank for rank in range(1, len(ranks) + 1) if rank not in ranks)
        after = ranks[min(rank for rank in ranks if rank > wanted)]
        if self.options.allow_gaps:
            self.gaps.append(Item(entry.name, after.row, after.cell))
        else:
            self.tell("rank.gap", after.row, self.columns.rank or 0, {"name": entry.name, "rank": wanted},
                      remedies=(Remedy("allow_gaps", True),))


def cell_of(row: List[str], cell: int) -> str:
    return row[cell] if cell < len(row) else ""


def opened(data: bytes, name: str, words: Words, options: Settings, faults: Faults) -> Tuple[Text, Rows, List[Fault]]:
    """A table's text and rows, of a workbook or of text, with what is worth a note."""
    told = len(faults)
    try:
        if sheets.is_book(data):
            sheet = sheets.sheet_of(data, options.sheet.get(name))
            rows = Rows(tidied(sheet.rows, Cells(name, "", faults)), "", False, sheet.name, sheet.names, sheet.hidden, sheet.hidden_columns)
            return Text("", "xlsx"), rows, []
    except sheets.BadBook as fault:
        remedies = [Remedy("sheet", sheet_name, name) for sheet_name in fault.values.get("sheets", ())]
        faults.tell(fault.code, name, None, None, {**fault.values, "table": name}, remedies=remedies)
        return Text("", "utf-8"), Rows(iter(()), ",", False), []
    text = table_text(data, name, options.encoding.get(name), faults, words.knows)
    if len(faults) > told:
        return text, Rows(iter(()), ",", False), []
    return text, rows_of(text.text, name, options.delimiter.get(name), words.is_heading, faults), text.notes


def headed(name: str, owners: str, number: int, heading: List[str], rows: Rows, words: Words, faults: Faults) -> Optional[Columns]:
    """Which column of a table is what, or None where its heading is at fault. Where a row below is one, that is the remedy."""
    columns = columns_of(name, owners, number, heading, words, faults)
    if columns is None and not words.is_heading(heading):
        faults.is_deaf = True
        below = next((row for row, cells in islice(rows.unread, MOST_ABOVE) if words.is_heading(cells)), None)
        faults.is_deaf = False
        for fault in faults.kept["heading"] if below is not None else ():
            if (fault.table, fault.row) == (name, number):
                fault.remedies = (Remedy("heading_row", below, name), *fault.remedies)
    return columns


def heading_of(rows: Rows, first: Optional[int], name: str, words: Words) -> Tuple[int, List[str], List[Fault]]:
    """The heading row and its number: the first row, or the first from this one on; 0 where there is none. Rows of one cell above it,
    where nobody says which it is, are titles, which are noted."""
    number, heading = next((row for row in rows.unread if row[0] >= first), NOTHING) if first is not None else NOTHING
    if first is not None:
        return number, heading, []
    above: List[Tuple[int, List[str]]] = []
    for row in rows.unread:
        above.append(row)
        if len(above) > MOST_TITLES or len([text for text in row[1] if text]) > 1 or words.is_heading(row[1]):
            break
    titles = above[:-1] if above and words.is_heading(above[-1][1]) else []
    rows.unread = chain(above[len(titles) + 1:], rows.unread)
    cells = [Cell(name, number, 1 + next(place for place, text in enumerate(row) if text)) for number, row in titles]
    texts = [row[cell.column - 1] for cell, (_, row) in zip(cells, titles)]
    notes = [Fault("note.titles", name, cells[0].row, cells[0].column, cells, {"texts": texts})] if titles else []
    number, heading = above[len(titles)] if above else NOTHING
    return number, heading, notes


def read_table(given: Given, name: str, owners: str, words: Words, options: Settings, faults: Faults) -> Table:
    """Reads a table; what is at fault is told, and then it isn't `whole`."""
    told = len(faults)
    text, rows, notes = opened(given.data, name, words, options, faults)
    table = Table(name, owners, given.name, hashlib.sha256(given.data).hexdigest(), text, rows)
    number, heading, titles = heading_of(rows, options.heading_row.get(name), name, words)
    table.notes = [*notes, *titles]
    if not number:
        if len(faults) == told:
            faults.tell("file.empty", name, 1, 1)
        return table
    columns = headed(name, owners, number, heading, rows, words, faults)
    if columns is None:
        return table
    table.is_long, table.heading_row, table.language = columns.is_long, number, columns.language
    members = Members(table, heading, columns, options, faults)
    for below, row in rows.unread:
        members.take(below, row)
        if len(table.entries) > members.most:
            # What is below can't be matched, and needn't be read.
            return table
    members.finish()
    text.text = ""
    # Where some IDs are missing nobody knows yet whom the lists mean.
    table.whole = bool(table.entries) and not members.without_id
    expected = options.expect.get(name)
    if expected is not None and len(table.entries) != expected:
        values = {"count": len(table.entries), "owners": owners, "table": name, "expected": expected}
        faults.tell("file.expected", name, None, None, values, remedies=(Remedy("expect", len(table.entries), name),))
    return table
