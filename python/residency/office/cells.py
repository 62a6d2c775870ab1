"""The rows of a table's text: what parts its cells, found from the whole file, and cells that are broken."""
import re
from dataclasses import dataclass
from typing import Callable, Dict, Iterable, Iterator, List, Optional, Sequence, Tuple

from ..text import BadQuotes, rows, tidy
from .faults import Faults, OfficeError, Values
from .text import LINE_END, no_letter

DELIMITERS = {",": "commas", ";": "semicolons", "\t": "tabs", "|": "bars"}
WORDS = {"comma": ",", "semicolon": ";", "tab": "\t", "bar": "|", "\\t": "\t"}
MOST_LETTERS_OF_A_CELL = 500
QUOTED = re.compile(r'"[^"]*(?:""[^"]*)*"')
# Letters that nobody sees: marks of direction, spaces of no width, soft hyphens.
UNSEEN = dict.fromkeys((0xAD, 0x61C, 0x200B, 0x200E, 0x200F, 0x2060, 0xFEFF, *range(0x202A, 0x202F), *range(0x2066, 0x206A)))

# Whether cells are a heading row.
IsHeading = Callable[[List[str]], bool]


@dataclass
class Rows:
    """Rows that aren't blank, of tidy cells, each with its number in a spreadsheet, which counts from 1 and leaves out a
    line `sep=`; `declared` where there is such a line, `sheet` the name of a workbook's sheet, `sheets` those of all, and which rows and columns of it
    are hidden."""

    unread: Iterator[Tuple[int, List[str]]]
    delimiter: str
    declared: bool
    sheet: Optional[str] = None
    sheets: Sequence[str] = ()
    hidden: Sequence[int] = ()
    hidden_columns: Sequence[int] = ()


def known_delimiter(word: str) -> str:
    """The delimiter that a word of the command line names: comma, semicolon, tab, bar, or one letter."""
    delimiter = WORDS.get(word, word)
    if len(delimiter) != 1 or delimiter in '"\r\n \0' or ord(delimiter) > 127 or delimiter.isalnum():
        raise OfficeError("setting.delimiter", 2, text=word)
    return delimiter


def name_of(cell: str) -> str:
    """A cell's text in one form: composed letters, single spaces, nothing that nobody sees."""
    return " ".join(cell.split()) if cell.isascii() else tidy(cell.translate(UNSEEN))


def no_cell(text: str) -> str:
    """The first character of a text that no cell has: one that is no letter, or that nobody sees; or no text."""
    return no_letter(text) or next((c for c in text if ord(c) in UNSEEN), "")


def sep_line(text: str) -> Tuple[Optional[str], str]:
    """What a first line `sep=;` names, and the text after it."""
    found = re.match(r'"?sep=([^"\r\n])"?[,;\t]*(\r\n|\r|\n|\Z)', text, re.IGNORECASE)
    return (found.group(1), text[found.end():]) if found else (None, text)


def found_delimiter(text: str, is_heading: IsHeading) -> str:
    """What parts the cells: that by which the first row is a heading, or else that which most lines have."""
    bare = QUOTED.sub("x", text)
    counts = {mark: sum(1 for _ in re.finditer(f"{re.escape(mark)}[^\\r\\n]*", bare)) for mark in DELIMITERS}
    often = sorted(DELIMITERS, key=lambda mark: (-counts[mark], -bare.count(mark)))
    first = next((line for _, line in lines_of(text) if line.strip()), "")
    heading = (mark for mark in often if mark in first and is_heading([name_of(cell.strip('"')) for cell in first.split(mark)]))
    return next(heading, often[0])


def lines_of(text: str) -> Iterator[Tuple[int, str]]:
    """The lines of a text with their numbers, one at a time."""
    at, number = 0, 1
    for end in LINE_END.finditer(text):
        yield number, text[at:end.start()]
        at, number = end.end(), number + 1
    yield number, text[at:]


def numbered(text: str, delimiter: str) -> Iterable[Tuple[int, List[str]]]:
    """The rows that aren't blank with their numbers; without a quote in the whole text they are its lines."""
    if '"' in text:
        # All of them before the first is read, since an open quote leaves none of them sound.
        return list(rows(text, delimiter))
    return ((number, line.split(delimiter)) for number, line in lines_of(text) if line)


def rows_of(text: str, table: str, delimiter: Optional[str], is_heading: IsHeading, faults: Faults) -> Rows:
    """The rows of this text. Quotes that aren't closed, lines within names, and cells that are no names are faults."""
    declared, rest = sep_line(text)
    chosen = delimiter or declared or found_delimiter(rest, is_heading)
    try:
        found = numbered(rest, chosen)
    except BadQuotes as fault:
        faults.tell("file.quotes", table, fault.row, fault.cell, {"what": fault.text})
        found = ()
    return Rows(tidied(found, Cells(table, chosen, faults)), chosen, declared is not None)


def tidied(found: Iterable[Tuple[int, List[str]]], cells: "Cells") -> Iterator[Tuple[int, List[str]]]:
    """Rows of tidy cells, without the blank ones."""
    known = cells.good
    for number, row in found:
        try:
            tidy_row = [known[text] for text in row]
        except KeyError:
            tidy_row = [cells.name(number, cell, text) for cell, text in enumerate(row, 1)]
        if any(tidy_row):
            yield number, tidy_row


def other_mark(row: List[str], delimiter: str) -> Optional[str]:
    """What a row of one cell is parted by, where that is another sign than the table's; one comma may stand in a name."""
    if len(row) != 1 or len(row[0]) < 2:
        return None
    marks = [mark for mark in DELIMITERS if mark != delimiter and row[0].count(mark) > (mark == ",")]
    return max(marks, key=row[0].count) if marks else None


class Cells:
    """Makes names of cells, each different text once, and tells those that can't be one."""

    def __init__(self, table: str, delimiter: str, faults: Faults) -> None:
        self.table, self.delimiter, self.faults = table, delimiter, faults
        self.good: Dict[str, str] = {}

    def name(self, number: int, cell: int, text: str) -> str:
        known = self.good.get(text)
        if known is not None:
            return known
        name = name_of(text)
        is_plain = len(text) <= MOST_LETTERS_OF_A_CELL and text.isprintable() and (number > 1 or "\ufffd" not in text)
        found = None if is_plain else self.fault(number, text)
        if found is None:
            self.good[text] = name
        else:
            self.faults.tell(found[0], self.table, number, cell, found[1])
        return name

    def fault(self, number: int, text: str) -> Optional[Tuple[str, Values]]:
        """Why a text is no name, or none. A heading may have line ends, as `Rank` over `1`."""
        inside = text.strip()
        begin = {"text": LINE_END.split(inside)[0], "quote": bool(self.delimiter)}
        if len(text) > MOST_LETTERS_OF_A_CELL and not inside.isdecimal():
            return "row.too-long", begin
        if LINE_END.search(inside) and (number > 1 or (self.delimiter or "\0") in inside):
            return "row.line-end", begin
        if "\t" in inside:
            return "row.tab", {"text": text}
        if "\ufffd" in text and number == 1:
            return "row.lost-letter", {"text": text}
        if no_letter(inside, "\r\n\u2028\u2029"):
            return "row.no-letter", {"text": text}
        return None
