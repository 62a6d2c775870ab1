"""Workbooks (.xlsx): the rows of one sheet, cell by cell as their CSV has them, by Python's own zipfile and expat; and plain ones written.

Nothing of a workbook is run, and nothing outside of it is read. One that declares entities, or that is larger unpacked than any
table, is refused; and what is no workbook is told by the name of what it is.
"""
import io
import math
import posixpath
import re
import struct
import zlib
from dataclasses import dataclass, field
from datetime import datetime, timedelta
from functools import lru_cache
from html import escape
from pathlib import Path
from typing import TYPE_CHECKING, Callable, Dict, Iterator, List, Optional, Sequence, Tuple
from xml.parsers import expat

from .faults import Values

if TYPE_CHECKING:
    from zipfile import ZipFile

MOST_BYTES, MOST_CELLS = 256 << 20, 16_000_000
MOST_ROWS, MOST_COLUMNS = 1 << 20, 1 << 14
# No spreadsheet packs so many files, pictures and all.
MOST_FILES = 10_000
# The most that is read: so many bytes in one tag, a tag in so many others, so many names of tags and attributes, so many tags and
# sheets. Each bounds what a byte may cost: the parser looks at an open tag again with each chunk, and keeps each name.
MOST_OF_TAG, MOST_DEEP, MOST_NAMES, MOST_TAGS, MOST_SHEETS = 1 << 20, 100, 10_000, 12_000_000, 1_000
# What a formula leaves in a cell where it fails; the last is where a program wrote a formula and no result.
NO_RESULT = "#NO RESULT"
ERRORS = ("#N/A", "#REF!", "#NAME?", "#VALUE!", "#DIV/0!", "#NULL!", "#NUM!", "#SPILL!", "#CALC!", NO_RESULT)
IS_ERROR = re.compile("|".join(map(re.escape, ERRORS)) + r"|Err:5[0-9][0-9]")
ESCAPED = re.compile(r"_x([0-9A-Fa-f]{4})_")
NO_MEMORY = expat.errors.codes[expat.errors.XML_ERROR_NO_MEMORY]
REFERENCE = re.compile(r"([A-Z]{1,3})([1-9][0-9]{0,6})")
# Formats of dates that every workbook knows by number, and what stands in the others'.
DATES = frozenset((*range(14, 23), *range(27, 37), *range(45, 48), *range(50, 59)))
QUOTED = re.compile(r'"[^"]*"?|\\.|\[[^\]]*\]?')
# What the bytes of files begin with that aren't tables.
BEGINS = ((b"\xd0\xcf\x11\xe0\xa1\xb1\x1a\xe1", "xls"), (b"%PDF", "pdf"), (b"{\\rtf", "rtf"), (b"\x1f\x8b", "packed"),
          (b"\x89PNG", "picture"), (b"\xff\xd8\xff", "picture"))
MARKUP = re.compile(rb"(?:\xef\xbb\xbf)?\s*<(?:\?xml|!doctype|html|table|head|meta|style|body)", re.IGNORECASE)


class BadBook(ValueError):
    """What can't be read as a workbook: the code of its fault, and the values that its sentence names."""

    def __init__(self, code: str, values: Optional[Values] = None) -> None:
        super().__init__(code, values)
        self.code, self.values = f"file.{code}", dict(values or {})


@dataclass
class Sheet:
    """A sheet's rows with their numbers, and which of them and of its columns are hidden."""

    name: str
    rows: List[Tuple[int, List[str]]] = field(default_factory=list)
    hidden: List[int] = field(default_factory=list)
    hidden_columns: List[int] = field(default_factory=list)
    names: List[str] = field(default_factory=list)


def is_book(data: bytes) -> bool:
    """Whether these bytes are a workbook. BadBook for another kind of file that is no table of text."""
    for begin, what in BEGINS:
        if data.startswith(begin):
            raise BadBook("kind", {"what": what})
    if MARKUP.match(data[:200]):
        raise BadBook("kind", {"what": "page"})
    return data.startswith(b"PK\x03\x04") or data.startswith(b"PK\x05\x06")


def sheet_of(data: bytes, wanted: Optional[str] = None) -> Sheet:
    """The sheet that is wanted by its name, or the only one that has cells. BadBook."""
    import lzma
    import zipfile

    try:
        with zipfile.ZipFile(io.BytesIO(data)) as archive:
            return Book(archive).sheet(wanted)
    except BadBook:
        raise
    except (zipfile.BadZipFile, expat.ExpatError, zlib.error, lzma.LZMAError, struct.error, EOFError, OSError, NotImplementedError,
            RuntimeError, KeyError, IndexError, OverflowError, ValueError) as error:
        if isinstance(error, expat.ExpatError) and error.code == NO_MEMORY:
            raise MemoryError from None
        raise BadBook("broken", {"error": str(error)}) from None


def at_most(count: int, most: int, what: str) -> None:
    """BadBook where there are more than so many."""
    if count > most:
        raise BadBook("too-many", {"most": most, "what": what})


class Book:
    """An open workbook."""

    def __init__(self, archive: "ZipFile") -> None:
        self.archive = archive
        self.names = set(archive.namelist())
        if len(archive.infolist()) > MOST_FILES:
            raise BadBook("packed-files", {"files": len(archive.infolist()), "most": MOST_FILES})
        self.left, self.tags, self.ends = MOST_BYTES, 0, 0
        self.main = self.main_part()
        self.strings: List[str] = []
        self.formats: List[Callable[[float], str]] = []
        self.targets: Dict[str, Tuple[str, str]] = {}
        self.first_day = datetime(1899, 12, 30)

    def main_part(self) -> str:
        """The name of the workbook's part; BadBook where this is another kind of file."""
        if "mimetype" in self.names and self.archive.open("mimetype").read(40).startswith(b"application/vnd.oasis"):
            raise BadBook("kind", {"what": "ods"})
        if "xl/workbook.bin" in self.names:
            raise BadBook("kind", {"what": "xlsb"})
        if "_rels/.rels" in self.names:
            for kind, target in self.relations("_rels/.rels", "").values():
                if kind == "officeDocument" and target.startswith("xl/"):
                    return target
        raise BadBook("kind", {"what": "no-xlsx"})

    def chunks(self, name: str) -> Iterator[bytes]:
        """The bytes of a part. BadBook where all parts that are read have more than any table."""
        with self.archive.open(name) as file:
            while True:
                chunk = file.read(1 << 16)
                if not chunk:
                    return
                self.left -= len(chunk)
                if self.left < 0:
                    raise BadBook("large", {"megabytes": MOST_BYTES >> 20})
                yield chunk

    def parse(self, name: str, start: Callable[[str, Dict[str, str]], None], end: Callable[[str], None] = lambda name: None,
              text: Optional[Callable[[str], None]] = None) -> None:
        """Reads a part by what is to be done at the start and end of each element, whatever its namespace."""
        parser, read = expat.ParserCreate(), 0
        parser.buffer_text = True

        def opened(name: str, more: Dict[str, str]) -> None:
            self.tags += 1
            if self.tags - self.ends > MOST_DEEP or self.tags > MOST_TAGS:
                raise BadBook("too-many", {"most": MOST_TAGS, "what": "tags"} if self.tags > MOST_TAGS else {"most": MOST_DEEP, "what": "tags within one another"})
            start(name.rpartition(":")[2] if ":" in name else name, more)

        def closed(name: str) -> None:
            self.ends += 1
            end(name.rpartition(":")[2] if ":" in name else name)

        def declared(*words: object) -> None:
            raise BadBook("entities")

        parser.StartElementHandler, parser.EndElementHandler, parser.StartDoctypeDeclHandler = opened, closed, declared
        if text is not None:
            parser.CharacterDataHandler = text
        for chunk in self.chunks(name):
            parser.Parse(chunk, False)
            read += len(chunk)
            at_most(read - parser.CurrentByteIndex, MOST_OF_TAG, "bytes in one tag")
            at_most(len(parser.intern), MOST_NAMES, "names of tags and attributes")
        parser.Parse(b"", True)

    def relations(self, name: str, folder: str) -> Dict[str, Tuple[str, str]]:
        """By its ID each part that another one names: its kind and its name."""
        found: Dict[str, Tuple[str, str]] = {}

        def start(element: str, more: Dict[str, str]) -> None:
            if element == "Relationship":
                target = more.get("Target", "")
                whole = target[1:] if target.startswith("/") else posixpath.normpath(posixpath.join(folder, target))
                found[more.get("Id", "")] = more.get("Type", "").rpartition("/")[2], whole

        self.parse(name, start)
        return found

    def sheet(self, wanted: Optional[str]) -> Sheet:
        """The sheet that is wanted, or the only visible one that has cells."""
        folder, _, file = self.main.rpartition("/")
        self.targets = self.relations(f"{folder}/_rels/{file}.rels", folder)
        names: List[Tuple[str, str, bool]] = []

        def start(element: str, more: Dict[str, str]) -> None:
            if element == "workbookPr" and more.get("date1904") in ("1", "true"):
                self.first_day = datetime(1904, 1, 1)
            if element == "sheet":
                id = next((value for key, value in more.items() if key.endswith(":id") and key != "xmlns:id"), "")
                kind, target = self.targets.get(id, ("", ""))
                if kind == "worksheet" and target in self.names:
                    names.append((more.get("name", ""), target, more.get("state", "visible") == "visible"))

        self.parse(self.main, start)
        titles = [name[0] for name in names]
        at_most(len(names), MOST_SHEETS, "sheets")
        for kind, target in self.targets.values():
            if kind == "sharedStrings" and target in self.names:
                self.strings = self.texts(target)
            if kind == "styles" and target in self.names:
                self.formats = self.styles(target)
        if wanted is not None:
            chosen = [name for name in names if name[0].casefold() == wanted.casefold()]
            if not chosen:
                raise BadBook("no-sheet", {"sheet": wanted, "sheets": titles})
            return self.read(*chosen[0][:2], titles)
        sheets = [sheet for sheet in (self.read(name, target, titles) for name, target, visible in names if visible) if sheet.rows]
        if len(sheets) > 1:
            raise BadBook("sheets", {"sheets": [sheet.name for sheet in sheets]})
        return sheets[0] if sheets else Sheet(names[0][0] if names else "")

    def texts(self, name: str) -> List[str]:
        """The shared texts, without what says how they are spoken."""
        texts: List[str] = []
        reader = Words()

        def end(element: str) -> None:
            reader.end(element)
            if element == "si":
                texts.append(reader.taken())

        self.parse(name, lambda element, more: reader.start(element), end, reader.text)
        return texts

    def styles(self, name: str) -> List[Callable[[float], str]]:
        """How a number is written, by the number of a cell's style."""
        codes: Dict[int, str] = {}
        used: List[int] = []
        inside: List[str] = []

        def start(element: str, more: Dict[str, str]) -> None:
            inside.append(element)
            if element == "numFmt":
                codes[whole(more.get("numFmtId", "0"))] = more.get("formatCode", "")
            elif element == "xf" and "cellXfs" in inside:
                used.append(whole(more.get("numFmtId", "0")))

        def end(_: str) -> None:
            inside.pop()

        self.parse(name, start, end)
        known = {number: self.writes(number, codes.get(number, "")) for number in {*used}}
        return [known[number] for number in used]

    def writes(self, number: int, code: str) -> Callable[[float], str]:
        """How a format writes a number: as a date, with zeros before it, or as it is."""
        bare = QUOTED.sub("", code)
        if number in DATES and not code or code and re.search("[dmyhs]", bare.split(";")[0], re.IGNORECASE):
            return self.date
        if re.fullmatch("0{2,}", bare):
            return lambda value: number_text(value).zfill(len(bare))
        return number_text

    def date(self, value: float) -> str:
        try:
            day = self.first_day + timedelta(days=value)
        except (OverflowError, ValueError):
            return number_text(value)
        return day.date().isoformat() if value == int(value) else day.isoformat(" ", "minutes")

    def read(self, name: str, target: str, names: List[str]) -> Sheet:
        sheet = Sheet(name, names=names)
        reader = Cells(sheet, self.strings, self.formats)
        self.parse(target, reader.start, reader.end, reader.words.text)
        return sheet


def whole(text: str) -> int:
    """The number that plain digits write, none of them counted behind the ninth; -1 for any other text."""
    return (int(text) if len(text) < 10 else 10 ** 9) if text.isdecimal() else -1


def number_text(value: float) -> str:
    """A number as a cell's text: whole ones without a point; one of more digits than a spreadsheet keeps, as it shows it."""
    if not math.isfinite(value):
        return str(value)
    if abs(value) >= 1e15:
        return f"{value:.5E}"
    return str(int(value)) if value == int(value) else repr(value)


class Words:
    """Collects the text of one cell: what stands in `t` and `v`, but not in a formula, nor what says how a text is spoken."""

    def __init__(self) -> None:
        self.parts: List[str] = []
        self.open, self.spoken = False, 0

    def start(self, element: str) -> None:
        if element == "rPh":
            self.spoken += 1
        elif element in ("t", "v"):
            self.open = not self.spoken

    def end(self, element: str) -> None:
        if element == "rPh":
            self.spoken -= 1
        elif element in ("t", "v"):
            self.open = False

    def text(self, text: str) -> None:
        if self.open:
            self.parts.append(text)

    def taken(self) -> str:
        whole = "".join(self.parts)
        self.parts = []
        return ESCAPED.sub(lambda found: chr(int(found.group(1), 16)), whole) if "_x" in whole else whole


class Cells:
    """Takes in the cells of one sheet."""

    def __init__(self, sheet: Sheet, strings: List[str], formats: List[Callable[[float], str]]) -> None:
        self.sheet, self.strings, self.formats = sheet, strings, formats
        self.words = Words()
        self.number, self.column, self.count = 0, 0, 0
        self.row: List[str] = []
        self.kind, self.style, self.is_formula = "n", "", False

    def start(self, element: str, more: Dict[str, str]) -> None:
        if element == "c":
            found = REFERENCE.fullmatch(more["r"]) if "r" in more else None
            self.column = column_of(found.group(1)) if found else self.column + 1
            self.kind, self.style, self.is_formula = more.get("t", "n"), more.get("s", ""), False
        elif element == "row":
            number = whole(more.get("r", ""))
            self.number = number if number >= 0 else self.number + 1
            self.column, self.row = 0, []
            if self.number > MOST_ROWS or len(self.sheet.hidden) > MOST_ROWS:
                raise BadBook("rows", {"row": self.number, "most": MOST_ROWS})
            if more.get("hidden") in ("1", "true"):
                self.sheet.hidden.append(self.number)
        elif element == "col" and more.get("hidden") in ("1", "true"):
            first, last = (whole(more.get(name, "0")) for name in ("min", "max"))
            self.sheet.hidden_columns += range(max(first, 1), min(last, MOST_COLUMNS) + 1)
            at_most(len(self.sheet.hidden_columns), MOST_COLUMNS, "hidden columns")
        elif element == "f":
            self.is_formula = True
        else:
            self.words.start(element)

    def end(self, element: str) -> None:
        if element == "c":
            if self.words.parts or self.is_formula or self.kind == "s":
                self.put(self.value(self.words.taken()))
        elif element == "row":
            if self.row:
                self.sheet.rows.append((self.number, self.row))
        else:
            self.words.end(element)

    def put(self, text: str) -> None:
        if not text:
            return
        if self.column > MOST_COLUMNS:
            raise BadBook("columns", {"column": self.column, "most": MOST_COLUMNS})
        missing = self.column - len(self.row)
        self.count += max(missing, 1)
        if self.count > MOST_CELLS:
            raise BadBook("cells", {"most": MOST_CELLS})
        self.row += [""] * missing
        self.row[self.column - 1] = text

    def value(self, text: str) -> str:
        """What a cell shows, by its kind."""
        if self.kind == "s":
            if not 0 <= whole(text) < len(self.strings):
                raise BadBook("broken-text", {"row": self.number})
            return self.strings[int(text)]
        if self.is_formula and not text and self.kind != "str":
            return NO_RESULT
        if self.kind == "b" and text:
            return "TRUE" if text == "1" else "FALSE"
        if self.kind != "n" or not text:
            return text
        try:
            number = float(text)
        except ValueError:
            return text
        style = max(whole(self.style), 0)
        return self.formats[style](number) if style < len(self.formats) else number_text(number)


@lru_cache(None)
def column_of(letters: str) -> int:
    """The number of a column, from 1, by its letters."""
    number = 0
    for letter in letters:
        number = 26 * number + ord(letter) - ord("A") + 1
    return number


def book_of(name: str, rows: Sequence[Sequence[object]]) -> bytes:
    """A workbook whose one sheet has these rows: numbers, and texts that are texts whatever they begin with."""
    import zipfile

    cells = "".join(f"<row>{''.join(map(cell_of, row))}</row>" for row in rows)
    data = io.BytesIO()
    with zipfile.ZipFile(data, "w", zipfile.ZIP_DEFLATED) as archive:
        for line in Path(__file__).with_name("book.txt").read_text(encoding="utf-8").splitlines():
            part, _, text = line.partition(" ")
            archive.writestr(zipfile.ZipInfo(part), text.replace("@NAME@", name).replace("@ROWS@", cells).encode("utf-8"))
    return data.getvalue()


def cell_of(value: object) -> str:
    """A cell of a workbook; what XML or the form of a cell takes for something else is written by its number."""
    if isinstance(value, int):
        return f"<c><v>{value}</v></c>"
    text = re.sub("_(?=x[0-9A-Fa-f]{4}_)|[\x00-\x1f\ufffe\uffff]", lambda found: f"_x{ord(found[0]):04X}_", str(value))
    return f'<c t="inlineStr"><is><t xml:space="preserve">{escape(text)}</t></is></c>' if text else "<c/>"
