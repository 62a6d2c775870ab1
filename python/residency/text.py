"""Text: which character set a saved table is in, its rows, and one form for names."""
from __future__ import annotations

import codecs
import re
import unicodedata
from pathlib import Path
from typing import Dict, Iterator, List, Optional, Pattern, Tuple

_MARKS = ((codecs.BOM_UTF8, "utf-8-sig"), (codecs.BOM_UTF32_LE, "utf-32"), (codecs.BOM_UTF32_BE, "utf-32"),
          (codecs.BOM_UTF16_LE, "utf-16"), (codecs.BOM_UTF16_BE, "utf-16"))
_LINE_END = re.compile("\r\n|\r|\n")


class BadQuotes(ValueError):
    """A cell that begins with a quote which isn't closed, or goes on after its closing quote: `row` and `cell` from 1."""

    def __init__(self, row: int, cell: int, text: str) -> None:
        super().__init__(row, cell, text)
        self.row = row
        self.cell = cell
        self.text = text

    def __str__(self) -> str:
        return f"row {self.row}, cell {self.cell}: {self.text}"


def tidy(text: str) -> str:
    """The text in one form of Unicode (NFC), without spaces around it or doubled within it.

    >>> tidy("  Zoe\\u0308   O'Connor ")
    "Zoë O'Connor"
    """
    return " ".join(unicodedata.normalize("NFC", text).split())


def shown(text: str, most: int = 60) -> str:
    """The text as a terminal may show it: no control characters, and not long.

    >>> shown("a\\x1b[2J"), shown("a" * 100, 5)
    ('a\\\\x1b[2J', 'aaaaa…')
    """
    cut = text if len(text) <= most else text[:most] + "…"
    return "".join(c if c.isprintable() else c.encode("unicode_escape").decode("ascii") for c in cut)


def counted(number: int, one: str, many: str = "") -> str:
    """A number of things: `1 place`, `2 places`."""
    return f"{number:,} {one if number == 1 else many or one + 's'}"


def _unmarked(data: bytes) -> str:
    """The character set of bytes without a mark: UTF-16 where every other byte of much of it is 0, else UTF-8 if it can be."""
    if data[1::2].count(0) > len(data) // 4:
        return "utf-16-le"
    if data[0::2].count(0) > len(data) // 4:
        return "utf-16-be"
    for encoding in ("utf-8", "cp1252"):
        try:
            data.decode(encoding)
            return encoding
        except UnicodeDecodeError:
            pass
    return "latin-1"


def decode(data: bytes, encoding: Optional[str] = None) -> Tuple[str, str]:
    """The text of a saved table and the character set that it is in, found from the whole of it unless it is given.

    A mark (BOM) at the start names it and is no part of the text. Without one it is UTF-16 where every other byte is
    mostly 0, else UTF-8 where the bytes can be that, else Windows-1252, or Latin-1 where they can't be that either.
    UnicodeDecodeError where the bytes aren't in the set that is given, or that the mark names; LookupError for a given
    set that Python doesn't know.

    >>> decode(b"Zo\\xc3\\xab"), decode(b"Zo\\xeb"), decode("Zoë".encode("utf-16"))
    (('Zoë', 'utf-8'), ('Zoë', 'cp1252'), ('Zoë', 'utf-16'))
    """
    marked = next((name for mark, name in _MARKS if data.startswith(mark)), None)
    found = encoding or marked or _unmarked(data)
    text = data.decode(found)
    return text[1:] if text.startswith("\ufeff") else text, found


def sections(path: Path) -> Dict[str, Dict[str, str]]:
    """By the heads of its sections, and by their names, the texts of a file; a line that begins with # says nothing."""
    found: Dict[str, Dict[str, str]] = {}
    for line in path.read_text(encoding="utf-8").splitlines():
        if line.startswith("["):
            section = found.setdefault(line.strip("[]"), {})
        elif line and not line.startswith("#"):
            word, _, text = line.partition(" =")
            section[word] = text.strip()
    return found


def _cell(text: str, at: int, plain: Pattern[str], where: Tuple[int, int]) -> Tuple[str, int]:
    """The cell that begins at a place, and the place after it; BadQuotes, with the row and cell, where it is quoted amiss."""
    if not text.startswith('"', at):
        found = plain.match(text, at)
        assert found is not None
        return found.group(), found.end()
    parts: List[str] = []
    while not parts or text.startswith('"', at):
        parts += ['"'] if parts else []
        end = text.find('"', at + 1)
        if end < 0:
            raise BadQuotes(*where, "a quote that isn't closed")
        parts.append(text[at + 1:end])
        at = end + 1
    after = plain.match(text, at)
    if after and after.group():
        raise BadQuotes(*where, "text after a closing quote")
    return "".join(parts), at


def rows(text: str, delimiter: str = ",") -> Iterator[Tuple[int, List[str]]]:
    """The rows of a table with their numbers in a spreadsheet; a row without a cell is none, and still has its number.

    Lines end by CR, LF or both. Quotes are read strictly: BadQuotes for a cell whose quote isn't closed or that goes on
    after it, since such a cell would swallow the rows below it.

    >>> list(rows('a;"b;c"\\r\\n\\r\\nd', ";"))
    [(1, ['a', 'b;c']), (3, ['d'])]
    """
    plain = re.compile("[^\\r\\n" + re.escape(delimiter) + "]*")
    at, number = 0, 0
    while at < len(text):
        start = at
        cells: List[str] = []
        number += 1
        while not cells or text.startswith(delimiter, at):
            at += len(delimiter) if cells else 0
            cell, at = _cell(text, at, plain, (number, len(cells) + 1))
            cells.append(cell)
        if at > start:
            yield number, cells
        ended = _LINE_END.match(text, at)
        at = ended.end() if ended else at
