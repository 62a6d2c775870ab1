"""The key: a CSV file with a row for each member, `P` or `R`, the docket's name, the caller's name and maybe the ID.

It is written in UTF-8 with commas and LF, without a heading. It is read as spreadsheets and editors save it again: with a
byte order mark, semicolons or tabs, blank rows, empty cells at the ends of rows, other line ends and character sets.

Names that a spreadsheet would take for a formula are escaped, in a way that reads back exactly: `to_cell`, `from_cell`.
"""
from __future__ import annotations

import re
from typing import Iterable, List, Match, Optional, Tuple

from .errors import KeyFault
from .names import PROGRAMME, RESIDENT, Member, Names
from .ordered import of_kind
from .records import is_name
from .text import BadQuotes, decode, rows

# What a spreadsheet takes for the start of a formula; the last four are the same signs in full width.
_FORMULA = ("=", "+", "-", "@", "\t", "\r", "\n", "\uff1d", "\uff0b", "\uff0d", "\uff20")
_MARKED = tuple("'" + sign for sign in ("'", *_FORMULA))
# A name without one of these is a cell as it is.
_ANY = re.compile(f"[{re.escape(''.join(_FORMULA))}']")
_SIGN = "([=+\\-@\uff1d\uff0b\uff0d\uff20])"
# Where a formula may begin within a name, since a spreadsheet that parts cells by another sign than the file does begins a
# cell there, after any spaces and quotes. A space or a colon parts cells only where somebody chooses so, and before a sign
# that stands alone, as in `North - East`, it begins no formula.
_WITHIN = re.compile(f"((?:^[\\s\"]|[,;|\\t\\r\\n])[\\s\"]*)('*){_SIGN}|([ :]\"*)('*){_SIGN}(?=\\S)")


def _needs_apostrophe(name: str) -> bool:
    return name.startswith(_FORMULA) or name.startswith(_MARKED)


def _places(found: Match[str]) -> Tuple[str, str, str]:
    """What stands before a formula within a name, its apostrophes, and its sign."""
    before, marks, sign = found.group(1, 2, 3) if found.group(3) else found.group(4, 5, 6)
    return before, marks, sign


def _more(found: Match[str]) -> str:
    before, marks, sign = _places(found)
    return f"{before}'{marks}{sign}"


def _less(found: Match[str]) -> str:
    before, marks, sign = _places(found)
    return before + marks[1:] + sign


def to_cell(name: str) -> str:
    """The name as a cell of a CSV file that a spreadsheet takes for text and never for a formula, whatever it parts cells by.

    A name that begins with `=`, `+`, `-`, `@`, a tab or a line's end gets an apostrophe before it, and so does one that
    begins with an apostrophe before one of these or before another apostrophe. Within a name `=`, `+`, `-` and `@` get one
    where a cell may begin: after a comma, a semicolon, a bar, a colon, a space or a tab. `from_cell` reads it back exactly.

    >>> [to_cell(name) for name in ("=SUM(A1)", "-", "'t Hooft", "''=x", "Zoë", "Kim;=2+3;", "North - East")]
    ["'=SUM(A1)", "'-", "'t Hooft", "'''=x", 'Zoë', "Kim;'=2+3;", 'North - East']
    """
    if not _ANY.search(of_kind("a name is a text", str, name)):
        return name
    inside = _WITHIN.sub(_more, name)
    return "'" + inside if _needs_apostrophe(inside) else inside


def from_cell(cell: str) -> str:
    """The name that `to_cell` made the cell of: an apostrophe is dropped at each place where that puts one.

    >>> [from_cell(cell) for cell in ("'=SUM(A1)", "'-", "'t Hooft", "''=x", "Zoë", "=SUM(A1)", "Kim;'=2+3;")]
    ['=SUM(A1)', '-', "'t Hooft", "'=x", 'Zoë', '=SUM(A1)', 'Kim;=2+3;']
    """
    inside = cell[1:] if of_kind("a cell is a text", str, cell).startswith("'") and _needs_apostrophe(cell) else cell
    return _WITHIN.sub(_less, inside)


def csv_row(cells: Iterable[object], quoted: str = ',;"\t\r\n') -> str:
    """A row of a CSV file with commas and LF; cells with one of these signs are quoted, as with a semicolon or a tab."""
    texts = (str(cell) for cell in cells)
    return ",".join('"' + text.replace('"', '""') + '"' if any(c in text for c in quoted) else text for text in texts) + "\n"


def write_key(names: Names) -> bytes:
    """The bytes of the key of these names; `read_key` reads them back exactly.

    >>> write_key(Names.of(["Köln"], [("=Kim", "7")])).decode()
    "P,koln,Köln\\nR,kim,'=Kim,7\\n"
    """
    of_kind("a key is written of Names", Names, names)
    return "".join(csv_row((member.side, member.docket_name, to_cell(member.name), *([to_cell(member.id)] if member.id else [])))
                   for member in names.members()).encode("utf-8")


def _delimiter(text: str) -> str:
    """The delimiter that most rows of a key have after their first letter."""
    starts = [line.lstrip('"')[1:3] for line in text.replace("\r", "\n").split("\n")]
    return max(",;\t", key=lambda sign: sum(sign in start for start in starts))


def read_key(data: bytes, encoding: Optional[str] = None) -> Names:
    """The names of a key of these bytes, in its order; the character set is found, or given.

    KeyFault, with row and cell, where a row is none of a key's, a docket's name stands twice on a side, or two members of
    a side can't be told apart; and for bytes that aren't in their character set.

    >>> read_key(b"\\xef\\xbb\\xbfP;koln;K\\xc3\\xb6ln;\\r\\n;;;\\r\\nR;kim;'=Kim;7\\r\\n").name("R", "kim")
    '=Kim'
    """
    of_kind("a key is bytes", bytes, data)
    try:
        text, _ = decode(data, encoding)
    except UnicodeDecodeError as error:
        raise KeyFault(0, f"the key isn't in {error.encoding}: byte {error.start + 1}") from error
    members: List[Member] = []
    numbers: List[int] = []
    try:
        for number, row in rows(text, _delimiter(text)):
            while row and not row[-1]:
                row.pop()
            if row:
                members.append(_member(number, row))
                numbers.append(number)
    except BadQuotes as fault:
        raise KeyFault(fault.row, fault.text, fault.cell) from fault
    return Names(members, numbers)


def _member(number: int, row: List[str]) -> Member:
    if row[0] not in (PROGRAMME, RESIDENT):
        raise KeyFault(number, "a row begins with P or R", 1)
    if len(row) not in (3, 4):
        raise KeyFault(number, "a row has P or R, the docket's name, the name and maybe an ID")
    if not is_name(row[1]):
        raise KeyFault(number, "that is no docket's name", 2)
    return Member(row[0], row[1], from_cell(row[2]), from_cell(row[3]) if len(row) == 4 else "")
