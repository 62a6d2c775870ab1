"""The records of a docket's bytes as the program reads them, and what its words and numbers are."""
from __future__ import annotations

import re
from typing import Iterator, List, Optional, Tuple

from . import text
from .ordered import of_kind

BYTE_ORDER_MARK = b"\xef\xbb\xbf"
_NAME = re.compile(r"[A-Za-z0-9._-]{1,32}\Z")
_NUMBER = re.compile(r"[0-9]{1,9}\Z")
_PLAIN = re.compile(r"[^,\r\n]*")
_LINE = re.compile(r"[^\r\n]+")


def is_name(text: str) -> bool:
    """Whether the text is a docket's name: 1 to 32 of A-Z, a-z, 0-9, `-`, `_` and `.`."""
    return _NAME.match(text) is not None


def number_of(text: str) -> Optional[int]:
    """The number that 1 to 9 digits write; None for any other text."""
    return int(text) if _NUMBER.match(text) else None


def capacity_of(text: str) -> Optional[int]:
    """The capacity that a C row writes: 0 for `full`, else 1 to 1,024; None for any other text."""
    if text == "full":
        return 0
    number = number_of(text)
    return number if number is not None and 1 <= number <= 1024 else None


def workers_of(text: str) -> Optional[int]:
    """The number of workers, 1 to 8, that a text writes; None for any other text."""
    number = number_of(text)
    return number if number is not None and 1 <= number <= 8 else None


def _quoted(text: str, at: int) -> Tuple[str, int]:
    """The field whose opening quote stands before `at`, and the place after it: text after its closing quote belongs to
    it, and without a closing quote all that is left does."""
    parts: List[str] = []
    while True:
        end = text.find('"', at)
        if end < 0:
            return "".join(parts) + text[at:], len(text)
        parts.append(text[at:end])
        if not text.startswith('"', end + 1):
            tail = _PLAIN.match(text, end + 1)
            assert tail is not None
            return "".join(parts) + tail.group(), tail.end()
        parts.append('"')
        at = end + 2


def _field(text: str, at: int) -> Tuple[str, int]:
    """The field that begins at a place, and the place after it."""
    if text.startswith('"', at):
        return _quoted(text, at + 1)
    plain = _PLAIN.match(text, at)
    assert plain is not None
    return plain.group(), plain.end()


def _record(text: str, at: int) -> Tuple[List[str], int]:
    """The record that begins at a place, which is at no line's end, and the place after it."""
    fields = []
    while True:
        field, at = _field(text, at)
        fields.append(field)
        if not text.startswith(",", at):
            return fields, at
        at += 1


def records(data: bytes) -> Iterator[List[str]]:
    """The records of these bytes as the program reads them: the fields of each, a letter for each byte (Latin-1).

    A byte order mark at the start is none of them, lines end by CR, LF or both, and lines without a field are no records.

    >>> list(records(b'\\xef\\xbb\\xbfQ,north,1\\r\\rP,"no""rth",kim\\n'))
    [['Q', 'north', '1'], ['P', 'no"rth', 'kim']]
    """
    of_kind("a docket is bytes", bytes, data)
    letters = data[len(BYTE_ORDER_MARK) if data.startswith(BYTE_ORDER_MARK) else 0:].decode("latin-1")
    at = 0
    while at < len(letters):
        line = _LINE.match(letters, at)
        if line is None:
            at += 1
        elif '"' in line.group():
            fields, at = _record(letters, at)
            yield fields
        else:
            at = line.end()
            yield line.group().split(",")


def shown(field: str, most: int = 60) -> str:
    """A field of `records` as a terminal may show it: its characters where it is UTF-8, no control characters, not long.

    >>> shown("Zo\\xc3\\xab"), shown("\\x1b[2J\\xff"), shown("a" * 100, 5)
    ('Zoë', '\\\\x1b[2J\\\\xff', 'aaaaa…')
    """
    cut = field[:4 * most + 4]
    try:
        read = cut.encode("latin-1").decode("utf-8", "strict" if len(cut) == len(field) else "ignore")
    except UnicodeError:
        read = "".join(c if c.isascii() else f"\\x{ord(c):02x}" for c in cut)
    return text.shown(read, most)
