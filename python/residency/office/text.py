"""The text of a saved table: its bytes, the character set that they are in, and what is broken in it; and texts of an office's own."""
import codecs
import re
import unicodedata
from dataclasses import dataclass, field
from typing import IO, Any, Callable, Dict, Iterator, List, Optional, Tuple

from ..text import decode
from .faults import Fault, Faults, OfficeError, Remedy
from .languages import sections
from .spelling import OWN, is_sound, likeness, names_beyond_ascii, odd_words

MOST_BYTES = 256 << 20
# What people call a character set.
TITLES = sections("words.txt")["TITLES"]
OF_UTF8 = re.compile(rb"[\xc2-\xdf][\x80-\xbf]|[\xe0-\xef][\x80-\xbf]{2}|[\xf0-\xf4][\x80-\xbf]{3}")
# The sets that tables are most often in, where they aren't found; so many of them are told.
OTHER_SETS = tuple(OWN)
MOST_SETS = 4
LINE_END = re.compile(r"\r\n|\r|\n")
# What begins a line that says nothing, and the settings that are said of every letter.
REMARK, TEXTS = "#", ("sender", "appeals", "signature")


@dataclass
class Text:
    """A file's text, the character set that it was read in, and what is worth a note."""

    text: str
    encoding: str
    notes: List[Fault] = field(default_factory=list)

    def title(self) -> str:
        return title_of(self.encoding)


def title_of(encoding: str) -> str:
    return TITLES.get(encoding.lower().replace("_", "-"), encoding)


def no_letter(text: str, but: str = "") -> str:
    """The first character of a text that is no letter, such as one that steers a terminal or ends a line, but for some; or no text."""
    kinds = ("Cc", "Cs", "Co", "Cn", "Zl", "Zp")
    return "" if text.isprintable() else next((c for c in text if c not in but and unicodedata.category(c) in kinds), "")


def own_lines(text: str, label: str, faults: Faults) -> Iterator[Tuple[int, str, str, str]]:
    """The lines of a file of an office's own, but for blank ones and remarks: each one's number, what stands before its first `=`, that
    sign, and what stands after it. A character that is no letter is a fault, in a remark too; a tab is one within what is said alone."""
    for number, line in enumerate(LINE_END.split(text.lstrip("\ufeff")), 1):
        name, mark, said = (part.strip() for part in line.partition("="))
        is_remark = name.startswith(REMARK)
        if letter := no_letter(line, "\t") or no_letter("" if is_remark else said):
            faults.tell("file.no-letter", label, number, None, {"letter": letter})
        if (name or mark) and not is_remark:
            yield number, name, mark, said


def refuse_odd(said: Dict[str, Any], at: str = "") -> None:
    """OfficeError for a text with a character that is no letter, among settings by their names, or in a manifest: one of an office's own,
    or of how its tables were read."""
    reading = said.get("reading")
    parts = [{name: part.get(name) for name in ("title", *TEXTS)} for part in (said, said.get("letter")) if isinstance(part, dict)]
    parts += filter(lambda part: isinstance(part, dict), reading.values() if isinstance(reading, dict) else ())
    for name, value in (each for part in parts for each in part.items()):
        for text in value if isinstance(value, list) else [value]:
            if isinstance(text, str) and (letter := no_letter(text, "\t" if name == "delimiter" else "")):
                raise OfficeError("setting.no-letter", 3, at, name=name, letter=letter)


def bytes_of(path: str) -> bytes:
    """A file's bytes. OfficeError where it can't be read, or is larger than any table."""
    try:
        with open(path, "rb") as file:
            return at_most(file, path)
    except OSError as error:
        raise OfficeError("file.unread", 1, path, cause=(error.strerror or str(error)).lower()) from None
    except ValueError:
        raise OfficeError("file.no-path", 1, path) from None


def at_most(file: IO[bytes], at: str) -> bytes:
    """All of an open file. OfficeError where that is larger than any table."""
    data = file.read(MOST_BYTES + 1)
    if len(data) > MOST_BYTES:
        raise OfficeError("file.too-large", 1, at, megabytes=MOST_BYTES >> 20)
    return data


def known_encoding(name: str) -> str:
    """The name by which Python knows a character set. OfficeError for one that it doesn't know, or that is none."""
    try:
        "Kim".encode(name)
        return codecs.lookup(name).name
    except (LookupError, ValueError, TypeError):
        raise OfficeError("setting.encoding", 2, text=name) from None


def readings(data: bytes, is_heading: Callable[[str], bool]) -> List[Tuple[str, List[str]]]:
    """The sets that read these bytes without a fault, each with three names as it reads them: the likeliest first."""
    found = []
    for order, name in enumerate(OTHER_SETS):
        try:
            names = names_beyond_ascii(data.decode(name), is_heading)
        except UnicodeError:
            continue
        if names:
            found.append((-likeness(names, name), order, name, names[:3]))
    return [(name, names) for _, _, name, names in sorted(found)[:MOST_SETS]]


def table_text(data: bytes, table: str, encoding: Optional[str], faults: Faults, is_heading: Callable[[str], bool]) -> Text:
    """A table's bytes as text. Where they are neither UTF-8 nor UTF-16, the first names with letters that aren't ASCII are
    noted; and where these aren't written as names are, the set has to be named."""
    told = len(faults)
    text = decoded(data, table, encoding, faults)
    if len(faults) > told:
        return text
    # What is whole in UTF-8 is that, whatever its letters; what is ASCII may be something else.
    is_sure = text.title().startswith("UTF") and not text.text.isascii()
    odd = odd_words(text.text) if encoding is None and not is_sure else []
    if odd:
        sets = readings(data, is_heading)
        values = {"title": text.title(), "words": odd, "table": table, "sets": sets}
        faults.tell("file.set", table, None, None, values, remedies=[Remedy("encoding", set_name, table) for set_name, _ in sets])
        return Text("", text.encoding)
    names = [] if text.title().startswith("UTF") or text.text.isascii() else sorted(names_beyond_ascii(text.text, is_heading), key=is_sound)[:3]
    if names:
        text.notes.append(Fault("note.set", table, None, None, [], {"title": text.title(), "names": names, "table": table}))
    return text


def decoded(data: bytes, table: str, encoding: Optional[str], faults: Faults) -> Text:
    """These bytes as text, in the character set that is named or else found. What is no letter in it is a fault."""
    try:
        text, found = decode(data, encoding)
        # Where most letters with accents are whole in UTF-8, it is a file of UTF-8 with a few broken bytes; in another
        # set each of these letters would be two or three odd ones.
        broken = sum(byte > 127 for byte in OF_UTF8.sub(b"", data)) if encoding is None and found in ("cp1252", "latin-1") else len(data)
        if len(OF_UTF8.findall(data)) > broken:
            data.decode("utf-8")
    except UnicodeDecodeError as error:
        tell_broken(data, error, table, faults)
        return Text("", error.encoding)
    except UnicodeError as error:
        faults.tell("file.no-text", table, 1, 1, {"title": title_of(encoding or "utf-8"), "error": str(error)})
        return Text("", encoding or "utf-8")
    return Text(text[1:] if text.startswith("\ufeff") else text, found)


def tell_broken(data: bytes, error: UnicodeDecodeError, table: str, faults: Faults) -> None:
    """Tells where bytes are no letter, by the row and cell that they stand in."""
    title = title_of(error.encoding)
    before = error.object[:error.start].decode(error.encoding, "replace")
    lines = LINE_END.split(before)
    cell = 1 + max(lines[-1].count(mark) for mark in ",;\t")
    if error.end >= len(error.object) and title.startswith("UTF"):
        faults.tell("file.cut", table, len(lines), cell, {"title": title})
    else:
        values = {"byte": error.object[error.start:error.start + 1].hex(), "title": title}
        faults.tell("file.byte", table, len(lines), cell, values, remedies=[Remedy("encoding", encoding, table) for encoding in OTHER_SETS[:4]])
