"""The words of what the office hands out, in one language, from a file: a line for each phrase.

The English file says which phrases there are and which values each has; one of another language, or of an office's own, has the same.
"""
import html
import re
import unicodedata
from dataclasses import dataclass
from datetime import date
from functools import lru_cache
from pathlib import Path
from typing import Any, Callable, Dict, Iterable, Iterator, List, Mapping, Optional, Set, Tuple

from .faults import Faults, FaultsError, OfficeError
from .text import own_lines

FOLDER = Path(__file__).with_name("phrases")
ENGLISH = "en"
NEW_LINE = " | "
VALUE = re.compile(r"\{(\w+)(?::([^{}]*))?\}")
# A phrase's own words, and after each but the last a value's name and its forms, if any.
cut = lru_cache(1 << 12)(VALUE.split)
# By its word each way in which a language counts: how many forms it has, and which one goes with a number.
PLURALS: Dict[str, Tuple[int, Callable[[int], int]]] = {
    "one": (2, lambda number: int(number != 1)),
    "none-or-one": (2, lambda number: int(number > 1)),
    "slavic": (3, lambda number: 0 if number == 1 else 1 if 2 <= number % 10 <= 4 and not 12 <= number % 100 <= 14 else 2),
}
THOUSANDS = {"comma": ",", "dot": ".", "blank": "\u00a0", "narrow-blank": "\u202f", "none": ""}
ORDINALS, ORDINAL = "ordinals", re.compile(r"\*?[0-9]+|\*")
PLAIN = str.maketrans({"ß": "ss", "æ": "ae", "œ": "oe", "ø": "o", "ł": "l", "đ": "d", "ð": "d", "þ": "th", "ı": "i"})
# What sorts a letter behind all words with the one that it stands after.
BEHIND = "\uffff"


def parts(text: str, mark: str) -> List[str]:
    return [part.strip() for part in text.split(mark) if part.strip()]


def values_in(text: str) -> Set[str]:
    return {found[1] for found in VALUE.finditer(text)}


def pairs(text: str, mark: str) -> List[List[str]]:
    """Parts of two words each. ValueError for another."""
    found = [part.split(None, 1) for part in parts(text, mark)]
    if any(len(pair) != 2 for pair in found):
        raise ValueError(text)
    return found


class Phrases:
    """The phrases of one language."""

    def __init__(self, texts: Mapping[str, str]) -> None:
        self.texts = texts
        self.language, self.called = texts["language"], texts["called"]
        self.form = PLURALS[texts["plurals"]][1]
        self.months = parts(texts["months"], ",")
        self.ordinals = pairs(texts[ORDINALS], ";")
        after = pairs(texts["sorted-after"], ",")
        self.after = str.maketrans({letter: other + BEHIND * [earlier for _, earlier in after[:place + 1]].count(other)
                                    for place, (letter, other) in enumerate(after)})

    def say(self, key: str, **values: Any) -> str:
        """A phrase with its values; a number is written as the language does."""
        return self.filled(self.texts[key], values)

    def html(self, key: str, **values: Any) -> str:
        """A phrase as a part of a page, whose values are parts of a page already."""
        return self.filled(html.escape(self.texts[key], quote=False), values)

    def filled(self, text: str, values: Mapping[str, Any]) -> str:
        words = cut(text)
        said = words[:1]
        for at in range(1, len(words), 3):
            value, forms = values[words[at]], words[at + 1]
            said += (forms.split("|")[self.form(value)] if forms is not None else self.number(value) if isinstance(value, int) else str(value), words[at + 2])
        return "".join(said)

    def number(self, number: int) -> str:
        return f"{number:,}".replace(",", THOUSANDS[self.texts["thousands"]])

    def percent(self, count: int, whole: int) -> str:
        return self.say("percent", number=f"{100 * count / whole:.0f}")

    @lru_cache(1 << 12)
    def ordinal(self, number: int) -> str:
        digits = str(number)
        text = next(text for ending, text in self.ordinals if digits == ending or ending[0] == "*" and digits.endswith(ending[1:]))
        return self.filled(text, {"number": number})

    def day(self, day: date) -> str:
        return self.say("first-day" if day.day == 1 else "day", day=str(day.day), month=self.months[day.month - 1], year=str(day.year))

    def together(self, said: Iterable[str]) -> str:
        """Several parts of a sentence as one: `a`, `a and b`, `a, b, and c`."""
        *before, last = said
        return last if not before else self.say("several-together" if len(before) > 1 else "together", before=", ".join(before), last=last)

    @lru_cache(1 << 17)
    def alphabetical(self, name: str) -> Tuple[str, str]:
        """What names are sorted by: their letters without accents and capitals, then as they are."""
        plain = unicodedata.normalize("NFKD", unicodedata.normalize("NFC", name.casefold()).translate(self.after).translate(PLAIN))
        return "".join(c for c in plain if not unicodedata.combining(c)), name


def lines_of(text: str, label: str, known: Optional[Mapping[str, str]], faults: Faults) -> Iterator[Tuple[int, str, str]]:
    """Each phrase of a file with its line."""
    seen: Set[str] = set()
    for line, key, mark, said in own_lines(text, label, faults):
        what = ("file.phrase-line" if not mark else "file.phrase-unknown" if key not in (known or {key}) else "file.phrase-twice" if key in seen else "")
        if what:
            faults.tell(what, label, line, None, {"name": key})
        else:
            yield line, key, said
        seen.add(key)


def is_value(key: str, said: str) -> bool:
    """Whether a phrase that isn't a text says what it has to."""
    holds: Dict[str, Callable[[], bool]] = {
        "plurals": lambda: said in PLURALS,
        "thousands": lambda: said in THOUSANDS,
        "months": lambda: len(parts(said, ",")) == 12,
        "sorted-after": lambda: all(len(part) == 1 for pair in pairs(said, ",") for part in pair),
        ORDINALS: lambda: all(ORDINAL.fullmatch(ordinal) for ordinal, _ in pairs(said, ";")) and pairs(said, ";")[-1][0] == "*",
    }
    try:
        return holds[key]() if key in holds else True
    except (IndexError, ValueError):
        return False


def wrong(key: str, said: str, wanted: str, forms: int) -> str:
    """The code of what is wrong with a phrase, or no text."""
    if not is_value(key, said):
        return "file.phrase-value"
    if not said and wanted:
        return "file.phrase-empty"
    if values_in(said) != values_in(wanted) or re.search("[{}]", VALUE.sub("", said)):
        return "file.phrase-values"
    if any(found[2] is not None and len(found[2].split("|")) != forms for found in VALUE.finditer(said)):
        return "file.phrase-forms"
    return ""


def read_phrases(text: str, label: str) -> Phrases:
    """The phrases of a file's text. FaultsError with each that is missing, unknown or twice, or that has other values."""
    known, faults = english().texts, Faults()
    found = {key: (line, said) for line, key, said in lines_of(text, label, known, faults)}
    forms = PLURALS.get(found.get("plurals", (0, ""))[1], (2,))[0]
    for key, (line, said) in found.items():
        code = wrong(key, said, known[key], forms)
        if code:
            values = {"name": key, "forms": forms, "values": [f"{{{value}}}" for value in sorted(values_in(known[key]))]}
            faults.tell(code, label, line, None, values)
    missing = [key for key in known if key not in found]
    if missing:
        faults.tell("file.phrase-missing", label, None, None, {"names": missing})
    if len(faults):
        raise FaultsError(faults)
    return Phrases({key: said for key, (_, said) in found.items()})


def languages() -> List[str]:
    return sorted(path.stem for path in FOLDER.glob("*.txt"))


@lru_cache(maxsize=None)
def named(language: str) -> Phrases:
    """The phrases of a language that comes with the command. OfficeError where none has this name."""
    if language not in languages():
        raise OfficeError("words.language", 2, text=language, languages=languages())
    return read_phrases((FOLDER / f"{language}.txt").read_text(encoding="utf-8"), f"{language}.txt")


@lru_cache(maxsize=None)
def english() -> Phrases:
    text = (FOLDER / f"{ENGLISH}.txt").read_text(encoding="utf-8")
    return Phrases({key: said for _, key, said in lines_of(text, ENGLISH, None, Faults())})


@dataclass(frozen=True)
class Language:
    """In which words an office writes: a language that comes with the command, or the text of an office's own file of phrases; and
    the column, if any, that says it of each resident."""

    name: str = ENGLISH
    own: Optional[str] = None
    column: str = ""

    def phrases(self) -> Phrases:
        return named(self.name) if self.own is None else read_phrases(self.own, "manifest.json: phrases")

    def entry(self) -> Dict[str, Any]:
        """What a manifest keeps of it; nothing of English for all."""
        return {} if self == Language() else {"language": {word: value for word, value in vars(self).items() if value}}

    @classmethod
    def of(cls, manifest: Mapping[str, Any]) -> "Language":
        """What a manifest kept. ValueError for what `entry` doesn't give."""
        said = manifest.get("language", {})
        if not isinstance(said, dict) or not set(said) <= {"name", "own", "column"} or not all(isinstance(value, str) for value in said.values()):
            raise ValueError("language")
        return cls(**said)
