"""Whether names that are read in Windows-1252 have the letters that names in it usually have.

A file doesn't say which of the many sets of one byte a letter it is in. Nearly every file can be read in Windows-1252, so what
tells is whether the names that come out are written as names are: `Dvo\u00f8\u00e1k` isn't, since no language has `\u00f8` beside `\u00e1`.
"""
import re
import unicodedata
from typing import Callable, Dict, Iterator, List, Sequence, Set

from .languages import sections

CELL = re.compile(r'[^,;|"\t\r\n]+')
# Which letters beyond ASCII are usual in names of Western Europe. Not among them are Icelandic ones, which stand for Turkish
# and Baltic ones of other sets, and those that stand for Hungarian ones.
USUAL = set("áàâäåãæçéèêëíìîïñóòôöõøúùüßœšž")
# What letters beyond ASCII are usual in names where a set is used; of a set that isn't here all letters are.
OWN = sections("words.txt")["SETS"]
# So many names are looked at.
MOST_LOOKED = 200
EDGES = "“”„«»…‘’'\"()[]{}.,:!?*–—-&/+#"
INSIDE = set("’‘´·–—ªº°" + "'`-.&/()+#:!?*_@=<>[]{}%$~^\\")
NORDIC, GRAVE = set("åæø"), set("àèìòù")
# What can stand beside Nordic letters, and what can't beside those of the West Slavs.
BESIDE_NORDIC, NOT_BESIDE_SLAVIC = set("åæøéöäü"), set("àèìòùïøæåñõãâêîœ")
UNUSUAL = re.compile(
    "[àèòù][aeiouyáéíóú]|ì.|õ[^e]|õ$|ã[^oe]|œ[^ud]|œ$|iæ"
    r"|[a-zß-ÿ][–—][a-zß-ÿ]|[a-zß-ÿ]{3}[’‘](?!s$)[a-zß-ÿ]|[^mdnsrº.0-9]º|[^mdnsrª.0-9]ª|[ªº].", re.IGNORECASE)
# A letter beyond ASCII as UTF-7 packs it, and what turns ISO-2022 to another alphabet.
PACKED = re.compile(r"[A-Za-z]{0,30}\+A[A-Z][A-Za-z0-9+/]{1,6}-[a-z]{0,30}|\x1b[$(][@-J][!-~]*")


def words_beyond_ascii(text: str) -> Iterator[str]:
    """Each word of a text with a letter or sign that isn't ASCII."""
    return (word for word in re.findall(r'[^\s,;|"]+', text) if not word.isascii())


def is_odd(word: str) -> bool:
    """Whether a word isn't written as names of Western Europe are."""
    bare = word.strip(EDGES)
    plain = bare.lower()
    letters = [c for c in plain if c not in INSIDE and not (c.isascii() and c.isdigit())]
    beyond = {c for c in letters if not c.isascii()}
    if not beyond <= USUAL or not all(c.isalpha() for c in letters):
        return True
    if len(letters) > 1 and 2 * sum(not c.isascii() for c in letters) > len(letters):
        return True
    inside_capital = any(c.isupper() and not c.isascii() and before.islower() for before, c in zip(bare, bare[1:]))
    return inside_capital or bool(UNUSUAL.search(plain)) or not goes_together(plain, beyond)


def goes_together(plain: str, beyond: Set[str]) -> bool:
    """Whether some language has all of these letters in one word."""
    if beyond & NORDIC and beyond - BESIDE_NORDIC:
        return False
    if beyond & set("šž") and beyond & NOT_BESIDE_SLAVIC:
        return False
    # A grave accent ends a word where it is the only one; within words French has it beside an acute.
    return not (plain[-1:] in GRAVE and len([c for c in plain if not c.isascii()]) > 1)


def odd_words(text: str, most: int = 3) -> List[str]:
    """The first words that aren't written as names are; those that UTF-7 or ISO-2022 packs into ASCII count too."""
    found: List[str] = PACKED.findall(text)[:most] if text.isascii() else []
    for word in words_beyond_ascii(text):
        if word not in found and is_odd(word):
            found.append(word)
            if len(found) == most:
                break
    return found


def names_beyond_ascii(text: str, is_heading: Callable[[str], bool]) -> List[str]:
    """The first cells below the first row with letters that aren't ASCII and that are no headings."""
    cells = (cell.group().strip() for cell in CELL.finditer(text, text.find("\n") + 1))
    names: Dict[str, None] = {}
    for name in cells:
        if not name.isascii() and name not in names and not is_heading(name):
            names[name] = None
            if len(names) == MOST_LOOKED:
                break
    return list(names)


def is_sound(name: str) -> bool:
    """Whether each word of a name is written as names of Western Europe are."""
    return not any(map(is_odd, words_beyond_ascii(name)))


def likeness(names: Sequence[str], encoding: str) -> float:
    """How many of the letters beyond ASCII in these names are usual where a set is used, less those that stand where none does: signs,
    capitals within a word, words of accents alone, and letters of another script in a word of plain ones."""
    words = [word for name in names for word in words_beyond_ascii(name)]
    usual, good, count = OWN.get(encoding, ""), 0.0, 0
    for word in words:
        beyond = [c for c in word if not c.isascii()]
        is_latin = ["LATIN" in unicodedata.name(c, "") for c in beyond]
        count += len(beyond)
        good += sum(c.lower() in usual if usual else 0.9 * c.isalpha() for c in beyond) - sum(not c.isalpha() for c in beyond)
        good -= sum(before.islower() and after.isupper() for before, after in zip(word, word[1:]))
        is_alone = len(beyond) == len([c for c in word if c.isalpha()])
        is_wrong = is_alone and len(beyond) > 2 if all(is_latin) else any(is_latin) or not is_alone
        good -= len(beyond) * is_wrong
    return good / max(count, 1)
