"""The words by which the columns of tables are known, in seven languages, from the file of them; and files of words in sections."""
from pathlib import Path
from typing import Dict, Tuple

from .. import text


def sections(name: str) -> Dict[str, Dict[str, str]]:
    """The sections of a file beside this one."""
    return text.sections(Path(__file__).with_name(name))


WORDS = sections("headings.txt")
# What ends a number that counts, and the words that count, each with the endings that it may have.
COUNTS: Dict[str, Tuple[str, str, str]] = {language: (words.pop("after"), words.pop("ordinals"), words.pop("endings")) for language, words in WORDS.items()}
# What stands in a column of those who withdrew: by the first word, yes; by the second, no. An empty cell is no.
YES = frozenset("yes y x true 1 ✓ ✔ ja j oui si tak evet withdrawn".split())
NO = frozenset("no n false 0 – — nein non nie hayir".split())
