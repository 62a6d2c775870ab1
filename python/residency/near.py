"""The known name that a misspelt one is likely to be."""
from __future__ import annotations

import unicodedata
from typing import Dict, Iterable, List, Optional, Set, Tuple

# Where much is wrong, near names are looked for so often and no more.
MOST_NEAR = 100
# Names of fewer letters than this are near only where they differ in accents or case.
_SHORT, _LONG = 4, 8
# Of names that share a third of their letters with a misspelt one, so many are looked at.
_MOST_ALIKE = 40


def folded(name: str) -> str:
    """A name without accents, capitals and signs: its words with one space between them.

    >>> folded("  Zoë O'Connor–Smith ")
    'zoe o connor smith'
    """
    plain = unicodedata.normalize("NFKD", name.casefold())
    return " ".join("".join(c if c.isalnum() else "" if unicodedata.combining(c) else " " for c in plain).split())


def edits(text: str, other: str, most: int) -> int:
    """How many letters must be put in, taken out, changed or swapped with the next to make the other; `most` + 1 for more.

    >>> edits("south", "sout", 2), edits("jonh", "john", 2), edits("kwame", "fatima", 2)
    (1, 1, 3)
    """
    far = most + 1
    if abs(len(text) - len(other)) > most:
        return far
    before: List[int] = []
    last = [min(j, far) for j in range(len(other) + 1)]
    for i, c in enumerate(text, 1):
        row = [min(i, far)] + [far] * len(other)
        for j in range(max(1, i - most), min(len(other), i + most) + 1):
            cost = min(last[j] + 1, row[j - 1] + 1, last[j - 1] + (c != other[j - 1]))
            if i > 1 and j > 1 and c == other[j - 2] and text[i - 2] == other[j - 1]:
                cost = min(cost, before[j - 2] + 1)
            row[j] = min(cost, far)
        if min(row) > most:
            return far
        before, last = last, row
    return last[-1]


def _thirds(size: int) -> Tuple[Tuple[int, int], ...]:
    return tuple((size * i // 3, size * (i + 1) // 3) for i in range(3))


def _digits(text: str) -> str:
    return "".join(c for c in text if c.isdigit())


class NearNames:
    """Finds the one known name that a misspelt one is likely to be, in a time that doesn't grow with how many there are.

    Two edits leave a third of a name as it was, so names are found by their thirds.

    >>> names = NearNames(["Kovács, Fatima", "Kovács, Anna", "Programme 1", "Programme 2"])
    >>> names.near("kovacs, anna"), names.near("Anna Kovács"), names.near("Kovacs, Ana"), names.near("Kovács, Kwame")
    ('Kovács, Anna', 'Kovács, Anna', 'Kovács, Anna', None)
    >>> names.near("Programme 3")
    """

    def __init__(self, known: Iterable[str], most: Optional[int] = None) -> None:
        """Over these names; after `most` questions, where it is given, the answer is None, since a person reads no more."""
        self._left = most
        self._names: List[str] = []
        self._folded: List[str] = []
        self._whole: Dict[str, Set[int]] = {}
        self._words: Dict[str, Set[int]] = {}
        self._thirds: Dict[Tuple[int, int, str, str], List[int]] = {}
        for name in known:
            plain = folded(name)
            index = len(self._names)
            self._names.append(name)
            self._folded.append(plain)
            self._whole.setdefault(plain, set()).add(index)
            self._words.setdefault(" ".join(sorted(plain.split())), set()).add(index)
            for third, (start, end) in enumerate(_thirds(len(plain))):
                alike = self._thirds.setdefault((len(plain), third, plain[start:end], _digits(plain)), [])
                if len(alike) < _MOST_ALIKE:
                    alike.append(index)

    def near(self, name: str) -> Optional[str]:
        """The known name that differs in accents, case or the order of words alone, else in one letter, else in two.

        None where there is no such name, or more than one of those looked at; and of names whose digits differ none is
        near another.
        """
        if self._left is not None:
            self._left -= 1
            if self._left < 0:
                return None
        plain = folded(name[:200])
        for found in (self._whole.get(plain), self._words.get(" ".join(sorted(plain.split())))):
            if found and plain:
                return self._only(found)
        most = 0 if len(plain) < _SHORT else 1 if len(plain) < _LONG else 2
        by_edits: Dict[int, Set[int]] = {}
        for index in self._alike(plain, most):
            by_edits.setdefault(edits(plain, self._folded[index], most), set()).add(index)
        best = min(by_edits, default=most + 1)
        return self._only(by_edits[best]) if best <= most else None

    def _only(self, found: Set[int]) -> Optional[str]:
        return self._names[next(iter(found))] if len(found) == 1 else None

    def _alike(self, plain: str, most: int) -> Set[int]:
        """Those that share a third with a name, at nearly the same place, and all digits."""
        found: Set[int] = set()
        digits = _digits(plain)
        for size in range(max(len(plain) - most, 1), len(plain) + most + 1) if most else ():
            for third, (start, end) in enumerate(_thirds(size)):
                for by in range(-most, most + 1):
                    if 0 <= start + by and end + by <= len(plain):
                        found.update(self._thirds.get((size, third, plain[start + by:end + by], digits), ()))
        return found
