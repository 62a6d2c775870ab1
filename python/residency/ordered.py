"""What a caller gives as a list, a row or a dictionary: read where it has an order or keys, else told by what it is.

A Series of pandas and an array of numpy are known by what they offer, and neither is imported.
"""
from __future__ import annotations

import math
import operator
from collections.abc import Iterable, KeysView, Mapping, Set
from typing import Any, Dict, List, Optional

__all__ = ["NotRead", "as_dictionary", "as_items", "as_list", "as_name", "as_names", "is_nothing", "of_kind", "whole"]


class NotRead(TypeError):
    """Why a value isn't read, as the end of a sentence that began with whose it is."""


def of_kind(what: str, kind: Any, value: Any) -> Any:
    """The value, where it is of this kind (a type, or several); else NotRead says what was wanted and what was given.

    >>> of_kind("a docket is bytes", bytes, "Q,north,1")
    Traceback (most recent call last):
        ...
    residency.ordered.NotRead: a docket is bytes, and this is a str
    """
    if not isinstance(value, kind):
        raise NotRead(f"{what}, and this is {'an' if type(value).__name__[0] in 'aeiouAEIOU' else 'a'} {type(value).__name__}")
    return value


def whole(value: Any) -> Optional[int]:
    """The whole number that a value is, Python's own or a data frame's, a float among them; None for anything else.

    >>> whole(7), whole(7.0), whole(7.5), whole(True), whole("7")
    (7, 7, None, None, None)
    """
    is_own = isinstance(value, (int, float)) or not hasattr(value, "item") or getattr(value, "ndim", 0) != 0
    number = value if is_own else value.item()
    if isinstance(number, float):
        return int(number) if number.is_integer() else None
    try:
        return None if isinstance(number, bool) else operator.index(number)
    except TypeError:
        return None


def as_name(value: Any) -> Any:
    """A name: a text as Python's own, a whole number as its digits, as in a table's cells; anything else as it is.

    >>> as_name("Kim"), as_name(1042), as_name(None)
    ('Kim', '1042', None)
    """
    if isinstance(value, str):
        return str(value)
    number = whole(value)
    return value if number is None else str(number)


def is_nothing(value: object) -> bool:
    """Whether a value stands for an empty cell: None, NaN, or the NA of a data frame.

    >>> is_nothing(None), is_nothing(float("nan")), is_nothing(""), is_nothing(0)
    (True, True, False, False)
    """
    return value is None or isinstance(value, float) and math.isnan(value) or type(value).__name__ in ("NAType", "NaTType")


def as_list(value: Any, most_dimensions: int = 1) -> List[Any]:
    """The members of a list, a tuple, an iterator, a Series or an array of one dimension, in their order.

    An array of two is a list of rows where that many may be; a data frame is none, since it gives its columns' names.

    NotRead for a text, bytes, a set, a mapping, a table of more dimensions, and what has no members at all.

    >>> as_list(("b", "a")), as_list(iter("ab"))
    (['b', 'a'], ['a', 'b'])
    >>> as_list({"b", "a"})
    Traceback (most recent call last):
        ...
    residency.ordered.NotRead: a set has no order; give a list
    """
    if isinstance(value, str):
        raise NotRead("a text is no list")
    if isinstance(value, (bytes, bytearray, memoryview)):
        raise NotRead("bytes are no list")
    if isinstance(value, Mapping):
        raise NotRead("a mapping is no list")
    # The keys of a dictionary have its order.
    if isinstance(value, Set) and not isinstance(value, KeysView):
        raise NotRead("a set has no order; give a list")
    dimensions = getattr(value, "ndim", 1)
    if not 1 <= dimensions <= (1 if hasattr(value, "columns") else most_dimensions):
        raise NotRead(f"a table of {dimensions} dimensions is no list")
    if not isinstance(value, Iterable):
        raise NotRead(f"{type(value).__name__} is no list")
    return list(value)


def as_names(value: Any) -> List[Any]:
    """The members of a list or of a set, whose order means nothing here; those of a set come sorted. NotRead as `as_list`."""
    return sorted(value, key=str) if isinstance(value, Set) else as_list(value)


def as_items(value: Any) -> List[Any]:
    """The members of a list, or the keys of a mapping, in their order; NotRead as `as_list`."""
    return list(value) if isinstance(value, Mapping) else as_list(value)


def as_dictionary(value: Any) -> Dict[Any, Any]:
    """A mapping, or a Series by its index, as a dictionary; NotRead for anything else and for a key that comes twice."""
    if isinstance(value, Mapping):
        return dict(value)
    if getattr(value, "ndim", 0) != 1 or not hasattr(value, "items"):
        raise NotRead(f"{type(value).__name__} is no dictionary")
    found: Dict[Any, Any] = {}
    for key, item in value.items():
        if key in found:
            raise NotRead(f"its index has {key!r} twice")
        found[key] = item
    return found
