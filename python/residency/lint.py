"""Every fault of a docket at once, in the order in which one mends them; the first is the one that the program tells."""
from __future__ import annotations

from typing import List

from .errors import DocketFault
from .passes import Passes
from .records import records


def lint(data: bytes) -> List[DocketFault]:
    """The faults of a docket of these bytes; an empty list says that the program reads it.

    A row at fault is taken for what it means to say as far as one can tell, so that it isn't the cause of others.

    >>> for fault in lint(b"Q,north,1,\\nP,north,kim,le e\\nR,kim,nort\\n"):
    ...     print(fault)
    record 1: wrong number of fields (4 cells, the last ones empty; Q has 3)
    record 2: bad name (cell 4: le e)
    record 3: unknown name (cell 3: nort; is it north?)
    """
    return list(Passes().faults(records(data)))
