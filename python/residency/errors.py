"""The exceptions of the package; each is a `ResidencyError`, and none stands for an empty result."""
from __future__ import annotations

from typing import Dict, Optional, Sequence, Tuple, Union

from .text import shown


class ResidencyError(Exception):
    """What every exception of the package is."""


def _in_part(lines: Sequence[str]) -> str:
    """The first twenty lines, and how many more there are."""
    more = len(lines) - 20
    return "\n".join([*lines[:20], *([f"and {more} more"] if more > 0 else [])])


class DocketFault(ResidencyError):
    """A fault of a docket, as the program tells it.

    `record` is the record's number from 1 (0 where the fault is of the whole docket, as `no sheet in the docket`),
    `field` the cell's number from 1 where one cell is at fault, else None, `text` the program's own words (`unknown
    name`), `name` what stands at fault there or None, and `detail` what a person needs besides. `line` is what the
    program says; `str()` adds the detail. Neither holds raw bytes.
    """

    def __init__(self, record: int, text: str, field: Optional[int] = None, name: Optional[str] = None,
                 detail: str = "") -> None:
        super().__init__(record, text, field, name, detail)
        self.record = record
        self.field = field
        self.text = text
        self.name = name
        self.detail = detail

    def to_dict(self) -> Dict[str, Union[int, str, None]]:
        """The fault as `json.dumps` takes it; `cell` is the field."""
        return {"record": self.record, "cell": self.field, "text": self.text, "name": self.name, "detail": self.detail, "line": str(self)}

    @property
    def line(self) -> str:
        """What the program says of it: `record 3: unknown name`."""
        return f"record {self.record}: {self.text}" if self.record else self.text

    def __str__(self) -> str:
        return f"{self.line} ({self.detail})" if self.detail else self.line


class MarketFault(ResidencyError, ValueError):
    """What is wrong with the dictionaries or rows of a market: all of it at once, in the caller's names.

    `faults` has a line for each; `str()` shows the first twenty of them and says how many more there are.
    """

    def __init__(self, faults: Sequence[str]) -> None:
        super().__init__(tuple(faults))
        self.faults: Tuple[str, ...] = tuple(faults)

    def __str__(self) -> str:
        return _in_part(self.faults)


class UnknownMember(ResidencyError, KeyError):
    """A name that no member of a side has: `who` is `programme` or `resident`, `name` what was given, and `near` the known
    name that is likely to be meant, or None."""

    def __init__(self, who: str, name: object, near: Optional[str] = None) -> None:
        super().__init__(who, name, near)
        self.who = who
        self.name = name
        self.near = near

    def __str__(self) -> str:
        told = shown(self.name) if isinstance(self.name, str) else shown(repr(self.name))
        return f"no {self.who} is named {told}" + (f"; is it {shown(self.near)}?" if self.near else "")


class NotValid(ResidencyError):
    """Places that are no valid match: pairs that aren't acceptable (`unacceptable`), and programmes over their places
    (`over_quota`), as an audit has them."""

    def __init__(self, unacceptable: Sequence[Tuple[str, str]], over_quota: Sequence[Tuple[str, int, int]]) -> None:
        super().__init__(tuple(unacceptable), tuple(over_quota))
        self.unacceptable: Tuple[Tuple[str, str], ...] = tuple(unacceptable)
        self.over_quota: Tuple[Tuple[str, int, int], ...] = tuple(over_quota)

    def __str__(self) -> str:
        lines = [f"{shown(resident)} and {shown(programme)} don't both rank one another, or one is withdrawn"
                 for resident, programme in self.unacceptable]
        lines += [f"{shown(programme)} has {filled} residents, over its quota of {quota}"
                  for programme, filled, quota in self.over_quota]
        return _in_part(lines)


class OtherOptimum(ResidencyError, ValueError):
    """An optimum that isn't answered: `wanted` is the word that was given, and `answered` the one to give."""

    def __init__(self, wanted: object, answered: str = "programmes") -> None:
        super().__init__(wanted, answered)
        self.wanted = wanted
        self.answered = answered

    def __str__(self) -> str:
        told = shown(self.wanted) if isinstance(self.wanted, str) else shown(repr(self.wanted))
        if self.wanted not in ("residents", "resident"):
            return f"there is no optimum {told}; {self.answered} is the one that is answered"
        return (f"the {told} optimum isn't answered: here programmes propose, so the match gives each programme its best "
                "achievable residents, and each resident its worst achievable programme. Where a market has several stable "
                f"matches, the residents' best is another one. optimal={self.answered!r} asks for the one that is answered")


class KeyFault(ResidencyError, ValueError):
    """A key that can't be read: `row` from 1 (0 for the whole file), `cell` from 1 or None, and `text`."""

    def __init__(self, row: int, text: str, cell: Optional[int] = None) -> None:
        super().__init__(row, text, cell)
        self.row = row
        self.cell = cell
        self.text = text

    def __str__(self) -> str:
        where = f"row {self.row}" + (f", cell {self.cell}" if self.cell else "")
        return f"{where}: {self.text}" if self.row else self.text


class ProgramError(ResidencyError):
    """The built program gave no answer."""


class ProgramMissing(ProgramError):
    """There is no built program, or it can't be started; the text says where it was looked for."""


class ProgramTimeout(ProgramError):
    """The program didn't end within `seconds`, and was stopped."""

    def __init__(self, program: str, seconds: float) -> None:
        super().__init__(program, seconds)
        self.program = program
        self.seconds = seconds

    def __str__(self) -> str:
        return f"{self.program} didn't end within {self.seconds:g} s"


class ProgramFailed(ProgramError):
    """The program ended with status 1 or 2: memory, a worker, reading or writing failed, or its words were wrong."""

    def __init__(self, status: int, text: str) -> None:
        super().__init__(status, text)
        self.status = status
        self.text = text

    def __str__(self) -> str:
        return f"the program ended with status {self.status}: {self.text}"


class UnknownStatus(ProgramError):
    """The program ended with a status, or wrote an answer, that it doesn't have: `status` (negative: a signal), `text`."""

    def __init__(self, status: int, text: str) -> None:
        super().__init__(status, text)
        self.status = status
        self.text = text

    def __str__(self) -> str:
        return f"unknown status {self.status} or answer of the program: {self.text}"
