"""What the program answers, in the caller's names: frozen dataclasses for a match, an audit, a replay and a why."""
from __future__ import annotations

from dataclasses import asdict, dataclass
from html import escape
from typing import Dict, List, Mapping, Optional, Sequence, Tuple

from .errors import UnknownMember
from .near import NearNames
from .ordered import as_name
from .text import counted, shown

# The rows that a notebook shows of an answer.
_MOST_ROWS = 10
# A row of a table by its columns: what `pandas.DataFrame` and `csv.DictWriter` take.
Row = Dict[str, object]


def _html(said: str, rows: Sequence[Row]) -> str:
    """What is said of an answer, and a table of its first ten rows with how many more there are; nothing of it is markup."""
    head = "".join(f"<th>{escape(name.replace('_', ' '))}</th>" for name in (rows[0] if rows else ()))
    body = "".join("<tr>" + "".join(f"<td>{_cell(cell)}</td>" for cell in row.values()) + "</tr>" for row in rows[:_MOST_ROWS])
    more = len(rows) - _MOST_ROWS
    after = f"<p>and {more:,} more</p>" if more > 0 else ""
    table = f"<table><thead><tr>{head}</tr></thead><tbody>{body}</tbody></table>" if rows else ""
    return f"<div><p>{escape(said)}</p>{table}{after}</div>"


def _cell(cell: object) -> str:
    return "&ndash;" if cell is None else escape(shown(str(cell), 200))


@dataclass(frozen=True, repr=False)
class Match:
    """A match. `places` has the programme of each resident, or None, in the residents' order; `filled` how many places
    each programme has given, in the programmes' order, and `quotas` how many it has. `sheet` and `journal` are the bytes
    that the program wrote, in the docket's names; the journal is empty where none was asked for.

    >>> match = Match({"Kim": "North", "Lee": None}, {"North": 1}, {"North": 1}, b"")
    >>> match
    <Match of 2 residents: 1 matched, 1 unmatched; 1 of 1 place filled>
    >>> match.to_rows()
    [{'resident': 'Kim', 'programme': 'North'}, {'resident': 'Lee', 'programme': None}]
    """

    places: Mapping[str, Optional[str]]
    filled: Mapping[str, int]
    quotas: Mapping[str, int]
    sheet: bytes
    journal: bytes = b""

    @property
    def unmatched(self) -> Tuple[str, ...]:
        """The residents without a programme."""
        return tuple(r for r, p in self.places.items() if p is None)

    def residents_of(self, programme: str) -> Tuple[str, ...]:
        """The residents matched with a programme, in the residents' order; UnknownMember, a KeyError, where there is none of
        that name.

        >>> Match({"Kim": "City"}, {"City": 1}, {"City": 1}, b"").residents_of("Ctiy")
        Traceback (most recent call last):
            ...
        residency.errors.UnknownMember: no programme is named Ctiy; is it City?
        """
        name = as_name(programme)
        if not isinstance(name, str) or name not in self.quotas:
            raise UnknownMember("programme", name, NearNames(self.quotas).near(name) if isinstance(name, str) else None)
        return tuple(r for r, p in self.places.items() if p == name)

    def _said(self) -> str:
        left = len(self.unmatched)
        return (f"Match of {counted(len(self.places), 'resident')}: {len(self.places) - left:,} matched, {left:,} unmatched; "
                f"{sum(self.filled.values()):,} of {counted(sum(self.quotas.values()), 'place')} filled")

    def __repr__(self) -> str:
        return f"<{self._said()}>"

    def _repr_html_(self) -> str:
        return _html(self._said(), self.to_rows())

    def to_dict(self) -> Dict[str, object]:
        """All of it as `json.dumps` takes it; the sheet and the journal as text."""
        return {"places": dict(self.places), "filled": dict(self.filled), "quotas": dict(self.quotas),
                "unmatched": list(self.unmatched), "sheet": self.sheet.decode("ascii"), "journal": self.journal.decode("ascii")}

    def to_rows(self) -> List[Row]:
        """A row for each resident, in their order: `resident` and `programme`, which is None for the unmatched."""
        return [{"resident": resident, "programme": programme} for resident, programme in self.places.items()]


@dataclass(frozen=True, repr=False)
class Audit:
    """What an audit says of a sheet: `stable`, or every cause why not.

    `unacceptable` and `blocking` have pairs (resident, programme); `over_quota` has (programme, filled, quota).

    >>> Audit(False, blocking=(("Kim", "North"),))
    <Audit: unstable; 1 blocking pair, 0 unacceptable pairs, 0 programmes over quota>
    """

    stable: bool
    unacceptable: Tuple[Tuple[str, str], ...] = ()
    over_quota: Tuple[Tuple[str, int, int], ...] = ()
    blocking: Tuple[Tuple[str, str], ...] = ()

    def _said(self) -> str:
        if self.stable:
            return "Audit: stable"
        return (f"Audit: unstable; {counted(len(self.blocking), 'blocking pair')}, "
                f"{counted(len(self.unacceptable), 'unacceptable pair')}, "
                f"{counted(len(self.over_quota), 'programme')} over quota")

    def __repr__(self) -> str:
        return f"<{self._said()}>"

    def _repr_html_(self) -> str:
        return _html(self._said(), self.to_rows())

    def to_dict(self) -> Dict[str, object]:
        """All of it as `json.dumps` takes it: `stable`, and lists of causes, each by its parts' names."""
        def pairs(found: Tuple[Tuple[str, str], ...]) -> List[Row]:
            return [{"resident": resident, "programme": programme} for resident, programme in found]

        return {"stable": self.stable, "unacceptable": pairs(self.unacceptable),
                "over_quota": [{"programme": programme, "filled": filled, "quota": quota}
                               for programme, filled, quota in self.over_quota],
                "blocking": pairs(self.blocking)}

    def to_rows(self) -> List[Row]:
        """A row for each cause, in the program's order; none where it is stable. A column that has no part in it is None."""
        rows: List[Row] = [_cause("unacceptable", resident, programme) for resident, programme in self.unacceptable]
        rows += [_cause("over quota", None, programme, filled, quota) for programme, filled, quota in self.over_quota]
        return rows + [_cause("blocking", resident, programme) for resident, programme in self.blocking]


def _cause(cause: str, resident: Optional[str], programme: str, filled: Optional[int] = None,
           quota: Optional[int] = None) -> Row:
    return {"cause": cause, "resident": resident, "programme": programme, "filled": filled, "quota": quota}


@dataclass(frozen=True, repr=False)
class Replay:
    """What a replay says of a journal: `good` with the number of its `events` (and those `by_worker`), or why not.

    A refused event has its `place` among the events from 1 and the `word` (`not-next`); of a refused close `pending` is
    what was left to do and `at` at whom. `differs` is the first resident at whom the sheet differs from a good journal.

    >>> Replay(True, 9), Replay(False, place=3, word="not-next"), Replay(False, differs="Kim")
    (<Replay: good; 9 events>, <Replay: event 3 may not follow, not-next>, <Replay: the sheet differs at Kim>)
    """

    good: bool
    events: Optional[int] = None
    by_worker: Tuple[int, ...] = ()
    place: Optional[int] = None
    word: Optional[str] = None
    pending: Optional[str] = None
    at: Optional[str] = None
    differs: Optional[str] = None

    def _said(self) -> str:
        if self.good:
            by = f" by {counted(len(self.by_worker), 'worker')}" if self.by_worker else ""
            return f"Replay: good; {counted(self.events or 0, 'event')}{by}"
        if self.differs is not None:
            return f"Replay: the sheet differs at {shown(self.differs)}"
        pending = f", {self.pending} at {shown(self.at or '')}" if self.pending is not None else ""
        return f"Replay: event {self.place:,} may not follow, {self.word}{pending}"

    def __repr__(self) -> str:
        return f"<{self._said()}>"

    def _repr_html_(self) -> str:
        return _html(self._said(), self.to_rows() if self.by_worker else [])

    def to_dict(self) -> Dict[str, object]:
        """All of it as `json.dumps` takes it."""
        return {**asdict(self), "by_worker": list(self.by_worker)}

    def to_rows(self) -> List[Row]:
        """A row for each worker that the journal names, with its `events`; else one row of all that `to_dict` has."""
        if self.by_worker:
            return [{"worker": worker, "events": events} for worker, events in enumerate(self.by_worker)]
        return [self.to_dict()]


@dataclass(frozen=True)
class Why:
    """Why a resident is, or isn't, with a programme.

    `choice` is the programme's place in the resident's list as written, and `answer` the word of the program's table.
    `rank` is the resident's place with the programme, `last_rank` that of the last whom it took and `quota` its places, each
    None where it doesn't belong to that answer. Of a programme that isn't on the list there is no row: `choice` and `answer`
    are None, and `text` is the program's sentence, in the caller's names.
    """

    resident: str
    programme: str
    text: str = ""
    choice: Optional[int] = None
    answer: Optional[str] = None
    rank: Optional[int] = None
    last_rank: Optional[int] = None
    quota: Optional[int] = None
