"""The questions to the built program: a match, an audit, a replay, and why; each answered in the caller's names."""
from __future__ import annotations

from typing import TYPE_CHECKING, Dict, Mapping, Optional, Tuple, Union

from .answers import cut, read_audit, read_replay, rows_of
from .dictionaries import dictionary, told_name
from .docket import Docket, read_docket, sheet_rows
from .errors import DocketFault, MarketFault, NotValid, UnknownStatus
from .ordered import as_name, is_nothing, of_kind, whole
from .passes import NATIONAL, STANDARD
from .program import DEFAULT_TIMEOUT, run_program
from .records import records
from .results import Audit, Match, Replay, Why
from .text import shown

if TYPE_CHECKING:
    from .market import Market, Places

_WHY_COLUMNS = "resident,programme,choice,answer,rank,last_rank,quota"
# The kinds of records, and those of a sheet and of a journal.
_KINDS, _SHEET, _JOURNAL = tuple("VQPRWMUFCE"), tuple("MUF"), tuple("CE")


def match(market: Market, workers: int = 2, capacity: Optional[int] = None, journal: Union[bool, str] = False,
          timeout: float = DEFAULT_TIMEOUT) -> Match:
    """The match by the built program, with 1 to 8 workers and mailboxes of 1 to 1,024 places, or full ones for None.

    `journal` is False, True or `"by worker"`. Raises ProgramMissing, ProgramTimeout, ProgramFailed or UnknownStatus
    where the program gave no answer.
    """
    _test_market(market)
    words = ["match", "--workers", _count("workers", workers), "--capacity", "full" if capacity is None else _count("capacity", capacity)]
    if not (isinstance(journal, bool) or isinstance(journal, str) and journal == "by worker"):
        raise ValueError(f"{journal!r} is no form of a journal: False, True or 'by worker'")
    words += ["--journal" if journal is True else "--journal-by-worker"] if journal else []
    status, answer = run_program(market.program("residency"), words, market.docket(), timeout)
    try:
        found = read_match(market, *cut(answer))
    except DocketFault as fault:
        raise UnknownStatus(status, f"an answer that is no sheet of the market: {fault}") from fault
    if status != 0 or bool(found.journal) != bool(journal):
        raise UnknownStatus(status, "an answer that isn't a match")
    return found


def _test_market(market: object) -> None:
    """NotRead, a TypeError, for what is no market."""
    from .market import Market as Known
    of_kind("the first argument is a Market", Known, market)


def _count(what: str, given: object) -> str:
    number = whole(given)
    if number is None:
        raise ValueError(f"{what} is a whole number, and this is {shown(repr(given))}")
    return str(number)


def read_match(market: Market, sheet: bytes, journal: bytes = b"") -> Match:
    """A match of this market from a sheet's bytes, as `Match.sheet` has them.

    DocketFault where they are no sheet of this market, or have a record of another part; its records are counted from
    the docket's first.
    """
    of_kind("a journal is bytes", bytes, journal)
    places = _plain_places(market.in_docket_names(), of_kind("a sheet is bytes", bytes, sheet))
    if places is None:
        _refuse_others(sheet, _SHEET, market.docket())
        places = read_docket(market.docket() + sheet, NATIONAL if market.is_national else STANDARD).sheet
    if places is None:
        raise DocketFault(0, "no sheet in the docket")
    names = market.names
    filled = dict.fromkeys(market.quotas, 0)
    called: Dict[str, Optional[str]] = {}
    for resident, programme in places.items():
        name = None if programme is None else names.name("P", programme)
        called[names.name("R", resident)] = name
        if name is not None:
            filled[name] += 1
    return Match(called, filled, dict(market.quotas), sheet, journal)


def _plain_places(docket: Docket, sheet: bytes) -> Optional[Mapping[str, Optional[str]]]:
    """The places that a sheet says, where it is this docket's as the program writes it, to the byte; None for any other."""
    told = {row[1]: row[2] for row in rows_of(sheet) if row[0] == "M" and len(row) == 3}
    places = {name: told.get(name) for name in docket.resident_lists}
    return places if {*told.values()} <= docket.quotas.keys() and sheet_rows(docket, places) == sheet else None


def _refuse_others(rows: bytes, own: Tuple[str, ...], before: bytes) -> None:
    """DocketFault for a record of another part among these rows, since it would change what the rows before them say."""
    for number, row in enumerate(records(rows), before.count(b"\n") + 1):
        if row[0] in _KINDS and row[0] not in own:
            raise DocketFault(number, "belongs to another part", 1, row[0], f"cell 1: {row[0]}")


def _sheet(market: Market, places: Places) -> bytes:
    """The sheet's rows of these places; MarketFault for one that lacks a resident or has a name that no member has."""
    given: Mapping[str, Optional[str]] = places.places if isinstance(places, Match) else {
        resident: None if is_nothing(name) else as_name(name) for resident, name in dictionary("the residents' places", places).items()}
    faults = [f"resident {shown(name)} has no place, and no None" for name in market.resident_lists if name not in given]
    faults += [f"no resident is named {told_name(name)}" for name in given if name not in market.resident_lists]
    faults += [f"resident {told_name(resident)}: no programme is named {told_name(name)}" for resident, name in given.items()
               if name is not None and (not isinstance(name, str) or name not in market.quotas)]
    if faults:
        raise MarketFault(faults)
    made = market.names.docket_name
    return sheet_rows(market.in_docket_names(), {made("R", resident): None if name is None else made("P", name)
                                                 for resident, name in given.items()})


def audit(market: Market, places: Places, timeout: float = DEFAULT_TIMEOUT) -> Audit:
    """Whether these places are stable, and every cause why not.

    `places` is a match or a dictionary with every resident's programme or None; MarketFault for one that lacks a
    resident or has a name that no member has. Raises as `match`.
    """
    _test_market(market)
    status, answer = run_program(market.program("residency"), ["audit"], market.docket() + _sheet(market, places), timeout)
    try:
        return read_audit(status, answer, market.names.name)
    except (IndexError, KeyError, ValueError) as error:
        raise UnknownStatus(status, "an answer that isn't an audit's") from error


def check_validity(market: Market, places: Places, timeout: float = DEFAULT_TIMEOUT) -> bool:
    """True where each pair is acceptable and no programme is over its places; NotValid with every cause otherwise.

    As in the package `matching`, but that the places are given. Raises as `audit`.
    """
    found = audit(market, places, timeout)
    if found.unacceptable or found.over_quota:
        raise NotValid(found.unacceptable, found.over_quota)
    return True


def replay(market: Market, journal: Union[Match, bytes], places: Optional[Places] = None,
           timeout: float = DEFAULT_TIMEOUT) -> Replay:
    """Whether a journal is a good exchange that gives its sheet: a match's own journal and sheet, or these.

    The bytes may have the journal's own sheet, where no places are given. DocketFault, `no journal in the docket`, for a
    match without one, and for a record of another part. Raises as `match`.
    """
    _test_market(market)
    rows = of_kind("a journal is a Match or bytes", (Match, bytes), journal)
    rows = rows.journal if isinstance(rows, Match) else rows
    if places is None and isinstance(journal, Match):
        places = journal
    given = market.docket() + (b"" if places is None else _sheet(market, places))
    # What `residency match --journal` writes is a sheet with its journal, and may be given as it is.
    _refuse_others(rows, _JOURNAL if places is not None else _SHEET + _JOURNAL, given)
    status, answer = run_program(market.program("residency"), ["replay"], given + rows, timeout)
    try:
        return read_replay(status, answer, market.names.name)
    except (IndexError, KeyError, ValueError) as error:
        raise UnknownStatus(status, "an answer that isn't a replay's") from error


def why(market: Market, places: Places, resident: str, programme: Optional[str] = None,
        timeout: float = DEFAULT_TIMEOUT) -> Tuple[Why, ...]:
    """Why a resident isn't with a programme or, where none is named, with each of its list as written, best first.

    MarketFault for a name that no member has. Raises as `match`.
    """
    _test_market(market)
    resident, programme = as_name(resident), as_name(programme)
    asked = [("resident", resident, market.resident_lists)] + ([] if programme is None else [("programme", programme, market.quotas)])
    faults = [f"no {who} is named {told_name(name)}" for who, name, known in asked if not isinstance(name, str) or name not in known]
    if faults:
        raise MarketFault(faults)
    data = market.docket() + _sheet(market, places)
    if programme is not None and programme not in market.resident_lists[resident]:
        return (_why_unlisted(market, data, resident, programme, timeout),)
    told = _why_all(market, data, timeout)
    return tuple(told[resident, name] for name in (market.resident_lists[resident] if programme is None else (programme,)))


def why_all(market: Market, places: Places, timeout: float = DEFAULT_TIMEOUT) -> Tuple[Why, ...]:
    """Why each resident is, or isn't, with each programme of its list, by the residents' order, in one run of the program."""
    _test_market(market)
    return tuple(_why_all(market, market.docket() + _sheet(market, places), timeout).values())


def _why_all(market: Market, data: bytes, timeout: float) -> Dict[Tuple[str, str], Why]:
    """The table of `why --all`, by resident and programme in the caller's names."""
    status, answer = run_program(market.program("why"), ["--all"], data, timeout)
    rows = rows_of(answer)
    names = market.names
    told: Dict[Tuple[str, str], Why] = {}
    try:
        if status != 0 or rows[0] != _WHY_COLUMNS.split(","):
            raise ValueError(rows[0])
        for resident, programme, choice, word, rank, last_rank, quota in rows[1:]:
            reason = Why(names.name("R", resident), names.name("P", programme), choice=int(choice), answer=word, rank=_number(rank),
                      last_rank=_number(last_rank), quota=_number(quota))
            told[reason.resident, reason.programme] = reason
        if list(told) != [(resident, name) for resident, listed in market.resident_lists.items() for name in listed]:
            raise ValueError("choices")
    except (IndexError, KeyError, ValueError) as error:
        raise UnknownStatus(status, "an answer that isn't a table of why") from error
    return told


def _number(cell: str) -> Optional[int]:
    return int(cell) if cell else None


def _why_unlisted(market: Market, data: bytes, resident: str, programme: str, timeout: float) -> Why:
    """The program's sentence on a programme that isn't on the list, which no table has, with the caller's name of it."""
    made = market.names.docket_name("P", programme)
    status, answer = run_program(market.program("why"), [market.names.docket_name("R", resident), made], data, timeout)
    said = answer.decode("utf-8", "replace").strip()
    if status != 0 or not said.startswith(f"{made}: "):
        raise UnknownStatus(status, "an answer without a sentence")
    return Why(resident, programme, programme + said[len(made):])
