"""The tables of a match that a spreadsheet or a database takes: rosters, unfilled places, and a row for each resident."""
import csv
import io
from typing import Iterable, List, Mapping, Sequence, Tuple

from ..key import to_cell
from ..names import RESIDENT, Names
from .outcome import Details, Outcome, Programme, by_name
from .phrases import Phrases

# A mark at the start, by which spreadsheets know that a file is UTF-8.
MARK = "\ufeff"
# The columns of the table for programs; those that are kept follow.
MATCH_COLUMNS = ("resident_docket_name", "resident_id", "resident", "standing", "programme_docket_name", "programme_id",
                 "programme", "choice", "rank_at_programme", "programmes_listed", "family_name")
# The columns of what a sealed folder keeps of the table of residents; those that are kept follow.
DETAIL_COLUMNS = ("resident_docket_name", "family_name")


def neutral(value: object) -> object:
    """A value as a cell that no spreadsheet takes for a formula: numbers as they are, nothing as an empty cell."""
    return value if isinstance(value, int) else "" if value is None else to_cell(str(value))


def table_bytes(heading: Sequence[str], rows: Iterable[Sequence[object]]) -> bytes:
    """A CSV table of these rows for a spreadsheet: with a mark, lines ended by CR and LF, and no cell that is a formula."""
    return (MARK + csv_text(heading, ([neutral(cell) for cell in row] for row in rows), "\r\n")).encode("utf-8")


def raw_bytes(heading: Sequence[str], rows: Iterable[Sequence[object]]) -> bytes:
    """A CSV table of these rows for a program: no mark, lines ended by LF, and each text exactly as it is."""
    return csv_text(heading, rows, "\n").encode("utf-8")


def csv_text(heading: Sequence[str], rows: Iterable[Sequence[object]], end: str) -> str:
    text = io.StringIO()
    writer = csv.writer(text, lineterminator=end)
    writer.writerow(heading)
    writer.writerows(rows)
    return text.getvalue()


def members_table(heading: Sequence[str], rows: Sequence[Sequence[object]], ids: int) -> bytes:
    """A table for a spreadsheet; its column of IDs is left out where nobody has one."""
    first, *others = [heading, *rows] if any(row[ids] for row in rows) else [[*row[:ids], *row[ids + 1:]] for row in (heading, *rows)]
    return table_bytes([str(cell) for cell in first], others)


def heads(phrases: Phrases, *names: str) -> List[str]:
    """The heads of a table's columns."""
    return [phrases.say(f"head.{name}") for name in names]


def roster(outcome: Outcome, programme: Programme, ranks: Sequence[str], phrases: Phrases) -> bytes:
    """A programme's residents, in the order of its list, each with the rank there."""
    rank = {name: place for place, name in enumerate(ranks, 1)}
    residents = [outcome.residents[name] for name in programme.residents]
    rows = [(rank[resident.name], resident.name, resident.id, *resident.kept) for resident in residents]
    return members_table([*heads(phrases, "rank", "resident", "id"), *outcome.columns], rows, 2)


def unfilled(outcome: Outcome, phrases: Phrases) -> bytes:
    """The programmes with unfilled places, by name."""
    rows = [(programme.name, programme.id, programme.places, programme.filled, programme.unfilled) for programme in by_name(outcome.unfilled(), phrases)]
    return members_table(heads(phrases, "programme", "id", "quota", "filled", "free"), rows, 1)


def matches(outcome: Outcome) -> bytes:
    """A row for each resident, in the order of the table, for programs: raw, so that names are as the tables have them."""
    rows: List[Sequence[object]] = []
    for resident in outcome.residents.values():
        programme = outcome.programmes[resident.programme] if resident.programme is not None else None
        rows.append((resident.docket_name, resident.id, resident.name, resident.standing.value,
                     programme.docket_name if programme else "", programme.id if programme else "", resident.programme,
                     resident.choice, resident.rank, resident.ranked, resident.family, *resident.kept))
    return raw_bytes((*MATCH_COLUMNS, *outcome.columns), rows)


def details_table(details: Details, names: Mapping[str, str]) -> bytes:
    """The family names and kept columns, for a folder without a match; `names` has each resident's docket name."""
    kept = ("",) * len(details.columns)
    rows = [(made, details.families.get(name, ""), *details.kept.get(name, kept)) for name, made in names.items()]
    return raw_bytes((*DETAIL_COLUMNS, *details.columns), rows)


def rows_below(data: bytes) -> Tuple[List[str], List[List[str]]]:
    """The heading of a table for a program, and its rows."""
    heading, *rows = csv.reader(io.StringIO(data.decode("utf-8"), newline=""))
    return heading, rows


def details_of(data: bytes, market: Names, is_matched: bool) -> Details:
    """The family names and kept columns of a table that `matches` wrote, or `details_table` with fewer columns before those that are
    kept, in the names of a market."""
    names, before = {member.docket_name: market.name(RESIDENT, member.docket_name) for member in market.members(RESIDENT)}, len(
        MATCH_COLUMNS if is_matched else DETAIL_COLUMNS)
    heading, rows = rows_below(data)
    return Details({names[row[0]]: row[before - 1] for row in rows if row[before - 1]}, tuple(heading[before:]),
                   {names[row[0]]: tuple(row[before:]) for row in rows})
