"""A second round: the tables that it begins with, who may take part in it, and where everybody is after all rounds."""
from typing import TYPE_CHECKING, Dict, List, Mapping, NamedTuple, Optional, Sequence, Tuple

from ..market import Market
from ..names import PROGRAMME, RESIDENT, Member
from ..near import NearNames
from . import folder
from .changed import members_of
from .compare import is_one
from .faults import Fault, Faults, OfficeError
from .outcome import UNMATCHED, Outcome, Resident, Standing, by_name
from .phrases import Phrases
from .rosters import MATCH_COLUMNS, heads, members_table, raw_bytes, rows_below
from .settings import TABLES
from .sheets import book_of
from .tables import Table

if TYPE_CHECKING:
    from .running import Run


class Row(NamedTuple):
    """What a folder keeps of a resident of a round before it: the round, the cells of `matches.csv`, and the columns that are kept."""

    number: int
    cells: List[str]
    kept: Mapping[str, str]


def tables_of(run: "Run") -> Dict[str, bytes]:
    """The tables of the next round, each a workbook: the programmes with their free places, and the residents who are unmatched, with
    empty lists as long as the longest list was. OfficeError where there are none of either."""
    outcome, phrases, market = run.outcome, run.language().phrases(), run.market
    programmes, left = outcome.unfilled(), [resident for resident in outcome.residents.values() if resident.standing in UNMATCHED]
    if not programmes or not left:
        raise OfficeError("round.none", 3, run.at, what="unmatched resident" if programmes else "free place")
    names = {(member.side, member.docket_name): member.name for member in run.names.members()}
    parted = all(resident.family and names[RESIDENT, resident.docket_name].endswith(f" {resident.family}") for resident in left)
    first: List[List[object]] = [[names[PROGRAMME, programme.docket_name], programme.id, programme.unfilled] for programme in programmes]
    second: List[List[object]] = [[*([name[:-len(resident.family) - 1], resident.family] if parted else [name]), resident.id, *resident.kept]
                                  for resident in left for name in [names[RESIDENT, resident.docket_name]]]
    made = {}
    for table, rows, known, lists, most in ((TABLES[0], first, heads(phrases, "programme", "id", "places"), market.programme_lists, len(left)),
                                            (TABLES[1], second, [*heads(phrases, *(("given", "family") if parted else ("applicant",)), "id"), *outcome.columns],
                                             market.resident_lists, len(programmes))):
        ranks = range(1, max(1, min(most, max(map(len, lists.values()), default=0))) + 1)
        every: List[List[object]] = [[*known, *(phrases.say("head.ranked", number=rank) for rank in ranks)], *rows]
        at = known.index(phrases.say("head.id"))
        made[table] = book_of(table, every if any(row[at] for row in rows) else [[*row[:at], *row[at + 1:]] for row in every])
    return made


def write_tables(run: "Run", out: str) -> None:
    """Writes the tables of the next round into a new folder."""
    tables = tables_of(run)
    with folder.new_folder(out, private=True) as draft:
        for name, data in tables.items():
            draft.write(f"{name}.xlsx", data)


def rows_of(data: bytes) -> List[Row]:
    """The rows of what a folder keeps of the rounds before it."""
    heading, rows = rows_below(data) if data else ([], [])
    after = 1 + len(MATCH_COLUMNS)
    return [Row(int(row[0]), row[1:after], dict(zip(heading[after:], row[after:]))) for row in rows]


def number_of(earlier: Sequence[Row]) -> int:
    """Which round comes after these rows."""
    return 1 + max((row.number for row in earlier), default=0)


def earlier_of(run: "Run") -> bytes:
    """What the folder of the next round keeps: a row for each resident of a round, below those of the rounds before it."""
    heading, rows = rows_below(run.results.checked(folder.MATCHES))
    before, after = rows_of(run.earlier()), len(MATCH_COLUMNS)
    every = [*before, *(Row(number_of(before), row[:after], dict(zip(heading[after:], row[after:]))) for row in rows)]
    columns = list(dict.fromkeys(name for row in every for name in row.kept))
    return raw_bytes(("round", *MATCH_COLUMNS, *columns), [(row.number, *row.cells, *(row.kept.get(name, "") for name in columns)) for row in every])


def resident_of(row: Row, columns: Sequence[str]) -> Resident:
    """A resident as a row has it, with what stands in these columns."""
    made, id, name, standing, _, _, programme, *numbers, family = row.cells
    choice, rank, ranked = (int(number) if number else None for number in numbers)
    return Resident(name, id, made, Standing(standing), programme or None, choice, rank, ranked or 0, family,
                    tuple(row.kept.get(column, "") for column in columns))


def everybody(outcome: Outcome, earlier: bytes) -> List[Tuple[int, Resident]]:
    """Each resident of all rounds with the last round of theirs: known by ID where all have one, and else by name."""
    before = rows_of(earlier)
    every = [*((row.number, resident_of(row, outcome.columns)) for row in before), *((number_of(before), resident) for resident in outcome.residents.values())]
    by_id = all(resident.id for _, resident in every)
    return list({resident.id if by_id else resident.name: (number, resident) for number, resident in every}.values())


def results(outcome: Outcome, phrases: Phrases, order: str, earlier: bytes) -> bytes:
    """A row for each resident, for a spreadsheet: who is where, by which choice, and how all others stand; after a second round each
    resident of all rounds, with the round that gave the place."""
    numbers = {resident: number for number, resident in everybody(outcome, earlier)}
    rows = [(resident.name, resident.id, phrases.say(f"standing.{resident.standing.key}"), resident.programme, resident.choice,
             *[numbers[resident] if resident.programme else ""] * bool(earlier), *resident.kept) for resident in by_name(numbers, phrases, order)]
    names = ("resident", "id", "standing", "programme", "choice", *["round"] * bool(earlier))
    return members_table([*heads(phrases, *names), *outcome.columns], rows, 1)


class Stood(NamedTuple):
    """A member of the rounds before: where a resident is matched, if anywhere, and how many places of a programme stayed free."""

    name: str
    id: str
    place: str
    free: int


class Before:
    """What the rounds before say of who may take part in the next one."""

    def __init__(self, run: "Run") -> None:
        self.at, self.earlier, self.entry = run.at, earlier_of(run), {"after": run.digests()}
        full = {row.cells[6]: Stood(row.cells[6], row.cells[5], "", 0) for row in rows_of(self.earlier) if row.cells[6]}
        programmes = {programme.name: Stood(programme.name, programme.id, "", programme.unfilled) for programme in run.outcome.programmes.values()}
        self.known = {PROGRAMME: list({**full, **programmes}.values()),
                      RESIDENT: [Stood(resident.name, resident.id, resident.programme or "", 0) for _, resident in everybody(run.outcome, run.earlier())]}

    def faults(self, market: Market, allow_new: bool, tables: Sequence[Table] = ()) -> Faults:
        """Who may not take part: who is matched, who has more places than stayed free, whose ID was another's, and who is new, unless
        these are allowed; then they are noted in their table."""
        found = Faults()
        for number, side in enumerate((PROGRAMME, RESIDENT)):
            members = members_of(market, side)
            by_id = all(member.id for member in members.values()) and all(member.id for member in self.known[side])
            known = {member.id if by_id else member.name: member for member in self.known[side]}
            near, new = NearNames(member.name for member in known.values()), []
            for index, name in enumerate(members):
                cell = (tables[number].entries[index].row, tables[number].entries[index].cell) if tables else (None, None)
                stood = known.get(members[name].id if by_id else name)
                code = self.fault(stood, members[name], market.quotas.get(name, 0) if side == PROGRAMME else 0)
                if stood is None and allow_new:
                    new.append(name)
                elif code:
                    values = {"name": name, "at": self.at, "near": near.near(name), "id": members[name].id, "places": market.quotas.get(name)}
                    code += "-near" if stood is None and values["near"] else ""
                    found.tell(code, TABLES[number], *cell, {**values, **({"was": stood.name, "place": stood.place, "free": stood.free} if stood else {})})
            if new and tables:
                tables[number].notes.append(Fault("note.new", TABLES[number], values={"names": new, "at": self.at}))
        return found

    @staticmethod
    def fault(stood: Optional[Stood], now: Member, places: int) -> str:
        """The code of what keeps a member from taking part, or no text."""
        if stood is None:
            return "name.new"
        if not is_one(stood.name, now.name) and not is_one(stood.name, now.label):
            return "name.other-before"
        return "name.matched" if stood.place else "places.free" if places > stood.free else ""
