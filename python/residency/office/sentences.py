"""The sentences of faults and notes, in English and with the names of the command's options: what the command shows of values. Most
are in sentences.txt."""
import re
from typing import Any, Callable, Dict, List, Mapping, Sequence, Union

from .. import naming
from ..names import PROGRAMME, RESIDENT, SIDES, Member
from .cells import DELIMITERS, Rows
from .faults import (KINDS, MOST_KEPT, MOST_LETTERS, MOST_OF_PATH, MOST_SHOWN, Fault, Faults, FaultsError, OfficeError, Values,
                     column_letters, counted, shown)
from .headings import OTHER, TITLES
from .languages import sections
from .tables import Table

# How many further cells a line names.
MOST_PLACES = 3
# How many shared names a note tells, with how many IDs of each.
MOST_NOTED = 5
# How many sheets or columns a line names, and how many faults the desk shows.
MOST_NAMED, MOST_AT_DESK = 6, 200
# The sentences that are texts; those that depend on their values are made here. And what one and several faults of a kind are called,
# and what the bytes of a file are that is no table.
TEXTS = sections("sentences.txt")
MANY = {kind: names.split(", ") for kind, names in TEXTS["MANY"].items()}
FILES = TEXTS["FILES"]


# What stands after the colon for rows, and the parts of a row in it.
EACH, OPTIONAL, PART = re.compile(r"(\d+) (.*<.*)"), re.compile(r"\[([^\]]*<[#A]?(\d)>[^\]]*)\]"), re.compile(r"<([#A]?)(\d)>")
HOWS: Dict[str, Callable[[Any], str]] = {"": lambda part: f"{Told(part):40}" if isinstance(part, str) else f"{part:,}", "#": str, "A": column_letters}


class Told:
    """A value as a sentence shows it, by what stands after the colon: a text with so many letters at most, or `whole`, each of
    several texts so, or the first `few`; a number with commas, plain (`d`), or of things (`cell`); of several texts, after `#`, how many
    things they are, and after `=` a word for one or for more; of so many texts or rows, each by a form; or, after `?`, what is said only
    where it is there."""

    def __init__(self, value: Any, most: int = MOST_LETTERS) -> None:
        self.value, self.most = value, most

    def __format__(self, how: str) -> str:
        value = self.value
        if how == "whole":
            return str(value)
        if how.startswith("?"):
            return how[1:] if value else ""
        if how.startswith(("#", "=")):
            words = how[1:].split("|")
            return counted(len(value), *words) if how[0] == "#" else words[len(value) > 1]
        if how in ("few", "first"):
            return few(value) if how == "few" else shown(value[0], 40)
        if found := EACH.fullmatch(how):
            return each(value, int(found[1]), found[2])
        if isinstance(value, int):
            return str(value) if how == "d" else counted(value, *how.split("|")) if how else f"{value:,}"
        most = int(how) if how else self.most
        return ", ".join(shown(item, most) for item in value) if isinstance(value, (list, tuple)) else shown(value, most)


def parted(rows: Rows) -> str:
    """What parts a table's cells, or its sheet."""
    if rows.sheet is not None:
        return f"sheet {shown(rows.sheet, 40)}"
    title = DELIMITERS.get(rows.delimiter, f"parted by {shown(rows.delimiter)}")
    return title + (" by its line sep=" if rows.declared else "")


def how(table: Table) -> str:
    """How a table was read."""
    form = "a row for each rank" if table.is_long else f"a row for each {table.owners}"
    language = "" if table.language == "English" else f"headings in {table.language}, "
    return f"{table.name}: {shown(table.path, MOST_OF_PATH)}, {table.text.title()}, {parted(table.rows)}, {language}{form}"


def few(names: Sequence[str], most: int = 40) -> str:
    """The first of these names, and how many more there are."""
    more = f" and {len(names) - MOST_NAMED} more" if len(names) > MOST_NAMED else ""
    return ", ".join(shown(name, most) for name in names[:MOST_NAMED]) + more if names else "nobody"


def each(rows: Sequence[Any], most: int, form: str) -> str:
    """The first of these rows by a form, in which <0> is a row's first part, <#0> a plain number and <A0> the letters of a column; what is in
    brackets is left out where its part is nothing. And how many more there are."""
    def put(row: Any) -> str:
        parts = row if isinstance(row, (list, tuple)) else (row,)
        whole = OPTIONAL.sub(lambda found: found[1] if parts[int(found[2])] else "", form)
        return PART.sub(lambda found: HOWS[found[1]](parts[int(found[2])]), whole)

    return ", ".join(map(put, rows[:most])) + (f" and {len(rows) - most:,} more" if len(rows) > most else "")


def no_heading(values: Values) -> str:
    owners = values["owners"]
    begin = TITLES[owners] + (", Places" if owners == "programme" else "")
    wanted = f"{begin}, Rank 1, Rank 2, .. or {begin}, Rank, {TITLES[OTHER[owners]]}"
    return f"a heading row is wanted, with {wanted}; the first row is {Told(values['cells']):30}"


def other_mark(values: Values) -> str:
    rows = Rows(iter(()), values["delimiter"], values["declared"], values["sheet"])
    return f"the row is parted by {DELIMITERS[values['other']]}, where the table is by {parted(rows)}"


def shared(values: Values) -> str:
    names: Sequence[Sequence[Any]] = values["names"]
    named = "; ".join(f"{shown(name, 40)} ({Told(ids[:MOST_NOTED]):20}"
                      + (f" and {len(ids) - MOST_NOTED} more" if len(ids) > MOST_NOTED else "") + ")"
                      for name, ids in names[:MOST_NOTED])
    more = f"; and {len(names) - MOST_NOTED:,} more" if len(names) > MOST_NOTED else ""
    return f"{counted(len(names), 'name is', 'names are')} shared: {named}{more}"


def listed(members: Sequence[Member]) -> str:
    """The labels of members, ten at most, on each side of which there are some."""
    there = [(side, those) for side in SIDES for those in [[member for member in members if member.side == side]] if those]
    return ", ".join(f"{SIDES[side]} {naming.labels(those)}" if len(there) > 1 else naming.labels(those) for side, those in there)


def several(values: Values) -> str:
    found = values["members"]
    both = len({member.side for member in found}) > 1
    how = "give the ID" if all(member.id for member in found) else "say --programme or --resident" if both else "give the docket's name"
    return f"{len(found):,} members may be meant by {Told(values['name'])}: {listed(found)}; {how}; nothing was written"


def nobody(values: Values) -> str:
    side, near = values["side"], values["near"]
    hint = shown(near[0].name) if len(near) == 1 else f"one of {listed(near)}" if near else ""
    told = f"no {SIDES[side]} is named" if side else "nobody is named"
    return f"{told} {Told(values['name'])}; " + (f"is it {hint}? nothing was written" if hint else "nothing was written")


def other_side(values: Values) -> str:
    side = values["side"]
    other = SIDES[RESIDENT if side == PROGRAMME else PROGRAMME]
    return f"no {SIDES[side]} is named {Told(values['name'])}, but a {other} is (--{other}); nothing was written"


def moved(values: Values) -> str:
    """Whose list has whom at another rank."""
    told = [f"{shown(name, 40)} " + (f"from {was} to {now}" if was and now else f"new at {now}" if now else f"gone, was at {was}")
            for name, was, now in values["moves"]]
    return f"{values['what']} {Told(values['name'])}: {', '.join(told)}"


MEANINGS = {"rank": "the rank", "places": "the number of places", "programme": "the programme"}
Sentence = Union[str, Callable[[Values], str]]
SENTENCES: Dict[str, Sentence] = {
    **TEXTS["SENTENCES"],
    "file.kind": lambda values: f"this is {FILES[values['what']]}: save it as .xlsx or CSV",
    "file.set": lambda values: f"its character set isn't known: in {values['title']} it has {Told(values['words']):30}; save the table as UTF-8, or "
                               f"name its set (--encoding {values['table']}=SET): " + "; ".join(
                                   f"{name} has {Told(names):30}" for name, names in values["sets"]),
    "file.no-sheet": lambda values: f"no sheet is named {Told(values['sheet'])}; there is {few(values['sheets']) if values['sheets'] else 'none'}",
    "file.some-ids": lambda values: (f"{values['count']:,} of {values['of']:,} {values['owners']}s have" if values["count"] > 1 else
                                     f"{Told(values['name'])} has") + " no ID; every row needs one once one has it",
    "file.phrase-values": lambda values: f"{Told(values['name'])} has " + (f"the values {', '.join(values['values'])}" if values["values"]
                                         else "no value") + ", and no other brace",
    "heading.none": no_heading,
    "heading.several": lambda values: f"{Told(values['heading'])} may be " + " or ".join(
        f"{MEANINGS[role]} (--heading '{role}={shown(values['heading'])}')" for role in values["roles"]) + ": say which",
    "row.other-mark": other_mark,
    "note.shared": shared,
}


# What the desk says otherwise: without the names of options.
DESK: Dict[str, Sentence] = {
    **SENTENCES,
    **TEXTS["DESK"],
    "heading.several": lambda values: f"{Told(values['heading'])} may be " + " or ".join(MEANINGS[role] for role in values["roles"]) + ": say which",
}


# What can't be done, by its code; `at` is the folder or file that it is about, and `table` the file in that folder.
ERRORS: Dict[str, Sentence] = {
    **TEXTS["ERRORS"],
    "template.field": lambda values: f"{Told(values['at'], MOST_OF_PATH)}, line {values['row']}: {Told(values['text'])} is none of "
                                     f"${', $'.join(values['fields'])}; write $$ for the sign itself",
    "member.several": several,
    "member.nobody": nobody,
    "member.other-side": other_side,
}
# What tables say otherwise than a folder.
OTHERWISE: Dict[str, Sentence] = {
    **TEXTS["OTHERWISE"],
    "changed.list": moved,
}


def as_sentence(sentence: Sentence, values: Values) -> str:
    return sentence(values) if callable(sentence) else sentence.format_map(Tellable(values))


def cause(fault: Fault) -> str:
    """What a fault or a note is, without where it is."""
    return as_sentence(SENTENCES[fault.code] if fault.code in SENTENCES else OTHERWISE[fault.code], fault.values)


def said_by(error: Exception) -> str:
    """Why something can't be done, in one line; more where each fault of a file is told."""
    if isinstance(error, FaultsError):
        return "\n".join(report(error.faults, True))
    if not isinstance(error, OfficeError):
        return str(error)
    fault = error.fault
    at = error.at or ("the template" if fault.kind == "template" else "")
    said = as_sentence(ERRORS[fault.code], {**fault.values, "at": at, "table": fault.table, "row": fault.row})
    return f"{shown(error.at, MOST_OF_PATH)}: {said}" if error.at and fault.kind in ("member", "setting") else said


def said_otherwise(error: OfficeError, faults: Sequence[Fault], all_of_them: bool) -> str:
    """What tables say otherwise than what was sealed: each difference, or the first ones."""
    most = len(faults) if all_of_them else MOST_SHOWN
    more = [f"and {len(faults) - most:,} more (--all tells each)"] if len(faults) > most else []
    return "\n".join([*map(cause, faults[:most]), *more, said_by(error)])


class Tellable(Dict[str, Told]):
    """Values as a sentence shows them."""

    def __init__(self, values: Mapping[str, Any]) -> None:
        super().__init__({name: Told(value, MOST_OF_PATH if name == "at" else MOST_LETTERS) for name, value in values.items()})


def place(fault: Fault) -> str:
    """Where a fault shows first."""
    if fault.row is None:
        return fault.table
    if fault.code.startswith(("file.setting", "file.phrase", "file.no-letter")):
        return f"{fault.table}, line {fault.row}"
    column = fault.column
    return f"{fault.table}, row {fault.row}" + (f", cell {column} ({column_letters(column)}{fault.row})" if column is not None else "")


def elsewhere(fault: Fault) -> str:
    """The further cells of a fault: the first of them, and how many more there are."""
    also = fault.cells[1:1 + MOST_PLACES]
    if not also:
        return ""
    named = ", ".join(f"{'' if cell.table == fault.table else cell.table + ' '}{column_letters(cell.column)}{cell.row}" for cell in also)
    more = len(fault.cells) - 1 - len(also)
    return f" (also in {named}{f' and ' + counted(more, 'more cell') if more > 0 else ''})"


def line_of(fault: Fault) -> str:
    return f"{place(fault)}: {cause(fault)}{elsewhere(fault)}"


def note(fault: Fault) -> str:
    return f"note: {fault.table}: {cause(fault)}"


def shares(faults: Faults) -> Dict[str, int]:
    """How many faults of each kind are shown, where not all are: each kind has its share, the first ones most."""
    left = MOST_SHOWN
    kinds = [kind for kind in KINDS if faults.counts[kind]]
    found = {}
    for index, kind in enumerate(kinds):
        found[kind] = min(faults.counts[kind], max(1, left // (len(kinds) - index)))
        left -= found[kind]
    for kind in kinds:
        more = min(left, faults.counts[kind] - found[kind])
        found[kind], left = found[kind] + more, left - more
    return found


def report(faults: Faults, all_of_them: bool = False) -> List[str]:
    """The faults as lines: all that are kept, or as many as MOST_SHOWN, and then how many more there are, by kind."""
    wanted = {kind: MOST_KEPT for kind in KINDS} if all_of_them else shares(faults)
    lines = [line_of(fault) for kind, share in wanted.items() for fault in faults.ordered(kind)[:share]]
    more = [(faults.counts[kind] - share, kind) for kind, share in wanted.items() if faults.counts[kind] > share]
    if more:
        named = ", ".join(f"{count:,} {MANY[kind][count > 1]}" for count, kind in more)
        lines.append(f"and {sum(count for count, _ in more):,} more: {named}" + ("" if all_of_them else " (--all tells each)"))
    return lines


def at_desk(faults: Sequence[Fault], sheets: Mapping[str, str]) -> List[Dict[str, Any]]:
    """The first of these faults or notes as JSON has them, in the desk's words."""
    return [as_dict(fault, sheets, as_sentence(DESK[fault.code], fault.values)) for fault in faults[:MOST_AT_DESK]]


def faults_at_desk(faults: Faults, sheets: Mapping[str, str]) -> Dict[str, Any]:
    """The faults as the desk has them, and how many there are of each kind."""
    kinds = {kind: (count, MANY[kind][count > 1]) for kind, count in faults.counts.items() if count}
    return {"faults": at_desk(faults.every(), sheets), "count": len(faults), "kinds": kinds}


def errors_as_dicts(error: OfficeError) -> List[Dict[str, Any]]:
    """Why something can't be done, as JSON has it."""
    if isinstance(error, FaultsError):
        return [as_dict(fault, {}) for fault in error.faults.every()]
    return [as_dict(error.fault, {}, said_by(error))]


def as_dict(fault: Fault, sheets: Mapping[str, str], said: str = "") -> Dict[str, Any]:
    """A fault or a note as JSON has it; `sheets` has each workbook's sheet by its table, and `said` is its sentence, if it is known."""
    return {
        "kind": fault.kind, "code": fault.code, "table": fault.table, "sheet": sheets.get(fault.table), "row": fault.row,
        "column": fault.column, "cause": said or cause(fault), "values": dict(fault.values),
        "cells": [{"table": cell.table, "row": cell.row, "column": cell.column, "name": f"{column_letters(cell.column)}{cell.row}"}
                  for cell in fault.cells],
        "remedies": [{"setting": remedy.setting, "value": remedy.value, **({"table": remedy.table} if remedy.table else {})}
                     for remedy in fault.remedies],
    }
