"""The office's command: checks two tables or a docket, runs a match into a folder, withdraws members, compares runs."""
import argparse
import os
import sys
import threading
from dataclasses import replace
from datetime import date
from pathlib import Path
from typing import Callable, Dict, List, Optional, Sequence, Tuple

from ..errors import DocketFault, MarketFault, ResidencyError
from ..market import Market
from ..text import decode
from . import changed, compare, folder, national, rounds, running, sealing, settings, sheets, steps, stopping, writing
from .apart import Progress
from .cells import DELIMITERS, known_delimiter
from .faults import MOST_OF_PATH, MOST_SHOWN, Faults, FaultsError, OfficeError, column_letters, counted, shown
from .headings import Words
from .letters import OTHERS, PROGRAMME, Templates, checked_template
from .line import parser
from .outcome import UNMATCHED, Details, Standing
from .phrases import Language, languages, read_phrases
from .running import Run, Wishes
from .sentences import as_dict, cause, errors_as_dicts, how, line_of, note, report, said_by, said_otherwise
from .settings import TABLES, Settings
from .steps import Given, Look, Read, TablesError
from .tables import Table
from .telling import as_json, complain, failed, say, silence
from .text import at_most, bytes_of, decoded, known_encoding, title_of
from .tree import Roots


# The commands that may tell all as JSON, and then nothing else on standard output.
QUIET = ("check", "lint")
# So many bytes of a file are looked at for a heading.
MOST_HEADING = 1 << 16


def main(words: Optional[Sequence[str]] = None) -> int:
    """Does what the words of a command line say, and answers the exit status. No fault of an input is a traceback."""
    for stream in (sys.stdout, sys.stderr):
        if stream is not None and hasattr(stream, "reconfigure"):
            stream.reconfigure(errors="backslashreplace")
    status = 1
    try:
        with stopping.stoppable():
            status = ended(words)
    except stopping.Stopped:
        # It came when all was done, so the status is that of what was done.
        pass
    return status


def ended(words: Optional[Sequence[str]]) -> int:
    """The exit status of what the words say, and a line for each way in which it may end amiss."""
    try:
        status = dispatch(words)
        if sys.stdout is not None:
            sys.stdout.flush()
        return status
    except BrokenPipeError:
        # Whoever reads has had enough; what is left in the buffer goes nowhere.
        silence()
        return 1
    except OfficeError as error:
        return failed(said_by(error), error.status)
    except (DocketFault, MarketFault) as fault:
        return failed(str(fault), 3)
    except ResidencyError as error:
        return failed("interrupted" if stopping.is_asked() else str(error), 1)
    except OSError as error:
        silence()
        return failed(f"the output could not be written: {(error.strerror or str(error)).lower()}", 1)
    except MemoryError:
        return failed("out of memory", 1)
    except (KeyboardInterrupt, stopping.Stopped):
        stopping.clean()
        return failed("interrupted", 1)


def dispatch(words: Optional[Sequence[str]]) -> int:
    try:
        given = parser().parse_args(words)
    except SystemExit as end:
        return int(end.code or 0)
    try:
        return DOES[given.command](given)
    except TablesError as error:
        return tables_at_fault(error, given.all, complain, "nothing was written")
    except OfficeError as error:
        if given.command in QUIET and given.json:
            say(as_json({"faults": errors_as_dicts(error)}))
        raise


def as_text(word: str) -> str:
    """A name of the command line as text, also where the system's character set isn't UTF-8. OfficeError where it is none."""
    try:
        return os.fsencode(word).decode("utf-8") if any("\ud800" <= c <= "\udfff" for c in word) else word
    except UnicodeError:
        raise OfficeError("words.no-text", 2, text=word) from None


def said_of(given: argparse.Namespace) -> Dict[str, object]:
    """The settings that the command line says, by their names."""
    expected = {"programmes": getattr(given, "expect_programmes", None), "residents": getattr(given, "expect_residents", None)}
    said = {name: [as_text(value) for value in getattr(given, name, [])] for name in settings.SEVERAL}
    by_tables: Dict[str, Callable[[str], object]] = {
        "encoding": known_encoding, "delimiter": known_delimiter, "sheet": as_text, "heading_row": row_number}
    tables = {name: by_table(getattr(given, name, []), known) for name, known in by_tables.items()}
    tables["expect"] = {table: count for table, count in expected.items() if count is not None}
    plain = {name: getattr(given, name, None) for name in (*settings.ALLOWED, "order", "cut_offs", "language", "language_column")}
    found: Dict[str, object] = {**said, **tables, **plain, "title": title_of_line(given)}
    return {name: value for name, value in found.items() if value}


def settings_of(given: argparse.Namespace, beside: Optional[str] = None, start: Optional[Settings] = None) -> Settings:
    """The settings of the file that is named, or that stands beside a table, and of the command line, which comes first. The
    run says which file it was, and what the command line says otherwise."""
    path, found, said = given.settings, start or Settings(), said_of(given)
    if path is None and beside is not None:
        there = os.path.join(os.path.dirname(beside), settings.NAME)
        path = there if os.path.isfile(there) else None
    if path is not None:
        found = settings.read_settings(text_of(path), shown(path, MOST_OF_PATH))
        others = ", ".join(f"--{name.replace('_', '-')}" for name in said)
        (complain if given.command in QUIET and given.json else say)(
            f"settings: {shown(path, MOST_OF_PATH)}" + (f"; of the command line: {others}" if others else ""))
    for name, value in said.items():
        setattr(found, name, {**getattr(found, name), **value} if isinstance(value, dict) else value)
    Words(found.heading)
    return found


def row_number(word: str) -> int:
    try:
        return settings.from_one(word)
    except ValueError:
        raise OfficeError("setting.heading-row", 2, text=word) from None


def by_table(given: Sequence[str], known: Callable[[str], object]) -> Dict[str, object]:
    """What is said for each table; a word without a table's name is for both."""
    said: Dict[str, object] = {}
    for setting in given:
        table, mark, word = setting.partition("=")
        named = bool(mark) and table in TABLES
        for name in (table,) if named else TABLES:
            said[name] = known(word if named else setting)
    return said


def files_of(programmes: str, residents: str, chosen: Settings) -> Tuple[Given, Given]:
    """The files of both tables. OfficeError where they are one."""
    if programmes == residents and not chosen.sheet or os.path.exists(programmes) and os.path.exists(residents) \
            and not chosen.sheet and os.path.samefile(programmes, residents):
        raise OfficeError("words.one-twice", 2, programmes)
    return Given(programmes, bytes_of(programmes)), Given(residents, bytes_of(residents))


def read_tables(programmes: str, residents: str, chosen: Settings) -> Read:
    """Both tables and their market; TablesError with all faults."""
    read = steps.check(*files_of(programmes, residents, chosen), chosen)
    if read.market is None:
        raise TablesError(read)
    return read


def tables_at_fault(error: TablesError, all_of_them: bool, tell: Callable[[str], None], *after: str) -> int:
    """Tells the faults of tables, and answers the status."""
    for line in (*map(how, error.read.tables), *report(error.faults, all_of_them), f"{counted(len(error.faults), 'fault')} in the tables", *after):
        tell(line)
    return error.status


def describe(tables: Sequence[Table], market: Market) -> List[str]:
    programmes, residents = tables
    lines = [f"{how(programmes)}; {counted(len(market.quotas), 'programme')}, {counted(sum(market.quotas.values()), 'place')}",
             f"{how(residents)}; {counted(len(market.resident_lists), 'resident')}"]
    return lines + [note(table_note) for table in tables for table_note in table.notes] + [national.NOTE] * market.is_national


def read_as_json(read: Read) -> str:
    """All that a check finds, as one line of JSON."""
    places, places_of = read.sheets(), read.market.quotas if read.market is not None else {}
    tables = [{"table": table.name, "file": table.path, "sha256": table.sha256, "encoding": table.text.encoding, "delimiter": table.rows.delimiter,
               "sheet": table.rows.sheet, "heading_row": table.heading_row, "is_long": table.is_long, "members": len(table.entries)}
              for table in read.tables]
    found = {"tables": tables, "places": sum(places_of.values()), "counts": {kind: count for kind, count in read.faults.counts.items() if count},
             "faults": [as_dict(fault, places) for fault in read.faults.every()], "notes": [as_dict(table_note, places) for table_note in read.notes()]}
    return as_json(found)


def check(given: argparse.Namespace) -> int:
    if len(given.files) == 1:
        data = bytes_of(given.files[0])
        refuse_one_table(given.files[0], data)
        return tell_docket(data, shown(given.files[0], MOST_OF_PATH), given)
    if len(given.files) != 2:
        raise OfficeError("words.two-tables", 2)
    try:
        read = read_tables(given.files[0], given.files[1], settings_of(given, given.files[0]))
    except TablesError as error:
        if given.json:
            say(read_as_json(error.read))
            return error.status
        return tables_at_fault(error, given.all, say)
    assert read.market is not None
    for line in [read_as_json(read)] if given.json else describe(read.tables, read.market) + ["no fault"]:
        say(line)
    return 0


def settings_command(given: argparse.Namespace) -> int:
    out = given.out or os.path.join(os.path.dirname(given.programmes), settings.NAME)
    if given.residents is None and not os.path.isdir(given.programmes):
        raise OfficeError("words.one-table", 2, makers="seal or run")
    if given.residents is None:
        out = given.out or settings.NAME
        writing.refuse(out)
        found, remarks = steps.next(given.programmes), {}
    else:
        writing.refuse(out)
        found = settings_of(given)
        looks = [steps.look(Given(path, bytes_of(path)), name, found) for name, path in zip(TABLES, (given.programmes, given.residents))]
        faults = [fault for look in looks for fault in look.faults.every()]
        if faults:
            return failed("\n".join([*(line_of(fault) for fault in faults), "nothing was written"]), 3)
        remarks = taken(found, looks, [given.programmes, given.residents])
    writing.new_file(out, settings.file_text(found, remarks).encode("utf-8"))
    say(f"settings written to {shown(out, MOST_OF_PATH)}")
    return 0


def taken(found: Settings, looks: Sequence[Look], paths: Sequence[str]) -> Dict[str, List[str]]:
    """Takes over what was found of tables, and answers what their settings file says of each besides."""
    for look in looks:
        take_found(found, look)
    return {look.table: remarks_of(look, path) for look, path in zip(looks, paths)}


def take_found(found: Settings, look: Look) -> None:
    """Takes over what was found of a table: its sheet, or its character set and what parts its cells, and its heading row."""
    found.heading_row[look.table] = look.heading_row
    if look.sheet is not None:
        found.sheet[look.table] = look.sheet
    else:
        found.encoding[look.table], found.delimiter[look.table] = look.encoding, look.delimiter


def remarks_of(look: Look, path: str) -> List[str]:
    """What a settings file says of a table besides: its file, its sheets, and what each column is."""
    first = f"{shown(os.path.basename(path))}: {title_of(look.encoding)}"
    sheets_there = [f"its sheets: {', '.join(shown(sheet, 40) for sheet in look.sheets)}"] if len(look.sheets) > 1 else []
    columns = [f"column {column_letters(number)}, {shown(heading, 40)}: {meaning or 'left out'}"
               for number, (heading, meaning) in enumerate(zip(look.headings, look.meanings), 1) if heading]
    return [first, *sheets_there, f"headings in {look.language}", *columns]


def lint_command(given: argparse.Namespace) -> int:
    if given.docket == "-":
        if sys.stdin is None:
            raise OfficeError("words.closed")
        return tell_docket(at_most(sys.stdin.buffer, "standard input"), "standard input", given)
    return tell_docket(bytes_of(given.docket), shown(given.docket, MOST_OF_PATH), given)


def tell_docket(data: bytes, label: str, given: argparse.Namespace) -> int:
    """Tells a docket's faults, one at a time as they are found. A docket without a member has none for the program, and is
    told here, since it is a file that a failed command left empty."""
    more: Dict[str, int] = {}
    count, is_over = 0, False
    if given.json:
        found = [fault.to_dict() for fault in steps.lint(data)]
        say(as_json({"faults": found, "is_empty": not is_docket(data)}))
        return 3 if found or not is_docket(data) else 0
    for fault in steps.lint(data):
        count += 1
        is_over = is_over or fault.text.startswith(national.OVER)
        if given.all or count <= MOST_SHOWN:
            say(str(fault))
        else:
            more[fault.text] = more.get(fault.text, 0) + 1
    if more:
        kinds = ", ".join(f"{number:,} {text}" for text, number in sorted(more.items(), key=lambda item: -item[1]))
        say(f"and {sum(more.values()):,} more faults: {kinds} (--all tells each)")
    if is_over:
        say(national.line())
    if not count and not is_docket(data):
        say(f"{label} has no programme and no resident: it is empty, or no docket")
        return 3
    if not count:
        say("no fault")
    return 3 if count else 0


def is_docket(data: bytes) -> bool:
    """Whether a docket has a member."""
    return any(line[:1] in (b"Q", b"R", b'"') for line in data.removeprefix(b"\xef\xbb\xbf").splitlines())


def refuse_one_table(path: str, data: bytes) -> None:
    """OfficeError where what is given as a docket is one table of the two."""
    words = Words()
    try:
        is_table = sheets.is_book(data)
        if not is_table:
            begin = decode(data[:MOST_HEADING], "latin-1" if data[:3] == b"\xef\xbb\xbf" else None)[0].lstrip("\xef\xbb\xbf")
            first = next((line for line in begin.splitlines() if line.strip(",;\t |")), "")
            is_table = any(words.is_heading([cell.strip('" ') for cell in first.split(mark)]) for mark in DELIMITERS)
    except (sheets.BadBook, UnicodeError):
        is_table = False
    if is_table:
        raise OfficeError("words.one-of-two", 2, path)


def wishes_of(given: argparse.Namespace, chosen: Settings, title: str, columns: Sequence[str], language: Language = Language(),
              before: Optional[rounds.Before] = None, is_sealed: bool = False) -> Wishes:
    language = language_of(chosen, language)
    return Wishes(title or language.phrases().say("title"), given.date or date.today(), chosen.order, template_of(given.template, columns, is_sealed),
                  given.timeout, chosen.cut_offs, given.readable, language, chosen.texts(), b"" if before is None else before.earlier)


def language_of(chosen: Settings, before: Language = Language()) -> Language:
    """The language that the settings name, or the one of a folder before. OfficeError for one that is none, and for phrases at fault."""
    word, column = chosen.language, chosen.language_column or before.column
    if not word or word in languages():
        return replace(before, column=column) if not word else Language(word, None, column)
    if not os.path.exists(word):
        raise OfficeError("words.language", 2, text=word, languages=languages())
    text = text_of(word)
    return Language(read_phrases(text, shown(word, MOST_OF_PATH)).language, text, column)


def title_of_line(given: argparse.Namespace) -> str:
    """The title that the command line gives, if any. OfficeError for one that can't be shown."""
    title = " ".join(as_text(getattr(given, "title", None) or "").split())
    if title and not title.isprintable():
        raise OfficeError("setting.title", 2, text=title)
    return title


def text_of(path: str) -> str:
    """The text of a file. OfficeError where it is none."""
    faults = Faults()
    text = decoded(bytes_of(path), shown(path, MOST_OF_PATH), None, faults).text
    if len(faults):
        raise FaultsError(faults)
    return text


def template_of(path: Optional[str], columns: Sequence[str], is_sealed: bool) -> Templates:
    """A template's file, or a folder's by the standings that they are for, tried before anything else is done; `columns` are those
    that are kept."""
    if path is None or not os.path.isdir(path):
        return None if path is None else checked_template(text_of(path), columns, path, is_sealed)
    names = [*(standing.key for standing in Standing), OTHERS, PROGRAMME]
    found = {name: os.path.join(path, f"{name}.txt") for name in names if os.path.exists(os.path.join(path, f"{name}.txt"))}
    if not found:
        raise OfficeError("template.none", 3, path, files=[f"{name}.txt" for name in names])
    return {name: checked_template(text_of(template), columns, template, is_sealed) for name, template in found.items()}


def tables_of(given: argparse.Namespace, chosen: Settings, before: Optional[rounds.Before] = None) -> Tuple[Sequence[Table], Market]:
    """Both tables and their market, which fits the round before. TablesError where they are at fault."""
    return steps.tables(*files_of(given.programmes, given.residents, chosen), chosen, before, before is not None and given.allow_new)


def how_read(tables: Sequence[Table], chosen: Settings) -> Dict[str, object]:
    """What a manifest says of the tables, and the settings by which they were read."""
    read = [{"file": shown(os.path.basename(table.path)), "sha256": table.sha256, "read": how(table)} for table in tables]
    said = settings.values_of(chosen)
    return {"tables": read, **({"reading": said} if said else {})}


def seal_command(given: argparse.Namespace) -> int:
    writing.refuse(given.out)
    chosen = settings_of(given, given.programmes)
    language_of(chosen)
    tables, market = tables_of(given, chosen)
    lines = describe(tables, market)
    roots = written_seal(given, chosen, tables, market, given.out, begun(market, lines))
    for line in [*lines, sealed(given.out, roots), *published(roots)]:
        say(line)
    return 0


def begun(market: Market, lines: Sequence[str]) -> Progress:
    """What takes minutes says so before it begins, and how far it is."""
    if not market.is_national:
        return steps.quietly
    for line in lines:
        complain(line)
    return lambda step: complain(national.STEPS[step])


def written_seal(given: argparse.Namespace, chosen: Settings, tables: Sequence[Table], market: Market, out: str,
                 progress: Progress = steps.quietly) -> Roots:
    """Seals two tables into a new folder."""
    language = language_of(chosen)
    wishes = Wishes(chosen.title or language.phrases().say("title"), given.date or date.today(), timeout=given.timeout, language=language)
    return steps.seal(out, market, steps.details_of(tables[1], market), wishes, how_read(tables, chosen), progress)


def run(given: argparse.Namespace) -> int:
    if given.residents is None and not os.path.isdir(given.programmes):
        raise OfficeError("words.one-table", 2, makers="seal")
    if given.residents is None and given.seal is not None:
        raise OfficeError("words.seal-twice", 2)
    if given.allow_new and given.after is None:
        raise OfficeError("words.allow-new", 2)
    path = given.seal if given.residents is not None else given.programmes
    writing.refuse(given.out)
    before = None if given.after is None else rounds.Before(Run(given.after))
    if path is not None:
        return run_sealed(given, steps.sealed(path), before)
    chosen = settings_of(given, given.programmes)
    wishes = wishes_of(given, chosen, chosen.title, chosen.kept(), before=before)
    tables, market = tables_of(given, chosen, before)
    lines = describe(tables, market)
    result = written_match(wishes, chosen, tables, market, before, given.out, begun(market, lines))
    for line in lines + told(given.out, result, wishes):
        say(line)
    return 0


def written_match(wishes: Wishes, chosen: Settings, tables: Sequence[Table], market: Market, before: Optional[rounds.Before], out: str,
                  progress: Progress = steps.quietly) -> running.Matched:
    """Matches two tables into a new folder, as the first round or after another."""
    result = steps.match(market, steps.details_of(tables[1], market), wishes.timeout, progress)
    steps.write(out, result, wishes, {**how_read(tables, chosen), **(before.entry if before else {})}, progress=progress)
    return result


def run_sealed(given: argparse.Namespace, sealed: running.Kept, before: Optional[rounds.Before]) -> int:
    """Matches the very docket that was sealed; tables, where they are given, have to say the same."""
    sealing.refuse_readable(given.readable)
    faults = Faults() if before is None else before.faults(sealed.market, given.allow_new)
    if len(faults):
        raise FaultsError(faults)
    lines: List[str] = []
    details, manifest = sealed.details, from_of(sealed)
    chosen = settings_of(given, None if given.residents is None else given.programmes)
    if given.residents is not None:
        tables, market = tables_of(given, chosen)
        try:
            sealing.refuse_others(sealed, market)
        except sealing.OtherTables as error:
            return failed(said_otherwise(error, error.faults, given.all), error.status)
        lines, details = describe(tables, market), steps.details_of(tables[1], market)
        manifest = from_of(sealed, settings.values_of(chosen))
    wishes = wishes_of(given, chosen, chosen.title or sealed.title(), details.columns, sealed.language(), before, True)
    result, roots = written_sealed(wishes, sealed, details, manifest, before, given.out, begun(sealed.market, lines or [national.NOTE]))
    for line in lines + told(given.out, result, wishes) + published(roots):
        say(line)
    return 0


def written_sealed(wishes: Wishes, sealed: running.Kept, details: Details, manifest: Dict[str, object], before: Optional[rounds.Before], out: str,
                   progress: Progress = steps.quietly) -> Tuple[running.Matched, Roots]:
    """Matches what was sealed into a new folder."""
    result = steps.match(sealed.market, details, wishes.timeout, progress)
    roots = steps.write(out, result, wishes, {**manifest, **(before.entry if before else {})}, sealed.secret(), sealed, progress=progress)
    assert roots is not None
    return result, roots


def from_of(kept: running.Kept, said: Optional[Dict[str, Dict[str, object]]] = None) -> Dict[str, object]:
    """What a manifest says of the folder that another one is made from, whose settings are carried on where no others are said."""
    manifest = kept.results.manifest
    reading = said or manifest.get("reading")
    return {**({"reading": reading} if isinstance(reading, dict) else {}), "from": kept.digests(), **{name: manifest[name] for name in ("after",) if name in manifest}}


def sealed(out: str, roots: Roots) -> str:
    return f"{counted(roots.count, 'member')} sealed, each with a receipt; written to {shown(out, MOST_OF_PATH)}"


def published(roots: Roots) -> List[str]:
    """What is said of a market that was sealed: the roots, to be published."""
    return [f"publish what is in {folder.PUBLIC}/, and these roots wherever members look:", *roots.rows().decode("ascii").splitlines()]


def published_anew(roots: Roots) -> List[str]:
    """What is said of a market that was sealed anew: who needs a new receipt, and the roots."""
    return [f"all {counted(roots.count, 'member')} need their new receipt: the roots are others, and receipts of before hold no more",
            *published(roots)]


def told(out: str, result: running.Matched, wishes: Wishes) -> List[str]:
    """What a run says when it is done."""
    outcome = result.outcome
    kinds = {standing.value: len(outcome.standing(standing)) for standing in (*UNMATCHED, Standing.WITHDRAWN)}
    counts = [f"{count:,} {kind}" for kind, count in kinds.items() if count]
    matched = len(outcome.standing(Standing.MATCHED))
    left = sum(programme.unfilled for programme in outcome.programmes.values())
    every = [resident for _, resident in rounds.everybody(outcome, wishes.earlier)]
    placed = sum(resident.programme is not None for resident in every)
    return [f"{matched:,} of {len(outcome.residents):,} residents matched" + "".join(f", {count}" for count in counts)
            + f"; {left:,} of {outcome.places():,} places unfilled",
            *[f"after all rounds {placed:,} of {len(every):,} residents have a place"] * bool(wishes.earlier),
            f"audit: stable; replay: good; written to {shown(out, MOST_OF_PATH)}"]


def withdraw(given: argparse.Namespace) -> int:
    if not given.names and not given.programme and not given.resident:
        raise OfficeError("words.nobody", 2)
    before = running.opened(given.folder)
    sealing.refuse_readable(given.readable and before.is_sealed())
    stem = os.path.abspath(given.folder)
    out = given.out if given.out is not None else next(f"{stem}-{number}" for number in range(2, 10 ** 6) if not os.path.lexists(f"{stem}-{number}"))
    writing.refuse(out)
    programmes, residents, either = ([as_text(name) for name in those] for those in (given.programme, given.resident, given.names))
    done = steps.withdraw(before, programmes, residents, either, given.timeout)
    wishes, roots = written_without(given, settings_of(given), done, out)
    lines = [f"{shown(name)}: withdrawn" for name in done.gone] + ([] if roots is None else [sealed(out, roots)])
    if done.matched is not None:
        lines = [change.line() for change in done.changes] + told(out, done.matched, wishes)
    for line in lines + ([] if roots is None else published_anew(roots)):
        say(line)
    return 0


def written_without(given: argparse.Namespace, chosen: Settings, done: steps.Withdrawn, out: str) -> Tuple[Wishes, Optional[Roots]]:
    """Writes a folder's match again without who has withdrawn; what was sealed is sealed anew, and where it has no match yet, that is all."""
    kept = done.before
    if done.matched is None:
        wishes = Wishes(kept.title(), given.date or date.today(), timeout=given.timeout, language=language_of(chosen, kept.language()))
        return wishes, steps.seal(out, done.market, kept.details, wishes, from_of(kept))
    wishes = wishes_of(given, chosen, chosen.title or kept.title(), kept.details.columns, kept.language(), is_sealed=kept.is_sealed())
    wishes = replace(wishes, earlier=kept.earlier())
    return wishes, steps.write(out, done.matched, wishes, from_of(kept), done.secret(), changes=done.changes)


def compare_command(given: argparse.Namespace) -> int:
    if given.out is not None:
        writing.refuse(given.out)
    found = steps.compare(Run(given.before), Run(given.now))
    if given.out is not None:
        writing.new_file(given.out, compare.changes_table(found.changes, found.now.language().phrases()))
    lines = [f"{what}: {was} before, {is_now} now" for what, was, is_now in found.figures]
    summary = compare.summary(found.before.outcome, found.now.outcome, found.changes)
    lines += [summary + ("" if given.names or not found.changes else "; --names lists them")]
    for line in lines + [change.line() for change in found.changes if given.names]:
        say(line)
    return 0


def letters(given: argparse.Namespace) -> int:
    if given.out is not None:
        writing.refuse(given.out)
    run_before = Run(given.folder)
    template = template_of(given.template, run_before.details.columns, run_before.is_sealed())
    chosen = settings_of(given)
    written = steps.letters(run_before, template, given.date, chosen.title, language_of(chosen, run_before.language()), chosen.texts())
    if given.preview is not None:
        for resident in (member for standing in Standing for member in run_before.outcome.standing(standing)[:given.preview]):
            say(written.letter(resident))
        for programme in list(run_before.outcome.programmes.values())[:given.preview]:
            say(written.programmes().letter(programme))
        return 0
    with folder.new_folder(given.out, private=True) as draft:
        count = running.write_letters(draft, written, "")
        more = running.write_letters(draft, written.programmes(), "programmes/")
    say(f"{counted(count, 'letter')} to residents and {more:,} to programmes written to {shown(given.out, MOST_OF_PATH)}")
    return 0


def why_command(given: argparse.Namespace) -> int:
    from . import counter

    asked = (Run(given.folder), as_text(given.name), None if given.programme is None else as_text(given.programme), given.timeout)
    text = counter.letter(*asked, given.date or date.today()) if given.letter else "\n".join([*counter.answer(*asked), ""])
    if given.out is not None:
        writing.new_file(given.out, text.encode("utf-8"), writing.PRIVATE)
    say(text.rstrip("\n") if given.out is None else f"written to {shown(given.out, MOST_OF_PATH)}")
    return 0


def verify_command(given: argparse.Namespace) -> int:
    from .verify import FromTables

    published = {word: said for word, said in (("lists", given.lists), ("result", given.result)) if said is not None}
    made = None
    if given.tables is not None:
        given.programmes, given.residents = given.tables
        made = FromTables.of(*tables_of(given, settings_of(given, start=steps.read_by(given.folder))))
    done = steps.verify(given.folder, given.timeout, published, made, lambda checked: say(checked.line()), after=given.after)
    say(done.verdict())
    return 4 if done.wrong else 0


def changes_command(given: argparse.Namespace) -> int:
    kept = running.opened(given.folder)
    _, market = tables_of(given, settings_of(given, given.programmes, steps.read_by(given.folder)))
    changes = changed.since(kept.market, market)
    lists = sum(change.code == "changed.list" for change in changes)
    for line in [*map(cause, changes), f"{counted(lists, 'list')} changed, of {len([*market.quotas, *market.resident_lists]):,}"]:
        say(line)
    return 0


def next_command(given: argparse.Namespace) -> int:
    writing.refuse(given.out)
    before = Run(given.folder)
    rounds.write_tables(before, given.out)
    left, free = sum(len(before.outcome.standing(standing)) for standing in UNMATCHED), len(before.outcome.unfilled())
    say(f"{counted(free, 'programme')} with free places, {counted(left, 'unmatched resident')}; written to {shown(given.out, MOST_OF_PATH)}")
    return 0


def auditor_command(given: argparse.Namespace) -> int:
    from . import auditor

    writing.refuse(given.out)
    count = auditor.copy(given.folder, given.out, given.key)
    say(f"{counted(count, 'file')} for an auditor, with{'' if given.key else 'out'} the key; written to {shown(given.out, MOST_OF_PATH)}")
    return 0


def desk_command(given: argparse.Namespace) -> int:
    from .desk.calls import Desk, Said
    from .desk.server import Server

    with steps.room_for("desk") as room:
        desk = Desk(room, Path.cwd())
        if given.folder is not None:
            desk.open(Said(path=folder.Results(given.folder).at), steps.quietly)
        server = Server(desk)
        # All users of a machine see the words of a browser's command line, so that these name a file of this user's alone.
        start = room / "desk.html"
        writing.write_new(start, f'<!doctype html><meta http-equiv="refresh" content="0;url={server.address}">\n'.encode("ascii"), writing.PRIVATE)
        say(f"the desk is open at {server.address}\nit ends by its button, with its window, or by Ctrl-C here; what isn't saved goes with it")
        sys.stdout.flush()
        if not given.no_browser:
            threading.Thread(target=open_browser, args=(start.as_uri(),), daemon=True).start()
        server.serve()
    say("the desk is closed")
    return 0


def open_browser(address: str) -> None:
    """Opens a browser with windows; one of the terminal would take the terminal away."""
    import webbrowser

    has_screen = {"DISPLAY", "WAYLAND_DISPLAY", "BROWSER"} & {*os.environ} or sys.platform != "linux"
    if not has_screen or not webbrowser.open(address):
        complain("no browser was opened: open the address above")


DOES: Dict[str, Callable[[argparse.Namespace], int]] = {
    "check": check, "settings": settings_command, "lint": lint_command, "seal": seal_command, "run": run, "withdraw": withdraw, "compare": compare_command, "letters": letters,
    "next": next_command, "changes": changes_command, "why": why_command, "verify": verify_command, "auditor": auditor_command, "desk": desk_command,
}
