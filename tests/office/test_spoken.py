"""Tables in seven languages, in every form that is found: nothing has to be said of them. And of mistakes at random places what has to be
told is derived from the mistake, word by word."""
import csv
import io
import random
import shutil
import subprocess
import zipfile
from pathlib import Path
from typing import Callable, Dict, List, NamedTuple, Sequence, Tuple

import planted
import spoken
from residency.office import sentences, sheets, steps
from residency.office.settings import Settings
from spoken import LANGUAGES, Spoken
from support import PROGRAMMES, RESIDENTS, OfficeTest, office
from test_tables import DOCKET

Rows = List[List[str]]
# The sets in which a table's text is found, and what they are called.
SETS = {"utf-8": "UTF-8", "utf-8-sig": "UTF-8", "utf-16": "UTF-16", "utf-32": "UTF-32", "cp1252": "Windows-1252", "xlsx": ".xlsx"}
MARKS = {",": "commas", ";": "semicolons", "\t": "tabs", "|": "bars"}


def given(rows: Rows, form: str = "utf-8", mark: str = ",") -> steps.Given:
    """A table of these cells as a workbook, or as CSV in a set, parted by a sign."""
    if form == "xlsx":
        return steps.Given("table", planted.book(rows))
    text = io.StringIO()
    csv.writer(text, delimiter=mark).writerows(rows)
    return steps.Given("table", text.getvalue().encode(form))


def encodes(rows: Rows, form: str) -> bool:
    try:
        "".join(text for row in rows for text in row).encode(form)
        return True
    except UnicodeError:
        return False


def letters(column: int) -> str:
    return "ABCDEFGHIJKLMNOPQRSTUVWXYZ"[column - 1] if column <= 26 else "A" + letters(column - 26)


def line(table: str, cells: Sequence[Tuple[int, int]], text: str) -> str:
    """A fault of these cells (row, column) as the report has to have it: the first one, three more, and how many there are besides."""
    (row, column), *more = cells
    also = ", ".join(f"{letters(one[1])}{one[0]}" for one in more[:3])
    rest = f" and {len(more) - 3} more cell{'s' * (len(more) > 4)}" if len(more) > 3 else ""
    return f"{table}, row {row}, cell {column} ({letters(column)}{row}): {text}" + (f" (also in {also}{rest})" if more else "")


class Pair(NamedTuple):
    """Two tables in a language, the chance by which they were made, and who is in them."""

    programmes: Rows
    residents: Rows
    chance: random.Random
    words: Spoken

    def row(self, table: str = "residents", least: int = 1) -> int:
        """A row below the heading, from 0, with so many names in its list at least."""
        rows = getattr(self, table)
        first = 2 if table == "programmes" else 1
        return self.chance.choice([at for at in range(1, len(rows)) if sum(map(bool, rows[at][first:])) >= least])

    def cells(self, table: str, text: str) -> List[Tuple[int, int]]:
        return [(row, column) for row, texts in enumerate(getattr(self, table), 1) for column, cell in enumerate(texts, 1) if cell == text]

    def replaced(self, old: str, new: str) -> None:
        for rows in (self.programmes, self.residents):
            for row in rows[1:]:
                row[:] = [new if text == old else text for text in row]

    def added(self, heading: str, texts: Sequence[str], table: str = "residents") -> None:
        for row, text in zip(getattr(self, table), [heading, *texts]):
            row.insert(1, text)


def drawn(words: Spoken, seed: str, shape: str = "wide") -> Pair:
    """Forty residents who rank three of twelve programmes, which rank those who rank them; with IDs where it is asked for."""
    chance = random.Random(seed)
    people = [planted.person(number) for number in chance.sample(range(planted.RESIDENTS), 40)]
    lists = {name: chance.sample(planted.PROGRAMMES, 3) for name in people}
    rankers = {programme: [name for name in people if programme in lists[name]] for programme in planted.PROGRAMMES}
    for listed in rankers.values():
        chance.shuffle(listed)
    if shape == "long":
        programmes = [["Programme", "Places", "Rank", "Applicant"]]
        programmes += [[ranker, "2", str(rank), name] for ranker in rankers for rank, name in enumerate(rankers[ranker], 1)]
        residents = [["Applicant", "Rank", "Programme"]] + [[name, str(rank), programme] for name in people for rank, programme in enumerate(lists[name], 1)]
    else:
        most = max(map(len, rankers.values()))
        programmes = [["Programme", "Places", *(f"Rank {rank}" for rank in range(1, most + 1))]]
        programmes += [[ranker, "2", *rankers[ranker], *[""] * (most - len(rankers[ranker]))] for ranker in rankers]
        residents = [["Applicant", "Rank 1", "Rank 2", "Rank 3"]] + [[name, *lists[name]] for name in people]
    programmes, residents = spoken.headed(words, programmes, residents)
    pair = Pair(programmes, residents, chance, words)
    if shape == "ids":
        pair.added(words.id, [f"0{5000 + number}" for number in range(40)])
    return pair


MISTAKES: Dict[str, Tuple[str, Callable[[Pair], List[str]]]] = {}


def mistake(shape: str = "wide"):
    def named(plant: Callable[[Pair], List[str]]) -> Callable[[Pair], List[str]]:
        MISTAKES[plant.__name__] = (shape, plant)
        return plant
    return named


@mistake()
def a_lost_letter(pair):
    name = pair.residents[pair.row()][0]
    at = pair.chance.choice([at for at, letter in enumerate(name) if letter.isalpha()])
    lost = name[:at] + pair.chance.choice("?\ufffd") + name[at + 1:]
    pair.replaced(name, lost)
    text = f"1 name lost letters where ? or \ufffd stands, as {lost}; save the table anew as UTF-8 or .xlsx (--allow-lost-letters takes them)"
    return [line(table, pair.cells(table, lost), text) for table in ("programmes", "residents")]


@mistake()
def a_name_in_capitals_again(pair):
    row = pair.row()
    name = pair.residents[row][0]
    pair.residents.append([name.upper(), *pair.residents[row][1:]])
    return [line("residents", [(len(pair.residents), 1)], f"{name.upper()} is {name} in row {row + 1} but for capitals, blanks or accents; if these are "
                 "two, a column headed ID tells them apart (or --allow-alike)")]


@mistake()
def a_row_of_totals(pair):
    pair.programmes.append([pair.words.total, "24", *[""] * (len(pair.programmes[0]) - 2)])
    return [line("programmes", [(len(pair.programmes), 1)], f"{pair.words.total} is no programme; leave the row out")]


@mistake()
def the_heading_again(pair):
    row = pair.row()
    pair.residents.insert(row, list(pair.residents[0]))
    return [line("residents", [(row + 1, 1)], "the heading stands here again; leave the row out")]


def of_places(text, told):
    def plant(pair):
        row = pair.row("programmes")
        pair.programmes[row][1] = text
        return [line("programmes", [(row + 1, 2)], told.format(pair.programmes[row][0]))]
    return plant


for number, (text, told) in enumerate((
        ("", "{} has no number of places"), ("many", "many is no number of places"), ("1.000", "1.000 may be 1 or 1000: write the number of places "
                                                                                     "without a point or a comma"),
        ("12,500", "12,500 may be 12 or 12,500: write the number of places without a point or a comma"), ("1,5", "1,5 is no number of places"),
        ("2 (3)", "2 (3) is no number of places"), ("-1", "-1 is no number of places"))):
    MISTAKES[f"places_{number}"] = ("wide", of_places(text, told.replace("1000:", "1,000:")))


@mistake()
def a_name_that_nobody_has(pair):
    row = pair.row("programmes", 2)
    pair.programmes[row][3] = "Xaver Quirinus Zwettl"
    return [line("programmes", [(row + 1, 4)], "no resident is named Xaver Quirinus Zwettl")]


@mistake()
def a_name_without_its_accents(pair):
    row, name = pair.row(), pair.chance.choice([programme for programme in planted.PROGRAMMES if programme == "Hôpital Saint-Éloi"])
    pair.residents[row][1:] = ["Hopital Saint-Eloi", *[programme for programme in planted.PROGRAMMES if programme != name][:2]]
    return [line("residents", [(row + 1, 2)], f"no programme is named Hopital Saint-Eloi; is it {name}?")]


@mistake()
def one_listed_twice(pair):
    row = pair.row()
    pair.residents[row][3] = pair.residents[row][1]
    return [line("residents", [(row + 1, 4)], f"{pair.residents[row][1]} is listed twice by {pair.residents[row][0]}, as in cell 2")]


@mistake()
def a_row_again(pair):
    row = pair.row()
    pair.residents.append(list(pair.residents[row]))
    return [line("residents", [(len(pair.residents), 1)], f"{pair.residents[row][0]} has a row before, row {row + 1}; if these are two, a column "
                 "headed ID tells them apart")]


@mistake()
def a_row_without_a_name(pair):
    row = pair.row()
    pair.residents.insert(row, ["", *pair.residents[row][1:]])
    return [line("residents", [(row + 1, 1)], "the row has no resident's name")]


@mistake()
def a_cell_beside_the_table(pair):
    row = pair.row()
    pair.residents[row].append("called back")
    return [line("residents", [(row + 1, 5)], "called back stands in a column without a heading")]


@mistake()
def a_rank_twice(pair):
    heading = pair.residents[0][3] = pair.residents[0][2]
    return [line("residents", [(1, 4)], f"two columns are headed {heading}: cells 3 and 4")]


@mistake()
def a_last_choice_under_reserve(pair):
    pair.residents[0][3] = "Reserve"
    first = min(row[3] for row in pair.residents[1:])
    return [line("residents", [(1, 4)], f"Reserve is no heading of this table, and programmes stand below it, as {first}; say what it is (--heading "
                 "'rank=Reserve'), or leave it out (--ignore 'Reserve')")]


@mistake()
def a_withdrawal_that_says_neither(pair):
    row, name = pair.row(), pair.words.withdrawn
    pair.added(name, [("12 March" if at == row else "") for at in range(1, 41)])
    return [line("residents", [(row + 1, 2)], f"12 March says neither that {pair.residents[row][0]} withdrew nor that it didn't; write yes or no, or "
                 f"leave the column out (--ignore '{name}')")]


@mistake()
def the_two_tables_exchanged(pair):
    pair.programmes[:], pair.residents[:] = pair.residents[:], pair.programmes[:]
    return [line("programmes", [(1, 1)], "this is headed as a table of residents; are the two tables exchanged?"),
            line("residents", [(1, 1)], "this is headed as a table of programmes; are the two tables exchanged?")]


@mistake()
def a_failed_formula(pair):
    row = pair.row()
    pair.residents.insert(row, ["#REF!", *pair.residents[row][1:]])
    return [line("residents", [(row + 1, 1)], "#REF! is what a formula leaves that fails; mend it, or save its result")]


@mistake("ids")
def an_id_missing(pair):
    row = pair.row()
    pair.residents[row][1] = ""
    return [line("residents", [(row + 1, 2)], f"{pair.residents[row][0]} has no ID; every row needs one once one has it")]


@mistake("ids")
def an_id_of_two(pair):
    row, other = sorted(pair.chance.sample(range(1, 41), 2))
    pair.residents[other][1] = pair.residents[row][1]
    gone = pair.residents[other][0]
    return [line("residents", [(other + 1, 2)], f"the ID {pair.residents[row][1]} is that of {pair.residents[row][0]} in row {row + 1}"),
            line("programmes", pair.cells("programmes", gone), f"no resident is named {gone}")]


def of_ids(changed, told):
    def plant(pair):
        row = pair.row()
        name, own = pair.residents[row][:2]
        pair.replaced(name, changed(own))
        pair.residents[row][0] = name
        return [line("programmes", pair.cells("programmes", changed(own)), told.format(changed(own), own))]
    return plant


WRITTEN = "IDs match but for signs, blanks and capitals: {} is {} in the table of residents; write both in one way"
TEXT = "IDs match {}: {{}} is {{}} in the table of residents; format the column as text"
for number, (changed, told) in enumerate((
        (lambda own: f"#{own}", WRITTEN), (lambda own: f"'{own}", WRITTEN), (lambda own: f"{own[:2]} {own[2:]}", WRITTEN),
        (lambda own: f"{own[:2]},{own[2:]}", WRITTEN), (lambda own: f"{own}.0", TEXT.format("without `.0`")),
        (lambda own: own[1:], TEXT.format("but for zeros before them")))):
    MISTAKES[f"id_{number}"] = ("ids", of_ids(changed, told))


MEANT = "2 residents may be meant by {}; write the ID, one of {}, {}"


@mistake("ids")
def a_name_that_is_a_label(pair):
    row, other = pair.chance.sample(range(1, 41), 2)
    both = sorted(pair.residents[at][1] for at in (row, other))
    gone, name = pair.residents[other][0], f"{pair.residents[row][0]} ({pair.residents[row][1]})"
    pair.replaced(gone, name)
    text = f"{name} is what {pair.residents[row][0]} in row {row + 1} is called with its ID; write the name alone"
    return [line("residents", [(other + 1, 1)], text), line("programmes", pair.cells("programmes", name), MEANT.format(name, *both))]


def place_of(pair, table="residents"):
    """A row of a long table that isn't its member's first or last."""
    rows = getattr(pair, table)
    return pair.chance.choice([at for at in range(2, len(rows) - 1) if rows[at - 1][0] == rows[at][0] == rows[at + 1][0]])


@mistake("long")
def a_row_lost(pair):
    at = place_of(pair)
    name, rank, _ = pair.residents.pop(at)
    return [line("residents", [(at + 1, 2)], f"{name} has no rank {rank}; is a row lost, or the name misspelt there? (--allow-gaps takes the ranks in "
                 "their order)")]


@mistake("long")
def two_of_one_rank(pair):
    at = place_of(pair)
    name, rank, before = pair.residents[at - 1]
    pair.residents[at][1] = rank
    return [line("residents", [(at + 1, 2)], f"{name} ranks two at {rank}: {before} in row {at} and {pair.residents[at][2]}")]


@mistake("long")
def a_rank_that_is_none(pair):
    at = place_of(pair)
    pair.residents[at][1] = "high"
    return [line("residents", [(at + 1, 2)], "high is no rank; ranks count from 1")]


@mistake("long")
def a_rank_left_out(pair):
    at = place_of(pair)
    pair.residents[at][1] = ""
    return [line("residents", [(at + 1, 2)], f"{pair.residents[at][2]} has no rank")]


@mistake("long")
def nobody_at_a_rank(pair):
    at = place_of(pair)
    name, rank, _ = pair.residents[at]
    pair.residents[at][2] = ""
    return [line("residents", [(at + 1, 3)], f"nobody stands at rank {rank} of {name}")]


class Languages(OfficeTest):
    """Whole tables."""

    def rows(self, words: Spoken, long: bool) -> Tuple[Rows, Rows]:
        programmes, residents = (list(csv.reader(text.splitlines())) for text in (PROGRAMMES, RESIDENTS))
        if long:
            programmes = [["Programme", "Places", "Rank", "Applicant"]] + [
                [row[0], row[1], str(rank), name] for row in programmes[1:] for rank, name in enumerate(filter(None, row[2:]), 1)]
            residents = [["Applicant", "Rank", "Programme"]] + [
                [row[0], rank, name] for row in residents[1:] for rank, name in [*((str(at), programme) for at, programme in enumerate(filter(None, row[1:]), 1))]
                or [("", "")]]
        return spoken.headed(words, programmes, residents)

    def test_whole_tables_need_no_option(self) -> None:
        """In each language, wide and long, in each set that is found, by each sign, and as .xlsx: the same market, and the run says which
        language it was."""
        wanted = steps.check(*(steps.Given("t", text.encode()) for text in (PROGRAMMES, RESIDENTS)), Settings()).market.docket()
        for number, words in enumerate(LANGUAGES.values()):
            for long in (False, True):
                tables = self.rows(words, long)
                for order, form in enumerate(SETS):
                    if form == "cp1252" and not all(encodes(rows, form) for rows in tables):
                        continue
                    mark = ",;\t|"[(number + order) % 4]
                    read = steps.check(*(given(rows, form, mark) for rows in tables), Settings())
                    self.assertEqual(sentences.report(read.faults), [], (words.language, form, long))
                    self.assertEqual(read.market.docket(), wanted)
                    parts = "sheet Table" if form == "xlsx" else MARKS[mark]
                    named = "" if words.language == "English" else f"headings in {words.language}, "
                    for table, owners in zip(read.tables, ("programme", "resident")):
                        self.assertEqual(sentences.how(table), f"{owners}s: table, {SETS[form]}, {parts}, {named}a row for each "
                                         f"{'rank' if long else owners}")

    def saved(self, kind: str, paths: Sequence[Path], form: str, *more: str) -> List[Path]:
        """These files as LibreOffice saves them."""
        out = self.folder / f"{paths[0].suffix[1:]}-{form}"
        subprocess.run([shutil.which("soffice"), "--headless", f"-env:UserInstallation=file://{self.folder}/profile", *more, "--convert-to", kind, "--outdir",
                        str(out), *map(str, paths)], check=True, capture_output=True, timeout=250)
        return [out / f"{path.stem}.{kind.split(':')[0]}" for path in paths]

    def test_what_libreoffice_saves(self) -> None:
        """A table of each language that is made as CSV, as .xlsx or as .ods, and that it saves as .xlsx or as CSV in the sets that are found, passes
        with no option at all; in another set the fault names this set."""
        if shutil.which("soffice") is None:
            self.skipTest("LibreOffice (soffice) is missing here")
        whole = {(language, long): self.rows(words, long) for language, words in LANGUAGES.items() for long in (False, True)}
        self.assertEqual(len(whole), 14)
        named = [(f"{language}-{long}-{number}", rows) for (language, long), tables in whole.items() for number, rows in enumerate(tables)]
        made = {"csv": [Path(self.write(f"{name}.csv", given(rows).data)) for name, rows in named],
                "xlsx": [Path(self.write(f"{name}.xlsx", sheets.book_of("Table", rows))) for name, rows in named]}
        reads = {"csv": ["--infilter=CSV:44,34,76"]}
        made["ods"] = self.saved("ods", made["csv"], "ods", *reads["csv"])
        # By the sign between cells and LibreOffice's number of a set.
        text = "csv:Text - txt - csv (StarCalc):{},34,{}"
        forms = {"xlsx": "xlsx", "utf-8": text.format(44, 76), "cp1252": text.format(59, 1), "utf-16": text.format(9, 65535)}
        for kind, form in [(kind, form) for kind in made for form in forms if kind == "ods" or form in ("xlsx", "utf-8")]:
            files = {path.stem: path for path in self.saved(forms[form], made[kind], form, *reads.get(kind, []))}
            for (language, long), tables in whole.items():
                # A long table of Polish or Turkish has letters that this set hasn't.
                if form == "cp1252" and not all(encodes(rows, form) for rows in tables):
                    self.assertTrue(long and language in ("Polish", "Turkish"))
                    continue
                read = steps.check(*(steps.Given("t", files[f"{language}-{long}-{number}"].read_bytes()) for number in (0, 1)), Settings())
                self.assertEqual(sentences.report(read.faults), [], (language, long, kind, form))
                self.assertEqual(([table.language for table in read.tables], read.market.docket().decode()), ([language] * 2, DOCKET), (long, kind, form))
        for language, number, title, *names in (("Polish", 33, "windows-1250", "Łukasz Wiśniewski", "Zofia Bąk", "Fatima Król"),
                                                ("Turkish", 36, "windows-1254", "Işıl Şahingöz", "Zeynep Öztürk", "Fatma Doğan")):
            known = dict(zip(("Jürgen Groß", "Zoë Brontë", "Fatima Kovács"), names))
            rows = [[known.get(text, text) for text in row] for row in whole[language, False][1]]
            self.write(f"{title}.csv", given(rows).data)
            (path,) = self.saved(text.format(59, number), [self.folder / f"{title}.csv"], title, *reads["csv"])
            self.assertIn(f"(--encoding residents=SET): {title} has ", " ".join(
                sentences.report(steps.check(given(whole[language, False][0]), steps.Given("t", path.read_bytes()), Settings()).faults)))

    def test_names_in_two_columns(self) -> None:
        """Of each language, in either order; `Nom` beside `Prénom` and `Nombre` beside `Apellidos` are parts of a name."""
        for words in LANGUAGES.values():
            for turned in (False, True):
                programmes, residents = self.rows(words, False)
                for row in residents[1:]:
                    row[:1] = row[0].split(" ")[::-1 if turned else 1]
                residents[0][:1] = words.parts[::-1 if turned else 1]
                read = steps.check(given(programmes), given(residents), Settings())
                self.assertEqual(sentences.report(read.faults), [], words.language)
                self.assertEqual([(entry.name, entry.family) for entry in read.tables[1].entries][1], ("Kim Lee", "Lee"))

    def test_the_words_of_one_language(self) -> None:
        """Those of two are never taken together, and the fault's advice is one that works."""
        german, french = (self.rows(LANGUAGES[language], False) for language in ("German", "French"))
        mixed = [[german[1][0][0], *french[1][0][1:]], *german[1][1:]]
        read = steps.check(given(german[0]), given(mixed), Settings())
        self.assertEqual(sentences.report(read.faults), [
            "residents, row 1, cell 1 (A1): Bewerber/in is no heading of this table; mend it, say what it is (--heading 'resident=Bewerber/in'), or "
            "leave the column out (--ignore 'Bewerber/in')",
            "residents, row 1, cell 5 (E1): no column is headed Applicant (or candidate, candidat e, interne, or as --heading says)"])
        self.assertIsNotNone(steps.check(given(german[0]), given(mixed), Settings(heading=["resident=Bewerber/in"])).market)

    def test_a_heading_of_two_meanings(self) -> None:
        """Is asked for where both may be, with both in the advice, and taken where one is left."""
        for language, word in (("German", "Platz"), ("Italian", "Posto"), ("Polish", "Miejsce"), ("French", "Place"), ("Turkish", "Yer")):
            words = LANGUAGES[language]
            programmes = [[words.programme, word, words.resident], ["North", "1", "Ana"]]
            residents = [[words.resident, words.ranks, words.programme], ["Ana", "1", "North"]]
            (fault,) = steps.check(given(programmes), given(residents), Settings()).faults.every()
            self.assertEqual(sentences.line_of(fault), f"programmes, row 1, cell 2 (B1): {word} may be the rank (--heading 'rank={word}') or the number "
                             f"of places (--heading 'places={word}'): say which")
            whole = [[words.programme, words.places, word, words.resident], ["North", "1", "1", "Ana"]]
            wide = [[words.programme, word, words.rank.format(1)], ["North", "1", "Ana"]]
            numbered = [[words.resident, f"{word} 1"], ["Ana", "North"]]
            for one, other in ((whole, residents), (wide, residents), (wide, numbered)):
                self.assertEqual(sentences.report(steps.check(given(one), given(other), Settings()).faults), [], (language, one))

    def test_a_word_of_ones_own(self) -> None:
        """`Turno` is a rank where it is said to be, and so is `Wunsch 1` of a table in English; the advice says the word without its number."""
        programmes, residents = self.rows(LANGUAGES["English"], False)
        for word, said in (("Turno", "rank=Turno"), ("Turno", "rank=Turno 1"), ("Wunsch", "rank=Wunsch 1")):
            headed = [[residents[0][0], *(f"{word} {number}" for number in (1, 2, 3))], *residents[1:]]
            self.assertIsNotNone(steps.check(given(programmes), given(headed), Settings(heading=[said])).market, said)
        headed = [[residents[0][0], *(f"Turno {number}" for number in (1, 2, 3))], *residents[1:]]
        faults = steps.check(given(programmes), given(headed), Settings()).faults.every()
        self.assertEqual(sentences.line_of(faults[0]), "residents, row 1, cell 2 (B1): Turno 1 is no heading of this table; mend it, say what it is "
                         "(--heading 'rank=Turno'), or leave the column out (--ignore 'Turno 1')")
        advice = faults[0].remedies[0]
        self.assertEqual((advice.setting, advice.value), ("heading", "rank=Turno"))
        self.assertIsNotNone(steps.check(given(programmes), given(headed), Settings(heading=[advice.value])).market)

    def test_titles_and_blank_columns(self) -> None:
        """Rows of one cell above the headings, and columns without anything, are noted and change nothing."""
        wanted = steps.check(*map(given, self.rows(LANGUAGES["English"], False)), Settings()).market.docket()
        for words in LANGUAGES.values():
            programmes, residents = self.rows(words, False)
            width = len(residents[0]) + 2
            titled = [["", words.title], [], ["", "2. 3. 2026"], *(["", resident[0], "", *resident[1:]] for resident in residents)]
            read = steps.check(given([[*row[:2], "", *row[2:]] for row in programmes]), given(titled), Settings())
            self.assertEqual(sentences.report(read.faults), [])
            self.assertEqual(read.market.docket(), wanted)
            self.assertEqual(list(map(sentences.note, read.notes()))[:3], [
                "note: programmes: 1 column without a heading is empty: C",
                f"note: residents: 2 rows above the headings are left out: {words.title}, 2. 3. 2026",
                "note: residents: 2 columns without a heading are empty: A, C"])
            self.assertEqual(len(titled[3]), width)

    def test_who_withdrew(self) -> None:
        """By a column of each language: they are in the docket as withdrawn, a seal has it so, and tables that say it later are told."""
        for words in LANGUAGES.values():
            programmes, residents = self.rows(words, False)
            for row, text in zip(residents, (words.withdrawn, words.yes.upper(), "", "X", "0", "-", "", "")):
                row.insert(1, text)
            read = steps.check(given(programmes), given(residents), Settings())
            self.assertEqual(sentences.report(read.faults), [])
            self.assertEqual(read.market.withdrawn_residents, ("Ana Silva", "Zoë Brontë"))
            self.assertEqual([sentences.note(note) for note in read.notes()][0],
                             f"note: residents: the column {words.withdrawn} says who withdrew: Ana Silva, Zoë Brontë")
        text = "".join(",".join(row) + "\n" for row in residents)
        self.assertEqual(office("seal", *self.tables(), "--out", self.folder / "sealed").status, 0)
        said = office("run", self.folder / "programmes.csv", self.write("later.csv", text), "--seal", self.folder / "sealed", "--out", self.folder / "m")
        self.assertEqual((said.status, said.out, said.err), (3, "", "".join(
            f"office: resident {name} withdrew, as the table says, and was sealed before that: withdraw {name} from the sealed folder\n"
            for name in ("Ana Silva", "Zoë Brontë")) + f"office: the tables say otherwise than what {self.folder / 'sealed'} sealed; nothing was written\n"))
        tables = [str(self.folder / "programmes.csv"), str(self.folder / "later.csv")]
        self.assertEqual(office("run", *tables, "--out", self.folder / "match").status, 0)
        said = office("withdraw", self.folder / "match", "Kim Lee", "--out", self.folder / "less")
        self.assertEqual((said.status, said.err), (0, ""))
        for name in ("match", "less"):
            said = office("verify", self.folder / name, "--tables", *tables)
            self.assertEqual((said.status, said.err), (0, ""), said.out)


class Mistakes(OfficeTest):
    """Each kind in each language, at a random place and in a random form."""

    def test_each_is_told_and_nothing_else(self) -> None:
        self.assertGreaterEqual(len(MISTAKES) * len(LANGUAGES), 200)
        for name, (shape, plant) in MISTAKES.items():
            for words in LANGUAGES.values():
                pair = drawn(words, f"{name} {words.language}", shape)
                told = plant(pair)
                form = pair.chance.choice(["utf-8", "utf-8-sig", "utf-16", "utf-32", "xlsx"])
                mark = pair.chance.choice(",;\t|")
                read = steps.check(given(pair.programmes, form, mark), given(pair.residents, form, mark), Settings())
                self.assertEqual(sorted(sentences.report(read.faults)), sorted(told), (name, words.language, form, mark))

    def test_harmless_variants_give_the_same_docket(self) -> None:
        """Titles, blank rows and columns, columns of other things, other forms of headings, and blanks beside names."""
        for seed in range(4):
            for words in LANGUAGES.values():
                one, two = drawn(words, f"variant {seed}"), drawn(words, f"variant {seed}")
                chance = random.Random(f"{seed} {words.language}")
                if seed % 2:
                    two.added("E-Mail", [f"{number}@example.org" for number in range(40)])
                for rows in (two.programmes, two.residents):
                    rows[0][:] = [chance.choice([text, text.lower() if words.language != "Turkish" else text, f" {text} ", f"{text}:"]) for text in rows[0]]
                    rows[1:] = [[f"{' ' * chance.randrange(2)}{text}{' ' * chance.randrange(2)}" for text in row] for row in rows[1:]]
                    place = chance.randrange(1, len(rows[0]) + 1)
                    for row in rows:
                        row.insert(place, "")
                    for _ in range(3):
                        rows.insert(chance.randrange(1, len(rows)), [""] * len(rows[0]))
                    for _ in range(chance.randrange(3)):
                        rows.insert(0, [words.title, *[""] * (len(rows[0]) - 1)])
                form, mark = chance.choice(["utf-8", "utf-8-sig", "utf-16", "utf-32", "xlsx"]), chance.choice(",;\t|")
                wanted, read = (steps.check(*(given(rows, form, mark) for rows in pair[:2]), Settings()) for pair in (one, two))
                self.assertEqual(sentences.report(read.faults), [], (seed, words.language, form))
                self.assertEqual(read.market.docket(), wanted.market.docket())


class Classes(OfficeTest):
    """What was seen to pass without a word, each in whole sentences."""

    def told(self, programmes: str, residents: str, form: str = "utf-8", **said) -> List[str]:
        read = steps.check(*(steps.Given("t", text.encode(form)) for text in (programmes, residents)), Settings(**said))
        return sentences.report(read.faults) + list(map(sentences.note, read.notes()))

    def test_the_sets_that_read_a_file(self) -> None:
        """The likeliest first, each with its names; the one that is named first reads what was written."""
        for encoding, names in (("windows-1250", ["Łukasz Żak", "Jiří Dvořák", "Gyöngyi Erdős"]), ("windows-1254", ["Çağrı Şahin", "Işık Öztürk"]),
                                ("windows-1251", ["Иван Петров", "Ольга Ильина"]), ("windows-1253", ["Γιώργος Παππάς", "Μαρία Ιωάννου"]),
                                ("koi8-r", ["Иван Петров", "Ольга Ильина"])):
            residents = "Applicant,Rank 1\nAnna Abel,North\n" + "".join(f"{name},North\n" for name in names)
            read = steps.check(steps.Given("p", b"Programme,Places,Rank 1\nNorth,1,Anna Abel\n"), steps.Given("r", residents.encode(encoding)), Settings())
            (fault,) = read.faults.every()
            sets = fault.values["sets"]
            self.assertEqual((fault.code, sets[0], len(sets)), ("file.set", (encoding, names), 4), sets)
            for name, shown in sets:
                self.assertEqual(shown, [text.encode(encoding).decode(name) for text in names])
            self.assertEqual([(remedy.setting, remedy.value, remedy.table) for remedy in fault.remedies], [("encoding", name, "residents") for name, _ in sets])
            first = f"(--encoding residents=SET): {encoding} has {', '.join(names)}; {sets[1][0]} has "
            self.assertIn(first, sentences.line_of(fault))
            self.assertIsNotNone(steps.check(steps.Given("p", b"Programme,Places,Rank 1\nNorth,1,Anna Abel\n"),
                                             steps.Given("r", residents.encode(encoding)), Settings(encoding={"residents": encoding})).market)

    def test_the_note_of_a_set_shows_names(self) -> None:
        """Names and no headings, those that aren't written as names first."""
        residents = "Bewerber/in,1. Präferenz,Prüfung\n" + "".join(f"{name},North,\n" for name in ("Ana", "Zoë", "José", "Müller", "Jiøí", "Élodie"))
        told = self.told("Programme,Places,Rank 1\nNorth,1,Ana\n", residents, "cp1252", encoding={"residents": "cp1252"}, allow_alone=True)
        self.assertEqual([line for line in told if "names in" in line], [
            "note: residents: names in Windows-1252, as Jiøí, Zoë, José; if these are wrong, --encoding residents=SET names another"])

    def test_a_column_that_is_ignored(self) -> None:
        """Any column: with its IDs left out, two of one name are told, and a rank that is left out is a rank that isn't there."""
        programmes, residents = "Programme,Places,Rank 1\nNorth,1,Ana\n", "Applicant,ID,Rank 1,Rank 2\nAna,1,North,\nBo,2,North,\n"
        self.assertEqual(self.told(programmes, residents, ignore=["id"]), [])
        self.assertEqual(self.told(programmes, residents.replace("Bo", "Ana"), ignore=["ID"]), [
            "residents, row 3, cell 1 (A3): Ana has a row before, row 2; if these are two, a column headed ID tells them apart"])
        self.assertEqual(self.told(programmes, residents, ignore=["Rank 2", "ID"]), [])
        self.assertEqual(self.told(programmes, residents, ignore=["Applicant"])[0],
                         "residents, row 1, cell 5 (E1): no column is headed Applicant (or resident, candidate, applicant name, or as --heading says)")

    def test_a_last_choice_of_numbers(self) -> None:
        """Where all of them are IDs it is asked for; other numbers are left out with a note."""
        programmes = "Programme,ID,Places,Rank 1\n" + "".join(f"Ward {number},{number},1,Ana\n" for number in range(1, 5))
        residents = "Applicant,Rank 1,Reserve\nAna,1,2\nBo,2,3\nCy,3,1\n"
        self.assertEqual(self.told(programmes, residents)[0], (
            "residents, row 1, cell 3 (C1): Reserve is no heading of this table, and programmes stand below it, as 1; say what it is (--heading "
            "'rank=Reserve'), or leave it out (--ignore 'Reserve')"))
        left = "note: residents: 1 column is left out: Age (C); --keep keeps one for matches.csv and letters"
        self.assertIn(left, self.told(programmes, residents.replace("Reserve", "Age").replace(",2\n", ",29\n")))

    def test_one_column_of_names_sorted(self) -> None:
        """Names of which each part stands in another row are one fault."""
        chance = random.Random(5)
        people = [planted.person(number).split(" ") for number in chance.sample(range(planted.RESIDENTS), 40)]
        programmes = "Programme,Places," + ",".join(f"Rank {rank}" for rank in range(1, 41)) + "\nNorth,9," + ",".join(map(" ".join, people)) + "\n"
        families = sorted(family for _, family in people)
        residents = "First name,Last name,Rank 1\n" + "".join(f"{given},{family},North\n" for (given, _), family in zip(people, families))
        there = {f"{given} {family}" for (given, _), family in zip(people, families)}
        gone = [(at, " ".join(person)) for at, person in enumerate(people) if " ".join(person) not in there]
        wanted = line("programmes", [(2, at + 3) for at, _ in gone], f"{len(gone)} names in these lists have the first name of one resident and the last "
                      f"name of another, as {gone[0][1]}: was one column sorted alone?")
        self.assertEqual([one for one in self.told(programmes, residents, allow_alike=True) if "note:" not in one and "row before" not in one], [wanted])

    def test_another_years_table(self) -> None:
        """Only where most of both don't fit: of a table that has the others' names too each unknown name is told."""
        people = [planted.person(number) for number in range(60)]
        programmes = "Programme,Places," + ",".join(f"Rank {rank}" for rank in range(1, 41)) + "\nNorth,9," + ",".join(people[20:]) + "\n"
        cells = [(2, at + 3) for at in range(40)]
        for first, last, is_other in ((0, 20, True), (0, 22, True), (10, 32, False)):
            told = self.told(programmes, "Applicant,Rank 1\n" + "".join(f"{name},North\n" for name in people[first:last]))
            unknown = 40 - max(0, last - 20)
            self.assertEqual((f"{unknown} of 40 names in these lists are unknown" in told[0], "no resident is named" in told[0]),
                             (is_other, not is_other), told[0])
        self.assertEqual(len(cells), 40)

    def test_groups_and_hidden_cells(self) -> None:
        """A row that heads a group is told, and so is each hidden row with its member, and each hidden column with its heading."""
        programmes = [["Programme", "Places", "Rank 1", "Rank 2"], ["North", "1", "Ana", "Bo"], ["South", "1", "Bo", ""]]
        residents = [["Applicant", "Rank 1", "Rank 2"], ["Group A", "", ""], *([f"{name} Abel", "North", "South"] for name in planted.FIRST[:12])]
        faults = steps.check(given(programmes), given(residents), Settings()).faults.every()
        self.assertIn("residents, row 2, cell 1 (A2): Group A has no list, and nobody ranks it: is it a remark? Take it out (--allow-alone takes such "
                      "rows)", list(map(sentences.line_of, faults)))
        book = planted.book([["Applicant", "Rank 1", "", "Rank 2"], ["Ana", "North", "", ""], ["Bo", "North", "", "South"]])
        with zipfile.ZipFile(io.BytesIO(book)) as archive:
            parts = {name: archive.read(name) for name in archive.namelist()}
        sheet = parts["xl/worksheets/sheet1.xml"]
        sheet = sheet.replace(b"<sheetData>", b'<cols><col min="2" max="2" hidden="1"/><col min="4" max="9" hidden="true"/></cols><sheetData>')
        parts["xl/worksheets/sheet1.xml"] = sheet.replace(b'<row r="3">', b'<row r="3" hidden="1">')
        made = io.BytesIO()
        with zipfile.ZipFile(made, "w") as archive:
            for name, data in parts.items():
                archive.writestr(name, data)
        read = steps.check(given(programmes), steps.Given("r", made.getvalue()), Settings())
        self.assertEqual(list(map(sentences.note, read.notes())), [
            "note: residents: 1 hidden row is read too: row 3, Bo", "note: residents: 2 hidden columns are read too: B, Rank 1, D, Rank 2",
            "note: residents: 1 column without a heading is empty: C"])

    def test_a_column_without_a_heading_that_has_a_cell(self) -> None:
        """It is a fault, and no column that is empty."""
        read = steps.check(given([["Programme", "Places", "Rank 1"], ["North", "1", "Ana"]]),
                           given([["Applicant", "", "Rank 1", "", "Rank 2"], ["Ana", "", "North", "", ""], ["Bo", "x", "North", "", ""]]), Settings())
        self.assertEqual((list(map(sentences.line_of, read.faults.every())), list(map(sentences.note, read.notes()))), (
            ["residents, row 3, cell 2 (B3): x stands in a column without a heading"], ["note: residents: 1 column without a heading is empty: D"]))

    def test_docket_names_that_tell_nobody_apart(self) -> None:
        """Such members are refused for sealing until there are IDs; a run without a seal takes them."""
        for first, second, one, other in (("Zoë Weiß", "Zoe Weiss", "zoe-weiss", "zoe-weiss-2"), ("???", "Kim", "r", "r")):
            programmes, residents = f"Programme,Places,Rank 1\nNorth,1,{first}\n", f"Applicant,ID,Rank 1\n{first},,North\n{second},,North\n"
            tables = [self.write("p.csv", programmes), self.write("r.csv", residents)]
            options = ["--allow-alike", "--allow-lost-letters"]
            said = office("seal", *tables, "--out", self.folder / "sealed", *options)
            name, known = (second, first) if other != one else (first, first)
            self.assertEqual((said.status, said.out, said.err), (3, "", f"office: {name} is {other} in the docket, which doesn't tell that resident from "
                             f"{known}, {one}: give each an ID, in a column headed ID, and seal then; nothing was written\n"))
            self.assertEqual(office("check", *tables, *options).status, 0)
            with_ids = self.write("r.csv", residents.replace(f"{first},,", f"{first},1,").replace(f"{second},,", f"{second},2,"))
            self.assertEqual(office("seal", tables[0], with_ids, "--out", self.folder / f"sealed-{one}", *options).status, 0)
        self.assertEqual(self.left(), ["p.csv", "r.csv", "sealed-r", "sealed-zoe-weiss"])
