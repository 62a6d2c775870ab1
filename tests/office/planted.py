"""Pairs of tables with one planted mistake each, and where a report has to say that it is.

The whole pair has 12 programmes and 400 residents, each of whom ranks five programmes that all rank them back. A mistake
changes cells, or the bytes of a file; what is expected of the report (the table, the row, the cell, and words of the cause)
is written beside it by hand: row 1 is the heading, resident number i (from 0) stands in row i + 2.
"""
import io
import zipfile
from dataclasses import dataclass, field
from typing import Callable, Dict, List, Optional, Tuple
from xml.sax.saxutils import escape

FIRST = (
    "Ana",
    "Björn",
    "Chloé",
    "Dmitri",
    "Élodie",
    "Fatima",
    "Greta",
    "Hanna",
    "Inês",
    "José",
    "Kwame",
    "Łukasz",
    "Márta",
    "Noor",
    "Omar",
    "Priya",
    "Rosa",
    "Søren",
    "Tomáš",
    "Zoë",
)
LAST = (
    "Abel",
    "Brontë",
    "Conceição",
    "Dvořák",
    "Egger",
    "Fischer",
    "García",
    "Haddad",
    "Ivanov",
    "Jónsson",
    "Kovács",
    "Lefèvre",
    "Müller",
    "Nilsson",
    "Okafor",
    "Pérez",
    "Quist",
    "Rossi",
    "Silva",
    "Tanaka",
)
PROGRAMMES = (
    "Åkerö Sjukhus",
    "Bellevue Surgery",
    "County Paediatrics",
    "Hôpital Saint-Éloi",
    "Klinik Köln",
    "Lakeview Family Medicine",
    "Mercy Radiology",
    "Northgate General",
    "Queen's Park Psychiatry",
    "Riverside Emergency",
    "St. Mary's Medicine",
    "Szpital Łąkowy",
)
RESIDENTS, EACH, QUOTA = 400, 5, 30


def person(number: int) -> str:
    return f"{FIRST[number % 20]} {LAST[number // 20]}"


def ranked_by(resident: int) -> List[int]:
    return [(resident + 5 * step) % 12 for step in range(EACH)]


def rankers(programme: int) -> List[int]:
    return [resident for resident in range(RESIDENTS) if programme in ranked_by(resident)]


@dataclass
class Pair:
    """Two tables as cells, and the bytes that stand in their place where a mistake is one of bytes."""

    programmes: List[List[str]] = field(default_factory=list)
    residents: List[List[str]] = field(default_factory=list)
    programmes_data: Optional[bytes] = None
    residents_data: Optional[bytes] = None
    options: Tuple[str, ...] = ()

    def bytes(self) -> Tuple[bytes, bytes]:
        return (
            text_of(self.programmes).encode() if self.programmes_data is None else self.programmes_data,
            text_of(self.residents).encode() if self.residents_data is None else self.residents_data,
        )


def text_of(rows: List[List[str]], mark: str = ",") -> str:
    return "".join(mark.join(row) + "\r\n" for row in rows)


def wide() -> Pair:
    most = max(len(rankers(number)) for number in range(12))
    pair = Pair(
        [["Programme", "Places"] + [f"Rank {rank}" for rank in range(1, most + 1)]],
        [["Applicant"] + [f"Rank {rank}" for rank in range(1, EACH + 1)]],
    )
    pair.programmes += [[name, str(QUOTA)] + [person(ranker) for ranker in rankers(number)] for number, name in enumerate(PROGRAMMES)]
    pair.residents += [[person(number)] + [PROGRAMMES[programme] for programme in ranked_by(number)] for number in range(RESIDENTS)]
    return pair


def long() -> Pair:
    pair = Pair([["Programme", "Places", "Rank", "Applicant"]], [["Applicant", "Rank", "Programme"]])
    for number, name in enumerate(PROGRAMMES):
        pair.programmes += [[name, str(QUOTA), str(rank), person(resident)] for rank, resident in enumerate(rankers(number), 1)]
    for number in range(RESIDENTS):
        pair.residents += [[person(number), str(rank), PROGRAMMES[programme]] for rank, programme in enumerate(ranked_by(number), 1)]
    return pair


def with_ids() -> Pair:
    """The wide pair with a column of IDs, A1000 and on, after each resident's name."""
    pair = wide()
    pair.residents = [
        [row[0], f"A{998 + number}" if number > 1 else "ID", *row[1:]] for number, row in enumerate(pair.residents, 1)
    ]
    return pair


# What a report has to say: the table, its row and cell, and words of the cause. A cell counts from 1.
Wanted = Tuple[str, int, int, str]
MISTAKES: Dict[str, Tuple[Callable[[], Pair], Callable[[Pair], None], Wanted]] = {}


def mistake(table: str, row: int, cell: int, words: str, start: Callable[[], Pair] = wide):
    """Plants the mistake of the function below into a fresh pair."""

    def named(plant: Callable[[Pair], None]) -> Callable[[Pair], None]:
        assert plant.__name__ not in MISTAKES
        MISTAKES[plant.__name__] = (start, plant, (table, row, cell, words))
        return plant

    return named


# Files.
@mistake("residents", 1, 1, "the table is empty")
def an_empty_file(pair):
    pair.residents_data = b""


@mistake("programmes", 1, 1, "the table is empty")
def a_file_of_blank_rows(pair):
    pair.programmes_data = b"\r\n,,,\r\n\r\n"


@mistake("residents", 2, 1, "no resident stands below the heading")
def a_heading_alone(pair):
    del pair.residents[1:]


@mistake("programmes", 2, 1, "no programme stands below the heading")
def a_heading_of_programmes_alone(pair):
    del pair.programmes[1:]


@mistake("residents", 401, 6, "ends in the middle of a letter")
def utf_16_cut_short(pair):
    pair.residents_data = text_of(pair.residents).encode("utf-16")[:-5]


@mistake("residents", 31, 1, "ends in the middle of a letter")
def utf_8_cut_short(pair):
    data = text_of(pair.residents).encode()
    pair.residents_data = data[: data.index("José Brontë".encode()) + 4]


@mistake("residents", 11, 1, "the byte e9 is no letter in UTF-8")
def one_letter_in_another_set(pair):
    data = text_of(pair.residents).encode()
    pair.residents_data = data.replace("José Abel".encode(), "José Abel".encode("cp1252"))


@mistake("programmes", 5, 1, "is no letter")
def a_control_character(pair):
    pair.programmes[4][0] = "Hôpital\x1b[2J Saint-Éloi"


@mistake("residents", 7, 1, "is no letter")
def a_zero_byte(pair):
    pair.residents[6][0] = "Fatima\0 Abel"


@mistake("residents", 9, 1, "1 name lost letters where ? or \ufffd stands, as Hann\ufffd Abel")
def a_lost_letter(pair):
    pair.residents[8][0] = "Hann\ufffd Abel"


@mistake("residents", 5, 1, "a quote that isn't closed")
def an_open_quote_to_the_end(pair):
    pair.residents[4][0] = '"Dmitri Abel'


@mistake("residents", 5, 1, "text after a closing quote")
def an_open_quote_to_the_next(pair):
    pair.residents[4][0] = '"Dmitri Abel'
    pair.residents[60][0] = '"Zoë Conceição"'


@mistake("programmes", 3, 5, "a quote that isn't closed")
def an_open_quote_in_a_list(pair):
    pair.programmes[2][4] = '"' + pair.programmes[2][4]


@mistake("residents", 5, 6, "goes on over a line's end")
def an_open_quote_that_is_closed_below(pair):
    pair.residents[4][5] = '"' + pair.residents[4][5]
    pair.residents[5][0] = pair.residents[5][0] + '"'


@mistake("residents", 12, 1, "text after a closing quote")
def letters_after_a_quote(pair):
    pair.residents[11][0] = '"Kwame" Abel'


@mistake("residents", 13, 1, "is too long for a name")
def a_cell_of_140000_letters(pair):
    pair.residents[12][0] = "x" * 140000


@mistake("residents", 20, 1, "goes on over a line's end")
def a_line_end_in_a_name(pair):
    pair.residents[19][0] = '"Søren\nAbel"'


# Headings.
@mistake("residents", 1, 1, "a heading row is wanted")
def residents_without_a_heading(pair):
    del pair.residents[0]


@mistake("programmes", 1, 1, "a heading row is wanted")
def programmes_without_a_heading(pair):
    del pair.programmes[0]


@mistake("residents", 1, 1, "a heading row is wanted")
def a_title_above_the_heading(pair):
    pair.residents.insert(0, ["Match of", "2026"])


@mistake("programmes", 1, 1, "are the two tables exchanged?")
def exchanged_tables(pair):
    pair.programmes, pair.residents = pair.residents, pair.programmes


@mistake("residents", 1, 2, "no column is headed Rank 1")
def a_heading_of_one_cell(pair):
    pair.residents[0] = ["Applicant"]


@mistake("programmes", 1, 2, "no column is headed Places")
def no_heading_of_places(pair):
    pair.programmes[0][1] = ""


@mistake("programmes", 1, 2, "Beds is no heading")
def another_word_for_places(pair):
    pair.programmes[0][1] = "Beds"


@mistake("residents", 1, 1, "no column is headed Applicant")
def no_heading_of_applicants(pair):
    pair.residents[0][0] = ""


@mistake("residents", 1, 4, "no column is headed Rank 3")
def no_heading_of_a_rank(pair):
    pair.residents[0][3] = ""


@mistake("residents", 1, 7, "no column is headed Rank 4")
def a_rank_left_out(pair):
    pair.residents[0][4:] = ["Rank 5", "Rank 6"]


@mistake("residents", 1, 4, "two columns are headed")
def a_rank_twice(pair):
    pair.residents[0][3] = "Rank 2"


@mistake("residents", 22, 7, "stands in a column without a heading")
def a_row_longer_than_the_heading(pair):
    pair.residents[21].append("Klinik Köln")


@mistake("residents", 2, 1, "stands in a column without a heading")
def a_heading_shifted_to_the_right(pair):
    pair.residents[0].insert(0, "")


@mistake("residents", 2, 1, "the row is parted by commas, where the table is by semicolons")
def a_line_sep_that_is_wrong(pair):
    pair.residents_data = b"sep=;\r\n" + text_of(pair.residents[:1], ";").encode() + text_of(pair.residents[1:]).encode()


# Rows and places.
@mistake("programmes", 4, 2, "no number of places")
def no_places(pair):
    pair.programmes[3][1] = ""


@mistake("programmes", 4, 2, "many is no number of places")
def a_word_for_places(pair):
    pair.programmes[3][1] = "many"


@mistake("programmes", 4, 2, "-3 is no number of places")
def negative_places(pair):
    pair.programmes[3][1] = "-3"


@mistake("programmes", 4, 2, "2.5 is no number of places")
def a_broken_number_of_places(pair):
    pair.programmes[3][1] = "2.5"


@mistake("programmes", 4, 2, "more than 10,000")
def a_number_of_5000_digits(pair):
    pair.programmes[3][1] = "7" * 400
    pair.programmes_data = text_of(pair.programmes).replace("7" * 400, "7" * 5000).encode()


@mistake("programmes", 4, 2, "more than 10,000")
def places_over_the_limit(pair):
    pair.programmes[3][1] = "10001"


@mistake("programmes", 4, 2, "is no number of places")
def places_in_other_digits(pair):
    pair.programmes[3][1] = "٣٠"


@mistake("programmes", 14, 1, "Total is no programme")
def a_row_of_totals(pair):
    pair.programmes.append(["Total", "360"])


@mistake("residents", 402, 1, "Total: is no resident")
def a_row_of_totals_below_residents(pair):
    pair.residents.append(["Total:", "400"])


@mistake("programmes", 14, 1, "Klinik Köln has a row before, row 6")
def a_programme_twice(pair):
    pair.programmes.append(list(pair.programmes[5]))


@mistake("residents", 402, 1, "Greta Abel has a row before, row 8")
def a_resident_twice(pair):
    pair.residents.append(["Greta Abel", "Klinik Köln"])


@mistake("residents", 30, 1, "the row has no resident's name")
def a_row_without_a_name(pair):
    pair.residents[29][0] = ""


@mistake("residents", 30, 1, "is the name of a programme")
def a_row_that_lost_its_first_cell(pair):
    del pair.residents[29][0]


# Names in lists.
@mistake("residents", 14, 2, "no programme is named Bellevue Surgury; is it Bellevue Surgery?")
def a_misspelt_programme(pair):
    pair.residents[13][1] = "Bellevue Surgury"


@mistake("residents", 3, 2, "no programme is named Bellevue Surgery; is it Belleview Surgery?")
def a_programme_that_its_own_table_misspells(pair):
    pair.programmes[2][0] = "Belleview Surgery"


@mistake("residents", 4, 2, "no programme is named County Paediatrics")
def a_programme_whose_row_is_lost(pair):
    del pair.programmes[3]


@mistake("programmes", 2, 6, "no resident is named Hanna Abel")
def a_resident_whose_row_is_lost(pair):
    del pair.residents[8]


@mistake("programmes", 6, 4, "no resident is named Elodie Abel; is it Élodie Abel?")
def a_resident_without_an_accent(pair):
    pair.programmes[5][3] = "Elodie Abel"


@mistake("programmes", 6, 4, "no resident is named Abel, Élodie; is it Élodie Abel?")
def a_resident_with_the_last_name_first(pair):
    pair.programmes[5][3] = '"Abel, Élodie"'


@mistake("residents", 6, 3, "KLINIK KÖLN; is it Klinik Köln?")
def capitals(pair):
    pair.residents[5][2] = "KLINIK KÖLN"


@mistake("programmes", 2, 3, "no resident is named Abel, Ana; is it Ana Abel?")
def a_table_with_all_last_names_first(pair):
    pair.programmes[1:] = [
        row[:2] + [f'"{name.split()[1]}, {name.split()[0]}"' for name in row[2:]] for row in pair.programmes[1:]
    ]


@mistake("programmes", 3, 3, "another character set")
def a_table_read_in_another_set(pair):
    pair.programmes[2][2] = "Björn Abel".encode().decode("cp1252")


@mistake("residents", 40, 4, "2 names in one cell")
def two_names_in_a_cell(pair):
    pair.residents[39][3:] = ["Klinik Köln; Mercy Radiology"]


@mistake("residents", 50, 4, "is listed twice")
def a_programme_listed_twice(pair):
    pair.residents[49][3] = pair.residents[49][1]


@mistake("programmes", 8, 9, "is listed twice")
def a_resident_listed_twice(pair):
    pair.programmes[7][8] = pair.programmes[7][3]


@mistake("residents", 60, 1, "the row is parted by semicolons, where the table is by commas")
def a_row_of_semicolons(pair):
    pair.residents[59] = [";".join(pair.residents[59])]


# IDs.
@mistake("residents", 17, 2, "Priya Abel has no ID; every row needs one once one has it")
def a_row_without_an_id(pair):
    pair.residents[16][1] = ""


@mistake("residents", 17, 2, "the ID A1003 is that of Dmitri Abel in row 5")
def an_id_twice(pair):
    pair.residents[16][1] = "A1003"


@mistake("programmes", 4, 3, "2 residents may be meant by Kwame Abel")
def a_name_that_two_have(pair):
    pair.residents.append(["Kwame Abel", "B1", "Klinik Köln"])
    for row in pair.programmes[1:]:
        row[2:] = [name for name in row[2:] if name != "Kwame Abel"]
    pair.programmes[3][2] = "Kwame Abel"


@mistake("programmes", 4, 3, "no resident is named A2000")
def an_id_that_nobody_has(pair):
    pair.programmes[3][2] = "A2000"


# Long tables.
@mistake("residents", 1, 2, "no column is headed Rank, where cell 3 is headed Programme")
def no_heading_of_rank(pair):
    pair.residents[0][1] = ""


@mistake("residents", 1, 3, "no column is headed Programme, where cell 2 is headed Rank")
def no_heading_of_the_ranked(pair):
    pair.residents[0][2] = ""


@mistake("residents", 8, 2, "0 is no rank")
def a_rank_of_0(pair):
    pair.residents[7][1] = "0"


@mistake("residents", 8, 2, "ranks two at 1")
def two_of_one_rank(pair):
    pair.residents[7][1] = "1"


@mistake("residents", 9, 2, "Björn Abel has no rank 2")
def a_rank_that_is_lost(pair):
    del pair.residents[7]
    pair.residents.insert(1, [""] * 3)


@mistake("residents", 8, 2, "high is no rank")
def a_word_for_a_rank(pair):
    pair.residents[7][1] = "high"


@mistake("residents", 8, 3, "nobody stands at rank 2 of Björn Abel")
def a_rank_of_nobody(pair):
    pair.residents[7][2] = ""


@mistake("programmes", 9, 2, "31 places here and 30 before")
def places_that_differ(pair):
    pair.programmes[8][1] = "31"


@mistake("programmes", 2, 2, "has no number of places in any row")
def places_in_no_row(pair):
    for row in pair.programmes[1:]:
        if row[0] == "Åkerö Sjukhus":
            row[1] = ""


@mistake("residents", 9, 3, "is listed twice by Björn Abel")
def one_programme_at_two_ranks(pair):
    pair.residents[8][2] = pair.residents[6][2]


@mistake("residents", 8, 2, "Bjorn Abel has no rank 1")
def a_name_misspelt_in_one_row(pair):
    pair.residents[7][0] = "Bjorn Abel"


for _name in ("a_row_without_an_id", "an_id_twice", "a_name_that_two_have", "an_id_that_nobody_has"):
    MISTAKES[_name] = (with_ids, *MISTAKES[_name][1:])
_LONG = list(MISTAKES)[list(MISTAKES).index("no_heading_of_rank") :]
for _name in _LONG:
    MISTAKES[_name] = (long, *MISTAKES[_name][1:])


# Workbooks.
def book(rows: List[List[str]], more: Optional[Dict[str, object]] = None, cells: Optional[Dict[str, str]] = None) -> bytes:
    """A workbook of one sheet with these rows; `more` are other parts, and `cells` what stands in place of a cell."""
    main = "http://schemas.openxmlformats.org/spreadsheetml/2006/main"
    kind = "http://schemas.openxmlformats.org/officeDocument/2006/relationships"
    head = '<?xml version="1.0" encoding="UTF-8"?>'
    lines = []
    for number, row in enumerate(rows, 1):
        made = [
            (cells or {}).get(f"{letters(cell)}{number}")
            or f'<c r="{letters(cell)}{number}" t="inlineStr"><is><t>{escape(text)}</t></is></c>'
            for cell, text in enumerate(row, 1)
        ]
        lines.append(f'<row r="{number}">{"".join(made)}</row>')
    parts = {
        "[Content_Types].xml": f'{head}<Types xmlns="http://schemas.openxmlformats.org/package/2006/content-types"/>',
        "_rels/.rels": f'{head}<Relationships><Relationship Id="a" Type="{kind}/officeDocument" Target="xl/workbook.xml"/>'
        "</Relationships>",
        "xl/workbook.xml": f'{head}<workbook xmlns="{main}" xmlns:r="{kind}"><sheets><sheet name="Table" sheetId="1" r:id="b"/>'
        "</sheets></workbook>",
        "xl/_rels/workbook.xml.rels": f'{head}<Relationships><Relationship Id="b" Type="{kind}/worksheet" '
        'Target="worksheets/sheet1.xml"/></Relationships>',
        "xl/worksheets/sheet1.xml": f'{head}<worksheet xmlns="{main}"><sheetData>{"".join(lines)}</sheetData></worksheet>',
        **(more or {}),
    }
    data = io.BytesIO()
    with zipfile.ZipFile(data, "w", zipfile.ZIP_DEFLATED) as archive:
        for name, text in parts.items():
            with archive.open(name, "w") as file:
                for part in [text] if isinstance(text, str) else text:
                    file.write(part.encode())
    return data.getvalue()


def letters(cell: int) -> str:
    return (letters((cell - 1) // 26) if cell > 26 else "") + chr(65 + (cell - 1) % 26)


def zipped(**parts: str) -> bytes:
    data = io.BytesIO()
    with zipfile.ZipFile(data, "w") as archive:
        for name, text in parts.items():
            archive.writestr(name.replace("__", "/").replace("_", "."), text)
    return data.getvalue()


# Where the row is 0, the mistake is one of the whole file.
@mistake("residents", 0, 0, "this is an .ods file: save it as .xlsx or CSV")
def an_ods_file(pair):
    pair.residents_data = zipped(mimetype="application/vnd.oasis.opendocument.spreadsheet", content_xml="<a/>")


@mistake("residents", 0, 0, "this is an old .xls file, or a file with a password: save it as .xlsx or CSV")
def an_old_xls_file(pair):
    pair.residents_data = bytes.fromhex("d0cf11e0a1b11ae1") + b"\0" * 4000


@mistake("programmes", 0, 0, "this is an .xlsb file: save it as .xlsx or CSV")
def an_xlsb_file(pair):
    pair.programmes_data = zipped(xl__workbook_bin="x")


@mistake("programmes", 0, 0, "this is a packed file, and no .xlsx: save it as .xlsx or CSV")
def a_zip_of_something_else(pair):
    pair.programmes_data = zipped(readme_txt="x")


@mistake("programmes", 0, 0, "this is a PDF: save it as .xlsx or CSV")
def a_pdf(pair):
    pair.programmes_data = b"%PDF-1.7\n%\xe2\xe3\n"


@mistake("residents", 0, 0, "this is a page of HTML or XML: save it as .xlsx or CSV")
def a_page_of_html(pair):
    pair.residents_data = b"<html><table><tr><td>Applicant</td></tr></table></html>"


@mistake("residents", 0, 0, "the workbook declares entities, which no spreadsheet writes")
def a_bomb_of_entities(pair):
    bomb = "".join(f'<!ENTITY a{n} "&a{n - 1};&a{n - 1};&a{n - 1};&a{n - 1};">' for n in range(1, 30))
    text = f'<?xml version="1.0"?><!DOCTYPE a [<!ENTITY a0 "x">{bomb}]><worksheet><sheetData><row r="1"><c r="A1" t="str"><v>&a29;'
    pair.residents_data = book([], {"xl/worksheets/sheet1.xml": text + "</v></c></row></sheetData></worksheet>"})


@mistake("residents", 0, 0, "the sheet has a row 1,048,577, more than 1,048,576")
def a_row_that_no_sheet_has(pair):
    pair.residents_data = book([], {"xl/worksheets/sheet1.xml": '<worksheet><sheetData><row r="1048577"/></sheetData></worksheet>'})


@mistake("residents", 0, 0, "the sheet has a column 16,385, more than 16,384")
def a_column_that_no_sheet_has(pair):
    pair.residents_data = book([["Applicant"]], cells={"A1": '<c r="XFE1"><v>1</v></c>'})


@mistake("residents", 0, 0, "the sheet has more than 16,000,000 cells")
def a_sheet_of_far_cells(pair):
    far = "".join(f'<row r="{number}"><c r="XFD{number}"><v>1</v></c></row>' for number in range(1, 1200))
    pair.residents_data = book([], {"xl/worksheets/sheet1.xml": f"<worksheet><sheetData>{far}</sheetData></worksheet>"})


@mistake("residents", 0, 0, "the workbook has more than 256 MB")
def a_sheet_that_unpacks_without_end(pair):
    text = ("<worksheet><sheetData>", *(" " * (1 << 20) for _ in range(257)), "</sheetData></worksheet>")
    pair.residents_data = book([], {"xl/worksheets/sheet1.xml": text})


@mistake("residents", 0, 0, "the workbook is broken")
def a_workbook_cut_short(pair):
    pair.residents_data = book(pair.residents)[:-60]


@mistake("residents", 0, 0, "the workbook is broken")
def a_sheet_cut_short(pair):
    pair.residents_data = book([], {"xl/worksheets/sheet1.xml": '<worksheet><sheetData><row r="1">'})


@mistake("residents", 0, 0, "row 1 names a text that it doesn't have")
def a_text_that_the_workbook_lacks(pair):
    pair.residents_data = book(pair.residents, cells={"A1": '<c r="A1" t="s"><v>0</v></c>'})


@mistake("residents", 0, 0, "2 sheets have cells: Table, More; name one (--sheet 'residents=Table')")
def two_sheets(pair):
    kind = "http://schemas.openxmlformats.org/officeDocument/2006/relationships"
    pair.residents_data = book(
        pair.residents,
        {
            "xl/workbook.xml": f'<workbook xmlns:r="{kind}"><sheets><sheet name="Table" r:id="b"/><sheet name="More" r:id="c"/>'
            '<sheet name="Hidden" state="hidden" r:id="c"/></sheets></workbook>',
            "xl/_rels/workbook.xml.rels": f'<Relationships><Relationship Id="b" Type="{kind}/worksheet" '
            f'Target="worksheets/sheet1.xml"/><Relationship Id="c" Type="{kind}/worksheet" Target="/xl/worksheets/sheet2.xml"/>'
            "</Relationships>",
            "xl/worksheets/sheet2.xml": '<worksheet><sheetData><row><c><v>7</v></c></row></sheetData></worksheet>',
        },
    )


@mistake("residents", 0, 0, "no sheet is named Nowhere; there is Table")
def a_sheet_that_is_not_there(pair):
    pair.residents_data = book(pair.residents)
    pair.options = ("--sheet", "residents=Nowhere")


@mistake("residents", 0, 0, "no sheet is named Table; there is none")
def a_sheet_of_a_workbook_without_any(pair):
    pair.residents_data = book(pair.residents, {"xl/workbook.xml": "<workbook><sheets/></workbook>"})
    pair.options = ("--sheet", "residents=Table")


@mistake("residents", 1, 1, "the table is empty")
def an_empty_sheet(pair):
    pair.residents_data = book([])


@mistake("residents", 9, 1, "#N/A is what a formula leaves that fails")
def a_formula_that_fails(pair):
    pair.residents_data = book(pair.residents, cells={"A9": '<c r="A9" t="e"><f>B9</f><v>#N/A</v></c>'})


@mistake("residents", 9, 1, "#NO RESULT is what a formula leaves that fails")
def a_formula_without_a_result(pair):
    pair.residents_data = book(pair.residents, cells={"A9": '<c r="A9"><f>B9</f></c>'})


@mistake("residents", 9, 1, "#REF! is what a formula leaves that fails")
def a_formula_that_failed_in_a_csv_file(pair):
    pair.residents[8][0] = "#REF!"


@mistake("residents", 9, 3, "no programme is named 2026-03-01")
def a_date_in_a_list(pair):
    styles = '<styleSheet><cellXfs><xf numFmtId="0"/><xf numFmtId="14"/></cellXfs></styleSheet>'
    kind = "http://schemas.openxmlformats.org/officeDocument/2006/relationships"
    rels = (
        f'<Relationships><Relationship Id="b" Type="{kind}/worksheet" Target="worksheets/sheet1.xml"/>'
        f'<Relationship Id="s" Type="{kind}/styles" Target="styles.xml"/></Relationships>'
    )
    pair.residents_data = book(
        pair.residents,
        {"xl/styles.xml": styles, "xl/_rels/workbook.xml.rels": rels},
        {"C9": '<c r="C9" s="1"><v>46082</v></c>'},
    )


@mistake("residents", 20, 1, "goes on over a line's end after Søren")
def a_line_end_in_a_cell_of_a_sheet(pair):
    pair.residents[19][0] = "Søren\nAbel"
    pair.residents_data = book(pair.residents)


# Character sets that a file doesn't tell, and that names of Western Europe don't fit.
def in_set(encoding: str, first: str, words: str) -> None:
    def plant(pair):
        pair.residents[4][0] = first
        pair.residents_data = text_of(pair.residents).encode(encoding, "replace")

    plant.__name__ = f"a_table_in_{encoding.replace('-', '_')}"
    mistake("residents", 0, 0, words)(plant)


_NAMED = "save the table as UTF-8, or name its set (--encoding residents=SET): "
for _set, _first in (
    ("cp1250", "Jiří Dvořák"),
    ("cp1251", "Дмитрий Иванов"),
    ("cp1253", "Γιώργος Παππάς"),
    ("cp1254", "Ayşe Yılmaz"),
    ("cp1257", "Rūta Kazlauskienė"),
    ("iso8859-2", "Łukasz Wójcik"),
    ("iso8859-5", "Дмитрий Иванов"),
    ("iso8859-7", "Γιώργος Παππάς"),
    ("koi8-r", "Дмитрий Иванов"),
    ("mac-roman", "José Müller"),
    ("cp437", "José Müller"),
    ("cp850", "José Müller"),
    ("shift-jis", "田中 太郎"),
    ("gb18030", "王 芳"),
    ("euc-kr", "김 민준"),
    ("utf-7", "José Müller"),
    ("iso2022-jp", "田中 太郎"),
):
    in_set(_set, _first, _NAMED)


# Columns.
@mistake("residents", 1, 6, "Rnak 5 is no heading of this table")
def a_misspelt_heading_of_the_last_rank(pair):
    pair.residents[0][5] = "Rnak 5"


@mistake("residents", 1, 6, "Wunsch 5 is no heading of this table, and programmes stand below it")
def a_rank_under_an_unknown_heading(pair):
    pair.residents[0][5] = "Wunsch 5"


@mistake("programmes", 1, 3, "two columns are headed Quota: cells 2 and 3")
def two_columns_of_places(pair):
    pair.programmes = [[row[0], row[1] if number else "Places", row[1] if number else "Quota", *row[2:]]
                       for number, row in enumerate(pair.programmes)]


@mistake("residents", 1, 3, "two columns are headed ID: cells 2 and 3", with_ids)
def two_columns_of_ids(pair):
    pair.residents = [[row[0], row[1], row[1], *row[2:]] for row in pair.residents]


@mistake("residents", 1, 2, "ID is read already", with_ids)
def a_column_that_is_kept_and_read(pair):
    pair.options = ("--keep", "ID")


def with_two_names() -> Pair:
    """The wide pair with each resident's first and last name in two columns."""
    pair = wide()
    pair.residents = [[*(row[0].split() if number else ("First name", "Last name")), *row[1:]]
                      for number, row in enumerate(pair.residents)]
    return pair


@mistake("residents", 1, 2, "no column is headed Last name, where cell 1 is headed First name", with_two_names)
def a_first_name_without_a_last(pair):
    pair.residents[0][1] = ""


@mistake("residents", 1, 1, "no column is headed First name, where cell 2 is headed Last name", with_two_names)
def a_last_name_without_a_first(pair):
    pair.residents[0][0] = ""


@mistake("residents", 30, 1, "the row has no resident's name", with_two_names)
def a_row_without_both_names(pair):
    pair.residents[29][:2] = ["", ""]


@mistake("programmes", 4, 3, "no resident is named Abel", with_two_names)
def a_last_name_alone_in_a_list(pair):
    pair.programmes[3][2] = "Abel"


@mistake("residents", 8, 4, "Björn Abel has b@example.org here and a@example.org before", long)
def an_address_that_differs(pair):
    pair.residents = [row + [("Email", "a@example.org", "a@example.org")[min(number, 2)]] for number, row in enumerate(pair.residents)]
    pair.residents[7][3] = "b@example.org"
    pair.options = ("--keep", "Email")


# Rows that are split, shifted, or no member's.
@mistake("residents", 30, 1, "the row has 3 cells, where the heading has 7; is it split in two?", with_ids)
def a_split_row_with_an_id(pair):
    row = pair.residents[29]
    pair.residents[29:30] = [row[:3], row[3:]]


@mistake("residents", 31, 1, "is the name of a programme, too", with_ids)
def the_second_part_of_a_split_row_with_an_id(pair):
    row = pair.residents[29]
    pair.residents[29:30] = [row[:3] + [""] * 4, row[3:] + [""] * 3]


@mistake("residents", 30, 1, "the row has 4 cells, where the heading has 6")
def a_split_row(pair):
    row = pair.residents[29]
    pair.residents[29:30] = [row[:4], row[4:]]


@mistake("residents", 30, 1, "is the name of a programme, too", with_ids)
def a_row_with_an_id_that_lost_its_name(pair):
    pair.residents[29] = pair.residents[29][1:] + [""]


@mistake("residents", 30, 1, "the row has no resident's name", with_ids)
def a_row_with_an_id_shifted_to_the_right(pair):
    pair.residents[29].insert(0, "")


@mistake("residents", 30, 1, "the row has 6 cells, where the heading has 7", with_ids)
def a_row_that_lost_its_last_cell(pair):
    pair.residents[29].pop()


@mistake("residents", 30, 1, "is the ID of a programme, too")
def a_row_that_begins_with_the_id_of_a_programme(pair):
    pair.programmes = [[row[0], f"K{number:02}" if number else "ID", *row[1:]] for number, row in enumerate(pair.programmes)]
    pair.residents[29][0] = "K03"


@mistake("residents", 402, 2, "the ID A1006 has a row before, row 8", with_ids)
def a_second_row_of_one_id(pair):
    pair.residents.append(pair.residents[7][:2] + ["Klinik Köln"] + [""] * 4)


@mistake("residents", 200, 1, "the heading stands here again")
def a_second_heading(pair):
    pair.residents.insert(199, list(pair.residents[0]))


def a_remark(name: str, text: str, at: int = 401, blank: int = 0) -> None:
    def plant(pair):
        pair.residents[at:at] = [[""] * 6] * blank + [[text] + [""] * 5]

    plant.__name__ = name
    mistake("residents", at + blank + 1, 1, "has no list, and nobody ranks it: is it a remark?")(plant)


a_remark("a_remark_after_a_blank_row", "Dana Scott", blank=1)
a_remark("a_remark_with_a_number", "As of 12 March")
a_remark("a_remark_with_a_colon", "Source: the office")
a_remark("a_remark_of_one_word", "Ende")
a_remark("a_remark_of_small_words", "Confirmed with board")
a_remark("a_remark_with_a_star", "* late", 200)
a_remark("a_remark_with_a_full_stop", "Lists are final.")
a_remark("a_long_remark", "We Thank All Who Took Part In This Match")
a_remark("a_remark_in_brackets", "(Continued)")


@mistake("residents", 402, 2, "Checked by Ana has no ID", with_ids)
def a_remark_below_a_table_with_ids(pair):
    pair.residents.append(["Checked by Ana"] + [""] * 6)


# Causes in place of symptoms.
def with_numbers(begin: int = 1000, width: int = 0) -> Pair:
    """The pair with numbers as IDs, by which programmes list residents."""
    pair = with_ids()
    numbers = {}
    for number, row in enumerate(pair.residents[1:]):
        row[1] = numbers[row[0]] = str(begin + number).zfill(width)
    pair.programmes[1:] = [row[:2] + [numbers[name] for name in row[2:]] for row in pair.programmes[1:]]
    return pair


@mistake("programmes", 2, 3, "IDs match without `.0`: 1000.0 is 1000 in the table of residents", with_numbers)
def ids_with_a_point_in_lists(pair):
    pair.programmes[1:] = [row[:2] + [f"{cell}.0" for cell in row[2:]] for row in pair.programmes[1:]]


@mistake("programmes", 2, 3, "IDs match with `.0`: 1000 is 1000.0 in the table of residents", with_numbers)
def ids_with_a_point_in_their_table(pair):
    for row in pair.residents[1:]:
        row[1] += ".0"


@mistake("programmes", 2, 3, "IDs match but for zeros before them: 1 is 00001", lambda: with_numbers(1, 5))
def ids_that_lost_their_zeros(pair):
    pair.programmes[1:] = [row[:2] + [cell.lstrip("0") for cell in row[2:]] for row in pair.programmes[1:]]


@mistake("residents", 2, 2, "IDs look like 1.82E+07: format the column as text", with_numbers)
def ids_as_a_narrow_column_shows_them(pair):
    pair.residents[1][1] = "1.82E+07"


@mistake("programmes", 2, 3, "IDs look like 1.82E+07: format the column as text", with_numbers)
def ids_in_lists_as_a_narrow_column_shows_them(pair):
    pair.programmes[1:] = [row[:2] + ["1.82E+07"] for row in pair.programmes[1:]]


@mistake("programmes", 2, 3, "400 of 400 IDs in these lists are unknown in the table of residents: is this another year's table?")
def ids_of_another_year(pair):
    now = with_numbers(1000)
    pair.residents, pair.programmes = now.residents, with_numbers(5000).programmes


@mistake("programmes", 2, 3, "names in these lists are unknown in the table of residents: is this another year's table?")
def names_of_another_year(pair):
    pair.residents[1:] = [[f"Person Numbered{number}", *row[1:]] for number, row in enumerate(pair.residents[1:])]


@mistake("residents", 0, 0, "400 residents, where --expect-residents says 401")
def another_number_of_residents(pair):
    pair.options = ("--expect-residents", "401")


@mistake("programmes", 0, 0, "12 programmes, where --expect-programmes says 11")
def another_number_of_programmes(pair):
    pair.options = ("--expect-programmes", "11")


def planted(name: str) -> Tuple[Pair, Wanted]:
    """The pair with this mistake, and what its report has to say."""
    start, plant, wanted = MISTAKES[name]
    pair = start()
    plant(pair)
    return pair, wanted



@mistake("residents", 1, 8, "no column is headed Emial, which --keep names")
def a_kept_column_that_isnt_there(pair):
    pair.residents = [row + [f"r{number}@example.org" if number else "Email"] for number, row in enumerate(pair.residents)]
    pair.options = ("--keep", "Emial")


@mistake("residents", 1, 7, "no column is headed Telephone, which --keep names")
def a_kept_column_of_programmes(pair):
    pair.programmes = [row[:2] + [f"55-{number}" if number else "Telephone"] + row[2:] for number, row in enumerate(pair.programmes)]
    pair.options = ("--keep", "Telephone")


# Mistakes on the command line, over a match of the pair with IDs, in which two residents are named Kwame Abel, and one more
# has a programme's name in the docket. What is expected: the exit status, and words of the cause.
Words = Callable[[str], List[str]]
COMMANDS: Dict[str, Tuple[Words, Tuple[int, str]]] = {}


def shared() -> Pair:
    """The pair with IDs, with a second Kwame Abel, B1, and klinik-koln, B2, who is named as a programme is in the docket."""
    pair = with_ids()
    for row in pair.programmes[1:]:
        row[2:] = ["A1010" if name == "Kwame Abel" else name for name in row[2:]]
    pair.residents += [[name, ident, "Mercy Radiology"] + [""] * 4 for name, ident in (("Kwame Abel", "B1"), ("klinik-koln", "B2"))]
    pair.programmes[0] += [f"Rank {len(pair.programmes[0]) + more}" for more in (-1, 0)]
    pair.programmes[7] += ["B1", "B2"]
    width = len(pair.programmes[0])
    pair.programmes = [row + [""] * (width - len(row)) for row in pair.programmes]
    return pair


def command(status: int, words: str):
    """A mistake of the words that the function below gives; it is told the test's folder, in which `match` is."""

    def named(words_of: Words) -> Words:
        assert words_of.__name__ not in COMMANDS and words_of.__name__ not in MISTAKES
        COMMANDS[words_of.__name__] = (words_of, (status, words))
        return words_of

    return named


def template(at: str, text: str) -> List[str]:
    """The words that write letters from a template of this text."""
    with open(f"{at}/letter.txt", "w", encoding="utf-8", newline="") as file:
        file.write(text)
    return ["letters", f"{at}/match", "--template", f"{at}/letter.txt", "--out", f"{at}/out"]


@command(3, "nobody is named Fatima Abell; is it Fatima Abel?")
def a_withdrawal_with_a_letter_more(at):
    return ["withdraw", f"{at}/match", "Fatima Abell"]


@command(3, "nobody is named Elodie Abel; is it Élodie Abel?")
def a_withdrawal_without_an_accent(at):
    return ["withdraw", f"{at}/match", "Elodie Abel"]


@command(3, "no programme is named Mercy Radiologie; is it Mercy Radiology?")
def a_withdrawal_of_a_misspelt_programme(at):
    return ["withdraw", f"{at}/match", "--programme", "Mercy Radiologie"]


@command(3, "2 members may be meant by Kwame Abel: Kwame Abel (A1010), Kwame Abel (B1); give the ID")
def a_withdrawal_by_a_name_that_two_have(at):
    return ["withdraw", f"{at}/match", "Kwame Abel"]


@command(3, "nobody is named Kwame Abel (A1011)")
def a_withdrawal_by_a_name_with_another_s_id(at):
    return ["withdraw", f"{at}/match", "Kwame Abel (A1011)"]


@command(3, "nobody is named Kwame Able; is it one of Kwame Abel (A1010), Kwame Abel (B1)?")
def a_withdrawal_of_a_misspelt_name_that_two_have(at):
    return ["withdraw", f"{at}/match", "Kwame Able"]


@command(3, "2 members may be meant by klinik-koln: programme Klinik Köln (klinik-koln), resident klinik-koln (B2); "
            "say --programme or --resident")
def a_withdrawal_by_a_name_of_both_sides(at):
    return ["withdraw", f"{at}/match", "klinik-koln"]


@command(3, "nobody is named A2000; nothing was written")
def a_withdrawal_by_an_id_that_nobody_has(at):
    return ["withdraw", f"{at}/match", "A2000"]


@command(3, "no programme is named Rosa Abel, but a resident is (--resident)")
def a_resident_withdrawn_as_a_programme(at):
    return ["withdraw", f"{at}/match", "--programme", "Rosa Abel"]


@command(3, "no resident is named Mercy Radiology, but a programme is (--programme)")
def a_programme_withdrawn_as_a_resident(at):
    return ["withdraw", f"{at}/match", "--resident", "Mercy Radiology"]


@command(3, "Fatima Abel is withdrawn already")
def one_withdrawn_by_name_and_by_id(at):
    return ["withdraw", f"{at}/match", "Fatima Abel", "--resident", "A1005"]


@command(2, "a name without a letter means nobody")
def a_withdrawal_of_no_name(at):
    return ["withdraw", f"{at}/match", " "]


@command(2, "who withdraws? give a name")
def a_withdrawal_of_nobody(at):
    return ["withdraw", f"{at}/match"]


@command(3, "letter.txt, line 2: $nmae is none of $day")
def a_template_with_a_misspelt_field(at):
    return template(at, "Dear applicant\n$nmae,\n")


@command(3, "letter.txt, line 3: $ is none of $day")
def a_template_with_a_price(at):
    return template(at, "$name\r\n\r\nIt costs 5$\r\n")


@command(3, "letter.txt has no text")
def a_template_without_a_text(at):
    return template(at, "\n \n")


@command(1, "can't be read: no such file")
def a_template_that_isnt_there(at):
    return ["letters", f"{at}/match", "--template", f"{at}/nowhere.txt", "--out", f"{at}/out"]


@command(2, "is there already; nothing was written")
def letters_into_a_folder_that_is_there(at):
    return ["letters", f"{at}/match", "--out", f"{at}/match"]


@command(2, "is there already; nothing was written")
def a_comparison_over_a_file_that_is_there(at):
    return ["compare", f"{at}/match", f"{at}/match", "--out", f"{at}/match/page.html"]


@command(1, "is no folder")
def a_comparison_with_a_file(at):
    return ["compare", f"{at}/match", f"{at}/match/page.html"]


@command(2, "the following arguments are required: NOW")
def a_comparison_of_one_folder(at):
    return ["compare", f"{at}/match"]
