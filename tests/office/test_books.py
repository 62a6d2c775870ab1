"""Workbooks: read cell by cell as their CSV, in a run as the same tables saved as text; and by what others write."""
import csv
import datetime
import io
import re
import shutil
import subprocess
import sys
import unittest
import zipfile
from unittest import mock

import planted
from residency.office import sheets
from residency.office.faults import Fault
from residency.office.sentences import cause
from support import PROGRAMMES, RESIDENTS, SAMPLES, OfficeTest, office

KIND = "http://schemas.openxmlformats.org/officeDocument/2006/relationships"
MAIN = "http://schemas.openxmlformats.org/spreadsheetml/2006/main"


def rows(text: str):
    """A table of text as rows of cells."""
    first = text.split("\n")[0]
    return list(csv.reader(io.StringIO(text), delimiter=";" if ";" in first else ","))


def sheet(text: str, strings: str = "", styles: str = "", names: str = '<sheet name="Table" r:id="b"/>', date: str = "") -> bytes:
    """A workbook of the parts that are given."""
    more = {"xl/workbook.xml": f'<workbook xmlns="{MAIN}" xmlns:r="{KIND}">{date}<sheets>{names}</sheets></workbook>'}
    more["xl/_rels/workbook.xml.rels"] = (
        f'<Relationships><Relationship Id="b" Type="{KIND}/worksheet" Target="worksheets/sheet1.xml"/>'
        f'<Relationship Id="c" Type="{KIND}/worksheet" Target="/xl/worksheets/sheet2.xml"/>'
        f'<Relationship Id="d" Type="{KIND}/sharedStrings" Target="sharedStrings.xml"/>'
        f'<Relationship Id="e" Type="{KIND}/styles" Target="styles.xml"/></Relationships>'
    )
    more["xl/worksheets/sheet1.xml"] = f'<worksheet xmlns="{MAIN}"><sheetData>{text}</sheetData></worksheet>'
    if strings:
        more["xl/sharedStrings.xml"] = f'<sst xmlns="{MAIN}">{strings}</sst>'
    if styles:
        more["xl/styles.xml"] = f'<styleSheet xmlns="{MAIN}">{styles}</styleSheet>'
    return planted.book([], more)


class Cells(unittest.TestCase):
    """What a cell shows, by hand-written parts."""

    def read(self, *words, wanted=None, **more):
        return sheets.sheet_of(sheet(*words, **more), wanted).rows

    def test_kinds_of_cells(self) -> None:
        text = (
            '<row r="1"><c r="A1" t="s"><v>1</v></c><c r="B1" t="inlineStr"><is><r><t>Zo</t></r><r><t xml:space="preserve">ë </t>'
            '</r></is></c><c r="C1" t="str"><f>A1&amp;B1</f><v>a&lt;b</v></c><c r="D1" t="b"><v>1</v></c><c r="E1" t="b"><v>0</v></c>'
            '<c r="F1" t="e"><v>#DIV/0!</v></c><c r="G1" t="n"><v>7</v></c><c r="H1"><f>1+1</f><v>2</v></c>'
            '<c r="I1" t="str"><f>""</f><v></v></c><c r="J1" t="d"><v>2026-03-01</v></c><c r="K1"><f>1+1</f></c><c r="L1" t="s"><v>2</v></c></row>'
        )
        strings = "<si><t>no</t></si><si><r><t>To</t></r><r><t>kyo</t></r><rPh sb='0' eb='1'><t>phonetic</t></rPh></si>\n<si><t>Osaka</t></si>"
        self.assertEqual(
            self.read(text, strings),
            [(1, ["Tokyo", "Zoë ", "a<b", "TRUE", "FALSE", "#DIV/0!", "7", "2", "", "2026-03-01", "#NO RESULT", "Osaka"])],
        )

    def test_numbers(self) -> None:
        told = [("1042", "1042"), ("1042.0", "1042"), ("1.82E7", "18200000"), ("2.5", "2.5"), ("0", "0"), ("-3", "-3"),
                ("999999999999999", "999999999999999"), ("1000000000000000", "1.00000E+15"), ("1E400", "inf"), ("x", "x")]
        text = "".join(f"<c><v>{given}</v></c>" for given, _ in told)
        self.assertEqual(self.read(f"<row>{text}</row>"), [(1, [shown for _, shown in told])])

    def test_formats(self) -> None:
        styles = (
            '<numFmts><numFmt numFmtId="164" formatCode="00000"/><numFmt numFmtId="165" formatCode="yyyy\\-mm\\-dd"/>'
            '<numFmt numFmtId="166" formatCode="0.00&quot; days&quot;"/><numFmt numFmtId="167" formatCode="[Red]#,##0"/></numFmts>'
            '<cellStyleXfs><xf numFmtId="14"/></cellStyleXfs><cellXfs>'
            + "".join(f'<xf numFmtId="{number}"/>' for number in (0, 14, 164, 165, 166, 167, 22)) + "</cellXfs>"
        )
        text = "<row>" + "".join(f'<c s="{style}"><v>46082</v></c>' for style in range(7)) + '<c s="6"><v>46082.5</v></c>' \
               '<c s="2"><v>42</v></c><c s="99"><v>5</v></c></row>'
        wanted = ["46082", "2026-03-01", "46082", "2026-03-01", "46082", "46082", "2026-03-01", "2026-03-01 12:00", "00042", "5"]
        self.assertEqual(self.read(text, styles=styles), [(1, wanted)])
        day = (datetime.date(1904, 1, 1) + datetime.timedelta(46082)).isoformat()
        for word, wanted in (("1", day), ("true", day), ("0", "2026-03-01"), ("false", "2026-03-01")):
            self.assertEqual(self.read(text, styles=styles, date=f'<workbookPr date1904="{word}"/>')[0][1][1], wanted, word)

    def test_places(self) -> None:
        """Cells stand where they say, or after one another; rows that are left out keep their numbers."""
        text = '<row r="2"><c r="C2"><v>3</v></c><c><v>4</v></c></row><row r="5"><c r="AB5"><v>28</v></c></row><row><c><v>6</v></c></row>'
        self.assertEqual(self.read(text), [(2, ["", "", "3", "4"]), (5, [""] * 27 + ["28"]), (6, ["6"])])

    def test_escaped_letters(self) -> None:
        text = '<row><c t="inlineStr"><is><t>a_x000D_b_x005F_x0041_</t></is></c><c t="inlineStr"><is><t>a_xyz_</t></is></c></row>'
        self.assertEqual(self.read(text), [(1, ["a\rb_x0041_", "a_xyz_"])])

    def test_sheets(self) -> None:
        names = '<sheet name="Notes" r:id="c"/><sheet name="Old" state="hidden" r:id="b"/><sheet name="Table" r:id="b"/>'
        text = '<row r="1"><c><v>1</v></c></row><row r="2" hidden="1"><c><v>2</v></c></row>'
        # The sheet of notes isn't in the file, so that one visible sheet has cells.
        found = sheets.sheet_of(sheet(text, names=names))
        self.assertEqual((found.name, len(found.rows), found.hidden), ("Table", 2, [2]))
        self.assertEqual(sheets.sheet_of(sheet(text, names=names), "old").name, "Old")
        with self.assertRaises(sheets.BadBook):
            sheets.sheet_of(sheet(text, names=names), "Notes")

    def test_what_is_no_workbook(self) -> None:
        for data in (b"", b"Applicant,Rank 1\r\n", b"P", "Applicant;Rank 1\n".encode("utf-16"), b"<3,Kim"):
            self.assertFalse(sheets.is_book(data), data)

    def test_every_cut_is_told(self) -> None:
        """A workbook that ends anywhere, or has a byte changed anywhere, is read as it is or told as broken."""
        data = planted.book(rows(RESIDENTS))
        for at in range(4, len(data), 7):
            for broken in (data[:at], data[:at] + bytes([data[at] ^ 0x55]) + data[at + 1:]):
                try:
                    sheets.sheet_of(broken)
                except sheets.BadBook as fault:
                    self.assertTrue(cause(Fault(fault.code, "residents", values={**fault.values, "table": "residents"})).isprintable())


class Bombs(unittest.TestCase):
    """A workbook over a limit is refused by a limit that is told, before it costs more than its bytes."""

    def refused(self, most: int, what: str, *words: str, **more: str) -> None:
        with self.assertRaises(sheets.BadBook) as caught:
            sheets.sheet_of(sheet(*words, **more))
        fault = caught.exception
        self.assertEqual((fault.code, fault.values), ("file.too-many", {"most": most, "what": what}))
        self.assertEqual(cause(Fault(fault.code, "residents", values=fault.values)), f"the workbook has more than {most:,} {what}, and no more are read")

    def test_a_tag_of_a_megabyte(self) -> None:
        for size in (900_000, 1_300_000):
            for text in ('<row x="{}"/>', "<{}/>", "<!--{}-->", "<?a {}?>", "<row {}/>", '<c xmlns="{}"/>'):
                text = text.format((" " if text == "<row {}/>" else "a") * size)
                if size < sheets.MOST_OF_TAG:
                    self.assertEqual(sheets.sheet_of(sheet(text)).rows, [])
                else:
                    self.refused(1 << 20, "bytes in one tag", text)
        # A text of any length is no tag.
        self.assertEqual(len(sheets.sheet_of(sheet(f"<row><c t='str'><v>{'a' * 3_000_000}</v></c></row>")).rows[0][1][0]), 3_000_000)

    def test_tags_in_one_another(self) -> None:
        self.assertEqual(sheets.sheet_of(sheet("<a>" * 98 + "</a>" * 98 + "<a/>" * 200)).rows, [])
        self.refused(100, "tags within one another", "<a>" * 99 + "</a>" * 99)
        self.refused(100, "tags within one another", "<row/>", "<rPh>" * 200 + "</rPh>" * 200)

    def test_many_tags_names_and_sheets(self) -> None:
        with mock.patch.object(sheets, "MOST_TAGS", 100):
            self.refused(100, "tags", "<row/>" * 100)
        for name in ("<c{}/>", '<c a{}=""/>'):
            self.refused(10_000, "names of tags and attributes", "".join(name.format(number) for number in range(20_000)))
        self.refused(1_000, "sheets", "<row/>", names='<sheet name="Table" r:id="b"/>' * 1_001)

    def test_as_many_rows_columns_and_cells_as_may_be(self) -> None:
        text = ("<row>" + "<c><v>7</v></c>" * 3 + "</row>") * 2
        for limit, most, told in (("MOST_ROWS", 2, "the sheet has a row 2, more than 1"), ("MOST_COLUMNS", 3, "the sheet has a column 3, more than 2"),
                                  ("MOST_CELLS", 6, "the sheet has more than 5 cells, which is no table")):
            with mock.patch.object(sheets, limit, most):
                self.assertEqual(sheets.sheet_of(sheet(text)).rows, [(1, ["7"] * 3), (2, ["7"] * 3)])
            with mock.patch.object(sheets, limit, most - 1), self.assertRaises(sheets.BadBook) as caught:
                sheets.sheet_of(sheet(text))
            self.assertEqual(cause(Fault(caught.exception.code, "residents", values=caught.exception.values)), told)

    def test_columns_that_are_hidden_again(self) -> None:
        hidden = '<col min="1" max="16384" hidden="1"/>'
        self.assertEqual(len(sheets.sheet_of(sheet(hidden + "<row><c><v>1</v></c></row>")).hidden_columns), 16_384)
        self.refused(16_384, "hidden columns", hidden * 2)

    def test_formats(self) -> None:
        """Each is looked at once, however many styles have it, and a sign that opens a part and isn't closed costs no more than others."""
        styles = '<numFmts><numFmt numFmtId="164" formatCode="{}"/></numFmts><cellXfs>' + '<xf numFmtId="164"/>' * 300 + "</cellXfs>"
        with mock.patch.object(sheets.Book, "writes", autospec=True, return_value=sheets.number_text) as writes:
            sheets.sheet_of(sheet("<row/>", styles=styles.format("0.0")))
        self.assertEqual(writes.call_count, 1)
        for sign in ("[", "&quot;"):
            self.assertEqual(sheets.sheet_of(sheet('<row><c s="7"><v>5</v></c></row>', styles=styles.format(sign * 150_000))).rows, [(1, ["5"])])

    def test_long_numbers(self) -> None:
        """A number of five thousand digits is none of a row, of a text or of a style, and isn't counted."""
        many = "7" * 5000
        for text, code in ((f'<row r="{many}"/>', "file.rows"), (f'<row><c t="s"><v>{many}</v></c></row>', "file.broken-text")):
            with self.assertRaises(sheets.BadBook) as caught:
                sheets.sheet_of(sheet(text, "<si><t>a</t></si>"))
            self.assertEqual(caught.exception.code, code)
        text = f'<col min="{many}" max="{many}" hidden="1"/><row><c s="{many}"><v>5</v></c><c><v>{many}</v></c></row>'
        self.assertEqual(sheets.sheet_of(sheet(text)).rows, [(1, ["5", "inf"])])

    def test_names_of_another_space(self) -> None:
        """Tags with a word before a colon are the same ones, and what the word stands for isn't said again with each."""
        text = f'<x:row xmlns:x="{"u" * 900_000}"><x:c><x:v>7</x:v></x:c>' + "<x:a/>" * 20_000 + "</x:row>"
        self.assertEqual(sheets.sheet_of(sheet(text)).rows, [(1, ["7"])])


class Runs(OfficeTest):
    def test_the_same_as_text(self) -> None:
        """The sample tables as workbooks give the same folder but for what the manifest says of how they were read."""
        texts = [(SAMPLES / f"{name}.csv").read_text(encoding="utf-8-sig") for name in ("programmes", "residents")]
        wanted = self.run_tables(*texts, "text")
        for kinds in ((0, 1), (1, 0), (1, 1)):
            tables = [planted.book(rows(text)) if is_book else text for text, is_book in zip(texts, kinds)]
            got = self.run_tables(*tables, f"book{kinds}")
            for path in sorted(wanted.rglob("*.*")):
                if path.name not in ("manifest.json", "SHA256SUMS"):
                    self.assertEqual((got / path.relative_to(wanted)).read_bytes(), path.read_bytes(), path)

    def test_how_it_was_read_is_told(self) -> None:
        data = sheet('<row r="1"><c t="str"><v>Applicant</v></c><c t="str"><v>Rank 1</v></c></row>'
                     '<row r="3" hidden="1"><c t="str"><v>Kim</v></c><c t="str"><v>North</v></c></row>')
        said = office("check", *self.tables("Programme,Places,Rank 1\nNorth,1,Kim\n", data))
        self.assertEqual(said.status, 0, said)
        self.assertIn("residents.csv, .xlsx, sheet Table, a row for each resident; 1 resident", said.out)
        self.assertIn("note: residents: 1 hidden row is read too: row 3, Kim", said.out)

    def test_both_tables_in_one_workbook(self) -> None:
        names = '<sheet name="P" r:id="b"/><sheet name="R" r:id="c"/>'
        texts = [rows(PROGRAMMES), rows(RESIDENTS)]
        with zipfile.ZipFile(io.BytesIO(planted.book(texts[0]))) as one, zipfile.ZipFile(io.BytesIO(planted.book(texts[1]))) as two:
            parts = [archive.read("xl/worksheets/sheet1.xml").decode() for archive in (one, two)]
        inner = re.search("<sheetData>(.*)</sheetData>", parts[0], re.DOTALL).group(1)
        data = sheet(inner, names=names)
        with zipfile.ZipFile(io.BytesIO(data)) as archive:
            every = {name: archive.read(name).decode() for name in archive.namelist()}
        path = self.write("both.xlsx", planted.book([], {**every, "xl/worksheets/sheet2.xml": parts[1]}))
        said = office("check", path, path, "--sheet", "programmes=P", "--sheet", "residents=R")
        self.assertEqual((said.status, said.out.splitlines()[-1]), (0, "no fault"), said)
        self.assertIn("2 sheets have cells: P, R; name one (--sheet 'residents=P')", office("check", self.write(
            "p.csv", PROGRAMMES), path).out)

    def test_a_sheet_of_the_largest_tables(self) -> None:
        """20,000 residents in a workbook."""
        table = [["Applicant", "Rank 1"]] + [[f"Kim {number}", "North"] for number in range(20000)]
        tables = self.tables("Programme,Places,Rank 1\nNorth,1,Kim 7\n", planted.book(table))
        said = office("check", *tables)
        self.assertEqual((said.status, said.out.splitlines()[-1]), (0, "no fault"))


def find_writer() -> str:
    """A Python that has openpyxl, or nothing."""
    for python in (sys.executable, "/usr/bin/python3"):
        if shutil.which(python) and subprocess.run([python, "-c", "import openpyxl"], capture_output=True).returncode == 0:
            return python
    return ""


class Others(OfficeTest):
    """What other programs write and read."""

    WRITES = """
import datetime, openpyxl, sys
book = openpyxl.Workbook()
page = book.active
for row in eval(sys.stdin.read()): page.append(row)
page["B3"].number_format = "00000"
book.save(sys.argv[1])
"""

    def test_what_openpyxl_writes(self) -> None:
        python = find_writer()
        if not python:
            self.skipTest("openpyxl is missing here")
        table = "[['Applicant','ID','Rank 1','Born'],['Zoë <&> \\u738b',1042,'x\\ny',datetime.date(2026,3,1)],[' a ',42,2.5,True]]"
        path = str(self.folder / "book.xlsx")
        subprocess.run([python, "-c", self.WRITES, path], input=table.encode(), check=True)
        with open(path, "rb") as file:
            found = sheets.sheet_of(file.read())
        self.assertEqual(found.rows, [(1, ["Applicant", "ID", "Rank 1", "Born"]), (2, ["Zoë <&> 王", "1042", "x\ny", "2026-03-01"]),
                                      (3, [" a ", "00042", "2.5", "TRUE"])])

    def test_what_libreoffice_writes_and_reads(self) -> None:
        """A table that it saves as .xlsx is read as its CSV, cell by cell; its .ods and .xls are refused by their names."""
        if not shutil.which("soffice"):
            self.skipTest("LibreOffice (soffice) is missing here")
        source = self.write("table.csv", (SAMPLES / "residents.csv").read_bytes().decode("utf-8-sig") + "00042,=1+1,1.5,TRUE,,,\n")

        def converted(kind: str, path: str, *more: str) -> bytes:
            subprocess.run(["soffice", "--headless", f"-env:UserInstallation=file://{self.folder}/profile", *more, "--convert-to", kind,
                            "--outdir", str(self.folder / "made"), path], check=True, capture_output=True, timeout=200)
            return next((self.folder / "made").glob(f"*.{kind.split(':')[0]}")).read_bytes()

        book = converted("xlsx", source, "--infilter=CSV:44,34,76")
        text = converted("csv:Text - txt - csv (StarCalc):44,34,76", str(self.folder / "made" / "table.xlsx"))
        read = [row for _, row in sheets.sheet_of(book).rows]
        wanted = [row for row in csv.reader(io.StringIO(text.decode("utf-8"))) if any(row)]
        self.assertEqual([row + [""] * (len(wanted[0]) - len(row)) for row in read], wanted)
        for kind, words in (("ods", "this is an .ods file"), ("xls", "this is an old .xls file")):
            data = converted(kind, str(self.folder / "made" / "table.xlsx"))
            said = office("check", *self.tables(PROGRAMMES, data))
            self.assertEqual(said.status, 3)
            self.assertIn(words, said.out)
            self.assertIn("save it as .xlsx or CSV", said.out)
