"""Cells that spreadsheets open hold no formula, whatever they part cells by; what programs read is raw; names come back exactly."""
import csv
import re
import shutil
import subprocess
import zipfile
from pathlib import Path
from typing import Dict, Iterator, List

from residency import from_cell, read_key, to_cell
from support import OfficeTest, office
from test_folder import table

# What a spreadsheet may part cells by, and the signs that begin a formula, as it knows them in any width.
SEPARATORS = (",", ";", "\t", "|", " ", ":")
SIGNS = ("=", "+", "-", "@", "\uff1d", "\uff0b", "\uff0d", "\uff20")
# Whole names that would be formulas, or have one within where cells are parted by another sign than the file's.
NAMES = (
    "=1+1",
    "+49 Kim",
    "-Ana",
    "@Omar",
    "\uff1d2",
    "\uff0b2",
    "\uff0d2",
    "\uff202",
    "'=x",
    "'t Hooft",
    "''@y",
    "Kim;=2+3;",
    'Lee;"=2+3";x',
    "Mia,=2+3,x",
    'Noa,"=2+3",x',
    "Ola|=2+3|x",
    "Pia =2+3 x",
    "Quy:=2+3:x",
    "Rui; =2+3",
    "Sam;'=2+3;",
    "Tea;''=2+3;",
    "Uwe;-2+3;x",
    "Vid;@SUM(1);x",
    "Wim;+2+3",
    "Xia;\uff1d2+3;",
    "Yan;\uff20SUM(1)",
    "Zoë;\uff0b2+3;",
    "Abe;\uff0d2+3;",
    '"=2+3"',
    "Ben -2+3",
)
# Names in which no cell of a spreadsheet may be anything else than they are.
PLAIN = ("North - East", "St.-Anna-Klinik", "A + B", "d'Or", "Mary-Ann (+)", "kim@example.org", "Kim, Lee", "R&D; x", "'n Sync")


def split(text: str, mark: str) -> Iterator[str]:
    """What a spreadsheet may take for a cell where it parts cells by a mark: with and without heed of quotes."""
    for line in text.splitlines():
        yield from (cell.strip(' "') for cell in line.split(mark))
        yield from (cell.strip(' "') for row in csv.reader([line], delimiter=mark) for cell in row)


class CellsTest(OfficeTest):
    def run_names(self) -> Path:
        """A run whose names, IDs and programme are such, with a withdrawal; answers the withdrawal's folder beside it."""
        cell = lambda text: '"' + text.replace('"', '""') + '"'  # noqa: E731
        plain, odd = [f"X;=7+{number}" for number in range(len(PLAIN))], [f"=6+{number}" for number in range(len(NAMES))]
        programmes = [["Programme", "ID", "Places"] + [str(rank) for rank in range(1, len(plain + odd) + 1)]]
        programmes += [["=North;=1+2;", "=5", "9", *odd], ["-South;=1+2", "P;=1", "99", *plain, *odd]]
        residents = [["Applicant", "ID", "1", "2"]]
        residents += [[name, ident, "=North;=1+2;", "-South;=1+2"] for name, ident in zip(NAMES, odd)]
        residents += [[name, ident, "-South;=1+2", ""] for name, ident in zip(PLAIN, plain)]
        out = self.run_tables(*("".join(",".join(map(cell, row)) + "\r\n" for row in rows) for rows in (programmes, residents)))
        said = office("withdraw", out, "=1+1", "--out", self.folder / "b")
        self.assertEqual(said.status, 0, said.err)
        self.assertIn("=1+1 (=6+0): withdrawn; =North;=1+2; (1st of 2) -> withdrawn", said.out)
        return self.folder / "b"

    @staticmethod
    def opened(out: Path) -> List[Path]:
        """The tables that people open in a spreadsheet."""
        return [out / "changes.csv", out / "unfilled.csv", out / "key.csv", *sorted((out / "rosters").glob("*.csv"))]


class Cells(CellsTest):
    def test_no_cell_is_a_formula_by_any_separator(self) -> None:
        out = self.run_names()
        seen = 0
        for path in self.opened(out):
            text = path.read_bytes().decode("utf-8-sig")
            for mark in SEPARATORS:
                for cell in split(text, mark):
                    seen += cell.lstrip("'").startswith(SIGNS) and cell.startswith("'")
                    # A sign alone, as in `North - East` parted by spaces, is no formula.
                    if len(cell) > 1:
                        self.assertFalse(cell.startswith(SIGNS), (path.name, mark, cell))
        self.assertGreater(seen, 200)
        self.assertEqual(len(self.opened(out)), 5)

    def test_names_come_back_from_key_and_roster(self) -> None:
        out = self.run_names()
        names = read_key((out / "key.csv").read_bytes())
        self.assertEqual([member.name for member in names.members("R")], list(NAMES + PLAIN))
        self.assertEqual([member.id for member in names.members("R")][:2], ["=6+0", "=6+1"])
        rows = [row for path in (out / "rosters").glob("*.csv") for row in table(path)]
        self.assertEqual(len(rows), len(NAMES + PLAIN) - 1)
        self.assertEqual({from_cell(row["Resident"]) for row in rows}, set(NAMES + PLAIN) - {"=1+1"})
        # Names in which nothing may be taken for a formula stay as they are.
        self.assertEqual({row["Resident"] for row in rows} & set(PLAIN), set(PLAIN))
        self.assertEqual([to_cell(name) for name in PLAIN], list(PLAIN))

    def test_matches_are_raw(self) -> None:
        rows = table(self.run_names() / "matches.csv")
        self.assertEqual([row["resident"] for row in rows], list(NAMES + PLAIN))
        self.assertEqual([row["resident_id"] for row in rows][:2], ["=6+0", "=6+1"])
        self.assertEqual({row["programme"] for row in rows}, {"", "=North;=1+2;", "-South;=1+2"})
        self.assertEqual({row["programme_id"] for row in rows}, {"", "=5", "P;=1"})

    def test_bytes_of_tables(self) -> None:
        out = self.run_names()
        for path in [*self.opened(out), out / "matches.csv"]:
            data = path.read_bytes()
            is_marked = path.name not in ("key.csv", "matches.csv")
            self.assertEqual(data.startswith(b"\xef\xbb\xbf"), is_marked, path.name)
            self.assertEqual(b"\r\n" in data, is_marked, path.name)
            self.assertEqual(data.count(b"\r"), data.count(b"\r\n"))


class LibreOffice(CellsTest):
    """The same tables as LibreOffice reads them."""

    def setUp(self) -> None:
        super().setUp()
        self.program = shutil.which("soffice") or shutil.which("libreoffice")
        if self.program is None:
            self.skipTest("there is no LibreOffice here")

    def formulas(self, paths: List[Path], mark: str) -> Dict[str, List[str]]:
        """The formulas that it makes of these files, where it parts cells by a mark and looks for formulas."""
        out = self.folder / f"by-{ord(mark)}"
        line = [
            self.program,
            "--headless",
            f"-env:UserInstallation=file://{self.folder / 'profile'}",
            f"--infilter=CSV:{ord(mark)},34,76,1,,0,false,true,false,false,false,-1,true",
            "--convert-to",
            "xlsx",
            "--outdir",
            str(out),
            *map(str, paths),
        ]
        done = subprocess.run(line, capture_output=True, timeout=250)
        self.assertEqual(done.returncode, 0, done.stderr)
        found = {}
        for path in paths:
            with zipfile.ZipFile(out / f"{path.stem}.xlsx") as book:
                sheets = [book.read(name).decode() for name in book.namelist() if name.startswith("xl/worksheets/sheet")]
            self.assertIn("<c ", sheets[0])
            found[path.name] = re.findall(r"<f[^>]*>([^<]*)</f>", sheets[0])
        return found

    def test_no_cell_is_a_formula_by_any_separator(self) -> None:
        out = self.run_names()
        # What the tables would be without apostrophes has formulas by each separator, so that the test can fail.
        raw = self.folder / "raw.csv"
        raw.write_text("".join(f'3,"{name.replace(chr(34), chr(34) * 2)}",x\n' for name in NAMES), encoding="utf-8")
        for mark in (",", ";"):
            found = self.formulas([*self.opened(out), raw], mark)
            self.assertEqual([found.pop("raw.csv") != [], len(found)], [True, 5], mark)
            self.assertEqual({name: formulas for name, formulas in found.items() if formulas}, {}, mark)
