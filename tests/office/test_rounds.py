"""A second round: the tables that it begins with, who may take part, and results over all rounds, by a derivation from the tables alone."""
import csv
import io
import json
import stat
import zipfile
from pathlib import Path
from typing import Dict, List
from xml.etree import ElementTree

import derived
import planted
from support import PROGRAMMES, RESIDENTS, OfficeTest, office

MAIN = "{http://schemas.openxmlformats.org/spreadsheetml/2006/main}"
# What the first round leaves: North Clinic is full, and West Infirmary has 3 places.
SECOND_PROGRAMMES = "Programme,Places,1,2\nWest Infirmary,3,Omar Haddad,Rosa Rossi\n"
SECOND_RESIDENTS = "Applicant,1\nOmar Haddad,West Infirmary\nFatima Kovács,West Infirmary\nRosa Rossi,West Infirmary\n"


def cells(path: Path) -> List[List[str]]:
    """The cells of a workbook's one sheet, read by the standard library's own reader."""
    with zipfile.ZipFile(path) as book:
        sheet = ElementTree.fromstring(book.read("xl/worksheets/sheet1.xml"))
    return [["".join(cell.itertext()) for cell in row.iter(f"{MAIN}c")] for row in sheet.iter(f"{MAIN}row")]


def table(path: Path) -> List[List[str]]:
    return list(csv.reader(io.StringIO(path.read_bytes().decode("utf-8-sig"), newline="")))


def everywhere(*rounds: derived.Derived) -> Dict[str, List[str]]:
    """By resident the programme, the choice and the round, from the tables of the rounds alone."""
    found: Dict[str, List[str]] = {}
    for number, made in enumerate(rounds, 1):
        for name, where in made.match.items():
            found[name] = [where, str(made.choice(name)), str(number)] if where else ["", "", ""]
    return found


class Rounds(OfficeTest):
    def setUp(self) -> None:
        super().setUp()
        self.first = self.run_tables()
        self.made = derived.match(derived.tables(PROGRAMMES, RESIDENTS))

    def second(self, programmes: str = SECOND_PROGRAMMES, residents: str = SECOND_RESIDENTS, *words: object):
        files = [self.write("p2.csv", programmes), self.write("r2.csv", residents)]
        return office("run", *files, "--after", self.first, "--out", self.folder / "second", "--date", "2026-04-01", *words)

    def refused(self, lines: List[str], programmes: str = SECOND_PROGRAMMES, residents: str = SECOND_RESIDENTS, *words: object) -> None:
        said = self.second(programmes, residents, *words)
        self.assertEqual((said.status, said.out), (3, ""), said)
        told = said.err.splitlines()
        self.assertEqual(told[2:], [f"office: {line}" for line in (*lines, f"{len(lines)} fault{'s' * (len(lines) > 1)} in the tables", "nothing was written")])
        self.assertFalse((self.folder / "second").exists())

    def test_the_tables(self) -> None:
        """Those with free places and those without a place, in the order of the tables, with as many ranks as the longest list had."""
        said = office("next", self.first, "--out", self.folder / "next")
        left = [name for name, where in self.made.match.items() if where is None]
        free = {name: places - len(self.made.members(name)) for name, places in self.made.places.items()}
        still = [name for name in free if free[name]]
        self.assertEqual((said.status, said.err, said.out), (0, "", f"{len(still)} programme{'s' * (len(still) > 1)} with free places, {len(left)} unmatched "
                                                             f"residents; written to {self.folder / 'next'}\n"))
        self.assertEqual(cells(self.folder / "next" / "programmes.xlsx"),
                         [["Programme", "Places", *(f"Rank {rank}" for rank in range(1, min(4, len(left)) + 1))], *([name, str(free[name])] for name in still)])
        self.assertEqual(cells(self.folder / "next" / "residents.xlsx"),
                         [["Applicant", *(f"Rank {rank}" for rank in range(1, min(3, len(still)) + 1))], *([name] for name in left)])
        for path in (self.folder / "next").iterdir():
            self.assertEqual(stat.S_IMODE(path.stat().st_mode), 0o600)
        again = office("next", self.first, "--out", self.folder / "next")
        self.assertEqual((again.status, again.out, again.err), (2, "", f"office: {self.folder / 'next'} is there already; nothing was written\n"))

    def test_names_as_they_are(self) -> None:
        """In each language, with IDs, two of one name, family names, a kept column, and names that a spreadsheet or XML would take for
        something else: what is written is read back with no option at all, and a match of it has the same names."""
        programmes = "Programme,ID,Places,1,2\n=North & <South>,a,1,7,8\n_x0041_ East,b,2,7,9\nA & <B>,c,1,,\n"
        residents = "First name,Last name,ID,Mail,1\nAna,Ø,7,a@x,=North & <South>\nAna,Ø,8,b@x,=North & <South>\nBo,+1 Lee,9,=c,\n"
        heads = {"en": (["Programme", "ID", "Places", "Rank 1"], ["First name", "Last name", "ID", "Mail", "Rank 1"]),
                 "de": (["Programm", "ID", "Plätze", "Rang 1"], ["Vorname", "Nachname", "ID", "Mail", "Rang 1"]),
                 "es": (["Programa", "ID", "Plazas", "Orden 1"], ["Nombre", "Apellidos", "ID", "Mail", "Orden 1"]),
                 "fr": (["Programme", "ID", "Places", "Rang 1"], ["Prénom", "Nom de famille", "ID", "Mail", "Rang 1"]),
                 "pl": (["Program", "ID", "Miejsca", "Kolejność 1"], ["Imię", "Nazwisko", "ID", "Mail", "Kolejność 1"])}
        for language, (first, second) in heads.items():
            out = self.run_tables(programmes, residents, language, "--language", language, "--keep", "Mail")
            self.assertEqual(office("next", out, "--out", self.folder / f"{language}-2").status, 0)
            there = [cells(self.folder / f"{language}-2" / f"{name}.xlsx") for name in ("programmes", "residents")]
            self.assertEqual([there[0][0][:4], there[1][0][:5]], [first, second], language)
            self.assertEqual(there[0][1:], [["_x005F_x0041_ East", "b", "2"], ["A & <B>", "c", "1"]])
            self.assertEqual(there[1][1:], [["Ana", "Ø", "8", "b@x"], ["Bo", "+1 Lee", "9", "=c"]])
            there[0][1].append("9")
            for row in there[1][1:]:
                row.append("b")
            files = [self.write(f"{number}.xlsx", planted.book(rows)) for number, rows in enumerate(there)]
            for words in (files, [str(self.folder / f"{language}-2" / f"{name}.xlsx") for name in ("programmes", "residents")]):
                said = office("check", *words, *["--allow-alone"] * (words is not files))
                self.assertEqual((said.status, said.out.splitlines()[-1]), (0, "no fault"), said)
            said = office("run", *files, "--after", out, "--out", self.folder / f"{language}-3")
            self.assertEqual((said.status, said.err), (0, ""))
            self.assertIn("Q,b,2\n", (self.folder / f"{language}-3" / "docket.csv").read_text())
            self.assertIn("P,b,_x0041_ East,b\n", (self.folder / f"{language}-3" / "key.csv").read_text())

    def test_results_over_both(self) -> None:
        """Everybody of both rounds, with the round that gave the place; the folder is made again, with and without the one before."""
        said = self.second()
        second = derived.match(derived.tables(SECOND_PROGRAMMES, SECOND_RESIDENTS))
        where = everywhere(self.made, second)
        placed = len([placed_at for placed_at in where.values() if placed_at[0]])
        self.assertEqual((said.status, said.err), (0, ""))
        self.assertEqual(said.out.splitlines()[-2:], [f"after all rounds {placed} of 7 residents have a place",
                                                      f"audit: stable; replay: good; written to {self.folder / 'second'}"])
        heading, *rows = table(self.folder / "second" / "results.csv")
        self.assertEqual(heading, ["Resident", "Standing", "Programme", "Choice", "Round"])
        self.assertEqual({row[0]: row[2:] for row in rows}, where)
        self.assertEqual([row[0] for row in rows], ["Ana Silva", "Fatima Kovács", "Jürgen Groß", "Kim Lee", "Omar Haddad", "Rosa Rossi", "Zoë Brontë"])
        standings = {row[0]: row[1] for row in rows}
        self.assertEqual(standings, {name: "matched" if placed_at[0] else "ranked back by nobody" for name, placed_at in where.items()})
        heading, *rows = table(self.folder / "second" / "earlier.csv")
        matches = table(self.first / "matches.csv")
        self.assertEqual([heading, *rows], [["round", *matches[0]], *(["1", *row] for row in matches[1:])])
        self.assertEqual(stat.S_IMODE((self.folder / "second" / "earlier.csv").stat().st_mode), 0o600)
        manifest = json.loads((self.folder / "second" / "manifest.json").read_text())
        before = json.loads((self.first / "manifest.json").read_text())
        self.assertEqual(manifest["after"], {name: before["sha256"][name] for name in ("docket.csv", "key.csv", "sheet.csv")})
        done = office("verify", self.folder / "second")
        self.assertEqual((done.status, done.err), (0, ""))
        self.assertIn("who was free, for want of the folder before (--after)", done.out.splitlines()[-1])
        done = office("verify", self.folder / "second", "--after", self.first)
        self.assertEqual((done.status, done.err), (0, ""))
        self.assertIn("the round before: nobody has two places, and no place is given twice", done.out.splitlines())
        self.assertNotIn("--after", done.out.splitlines()[-1])

    def test_a_round_that_another_folder_was_before(self) -> None:
        self.second()
        other = self.run_tables(PROGRAMMES.replace("West Infirmary,3", "West Infirmary,2"), RESIDENTS, "other")
        done = office("verify", self.folder / "second", "--after", other)
        self.assertEqual((done.status, done.err), (4, ""))
        self.assertIn("the round before: West Infirmary has 3 places, more than the 2 that stayed free in " + f"{other}; another folder", done.out.splitlines())
        (self.folder / "second" / "earlier.csv").write_bytes((self.folder / "second" / "earlier.csv").read_bytes().replace("Kim Lee".encode(), b"Kim Li"))
        done = office("verify", self.folder / "second", "--after", self.first)
        self.assertEqual(done.status, 4)
        self.assertIn("earlier.csv: differs, first at line 3", done.out.splitlines())

    def test_rows_that_nobody_wrote(self) -> None:
        """Whatever stands in the rows of the round before, the folder is told to be another one."""
        self.second()
        path = self.folder / "second" / "earlier.csv"
        whole = path.read_bytes()
        for data in (b"", b"\n", b"round\n", b"round\n\n1\n", b"\xff", whole.replace(b"matched", b"placed"), whole.replace(b"\n1,", b"\none,", 1), whole + b"\n\n",
                     whole + b"1,a\n", whole.replace(b",1,", b",first,", 1), whole.replace(b"round", b'"round'), whole + b"x" * 200_000 + b"\n"):
            path.write_bytes(data)
            done = office("verify", self.folder / "second")
            self.assertEqual((done.status, done.err), (4, ""), data[:80])
            self.assertIn("this does not hold: ", done.out.splitlines()[-1])
        path.unlink()
        done = office("verify", self.folder / "second")
        self.assertEqual((done.status, done.err), (4, ""))
        self.assertIn("earlier.csv: missing", done.out.splitlines())

    def test_who_may_not_take_part(self) -> None:
        """Who is matched, who has more places than stayed free, and who is new, each with the row; nothing is written."""
        free = 3 - len(self.made.members("West Infirmary"))
        self.refused([f"programmes, row 2, cell 1 (A2): West Infirmary has 4 places, more than the {free} that stayed free in {self.first}"],
                     SECOND_PROGRAMMES.replace("Infirmary,3", "Infirmary,4"))
        self.refused([f"programmes, row 3, cell 1 (A3): East Ward has 1 place, more than the 0 that stayed free in {self.first}"],
                     SECOND_PROGRAMMES + "East Ward,1,,\n")
        self.refused([f"residents, row 5, cell 1 (A5): Kim Lee has a place in {self.first} already, at {self.made.match['Kim Lee']}; leave the row out"],
                     SECOND_PROGRAMMES, SECOND_RESIDENTS + "Kim Lee,West Infirmary\n")
        self.refused([f"programmes, row 3, cell 1 (A3): South Hospitel isn't in {self.first}; is it South Hospital? (--allow-new takes members who are new)",
                      f"residents, row 5, cell 1 (A5): Kim Lea isn't in {self.first}; is it Kim Lee? (--allow-new takes members who are new)",
                      f"residents, row 6, cell 1 (A6): Nobody Else isn't in {self.first}; write the name as it stands there (--allow-new takes members who are "
                      "new)"], SECOND_PROGRAMMES + "South Hospitel,1,,\n", SECOND_RESIDENTS + "Kim Lea,West Infirmary\nNobody Else,West Infirmary\n")
        self.refused([f"residents, row 5, cell 1 (A5): Kim Lee has a place in {self.first} already, at {self.made.match['Kim Lee']}; leave the row out"],
                     SECOND_PROGRAMMES, SECOND_RESIDENTS + "Kim Lee,West Infirmary\nNobody Else,West Infirmary\n", "--allow-new")
        said = self.second(SECOND_PROGRAMMES, SECOND_RESIDENTS, "--after", self.folder / "none")
        self.assertEqual((said.status, said.out, said.err), (1, "", f"office: {self.folder / 'none'} is no folder\n"))
        said = office("run", *self.tables(), "--allow-new", "--out", self.folder / "second")
        self.assertEqual((said.status, said.out, said.err), (2, "", "office: --allow-new goes with --after\n"))

    def test_who_is_new(self) -> None:
        said = self.second(SECOND_PROGRAMMES + "Hill,1,Nobody Else,\n", SECOND_RESIDENTS + "Nobody Else,Hill\n", "--allow-new")
        self.assertEqual((said.status, said.err), (0, ""))
        self.assertEqual([line for line in said.out.splitlines() if "before" in line],
                         ["note: programmes: 1 member isn't in the match before: Hill", "note: residents: 1 member isn't in the match before: Nobody Else"])
        self.assertIn(["Nobody Else", "matched", "Hill", "1", "2"], table(self.folder / "second" / "results.csv"))

    def test_by_ids(self) -> None:
        """Whoever has an ID is known by it, and an ID that another one has now is a fault."""
        first = self.run_tables("Programme,ID,Places,1,2\nNorth,a,1,7,8\nSouth,b,1,,\n", "Applicant,ID,1\nAna,7,North\nAna,8,North\nBo,9,\n", "ids")
        for residents, cause in (
                ("Applicant,ID,1\nAna,7,South\n", f"residents, row 2, cell 1 (A2): Ana has a place in {first} already, at North; leave the row out"),
                ("Applicant,ID,1\nAna,9,South\n", f"residents, row 2, cell 1 (A2): the ID 9 is that of Bo in {first}")):
            said = office("run", self.write("p2.csv", "Programme,ID,Places,1\nSouth,b,1,\n"), self.write("r2.csv", residents), "--after", first, "--out", self.folder / "two")
            self.assertEqual((said.status, said.out), (3, ""))
            self.assertIn(f"office: {cause}", said.err.splitlines())
        said = office("run", self.write("p2.csv", "Programme,ID,Places,1\nSouth,b,1,8\n"), self.write("r2.csv", "Applicant,ID,1\nANA,8,b\n"), "--after", first,
                      "--out", self.folder / "two")
        self.assertEqual((said.status, said.err), (0, ""))
        self.assertEqual(table(self.folder / "two" / "results.csv"), [["Resident", "ID", "Standing", "Programme", "Choice", "Round"], [
            "ANA", "8", "matched", "South", "1", "2"], ["Ana (7)", "7", "matched", "North", "1", "1"], ["Bo", "9", "ranked nobody", "", "", ""]])

    def test_a_third_round_and_a_withdrawal(self) -> None:
        """A withdrawal from the second round keeps what the first one gave; a third round is told of both."""
        self.assertEqual(self.second().status, 0)
        said = office("withdraw", self.folder / "second", "Omar Haddad", "--out", self.folder / "third", "--date", "2026-04-02")
        self.assertEqual((said.status, said.err), (0, ""))
        rows = {row[0]: row[1:] for row in table(self.folder / "third" / "results.csv")}
        self.assertEqual((len(rows), rows["Omar Haddad"], rows["Kim Lee"][-1]), (8, ["withdrawn", "", "", ""], "1"))
        self.assertEqual(office("verify", self.folder / "third", "--after", self.first).status, 0)
        matched = self.made.match["Kim Lee"]
        files = [self.write("p3.csv", "Programme,Places,1\nWest Infirmary,2,Fatima Kovács\n"), self.write("r3.csv", "Applicant,1\nFatima Kovács,West Infirmary\nKim Lee,\n")]
        said = office("run", *files, "--after", self.folder / "third", "--out", self.folder / "last")
        self.assertEqual(said.status, 3)
        self.assertIn(f"office: residents, row 3, cell 1 (A3): Kim Lee has a place in {self.folder / 'third'} already, at {matched}; leave the row out",
                      said.err.splitlines())
        self.write("r3.csv", "Applicant,1\nFatima Kovács,West Infirmary\n")
        said = office("run", *files, "--after", self.folder / "third", "--out", self.folder / "last")
        self.assertEqual((said.status, said.err), (0, ""))
        rows = {row[0]: row[1:] for row in table(self.folder / "last" / "results.csv")}
        self.assertEqual((rows["Kim Lee"][-1], rows["Rosa Rossi"][-1], rows["Fatima Kovács"][-1], rows["Omar Haddad"]),
                         ("1", "2", "3", ["withdrawn", "", "", ""]))
        self.assertEqual([row[0] for row in table(self.folder / "last" / "earlier.csv")], ["round", *"1" * 7, *"2" * 3])

    def test_where_there_is_no_second_round(self) -> None:
        full = self.run_tables("Programme,Places,1\nNorth,1,Ana\n", "Applicant,1\nAna,North\nBo,North\n", "full")
        free = self.run_tables("Programme,Places,1\nNorth,2,Ana\n", "Applicant,1\nAna,North\n", "free")
        for out, what in ((full, "free place"), (free, "unmatched resident")):
            said = office("next", out, "--out", self.folder / "none")
            self.assertEqual((said.status, said.out, said.err), (3, "", f"office: {out} has no {what}, and so there is no second round; nothing was written\n"))
            self.assertFalse((self.folder / "none").exists())

    def test_a_sealed_second_round(self) -> None:
        files = [self.write("p2.csv", SECOND_PROGRAMMES), self.write("r2.csv", SECOND_RESIDENTS)]
        self.assertEqual(office("seal", *files, "--out", self.folder / "sealed").status, 0)
        said = office("run", self.folder / "sealed", "--after", self.first, "--out", self.folder / "second")
        self.assertEqual((said.status, said.err), (0, ""))
        self.assertEqual(len(table(self.folder / "second" / "results.csv")), 8)
        self.assertEqual(office("verify", self.folder / "second", "--after", self.first).status, 0)
        receipt = (self.folder / "second" / "receipts" / "resident-fatima-kovacs.txt").read_text(encoding="utf-8")
        self.assertEqual(receipt.splitlines()[3:5], ["R,fatima-kovacs,west-infirmary", "N,Fatima Kovács"])
        # An auditor with the key gets who had a place before, and receipts; without it neither, as both have names.
        for words in ([], ["--key"]):
            copy = self.folder / f"copy{len(words)}"
            self.assertEqual(office("auditor", self.folder / "second", *words, "--out", copy).status, 0)
            said = office("verify", copy, "--after", self.first)
            self.assertEqual((said.status, said.err, "the round before: nobody has two places" in said.out), (0, "", bool(words)))
            self.assertEqual("who was free, for want of the key" in said.out.splitlines()[-1], not words)
            self.assertEqual([(copy / name).exists() for name in ("earlier.csv", "receipts", "secret.txt")], [bool(words)] * 3)
        other = self.run_tables(PROGRAMMES.replace("West Infirmary,3", "West Infirmary,1"), RESIDENTS, "other")
        said = office("run", self.folder / "sealed", "--after", other, "--out", self.folder / "again")
        self.assertEqual((said.status, said.out, said.err), (3, "", f"office: programmes: West Infirmary has 3 places, more than the 1 that stayed free in {other}\n"))
