"""What real tables have: columns of other things, names in two columns, shared names, remarks; and what the run says of them."""
import csv
import io
import unittest

import planted
from residency.lint import lint
from residency.near import NearNames, edits
from residency.office import sentences
from residency.office.cells import other_mark
from residency.office.faults import MOST_KEPT, MOST_SHOWN, Faults
from residency.office.doubts import is_remark
from residency.office.tables import Entry, Table, number_of
from support import PROGRAMMES, RESIDENTS, OfficeTest, office

MORE = "Applicant,Email,Rank 1,Rank 2,Born\nAna,a@example.org,North,South,1990\nKim,,South,,1991\nLee,l@example.org,North,,\n"
FEW = "Programme,Places,Rank 1,Rank 2,Rank 3\nNorth,1,Ana,Lee,\nSouth,2,Kim,Ana,\n"


class Columns(OfficeTest):
    def notes(self, *words: str):
        said = office("check", *words)
        self.assertEqual(said.status, 0, said)
        return [line[len("note: "):] for line in said.out.splitlines() if line.startswith("note: ")]

    def test_columns_that_are_not_read_are_told_once(self) -> None:
        tables = self.tables(FEW, MORE)
        told = "residents: 2 columns are left out: Email (B), Born (E); --keep keeps one for matches.csv and letters"
        self.assertEqual(self.notes(*tables), [told])
        self.assertEqual(self.notes(*tables, "--ignore", "email", "--ignore", "Born"), [])
        self.assertEqual(self.notes(*tables, "--keep", "Email", "--ignore", "Born"), [])
        # A column is left out by its whole heading.
        self.assertEqual(self.notes(*tables, "--ignore", "Em", "--ignore", "B"), [told])
        with_code = self.tables(FEW.replace("Places", "Places,Town").replace(",1,", ",1,Oslo,").replace(",2,", ",2,Rome,"), MORE)
        self.assertEqual(self.notes(*with_code)[0], "programmes: 1 column is left out: Town (C)")

    def test_headings_that_are_nearly_known(self) -> None:
        """They may be lists, and so they are faults; others are left out, even where they begin with a known word."""
        for heading in ("Rnak 3", "Rang 3", "Choice three", "Preferance 3", "Hospial", "Placs"):
            said = office("check", *self.tables(FEW, MORE.replace("Email", heading)))
            self.assertEqual(said.status, 3, heading)
            self.assertIn(f"residents, row 1, cell 2 (B1): {heading} is no heading of this table", said.out)
        for heading in ("Applicant email", "Hospital address", "Programme director", "Date of birth", "Telephone", "E-mail", "Notes"):
            self.assertIn(f"{heading} (B), Born (E)", self.notes(*self.tables(FEW, MORE.replace("Email", heading)))[0])

    def test_columns_that_are_kept(self) -> None:
        """They come out in matches.csv and in letters, after a withdrawal too."""
        template = self.write("letter.txt", "$name $email ($born)\n")
        out = self.run_tables(FEW, MORE, "out", "--keep", "Email", "--keep", "Born", "--template", template)
        again, more = self.folder / "again", self.folder / "letters"
        self.assertEqual(office("withdraw", out, "Kim", "--out", again, "--template", template).status, 0)
        self.assertEqual(office("letters", again, "--template", template, "--out", more).status, 0)
        for folder in (out, again):
            kept = {row["resident"]: (row["Email"], row["Born"]) for row in csv.DictReader(
                io.StringIO((folder / "matches.csv").read_text(encoding="utf-8")))}
            self.assertEqual(kept, {"Ana": ("a@example.org", "1990"), "Kim": ("", "1991"), "Lee": ("l@example.org", "")})
            self.assertEqual((folder / "letters" / "ana.txt").read_text(), "Ana a@example.org (1990)\n")
        self.assertEqual((more / "lee.txt").read_text(), "Lee l@example.org ()\n")

    def test_a_column_that_is_not_there(self) -> None:
        said = office("check", *self.tables(FEW, MORE), "--keep", "Telephone")
        self.assertEqual(said.status, 3)
        self.assertIn("residents, row 1, cell 6 (F1): no column is headed Telephone, which --keep names", said.out)

    def test_kept_cells_of_long_tables(self) -> None:
        long = "Applicant,Rank,Programme,Email\nAna,1,North,\nAna,2,South,a@example.org\nAna,3,West,\nKim,1,South,\nLee,1,North,l\n"
        few = FEW + "West,1,,,\n"
        out = self.run_tables(few, long, "out", "--keep", "Email")
        rows = csv.DictReader(io.StringIO((out / "matches.csv").read_text(encoding="utf-8")))
        self.assertEqual([(row["resident"], row["Email"]) for row in rows], [("Ana", "a@example.org"), ("Kim", ""), ("Lee", "l")])

    def test_names_in_two_columns(self) -> None:
        """As one name, however lists write it; and page and table have the family name."""
        pair = planted.with_two_names()
        wanted = office("run", *self.tables(*planted.wide().bytes()), "--out", self.folder / "one", "--date", "2026-03-20")
        self.assertEqual(wanted.status, 0)
        turned = planted.with_two_names()
        turned.programmes[1:] = [row[:2] + [f'"{name.split()[1]}, {name.split()[0]}"' for name in row[2:]]
                                 for row in turned.programmes[1:]]
        for count, one in enumerate((pair, turned)):
            out = self.run_tables(*one.bytes(), f"two{count}")
            for name in ("docket.csv", "key.csv", "sheet.csv"):
                self.assertEqual((out / name).read_bytes(), (self.folder / "one" / name).read_bytes(), name)
            first = next(csv.DictReader(io.StringIO((out / "matches.csv").read_text(encoding="utf-8"))))
            self.assertEqual((first["resident"], first["family_name"]), ("Ana Abel", "Abel"))

    def test_names_in_two_columns_of_a_long_table_of_programmes(self) -> None:
        pair = planted.long()
        pair.programmes = [row[:3] + (row[3].split() if number else ["First name", "Surname"])
                           for number, row in enumerate(pair.programmes)]
        pair.residents = [(row[0].split() if number else ["Name", "First name"][::-1]) + row[1:]
                          for number, row in enumerate(pair.residents)]
        out = self.run_tables(*pair.bytes())
        alone = self.run_tables(*planted.long().bytes(), "alone")
        self.assertEqual((out / "docket.csv").read_bytes(), (alone / "docket.csv").read_bytes())

    def test_one_name_of_the_two(self) -> None:
        residents = "First name,Last name,Rank 1\nAna,,North\n,Kim,South\nMai Lee,Ng,North\n"
        self.assertEqual(self.notes(*self.tables("Programme,Places,1,2\nNorth,1,Ana,Mai Lee Ng\nSouth,1,Kim,\n", residents)), [])

    def test_shared_names_are_noted(self) -> None:
        residents = "Applicant,ID,Rank 1\n" + "".join(f"Ana Abel,A{n},North\n" for n in range(7)) + "Kim,K1,North\nKim,K2,North\n"
        programmes = "Programme,Places,Rank 1,Rank 2\nNorth,1,A1,K2\n"
        self.assertEqual(self.notes(*self.tables(programmes, residents)),
                         ["residents: 2 names are shared: Ana Abel (A0, A1, A2, A3, A4 and 2 more); Kim (K1, K2)"])

    def test_expected_numbers(self) -> None:
        tables = self.tables(FEW, MORE)
        self.assertEqual(office("check", *tables, "--expect-residents", "3", "--expect-programmes", "2").status, 0)
        for words in (["--expect-residents", "2"], ["--expect-residents", "4"], ["--expect-programmes", "0"]):
            self.assertEqual(office("run", *tables, *words, "--out", self.folder / "out").status, 3)
        for word in ("x", "-1", "1.5", "9" * 12):
            self.assertEqual(office("check", *tables, "--expect-residents", word).status, 2)

    def test_only_one_table(self) -> None:
        one, two = self.tables(FEW, MORE)
        book = self.write("book.xlsx", planted.book([["Applicant", "Rank 1"]]))
        for words in (["check", two], ["check", one], ["check", book], ["check", two, two], ["run", two, "--out", "x"],
                      ["run", one, one, "--out", "x"]):
            said = office(*words)
            self.assertEqual((said.status, said.out), (2, ""), words)
            self.assertIn("only one table was given", said.err)
        self.assertEqual(self.left(), ["book.xlsx"])


class Rows(OfficeTest):
    def faults(self, residents: str, *words: str):
        said = office("check", *self.tables(FEW.replace("Ana,Lee", "Ana,Lee"), residents), *words)
        return said.status, [line for line in said.out.splitlines() if line.startswith("residents, row")]

    def test_short_rows(self) -> None:
        head = "Applicant,Rank 1,Rank 2\n"
        # A writer that leaves out empty cells at the ends of rows has none there.
        ragged = head + "Ana,North,South\nKim,South\nLee,North\nOmar,North\nPia,North\nQuin,North\nRosa,North\nSam,North\nTom,North\n"
        self.assertEqual(self.faults(ragged), (0, []))
        padded = head + "Ana,North,South\nKim,South,\nLee,North\n"
        told = "residents, row 4, cell 1 (A4): the row has 2 cells, where the heading has 3; is it split in two? (--allow-short takes such rows)"
        self.assertEqual(self.faults(padded), (3, [told]))
        self.assertEqual(self.faults(padded, "--allow-short"), (0, []))

    def test_few_short_rows_among_whole_ones(self) -> None:
        """Where nothing is left out at the ends of rows, one short row in ten is a fault, and more are the table's form."""
        names = ["Ana", "Kim", "Lee", *(f"Ana {number}" for number in range(33))]
        whole = "Applicant,Rank 1,Rank 2\n" + "".join(f"{name},North,South\n" for name in names)
        for short, status in ((0, 0), (1, 3), (2, 3), (4, 3), (5, 0), (20, 0)):
            found = self.faults(whole + "".join(f"Kim {number},North\n" for number in range(short)), "--allow-alone")
            self.assertEqual((found[0], len(found[1])), (status, status // 3), short)

    def test_ranks_in_another_order(self) -> None:
        """What a column is says its heading, wherever it stands."""
        out = self.run_tables("Programme,Rank 2,Rank 1,Places\nNorth,Kim,Ana,1\nSouth,,Kim,2\n",
                              "2nd choice,Applicant,1st choice\nSouth,Ana,North\n,Kim,South\n")
        self.assertEqual((out / "docket.csv").read_text().splitlines(),
                         ["Q,north,1", "Q,south,2", "P,north,ana,kim", "P,south,kim", "R,ana,north,south", "R,kim,south"])

    def test_zeros_before_two_ids(self) -> None:
        """An ID that may be either of two is no cause of its own."""
        said = office("check", *self.tables("Programme,Places,Rank 1,Rank 2\nNorth,1,1,7\n",
                                            "Applicant,ID,Rank 1\nAna,001,North\nKim,0001,North\nLee,007,North\n"))
        self.assertIn("programmes, row 2, cell 3 (C2): no resident is named 1\n", said.out)
        self.assertIn("programmes, row 2, cell 4 (D2): IDs match but for zeros before them: 7 is 007", said.out)

    def test_rows_that_are_parted_by_another_sign(self) -> None:
        for row, found in ((["Ana;North"], ";"), (["Ana\tNorth"], "\t"), (["Ana|North"], "|"), (["Ana, North, South"], None),
                           (["Ana;North", "x"], None), (["Ana"], None), ([";"], None)):
            self.assertEqual(other_mark(row, ","), found, row)
        self.assertEqual(other_mark(["Abel, Ana"], ";"), None)
        self.assertEqual(other_mark(["Ana,North,South"], ";"), ",")

    def test_remarks(self) -> None:
        table = Table("residents", "resident", "", "", None, None)  # type: ignore[arg-type]
        table.entries = [Entry(name, "", row, 1) for row, name in enumerate(("Ana Abel", "Kim de la Cruz", "Zoë O'Connor", "Mai Lee Ng",
                                                                               "Jean-Luc Petit", "王 芳"), 2)]
        for name in ("Note: late", "As of 12 March", "Ende", "to be confirmed", "* withdrawn", "Total residents", "(two)", "No more",
                     "Page 2", "We Thank You All For Your Patience", "Printed.", "Source"):
            self.assertTrue(is_remark(Entry(name, "", 9, 1), table), name)
        for name in ("Rosa Rossi", "Omar van der Berg", "Sammy Davis Jr.", "María José de los Ángeles Ruiz", "李 娜", "Anne-Marie St. Clair"):
            self.assertFalse(is_remark(Entry(name, "", 9, 1), table), name)
        # Too many words, too many letters, and one word alone, each by itself and at its bound.
        seven, long = "Ana Mai Rosa Zoe Eva Kim Lee", "Konstantinopolitanska-Hohenlohe Wilhelmina-Alexandrina Maria"
        self.assertEqual((len(seven.split()), len(long)), (7, 60))
        for name, wanted in ((seven, True), (seven[:-4], False), (f"{long}e", True), (long, False), ("Rosalia", True)):
            self.assertEqual(is_remark(Entry(name, "", 9, 1), table), wanted, name)
        table.entries = table.entries[:3]
        self.assertFalse(is_remark(Entry("Rosalia", "", 9, 1), table))
        self.assertTrue(is_remark(Entry("Rosa Rossi", "", 9, 1, after_blank=True), table))
        # What all names of a table have is no sign of a remark.
        table.entries = [Entry(f"R{number}", "", number, 1) for number in range(2, 12)]
        self.assertFalse(is_remark(Entry("R12", "", 12, 1), table))

    def test_one_who_ranks_nobody_is_no_remark(self) -> None:
        self.assertEqual(office("check", *self.tables()).status, 0)
        self.assertEqual(office("check", *self.tables(PROGRAMMES, RESIDENTS + "\nDana Scott,,,\n")).status, 3)
        self.assertEqual(office("check", *self.tables(PROGRAMMES, RESIDENTS + "\nDana Scott,,,\n"), "--allow-alone").status, 0)
        # Where each row has a blank one after it, that says nothing.
        self.assertEqual(office("check", *self.tables(PROGRAMMES, RESIDENTS.replace("\n", "\n\n"))).status, 0)

    def test_whole_rows_are_shown_of_twenty_faults(self) -> None:
        faults = Faults()
        for number in range(1, 31):
            faults.tell("rank.none", "t", number, 1, {"item": f"rank {number}"})
            faults.tell("name.no-id", "t", number, 1, {"name": f"name {number}"})
        faults.tell("file.empty", "t", None, None)
        report = sentences.report(faults)
        self.assertEqual((len(report), report[0], report[-1]), (
            MOST_SHOWN + 1, "t: the table is empty", "and 41 more: 21 names at fault, 20 ranks at fault (--all tells each)"))
        self.assertEqual(len(sentences.report(faults, True)), 61)

    def test_one_fault_more_than_are_shown(self) -> None:
        faults = Faults()
        for number in range(1, MOST_SHOWN + 1):
            faults.tell("row.heading", "t", number, 1)
        self.assertEqual((len(sentences.report(faults)), sentences.report(faults)[-1]), (
            MOST_SHOWN, f"t, row {MOST_SHOWN}, cell 1 (A{MOST_SHOWN}): the heading stands here again; leave the row out"))
        faults.tell("row.heading", "t", 99, 1)
        self.assertEqual((len(sentences.report(faults)), sentences.report(faults)[-1]), (
            MOST_SHOWN + 1, "and 1 more: 1 fault in rows (--all tells each)"))

    def test_faults_beyond_those_that_are_kept_are_counted(self) -> None:
        faults = Faults()
        for number in range(MOST_KEPT + 5):
            faults.tell("name.no-id", "t", number + 1, 1, {"name": "x"})
        self.assertEqual((len(faults), faults.is_full("name"), faults.is_full("row")), (MOST_KEPT + 5, True, False))
        every = sentences.report(faults, True)
        self.assertEqual((len(every), every[-1]), (MOST_KEPT + 1, "and 5 more: 5 names at fault"))
        self.assertIn("and 49,985 more: 49,985 names at fault", sentences.report(faults)[-1])


class Parts(unittest.TestCase):
    def test_near_names_swap_neighbours_alone(self) -> None:
        for one, other, wanted in (("jonh", "john", 1), ("ab", "ba", 1), ("abc", "cba", 2), ("abcd", "dbca", 2), ("abdc", "bacd", 2),
                                   ("aab", "abb", 1), ("abab", "baba", 2), ("xab", "bxa", 2), ("ab", "bc", 2), ("ab", "ca", 2),
                                   ("marta", "mraxa", 2)):
            self.assertEqual(edits(one, other, 4), wanted, (one, other))
        names = NearNames(["Marta Kovacs", "Brigitte Haas"])
        self.assertEqual(names.near("Matra Kovacs"), "Marta Kovacs")
        self.assertEqual(names.near("Mkrta Aovacs"), "Marta Kovacs")
        self.assertIsNone(names.near("Mvcta Koraas"))

    def test_exactly_as_many_pairs_as_may_be(self) -> None:
        """200,000 pairs who rank one another are none too many for lint, and one more is."""
        programmes, residents = [f"p{number}" for number in range(100)], [f"r{number}" for number in range(2000)]
        rows = [f"Q,{programme},1" for programme in programmes] + [",".join(["P", programme, *residents]) for programme in programmes]
        rows += [",".join(["R", resident, *programmes]) for resident in residents]
        self.assertEqual(lint("\n".join(rows).encode()), [])
        more = rows + ["R,last,p0"]
        more[100] += ",last"
        self.assertEqual([fault.text for fault in lint("\n".join(more).encode())], ["more than 200000 acceptable pairs"])

    def test_numbers_of_places(self) -> None:
        for text, number in (("7", 7), ("007", 7), ("7.0", 7), ("7.00", 7), ("999999999", 999999999), ("1000000000", 10 ** 9), ("7.5", None),
                             ("", None), ("-1", None), ("٣", None), ("7.", None), ("1,000", None)):
            self.assertEqual(number_of(text), number, text)
