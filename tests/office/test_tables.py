"""Tables in every form that an office saves them in give the docket that the plain ones give; and how they are read is told."""
from typing import List

import planted
from residency.office import command, line
from residency.office.headings import Words
from support import PROGRAMMES, RESIDENTS, OfficeTest, office

# The docket of the small tables, written by hand.
DOCKET = """\
Q,north-clinic,2
Q,south-hospital,1
Q,east-ward,1
Q,west-infirmary,3
P,north-clinic,ana-silva,kim-lee,zoe-bronte,jurgen-gross
P,south-hospital,kim-lee,ana-silva,omar-haddad
P,east-ward,zoe-bronte,omar-haddad,ana-silva,kim-lee
P,west-infirmary,kim-lee
R,ana-silva,south-hospital,north-clinic
R,kim-lee,north-clinic,south-hospital,west-infirmary
R,zoe-bronte,east-ward,north-clinic
R,jurgen-gross,north-clinic
R,omar-haddad,east-ward,south-hospital
R,fatima-kovacs,west-infirmary,east-ward
R,rosa-rossi
"""


def rows_of(docket: bytes) -> List[str]:
    """A docket's rows; a programme's empty list may be written or not."""
    return [line for line in docket.decode("ascii").splitlines() if not (line.startswith("P,") and line.count(",") == 1)]


class Tables(OfficeTest):
    def docket(self, programmes=PROGRAMMES, residents=RESIDENTS, *words: str) -> List[str]:
        """The docket of two tables."""
        given = line.parser().parse_args(["check", *self.tables(programmes, residents), *words])
        return rows_of(command.read_tables(*given.files, command.settings_of(given)).market.docket())

    def same(self, *tables) -> None:
        self.assertEqual(self.docket(*tables), DOCKET.splitlines())

    def faults(self, programmes=PROGRAMMES, residents=RESIDENTS, *words: str) -> List[str]:
        said = office("check", *self.tables(programmes, residents), *words)
        self.assertEqual((said.status, said.err), (3, ""))
        return said.out.splitlines()[2:]


class Forms(Tables):
    def test_delimiters_character_sets_and_line_ends(self) -> None:
        for mark, title in ((",", "commas"), (";", "semicolons"), ("\t", "tabs"), ("|", "bars")):
            for encoding, called in (
                ("utf-8", "UTF-8"),
                ("utf-8-sig", "UTF-8"),
                ("utf-16", "UTF-16"),
                ("utf-16-le", "UTF-16"),
                ("utf-16-be", "UTF-16"),
                ("utf-32", "UTF-32"),
                ("cp1252", "Windows-1252"),
            ):
                for end in ("\n", "\r\n", "\r"):
                    texts = [
                        text.replace(",", mark).replace("\n", end).replace("á", "a").encode(encoding)
                        for text in (PROGRAMMES, RESIDENTS)
                    ]
                    self.assertEqual(self.docket(*texts), DOCKET.splitlines(), (mark, encoding, end))
            said = office("check", *self.tables(*(text.replace(",", mark) for text in (PROGRAMMES, RESIDENTS))))
            self.assertIn(f"residents.csv, UTF-8, {title}, a row for each resident; 7 residents", said.out)

    def test_the_character_set_is_told(self) -> None:
        for encoding, called in (("utf-8-sig", "UTF-8"), ("utf-16", "UTF-16"), ("cp1252", "Windows-1252")):
            said = office("check", *self.tables(PROGRAMMES.encode(encoding), RESIDENTS.encode(encoding)))
            self.assertEqual(said.status, 0)
            self.assertIn(f"programmes.csv, {called}, commas, a row for each programme; 4 programmes, 7 places", said.out)

    def test_a_set_and_a_delimiter_may_be_named(self) -> None:
        tables = [
            text.replace("Kovács", "Wójcik Łoś")
            .replace("Zoë Brontë", "Zofia Brońta")
            .replace(",", "~")
            .replace("ü", "u")
            .replace("ß", "ss")
            for text in (PROGRAMMES, RESIDENTS)
        ]
        wanted = [row.replace("kovacs", "wojcik-los").replace("zoe-bronte", "zofia-bronta") for row in DOCKET.splitlines()]
        self.assertEqual(
            self.docket(*(text.encode("cp1250") for text in tables), "--encoding", "cp1250", "--delimiter", "~"), wanted
        )
        apart = [tables[0].replace("~", ";").encode("utf-8"), tables[1].encode("iso-8859-2")]
        self.assertEqual(self.docket(*apart, "--encoding", "residents=latin2", "--delimiter", "residents=~"), wanted)
        # Without its name the set isn't found, and under a wrong one names differ.
        self.assertIn("residents: its character set isn't known: in Windows-1252 it has ", self.faults(*apart, "--delimiter", "residents=~")[0])
        wrong = self.faults(*apart, "--delimiter", "residents=~", "--encoding", "residents=cp1252")
        self.assertIn("no resident is named Zofia Brońta", "\n".join(wrong))

    def test_long_tables(self) -> None:
        programmes, residents = ["Programme\tRank\tApplicant\tPlaces"], ["applicant,rank,programme"]
        for row in PROGRAMMES.splitlines()[1:]:
            name, places, *listed = row.rstrip(",").split(",")
            programmes += [f"{name}\t{rank}\t{resident}\t{places if rank == 1 else ''}" for rank, resident in enumerate(listed, 1)]
        for row in RESIDENTS.splitlines()[1:]:
            name, *listed = row.rstrip(",").split(",")
            residents += [f"{name},{rank},{programme}" for rank, programme in enumerate(listed, 1)] or [f"{name},,"]
        self.same("\n".join(programmes), "\n".join(residents))
        # Rows in another order say the same of each list; members come in the order of their first rows.
        self.assertEqual(
            sorted(self.docket("\n".join([programmes[0]] + programmes[:0:-1]), "\n".join([residents[0]] + residents[:0:-1]))),
            sorted(DOCKET.splitlines()),
        )
        # A long table and a wide one go together.
        self.same("\n".join(programmes), RESIDENTS)
        said = office("check", *self.tables("\n".join(programmes), "\n".join(residents)))
        self.assertIn("programmes.csv, UTF-8, tabs, a row for each rank; 4 programmes, 7 places", said.out)

    def test_a_line_sep_is_what_it_is(self) -> None:
        for first in ("sep=;\r\n", '"sep=;"\r\n', "SEP=;\n"):
            self.same(first + PROGRAMMES.replace(",", ";"), RESIDENTS)
        faults = self.faults(PROGRAMMES, "sep=;\n" + RESIDENTS.replace(",", ";").replace("East Ward", "East World"))
        self.assertIn("residents, row 4, cell 2 (B4): no programme is named East World", faults[0])

    def test_names_with_the_other_tables_marks(self) -> None:
        wanted = [
            row.replace("kovacs", "kovacs-fatima").replace("fatima-kovacs-fatima", "kovacs-fatima")
            for row in DOCKET.splitlines()
        ]
        residents = RESIDENTS.replace(",", ";").replace("Fatima Kovács", "Kovács, Fatima")
        self.assertEqual(self.docket(PROGRAMMES, residents), wanted)
        self.assertEqual(self.docket(PROGRAMMES, RESIDENTS.replace("Fatima Kovács", '"Kovács, Fatima"')), wanted)

    def test_the_heading_says_what_parts_the_cells(self) -> None:
        residents = "Applicant;Rank 1\nKovács, Fatima;North\nSilva, Ana\nLee, Kim\n"
        self.assertEqual(
            self.docket("Programme,Places,1\nNorth,1,\n", residents)[1:], ["R,kovacs-fatima,north", "R,silva-ana", "R,lee-kim"]
        )
        # Where no heading is known, most lines do.
        faults = self.faults(PROGRAMMES, RESIDENTS.replace("Applicant,Rank 1,Rank 2,Rank 3", "Applicant"))
        self.assertEqual(
            faults[0], "residents, row 1, cell 2 (B1): no column is headed Rank 1 (or Choice 1, 1st choice, First, 1)"
        )

    def test_quotes_spaces_and_unseen_letters(self) -> None:
        self.same(
            PROGRAMMES.replace("Zoë Brontë", '"Zoe\u0308   Bronte\u0308\u200b"'),
            RESIDENTS.replace("Zoë Brontë", "\u00a0Zoë\u00a0Brontë\ufeff "),
        )
        self.same(PROGRAMMES.replace("North Clinic", '"North Clinic"'), RESIDENTS)
        self.same("\n\n" + PROGRAMMES + ",,,\n\n", RESIDENTS.replace("\n", "\n\n"))

    def test_leading_zeros_and_points_of_places(self) -> None:
        for places in ("0000000000003", "3.0", " 3 ", "003.000"):
            self.same(PROGRAMMES.replace("West Infirmary,3", f"West Infirmary,{places}"), RESIDENTS)

    def test_other_headings(self) -> None:
        self.same(PROGRAMMES.replace("Programme,Places", "HOSPITAL,Number of places"), RESIDENTS)
        self.same(
            PROGRAMMES.replace("Rank 1,Rank 2", "1st choice,Choice 2"),
            RESIDENTS.replace("Applicant,Rank 1,Rank 2,Rank 3", "Name,First,2,Programme 3"),
        )
        words = (
            "--heading",
            "rank=Rang",
            "--heading",
            "places=Plätze",
            "--heading",
            "resident=Bewerber*in",
            "--ignore",
            "E-Mail",
        )
        residents = "\n".join(
            f"{line},{'E-Mail' if not number else 'x@example.org'}"
            for number, line in enumerate(RESIDENTS.replace("Rank", "Rang").replace("Applicant", "Bewerber*in").splitlines())
        )
        self.assertEqual(
            self.docket(PROGRAMMES.replace("Rank", "Rang").replace("Places", "Plätze"), residents, *words), DOCKET.splitlines()
        )

    def test_ranks_stand_in_the_order_of_their_numbers(self) -> None:
        turned = "\n".join(",".join([line.split(",")[0], *line.split(",")[:0:-1]]) for line in RESIDENTS.splitlines())
        self.assertEqual(turned.splitlines()[0], "Applicant,Rank 3,Rank 2,Rank 1")
        self.same(PROGRAMMES, turned)

    def test_a_rank_that_is_left_out_is_noted(self) -> None:
        said = office(
            "check",
            *self.tables(
                PROGRAMMES.replace("South Hospital,1,Kim Lee,Ana", "South Hospital,1,Kim Lee,,Ana").replace(
                    "Silva,Omar Haddad,", "Silva,Omar Haddad"
                ),
                RESIDENTS,
            ),
        )
        self.assertEqual(said.status, 0)
        self.assertIn(
            "note: programmes: 1 rank is left out, and what follows moves up; the first is in the list of South Hospital, row 3",
            said.out,
        )
        residents = "Applicant,Rank,Programme\nAna,1,North\nAna,3,South\n"
        programmes = "Programme,Places,Rank 1\nNorth,1,Ana\nSouth,1,Ana\n"
        self.assertIn("Ana has no rank 2", self.faults(programmes, residents)[0])
        self.assertEqual(self.docket(programmes, residents, "--allow-gaps")[-1], "R,ana,north,south")

    def test_members_who_may_be_remarks_are_noted(self) -> None:
        tables = self.tables(PROGRAMMES + "* without Saturdays,0,,,,\n", RESIDENTS + "Exported on 20 March,,,\n")
        told = office("check", *tables)
        self.assertEqual(told.status, 3)
        self.assertIn("Exported on 20 March has no list, and nobody ranks it: is it a remark?", told.out)
        said = office("check", *tables, "--allow-alone")
        self.assertEqual(
            said.out.splitlines()[2:],
            [
                "note: programmes: 1 programme without a list whom nobody ranks: * without Saturdays (row 6)",
                "note: residents: 2 residents without a list whom nobody ranks: Rosa Rossi (row 8), Exported on 20 March (row 9)",
                "no fault",
            ],
        )


class Ids(Tables):
    """Two people of one name."""

    PROGRAMMES = "Programme,Places,1,2\nNorth,1,A17,A18\nSouth,1,Ana Silva (A18),Kim Lee\n"
    RESIDENTS = "ID,Applicant,1,2\nA17,Ana Silva,North,South\nA18,Ana Silva,South,North\nA19,Kim Lee,South,\n"

    def test_wide(self) -> None:
        wanted = [
            "Q,north,1",
            "Q,south,1",
            "P,north,A17,A18",
            "P,south,A18,A19",
            "R,A17,north,south",
            "R,A18,south,north",
            "R,A19,south",
        ]
        self.assertEqual(self.docket(self.PROGRAMMES, self.RESIDENTS), wanted)
        long = "Applicant,ID,Rank,Programme\nAna Silva,A17,1,North\nAna Silva,A18,1,South\nAna Silva,A17,2,South\nAna Silva,A18,2,North\nKim Lee,A19,1,South\n"
        self.assertEqual(self.docket(self.PROGRAMMES, long), wanted)

    def test_an_id_that_is_no_name_of_a_docket(self) -> None:
        docket = self.docket(self.PROGRAMMES.replace("A17", "Nº 17"), self.RESIDENTS.replace("A17", "Nº 17"))
        names = [row.split(",")[1] for row in docket if row.startswith("R,")]
        self.assertEqual(len(set(names)), 3)
        self.assertTrue(all(name.startswith(("ana-silva", "kim-lee")) for name in names), names)

    def test_programmes_of_one_name(self) -> None:
        programmes = "Programme,Code,Places,1\nSurgery,P1,1,Kim\nSurgery,P2,2,Kim\n"
        self.assertEqual(
            self.docket(programmes, "Applicant,1,2\nKim,P2,Surgery (P1)\n"),
            ["Q,P1,1", "Q,P2,2", "P,P1,kim", "P,P2,kim", "R,kim,P2,P1"],
        )
        self.assertIn(
            "2 programmes may be meant by Surgery; write the ID, one of P1, P2",
            self.faults(programmes, "Applicant,1\nKim,Surgery\n")[0],
        )

    def test_without_ids(self) -> None:
        residents = "Applicant,1\nAna Silva,North\nAna Silva,South\n"
        faults = self.faults("Programme,Places,1\nNorth,1,Ana Silva\nSouth,1,\n", residents)
        self.assertEqual(
            faults[0],
            "residents, row 3, cell 1 (A3): Ana Silva has a row before, row 2; if these are two, a column headed ID tells them apart",
        )


class Near(Tables):
    """A name that nobody has is told with the one that is meant, and never with one that isn't."""

    def hint(self, known: List[str], wrong: str) -> str:
        residents = "Applicant;1\n" + "".join(f"{name};North\n" for name in known)
        line = self.faults(f"Programme;Places;1\nNorth;1;{wrong}\n", residents)[0]
        begin = f"programmes, row 2, cell 3 (C2): no resident is named {wrong}"
        self.assertTrue(line.startswith(begin), line)
        return line[len(begin) :]

    def test_likely_ones(self) -> None:
        for known, wrong in (
            ("Zoë O'Connor", "Zoe O'Connor"),
            ("Zoë O'Connor", "ZOË O'CONNOR"),
            ("Zoë O'Connor", "Zoë O’Connor"),
            ("Ana Silva", "Silva, Ana"),
            ("Kwame Mensah", "Kwame Mensa"),
            ("Kwame Mensah", "Kwame Mesnah"),
            ("Łukasz Kowalska", "Łukasz Kowlaska"),
            ("Mary-Ann de la Cruz", "Mary Ann de la Cruz"),
            ("Μαρία Παπαδοπούλου", "Μαρια Παπαδοπουλου"),
            ("Анна Каренина", "Анна Карелина"),
        ):
            self.assertEqual(self.hint([known, "Rosa Rossi"], wrong), f"; is it {known}?")

    def test_unlikely_ones(self) -> None:
        for known, wrong in (
            (["Kovács, Fatima", "Kovács, Anna"], "Kovács, Kwame"),
            (["Hanna Abel"], "Ana Abel"),
            (["Omar Abel"], "Tomáš Abel"),
            (["Kim Lee"], "Kim Leung"),
            (["王小明"], "王大明"),
            (["Programme 1"], "Programme 2"),
            (["A1042"], "A1043"),
            (["Anna Berg", "Anne Berg"], "Annx Berg"),
            (["Rosa Rossi"], "Completely Another"),
        ):
            self.assertEqual(self.hint(known, wrong), "", (known, wrong))


class Reports(Tables):
    def test_every_fault_at_once(self) -> None:
        programmes = PROGRAMMES.replace("North Clinic,2", "North Clinic,two").replace(
            "South Hospital,1,Kim Lee", "South Hospital,1,Kim Leigh"
        )
        residents = RESIDENTS.replace("Groß,North Clinic", "Groß,Nroth Clinic").replace(
            "Omar Haddad,East Ward,South Hospital", "Omar Haddad,East Ward,East Ward"
        )
        self.assertEqual(
            self.faults(programmes, residents),
            [
                "programmes, row 2, cell 2 (B2): two is no number of places",
                "programmes, row 3, cell 3 (C3): no resident is named Kim Leigh",
                "residents, row 5, cell 2 (B5): no programme is named Nroth Clinic; is it North Clinic?",
                "residents, row 6, cell 3 (C6): East Ward is listed twice by Omar Haddad, as in cell 2",
                "4 faults in the tables",
            ],
        )

    def test_20_of_many_faults_are_told_and_the_others_counted(self) -> None:
        pair = planted.wide()
        for number in range(1, 401):
            pair.residents[number][1:3] = [f"Nowhere {number}", pair.residents[number][4]]
        pair.programmes[5][1] = "x"
        tables = pair.bytes()
        lines = self.faults(*tables)
        self.assertEqual(len(lines), 22)
        self.assertEqual(lines[0], "programmes, row 6, cell 2 (B6): x is no number of places")
        self.assertEqual(lines[-1], "801 faults in the tables")
        # One number of places, and of the other two kinds 9 and 10 of 400.
        self.assertEqual(lines[-2], "and 781 more: 391 names that no row has, 390 names listed twice (--all tells each)")
        every = self.faults(*tables, "--all")
        self.assertEqual(len(every), 802)
        self.assertEqual(len(set(every)), 802)

    def test_one_cause_in_many_cells_is_one_line(self) -> None:
        pair = planted.wide()
        pair.programmes[2][0] = "Belvue"
        cells = sum(row.count("Bellevue Surgery") for row in pair.residents)
        lines = self.faults(*pair.bytes())
        self.assertEqual(len(lines), 2)
        self.assertIn(f"(also in D5, F7, C10 and {cells - 4} more cells)", lines[0])

    def test_no_raw_bytes_reach_the_terminal(self) -> None:
        for text in (
            self.faults(PROGRAMMES.replace("Kim Lee", "Kim\x1b[31m Lee\x07"), RESIDENTS),
            self.faults(PROGRAMMES.replace("Kim Lee", "\u202eKim \u2066Leee"), RESIDENTS),
        ):
            self.assertTrue(all(line.isprintable() for line in text), text)

    def test_wrong_words_on_the_command_line(self) -> None:
        files = self.tables()
        for words, cause in (
            (["--encoding", "klingon"], "no character set is named klingon"),
            (["--encoding", "base64"], "no character set"),
            (["--delimiter", "ab"], "ab parts no cells"),
            (["--delimiter", '"'], "parts no cells"),
            (["--heading", "places"], "it is ROLE=WORD"),
            (["--heading", "beds=Beds"], "it is ROLE=WORD"),
        ):
            said = office("check", *files, *words)
            self.assertEqual((said.status, said.out), (2, ""), said)
            self.assertTrue(said.err.startswith("office: ") and cause in said.err, said.err)
        self.assertEqual(office("check", *files, files[0]).status, 2)

    def test_files_that_cant_be_read(self) -> None:
        files = self.tables()
        for path, cause in (
            (str(self.folder / "nowhere.csv"), "no such file"),
            (str(self.folder), "is a directory"),
            ("a\0b", "no path"),
        ):
            for words in (
                ["check", path, files[1]],
                ["check", files[0], path],
                ["check", path],
                ["lint", path],
                ["run", path, files[1], "--out", str(self.folder / "out")],
            ):
                said = office(*words)
                self.assertEqual((said.status, said.out), (1, ""), said)
                self.assertTrue(said.err.startswith("office: ") and cause in said.err.lower(), said.err)
        self.assertEqual(self.left(), [])
        self.assertIn("more than 256 MB", office("check", "/dev/zero", files[1]).err)


class Limits(Tables):
    def test_too_many_members(self) -> None:
        programmes = "Programme,Places,1\n" + "".join(f"P {number},1,\n" for number in range(10001))
        residents = "Applicant,1\n" + "".join(f"R {number},\n" for number in range(100001))
        self.assertEqual(
            self.faults(programmes, "Applicant,1\nKim,\n")[0],
            "programmes, row 10002, cell 1 (A10002): more than 10,000 programmes, and no more are matched",
        )
        self.assertEqual(
            self.faults("Programme,Places,1\nNorth,1,\n", residents)[0],
            "residents, row 100002, cell 1 (A100002): more than 100,000 residents, and no more are matched",
        )

    def test_a_docket_over_a_limit(self) -> None:
        """What lint tells of it ends with the program that takes more; of a docket at the limit, or of another fault, it doesn't."""
        line = "residency-national takes 10,000 programmes, 100,000 residents, 2,000,000 acceptable pairs and 20,000,000 records"
        rows = [f"Q,p{number},1" for number in range(2001)]
        said = office("lint", self.write("docket.csv", "\n".join(rows)))
        self.assertEqual((said.status, said.out.splitlines()), (3, ["record 2001: more than 2000 programmes", line]), said)
        for given, wanted in ((rows[:2000], ["no fault"]), ([*rows[:2], "Q,p2,10001"], ["record 3: quota over 10000 (cell 3: 10001)"])):
            said = office("lint", self.write("docket.csv", "\n".join(given)))
            self.assertEqual(said.out.splitlines(), wanted, said)

    def test_as_many_pairs_as_may_be_and_one_more(self) -> None:
        """200,000 pairs who rank one another are none too many, though a list names one more who doesn't rank it back."""
        programmes = ["Programme,Places," + ",".join(map(str, range(1, 2002)))] + [
            f"P{number},1," + ",".join(f"R{number}" for number in range(2001)) for number in range(100)
        ]
        residents = ["Applicant," + ",".join(map(str, range(1, 101)))] + [
            f"R{number}," + ",".join(f"P{number}" for number in range(100)) for number in range(2000)
        ]
        said = office("check", *self.tables("\n".join(programmes), "\n".join([*residents, "R2000," + "," * 99])))
        self.assertEqual((said.status, said.out.splitlines()[-1]), (0, "no fault"), said)
        self.assertNotIn("note: over a limit", said.out)
        said = office("check", *self.tables("\n".join(programmes), "\n".join([*residents, "R2000,P0" + "," * 99])))
        self.assertEqual((said.status, said.out.splitlines()[-1]), (0, "no fault"), said)
        self.assertIn("note: over a limit of residency: residency-national matches this", said.out)


class Headings(Tables):
    def test_both_tables_need_their_headings(self) -> None:
        self.assertIn(
            "a heading row is wanted, with Applicant, Rank 1, Rank 2, .. or Applicant, Rank, Programme",
            self.faults(PROGRAMMES, RESIDENTS.split("\n", 1)[1])[0],
        )
        self.assertIn(
            "a heading row is wanted, with Programme, Places, Rank 1, Rank 2, ..",
            self.faults(PROGRAMMES.split("\n", 1)[1], RESIDENTS)[0],
        )

    def test_a_heading_or_a_row_of_too_many_cells_is_one_fault(self) -> None:
        wide = "Applicant" + ",Rank 1" * 100_101
        self.assertEqual(
            self.faults(PROGRAMMES, wide + "\nKim Lee,North Clinic\n"),
            ["residents, row 1, cell 100101 (ERBA1): the heading has 100,102 cells, more than 100,100", "1 fault in the tables"],
        )
        self.assertEqual(
            self.faults(PROGRAMMES, RESIDENTS.replace("Rosa Rossi,,,", "Rosa Rossi,,,,A,B,C,D,E")),
            [
                "residents, row 8, cell 5 (E8): A stands in a column without a heading (also in F8, G8, H8 and 1 more cell)",
                "1 fault in the tables",
            ],
        )

    def test_what_heads_a_rank(self) -> None:
        words = Words(["rank=Wunsch"])
        for heading, rank in (
            ("Rank 1", 1),
            ("rank2", 2),
            ("Choice #3", 3),
            ("4", 4),
            ("5th choice", 5),
            ("2nd", 2),
            ("Second choice", 2),
            ("Tenth", 10),
            ("Programme 7", 7),
            ("Wunsch 12", 12),
            ("Rank 01", 1),
            ("Rank_3", 3),
            ("Rank (4)", 4),
            ("Rank", None),
            ("Rank 0", None),
            ("Email 2", None),
            ("Rank 1 2", None),
            ("First name", None),
            ("", None),
        ):
            self.assertEqual(words.rank(heading, "programme"), rank, heading)
