"""Letters: what each says, by a derivation from the tables alone; templates; and the page of all letters."""
import itertools
import os
import random
import re
from datetime import date
from pathlib import Path
from typing import Tuple

import derived
from residency import Market
from residency.office.faults import OfficeError
from residency.office.sentences import said_by
from residency.office.folder import file_names
from residency.office.letters import checked_template, fields_of, why_not
from residency.office.letters import Letters as Letters_
from residency.office.outcome import Became, Details, outcome_of
from residency.office.phrases import english
from residency.office.page import About
from support import PROGRAMMES, RESIDENTS, OfficeTest, office
from test_again import Again, snapshot
from test_folder import table
from test_page import Tree


def read(path: Path) -> str:
    return path.read_text(encoding="utf-8")


def body(letter: str) -> str:
    """A letter's text without the numbers of its list, on one line."""
    return " ".join(re.sub(r"(?m)^ +\d+\. ", "", letter).split())


class Letters(Again):
    def test_a_template(self) -> None:
        template = self.write("letter.txt", "An $name ($docket_name): ${programme}/$choice von $listed, $$5, $date\n")
        said = office("letters", self.out, "--template", template, "--out", self.folder / "letters")
        self.assertEqual((said.status, said.out), (0, f"40 letters to residents and 10 to programmes written to {self.folder / 'letters'}\n"))
        self.assertEqual(len(os.listdir(self.folder / "letters")), 43)
        self.assertEqual(
            read(self.folder / "letters" / "jurgen-gross.txt"),
            "An Jürgen Groß (jurgen-gross): Queen's Park – Psychiatry/4th von 4, $5, 2026-03-20\n",
        )
        # The words may be of any language, so the page of them names none.
        page = Tree(read(self.folder / "letters" / "letters.html")).root
        self.assertNotIn("lang", page.all("html")[0].attributes)
        self.assertIn(
            "An Jürgen Groß (jurgen-gross): Queen's Park – Psychiatry/4th von 4, $5, 2026-03-20",
            [article.text() for article in page.all("article")],
        )

    def test_a_template_for_each_standing(self) -> None:
        """A folder has a text for each standing, and one for all others; what a preview shows is what is written."""
        templates = self.folder / "templates"
        templates.mkdir()
        (templates / "lost-out.txt").write_text("Sorry, $name\n")
        (templates / "letter.txt").write_text("$sender\n\nTo $name: $choice\n\n$signature\n")
        settings = self.write("own.ini", "[match]\nsender = The Office | 1 High Street\nsignature = K. Lee\n")
        words = ["letters", self.out, "--template", templates, "--settings", settings]
        self.assertEqual(office(*words, "--out", self.folder / "letters").status, 0)
        self.assertEqual(read(self.folder / "letters" / "jurgen-gross.txt"), "The Office\n1 High Street\n\nTo Jürgen Groß: 4th\n\nK. Lee\n")
        said = office(*words, "--preview", "1")
        self.assertEqual((said.status, said.err), (0, ""))
        shown = said.out.split(f"settings: {settings}\n")[1]
        parts = [read(path) for path in sorted((self.folder / "letters").glob("*.txt"))]
        self.assertEqual(sum(shown.count(part) for part in parts), 3)
        self.assertEqual(len(re.findall("^Sorry, ", shown, re.M)), 1)
        self.assertEqual(len([part for part in parts if part.startswith("Sorry, ")]), 9)
        self.refused(2, "one of the arguments --out --preview is required", "letters", self.out)
        (templates / "lost-out.txt").unlink()
        (templates / "letter.txt").unlink()
        self.refused(3, f"{templates} has none of matched.txt, ranked-nobody.txt, ranked-back-by-nobody.txt, lost-out.txt, withdrawn.txt, letter.txt, programme.txt",
                     *words, "--out", self.folder / "none")

    def test_who_sends_and_signs(self) -> None:
        """What the settings say stands in the office's own letter, in its place, and the folder is made again with it."""
        settings = self.write("own.ini", "[match]\nsender = The Office | 1 High Street\nappeals = Appeals until 1 May.\nsignature = K. Lee\n")
        out = self.run_tables(PROGRAMMES, RESIDENTS, "signed", "--settings", settings)
        self.assertEqual(read(out / "letters" / "rosa-rossi.txt"), """\
The Office
1 High Street

20 March 2026

Rosa Rossi

You are not matched, since your list is empty.

Your list, as it was matched, is empty.

In the docket that was matched you are rosa-rossi.

Appeals until 1 May.

K. Lee
""")
        self.assertEqual(office("verify", out).status, 0)

    def test_without_a_template_they_are_the_same(self) -> None:
        self.assertEqual(office("letters", self.out, "--out", self.folder / "letters").status, 0)
        whole = snapshot(self.out)
        wanted = {**snapshot(self.out / "letters"), **{name: whole[name] for name in ("letters.html", "rosters.html")},
                  **{f"programmes/{Path(name).name}": data for name, data in whole.items() if name.startswith("rosters/") and name.endswith(".txt")}}
        self.assertEqual(snapshot(self.folder / "letters"), wanted)

    def test_a_template_at_fault(self) -> None:
        for text, cause in (
            ("a\n$nmae", "line 2: $nmae is none of"),
            ("a\r\r$nmae", "line 3: $nmae is none of"),
            ("costs 5$", "line 1: $ is none of"),
            ("$name ${", "line 1: $ is none of"),
            ("${name.__class__}", "line 1: $ is none of"),
            ("", "letter.txt has no text, and"),
            (" \n\t\r\n", "letter.txt has no text, and"),
        ):
            template = self.write("letter.txt", text)
            self.refused(3, cause, "letters", self.out, "--template", template, "--out", self.folder / "letters")
        self.refused(
            1, "can't be read", "letters", self.out, "--template", self.folder / "nowhere", "--out", self.folder / "letters"
        )

    def test_every_field(self) -> None:
        fields = "day date title name id programme choice listed outcome list docket_name docket_sha256".split()
        template = self.write("letter.txt", "\n".join(f"{field}=${field}" for field in fields) + "\n")
        out = self.run_tables(
            "Programme,Places,1,2\nNorth,1,A 17/3,B;8\n",
            'ID,Applicant,1\nA 17/3,Ana Silva,North\n"B;8",Kim Lee,North\n',
            "ids",
            "--template",
            template,
            "--title",
            "Match <1>",
        )
        digest = snapshot(out)["docket.csv"]
        head = "day=20 March 2026\ndate=2026-03-20\ntitle=Match <1>\n"
        tail = f"\ndocket_sha256={digest}\n"
        # The ID is that of the table, which is no docket's name here.
        self.assertEqual(
            read(out / "letters" / "ana-silva-a-17-3.txt"),
            head + "name=Ana Silva\nid=A 17/3\nprogramme=North\nchoice=1st\nlisted=1\n"
            "outcome=You are matched with North,\nthe 1st of the 1 on your list.\nlist=Your list, as it was matched:\n\n"
            "  1. North: you are matched here\ndocket_name=ana-silva-a-17-3" + tail,
        )
        self.assertEqual(
            read(out / "letters" / "kim-lee-b-8.txt"),
            head + "name=Kim Lee\nid=B;8\nprogramme=\nchoice=\nlisted=1\n"
            "outcome=We are sorry that you are not matched. The programme on your list filled\n"
            "all of its places with residents whom it ranks before you.\nlist=Your list, as it was matched:\n\n"
            "  1. North: it filled all of its places with residents whom it ranks before you\ndocket_name=kim-lee-b-8" + tail,
        )

    def test_line_ends_of_a_template(self) -> None:
        template = self.write("letter.txt", "$name\r\n\r\n$list\rEnd\r\n")
        self.assertEqual(office("letters", self.out, "--template", template, "--out", self.folder / "letters").status, 0)
        for path in (self.folder / "letters").rglob("*.*"):
            self.assertNotIn(b"\r", path.read_bytes())
        self.assertTrue(read(self.folder / "letters" / "jurgen-gross.txt").endswith("\nEnd\n"))


class Said(OfficeTest):
    """What letters say, of small markets."""

    def letter(self, out: Path, name: str) -> str:
        return read(out / "letters" / f"{name}.txt")

    def test_a_programme_that_withdrew_is_told(self) -> None:
        out = self.run_tables(out="small")
        office("withdraw", out, "Jürgen Groß", "South Hospital", "--out", self.folder / "b")
        out = self.folder / "b"
        self.assertIn("\nYou withdrew from the match, and so you have no place in it.\n", self.letter(out, "jurgen-gross"))
        self.assertIn("  1. North Clinic: you withdrew from the match\n", self.letter(out, "jurgen-gross"))
        self.assertIn(
            "1. South Hospital: it withdrew from the match\n  2. North Clinic: you are matched here",
            self.letter(out, "ana-silva"),
        )
        # South withdrew, also where it would not have been needed.
        self.assertIn(
            "1. North Clinic: you are matched here\n  2. South Hospital: it withdrew from the match\n  3. West Infirmary: not needed",
            self.letter(out, "kim-lee"),
        )
        self.assertIn(
            "\nWe are sorry that you are not matched. Of the 2 programmes on your list,\n1 filled all of its places with residents "
            "whom it ranks before you and 1\nwithdrew from the match.\n",
            self.letter(out, "omar-haddad"),
        )
        self.assertIn(
            "\nWe are sorry that you are not matched. Neither of the 2 programmes on\nyour list ranked you.\n",
            self.letter(out, "fatima-kovacs"),
        )
        self.assertIn(
            "\nYou are not matched, since your list is empty.\n\nYour list, as it was matched, is empty.\n",
            self.letter(out, "rosa-rossi"),
        )

    def test_a_programme_without_places(self) -> None:
        lists = "Applicant,1,2\nKim,North,South\nLee,South,\n"
        out = self.run_tables("Programme,Places,1,2\nNorth,0,Kim,Lee\nSouth,1,Lee,Kim\n", lists)
        self.assertIn("1. North: it had no places\n  2. South: it filled all of its places", self.letter(out, "kim"))
        self.assertIn(
            "\nWe are sorry that you are not matched. Of the 2 programmes on your list,\n1 filled all of its places with residents "
            "whom it ranks before you and 1\nhad no places.\n",
            self.letter(out, "kim"),
        )

    def test_all_of_a_list_withdrew(self) -> None:
        lists = "Applicant,1,2,3\nAna,P1,,\nBea,P2,P1,\nCleo,P3,P1,P2\n"
        self.run_tables("Programme,Places,1,2,3\nP1,1,Ana,Bea,Cleo\nP2,1,Ana,Bea,Cleo\nP3,1,Ana,Bea,Cleo\n", lists, "first")
        office("withdraw", self.folder / "first", "P1", "P2", "P3", "--out", self.folder / "out")
        for name, said in (
            ("ana", "The programme on your list withdrew from the match."),
            ("bea", "Both programmes on your list withdrew from the match."),
            ("cleo", "All 3 programmes on your list withdrew from the match."),
        ):
            self.assertIn(f" We are sorry that you are not matched. {said} ", " ".join(self.letter(self.folder / "out", name).split()))

    def test_every_list_that_led_to_no_place(self) -> None:
        """The sentence on each list of up to five programmes, by the derivation, and some of them by hand."""
        kinds = [Became.FULL, Became.NO_PLACES, Became.NOT_RANKED, Became.IT_WITHDREW]
        for size in range(1, 6):
            for listed in itertools.combinations_with_replacement(kinds, size):
                said = [english().say(f"letter.became.{became.key}") for became in listed]
                self.assertEqual(why_not(list(listed), english()), derived.sentence(said))
        full, none, unranked, withdrew = kinds
        for listed, said in (
            ([full], "The programme on your list filled all of its places with residents whom it ranks before you."),
            ([full, full], "Both programmes on your list filled all of their places with residents whom they rank before you."),
            (
                [full, unranked, full],
                "Of the 3 programmes on your list, 2 filled all of their places with residents whom they rank before you and 1 did "
                "not rank you.",
            ),
            (
                [withdrew, none, full, unranked, withdrew],
                "Of the 5 programmes on your list, 1 filled all of its places with residents whom it ranks before you, 1 had no "
                "places, 1 did not rank you, and 2 withdrew from the match.",
            ),
        ):
            self.assertEqual(why_not(listed, english()), said)

    def test_random_markets(self) -> None:
        """Every letter of random markets with withdrawals, as text and on the page, by the derivation."""
        kinds = set()
        for seed in range(16):
            chance = random.Random(seed)
            given, texts = market(chance)
            gone = [member for member in (*given.places, *given.resident_lists) if chance.random() < 0.2]
            gone = gone if len(gone) > 0 else [next(iter(given.places))]
            self.run_tables(*texts, f"first-{seed}")
            out = self.folder / f"out-{seed}"
            said = office("withdraw", self.folder / f"first-{seed}", *gone, "--out", out, "--date", "2026-03-21")
            self.assertEqual(said.status, 0, said.err)
            wanted = derived.match(given, gone)
            articles = Tree(read(out / "letters.html")).root.all("article")
            page = {article.attributes["id"]: article.text() for article in articles}
            self.assertEqual(len(articles), len(given.resident_lists))
            for resident, listed in given.resident_lists.items():
                text, became = read(out / "letters" / f"{resident.lower()}.txt"), derived.became(wanted, resident, gone)
                kinds.update(became)
                rows = re.findall(r"(?m)^ +(\d+)\. (.*?): (.*)$", text)
                wanted_rows = [(str(number), *row) for number, row in enumerate(zip(listed, became), 1)]
                self.assertEqual(rows, wanted_rows, (seed, resident))
                paragraphs = text.split("\n\n")
                self.assertEqual(paragraphs[:2], ["21 March 2026", resident])
                self.assertEqual(" ".join(paragraphs[2].split()), derived.outcome(wanted, resident, gone), (seed, resident))
                self.assertTrue(all(len(line) <= 72 for line in paragraphs[2].split("\n")))
                self.assertEqual(page[resident.lower()], body(text))
                self.assertNotIn("lost out", text.lower())
            self.assertNotIn("lost out", read(out / "letters.html").lower())
        self.assertEqual(len(kinds), 7)


def market(chance: random.Random) -> Tuple[derived.Derived, Tuple[str, str]]:
    """A random market and its tables; every third programme has no places or is ranked back by few."""
    programmes = [f"P{number}" for number in range(1, chance.randint(3, 6))]
    residents = [f"R{number}" for number in range(1, chance.randint(6, 12))]
    places = {programme: chance.choice((0, 1, 1, 2)) for programme in programmes}
    lists = {programme: chance.sample(residents, chance.randint(1, len(residents))) for programme in programmes}
    wishes = {resident: chance.sample(programmes, chance.randint(0, len(programmes))) for resident in residents}
    texts = []
    for head, rows in (
        (["Programme", "Places"], [[programme, str(places[programme]), *lists[programme]] for programme in programmes]),
        (["Applicant"], [[resident, *wishes[resident]] for resident in residents]),
    ):
        width = max(len(head) + 1, *map(len, rows))
        heading = head + [str(rank) for rank in range(1, width - len(head) + 1)]
        texts.append("".join(",".join(row + [""] * (width - len(row))) + "\n" for row in [heading, *rows]))
    return derived.Derived(places, lists, wishes, {}), (texts[0], texts[1])


class Names(OfficeTest):
    def test_letters_whose_names_differ_in_capitals(self) -> None:
        """IDs that are names of a docket differ in capitals alone; a disk that knows no capitals still keeps each letter."""
        out = self.run_tables(
            "Programme,ID,Places,1,2,3\nNorth,p,3,kim,KIM,Kim\n",
            "ID,Applicant,1\nkim,Ana Silva,North\nKIM,Bea Lee,North\nKim,Cleo Rossi,North\n",
        )
        files = sorted(os.listdir(out / "letters"))
        self.assertEqual(len({name.lower() for name in files}), 3)
        self.assertEqual(
            sorted(read(out / "letters" / name).split("\n")[2] for name in files), ["Ana Silva", "Bea Lee", "Cleo Rossi"]
        )
        # The name that a file of one's own would have is still free for its owner, whoever comes later.
        for names in (["a", "A", "A_2", "a_2", "Con", "con_", "..", "dots"], ["A_2", "a_2", "a", "A"]):
            made = file_names(names, ".txt")
            self.assertEqual(len({name.lower() for name in made.values()}), len(names), made)
            self.assertEqual(list(made), names)
            self.assertFalse({"con.txt", "..txt"} & {name.lower() for name in made.values()})

    def test_ordinals(self) -> None:
        self.assertEqual([english().ordinal(number) for number in range(1, 2200)], [derived.nth(number) for number in range(1, 2200)])
        by_hand = {1: "1st", 2: "2nd", 3: "3rd", 11: "11th", 12: "12th", 13: "13th", 21: "21st", 101: "101st", 111: "111th",
                   112: "112th", 113: "113th", 121: "121st", 1011: "1,011th", 1022: "1,022nd"}
        self.assertEqual({number: english().ordinal(number) for number in by_hand}, by_hand)

    def test_a_letter_of_a_111th_choice(self) -> None:
        """A choice, a rank and a length of 111 in letter and page."""
        number = 111
        programmes = "Programme,Places," + ",".join(map(str, range(1, number + 1))) + "\n"
        fillers = [f"F{filler}" for filler in range(1, number)]
        programmes += "".join(f"P{filler},1,F{filler}\n" for filler in range(1, number)) + f"P{number},1," + ",".join(["Kim"]) + "\n"
        residents = "Applicant," + ",".join(map(str, range(1, number + 1))) + "\n"
        residents += "Kim," + ",".join(f"P{programme}" for programme in range(1, number + 1)) + "\n"
        residents += "".join(f"{name},P{programme}\n" for programme, name in enumerate(fillers, 1))
        out = self.run_tables(programmes, residents)
        self.assertIn("\nYou are matched with P111,\nthe 111th of the 111 on your list.\n", read(out / "letters" / "kim.txt"))
        self.assertIn("\n  111. P111: you are matched here\n", read(out / "letters" / "kim.txt"))
        self.assertIn("\n    1. P1: it did not rank you\n", read(out / "letters" / "kim.txt"))
        self.assertIn('<td class="n">111th of 111</td>', read(out / "page.html"))


class Page(OfficeTest):
    """The page of all letters."""

    def page(self, out: Path) -> "Tree":
        self.source = read(out / "letters.html")
        return Tree(self.source).root

    def test_each_letter_is_a_part_of_its_own(self) -> None:
        root = self.page(self.run_tables())
        self.assertEqual(root.all("html")[0].attributes["lang"], "en")
        self.assertEqual(root.all("script", "link", "iframe", "object", "img"), [])
        # By name, and each with its own docket's name.
        self.assertEqual(
            [(article.attributes["aria-label"], article.attributes["id"]) for article in root.all("article")],
            [
                ("Ana Silva", "ana-silva"),
                ("Fatima Kovács", "fatima-kovacs"),
                ("Jürgen Groß", "jurgen-gross"),
                ("Kim Lee", "kim-lee"),
                ("Omar Haddad", "omar-haddad"),
                ("Rosa Rossi", "rosa-rossi"),
                ("Zoë Brontë", "zoe-bronte"),
            ],
        )
        self.assertEqual(root.all("header")[0].text(), "The match 7 letters, one to a sheet when they are printed.")
        self.assertFalse(any(not paragraph.text() for paragraph in root.all("p", "li")))
        style = root.all("style")[0].text()
        self.assertIn("article + article { break-before: page; }", style[style.index("@media print") :])

    def test_the_order_of_the_table(self) -> None:
        root = self.page(self.run_tables(PROGRAMMES, RESIDENTS, "out", "--order", "table"))
        self.assertEqual(
            [article.attributes["id"] for article in root.all("article")][:3], ["ana-silva", "kim-lee", "zoe-bronte"]
        )

    def test_names_and_templates_are_text(self) -> None:
        bad = "<script>alert(1)</script> & 'Co"
        template = self.write("letter.txt", f"{bad} $title\n\n  Dear $name,\n\n\n$programme\n\n$list\n\nYours\n")
        out = self.run_tables(
            PROGRAMMES.replace("North Clinic", f"North {bad}"),
            RESIDENTS.replace("North Clinic", f"North {bad}").replace("Fatima Kovács", f"Fatima {bad}"),
            "out",
            "--template",
            template,
            "--title",
            f"T {bad}",
        )
        root = self.page(out)
        self.assertEqual(root.all("script"), [])
        letters = {article.attributes["id"]: article for article in root.all("article")}
        self.assertEqual(letters["jurgen-gross"].all("p")[0].text(), f"{bad} T {bad}")
        self.assertIn(f"North {bad}: you are matched here", [item.text() for item in letters["jurgen-gross"].all("li")])
        # A field without a text leaves no empty paragraph; spaces at a line's start stay.
        self.assertEqual(
            [paragraph.text() for paragraph in letters["rosa-rossi"].all("p")],
            [f"{bad} T {bad}", "Dear Rosa Rossi,", "Your list, as it was matched, is empty.", "Yours"],
        )
        self.assertIn("<p>  Dear <bdi>", self.source)
        fatima = next(letter for name, letter in letters.items() if name.startswith("fat"))
        self.assertEqual((fatima.attributes["aria-label"], fatima.all("p")[1].text()), (f"Fatima {bad}", f"Dear Fatima {bad},"))

    def test_a_quote_in_a_name_ends_no_attribute(self) -> None:
        name = 'Fatima" onfocus="alert(1)" x="&amp; <b>'
        root = self.page(self.run_tables(PROGRAMMES, RESIDENTS.replace("Fatima Kovács", name)))
        fatima = next(article for article in root.all("article") if article.attributes["id"].startswith("fat"))
        self.assertEqual((sorted(fatima.attributes), fatima.attributes["aria-label"]), (["aria-label", "id"], name))
        self.assertEqual(root.all("b"), [])


class Kept(OfficeTest):
    """Columns that are kept, as fields of a template."""

    def test_columns_of_every_name(self) -> None:
        """A column whose heading is a word of the letters themselves stands in text and page as it is."""
        columns = ("Label", "Name", "outcome", "List", "text", "Email")
        market = Market({"P": 1}, {"P": ["Ana"]}, {"Ana": ["P"], "Bo": []})
        kept = {name: tuple(f"{name} <{heading}> $x" for heading in columns) for name in ("Ana", "Bo")}
        outcome = outcome_of(market, {"Ana": "P"}, Details({}, columns, kept))
        fields = fields_of(columns)
        about = About("T", date(2026, 3, 20), {"docket.csv": "0" * 64})
        letters = Letters_(market, outcome, about, "\n\n".join(f"{field} is ${field}" for field in ("name", *fields)))
        for name, article in zip(("Ana", "Bo"), Tree(letters.page()).root.all("article")):
            wanted = [f"name is {name}"] + [f"{field} is {text}" for field, text in zip(fields, kept[name])]
            self.assertEqual(letters.letter(letters.outcome.residents[name]).split("\n\n"), wanted)
            self.assertEqual([paragraph.text() for paragraph in article.all("p")], wanted)

    def test_names_of_fields(self) -> None:
        for columns, fields in (
            (["Email"], ["email"]),
            (["E-Mail address", "Straße 1", "2nd email"], ["e_mail_address", "strasse_1", "column_2nd_email"]),
            (["Name", "Title", "name", "TITLE"], ["name_2", "title_2", "name_3", "title_3"]),
            (["Email", "email", "E.mail", "电话", "#"], ["email", "email_2", "email_3", "u75358bdd", "column"]),
        ):
            self.assertEqual(fields_of(columns), fields)
        self.assertEqual(checked_template("$email\r$name", ["Email"]), "$email\n$name")
        for text, columns in (("$email", []), ("$Email", ["Email"]), ("$phone", ["Email"])):
            with self.assertRaises(OfficeError) as told:
                checked_template(text, columns)
            self.assertIn(f"line 1: {text} is none of $day, $date, ", said_by(told.exception))


class Whole(OfficeTest):
    """First and last names in two columns and a column that is kept, from tables to letters, and again after a withdrawal."""

    PROGRAMMES = "Programme,Places,1,2,3,4\nNorth,1,1,2,3,4\nSouth,1,4,3,2,1\n"
    RESIDENTS = (
        "First name,Last name,ID,Email,1,2\n"
        "Zoë,Abel,1,zoe@x.org,North,South\n"
        "Ana,Silva,2,=ana;=1+1@x.org,North,South\n"
        "Ana,Silva,3,,North,South\n"
        "Bea,de Haas,4,bea@x.org,South,North\n"
    )

    def check(self, out: Path, mails: bool = True) -> None:
        rows = table(out / "matches.csv")
        self.assertEqual([row["family_name"] for row in rows], ["Abel", "Silva", "Silva", "de Haas"])
        self.assertEqual([row["resident"] for row in rows], ["Zoë Abel", "Ana Silva (2)", "Ana Silva (3)", "Bea de Haas"])
        # What is kept is raw, too.
        self.assertEqual([row["Email"] for row in rows], ["zoe@x.org", "=ana;=1+1@x.org", "", "bea@x.org"])
        articles = Tree(read(out / "letters.html")).root.all("article")
        self.assertEqual([article.attributes["aria-label"] for article in articles][:2], ["Zoë Abel", "Bea de Haas"])

    def test_from_tables_to_letters(self) -> None:
        template = self.write("letter.txt", "$name <$email>\n")
        out = self.run_tables(self.PROGRAMMES, self.RESIDENTS, "out", "--keep", "Email", "--template", template)
        self.check(out)
        self.assertEqual(read(out / "letters" / "1.txt"), "Zoë Abel <zoe@x.org>\n")
        self.assertEqual(read(out / "letters" / "3.txt"), "Ana Silva (3) <>\n")
        page = Tree(read(out / "page.html")).root
        matched = next(section for section in page.all("section") if section.attributes["aria-labelledby"] == "matched")
        self.assertEqual(matched.all("caption")[0].text(), "2 residents, by family name")
        self.assertEqual([bold.text() for bold in matched.all("b")], ["Abel", "de Haas"])
        said = office("withdraw", out, "Zoë Abel", "--out", self.folder / "b", "--template", template)
        self.assertEqual(said.status, 0, said.err)
        self.check(self.folder / "b")
        said = office("withdraw", self.folder / "b", "4", "--out", self.folder / "c", "--template", template)
        self.assertEqual(said.status, 0, said.err)
        self.check(self.folder / "c")
        self.assertEqual(read(self.folder / "c" / "letters" / "4.txt"), "Bea de Haas <bea@x.org>\n")
        said = office("letters", self.folder / "c", "--template", template, "--out", self.folder / "letters")
        self.assertEqual(said.status, 0, said.err)
        self.assertEqual(read(self.folder / "letters" / "2.txt"), "Ana Silva (2) <=ana;=1+1@x.org>\n")

    def test_a_changed_table_for_programs_is_told(self) -> None:
        """Where letters would be made of what it has; nobody's mail goes to another."""
        out = self.run_tables(self.PROGRAMMES, self.RESIDENTS, "out", "--keep", "Email")
        (out / "matches.csv").write_bytes((out / "matches.csv").read_bytes().replace(b"zoe@", b"zo@"))
        for words in (["withdraw", out, "1"], ["letters", out, "--out", self.folder / "letters"]):
            said = office(*words)
            self.assertEqual((said.status, said.out), (3, ""))
            self.assertIn("matches.csv was changed since it was written", said.err)
