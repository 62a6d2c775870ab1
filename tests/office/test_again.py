"""What is done with a folder later: withdrawals, comparisons, letters, and files that were changed meanwhile."""
import os
import random
import shutil
from pathlib import Path
from typing import Dict, List, Sequence

import derived
from residency import Member, Names
from residency.office import who
from residency.office.faults import OfficeError
from residency.office.sentences import said_by
from support import PROGRAMMES, RESIDENTS, SAMPLES, OfficeTest, office
from test_folder import sample, sha256, table


def snapshot(path: Path) -> Dict[str, str]:
    return {str(file.relative_to(path)): sha256(file) for file in path.rglob("*") if file.is_file()}


class Again(OfficeTest):
    """A run over the sample tables, with what is derived for it."""

    def setUp(self) -> None:
        super().setUp()
        self.out = self.folder / "match"
        said = office("run", SAMPLES / "programmes.csv", SAMPLES / "residents.csv", "--out", self.out, "--date", "2026-03-20")
        self.assertEqual(said.status, 0, said.err)
        self.given = derived.tables(sample("programmes.csv"), sample("residents.csv"))
        self.before = derived.match(self.given)

    def refused(self, status: int, cause: str, *words) -> None:
        here = self.left()
        said = office(*words)
        self.assertEqual((said.status, said.out), (status, ""), said)
        self.assertTrue(said.err.startswith("office: "), said.err)
        self.assertIn(cause, said.err)
        self.assertEqual(self.left(), here)


class Withdraw(Again):
    def test_what_changes_by_name(self) -> None:
        for gone, word in (
            (["Zoë O'Connor"], "resident"),
            (["Lakeview – Family Medicine", "Greta Weiß"], "both"),
            (["Queen's Park – Psychiatry"], "programme"),
        ):
            now = derived.match(self.given, gone)
            said = office("withdraw", self.out, *gone, "--out", self.folder / word, "--date", "2026-03-21")
            self.assertEqual((said.status, said.err), (0, ""), said)
            rows = table(self.folder / word / "matches.csv")
            self.assertEqual({row["resident"]: row["programme"] or None for row in rows}, now.match)
            self.assertEqual({row["resident"] for row in rows if row["standing"] == "withdrawn"}, set(gone) & set(now.match))
            moved = {resident for resident, where in now.match.items() if where != self.before.match[resident]} | (set(gone) & set(now.match))
            changed = table(self.folder / word / "changes.csv")
            self.assertEqual(
                {row["Name"] for row in changed if row["Side"] == "resident" and row["Change"] != "stands otherwise"}, moved
            )
            self.assertTrue(
                all(
                    any(line.startswith(f"{row['Name']}: {row['Change']}; ") for line in said.out.splitlines())
                    for row in changed
                )
            )
            told = {row["Name"]: row["Change"] for row in changed}
            for resident in set(now.match) & moved - set(gone):
                was, where = self.before.match[resident], now.match[resident]
                self.assertEqual(told[resident], "now matched" if was is None else "no longer matched" if where is None else "moved")
            self.assertEqual({told[name] for name in gone}, {"withdrawn"})

    def test_the_old_folder_stays_as_it_was(self) -> None:
        before = snapshot(self.out)
        said = office("withdraw", self.out, "Zoë O'Connor")
        self.assertEqual(said.status, 0)
        self.assertEqual(snapshot(self.out), before)
        self.assertEqual(self.left(), ["match", "match-2"])
        self.assertIn(f"written to {self.out}-2", said.out)
        docket = (self.folder / "match-2" / "docket.csv").read_text()
        self.assertTrue(docket.startswith("V,2\n"))
        self.assertIn("\nW,R,zoe-oconnor\n", docket)
        self.assertEqual((self.folder / "match-2" / "audit.csv").read_text(), "S,stable\n")

    def test_twice_is_the_same_as_at_once(self) -> None:
        for member, start, out in (("Greta Weiß", "match", "a"), ("dmitri-ivanov", "a", "b")):
            self.assertEqual(office("withdraw", self.folder / start, member, "--out", self.folder / out).status, 0)
        self.assertEqual(
            office("withdraw", self.out, "Dmitri Ivanov", "--resident", "Greta Weiß", "--out", self.folder / "c").status, 0
        )
        self.assertEqual((self.folder / "b" / "matches.csv").read_bytes(), (self.folder / "c" / "matches.csv").read_bytes())

    def test_names_that_are_refused(self) -> None:
        self.refused(3, "nobody is named Nobody", "withdraw", self.out, "Nobody")
        self.refused(
            3,
            "no programme is named Zoë O'Connor, but a resident is (--resident)",
            "withdraw",
            self.out,
            "--programme",
            "Zoë O'Connor",
        )
        self.refused(2, "who withdraws?", "withdraw", self.out)
        self.refused(3, "withdrawn already", "withdraw", self.out, "Greta Weiß", "greta-weiss")
        self.refused(2, "is there already", "withdraw", self.out, "Greta Weiß", "--out", self.out)
        self.refused(1, "is no folder", "withdraw", self.folder / "nowhere", "Greta Weiß")
        self.refused(1, "manifest.json can't be read", "withdraw", self.folder, "Greta Weiß")
        office("withdraw", self.out, "Greta Weiß", "--out", self.folder / "b")
        self.refused(3, "Greta Weiß is withdrawn already", "withdraw", self.folder / "b", "Greta Weiß")

    def test_ids_and_names_that_several_have(self) -> None:
        programmes = "Programme,Places,1,2\nKim Lee Clinic,1,17,18\nSouth,1,18,17\n"
        residents = "ID,Applicant,1,2\n17,Ana Silva,South,Kim Lee Clinic\n18,Ana Silva,South,Kim Lee Clinic\n"
        out = self.run_tables(programmes, residents, "ids")
        self.refused(3, "2 members may be meant by Ana Silva", "withdraw", out, "Ana Silva")
        for name in ("18", "Ana Silva (18)", " Ana  Silva\u00a0(18)"):
            said = office("withdraw", out, name, "--out", self.folder / f"by {name}")
            self.assertEqual(said.status, 0)
            self.assertIn("Ana Silva (18): withdrawn; South (1st of 2) -> withdrawn", said.out)
            self.assertIn("Ana Silva (17): moved; Kim Lee Clinic (2nd of 2) -> South (1st of 2)", said.out)


    def test_every_way_to_name_a_member(self) -> None:
        """Who is meant, by a derivation over made keys: one member or none."""
        for seed in range(300):
            chance = random.Random(seed)
            members = made_members(chance)
            names = Names(members)
            texts = {text for member in members for text in (member.docket_name, member.id, member.name, f"{member.name} ({member.id})") if text}
            texts |= {f"{member.name} ({member.docket_name})" for member in members}
            for text in sorted(texts | {"Nobody", "a (7)", "A", "(1)"}):
                for side in ("", "P", "R"):
                    wanted = [
                        member
                        for member in members
                        if side in ("", member.side)
                        and (
                            text == member.docket_name
                            or text == member.name
                            or member.id
                            and text in (member.id, f"{member.name} ({member.id})")
                            or not member.id
                            and text == f"{member.name} ({member.docket_name})"
                        )
                    ]
                    try:
                        found = [who.the_one(names, text, side)]
                    except OfficeError as error:
                        self.assertEqual(error.status, 3)
                        self.assertIn(
                            f"{len(wanted)} members may be meant by {text}: " if len(wanted) > 1 else f" is named {text}", said_by(error)
                        )
                        for one in wanted:
                            self.assertIn(f"{one.name} ({one.id or one.docket_name})", said_by(error))
                        self.assertNotEqual(len(wanted), 1, (seed, text, side))
                        continue
                    self.assertEqual(found, wanted, (seed, text, side))

    def test_one_name_in_several_forms(self) -> None:
        """Of letters that are put together or composed, with blanks around and doubled, and marks that nobody sees."""
        names = Names([Member("R", "zoe-bronte", "Zoë Brontë", "Ä 7"), Member("R", "zoe-bronte-2", "Zoe Bronte", "8")])
        for text in ("Zoë Brontë", "Zoe\u0308 Bronte\u0308", "  Zoë   Brontë ", "Zoë\u00a0Brontë\u200b", "A\u0308 7", "zoe-bronte"):
            for side in ("", "R"):
                self.assertEqual(who.the_one(names, text, side).docket_name, "zoe-bronte", ascii(text))

    def test_at_most_ten_are_named(self) -> None:
        names = Names([Member("R", f"r-{number}", "Kim Lee", str(number)) for number in range(1, 14)])
        with self.assertRaises(OfficeError) as told:
            who.the_one(names, "Kim Lee")
        self.assertEqual(
            said_by(told.exception),
            "13 members may be meant by Kim Lee: "
            + ", ".join(f"Kim Lee ({number})" for number in range(1, 11))
            + " and 3 more; give the ID; nothing was written",
        )


def made_members(chance: random.Random) -> List[Member]:
    """Members of both sides whose names, IDs and docket's names are often one another's."""
    members: List[Member] = []
    for side in "PR":
        docket_names = chance.sample(["a", "b", "c", "d", "1", "2"], 3)
        with_ids = chance.random() < 0.7
        ids = chance.sample(["1", "2", "7", "a", "b", "X-9"], 3) if with_ids else [""] * 3
        named = [chance.choice(["A", "B", "a", "b", "1", "2"]) for _ in range(3)]
        if not with_ids:
            named = chance.sample(["A", "B", "a", "b", "1", "2"], 3)
        members += [Member(side, *parts) for parts in zip(docket_names, named, ids)]
    return members


class Changed(Again):
    """A folder whose files were changed is refused; a key that a spreadsheet saved again is taken where it says the same."""

    def every(self, cause: str, status: int = 3) -> None:
        for words in (
            ["withdraw", self.out, "Greta Weiß", "--out", self.folder / "new"],
            ["compare", self.out, self.out],
            ["letters", self.out, "--out", self.folder / "new"],
        ):
            self.refused(status, cause, *words)

    def test_a_sheet_of_another_docket(self) -> None:
        sheet = (self.out / "sheet.csv").read_bytes()
        self.assertEqual(office("withdraw", self.out, "Greta Weiß", "--out", self.folder / "b").status, 0)
        self.out = self.folder / "b"
        for data in (sheet, b"", sheet[:-20]):
            (self.out / "sheet.csv").write_bytes(data)
            self.every("sheet.csv was changed since it was written")
        os.remove(self.out / "sheet.csv")
        self.every("sheet.csv can't be read: no such file", 1)

    def test_a_docket_that_was_changed(self) -> None:
        docket = (self.out / "docket.csv").read_bytes()
        for data in (b"", docket + b"U,greta-weiss\n", docket.replace(b",4\n", b",5\n", 1)):
            (self.out / "docket.csv").write_bytes(data)
            self.every("docket.csv was changed since it was written")

    def test_a_manifest_that_was_changed(self) -> None:
        for text in ("", "[]", "{", '{"sha256": 3}', "[" * 100000, "\xff"):
            (self.out / "manifest.json").write_bytes(text.encode("latin-1"))
            self.every("manifest.json isn't one that office wrote")

    def test_a_key_that_says_something_else(self) -> None:
        key = (self.out / "key.csv").read_text(encoding="utf-8")
        for text in ("", key.replace("Greta Weiß", "Greta Weiss"), key.split("\n", 1)[1], key.replace("ł", "?")):
            (self.out / "key.csv").write_text(text, encoding="utf-8")
            self.every("key.csv was changed since it was written, and says something else now")
        (self.out / "key.csv").write_text(key + "X,kim,Kim\n", encoding="utf-8")
        self.every("key.csv: row 51")

    def test_a_key_that_was_saved_again(self) -> None:
        key = (self.out / "key.csv").read_bytes().decode("utf-8")
        wanted = office("withdraw", self.out, "Greta Weiß", "--out", self.folder / "new").out
        for text in (
            "\ufeff" + key,
            key.replace(",", ";").replace("\n", ";\r\n"),
            "\ufeff" + key.replace(",", "\t").replace("\n", "\r\n"),
            "\n" + key.replace("\n", "\n,,,\n"),
            key.replace("\n", "\r"),
        ):
            for encoding in ("utf-8", "utf-16"):
                shutil.rmtree(self.folder / "new")
                (self.out / "key.csv").write_bytes(text.encode(encoding))
                said = office("withdraw", self.out, "Greta Weiß", "--out", self.folder / "new")
                self.assertEqual((said.status, said.out), (0, wanted), said.err)

    def test_a_key_in_another_set(self) -> None:
        out = self.run_tables(PROGRAMMES, RESIDENTS, "small")
        wanted = office("compare", out, out).out
        (out / "key.csv").write_bytes((out / "key.csv").read_bytes().decode("utf-8").encode("cp1252"))
        self.assertEqual(office("compare", out, out), (0, wanted, ""))


class Compare(OfficeTest):
    def test_a_year_with_ids_and_one_without(self) -> None:
        """Where not all have an ID, members are known by their names, and nobody is taken for another."""
        programmes = "Programme,Places,1,2,3\nNorth,1,Ana,Bo,Cy\n"
        before = self.run_tables(programmes, "Applicant,ID,1\nAna,1,North\nBo,2,North\nCy,3,North\n", "before")
        now = self.run_tables(programmes.replace("Ana,Bo", "Bo,Ana"), "Applicant,1\nAna,North\nBo,North\nCy,North\n", "now")
        wanted = [
            "residents by their names, since not all have an ID: 1 now matched, 1 no longer matched",
            "Bo: now matched; unmatched (lost out) -> North (1st of 1)",
            "Ana: no longer matched; North (1st of 1) -> unmatched (lost out)",
        ]
        self.assertEqual(office("compare", before, now, "--names").out.splitlines()[10:], wanted)
        self.assertEqual(
            office("compare", now, before, "--names").out.splitlines()[11:],
            [
                "Ana (1): now matched; unmatched (lost out) -> North (1st of 1)",
                "Bo (2): no longer matched; North (1st of 1) -> unmatched (lost out)",
            ],
        )

    def test_two_years_by_name(self) -> None:
        before = self.run_tables(out="before")
        programmes = (
            PROGRAMMES.replace("West Infirmary,3,Kim Lee,,,", "West Infirmary,2,Kim Lee,Fatima Kovács,,")
            .replace("East Ward,1,Zoë Brontë,", "East Ward,1,New One,")
            .replace(",Zoë Brontë,Jürgen Groß", ",Jürgen Groß,")
        )
        residents = RESIDENTS.replace("Zoë Brontë,East Ward,North Clinic,", "New One,East Ward,,")
        now = self.run_tables(programmes, residents, "now")
        said = office("compare", before, now, "--names")
        was, is_now = (derived.match(derived.tables(*tables)) for tables in ((PROGRAMMES, RESIDENTS), (programmes, residents)))
        self.assertEqual((was.match["Fatima Kovács"], is_now.match["Fatima Kovács"]), (None, "West Infirmary"))
        self.assertEqual(said.status, 0)
        self.assertEqual(
            said.out.splitlines()[10:],
            [
                "residents by their names, since not all have an ID: 1 now matched, 1 new, 1 gone",
                "Fatima Kovács: now matched; unmatched (ranked back by nobody) -> West Infirmary (1st of 2)",
                "New One: new; not there -> East Ward (1st of 1)",
                "Zoë Brontë: gone; East Ward (1st of 2) -> not there",
                "West Infirmary: filled otherwise; 0 of 3 filled -> 1 of 2 filled",
            ],
        )
        again = office("compare", before, now, "--names", "--out", self.folder / "changes.csv")
        self.assertEqual(again, said)
        rows = table(self.folder / "changes.csv")
        self.assertEqual(
            [f"{row['Name']}: {row['Change']}; {row['Before']} -> {row['Now']}" for row in rows], said.out.splitlines()[11:]
        )
        again = office("compare", before, now, "--out", self.folder / "changes.csv")
        self.assertEqual((again.status, again.out), (2, ""))
        self.assertEqual(
            office("compare", before, before).out.splitlines()[10:],
            ["residents by their names, since not all have an ID: nobody stands otherwise"],
        )

    def test_an_id_that_another_has_now(self) -> None:
        """Where an ID has another name, the two are told and not compared; accents, capitals and the order of words are none."""
        programmes = "Programme,ID,Places,1,2\nNorth,N,1,7,8\nSouth,S,1,8,9\n"
        before = self.run_tables(programmes, "Applicant,ID,1,2\nZoë Brontë,7,North,\nKim Lee,8,South,North\nAna Silva,9,South,\n", "before")
        now = self.run_tables(programmes, "Applicant,ID,1,2\nBRONTE Zoe,7,,\nOmar Haddad,8,South,North\nAna Silva,9,South,\n", "now")
        said = office("compare", before, now, "--names")
        self.assertEqual((said.status, said.out.splitlines()[10:]), (0, [
            "residents by their IDs: 1 no longer matched, 1 another name under one ID",
            "BRONTE Zoe (7): no longer matched; North (1st of 1) -> unmatched (ranked nobody)",
            "Omar Haddad (8): another name under one ID; Kim Lee -> Omar Haddad",
            "North (N): filled otherwise; 1 of 1 filled -> 0 of 1 filled"]))

    def figures(self, given: derived.Derived, gone: Sequence[str]) -> List[str]:
        """The ten figures of a year, counted from its tables."""
        match = derived.match(given, gone)
        there = [resident_list for resident_list in given.resident_lists if resident_list not in gone]
        share = lambda count: f"{count} ({100 * count / len(there):.0f}%)"  # noqa: E731
        matched = [resident for resident in there if match.match[resident]]
        choices = [match.choice(resident) for resident in matched]
        back = [resident for resident in there if resident not in matched and match.ranked_back(resident, gone)]
        counts = [len(matched), *(choices.count(choice) for choice in (1, 2, 3)), sum(choice > 3 for choice in choices)]
        counts += [len(back), len(there) - len(matched) - len(back)]
        programmes = [place for place in given.places if place not in gone]
        places = sum(given.places[programme] for programme in programmes)
        left = sum(given.places[programme] - len(match.members(programme)) for programme in programmes)
        return [str(len(there)), *map(share, counts), str(len(programmes)), f"{left} of {places}"]

    def test_ten_lines_of_figures(self) -> None:
        given = derived.tables(sample("programmes.csv"), sample("residents.csv"))
        office("run", SAMPLES / "programmes.csv", SAMPLES / "residents.csv", "--out", self.folder / "a")
        gone = ["Zoë O'Connor", "Lakeview – Family Medicine", "Greta Weiß"]
        office("withdraw", self.folder / "a", *gone, "--out", self.folder / "b")
        other = self.run_tables()
        titles = (
            "residents who take part",
            "matched",
            "with their first choice",
            "with their second choice",
            "with their third choice",
            "with a later choice",
            "unmatched, though ranked back",
            "unmatched, ranked back by nobody or with an empty list",
            "programmes that take part",
            "places unfilled",
        )
        years = {
            "a": self.figures(given, []),
            "b": self.figures(given, gone),
            "out": self.figures(derived.tables(PROGRAMMES, RESIDENTS), []),
        }
        self.assertEqual(other.name, "out")
        for before in years:
            for now in years:
                said = office("compare", self.folder / before, self.folder / now)
                lines = said.out.splitlines()
                self.assertEqual((said.status, said.err, len(lines)), (0, "", 11))
                wanted = [f"{what}: {was} before, {to} now" for what, was, to in zip(titles, years[before], years[now])]
                self.assertEqual(lines[:10], wanted)
                # Nobody is named where that isn't asked for.
                everybody = (*given.resident_lists, *given.places, "Ana Silva", "North Clinic")
                self.assertFalse(any(name in said.out for name in everybody))
        self.assertEqual(
            lines[10], "residents by their names, since not all have an ID: nobody stands otherwise"
        )
        lines = office("compare", self.folder / "a", self.folder / "b").out.splitlines()
        known = r"^residents by their names, since not all have an ID: "
        self.assertRegex(lines[10], known + r"(\d+ [a-z ]+, )+2 withdrawn; --names lists them$")

    def test_people_and_programmes_are_known_by_their_ids(self) -> None:
        first = ("Programme,ID,Places,1,2\nNorth,p1,1,17,18\n", "ID,Applicant,1\n17,Ana Silva,North\n18,Kim Lee,North\n")
        second = (
            "Programme,ID,Places,1,2\nNorth Clinic,p1,1,18,17\n",
            "ID,Applicant,1\n17,Ana Silva-Lee,p1\n18,Ana Silva,p1\n",
        )
        before, now = self.run_tables(*first, "before"), self.run_tables(*second, "now")
        self.assertEqual(
            office("compare", before, now, "--names").out.splitlines()[10:],
            [
                "residents by their IDs: 2 another name under one ID",
                "Ana Silva (18): another name under one ID; Kim Lee -> Ana Silva",
                "Ana Silva-Lee (17): another name under one ID; Ana Silva -> Ana Silva-Lee",
            ],
        )
        # Members are told by the names that they have now.
        more = (second[0].replace(",1,18", ",2,18"), second[1])
        self.assertEqual(
            office("compare", before, self.run_tables(*more, "more"), "--names").out.splitlines()[10:],
            [
                "residents by their IDs: 2 another name under one ID",
                "Ana Silva (18): another name under one ID; Kim Lee -> Ana Silva",
                "Ana Silva-Lee (17): another name under one ID; Ana Silva -> Ana Silva-Lee",
                "North Clinic (p1): filled otherwise; 1 of 1 filled -> 2 of 2 filled",
            ],
        )
        # A programme that is only renamed isn't moved to.
        third = (first[0].replace("North", "North Clinic"), first[1].replace(",North", ",p1"))
        self.assertIn("nobody stands otherwise", office("compare", before, self.run_tables(*third, "third")).out)
