"""Whose list changed since a folder was made, by a derivation from two pairs of tables."""
import random
from typing import List

import derived
from support import PROGRAMMES, RESIDENTS, OfficeTest, office


def as_tables(made: derived.Derived) -> List[str]:
    """Both tables of these lists as text."""
    programmes = [[name, str(made.places[name]), *listed] for name, listed in made.programme_lists.items()]
    residents = [[name, *listed] for name, listed in made.resident_lists.items()]
    texts = []
    for first, rows in (("Programme,Places", programmes), ("Applicant", residents)):
        width = max(map(len, rows))
        heading = first + "".join(f",{rank}" for rank in range(1, width - first.count(",")))
        texts.append("\n".join([heading, *(",".join(row + [""] * (width - len(row))) for row in rows)]) + "\n")
    return texts


def is_least(before: List[str], now: List[str], moved: List[str]) -> bool:
    """Whether those who aren't said to have moved stand in one order on both lists, with nobody else beside them."""
    stay = [[name for name in listed if name not in moved] for listed in (before, now)]
    return stay[0] == stay[1]


class Changes(OfficeTest):
    def setUp(self) -> None:
        super().setUp()
        self.out = self.run_tables()

    def told(self, programmes: str, residents: str, *words: object) -> List[str]:
        said = office("changes", self.out, *self.tables(programmes, residents), *words)
        self.assertEqual((said.status, said.err), (0, ""), said)
        return said.out.splitlines()

    def test_by_hand(self) -> None:
        self.assertEqual(self.told(PROGRAMMES, RESIDENTS), ["0 lists changed, of 11"])
        programmes = PROGRAMMES.replace("Kim Lee,Ana Silva,Omar Haddad,", "Ana Silva,Kim Lee,Omar Haddad,Rosa Russo").replace("East Ward,1", "East Ward,2")
        residents = RESIDENTS.replace("North Clinic,South Hospital,West Infirmary", "West Infirmary,North Clinic,South Hospital").replace(
            "Fatima Kovács,West Infirmary,East Ward,", "Fatima Kovács,East Ward,,").replace("Rosa Rossi,,,", "Rosa Russo,,,")
        self.assertEqual(self.told(programmes, residents), [
            "programme South Hospital: Ana Silva from 2 to 1, Rosa Russo new at 4", "programme East Ward: 1 place before, 2 now",
            "resident Rosa Rossi is no more in the table", "resident Kim Lee: West Infirmary from 3 to 1",
            "resident Fatima Kovács: West Infirmary gone, was at 1", "resident Rosa Russo is new", "3 lists changed, of 11"])
        self.assertEqual(self.left(), ["out"])

    def test_who_withdrew(self) -> None:
        office("withdraw", self.out, "Kim Lee", "South Hospital", "--out", self.folder / "again")
        self.out = self.folder / "again"
        residents = RESIDENTS.replace("Applicant,", "Applicant,Withdrawn,").replace("\n", "\n", 1)
        rows = residents.splitlines()
        rows[1:] = [row.replace(",", ",yes," if row.startswith("Rosa") else ",,", 1) for row in rows[1:]]
        self.assertEqual(self.told(PROGRAMMES, "\n".join(rows) + "\n"), [
            "programme South Hospital was withdrawn, and is not in the table", "resident Kim Lee was withdrawn, and is not in the table",
            "resident Rosa Rossi withdrew", "0 lists changed, of 11"])

    def test_by_ids(self) -> None:
        """Whoever has an ID is known by it, where the names agree; else one went and another came."""
        programmes = "Programme,ID,Places,1,2\nNorth,a,1,7,8\n"
        self.out = self.run_tables(programmes, "Applicant,ID,1\nAna Lee,7,a\nBo Ray,8,a\n", "ids")
        self.assertEqual(self.told(programmes, "Applicant,ID,1\nLee Ana,7,a\nCem Ok,8,a\n"), [
            "programme North: Cem Ok new at 2, Bo Ray gone, was at 2", "resident Bo Ray is no more in the table", "resident Cem Ok is new",
            "1 list changed, of 3"])

    def test_long_names_are_cut(self) -> None:
        programme, resident = "P" * 90, "R" * 90
        programmes = f"Programme,Places,1\n{programme},1,{resident}\nNorth,1,{resident}\n"
        self.out = self.run_tables(programmes, f"Applicant,1,2\n{resident},North,{programme}\n", "long")
        self.assertEqual(self.told(programmes, f"Applicant,1,2\n{resident},{programme},North\n"), [
            f"resident {'R' * 80}... (90 letters): {'P' * 40}... (90 letters) from 2 to 1", "1 list changed, of 3"])

    def test_by_chance(self) -> None:
        """Of random lists each is told that is another one, with the ranks of before and now, and nobody else has moved."""
        for seed in range(12):
            chance = random.Random(seed)
            before = derived.tables(PROGRAMMES, RESIDENTS)
            now = before._replace(resident_lists={name: chance.sample(list(before.places), chance.randrange(5)) for name in before.resident_lists},
                                  programme_lists={name: chance.sample(list(before.resident_lists), chance.randrange(8)) for name in before.places})
            *lines, last = self.told(*as_tables(now))
            found = {}
            for line in lines:
                owner, _, said = line.partition(": ")
                found[owner] = said
            for what, old, new in (("programme", before.programme_lists, now.programme_lists), ("resident", before.resident_lists, now.resident_lists)):
                for name in old:
                    said = found.pop(f"{what} {name}", "")
                    self.assertEqual(bool(said), old[name] != new[name], (seed, name))
                    moved = [other for other in (before.resident_lists if what == "programme" else before.places) if said and other in said]
                    self.assertTrue(is_least(old[name], new[name], moved), (seed, name, said))
                    for other in moved:
                        was, is_now = (listed.index(other) + 1 if other in listed else 0 for listed in (old[name], new[name]))
                        words = f"from {was} to {is_now}" if was and is_now else f"new at {is_now}" if is_now else f"gone, was at {was}"
                        self.assertTrue(f"{other} {words}" in said, (seed, name, said))
            self.assertEqual(found, {})
            self.assertEqual(last, f"{len(lines)} list{'s' * (len(lines) != 1)} changed, of 11")

    def test_what_is_no_folder_and_no_table(self) -> None:
        for words, status, cause in ((("changes", self.folder / "none", *self.tables()), 1, f"{self.folder / 'none'} is no folder"),
                                     (("changes", self.out, self.tables()[0]), 2, "only one table was given: PROGRAMMES and RESIDENTS are two (office changes "
                                                                                  "--help says more)")):
            said = office(*words)
            self.assertEqual((said.status, said.out, said.err), (status, "", f"office: {cause}\n"))
        said = office("changes", self.out, *self.tables(PROGRAMMES, RESIDENTS.replace("East Ward,North", "Est Ward,North")))
        self.assertEqual((said.status, said.out), (3, ""))
        self.assertIn("office: residents, row 4, cell 2 (B4): no programme is named Est Ward\n", said.err)
