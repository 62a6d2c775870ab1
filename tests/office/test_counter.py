"""The counter: what became of each choice of a resident, from a folder alone, by hand and by a derivation from the tables."""
import stat
from typing import List

import derived
from support import PROGRAMMES, RESIDENTS, OfficeTest, office


def said_of(resident: str, gone: List[str]) -> List[str]:
    """The answer at the counter, from the tables alone."""
    made = derived.match(derived.tables(PROGRAMMES, RESIDENTS), gone)
    listed, where = made.resident_lists[resident], made.match[resident]
    mine = listed.index(where) + 1 if where else len(listed) + 1
    rows = []
    for choice, programme in enumerate(listed, 1):
        ranked = made.programme_lists[programme]
        if resident in gone:
            said = "you withdrew from the match"
        elif programme in gone:
            said = "it withdrew from the match"
        elif choice == mine:
            said = "you are matched here"
        elif choice > mine:
            said = "not needed, since you have one that you would rather have"
        elif resident not in ranked:
            said = "it did not rank you"
        else:
            places, last = made.places[programme], made.rank(made.members(programme)[-1])
            said = (f"it ranks you {derived.nth(ranked.index(resident) + 1)}; its {places} {'place' if places == 1 else 'places'} went to "
                    f"residents whom it ranks before you, the last of them {derived.nth(last)}")
        rows.append(f"{choice}. {programme}: {said}")
    return rows


class Counter(OfficeTest):
    def setUp(self) -> None:
        super().setUp()
        self.out = self.run_tables()

    def told(self, *words: object) -> List[str]:
        said = office("why", *map(str, words))
        self.assertEqual((said.status, said.err), (0, ""))
        return said.out.splitlines()

    def test_by_hand(self) -> None:
        self.assertEqual(self.told(self.out, "Haddad, Omar"), [
            "Omar Haddad",
            "We are sorry that you are not matched. Both programmes on your list filled all of their places with residents whom they rank before you.",
            "1. East Ward: it ranks you 2nd; its 1 place went to residents whom it ranks before you, the last of them 1st",
            "2. South Hospital: it ranks you 3rd; its 1 place went to residents whom it ranks before you, the last of them 2nd"])
        self.assertEqual(self.told(self.out, "zoe-bronte", "West Infirmary"), [
            "Zoë Brontë", "You are matched with East Ward, the 1st of the 2 on your list.", "West Infirmary: it is not on your list"])
        self.assertEqual(self.told(self.out, "Rosa Rossi"), ["Rosa Rossi", "You are not matched, since your list is empty."])
        for words, cause in ((("Omar Hadad",), "no resident is named Omar Hadad; is it Omar Haddad?"), (("East Ward",), "no resident is named East Ward"),
                             (("Omar Haddad", "Est Ward"), "Est Ward")):
            said = office("why", self.out, *words)
            self.assertEqual((said.status, said.out), (3, ""))
            self.assertIn(cause, said.err)

    def test_each_choice(self) -> None:
        """Of all residents, before and after a resident and a programme withdrew."""
        office("withdraw", self.out, "Kim Lee", "South Hospital", "--out", self.folder / "again")
        for folder, gone in (("out", []), ("again", ["Kim Lee", "South Hospital"])):
            for resident in derived.tables(PROGRAMMES, RESIDENTS).resident_lists:
                self.assertEqual(self.told(self.folder / folder, resident)[2:], said_of(resident, gone), (folder, resident))

    def test_in_the_folders_language(self) -> None:
        """In the folder's language, whatever the resident's own is; an ID tells two of one name apart; a file is for its owner alone."""
        residents = "Applicant,ID,Sprache,1,2\nAna,7,,North,\nAna,8,fr,North,\nBo,9,,,\n"
        out = self.run_tables("Programme,Places,1,2,3\nNorth,1,7,8,9\nSouth,0,,,\n", residents, "de", "--language", "de", "--language-column", "Sprache")
        said = office("why", out, "Ana")
        self.assertEqual((said.status, said.out), (3, ""))
        self.assertEqual(self.told(out, "8"), [
            "Ana (8)", "Es tut uns leid, dass Sie keinen Platz bekommen haben. Das Programm auf Ihrer Liste hat alle Plätze an Personen gegeben, die dort vor Ihnen stehen.",
            "1. North: führt Sie an 2. Stelle; der Platz ging an eine Person vor Ihnen (Plätze: 1, letzter Rang: 1.)"])
        path = self.folder / "answer.txt"
        self.assertEqual(self.told(out, "7", "--out", path), [f"written to {path}"])
        self.assertEqual(path.read_text(encoding="utf-8"), "Ana (7)\nSie haben einen Platz: North. Auf Ihrer Liste ist das die 1. Wahl von 1.\n"
                                                           "1. North: hier haben Sie einen Platz\n")
        self.assertEqual(stat.S_IMODE(path.stat().st_mode), 0o600)
        self.assertEqual(office("why", out, "7", "--out", path).status, 2)
