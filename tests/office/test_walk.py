"""The walk of docs/office.md in English and in German: from two workbooks to letters to print, a folder that is verified, and a second round.

What each step has to say and to write is derived from the tables alone."""
import csv
import io
import re
from pathlib import Path
from typing import Dict, List

import derived
import planted
from spoken import LANGUAGES, headed
from support import SAMPLES, OfficeTest, office
from test_page import Tree
from test_rounds import cells, everywhere, table

WORDS = {
    "en": {"headings": "", "spoken": "English", "matched": "You are matched with {}, the {} of the {} on your list.", "second": ["Applicant", "Rank 1"],
           "results": ["Resident", "Standing", "Programme", "Choice", "Round"], "nth": derived.nth,
           "filled": lambda filled, places: f"{filled} of your {places} places are filled."},
    "de": {"headings": "headings in German, ", "spoken": "German", "matched": "Sie haben einen Platz: {}. Auf Ihrer Liste ist das die {} Wahl von {}.",
           "second": ["Bewerber/in", "Rang 1"], "results": ["Person", "Status", "Programm", "Choice", "Runde"], "nth": lambda number: f"{number}.",
           "filled": lambda filled, places: f"Besetzt {'ist' if filled == 1 else 'sind'} {filled} von {places} Plätzen."},
}


def rows_of(name: str) -> List[List[str]]:
    text = (SAMPLES / f"{name}.csv").read_text(encoding="utf-8-sig")
    return list(csv.reader(io.StringIO(text), delimiter=";" if ";" in text.split("\n")[0] else ","))


class Walk(OfficeTest):
    def walk(self, language: str) -> None:
        words = WORDS[language]
        programmes, residents = rows_of("programmes"), rows_of("residents")
        given = derived.match(derived.tables(*(self.as_text(rows) for rows in (programmes, residents))))
        files = [self.write(f"{name}.xlsx", planted.book(rows)) for name, rows in
                 zip(("programmes", "residents"), headed(LANGUAGES[words["spoken"]], programmes, residents))]
        at = self.folder
        read = [f"{name}: {path}, .xlsx, sheet Table, {words['headings']}a row for each {name[:-1]}; {count}" for name, path, count in zip(
            ("programmes", "residents"), files, (f"{len(given.places)} programmes, {sum(given.places.values())} places", f"{len(given.match)} residents"))]
        self.step(["check", *files], [*read, "no fault"])
        placed = [name for name, where in given.match.items() if where]
        back = [name for name in given.match if name not in placed and given.ranked_back(name)]
        left = sum(places - len(given.members(programme)) for programme, places in given.places.items())
        counts = f"{len(placed)} of {len(given.match)} residents matched, {len(back)} lost out, {len(given.match) - len(placed) - len(back)} ranked back by nobody"
        self.step(["run", *files, "--out", at / "first", "--date", "2026-03-20", "--language", language],
                  [*read, f"{counts}; {left} of {sum(given.places.values())} places unfilled", f"audit: stable; replay: good; written to {at / 'first'}"])
        self.letters(at / "first", given, words)
        done = self.step(["verify", at / "first", "--tables", *files])
        self.assertIn("the result, the journal of ", done[-1])
        self.assertNotIn("not checked", done[-1])
        free = {programme: places - len(given.members(programme)) for programme, places in given.places.items() if places > len(given.members(programme))}
        still = [name for name in given.match if name not in placed]
        self.step(["next", at / "first", "--out", at / "next"],
                  [f"{len(free)} programmes with free places, {len(still)} unmatched residents; written to {at / 'next'}"])
        self.second(at, given, free, still, words)

    def step(self, line: List[object], wanted: "List[str] | None" = None) -> List[str]:
        said = office(*line)
        self.assertEqual((said.status, said.err), (0, ""), (line, said))
        if wanted is not None:
            self.assertEqual(said.out.splitlines(), wanted)
        return said.out.splitlines()

    @staticmethod
    def as_text(rows: List[List[str]]) -> str:
        text = io.StringIO()
        csv.writer(text).writerows(rows)
        return text.getvalue()

    def letters(self, out: Path, given: derived.Derived, words: Dict) -> None:
        """A letter for each resident and each programme, and a sheet for each on the pages to print, with who it is for and what it says."""
        for page, names in (("letters.html", given.match), ("rosters.html", given.places)):
            text = (out / page).read_text(encoding="utf-8")
            self.assertRegex(text, r"article \+ article \{ break-before: page; \}")
            articles = {article.attributes["aria-label"]: " ".join(article.text().split()) for article in Tree(text).root.all("article")}
            self.assertEqual(set(articles), set(names))
            for name, said in articles.items():
                if page == "letters.html" and given.match[name]:
                    self.assertIn(words["matched"].format(given.match[name], words["nth"](given.choice(name)), len(given.resident_lists[name])), said)
                if page == "rosters.html":
                    self.assertIn(words["filled"](len(given.members(name)), given.places[name]), said)
                    self.assertEqual([resident for resident in given.match if resident in said], [resident for resident in given.match if given.match[resident] == name])
        self.assertEqual(len(list((out / "letters").iterdir())), len(given.match))
        self.assertEqual(len(list((out / "rosters").glob("*.txt"))), len(given.places))

    def second(self, at: Path, given: derived.Derived, free: Dict[str, int], still: List[str], words: Dict) -> None:
        """The tables of the second round are filled in, matched, and verified over both rounds; and what changed in the tables since is told."""
        first, second = cells(at / "next" / "programmes.xlsx"), cells(at / "next" / "residents.xlsx")
        self.assertEqual([row[:2] for row in first[1:]], [[name, str(places)] for name, places in free.items()])
        self.assertEqual([row[0] for row in second], [words["second"][0], *still])
        self.assertEqual(second[0][1], words["second"][1])
        for number, row in enumerate(first[1:]):
            row += still[number:number + 6]
        for number, row in enumerate(second[1:]):
            row += list(free)[::-1 if number % 2 else 1]
        made = derived.match(derived.Derived(free, {row[0]: row[2:] for row in first[1:]}, {row[0]: row[1:] for row in second[1:]}, {}))
        files = [self.write("p.xlsx", planted.book(first)), self.write("r.xlsx", planted.book(second))]
        where = everywhere(given, made)
        placed = [name for name, placed_at in where.items() if placed_at[0]]
        told = self.step(["run", *files, "--after", at / "first", "--out", at / "second", "--date", "2026-04-20", "--language", "en" if words is WORDS["en"] else "de"])
        self.assertEqual(told[-2:], [f"after all rounds {len(placed)} of {len(where)} residents have a place", f"audit: stable; replay: good; written to {at / 'second'}"])
        heading, *rows = table(at / "second" / "results.csv")
        self.assertEqual([re.sub("^Wahl$", "Choice", cell) for cell in heading], words["results"])
        self.assertEqual({row[0]: row[2:] for row in rows}, where)
        done = self.step(["verify", at / "second", "--after", at / "first", "--tables", *files])
        self.assertNotIn("not checked", done[-1])
        self.step(["changes", at / "second", *files], [f"0 lists changed, of {len(free) + len(still)}"])

    def test_in_english(self) -> None:
        self.walk("en")

    def test_in_german(self) -> None:
        self.walk("de")
