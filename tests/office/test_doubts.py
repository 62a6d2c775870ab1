"""What a table leaves in doubt is told, with each person: mistakes at random places, and what has to be said, derived from the mistake."""
import csv
import io
import random
import unicodedata
from typing import Dict, List, Sequence

import planted
from residency.office import sentences, steps
from residency.office.faults import Cell, Fault
from residency.office.settings import Settings
from support import OfficeTest, office

Rows = List[List[str]]


def given(rows: Rows, chance: random.Random) -> steps.Given:
    """A table of these cells as CSV, in one of five sets that are found, parted by one of four signs."""
    mark, text = chance.choice(",;\t|"), io.StringIO()
    csv.writer(text, delimiter=mark).writerows(rows)
    whole = text.getvalue()
    sets = ["utf-8", "utf-8-sig", "utf-16"] + [encoding for encoding in ("cp1252", "ascii") if encodes(whole, encoding) and not whole.isascii() == (encoding == "cp1252")]
    return steps.Given("table", whole.encode(chance.choice(sets[:3])))


def encodes(text: str, encoding: str) -> bool:
    try:
        text.encode(encoding)
        return True
    except UnicodeError:
        return False


def cells_of(rows: Rows, table: str, names: Sequence[str]) -> List[Cell]:
    """Where these names stand below the heading, by row; of a member's own name where it stands first."""
    firsts = [text[0] for text in rows]
    return [Cell(table, row, cell) for row, texts in enumerate(rows, 1) if row > 1 for cell, text in enumerate(texts, 1)
            if text in names and (cell > 1 or firsts.index(text) == row - 1)]


def chance_pair(seed: int) -> planted.Pair:
    return (planted.wide, planted.long, planted.with_ids)[seed % 3]()


class Doubts(OfficeTest):
    """Each test plants mistakes of one class by a few seeds."""

    SEEDS = range(12)

    def pairs(self):
        for seed in self.SEEDS:
            chance = random.Random(seed)
            yield chance, chance.choice((planted.wide, planted.long, planted.with_ids))()

    def checked(self, chance: random.Random, pair: planted.Pair, settings: Settings = Settings()) -> steps.Read:
        return steps.check(given(pair.programmes, chance), given(pair.residents, chance), settings)

    def named(self, read: steps.Read, code: str) -> Dict[str, Fault]:
        return {fault.table: fault for fault in read.faults.every() if fault.code == code}

    def replaced(self, pair: planted.Pair, said: Dict[str, str]) -> None:
        for rows in (pair.programmes, pair.residents):
            for row in rows[1:]:
                row[:] = [said.get(text, text) for text in row]

    def test_whole_tables(self) -> None:
        for chance, pair in self.pairs():
            self.assertEqual(sentences.report(self.checked(chance, pair).faults), [])

    def test_lost_letters(self) -> None:
        """A letter of some names is lost in both tables, at any place of a word, and signs beside blanks are no letters."""
        for chance, pair in self.pairs():
            lost: Dict[str, str] = {}
            for name in chance.sample([planted.person(number) for number in range(planted.RESIDENTS)], chance.randint(1, 60)):
                at = chance.choice([at for at, letter in enumerate(name) if letter.isalpha()])
                lost[name] = name[:at] + chance.choice("?\ufffd") + name[at + 1:]
            self.replaced(pair, {**lost, planted.person(7): lost.get(planted.person(7), planted.person(7)), planted.PROGRAMMES[0]: "Who ? Clinic"})
            told = self.named(self.checked(chance, pair), "row.lost-letters")
            self.assertEqual(set(told), {"programmes", "residents"})
            for table, rows in (("programmes", pair.programmes), ("residents", pair.residents)):
                fault, cells = told[table], cells_of(rows, table, list(lost.values()))
                names = list(dict.fromkeys(rows[cell.row - 1][cell.column - 1] for cell in cells))
                self.assertEqual((fault.cells, fault.values), (cells, {"count": len(names), "names": names[:3]}))
                self.assertEqual(sentences.cause(fault), f"{len(names)} name{'s' * (len(names) > 1)} lost letters where ? or \ufffd stands, as "
                                 f"{', '.join(names[:3])}; save the table anew as UTF-8 or .xlsx (--allow-lost-letters takes them)")
            self.assertIsNotNone(self.checked(chance, pair, Settings(allow_lost_letters=True)).market)

    def test_some_ids(self) -> None:
        """Some of the residents have no ID: that is the one fault, whatever the lists have. A column without any says nothing."""
        for seed in self.SEEDS:
            chance, pair = random.Random(seed), planted.with_ids()
            count = chance.choice((1, 2, 30, 399))
            rows = sorted(chance.sample(range(2, 402), count))
            # Lists may have the very IDs that the table lacks.
            if chance.random() < 0.5:
                self.replaced(planted.Pair(pair.programmes, []), {row[0]: row[1] for row in pair.residents[1:]})
            for row in rows:
                pair.residents[row - 1][1] = ""
            (fault,) = self.checked(chance, pair).faults.every()
            self.assertEqual((fault.code, fault.cells), ("file.some-ids", [Cell("residents", row, 2) for row in rows]))
            who = f"{count} of 400 residents have" if count > 1 else f"{pair.residents[rows[0] - 1][0]} has"
            self.assertEqual(sentences.cause(fault), f"{who} no ID; every row needs one once one has it")
        pair = planted.with_ids()
        for row in pair.residents[1:]:
            row[1] = ""
        self.assertIsNotNone(self.checked(random.Random(0), pair).market)

    def test_rows_of_totals(self) -> None:
        """In each language, with a number or what was counted beside the word, anywhere below the heading."""
        words = ("Total", "Totals:", "Grand total", "Insgesamt", "SUMME", "Gesamt", "Summe Plätze", "Total général", "Totaux", "Total des places",
                 "Sous-total", "Totales", "Suma", "Total de plazas", "Totale", "Totale generale", "Totale posti", "Ogółem", "OGÓŁEM", "Razem", "Łącznie",
                 "Suma miejsc", "Toplam", "TOPLAM", "Genel toplam", "Total: 33", "Insgesamt = 360", "Razem 360")
        for seed, word in enumerate(words):
            chance, pair = random.Random(seed), chance_pair(seed)
            table, rows = chance.choice((("programmes", pair.programmes), ("residents", pair.residents)))
            row = chance.choice((len(rows), 1 + chance.randrange(len(rows))))
            rows.insert(row, [word, *[""] * (len(rows[0]) - 1)])
            faults = self.checked(chance, pair, Settings(allow_short=True)).faults.every()
            found = [(fault.code, fault.row, fault.column, sentences.cause(fault)) for fault in faults]
            self.assertEqual(found, [("row.total", row + 1, 1, f"{word} is no {table[:-1]}; leave the row out")], word)
        for word in ("Total Care Hospital", "All Saints", "Suma Medica", "Summer Field"):
            pair = planted.wide()
            self.replaced(pair, {planted.PROGRAMMES[0]: word})
            self.assertEqual(sentences.report(self.checked(random.Random(1), pair).faults), [], word)

    def test_alike_names(self) -> None:
        """One person under two spellings: a row of one's own for each, in capitals, with blanks, without accents. IDs make them two."""
        spelt = (str.upper, str.lower, lambda name: name.replace(" ", ""), lambda name: "".join(
            c for c in unicodedata.normalize("NFKD", name) if not unicodedata.combining(c)))
        for seed in range(24):
            chance, pair = random.Random(seed), planted.wide()
            number = chance.randrange(planted.RESIDENTS)
            name = planted.person(number)
            other = spelt[seed % 4](name)
            if other == name:
                continue
            row = 1 + chance.randrange(len(pair.residents))
            pair.residents.insert(row, [other, *pair.residents[1][1:]])
            names = [text[0] for text in pair.residents]
            first, second = sorted((names.index(name) + 1, names.index(other) + 1))
            (fault,) = [found for found in self.checked(chance, pair).faults.every() if found.kind != "row"]
            self.assertEqual((fault.code, fault.row, fault.column), ("name.alike", second, 1))
            self.assertEqual(sentences.cause(fault), f"{names[second - 1]} is {names[first - 1]} in row {first} but for capitals, blanks or accents; "
                             "if these are two, a column headed ID tells them apart (or --allow-alike)")
            self.assertIsNotNone(self.checked(chance, pair, Settings(allow_alike=True, allow_alone=True)).market)
            with_ids = [[text[0], str(place), *text[1:]] for place, text in enumerate(pair.residents)]
            with_ids[0][1] = "ID"
            whole = steps.check(given(pair.programmes, chance), given(with_ids, chance), Settings(allow_alone=True))
            self.assertEqual(sentences.report(whole.faults), [])

    def test_empty_lists(self) -> None:
        """Who ranks nobody though others rank them is told by name, those whom most rank first; and those whom nobody ranks are not."""
        for seed in self.SEEDS:
            chance, pair = random.Random(seed), planted.wide()
            side, rows, others = chance.choice((("resident", pair.residents, pair.programmes), ("programme", pair.programmes, pair.residents)))
            gone = sorted(chance.sample(range(1, len(rows)), chance.randint(1, 8)))
            begin = 1 if side == "resident" else 2
            for row in gone:
                rows[row][begin:] = [""] * (len(rows[row]) - begin)
            counts = {rows[row][0]: sum(text[begin - 1 or 2:].count(rows[row][0]) if side == "resident" else text[1:].count(rows[row][0])
                                        for text in others[1:]) for row in gone}
            ordered = sorted(gone, key=lambda row: -counts[rows[row][0]])
            notes = {(note.code, note.table): note for note in self.checked(chance, pair).notes()}
            note = notes["note.empty", f"{side}s"]
            self.assertEqual(note.cells, [Cell(f"{side}s", row + 1, 1) for row in ordered])
            told = ", ".join(f"{rows[row][0]} (by {counts[rows[row][0]]})" for row in ordered[:5])
            more = f" and {len(gone) - 5} more" if len(gone) > 5 else ""
            self.assertEqual(sentences.cause(note), f"{len(gone)} {side}{'s' * (len(gone) > 1)} with an empty list whom others rank: {told}{more}")
            self.assertEqual([key for key in notes if key[0] == "note.empty"], [("note.empty", f"{side}s")])


class Mails(OfficeTest):
    """Forty residents with their addresses, of whom one column of names was sorted alone: nobody becomes unknown, since lists have IDs."""

    def rows(self, chance: random.Random, is_parted: bool) -> List[List[str]]:
        people = [planted.person(number) for number in chance.sample(range(planted.RESIDENTS), 40)]
        heading = ["ID", *(["First name", "Last name"] if is_parted else ["Applicant"]), "E-mail", "1"]
        return [heading, *([str(5000 + number), *(name.split(" ", 1) if is_parted else [name]), self.mail(name), "North"] for number, name in enumerate(people))]

    @staticmethod
    def mail(name: str) -> str:
        plain = "".join(c for c in unicodedata.normalize("NFKD", name.casefold()) if not unicodedata.combining(c))
        return ".".join("".join(c if c.isalnum() else " " for c in plain).split()) + "@example.org"

    def told(self, rows: Rows, *options: str) -> List[str]:
        texts = [io.StringIO(), io.StringIO()]
        csv.writer(texts[0]).writerows([["Programme", "Places", *map(str, range(1, len(rows)))], ["North", "2", *(row[0] for row in rows[1:])]])
        csv.writer(texts[1]).writerows(rows)
        said = office("check", *self.tables(*(text.getvalue() for text in texts)), *options)
        self.assertEqual(said.err, "")
        return said.out.splitlines()

    def test_a_column_that_was_sorted_alone(self) -> None:
        for seed in range(6):
            chance, is_parted = random.Random(seed), seed % 2 == 0
            rows = self.rows(chance, is_parted)
            self.assertEqual(self.told(rows)[-1], "no fault")
            at = chance.choice([1, 2]) if is_parted else 1
            for row, text in zip(rows[1:], sorted(row[at] for row in rows[1:])):
                row[at] = text
            # Whoever has an address of words that are all their own wasn't moved, or is beside one who has the same.
            words = [set(self.mail(" ".join(row[1:-2])).partition("@")[0].split(".")) for row in rows[1:]]
            every = set().union(*words)
            wrong = [number for number, (row, own) in enumerate(zip(rows[1:], words), 2) if set(row[-2].partition("@")[0].split(".")) & every - own]
            self.assertGreater(len(wrong), 20)
            name, more = " ".join(rows[wrong[0] - 1][1:-2]), len(wrong) - 4
            fault = (f"residents, row {wrong[0]}, cell 2 (B{wrong[0]}): {len(wrong)} e-mail addresses have a word of another resident's name, as "
                     f"{rows[wrong[0] - 1][-2]} beside {name}: was one column sorted alone? (--ignore leaves the column of addresses out) (also in "
                     f"{', '.join(f'B{number}' for number in wrong[1:4])} and {more} more cells)")
            self.assertEqual(self.told(rows)[2:], [fault, "1 fault in the tables"], seed)
            self.assertIn(fault, self.told(rows, "--keep", "E-mail"))
            self.assertEqual(self.told(rows, "--ignore", "E-mail")[-1], "no fault")

    def test_addresses_that_say_nothing(self) -> None:
        """Those of an office or of nobody, a few of relatives, and those of nine alone."""
        rows = self.rows(random.Random(1), False)
        names = [row[1] for row in rows[1:]]
        for mails in ([f"office{number}@x.org" for number in range(40)], ["" for _ in names], [self.mail(names[number - number % 3]) if number < 27 else self.mail(name)
                                                                                            for number, name in enumerate(names)],
                      [self.mail(names[number - 1]) if number < 9 else "" for number in range(40)]):
            for row, mail in zip(rows[1:], mails):
                row[2] = mail
            self.assertEqual(self.told(rows)[-1], "no fault", mails[:4])
