"""Markets in the caller's names: from dictionaries, tables and dockets; what the program answers; and why."""
import math
import os
import random
import tempfile
import unittest
from dataclasses import FrozenInstanceError
from pathlib import Path
from unittest import mock

import made
import residency
from residency import (Audit, DocketFault, KeyFault, Market, MarketFault, Member, Names, Replay, UnknownStatus, Why, find_program,
                       read_key,
                       write_key)
from residency.errors import ProgramMissing

# Two programmes and three residents: a has 2 places and b one; x would rather have b. By the rules b takes x, and a, which
# had offered x a place as well, takes y and z.
RESIDENTS = {"Zoë Weiß": ["Łódź, East", "=Köln"], "Anna (1)": ["=Köln"], "王芳": ["=Köln"]}
PROGRAMMES = {"=Köln": ["Zoë Weiß", "Anna (1)", "王芳"], "Łódź, East": ["Zoë Weiß"]}
PLACES = {"=Köln": 2, "Łódź, East": 1}
MATCHED = {"Zoë Weiß": "Łódź, East", "Anna (1)": "=Köln", "王芳": "=Köln"}


def market():
    return Market.from_dictionaries(RESIDENTS, PROGRAMMES, PLACES)


class Building(unittest.TestCase):
    def test_dictionaries(self):
        one = market()
        self.assertEqual(one.docket().decode(), "Q,koln,2\nQ,lodz-east,1\nP,koln,zoe-weiss,anna-1,u738b82b3\nP,lodz-east,zoe-weiss\n"
                         "R,zoe-weiss,lodz-east,koln\nR,anna-1,koln\nR,u738b82b3,koln\n")
        self.assertEqual((one.quotas, one.programme_lists["=Köln"], one.resident_lists["王芳"]),
                         (PLACES, tuple(PROGRAMMES["=Köln"]), ("=Köln",)))
        self.assertEqual(one.names.name("R", "u738b82b3"), "王芳")

    def test_numbers_of_a_data_frame(self):
        class Number:
            """A whole number as data frames have them, which is no int."""

            def __index__(self):
                return 2

            def item(self):
                return 2

        self.assertEqual(Market({"A": Number()}, {}, {}).docket(), b"Q,a,2\n")
        self.assertEqual(Market.from_tables([("A", Number(), Number())], [(Number(), "A")]).docket(), b"Q,a,2\nP,a,2\nR,2,a\n")

    def test_dictionaries_at_fault(self):
        with self.assertRaises(MarketFault) as caught:
            Market.from_dictionaries({"Kim": ["Nort", "South", "South"], "": [], "Lee": "North", 7.5: [], "Ann": [None]},
                                     {"Nrth": ["Kim"], "South": ["Kin"]},
                                     {"North": 10001, "South": True, "East": "2", "West": -1}, ["West", "Wesst"], "Kim")
        self.assertEqual(list(caught.exception.faults), [
            "a resident is called '', which is no name", "a resident is called 7.5, which is no name",
            "programme North: 10001 is no number of places from 0 to 10000",
            "programme South: True is no number of places from 0 to 10000",
            "programme East: 2 is no number of places from 0 to 10000",
            "programme West: -1 is no number of places from 0 to 10000",
            "programme Nrth has no places; is it North?", "programme South, choice 1: no resident is named Kin",
            "resident Kim, choice 1: no programme is named Nort; is it North?", "resident Kim, choice 3: South is listed twice",
            "resident Lee: a text is no list", "resident Ann, choice 1: no programme is named None",
            "withdrawn: no programme is named Wesst; is it West?",
            "the withdrawn residents: a text is no list"])
        self.assertIsInstance(caught.exception, ValueError)
        with self.assertRaises(MarketFault) as caught:
            Market({"None": 1}, {}, {"Kim": [None, "None", ["None"], "None"]})
        self.assertEqual(list(caught.exception.faults), [
            "resident Kim, choice 1: no programme is named None", "resident Kim, choice 3: no programme is named ['None']",
            "resident Kim, choice 4: None is listed twice"])

    def test_many_faults_are_shown_in_part(self):
        with self.assertRaises(MarketFault) as caught:
            Market.from_dictionaries({"Kim": [f"\x1b{number}" for number in range(50)]}, {}, {})
        self.assertEqual(len(caught.exception.faults), 50)
        lines = str(caught.exception).split("\n")
        self.assertEqual((len(lines), lines[20]), (21, "and 30 more"))
        self.assertTrue(all(line.isprintable() for line in lines))

    def test_limits(self):
        many = [str(number) for number in range(20001)]
        with self.assertRaisesRegex(MarketFault, "^2001 programmes, of at most 2000\n20001 residents, of at most 20000$"):
            Market.from_dictionaries({name: [] for name in many}, {}, {name: 1 for name in many[:2001]})
        some = many[:448]
        everybody = {name: some for name in some}
        with self.assertRaisesRegex(MarketFault, "^200704 acceptable pairs, of at most 200000$"):
            Market(dict.fromkeys(some, 1), everybody, everybody)
        Market(dict.fromkeys(some, 1), everybody, everybody, some[:1], some[:1])
        # 400 times 500 pairs are as many as may be.
        Market(dict.fromkeys(many[:400], 1), {name: many[:500] for name in many[:400]}, {name: many[:400] for name in many[:500]})
        with self.assertRaisesRegex(MarketFault, "^200001 acceptable pairs, of at most 200000$"):
            Market(dict.fromkeys(many[:401], 1), {**{name: many[:500] for name in many[:400]}, "400": ["7"]},
                   {name: many[:400] + ["400"] * (name == "7") for name in many[:500]})

    def test_wide_tables(self):
        nan = math.nan
        one = Market.from_tables([("=Köln", 2, " Zoë  Weiß", "Anna (1)", "王芳"), (None, nan),
                                  ["Łódź, East", "01", "Zoe\u0308 Weiß", nan]],
                                 [("Zoë Weiß", "Łódź, East", "", "=Köln"), ("Anna (1)", "=Köln", None), ("王芳", "=Köln")])
        self.assertEqual(one.docket(), market().docket())

    def test_ids(self):
        rows = [("Kim", 7, "North"), ("Kim", 8.0, "P2"), ("Lee", "9", "North")]
        one = Market.from_tables([("North", "P1", 1, 8, "Kim (7)", "Lee"), ("South", "P2", 1, "7")], rows, programme_ids=True,
                                 resident_ids=True)
        self.assertEqual(one.programme_lists, {"North": ("Kim (8)", "Kim (7)", "Lee"), "South": ("Kim (7)",)})
        self.assertEqual(one.resident_lists, {"Kim (7)": ("North",), "Kim (8)": ("South",), "Lee": ("North",)})
        self.assertEqual([one.names.id("R", member.docket_name) for member in one.names.members("R")], ["7", "8", "9"])
        with self.assertRaises(MarketFault) as caught:
            Market.from_tables([("North", 1, "Kim")], rows + [("Kim", 7, "North"), ("Kim", "", "North"), ("Ann", 9)],
                               resident_ids=True)
        self.assertEqual(list(caught.exception.faults),
                         ["residents, row 4, cell 1: Kim has a row before",
                          "residents, row 5, cell 1: Kim has a row before, and has no ID here",
                         "residents, row 6, cell 1: the ID 9 has a row before",
                          "programmes, row 1, cell 3: 2 residents are named Kim: name one by its ID (7, 8)",
                         "residents, row 2, cell 3: no programme is named P2"])

    def test_wide_tables_at_fault(self):
        with self.assertRaises(MarketFault) as caught:
            Market.from_tables([("A", "x", "Kim", "", "Kim"), ("A", 10001), ("", 1, "Kmi"), ("B", "9" * 5000), ("C",), ("D", 1.5),
                                ("E", True)], [("Kim", "A", "Bb"), ("Kim",)])
        self.assertEqual(list(caught.exception.faults), [
            "programmes, row 1, cell 2: x is no number of places from 0 to 10000",
            "programmes, row 2, cell 2: 10001 is no number of places from 0 to 10000",
            "programmes, row 2, cell 1: A has a row before", "programmes, row 3, cell 1: no name",
            f"programmes, row 4, cell 2: {'9' * 60}… is no number of places from 0 to 10000",
            "programmes, row 5, cell 2: programme C has no places",
            "programmes, row 6, cell 2: 1.5 is neither text nor a whole number",
            "programmes, row 7, cell 2: True is neither text nor a whole number",
            "residents, row 2, cell 1: Kim has a row before", "programmes, row 1, cell 5: Kim is listed twice",
            "programmes, row 3, cell 3: no resident is named Kmi", "residents, row 1, cell 3: no programme is named Bb"])

    def test_long_tables(self):
        places = [("=Köln", 2), ("Łódź, East", 1)]
        programme_ranks = [("=Köln", 3, "王芳"), ("Łódź, East", 1, "Zoë Weiß"), ("=Köln", 1, "Zoë Weiß"),
                           ("=Köln", 2.0, "Anna (1)")]
        resident_ranks = [("Zoë Weiß", 20, "=Köln"), ("Anna (1)", 1, "=Köln"), ("王芳", 1, "=Köln"), ("Zoë Weiß", 10, "Łódź, East")]
        self.assertEqual(Market.from_ranks(places, programme_ranks, resident_ranks, allow_gaps=True).docket(), market().docket())
        with self.assertRaises(MarketFault) as caught:
            Market.from_ranks(places, [row for row in programme_ranks if row[1] != 2.0], [*resident_ranks, ("Anna (1)", "x", "Łódź, East")])
        self.assertEqual(list(caught.exception.faults), [
            "programme ranks: =Köln has no rank 2; is a row lost? allow_gaps=True takes the ranks in their order",
            "resident ranks, row 5, cell 2: x is no rank",
            "resident ranks: Zoë Weiß has no rank 1; is a row lost? allow_gaps=True takes the ranks in their order"])
        one = Market.from_ranks(places, [("=Köln", 1, 7)], [(7, 1, "=Köln")], [("Kim", 8), ("Kim", 7)])
        self.assertEqual(one.resident_lists, {"Kim (8)": (), "Kim (7)": ("=Köln",)})

    def test_long_tables_at_fault(self):
        with self.assertRaises(MarketFault) as caught:
            Market.from_ranks([("A", 1), ("B", 2), ("A", 1)],
                              [("A", 1, "Kim"), ("A", 1, "Lee"), ("C", 1, "Kim"), ("B", "x", "Kim"), ("B", 1, "Ann")],
                              [("Kim", 1, "A"), ("Kim", 2, "A"), ("Lee", "", "B"), ("Joe", 1, "A"), ("Lee", -1, "B"), ("Lee", 1)],
                              ["Kim", "Lee"])
        self.assertEqual(list(caught.exception.faults), [
            "places, row 3, cell 1: A has a row before", "programme ranks, row 2, cell 2: A has two of rank 1",
            "programme ranks, row 3, cell 1: no programme is named C",
            "programme ranks, row 4, cell 2: x is no rank", "programme ranks, row 5, cell 3: no resident is named Ann",
            "resident ranks, row 2, cell 3: A is listed twice by Kim",
            "resident ranks, row 3, cell 2: B has no rank", "resident ranks, row 4, cell 1: no resident is named Joe",
            "resident ranks, row 5, cell 2: -1 is no rank",
            "resident ranks, row 6, cell 3: nobody stands at rank 1 of Lee"])

    def test_dockets(self):
        one = market().withdraw(["Łódź, East"], ["王芳"])
        again = Market.from_docket(one.docket(), read_key(write_key(one.names)))
        self.assertEqual(again.docket(), one.docket())
        self.assertEqual((again.quotas, again.programme_lists, again.resident_lists),
                         (one.quotas, one.programme_lists, one.resident_lists))
        self.assertEqual((again.withdrawn_programmes, again.withdrawn_residents), (("Łódź, East",), ("王芳",)))
        self.assertEqual(Market.from_docket(one.docket()).withdrawn_residents, ("u738b82b3",))
        with self.assertRaises(DocketFault):
            Market.from_docket(b"Q,a,1\nQ,a,1\n")
        with self.assertRaisesRegex(KeyFault, "the key has no resident zoe-weiss of the docket"):
            Market.from_docket(one.docket(), Names([Member("P", "koln", "K"), Member("P", "lodz-east", "L")]))

    def test_withdrawing(self):
        one = market().withdraw(residents=["Zoë Weiß"])
        self.assertEqual(one.docket(), b"V,2\n" + market().docket() + b"W,R,zoe-weiss\n")
        self.assertEqual(repr(one), "<Market of 2 programmes and 3 residents, 1 withdrawn>")
        self.assertEqual(one.withdraw(["=Köln"]).withdraw(residents=["Zoë Weiß"]).docket(),
                         b"V,2\n" + market().docket() + b"W,P,koln\nW,R,zoe-weiss\n")
        with self.assertRaisesRegex(MarketFault, "withdrawn: no resident is named Zoe; "):
            Market.from_dictionaries({"Zoé": []}, {}, {}).withdraw(residents=["Zoe"])


class Answers(unittest.TestCase):
    def test_match(self):
        match = market().match()
        self.assertEqual(list(match.places.items()), list(MATCHED.items()))
        self.assertEqual((match.filled, match.quotas, match.unmatched), ({"=Köln": 2, "Łódź, East": 1}, PLACES, ()))
        self.assertEqual(match.residents_of("=Köln"), ("Anna (1)", "王芳"))
        self.assertEqual((match.sheet, match.journal),
                         (b"M,zoe-weiss,lodz-east\nM,anna-1,koln\nM,u738b82b3,koln\nF,koln,2,2\nF,lodz-east,1,1\n", b""))
        with self.assertRaises(FrozenInstanceError):
            match.sheet = b""

    def test_match_of_the_withdrawn(self):
        match = market().withdraw(["Łódź, East"]).match()
        self.assertEqual((match.places, match.filled),
                         ({"Zoë Weiß": "=Köln", "Anna (1)": "=Köln", "王芳": None}, {"=Köln": 2, "Łódź, East": 0}))
        self.assertEqual(match.unmatched, ("王芳",))
        self.assertEqual(market().withdraw(residents=["Zoë Weiß"]).match().places,
                         {"Zoë Weiß": None, "Anna (1)": "=Köln", "王芳": "=Köln"})

    def test_match_of_nobody(self):
        match = Market({}, {}, {}).match(workers=1, journal="by worker")
        self.assertEqual((match.places, match.filled, match.sheet, match.journal), ({}, {}, b"", b"C,full,1\nE,close,0\n"))

    def test_options(self):
        one = market()
        for workers, capacity, journal, head in ((1, 1, True, b"C,1\n"), (8, 1024, "by worker", b"C,1024,8\n"),
                                                 (3, None, True, b"C,full\n")):
            match = one.match(workers, capacity, journal)
            self.assertEqual((match.places, match.journal[:len(head)]), (MATCHED, head))
            self.assertTrue(one.replay(match).good)
        for workers, capacity, error in ((9, None, residency.ProgramFailed), (1, 0, residency.ProgramFailed),
                                         (1, 1025, residency.ProgramFailed)):
            with self.assertRaises(error) as caught:
                one.match(workers, capacity)
            self.assertEqual(caught.exception.status, 2)
        with self.assertRaises(ValueError):
            one.match(journal="yes")

    def test_audit(self):
        one = market()
        self.assertEqual(one.audit(one.match()), Audit(True))
        self.assertEqual(residency.audit(one, MATCHED), Audit(True))
        # Zoë is second choice nowhere: with her at Köln she and Łódź would both rather have one another.
        self.assertEqual(one.audit({**MATCHED, "Zoë Weiß": "=Köln"}),
                         Audit(False, (), (("=Köln", 3, 2),), (("Zoë Weiß", "Łódź, East"),)))
        self.assertEqual(one.audit({**MATCHED, "王芳": "Łódź, East"}),
                         Audit(False, (("王芳", "Łódź, East"),), (("Łódź, East", 2, 1),), (("王芳", "=Köln"),)))
        self.assertEqual(one.withdraw(residents=["Anna (1)"]).audit(MATCHED), Audit(False, (("Anna (1)", "=Köln"),)))

    def test_places_at_fault(self):
        with self.assertRaises(MarketFault) as caught:
            market().audit({"Zoë Weiß": "Koln", "Kim": None})
        self.assertEqual(list(caught.exception.faults),
                         ["resident Anna (1) has no place, and no None", "resident 王芳 has no place, and no None",
                         "no resident is named Kim", "resident Zoë Weiß: no programme is named Koln"])

    def test_replay(self):
        one = market()
        match = one.match(2, None, True)
        events = match.journal.count(b"\nE,")
        self.assertEqual(one.replay(match), Replay(True, events))
        self.assertEqual(one.replay(match.journal), Replay(True, events))
        self.assertEqual(one.replay(match, {**MATCHED, "王芳": None}), Replay(False, differs="王芳"))
        by_worker = one.replay(one.match(3, journal="by worker"))
        self.assertEqual((by_worker.good, len(by_worker.by_worker), sum(by_worker.by_worker)), (True, 3, by_worker.events))
        for journal, answer in ((b"C,full\n", Replay(False, place=1, word="not-closed")),
                                (b"C,full\nE,close\n", Replay(False, place=1, word="still-pending", pending="wish", at="=Köln")),
                                (b"C,full\nE,offer,koln,u738b82b3\n", Replay(False, place=1, word="not-next")),
                                (b"C,full\nE,offer,koln,zoe-weiss\nE,close\n",
                                 Replay(False, place=2, word="still-pending", pending="offers", at="Zoë Weiß"))):
            self.assertEqual(one.replay(journal), answer)
        for journal, record, text in ((one.match(), 0, "no journal in the docket"), (b"E,close\n", 8, "bad journal row"),
                                      (b"C,full\nE,offer,koln,kim\n", 9, "unknown name")):
            with self.assertRaises(DocketFault) as caught:
                one.replay(journal)
            self.assertEqual((caught.exception.record, caught.exception.text), (record, text))
        self.assertEqual(caught.exception.name, "kim")

    def test_saved_sheets(self):
        one = market()
        match = one.match(journal=True)
        self.assertEqual(one.read_match(match.sheet, match.journal), match)
        # Without a sheet, with one of other members, and with one row twice.
        for sheet, text in ((b"", "no sheet in the docket"), (b"M,kim,koln\n", "unknown name"), (match.sheet * 2, "bad sheet"),
                            (match.sheet[:-2] + b"2\n", "bad sheet")):
            with self.assertRaises(DocketFault) as caught:
                one.read_match(sheet)
            self.assertEqual(caught.exception.text, text)
        # One from before a withdrawal reads, and isn't stable.
        later = one.withdraw(residents=["Zoë Weiß"])
        self.assertEqual(later.audit(later.read_match(match.sheet)).unacceptable, (("Zoë Weiß", "Łódź, East"),))

    def test_a_record_of_another_part_is_refused(self):
        """A sheet and a journal say nothing of the market: nobody comes in or withdraws by them."""
        one = market().withdraw(residents=["王芳"])
        match = one.match(journal=True)
        rows = one.docket().count(b"\n")
        others = (b"V,2", b"Q,new,1", b"P,koln,zoe-weiss", b"R,new,koln", b"W,R,zoe-weiss", b"W,P,koln")
        in_sheet = (b"U,zoe-weiss", b"M,zoe-weiss,koln", b"F,koln,0,2")
        for own, others, before, call in (
                (match.sheet, (*others, b"C,full", b"E,close"), b"", one.read_match), (match.journal, others, b"", one.replay),
                (match.journal, (*others, *in_sheet), match.sheet, lambda rows: one.replay(rows, match))):
            lines = own.splitlines()
            for row in others:
                for at in (0, 1, len(lines)):
                    for form in (row, b'"' + row.replace(b",", b'","') + b'"'):
                        with self.subTest(row=form, at=at), self.assertRaises(DocketFault) as caught:
                            call(b"\n".join([*lines[:at], form, *lines[at:]]))
                        found = caught.exception
                        place = rows + before.count(b"\n") + at + 1
                        self.assertEqual((found.record, found.text, found.name), (place, "belongs to another part", row[:1].decode()))
        # What the program writes at once is a sheet with its journal.
        self.assertEqual(one.replay(match.sheet + match.journal), one.replay(match))
        # A fraud that a withdrawal in the journal would hide, with its sheet and without.
        fraud = one.withdraw(residents=["Zoë Weiß"]).match(journal=True)
        self.assertFalse(one.replay(fraud.journal).good)
        for journal in (b"W,R,zoe-weiss\n" + fraud.journal, fraud.journal + b"W,R,zoe-weiss\n"):
            for places in (None, fraud):
                with self.assertRaises(DocketFault):
                    one.replay(journal, places)

    def test_random_markets(self):
        for number in range(60):
            rng = random.Random(f"market {number}")
            it = made.Made(rng, 6, 12)
            call = {side: {name: f"{side} {name} é" for name in names} for side,
                    names in (("P", it.quotas), ("R", it.resident_lists))}
            one = Market(dict(zip(call["P"].values(), it.quotas.values())),
                         {call["P"][p]: [call["R"][r] for r in listed] for p, listed in it.programme_lists.items()},
                         {call["R"][r]: [call["P"][p] for p in listed] for r, listed in it.resident_lists.items()},
                         [call["P"][name] for side, name in it.gone if side == "P"],
                         [call["R"][name] for side, name in it.gone if side == "R"])
            wanted = {call["R"][r]: p and call["P"][p] for r, p in it.settled().items()}
            match = one.match(rng.randint(1, 8), rng.choice((None, 1, 5)), "by worker")
            self.assertEqual(list(match.places.items()), list(wanted.items()))
            self.assertTrue(one.audit(match).stable)
            self.assertTrue(one.replay(match).good)


class NoNames(unittest.TestCase):
    def test_names_that_no_file_can_have(self):
        """Half of a letter, and no text at all, of either side."""
        for name, told in (("\ud800", r"\ud800"), ("", "''")):
            for words, who in ((({name: 1}, {name: []}, {}), "programme"), (({"a": 1}, {"a": []}, {name: []}), "resident")):
                with self.assertRaises(MarketFault) as caught:
                    Market(*words)
                self.assertIn(f"a {who} is called {told}, which is no name", str(caught.exception).splitlines())


class WhyNot(unittest.TestCase):
    """The program's table of all answers, and a table by a program of the test."""

    TABLE = """#!/bin/sh
cat > /dev/null
cat "$ROWS"
"""

    def in_folder(self, last, head="resident,programme,choice,answer,rank,last_rank,quota"):
        folder = tempfile.TemporaryDirectory()
        self.addCleanup(folder.cleanup)
        for name, path in (("residency", None), ("residency-why", self.TABLE)):
            place = Path(folder.name) / name
            if path is None:
                place.symlink_to(find_program())
            else:
                place.write_text(path)
                place.chmod(0o755)
        rows = Path(folder.name) / "rows"
        rows.write_text(f"{head}\nzoe-weiss,lodz-east,1,matched,,,\n"
                        f"zoe-weiss,koln,2,better,,,\nanna-1,koln,1,full,2,3,2\n{last}")
        return mock.patch.dict(os.environ, {"RESIDENCY_BIN": folder.name, "ROWS": str(rows)})

    def test_table(self):
        one = market()
        with self.in_folder("u738b82b3,koln,1,matched,,,\n"):
            self.assertEqual(one.why(MATCHED, "Zoë Weiß"),
                             (Why("Zoë Weiß", "Łódź, East", choice=1, answer="matched"),
                              Why("Zoë Weiß", "=Köln", choice=2, answer="better")))
            self.assertEqual(one.why(MATCHED, "Anna (1)", "=Köln"), (Why("Anna (1)", "=Köln", "", 1, "full", 2, 3, 2),))
            self.assertEqual([(each.resident, each.programme) for each in residency.why_all(one, MATCHED)],
                             [("Zoë Weiß", "Łódź, East"), ("Zoë Weiß", "=Köln"), ("Anna (1)", "=Köln"), ("王芳", "=Köln")])

    def test_a_table_that_leaves_somebody_out(self):
        with self.in_folder(""), self.assertRaises(UnknownStatus):
            market().why(MATCHED, "王芳", "Łódź, East")
        for head in ("programme,resident,choice,answer,rank,last_rank,quota", ""):
            with self.in_folder("u738b82b3,koln,1,matched,,,\n", head), self.assertRaises(UnknownStatus):
                market().why(MATCHED, "Zoë Weiß")
        for last in ("", "u738b82b3,koln,x,matched,,,\n", "u738b82b3,koln,1,matched\n",
                     "u738b82b3,koln,1,matched,,,\nu738b82b3,koln,1,matched,,,\nu738b82b3,lodz-east,2,matched,,,\n"):
            with self.in_folder(last), self.assertRaises(UnknownStatus):
                market().why(MATCHED, "Zoë Weiß")

    def test_answers(self):
        try:
            find_program("why")
        except ProgramMissing as missing:
            self.skipTest(str(missing))
        one = market()
        self.assertEqual(one.why(MATCHED, "Zoë Weiß"),
                         (Why("Zoë Weiß", "Łódź, East", choice=1, answer="matched"),
                          Why("Zoë Weiß", "=Köln", choice=2, answer="better")))
        # Of a programme that isn't on the list there is a sentence alone, which names it as the caller does.
        self.assertEqual(one.why(MATCHED, "王芳", "Łódź, East"),
                         (Why("王芳", "Łódź, East", "Łódź, East: it is not on your list."),))
        gone = one.withdraw(["=Köln"]).why({**MATCHED, "Anna (1)": None, "王芳": None}, "王芳")
        self.assertEqual([each.answer for each in gone], ["withdrawn"])

    def test_answers_are_of_the_places_that_are_given(self):
        """Of the residents' own stable match each answer is another than of the result."""
        one = Market({"a": 1, "b": 1}, {"a": ["x", "y"], "b": ["y", "x"]}, {"x": ["b", "a"], "y": ["a", "b"]})
        for places, first, second in (({"x": "b", "y": "a"}, "matched", "better"), ({"x": "a", "y": "b"}, "full", "matched")):
            told = residency.why_all(one, places)
            self.assertEqual([(each.resident, each.programme, each.answer) for each in told],
                             [("x", "b", first), ("x", "a", second), ("y", "a", first), ("y", "b", second)])
            self.assertEqual(told, one.why(places, "x") + one.why(places, "y"))

    def test_names_that_nobody_has(self):
        with self.assertRaisesRegex(MarketFault, "no resident is named Kim\nno programme is named East"):
            market().why(MATCHED, "Kim", "East")


if __name__ == "__main__":
    unittest.main()
