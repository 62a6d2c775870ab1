"""What each public call makes of values that are none of its own: an error of the package with words, never another."""
import inspect
import itertools
import random
import traceback
import unittest
from pathlib import Path

import residency
from residency import (Market, MarketFault, Names, ResidencyError, UnknownMember, docket_names, from_cell, lint, read_docket,
                       read_key, to_cell, write_docket, write_key)
from residency.ordered import NotRead

PACKAGE = Path(residency.__file__).parent
ODD = [None, True, 1, -1, 1.5, float("nan"), 10 ** 30, "", "x", "\ud800", b"x", object(), [], {}, [1], [None], [[1]], (None,),
       [("a",)], [("a", 1, 2)], [(None, None)], [b"a"], ["\ud800"], {1: 2}, {"a": 1}, {"a": ["b"]}, {"a": None}, {b"a": [b"b"]}]
# Two arguments at once are tried in so many drawn pairs or triples.
MOST = 400


def market():
    return Market.from_dictionaries({"Kim": ["North"], "Lee": ["North"]}, {"North": ["Kim", "Lee"]}, {"North": 1})


def calls():
    """By name each call, and how many of its arguments are tried."""
    one = market()
    match = one.match()
    return {"Market": (Market, 3), "from_dictionaries": (Market.from_dictionaries, 3), "from_tables": (Market.from_tables, 2),
            "from_ranks": (Market.from_ranks, 4), "from_docket": (Market.from_docket, 1), "Names.of": (Names.of, 2),
            "docket_names": (docket_names, 1), "withdraw": (one.withdraw, 2), "solve": (one.solve, 1),
            "workers": (one.match, 1), "capacity": (lambda it: one.match(capacity=it) if it is not None else None, 1),
            "journal": (lambda it: one.match(journal=it) if not isinstance(it, bool) else None, 1),
            "audit": (one.audit, 1), "check_validity": (one.check_validity, 1), "check_stability": (one.check_stability, 1),
            "read_match": (one.read_match, 2), "replay": (one.replay, 1), "replay of places": (lambda it: one.replay(match, it), 1),
            "why": (one.why, 3), "why of a match": (lambda *asked: one.why(match, *asked), 2), "residents_of": (match.residents_of, 1),
            "match of": (residency.match, 1), "audit of": (residency.audit, 2), "replay of": (residency.replay, 2),
            "why of": (residency.why, 3), "why_all": (residency.why_all, 2), "lint": (lint, 1), "read_docket": (read_docket, 1),
            "read_key": (read_key, 1), "to_cell": (to_cell, 1), "from_cell": (from_cell, 1), "write_docket": (write_docket, 1),
            "write_key": (write_key, 1)}


class Odd(unittest.TestCase):
    def test_each_call(self):
        drawn = random.Random(7)
        for name, (call, count) in calls().items():
            given = list(itertools.product(ODD, repeat=count))
            for words in given if len(given) <= MOST else drawn.sample(given, MOST):
                try:
                    call(*words)
                except (ResidencyError, NotRead) as error:
                    self.assertTrue(str(error), (name, words))
                except Exception as error:
                    place = traceback.extract_tb(error.__traceback__)[-1]
                    self.assertIsInstance(error, ValueError, (name, words))
                    self.assertTrue(str(error) and PACKAGE in Path(place.filename).parents, (name, words, error))

    def test_every_public_call_is_tried(self):
        tried = {*calls(), "match", "replay"}
        values = {"Audit", "Docket", "Journal", "Match", "Member", "Replay", "Why", "find_program"}
        public = {name for name in residency.__all__ if callable(getattr(residency, name)) and name not in values
                  and not (inspect.isclass(getattr(residency, name)) and issubclass(getattr(residency, name), Exception))}
        self.assertEqual(public - tried - {"Names"}, set())


class Words(unittest.TestCase):
    """What a few of them say, word by word."""

    def test_words(self):
        one = market()
        match = one.match()
        for call, wanted in (
                (lambda: match.residents_of("Nort"), "no programme is named Nort; is it North?"),
                (lambda: match.residents_of("West"), "no programme is named West"),
                (lambda: match.residents_of(None), "no programme is named None"),
                (lambda: one.match(journal=1), "1 is no form of a journal: False, True or 'by worker'"),
                (lambda: one.match(workers="2"), "workers is a whole number, and this is '2'"),
                (lambda: one.match(capacity=1.5), "capacity is a whole number, and this is 1.5"),
                (lambda: one.why(match, None), "no resident is named None"),
                (lambda: one.replay("E"), "a journal is a Match or bytes, and this is a str"),
                (lambda: read_docket("Q"), "a docket is bytes, and this is a str"),
                (lambda: read_key(7), "a key is bytes, and this is an int"),
                (lambda: to_cell(b"a"), "a name is a text, and this is a bytes"),
                (lambda: write_key(one), "a key is written of Names, and this is a Market"),
                (lambda: residency.why_all(7, match), "the first argument is a Market, and this is an int"),
                (lambda: Names.of([("a",)], []), "a member is a name, or a pair of a name and an ID, and this has 1 parts")):
            with self.assertRaises((ResidencyError, NotRead, ValueError)) as caught:
                call()
            self.assertEqual(str(caught.exception), wanted)
        with self.assertRaises(KeyError) as missing:
            match.residents_of("Nort")
        self.assertIsInstance(missing.exception, UnknownMember)
        self.assertEqual(match.residents_of("North"), ("Kim",))


class Numbers(unittest.TestCase):
    """Whole numbers are names in each constructor, read as their digits."""

    def test_each_constructor(self):
        made = [Market.from_dictionaries({1: ["a"], 2: ["a"]}, {"a": [2, 1]}, {"a": 1}),
                Market({"a": 1}, {"a": [2.0, 1]}, {1: ["a"], 2: ["a"]}),
                Market.from_tables([("a", 1, 2, 1)], [(1, "a"), (2, "a")]),
                Market.from_ranks([("a", 1)], [("a", 2, 1), ("a", 1, 2)], [(1, 1, "a"), (2, 1, "a")])]
        self.assertEqual({(tuple(one.resident_lists.items()), tuple(one.programme_lists.items())) for one in made},
                         {((("1", ("a",)), ("2", ("a",))), (("a", ("2", "1")),))})
        one = made[0]
        match = one.match()
        self.assertEqual((dict(match.places), match.residents_of("a")), ({"1": None, "2": "a"}, ("2",)))
        self.assertTrue(one.audit({1: None, 2: "a"}).stable)
        self.assertEqual([why.answer for why in one.why(match, 1)], ["full"])
        self.assertEqual(one.withdraw(residents=[2]).match().places, {"1": "a", "2": None})
        self.assertTrue(Market({7: 1}, {7: ["x"]}, {"x": [7]}).audit({"x": 7}).stable)

    def test_a_number_and_its_text(self):
        with self.assertRaisesRegex(MarketFault, "^the lists of residents: 1 comes twice$"):
            Market.from_dictionaries({1: ["a"], "1": ["a"]}, {"a": [1]}, {"a": 1})


if __name__ == "__main__":
    unittest.main()
