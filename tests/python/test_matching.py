"""The game of the package `matching`, by the built program; and its page, whose left side runs over a stand-in of that package."""
import contextlib
import io
import random
import re
import sys
import types
import unittest
from pathlib import Path
from unittest import mock

import made
import residency.matching
from residency import MarketFault, NotValid, OtherOptimum
from residency.matching import Hospital, HospitalResident, MatchingError, Player

PAGE = (Path(__file__).resolve().parent.parent.parent / "docs" / "from-matching.md").read_text(encoding="utf-8")
RESIDENTS = {"x": ["b", "a"], "y": ["a", "b"], "z": ["a"]}
HOSPITALS = {"a": ["z", "x", "y"], "b": ["y", "x"]}
CAPACITIES = {"a": 2, "b": 1}


def names(matching):
    return {hospital.name: [resident.name for resident in residents] for hospital, residents in matching.items()}


class Games(unittest.TestCase):
    def test_from_dictionaries(self):
        game = HospitalResident.create_from_dictionaries(RESIDENTS, HOSPITALS, CAPACITIES, clean=True)
        self.assertEqual(([each.name for each in game.residents], [each.name for each in game.hospitals]),
                         (list("xyz"), list("ab")))
        self.assertEqual([each.pref_names for each in game.residents], list(RESIDENTS.values()))
        self.assertEqual([(each.pref_names, each.capacity) for each in game.hospitals],
                         [(HOSPITALS[name], number) for name, number in CAPACITIES.items()])
        self.assertIsNone(game.matching)
        self.assertEqual(names(game.solve(optimal="hospital")), {"a": ["z", "x"], "b": ["y"]})
        self.assertEqual(names(game.matching), {"a": ["z", "x"], "b": ["y"]})
        self.assertEqual(repr(game.matching), "{a: [z, x], b: [y]}")
        self.assertEqual([each.matching.name for each in game.residents], ["a", "b", "a"])
        self.assertEqual([[player.name for player in each.matching] for each in game.hospitals], [["z", "x"], ["y"]])
        self.assertEqual((game.check_validity(), game.check_stability(), game.blocking_pairs), (True, True, []))
        # A second time, the same.
        self.assertEqual(names(game.solve("hospital")), {"a": ["z", "x"], "b": ["y"]})

    def test_from_players(self):
        residents = {name: Player(name) for name in RESIDENTS}
        hospitals = {name: Hospital(name, number) for name, number in CAPACITIES.items()}
        for name, listed in RESIDENTS.items():
            residents[name].set_prefs([hospitals[each] for each in listed])
        for name, listed in HOSPITALS.items():
            hospitals[name].set_prefs([residents[each] for each in listed])
        game = HospitalResident(list(residents.values()), list(hospitals.values()))
        self.assertEqual(names(game.solve(optimal="hospital")), {"a": ["z", "x"], "b": ["y"]})
        self.assertTrue(residents["x"].prefers(hospitals["b"], hospitals["a"]))
        self.assertFalse(residents["x"].prefers(hospitals["a"], hospitals["b"]))
        # What the players say afterwards is what is solved.
        hospitals["a"].capacity = 1
        self.assertEqual(names(game.solve(optimal="hospital")), {"a": ["z"], "b": ["y"]})
        self.assertIsNone(residents["x"].matching)

    def test_the_other_optimum_is_explained(self):
        game = HospitalResident.create_from_dictionaries(RESIDENTS, HOSPITALS, CAPACITIES)
        for words in ((), ("resident",)):
            with self.assertRaisesRegex(OtherOptimum,
                                        "the resident optimum isn't answered: here programmes propose.*optimal='hospital'"):
                game.solve(*words)
        with self.assertRaisesRegex(OtherOptimum, "hospital is the one that is answered"):
            game.solve("programmes")
        self.assertIsNone(game.matching)

    def test_checks_go_by_the_players(self):
        game = HospitalResident.create_from_dictionaries(RESIDENTS, HOSPITALS, CAPACITIES)
        self.assertEqual((game.check_validity(), game.check_stability()), (True, False))
        game.solve(optimal="hospital")
        a, b = game.hospitals
        x, y, z = game.residents
        x.matching, y.matching = b, a
        self.assertEqual((game.check_validity(), game.check_stability(), game.blocking_pairs), (True, True, []))
        x.matching, y.matching = a, a
        self.assertFalse(game.check_stability())
        self.assertEqual(game.blocking_pairs, [(x, b)])
        with self.assertRaises(MatchingError) as caught:
            game.check_validity()
        self.assertEqual((caught.exception.unacceptable, caught.exception.over_quota), ((), (("a", 3, 2),)))
        z.matching, y.matching = b, b
        with self.assertRaises(MatchingError) as caught:
            game.check_validity()
        self.assertEqual((caught.exception.unacceptable, caught.exception.over_quota), ((("z", "b"),), (("b", 2, 1),)))
        self.assertIs(MatchingError, NotValid)

    def test_what_is_refused(self):
        for resident, hospital, capacities, told in (
                ({**RESIDENTS, "x": {"a"}}, HOSPITALS, CAPACITIES, "resident x: a set has no order"),
                (RESIDENTS, HOSPITALS, {"a": 2}, "programme b has no places"),
                (RESIDENTS, HOSPITALS, {**CAPACITIES, "a": 1.5}, "programme a: 1.5 is no number of places"),
                ({**RESIDENTS, "x": ["c"]}, HOSPITALS, CAPACITIES, "resident x, choice 1: no programme is named c")):
            with self.assertRaisesRegex(MarketFault, told):
                HospitalResident.create_from_dictionaries(resident, hospital, capacities)
        for residents, hospitals in (([Player("x"), Player("x")], []), ([], [Hospital("x", 1), Hospital("x", 1)])):
            with self.assertRaisesRegex(MarketFault, "two players are called x"):
                HospitalResident(residents, hospitals)

    def test_random_games(self):
        for number in range(20):
            it = made.Made(random.Random(f"game {number}"), 5, 9)
            it.gone = []
            lists = {name: it.programme_lists.get(name, []) for name in it.quotas}
            it.by_programme = {p: [r for r in lists[p] if it.accepts(p, r)] for p in it.quotas}
            it.by_resident = {r: [p for p in it.resident_lists[r] if it.accepts(p, r)] for r in it.resident_lists}
            game = HospitalResident.create_from_dictionaries(it.resident_lists, lists, it.quotas)
            settled = it.settled()
            wanted = {p: [r for r in it.by_programme[p] if settled[r] == p] for p in it.quotas}
            self.assertEqual(names(game.solve(optimal="hospital")), wanted)
            self.assertTrue(game.check_validity() and game.check_stability())


class Page(unittest.TestCase):
    def test_both_sides_say_the_same(self):
        """The left side runs over a stand-in of the other package, which has this one's names where that has them."""
        games = types.ModuleType("matching.games")
        games.HospitalResident = HospitalResident
        package = types.ModuleType("matching")
        package.games = games
        said = []
        (block,) = re.findall(r"^```python\n(.*?)^```$", PAGE, re.M | re.S)
        # One import is all that differs, as the page says.
        self.assertIn("In code for `matching` its first line is `from matching.games import HospitalResident`", PAGE)
        self.assertTrue(block.startswith("from residency.matching import HospitalResident\n"))
        blocks = [block.replace("from residency.matching import", "from matching.games import", 1), block]
        for block in blocks:
            out = io.StringIO()
            with mock.patch.dict(sys.modules, {"matching": package, "matching.games": games}), contextlib.redirect_stdout(out):
                exec(compile(block, "docs/from-matching.md", "exec"), {})
            said.append(out.getvalue())
        self.assertEqual(said[0], said[1])
        self.assertIn(f"```\n{said[1]}```", PAGE)

    def test_every_call_of_the_table_is_there(self):
        rows = re.findall(r"^\| `([^`]+)` \| (the same|differs)", PAGE, re.M)
        self.assertGreater(len(rows), 10)
        game = HospitalResident.create_from_dictionaries(RESIDENTS, HOSPITALS, CAPACITIES)
        known = {"game": game, "player": game.residents[0], "hospital": game.hospitals[0]}
        for call, _ in rows:
            owner, dot, name = call.partition(".")
            name = re.match(r"\w+", name or owner)[0]
            of = known.get(owner, HospitalResident if owner == "HospitalResident" else residency.matching)
            self.assertTrue(hasattr(of, name), call)


if __name__ == "__main__":
    unittest.main()
