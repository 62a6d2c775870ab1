"""What an answer looks like: short in a terminal, a table of ten rows in a notebook, and what json, csv and pandas take."""
import csv
import io
import json
import re
import unittest
from html.parser import HTMLParser
from pathlib import Path

import residency
from residency import Audit, Market, Match, NotValid, OtherOptimum, Replay

TOP = Path(__file__).resolve().parent.parent.parent
ODD = "<b onclick='x()'>Kim & \"Lee\"</b>\x1b[2J"


def large():
    """A match of 20,000 residents, each with a long name, of whom every third is left out."""
    names = [f"resident {number} " + "x" * 40 for number in range(20000)]
    places = {name: None if number % 3 == 0 else f"programme {number % 7}" for number, name in enumerate(names)}
    filled = {f"programme {number}": sum(name == f"programme {number}" for name in places.values()) for number in range(7)}
    return Match(places, filled, dict.fromkeys(filled, 4000), b"M,a,b\n" * 20000, b"C,full\n")


class Cells(HTMLParser):
    """The rows of the tables of a page, its text, and every tag and attribute that it has."""

    def __init__(self, text):
        super().__init__()
        self.rows, self.said, self.tags, self.open = [], "", [], []
        self.feed(text)
        self.close()

    def handle_starttag(self, tag, attrs):
        self.tags += [tag, *(name for name, _ in attrs)]
        self.open.append(tag)
        if tag == "tr":
            self.rows.append([])
        if tag in ("td", "th"):
            self.rows[-1].append("")

    def handle_endtag(self, tag):
        assert self.open.pop() == tag, tag

    def handle_data(self, data):
        if self.open[-1:] and self.open[-1] in ("td", "th"):
            self.rows[-1][-1] += data
        else:
            self.said += data


class Answers(unittest.TestCase):
    AUDIT = Audit(False, (("Kim", "North"),), (("North", 3, 2), ("South", 2, 1)), (("Lee", "East"),))

    def test_repr_is_short(self):
        for answer, said in (
                (large(), "<Match of 20,000 residents: 13,333 matched, 6,667 unmatched; 13,333 of 28,000 places filled>"),
                (Match({"Kim": "N"}, {"N": 1}, {"N": 1}, b""),
                 "<Match of 1 resident: 1 matched, 0 unmatched; 1 of 1 place filled>"),
                (Match({}, {}, {}, b""), "<Match of 0 residents: 0 matched, 0 unmatched; 0 of 0 places filled>"),
                (Audit(True), "<Audit: stable>"),
                (self.AUDIT, "<Audit: unstable; 1 blocking pair, 1 unacceptable pair, 2 programmes over quota>"),
                (Audit(False, blocking=(("a", "b"),) * 9999),
                 "<Audit: unstable; 9,999 blocking pairs, 0 unacceptable pairs, 0 programmes over quota>"),
                (Replay(True, 1), "<Replay: good; 1 event>"),
                (Replay(True, 3159, (3000, 159)), "<Replay: good; 3,159 events by 2 workers>"),
                (Replay(False, place=1200, word="not-next"), "<Replay: event 1,200 may not follow, not-next>"),
                (Replay(False, place=1, word="still-pending", pending="wish", at="North"),
                 "<Replay: event 1 may not follow, still-pending, wish at North>"),
                (Replay(False, differs="x" * 500 + ODD), f"<Replay: the sheet differs at {'x' * 60}…>")):
            self.assertEqual(repr(answer), said)
            self.assertTrue(repr(answer).isprintable())

    def test_a_table_of_ten_rows(self):
        for answer, columns, count in ((large(), ["resident", "programme"], 20000),
                                       (Audit(False, blocking=(("a", "b"),) * 40),
                                        ["cause", "resident", "programme", "filled", "quota"], 40),
                                       (Replay(True, 80, (10,) * 8), ["worker", "events"], 8),
                                       (Match({"a": "b"}, {"b": 1}, {"b": 1}, b""), ["resident", "programme"], 1)):
            found = Cells(answer._repr_html_())
            self.assertEqual((found.rows[0], len(found.rows)), (columns, 1 + min(10, count)))
            self.assertTrue(found.said.startswith(repr(answer)[1:-1]))
            self.assertEqual("more" in found.said, count > 10)
            if count > 10:
                self.assertTrue(found.said.endswith(f"and {count - 10:,} more"), found.said)
            self.assertEqual(found.open, [])
        match = Cells(large()._repr_html_())
        self.assertEqual(match.rows[1:3], [[f"resident 0 {'x' * 40}", "–"], [f"resident 1 {'x' * 40}", "programme 1"]])
        for answer in (Audit(True), Replay(True, 9), Replay(False, differs="a"), Match({}, {}, {}, b"")):
            self.assertEqual((Cells(answer._repr_html_()).rows, Cells(answer._repr_html_()).said), ([], repr(answer)[1:-1]))

    def test_names_are_no_markup(self):
        for answer in (Match({ODD: ODD, "a": None}, {ODD: 1}, {ODD: 1}, b""),
                       Audit(False, ((ODD, ODD),), ((ODD, 2, 1),), ((ODD, ODD),)),
                       Replay(False, differs=ODD), Replay(False, place=1, word="still-pending", pending="wish", at=ODD)):
            page = answer._repr_html_()
            found = Cells(page)
            self.assertLessEqual(set(found.tags), {"div", "p", "table", "thead", "tbody", "tr", "th", "td"})
            self.assertNotIn("\x1b", page)
            self.assertIn("<b onclick='x()'>Kim & \"Lee\"</b>",
                          found.said + "".join(cell for row in found.rows for cell in row))

    def test_json(self):
        market = Market({"Köln": 1, "B": 1}, {"Köln": ["王", "x"], "B": ["x"]}, {"王": ["Köln"], "x": ["Köln", "B"], "y": []})
        match = market.match(journal=True)
        self.assertEqual(json.loads(json.dumps(match.to_dict())), {
            "places": {"王": "Köln", "x": "B", "y": None}, "filled": {"Köln": 1, "B": 1}, "quotas": {"Köln": 1, "B": 1},
            "unmatched": ["y"], "sheet": "M,u738b,koln\nM,x,b\nU,y\nF,koln,1,1\nF,b,1,1\n", "journal": match.journal.decode()})
        again = market.read_match(match.to_dict()["sheet"].encode(), match.to_dict()["journal"].encode())
        self.assertEqual(again, match)
        self.assertEqual(json.loads(json.dumps(self.AUDIT.to_dict())), {
            "stable": False, "unacceptable": [{"resident": "Kim", "programme": "North"}],
            "over_quota": [{"programme": "North", "filled": 3, "quota": 2}, {"programme": "South", "filled": 2, "quota": 1}],
            "blocking": [{"resident": "Lee", "programme": "East"}]})
        for answer in (Replay(True, 9, (4, 5)), Replay(False, place=1, word="still-pending", pending="wish", at="a"),
                       Replay(False, differs="a")):
            told = json.loads(json.dumps(answer.to_dict()))
            self.assertEqual(Replay(**{**told, "by_worker": tuple(told["by_worker"])}), answer)

    def test_rows(self):
        self.assertEqual(Match({"a": "b", "c": None}, {"b": 1}, {"b": 1}, b"").to_rows(),
                         [{"resident": "a", "programme": "b"}, {"resident": "c", "programme": None}])
        self.assertEqual([tuple(row.values()) for row in self.AUDIT.to_rows()],
                         [("unacceptable", "Kim", "North", None, None), ("over quota", None, "North", 3, 2),
                          ("over quota", None, "South", 2, 1), ("blocking", "Lee", "East", None, None)])
        self.assertEqual(Replay(True, 9, (4, 5)).to_rows(), [{"worker": 0, "events": 4}, {"worker": 1, "events": 5}])
        self.assertEqual(Replay(False, differs="a").to_rows(), [Replay(False, differs="a").to_dict()])
        self.assertEqual(Audit(True).to_rows(), [])
        for answer in (self.AUDIT, Replay(True, 9)):
            written = io.StringIO()
            out = csv.DictWriter(written, list(answer.to_rows()[0]))
            out.writeheader()
            out.writerows(answer.to_rows())
            self.assertEqual(written.getvalue().count("\n"), 1 + len(answer.to_rows()))


class Solving(unittest.TestCase):
    """`solve`, `check_validity` and `check_stability`, by the market in which the two optima differ."""

    MARKET = Market({"a": 1, "b": 1}, {"a": ["x", "y"], "b": ["y", "x"]}, {"x": ["b", "a"], "y": ["a", "b"], "z": []})

    def test_the_programmes_optimum(self):
        for match in (self.MARKET.solve(), self.MARKET.solve(optimal="programmes"), self.MARKET.solve("programmes")):
            self.assertEqual(match.places, {"x": "a", "y": "b", "z": None})
            self.assertEqual(match, self.MARKET.match())

    def test_another_is_explained(self):
        for word in ("residents", "resident"):
            with self.assertRaises(OtherOptimum) as caught:
                self.MARKET.solve(optimal=word)
            for part in (word, "programmes propose", "best achievable residents", "worst achievable programme", "another one",
                         "optimal='programmes'"):
                self.assertIn(part, str(caught.exception))
            self.assertIsInstance(caught.exception, (residency.ResidencyError, ValueError))
        for word in ("best", "", None, "Programmes"):
            with self.assertRaisesRegex(OtherOptimum, "programmes is the one that is answered"):
                self.MARKET.solve(optimal=word)

    def test_validity_and_stability(self):
        for places, valid, stable in (({"x": "a", "y": "b", "z": None}, True, True),
                                      ({"x": "b", "y": "a", "z": None}, True, True),
                                      ({"x": None, "y": None, "z": None}, True, False),
                                      ({"x": "a", "y": None, "z": None}, True, False),
                                      ({"x": "a", "y": "a", "z": None}, False, False),
                                      ({"x": "a", "y": "b", "z": "a"}, False, False),
                                      ({"x": "a", "y": None, "z": "b"}, False, False),
                                      # Stable is told of blocking pairs alone, as the package `matching` tells it.
                                      ({"x": "b", "y": "a", "z": "a"}, False, True)):
            with self.subTest(places=places):
                self.assertIs(self.MARKET.check_stability(places), stable)
                if valid:
                    self.assertIs(self.MARKET.check_validity(places), True)
                else:
                    with self.assertRaises(NotValid):
                        self.MARKET.check_validity(places)
        with self.assertRaises(NotValid) as caught:
            self.MARKET.check_validity({"x": "a", "y": "a", "z": "b"})
        self.assertEqual((caught.exception.unacceptable, caught.exception.over_quota), ((("z", "b"),), (("a", 2, 1),)))
        self.assertEqual(str(caught.exception),
                         "z and b don't both rank one another, or one is withdrawn\na has 2 residents, over its quota of 1")
        with self.assertRaises(residency.MarketFault):
            self.MARKET.check_validity({"x": "a"})


class Version(unittest.TestCase):
    def test_it_is_the_programs(self):
        source = (TOP / "crates" / "version" / "src" / "lib.rt").read_text(encoding="utf-8")
        self.assertEqual(residency.__version__, re.search(r'VERSION: &str = "(.*)"', source)[1])
        self.assertRegex(residency.__version__, r"^\d+\.\d+\.\d+$")


if __name__ == "__main__":
    unittest.main()
