"""What has no meaning is refused, wherever it comes in: what has no order in a list's place, and numbers that are none."""
import collections
import email.message
import math
import unittest

from residency import Docket, Market, MarketFault, Names, docket_names, write_docket
from residency.ordered import NotRead, as_dictionary, as_list, is_nothing

LISTS = {"North": ["Kim", "Lee"]}
CHOICES = {"Kim": ["North"], "Lee": ["North"]}
PLACES = {"North": 1}


class Series:
    """What the package meets of a Series of pandas: its values, one after another, and its index."""

    ndim = 1

    def __init__(self, values, index=None):
        self.values = list(values)
        self.index = list(range(len(self.values)) if index is None else index)

    def __iter__(self):
        return iter(self.values)

    def __len__(self):
        return len(self.values)

    def __contains__(self, key):
        return key in self.index

    def items(self):
        return zip(self.index, self.values)


class Array:
    """What the package meets of an array of numpy."""

    def __init__(self, values, ndim=1):
        self.values, self.ndim = values, ndim

    def __iter__(self):
        if self.ndim == 0:
            raise TypeError("iteration over a 0-d array")
        return iter(self.values)


class Frame(Series):
    """A data frame, which gives its columns' names when it is gone through."""

    ndim = 2
    columns = ("North",)


class Text(str):
    """A text of an array, which is a text of Python too."""

    def __repr__(self):
        return f"np.str_({str(self)!r})"


class Float:
    """A float of an array that is no float of Python."""

    def __init__(self, value):
        self.value = value

    def item(self):
        return self.value


class NAType:
    """The missing value of a data frame."""


# What has no order, or isn't several, and what is told of it.
NO_LISTS = [("North", "a text is no list"), (b"North", "bytes are no list"), (bytearray(b"N"), "bytes are no list"),
            (memoryview(b"N"), "bytes are no list"), ({"North"}, "a set has no order; give a list"),
            (frozenset({"North"}), "a set has no order; give a list"), ({"North": 1}, "a mapping is no list"),
            (collections.OrderedDict(North=1), "a mapping is no list"),
            (collections.Counter(["North"]), "a mapping is no list"),
            ({"North": 1}.items(), "a set has no order; give a list"), (Frame(["North"]), "a table of 2 dimensions is no list"),
            (Array([["North"]], 2), "a table of 2 dimensions is no list"), (Array([], 0), "a table of 0 dimensions is no list"),
            (None, "NoneType is no list"), (7, "int is no list"), (math.nan, "float is no list")]


class Lists(unittest.TestCase):
    def faults(self, call):
        with self.assertRaises(MarketFault) as caught:
            call()
        return list(caught.exception.faults)

    def test_in_dictionaries(self):
        for value, told in NO_LISTS:
            with self.subTest(value=value):
                self.assertEqual(self.faults(lambda: Market(PLACES, {"North": value}, CHOICES)), [f"programme North: {told}"])
                self.assertEqual(self.faults(lambda: Market(PLACES, LISTS, {**CHOICES, "Kim": value})),
                                 [f"resident Kim: {told}"])

    def test_every_one_is_told_at_once(self):
        self.assertEqual(self.faults(lambda: Market({"North": None, "East": 2.5}, {"North": {"Kim"}, "West": ["Kim"]},
                                                    {"Kim": "North", "Lee": {"North": 1}})),
                         ["programme North has no places", "programme East: 2.5 is no number of places from 0 to 10000",
                          "programme North: a set has no order; give a list", "programme West has no places",
                          "resident Kim: a text is no list", "resident Lee: a mapping is no list"])

    def test_in_tables(self):
        good = {"programmes": [("North", 1, "Kim")], "residents": [("Kim", "North")]}
        for value, told in NO_LISTS:
            for table, rows in good.items():
                with self.subTest(value=value, table=table):
                    self.assertEqual(self.faults(lambda: Market.from_tables(**{**good, table: rows + [value]})),
                                     [f"{table}, row 2: {told}"])
                    if isinstance(value, Array) and value.ndim == 2:
                        continue
                    self.assertEqual(self.faults(lambda: Market.from_tables(**{**good, table: value}))[0],
                                     f"{table}: {told} of rows; of a data frame give itertuples(index=False, name=None)")

    def test_in_long_tables(self):
        good = {"places": [("North", 1)], "programme_ranks": [("North", 1, "Kim")], "resident_ranks": [("Kim", 1, "North")],
                "residents": ["Kim"]}
        for value, told in NO_LISTS:
            for table, rows in good.items():
                name = table.replace("_", " ")
                with self.subTest(value=value, table=table):
                    # An array of two dimensions is a table of rows.
                    if not (isinstance(value, Array) and value.ndim == 2):
                        self.assertEqual(self.faults(lambda: Market.from_ranks(**{**good, table: value}))[0],
                                         f"{name}: {told} of rows; of a data frame give itertuples(index=False, name=None)")
                    if table != "residents":
                        self.assertEqual(self.faults(lambda: Market.from_ranks(**{**good, table: rows + [value]})),
                                         [f"{name}, row 2: {told}"])
        self.assertEqual(self.faults(lambda: Market.from_ranks(**{**good, "residents": ["Kim", {"Lee", "7"}]})),
                         ["residents, row 2: a set has no order; give a list"])

    def test_of_the_withdrawn(self):
        for value, told in (("Kim", "a text is no list"), ({"Kim": False}, "a mapping is no list"), (7, "int is no list")):
            # Members of one letter each, so that a text taken apart would name them.
            names = ["K", "i", "m", "Kim"]
            one = Market(dict.fromkeys(names, 1), {}, dict.fromkeys(names, []))
            self.assertEqual(self.faults(lambda: one.withdraw(residents=value)), [f"the withdrawn residents: {told}"])
            self.assertEqual(self.faults(lambda: one.withdraw(programmes=value)), [f"the withdrawn programmes: {told}"])
            self.assertEqual(self.faults(lambda: Market({}, {}, CHOICES and {"Kim": []}, (), value)),
                             [f"the withdrawn residents: {told}"])
        # Whom a set names is withdrawn: its order means nothing, and it is always the same.
        names = [f"resident {number:02}" for number in range(20)] + ["7"]
        one = Market(PLACES, {}, dict.fromkeys(names, []))
        self.assertEqual(one.withdraw(residents=set(names)).withdrawn_residents, tuple(sorted(names)))
        self.assertEqual(one.withdraw(residents=[7]).withdrawn_residents, ("7",))
        self.assertEqual(self.faults(lambda: one.withdraw(residents=[8])), ["withdrawn: no resident is named 8"])

    def test_in_what_is_no_dictionary(self):
        for value, told in (([("North", 1)], "list is no dictionary"), ("North", "str is no dictionary"),
                            ({"North"}, "set is no dictionary"), (None, "NoneType is no dictionary"),
                            (Frame(["North"]), "Frame is no dictionary"), (Array(["North"]), "Array is no dictionary"),
                            (email.message.Message(), "Message is no dictionary"),
                            (Series([1, 2], ["North", "North"]), "its index has 'North' twice")):
            with self.subTest(value=value):
                self.assertEqual(self.faults(lambda: Market(value, LISTS, CHOICES)), [f"the places of programmes: {told}"])
                self.assertEqual(self.faults(lambda: Market(PLACES, value, CHOICES)), [f"the lists of programmes: {told}"])
                self.assertEqual(self.faults(lambda: Market(PLACES, LISTS, value)), [f"the lists of residents: {told}"])
                self.assertEqual(self.faults(lambda: Market(PLACES, LISTS, CHOICES).audit(value)),
                                 [f"the residents' places: {told}"])

    def test_in_dockets_and_names(self):
        for value, told in NO_LISTS:
            with self.subTest(value=value):
                for lists in (({"north": value}, {"kim": ()}), ({}, {"kim": value})):
                    with self.assertRaisesRegex(NotRead, told):
                        write_docket(Docket({"north": 1}, *lists))
                if "mapping" not in told:
                    for call in (docket_names, lambda it: Names.of(it, []), lambda it: Names.of([], it)):
                        with self.assertRaisesRegex(NotRead, told):
                            call(value)


class Read(unittest.TestCase):
    """What is read as a list, or as a dictionary."""

    def test_lists(self):
        docket = Market(PLACES, LISTS, CHOICES).docket()
        for make in (tuple, iter, collections.deque, dict.fromkeys, Series, Array, lambda it: Series(it, "ba"),
                     lambda it: (each for each in it), lambda it: Array([Text(each) for each in it])):
            lists = make(LISTS["North"])
            lists = lists.keys() if isinstance(lists, dict) else lists
            one = Market(PLACES, {"North": lists}, {name: Series(listed) for name, listed in CHOICES.items()})
            self.assertEqual(one.docket(), docket)
            self.assertEqual([type(name) for name in one.programme_lists["North"]], [str, str])

    def test_dictionaries(self):
        docket = Market(PLACES, LISTS, CHOICES).docket()
        by_index = [Series(one.values(), [Text(name) for name in one]) for one in (PLACES, LISTS, CHOICES)]
        one = Market(*by_index)
        self.assertEqual(one.docket(), docket)
        self.assertEqual({type(name) for name in [*one.quotas, *one.programme_lists, *one.resident_lists]}, {str})
        self.assertTrue(one.audit(Series(["North", math.nan], ["Kim", "Lee"])).stable)
        self.assertTrue(one.audit({"Kim": "North", "Lee": NAType()}).stable)

    def test_tables(self):
        rows = [Series(["North", 1.0, "Kim", "Lee"]), Array(["South", Float(2.0), math.nan])]
        one = Market.from_tables(Array(rows, 1), iter([Array(["Kim", "North"]), ("Lee", "North")]))
        self.assertEqual((one.quotas, one.programme_lists), ({"North": 1, "South": 2}, {"North": ("Kim", "Lee"), "South": ()}))
        one = Market.from_tables(Array([["North", "1", "Kim"]], 2), Array([Array(["Kim", "North"])], 2))
        self.assertEqual((one.quotas, one.resident_lists), ({"North": 1}, {"Kim": ("North",)}))

    def test_what_is_nothing(self):
        for value in (None, math.nan, NAType()):
            self.assertTrue(is_nothing(value), value)
        for value in ("", 0, 0.0, False, "nan"):
            self.assertFalse(is_nothing(value), value)
        self.assertEqual(as_dictionary(collections.ChainMap({"a": 1})), {"a": 1})
        self.assertEqual(as_list({"b": 1, "a": 2}.keys()), ["b", "a"])


class Numbers(unittest.TestCase):
    def test_places(self):
        for quota in (2, 2.0, Float(2.0), "2 "):
            table = [("North", quota)]
            self.assertEqual(Market.from_tables(table, []).quotas, {"North": 2})
            if not isinstance(quota, str):
                self.assertEqual(Market({"North": quota}, {}, {}).quotas, {"North": 2})
                self.assertIs(type(Market({"North": quota}, {}, {}).quotas["North"]), int)
        for quota in (None, math.nan, NAType()):
            for call in (lambda: Market({"North": quota}, {}, {}), lambda: Market.from_tables([("North", quota)], []),
                         lambda: Market.from_ranks([("North", quota)], [], [])):
                with self.subTest(quota=quota), self.assertRaisesRegex(MarketFault, "programme North has no places$") as caught:
                    call()
                self.assertEqual(len(caught.exception.faults), 1)
        for quota in (1.5, -1, -1.0, 10001, 10001.0, math.inf, -math.inf, True, False, "two", "1.5", Float(1.5), [1]):
            for call in (lambda: Market({"North": quota}, {}, {}), lambda: Market.from_tables([("North", quota)], []),
                         lambda: Market.from_ranks([("North", quota)], [], [])):
                with self.subTest(quota=quota), self.assertRaises(MarketFault) as caught:
                    call()
                self.assertEqual(len(caught.exception.faults), 1, caught.exception)
        with self.assertRaisesRegex(MarketFault, "2 is no number of places"):
            Market({"North": "2"}, {}, {})

    def test_no_places(self):
        for places in ([], [("South", 1)]):
            with self.assertRaisesRegex(MarketFault, "^programme North has no places$") as caught:
                Market({name: number for name, number in places}, LISTS, CHOICES)
            self.assertEqual(len(caught.exception.faults), 1)

    def test_cells(self):
        for cell in (1.5, Float(0.5), math.inf, 2.0 ** 54, [1], ("a",), {"a"}, b"a", True):
            for rows in ([("North", 1, cell)], [(cell, 1)]):
                with self.subTest(cell=cell), self.assertRaises(MarketFault) as caught:
                    Market.from_tables(rows, [("1", "North")])
                self.assertEqual([line for line in caught.exception.faults if "neither text" in line or "too large" in line],
                                 list(caught.exception.faults[:1]))
        with self.assertRaisesRegex(MarketFault, "resident ranks, row 1, cell 2: 1.5 is neither text nor a whole number$"):
            Market.from_ranks([("North", 1)], [], [("Kim", 1.5, "North")])


class EmptyRanks(unittest.TestCase):
    """A long row whose rank and last cell are empty is a member who ranks nobody, as the office has it."""

    def test_who_ranks_nobody(self):
        for nothing in (None, math.nan, "", " ", NAType()):
            one = Market.from_ranks([("North", 1), ("South", 2), (None, nothing)],
                                    [("North", 1, "Kim"), ("South", nothing, nothing), (nothing, nothing, nothing)],
                                    [("Kim", 1, "North"), ("Lee", nothing, nothing), ("Ann", nothing)])
            self.assertEqual((one.quotas, one.resident_lists),
                             ({"North": 1, "South": 2}, {"Kim": ("North",), "Lee": (), "Ann": ()}))
            self.assertEqual((one.programme_lists["North"], one.programme_lists.get("South", ())), (("Kim",), ()))
        # Beside ranks such a row says nothing.
        one = Market.from_ranks([("North", 1)], [("North", "", ""), ("North", 1, "Kim")],
                                [("Kim", 1, "North"), ("Kim", "", "")])
        self.assertEqual((one.programme_lists, one.resident_lists), ({"North": ("Kim",)}, {"Kim": ("North",)}))

    def test_what_is_empty_in_part(self):
        with self.assertRaises(MarketFault) as caught:
            Market.from_ranks([("North", 1)], [("North", "", "Kim"), ("North", 2, ""), ("", 1, "Kim"), ("", "", "Kim"),
                                               ("South", "", "")],
                              [("Kim", 1, "North"), ("Kim", "", "North"), ("Kim", 3)])
        self.assertEqual(list(caught.exception.faults), [
            "programme ranks, row 1, cell 2: Kim has no rank",
            "programme ranks, row 2, cell 3: nobody stands at rank 2 of North",
            "programme ranks, row 3, cell 1: no name", "programme ranks, row 4, cell 1: no name",
            "programme ranks, row 4, cell 2: Kim has no rank", "programme ranks, row 5, cell 1: no programme is named South",
            "resident ranks, row 2, cell 2: North has no rank",
            "resident ranks, row 3, cell 3: nobody stands at rank 3 of Kim"])

    def test_with_a_table_of_residents(self):
        one = Market.from_ranks([("North", 1)], [], [("Kim", None, None)], ["Kim", "Lee"])
        self.assertEqual(one.resident_lists, {"Kim": (), "Lee": ()})
        with self.assertRaisesRegex(MarketFault, "^resident ranks, row 1, cell 1: no resident is named Joe$"):
            Market.from_ranks([("North", 1)], [], [("Joe", None, None)], ["Kim", "Lee"])


class RealOnes(unittest.TestCase):
    """The same with pandas and numpy, where they are installed."""

    def test_pandas(self):
        try:
            import pandas as pd
        except ImportError:
            self.skipTest("pandas is not installed")
        docket = Market(PLACES, LISTS, CHOICES).docket()
        lists = pd.Series({"North": pd.Series(["Kim", "Lee"], index=["b", "a"])})
        self.assertEqual(Market(pd.Series(PLACES), lists, pd.Series(CHOICES)).docket(), docket)
        self.assertEqual(Market(pd.Series({"North": 1.0, "South": 0.0}), lists, CHOICES).quotas, {"North": 1, "South": 0})
        with self.assertRaisesRegex(MarketFault, "^programme South has no places$"):
            Market(pd.Series({"North": 1, "South": None}), lists, CHOICES)
        frame = pd.DataFrame({"resident": ["Kim", "Lee", "Ann"], "rank": [1, 1, None], "programme": ["North", "North", None]})
        rows = list(frame.itertuples(index=False, name=None))
        one = Market.from_ranks([("North", 1)], [("North", 1, "Kim"), ("North", 2, "Lee")], rows)
        self.assertEqual(one.resident_lists, {**{name: tuple(each) for name, each in CHOICES.items()}, "Ann": ()})
        for call in (lambda: Market.from_ranks([("North", 1)], [], frame),
                     lambda: Market({"North": 1}, {"North": frame}, CHOICES)):
            with self.assertRaisesRegex(MarketFault, "a table of 2 dimensions is no list"):
                call()
        match = one.match()
        self.assertEqual(list(pd.DataFrame(match.to_rows())["resident"]), ["Kim", "Lee", "Ann"])
        self.assertTrue(one.audit(pd.DataFrame(match.to_rows()).set_index("resident")["programme"]).stable)

    def test_numpy(self):
        try:
            import numpy as np
        except ImportError:
            self.skipTest("numpy is not installed")
        docket = Market(PLACES, LISTS, CHOICES).docket()
        one = Market({np.str_("North"): np.int32(1)}, {"North": np.array(["Kim", "Lee"])},
                     {name: np.array(listed, dtype=object) for name, listed in CHOICES.items()})
        self.assertEqual(one.docket(), docket)
        self.assertEqual(Market({"North": np.float32(1.0)}, LISTS, CHOICES).docket(), docket)
        self.assertEqual(Market.from_tables(np.array([["North", "1", "Kim", "Lee"]]),
                                            np.array([["Kim", "North"], ["Lee", "North"]])).docket(),
                         docket)
        for quota in (np.float32(1.5), np.float64(1.5), np.bool_(True), np.nan):
            with self.assertRaises(MarketFault):
                Market({"North": quota}, LISTS, CHOICES)
        for value in (np.array([["Kim"]]), np.array("Kim")):
            with self.assertRaisesRegex(MarketFault, "dimensions is no list"):
                Market(PLACES, {"North": value}, CHOICES)


if __name__ == "__main__":
    unittest.main()
