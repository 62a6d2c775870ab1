"""Dockets: their records in every form, what the reader reads, what the writer writes, the limits, and all faults."""
import random
import subprocess
import unittest

import made
from residency import Docket, DocketFault, Journal, find_program, lint, read_docket, write_docket
from residency.docket import first_fault, sheet_rows
from residency.passes import NATIONAL, STANDARD, Passes
from residency.records import records, shown

SMALL = b"Q,a,1\nP,a,x\nR,x,a\n"


class Records(unittest.TestCase):
    def test_forms(self):
        rows = [["Q", "north", "1"], ["P", "north", "kim", "lee"], ["R", "kim"]]
        for end in (b"\n", b"\r", b"\r\n", b"\n\r", b"\n\n", b"\r\r", b"\r\n\r\n"):
            for mark in (b"", b"\xef\xbb\xbf"):
                for quoted in (False, True):
                    lines = [",".join(f'"{field}"' if quoted else field for field in row).encode() for row in rows]
                    for data in (end.join(lines), end.join(lines) + end, end + end.join(lines) + end):
                        with self.subTest(data=data):
                            self.assertEqual(list(records(mark + data)), rows)

    def test_quotes_and_ends(self):
        # By the states of a reader of comma-separated records: what follows a closing quote belongs to the field, a quote
        # within a plain field is a letter, an open quote takes all that is left, and a mark is one at the very start alone.
        for data, rows in ((b"", []), (b"\n\r\n", []), (b",", [["", ""]]), (b'""', [[""]]), (b'"', [[""]]),
                           (b'a"b,"c"', [['a"b', "c"]]),
                           (b'"a"b"c,d', [['ab"c', "d"]]), (b'"a""b"', [['a"b']]), (b'"a,\r\nb"\nc', [["a,\r\nb"], ["c"]]),
                           (b'x,"a\ny,b', [["x", "a\ny,b"]]), (b" a , b", [[" a ", " b"]]), (b"a,\r\n,b", [["a", ""], ["", "b"]]),
                           (b"\xef\xbb\xbfa\n\xef\xbb\xbfb", [["a"], ["\xef\xbb\xbfb"]]), (b"\xef\xbb", [["\xef\xbb"]]),
                           (b'\xef\xbb\xbf"a"', [["a"]]), (b"a\x00\x0b\x0c\x85\x1cb", [["a\x00\x0b\x0c\x85\x1cb"]])):
            with self.subTest(data=data):
                self.assertEqual(list(records(data)), rows)

    def test_shown(self):
        for field, text in (("kim", "kim"), ("Zo\xc3\xab", "Zoë"), ("Zo\xeb", "Zo\\xeb"), ("\x1b[31m", "\\x1b[31m"),
                            ("a\nb", "a\\nb"),
                            ("\xe2\x80\xae", "\\u202e"), ("a" * 61, "a" * 60 + "…"), ("\xc3\xab" * 100, "ë" * 60 + "…")):
            self.assertEqual(shown(field), text)


class Reading(unittest.TestCase):
    def test_all_of_a_docket(self):
        docket = read_docket(b"V,2\nR,lee\nW,R,kim\nQ,south,002\n"
                             b"P,north,kim,lee\nQ,north,1\nR,kim,north,south\nC,7,2\nE,offer,north,lee,1\nE,close,0\n"
                             b"U,lee\nM,kim,north\nF,north,1,1\nF,south,0,2\nW,P,south\n")
        self.assertEqual(list(docket.quotas.items()), [("south", 2), ("north", 1)])
        self.assertEqual(list(docket.resident_lists.items()), [("lee", ()), ("kim", ("north", "south"))])
        self.assertEqual(docket.programme_lists, {"north": ("kim", "lee")})
        self.assertEqual((docket.withdrawn_programmes, docket.withdrawn_residents), ({"south"}, {"kim"}))
        self.assertEqual(docket.sheet, {"lee": None, "kim": "north"})
        self.assertEqual(docket.journal, Journal(7, 2, (("offer", "north", "lee"), ("close",)), (1, 0)))

    def test_no_sheet_and_no_journal(self):
        docket = read_docket(SMALL)
        self.assertIsNone(docket.sheet)
        self.assertIsNone(docket.journal)
        # No members: the empty sheet is one.
        self.assertEqual(read_docket(b"").sheet, {})
        self.assertEqual(read_docket(b"C,full\n").journal, Journal(None))

    def test_mutual_lists(self):
        docket = read_docket(b"V,2\nQ,a,1\nQ,b,1\nQ,c,1\nP,a,w,x,y,z\nP,b,z,x\nP,c,x\nR,x,c,b,a\nR,y,b,a\nR,z,b\nR,w,b\nW,P,c\nW,R,z\n")
        self.assertEqual(made.mutual(docket), ({"a": ["x", "y"], "b": ["x"], "c": []}, {"x": ["b", "a"], "y": ["a"], "z": [], "w": []}))

    def test_fault_has_record_field_text_and_name(self):
        for data, record, field, text, name in (
                (b"Q,a,1\n\nP,a,x,y\nR,x\n", 2, 4, "unknown name", "y"),
                (b"Q,north,1\nP,nort,x\nR,x\n", 2, 2, "unknown name", "nort"),
                (b"Q,a,1\nQ,a,2\n", 2, 2, "declared twice", "a"), (b"Q,a,x\n", 1, 3, "bad quota", "x"),
                (b"Q,a\n", 1, None, "wrong number of fields", None),
                (b"V,2\nR,x\nW,R,y\n", 3, 3, "unknown name", "y"), (SMALL + b"C,full\nE,take,y,a\n", 5, 3, "unknown name", "y"),
                (SMALL + b"C,1,2\nE,close,2\n", 5, 3, "bad journal row", "2"),
                (SMALL + b"U,x\nF,a,1,1\n", 5, 3, "bad sheet", "a")):
            with self.subTest(data=data), self.assertRaises(DocketFault) as caught:
                read_docket(data)
            fault = caught.exception
            self.assertEqual((fault.record, fault.field, fault.text, fault.name), (record, field, text, name))
            self.assertEqual(fault.line, f"record {record}: {text}")
            self.assertTrue(str(fault).startswith(fault.line))


class Writing(unittest.TestCase):
    def test_what_is_written_reads_back(self):
        for number in range(300):
            rng = random.Random(f"writing {number}")
            docket = read_docket(made.bytes_of(made.whole(rng), rng))
            again = read_docket(write_docket(docket))
            self.assertEqual(again, docket)
            for one, other in ((again.quotas, docket.quotas), (again.resident_lists, docket.resident_lists)):
                self.assertEqual(list(one), list(other))

    def test_rows(self):
        docket = Docket({"a": 2, "b": 0}, {"a": ("x",), "b": ()}, {"x": ("a", "b"), "y": ()}, frozenset("b"), frozenset("y"),
                        {"x": "a", "y": None},
                        Journal(None, 1, (("close",),), (0,)))
        self.assertEqual(write_docket(docket),
                         b"V,2\nQ,a,2\nQ,b,0\nP,a,x\nP,b\nR,x,a,b\nR,y\nW,P,b\nW,R,y\n"
                         b"M,x,a\nU,y\nF,a,1,2\nF,b,0,0\nC,full,1\nE,close,0\n")

    def test_nothing_is_left_out_or_added(self):
        for docket in (Docket({"a b": 1}, {}, {}), Docket({"a": 1}, {"a": ("x\nU,x",)}, {"x": ()}), Docket({}, {}, {"é": ()}),
                       Docket({"a": 1}, {}, {}, frozenset("b")), Docket({"a": 1}, {}, {}, frozenset(), frozenset("a"))):
            with self.assertRaises(ValueError):
                write_docket(docket)
        with self.assertRaises(KeyError):
            sheet_rows(read_docket(SMALL), {})


class Limits(unittest.TestCase):
    def agree(self, data, line):
        fault = first_fault(data)
        said = subprocess.run([str(find_program()), "match"], input=data, capture_output=True, check=False)
        self.assertEqual(said.stderr.decode(), f"residency: {line}\n" if line else "")
        self.assertEqual(fault and fault.line, line)

    def test_members(self):
        programmes = "".join(f"Q,p{i},1\n" for i in range(2001)).encode()
        self.agree(programmes[:-len(b"Q,p2000,1\n")], None)
        self.agree(programmes, "record 2001: more than 2000 programmes")
        self.agree(programmes + b"Q,p3,1\n", "record 2001: more than 2000 programmes")
        self.agree(programmes[:-len(b"Q,p2000,1\n")] + b"Q,p3,10001\n", "record 2001: declared twice")
        self.agree(programmes[:-len(b"Q,p2000,1\n")] + b"Q,new,10001\n", "record 2001: more than 2000 programmes")
        residents = "".join(f"R,r{i}\n" for i in range(20001)).encode()
        self.agree(residents[:-len(b"R,r20000\n")], None)
        self.agree(residents + b"Z\n", "record 20001: more than 20000 residents")
        self.assertEqual([fault.line for fault in lint(residents + b"R,a\nR,b\n")], ["record 20001: more than 20000 residents"])

    def test_pairs(self):
        # 101 programmes and 1,981 residents who all rank one another: 200,081 pairs; without one resident 199,980.
        programmes = [f"p{i}" for i in range(101)]
        for count, gone, line in ((1980, (), None), (1981, (), "record 2183: more than 200000 acceptable pairs"),
                                  (1981, ("r0",), None)):
            residents = [f"r{i}" for i in range(count)]
            rows = ["V,2"] + [f"Q,{p},0" for p in programmes] + [f"P,{p},{','.join(residents)}" for p in programmes]
            rows += [f"R,{r},{','.join(programmes)}" for r in residents] + [f"W,R,{r}" for r in gone]
            data = "\n".join(rows[1:] if not gone else rows).encode()
            self.agree(data, line)

    def test_records(self):
        # Two million records take the reader ten seconds, so the limit is a small one here.
        self.assertEqual((STANDARD.records, NATIONAL.records), (2_000_000, 20_000_000))
        for data, lines in ((SMALL, []), (SMALL + b"Z\nQ,b,x\n", ["record 4: more than 3 records"]),
                            (b"Z\n" + SMALL, ["record 1: unknown kind of row", "record 4: more than 3 records"])):
            found = Passes(STANDARD._replace(records=3)).faults(records(data))
            self.assertEqual([fault.line for fault in found][:2], lines)


class Lint(unittest.TestCase):
    def lines(self, data):
        return [str(fault) for fault in lint(data)]

    def test_all_faults(self):
        self.assertEqual(self.lines(b"Q,north,1,\nQ,south,2\nP,north,kim,le e\nP,south,lee,lee\nR,kim,north,sout\nR,lee\n"
                                    b"M,kim,north\nF,north,1,1\n"), [
            "record 1: wrong number of fields (4 cells, the last ones empty; Q has 3)",
            "record 3: bad name (cell 4: le e)",
            "record 4: a name is listed twice (cells 3 and 4: lee)",
            "record 5: unknown name (cell 4: sout; is it south?)",
            "record 8: bad sheet (resident lee has no row)",
            "record 8: bad sheet (programme south has no row)"])

    def test_each_fault_by_itself(self):
        for data, lines in (
                (b"Programme,Places\nq,a,1\n",
                 ["record 1: unknown kind of row (cell 1: Programme)", "record 2: unknown kind of row (cell 1: q)"]),
                (b"Q;a;1\n", ["record 1: unknown kind of row (semicolons in place of commas)"]),
                ("Q,a,1\n".encode("utf-16"), [f"record {n}: unknown kind of row (a file saved as UTF-16)" for n in (1, 2)]),
                (b"W,P,a\n", ["record 1: unknown kind of row (cell 1: W, which is known where record 1 is V,2)"]),
                (b"V,2\nV,2\n", ["record 2: unknown kind of row (cell 1: V, which is known in record 1 alone)"]),
                (b"V,3\n", ["record 1: unknown version (cell 2: 3)"]),
                (b"V,2\nQ,a,1\nW,Q,a\nW,P,a\nW,P,a\nW,R,a\n",
                 ["record 3: bad withdrawal row (cell 2: Q)", "record 5: declared twice (cell 3: a, as in record 4)",
                                                            "record 6: unknown name (cell 3: a)"]),
                (b"Q,a,-1\nQ,b,10001\nQ,%s,1\n" % (b"c" * 33),
                 ["record 1: bad quota (cell 3: -1)", "record 2: quota over 10000 (cell 3: 10001)",
                                                              f"record 3: bad name (cell 2: {'c' * 33} has more than 32 letters)"]),
                (SMALL + b"P,a,x\nR,x\n",
                 ["record 4: declared twice (cell 2: a, as in record 2)",
                  "record 5: declared twice (cell 2: x, as in record 3)"]),
                (SMALL + b"C,0\nE,close\nC,1\n",
                 ["record 4: bad journal row (cell 2: 0)", "record 6: bad journal row (a capacity after an event)"]),
                (SMALL + b"E,close\nE,stop\nE\n",
                 ["record 4: bad journal row (an event before the capacity)", "record 5: bad journal row (cell 2: stop)",
                                                 "record 6: wrong number of fields (1 cells; E has 2 or more)"]),
                (SMALL + b"C,full,9\nE,offer,a,x,8\nE,take,x,a\n",
                 ["record 4: bad journal row (cell 3: 9)", "record 5: bad journal row (cell 5: 8)",
                                                                  "record 6: wrong number of fields (4 cells; E has 5)"]),
                (SMALL + b"C,1\nE,answer,x,a,maybe\nE,hear,a,y,hold\n",
                 ["record 5: bad journal row (cell 5: maybe)", "record 6: unknown name (cell 4: y)"]),
                (SMALL + b"M,x,a\nU,x\nF,a,0,2\n",
                 ["record 5: bad sheet (cell 2: x has a row before, in record 4)",
                  "record 6: bad sheet (cell 3: 0, where it is 1)",
                                                  "record 6: bad sheet (cell 4: 2, where it is 1)"]),
                (b"Q,a,1\nP,a,y,y,x\nR,x,a\n",
                 ["record 2: unknown name (cell 3: y)", "record 2: unknown name (cell 4: y)",
                  "record 2: a name is listed twice (cells 3 and 4: y)"]),
                (SMALL, [])):
            with self.subTest(data=data):
                self.assertEqual(self.lines(data), lines)

    def test_a_fault_isnt_the_cause_of_others(self):
        # Rows with an empty cell at their ends, as a spreadsheet saves them.
        for data, count in ((b"V,2,\nQ,a,1,\nR,x,a\nW,R,x\n", 2), (SMALL + b"C,full,,\nE,close\n", 1),
                            (SMALL + b"C,1,9\nE,close,3\n", 1)):
            self.assertEqual(len(self.lines(data)), count)

    def test_no_raw_bytes(self):
        for data in (b"Q,\x1b[2J,1\n", b"\x07,\n", b"Q,a,\xff\x9b\n", b"Q,a,1\nP,a,\xe2\x80\xae\n",
                     b"Q,%s,1\n" % (b"\x00" * 99999)):
            for line in self.lines(data):
                self.assertTrue(line.isprintable(), line)
                self.assertLess(len(line), 500)


if __name__ == "__main__":
    unittest.main()
