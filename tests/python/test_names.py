"""Names: docket names of any text, who is who, the key and its escape, texts and tables of any form, and near names."""
import random
import time
import unittest

from residency import KeyFault, Member, Names, docket_names, from_cell, read_key, to_cell, write_key
from residency.key import csv_row
from residency.near import NearNames, edits
from residency.text import BadQuotes, decode, rows, shown, tidy

# Letters of many kinds: other scripts, accents apart, signs, spaces, formulas' signs, quotes, and letters without a plain form.
ODD = "aZ09 -_.=+@'\"`,;\t\n\r\u0308éŁßøЖщіΩθ王芳한글עברית🙂\u200f\u202e\u00a0\ufeff\u3000\x1b＝"


def a_text(rng):
    return "".join(rng.choice(ODD) for _ in range(rng.randint(1, 40)))


class DocketNames(unittest.TestCase):
    def test_readable(self):
        for text, name in (("St. Mary's – Internal Medicine", "st-marys-internal-medicine"),
                           ("Hôpital Saint-Éloi – Pédiatrie", "hopital-saint-eloi-pediatrie"),
                           ("Zoë O’Connor", "zoe-oconnor"), ("Zoe\u0308", "zoe"), ("Łódź & Øst", "lodz-and-ost"),
                           ("Groß", "gross"), ("ÐÞ", "dth"),
                           ("Щукин Жора", "shchukin-zhora"), ("Θεσσαλονίκη", "thessaloniki"), ("Їжак", "izhak"), ("42", "42"),
                           ("North_2", "north-2"),
                           # Every word keeps its start, the longest lose most.
                           ("Universitätsklinik Köln – Chirurgie", "universitatsklini-koln-chirurgie"), ("a" * 40, "a" * 32),
                           ("Centre hospitalier universitaire de Montpellier – Pédiatrie", "centr-hospi-unive-de-montp-pedia"),
                           # Of more than 16 words the first and the last eight are kept.
                           ("a b c d e f g h i j k l m n o p", "a-b-c-d-e-f-g-h-i-j-k-l-m-n-o-p"),
                           ("a b c d e f g h i j k l m n o p q", "a-b-c-d-e-f-g-h-j-k-l-m-n-o-p-q"),
                           ("aa bb cc dd ee ff gg hh ii jj kk ll mm nn oo pp qq rr", "aa-b-c-d-e-f-g-h-k-l-m-n-o-p-q-r"),
                           ("王芳", "u738b82b3"), ("王 芳", "u738b-u82b3"), ("שלום", "u5e95dc5d55dd"), ("🙂", "u1f642"), ("...", "n")):
            with self.subTest(text=text):
                self.assertEqual(docket_names([text]), {text: name})

    def test_of_any_text(self):
        rng = random.Random(1)
        texts = [a_text(rng) for _ in range(20000)]
        names = docket_names(texts)
        self.assertEqual(list(names), list(dict.fromkeys(texts)))
        self.assertEqual(len(set(names.values())), len(names))
        for name in names.values():
            self.assertRegex(name, r"\A[A-Za-z0-9._-]{1,32}\Z")

    def test_like_names(self):
        self.assertEqual(list(docket_names(["A b", "a-b", "A-B", "a b 2", "a b"]).values()),
                         ["a-b", "a-b-2", "a-b-3", "a-b-2-2", "a-b-4"])
        self.assertEqual(list(docket_names(["x" * 33, "x" * 34]).values()), ["x" * 32, "x" * 26 + "-2"])

    def test_cost(self):
        # In another script; with numbers that are taken; and pairs that share their first letters. Each takes a second, and
        # minutes in a form that counts from 2 for each name.
        other = ["".join(chr(0x4e00 + (number // 70 ** place) % 70) for place in range(3)) for number in range(20000)]
        taken = [f"n {number}" for number in range(2,
                                                   10002)] + ["n" + f"{number:014b}".translate({48: ".",
                                                                                                49: "'"}) for number in range(10000)]
        alike = [f"{'x' * 30} {sign}{number}" for number in range(10000) for sign in ("", "'")]
        for texts in (other, taken, alike):
            start = time.process_time()
            self.assertEqual(len(set(docket_names(texts).values())), 20000)
            self.assertLess(time.process_time() - start, 30)


class WhoIsWho(unittest.TestCase):
    def test_both_ways(self):
        names = Names.of(["Köln", "Łódź"], ["Köln", ("Kim", "7"), ("Kim", "8"), ("Lee", "9")])
        self.assertEqual([(m.side, m.docket_name, names.name(m.side, m.docket_name),
                           names.id(m.side, m.docket_name)) for m in names.members()], [
            ("P", "koln", "Köln", ""), ("P", "lodz", "Łódź", ""), ("R", "koln", "Köln", ""), ("R", "kim", "Kim (7)", "7"),
            ("R", "kim-2", "Kim (8)", "8"),
            ("R", "lee", "Lee", "9")])
        for member in names.members():
            self.assertEqual(names.docket_name(member.side, names.name(member.side, member.docket_name)), member.docket_name)
        self.assertEqual([m.docket_name for m in names.members("P")], ["koln", "lodz"])
        self.assertEqual(names.name("R", "nobody"), "nobody")
        for side, name in (("P", "Kim (7)"), ("R", "Kim"), ("R", "Łódź")):
            with self.assertRaises(KeyError):
                names.docket_name(side, name)

    def test_members_that_cant_be_told_apart(self):
        for members, row in (([Member("P", "a", "A"), Member("P", "a", "B")], 2),
                             ([Member("P", "a", "A"), Member("R", "b", "A"), Member("P", "c", "A")], 3),
                             ([Member("R", "a", "A", "1"), Member("R", "b", "A", "1")], 2),
                             ([Member("R", "a", "A", "1"), Member("R", "b", "A", "2"), Member("R", "c", "A (2)")], 3)):
            with self.assertRaises(KeyFault) as caught:
                Names(members)
            self.assertEqual(caught.exception.row, row)
        with self.assertRaises(KeyFault) as caught:
            Names([Member("R", "a", "\x1b[2J"), Member("R", "b", "\x1b[2J")])
        self.assertEqual(str(caught.exception), "row 2, cell 3: two residents are called \\x1b[2J, and no IDs tell them apart")


class Key(unittest.TestCase):
    names = Names([Member("P", "north", "North, East"), Member("P", "south", "=1+1", "-7"),
                   Member("R", "zoe", "Zoë \"Zo\" O'Connor"),
                   Member("R", "kim", "'t Hooft; Kim", "007"), Member("R", "lee", "李\n娜")])

    def test_bytes(self):
        self.assertEqual(write_key(self.names).decode(),
                         'P,north,"North, East"\nP,south,\'=1+1,\'-7\nR,zoe,"Zoë ""Zo"" O\'Connor"\n'
                         'R,kim,"\'t Hooft; Kim",007\nR,lee,"李\n娜"\n')

    def test_reads_back_any_text(self):
        rng = random.Random(2)
        texts = list(dict.fromkeys(["=", "'", "''", "'=", "''=", "\t", "'a", "- ", "+1", "@x", "\rx", "＝x",
                                    "'＝x"] + [a_text(rng) for _ in range(3000)]))
        for text in texts:
            self.assertEqual(from_cell(to_cell(text)), text)
            self.assertNotRegex(to_cell(text), r"\A[=+@\t\r\n＝＋－＠-]")
        names = Names.of(texts, [(text, f"={number}") for number, text in enumerate(texts)])
        self.assertEqual(list(read_key(write_key(names)).members()), list(names.members()))

    def test_saved_again(self):
        plain = Names([Member("P", "north", "Nörth"), Member("R", "zoe", "Zoë", "7"), Member("R", "kim", "=Kim")])
        data = write_key(plain)
        self.assertEqual(data, "P,north,Nörth\nR,zoe,Zoë,7\nR,kim,'=Kim\n".encode())
        text = data.decode()
        padded = "".join(line + "," * (3 - line.count(",")) + "\n" for line in text.splitlines())
        quoted = "".join(",".join(f'"{cell}"' for cell in line.split(",")) + "\n" for line in text.splitlines())
        for form in (text, padded, quoted, ",,,\n\n" + padded + ",,,\n\n", text.replace("\n", "\r"),
                     text.replace("\n", "\r\n\r\n"), text[:-1]):
            for delimiter in ",;\t":
                for encoding in ("utf-8", "utf-8-sig", "cp1252", "utf-16", "utf-16-le", "utf-16-be", "utf-32"):
                    with self.subTest(form=form, delimiter=delimiter, encoding=encoding):
                        again = read_key(form.replace(",", delimiter).encode(encoding))
                        self.assertEqual(list(again.members()), list(plain.members()))
        self.assertEqual(read_key("R,zoe,Łukasz\n".encode("cp1250"), "cp1250").name("R", "zoe"), "Łukasz")

    def test_what_is_no_key(self):
        for data, row, cell in ((b"Q,a,A\n", 1, 1), (b"\nP,a\n", 2, None), (b"P,a,A,1,2\n", 1, None), (b"P,a b,A\n", 1, 2),
                                (b"P,a,A\nP,a,B\n", 2, 2),
                                (b"P,a,A\n\nP,b,A\n", 3, 3), (b'P,a,"A\nP,b,B\n', 1, 3), (b'P,a,"A"B\n', 1, 3),
                                (b"\xff\xfeP\x00,", 0, None),
                                (b"P,a,A\nprogramme,b,B\n", 2, 1)):
            with self.subTest(data=data), self.assertRaises(KeyFault) as caught:
                read_key(data)
            self.assertEqual((caught.exception.row, caught.exception.cell), (row, cell))
        with self.assertRaises(KeyFault):
            read_key("R,zoe,Zoë\n".encode("cp1252"), "utf-8")

    def test_csv_row(self):
        self.assertEqual(csv_row(["a", 1, "b,c", 'd"e', "f;g", "h\ti", "j\rk", ""]), 'a,1,"b,c","d""e","f;g","h\ti","j\rk",\n')


class Texts(unittest.TestCase):
    def test_character_sets(self):
        text = "Zoë Weiß; 1,2\n" * 3
        for encoding, found in (("utf-8", "utf-8"), ("utf-8-sig", "utf-8-sig"), ("cp1252", "cp1252"), ("utf-16", "utf-16"),
                                ("utf-16-le", "utf-16-le"),
                                ("utf-16-be", "utf-16-be"), ("utf-32", "utf-32")):
            self.assertEqual(decode(text.encode(encoding)), (text, found))
        # A mark is no part of the text where the set is given, too.
        for encoding in ("utf-8", "utf-8-sig", "utf-16", "utf-16-le", "utf-32-be"):
            mark = "" if encoding in ("utf-8-sig", "utf-16") else "\ufeff"
            self.assertEqual(decode((mark + text).encode(encoding), encoding), (text, encoding))
        self.assertEqual(decode(b""), ("", "utf-8"))
        self.assertEqual(decode(b"\x81a"), ("\x81a", "latin-1"))
        self.assertEqual(decode("Łukasz".encode("cp1250"), "cp1250"), ("Łukasz", "cp1250"))
        with self.assertRaises(UnicodeDecodeError):
            decode("Zoë".encode("utf-16")[:-1])
        with self.assertRaises(LookupError):
            decode(b"a", "no-such-set")

    def test_rows(self):
        for text, found in (("", []), ("a", [(1, ["a"])]), ("a,", [(1, ["a", ""])]), ("a\r\n\r\n\n\rb", [(1, ["a"]), (5, ["b"])]),
                            ('"a\r\nb","c""d"\n,', [(1, ["a\r\nb", 'c"d']), (2, ["", ""])]),
                            ('""\n"",', [(1, [""]), (2, ["", ""])]), ('a"b\n', [(1, ['a"b'])]),
                            ("x" * 200000, [(1, ["x" * 200000])])):
            with self.subTest(text=text[:20]):
                self.assertEqual(list(rows(text)), found)
        self.assertEqual(list(rows("a.b;c", ".")), [(1, ["a", "b;c"])])
        for text, row, cell in (('a\nb,"c\nd', 2, 2), ('"a"b', 1, 1), ('\n"a""', 2, 1), ('"a" ,b', 1, 1)):
            with self.subTest(text=text), self.assertRaises(BadQuotes) as caught:
                list(rows(text))
            self.assertEqual((caught.exception.row, caught.exception.cell), (row, cell))

    def test_tidy_and_shown(self):
        self.assertEqual(tidy(" Zoe\u0308\u00a0\t Weiß\n"), "Zoë Weiß")
        self.assertEqual(shown("a\x1b\u202e\n王"), "a\\x1b\\u202e\\n王")


class Near(unittest.TestCase):
    known = ["Kovács, Fatima", "Kovács, Anna", "Anna-Maria Weiß", "South", "North", "Programme 1", "Programme 12", "王芳芳", "Lee",
             "Leo", "Smith John", "Jon Smith"]

    def test_near(self):
        names = NearNames(self.known)
        for name, near in (("kovacs, anna", "Kovács, Anna"), ("Anna Kovács", "Kovács, Anna"), ("Kovács Ana", "Kovács, Anna"),
                           ("Kovács, Kwame", None),
                           ("Weiss, Anna Maria", "Anna-Maria Weiß"), ("sout", "South"), ("Nroth", "North"), ("outh", "South"),
                           ("th", None), ("", None),
                           ("Programme 2", None), ("Program 12", "Programme 12"), ("Programm 1", "Programme 1"), ("王芳", None),
                           ("Le", None), ("South" * 99, None),
                           # As near to two.
                           ("xorth", "North"), ("Jon Smiht", "Jon Smith"), ("Lex", None)):
            with self.subTest(name=name):
                self.assertEqual(names.near(name), near)

    def test_two_edits_are_always_found(self):
        rng = random.Random(3)
        known = list(dict.fromkeys("".join(rng.choice("abcdefgh") for _ in range(rng.randint(8, 14))) for _ in range(400)))
        names = NearNames(known)
        for _ in range(400):
            name = list(rng.choice(known))
            for _ in range(rng.randint(1, 2)):
                at, what = rng.randrange(len(name)), rng.randrange(3)
                name[at:at + (what > 0)] = rng.choice("abcdefgh") if what < 2 else ""
            one = "".join(name)
            found = sorted((edits(one, other, 2), other) for other in known)
            alone = len(found) < 2 or found[0][0] < found[1][0]
            # Names of seven letters are near by one edit alone.
            if one not in known and len(one) >= 8:
                self.assertEqual(names.near(one), found[0][1] if alone and found[0][0] <= 2 else None)

    def test_cost(self):
        # 20,000 names that share their first and last letters, and as many questions: some seconds in all, and with a
        # bound on the questions hardly more than the names.
        known = [f"Nguyen Van {chr(97 + number % 26)}{chr(97 + number // 26 % 26)}{chr(97 + number // 676)} Junior" for number in range(17576)]
        start = time.process_time()
        names = NearNames(known, 100)
        self.assertEqual(names.near("Nguyen Van abc Junio"), "Nguyen Van abc Junior")
        for name in known:
            names.near(name + "xyz")
        self.assertLess(time.process_time() - start, 30)
        self.assertIsNone(names.near(known[0].lower()))


if __name__ == "__main__":
    unittest.main()
