"""Texts of tables that would be markup, or steer a terminal; and names that a system keeps for itself."""
import csv
import json
import re
import unicodedata
from html.parser import HTMLParser
from pathlib import Path
from typing import List, Optional, Tuple

from residency.office import folder
from residency.office.phrases import FOLDER
from support import OfficeTest, office

# By a member's plain name what stands after it instead of nothing: markup, quotes, what CSV and templates use, and marks of direction.
MARKS = (' <b>&amp;"\'', " <script>alert(1)</script>", ' "><img src=x onerror=alert(1)>', " $name ${id} $$ %s {0}, 1; 2", " \u202eabc\u2066", " '--> <!-- ]]>")
# What no table brings in, and a text of the office's own may have: it turns a line.
STEERS = "\u202e"
TEMPLATE = f"<h1>$name</h1> & $id of $town{STEERS}\n\n$title: $programme, $choice of $listed <i>$outcome</i>\n\n$list\n"


class Elements(HTMLParser):
    """The elements of a page with the names of their attributes, and its text."""

    def __init__(self, page: str) -> None:
        super().__init__()
        self.elements: List[Tuple[str, ...]] = []
        self.text = ""
        self.feed(page)
        self.close()

    def handle_starttag(self, tag: str, attrs: List[Tuple[str, Optional[str]]]) -> None:
        self.elements.append((tag, *(name for name, _ in attrs)))

    def handle_endtag(self, tag: str) -> None:
        self.elements.append((f"/{tag}",))

    def handle_data(self, data: str) -> None:
        self.text += data

    def handle_comment(self, data: str) -> None:
        self.elements.append(("comment",))


def tables_with(marks: Tuple[str, ...]) -> Tuple[str, str]:
    """Three programmes and four residents with two columns of names, an ID and a kept column, each name with one of the marks."""
    quoted = (lambda text: '"' + text.replace('"', '""') + '"')
    programmes = [f"{name}{marks[at % len(marks)]}" for at, name in enumerate(("North", "South", "West"))]
    people = [(f"Ana{marks[0]}", f"Adler{marks[1]}"), (f"Ben{marks[2]}", f"Brand{marks[3]}"), (f"Cleo{marks[4]}", f"Corso{marks[5]}"), ("Dora", "Dorn")]
    ids = [f"{number}{marks[number % len(marks)]}" for number in range(4)]
    rows = [["Programme", "Places", "Rank 1", "Rank 2", "Rank 3"], [programmes[0], "1", *ids[:3]], [programmes[1], "1", ids[1], ids[0], ""],
            [programmes[2], "1", "", "", ""]]
    theirs = [["First name", "Last name", "ID", "Town", "Rank 1", "Rank 2"]]
    theirs += [[*people[at], ids[at], f"Town{marks[at]}", *programmes[:2]] for at in range(3)] + [[*people[3], ids[3], "Town", "", ""]]
    written = ["".join(",".join(map(quoted, row)) + "\n" for row in table) for table in (rows, theirs)]
    return written[0], written[1]


def is_plain(c: str) -> bool:
    """Whether it neither steers a terminal nor turns or hides a text."""
    return unicodedata.category(c) not in ("Cc", "Cf", "Zl", "Zp")


# What is in a text of the office's own, in each phrase, the sender and the signature: it ends what it stands in, were it markup.
OWN = f"</script><b class='x'>&amp;\"<!--{STEERS}"
# The phrases that are no texts.
VALUES = ("called", "plurals", "thousands", "ordinals", "months", "sorted-after")


def shape(path: Path) -> List[Tuple[str, ...]]:
    """How many cells each row of a table has, whatever their order."""
    with path.open(encoding="utf-8", newline="") as file:
        return sorted((str(len(row)),) for row in csv.reader(file))


class Markup(OfficeTest):
    def settings(self, own: str) -> List[str]:
        """A file of settings and one of phrases with this in each text."""
        lines = [line if line.startswith((*VALUES, "#")) or not line else f"{line}{own}" for line in (FOLDER / "en.txt").read_text(encoding="utf-8").splitlines()]
        return ["--settings", self.write("own.ini", f"[match]\nsender = The office{own}\nappeals = Ask{own}\nsignature = K. Lee{own}\n"),
                "--language", self.write("own.txt", "\n".join(lines))]

    def said(self, *words: object) -> str:
        """A command that has to be done; nothing of what it says steers a terminal."""
        said = office(*words)
        self.assertEqual((said.status, said.err), (0, ""), (words, said))
        self.assertEqual([c for c in said.out if not is_plain(c) and c != "\n"], [], words)
        return said.out

    def elements(self, marks: Tuple[str, ...], out: str, is_sealed: bool) -> List[Tuple[str, List[Tuple[str, ...]]]]:
        """Of each page of a run, and of the folders that come of it, its elements; of each table how many cells its rows have."""
        at, tables = self.folder / out, self.tables(*tables_with(marks))
        at.mkdir()
        template = self.write("letter.txt", TEMPLATE if any(marks) else re.sub("<.*?>", "", TEMPLATE))
        own = self.settings(OWN if any(marks) else "")
        title = ["--title", f"Match{''.join(mark for mark in marks[:2] if mark.isascii())}", "--date", "2026-03-20"]
        if is_sealed:
            self.said("seal", *tables, "--out", at / "sealed", "--keep", "Town", *title, *own)
            self.said("run", at / "sealed", "--out", at / "match", *title, "--cut-offs", "--template", template, *own[:2])
        else:
            self.said("run", *tables, "--out", at / "match", *title, "--keep", "Town", "--template", template, *own)
        self.said("withdraw", at / "match", f"0{marks[0]}", "--out", at / "again", "--date", "2026-03-21")
        self.said("compare", at / "match", at / "again", "--names")
        self.said("why", at / "match", f"1{marks[1 % len(marks)]}")
        self.said("changes", at / "again", *tables)
        self.said("settings", at / "match", "--out", at / "next.ini")
        self.said("letters", at / "match", "--out", at / "letters", *own)
        self.said("letters", at / "match", "--preview", "1", *own)
        self.said("why", at / "match", f"1{marks[1 % len(marks)]}", "--letter")
        self.assertRegex(self.said("verify", at / "again").splitlines()[-1], "^[0-9]+ files made again, ")
        pages = [(str(path.relative_to(at)), Elements(path.read_text(encoding="utf-8"))) for path in sorted(at.rglob("*.html"))]
        for name, page in pages:
            if "public" not in name:
                self.assertIn("North" + "".join(filter(is_plain, marks[0])), page.text, name)
            self.assertEqual([c for c in page.text.replace(STEERS, "") if not is_plain(c) and c != "\n"], [], name)
        # The files of one member have names that the member's name makes.
        return [(name, page.elements) for name, page in pages] + sorted((str(path.parent.relative_to(at)), shape(path)) for path in at.rglob("*.csv"))

    def test_no_text_of_a_table_becomes_markup(self) -> None:
        """Nor does one of the office's own: a title, a template, a sender, a phrase."""
        for is_sealed in (False, True):
            plain = self.elements(("",) * len(MARKS), f"plain-{is_sealed}", is_sealed)
            self.assertGreater(len(plain), 5)
            for turn in range(is_sealed, len(MARKS), 2):
                with self.subTest(turn=turn):
                    self.assertEqual(self.elements(MARKS[turn:] + MARKS[:turn], f"out-{turn}", is_sealed), plain)


class Steered(OfficeTest):
    def test_names_of_a_strangers_folder(self) -> None:
        """A key with signs that no table brings: no command that reads it gives them to a terminal, and most refuse it."""
        out, again = self.run_tables(), self.folder / "again"
        self.assertEqual(office("withdraw", out, "Ana Silva", "--out", again).status, 0)
        for sign, told, letter in (("\x1b[2J", r"\x1b[2J", r"\x1b"), ("\u202e", r"\u202e", r"\u202e")):
            for at in (out, again):
                self.change_key(at, "South", f"South{sign}")
            for words in (["compare", out, again, "--names"], ["compare", again, out], ["why", out, "Ana Silva"], ["why", out, "Kim", "--letter"], ["changes", out, *self.tables()],
                          ["withdraw", out, "Ana Silva", "--out", self.folder / "more"], ["letters", out, "--preview", "1"], ["next", out, "--out", self.folder / "next"]):
                self.assertEqual(office(*words), (3, "", f"office: {words[1]}: key.csv: South{told} Hospital has the character {letter}, which is no letter\n"))
            for words in (["verify", out], ["settings", out, "--out", self.folder / "own.ini"]):
                said = office(*words)
                self.assertEqual([c for c in said.out + said.err if not is_plain(c) and c != "\n"], [], words)
            for at in (out, again):
                self.change_key(at, f"South{sign}", "South")
            (self.folder / "own.ini").unlink()
        self.change_key(out, "Omar", "Omar\u200d")
        self.assertEqual(office("why", out, "omr haddad"), (3, "", "office: no resident is named omr haddad; is it Omar\\u200d Haddad? nothing was written\n"))

    def change_key(self, at: Path, before: str, after: str) -> None:
        """Changes a name in a folder's key, and the key's hash."""
        key = (at / "key.csv").read_text(encoding="utf-8").replace(before, after)
        (at / "key.csv").write_text(key, encoding="utf-8")
        manifest = json.loads((at / "manifest.json").read_text(encoding="utf-8"))
        manifest["sha256"]["key.csv"] = folder.digest(key.encode("utf-8"))
        (at / "manifest.json").write_text(json.dumps(manifest), encoding="utf-8")


class FileNames(OfficeTest):
    def test_names_that_a_system_keeps(self) -> None:
        ports = [f"{port}{number}" for port in ("com", "lpt") for number in range(1, 10)]
        for name in ["con", "prn", "aux", "nul", *ports]:
            for written in (name, name.upper(), f"{name}.a"):
                self.assertEqual(folder.file_names([written], ".csv"), {written: f"{written}_.csv"})
        for name in ("com0", "lpt10", "com", "con-1", "xcon", "a.con"):
            self.assertEqual(folder.file_names([name], ".csv"), {name: f"{name}.csv"})
        self.assertTrue(all(re.fullmatch("[a-z0-9]+", name) for name in folder.RESERVED))
