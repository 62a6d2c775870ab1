"""Whatever is altered in a finished folder, with all its sums made again, is told by `office verify`; and no honest folder is."""
import re
import shutil
import subprocess
import sys
import tempfile
import unittest
from pathlib import Path
from typing import Callable, Dict, Iterator, List, Tuple

from support import PROGRAMMES, RESIDENTS, TOP, office
from test_verify import make_sums_again

# Which file of its kind is altered: by its kind the beginning of its name.
KINDS = ("letters/", "rosters/", "rosters.html", "receipts/resident", "receipts/programme", "public/page.html", "public/figures.csv", "public/unfilled.csv",
         "public/cut-offs.csv", "public/check.html", "public/root.txt", "root.txt", "page.html", "letters.html", "matches.csv", "unfilled.csv",
         "changes.csv", "audit.csv", "replay.csv", "journal.csv", "manifest.json", "SHA256SUMS")
# Words that a person reads, and what a dishonest office would have them be.
WORDS = (("letters/", "We are sorry that you are not matched.", "You are matched with North Clinic."),
         ("letters/", "it filled all of its places", "it withdrew from the match"), ("letters/", "it did not rank you", "it had no places"),
         ("letters.html", "you are matched here", "it did not rank you"), ("page.html", "Ranked back by nobody", "No place left"),
         ("page.html", "Zoë Brontë", "Rosa Rossi"), ("public/page.html", "West Infirmary", "East Ward"),
         ("public/check.html", "</script>", "accepts = () => true</script>"), ("rosters/", "Ana Silva", "Omar Haddad"),
         ("key.csv", "Kim Lee", "Ana Silvo"), ("matches.csv", "lost out", "ranked nobody"), ("changes.csv", "withdrawn", "moved"),
         ("unfilled.csv", "West Infirmary", "East Ward"), ("audit.csv", "S,stable", "S,unstable"),
         ("manifest.json", '"The match"', '"Another match"'), ("receipts/resident", "R,", "R,x"), ("docket.csv", "kim-lee", "rosa-rossi"))
# Numbers: a row of digits in a file becomes another.
NUMBERS = ("letters/", "letters.html", "page.html", "rosters/", "matches.csv", "unfilled.csv", "public/page.html", "public/figures.csv",
           "public/cut-offs.csv", "public/unfilled.csv", "public/root.txt", "root.txt", "replay.csv", "sheet.csv", "secret.txt", "manifest.json",
           "receipts/resident", "receipts/programme", "public/check.html", "docket.csv", "changes.csv")
Change = Callable[[Path], None]


def written(path: Path, old: str, new: str) -> None:
    text = path.read_bytes().decode("utf-8")
    assert old in text and new != old, (path, old)
    path.write_bytes(text.replace(old, new, 1).encode("utf-8"))


def other_number(path: Path) -> None:
    """The last digit between letters' ends becomes another one: that of a place, a rank, a count or a root."""
    text = path.read_bytes().decode("utf-8")
    at = [found.end() - 1 for found in re.finditer("[0-9]+", text)][-1]
    path.write_bytes((text[:at] + str((int(text[at]) + 1) % 10) + text[at + 1:]).encode("utf-8"))


# What of a sealed match has real names, or is of no use without them.
NAMED = ("secret.txt", "receipts/", "key.csv", "letters/", "letters.html", "matches.csv", "results.csv", "page.html", "rosters/", "rosters.html", "unfilled.csv", "public/page.html", "public/unfilled.csv")
FOR_AUDITOR = """The match, 2026-03-20: for its auditor.

Get the programs from the project that makes them, not from the office.
Take the roots, and how many members there are, from where they were published.
Then run, in a clone of the project (of a release the command is residency-office):

  ./office verify FOLDER --lists MEMBERS,ROOT --result MEMBERS,ROOT

"""
WITH_KEY = "With the office's two tables, --tables PROGRAMMES RESIDENTS makes docket and key again, too.\n"
WITHOUT_KEY = "The key isn't here. Nor is what has names, nor the secret, and verify says that these aren't checked.\n"


class Altered(unittest.TestCase):
    """Over a match sealed with cut-offs of which one resident withdrew, so that it has every kind of file."""

    @classmethod
    def setUpClass(cls) -> None:
        room = tempfile.TemporaryDirectory()
        cls.addClassCleanup(room.cleanup)
        cls.room = Path(room.name)
        for name, text in (("programmes.csv", PROGRAMMES), ("residents.csv", RESIDENTS)):
            (cls.room / name).write_text(text, encoding="utf-8")
        tables = [cls.room / name for name in ("programmes.csv", "residents.csv")]
        for words in (["seal", *tables, "--out", cls.room / "sealed"], ["run", cls.room / "sealed", "--out", cls.room / "match"],
                      ["withdraw", cls.room / "match", "Kim Lee", "--cut-offs", "--out", cls.room / "whole"]):
            said = office(*words, *(["--date", "2026-03-20"]))
            assert said.status == 0, said
        cls.files = sorted(path.relative_to(cls.room / "whole").as_posix() for path in (cls.room / "whole").rglob("*") if path.is_file())
        cls.tried = 0

    def of_kind(self, kind: str) -> List[str]:
        found = [name for name in self.files if name == kind or kind.endswith("/") and name.startswith(kind)
                 or "/" in kind and not kind.endswith((".csv", ".html", ".txt")) and name.startswith(kind)]
        self.assertTrue(found, kind)
        return found

    def with_word(self, kind: str, word: str) -> str:
        return next(name for name in self.of_kind(kind) if word in (self.room / "whole" / name).read_text(encoding="utf-8"))

    def tell(self, what: str, names: List[str], change: Change) -> None:
        """Alters a copy, makes its sums again, and looks whether each of these files is named and the status is 4."""
        with self.subTest(what):
            at = Path(tempfile.mkdtemp(dir=self.room)) / "match"
            shutil.copytree(self.room / "whole", at)
            change(at)
            if not what.endswith(("manifest.json", "SHA256SUMS")):
                make_sums_again(at)
            said = office("verify", at)
            self.assertEqual((said.status, said.err), (4, ""), said.out)
            for name in names:
                told = rf"{re.escape(name)}: (it is )?(missing|differs, first at line |more than)"
                self.assertRegex(said.out, rf"(?m)^{told}|^docket and key: |^made again: manifest.json: |^parts: .* belongs to another part$")
            shutil.rmtree(at.parent)

    def test_each_file_removed(self) -> None:
        for kind in (*KINDS, "sheet.csv", "docket.csv"):
            name = self.of_kind(kind)[0]
            if kind in ("sheet.csv", "docket.csv"):
                at = Path(tempfile.mkdtemp(dir=self.room)) / "match"
                shutil.copytree(self.room / "whole", at)
                (at / name).unlink()
                self.assertEqual(office("verify", at).err, f"office: {at}: {name} is missing\n")
            else:
                self.tell(f"removed {name}", [name], lambda at, name=name: (at / name).unlink())
        for name in ("receipts", "letters", "rosters", "public"):
            self.tell(f"removed {name}", self.of_kind(f"{name}/")[:1], lambda at, name=name: shutil.rmtree(at / name))

    def test_a_part_withheld(self) -> None:
        """Key and secret may be withheld; that is said, and nothing made of them is called right."""
        for name, part in (("key.csv", "the key"), ("secret.txt", "the secret")):
            at = Path(tempfile.mkdtemp(dir=self.room)) / "match"
            shutil.copytree(self.room / "whole", at)
            (at / name).unlink()
            said = office("verify", at)
            self.assertEqual(said.status, 0)
            self.assertRegex(said.out.splitlines()[-1], f"not checked: .*, for want of {part}$")

    def test_each_file_exchanged(self) -> None:
        """Two of a kind for one another, and one for that of the match before."""
        for kind in ("letters/", "rosters/", "receipts/resident", "receipts/programme"):
            one, other = self.of_kind(kind)[:2]

            def exchange(at: Path, one: str = one, other: str = other) -> None:
                shutil.move(at / one, at / "kept")
                shutil.move(at / other, at / one)
                shutil.move(at / "kept", at / other)

            self.tell(f"exchanged {one}", [one, other], exchange)
        for name in ("page.html", "letters.html", "public/page.html", "public/check.html", "public/root.txt", "root.txt", "sheet.csv", "secret.txt",
                     "matches.csv", "public/figures.csv", "docket.csv"):
            # Of another secret so many receipts come that no name stands for sure among the twenty that are told.
            named = [] if name in ("secret.txt", "docket.csv") else [name]
            self.tell(f"before's {name}", named, lambda at, name=name: shutil.copy(self.room / "match" / name, at / name))

    def test_each_word_changed(self) -> None:
        for kind, old, new in WORDS:
            name = self.with_word(kind, old)
            named = [] if name == "key.csv" else [name]
            self.tell(f"word of {name}", named, lambda at, name=name, old=old, new=new: written(at / name, old, new))

    def test_two_residents_exchanged_in_the_key(self) -> None:
        def change(at: Path) -> None:
            written(at / "key.csv", "Kim Lee", "Kim")
            written(at / "key.csv", "Ana Silva", "Kim Lee")
            written(at / "key.csv", "R,kim-lee,Kim\n", "R,kim-lee,Ana Silva\n")

        self.tell("key.csv", ["page.html", "letters/kim-lee.txt", "matches.csv"], change)

    def test_each_number_changed(self) -> None:
        for kind in NUMBERS:
            name = self.of_kind(kind)[0]
            named = [] if name in ("secret.txt", "docket.csv") else [name]
            self.tell(f"number of {name}", named, lambda at, name=name: other_number(at / name))

    def test_more_files(self) -> None:
        for name in ("more.txt", "letters/nobody.txt", "receipts/resident-nobody.csv", "public/key.csv", "for-auditor.txt"):
            self.tell(f"more {name}", [name], lambda at, name=name: (at / name).write_text("more"))


FAMILY = "First name,Last name,Email,Rank 1,Rank 2\nAna,Silva,a@x.org,South Hospital,North Clinic\nKim,Lee,k@x.org,North Clinic,\n" \
    "Zoë,Brontë,,East Ward,\nJürgen,Groß,j@x.org,North Clinic,\nOmar,Haddad,,South Hospital,\n"
IDS = ("Programme,ID,Places,1,2,3\nNorth,a,1,kim,KIM,Kim\nSouth,A,2,Kim,kim,\n",
       "ID,Applicant,1,2\nkim,Ana Silva,North,South\nKIM,Bea Lee,North,\nKim,Ana Silva,South,North\n")
GERMAN = "Sehr geehrte(r) $name,\n\n$outcome\n\n$list\n\nMit freundlichen Grüßen\nam $day\n"
EMPTY = ("Programme,Places,Rank 1\nNorth Clinic,0,\nSouth Hospital,2,\n", "Applicant,Rank 1\nAna Silva,\nKim Lee,North Clinic\n")


class Honest(unittest.TestCase):
    """No folder that the commands made is told, whatever was wished of it."""

    def setUp(self) -> None:
        room = tempfile.TemporaryDirectory()
        self.addCleanup(room.cleanup)
        self.room = Path(room.name)
        self.count = 0

    def make(self, name: str, *words: object) -> Path:
        said = office(*words, "--out", self.room / name)
        self.assertEqual((said.status, said.err), (0, ""), words)
        return self.room / name

    def holds(self, folder: Path, *words: object) -> None:
        said = office("verify", folder, *words)
        self.assertEqual((said.status, said.err), (0, ""), said.out)
        self.count += 1

    def wished(self) -> Iterator[Tuple[str, List[object], List[object], str]]:
        """The name of a market, its two tables, what is wished of the match, and who withdraws."""
        (self.room / "letter.txt").write_text(GERMAN, encoding="utf-8")
        texts: Dict[str, Tuple[str, str]] = {"plain": (PROGRAMMES, RESIDENTS), "family": (PROGRAMMES, FAMILY), "ids": IDS, "empty": EMPTY}
        wishes: Dict[str, List[object]] = {"plain": ["--order", "table"], "family": ["--keep", "Email", "--ignore", "Notes", "--template", self.room / "letter.txt"],
                                           "ids": ["--title", "Zuteilung <2026> & mehr"], "empty": []}
        for name, pair in texts.items():
            paths = [self.room / f"{name}-{side}.csv" for side in ("programmes", "residents")]
            for path, text in zip(paths, pair):
                path.write_text(text, encoding="utf-8")
            yield name, list(paths), wishes[name], "Bea Lee" if name == "ids" else "Kim Lee"

    def test_forty_folders(self) -> None:
        for name, tables, wishes, gone in self.wished():
            kept = [word for word in wishes if word in ("--keep", "Email")]
            mine = [word for word in wishes if word not in kept and not isinstance(word, Path) and word not in ("--order", "table", "--template")]
            plain = self.make(f"{name}-run", "run", *tables, *wishes, "--readable")
            sealed = self.make(f"{name}-sealed", "seal", *tables, *kept, *mine)
            matched = self.make(f"{name}-match", "run", sealed, "--cut-offs", *(word for word in wishes if word not in kept))
            self.holds(plain, "--tables", *tables)
            for folder in (plain, sealed, matched):
                self.holds(folder)
                again = self.make(f"{folder.name}-gone", "withdraw", folder, gone)
                self.holds(again)
                self.holds(self.make(f"{folder.name}-auditor", "auditor", again))
                self.holds(self.make(f"{folder.name}-with-key", "auditor", folder, "--key"))
            more = self.make(f"{name}-more", "withdraw", self.room / f"{name}-match-gone", "--programme",
                             "South" if name == "ids" else "South Hospital")
            self.holds(more, "--tables", *tables, *kept)
        self.assertGreaterEqual(self.count, 40)

    def test_what_an_auditor_gets(self) -> None:
        """All but the key and what has names, or these too where the key is asked for, and a page that says what to run."""
        tables = next(self.wished())[1]
        matched = self.make("match", "run", self.make("sealed", "seal", *tables), "--date", "2026-03-20")
        for words, without, last in (([], NAMED, WITHOUT_KEY), (["--key"], (), WITH_KEY)):
            copy = self.make(f"for-auditor{len(words)}", "auditor", matched, *words)
            data, given = ({path.relative_to(at).as_posix(): path.read_bytes() for path in at.rglob("*") if path.is_file()} for at in (matched, copy))
            self.assertEqual(given.pop("for-auditor.txt").decode("utf-8"), FOR_AUDITOR + last)
            made = ("manifest.json", "SHA256SUMS")
            self.assertEqual({name: data_of for name, data_of in given.items() if name not in made},
                             {name: data_of for name, data_of in data.items() if name not in made and not name.startswith(tuple(without))})
            self.assertEqual({path.stat().st_mode & 0o077 for path in copy.rglob("*") if "public" not in path.parts}, {0})

    def test_by_each_python(self) -> None:
        """Those that are here, from 3.9 on: made by one, and verified by another."""
        tables = next(iter(self.wished()))[1]
        there = [*(shutil.which(f"python3.{minor}") or "" for minor in range(9, 15)), *map(str, Path.home().glob(".pyenv/versions/3.*/bin/python3"))]
        found = [path for path in there if path and subprocess.run([path, "-c", "import sys; sys.exit(sys.version_info < (3, 9))"],
                                                                   capture_output=True).returncode == 0]
        command = str(TOP / "python" / "residency" / "office" / "__main__.py")
        for number, python in enumerate([sys.executable, *found]):
            out = str(self.room / f"by{number}")
            made = subprocess.run([python, "-I", "-S", command, "run", *map(str, tables), "--out", out], capture_output=True, text=True)
            self.assertEqual((made.returncode, made.stderr), (0, ""), python)
            told = subprocess.run([found[-1 - number] if number < len(found) else sys.executable, "-I", "-S", command, "verify", out],
                                  capture_output=True, text=True)
            self.assertEqual((told.returncode, told.stderr), (0, ""), (python, told.stdout))


if __name__ == "__main__":
    unittest.main()
