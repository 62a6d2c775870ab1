"""`office verify`: what it says of a folder as it was made, of one without a part, and of parts that the programs refuse."""
import contextlib
import hashlib
import importlib
import io
import json
import os
import shutil
import signal
import subprocess
import sys
import tempfile
import time
import unittest
from pathlib import Path
from unittest import mock

import test_books
from residency.office import leftover, steps, stopping
from residency.office.apart import Limits
from residency.office.faults import OfficeError
from residency.office.sentences import said_by
from residency.office.settings import Settings
from support import OFFICE, PROGRAMMES, RESIDENTS, children, office

SUMS, SHEET, DOCKET, MANIFEST = "SHA256SUMS", "sheet.csv", "docket.csv", "manifest.json"
NO_TABLES = "not checked: lists and names, for want of the tables (--tables)"


def make_sums_again(folder: Path) -> None:
    """Makes every digest of a folder again, as whoever forges one would."""
    def digest(path: Path) -> str:
        return hashlib.sha256(path.read_bytes()).hexdigest()

    if (folder / MANIFEST).is_file():
        manifest = json.loads((folder / MANIFEST).read_text(encoding="utf-8"))
        tops = [path for path in sorted(folder.iterdir()) if path.is_file() and path.name not in (MANIFEST, SUMS)]
        manifest["sha256"] = {path.name: digest(path) for path in tops}
        (folder / MANIFEST).write_text(json.dumps(manifest, ensure_ascii=False, indent=1) + "\n", encoding="utf-8")
    if (folder / SUMS).is_file():
        files = {path.relative_to(folder).as_posix(): path for path in folder.rglob("*") if path.is_file()}
        files.pop(SUMS)
        (folder / SUMS).write_text("".join(f"{digest(files[name])}  {name}\n" for name in sorted(files)), encoding="utf-8")


def is_alive(pid: int) -> bool:
    """Whether a process is there, and hasn't ended yet."""
    try:
        return Path(f"/proc/{pid}/stat").read_text().rsplit(")", 1)[1].split()[0] not in "ZX"
    except OSError:
        return False


class Verify(unittest.TestCase):
    """One run, of which each test changes a copy."""

    @classmethod
    def setUpClass(cls) -> None:
        cls.room = tempfile.TemporaryDirectory()
        cls.tables = [str(Path(cls.room.name) / name) for name in ("programmes.csv", "residents.csv")]
        for path, text in zip(cls.tables, (PROGRAMMES, RESIDENTS)):
            Path(path).write_text(text, encoding="utf-8")
        cls.whole = Path(cls.room.name) / "whole"
        said = office("run", *cls.tables, "--out", cls.whole)
        assert said.status == 0, said

    @classmethod
    def tearDownClass(cls) -> None:
        cls.room.cleanup()

    def setUp(self) -> None:
        self.at = Path(tempfile.mkdtemp(dir=self.room.name)) / "match"
        shutil.copytree(self.whole, self.at)

    def change(self, name: str, text: str) -> None:
        """Writes a file, and all digests again."""
        (self.at / name).write_bytes(text.encode("utf-8"))
        make_sums_again(self.at)

    def text(self, name: str) -> str:
        return (self.at / name).read_bytes().decode("utf-8")

    def fails(self, *what: str, left: str = NO_TABLES) -> str:
        said = office("verify", self.at)
        self.assertEqual((said.status, said.err), (4, ""))
        self.assertEqual(said.out.splitlines()[-1], f"this does not hold: {', '.join(what)}" + (left and f"; {left}"), said.out)
        return said.out

    def holds(self, *words: str) -> "list[str]":
        said = office("verify", self.at, *words)
        self.assertEqual((said.status, said.err), (0, ""), said)
        return said.out.splitlines()

    def test_a_whole_folder_holds(self) -> None:
        """Four programmes, seven residents, 4 places filled: 7 letters, 4 rosters and 13 files at the top."""
        events = len([line for line in self.text("journal.csv").splitlines() if line.startswith("E,")])
        digests = [f"{name}: SHA-256 {hashlib.sha256((self.at / name).read_bytes()).hexdigest()}" for name in (DOCKET, SHEET, "journal.csv")]
        self.assertEqual(self.holds(), [
            "parts: each file has its own records alone", *digests, "members: 4 programmes and 7 residents", "withdrawn: nobody",
            "audit: S,stable", "result: Y,result", f"replay: G,{events}", f"second opinion: S,stable G,{events}, the same",
            "reasons: the program says what the letters say", "files: 29 as made again",
            f"29 files made again, the result, the journal of {events} events; {NO_TABLES}"])

    def test_who_is_withdrawn_is_told(self) -> None:
        again = self.at.with_name("again")
        self.assertEqual(office("withdraw", self.at, "Kim Lee", "South Hospital", "--out", again).status, 0)
        self.assertIn("withdrawn: programme south-hospital, resident kim-lee", office("verify", again).out.splitlines())

    def test_many_files_more(self) -> None:
        """The first twenty are told, and how many there are besides."""
        for number in range(23):
            (self.at / f"x{number:02}").touch()
        said = self.fails("files").splitlines()
        self.assertEqual(said[-23:-1], [*(f"x{number:02}: more than the folder has" for number in range(20)), "and 3 more files",
                                        "files: 23 files of 29 differ, are missing or are more"])

    def test_what_is_told_is_a_value(self) -> None:
        """The step has each line with what it is about and whether it holds, gives each to the call, and prints nothing."""
        told = []
        with contextlib.redirect_stdout(io.StringIO()) as out:
            done = steps.verify(str(self.at), progress=told.append)
            (self.at / "page.html").unlink()
            amiss = steps.verify(str(self.at))
        self.assertEqual((done.lines, done.wrong, len(done.held), out.getvalue()), (told, [], 3, ""))
        self.assertEqual([checked.what for checked in told if checked.holds is None], [DOCKET, SHEET, "journal.csv", "members", "withdrawn"])
        self.assertEqual((told[-1], told[-1].line()), (("files", "29 as made again", True), "files: 29 as made again"))
        self.assertEqual((amiss.lines[-2:], amiss.wrong, amiss.verdict()), (
            [("page.html", "missing", False), ("files", "1 file of 29 differ, are missing or are more", False)], ["files"],
            f"this does not hold: files; {NO_TABLES}"))

    def test_with_the_tables(self) -> None:
        lines = self.holds("--tables", *self.tables)
        self.assertIn("tables: the files that the manifest names, and the docket and key that they give", lines)
        self.assertRegex(lines[-1], r"\A29 files made again, the result, the journal of [0-9]+ events\Z")
        spaced = Path(self.tables[1]).with_name("spaced.csv")
        spaced.write_text(RESIDENTS + ",,,\n", encoding="utf-8")
        self.assertIn("tables: other files than the manifest names, and the docket and key that they give",
                      self.holds("--tables", self.tables[0], str(spaced)))

    def test_a_folder_of_other_tables(self) -> None:
        """Whoever makes the whole folder of other lists, or exchanges two people, is told by the tables alone."""
        for text, wanted in ((RESIDENTS.replace("Jürgen Groß,North Clinic", "Jürgen Groß,East Ward"), "tables: docket.csv: differs, first at line "),
                             (RESIDENTS.replace("Omar Haddad,", "Omer Haddad,"), "tables: ")):
            other = Path(self.tables[1]).with_name("other.csv")
            other.write_text(text, encoding="utf-8")
            programmes = Path(self.tables[0]).with_name("other-programmes.csv")
            programmes.write_text(PROGRAMMES.replace("Omar Haddad", "Omer Haddad") if "Omer" in text else PROGRAMMES, encoding="utf-8")
            shutil.rmtree(self.at)
            self.assertEqual(office("run", programmes, other, "--out", self.at).status, 0)
            self.holds()
            said = office("verify", self.at, "--tables", *self.tables)
            self.assertEqual(said.status, 4)
            self.assertIn(wanted, said.out)
            self.assertTrue(said.out.splitlines()[-1].startswith("this does not hold: tables, "))

    def test_tables_at_fault(self) -> None:
        said = office("verify", self.at, "--tables", self.tables[0], self.tables[0])
        self.assertEqual((said.status, said.out), (2, ""))

    def test_without_a_key(self) -> None:
        """What has names isn't checked, whether it is there or not, and all else is."""
        events = len([line for line in self.text("journal.csv").splitlines() if line.startswith("E,")])
        (self.at / "key.csv").unlink()
        lines = self.holds()
        self.assertEqual(lines[-3:], [
            "names and 21 files made of them: not checked: needs the key", "files: 7 as made again",
            f"7 files made again, the result, the journal of {events} events; {NO_TABLES}; names and 21 files made of them, for want of the key"])
        for name in ("letters", "rosters"):
            shutil.rmtree(self.at / name)
        for name in ("letters.html", "rosters.html", "page.html", "matches.csv", "results.csv", "unfilled.csv"):
            (self.at / name).unlink()
        self.assertEqual(self.holds()[-3], "names: not checked: needs the key")
        self.change("audit.csv", "S,unstable\n")
        self.assertIn("audit.csv: differs, first at line 1\n", self.fails("files", left=f"{NO_TABLES}; names, for want of the key"))

    def test_without_a_journal(self) -> None:
        (self.at / "journal.csv").unlink()
        make_sums_again(self.at)
        said = self.fails("files", left="not checked: replay, for want of the journal; lists and names, for want of the tables (--tables)")
        self.assertIn("replay: not checked: needs the journal\n", said)
        self.assertIn("\njournal.csv: missing\n", said)

    def test_a_withdrawal_in_the_sheet(self) -> None:
        matched = next(line.split(",")[1] for line in self.text(SHEET).splitlines() if line.startswith("M,"))
        for rows in (f"W,R,{matched}\n{self.text(SHEET)}", f"{self.text(SHEET)}W,R,{matched}\n"):
            self.change(SHEET, rows)
            self.assertIn("belongs to another part", self.fails("parts", left=""))

    def test_each_kind_of_record_in_each_wrong_file(self) -> None:
        letters = {DOCKET: "VQPRW", SHEET: "MUF", "journal.csv": "CE"}
        kinds = ("V,2", "Q,c,1", "P,c,x", "R,w", "W,R,w", "M,x,a", "U,x", "F,a,1,1", "C,full", "E,close")
        forms = ("".join, lambda rows: "\ufeff" + "".join(rows), lambda rows: "".join(rows).replace("\n", "\r"),
                 lambda rows: "".join('"' + row.strip("\n").replace(",", '","') + '"\n' for row in rows))
        for name, own in letters.items():
            rows = self.text(name).splitlines(keepends=True)
            for row in (row for row in kinds if row[0] not in own):
                for at in (0, len(rows) // 2, len(rows)):
                    for form in forms:
                        self.change(name, form([*rows[:at], f"{row}\n", *rows[at:]]))
                        self.assertIn(f"parts: {name}: record {at + 1}: belongs to another part", self.fails("parts", left=""))
            self.change(name, "".join(rows))

    def test_a_sheet_that_is_not_the_result(self) -> None:
        rows = [line.split(",") for line in self.text(SHEET).splitlines()]
        gone = next(row for row in rows if row[0] == "M")
        changed = [["U", gone[1]] if row is gone else ["F", row[1], str(int(row[2]) - 1), row[3]] if row[:2] == ["F", gone[2]] else row
                   for row in rows]
        self.change(SHEET, "".join(",".join(row) + "\n" for row in changed))
        said = self.fails("audit", "result", "replay", "files")
        self.assertIn("audit: S,unstable; 3 blocking pairs", said)
        self.assertIn(f"result: D,{gone[1]}", said)
        self.assertIn(f"\nsheet.csv: differs, first at line {rows.index(gone) + 1}\n", said)

    def test_what_the_program_refuses(self) -> None:
        """A sheet without a resident's row, and a docket at fault, are told by each check that the program refuses."""
        rows = self.text(SHEET).splitlines(keepends=True)
        gone = next(row for row in rows if row.startswith("U,"))
        self.change(SHEET, "".join(row for row in rows if row != gone))
        said = self.fails("audit", "result", "replay", "second opinion", "files")
        self.assertRegex(said, "audit: .*bad sheet")
        self.change(SHEET, "".join(rows))
        docket = self.text(DOCKET)
        self.change(DOCKET, docket.replace("\nP,", "\nP,nobody,", 1))
        said = self.fails("audit", "result", "replay", "second opinion", "docket and key", left="")
        self.assertRegex(said, "result: .*unknown name")

    def test_files_in_another_form(self) -> None:
        """A mark at the start, other line ends, quotes, and no end of the last line say the same, and are no file that office wrote."""
        kept = {name: self.text(name) for name in (DOCKET, SHEET)}
        forms = (lambda text: "\ufeff" + text, lambda text: text.rstrip("\n"), lambda text: text.replace("\n", "\r\n"),
                 lambda text: "".join('"' + row.replace(",", '","') + '"\n' for row in text.splitlines()))
        for form in forms:
            for name, text in kept.items():
                self.change(name, form(text))
            said = self.fails("files")
            for line in ("audit: S,stable", "result: Y,result"):
                self.assertIn(f"\n{line}\n", said)
            for name in kept:
                self.assertIn(f"\n{name}: differs, first at line ", said)

    def test_a_journal_of_another_exchange(self) -> None:
        self.change("journal.csv", "".join(self.text("journal.csv").splitlines(keepends=True)[:-1]))
        self.assertIn("not-closed", self.fails("replay", "files"))

    def test_a_manifest_of_something_else(self) -> None:
        """Whatever it is in place of a manifest is told, and no traceback."""
        good = json.loads(self.text(MANIFEST))
        for text in ("", "[]", "{}", "[" * 9000, '"x"', *(json.dumps({**good, name: value}) for name, value in (
                ("title", 1), ("date", 2), ("date", "2026-13-01"), ("withdrawn", {}), ("withdrawn", [["R"]]), ("details", "x"), ("details", [1]),
                ("sealed", []), ("sealed", {}), ("from", 1), ("from", {}), ("template", 1), ("template", [1]), ("template", {"letter": 1}), ("template", "$nobody"), ("letter", {"sender": 1}), ("letter", {"x": "y"}), ("order", []),
                ("cut_offs", "x"), ("tables", 1), ("sha256", 1), ("auditor", 1), ("auditor", {"key": 1}),
                ("language", {"title": "en"}), ("language", {"own": 1})))):
            (self.at / MANIFEST).write_text(text, encoding="utf-8")
            said = office("verify", self.at)
            self.assertEqual((said.status, said.err), (4, ""), text[:80])
            self.assertTrue(said.out.splitlines()[-1].startswith("this does not hold: "), text[:80])

    def test_a_second_opinion_of_something_else(self) -> None:
        """It has to say what the program says: a line more or less, another status or no word at all fails."""
        good = office("verify", self.at).out
        said = next(line for line in good.splitlines() if line.startswith("second opinion: "))
        lines = said[len("second opinion: "):-len(", the same")].split(" ")
        self.assertEqual((lines[0], lines[1][:2], len(lines)), ("S,stable", "G,", 2))
        script = self.at.parent / "opinion.py"
        module = importlib.import_module("residency.office.verify")
        for told, status in ((["S,unstable", lines[1]], 0), ([lines[0], "G,1"], 0), (lines[:1], 0), ([*lines, "K,0,1"], 0), ([], 0),
                             (lines, 1), (lines[::-1], 0)):
            script.write_text(f"print({chr(10).join(told)!r})\nraise SystemExit({status})\n")
            with mock.patch.object(module, "second_opinion", return_value=script):
                self.fails("second opinion")
        with mock.patch.object(module, "second_opinion", return_value=None):
            self.assertIn("second opinion: second-opinion.py isn't in this package; install it again\n", self.fails("second opinion"))

    def test_reasons_of_something_else(self) -> None:
        """What the program says of each choice has to be what the letters say."""
        module = importlib.import_module("residency.office.verify")
        real = module.run_program
        for old, new in ((b"full", b"unranked"), (b"unranked", b"better"), (b"matched", b"full"), (b"better", b"full")):
            with mock.patch.object(module, "run_program", lambda name, words, *more, old=old, new=new: (
                    0, real(name, words, *more)[1].replace(old, new, 1) if name == "why" else real(name, words, *more)[1])):
                self.assertIn("reasons: the program says something else of ", self.fails("reasons"))

    def test_no_code_of_the_folder_is_run(self) -> None:
        """A file of each name that Python imports at its start or later stands in the folder, which is on PYTHONPATH, too."""
        for name in ("sitecustomize", "usercustomize", "csv", "io", "json", "encodings", "second-opinion"):
            (self.at / f"{name}.py").write_text(f"open({str(self.at.parent / 'told')!r}, 'a').write({name!r})\n")
        env = {**os.environ, "PYTHONPATH": str(self.at)}
        done = subprocess.run([OFFICE, "verify", "."], cwd=self.at, env=env, capture_output=True, text=True)
        self.assertEqual((done.returncode, done.stderr, (self.at.parent / "told").exists()), (4, "", False))
        self.assertIn("\nsitecustomize.py: more than the folder has\n", done.stdout)
        self.assertIn(", the same\n", done.stdout)

    def test_names_of_files(self) -> None:
        """A line's end or a code for a terminal in a file's name is shown, and never sent."""
        for name in ("a\nthe result holds", "b\x1b[2J", "c\u202e", "letters/d\r"):
            (self.at / name).write_text("more")
        lines = self.fails("files").splitlines()
        for line in (r"a\nthe result holds: more than the folder has", r"b\x1b[2J: more than the folder has", r"c\u202e: more than the folder has",
                     r"letters/d\r: more than the folder has"):
            self.assertIn(line, lines)

    def test_links_are_no_files(self) -> None:
        kept = self.at.parent / "page.html"
        shutil.move(self.at / "page.html", kept)
        (self.at / "page.html").symlink_to(kept)
        said = office("verify", self.at)
        self.assertEqual((said.status, said.err), (3, f"office: {self.at}: page.html is no file\n"))

    def test_a_folder_larger_than_any(self) -> None:
        """A file of three gigabytes, of which a disk has nothing, is not read, and neither are more files than any match has."""
        with open(self.at / "page.html", "r+b") as file:
            file.truncate(3 << 30)
        for words in ((), ("--tables", *self.tables)):
            said = office("verify", self.at, *words)
            self.assertEqual((said.status, said.out, said.err), (
                3, "", f"office: {self.at} has more than 1,000,000 files or 2,048 MB, which no match has\n"))
        os.truncate(self.at / "page.html", 3 << 20)
        with mock.patch.object(importlib.import_module("residency.office.folder"), "MOST_FILES", 22):
            self.assertEqual(office("verify", self.at).status, 3)

    def test_a_folder_that_takes_much(self) -> None:
        """Each limit is told as a fault of the folder with its number, and no process and no temporary file is left."""
        temporary = self.at.parent / "temporary"
        temporary.mkdir()
        page, rows = (self.at / "page.html").read_bytes(), self.text("journal.csv")
        with mock.patch.object(tempfile, "tempdir", str(temporary)):
            for name, data, limits, told in (
                    ("page.html", page + bytes(300 << 20), Limits(60, 200), "checking this needs more than 200 MB of memory"),
                    ("journal.csv", (rows + "E,x,y,z\n" * 4_000_000).encode(), Limits(1, 4000), "checking this needs more than 1 s of a processor")):
                (self.at / name).write_bytes(data)
                with self.assertRaises(OfficeError) as error:
                    steps.verify(str(self.at), limits=limits)
                self.assertEqual((said_by(error.exception), error.exception.status, error.exception.at), (told, 3, str(self.at)))
                self.assertEqual((children(os.getpid()), os.listdir(temporary)), (set(), []), name)
                (self.at / name).write_bytes(page if name == "page.html" else rows.encode())
            self.assertEqual(steps.verify(str(self.at)).wrong, [])

    def test_a_workbook_that_is_far_larger_unpacked(self) -> None:
        """Among the tables it is the fault that a check tells, and the folder isn't looked at."""
        bomb = self.at.parent / "bomb.xlsx"
        bomb.write_bytes(test_books.sheet(" " * (257 << 20)))
        said = office("verify", self.at, "--tables", self.tables[0], bomb)
        self.assertEqual((said.status, said.out, said.err), (
            3, "", f"office: programmes: {self.tables[0]}, UTF-8, commas, a row for each programme\n"
                   f"office: residents: {bomb}, UTF-8, commas, a row for each resident\n"
                   "office: residents: the workbook has more than 256 MB, which is no table\noffice: 1 fault in the tables\n"
                   "office: nothing was written\n"))

    def test_a_manifest_of_a_stranger(self) -> None:
        """It is read apart, too, before the tables are: what takes long says nothing of them."""
        good = json.loads(self.text(MANIFEST))
        for reading, wanted in (({"match": {"title": "T"}}, Settings(title="T")), ({"match": {"title": 1}}, Settings(title="1")), ([], Settings()),
                                ({"x": {}}, Settings())):
            (self.at / MANIFEST).write_text(json.dumps({**good, "reading": reading, "details": []}))
            self.assertEqual(steps.read_by(str(self.at)), wanted)
        (self.at / MANIFEST).write_text("[" * 100_000)
        self.assertEqual(steps.read_by(str(self.at)), Settings())
        (self.at / MANIFEST).write_text(json.dumps({**good, "reading": {"match": {"title": "T"}}, "details": [], "more": "x" * (160 << 20)}))
        for limits, wanted in ((None, Settings(title="T")), (Limits(60, 50), Settings())):
            self.assertEqual((steps.read_by(str(self.at), limits), children(os.getpid())), (wanted, set()))

    def test_what_a_reader_started_ends_with_it(self) -> None:
        """A program that goes on ends where its reader is killed, and where the one that asked is, or gets a signal; only a kill
        leaves the temporary folder, for the next command."""
        temporary = self.at.parent / "temporary"
        temporary.mkdir()
        slow = f"import time; open({str(temporary)!r} + '/is-there', 'w').write(str(__import__('os').getpid())); time.sleep(45)"

        def verify() -> str:
            with mock.patch.object(tempfile, "tempdir", str(temporary)), mock.patch.object(
                    importlib.import_module("residency.office.verify"), "run_program", lambda *_: subprocess.run([sys.executable, "-c", slow])):
                try:
                    with stopping.stoppable():
                        steps.verify(str(self.at))
                except OfficeError as error:
                    return said_by(error)
                except stopping.Stopped:
                    return "stopped"
            return ""

        for whom, number, told, left in (("reader", signal.SIGKILL, "what read this ended with status -9", 0), ("asker", signal.SIGKILL, "", 1),
                                         ("asker", signal.SIGINT, "stopped", 0), ("asker", signal.SIGTERM, "stopped", 0),
                                         ("asker", signal.SIGHUP, "stopped", 0)):
            ours, theirs = os.pipe()
            asker = os.fork()
            if not asker:
                os.write(theirs, verify().encode())
                os._exit(0)
            os.close(theirs)
            there = temporary / "is-there"
            while not there.exists() or not there.read_text():
                time.sleep(0.01)
            (reader,) = children(asker)
            program = int(there.read_text())
            self.assertEqual(os.getpgid(program), reader)
            os.kill(reader if whom == "reader" else asker, number)
            until = time.monotonic() + 20
            with open(ours, "rb") as said:
                self.assertEqual(said.read().decode(), told)
            os.waitpid(asker, 0)
            self.assertLess(time.monotonic(), until, (whom, number))
            while any(is_alive(pid) for pid in (reader, program)):
                self.assertLess(time.monotonic(), until, (whom, number))
                time.sleep(0.01)
            there.unlink()
            parts = os.listdir(temporary)
            self.assertEqual(len(parts), left, (whom, number))
            if parts:
                self.assertRegex(parts[0], leftover.PART)
                with mock.patch.object(tempfile, "tempdir", str(temporary)):
                    said_now = office("verify", self.at)
                self.assertEqual((said_now.status, said_now.err), (0, f"office: a run that was killed left {parts[0]}, which was removed\n"))

    def test_folders_below_folders(self) -> None:
        """However deep a file is, and be it in a folder whose path is longer than any, it is more than the folder has."""
        deep = self.at
        for _ in range(600):
            deep = deep / "d"
            deep.mkdir()
        (deep / "file").write_text("more")
        name, at = "e" * 200, os.open(self.at, os.O_RDONLY)
        for _ in range(30):
            os.mkdir(name, dir_fd=at)
            before, at = at, os.open(name, os.O_RDONLY, dir_fd=at)
            os.close(before)
        os.close(at)
        depth = next(depth for depth in range(30) if len(str(self.at)) + 201 * depth > 4095)
        said = self.fails("files")
        self.assertIn(f"\n{('d/' * 40)}... (1,204 letters): more than the folder has\n", said)
        self.assertIn(f"\n{'e' * 80}... ({201 * depth - 1:,} letters): more than the folder has\n", said)

    def test_no_folder(self) -> None:
        self.assertEqual(office("verify", self.at / "none").status, 1)
        for name in (SHEET, DOCKET):
            (self.at / name).unlink()
            said = office("verify", self.at)
            self.assertEqual((said.status, said.out, said.err), (3, "", f"office: {self.at}: {name} is missing\n"))

    def test_a_long_path_is_told_whole(self) -> None:
        """The end of a path says which file it is: of a table, a folder that is written, and one that lacks a file."""
        below = self.at.parent.joinpath(*["d" * 200] * 3)
        below.mkdir(parents=True)
        tables, match = [below / "programmes.csv", below / "residents.csv"], below / "match"
        for table, text in zip(tables, ("Programme,Places,1\nNorth,1,Ana\n", "Applicant,1\nAna,North\n")):
            table.write_text(text)
        said = office("run", *tables, "--out", match, "--date", "2026-03-20")
        self.assertEqual((said.status, said.out), (0, (
            f"programmes: {tables[0]}, UTF-8, commas, a row for each programme; 1 programme, 1 place\n"
            f"residents: {tables[1]}, UTF-8, commas, a row for each resident; 1 resident\n"
            f"1 of 1 residents matched; 0 of 1 places unfilled\naudit: stable; replay: good; written to {match}\n")))
        (match / SHEET).unlink()
        said = office("verify", match)
        self.assertEqual((said.status, said.out, said.err), (3, "", f"office: {match}: {SHEET} is missing\n"))


if __name__ == "__main__":
    unittest.main()
