"""What can't be done, as values: each error is told word by word as ever, and its fault has neither a path nor an option's name."""
import json
import os
import re
import shutil
import sys
import unittest
from pathlib import Path
from unittest import mock

from residency import Member, Names
from residency.office import command, headings, sentences, steps, who
from residency.office.faults import Fault, OfficeError
from residency.office.settings import Settings
from support import PROGRAMMES, RESIDENTS, OfficeTest, office



class Told(OfficeTest):
    """The command's words for each error."""

    def setUp(self) -> None:
        super().setUp()
        self.was = os.getcwd()
        os.chdir(self.folder)
        self.addCleanup(os.chdir, self.was)
        self.tables()
        self.seen = set()

    def said(self, words: str, status: int, text: str, code: str) -> None:
        """What a line says, and with which code; without any output."""
        with mock.patch.object(command, "said_by", side_effect=sentences.said_by) as told:
            said = office(*words.split("|"))
        self.assertEqual((said.status, said.out, said.err), (status, "", f"office: {text}\n"), words)
        (error,) = told.call_args.args
        self.assertEqual(error.fault.code, code)
        self.assertNotRegex(str(error), r"--[a-z]|nothing was|/")
        self.seen.add(code)

    def test_words_of_the_line(self) -> None:
        one = "only one table was given"
        for words, status, text, code in (
            ("check|nowhere|residents.csv", 1, "nowhere can't be read: no such file or directory", "file.unread"),
            ("check|a\0b|residents.csv", 1, "a\\x00b can't be read: it is no path", "file.no-path"),
            ("check|a|b|--delimiter|xx", 2, "xx parts no cells; comma, semicolon, tab and bar do", "setting.delimiter"),
            ("check|a|b|--encoding|utf-99", 2, "no character set is named utf-99; utf-8, windows-1252, iso-8859-2 and utf-16 are some",
             "setting.encoding"),
            ("check|a|b|--heading|Rang", 2, "--heading Rang: it is ROLE=WORD, where ROLE is one of programme, resident, places, rank, id, "
             "given, family, withdrawn", "setting.heading"),
            ("check|a|b|--heading-row|0", 2, "0 is no row; rows count from 1", "setting.heading-row"),
            ("run|a|b|--out|c|--title|T\x1b", 2, "the title T\\x1b has a character that is no letter", "setting.title"),
            ("check|a|b|c", 2, "check takes two tables, PROGRAMMES and RESIDENTS, or one docket", "words.two-tables"),
            ("check|residents.csv", 2, f"{one}, residents.csv: check takes two, PROGRAMMES and RESIDENTS, or one docket", "words.one-of-two"),
            ("check|residents.csv|residents.csv", 2, f"{one}, residents.csv, twice: PROGRAMMES and RESIDENTS are two", "words.one-twice"),
            ("run|residents.csv|--out|c", 2, f"{one}: PROGRAMMES and RESIDENTS are two, and one word alone is a folder that seal made",
             "words.one-table"),
            ("settings|residents.csv", 2, f"{one}: PROGRAMMES and RESIDENTS are two, and one word alone is a folder that seal or run made",
             "words.one-table"),
            ("run|.|--seal|.|--out|c", 2, "FOLDER and --seal are the same: give one of them", "words.seal-twice"),
            ("withdraw|.", 2, "who withdraws? give a name", "words.nobody"),
            ("check|a|b|--keep|\udcff", 2, "\\udcff is no text", "words.no-text"),
            ("verify", 2, "the following arguments are required: FOLDER (office verify --help says more)", "words.wrong"),
            ("verify|nowhere", 1, "nowhere is no folder", "folder.none"),
            ("verify|.", 3, ".: docket.csv is missing", "folder.missing"),
            ("letters|nowhere|--out|c", 1, "nowhere is no folder", "folder.none"),
            ("letters|.|--out|c", 1, ".: manifest.json can't be read: no such file or directory", "folder.unread"),
            ("run|a|b|--out|residents.csv", 2, "residents.csv is there already; nothing was written", "out.there"),
            ("run|a|b|--out|c\0", 2, "'c\\x00' can't be written: it is no path", "out.no-path"),
            ("run|programmes.csv|residents.csv|--out|no/where", 1,
             "no/where can't be written: no such file or directory; nothing was left there", "out.unwritten"),
        ):
            with self.subTest(words):
                self.said(words, status, text, code)
        with mock.patch("residency.office.text.MOST_BYTES", 1 << 20):
            self.write("large", bytes((1 << 20) + 1))
            self.said("lint|large", 1, "large has more than 1 MB, which is no table", "file.too-large")
            with open("large", "rb") as large, mock.patch.object(sys, "stdin", mock.Mock(buffer=large)):
                self.said("lint|-", 1, "standard input has more than 1 MB, which is no table", "file.too-large")
        with mock.patch.object(sys, "stdin", None):
            self.said("lint|-", 1, "standard input is closed", "words.closed")

    def test_a_folder_at_fault(self) -> None:
        self.run_tables(out="match")
        os.chdir(self.folder)

        def spoilt(name: str, text: str) -> str:
            shutil.rmtree("spoilt", ignore_errors=True)
            shutil.copytree("match", "spoilt")
            Path("spoilt", name).write_text(text)
            return "letters|spoilt|--out|c"

        manifest = json.loads(Path("match/manifest.json").read_text())
        key = Path("match/key.csv").read_text()
        for name, text, words, code in (
            ("docket.csv", "Q,a,1\n", "spoilt: docket.csv was changed since it was written; manifest.json names another sha256", "folder.changed"),
            ("key.csv", "P,a\n", "spoilt: key.csv: row 1: a row has P or R, the docket's name, the name and maybe an ID", "folder.fault"),
            ("key.csv", key.replace("Ana", "Anna"), "spoilt: key.csv was changed since it was written, and says something else now",
             "folder.other-key"),
            ("manifest.json", "[]", "spoilt: manifest.json isn't one that office wrote", "folder.no-manifest"),
            ("manifest.json", json.dumps({**manifest, "date": "no"}), "spoilt: manifest.json has no date", "folder.no-date"),
        ):
            self.said(spoilt(name, text), 3, words, code)
        self.write("letter.txt", "$phone\n")
        fields = ("day, date, title, name, id, programme, choice, listed, outcome, list, docket_name, docket_sha256, lists_root, "
                  "result_root, sealed, sender, appeals, signature").replace(" ", " $")
        self.said("letters|match|--out|c|--template|letter.txt", 3,
                  f"letter.txt, line 1: $phone is none of ${fields}; write $$ for the sign itself", "template.field")
        self.write("letter.txt", " \n")
        self.said("letters|match|--out|c|--template|letter.txt", 3, "letter.txt has no text, and all letters would have none", "template.empty")
        self.said("withdraw|match| ", 2, "match: a name without a letter means nobody; nothing was written", "member.empty")
        self.said("withdraw|match|Ana Silve", 3, "match: nobody is named Ana Silve; is it Ana Silva? nothing was written", "member.nobody")
        self.said("withdraw|match|--programme|xyz", 3, "match: no programme is named xyz; nothing was written", "member.nobody")
        self.said("withdraw|match|--programme|Ana Silva", 3,
                  "match: no programme is named Ana Silva, but a resident is (--resident); nothing was written", "member.other-side")
        self.said("withdraw|match|--resident|East Ward", 3,
                  "match: no resident is named East Ward, but a programme is (--programme); nothing was written", "member.other-side")
        self.said("withdraw|match|Ana Silva|Ana Silva", 3, "match: Ana Silva is withdrawn already; nothing was written", "member.withdrawn")
        self.said("run|match|--out|c", 3, "match has no secret.txt: it is no folder that seal made", "folder.not-sealed")
        Path("match/letters/more.txt").write_text("more")
        self.said("auditor|match|--out|c|--key", 3, "match: letters/more.txt isn't as SHA256SUMS has it; nothing was written", "folder.other-sum")
        os.remove("match/docket.csv")
        os.symlink("nowhere", "match/docket.csv")
        self.said("verify|match", 3, "match: docket.csv is no file", "folder.no-file")

    def test_a_sealed_folder_at_fault(self) -> None:
        self.assertEqual(office("seal", "programmes.csv", "residents.csv", "--out", "sealed").status, 0)
        self.said("run|sealed|--readable|--out|c", 2,
                  "--readable is for a match that isn't sealed: of a sealed one others may read public/ alone", "out.readable")
        self.said("letters|sealed|--out|c", 3, "sealed has no match: it was sealed, and run comes next", "folder.no-match")
        self.write("letter.txt", "\n$docket_sha256\n")
        self.said("run|sealed|--out|c|--template|letter.txt", 3, "letter.txt, line 2: $docket_sha256 is a hash from which others' lists can "
                  "be guessed, and this match is sealed; $lists_root and $result_root are the published roots", "template.unsalted")
        with mock.patch("residency.office.tree.Sealed.roots", lambda tree: mock.Mock(count=1, lists="x", rows=lambda: b"", result="")), \
                mock.patch("residency.office.seal.is_built", lambda: False), mock.patch("residency.office.running.fill", lambda *words: None):
            self.said("run|sealed|--out|c", 3, "sealed: root.txt isn't that of its docket and secret; nothing was written", "folder.other-root")
        with mock.patch("residency.office.seal.is_built", lambda: True), mock.patch("residency.office.seal.run_program", lambda *words: (0, b"")):
            self.said("run|sealed|--out|c", 1, "the program seal and the office's own trees differ; nothing was written", "program.other-seal")
        changed = RESIDENTS.replace("Kim Lee,North Clinic,South Hospital", "Kim Lee,South Hospital,North Clinic").replace("Rosa Rossi,,,", "Lee,East Ward,,")
        self.write("other.csv", changed)
        self.write("more.csv", PROGRAMMES.replace("East Ward,1", "East Ward,2"))
        said = office("run", "more.csv", "other.csv", "--seal", "sealed", "--out", "c")
        self.assertEqual((said.status, said.out), (3, ""))
        self.assertEqual(said.err.splitlines(), [f"office: {line}" for line in (
            "programme East Ward: 1 place before, 2 now", "resident Rosa Rossi is no more in the table",
            "resident Kim Lee: South Hospital from 2 to 1", "resident Lee is new",
            "the tables say otherwise than what sealed sealed; nothing was written")])

    def test_where_two_may_be_meant(self) -> None:
        self.run_tables("Programme,ID,Places,1\nWest,a,1,2\nNorth,b,1,1\n", "Applicant,ID,1\nKim,1,b\nKim,2,a\n", out="match")
        os.chdir(self.folder)
        self.said("withdraw|match|Kim", 3, "match: 2 members may be meant by Kim: Kim (1), Kim (2); give the ID; nothing was written",
                  "member.several")
        for ids, how in ((("7", "8"), "programme Kim (7), resident Kim (8); give the ID"),
                         (("", ""), "programme Kim (p), resident Kim (r); say --programme or --resident")):
            names = Names([Member(side, side.lower(), "Kim", id) for side, id in zip("PR", ids)])
            with self.assertRaises(OfficeError) as told:
                who.the_one(names, "Kim")
            self.assertEqual(sentences.said_by(told.exception), f"2 members may be meant by Kim: {how}; nothing was written")

    def test_as_json(self) -> None:
        """What can't be done at all is a fault there, too."""
        said = office("check", "nowhere", "residents.csv", "--json")
        self.assertEqual((said.status, said.err), (1, "office: nowhere can't be read: no such file or directory\n"))
        self.assertEqual(json.loads(said.out), {"faults": [{
            "kind": "file", "code": "file.unread", "table": "", "sheet": None, "row": None, "column": None, "cells": [], "remedies": [],
            "cause": "nowhere can't be read: no such file or directory", "values": {"cause": "no such file or directory"}}]})
        self.write("residency-office.ini", "[tables]\nallow_gaps = maybe\n")
        said = office("check", "programmes.csv", "residents.csv", "--json")
        (fault,) = json.loads(said.out)["faults"]
        self.assertEqual((said.status, fault["code"], fault["row"], fault["table"]), (3, "file.setting-value", 2, "residency-office.ini"))
        self.write("residency-office.ini", "[match]\nsender = a\x9bb\n")
        said = office("check", "programmes.csv", "residents.csv", "--json")
        self.assertTrue(said.out[:-1].isprintable(), said.out)
        self.assertEqual([fault["values"] for fault in json.loads(said.out)["faults"]], [{"letter": "\x9b"}])


class Values(unittest.TestCase):
    def test_what_a_reader_apart_says(self) -> None:
        """An error of a step comes back from its process as it was, fault and all."""
        given = steps.Given("p", PROGRAMMES.encode())
        with self.assertRaises(OfficeError) as told:
            steps.look(given, "programmes", Settings(["Rang"]))
        self.assertEqual((told.exception.fault, told.exception.status, told.exception.at), (
            Fault("setting.heading", "", values={"text": "Rang", "roles": headings.ROLES}), 2, ""))
        self.assertEqual(str(told.exception), "setting.heading: text Rang, roles ('programme', 'resident', 'places', 'rank', 'id', 'given', 'family', 'withdrawn')")

    def test_each_error_has_a_sentence(self) -> None:
        """Every code of an error that stands in the package has one, and no sentence is left without a code."""
        package = Path(steps.__file__).parent
        text = "".join(path.read_text() for path in package.glob("*.py") if path.name != "sentences.py")
        codes = set(re.findall(r'OfficeError\("([a-z.-]+)"', text)) | {"reader.fault"} | set(re.findall(r'__init__\("(folder[a-z.-]+)"', text))
        self.assertEqual(codes, set(sentences.ERRORS))
        self.assertFalse(set(sentences.ERRORS) & set(sentences.SENTENCES))
        told = re.findall(r'\("([a-z]+)", what, name', (package / "changed.py").read_text())
        self.assertEqual({"sealed.withdrawn", "changed.back", "changed.withdrawn", *(f"changed.{code}" for code in told)}, set(sentences.OTHERWISE))

    def test_how_a_reader_ends(self) -> None:
        for code, values, text in (("reader.ended", {"ended": -11}, "what read this ended with status -11"),
                                   ("reader.silent", {}, "what read this gave no answer"),
                                   ("reader.slow", {"seconds": 1030}, "checking this needs more than 1030 s of a processor"),
                                   ("reader.memory", {"megabytes": 1040}, "checking this needs more than 1,040 MB of memory"),
                                   ("folder.large", {"files": 1_000_000, "megabytes": 2048},
                                    "t has more than 1,000,000 files or 2,048 MB, which no match has"),
                                   ("reader.fault", {"cause": "one\ntwo"}, "one\ntwo"),
                                   ("program.unchecked", {}, "the result doesn't pass its own audit and replay; nothing was written"),
                                   ("out.no-room", {"cause": "full"}, "t can't be written: full"),
                                   ("before.no-way", {}, "m: no withdrawal leads here from the docket that it names"),
                                   ("before.other-key", {}, "m: the key of the folder before is another one"),
                                   ("before.other-docket", {}, "m: the docket that was sealed is another one"),
                                   ("before.other-sheet", {}, "m: the sheet of the folder before is another one")):
            self.assertEqual(sentences.said_by(OfficeError(code, 1, "t", "m", **values)), text)
