"""The office's steps as a library: faults as values and as JSON, the settings file, and a process of its own for what strangers send."""
import ctypes
import io
import json
import os
import shutil
import signal
import subprocess
import tempfile
import threading
import time
import unittest
import zipfile
from pathlib import Path
from typing import Callable
from unittest import mock

import support
import test_books
from residency.office import apart, sentences, settings, steps, stopping, writing
from residency.office.apart import Limits
from residency.office.faults import Cell, OfficeError, Remedy
from residency.office.settings import Settings
from support import OFFICE, PROGRAMMES, RESIDENTS, OfficeTest, children, office

GIVEN = [steps.Given(f"{name}.csv", text.encode()) for name, text in (("programmes", PROGRAMMES), ("residents", RESIDENTS))]
# Sheets that take a reader long, or much memory: cells without a text, attributes, texts, and a part of blanks.
EMPTY = "".join(f'<row r="{row}">' + "<c/>" * 16000 + "</row>" for row in range(1, 901))
ATTRIBUTES = '<row r="1"><c ' + " ".join(f'a{number}=""' for number in range(1_500_000)) + "/></row>"
TEXTS = "<si><t>text</t></si>" * 6_000_000


class Values(OfficeTest):
    """Faults, notes and remedies as values, and as JSON."""

    def json(self, *words: str):
        said = office("check", *words, "--json")
        self.assertEqual((said.err, said.out.count("\n")), ("", 1))
        return said.status, json.loads(said.out)

    def test_a_fault_has_every_cell(self) -> None:
        """A name that the programmes' table misspells is one fault with each of its cells."""
        read = steps.check(GIVEN[0], steps.Given("r", RESIDENTS.replace("Zoë Brontë,", "Zoë Brontee,").encode()), Settings())
        (fault,) = read.faults.every()
        cells = [Cell("programmes", row, column) for row, column in ((2, 5), (4, 3))]
        self.assertEqual((fault.code, fault.table, fault.row, fault.column, fault.cells), ("unknown.near", "programmes", 2, 5, cells))
        self.assertEqual((dict(fault.values), fault.remedies), ({"owners": "resident", "name": "Zoë Brontë", "meant": "Zoë Brontee"}, ()))
        self.assertEqual(sentences.report(read.faults), [
            "programmes, row 2, cell 5 (E2): no resident is named Zoë Brontë; is it Zoë Brontee? (also in C4)"])
        self.assertIsNone(read.market)

    def test_a_check_as_json(self) -> None:
        tables = self.tables(PROGRAMMES, RESIDENTS.replace("Rank 2", "Rnak 2", 1))
        status, told = self.json(*tables)
        (fault, gap) = told["faults"]
        self.assertEqual((status, told["counts"], told["places"], told["notes"]), (3, {"heading": 2}, 0, []))
        self.assertEqual(gap["cause"], "no column is headed Rank 2, where cell 4 is headed Rank 3")
        self.assertEqual((gap["row"], gap["column"], gap["code"], gap["remedies"]), (1, 5, "heading.beside", []))
        self.assertEqual(fault, {
            "kind": "heading", "code": "heading.unknown", "table": "residents", "sheet": None, "row": 1, "column": 3,
            "cause": "Rnak 2 is no heading of this table; mend it, say what it is (--heading 'rank=Rnak'), or leave the column out "
                     "(--ignore 'Rnak 2')",
            "values": {"heading": "Rnak 2", "role": "rank", "word": "Rnak"}, "cells": [{"table": "residents", "row": 1, "column": 3, "name": "C1"}],
            "remedies": [{"setting": "heading", "value": "rank=Rnak"}, {"setting": "ignore", "value": "Rnak 2"}]})

    def test_a_check_without_a_fault_as_json(self) -> None:
        status, told = self.json(*self.tables(), "--keep", "Rank 9")
        self.assertEqual((status, [fault["code"] for fault in told["faults"]]), (3, ["heading.keep"]))
        status, told = self.json(*self.tables())
        self.assertEqual((status, told["faults"], told["counts"], told["places"]), (0, [], {}, 7))
        self.assertEqual([(table["table"], table["members"], table["encoding"], table["delimiter"]) for table in told["tables"]],
                         [("programmes", 4, "utf-8", ","), ("residents", 7, "utf-8", ",")])
        self.assertEqual([(note["code"], note["row"], note["cause"]) for note in told["notes"]], [
            ("note.alone", 8, "1 resident without a list whom nobody ranks: Rosa Rossi (row 8)")])

    def test_a_docket_as_json(self) -> None:
        docket = self.write("docket.csv", "Q,a,1\nP,b\n")
        said = office("lint", docket, "--json")
        self.assertEqual((said.status, said.err, json.loads(said.out)), (3, "", {"is_empty": False, "faults": [
            {"record": 2, "cell": 2, "text": "unknown name", "name": "b", "detail": "cell 2: b", "line": "record 2: unknown name (cell 2: b)"}]}))
        said = office("lint", self.write("empty.csv", ""), "--json")
        self.assertEqual((said.status, json.loads(said.out)), (3, {"faults": [], "is_empty": True}))

    def test_remedies_are_settings(self) -> None:
        """What a remedy changes is a setting by its name, and with it the fault is gone."""
        short = RESIDENTS.replace("Ana Silva,South Hospital,North Clinic,", "Ana Silva,South Hospital,North Clinic")
        (fault,) = steps.check(GIVEN[0], steps.Given("r", short.encode()), Settings()).faults.every()
        self.assertEqual((fault.code, fault.remedies), ("row.short", (Remedy("allow_short", True),)))
        self.assertIsNotNone(steps.check(GIVEN[0], steps.Given("r", short.encode()), Settings(allow_short=True)).market)

    def test_a_row_that_is_the_heading_is_a_remedy(self) -> None:
        """Of a title above the heading, in a check and in a look; with it all is read. Rows that are no heading are none."""
        for title, below in (("Residents of,2026,,\n", 2), ("Residents of,2026\n\nall of,them,\n", 4), ("Name,,,\n" + "x,,,\n" * 8, 10)):
            given = steps.Given("r", (title + RESIDENTS).encode())
            wanted = Remedy("heading_row", below, "residents")
            for faults in (steps.check(GIVEN[0], given, Settings()).faults, steps.look(given, "residents", Settings()).faults):
                self.assertEqual([fault.remedies[0] for fault in faults.every()], [wanted] * len(faults.every()), title)
                self.assertEqual({fault.kind for fault in faults.every()}, {"heading"})
            self.assertIsNotNone(steps.check(GIVEN[0], given, Settings(heading_row={"residents": below})).market)
        titled = steps.Given("p", b"Programmes,all\n" + PROGRAMMES.encode())
        read = steps.check(titled, steps.Given("r", RESIDENTS.replace("Rank 2", "Rnak 2").encode()), Settings())
        self.assertEqual([(fault.table, fault.code, len(fault.remedies)) for fault in read.faults.every()], [
            ("programmes", "heading.none", 1), ("residents", "heading.unknown", 2), ("residents", "heading.beside", 0)])
        for text in ("Residents of,2026,,\n" + "x,a\x07b,,\n" * 30 + RESIDENTS, "a,b\nc,d\n", RESIDENTS.replace("Rank 2", "Rnak 2")):
            read = steps.check(GIVEN[0], steps.Given("r", text.encode()), Settings())
            self.assertEqual([remedy for fault in read.faults.every() for remedy in fault.remedies if remedy.setting == "heading_row"], [], text[:30])
            self.assertEqual({fault.kind for fault in read.faults.every()}, {"heading"})

    def test_a_look_says_what_each_column_is(self) -> None:
        above = "Residents of 2026,,,\n" + RESIDENTS
        look = steps.look(steps.Given("r", above.encode()), "residents", Settings(heading_row={"residents": 2}))
        self.assertEqual((look.heading_row, look.headings, look.meanings, look.encoding, look.delimiter, look.sheets), (
            2, ["Applicant", "Rank 1", "Rank 2", "Rank 3"], ["resident", "rank 1", "rank 2", "rank 3"], "utf-8", ",", []))
        self.assertEqual((look.preview[0], len(look.preview), len(look.faults)), ((3, ["Ana Silva", "South Hospital", "North Clinic", ""]), 7, 0))


class Folders(OfficeTest):
    """Steps over a folder: what became of each choice, and the next year's settings."""

    def test_why_by_any_name(self) -> None:
        told: list = []
        run = steps.Run(str(self.run_tables()))
        for name in ("Omar Haddad", "omar-haddad", " Omar  Haddad", "Omar Haddad (omar-haddad)"):
            self.assertEqual([(why.programme, why.answer, why.rank, why.quota) for why in steps.why(run, name, progress=told.append)],
                             [("East Ward", "full", 2, 1), ("South Hospital", "full", 3, 1)])
        (one,) = steps.why(run, "Kim Lee", "west-infirmary")
        self.assertEqual((one.resident, one.programme, one.answer), ("Kim Lee", "West Infirmary", "better"))
        self.assertEqual(steps.why(run, "Rosa Rossi"), ())
        for words, code in ((("Omar Hadad",), "member.nobody"), (("East Ward",), "member.other-side"),
                            (("Kim Lee", "Kim Lee"), "member.other-side"), (("",), "member.empty")):
            with self.assertRaises(OfficeError) as error:
                steps.why(run, *words)
            self.assertEqual(error.exception.fault.code, code)
        self.assertEqual(told, ["why"] * 4)

    def test_the_settings_of_the_next_year(self) -> None:
        out = self.run_tables(PROGRAMMES.replace(",", ";"), "Residents,,,\n" + RESIDENTS, "out", "--heading-row", "residents=2", "--delimiter",
                              "programmes=;", "--title", "T")
        told: list = []
        self.assertEqual(steps.next(str(out), told.append),
                         Settings(heading_row={"residents": 2}, delimiter={"programmes": ";"}, title="T"))
        self.assertEqual(told, ["folder"])
        self.assertEqual(steps.next(str(self.run_tables(out="plain"))), Settings())
        manifest = json.loads((out / "manifest.json").read_text())
        for reading in ([], {"x": {}, "tables": {"heding": 1}}, {"tables": []}, {"match": {"heading_row": 2}}, {"residents": {"heading_row": 0}},
                        {"residents": {"encoding": "utf-99"}}, {"tables": {"heading": "rank=Rang"}}, {"match": {"title": ["a"]}}):
            (out / "manifest.json").write_text(json.dumps({**manifest, "reading": reading}))
            with self.assertRaises(OfficeError) as error:
                steps.next(str(out))
            self.assertEqual((error.exception.fault.code, error.exception.status, error.exception.at), ("folder.no-manifest", 3, str(out)))


class File(OfficeTest):
    """The settings file."""

    def test_what_is_written_is_read_again(self) -> None:
        wanted = Settings(["rank=Rang"], ["Remark"], ["Email", "Phone"], True, False, True, {"residents": "Sheet 2"}, {"programmes": 3},
                          {"residents": "cp1250"}, {"programmes": "\t", "residents": ";"}, {"residents": 900}, "The year", "table", True)
        text = settings.file_text(wanted, {"residents": ["a remark"]})
        self.assertEqual(settings.read_settings(text, "s"), wanted)
        self.assertEqual(settings.from_values(json.loads(json.dumps(settings.values_of(wanted)))), wanted)
        self.assertEqual(settings.read_settings(settings.file_text(Settings(), {}), "s"), Settings())

    def test_each_fault_has_its_line(self) -> None:
        path = self.write("s.ini", "title = x\n[tables]\nallow_gaps = maybe\nheding = rank=Rang\nheading = Rang\n\n[residents]\n# no\n"
                                   "encoding = utf-99\nheading_row = 0\nexpect = many\nsheet = a\nsheet = b\nnothing\n[year]\n")
        said = office("check", *self.tables(), "--settings", path)
        sections = "tables, programmes, residents, match"
        roles = "programme, resident, places, rank, id, given, family, withdrawn"
        self.assertEqual((said.status, said.out, said.err), (3, "", "".join(f"office: {path}, line {line}: {cause}\n" for line, cause in (
            (1, f"title stands above the first section; the sections are {sections}"),
            (3, "allow_gaps is maybe, where yes or no is wanted"),
            (4, "there is no setting heding in the section tables; there are heading, ignore, keep, allow_gaps, allow_short, allow_alone, "
             "allow_lost_letters, allow_alike, language_column"),
            (5, f"heading is Rang, where ROLE=WORD, where ROLE is one of {roles} is wanted"),
            (9, "encoding is utf-99, where a character set is wanted"), (10, "heading_row is 0, where a number from 1 is wanted"),
            (11, "expect is many, where a number is wanted"), (13, "sheet stands twice in the section residents"),
            (14, "nothing is no setting, which is written as name = value"), (15, f"there is no section year; there are {sections}")))))

    def test_from_tables_to_the_next_year(self) -> None:
        """The file beside the tables is read by each command, the command line wins, and the folder gives the settings again."""
        tables = self.tables(PROGRAMMES.replace(",", ";"), "Residents of 2026,,,\n" + RESIDENTS)
        path = str(self.folder / settings.NAME)
        said = office("settings", *tables, "--heading-row", "residents=2", "--title", "x")
        self.assertEqual(said.status, 2)
        said = office("settings", *tables, "--heading-row", "residents=2")
        self.assertEqual((said.status, said.out, said.err), (0, f"settings written to {path}\n", ""))
        lines = Path(path).read_text().splitlines()
        self.assertEqual([line for line in lines if line[:1] not in ("#", "")], [
            "[tables]", "[programmes]", "heading_row = 1", "encoding = utf-8", "delimiter = semicolon", "[residents]", "heading_row = 2",
            "encoding = utf-8", "delimiter = comma", "[match]"])
        self.assertIn("# column A, Applicant: resident", lines)
        Path(path).write_text("\n".join(lines).replace("#title =", "title = The year"))
        said = office("check", *tables)
        self.assertEqual((said.status, said.out.splitlines()[0]), (0, f"settings: {path}"))
        said = office("run", *tables, "--title", "Another", "--out", self.folder / "out", "--delimiter", "programmes=;")
        self.assertEqual((said.status, said.out.splitlines()[0]), (0, f"settings: {path}; of the command line: --delimiter, --title"))
        manifest = json.loads((self.folder / "out" / "manifest.json").read_text())
        self.assertEqual((manifest["title"], manifest["reading"]["match"], manifest["reading"]["residents"]), (
            "Another", {"title": "Another"}, {"heading_row": 2, "encoding": "utf-8", "delimiter": ","}))
        again = self.write("again.ini", "")
        os.remove(again)
        self.assertEqual(office("settings", self.folder / "out", "--out", again).status, 0)
        self.assertEqual(settings.values_of(settings.read_settings(Path(again).read_text(), "s")), manifest["reading"])
        said = office("settings", *tables)
        self.assertEqual((said.status, said.err), (2, f"office: {path} is there already; nothing was written\n"))

    def test_settings_of_tables_at_fault(self) -> None:
        """Each fault is told, and no file is written."""
        said = office("settings", *self.tables(PROGRAMMES.replace("Places", "Plaices"), RESIDENTS.replace("Rank 2", "Rnak 2")))
        self.assertEqual((said.status, said.out, self.left()), (3, "", []))
        lines = said.err.splitlines()
        self.assertEqual((lines[0].split(": ")[1], lines[-1]), ("programmes, row 1, cell 2 (B1)", "office: nothing was written"))
        self.assertTrue(any(line.startswith("office: residents, row 1, cell 3 (C1): Rnak 2 ") for line in lines), lines)

    def carried(self, out: str, *words: str) -> dict:
        """The settings that the folder of a command has, which holds."""
        said = office(*words, "--out", self.folder / out)
        self.assertEqual((said.status, said.err), (0, ""), said)
        self.assertEqual(office("verify", self.folder / out).status, 0)
        return json.loads((self.folder / out / "manifest.json").read_text()).get("reading", {})

    def test_folders_carry_the_settings_on(self) -> None:
        """What is sealed, matched, and withdrawn from, says how the tables were read; tables that are given anew say it themselves."""
        tables = self.tables("Programmes,,,,,\n" + PROGRAMMES)
        by = ["--heading-row", "programmes=2"]
        wanted = {"programmes": {"heading_row": 2}}
        self.assertEqual(self.carried("sealed", "seal", *tables, *by), wanted)
        sealed = str(self.folder / "sealed")
        self.assertEqual(self.carried("match", "run", sealed, "--order", "table"), wanted)
        self.assertEqual(self.carried("anew", "withdraw", sealed, "Kim Lee"), wanted)
        self.assertEqual(self.carried("less", "withdraw", str(self.folder / "match"), "Kim Lee"), wanted)
        said = {"programmes": {"heading_row": 2}, "match": {"title": "Again"}}
        self.assertEqual(self.carried("again", "run", *tables, "--seal", sealed, *by, "--title", "Again"), said)
        self.assertEqual(self.carried("plain", "run", self.write("p.csv", PROGRAMMES), tables[1]), {})
        self.assertEqual(self.carried("plainer", "withdraw", str(self.folder / "plain"), "Kim Lee"), {})

    def test_letters_read_the_settings(self) -> None:
        folder = self.run_tables()
        chosen = self.write("chosen.ini", "[match]\ntitle = Another title\n")
        said = office("letters", folder, "--settings", chosen, "--out", self.folder / "letters")
        self.assertEqual((said.status, said.err, said.out), (
            0, "", f"settings: {chosen}\n7 letters to residents and 4 to programmes written to {self.folder / 'letters'}\n"))
        self.assertIn("<h1>Another title</h1>", next((self.folder / "letters").glob("*.html")).read_text())
        said = office("letters", folder, "--settings", self.write("bad.ini", "[year]\n"), "--out", self.folder / "none")
        self.assertEqual((said.status, said.out, said.err), (3, "", (
            f"office: {self.folder / 'bad.ini'}, line 1: there is no section year; there are tables, programmes, residents, match\n")))


class Apart(OfficeTest):
    """A process of its own, with limits."""

    def bombs(self):
        yield "cells", test_books.sheet(EMPTY)
        yield "attributes", test_books.sheet(ATTRIBUTES)
        yield "texts", test_books.sheet('<row r="1"><c r="A1" t="s"><v>1</v></c></row>', TEXTS)
        yield "one text", test_books.sheet('<row r="1"><c r="A1" t="s"><v>1</v></c></row>', f"<si><t>{'text ' * 40_000_000}</t></si>")

    def test_one_that_cannot_be_started(self) -> None:
        """It is told as such, with what the system says of it, and not as an output that can't be written."""
        with mock.patch.object(apart, "Started", side_effect=OSError(11, "No more processes")), self.assertRaises(OfficeError) as told:
            apart.apart(Limits(1, 1), "read", (), print)
        self.assertEqual((told.exception.status, sentences.said_by(told.exception)), (1, "what reads this could not be started: no more processes"))

    def test_bombs_end_at_a_limit(self) -> None:
        """Each is told as a fault of its table, soon, and no process is left."""
        for name, data in self.bombs():
            self.assertLess(len(data), 8_000_000, name)
            before, started = children(os.getpid()), time.process_time()
            read = steps.check(GIVEN[0], steps.Given("bomb.xlsx", data), Settings(), limits=Limits(2, 200))
            (fault,) = read.faults.every()
            wanted = {"file.slow": "residents: reading this table needs more than 2 s of a processor: save it as CSV",
                      "file.memory": "residents: reading this table needs more than 200 MB of memory: save it as CSV"}
            if name == "attributes":
                wanted = {"file.too-many": "residents: the workbook has more than 1,048,576 bytes in one tag, and no more are read"}
            self.assertEqual((fault.table, sentences.report(read.faults)), ("residents", [wanted.get(fault.code)]), name)
            self.assertEqual((children(os.getpid()) - before, time.process_time() - started < 2), (set(), True), name)

    def test_a_zip_that_is_far_larger_unpacked(self) -> None:
        """Blanks of more than any table, of which a zip keeps a thousandth, and one part under many names."""
        data = test_books.sheet(" " * (257 << 20))
        self.assertLess(len(data), 1 << 20)
        read = steps.check(GIVEN[0], steps.Given("bomb.xlsx", data), Settings())
        self.assertEqual(sentences.report(read.faults), ["residents: the workbook has more than 256 MB, which is no table"])
        parts = test_books.planted.book([["Applicant", "Rank 1"]], {"xl/media": " " * (64 << 20)})
        name, others = b"xl/media", [b"xl/med%02d" % number for number in range(99)]
        at, end = parts.rindex(b"PK\x01\x02", 0, parts.rindex(name)), parts.rindex(b"PK\x05\x06")
        entry, tail = parts[at:parts.index(name, at) + len(name)], bytearray(parts[end:])
        begin, rest = int.from_bytes(tail[16:20], "little"), parts[at + len(entry):end]
        self.assertFalse(rest)
        more = b"".join(entry.replace(name, other) for other in others)
        count = int.from_bytes(tail[8:10], "little") + len(others)
        tail[8:12], tail[12:16] = count.to_bytes(2, "little") * 2, (end - begin + len(more)).to_bytes(4, "little")
        read = steps.check(GIVEN[0], steps.Given("bomb.xlsx", parts[:end] + more + bytes(tail)), Settings(), limits=Limits(5, 300))
        self.assertEqual(sentences.report(read.faults), ["residents, row 2, cell 1 (A2): no resident stands below the heading"])

    def test_a_zip_of_many_files(self) -> None:
        """Pictures and all, a workbook may have ten thousand files."""
        parts = len(zipfile.ZipFile(io.BytesIO(test_books.planted.book([]))).namelist())
        for count, told in ((60_000, f": the workbook is made of {60_000 + parts:,} files, more than 10,000, which is no table"),
                            (10_001 - parts, ": the workbook is made of 10,001 files, more than 10,000, which is no table"),
                            (10_000 - parts, ", row 1, cell 1 (A1): the table is empty")):
            data = test_books.planted.book([], {f"xl/{number}": "" for number in range(count)})
            read = steps.check(GIVEN[0], steps.Given("many.xlsx", data), Settings(), limits=Limits(20, 500))
            self.assertEqual(sentences.report(read.faults), [f"residents{told}"])

    def test_limits_grow_with_the_bytes(self) -> None:
        """Of what is read, and of a folder that is checked by a fifth of the memory."""
        self.assertEqual([Limits.of(count << 20) for count in (0, 1, 100)], [Limits(30, 1000), Limits(33, 1040), Limits(330, 5000)])
        (self.folder / "deep").mkdir()
        for name, size in (("a", 10), ("deep/b", 90)):
            with open(self.folder / name, "wb") as file:
                file.truncate(size << 20)
        os.symlink(self.folder / "a", self.folder / "link")
        limits = steps.limits_of(str(self.folder))
        self.assertEqual((limits.seconds, limits.megabytes), (330, 1800))

    def test_a_docket_that_takes_much(self) -> None:
        """Its faults come as they are found, the first one at once; a limit is told, and whoever asks no more ends the process."""
        docket = b"Q,a,1\n" + b"".join(b"R,%06x,b\n" % number for number in range(300_000)) + b"x" * (20 << 20)
        before = children(os.getpid())
        found = steps.lint(docket)
        self.assertEqual(str(next(found)), "record 20002: more than 20000 residents")
        self.assertEqual(len(children(os.getpid()) - before), 1)
        found.close()
        self.assertEqual(children(os.getpid()) - before, set())
        for limits, told in ((Limits(1, 4000), "checking this needs more than 1 s of a processor"),
                             (Limits(60, 5), "checking this needs more than 5 MB of memory")):
            with self.assertRaises(OfficeError) as error:
                list(steps.lint(docket, limits=limits))
            self.assertEqual((sentences.said_by(error.exception), error.exception.status), (told, 3))
            self.assertEqual(children(os.getpid()) - before, set())
        with mock.patch.object(steps.Limits, "of", lambda _: Limits(60, 5)):
            said = office("lint", self.write("docket.csv", docket), "--json")
        self.assertEqual((said.status, said.err), (3, "office: checking this needs more than 5 MB of memory\n"))
        (fault,) = json.loads(said.out)["faults"]
        self.assertEqual((fault["code"], fault["cause"], fault["values"]), (
            "reader.memory", "checking this needs more than 5 MB of memory", {"megabytes": 5}))

    def test_a_docket_in_threads(self) -> None:
        """The same faults as alone, from a new Python: each row but the first names its programme again, and one name is unknown."""
        docket = b"Q,a,1\n" + b"P,a,b\n" * 3000
        parts: list = []
        steps.linted(docket, parts.append)
        self.assertEqual([len(part) for part in parts], [1, 2, 4, 8, 16, 32, 64, 128, 256, 512, 1000, 977])
        alone, together = [str(fault) for fault in steps.lint(docket)], []
        threads = [threading.Thread(target=lambda: together.append([str(fault) for fault in steps.lint(docket)])) for _ in range(2)]
        for thread in threads:
            thread.start()
        for thread in threads:
            thread.join()
        self.assertEqual((len(alone), together), (3000, [alone, alone]))

    def test_four_at_once_in_threads(self) -> None:
        """Each has its own answer; mask and folder stay as they were, and files are made with their mode all the while."""
        found, told, old = {}, [], os.umask(0o077)
        self.addCleanup(os.umask, old)
        folder = os.getcwd()

        def one(number: int) -> None:
            residents = steps.Given("r", (RESIDENTS + f"Member {number} A,North Clinic,,\n").encode())
            found[number] = steps.check(GIVEN[0], residents, Settings(), told.append)

        threads = [threading.Thread(target=one, args=(number,)) for number in range(4)]
        for thread in threads:
            thread.start()
        modes = set()
        while any(thread.is_alive() for thread in threads):
            path = self.folder / f"{len(os.listdir(self.folder))}"
            writing.umask()
            writing.write_new(path, b"")
            modes.add(path.stat().st_mode & 0o777)
        self.assertEqual({number: list(read.market.resident_lists)[-1] for number, read in found.items()},
                         {number: f"Member {number} A" for number in range(4)})
        self.assertEqual((modes, os.getcwd(), sorted(told)), ({0o600}, folder, sorted(["programmes", "residents", "lists"] * 4)))
        self.assertEqual(os.umask(0o077), 0o077)

    def test_four_steps_at_once_in_threads(self) -> None:
        """A look, a check, a folder's check and its reasons answer together what each answers alone."""
        out = str(self.run_tables())
        docket = (self.folder / "out" / "docket.csv").read_bytes()
        run, title = steps.Run(out), steps.Given("r", b"Residents\n" + RESIDENTS.encode())
        def looked() -> tuple:
            look = steps.look(title, "residents", Settings())
            return look.headings, look.preview, look.faults.every()

        does = (looked, lambda: steps.check(*GIVEN, Settings()).market.docket(),
                lambda: steps.verify(out).verdict(), lambda: (steps.why(run, "Kim Lee"), steps.next(out), list(steps.lint(docket[5:]))))
        alone, together = [step() for step in does], [[], [], [], []]

        def again(place: int) -> None:
            for _ in range(3):
                together[place].append(does[place]())

        threads = [threading.Thread(target=again, args=(place,)) for place in range(4)]
        before, folder = children(os.getpid()), os.getcwd()
        for thread in threads:
            thread.start()
        for thread in threads:
            thread.join()
        self.assertEqual(repr(together), repr([[answer] * 3 for answer in alone]))
        self.assertEqual((children(os.getpid()) - before, os.getcwd(), alone[1]), (set(), folder, docket))

    def test_a_signal_at_any_moment_of_any_step(self) -> None:
        """A step is done, or it is stopped: no process goes on, and nothing is left half written. Each is tried with signals over its whole
        time, some with --full by the hundred."""
        self.assertEqual(ctypes.CDLL(None).prctl(36, 1, 0, 0, 0), 0)
        self.addCleanup(ctypes.CDLL(None).prctl, 36, 0, 0, 0, 0)
        run = steps.Run(str(self.run_tables()))
        docket, out = run.market.docket(), self.folder / "new"
        large = steps.Given("r", (RESIDENTS + "".join(f"Member {number} A,North Clinic,,\n" for number in range(3000))).encode())
        temporary = self.folder / "temporary"
        temporary.mkdir()
        self.enter(mock.patch.dict(os.environ, TMPDIR=str(temporary)))
        self.enter(mock.patch.object(tempfile, "tempdir", str(temporary)))
        does = {
            "look": lambda: steps.look(large, "residents", Settings()), "check": lambda: steps.check(GIVEN[0], large, Settings()),
            "lint": lambda: list(steps.lint(docket * 300)), "match": lambda: steps.match(run.market, run.details),
            "seal": lambda: steps.seal(str(out), run.market, run.details, steps.Wishes(), {}),
            "withdraw": lambda: steps.withdraw(run, either=["Kim Lee"]), "compare": lambda: steps.compare(run, run),
            "letters": lambda: steps.letters(run).page(), "write": lambda: steps.write(str(out), steps.match(run.market, run.details),
                                                                                     steps.Wishes(), {}),
            "verify": lambda: steps.verify(str(run.at)), "why": lambda: steps.why(run, "Kim Lee"), "next": lambda: steps.next(run.at)}
        every = set()
        for name, step in does.items():
            started = time.monotonic()
            self.assertEqual(self.stopped(step, 0, 1000), 0, name)
            whole, ends = time.monotonic() - started, set()
            count = 200 if support.FULL else 9
            for place in range(count):
                shutil.rmtree(out, ignore_errors=True)
                ends.add(self.stopped(step, stopping.SIGNALS[place % 3], whole * place / count))
                self.assertEqual((os.listdir(temporary), [name_left for name_left in self.left() if name_left not in ("out", "new", "temporary")]), ([], []), name)
                self.assertEqual(out.exists(), (out / "SHA256SUMS").exists(), name)
            self.assertLessEqual(ends, {0, 1}, name)
            every |= ends
            shutil.rmtree(out, ignore_errors=True)
        self.assertIn(1, every)

    def stopped(self, step: Callable[[], object], number: int, wait: float) -> int:
        """How a process ends that does a step as the command does and gets a signal after so long; whatever it started has ended then."""
        before = signal.pthread_sigmask(signal.SIG_BLOCK, stopping.SIGNALS)
        pid = os.fork()
        if not pid:
            status = 2
            try:
                with stopping.stoppable():
                    signal.pthread_sigmask(signal.SIG_SETMASK, before)
                    step()
                    # A signal after that is the test's own matter, and would end it as it ends any process.
                    signal.pthread_sigmask(signal.SIG_BLOCK, stopping.SIGNALS)
                    status = 0
            except stopping.Stopped:
                stopping.clean()
                status = 1
            finally:
                os._exit(status)
        signal.pthread_sigmask(signal.SIG_SETMASK, before)
        if number:
            time.sleep(wait)
            os.kill(pid, number)
        status = os.waitstatus_to_exitcode(os.waitpid(pid, 0)[1])
        # What it left is this process's own now, and has a moment to end.
        until = time.monotonic() + 5
        while time.monotonic() < until:
            try:
                if os.waitpid(-1, os.WNOHANG)[0] == 0:
                    time.sleep(0.01)
            except ChildProcessError:
                return status
        self.fail(f"a process goes on after a step was stopped: {children(os.getpid())}")

    def test_a_signal_ends_the_reader_too(self) -> None:
        tables = [self.write("programmes.csv", PROGRAMMES), self.write("residents.xlsx", test_books.sheet(EMPTY))]
        out = ["--out", str(self.folder / "out")]
        for number, wait, words in ((signal.SIGINT, 0, ["check"]), (signal.SIGTERM, 0.3, ["check"]), (signal.SIGHUP, 1, ["seal", *out]),
                                    (signal.SIGINT, 1, ["run", *out]), (signal.SIGTERM, 0, ["run", *out]), (signal.SIGINT, 2, ["seal", *out])):
            with subprocess.Popen([OFFICE, *words, *tables], stdout=subprocess.PIPE, stderr=subprocess.PIPE) as running:
                readers: set = set()
                while not readers and running.poll() is None:
                    # What the launcher started before it was the command is no reader. A process keeps the short name of the one that
                    # started it until the launcher runs, so its program tells.
                    is_command = "python" in os.path.realpath(f"/proc/{running.pid}/exe")
                    readers = children(running.pid) if is_command else set()
                time.sleep(wait)
                running.send_signal(number)
                said, err = running.communicate(timeout=20)
            self.assertEqual((running.returncode, said, err, len(readers)), (1, b"", b"office: interrupted\n", 1))
            self.assertEqual(self.left(), ["residents.xlsx"])
            self.assertFalse(any(os.path.exists(f"/proc/{reader}") for reader in readers))


class Sentences(unittest.TestCase):
    def test_each_code_that_is_told_has_a_sentence(self) -> None:
        """Every code that stands in the package has a sentence, and every sentence a code."""
        package = Path(steps.__file__).parent
        text = "".join(path.read_text() for path in package.glob("*.py") if path.name not in ("sentences.py", "apart.py"))
        apart = (package / "apart.py").read_text()
        for code in sentences.SENTENCES:
            kind, _, what = code.partition(".")
            self.assertTrue(any(f'"{word}"' in text + apart for word in (code, what, code.removesuffix("-near"))), code)
            self.assertIn(kind, {*sentences.MANY, "note"})
