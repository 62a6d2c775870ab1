"""The desk's calls against the commands: the same walk gives the same folders byte for byte, the same faults, lines and answers."""
import contextlib
import io
import json
import os
import re
import shutil
import signal
import stat
import subprocess
import tempfile
import time
import zipfile
from pathlib import Path
from typing import Any, Dict, Iterator, List, Tuple
from unittest import mock

import desks
import test_desk_requests
from residency.office import seal, sentences
from support import OFFICE, PROGRAMMES, RESIDENTS, OfficeTest, office

DAY, LATER = "2026-03-20", "2026-03-21"
SETTINGS = """\
[tables]
keep = Email
[match]
title = Zoë’s match <b>
sender = The office | 12 Lane
appeals = Write to us.
signature = Dr. Kim
order = table
language = de
"""
# The residents with a column that is kept.
KEPT = RESIDENTS.replace("\n", ",a@example.org\n").replace("Rank 3,a@example.org", "Rank 3,Email", 1)
SECRET = b"01" * 32 + b"\n"
Files = Dict[str, Tuple[int, bytes]]


def files_of(path: Path) -> Files:
    """Each file below a folder: its mode and its bytes; and the modes of folders."""
    found = {file.relative_to(path).as_posix(): file for file in [path, *path.rglob("*")]}
    return {name: (stat.S_IMODE(file.lstat().st_mode), b"" if file.is_dir() else file.read_bytes()) for name, file in found.items()}


@contextlib.contextmanager
def another_user() -> Iterator[None]:
    """Does what follows as nobody, which root alone may."""
    with contextlib.ExitStack() as back:
        for change, own, other in ((os.setgroups, os.getgroups(), []), (os.setegid, 0, 65534), (os.seteuid, 0, 65534)):
            back.callback(change, own)
            change(other)
        yield


class DeskTest(OfficeTest):
    """A test with a desk that runs in this process, started in the test's folder."""

    def setUp(self) -> None:
        super().setUp()
        stack = contextlib.ExitStack()
        self.addCleanup(stack.close)
        self.desk = stack.enter_context(desks.running(self.folder))
        # A manifest has the paths of tables as they were given, and a browser gives the names of files alone.
        self.addCleanup(os.chdir, os.getcwd())
        os.chdir(self.folder)

    def tables(self, *texts: Any) -> List[str]:
        return [os.path.basename(path) for path in super().tables(*texts)]

    def give(self, programmes: str = PROGRAMMES, residents: str = RESIDENTS) -> None:
        """Gives two tables to the desk, and writes them for the command."""
        for path, text in zip(self.tables(programmes, residents), (programmes, residents)):
            self.desk.give(Path(path).stem, text.encode())

    def saved(self, name: str) -> Path:
        """A folder of the desk, saved."""
        out = self.folder / f"saved-{name}"
        self.assertEqual(self.desk.call("save", folder=name, out=out.name), str(out))
        return out

    def done(self, *words: object) -> List[str]:
        """The lines of a command that has to be done."""
        said = office(*map(str, words))
        self.assertEqual((said.status, said.err), (0, ""), said)
        return said.out.splitlines()

    def same(self, desk: Path, command: Path) -> None:
        """Two folders with the same files, and no file that isn't there."""
        one, other = files_of(desk), files_of(command)
        self.assertEqual({*one}, {*other})
        self.assertEqual([name for name in one if one[name] != other[name]], [])


class Folders(DeskTest):
    def test_a_match(self) -> None:
        self.give()
        self.assertEqual(self.desk.call("match", day=DAY), "match")
        self.done("run", *self.tables(), "--out", self.folder / "out", "--date", DAY)
        self.same(self.saved("match"), self.folder / "out")

    def test_a_match_with_settings_and_a_column_that_is_kept(self) -> None:
        self.give(residents=KEPT)
        values = self.desk.call("open_settings", name="residency-office.ini", text=SETTINGS)
        self.assertEqual(self.desk.call("match", day=DAY, settings=values), "match")
        path = self.write("own.ini", SETTINGS)
        self.done("run", *self.tables(PROGRAMMES, KEPT), "--out", self.folder / "out", "--date", DAY, "--settings", path)
        self.same(self.saved("match"), self.folder / "out")

    def test_withdrawals_and_a_comparison(self) -> None:
        self.give(residents=KEPT)
        values = self.desk.call("open_settings", name="residency-office.ini", text=SETTINGS)
        self.desk.call("match", day=DAY, settings=values)
        before = self.saved("match")
        self.done("settings", before, "--out", self.folder / "next.ini")
        for number, (side, option, name) in enumerate((("R", "--resident", "Kim Lee"), ("P", "--programme", "East Ward"))):
            told = self.desk.call("withdraw", folder="match", member=name, side=side, day=LATER)
            out = self.folder / f"out-{number}"
            self.done("withdraw", before, option, name, "--out", out, "--date", LATER, "--settings", self.folder / "next.ini")
            self.same(self.saved(told["folder"]), out)
            lines = self.done("compare", before, out, "--names")
            compared = self.desk.call("compare", before="match", now=told["folder"])
            self.assertEqual([f"{what}: {was} before, {now} now" for what, was, now in compared["figures"]], lines[:10])
            self.assertEqual(compared["said"], lines[10])
            self.assertEqual([f"{who}: {what}; {was} -> {now}" for what, who, was, now in compared["changes"]], lines[11:])
            self.assertEqual(told["changes"], compared["changes"])
        self.assertEqual(sorted(self.desk.desk.folders), ["match", "match-without", "match-without-2"])

    def test_a_second_round(self) -> None:
        self.give()
        self.desk.call("match", day=DAY)
        before = self.saved("match")
        self.assertEqual(self.desk.call("next", folder="match"), "next-round")
        self.done("next", before, "--out", self.folder / "out-next")
        self.same(self.saved("next-round"), self.folder / "out-next")
        # By hand: nobody is at West Infirmary, which has 3 places, and Fatima Kovács is unmatched.
        second = ("Programme,Places,Rank 1\nWest Infirmary,2,Fatima Kovács\n", "Applicant,Rank 1\nFatima Kovács,West Infirmary\nNew Person,West Infirmary\n")
        self.give(*second)
        answer = self.desk.said("match", day=LATER, after="match")[-1]
        (fault,) = answer["faults"]["faults"]
        self.assertEqual((answer["error"], fault["code"], fault["cause"]),
                         ("the tables are at fault", "name.new", "New Person isn't in match; write the name as it stands there"))
        self.assertEqual(self.desk.call("match", day=LATER, after="match", new="yes"), "match-2")
        self.done("run", *self.tables(*second), "--after", before, "--allow-new", "--out", self.folder / "out", "--date", LATER)
        self.same(self.saved("match-2"), self.folder / "out")

    def test_a_sealed_match(self) -> None:
        self.enter(mock.patch.object(seal, "new_secret", lambda: SECRET))
        self.give()
        self.assertEqual(self.desk.call("seal", day=DAY), "sealed")
        sealed = self.saved("sealed")
        self.done("seal", *self.tables(), "--out", self.folder / "out-sealed", "--date", DAY)
        self.same(sealed, self.folder / "out-sealed")
        told = self.desk.call("withdraw", folder="sealed", member="Kim Lee", side="R", day=DAY)
        self.assertEqual(told, {"folder": "sealed-without", "changes": []})
        self.done("withdraw", sealed, "Kim Lee", "--out", self.folder / "out-without", "--date", DAY)
        self.same(self.saved("sealed-without"), self.folder / "out-without")
        self.assertEqual(self.desk.said("why", folder="sealed", member="Kim Lee")[-1], {"error": "sealed has no match: it was sealed, and run comes next"})
        self.assertEqual(self.desk.call("match", sealed="sealed", day=LATER, settings={"match": {"cut_offs": True}}), "match")
        self.done("run", sealed, "--out", self.folder / "out", "--date", LATER, "--cut-offs")
        self.same(self.saved("match"), self.folder / "out")
        said = {folder["name"]: folder["sealed"] for folder in self.desk.call("state")["folders"]}
        roots = dict(line.split(",")[0::2] for line in (self.folder / "out" / "root.txt").read_text().splitlines())
        self.assertEqual(said["match"], {"members": 11, "lists": roots["lists"], "result": roots["result"]})

    def test_all_as_one_zip(self) -> None:
        out = self.run_tables()
        self.desk.call("open", path="out")
        answer = self.desk.fetched(self.desk.call("view", folder="out", file=""))
        self.assertEqual(answer.headers["Content-Disposition"], "attachment; filename*=UTF-8''out.zip")
        with zipfile.ZipFile(io.BytesIO(answer.data)) as archive:
            packed = {name: archive.read(name) for name in archive.namelist()}
        self.assertEqual(packed, {f"out/{name}": data for name, (_, data) in files_of(out).items() if (out / name).is_file()})

    def test_nothing_is_saved_over_what_is_there(self) -> None:
        self.give()
        self.desk.call("match", day=DAY)
        self.write("here", "x")
        (self.folder / "link").symlink_to("nowhere")
        for out in ("here", "link", "programmes.csv", "."):
            told = self.desk.said("save", folder="match", out=out)[-1]
            self.assertEqual(told, {"error": f"{self.folder / out if out != '.' else str(self.folder) + '/.'} is there already; nothing was written"})
        self.assertEqual(self.desk.said("save", folder="match", out="")[-1], {"error": "'' can't be written: it is no path"})
        self.assertEqual(self.desk.said("save", folder="match", out="no/such")[-1]["error"].split(":")[0], f"{self.folder}/no/such can't be written")
        self.assertEqual(self.left(), ["here", "link"])
        self.assertEqual([folder["is_saved"] for folder in self.desk.call("state")["folders"]], [False])
        self.same(self.saved("match"), self.desk.desk.room / "match")
        self.assertEqual([folder["is_saved"] for folder in self.desk.call("state")["folders"]], [True])


class Answers(DeskTest):
    def test_the_counter_says_what_the_command_says(self) -> None:
        out = self.run_tables()
        self.desk.call("open", path="out")
        for name in ("Kim Lee", "Fatima Kovács", "Rosa Rossi"):
            self.assertEqual(self.desk.call("why", folder="out", member=name), self.done("why", out, name))
            letter = self.desk.fetched(self.desk.call("letter", folder="out", member=name, day=LATER))
            self.assertEqual((letter.status, letter.headers["Content-Type"]), (200, "text/plain; charset=utf-8"))
            self.assertEqual(letter.data.decode().splitlines(), self.done("why", out, name, "--letter", "--date", LATER))

    def test_a_part_of_a_name_finds_members(self) -> None:
        two = "Applicant,ID,Rank 1\nKim Lee,1,North\nKim Lee,2,North\nŁukasz O'Lee-Kim,3,North\nAnn Le,4,North\n"
        self.give("Programme,ID,Places,Rank 1\nNorth Kim,9,1,1\n", two.replace("North", "North Kim"))
        self.desk.call("match", day=DAY)
        for part, side, labels in (
                ("kim", "R", ["Kim Lee (1)", "Kim Lee (2)", "Łukasz O'Lee-Kim (3)"]), ("LEE k", "R", ["Kim Lee (1)", "Kim Lee (2)", "Łukasz O'Lee-Kim (3)"]),
                ("kim", "", ["North Kim (9)", "Kim Lee (1)", "Kim Lee (2)", "Łukasz O'Lee-Kim (3)"]), ("2", "R", ["Kim Lee (2)"]), ("lé", "R", ["Kim Lee (1)", "Kim Lee (2)",
                 "Łukasz O'Lee-Kim (3)", "Ann Le (4)"]), ("im", "R", []), ("", "R", []), (" - ", "R", []), ("kim", "P", ["North Kim (9)"])):
            told = self.desk.call("members", folder="match", part=part, side=side)
            self.assertEqual(([label for _, _, label, _ in told["members"]], told["count"]), (labels, len(labels)), part)
        told = self.desk.call("members", folder="match", part="kim lee", side="R")["members"]
        self.assertEqual(told[1], ["R", "resident", "Kim Lee (2)", "Kim Lee (2)"])
        self.assertEqual(self.desk.call("why", folder="match", member=told[1][3])[0], "Kim Lee (2)")

    def test_so_many_members_and_no_more(self) -> None:
        names = [f"Kim {chr(97 + n)}{chr(97 + n)}" for n in range(20)]
        self.give("Programme,Places,Rank 1\nNorth,1,Kim aa\n", "Applicant,Rank 1\n" + "".join(f"{name},North\n" for name in names))
        self.desk.call("match", day=DAY)
        told = self.desk.call("members", folder="match", part="kim", side="R")
        self.assertEqual(([member[2] for member in told["members"]], told["count"]), (names[:12], 20))

    def test_verify_says_what_the_command_says(self) -> None:
        self.give()
        out = self.run_tables()
        self.desk.call("open", path="out")
        wanted = self.done("verify", out)
        *lines, last = self.desk.said("verify", folder="out")
        self.assertEqual([f"{what}: {said}" if what else said for what, said, _ in (line["progress"] for line in lines)], wanted[:-1])
        self.assertEqual(last["answer"]["wrong"], [])
        self.assertEqual(", ".join(last["answer"]["held"]), wanted[-1].split("; ")[0])
        self.assertEqual(last["answer"]["unchecked"], ["lists and names, for want of the tables (--tables)"])
        *lines, last = self.desk.said("verify", folder="out", tables="yes")
        self.assertEqual(last["answer"]["unchecked"], [])
        self.assertIn(["tables", "the files that the manifest names, and the docket and key that they give", True], [line.get("progress") for line in lines])
        (out / "page.html").write_bytes((out / "page.html").read_bytes().replace(b"Kim", b"Tim"))
        self.assertEqual(self.desk.call("verify", folder="out")["wrong"], ["files"])

    def test_verify_takes_the_published_roots(self) -> None:
        self.enter(mock.patch.object(seal, "new_secret", lambda: SECRET))
        self.give()
        self.desk.call("seal", day=DAY)
        self.desk.call("match", sealed="sealed", day=DAY)
        sealed = next(folder["sealed"] for folder in self.desk.call("state")["folders"] if folder["name"] == "match")
        lists, result = (f"{sealed['members']},{sealed[word]}" for word in ("lists", "result"))
        self.assertEqual(self.desk.call("verify", folder="match", lists=lists, result=result)["wrong"], [])
        self.assertEqual(self.desk.call("verify", folder="match", lists=lists.replace("11,", "12,"), result=result)["wrong"], ["published"])
        self.assertEqual(self.desk.call("verify", folder="match", lists=lists)["unchecked"],
                         ["lists and names, for want of the tables (--tables)", "what was published, for want of --result"])
        self.assertEqual(self.desk.said("verify", folder="match", lists="1,2")[-1],
                         {"error": "1,2 is no root: it has 64 small hexadecimal digits, after the number of members and a comma"})

    def test_a_folder_that_isnt_there_isnt_open(self) -> None:
        for path in ("nowhere", "", "programmes.csv"):
            self.assertEqual(self.desk.said("open", path=path)[-1], {"error": f"{path} is no folder"})
        (self.folder / "empty").mkdir()
        self.assertEqual(self.desk.call("open", path="empty"), "empty")
        self.assertEqual(self.desk.said("why", folder="empty", member="Kim")[-1], {"error": f"{self.folder}/empty: manifest.json can't be read: no such file or directory"})
        out = self.run_tables()
        self.assertEqual(self.desk.call("state")["near"], ["out"])
        self.assertEqual(self.desk.call("open", path=str(out)), "out")
        other = self.folder / "other"
        other.mkdir()
        out.rename(other / "out")
        self.assertEqual(self.desk.call("open", path="other/out"), str(other / "out"))


class Tables(DeskTest):
    def test_faults_are_those_of_the_command(self) -> None:
        programmes, residents = PROGRAMMES.replace("North Clinic,2", "North Clinic,two").replace("Omar Haddad,\n", "Omar Hadad,\n"), RESIDENTS.replace("Applicant", "Person X")
        for pair in ((programmes, RESIDENTS), (programmes, residents), (PROGRAMMES, RESIDENTS + "Total,,,\n")):
            self.give(*pair)
            told, wanted = self.desk.call("check"), json.loads(office("check", *self.tables(*pair), "--json").out)
            self.assertEqual([{**fault, "cause": ""} for fault in told["faults"]["faults"]], [{**fault, "cause": ""} for fault in wanted["faults"]])
            self.assertEqual({kind: count for kind, (count, _) in told["faults"]["kinds"].items()}, wanted["counts"])
            self.assertEqual((told["faults"]["count"], told["ready"]), (sum(wanted["counts"].values()), False))

    def test_no_sentence_of_the_desk_names_an_option(self) -> None:
        self.assertEqual({code for code, sentence in sentences.DESK.items() if isinstance(sentence, str) and "--" in sentence}, set())
        cases = {"heading.several": {"heading": "Platz", "roles": ["rank", "places"]},
                 "file.phrase-values": {"name": "x", "values": []}, "file.some-ids": {"count": 1, "of": 2, "owners": "resident", "name": "Kim"},
                 "file.kind": {"what": "pdf"}, "file.no-sheet": {"sheet": "Table", "sheets": []}, "heading.none": {"owners": "resident", "cells": ("a",)}, "note.shared": {"names": [("Kim", ["1", "2"])]},
                 "row.other-mark": {"other": ";", "delimiter": ",", "declared": False, "sheet": None}}
        self.assertEqual({*cases}, {code for code, sentence in sentences.DESK.items() if not isinstance(sentence, str)})
        for code, values in cases.items():
            self.assertNotIn("--", sentences.as_sentence(sentences.DESK[code], values), code)
        # Each sentence of the command that names an option has another one at the desk.
        self.assertEqual({code for code, sentence in sentences.TEXTS["SENTENCES"].items() if "--" in sentence} - {*sentences.TEXTS["DESK"]}, set())

    def test_rows_at_fault_are_shown_wherever_they_stand(self) -> None:
        rows = [f"Person {chr(97 + n // 26)}{chr(97 + n % 26)},North" for n in range(100)]
        rows[89] = "Person x,Nort"
        self.give("Programme,Places,Rank 1\nNorth,1,Person aa\n", "\n".join(["Applicant,Rank 1", *rows, ""]))
        look = self.desk.call("check")["looks"]["residents"]
        self.assertEqual(look["rows"], [[number + 2, rows[number].split(",")] for number in (*range(10), 89)])
        self.assertEqual((look["heading_row"], look["headings"], look["meanings"], look["title"], look["delimiter"]), (1, ["Applicant", "Rank 1"], ["resident", "rank 1"], "UTF-8", ","))

    def test_a_table_of_an_unknown_set_is_shown_in_each(self) -> None:
        names = ["Dvořák", "Łukasz", "Šimůnek", "Křížová", "Žižka"]
        text = "Applicant,Rank 1\n" + "".join(f"{name},North\n" for name in names)
        self.desk.give("residents", text.encode("cp1250"))
        told = self.desk.call("check")
        (fault,) = told["faults"]["faults"]
        self.assertEqual((fault["code"], fault["values"]["sets"][0][0]), ("file.set", "windows-1250"))
        self.assertEqual(fault["values"]["sets"][0][1], names[:3])
        told = self.desk.call("check", settings={"residents": {"encoding": "cp1250"}})
        self.assertEqual([row for _, (row, _) in told["looks"]["residents"]["rows"]], names)

    def test_one_table_alone_is_checked(self) -> None:
        self.desk.give("programmes", PROGRAMMES.replace(",2,", ",x,").encode())
        told = self.desk.call("check")
        self.assertEqual(([fault["code"] for fault in told["faults"]["faults"]], [*told["looks"]], told["ready"]), (["places.no-number"], ["programmes"], False))

    def test_settings_are_saved_as_the_command_saves_them(self) -> None:
        self.give()
        values = {"tables": {"ignore": ["Rank 4"]}, "match": {"title": "T", "sender": "a | b"}, "residents": {"expect": 7}}
        text = self.desk.call("save_settings", settings=values)
        own = self.write("own.ini", "[tables]\nignore = Rank 4\n[match]\ntitle = T\nsender = a | b\n[residents]\nexpect = 7\n")
        self.done("settings", *self.tables(), "--settings", own, "--out", self.folder / "out.ini")
        self.assertEqual(text, (self.folder / "out.ini").read_text(encoding="utf-8"))
        again = self.desk.call("open_settings", name="x.ini", text=text)
        self.assertEqual(again["match"], values["match"])
        self.assertEqual(self.desk.call("save_settings", settings=again), text)

    def test_settings_at_fault_are_told(self) -> None:
        told = self.desk.said("open_settings", name="<b>.ini", text="[match]\nshell = x\norder = any\n")[-1]["error"].splitlines()
        self.assertEqual(told[0].split(";")[0], "<b>.ini, line 2: there is no setting shell in the section match")
        self.assertEqual(told[1], "<b>.ini, line 3: order is any, where name or table is wanted")

    def test_the_settings_of_last_year_are_taken_from_its_folder(self) -> None:
        self.give(residents=KEPT)
        values = self.desk.call("open_settings", name="x.ini", text=SETTINGS)
        self.desk.call("match", day=DAY, settings=values)
        self.assertEqual(self.desk.call("open_settings", folder="match"), values)

    def test_tables_stay_in_memory(self) -> None:
        self.give()
        self.desk.call("check")
        self.assertEqual(os.listdir(self.desk.desk.room), [])
        self.assertEqual(stat.S_IMODE(self.desk.desk.room.stat().st_mode), 0o700)


class Command(OfficeTest):
    """The desk as the command starts it, in a process of its own."""

    def start(self, *words: str, **env: str) -> Any:
        room = self.folder / "tmp"
        room.mkdir(exist_ok=True)
        process = subprocess.Popen([OFFICE, "desk", *words], stdout=subprocess.PIPE, stderr=subprocess.PIPE, text=True, encoding="utf-8",
                                   env={**os.environ, "TMPDIR": str(room), **env}, cwd=self.folder)
        self.addCleanup(process.stderr.close)
        self.addCleanup(process.stdout.close)
        self.addCleanup(process.wait)
        self.addCleanup(process.kill)
        found = re.fullmatch(r"the desk is open at http://127\.0\.0\.1:([0-9]+)/#([A-Za-z0-9_-]{43})\n", process.stdout.readline())
        self.assertIsNotNone(found)
        self.assertEqual(process.stdout.readline(), "it ends by its button, with its window, or by Ctrl-C here; what isn't saved goes with it\n")
        server = mock.Mock(port=int(found[1]), token=found[2])
        return process, desks.Running(mock.Mock(), server, mock.Mock())

    def ended(self, process: Any) -> Tuple[int, str, str]:
        """How it ended, and what it said; nothing of it is left."""
        out, err = process.communicate(timeout=desks.SECONDS)
        self.assertEqual(os.listdir(self.folder / "tmp"), [])
        return process.returncode, out, err

    def test_it_runs_until_its_button(self) -> None:
        out = self.run_tables()
        process, desk = self.start("out", "--no-browser")
        (room,) = (self.folder / "tmp").iterdir()
        self.assertEqual((stat.S_IMODE(room.stat().st_mode), [path.name for path in room.iterdir()]), (0o700, ["desk.html"]))
        self.assertEqual(stat.S_IMODE((room / "desk.html").stat().st_mode), 0o600)
        self.assertEqual([folder["name"] for folder in desk.call("state")["folders"]], ["out"])
        self.assertEqual(desk.call("why", folder="out", member="Kim Lee"), office("why", out, "Kim Lee").out.splitlines())
        self.assertEqual(desk.ask("POST", "/close").lines(), [{"answer": "closed"}])
        self.assertEqual(self.ended(process), (0, "the desk is closed\n", ""))

    def test_a_signal_ends_it_and_nothing_is_left(self) -> None:
        self.run_tables()
        for number in (signal.SIGINT, signal.SIGTERM):
            process, desk = self.start("--no-browser")
            desk.give("programmes", PROGRAMMES.encode())
            desk.give("residents", RESIDENTS.encode())
            desk.call("match", day=DAY)
            process.send_signal(number)
            self.assertEqual(self.ended(process), (1, "", "office: interrupted\n"))

    def test_what_a_killed_desk_left_goes_with_the_next(self) -> None:
        process, desk = self.start("--no-browser")
        desk.give("programmes", PROGRAMMES.encode())
        process.kill()
        process.communicate()
        (left,) = os.listdir(self.folder / "tmp")
        process, desk = self.start("--no-browser")
        desk.ask("POST", "/close")
        self.assertEqual(self.ended(process), (0, "the desk is closed\n", f"office: a run that was killed left {left}, which was removed\n"))

    def test_two_desks_know_nothing_of_each_other(self) -> None:
        (first, one), (second, other) = self.start("--no-browser"), self.start("--no-browser")
        self.assertNotEqual((one.host, one.server.token), (other.host, other.server.token))
        one.give("residents", RESIDENTS.encode())
        self.assertEqual([desk.call("state")["tables"] for desk in (one, other)], [{"residents": "residents.csv"}, {}])
        self.assertEqual(one.ask("POST", "/close", X_Desk_Token=other.server.token).status, 401)
        for process, desk in ((first, one), (second, other)):
            desk.ask("POST", "/close")
            process.wait(desks.SECONDS)
        self.assertEqual([self.ended(first), self.ended(second)], [(0, "the desk is closed\n", "")] * 2)

    def test_the_browser_is_given_a_private_file_and_not_the_token(self) -> None:
        script = self.write("browser", '#!/bin/sh\nprintf "%s" "$*" > opened.part\nmv opened.part opened\n')
        os.chmod(script, 0o755)
        process, desk = self.start(BROWSER=script)
        end = time.monotonic() + desks.SECONDS
        while not (self.folder / "opened").is_file() and time.monotonic() < end:
            time.sleep(0.02)
        (room,) = (self.folder / "tmp").iterdir()
        self.assertEqual((self.folder / "opened").read_text(), (room / "desk.html").as_uri())
        self.assertEqual((room / "desk.html").read_text(), f'<!doctype html><meta http-equiv="refresh" content="0;url=http://{desk.host}/#{desk.server.token}">\n')
        desk.ask("POST", "/close")
        self.assertEqual(self.ended(process), (0, "the desk is closed\n", ""))

    def test_another_user_of_the_machine_gets_nothing(self) -> None:
        """No file, no word of the desk's process, and of its server the refusals alone; where the folder around is open to all."""
        if os.geteuid():
            self.skipTest("root alone can be another user")
        around = Path(tempfile.mkdtemp(dir="/tmp"))
        self.addCleanup(shutil.rmtree, around)
        self.addCleanup(os.umask, os.umask(0))
        around.chmod(0o777)
        process, desk = self.start("--no-browser", TMPDIR=str(around))
        for table, text in (("programmes", PROGRAMMES), ("residents", RESIDENTS)):
            desk.give(table, text.replace("Omar", "Wolfhart").encode())
        desk.call("check", settings={"match": {"sender": "Amalienbad"}})
        desk.call("match", day=DAY)
        room, own = next(path for path in around.iterdir() if path.is_dir()), Path(f"/proc/{process.pid}")
        inside = [room, *room.rglob("*")]
        self.assertIn(b"Wolfhart", b"".join(path.read_bytes() for path in inside if path.is_file()))
        (around / "open").write_text("for all")
        secrets = [word.encode() for word in (desk.server.token, "Wolfhart", "Amalienbad")]
        with another_user():
            self.assertEqual((room.name in os.listdir(around), (around / "open").read_text()), (True, "for all"))
            for path in [*inside, *(own / name for name in ("environ", "mem", "maps", "fd", "cwd"))]:
                with self.assertRaises(PermissionError, msg=path):
                    os.open(path, os.O_RDONLY)
            lines = {}
            for path in [*(Path(at, name) for at, _, names in os.walk(around) for name in names), *own.iterdir(), *Path("/proc").glob("[0-9]*/cmdline")]:
                with contextlib.suppress(OSError):
                    lines[path] = path.read_bytes()
            self.assertLessEqual({around / "open", own / "cmdline"}, {*lines})
            self.assertEqual([path for path, line in lines.items() if any(secret in line for secret in secrets)], [])
            for name, asked in test_desk_requests.HOSTILE.items():
                if asked.status in (401, 403, 421):
                    request = asked.request.replace(b"PORT", b"%d" % desk.server.port).replace(b"HOST", desk.host.encode()).replace(b"TOKEN", b"A" * 43)
                    self.assertEqual(desk.raw(request), test_desk_requests.Requests.whole(asked.status, asked.text), name)
        self.assertEqual([*desk.call("state")["tables"]], ["programmes", "residents"])

    def test_without_a_screen_the_address_is_told(self) -> None:
        bare = {name: value for name, value in os.environ.items() if name not in ("DISPLAY", "WAYLAND_DISPLAY", "BROWSER")}
        self.enter(mock.patch.dict(os.environ, bare, clear=True))
        process, desk = self.start()
        self.assertEqual(process.stderr.readline(), "office: no browser was opened: open the address above\n")
        desk.ask("POST", "/close")
        self.assertEqual(self.ended(process), (0, "the desk is closed\n", ""))

    def test_a_folder_that_isnt_there_is_told(self) -> None:
        self.assertEqual(office("desk", "nowhere", "--no-browser"), (1, "", "office: nowhere is no folder\n"))
        (self.folder / "empty").mkdir()
        said = office("desk", str(self.folder / "empty"), "--no-browser")
        self.assertEqual((said.status, said.out), (1, ""))
