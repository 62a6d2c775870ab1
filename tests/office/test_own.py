"""Texts of the office's own: one with a character that is no letter is refused where it comes in, and nothing is written."""
import contextlib
import csv
import hashlib
import io
import json
import os
import shutil
from pathlib import Path
from typing import Iterator

import desks
from residency.office.cells import Cells
from residency.office.faults import Faults
from residency.office.phrases import FOLDER
from residency.office.settings import Settings
from support import OfficeTest, office

# What none may have, each as an error shows it: controls, what is for private use, and what is no character.
ODD = {"\x1b": r"\x1b", "\x07": r"\x07", "\x0c": r"\x0c", "\x7f": r"\x7f", "\x85": r"\x85", "\ue000": r"\ue000", "\ufdd0": r"\ufdd0"}
# Half of a pair, which no file has; and what some texts may have, and others not.
HALF, TAB, LINE, LINES = {"\ud800": r"\ud800"}, {"\t": r"\t"}, {"\n": r"\n"}, {"\u2028": r"\u2028", "\u2029": r"\u2029"}
# What each may have beside letters: what joins two, and a blank that breaks no line.
GOOD = "\u200d\xa0"


class Own(OfficeTest):
    """Where they come in: from a file, on the command line, with a folder, and at the desk."""

    def refused(self, error: str, *words: object, status: int = 3) -> None:
        before, said = self.left(), office(*words)
        self.assertEqual((said, self.left()), ((status, "", f"office: {error}\n"), before), words)

    def unverified(self, at: Path) -> str:
        """What is told of a folder that doesn't hold."""
        said = office("verify", at)
        self.assertEqual((said.status, said.err), (4, ""))
        return said.out

    def letters(self, *words: object) -> Path:
        """The letters that a run writes, which has to be done."""
        shutil.rmtree(self.folder / "taken", ignore_errors=True)
        said = office("run", *self.tables(), "--out", self.folder / "taken", "--date", "2026-03-20", *words)
        self.assertEqual((said.status, said.err), (0, ""), words)
        return self.folder / "taken" / "letters"

    def test_settings(self) -> None:
        run, own = ["run", *self.tables(), "--out", self.folder / "out"], str(self.folder / "own.ini")
        for name in ("title", "sender", "appeals", "signature"):
            for c, shown in {**ODD, **LINES, **TAB}.items():
                self.write("own.ini", f"\r\n[match]\r# ours\r\n{name} = a{c}b\n")
                self.refused(f"{own}, line 4: the character {shown} is no letter", *run, "--settings", own)
        for c, shown in {**ODD, **LINES}.items():
            blank = (f"{c}title = T", c, f"order = table{c}", f"[tables]{c}") if c.isspace() else ()
            for text in (f"title = T{c}", f"# a remark{c}sender = S", *blank):
                self.write("own.ini", f"[match]\n{text}\n")
                self.refused(f"{own}, line 2: the character {shown} is no letter", *run, "--settings", own)
        self.write("residency-office.ini", "[match]\nsender = a\x1bb\nappeals = a\tb\n")
        self.refused(f"{self.folder}/residency-office.ini, line 2: the character \\x1b is no letter\n"
                     f"office: {self.folder}/residency-office.ini, line 3: the character \\t is no letter", *run)
        (self.folder / "residency-office.ini").unlink()
        self.write("own.ini", f"\ufeff[match]\r\n\tsender\t=\ta{GOOD}b | c\t\r\n# a remark\twith a tab = a\tb\r\n\t\r\n")
        self.assertTrue((self.letters("--settings", own) / "kim-lee.txt").read_text(encoding="utf-8").startswith(f"a{GOOD}b\nc\n\n"))

    def test_templates(self) -> None:
        run, own, each = ["run", *self.tables(), "--out", self.folder / "out"], str(self.folder / "own.txt"), self.folder / "templates"
        match = self.run_tables(out="match")
        each.mkdir()
        (each / "letter.txt").write_text("$name\n", encoding="utf-8")
        for number, (c, shown) in enumerate(ODD.items()):
            text = (f"$name\r\r\n\tTo a{c}b\n", f"$name\n\n$outcome{c}", f"\n\n{c}\n")[number % 3]
            for path in (own, str(each / "lost-out.txt"), str(each / "programme.txt")):
                Path(path).write_bytes(text.encode("utf-8"))
                for words in (run, ["letters", match, "--out", self.folder / "out"], ["letters", match, "--preview", "1"]):
                    self.refused(f"{path}, line 3: the character {shown} is no letter", *words, "--template", own if path == own else each)
                Path(path).unlink()
        self.write("own.txt", f"\ufeff$name\r\n\tTo\tyou{GOOD}\u2028$choice\r\n")
        self.assertEqual((self.letters("--template", own) / "kim-lee.txt").read_bytes().decode("utf-8"), f"Kim Lee\n\tTo\tyou{GOOD}\u20281st\n")

    def test_phrases(self) -> None:
        run, own = ["run", *self.tables(), "--out", self.folder / "out"], str(self.folder / "own.txt")
        lines = (FOLDER / "de.txt").read_text(encoding="utf-8").split("\n")
        at = next(at for at, line in enumerate(lines) if line.startswith("letter.list ="))
        for c, shown in {**ODD, **LINES, **TAB}.items():
            for end in ("\n", "\r\n"):
                self.write("own.txt", end.join([*lines[:at], f"letter.list = Ihre{c}Liste:", *lines[at + 1:]]))
                self.refused(f"{own}, line {at + 1}: the character {shown} is no letter", *run, "--language", own)
        for c, shown in {**ODD, **LINES}.items():
            for line in (f"letter.list = Liste:{c}", f"# Liste{c}x = y\nletter.list = Liste:"):
                self.write("own.txt", "\n".join([*lines[:at], line, *lines[at + 1:]]))
                self.refused(f"{own}, line {at + 1}: the character {shown} is no letter", *run, "--language", own)
        self.write("own.txt", "\ufeff" + "\r\n".join([*lines[:at], f"letter.list\t=\tIhre{GOOD}Liste:\t", "#\ta\tremark", *lines[at + 1:]]))
        self.assertIn(f"\nIhre{GOOD}Liste:\n\n", (self.letters("--language", own) / "kim-lee.txt").read_text(encoding="utf-8"))

    def test_titles_of_the_line(self) -> None:
        """These are refused as ever: what is no text, and what can't be shown."""
        run = ["run", *self.tables(), "--out", self.folder / "out"]
        for c, shown in {"\x1b": r"\x1b", "\x07": r"\x07", "\x7f": r"\x7f", "\ue000": r"\ue000", "\ufdd0": r"\ufdd0", "\u200d": r"\u200d"}.items():
            self.refused(f"the title a{shown}b has a character that is no letter", *run, "--title", f"a{c}b", status=2)
        self.refused(r"a\ud800b is no text", *run, "--title", "a\ud800b", status=2)

    def test_manifests(self) -> None:
        """What a folder says of itself, as an office doesn't write it."""
        room, at, new = self.folder, self.run_tables(), self.folder / "new"
        self.assertEqual(office("seal", *self.tables(), "--out", room / "sealed").status, 0)
        words = (["letters", at, "--out", new], ["letters", at, "--preview", "1"], ["withdraw", at, "Kim Lee", "--out", new], ["settings", at, "--out", new],
                 ["why", at, "Kim Lee", "--letter"], ["auditor", at, "--out", new], ["next", at, "--out", new], ["run", room / "sealed", "--out", new])
        manifests = {path: json.loads((path / "manifest.json").read_text(encoding="utf-8")) for path in (at, room / "sealed")}

        def change(**said: object) -> None:
            for path, manifest in manifests.items():
                (path / "manifest.json").write_text(json.dumps({**manifest, **said}), encoding="utf-8")

        lines = (FOLDER / "de.txt").read_text(encoding="utf-8").split("\n")
        for c, shown in {**ODD, **HALF, **TAB, **LINES, **LINE}.items():
            for name, said in (("title", {"title": f"a{c}b"}), ("appeals", {"letter": {"appeals": f"a{c}b"}}),
                               ("signature", {"reading": {"match": {"sender": "a", "signature": f"a{c}b"}}}),
                               ("keep", {"reading": {"residents": {"delimiter": "\t"}, "tables": {"keep": ["a", f"a{c}b"]}}})):
                change(**said)
                for line in words:
                    path = room / ("sealed" if line[0] == "run" else "out")
                    self.refused(f"{path}/manifest.json: {name} has the character {shown}, which is no letter", *line)
                if c == "\x1b":
                    self.assertIn(f"\nmade again: {name} has the character {shown}, which is no letter\n", self.unverified(at))
            change(language={"own": "\n".join([*lines[:7], f"# a{c}b", *lines[7:]])})
            for line in (line for line in words if line[0] not in ("settings", "auditor") and c in "\x1b\x0c"):
                self.refused(f"manifest.json: phrases, line 8: the character {shown} is no letter", *line)
        half = "a\ud800b"
        for said in ({"language": {"own": half}}, {"template": {"letter": half}}, {"details": [half]}, {"tables": [half]}, {half: 1}):
            change(**said)
            for line in words:
                self.refused(f"{room / ('sealed' if line[0] == 'run' else 'out')}: manifest.json isn't one that office wrote", *line)
        for error, said in (("manifest.json: phrases, line 8: the character \\x1b is no letter", {"language": {"own": "\n".join([*lines[:7], "# a\x1bb", *lines[7:]])}}),
                            ("the template, line 2: the character \\x1b is no letter", {"template": {"letter": "$name\na\x1bb"}}),
                            ("title has the character \\ud800, which is no letter", {"title": "a\ud800b"})):
            change(**said)
            self.assertIn(f"\nmade again: {error}\n", self.unverified(at))
        change(title=f"a{GOOD}b", letter={"sender": f"c{GOOD}d"}, reading={"match": {"signature": f"e{GOOD}f"}, "residents": {"delimiter": "\t"}})
        self.assertEqual(office("letters", at, "--out", new).status, 0)
        self.assertTrue((new / "kim-lee.txt").read_text(encoding="utf-8").startswith(f"c{GOOD}d\n\n"))
        self.assertIn(f"<h1>a{GOOD}b</h1>", (new / "letters.html").read_text(encoding="utf-8"))
        self.assertEqual(office("settings", at, "--out", room / "next.ini").status, 0)
        made = (room / "next.ini").read_text(encoding="utf-8")
        self.assertIn(f"\nsignature = e{GOOD}f\n", made)
        self.assertIn("\ndelimiter = tab\n", made)

    def test_names_of_a_folder(self) -> None:
        """Its names, IDs and kept columns, as another may have written them, with their hashes: they would come into letters."""
        match, sealed, new = self.folder / "match", self.folder / "sealed", self.folder / "new"
        programmes = "Programme,Places,Rank 1\nNorth,1,I 1\n"
        residents = "ID,First name,Family name,Email,Rank 1\nI 1,Zoë,Brontë,me@work,North\nI 2,Kim,Lee,,\n"
        for command, out in (("run", match), ("seal", sealed)):
            said = office(command, *self.tables(programmes, residents), "--out", out, "--keep", "Email")
            self.assertEqual((said.status, said.err), (0, ""))
        of_match = (["letters", match, "--out", new], ["letters", match, "--preview", "1"], ["withdraw", match, "Kim Lee", "--out", new],
                    ["why", match, "Kim Lee", "--letter"], ["compare", match, match], ["next", match, "--out", new])
        of_sealed = (["run", sealed, "--out", new], ["withdraw", sealed, "Kim Lee", "--out", new])
        # In which file a text stands, and the text, parted where the sign comes in.
        texts = (("key", "Zoë", " Brontë"), ("key", "I", " 1"), ("table", "Em", "ail"), ("table", "Bront", "ë"), ("table", "me@", "work"))
        for c, shown in {**ODD, **LINES, **TAB, **LINE, "\xad": r"\xad", "\u202e": r"\u202e"}.items():
            for out, table, lines in ((match, "matches.csv", of_match), (sealed, "details.csv", of_sealed)):
                for name, before, after in ((table if name == "table" else "key.csv", before, after) for name, before, after in texts):
                    with self.changed(out, name, f"{before}{after}", f"{before}{c}{after}"):
                        for line in lines if c == "\x1b" else lines[:1]:
                            self.refused(f"{out}: {name}: {before}{shown}{after} has the character {shown}, which is no letter", *line)

    @contextlib.contextmanager
    def changed(self, out: Path, name: str, before: str, after: str) -> Iterator[None]:
        """A cell of a folder's table, with its hash, is another one; and then what it was."""
        data, manifest = (out / name).read_bytes(), (out / "manifest.json").read_bytes()
        rows = [[cell.replace(before, after) for cell in row] for row in csv.reader(io.StringIO(data.decode("utf-8"), newline=""))]
        with (out / name).open("w", encoding="utf-8", newline="") as file:
            csv.writer(file, lineterminator="\n").writerows(rows)
        self.assertNotEqual((out / name).read_bytes(), data)
        said = json.loads(manifest)
        said["sha256"][name] = hashlib.sha256((out / name).read_bytes()).hexdigest()
        (out / "manifest.json").write_text(json.dumps(said), encoding="utf-8")
        yield
        (out / name).write_bytes(data)
        (out / "manifest.json").write_bytes(manifest)

    def test_what_the_desk_is_told(self) -> None:
        """By its page, or by a file of settings."""
        with desks.running(self.folder) as running:
            for table, path in zip(("programmes", "residents"), self.tables()):
                running.give(table, Path(path).read_bytes())
            for c, shown in {**ODD, **HALF, **TAB, **LINES, **LINE}.items():
                for name, call in (("title", "match"), ("sender", "seal"), ("appeals", "save_settings"), ("signature", "check"), ("keep", "save_settings")):
                    self.assertEqual(running.said(call, settings={"tables": {name: [f"a{c}b"]}} if name == "keep" else {"match": {name: f"a{c}b"}}), [
                        {"error": f"{name} has the character {shown}, which is no letter"}])
                    if c not in LINE and name != "keep":
                        self.assertEqual(running.said("open_settings", name="own.ini", text=f"[match]\n{name} = a{c}b\n"), [
                            {"error": f"own.ini, line 2: the character {shown} is no letter"}])
            self.assertEqual((running.desk.settings, running.desk.folders, os.listdir(running.desk.room), self.left()), (Settings(), {}, [], []))
            name = running.call("match", settings={"match": {"title": f"a{GOOD}b", "sender": f"c{GOOD}d | e"}})
            letter = running.desk.room / name / "letters" / "kim-lee.txt"
            self.assertTrue(letter.read_text(encoding="utf-8").startswith(f"c{GOOD}d\ne\n\n"))

    def test_cells_have_the_same(self) -> None:
        """A line's end of Unicode is a blank there."""
        for c in {**ODD, **HALF, **LINES, **dict.fromkeys(GOOD)}:
            found = Cells("residents", ",", Faults()).fault(2, f"a{c}b")
            self.assertEqual(found, ("row.no-letter", {"text": f"a{c}b"}) if c in {**ODD, **HALF} else None, ascii(c))
