"""Sealed matches: what seal, run and withdraw write, which tables are refused, what may be published, and what verify finds."""
import csv
import hashlib
import io
import json
import os
import re
import signal
import stat
import subprocess
import sys
import time
from pathlib import Path
from typing import Dict, List
from unittest import mock

from residency import find_program
from residency.errors import ProgramFailed, ProgramMissing
from residency.office import seal as sealing
from support import PROGRAMMES, RESIDENTS, SAMPLES, TOP, OfficeTest, office, spawn
from test_safe import SLOW

sys.path.insert(0, str(TOP / "tests" / "seal"))
import derivation  # noqa: E402

WITHDRAWN = "Zoë Brontë"


def mode_of(path: Path) -> int:
    return stat.S_IMODE(os.lstat(path).st_mode)


def derived(folder: Path, matched: bool) -> derivation.Sealed:
    """What the docket and the key of a folder give with its secret, by the derivation of tests/seal."""
    key = csv.reader(io.StringIO((folder / "key.csv").read_text(encoding="utf-8")))
    market = derivation.read((folder / "docket.csv").read_bytes())._replace(names={(row[0], row[1]): (row[2], "".join(row[3:])) for row in key})
    secret = bytes.fromhex((folder / "secret.txt").read_text().strip())
    return derivation.Sealed(market, derivation.match(market) if matched else None, secret)


class Sealed(OfficeTest):
    """Tests over a folder `sealed` of the small tables, and `match`, its match."""

    def setUp(self) -> None:
        super().setUp()
        old = os.umask(0o022)
        self.addCleanup(os.umask, old)

    def sealed(self, *words: str, out: str = "sealed", programmes: str = PROGRAMMES, residents: str = RESIDENTS) -> Path:
        said = office("seal", *self.tables(programmes, residents), "--out", self.folder / out, "--date", "2026-03-10", *words)
        self.assertEqual((said.status, said.err), (0, ""), said)
        self.said = said.out.splitlines()
        return self.folder / out

    def matched(self, sealed: Path, *words: str, out: str = "match") -> Path:
        said = office("run", sealed, "--out", self.folder / out, "--date", "2026-03-20", *words)
        self.assertEqual((said.status, said.err), (0, ""), said)
        self.said = said.out.splitlines()
        return self.folder / out

    def receipts(self, folder: Path) -> List[bytes]:
        """The receipts of a folder, in the order of its docket."""
        found: Dict[str, bytes] = {}
        for path in (folder / "receipts").iterdir():
            found[path.read_bytes().split(b"\n")[0].decode()] = path.read_bytes()
        return [found[f"receipt,2,{side},{name}"] for side, name in derivation.read((folder / "docket.csv").read_bytes()).members()]


class Written(Sealed):
    def test_what_seal_writes(self) -> None:
        out = self.sealed()
        files = sorted(path.relative_to(out).as_posix() for path in out.rglob("*") if path.is_file())
        members = ["programme-east-ward", "programme-north-clinic", "programme-south-hospital", "programme-west-infirmary",
                   "resident-ana-silva", "resident-fatima-kovacs", "resident-jurgen-gross", "resident-kim-lee", "resident-omar-haddad",
                   "resident-rosa-rossi", "resident-zoe-bronte"]
        self.assertEqual(files, sorted(["SHA256SUMS", "docket.csv", "key.csv", "manifest.json", "root.txt", "secret.txt",
                                        "public/check.html", "public/root.txt", *(f"receipts/{name}.txt" for name in members)]))
        own = derived(out, False)
        self.assertEqual((out / "root.txt").read_bytes(), own.roots())
        self.assertEqual((out / "public" / "root.txt").read_bytes(), own.roots())
        self.assertEqual(self.receipts(out), own.receipts())
        self.assertEqual(self.said[-3:], ["11 members sealed, each with a receipt; written to " + str(out),
                                          "publish what is in public/, and these roots wherever members look:", own.roots().decode().strip()])
        self.assertRegex((out / "secret.txt").read_text(), r"\A[0-9a-f]{64}\n\Z")
        self.assertEqual(json.loads((out / "manifest.json").read_text())["sealed"], {
            "members": 11, "lists": own.trees()["lists"].root, "result": ""})

    def test_who_may_read_what(self) -> None:
        out = self.sealed()
        match = self.matched(out)
        again = self.folder / "again"
        self.assertEqual(office("withdraw", match, WITHDRAWN, "--out", again).status, 0)
        for folder in (out, match, again):
            for path in (folder, *folder.rglob("*")):
                is_public = "public" in path.relative_to(folder).parts
                wanted = (0o755 if is_public else 0o700) if path.is_dir() else 0o644 if is_public else 0o600
                self.assertEqual(oct(mode_of(path)), oct(wanted), path)

    def test_each_secret_is_another(self) -> None:
        secrets = {(self.sealed(out=f"sealed{number}") / "secret.txt").read_text() for number in range(3)}
        self.assertEqual(len(secrets), 3)

    def test_what_run_adds(self) -> None:
        sealed = self.sealed()
        match = self.matched(sealed)
        own = derived(match, True)
        for name in ("docket.csv", "secret.txt", "key.csv"):
            self.assertEqual((match / name).read_bytes(), (sealed / name).read_bytes())
        self.assertEqual((match / "root.txt").read_bytes(), own.roots())
        self.assertEqual((match / "root.txt").read_bytes().splitlines()[0], (sealed / "root.txt").read_bytes().strip())
        self.assertEqual(self.receipts(match), own.receipts())
        self.assertEqual(self.said[-2:], own.roots().decode().splitlines())
        self.assertEqual((match / "sheet.csv").read_bytes(), (self.run_tables(out="plain") / "sheet.csv").read_bytes())

    def test_a_run_that_is_not_sealed_has_no_more_than_before(self) -> None:
        out = self.run_tables()
        self.assertEqual([name for name in ("secret.txt", "root.txt", "receipts", "public") if (out / name).exists()], [])
        self.assertNotIn("sealed", (out / "letters" / "kim-lee.txt").read_text(encoding="utf-8"))

    def test_tables_that_say_the_same(self) -> None:
        sealed = self.sealed()
        lines = RESIDENTS.splitlines(True)
        said = office("run", *self.tables(PROGRAMMES, "".join([lines[0], *reversed(lines[1:])])), "--seal", sealed, "--out",
                      self.folder / "match")
        self.assertEqual((said.status, said.err), (0, ""))
        self.assertEqual((self.folder / "match" / "docket.csv").read_bytes(), (sealed / "docket.csv").read_bytes())

    def test_kept_columns_and_family_names(self) -> None:
        residents = "First name,Last name,Email,Rank 1\nAna,Silva,a@x.org,South Hospital\nKim,Lee,k@x.org,\nZoë,Brontë,,East Ward\nJürgen,Groß,,\nOmar,Haddad,,\n"
        sealed = self.sealed("--keep", "Email", residents=residents)
        match = self.matched(sealed)
        plain = self.folder / "plain"
        self.assertEqual(office("run", *self.tables(PROGRAMMES, residents), "--keep", "Email", "--out", plain).status, 0)
        self.assertEqual((match / "matches.csv").read_bytes(), (plain / "matches.csv").read_bytes())
        self.assertIn("a@x.org", (match / "matches.csv").read_text(encoding="utf-8"))

    def test_kept_columns_alone(self) -> None:
        """They are handed on where nobody's family name is known, and the folder says which they are."""
        sealed = self.sealed("--keep", "Email", residents="Name,Email,Rank 1\nKim Lee,k@x.org,East Ward\nZoë Brontë,,East Ward\n",
                             programmes="Programme,Places,Rank 1\nEast Ward,1,Kim Lee\n")
        self.assertEqual(json.loads((sealed / "manifest.json").read_text(encoding="utf-8"))["details"], ["Email"])
        self.assertIn(",k@x.org", (self.matched(sealed) / "matches.csv").read_text(encoding="utf-8"))

    def test_real_names(self) -> None:
        """Each receipt is sealed with the real name and the ID, as the key has them, and tells them first."""
        names = ['Seán "Shay" O\'Brien', "Lee, Kim", "=Ana", "李雷", "Zoë Brontë"]
        table = io.StringIO(newline="")
        csv.writer(table).writerows([["Applicant", "ID", "Rank 1"], *([name, f"7{number}", "East Ward"] for number, name in enumerate(names))])
        match = self.matched(self.sealed(programmes="Programme,Places,Rank 1\nEast Ward,2,Zoë Brontë\n", residents=table.getvalue()))
        own = derived(match, True)
        self.assertEqual(self.receipts(match), own.receipts())
        for (side, name), receipt in zip(own.names, own.receipts()):
            path = self.folder / "receipt.csv"
            path.write_bytes(receipt)
            done = subprocess.run([sys.executable, str(TOP / "examples" / "check-receipt.py"), *(f"--{word}={tree.root}" for word, tree in own.trees().items()), str(path)],
                                  capture_output=True, check=False, env={**os.environ, "LC_ALL": "C", "PYTHONIOENCODING": "ascii"})
            number = int(name) - 70 if side == "R" else 0
            wanted = "East Ward" if side == "P" else f"{names[number].replace('=', chr(39) + '=')} (7{number})"
            self.assertEqual(done.stdout.decode("utf-8").splitlines()[0], f"{wanted} is {name} in the lists.")

    def test_no_letter_has_the_hash_of_the_docket(self) -> None:
        """A template of a sealed match may not ask for it, in either form; and no file that is given away has it, or the sheet's, or the key's."""
        sealed = self.sealed()
        for line in ("$docket_sha256", "a ${docket_sha256} b", "$$$docket_sha256"):
            template = self.write("letter.txt", f"$name\n{line}\n")
            match = self.matched(sealed, out=f"match{len(line)}")
            for words in (["run", sealed], ["letters", match], ["withdraw", match, "Kim Lee"]):
                said = office(*words, "--template", template, "--out", self.folder / "refused")
                self.assertEqual((said.status, said.out, said.err, (self.folder / "refused").exists()), (
                    3, "", f"office: {template}, line 2: $docket_sha256 is a hash from which others' lists can be guessed, and this match is "
                    "sealed; $lists_root and $result_root are the published roots\n", False))
        hashes = [hashlib.sha256((match / name).read_bytes()).hexdigest() for name in ("docket.csv", "sheet.csv", "key.csv")]
        for path in (path for part in ("letters", "receipts", "rosters", "public") for path in (match / part).iterdir()):
            self.assertEqual([digest for digest in hashes if digest[:16] in path.read_text(encoding="utf-8")], [], path)
        template = self.write("letter.txt", "$$docket_sha256 of $name\n")
        letter = self.matched(sealed, "--template", template, out="own") / "letters" / "kim-lee.txt"
        self.assertEqual(letter.read_text(encoding="utf-8"), "$docket_sha256 of Kim Lee\n")

    def test_letters_tell_the_roots(self) -> None:
        match = self.matched(self.sealed())
        lists, result = (row.split(",")[2] for row in (match / "root.txt").read_text().split())
        letter = (match / "letters" / "kim-lee.txt").read_text(encoding="utf-8")
        told = " ".join(letter[letter.index("Your list was sealed"):].split())
        self.assertEqual(told, "Your list was sealed before the match, and your result after it, under these published roots of 11 "
                         f"members: {lists} {result} To check yours: 1. Open the page check.html that the office published. 2. Choose your receipt "
                         "there, the file that the office gave you, unchanged. The page shows your own name first. 3. Compare the roots that the page shows with those above.")
        self.assertEqual(letter[letter.index("To check yours"):].splitlines(), [
            "To check yours:", "1. Open the page check.html that the office published.", "2. Choose your receipt there, the file that the office gave you, unchanged. The page shows your own name first.",
            "3. Compare the roots that the page shows with those above."])
        # A page breaks lines by itself: of a blank before a root a telephone makes an empty line.
        for name in ("letters.html", "rosters.html"):
            page = (match / name).read_text(encoding="utf-8")
            self.assertIn(f"members:\n\n{lists}\n{result}\n\nTo check yours:\n1.", page)
            self.assertEqual(re.findall(r"(?m)^[ \t]+\S.*", page[page.index("<main>"):]), [])
        for language in ("de", "es", "fr", "pl"):
            letter = (self.matched(self.folder / "sealed", "--language", language, out=language) / "letters" / "kim-lee.txt").read_text(encoding="utf-8")
            below = letter[letter.index(f"  {result}\n"):].splitlines()
            self.assertEqual([line[:2] for line in below[3:6]], ["1.", "2.", "3."], language)
            self.assertTrue("check.html" in below[3] and len(max(below, key=len)) < 130, language)
        again = self.folder / "letters"
        template = self.write("letter.txt", "$name\n$lists_root\n$result_root\n")
        self.assertEqual(office("letters", match, "--template", template, "--out", again).status, 0)
        self.assertEqual((again / "kim-lee.txt").read_text(), f"Kim Lee\n{lists}\n{result}\n")


class Public(Sealed):
    def test_no_resident_and_no_list_is_published(self) -> None:
        for cut_offs in ([], ["--cut-offs"]):
            sealed = self.folder / f"sealed{len(cut_offs)}"
            self.assertEqual(office("seal", SAMPLES / "programmes.csv", SAMPLES / "residents.csv", "--out", sealed).status, 0)
            match = self.matched(sealed, *cut_offs, out=f"match{len(cut_offs)}")
            texts = {path: path.read_text(encoding="utf-8") for folder in (sealed, match) for path in (folder / "public").iterdir()}
            self.assertEqual(len(texts), 2 + 5 + len(cut_offs))
            with open(match / "key.csv", encoding="utf-8", newline="") as file:
                residents = [row for row in csv.reader(file) if row[0] == "R"]
            self.assertEqual(len(residents), 40)
            secret = (match / "secret.txt").read_text().strip()
            docket = (match / "docket.csv").read_text().splitlines()
            for path, text in texts.items():
                for _, made, *names in residents:
                    self.assertFalse([name for name in (made, *names) if name and name in text], path)
                self.assertNotIn(secret, text)
                self.assertFalse([row for row in docket if row in text], path)
            page = texts[match / "public" / "page.html"]
            self.assertEqual("Last rank taken" in page, bool(cut_offs))
            self.assertEqual((match / "public" / "cut-offs.csv").exists(), bool(cut_offs))
            self.assertIn("4 of 33 places, at ", page)
            for _, _, root in (row.split(",") for row in (match / "root.txt").read_text().split()):
                self.assertIn(root, page)

    def test_the_figures(self) -> None:
        match = self.matched(self.sealed(), "--cut-offs")
        figures = (match / "public" / "figures.csv").read_text(encoding="utf-8-sig").splitlines()
        self.assertEqual(figures[:2], ["Figure,Number", "residents who take part,7"])
        rows = list(csv.reader(io.StringIO((match / "public" / "cut-offs.csv").read_text(encoding="utf-8-sig"))))
        self.assertEqual(rows, [["Programme", "ID", "Places", "Filled", "Last rank taken"], ["East Ward", "", "1", "1", "1st"],
                                ["North Clinic", "", "2", "2", "4th"], ["South Hospital", "", "1", "1", "2nd"],
                                ["West Infirmary", "", "3", "0", "open"]])
        self.assertNotRegex((match / "public" / "page.html").read_text(encoding="utf-8"), "(1st|2nd|4th) of")
        self.assertEqual((match / "public" / "unfilled.csv").read_bytes(), (match / "unfilled.csv").read_bytes())

    def test_the_page_of_receipts(self) -> None:
        sealed = self.sealed("--title", "Match <2026> & more")
        text = (sealed / "public" / "check.html").read_text(encoding="utf-8")
        self.assertNotIn("@", re.sub("@media", "", text))
        self.assertIn("Match &lt;2026&gt; &amp; more. 10 March 2026.", text)
        root = (sealed / "root.txt").read_text().strip().split(",")[2]
        self.assertIn(f'const PUBLISHED = {{"result": null, "lists": {{"count": 11, "root": "{root}"}}}};', text)
        after = (self.matched(sealed) / "public" / "check.html").read_text(encoding="utf-8")
        self.assertNotIn('"result": null', after)
        # Nothing is fetched: no address stands in it, and the page forbids itself every one.
        self.assertIsNone(re.search(r"https?:|//[a-z]+\.|\bsrc=|<link|@import|fetch\(|XMLHttp|WebSocket", after))
        self.assertIn("default-src 'none'", after)


class Refused(Sealed):
    def refused(self, programmes: str, residents: str, *wanted: str) -> None:
        said = office("run", *self.tables(programmes, residents), "--seal", self.folder / "sealed", "--out", self.folder / "match")
        self.assertEqual((said.status, said.out), (3, ""))
        self.assertEqual(said.err.splitlines(), [f"office: {line}" for line in wanted]
                         + [f"office: the tables say otherwise than what {self.folder / 'sealed'} sealed; nothing was written"])
        self.assertEqual(self.left(), ["sealed"])

    def test_tables_that_say_otherwise(self) -> None:
        self.sealed()
        self.refused(PROGRAMMES.replace("East Ward,1", "East Ward,2"), RESIDENTS, "programme East Ward: 1 place before, 2 now")
        self.refused(PROGRAMMES, RESIDENTS.replace("Ana Silva,South Hospital,North Clinic", "Ana Silva,North Clinic,South Hospital"),
                     "resident Ana Silva: North Clinic from 2 to 1")
        self.refused(PROGRAMMES, RESIDENTS.replace("West Infirmary,East Ward,", "West Infirmary,,"),
                     "resident Fatima Kovács: East Ward gone, was at 2")
        self.refused(PROGRAMMES.replace("Kim Lee,,,", "Kim Lee,Ana Silva,,"), RESIDENTS,
                     "programme West Infirmary: Ana Silva new at 2")
        self.refused(PROGRAMMES, RESIDENTS.replace("Rosa Rossi,,,\n", "Rosa Russo,,,\n"), "resident Rosa Rossi is no more in the table",
                     "resident Rosa Russo is new")

    def test_folders_that_are_none(self) -> None:
        plain, sealed = self.run_tables(out="plain"), self.sealed()
        (self.folder / "empty").mkdir()
        for words, wanted in ((["run", plain], "has no secret.txt: it is no folder that seal made"), (["run", self.folder / "empty"], "manifest.json"),
                              (["compare", plain, sealed], "has no match"), (["letters", sealed], "has no match"),
                              (["run", sealed, "--seal", sealed], "give one of them"), (["run", self.folder / "nowhere"], "only one table")):
            said = office(*words, *(["--out", self.folder / "new"] if words[0] != "compare" else []))
            self.assertIn(said.status, (1, 2, 3), words)
            self.assertIn(wanted, said.err)
            self.assertEqual(self.left(), ["empty", "plain", "sealed"])

    def test_a_sealed_folder_that_was_changed(self) -> None:
        sealed = self.sealed()
        other = self.sealed(out="other")
        whole = {name: (sealed / name).read_bytes() for name in ("secret.txt", "root.txt", "docket.csv")}
        for name in whole:
            (sealed / name).write_bytes((other / name).read_bytes().replace(b"Q,east-ward,1", b"Q,east-ward,2"))
            said = office("run", sealed, "--out", self.folder / "match")
            self.assertEqual((said.status, said.out), (3, ""), name)
            self.assertIn(f"{name} was changed since it was written", said.err)
            (sealed / name).write_bytes(whole[name])
        # A manifest that was changed with it doesn't help.
        manifest = json.loads((sealed / "manifest.json").read_text())
        manifest["sha256"]["secret.txt"] = json.loads((other / "manifest.json").read_text())["sha256"]["secret.txt"]
        (sealed / "manifest.json").write_text(json.dumps(manifest))
        (sealed / "secret.txt").write_bytes((other / "secret.txt").read_bytes())
        said = office("run", sealed, "--out", self.folder / "match")
        self.assertEqual(said.status, 3)
        self.assertIn("root.txt isn't that of its docket and secret", said.err)
        self.assertEqual(self.left(), ["other", "sealed"])

    def test_a_program_that_fails_or_differs(self) -> None:
        if not sealing.is_built():
            self.skipTest("the program seal isn't built")
        tables = self.tables()
        real = sealing.run_program

        def other_roots(name: str, words: List[str], *more: object) -> object:
            status, told = real(name, words, *more)
            return status, told.replace(b"lists,11", b"lists,12") if words[0] == "root" else told

        def other_receipts(name: str, words: List[str], *more: object) -> object:
            status, told = real(name, words, *more)
            return status, told.replace(b"member,R,kim-lee\n", b"") if words[0] == "receipts" else told

        def other_count(name: str, words: List[str], *more: object) -> object:
            status, told = real(name, words, *more)
            return status, told.replace(b"lists,11", b"lists,12") if words[0] == "receipts" else told

        def more_receipts(name: str, words: List[str], *more: object) -> object:
            status, told = real(name, words, *more)
            return status, told + b"member,R,kim\n" if words[0] == "receipts" else told

        def fails(*_: object) -> object:
            raise ProgramFailed(1, "out of memory")

        for planted, wanted in ((other_roots, "differ"), (other_receipts, "differ"), (other_count, "differ"), (more_receipts, "differ"),
                                (fails, "out of memory")):
            with mock.patch.object(sealing, "run_program", planted):
                said = office("seal", *tables, "--out", self.folder / "sealed")
            self.assertEqual((said.status, said.out), (1, ""))
            self.assertIn(wanted, said.err)
            self.assertEqual(self.left(), [])


    def test_a_stop_while_it_seals(self) -> None:
        """No secret is left behind, whenever the command is stopped."""
        words = [sys.executable, "-c", SLOW, str(TOP / "python"), "seal", *self.tables(), "--out", str(self.folder / "sealed")]
        for number, wait in ((signal.SIGINT, 0.0), (signal.SIGTERM, 0.3), (signal.SIGHUP, 0.6)):
            with subprocess.Popen(words, stdout=subprocess.PIPE, stderr=subprocess.PIPE) as running:
                while not self.left() and running.poll() is None:
                    time.sleep(0.01)
                time.sleep(wait)
                running.send_signal(number)
                _, err = running.communicate(timeout=100)
            self.assertEqual((running.returncode, err, self.left()), (1, b"office: interrupted\n", []))

    def test_what_stands_there_already(self) -> None:
        tables = self.tables()
        for make in (lambda path: path.mkdir(), lambda path: path.symlink_to("nowhere"), lambda path: path.write_text("kept")):
            path = self.folder / "sealed"
            make(path)
            said = office("seal", *tables, "--out", path)
            self.assertEqual((said.status, said.out), (2, ""))
            self.assertIn("is there already; nothing was written", said.err)
            self.assertEqual(self.left(), ["sealed"])
            path.rmdir() if path.is_dir() else path.unlink()

    def test_tables_at_fault(self) -> None:
        said = office("seal", *self.tables(PROGRAMMES.replace("Kim Lee,,,", "Kim Leee,,,")), "--out", self.folder / "sealed")
        self.assertEqual((said.status, said.out, self.left()), (3, "", []))
        self.assertIn("no resident is named Kim Leee; is it Kim Lee?", said.err)


class Again(Sealed):
    def test_a_withdrawal_before_the_match(self) -> None:
        sealed = self.sealed()
        said = office("withdraw", sealed, WITHDRAWN, "--out", self.folder / "again", "--date", "2026-03-11")
        again = self.folder / "again"
        own = derived(again, False)
        self.assertEqual((said.status, said.out.splitlines()), (0, [
            f"{WITHDRAWN}: withdrawn", f"11 members sealed, each with a receipt; written to {again}",
            "all 11 members need their new receipt: the roots are others, and receipts of before hold no more",
            "publish what is in public/, and these roots wherever members look:", own.roots().decode().strip()]))
        self.assertNotEqual((again / "secret.txt").read_bytes(), (sealed / "secret.txt").read_bytes())
        self.assertEqual(self.receipts(again), own.receipts())
        self.assertIn(b"W,R,zoe-bronte\n", (again / "receipts" / "resident-zoe-bronte.txt").read_bytes())
        before, now = ({path.name: path.read_bytes() for path in (folder / "receipts").iterdir()} for folder in (sealed, again))
        self.assertEqual([name for name in now if now[name] == before[name]], [])
        match = self.matched(again)
        self.assertIn("U,zoe-bronte\n", (match / "sheet.csv").read_text())

    def test_a_withdrawal_after_the_match(self) -> None:
        match = self.matched(self.sealed())
        said = office("withdraw", match, WITHDRAWN, "--out", self.folder / "again")
        again = self.folder / "again"
        own = derived(again, True)
        self.assertEqual(said.out.splitlines()[-4:], ["all 11 members need their new receipt: the roots are others, and receipts of before hold no more",
                                                      "publish what is in public/, and these roots wherever members look:",
                                                      *own.roots().decode().splitlines()])
        self.assertEqual(self.receipts(again), own.receipts())
        self.assertNotEqual((again / "secret.txt").read_bytes(), (match / "secret.txt").read_bytes())
        self.assertTrue((again / "changes.csv").is_file())


class Verified(Sealed):
    """What verify says of roots and receipts; tests/office/test_altered.py has each kind of file that is altered."""

    LEFT = "not checked: lists and names, for want of the tables (--tables)"

    def verify(self, folder: Path, *words: str) -> List[str]:
        said = office("verify", folder, *words)
        self.assertEqual(said.err, "")
        lines = said.out.splitlines()
        self.assertEqual(said.status, 4 if lines[-1].startswith("this does not hold: ") else 0)
        return lines

    def test_roots_and_receipts(self) -> None:
        match = self.matched(self.sealed())
        rows = (match / "root.txt").read_text().split()
        lists, result = (row.split(",")[2] for row in rows)
        events = (match / "replay.csv").read_text().strip().partition(",")[2]
        lines = self.verify(match, "--lists", f"11,{lists}", "--result", f"11,{result}")
        by = "by the program seal and by the office's own trees" if sealing.is_built() else "by the office's own trees; the program seal isn't here"
        # Seven letters, four rosters, five files of public/ and sixteen at the top.
        held = f"36 files made again, 11 receipts, the result, the journal of {events} events"
        self.assertEqual(lines[-4:], [f"roots: {rows[0]} and {rows[1]}, {by}", "published: the same roots, of 11 members",
                                      "files: 47 as made again", f"{held}; {self.LEFT}"])
        self.assertEqual(self.verify(match)[-1], f"{held}; {self.LEFT}; what was published, for want of --lists and --result")
        self.assertEqual(self.verify(match, "--lists", lists, "--result", result)[-1],
                         f"{held}; {self.LEFT}; how many members were published, for want of N,ROOT")
        self.assertEqual(self.verify(match, "--lists", f"12,{result}", "--result", f"11,{result}")[-3:], [
            f"published: for the lists {result} was published; 12 members were published for the lists, and there are 11",
            "files: 47 as made again", f"this does not hold: published; {self.LEFT}"])
        for word in (lists.upper(), f"x,{lists}", f"11,{lists[1:]}", ",".join(rows)):
            self.assertEqual(office("verify", match, "--lists", word).status, 2)

    def test_a_match_that_is_none_of_what_was_published(self) -> None:
        """Roots were published, and the folder has none."""
        said = self.verify(self.run_tables(out="plain"), "--lists", f"11,{'0' * 64}")
        self.assertIn("published: this match isn't sealed, and has no roots", said)
        self.assertEqual(said[-1], f"this does not hold: published; {self.LEFT}")

    def test_the_list_of_one_who_got_what_it_wants(self) -> None:
        """The match is the same, and whoever makes all else again is told by the roots."""
        match = self.matched(self.sealed())
        published = [row.split(",", 1)[1] for row in (match / "root.txt").read_text().split()]
        other = self.sealed(out="other", residents=RESIDENTS.replace("Rosa Rossi,,,", "Rosa Rossi,East Ward,,"))
        forged = self.matched(other, out="forged")
        self.assertEqual((forged / "sheet.csv").read_bytes(), (match / "sheet.csv").read_bytes())
        self.assertEqual(self.verify(forged, "--lists", published[0], "--result", published[1])[-1], f"this does not hold: published; {self.LEFT}")

    def test_without_the_secret(self) -> None:
        match = self.matched(self.sealed())
        (match / "secret.txt").unlink()
        lines = self.verify(match)
        self.assertEqual(lines[-3:-1], ["roots and receipts and 11 files made of them: not checked: needs the secret", "files: 35 as made again"])
        self.assertIn("; roots and receipts and 11 files made of them, for want of the secret", lines[-1])

    def test_without_the_key(self) -> None:
        """Without the key neither the roots nor the receipts can be made again, also where the secret is there."""
        match = self.matched(self.sealed())
        # Without it are left docket, sheet, journal, audit, replay, manifest, sums, roots, the auditor's page, and three files of public/.
        for words, files in ((["--key"], 48), ([], 12)):
            copy = self.folder / f"copy{len(words)}"
            self.assertEqual(office("auditor", match, *words, "--out", copy).status, 0)
            lines = self.verify(copy)
            self.assertEqual(lines[-2], f"files: {files} as made again")
            self.assertEqual("roots and receipts: not checked: needs the key and the secret" in lines, not words)
        (match / "key.csv").unlink()
        self.assertIn("roots and receipts and 12 files made of them: not checked: needs the key and the secret", self.verify(match))

    def test_a_folder_of_an_earlier_version(self) -> None:
        """Its receipts were .csv files: one sentence says so, in place of a line for each file that this version makes otherwise."""
        match = self.matched(self.sealed())
        files = sorted((match / "receipts").iterdir())
        for path in files:
            path.rename(path.with_suffix(".csv"))
        lines = self.verify(match)
        self.assertEqual(lines[-2:], ["files: an earlier version of office made this folder, whose receipts are .csv files: verify it with that version",
                                      f"this does not hold: files; {self.LEFT}"])
        self.assertIn("result: Y,result", lines)
        self.assertNotRegex("\n".join(lines), "differs|missing|more than")
        # One such file beside those of this version is a file more.
        for path in files[1:]:
            path.with_suffix(".csv").rename(path)
        self.assertLessEqual({f"receipts/{files[0].stem}.csv: more than the folder has", f"receipts/{files[0].name}: missing"}, set(self.verify(match)))

    def test_without_the_program(self) -> None:
        """Where the program isn't here, the office's own trees alone make the same, and verify says so."""
        with mock.patch.object(sealing, "is_built", lambda: False):
            match = self.matched(self.sealed())
            self.assertIn("by the office's own trees; the program seal isn't here", self.verify(match)[-3])
        self.assertEqual(self.receipts(match), derived(match, True).receipts())
        self.assertIn("files: 47 as made again", self.verify(match))

    def test_whether_the_program_is_here(self) -> None:
        """It is where the package finds it, and then it makes the roots, too."""
        try:
            find_program("seal")
        except ProgramMissing:
            self.skipTest("the program seal is missing here")
        self.assertIn("by the program seal and by the office's own trees", self.verify(self.matched(self.sealed()))[-3])
        with mock.patch.dict(os.environ, {"RESIDENCY_BIN": str(self.folder)}):
            self.assertFalse(sealing.is_built())

    def test_in_a_process_of_its_own(self) -> None:
        match = self.matched(self.sealed())
        done = spawn(["verify", str(match)])
        self.assertEqual((done.status, done.err), (0, ""))
        self.assertIn("\nfiles: 47 as made again\n", done.out)
