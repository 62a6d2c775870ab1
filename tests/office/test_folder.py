"""What a run writes, by what is derived from the tables; and that its folder appears complete or not at all."""
import csv
import hashlib
import io
import json
import os
import signal
import stat
import subprocess
import sys
import time
from pathlib import Path
from typing import Dict, List
from unittest import mock

import derived
from residency.office import command, folder, stopping, writing
from support import OFFICE, PROGRAMMES, RESIDENTS, SAMPLES, OfficeTest, office, spawn

FILES = [
    "SHA256SUMS",
    "audit.csv",
    "docket.csv",
    "journal.csv",
    "key.csv",
    "letters",
    "letters.html",
    "manifest.json",
    "matches.csv",
    "page.html",
    "replay.csv",
    "results.csv",
    "rosters",
    "rosters.html",
    "sheet.csv",
    "unfilled.csv",
]


# The office's command with a second between two files.
SLOW = """
import sys, time
sys.path.insert(0, sys.argv.pop(1))
from residency.office import folder, main
write = folder.Draft.write
folder.Draft.write = lambda *words: (time.sleep(1), write(*words))[1]
sys.exit(main(sys.argv[1:]))
"""


def table(path: Path) -> List[Dict[str, str]]:
    return list(csv.DictReader(io.StringIO(path.read_bytes().decode("utf-8-sig"))))


def sha256(path: Path) -> str:
    return hashlib.sha256(path.read_bytes()).hexdigest()


def sample(name: str) -> str:
    return (SAMPLES / name).read_text(encoding="utf-8-sig")


class Written(OfficeTest):
    """The files of a run over the two sample tables."""

    @classmethod
    def setUpClass(cls) -> None:
        super().setUpClass()
        cls.wanted = derived.match(derived.tables(sample("programmes.csv"), sample("residents.csv")))

    def setUp(self) -> None:
        super().setUp()
        self.out = self.folder / "match"
        said = office(
            "run",
            SAMPLES / "programmes.csv",
            SAMPLES / "residents.csv",
            "--out",
            self.out,
            "--date",
            "2026-03-20",
            "--title",
            "Match of <2026>",
        )
        self.assertEqual((said.status, said.err), (0, ""))
        self.said = said.out
        self.key = {
            (row[0], row[1]): row[2] for row in csv.reader((self.out / "key.csv").read_text(encoding="utf-8").splitlines())
        }

    def test_which_files(self) -> None:
        self.assertEqual(sorted(os.listdir(self.out)), FILES)
        self.assertEqual(len(os.listdir(self.out / "letters")), 40)
        self.assertEqual(len(os.listdir(self.out / "rosters")), 20)
        self.assertEqual(stat.S_IMODE(self.out.stat().st_mode), 0o777 & ~writing.umask())

    def test_what_it_says(self) -> None:
        lost = [resident for resident, where in self.wanted.match.items() if where is None and self.wanted.ranked_back(resident)]
        self.assertEqual(
            self.said.splitlines()[2:],
            [
                f"29 of 40 residents matched, {len(lost)} lost out, {11 - len(lost)} ranked back by nobody; 4 of 33 places unfilled",
                f"audit: stable; replay: good; written to {self.out}",
            ],
        )

    def test_docket_and_sheet_by_the_key(self) -> None:
        rows = [line.split(",") for line in (self.out / "docket.csv").read_text().splitlines()]
        name = lambda side, made: self.key[side, made]  # noqa: E731
        self.assertEqual({name("P", row[1]): int(row[2]) for row in rows if row[0] == "Q"}, self.wanted.places)
        self.assertEqual(
            {name("P", row[1]): [name("R", resident) for resident in row[2:]] for row in rows if row[0] == "P"},
            self.wanted.programme_lists,
        )
        self.assertEqual(
            {name("R", row[1]): [name("P", programme) for programme in row[2:]] for row in rows if row[0] == "R"},
            self.wanted.resident_lists,
        )
        sheet = [line.split(",") for line in (self.out / "sheet.csv").read_text().splitlines()]
        self.assertEqual(
            {name("R", row[1]): name("P", row[2]) if row[0] == "M" else None for row in sheet if row[0] in "MU"},
            self.wanted.match,
        )

    def test_audit_and_replay(self) -> None:
        self.assertEqual((self.out / "audit.csv").read_text(), "S,stable\n")
        events = sum(line.startswith("E,") for line in (self.out / "journal.csv").read_text().splitlines())
        self.assertEqual((self.out / "replay.csv").read_text(), f"G,{events}\n")

    def test_matches_for_a_database(self) -> None:
        rows = table(self.out / "matches.csv")
        self.assertEqual([row["resident"] for row in rows], list(self.wanted.resident_lists))
        for row in rows:
            resident, where = row["resident"], self.wanted.match[row["resident"]]
            self.assertEqual(row["programme"], where or "")
            self.assertEqual(self.key["R", row["resident_docket_name"]], resident)
            self.assertEqual(row["programmes_listed"], str(len(self.wanted.resident_lists[resident])))
            if where:
                self.assertEqual(
                    (row["standing"], row["choice"], row["rank_at_programme"]),
                    ("matched", str(self.wanted.choice(resident)), str(self.wanted.rank(resident))),
                )
                self.assertEqual(self.key["P", row["programme_docket_name"]], where)
            else:
                back = self.wanted.ranked_back(resident)
                self.assertEqual((row["standing"], row["choice"]), ("lost out" if back else "ranked back by nobody", ""))
        self.assertFalse((self.out / "matches.csv").read_bytes().startswith(b"\xef\xbb\xbf"))

    def test_unfilled_places(self) -> None:
        wanted = {
            programme: (places, len(self.wanted.members(programme)))
            for programme, places in self.wanted.places.items()
            if places > len(self.wanted.members(programme))
        }
        rows = table(self.out / "unfilled.csv")
        self.assertEqual({row["Programme"]: (int(row["Quota"]), int(row["Filled"])) for row in rows}, wanted)
        self.assertEqual((list(rows[0]), sum(int(row["Free"]) for row in rows)), (["Programme", "Quota", "Filled", "Free"], 4))

    def test_results(self) -> None:
        """A row for each resident by name, with no column of IDs where nobody has one."""
        rows = table(self.out / "results.csv")
        self.assertEqual(list(rows[0]), ["Resident", "Standing", "Programme", "Choice"])
        self.assertEqual({row["Resident"]: row["Programme"] or None for row in rows}, self.wanted.match)
        self.assertEqual({row["Resident"]: row["Choice"] for row in rows},
                         {resident: str(self.wanted.choice(resident)) if where else "" for resident, where in self.wanted.match.items()})
        self.assertEqual({row["resident"]: row["standing"] for row in table(self.out / "matches.csv")}, {row["Resident"]: row["Standing"] for row in rows})

    def test_results_and_rosters_with_what_is_kept(self) -> None:
        residents = "Applicant,ID,Email,1\n=Ana,7,a@b,North\nBo,8,b@b,North\n"
        out = self.run_tables("Programme,Places,1,2\nNorth,1,8,7\n", residents, "kept", "--keep", "Email")
        self.assertEqual(table(out / "results.csv"), [
            {"Resident": "'=Ana", "ID": "7", "Standing": "lost out", "Programme": "", "Choice": "", "Email": "a@b"},
            {"Resident": "Bo", "ID": "8", "Standing": "matched", "Programme": "North", "Choice": "1", "Email": "b@b"}])
        self.assertEqual(table(out / "rosters" / "north.csv"), [{"Rank on your list": "1", "Resident": "Bo", "ID": "8", "Email": "b@b"}])

    def test_rosters(self) -> None:
        for programme in self.wanted.places:
            made = next(made for (side, made), name in self.key.items() if side == "P" and name == programme)
            rows = table(self.out / "rosters" / f"{made}.csv")
            self.assertEqual(
                [(int(row["Rank on your list"]), row["Resident"]) for row in rows],
                [(self.wanted.rank(member), member) for member in self.wanted.members(programme)],
            )

    def test_letters(self) -> None:
        for (side, made), name in self.key.items():
            if side != "R":
                continue
            text = (self.out / "letters" / f"{made}.txt").read_text(encoding="utf-8")
            listed, where = self.wanted.resident_lists[name], self.wanted.match[name]
            self.assertTrue(text.startswith(f"20 March 2026\n\n{name}\n\n"), text)
            self.assertTrue(text.endswith(f"\n\nIn the docket that was matched you are {made}.\n"), text)
            self.assertNotIn(sha256(self.out / "docket.csv"), text)
            if where:
                self.assertIn(
                    f"You are matched with {where},\nthe {['1st', '2nd', '3rd', '4th', '5th', '6th'][self.wanted.choice(name) - 1]} "
                    f"of the {len(listed)} on your list.",
                    text,
                )
            for choice, programme in enumerate(listed, 1):
                line = next(line for line in text.splitlines() if line.startswith(f"  {choice}. {programme}: "))
                if programme == where:
                    said = "you are matched here"
                elif where and choice > self.wanted.choice(name):
                    said = "not needed, since you have one that you would rather have"
                elif name in self.wanted.programme_lists[programme]:
                    said = "it filled all of its places with residents whom it ranks before you"
                    worst = max(self.wanted.rank(member) for member in self.wanted.members(programme))
                    self.assertLess(worst, self.wanted.programme_lists[programme].index(name) + 1)
                    self.assertEqual(len(self.wanted.members(programme)), self.wanted.places[programme])
                else:
                    said = "it did not rank you"
                self.assertTrue(line.endswith(said), (name, line))

    def test_digests(self) -> None:
        manifest = json.loads((self.out / "manifest.json").read_text(encoding="utf-8"))
        files = [name for name in FILES if name not in ("letters", "rosters", "manifest.json", "SHA256SUMS")]
        self.assertEqual(manifest["sha256"], {name: sha256(self.out / name) for name in files})
        self.assertEqual((manifest["date"], manifest["title"], manifest["withdrawn"]), ("2026-03-20", "Match of <2026>", []))
        self.assertEqual(
            [given_table["sha256"] for given_table in manifest["tables"]],
            [sha256(SAMPLES / "programmes.csv"), sha256(SAMPLES / "residents.csv")],
        )
        page = (self.out / "page.html").read_text(encoding="utf-8")
        for name in ("docket.csv", "key.csv", "sheet.csv"):
            self.assertIn(sha256(self.out / name), page)
        sums = dict(reversed(line.split("  ", 1)) for line in (self.out / "SHA256SUMS").read_text().splitlines())
        paths = [
            str(path.relative_to(self.out)) for path in self.out.rglob("*") if path.is_file() and path.name != "SHA256SUMS"
        ]
        self.assertEqual(sums, {path: sha256(self.out / path) for path in paths})

    def test_the_same_tables_and_day_give_the_same_bytes(self) -> None:
        office(
            "run",
            SAMPLES / "programmes.csv",
            SAMPLES / "residents.csv",
            "--out",
            self.folder / "again",
            "--date",
            "2026-03-20",
            "--title",
            "Match of <2026>",
        )
        self.assertEqual((self.out / "SHA256SUMS").read_text(), (self.folder / "again" / "SHA256SUMS").read_text())


class Ranks(OfficeTest):
    """Ranks are those of the lists as written, with those who don't rank back."""

    def test_ranks_as_written(self) -> None:
        programmes = "Programme,Places,1,2,3\nNorth,1,Bo,Cy,Ana\nSouth,1,Bo,,\nEast,1,Ana,,\n"
        residents = "Applicant,1,2\nAna,South,North\nBo,East,\nCy,,\n"
        out = self.run_tables(programmes, residents)
        row = table(out / "matches.csv")[0]
        self.assertEqual((row["programme"], row["choice"], row["rank_at_programme"]), ("North", "2", "3"))
        self.assertEqual(table(out / "rosters" / "north.csv"), [{"Rank on your list": "3", "Resident": "Ana"}])
        page = (out / "page.html").read_text(encoding="utf-8")
        self.assertIn('<td class="n">2nd of 2</td>', page)
        self.assertIn('<td class="n">3rd of 3</td>', page)
        self.assertIn("the 2nd of the 2 on your list", (out / "letters" / "ana.txt").read_text())

    def test_kinds_of_unmatched(self) -> None:
        out = self.run_tables()
        kinds = {row["resident"]: row["standing"] for row in table(out / "matches.csv")}
        # By hand: South takes Ana, East Zoë, North Kim and Jürgen; Omar comes after Ana and Zoë; West ranks Kim alone.
        wanted = derived.match(derived.tables(PROGRAMMES, RESIDENTS))
        self.assertEqual(
            {resident: kind for resident, kind in kinds.items() if kind != "matched"},
            {"Omar Haddad": "lost out", "Fatima Kovács": "ranked back by nobody", "Rosa Rossi": "ranked nobody"},
        )
        self.assertEqual(
            {resident for resident, kind in kinds.items() if kind == "matched"}, {resident for resident, where in wanted.match.items() if where}
        )


class Whole(OfficeTest):
    """A folder appears complete or not at all."""

    def test_a_folder_that_is_there_stays(self) -> None:
        for name in ("full", "empty"):
            (self.folder / name).mkdir()
        (self.folder / "full" / "kept.txt").write_text("kept")
        (self.folder / "file").write_text("kept")
        for name in ("full", "empty", "file"):
            said = office("run", *self.tables(), "--out", self.folder / name)
            self.assertEqual((said.status, said.out), (2, ""))
            self.assertIn("is there already; nothing was written", said.err)
        self.assertEqual(self.left(), ["empty", "file", "full"])
        self.assertEqual(os.listdir(self.folder / "empty"), [])

    def test_a_write_that_fails(self) -> None:
        files = self.tables()
        whole = folder.Draft.write
        for fails in (1, 2, 5, 9, 12, 20, 21):
            calls = []

            def write(draft, name, data):
                calls.append(name)
                if len(calls) == fails:
                    raise OSError(28, "No space left on device")
                return whole(draft, name, data)

            with mock.patch.object(folder.Draft, "write", write):
                said = office("run", *files, "--out", self.folder / "out")
            self.assertEqual((said.status, said.out, len(calls)), (1, "", fails))
            self.assertIn("can't be written: no space left on device; nothing was left there", said.err)
            self.assertEqual(self.left(), [])

    def test_an_interrupt(self) -> None:
        for what in (KeyboardInterrupt, stopping.Stopped, MemoryError):
            with mock.patch.object(command.running, "write_letters", side_effect=what):
                said = office("run", *self.tables(), "--out", self.folder / "out")
            self.assertEqual((said.status, said.out), (1, ""))
            self.assertEqual(self.left(), [])

    def test_a_signal(self) -> None:
        """A run whose files are slow to write is asked to end while its folder is half full."""
        files = self.tables()
        for number in (signal.SIGTERM, signal.SIGHUP, signal.SIGINT):
            words = [sys.executable, "-c", SLOW, str(Path(OFFICE).parent / "python"), "run", *files, "--out", str(self.folder / "out")]
            with subprocess.Popen(words, stdout=subprocess.PIPE, stderr=subprocess.PIPE) as running:
                deadline = time.monotonic() + 100
                while not self.left() and time.monotonic() < deadline and running.poll() is None:
                    time.sleep(0.01)
                began = [name for name in self.left() if name.startswith(".part-")]
                running.send_signal(number)
                _, err = running.communicate(timeout=100)
            self.assertEqual((len(began), running.returncode, self.left()), (1, 1, []), err)
            self.assertEqual(err, b"office: interrupted\n")

    def test_a_place_that_cant_be_written(self) -> None:
        (self.folder / "file").write_text("")
        for out in (self.folder / "nowhere" / "out", self.folder / "file" / "out", self.folder / ("x" * 300)):
            said = office("run", *self.tables(), "--out", out)
            self.assertEqual((said.status, said.out), (1, ""), said)
            self.assertTrue(said.err.startswith("office: ") and "can't be" in said.err, said.err)
        self.assertEqual(self.left(), ["file"])


class Programs(OfficeTest):
    """A program that is missing, fails, or says what it shouldn't, is told, and nothing is written."""

    def program(self, text: str) -> str:
        path = self.folder / "residency"
        path.write_text("#!/bin/sh\n" + text)
        path.chmod(0o755)
        return str(path)

    def tried(self, program: str, status: int, *words: str) -> str:
        said = spawn(["run", *self.tables(), "--out", str(self.folder / "out"), *words], env={"RESIDENCY_BIN": program})
        self.assertEqual((said.status, said.out), (status, ""), said)
        # What finds no program is the launcher, which speaks of the program.
        self.assertTrue(all(line.startswith(("office: ", "residency: ")) for line in said.err.splitlines()), said.err)
        self.assertEqual([name for name in self.left() if name != "residency"], [])
        return said.err

    def test_faults_of_the_program(self) -> None:
        self.tried(str(self.folder / "nowhere"), 1)
        self.tried(self.program("echo 'residency: out of memory' >&2; exit 1"), 1)
        self.tried(self.program("exit 77"), 1)
        self.tried(self.program("kill -9 $$"), 1)
        self.tried(self.program("exec sleep 60"), 1, "--timeout", "0.3")
        self.tried(self.program("exit 0"), 1)
        self.tried(self.program("cat"), 1)

    def test_a_result_that_fails_its_checks(self) -> None:
        real = os.environ.get("RESIDENCY_BIN") or ""
        from residency.program import find_program

        real = str(find_program("residency"))
        err = self.tried(
            self.program(f'if [ "$1" = audit ]; then cat > /dev/null; echo S,unstable; exit 4; fi\nexec "{real}" "$@"\n'), 1
        )
        self.assertIn("doesn't pass its own audit and replay; nothing was written", err)
        err = self.tried(
            self.program(f'if [ "$1" = replay ]; then cat > /dev/null; echo N,1,not-next; exit 4; fi\nexec "{real}" "$@"\n'), 1
        )
        self.assertIn("doesn't pass its own audit and replay; nothing was written", err)
