"""`python -m residency`: the program as it is, or its answer as JSON; and what stands on the path in a wheel."""
import json
import os
import random
import shutil
import signal
import subprocess
import sys
import tempfile
import unittest
from pathlib import Path

import made
from residency import Market, find_program
from residency import program as finding
from residency.__main__ import as_json

TOP = Path(__file__).resolve().parent.parent.parent
PACKAGE = Path(finding.__file__).resolve().parent
EXAMPLES = TOP / "examples"
# Python keeps what it writes in a buffer, as it does where nobody asks otherwise.
KNOWN = {**os.environ, "PYTHONPATH": str(TOP / "python"), "RESIDENCY_BIN": str(find_program()), "PYTHONUNBUFFERED": ""}


def ask(words, data, **more):
    return subprocess.run([sys.executable, "-m", "residency", *words], input=data, capture_output=True, env={**KNOWN, **more},
                          check=False)


def of_program(words, data):
    return subprocess.run([str(find_program()), *words], input=data, capture_output=True, check=False)


def bytes_of(*names):
    return b"".join((EXAMPLES / name).read_bytes() for name in names)


class Json(unittest.TestCase):
    def test_examples(self):
        for word, files, status, wanted in (
                ("match", ["two-by-two.csv"], 0, {"places": {"x": "a", "y": "b"}, "filled": {"a": 1, "b": 1},
                                                  "quotas": {"a": 1, "b": 1}, "unmatched": [],
                                                  "sheet": "M,x,a\nM,y,b\nF,a,1,1\nF,b,1,1\n", "journal": ""}),
                ("audit", ["two-by-two.csv", "two-by-two-sheet.csv"], 0,
                 {"stable": True, "unacceptable": [], "over_quota": [], "blocking": []}),
                ("replay", ["two-by-two.csv", "two-by-two-journal.csv", "two-by-two-sheet.csv"], 4,
                 {"good": False, "events": None, "by_worker": [], "place": None, "word": None, "pending": None, "at": None,
                  "differs": "x"})):
            for words in ([word, "--json"], ["--json", word]):
                said = ask(words, bytes_of(*files))
                self.assertEqual((said.returncode, said.stderr, said.stdout.count(b"\n")), (status, b"", 1))
                self.assertEqual(json.loads(said.stdout), wanted)

    def test_it_says_what_the_rows_say(self):
        """Of random dockets in every form, by a reader of the rows that is the test's own."""
        for number in range(12):
            rng = random.Random(f"json {number}")
            data = made.bytes_of(made.Made(rng).rows(), rng)
            words = ["match", "--journal-by-worker", "--workers", "3"]
            told = json.loads(ask([*words, "--json"], data).stdout)
            self.assertEqual(told["sheet"], of_program(["match"], data).stdout.decode())
            rows = [line.split(",") for line in told["sheet"].splitlines()]
            self.assertEqual(told["places"], {row[1]: row[2] if row[0] == "M" else None for row in rows if row[0] in "MU"})
            self.assertEqual([told["filled"], told["quotas"]],
                             [{row[1]: int(row[at]) for row in rows if row[0] == "F"} for at in (2, 3)])
            self.assertEqual(told["unmatched"], [row[1] for row in rows if row[0] == "U"])
            whole = data + b"\n" + (told["sheet"] + told["journal"]).encode()
            self.assertEqual(json.loads(ask(["audit", "--json"], whole).stdout)["stable"], True)
            replay = json.loads(ask(["replay", "--json"], whole).stdout)
            self.assertEqual((replay["good"], replay["events"], len(replay["by_worker"])),
                             (True, told["journal"].count("\nE,"), 3))

    def test_causes(self):
        data = b"Q,a,1\nQ,b,1\nP,a,x,y\nP,b,y\nR,x,a\nR,y,a,b\nR,z,a\nM,x,a\nM,z,a\nU,y\nF,a,2,1\nF,b,0,1\n"
        said = ask(["audit", "--json"], data)
        self.assertEqual((said.returncode, json.loads(said.stdout)), (4, {
            "stable": False, "unacceptable": [{"resident": "z", "programme": "a"}],
            "over_quota": [{"programme": "a", "filled": 2, "quota": 1}],
            "blocking": [{"resident": "y", "programme": "a"}, {"resident": "y", "programme": "b"}]}),
            of_program(["audit"], data))

    def test_faults_are_the_programs(self):
        good = bytes_of("two-by-two.csv")
        for words, data, status in ((["match"], b"Q,a,1\nQ,a,1\n", 3), (["audit"], good, 3), (["replay"], good, 3),
                                    (["match", "--workers", "9"], good, 2), (["match", "--nothing"], good, 2)):
            said, own = ask([*words, "--json"], data), of_program(words, data)
            self.assertEqual((said.returncode, said.stderr, said.stdout == b""), (own.returncode, own.stderr, status != 3))
            self.assertEqual((said.returncode, own.stdout), (status, b""))
        said = ask(["match", "--json"], b"Q,a,1\nQ,a,1\nP,b\n")
        self.assertEqual((said.stderr, json.loads(said.stdout)), (b"residency: record 2: declared twice\n", {"faults": [
            {"record": 2, "cell": 2, "text": "declared twice", "name": "a", "detail": "cell 2: a, as in record 1",
             "line": "record 2: declared twice (cell 2: a, as in record 1)"},
            {"record": 3, "cell": 2, "text": "unknown name", "name": "b", "detail": "cell 2: b",
             "line": "record 3: unknown name (cell 2: b)"}]}))
        for words in (["--json"], ["why", "--json"], ["--workers", "2", "match", "--json"]):
            said = ask(words, good)
            self.assertEqual((said.returncode, said.stdout, said.stderr),
                             (2, b"", b"residency: --json goes with match, audit, replay\n"))
        said = ask(["match", "--json"], good, RESIDENCY_BIN="/nowhere")
        self.assertEqual((said.returncode, said.stdout, said.stderr.count(b"\n")), (1, b"", 1))
        with open("/dev/full", "wb") as full:
            said = subprocess.run([sys.executable, "-m", "residency", "match", "--json"], input=good, stdout=full,
                                  stderr=subprocess.PIPE, env=KNOWN, check=False)
        self.assertEqual((said.returncode, said.stderr), (1, b"residency: the output could not be written\n"))

    def test_a_program_that_fails(self):
        """Its own words and status stand; the signal that ended it is told."""
        with tempfile.TemporaryDirectory() as folder:
            program = Path(folder) / "residency"
            for line, wanted in (("echo no >&2; exit 1", b"no\n"), ("kill -9 $$", b"residency: the program ended by signal 9\n")):
                program.write_text(f"#!/bin/sh\n{line}\n")
                program.chmod(0o755)
                said = ask(["match", "--json"], b"", RESIDENCY_BIN=str(program))
                self.assertEqual((said.returncode, said.stdout, said.stderr), (1, b"", wanted))

    def test_an_answer_that_is_none(self):
        for word, status, answer in (("match", 0, b"M,x\n"), ("match", 0, b"M,x,a\nU,x\nF,a,1,1\n"),
                                     ("match", 0, b"M,x,a\nF,a,0,1\n"),
                                     ("match", 0, b"M,x,b\nF,a,0,1\n"), ("match", 0, b"F,a,x,1\n"),
                                     ("match", 0, b"F,a,0,1\nF,a,0,1\n"), ("match", 0, b"X,a,0,1\n"), ("match", 0, b"F,a,0,1,2\n"),
                                     ("match", 0, b"G,1\n"), ("audit", 0, b"S,unstable\n"), ("audit", 4, b"S,stable\n"),
                                     ("audit", 0, b""), ("replay", 4, b"G,1\n"), ("replay", 0, b"D,x\n")):
            with self.subTest(word=word, answer=answer), self.assertRaisesRegex(ValueError, f"isn't a {word}'s"):
                as_json(word, status, answer)

    def test_without_it_the_program_runs(self):
        for words, data in ((["match", "--journal"], bytes_of("nrmp.csv")), (["--version"], b""), (["match", "--help"], b""),
                            (["audit"], bytes_of("two-by-two.csv", "two-by-two-sheet.csv")), (["match"], b"X\n"), ([], b"")):
            said, own = ask(words, data), of_program(words, data)
            if "--journal" in words:
                said.stdout, own.stdout = (each.stdout.split(b"C,")[0] for each in (said, own))
            self.assertEqual((said.returncode, said.stdout, said.stderr), (own.returncode, own.stdout, own.stderr))
        self.assertEqual(ask(["match", "--json", "--help"], b"").stdout, of_program(["match", "--help"], b"").stdout)


class Launched(unittest.TestCase):
    """A package that has programs, as a wheel has them, with a script for each."""

    SCRIPT = "import sys; from residency.launch import main; sys.exit(main())"

    def setUp(self):
        folder = tempfile.TemporaryDirectory()
        self.addCleanup(folder.cleanup)
        self.folder = Path(folder.name).resolve()
        shutil.copytree(PACKAGE, self.folder / "site" / "residency", ignore=shutil.ignore_patterns("__pycache__", "office"))
        self.programs = self.folder / "site" / "residency" / "programs"
        self.programs.mkdir()
        (self.folder / "bin").mkdir()

    def put(self, name, text):
        program = self.programs / name
        program.write_text("#!/bin/sh\n" + text)
        program.chmod(0o755)
        script = self.folder / "bin" / name
        script.write_text(f"#!{sys.executable}\n{self.SCRIPT}\n")
        script.chmod(0o755)
        return script

    def run_it(self, script, *words, **known):
        environment = {"PATH": "/usr/bin:/bin", "PYTHONPATH": str(self.folder / "site"), **known}
        return subprocess.run([str(script), *words], input=b"in", capture_output=True, env=environment, check=False)

    def test_it_becomes_the_program_of_its_name(self):
        for name in ("residency", "residency-why"):
            script = self.put(name, f'echo {name} "$#" "$2" "$$" "${{GLIBC_TUNABLES+tuned}}"; cat; echo no >&2; exit 4\n')
            with subprocess.Popen([str(script), "a", "b c"], stdin=subprocess.PIPE, stdout=subprocess.PIPE,
                                  stderr=subprocess.PIPE,
                                  env={"PATH": "/usr/bin:/bin", "PYTHONPATH": str(self.folder / "site")}) as ran:
                out, err = ran.communicate(b"in")
            self.assertEqual((ran.returncode, out.decode(), err), (4, f"{name} 2 b c {ran.pid} tuned\nin", b"no\n"))
        # A link to the script is the script; another environment's program is not run in its place.
        (self.folder / "link").symlink_to(self.folder / "bin" / "residency")
        self.assertEqual(self.run_it(self.folder / "link", RESIDENCY_BIN="/nowhere").stdout.split()[0], b"residency")

    def test_signals_are_as_the_shell_has_them(self):
        for name, text in (("residency", "cat /proc/self/status\n"), ("residency-why", "exec cat /proc/self/status\n")):
            said = self.run_it(self.put(name, text)).stdout.decode()
            ignored = int(next(line.split()[1] for line in said.splitlines() if line.startswith("SigIgn:")), 16)
            for each in (signal.SIGPIPE, signal.SIGXFSZ, signal.SIGINT):
                self.assertFalse(ignored >> (each - 1) & 1, each)

    def test_a_program_that_is_missing(self):
        script = self.put("residency", "exit 0\n")
        (self.programs / "residency").unlink()
        said = self.run_it(script)
        self.assertEqual((said.returncode, said.stdout, said.stderr.count(b"\n")), (1, b"", 1))
        self.assertIn(b"can't be started: No such file or directory; install the package again", said.stderr)

    def test_the_package_finds_its_own(self):
        self.put("residency", "exit 0\n")
        self.put("residency-why", "exit 0\n")
        code = "import residency; print(residency.find_program(), residency.find_program('why'))"
        (self.folder / "path").mkdir()
        shutil.copy(self.programs / "residency", self.folder / "path" / "residency")
        for known, place in (({}, self.programs), ({"PATH": f"{self.folder / 'path'}:/usr/bin:/bin"}, self.programs)):
            said = self.run_it(sys.executable, "-c", code, **known)
            self.assertEqual(said.stdout.decode().split(), [str(place / "residency"), str(place / "residency-why")],
                             said.stderr)
        said = self.run_it(sys.executable, "-c", "import residency; print(residency.find_program())",
                           RESIDENCY_BIN=str(self.folder / "path"))
        self.assertEqual(said.stdout.decode().split(), [str(self.folder / "path" / "residency")])


class Examples(unittest.TestCase):
    def test_the_market_of_the_examples(self):
        market = Market.from_docket(bytes_of("market.csv"))
        told = json.loads(ask(["match", "--json"], bytes_of("market.csv")).stdout)
        self.assertEqual(told, {**market.match().to_dict(), "journal": ""})


if __name__ == "__main__":
    unittest.main()
