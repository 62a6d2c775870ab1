"""The command in a process of its own: terminals, pipes and devices of every kind, and the words of its line."""
import json
import os
import shlex
import subprocess

import planted
from residency.office import line
from residency.program import find_program
from support import OFFICE, PROGRAMMES, RESIDENTS, SAMPLES, TOP, OfficeTest, office, spawn

COMMANDS = ("check", "lint", "run", "withdraw", "compare", "letters")
DOCKET = "Q,north,1,\nQ,south,2\nP,north,kim,le e\nP,south,lee,lee\nR,kim,north,sout\nR,lee\n"


class Streams(OfficeTest):
    def no_traceback(self, said) -> None:
        self.assertNotIn("Traceback", said.err)
        self.assertNotIn("Exception", said.err)

    def test_terminals_of_few_letters(self) -> None:
        for encoding in ("latin-1", "ascii", "cp1252"):
            tables = self.tables(PROGRAMMES, RESIDENTS.replace("Zoë Brontë", "王芳"))
            env = {"PYTHONIOENCODING": encoding, "LC_ALL": "C", "PYTHONUTF8": "0"}
            said = spawn(["check", *tables], env=env)
            self.no_traceback(said)
            self.assertEqual(said.status, 3)
            self.assertIn("is named Zo", said.out)
            done = spawn(
                ["run", *self.tables(PROGRAMMES, RESIDENTS), "--out", str(self.folder / encoding), "--title", "Zoë"], env=env
            )
            self.assertEqual(done.status, 0, done.err)
            self.assertIn("Zoë Brontë", (self.folder / encoding / "page.html").read_text(encoding="utf-8"))

    def test_a_pipe_that_is_closed(self) -> None:
        pair = planted.wide()
        pair.residents = [
            [*row[:1], *(f"{cell}x" for cell in row[1:])] if row[0] != "Applicant" else row for row in pair.residents
        ]
        tables = self.tables(*pair.bytes())
        docket = self.write("docket.csv", "Q;a;1\n" * 30000)
        for words in (["check", *tables, "--all"], ["lint", docket, "--all"]):
            said = spawn(words, shell="| head -n 1; exit ${PIPESTATUS[0]}")
            self.assertEqual((len(said.out.splitlines()), said.err), (1, ""))
        # The faults of a docket are more than a pipe holds.
        self.assertEqual(said.status, 1)
        out = self.run_tables()
        os.remove(docket)
        said = spawn(["compare", str(out), str(out)], shell="| true")
        self.assertEqual(said.err, "")

    def test_an_output_that_is_full_or_closed(self) -> None:
        tables = self.tables()
        docket = self.write("docket.csv", DOCKET)
        for words in (["check", *tables], ["lint", docket], ["--help"], ["run", "--help"]):
            for shell in ("> /dev/full", ">&-"):
                said = spawn(words, shell=shell)
                self.no_traceback(said)
                self.assertEqual(said.status, 1, (words, shell, said))
                self.assertTrue(said.err.startswith("office: the output could not be written"), (words, shell, said.err))
        for words in (["check", *tables, "--delimiter", "xx"], ["nothing"]):
            for shell in ("2> /dev/full", "2>&-", "2>&- >&-"):
                self.assertEqual(spawn(words, shell=shell).status, 2)

    def test_an_input_that_is_closed(self) -> None:
        said = spawn(["lint", "-"], shell="<&-")
        self.no_traceback(said)
        self.assertEqual(said.status, 1)


class Lint(OfficeTest):
    WANTED = """\
record 1: wrong number of fields (4 cells, the last ones empty; Q has 3)
record 3: bad name (cell 4: le e)
record 4: a name is listed twice (cells 3 and 4: lee)
record 5: unknown name (cell 4: sout; is it south?)
"""

    def test_every_fault_of_a_docket(self) -> None:
        docket = self.write("docket.csv", DOCKET)
        self.assertEqual(office("lint", docket), (3, self.WANTED, ""))
        self.assertEqual(office("check", docket), (3, self.WANTED, ""))
        self.assertEqual(spawn(["lint", "-"], data=DOCKET.encode()), (3, self.WANTED, ""))
        # What stands on standard input is nothing to a docket that is named.
        self.assertEqual(spawn(["lint", docket], shell="< /dev/null"), (3, self.WANTED, ""))
        self.assertEqual(
            office("lint", self.write("good.csv", (TOP / "examples" / "two-by-two.csv").read_bytes())), (0, "no fault\n", "")
        )

    def test_the_first_fault_is_the_programs(self) -> None:
        small = "Q,a,1\nP,a,x\nR,x,a\n"
        program = str(find_program("residency"))
        for text in (
            small,
            "Q,a",
            "Z,a",
            "Q,a/b,1",
            "Q,a,",
            "Q,a,1\nQ,a,2",
            "Q,a,1\nP,b",
            "M,x,a",
            "E,close",
            "Q,a,1\nR,x,a\nF,a,0,1",
            "Q,a,10001",
            "Q;a;1",
            ",,\nQ,a",
            "Q,a,1\nR,x,b,a a",
            "Q,b,1\nR,y,\n",
            'Q,a,1\r\n\r\n"Q","a",1\r\n',
            small + "C,0",
            small + "C,full\nC,1",
            small + "C,1\nE,offer,x,a",
            small + "C,1\nE,answer,x,a,maybe",
            small + "E,take,x\n",
            small + "M,x,a\nF,a,0,1\n",
            small + "U,x\nU,x\nF,a,0,1",
            small + "U,x\nF,a,0,2",
            small + "F,a,0,1",
            "Q,a,1\nP,a,y,y\nR,x\n",
            "V,3",
            "V",
            "Q,a,1\nV,2",
            "W,P,a",
            "V,2\nW,Q,a",
            "V,2\nW,P,a",
            "V,2\nQ,a,1\nW,P,a\nW,P,a",
        ):
            said = subprocess.run([program, "match"], input=text.encode(), capture_output=True).stderr.decode()
            wanted = said.replace("residency: ", "").strip() or "no fault"
            self.assertEqual(office("lint", self.write("docket.csv", text)).out.splitlines()[0].split(" (")[0], wanted, text)

    def test_an_empty_docket_is_told(self) -> None:
        for text in ("", "\n\n", "V,2\n", "\ufeff"):
            path = self.write("docket.csv", text)
            for word in ("lint", "check"):
                said = office(word, path)
                self.assertEqual(
                    (said.status, said.out), (3, f"{path} has no programme and no resident: it is empty, or no docket\n")
                )
            said = office("lint", path, "--json")
            self.assertEqual((said.status, json.loads(said.out)), (3, {"faults": [], "is_empty": True}))

    def test_many_faults_and_raw_bytes(self) -> None:
        path = self.write("docket.csv", b"Q,\x1b[31m\xff,1\n" * 5000)
        said = office("lint", path)
        self.assertLessEqual(len(said.out.splitlines()), 22)
        self.assertTrue(all(line.isprintable() and line.isascii() for line in said.out.splitlines()))
        self.assertEqual(
            said.out.splitlines()[-1], "and 9,979 more faults: 4,990 declared twice, 4,989 bad name (--all tells each)"
        )
        self.assertGreaterEqual(len(office("lint", path, "--all").out.splitlines()), 5000)

    def test_tables_given_as_dockets(self) -> None:
        for name in ("programmes.csv", "residents.csv"):
            said = office("lint", str(SAMPLES / name))
            self.assertEqual(said.status, 3)
            self.assertLessEqual(len(said.out.splitlines()), 22)
            said = office("check", str(SAMPLES / name))
            self.assertEqual((said.status, said.out), (2, ""))
            self.assertIn("only one table was given", said.err)


class Words(OfficeTest):
    def test_help_has_an_example_and_the_statuses(self) -> None:
        for name in COMMANDS:
            said = office(name, "--help")
            self.assertEqual((said.status, said.err), (0, ""))
            self.assertIn(f"example: office {name} ", said.out)
            self.assertIn("exit statuses: 0 done;", said.out)
            self.assertLessEqual(max(map(len, said.out.splitlines())), 80)
        top = office("--help").out
        self.assertTrue(all(f"    {name} " in top and f"  office {name} " in top for name in COMMANDS))

    def test_examples_of_the_help_are_command_lines(self) -> None:
        for name in COMMANDS:
            example = next(line for line in office(name, "--help").out.splitlines() if line.startswith("example: office "))
            given = line.parser().parse_args(shlex.split(example)[2:])
            self.assertEqual(given.command, name)

    def test_wrong_words(self) -> None:
        for words in (
            [],
            ["marry"],
            ["run", "a.csv"],
            ["run", "a.csv", "b.csv"],
            ["check"],
            ["lint"],
            ["compare", "a"],
            ["letters", "a"],
            ["run", "a", "b", "--out", "c", "--date", "yesterday"],
            ["run", "a", "b", "--out", "c", "--timeout", "0"],
            ["run", "a", "b", "--out", "c", "--timeout", "nan"],
            ["run", "a", "b", "--out", "c", "--order", "x"],
            ["check", "a", "b", "--nothing"],
            ["check", "a", "b", "--no\x1b[2J"],
            ["check", "a", "b", "--expect-residents", "9\x1b[2J"],
            ["run", "a", "b", "--out", "c", "--date", "2026\x1b[2J"],
            ["run", "a", "b", "--out", "c", "--timeout", "9\x1b[2J"],
            ["run", "a", "b", "--out", "c", "--order", "x\x1b[2J"],
            ["verify", "a", "--lists", "9\x1b[2J"],
        ):
            said = office(*words)
            self.assertEqual((said.status, said.out), (2, ""), words)
            self.assertRegex(said.err, r"\Aoffice: .* \(office.* --help says more\)\n\Z")
            self.assertTrue(said.err[:-1].isprintable(), said.err)
        for begins, what in (("run a b --out c --date", "day"), ("run a b --out c --timeout", "number of seconds"), ("check a b --expect-residents", "number"),
                             ("verify a --lists", "root")):
            self.assertIn(f"9... (400 letters) is no {what}", office(*begins.split(), "9" * 400).err)

    def test_a_title_that_is_no_text(self) -> None:
        said = office("run", *self.tables(), "--out", self.folder / "out", "--title", "T\x1b[2J")
        self.assertEqual((said.status, said.out, self.left()), (2, "", []))
        self.assertIn("the title T\\x1b[2J has a character that is no letter", said.err)

    def test_words_that_are_no_text(self) -> None:
        for words in (b"check /tmp/\xff\xfe", b"run a\xff b --out c"):
            done = subprocess.run([OFFICE, *words.split()], capture_output=True, cwd=self.folder)
            self.assertEqual((done.returncode, done.stdout), (1, b""))
            self.assertTrue(done.stderr.startswith(b"office: "), done.stderr)
        tables = self.tables()
        done = subprocess.run(
            [OFFICE, "run", *tables, "--out", b"out\xff"], capture_output=True, cwd=self.folder
        )
        self.assertEqual((done.returncode, done.stderr), (0, b""))
        self.assertTrue(os.path.isdir(os.path.join(os.fsencode(self.folder), b"out\xff")))
        done = subprocess.run(
            [OFFICE, "run", *tables, "--out", "out", "--title", b"T\xff"], capture_output=True, cwd=self.folder
        )
        self.assertEqual((done.returncode, done.stderr), (2, b"office: T\\udcff is no text\n"))
