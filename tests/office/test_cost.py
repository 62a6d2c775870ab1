"""What the largest tables cost: 20,000 residents, 2,000 programmes, 200,000 pairs, in scripts with and without plain letters.

Seconds of the processor are compared with one another alone, since machines differ and other work may stand beside. A check of
tables with a mistake is compared with a check of the same tables without, and then with one of eight times as many rows. A run
is compared with a check of its tables. Mistakes are of half the whole size, unless `tests/office/run --full` asks for all of it.
"""
import subprocess
import sys
import time
from pathlib import Path
from typing import Callable, List, NamedTuple, Union

import large
import support
from residency.names import docket_names
from residency.office import folder
from support import OFFICE, OfficeTest

MEGABYTES = 1000
# What goes with the rows takes eight times as long for eight times as many, or less, since Python's start is the same. What goes
# with their square takes up to 64 times as long.
MORE, GROWTH = 8, 10
# A measure that is too large is taken again, so often at most: other work only adds to it. One of half a second may be taken more
# often, since other work weighs more in it.
MOST, MOST_SHORT = 6, 30
# Starts the office's command and tells, besides its own end, what it took with the process that reads its tables: seconds of a
# processor, and kilobytes. The most that `getrusage` tells of itself may be those of the process that started it.
MEASURED = """
import resource, sys
sys.path.insert(0, sys.argv.pop(1))
from residency.office import main, steps
if sys.argv[1] == "together":
    del sys.argv[1]
    steps.apart = lambda limits, step, words, progress: getattr(steps, step)(*words, progress)
status = main(sys.argv[1:])
used = [resource.getrusage(who) for who in (resource.RUSAGE_SELF, resource.RUSAGE_CHILDREN)]
with open("/proc/self/status") as lines:
    kilobytes = next(int(line.split()[1]) for line in lines if line.startswith("VmHWM:"))
print(f"took {sum(one.ru_utime + one.ru_stime for one in used)} {max(kilobytes, used[1].ru_maxrss)}", file=sys.stderr)
sys.exit(status)
"""


class Took(NamedTuple):
    status: int
    lines: List[str]
    seconds: float
    megabytes: float


class Cost(OfficeTest):
    def took(self, *words: Union[str, Path]) -> Took:
        done = subprocess.run(
            [sys.executable, "-c", MEASURED, str(Path(OFFICE).parent / "python"), *map(str, words)],
            capture_output=True,
            timeout=600,
        )
        *lines, last = done.stderr.decode("utf-8").splitlines()
        word, seconds, kilobytes = last.split()
        self.assertEqual(word, "took", last)
        return Took(done.returncode, done.stdout.decode("utf-8").splitlines() + lines, float(seconds), int(kilobytes) / 1000)

    def compared(self, more: Callable[[], Took], less: Callable[[], Took], times: float, tries: int = MOST) -> None:
        """Whether the one takes less than so many times the other, by the least that each took."""
        most: List[float] = []
        least: List[float] = []
        while not most or len(most) < tries and min(most) >= times * min(least):
            least.append(less().seconds)
            most.append(more().seconds)
        self.assertLess(min(most) / min(least), times, f"{most} to {least}")

    def test_verify_of_the_example(self) -> None:
        """Of its sealed folder, in seconds of a processor."""
        tables = [Path(OFFICE).parent / "examples" / "office" / f"{side}.csv" for side in ("programmes", "residents")]
        for words in (["seal", *tables, "--out", self.folder / "sealed"], ["run", self.folder / "sealed", "--out", self.folder / "match"]):
            self.assertEqual(self.took(*words).status, 0)
        took = self.took("verify", self.folder / "match")
        self.assertEqual(took.status, 0, took.lines)
        self.assertLess(took.seconds, 10)

    def test_a_run_at_the_limits(self) -> None:
        """It reads its tables as a check does; the docket, its match and the letters take a few times as long again."""
        for script, long in (("devanagari", False), ("latin", True))[: 1 + support.FULL]:
            tables = large.write_tables(self.folder, script, long=long)

            def run() -> Took:
                took = self.took("run", *tables, "--out", self.folder / f"{script} {time.monotonic_ns()}")
                self.assertEqual(took.status, 0, took.lines)
                self.assertIn("; 20,000 residents", took.lines[1])
                self.assertLess(took.megabytes, MEGABYTES)
                return took

            self.compared(run, lambda: self.check(self.folder, 0), 8)

    def test_a_process_of_its_own(self) -> None:
        """Of 900 residents the tables are read apart for a seventh more, at most, than in the command's own process."""
        tables = large.write_tables(self.folder, "latin", 900, 60)
        self.compared(lambda: self.took("check", *tables), lambda: self.took("together", "check", *tables), 1.15, MOST_SHORT)

    def test_sealing_goes_with_the_rows(self) -> None:
        """Eight times as many members take eight times as long to be sealed: trees, receipts and their files."""
        whole = 1 if support.FULL else 4
        for part in (whole, whole * MORE):
            self.written(str(part), lambda path: large.write_tables(path, "latin", 20000 // part, 2000 // part))

        def seal(part: int) -> Took:
            tables = (self.folder / str(part) / name for name in ("programmes.csv", "residents.csv"))
            took = self.took("seal", *tables, "--out", self.folder / f"{part} {time.monotonic_ns()}")
            self.assertEqual((took.status, took.lines[-1][:6]), (0, "lists,"), took.lines)
            self.assertLess(took.megabytes, MEGABYTES)
            return took

        self.compared(lambda: seal(whole), lambda: seal(whole * MORE), GROWTH)

    def check(self, tables: Path, status: int = 3) -> Took:
        took = self.took("check", tables / "programmes.csv", tables / "residents.csv")
        self.assertEqual(took.status, status, took.lines[-3:])
        self.assertLessEqual(len(took.lines), 24)
        self.assertLess(took.megabytes, MEGABYTES)
        return took

    def written(self, name: str, write: Callable[[Path], object]) -> Path:
        """A folder of this name, in which tables are written."""
        path = self.folder / name
        path.mkdir(exist_ok=True)
        write(path)
        return path

    def mistaken(
        self,
        script: str,
        long: bool = False,
        in_lists: Callable[[str], str] = str,
        residents: Callable[[str], str] = str,
        times: float = 3,
        growth: float = GROWTH,
    ) -> None:
        """A check of tables with a mistake beside one without, and then one of eight times as many rows with it."""
        part = 1 if support.FULL else 2

        def with_mistake(path: Path, part: int) -> None:
            large.write_tables(path, script, 20000 // part, 2000 // part, 10, long, in_lists)
            rows = path / "residents.csv"
            rows.write_text(residents(rows.read_text(encoding="utf-8")), encoding="utf-8")

        less = MORE * part
        good = self.written("good", lambda path: large.write_tables(path, script, 20000 // less, 2000 // less, 10, long))
        bad = self.written("bad", lambda path: with_mistake(path, less))
        more = self.written("more", lambda path: with_mistake(path, part))
        self.compared(lambda: self.check(bad), lambda: self.check(good, 0), times)
        self.compared(lambda: self.check(more), lambda: self.check(bad), growth)

    def test_last_names_first_in_one_table(self) -> None:
        def turned(name: str) -> str:
            return ", ".join(reversed(name.split()))

        large.write_tables(self.folder, "latin", in_lists=turned)
        self.assertIn("20,000 faults in the tables", self.check(self.folder).lines[-1])
        self.mistaken("latin", in_lists=turned)

    def test_every_name_with_a_letter_more(self) -> None:
        """The first thousand of them are told with the names that are near."""
        self.mistaken("latin", in_lists=lambda name: name + "x", times=15, growth=4)

    def test_long_tables_with_every_name_unknown(self) -> None:
        self.mistaken("han", long=True, in_lists=lambda name: name[::-1] + "!", times=6)

    def test_every_programme_unknown(self) -> None:
        self.mistaken("devanagari", residents=lambda text: text.replace("Hospital", "Hospitall"), times=6)

    def test_a_quote_that_is_left_open(self) -> None:
        self.mistaken("latin", residents=lambda text: text.replace("\n", '\n"', 1))

    def test_all_rows_twice(self) -> None:
        self.mistaken("latin", residents=lambda text: text + text.split("\n", 1)[1])

    def test_a_letter_more_in_han(self) -> None:
        self.mistaken("han", in_lists=lambda name: name + "们", times=15)

    def test_no_fault(self) -> None:
        part = 1 if support.FULL else 2
        more, less = (
            self.written(name, lambda path: large.write_tables(path, "arabic", 20000 // size, 2000 // size, 10, long=True))
            for name, size in (("more", part), ("less", MORE * part))
        )
        self.compared(lambda: self.check(more, 0), lambda: self.check(less, 0), GROWTH)

    def grown(self, rows: Callable[[int], str], count: int, megabytes: float = MEGABYTES) -> None:
        """A check of so many such rows beside one of an eighth of them."""

        def write(path: Path, count: int) -> None:
            large.write_tables(path, "latin", 20, 5, 2)
            (path / "residents.csv").write_text(rows(count), encoding="utf-8")

        more = self.written("more", lambda path: write(path, count))
        less = self.written("less", lambda path: write(path, count // MORE))
        self.assertLess(self.check(more).megabytes, megabytes)
        self.compared(lambda: self.check(more), lambda: self.check(less), GROWTH)

    def test_cells_and_rows_of_every_length(self) -> None:
        much = 1_000_000 if support.FULL else 100_000
        forms: List[Callable[[int], str]] = [
            lambda count: "Applicant;Rank 1\n" + "x" * 20 * count + ";\n",
            lambda count: "Applicant;Rank 1\nKim" + ";A" * count + "\n",
            lambda count: "Applicant;Rank 1\n" + '"' * (2 * count + 1),
            lambda count: "Applicant" + ";Rank 1" * count + "\nKim\n",
            lambda count: "Applicant;Rank 1\n" + "\n" * 5 * count,
        ]
        for rows in forms:
            with self.subTest(rows(3)):
                self.grown(rows, much)

    def test_rows_of_one_letter(self) -> None:
        """A million and a half of them take 300 MB at most; they took 1,000 MB once."""
        part = 1 if support.FULL else 8
        for begin, row in (("Applicant;Rank 1\n", "x\n"), ("", "x\n"), ("Applicant;Rank 1\n", "x;\n")):
            with self.subTest(begin + row):
                self.grown(lambda count: begin + row * count, 1_500_000 // part, 300 if part == 1 else 100)

    def test_faulty_rows_of_a_docket(self) -> None:
        """What lint holds of 600,000 of them is 60 bytes for each of theirs at most."""
        count = 600_000 // (1 if support.FULL else 6)
        empty = self.took("lint", self.write_rows("Q,a,1\n", 1)).megabytes
        for row in ("x\n", "Q;a;1\n", "R,x y\n", "Q,a,1\n", "R,%06x,b\n"):
            path = self.write_rows(row, count)
            took = self.took("lint", path)
            self.assertEqual(took.status, 3)
            # Twenty faults and how many more there are; where one is over a limit, which program takes more.
            self.assertLessEqual(len(took.lines), 21 + any("residency-national" in line for line in took.lines))
            self.assertLess(took.megabytes - empty, 60 * path.stat().st_size / 1e6 + 1, row)

    def write_rows(self, row: str, count: int) -> Path:
        path = self.folder / "docket.csv"
        path.write_text("".join(row % number if "%" in row else row for number in range(count)))
        return path

    def test_ids_that_differ_in_capitals_alone(self) -> None:
        """16,384 of them take no more than twice as long as others: to name files, and to name members."""
        alike = ["".join(c.upper() if number >> place & 1 else c for place, c in enumerate("abcdefghijklmn")) for number in range(16384)]
        others = [f"abcdefgh{number:06}" for number in range(16384)]

        def seconds(names: List[str]) -> float:
            start = time.process_time()
            made = folder.file_names(names, ".txt")
            self.assertEqual(len({name.lower() for name in made.values()}), 16384)
            docket_names(names)
            return time.process_time() - start

        self.assertLess(min(seconds(alike) for _ in range(3)), 2 * max(seconds(others) for _ in range(3)))
