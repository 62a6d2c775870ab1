"""The second opinion says what the program says, of dockets in every form, and of journals that were changed."""
import concurrent.futures
import contextlib
import io
import os
import random
import subprocess
import sys
import tempfile
import unittest
from collections import Counter
from pathlib import Path
from unittest import mock

import made
from residency import find_program

SCRIPT = Path(__file__).resolve().parent.parent.parent / "examples" / "second-opinion.py"
CODE = compile(SCRIPT.read_text(encoding="utf-8"), str(SCRIPT), "exec")


PARTS = ("VQPRW", "MUF", "CE")


def opinion(parts):
    """What the script says of these parts, each in a file of its own, run in this process."""
    said = io.StringIO()
    with tempfile.TemporaryDirectory() as room:
        paths = [f"{room}/{place}.csv" for place in range(len(parts))]
        for path, data in zip(paths, parts):
            Path(path).write_bytes(data)
        with mock.patch("sys.argv", [str(SCRIPT), *paths]), contextlib.redirect_stdout(said):
            exec(CODE, {"__name__": "__main__", "__file__": str(SCRIPT)})
    return said.getvalue()


class Words(unittest.TestCase):
    def test_two_files_or_three(self):
        """With fewer words, or more, it says which ones it takes, and no file is read."""
        for count in (0, 1, 4):
            done = subprocess.run([sys.executable, str(SCRIPT), *["/nowhere"] * count], capture_output=True, text=True, check=False)
            self.assertEqual((done.returncode, done.stdout, done.stderr), (1, "", "second-opinion.py DOCKET SHEET [JOURNAL]\n"), count)


def told(data):
    """The first line of the program's audit, where there is a sheet, and its replay, where there is a journal."""
    lines = []
    for word, most in (("audit", 1), ("replay", None)):
        said = subprocess.run([str(find_program()), word], input=data, capture_output=True, text=False, check=False)
        if said.returncode == 3 and said.stderr not in (b"residency: no sheet in the docket\n",
                                                        b"residency: no journal in the docket\n"):
            raise AssertionError(said.stderr, data)
        lines += said.stdout.decode().splitlines()[:most]
    return "".join(line + "\n" for line in lines)


def docket(number):
    """The parts of a docket without a fault, each in some form, whose journal may have been changed."""
    rng = random.Random(f"opinion {number}")
    rows = made.whole(rng)
    events = [at for at, row in enumerate(rows) if row[0] == "E"]
    if events and rng.random() < 0.5:
        at, other, what = rng.choice(events), rng.choice(events), rng.randrange(3)
        if what == 0:
            del rows[at]
        elif what == 1:
            rows[at], rows[other] = rows[other], rows[at]
        else:
            rows.insert(at, rows[other])
    return [made.bytes_of([row for row in rows if row[0] in letters], rng) for letters in PARTS]


def whole(parts):
    """The parts as one docket: each without a mark at its start, and with its last line ended."""
    ended = (data[3:] if data.startswith(b"\xef\xbb\xbf") else data for data in parts)
    return b"".join(data if data.endswith((b"\n", b"\r")) or not data else data + b"\n" for data in ended)


class SecondOpinion(unittest.TestCase):
    def test_forms(self):
        parts = (b"Q,a,1\nP,a,x,y\nR,x,a\nR,y,a\n", b"U,x\nM,y,a\nF,a,1,1\n", b"C,full\nE,close\n")
        for end in (b"\n", b"\r", b"\r\n", b"\n\n", b"\r\r"):
            for mark in (b"", b"\xef\xbb\xbf"):
                for last in (b"", end):
                    data = [mark + end.join(rows.split(b"\n")[:-1]) + last for rows in parts]
                    self.assertEqual(opinion(data), "S,unstable\nN,1,still-pending,wish,a\n")
                    marked = [part.replace(b"a", b'"a"') for part in data]
                    self.assertEqual(opinion(marked), "S,unstable\nN,1,still-pending,wish,a\n")
        self.assertEqual(opinion([b"", b""]), "S,stable\n")

    def refused(self, parts):
        said = io.StringIO()
        with self.subTest(parts=parts), contextlib.redirect_stdout(said), self.assertRaises(SystemExit) as end:
            opinion(parts)
        self.assertEqual(said.getvalue(), "")
        return str(end.exception)

    def test_a_record_of_another_part_is_refused(self):
        good = (["V,2", "Q,a,1", "P,a,x", "R,x,a"], ["M,x,a", "F,a,1,1"], ["C,full", "E,offer,a,x", "E,close"])
        rows = ("V,2", "Q,b,1", "P,a,x", "R,y,a", "W,R,x", "M,x,a", "U,x", "F,a,1,1", "C,full", "E,close", "X,a", "QP,a", ",a", "q,a")
        forms = {
            "plain": lambda lines: "\n".join([*lines, ""]), "CR": lambda lines: "\r".join([*lines, ""]),
            "CR and LF": lambda lines: "\r\n".join([*lines, ""]), "mark": lambda lines: "\ufeff" + "\n".join([*lines, ""]),
            "quoted": lambda lines: "".join('"' + line.replace(",", '","') + '"\n' for line in lines), "no end": "\n".join,
        }
        for place, letters in enumerate(PARTS):
            for row in (row for row in rows if row.split(",")[0] not in list(letters)):
                for at in (0, 1, len(good[place])):
                    for form in forms.values():
                        parts = [form([*lines[:at], row, *lines[at:]] if it == place else lines).encode() for it, lines in enumerate(good)]
                        self.assertIn(f"record {at + 1}: ", self.refused(parts))

    def test_a_withdrawal_in_a_sheet_of_a_big_market(self):
        docket = b"V,2\n" + (SCRIPT.parent / "market.csv").read_bytes()
        sheet = subprocess.run([str(find_program()), "match"], input=docket, capture_output=True, check=True).stdout
        gone = next(line.split(b",")[1] for line in sheet.splitlines() if line.startswith(b"M,"))
        fraud = subprocess.run([str(find_program()), "match"], input=docket + b"W,R," + gone + b"\n", capture_output=True, check=True).stdout
        self.assertNotEqual(fraud, sheet)
        for smuggled in (b"W,R," + gone + b"\n" + fraud, fraud + b"W,R," + gone + b"\n"):
            joined = subprocess.run([str(find_program()), "audit"], input=docket + smuggled, capture_output=True, check=False)
            # Where the files are joined the fraud passes.
            self.assertEqual(joined.stdout, b"S,stable\n")
            self.refused([docket, smuggled])

    def test_it_says_what_the_program_says(self):
        dockets = [docket(number) for number in range(400)]
        with concurrent.futures.ThreadPoolExecutor(os.cpu_count()) as pool:
            answers = list(pool.map(told, map(whole, dockets)))
        for data, answer in zip(dockets, answers):
            with self.subTest(data=data):
                self.assertEqual(opinion(data), answer)
        # Each kind of answer came up.
        kinds = Counter(line.split(",")[0] + ("," + line.split(",")[1] if line[0] == "S" else "") for answer in answers for line in answer.splitlines())
        for kind in ("S,stable", "S,unstable", "G", "N", "D", "K"):
            self.assertGreater(kinds[kind], 8, kind)


if __name__ == "__main__":
    unittest.main()
