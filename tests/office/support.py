"""What the tests of the office share: the command in this process and in one of its own, folders, and small tables."""
import contextlib
import io
import os
import subprocess
import tempfile
import unittest
from pathlib import Path
from typing import Any, Dict, List, NamedTuple, Optional, Sequence, Set, Union

from residency.office import main

TOP = Path(__file__).resolve().parent.parent.parent
OFFICE = str(TOP / "office")
SAMPLES = TOP / "examples" / "office"
PICTURES = FULL = False
# Four programmes and seven residents, two of whom rank nobody or are ranked back by nobody.
PROGRAMMES = """\
Programme,Places,Rank 1,Rank 2,Rank 3,Rank 4
North Clinic,2,Ana Silva,Kim Lee,Zoë Brontë,Jürgen Groß
South Hospital,1,Kim Lee,Ana Silva,Omar Haddad,
East Ward,1,Zoë Brontë,Omar Haddad,Ana Silva,Kim Lee
West Infirmary,3,Kim Lee,,,
"""
RESIDENTS = """\
Applicant,Rank 1,Rank 2,Rank 3
Ana Silva,South Hospital,North Clinic,
Kim Lee,North Clinic,South Hospital,West Infirmary
Zoë Brontë,East Ward,North Clinic,
Jürgen Groß,North Clinic,,
Omar Haddad,East Ward,South Hospital,
Fatima Kovács,West Infirmary,East Ward,
Rosa Rossi,,,
"""


class Said(NamedTuple):
    """How a command ended, and what it said."""

    status: int
    out: str
    err: str


def office(*words: str) -> Said:
    """The command in this process; an exception that it lets through is the test's."""
    out, err = io.StringIO(), io.StringIO()
    with contextlib.redirect_stdout(out), contextlib.redirect_stderr(err):
        status = main([str(word) for word in words])
    return Said(status, out.getvalue(), err.getvalue())


def spawn(words: Sequence[str], env: Optional[Dict[str, str]] = None, data: bytes = b"", shell: str = "") -> Said:
    """The command in a process of its own; `shell` is put after it, as `| head -n 1` or `> /dev/full`."""
    line = ["bash", "-c", f'"$0" "$@" {shell}', OFFICE, *map(str, words)]
    done = subprocess.run(line, input=data, capture_output=True, env={**os.environ, **(env or {})}, timeout=300)
    return Said(done.returncode, done.stdout.decode("utf-8", "replace"), done.stderr.decode("utf-8", "replace"))


def children(of: int) -> Set[int]:
    """The processes that one started and that are there yet."""
    done = subprocess.run(["ps", "-o", "pid=,comm=", "--ppid", str(of)], capture_output=True, text=True)
    return {int(line.split()[0]) for line in done.stdout.splitlines() if line.split()[1] != "ps"}


class OfficeTest(unittest.TestCase):
    """A test with a folder of its own, in which nothing but what it names may be left."""

    maxDiff = 4000

    def setUp(self) -> None:
        self.folder = Path(self.enterContext(tempfile.TemporaryDirectory())) if hasattr(self, "enterContext") else self.own_folder()

    def own_folder(self) -> Path:
        folder = tempfile.TemporaryDirectory()
        self.addCleanup(folder.cleanup)
        return Path(folder.name)

    def enter(self, changed: Any) -> None:
        """Lets what is changed, as by `mock.patch`, be so up to the test's end."""
        changed.start()
        self.addCleanup(changed.stop)

    def write(self, name: str, text: Union[str, bytes]) -> str:
        path = self.folder / name
        path.write_bytes(text if isinstance(text, bytes) else text.encode("utf-8"))
        return str(path)

    def tables(self, programmes: Union[str, bytes] = PROGRAMMES, residents: Union[str, bytes] = RESIDENTS) -> List[str]:
        return [self.write("programmes.csv", programmes), self.write("residents.csv", residents)]

    def run_tables(self, programmes: Union[str, bytes] = PROGRAMMES, residents: Union[str, bytes] = RESIDENTS, out: str = "out",
                   *words: str) -> Path:
        """A run that has to be done; answers its folder."""
        said = office(
            "run", *self.tables(programmes, residents), "--out", str(self.folder / out), "--date", "2026-03-20", *words
        )
        self.assertEqual((said.status, said.err), (0, ""), said)
        return self.folder / out

    def left(self) -> List[str]:
        """What stands in the test's folder besides the two tables."""
        return sorted(name for name in os.listdir(self.folder) if name not in ("programmes.csv", "residents.csv"))
