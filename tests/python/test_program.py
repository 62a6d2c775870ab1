"""Finding and running the programs: what is missing, too slow or odd is an exception of its own, never an empty result."""
import os
import pickle
import re
import shutil
import subprocess
import sys
import tempfile
import time
import unittest
import zipfile
from pathlib import Path
from unittest import mock

from residency import (DocketFault, KeyFault, Market, MarketFault, ProgramError, ProgramFailed, ProgramMissing, ProgramTimeout,
                       UnknownStatus, find_program)
from residency import program as finding
from residency.program import run_program

PACKAGE = Path(finding.__file__).resolve().parent


class Folders(unittest.TestCase):
    def setUp(self):
        folder = tempfile.TemporaryDirectory()
        self.addCleanup(folder.cleanup)
        # Two more, so that nothing of this machine is beside it.
        self.folder = Path(folder.name).resolve() / "one" / "two"
        self.folder.mkdir(parents=True)

    def put(self, path, text="#!/bin/sh\n", mode=0o755):
        place = self.folder / path
        place.parent.mkdir(parents=True, exist_ok=True)
        place.write_text(text)
        place.chmod(mode)
        return place

    def named(self, path):
        return mock.patch.dict(os.environ, {"RESIDENCY_BIN": str(path)})


class Finding(Folders):
    def test_a_folder_or_a_file_is_named(self):
        for path in ("residency", "residency_cli", "bin/residency", "crates/residency_cli/out/residency_cli", "program.of.mine"):
            place = self.put(path)
            with self.named(place if path == "program.of.mine" else self.folder):
                self.assertEqual(find_program(), place)
            with self.named(place):
                self.assertEqual(find_program(), place)
            place.unlink()
            if path.startswith("crates"):
                shutil.rmtree(self.folder / "crates")

    def test_a_clones_own_script_is_none(self):
        self.put("residency")
        (self.folder / "crates").mkdir()
        with self.named(self.folder), self.assertRaises(ProgramMissing):
            find_program()
        place = self.put("crates/residency_cli/out/residency_cli")
        with self.named(self.folder):
            self.assertEqual(find_program(), place)

    def test_why_beside_it(self):
        for path, why in (("bin/residency", "bin/residency-why"),
                          ("crates/residency_cli/out/residency_cli", "crates/residency_why/out/residency_why"),
                          ("x", "residency_why")):
            program, other = self.put(path), self.put(why)
            for named in (program, program.parent):
                with self.named(named):
                    self.assertEqual(find_program("why"), other)
            other.unlink()
            with self.named(program), self.assertRaises(ProgramMissing):
                find_program("why")
            for part in (program, other):
                shutil.rmtree(self.folder / part.relative_to(self.folder).parts[0], ignore_errors=True)
            program.unlink(missing_ok=True)

    def test_a_name_that_has_none(self):
        elsewhere = self.put("elsewhere/residency")
        for path in ("nowhere", "empty/"):
            (self.folder / "empty").mkdir(exist_ok=True)
            with self.named(self.folder / path), mock.patch.dict(os.environ,
                                                                 {"PATH": str(elsewhere.parent)}), self.assertRaisesRegex(ProgramMissing, "RESIDENCY_BIN names"):
                find_program()
        (self.folder / "folders" / "residency").mkdir(parents=True)
        for path in (self.put("readable", mode=0o644), self.folder / "folders", self.folder / "folders" / "residency"):
            with self.named(path), self.assertRaises(ProgramMissing):
                find_program()

    def found_by(self, package):
        """What a copy of the package finds, with another PATH and without RESIDENCY_BIN."""
        shutil.copytree(PACKAGE, package, ignore=shutil.ignore_patterns("__pycache__", "office"))
        try:
            said = subprocess.run([sys.executable, "-c", "import residency; print(residency.find_program())"], cwd=package.parent,
                                  capture_output=True, text=True,
                                  env={"PATH": str(self.folder / "path")}, check=False)
        finally:
            shutil.rmtree(package)
        return said.stdout.strip() or said.stderr.strip().split("\n")[-1]

    def test_the_order(self):
        package = self.folder / "clone" / "python" / "residency"
        self.assertIn("ProgramMissing: there is no built program residency: looked for", self.found_by(package))
        for path in ("path/residency", "clone/crates/residency_cli/out/residency_cli"):
            place = self.put(path)
            self.assertEqual(self.found_by(package), str(place))

    def test_nothing_above_a_clone(self):
        """What lies above a clone, beside it or in a folder `bin` of it is taken by no package of that clone."""
        package = self.folder / "clone" / "python" / "residency"
        for path in ("bin", "clone/bin", "clone/python/bin", "residency-1.0.0-x86_64-linux/bin", "../bin", "crates/residency_cli/out"):
            for name in ("residency", "residency_cli"):
                self.put(f"{path}/{name}")
        self.assertIn("ProgramMissing: there is no built program residency: looked for", self.found_by(package))

    def test_what_pip_installed_from(self):
        """The programs of the clone, or of the installed release, from whose folder pip made the package."""
        for place, built, folder in (("clone", "crates/residency_cli/out/residency_cli", "clone/python"),
                                     ("prefix", "bin/residency", "prefix/lib/residency/python")):
            program, python = self.put(f"{place}/{built}"), self.folder / folder
            shutil.copytree(PACKAGE, python / "residency", ignore=shutil.ignore_patterns("__pycache__", "office"))
            for name in ("build_wheel.py", "pyproject.toml"):
                shutil.copy(PACKAGE.parent / name, python / name)
            self.put("clone/crates/version/src/lib.rt", 'pub const VERSION: &str = "1.2.3";\n')
            (python / "residency" / "VERSION").write_text("1.2.3\n")
            said = subprocess.run([sys.executable, "-c", "import build_wheel; print(build_wheel.build_wheel('.'))"], cwd=python,
                                  capture_output=True, text=True, check=False)
            self.assertEqual(said.stdout, "residency-1.2.3-py3-none-any.whl\n", said.stderr)
            site = self.folder / "site" / place
            with zipfile.ZipFile(python / said.stdout.strip()) as wheel:
                wheel.extractall(site)
            self.put("path/residency")
            said = subprocess.run([sys.executable, "-c", "import residency; print(residency.find_program(), residency.__version__)"],
                                  cwd=site, capture_output=True, text=True, env={"PATH": str(self.folder / "path")}, check=False)
            self.assertEqual(said.stdout.split(), [str(program), "1.2.3"], said.stderr)
            program.unlink()
            said = subprocess.run([sys.executable, "-c", "import residency; print(residency.find_program())"], cwd=site,
                                  capture_output=True, text=True, env={"PATH": str(self.folder / "path")}, check=False)
            self.assertEqual(said.stdout.split(), [str(self.folder / "path" / "residency")], said.stderr)

    def test_an_unpacked_release(self):
        place = self.put("residency-1.0.0-x86_64-linux/bin/residency")
        self.assertEqual(self.found_by(place.parent.parent / "lib" / "residency" / "python" / "residency"), str(place))
        for path in ("residency", "python/residency", "lib/python/residency", "libs/residency/python/residency"):
            self.assertIn("ProgramMissing", self.found_by(place.parent.parent / path))


class Exceptions(unittest.TestCase):
    def test_where_a_key_is_at_fault(self):
        for words, said in (((0, "a"), "a"), ((2, "a"), "row 2: a"), ((2, "a", 3), "row 2, cell 3: a")):
            self.assertEqual(str(KeyFault(*words)), said)

    def test_they_can_be_sent_to_another_process(self):
        for fault in (DocketFault(3, "unknown name", 4, "kim", "cell 4: kim"), MarketFault(["a", "b"]), KeyFault(1, "a", 2),
                    ProgramMissing("a"),
                    ProgramTimeout("a", 0.5), ProgramFailed(1, "a"), UnknownStatus(-9, "a")):
            again = pickle.loads(pickle.dumps(fault))
            self.assertEqual((type(again), str(again), vars(again)), (type(fault), str(fault), vars(fault)))


class Running(Folders):
    def run_script(self, text, **more):
        with self.named(self.put("residency", f"#!/bin/sh\n{text}\n")):
            return run_program("residency", ["match"], b"Q,a,1\nQ,a,1\n", **more)

    def test_answers(self):
        self.assertEqual(self.run_script('echo "$1"; cat'), (0, b"match\nQ,a,1\nQ,a,1\n"))
        self.assertEqual(self.run_script("echo S,unstable; exit 4"), (4, b"S,unstable\n"))

    def test_it_cant_be_started(self):
        for text in ("not a program", "#!/no/such/shell\n"):
            with self.named(self.put("residency", text)), self.assertRaises(ProgramMissing):
                run_program("residency", [], b"")

    def test_it_is_too_slow(self):
        start = time.monotonic()
        with self.assertRaises(ProgramTimeout) as caught:
            self.run_script("exec sleep 60", timeout=0.2)
        self.assertLess(time.monotonic() - start, 30)
        self.assertEqual(caught.exception.seconds, 0.2)
        self.assertIn("didn't end within 0.2 s", str(caught.exception))

    def test_faults_of_the_docket(self):
        with self.assertRaises(DocketFault) as caught:
            self.run_script("echo 'residency: record 2: declared twice' >&2; exit 3")
        self.assertEqual((caught.exception.record, caught.exception.field, caught.exception.text, caught.exception.name),
                         (2, 2, "declared twice", "a"))
        # Where the reader doesn't find what the program tells, the program's own words stand.
        for told, record, text in (("record 1: bad name", 1, "bad name"),
                                   ("no sheet in the docket", 0, "no sheet in the docket")):
            with self.assertRaises(DocketFault) as caught:
                self.run_script(f"echo 'residency: {told}' >&2; exit 3")
            self.assertEqual((caught.exception.record, caught.exception.text, caught.exception.name), (record, text, None))

    def test_tunables_that_are_set_stay(self):
        with mock.patch.dict(os.environ, {"GLIBC_TUNABLES": "glibc.malloc.check=1"}):
            self.assertEqual(finding.environment()["GLIBC_TUNABLES"], "glibc.malloc.check=1")
            del os.environ["GLIBC_TUNABLES"]
            self.assertIn("glibc.malloc.hugetlb=1", finding.environment()["GLIBC_TUNABLES"])

    def test_other_statuses(self):
        for text, error, status in (("echo 'residency: out of memory' >&2; exit 1", ProgramFailed, 1),
                                    ("echo 'residency: bad capacity' >&2; exit 2", ProgramFailed, 2),
                                    ("exit 1", UnknownStatus, 1), ("exit 2", UnknownStatus, 2), ("exit 3", UnknownStatus, 3),
                                    ("exit 5", UnknownStatus, 5), ("exit 127", UnknownStatus, 127),
                                    ("kill -9 $$", UnknownStatus, -9), ("echo odd >&2", UnknownStatus, 0),
                                    ("echo odd >&2; exit 4", UnknownStatus, 4)):
            with self.subTest(text=text), self.assertRaises(error) as caught:
                self.run_script(text)
            self.assertEqual(caught.exception.status, status)
            self.assertIsInstance(caught.exception, ProgramError)
            said = re.search("echo '?(?:residency: )?([a-z ]+)'? >&2", text)
            self.assertEqual(caught.exception.text, said[1].strip() if said else "nothing was told")

    def test_answers_that_are_none(self):
        market = Market({"A": 1}, {"A": ["Kim"]}, {"Kim": ["A"]})
        places = {"Kim": "A"}
        for text in ("true", "echo M,kim,a", "echo U,kim", "printf 'M,kim,a\\nF,a,1,1\\n'; exit 4",
                     "printf 'M,kim,a\\nF,a,0,1\\n'", "printf 'C,full\\nM,kim,a\\nF,a,1,1\\n'",
                     "printf 'M,kim,a\\nF,a,1,1\\nC,full\\nE,close\\n'", "printf '\\377'"):
            with self.subTest(text=text), self.named(self.put("residency",
                                                              f"#!/bin/sh\n{text}\n")), self.assertRaises(UnknownStatus):
                market.match()
        for text in ("true", "echo S,unstable", "echo S,stable; exit 4", "printf 'S,stable\\nB,kim,a\\n'",
                     "echo S,unstable; exit 4", "printf 'S,unstable\\nY,kim,a\\n'; exit 4",
                     "printf 'S,unstable\\nO,a,1\\n'; exit 4", "echo G,1"):
            with self.subTest(text=text), self.named(self.put("residency",
                                                              f"#!/bin/sh\n{text}\n")), self.assertRaises(UnknownStatus):
                market.audit(places)
        for text in ("true", "echo G", "echo G,x", "echo G,1; exit 4", "echo N,1,closed", "echo D,kim", "printf 'G,1\\nK,1,1\\n'",
                     "echo N,1,still-pending,wish; exit 4",
                     "echo N,1,still-pending,lunch,a; exit 4", "echo X,1; exit 4", "printf 'N,1,closed\\nN,2,closed\\n'; exit 4"):
            with self.subTest(text=text), self.named(self.put("residency",
                                                              f"#!/bin/sh\n{text}\n")), self.assertRaises(UnknownStatus):
                market.replay(b"C,full\n")
        with self.named(self.put("residency", "#!/bin/sh\nprintf 'M,kim,a\\nF,a,1,1\\n'\n")):
            self.assertEqual(market.match().places, places)
            with self.assertRaises(UnknownStatus):
                market.match(journal=True)


if __name__ == "__main__":
    unittest.main()
