"""Markets over a limit of residency: the command takes the programs of the national limits.

The limits are made small here, and the programs of the national limits are those of the standard ones under the other names, so that
what is asked for, and that it answers alike, is seen with a few members.
"""
import contextlib
import os
import shutil
from unittest import mock

from residency.docket import read_docket
from residency.market import Market
from residency.passes import NATIONAL, STANDARD, Most
from residency.program import find_program
from support import PROGRAMMES, RESIDENTS, OfficeTest, office

# The tables of the tests have four programmes and seven residents.
SMALL = Most(4, 6, 100, 1000)
NOTE = "note: over a limit of residency: residency-national matches this"


@contextlib.contextmanager
def limits(standard: Most, national: Most = NATIONAL):
    """The limits of the programs, as the office knows them."""
    with contextlib.ExitStack() as held:
        for module in ("market", "office.verify"):
            held.enter_context(mock.patch(f"residency.{module}.STANDARD", standard))
        for module in ("market", "office.lists", "office.tables", "office.running", "office.remade", "office.tree", "office.verify"):
            held.enter_context(mock.patch(f"residency.{module}.NATIONAL", national))
        # What names no limits has the standard ones.
        for function in (read_docket, Market.__init__, Market.from_docket.__func__):
            own = tuple(standard if value is STANDARD else value for value in function.__defaults__)
            held.enter_context(mock.patch.object(function, "__defaults__", own))
        yield


class National(OfficeTest):
    def programs(self, *names: str) -> None:
        """Lets none but these programs be found, each the standard one of that name."""
        there = self.folder / "bin"
        there.mkdir()
        for name, standard in names:
            os.symlink(find_program(standard), there / f"residency-{name}")
        self.enter(mock.patch.dict(os.environ, RESIDENCY_BIN=str(there)))

    def test_a_run_over_a_limit(self) -> None:
        """It writes what a run within them writes, and tells before the match what takes these tables, and then how far it is."""
        wanted = self.run_tables(out="standard")
        self.programs(("national", "residency"), ("why-national", "why"))
        with limits(SMALL):
            said = office("run", *self.tables(), "--out", str(self.folder / "out"), "--date", "2026-03-20")
            self.assertEqual(said.status, 0, said)
            lines = said.err.splitlines()
            self.assertEqual(lines[-3:], [f"office: {NOTE}", "office: residency-national matches, audits and replays", "office: the folder is written"])
            self.assertIn("7 residents", lines[1])
            self.assertIn(NOTE, said.out.splitlines())
            files = {path.relative_to(wanted): path.read_bytes() for path in wanted.rglob("*.*")}
            self.assertEqual({path.relative_to(self.folder / "out"): path.read_bytes() for path in (self.folder / "out").rglob("*.*")}, files)
            # The reasons, letters and a withdrawal need no other program either.
            self.assertIn("Kim Lee", office("why", self.folder / "out", "Kim Lee").out)
            self.assertEqual(office("letters", self.folder / "out", "--out", self.folder / "letters").status, 0)
            self.assertEqual(office("withdraw", self.folder / "out", "Kim Lee", "--out", self.folder / "again").status, 0)
            self.assertEqual(office("check", *self.tables()).out.splitlines()[-2:], [NOTE, "no fault"])

    def test_within_the_limits(self) -> None:
        """At the limits the standard programs are asked, and no other one."""
        self.programs(("national", "residency"))
        with limits(Most(4, 7, 100, 1000)):
            said = office("run", *self.tables(), "--out", str(self.folder / "out"))
            self.assertEqual((said.status, "there is no program residency" in said.err), (1, True), said)
            self.assertNotIn(NOTE, office("check", *self.tables()).out)

    def test_a_sealed_match_over_a_limit(self) -> None:
        """Seal, the match of what was sealed, a copy for the auditor and verify need no standard program but seal, and hold."""
        self.programs(("national", "residency"), ("why-national", "why"), ("seal", "seal"))
        sealed, out, copy = (self.folder / name for name in ("sealed", "out", "copy"))
        for most in (SMALL, Most(3, 7, 100, 1000), Most(4, 7, 3, 1000)):
            with limits(most):
                for words, told in ((["seal", *self.tables(), "--out", sealed], "the folder is written"),
                                    (["run", sealed, "--out", out], "residency-national matches, audits and replays")):
                    said = office(*words)
                    self.assertEqual((said.status, said.err.splitlines()[-1 if words[0] == "seal" else -2]), (0, f"office: {told}"), said)
                    self.assertIn(f"office: {NOTE}", said.err.splitlines())
                self.assertEqual(office("auditor", out, "--out", copy).status, 0)
                for path in (sealed, out, copy):
                    said = office("verify", path)
                    self.assertEqual((said.status, said.err), (0, ""), said)
                    self.assertEqual("reasons: the program says what the letters say" in said.out, path != sealed, said)
            for path in (sealed, out, copy):
                shutil.rmtree(path)

    def test_verify_over_the_national_limits(self) -> None:
        """The programs refuse a folder that is over the national limits, too."""
        out = self.run_tables()
        with limits(SMALL, Most(4, 6, 100, 1000)):
            said = office("verify", out)
        self.assertEqual((said.status, "docket and key: record 15: more than 6 residents" in said.out), (4, True), said)

    def test_over_the_national_limits(self) -> None:
        """No row below the first one over a limit is read."""
        more = RESIDENTS + ",South Hospital,,\n" * 3
        for tables, most, wanted in (((PROGRAMMES, more), Most(9, 6, 100, 0), "residents, row 8, cell 1 (A8): more than 6 residents, and no more are matched"),
                                     ((PROGRAMMES, RESIDENTS), Most(9, 9, 3, 0), "pairs rank one another, and no more than 3 are matched")):
            with limits(Most(2, 3, 3, 0), most):
                lines = office("check", *self.tables(*tables)).out.splitlines()
            self.assertIn(wanted, lines[-2])
            self.assertEqual(lines[-1], "1 fault in the tables")
        # As many pairs as there are are none too many.
        pairs = int(lines[-2].split(" pairs")[0].rpartition(" ")[2])
        for most, status in ((pairs, 0), (pairs - 1, 3)):
            with limits(Most(2, 3, 3, 0), Most(9, 9, most, 0)):
                self.assertEqual(office("check", *self.tables()).status, status)
