"""Receipts of a sealed match: each member has a file of their own on every disk, and nobody else may read what is sealed."""
import os
from pathlib import Path

from support import office
from test_sealed import Sealed, derived, mode_of

PROGRAMMES = "Programme,ID,Places,1,2,3\nNorth,a,1,kim,KIM,Kim\nSouth,A,2,Kim,kim,\n"
RESIDENTS = "ID,Applicant,1,2\nkim,Ana Silva,North,South\nKIM,Bea Lee,North,\nKim,Cleo Rossi,South,North\n"


class Receipts(Sealed):
    def test_names_that_differ_in_capitals(self) -> None:
        sealed = self.sealed(programmes=PROGRAMMES, residents=RESIDENTS)
        for folder in (sealed, self.matched(sealed)):
            names = sorted(os.listdir(folder / "receipts"))
            self.assertEqual((len(names), len({name.lower() for name in names})), (5, 5), names)
            self.assertEqual(self.receipts(folder), derived(folder, folder != sealed).receipts())

    def test_who_may_read_what_is_sealed(self) -> None:
        """Its owner alone, but for what is to be published; so it is before the match, after it, and sealed anew."""
        sealed = self.sealed()
        match, again, more = self.matched(sealed), self.folder / "again", self.folder / "more"
        self.assertEqual([office("withdraw", folder, "Zoë Brontë", "--out", out).status for folder, out in ((sealed, again), (match, more))],
                         [0, 0])
        for out in (sealed, match, again, more):
            self.assertTrue((out / "public" / "root.txt").is_file())
            for path in (out, *out.rglob("*")):
                self.tell_mode(path, "public" in path.relative_to(out).parts)

    def tell_mode(self, path: Path, is_public: bool) -> None:
        wanted = (0o755 if is_public else 0o700) if path.is_dir() else 0o644 if is_public else 0o600
        self.assertEqual(oct(mode_of(path)), oct(wanted), path)
