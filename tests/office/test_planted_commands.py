"""Each planted mistake on a command line is told in one line, by its exit status, and nothing is written."""
import tempfile
from pathlib import Path
from typing import Dict

import planted
from support import OfficeTest, office


def bytes_below(path: Path) -> Dict[str, bytes]:
    return {str(file.relative_to(path)): file.read_bytes() for file in path.rglob("*") if file.is_file() and file.name != "letter.txt"}


class Commands(OfficeTest):
    """Over one match, which no mistake changes."""

    @classmethod
    def setUpClass(cls) -> None:
        super().setUpClass()
        kept = tempfile.TemporaryDirectory()
        cls.addClassCleanup(kept.cleanup)
        cls.at = Path(kept.name)
        files = []
        for name, data in zip(("programmes.csv", "residents.csv"), planted.shared().bytes()):
            (cls.at / name).write_bytes(data)
            files.append(str(cls.at / name))
        said = office("run", *files, "--out", str(cls.at / "match"), "--date", "2026-03-20")
        assert said.status == 0, said
        cls.before = bytes_below(cls.at)

    def tell(self, name: str) -> None:
        words_of, (status, cause) = planted.COMMANDS[name]
        said = office(*words_of(str(self.at)))
        self.assertEqual((said.status, said.out), (status, ""), said)
        self.assertEqual(said.err.count("\n"), 1, said.err)
        self.assertTrue(said.err.startswith("office: ") and len(said.err) < 500, said.err)
        self.assertIn(cause, said.err)
        self.assertEqual(bytes_below(self.at), self.before)


for _name in planted.COMMANDS:
    setattr(Commands, f"test_{_name}", lambda self, name=_name: self.tell(name))
