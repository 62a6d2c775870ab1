"""Each planted mistake is told in at most 20 lines, with table, row, cell and cause, by status 3, and leaves no file."""
import planted
from support import OfficeTest, office


def column(cell: int) -> str:
    """What a spreadsheet calls a column, as the tests derive it: A to Z, then AA to ZZ."""
    letters = "ABCDEFGHIJKLMNOPQRSTUVWXYZ"
    return letters[cell - 1] if cell <= 26 else letters[(cell - 1) // 26 - 1] + letters[(cell - 1) % 26]


class Planted(OfficeTest):
    def tell(self, name: str) -> None:
        pair, (table, row, cell, words) = planted.planted(name)
        files = self.tables(*pair.bytes())
        begin = f"{table}, row {row}, cell {cell} ({column(cell)}{row}): " if row else f"{table}: "
        checked = office("check", *files, *pair.options)
        ran = office("run", *files, *pair.options, "--out", str(self.folder / "out"))
        self.assertEqual((checked.status, checked.err), (3, ""))
        self.assertEqual((ran.status, ran.out), (3, ""))
        for said, before in ((checked.out, ""), (ran.err, "office: ")):
            lines = said.splitlines()
            self.assertLessEqual(len(lines), 24 + (before != ""))
            self.assertTrue(any(line.startswith(before + begin) and words in line for line in lines), (begin, words, said))
            self.assertTrue(all(line.startswith(before) and len(line) < 500 for line in lines), said)
        self.assertEqual(self.left(), [])

    def test_without_a_mistake_there_is_no_fault(self) -> None:
        """Each pair that a mistake is planted into is whole before."""
        starts = {start for start, _, _ in planted.MISTAKES.values()}
        self.assertLessEqual({planted.wide, planted.long, planted.with_ids, planted.with_two_names, planted.with_numbers}, starts)
        for start in starts:
            said = office("check", *self.tables(*start().bytes()))
            self.assertEqual((said.status, said.out.splitlines()[-1]), (0, "no fault"))


for _name in planted.MISTAKES:
    setattr(Planted, f"test_{_name}", lambda self, name=_name: self.tell(name))
