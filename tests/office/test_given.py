"""Nobody is given another's list: what a member or the public is given is the same to the byte, whatever another's list is, where the
results are the same. What a file gives away besides is the table of docs/sealed.md, which is made here."""
import csv
import io
import random
import re
import shutil
import sys
import tempfile
import unittest
from pathlib import Path
from typing import Dict, List, NamedTuple, Sequence, Tuple
from unittest import mock

from residency.office import seal as sealing
from support import TOP, office

sys.path.insert(0, str(TOP / "tests" / "seal"))
import derivation  # noqa: E402

SECRET = b"5a" * 32 + b"\n"
# A root where it is published, a row of a root and of an opening in a receipt.
HEX = re.compile("[0-9a-f]{64}")
OPENING = re.compile("^(opens,[a-z]+,[0-9]+,[0-9a-f]{64}).*$", re.M)
FOOT = re.compile("lists [0-9a-f]{16}")
LETTER = "Dear $name ($id),\n\n$outcome\n\n$list\n\n$docket_name, $programme, $choice of $listed, $lists_root $result_root\n\n$sealed\n"


class Lists(NamedTuple):
    """The lists of a market by name, best first, and the places of each programme."""

    places: Dict[str, int]
    programmes: Dict[str, List[str]]
    residents: Dict[str, List[str]]


def masked(data: bytes) -> str:
    """A file without what hangs on every list by a hash: roots, and the paths to them. A salt stays, since it hangs on none."""
    text = OPENING.sub(r"\1", data.decode("utf-8"))
    salts = re.findall("(?m)^opens,[a-z]+,[0-9]+,([0-9a-f]{64})", text)
    return FOOT.sub("lists ROOT", HEX.sub(lambda found: found[0] if found[0] in salts else "ROOT", text))


def table(heads: Sequence[str], rows: List[List[object]]) -> bytes:
    text, most = io.StringIO(), max(len(row) for row in rows)
    whole = [*heads, *(f"Rank {rank}" for rank in range(1, most - len(heads) + 1))]
    csv.writer(text).writerows([whole, *([*row, *[""] * (len(whole) - len(row))] for row in rows)])
    return text.getvalue().encode("utf-8")


class Kind(NamedTuple):
    """How a match is made."""

    sealed: bool
    words: Tuple[str, ...]
    ids: bool
    family: bool
    withdraws: bool


class Given(unittest.TestCase):
    def setUp(self) -> None:
        room = tempfile.TemporaryDirectory()
        self.addCleanup(room.cleanup)
        self.room = Path(room.name)
        (self.room / "letter.txt").write_text(LETTER, encoding="utf-8")
        patched = mock.patch.object(sealing, "new_secret", lambda: SECRET)
        patched.start()
        self.addCleanup(patched.stop)

    def make(self, lists: Lists, kind: Kind) -> Tuple[Path, Dict[str, bytes]]:
        """The folder of a match, and the receipts from before it."""
        room = Path(tempfile.mkdtemp(dir=self.room))
        number = {name: str(700 + at) for at, name in enumerate((*lists.programmes, *lists.residents))}
        call = number if kind.ids else {name: name for name in number}
        who = [["ID"] * kind.ids + (["First name", "Last name", "Email"] if kind.family else ["Applicant"]), []]
        who[1] = [[call[name]] * kind.ids + ([*name.split(" "), f"{number[name]}@x.org"] if kind.family else [name])
                  + [call[programme] for programme in listed] for name, listed in lists.residents.items()]
        what = [[call[name]] * kind.ids + [name, lists.places[name], *(call[resident] for resident in listed)] for name, listed in lists.programmes.items()]
        (room / "p.csv").write_bytes(table(["ID"] * kind.ids + ["Programme", "Places"], what))
        (room / "r.csv").write_bytes(table(who[0], who[1]))
        tables = [room / "p.csv", room / "r.csv"]
        keep = ["--keep", "Email"] * kind.family
        own = [word.replace("LETTER", str(self.room / "letter.txt")) for word in kind.words]
        steps = [["seal", *tables, *keep, "--out", room / "sealed"], ["run", room / "sealed", *own, "--out", room / "match"]] if kind.sealed \
            else [["run", *tables, *keep, *own, "--out", room / "match"]]
        steps += [["withdraw", room / "match", "--resident", call[list(lists.residents)[-1]], *own, "--out", room / "again"]] * kind.withdraws
        for words in steps:
            said = office(*words, "--date", "2026-03-20")
            self.assertEqual((said.status, said.err), (0, ""), words)
        before = {path.name: path.read_bytes() for path in (room / "sealed" / "receipts").iterdir()} if kind.sealed else {}
        return room / ("again" if kind.withdraws else "match"), before

    def given(self, lists: Lists, kind: Kind) -> Dict[str, str]:
        """Every file that a member or the public is given, by its name, without roots and paths."""
        folder, before = self.make(lists, kind)
        names = [path for part in ("letters", "receipts", "rosters", "public") for path in (folder / part).rglob("*") if path.is_file()]
        found = {path.relative_to(folder).as_posix(): masked(path.read_bytes()) for path in names}
        found.update({f"before/{name}": masked(data) for name, data in before.items()})
        self.market = derivation.read((folder / "docket.csv").read_bytes())
        shutil.rmtree(folder.parent)
        return found


def results(market: derivation.Market, changed: str) -> Tuple[object, ...]:
    """What a market's match gives, derived: where each is and at which choice, each programme's last rank, and the reasons of each
    resident but the one whose list is changed."""
    places = derivation.match(market)
    all_of_them = derivation.Results(market, places)
    choices = {name: (where, market.resident_lists[name].index(where)) for name, where in places.items() if where is not None}
    lost = [name for name, where in places.items() if where is None and b",full," in all_of_them.text("R", name)]
    empty = [name for name in places if not market.resident_lists[name]]
    return choices, lost, empty, all_of_them.last, {name: all_of_them.text("R", name) for name in places if name != changed}


def some_lists(chance: random.Random) -> Lists:
    programmes = [f"{place} Clinic" for place in ("North", "South", "East", "West")]
    residents = ["Ana Silva", "Kim Lee", "Zoë Brontë", "Omar Haddad", "Rosa Rossi", "Jürgen Groß", "Fatima Kovács", "Lee Wu"]
    return Lists({name: chance.randint(1, 3) for name in programmes},
                 {name: chance.sample(residents, chance.randint(2, 7)) for name in programmes},
                 {name: chance.sample(programmes, chance.randint(1, 4)) for name in residents})


def changed_market(market: derivation.Market, chance: random.Random) -> Tuple[str, derivation.Market]:
    """The same market with another list of one member, which leaves the results as they are: in another order, one more or one less."""
    while True:
        field, other = chance.choice((("resident_lists", "programme_lists"), ("programme_lists", "resident_lists")))
        lists, everybody = getattr(market, field), list(getattr(market, other))
        name, how = chance.choice(list(lists)), chance.randrange(3)
        listed = list(lists[name])
        at = chance.randrange(len(listed))
        more = [member for member in everybody if member not in listed][:1] * (how == 1)
        listed = listed[:at] + more + chance.sample(listed[at:], len(listed) - at) if how < 2 else listed[:at] + listed[at + 1:]
        made = market._replace(**{field: {**lists, name: listed}})
        if listed and listed != list(lists[name]) and results(made, name) == results(market, name):
            return name, made


def in_names(lists: Lists, before: derivation.Market, market: derivation.Market) -> Lists:
    """A market in the names of the tables, which has the members of these lists in their order."""
    programme, resident = dict(zip(before.quotas, lists.programmes)), dict(zip(before.resident_lists, lists.residents))
    return Lists(lists.places, {programme[quota]: [resident[name] for name in market.programme_lists[quota]] for quota in before.quotas},
                 {resident[resident_list]: [programme[name] for name in market.resident_lists[resident_list]] for resident_list in before.resident_lists})


class Rule(Given):
    """The rule over the class: each way to make a match, and each member's list changed in some way."""

    def tell(self, kind: Kind, seed: int) -> None:
        chance = random.Random(seed)
        lists = some_lists(chance)
        files, before = self.given(lists, kind), self.market
        for _ in range(3):
            name, market = changed_market(before, chance)
            now = self.given(in_names(lists, before, market), kind)
            self.assertEqual(self.market, market)
            others = [path for path in files if Path(path).stem not in (name, f"resident-{name}", f"programme-{name}")]
            own = (f"letters/{name}.txt", f"rosters/{name}.csv", f"rosters/{name}.txt")
            self.assertEqual(len(others) + len([path for path in files if path in own]) + 2 * kind.sealed, len(files))
            self.assertEqual({path: now[path] for path in others}, {path: files[path] for path in others}, (name, lists))

    def test_the_rule(self) -> None:
        ways = (((), False, False, False), (("--template", "LETTER"), True, False, False), (("--order", "table"), False, True, True))
        kinds = [Kind(sealed, *way) for sealed in (True, False) for way in ways]
        kinds += [Kind(True, ("--cut-offs",), is_more, False, is_more) for is_more in (False, True)]
        for number, kind in enumerate(kinds):
            for seed in range(2):
                with self.subTest(kind=kind, seed=seed):
                    self.tell(kind, 100 * number + seed)


# By the kind of a file what it is called in the table, and who is given it.
FILES = (("before/resident-", "`receipts/`, before the match", "each member their own"), ("receipts/resident-", "`receipts/` of a resident", "the resident"),
         ("receipts/programme-", "`receipts/` of a programme", "the programme"), ("letters/", "`letters/`", "the resident"),
         ("rosters/", "`rosters/`", "the programme"), ("public/check.html", "`public/check.html`, `root.txt`", "everybody"),
         ("public/figures.csv", "`public/figures.csv`", "everybody"), ("public/unfilled.csv", "`public/unfilled.csv`", "everybody"),
         ("public/page.html", "`public/page.html`", "everybody"), ("public/cut-offs.csv", "`public/cut-offs.csv`", "everybody"))
LINE = "| {} | {} | {} |"


class Table(Given):
    """What each file gives away of others: the table of docs/sealed.md, made of three changes."""

    def test_the_table(self) -> None:
        lists = Lists({"North": 2, "South": 1, "East": 1, "West": 3},
                      {"North": ["Ana", "Kim", "Zoë", "Jo"], "South": ["Kim", "Ana", "Omar"], "East": ["Zoë", "Omar", "Ana"], "West": ["Kim"]},
                      {"Ana": ["South", "North"], "Kim": ["North", "South", "West"], "Zoë": ["East", "North"], "Jo": ["North"],
                       "Omar": ["East", "South"], "Fay": ["West"], "Rosa": ["South"]})
        kind = Kind(True, ("--cut-offs",), False, False, False)
        # A list behind a match; ranks before two who are refused or not; and a resident more who is matched.
        changes = (("kim", lists._replace(residents={**lists.residents, "Kim": ["North", "West", "South"]})),
                   ("east", lists._replace(programmes={**lists.programmes, "East": ["Jo", "Zoë", "Omar", "Ana"]})),
                   ("west", lists._replace(programmes={**lists.programmes, "West": ["Kim", "Fay"]})))
        files = self.given(lists, kind)
        gives: Dict[str, List[str]] = {begin: [] for begin, _, _ in FILES}
        for (who, other), told in zip(changes, ("", "the rank of who is refused, and the last rank that got a place", "the result of others")):
            now = self.given(other, kind)
            theirs = (who, "fay") if who == "west" else (who,)
            for begin in gives:
                if any(now[path] != files[path] for path in files if path.startswith(begin) and not Path(path).stem.endswith(theirs)):
                    self.assertNotEqual(told, "", begin)
                    gives[begin].append(told)
        says = {"": "nothing", "the result of others": "counts of the results of other members"}
        ranks = "the rank of who is refused, and the last rank that got a place"
        made = [LINE.format("File", "Who gets it", "What it tells about other members"), "|---|---|---|"]
        for begin, title, who in FILES:
            told = [("the rank of the last resident who got a place at each programme" if begin.startswith("public") else "for each reason `full`, the "
                     "resident's rank and the rank of the last resident who got a place") if one == ranks else says[one] for one in gives[begin]]
            made.append(LINE.format(title, who, ", and ".join(told) or "nothing but roots"))
        self.assertIn("\n".join(made), (TOP / "docs" / "sealed.md").read_text(encoding="utf-8"), "\n".join(made))


if __name__ == "__main__":
    unittest.main()
