"""Random markets in random forms are read as what they are; random damage is told, and never loses anything in silence."""
import random
import re
import unicodedata
from typing import Dict, List, Tuple

from residency.office import command, line
from support import PROGRAMMES, RESIDENTS, OfficeTest, office

SYLLABLES = (
    "Ka",
    "lo",
    "Zoë",
    "Åsa",
    "ß",
    "Łu",
    "Ana",
    "O'",
    "王",
    "芳",
    "مح",
    "مد",
    "रा",
    "म",
    "-",
    ".",
    " ",
    " & ",
    "(2)",
    "7",
    "=",
    "+x",
    "@",
    ", ",
    ";",
)
PLAIN = tuple(syllable for syllable in SYLLABLES if all(ord(c) < 128 or c in "ëÅß" for c in syllable))
HEADS = {",": "comma", ";": "semicolon", "\t": "tab", "|": "bar"}


def name(chance: random.Random, parts: Tuple[str, ...]) -> str:
    made = unicodedata.normalize("NFC", " ".join("".join(chance.choice(parts) for _ in range(chance.randint(2, 7))).split()))
    return made if re.search(r"\w", made) and not made.isdigit() else "N" + made


class Market:
    """A random market: names, IDs or none, places and lists."""

    def __init__(self, chance: random.Random, parts: Tuple[str, ...]) -> None:
        self.ids = chance.random() < 0.3
        everybody = list(dict.fromkeys(name(chance, parts) for _ in range(20)))
        cut = chance.randint(1, min(6, len(everybody) - 1))
        programmes, residents = everybody[:cut], everybody[cut:]
        if self.ids:
            # Some people have one name; IDs tell them apart.
            residents = [chance.choice(residents) for _ in residents]
        self.programmes = {programme: chance.randint(0, 12) for programme in programmes}
        self.residents = [(resident, f"X{1000 + number}" if self.ids else "") for number, resident in enumerate(residents)]
        keys = [ident or resident for resident, ident in self.residents]
        self.programme_lists = {programme: chance.sample(keys, chance.randint(0, len(keys))) for programme in programmes}
        self.resident_lists = {key: chance.sample(programmes, chance.randint(0, len(programmes))) for key in keys}

    def wide(self) -> Tuple[List[List[str]], List[List[str]]]:
        most = [max(1, *map(len, lists.values())) for lists in (self.programme_lists, self.resident_lists)]
        programmes = [["Programme", "Places"] + [f"Rank {rank}" for rank in range(1, most[0] + 1)]]
        programmes += [[programme, str(places), *self.programme_lists[programme]] for programme, places in self.programmes.items()]
        residents = [["Applicant"] + ["ID"] * self.ids + [f"Rank {rank}" for rank in range(1, most[1] + 1)]]
        residents += [[resident] + [ident] * self.ids + self.resident_lists[ident or resident] for resident, ident in self.residents]
        return programmes, residents

    def long(self) -> Tuple[List[List[str]], List[List[str]]]:
        programmes, residents = [["Programme", "Places", "Rank", "Applicant"]], [
            ["Applicant"] + ["ID"] * self.ids + ["Rank", "Programme"]
        ]
        for programme, places in self.programmes.items():
            listed = self.programme_lists[programme]
            programmes += [[programme, str(places), str(rank), item] for rank, item in enumerate(listed, 1)] or [
                [programme, str(places), "", ""]
            ]
        for resident, ident in self.residents:
            begin, listed = [resident] + [ident] * self.ids, self.resident_lists[ident or resident]
            residents += [begin + [str(rank), item] for rank, item in enumerate(listed, 1)] or [begin + ["", ""]]
        return programmes, residents


def saved(chance: random.Random, rows: List[List[str]], mark: str) -> str:
    """A table as some spreadsheet saves it. A row of one cell with another table's mark in it would be taken for such a row."""
    width = max(map(len, rows))
    padded = [
        row + [""] * (width - len(row)) if chance.random() < 0.5 or len(row) == 1 and any(c in row[0] for c in ",;|") else row
        for row in rows
    ]
    cell = (
        lambda text: '"' + text.replace('"', '""') + '"' if any(c in text for c in ',;\t|"') or chance.random() < 0.05 else text
    )  # noqa: E731
    end = chance.choice(("\n", "\r\n", "\r"))
    return "".join(mark.join(map(cell, row)) + end for row in padded)


class Random(OfficeTest):
    def test_random_markets_in_random_forms(self) -> None:
        for seed in range(250):
            chance = random.Random(seed)
            encoding = chance.choice(("utf-8", "utf-8-sig", "utf-16", "cp1252"))
            given = Market(chance, PLAIN if encoding == "cp1252" else SYLLABLES)
            files = []
            for side in (0, 1):
                mark = chance.choice(tuple(HEADS))
                rows = (given.long() if chance.random() < 0.5 else given.wide())[side]
                files.append(self.write(f"{side}.csv", saved(chance, rows, mark).encode(encoding)))
            words = ["check", *files, "--allow-short", "--allow-alone"] + ["--encoding", "cp1252"] * (encoding == "cp1252")
            market = command.read_tables(*files, command.settings_of(line.parser().parse_args(words))).market
            called: Dict[str, str] = {}
            for member in market.names.members("R"):
                called[market.names.name("R", member.docket_name)] = member.id or member.name
            self.assertEqual(dict(market.quotas), given.programmes, seed)
            self.assertEqual(
                {programme: [called[item] for item in listed] for programme, listed in market.programme_lists.items()},
                given.programme_lists,
                seed,
            )
            self.assertEqual(
                {called[resident]: list(listed) for resident, listed in market.resident_lists.items()}, given.resident_lists, seed
            )
            # What the package makes of them is a docket without faults.
            self.assertEqual(office("lint", self.write("docket.csv", market.docket())), (0, "no fault\n", ""), seed)

    def test_random_damage(self) -> None:
        taken = 0
        for seed in range(400):
            chance = random.Random(seed)
            files, texts = [], []
            for side, text in enumerate((PROGRAMMES, RESIDENTS)):
                data = text.encode("utf-8")
                for _ in range(chance.randint(0, 2)):
                    data = self.damaged(chance, data)
                files.append(self.write(f"{side}.csv", data))
                texts.append(data)
            said = office("check", *files)
            self.assertIn(said.status, (0, 3), seed)
            self.assertEqual(said.err, "", seed)
            lines = said.out.splitlines()
            self.assertLessEqual(len(lines), 24, seed)
            self.assertTrue(all(printed.isprintable() for printed in lines), seed)
            if said.status == 0:
                taken += 1
                self.nothing_is_lost(seed, files, texts)
        self.assertGreater(taken, 40)

    @staticmethod
    def damaged(chance: random.Random, data: bytes) -> bytes:
        at, to = sorted(chance.randrange(len(data) + 1) for _ in range(2))
        lines = data.split(b"\n")
        row = chance.randrange(len(lines))
        return (
            chance.choice(
                (
                    lambda: data[:at] + data[min(to, at + 9) :],
                    lambda: data[:at]
                    + chance.choice((b",", b";", b'"', b"\n", b"\r", b"\0", b"\xff", b"\xc3", b"\t", b" ", b"1", "é".encode()))
                    + data[at:],
                    lambda: data[:at],
                    lambda: b"\n".join(lines[:row] + lines[row + 1 :]),
                    lambda: b"\n".join(lines[:row] + [lines[row]] + lines[row:]),
                    lambda: b"\n".join(lines[:row] + [b",".join(reversed(lines[row].split(b",")))] + lines[row + 1 :]),
                    lambda: data.replace(b",", b";"),
                    lambda: data.decode("utf-8", "replace").encode("utf-16"),
                )
            )()
            or b"x"
        )

    def nothing_is_lost(self, seed: int, files: List[str], texts: List[bytes]) -> None:
        """Of tables that are taken, every row is a member and every cell of a list a name in it."""
        market = command.read_tables(*files, command.settings_of(line.parser().parse_args(["check", *files]))).market
        for data, lists, first in zip(texts, (market.programme_lists, market.resident_lists), (2, 1)):
            text = data.decode("utf-16") if data.startswith((b"\xff\xfe", b"\xfe\xff")) else self.decoded(data)
            if '"' in text:
                continue
            rows = [re.split("[,;]", row) for row in re.split(r"\r\n|\r|\n", text) if row.strip(",; \t")][1:]
            wanted = {
                " ".join(row[0].split()): [" ".join(cell.split()) for cell in row[first:] if cell.strip()] for row in rows
            }
            self.assertEqual(len(wanted), len(rows), seed)
            self.assertEqual({one: list(listed) for one, listed in lists.items()}, wanted, seed)

    @staticmethod
    def decoded(data: bytes) -> str:
        try:
            return data.decode("utf-8")
        except UnicodeDecodeError:
            return data.decode("cp1252")
