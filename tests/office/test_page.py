"""The page: its parts, order, names and colours. How a browser shows it is in test_browser."""
import html.parser
import re
from datetime import date
from pathlib import Path
from typing import Dict, List, Optional

import derived
from residency import Market, Member, Names
from residency.office.letters import Letters
from residency.office.outcome import Details, Resident, Standing, outcome_of
from residency.office.phrases import english
from residency.office.page import About, Page, label
from residency.office.rosters import details_of, matches
from support import PROGRAMMES, RESIDENTS, SAMPLES, OfficeTest, office
from test_folder import sample, sha256

EMPTY = {"meta", "link", "img", "br", "hr", "input"}


class Node:
    """An element of the page."""

    def __init__(self, tag: str, attributes: Dict[str, Optional[str]], parent: Optional["Node"]) -> None:
        self.tag, self.attributes, self.parent = tag, attributes, parent
        self.children: List[object] = []

    def all(self, *tags: str) -> List["Node"]:
        found = []
        for child in self.children:
            if isinstance(child, Node):
                found += [child] if not tags or child.tag in tags else []
                found += child.all(*tags)
        return found

    def text(self) -> str:
        return " ".join("".join(child.text() if isinstance(child, Node) else child for child in self.children).split())


class Tree(html.parser.HTMLParser):
    """Reads a page strictly: each element is closed in its turn."""

    def __init__(self, text: str) -> None:
        super().__init__(convert_charrefs=True)
        self.root = self.at = Node("", {}, None)
        self.feed(text)
        self.close()
        assert self.at is self.root, f"{self.at.tag} isn't closed"

    def handle_starttag(self, tag, attrs) -> None:
        node = Node(tag, dict(attrs), self.at)
        self.at.children.append(node)
        if tag not in EMPTY:
            self.at = node

    def handle_endtag(self, tag) -> None:
        assert self.at.tag == tag, f"{tag} closes {self.at.tag}"
        self.at = self.at.parent

    def handle_data(self, data) -> None:
        self.at.children.append(data)


def luminance(colour: str) -> float:
    parts = [int(colour[place : place + 2], 16) / 255 for place in (1, 3, 5)]
    lines = [part / 12.92 if part <= 0.03928 else ((part + 0.055) / 1.055) ** 2.4 for part in parts]
    return 0.2126 * lines[0] + 0.7152 * lines[1] + 0.0722 * lines[2]


def contrast(one: str, other: str) -> float:
    high, low = sorted((luminance(one), luminance(other)), reverse=True)
    return (high + 0.05) / (low + 0.05)


class PageTest(OfficeTest):
    def page(self, out: Path) -> Node:
        self.source = (out / "page.html").read_text(encoding="utf-8")
        return Tree(self.source).root

    def section(self, root: Node, name: str) -> Node:
        return next(section for section in root.all("section") if section.attributes.get("aria-labelledby") == name)

    def rows(self, root: Node, name: str) -> List[List[str]]:
        table = self.section(root, name).all("table")[0]
        return [[cell.text() for cell in row.all("th", "td")] for row in table.all("tbody")[0].all("tr")]


class Sample(PageTest):
    """The page of the sample tables, by what is derived from these."""

    def setUp(self) -> None:
        super().setUp()
        self.out = self.folder / "match"
        self.assertEqual(
            office(
                "run", SAMPLES / "programmes.csv", SAMPLES / "residents.csv", "--out", self.out, "--date", "2026-03-20"
            ).status,
            0,
        )
        self.root = self.page(self.out)
        self.wanted = derived.match(derived.tables(sample("programmes.csv"), sample("residents.csv")))

    def test_it_is_one_page_without_a_script(self) -> None:
        self.assertTrue(self.source.startswith("<!doctype html>\n"))
        self.assertEqual(self.root.all("html")[0].attributes["lang"], "en")
        self.assertEqual(self.root.all("script", "link", "iframe", "object", "img"), [])
        for node in self.root.all():
            self.assertFalse(any(name.startswith("on") or name == "src" for name in node.attributes), node.attributes)
            self.assertTrue(node.attributes.get("href", "#").startswith("#"))
        style = self.root.all("style")[0].text()
        self.assertNotIn("url(", style)
        self.assertNotIn("@import", style)
        metas = [node.attributes for node in self.root.all("meta")]
        self.assertIn({"name": "viewport", "content": "width=device-width, initial-scale=1"}, metas)
        self.assertIn({"charset": "utf-8"}, metas)

    def test_headings_and_links_are_in_order(self) -> None:
        levels = [int(node.tag[1]) for node in self.root.all("h1", "h2", "h3", "h4", "h5", "h6")]
        self.assertEqual(levels[0], 1)
        self.assertEqual(levels.count(1), 1)
        self.assertTrue(all(now - before <= 1 for before, now in zip(levels, levels[1:])), levels)
        ids = [node.attributes["id"] for node in self.root.all() if "id" in node.attributes]
        self.assertEqual(len(ids), len(set(ids)))
        self.assertEqual([node.attributes["href"][1:] for node in self.root.all("nav")[0].all("a")], ids)
        self.assertEqual(ids, ["unfilled", "figures", "choices", "unmatched", "withdrawn", "matched", "programmes", "made"])

    def test_tables_have_heads_captions_and_scopes(self) -> None:
        tables = self.root.all("table")
        self.assertEqual(len(tables), 5)
        for table in tables:
            self.assertEqual([node.tag for node in table.children if isinstance(node, Node)], ["caption", "thead", "tbody"])
            self.assertTrue(table.all("caption")[0].text())
            heads = table.all("thead")[0].all("th", "td")
            self.assertTrue(
                heads and all(node.tag == "th" and node.attributes.get("scope") == "col" and node.text() for node in heads)
            )
            for row in table.all("tbody")[0].all("tr"):
                cells = row.all("th", "td")
                self.assertEqual([node.attributes.get("scope") for node in cells], ["row"] + [None] * (len(heads) - 1))
                self.assertEqual([node.tag for node in cells], ["th"] + ["td"] * (len(heads) - 1))
                # The head of numbers stands above them, at the right.
                rights = [[(node.attributes.get("class") or "").split()[:1] == ["n"] for node in nodes] for nodes in (heads, cells)]
                self.assertEqual(rights[0], rights[1])

    def test_contrast(self) -> None:
        style = self.root.all("style")[0].text()
        colours = dict(re.findall(r"--([a-z-]+): (#[0-9a-f]{6});", style))
        texts = set(re.findall(r"[^-]color: var\(--([a-z-]+)\)", style))
        self.assertEqual(texts, {"text", "soft", "short", "bar"})
        # Text stands on the page or on the band of every other row.
        for text in texts:
            for ground in ("page", "band"):
                self.assertGreaterEqual(contrast(colours[text], colours[ground]), 4.5, (text, ground))
        for bar in ("bar", "bar-left"):
            for ground in ("page", "band"):
                self.assertGreaterEqual(contrast(colours[bar], colours[ground]), 3, (bar, ground))
        self.assertEqual(set(re.findall(r"(?<![\w-])(?:color|background): ([^v][^;]*)", style)), set())
        self.assertEqual(set(re.findall(r"#[0-9a-f]{3,8}\b", re.sub(r":root \{[^}]*\}", "", style))), set())

    def test_print_style(self) -> None:
        style = self.root.all("style")[0].text()
        page = re.search(r"@page \{.*?\} \}", style).group()
        self.assertIn("counter(page)", page)
        self.assertIn("counter(pages)", page)
        self.assertIn(f'content: "The match, 2026-03-20, docket {sha256(self.out / "docket.csv")[:16]}"', page)
        paper = style[style.index("@media print") :]
        self.assertIn("thead { display: table-header-group; break-inside: avoid; break-after: avoid; }", paper)
        self.assertIn("break-inside: avoid", paper)

    def test_day_and_digests(self) -> None:
        head = self.root.all("header")[0]
        self.assertEqual(head.text(), "The match 20 March 2026. 40 residents, 10 programmes.")
        self.assertEqual(head.all("time")[0].attributes["datetime"], "2026-03-20")
        self.assertEqual(
            self.rows(self.root, "made"), [[name, sha256(self.out / name)] for name in ("docket.csv", "key.csv", "sheet.csv")]
        )

    def test_unfilled_places_first(self) -> None:
        self.assertEqual(self.root.all("section")[0].attributes["aria-labelledby"], "unfilled")
        wanted = [(programme, places, len(self.wanted.members(programme))) for programme, places in self.wanted.places.items()]
        short = [places - filled for _, places, filled in wanted if places > filled]
        self.assertEqual(
            self.section(self.root, "unfilled").all("caption")[0].text(),
            f"{sum(short)} of {sum(self.wanted.places.values())} places, at {len(short)} programmes, in alphabetical order",
        )
        self.assertEqual(
            self.rows(self.root, "unfilled"),
            [
                [programme, str(places), str(filled), str(places - filled)]
                for programme, places, filled in sorted(wanted)
                if places > filled
            ],
        )

    def test_figures_and_choices(self) -> None:
        matched = [resident for resident, where in self.wanted.match.items() if where]
        boxes = self.section(self.root, "figures").all("div")
        lost = sum(not where and self.wanted.ranked_back(resident) for resident, where in self.wanted.match.items())
        self.assertEqual(
            [box.text() for box in boxes],
            [f"residents matched{len(matched)}", f"no place left{lost}", f"ranked back by nobody{11 - lost}", "ranked nobody0"],
        )
        counts = [sum(self.wanted.choice(resident) == choice for resident in matched) for choice in (1, 2, 3, 4)]
        wanted = [
            [f"{nth} choice", str(count), f"{100 * count / 40:.0f}%"]
            for nth, count in zip(("1st", "2nd", "3rd", "4th"), counts)
        ]
        self.assertEqual(self.rows(self.root, "choices"), wanted + [["Unmatched", "11", f"{100 * 11 / 40:.0f}%"]])
        widths = [
            float(re.search(r"width:([0-9.]+)%", node.attributes["style"]).group(1))
            for node in self.section(self.root, "choices").all("span")
        ]
        for width, count in zip(widths, counts + [11]):
            self.assertAlmostEqual(width / widths[0], count / counts[0], places=2)

    def test_matched_residents_by_the_alphabet(self) -> None:
        rows = self.rows(self.root, "matched")
        self.assertEqual({row[0]: row[1] for row in rows}, {name: where for name, where in self.wanted.match.items() if where})
        self.assertEqual(
            [row[0] for row in rows[:6]],
            ["Amara Okafor", "Ángela García", "Björn Östlund", "Chloé Brontë", "Dmitri Ivanov", "Élodie Bélanger"],
        )
        for resident, _, choice in rows:
            number = self.wanted.choice(resident)
            self.assertEqual(
                choice,
                f"{ {1: '1st', 2: '2nd', 3: '3rd'}.get(number, f'{number}th') } of {len(self.wanted.resident_lists[resident])}",
            )

    def test_programmes(self) -> None:
        rows = {row[0]: row[1:] for row in self.rows(self.root, "programmes")}
        self.assertEqual(list(rows), sorted(rows, key=english().alphabetical))
        for programme, places in self.wanted.places.items():
            members = self.wanted.members(programme)
            self.assertEqual(rows[programme][:3], [str(places), str(len(members)), str(places - len(members))])
            last = f"{derived.nth(self.wanted.rank(members[-1]))} of {len(self.wanted.programme_lists[programme])}"
            self.assertEqual(rows[programme][3], last if len(members) == places else "open")
        # Of the places that are left the numbers alone stand out that are some.
        short = [cell.text() for cell in self.section(self.root, "programmes").all("td") if cell.attributes.get("class") == "n short"]
        self.assertEqual(short, [row[2] for row in rows.values() if row[2] != "0"])


class Other(PageTest):
    def test_kinds_of_unmatched_and_withdrawn(self) -> None:
        self.run_tables(out="first")
        self.assertEqual([paragraph.text() for paragraph in self.section(self.page(self.folder / "first"), "withdrawn").all("p")], ["Nobody."])
        office("withdraw", self.folder / "first", "Zoë Brontë", "East Ward", "--out", self.folder / "out")
        root = self.page(self.folder / "out")
        names = lambda name: [(part.text()) for part in self.section(root, name).all("h3", "li")]  # noqa: E731
        # Without East and Zoë: South takes Ana, North Kim and Jürgen; Omar ranks East, which is gone, and South.
        self.assertEqual(
            names("unmatched"),
            ["No place left: 1", "Omar Haddad", "Ranked back by nobody: 1", "Fatima Kovács", "Ranked nobody: 1", "Rosa Rossi"],
        )
        self.assertEqual(names("withdrawn"), ["Residents: 1", "Zoë Brontë", "Programmes: 1", "East Ward"])
        self.assertIn(["East Ward (withdrawn)", "1", "0", "0", "–"], self.rows(root, "programmes"))
        self.assertEqual([row[0] for row in self.rows(root, "unfilled")], ["West Infirmary"])
        self.assertIn("3 of 6 places", self.section(root, "unfilled").text())
        # Shares are of the six who take part: Ana at her 1st, Kim and Jürgen at theirs; three are unmatched.
        self.assertTrue(self.section(root, "choices").all("caption")[0].text().startswith("Of 6 residents; "))
        self.assertEqual(self.rows(root, "choices"), [["1st choice", "3", "50%"], ["Unmatched", "3", "50%"]])

    def test_those_whom_only_withdrawn_programmes_ranked_back(self) -> None:
        self.run_tables(out="first")
        office("withdraw", self.folder / "first", "East Ward", "South Hospital", "--out", self.folder / "out")
        part = self.section(self.page(self.folder / "out"), "unmatched")
        # East and South alone ranked Omar, who ranks both; Zoë and Jürgen come after Ana and Kim at North's two places.
        self.assertEqual(
            [element.text() for element in part.all("h3", "li")],
            [
                "No place left: 2",
                "Jürgen Groß",
                "Zoë Brontë",
                "Ranked back by nobody: 2",
                "Fatima Kovács",
                "Omar Haddad",
                "Ranked nobody: 1",
                "Rosa Rossi",
            ],
        )
        self.assertIn(
            "Both programmes on your list\nwithdrew from the match.",
            (self.folder / "out" / "letters" / "omar-haddad.txt").read_text(encoding="utf-8"),
        )

    def test_names_are_text(self) -> None:
        bad = "<script>alert(1)</script>"
        out = self.run_tables(
            PROGRAMMES.replace("North Clinic", f'North {bad} & "Co').replace('"Co', "'Co"),
            RESIDENTS.replace("North Clinic", f"North {bad} & 'Co"),
            "out",
            "--title",
            f'T "{bad}" \\ }} é',
        )
        root = self.page(out)
        self.assertEqual(root.all("script"), [])
        self.assertIn(f"North {bad} & 'Co", [row[0] for row in self.rows(root, "programmes")])
        self.assertEqual(root.all("h1")[0].text(), f'T "{bad}" \\ }} é')
        foot = re.search(r'@bottom-left \{ content: "([^"]*)"', root.all("style")[0].text()).group(1)
        self.assertTrue(foot.startswith("T scriptalert(1)/script é, 2026-03-20, docket "), foot)

    def test_the_order_of_the_table(self) -> None:
        out = self.run_tables(PROGRAMMES, RESIDENTS, "out", "--order", "table")
        self.assertEqual(
            [row[0] for row in self.rows(self.page(out), "programmes")],
            ["North Clinic", "South Hospital", "East Ward", "West Infirmary"],
        )

    def test_everything_filled_and_nobody(self) -> None:
        out = self.run_tables("Programme,Places,1\nNorth,1,Kim\nSouth,0,\n", "Applicant,1\nKim,North\n")
        self.assertIn("Every place is filled.", self.section(self.page(out), "unfilled").text())
        out = self.run_tables("Programme,Places,1\nNorth,0,Kim\n", "Applicant,1\nKim,\n", "none")
        self.assertEqual(self.rows(self.page(out), "choices"), [["Unmatched", "1", "100%"]])

    def test_many_choices_share_a_bar(self) -> None:
        programmes = "Programme,Places,1\n" + "".join(f"P{number:02},1,R{number:02}\n" for number in range(1, 15))
        residents = (
            "Applicant,"
            + ",".join(map(str, range(1, 15)))
            + "\n"
            + "".join(
                f"R{number:02},"
                + ",".join(
                    f"P{one:02}"
                    for one in [*range(15 - number, 15 - number), *(x for x in range(1, 15) if x != number)][: number - 1]
                    + [number]
                )
                + "\n"
                for number in range(1, 15)
            )
        )
        rows = self.rows(self.page(self.run_tables(programmes, residents)), "choices")
        self.assertEqual(rows[9:], [["10th choice", "1", "7%"], ["11th or later", "4", "29%"], ["Unmatched", "0", "0%"]])


class Families(PageTest):
    """The page by family name, made of a market and what its table has besides."""

    def test_by_family_name(self) -> None:
        families = {
            "Ana Silva (2)": "Silva",
            "Ana Silva (1)": "Silva",
            "Zoë Abel": "Abel",
            "Bea de Haas": "de Haas",
            "Åsa Ötztürk": "Ötztürk",
            "Leeson Lee": "Lee",
            "Cher": "",
            "Kim Oduya": "Oduya",
            "Kim Oda": "Oda",
        }
        names = Names(
            [Member("P", "north", "North"), Member("P", "south", "South")]
            + [
                Member("R", f"r{number}", name.split(" (")[0], name[-2] if name.endswith(")") else "")
                for number, name in enumerate(families)
            ]
        )
        market = Market(
            {"North": len(families), "South": 1},
            {"North": list(families), "South": ["Kim Oda"]},
            {name: ["South", "North"] for name in families},
            withdrawn_residents=["Kim Oduya"],
            names=names,
        )
        places = {name: "North" for name in families if name != "Kim Oduya"}
        places["Kim Oda"] = "South"
        about = About("T", date(2026, 3, 20), {"docket.csv": "0" * 64})
        outcome = outcome_of(market, places, Details({name: family for name, family in families.items() if family}))
        root = Tree(Page(outcome, about).text()).root
        wanted = ["Zoë Abel", "Cher", "Bea de Haas", "Leeson Lee", "Kim Oda", "Åsa Ötztürk", "Ana Silva (1)", "Ana Silva (2)"]
        self.assertEqual([row[0] for row in self.rows(root, "matched")], wanted)
        self.assertEqual(self.section(root, "matched").all("caption")[0].text(), "8 residents, by family name")
        self.assertEqual(
            [bold.text() for bold in self.section(root, "matched").all("b")],
            ["Abel", "de Haas", "Lee", "Oda", "Ötztürk", "Silva", "Silva"],
        )
        self.assertEqual([item.text() for item in self.section(root, "withdrawn").all("li")], ["Kim Oduya"])
        self.assertIn("in alphabetical order", self.section(root, "programmes").all("caption")[0].text())
        letters = Tree(Letters(market, outcome, about).page()).root.all("article")
        self.assertEqual([letter.attributes["aria-label"] for letter in letters], wanted[:5] + ["Kim Oduya"] + wanted[5:])
        # By the order of the table nobody's family name counts.
        rows = self.rows(Tree(Page(outcome, about, "table").text()).root, "matched")
        self.assertEqual([row[0] for row in rows], [name for name in families if name != "Kim Oduya"])
        # Without family names the whole name gives the order.
        plain = Tree(Page(outcome_of(market, places), about).text()).root
        self.assertEqual(
            [row[0] for row in self.rows(plain, "matched")],
            ["Ana Silva (1)", "Ana Silva (2)", "Åsa Ötztürk", "Bea de Haas", "Cher", "Kim Oda", "Leeson Lee", "Zoë Abel"],
        )
        self.assertEqual(plain.all("b"), [])

    def test_which_part_of_a_name_stands_out(self) -> None:
        for name, family, ident, wanted in (
            ("Kim Lee Lee", "Lee", "", "<bdi>Kim Lee <b>Lee</b></bdi>"),
            ("Ana de <Silva>", "de <Silva>", "7", "<bdi>Ana <b>de &lt;Silva&gt;</b> (7)</bdi>"),
            ("Ana Silva (7)", "Silva", "7", "<bdi>Ana <b>Silva</b> (7)</bdi>"),
            ("Silva", "Silva", "", "<bdi>Silva</bdi>"),
            ("Ana Silva", "", "7", "<bdi>Ana Silva (7)</bdi>"),
            ("Ana Silva", "Other", "", "<bdi>Ana Silva</bdi>"),
        ):
            one = Resident(name, ident, "r", Standing.RANKED_NOBODY, None, None, None, 0, family)
            self.assertEqual(label(one), wanted)

    def test_details_come_back_from_matches(self) -> None:
        """Family names and kept columns of a table for programs, with commas, quotes, line ends and formulas in them."""
        names = {"a": "Ana", "b": "Bo", "c": "Cy"}
        market = Market({"P": 1}, {"P": ["Ana"]}, {"Ana": ["P"], "Bo": [], "Cy": ["P"]})
        kept = {"Ana": ("=1;2", 'x"y'), "Bo": ("a,b", "l\nm\r\n"), "Cy": ("", " ")}
        details = Details({"Ana": "de, Silva", "Cy": '"C'}, ("E-mail", "choice"), kept)
        outcome = outcome_of(market, {"Ana": "P"}, details)
        data = matches(outcome)
        self.assertEqual(details_of(data, market.names, True), details)
        self.assertEqual([names[letter] for letter in "abc"], list(outcome.residents))


class Open(PageTest):
    def test_a_programme_is_open_full_or_without_places(self) -> None:
        """A programme that is full down to its list's end has a last rank; one with a place left has none."""
        programmes = "Programme,Places,1,2,3\nFull,3,Ana,Bo,Cy\nLeft,4,Ana,Bo,Cy\nNone,0,Ana,,\nEach,1,Di,,\nNobody,0,,,\n"
        residents = "Applicant,1\nAna,Full\nBo,Full\nCy,Full\nDi,Each\nEd,Left\n"
        rows = self.rows(self.page(self.run_tables(programmes, residents)), "programmes")
        self.assertEqual(
            rows,
            [
                ["Each", "1", "1", "0", "1st of 1"],
                ["Full", "3", "3", "0", "3rd of 3"],
                ["Left", "4", "0", "4", "open"],
                ["Nobody", "0", "0", "0", "–"],
                ["None", "0", "0", "0", "–"],
            ],
        )
