"""The page and the page of letters as Chromium shows them, where there is one: at a desk, on a telephone, and on paper."""
import html
import os
import re
import shutil
import subprocess
from pathlib import Path
from typing import List, Tuple
from urllib.parse import quote

import planted
import support
from support import SAMPLES, TOP, OfficeTest, office

# A page around the page, since a browser's window is at least 500 pixels wide. A word is broken where it stands on two lines
# and is no digest; a line may go on after a hyphen, a dash or a slash.
MEASURE = """<!doctype html><meta charset="utf-8"><title>m</title><body style="margin:0">
<iframe id="f" style="border:0" width="%d" height="900" srcdoc="%s"></iframe>
<script>addEventListener('load', () => {
  const view = document.getElementById('f').contentWindow, page = view.document, all = [...page.querySelectorAll('body *')];
  const smallest = all.filter(n => [...n.childNodes].some(c => c.nodeType == 3 && c.data.trim()))
    .reduce((least, n) => Math.min(least, parseFloat(view.getComputedStyle(n).fontSize)), 99);
  const beyond = all.filter(n => n.getBoundingClientRect().right > view.innerWidth + 0.5).length;
  const broken = [], texts = page.createTreeWalker(page.body, 4);
  let words = 0;
  for (let text; text = texts.nextNode();) for (const word of text.data.matchAll(/[^\\s\\/\\u2013\\u2014-]+/g)) {
    const range = page.createRange();
    range.setStart(text, word.index); range.setEnd(text, word.index + word[0].length);
    const lines = new Set([...range.getClientRects()].map(one => Math.round(one.top)));
    words += 1;
    if (lines.size > 1 && !/^[0-9a-f]{64}\\.?$/.test(word[0]) && !broken.includes(word[0])) broken.push(word[0]);
  }
  const scrolled = page.documentElement.scrollWidth;
  document.documentElement.dataset.measured = [view.innerWidth, scrolled, smallest, beyond, words].join(' ');
  document.documentElement.dataset.broken = broken.join(' ');
});</script>"""
LONG = (
    ("Klinik Köln", "Universitätsklinikum Köln-Lindenthal Abteilung für Kinderheilkunde"),
    ("Priya Silva", "Priyadarshini-Annapurneshwari Venkatanarasimharajuvaripeta Silva"),
    ("Mercy Radiology", "Kinderkrankenhausverwaltungsabteilung"),
)


class Browser(OfficeTest):
    def setUp(self) -> None:
        super().setUp()
        self.program = next(filter(None, map(shutil.which, ("chromium", "chromium-browser", "google-chrome"))), None)
        if self.program is None:
            self.skipTest("there is no Chromium here")

    def browse(self, path: Path, *words: str) -> str:
        line = [
            self.program,
            "--headless",
            "--no-sandbox",
            "--disable-gpu",
            "--hide-scrollbars",
            "--force-device-scale-factor=1",
            f"--user-data-dir={self.folder / 'browser'}",
            *words,
            f"file://{quote(str(path))}",
        ]
        # The browser makes a socket there, whose path has to be short.
        done = subprocess.run(line, capture_output=True, timeout=120, env={**os.environ, "TMPDIR": "/tmp"})
        self.assertEqual(done.returncode, 0, done.stderr)
        return done.stdout.decode("utf-8")

    def sheets(self, path: Path) -> List[str]:
        """A page as it is printed, the text of each sheet of paper."""
        paper = self.folder / "paper.pdf"
        self.browse(path, "--no-pdf-header-footer", f"--print-to-pdf={paper}")
        if shutil.which("pdftotext") is None:
            self.skipTest("there is no pdftotext here")
        text = subprocess.run(["pdftotext", "-layout", str(paper), "-"], capture_output=True, check=True).stdout.decode()
        return text.split("\f")[:-1]

    def measured(self, text: str, width: int) -> Tuple[List[float], str]:
        """What MEASURE finds at a width: inner and scrolled width, smallest letters, elements beyond, words; and broken words."""
        path = self.folder / "measured.html"
        path.write_text(MEASURE % (width, html.escape(text)), encoding="utf-8")
        dom = self.browse(path, "--window-size=1400,1000", "--dump-dom")
        numbers, broken = (re.search(rf'data-{name}="([^"]*)"', dom).group(1) for name in ("measured", "broken"))
        return list(map(float, numbers.split())), broken

    def long_names(self) -> Path:
        """A run of the planted tests' tables, in which two programmes and a resident have long names, and one is open."""
        texts = [text.decode() for text in planted.wide().bytes()]
        for old, new in LONG:
            texts = [text.replace(old, new) for text in texts]
        return self.run_tables(texts[0].replace("Medicine,30,", "Medicine,60,"), texts[1])

    def test_they_fit_on_three_screens_and_no_word_is_broken(self) -> None:
        out = self.long_names()
        for name, most in (("page.html", 1000), ("letters.html", 1000), ("rosters.html", 500)):
            text = (out / name).read_text(encoding="utf-8")
            for width, least in ((390, 12), (820, 13), (1280, 13)):
                (inner, scroll, smallest, beyond, words), broken = self.measured(text, width)
                self.assertEqual((inner, scroll, beyond, broken), (width, width, 0, ""), (name, width))
                self.assertGreaterEqual(smallest, least)
                self.assertGreater(words, most)

    def test_a_broken_word_is_seen(self) -> None:
        word = "Rindfleischetikettierungsüberwachungsaufgabenübertragungsgesetz"
        text = f'<body style="overflow-wrap:anywhere">St. {word} Mary-Ann'
        self.assertEqual(self.measured(text, 390)[1], word)
        self.assertEqual(self.measured(text, 820)[1], "")

    def test_the_page_prints_with_numbers_and_repeated_heads(self) -> None:
        sheets = self.sheets(self.long_names() / "page.html")
        self.assertTrue(5 <= len(sheets) <= 15, len(sheets))
        for number, sheet in enumerate(sheets, 1):
            self.assertRegex(
                sheet.strip().splitlines()[-1], rf"^The match, 2026-03-20, docket [0-9a-f]{{16}}\s+{number} of {len(sheets)}$"
            )
            if re.search(r"\b(1st|2nd|3rd|4th|5th) of 5\b", sheet):
                self.assertRegex(sheet, r"Resident\s+Programme\s+Choice")

    def test_no_table_head_is_alone_at_the_end_of_a_sheet(self) -> None:
        """Each table stands at every millimetre at the end of a sheet, with its first rows."""
        page = (self.long_names() / "page.html").read_text(encoding="utf-8")
        heads = {
            "unfilled": r"Programme\s+Places\s+Filled\s+Unfilled",
            "choices": r"Choice\s+Residents\s+Share",
            "matched": r"Resident\s+Programme\s+Choice",
            "programmes": r"Programme\s+Places\s+Filled\s+Unfilled\s+Last rank taken",
            "made": r"File\s+SHA-256",
        }
        parts, ends = [], []
        for name, head in heads.items():
            whole = re.search(rf'<section aria-labelledby="{name}">.*?</section>', page, re.DOTALL).group()
            begin, rows = whole.split("<tbody>\n")
            rows = "".join(rows.split("</tr>")[i] + "</tr>" for i in range(min(3, rows.count("</tr>"))))
            section = begin.replace(f'id="{name}"', "") + f"<tbody>\n{rows}</tbody></table></section>"
            parts += [f'<div style="break-before:page;height:{place}mm">at</div>{section}' for place in range(165, 262)]
            told = re.sub(r"<[^>]*>", "", re.search(r"<caption>(.*?)</caption>", begin).group(1)).replace("&#x27;", "'").split()
            title = re.search(r"<h2[^>]*>(.*?)</h2>", begin).group(1)
            end, start = re.escape(" ".join(told[-2:])), re.escape(" ".join(told[:4]))
            ends.append(f"(at|{title}|{head}|{re.escape(told[-1])}|.*{end}|{start}.*)")
        style = re.search(r"<style>.*?</style>", page, re.DOTALL).group()
        path = self.folder / "heads.html"
        for size in ("letter", "A4"):
            style_of_size = f"{style}<style>@page {{ size: {size}; }}</style>"
            path.write_text(f"<!doctype html><meta charset=utf-8>{style_of_size}<body>{''.join(parts)}", encoding="utf-8")
            sheets = [[line.strip() for line in sheet.splitlines() if line.strip()][:-1] for sheet in self.sheets(path)]
            self.assertGreater(len(sheets), 1.2 * len(parts))
            alone = [sheet[-1] for sheet in sheets if len(sheet) > 1 and any(re.fullmatch(end, sheet[-1]) for end in ends)]
            self.assertEqual(alone, [], size)
            # Tables begin on both sides of a sheet's end.
            self.assertGreater(sum(sheet == ["at"] for sheet in sheets), 50, size)
            self.assertGreater(sum(len(sheet) > 3 and sheet[0] == "at" for sheet in sheets), 50, size)

    def test_letters_print_one_to_a_sheet(self) -> None:
        out = self.long_names()
        sheets = self.sheets(out / "letters.html")
        self.assertEqual(len(sheets), 400)
        names = []
        for sheet in sheets:
            lines = [line.strip() for line in sheet.splitlines() if line.strip()]
            self.assertEqual(lines[0], "20 March 2026")
            names.append(lines[1])
            self.assertEqual(sheet.count("In the docket that was matched you are"), 1)
        letters = [path.read_text(encoding="utf-8").split("\n")[2] for path in (out / "letters").iterdir()]
        self.assertEqual(sorted(names), sorted(letters))

    def test_pictures(self) -> None:
        out = self.folder / "match"
        office("run", SAMPLES / "programmes.csv", SAMPLES / "residents.csv", "--out", out, "--date", "2026-03-20")
        for name, size in (("report.png", "900,1160"), ("report-telephone.png", "390,844")):
            picture = self.folder / name
            self.browse(out / "page.html", f"--window-size={size}", f"--screenshot={picture}")
            data = picture.read_bytes()
            width, height = (int.from_bytes(data[place : place + 4], "big") for place in (16, 20))
            self.assertEqual(f"{width},{height}", size)
            if support.PICTURES:
                shutil.copy(picture, TOP / "docs" / name)
            self.assertTrue((TOP / "docs" / name).is_file(), "tests/office/run --pictures makes it")
