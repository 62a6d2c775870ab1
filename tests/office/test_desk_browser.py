"""The desk in a real Chromium, where there is one: each step of the walk, by keyboard alone, on three screens, with hostile names, and what
other pages get of it."""
import contextlib
import http.server
import json
import os
import shutil
import sys
import threading
import time
from typing import Any, Callable, Dict, List, Tuple
from unittest import mock

import desks
import planted
import support
from residency.office import running
from support import PROGRAMMES, RESIDENTS, SAMPLES, TOP, OfficeTest, office

sys.path.append(str(TOP / "tests" / "seal"))
from browser import Chromium  # noqa: E402

SECONDS = 200.0
# Roles that a screen reader stops at, each of which wants a name.
CONTROLS = ("button", "link", "textbox", "searchbox", "combobox", "checkbox", "radio", "spinbutton", "listbox", "menuitem", "slider", "Date", "region", "dialog",
            "Iframe", "DisclosureTriangle", "heading", "columnheader")
MEASURE = """(() => { const all = [...document.querySelectorAll("body *")].filter((one) => one.checkVisibility && one.checkVisibility());
  const sizes = all.filter((one) => [...one.childNodes].some((it) => it.nodeType === 3 && it.data.trim())).map((one) => parseFloat(getComputedStyle(one).fontSize));
  return [innerWidth, document.documentElement.scrollWidth, Math.min(...sizes)]; })()"""
# The brightness of the page's ground; how many elements show text, or a hint of what to write; and of those that differ too little from what
# is behind them, by WCAG 2.2 (1.4.3), their text, colours and ratio.
CONTRAST = """(() => {
  const parts = (text) => (([r, g, b, a = 1]) => [r, g, b, a])(text.match(/[\\d.]+/g).map(Number));
  const over = (top, below) => top.slice(0, 3).map((one, at) => one * top[3] + below[at] * (1 - top[3]));
  const light = (rgb) => rgb.map((one) => (one / 255 <= 0.04045 ? one / 255 / 12.92 : ((one / 255 + 0.055) / 1.055) ** 2.4))
    .reduce((sum, one, at) => sum + one * [0.2126, 0.7152, 0.0722][at], 0);
  const behind = (one) => (one ? over(parts(getComputedStyle(one).backgroundColor), behind(one.parentElement)) : [255, 255, 255]);
  const shown = [...document.querySelectorAll("body *")].filter((one) => one.checkVisibility({ opacityProperty: true, visibilityProperty: true }));
  const texts = shown.flatMap((one) => {
    const said = ((one.selectedOptions || [])[0] || {}).text || one.value || [...one.childNodes].filter((it) => it.nodeType === 3).map((it) => it.data).join("").trim();
    return said ? [[one, said, ""]] : one.placeholder ? [[one, one.placeholder, "::placeholder"]] : [];
  });
  const faint = texts.flatMap(([one, said, part]) => {
    const ground = behind(one), colour = over(parts(getComputedStyle(one, part).color), ground), [dark, bright] = [light(ground), light(colour)].sort((a, b) => a - b);
    const ratio = (bright + 0.05) / (dark + 0.05);
    return ratio < 4.5 ? [`${said.slice(0, 40)}: ${colour} on ${ground}, ${ratio.toFixed(2)}`] : [];
  });
  return [light(behind(document.body)), texts.length, faint];
})()"""
# The residents with a column more.
KEPT = RESIDENTS.replace("\n", ",a@example.org\n").replace("Rank 3,a@example.org", "Rank 3,Email", 1)
HOSTILE = ['<img src=x onerror="window.hit=1">', '"><script>window.hit=1</script>', "';window.hit=1;//", "{{7*7}}${7*7}", "<b>Kim</b> &amp; &lt;i&gt;", "javascript:window.hit=1",
           "</td></table><iframe src=//evil.example>", "=HYPERLINK(1)"]


class BrowserTest(OfficeTest):
    def setUp(self) -> None:
        super().setUp()
        program = next(filter(None, map(shutil.which, ("chromium", "chromium-browser", "google-chrome"))), None)
        if program is None:
            self.skipTest("there is no Chromium here")
        self.stack = contextlib.ExitStack()
        self.addCleanup(self.stack.close)
        self.running = self.stack.enter_context(desks.running(self.folder))
        self.browser = self.stack.enter_context(Chromium(program, "--host-resolver-rules=MAP evil.example 127.0.0.1"))

    def start(self, width: int = 1280) -> None:
        """Opens the page as the desk's start file does."""
        self.browser.visit(self.running.server.address, width)
        self.wait_for("Give the two tables, of programmes and of residents.")

    def state(self) -> str:
        return str(self.browser.value("document.getElementById('state').textContent"))

    def wait_for(self, text: str) -> None:
        """Waits until the page says this of itself."""
        try:
            self.browser.wait(f"document.getElementById('state').textContent === {json.dumps(text)}", SECONDS)
        except TimeoutError:
            self.fail(f"the page says {self.state()!r}, and not {text!r}; {self.browser.complaints()}")

    def seen(self, text: str) -> None:
        """Waits until a text can be read somewhere."""
        try:
            self.browser.wait(f"document.body.innerText.includes({json.dumps(text)})", SECONDS)
        except TimeoutError:
            self.fail(f"{text!r} isn't there; the page says {self.state()!r}; {self.browser.complaints()}")

    def until(self, holds: Callable[[], bool]) -> None:
        """Waits until something of the desk holds."""
        end = time.monotonic() + SECONDS
        while not holds():
            self.assertLess(time.monotonic(), end, self.state())
            time.sleep(0.02)

    def click(self, selector: str) -> None:
        self.browser.value(f"document.querySelector({json.dumps(selector)}).click()")

    def press_button(self, text: str) -> None:
        """Clicks the button with this text that can be seen."""
        find = f"[...document.querySelectorAll('button')].find((one) => one.textContent === {json.dumps(text)} && one.checkVisibility())"
        self.browser.wait(find, SECONDS)
        self.browser.value(f"{find}.click()")

    def put(self, selector: str, value: str) -> None:
        """Sets a field, and says so as a person's change does."""
        self.browser.value(f"(() => {{ const one = document.querySelector({json.dumps(selector)}); one.value = {json.dumps(value)};"
                           "one.dispatchEvent(new Event('input')); one.dispatchEvent(new Event('change')); })()")

    def give(self, programmes: Any, residents: Any) -> None:
        """Gives two tables by their files."""
        paths = [self.write(f"{name}.csv", data) for name, data in (("programmes", programmes), ("residents", residents))]
        self.browser.give("#file-programmes", paths[0])
        self.browser.wait("document.querySelector('[data-table=programmes]').classList.contains('given')", SECONDS)
        self.browser.give("#file-residents", paths[1])
        self.browser.wait("document.querySelector('[data-table=residents]').classList.contains('given')", SECONDS)

    def samples(self) -> None:
        self.give(*((SAMPLES / f"{name}.csv").read_bytes() for name in ("programmes", "residents")))
        self.wait_for("No fault. The match can be made.")

    def match(self) -> None:
        self.put("#day", "2026-03-20")
        self.click("#run")
        self.wait_for("The match is made. It is stable, and its journal follows the rules.")

    def picture(self, name: str) -> None:
        """Takes a picture of what the screen shows, and of docs/ where these are made anew."""
        import base64

        data = base64.b64decode(self.browser.ask("Page.captureScreenshot", format="png")["data"])
        self.assertTrue(data.startswith(b"\x89PNG"))
        if support.PICTURES:
            (TOP / "docs" / name).write_bytes(data)
        self.assertTrue((TOP / "docs" / name).is_file(), "tests/office/run --pictures makes it")

    def quiet(self) -> None:
        """Nothing was asked elsewhere than of the desk, nothing complains, and no control is without a name."""
        own = (f"http://{self.running.host}/", "data:", "blob:", "about:")
        asked = [event["params"]["request"]["url"] for event in self.browser.events if event.get("method") == "Network.requestWillBeSent"]
        self.assertEqual([url for url in asked if not url.startswith(own)], [])
        self.assertGreater(len(asked), 5)
        self.assertEqual(self.browser.complaints(), [])
        self.named()

    def named(self) -> None:
        bare = [phrase for phrase in self.browser.spoken() if phrase.rstrip(": ") in CONTROLS]
        self.assertEqual(bare, [])

    def readable(self, least: int = 40, is_dark_too: bool = True) -> None:
        """In the light and in the dark, each of so many texts at least stands out from what is behind it."""
        for scheme in ("dark", "light"):
            self.browser.ask("Emulation.setEmulatedMedia", features=[{"name": "prefers-color-scheme", "value": scheme}])
            ground, count, faint = self.browser.value(CONTRAST)
            self.assertEqual((faint, ground < 0.2), ([], is_dark_too and scheme == "dark"), scheme)
            self.assertGreaterEqual(count, least)

    def fits(self) -> None:
        """At each width nothing is wider than the screen, no letter is small, and none is faint."""
        self.readable()
        for width in (390, 820, 1280, 1600):
            self.browser.screen(width)
            inner, scrolled, smallest = self.browser.value(MEASURE)
            self.assertEqual((inner, scrolled), (width, width))
            self.assertGreaterEqual(smallest, 14)
        self.browser.screen(1280)


class Walk(BrowserTest):
    def test_the_whole_walk(self) -> None:
        self.start()
        self.assertEqual(self.browser.value("[location.href, sessionStorage.length, document.cookie]"), [f"http://{self.running.host}/", 1, ""])
        self.fits()
        self.samples()
        self.browser.value("document.getElementById('frame').addEventListener('load', () => { window.shown = true; })")
        self.match()
        self.browser.wait("window.shown && document.getElementById('frame').checkVisibility()", SECONDS)
        self.assertEqual(self.browser.value("document.activeElement.id"), "result")
        self.assertEqual(self.running.desk.tickets, {})
        self.fits()
        self.browser.value("document.getElementById('result').scrollIntoView()")
        self.picture("desk-result.png")
        self.addCleanup(os.chdir, os.getcwd())
        os.chdir(self.folder)
        office("run", "programmes.csv", "residents.csv", "--out", "out", "--date", "2026-03-20")
        self.counter()
        self.put("#out", "match-2026")
        self.click("#save")
        self.wait_for(f"Saved in {self.folder / 'match-2026'}.")
        # What the same command writes, to the byte.
        for path in (self.folder / "out").rglob("*.*"):
            self.assertEqual((self.folder / "match-2026" / path.relative_to(self.folder / "out")).read_bytes(), path.read_bytes(), path.name)
        self.withdrawal()
        self.click("#compare")
        self.wait_for("Compared.")
        for text in ("29 (72%)", "28 (72%)", "residents by their names, since not all have an ID: 1 moved, 1 withdrawn"):
            self.seen(text)
        self.verify()
        self.fits()
        self.quiet()
        self.click("#close")
        self.press_button("Close without saving")
        self.wait_for("The desk is closed. You may close this window.")
        self.running.thread.join(SECONDS)
        self.assertFalse(self.running.thread.is_alive())
        # What the desk showed of the match is on white paper in both.
        for name in ("page.html", "letters.html", "rosters.html"):
            self.browser.open(str(self.folder / "out" / name))
            self.readable(is_dark_too=False)

    def counter(self) -> None:
        """The answer that docs/office.md shows."""
        self.browser.value("document.getElementById('part').focus()")
        self.browser.type("zielin")
        self.browser.wait("document.querySelectorAll('#part-people:not([hidden]) [role=option]').length === 1", SECONDS)
        self.browser.press("Enter", 13)
        self.seen("Clínica San José – Medicina Interna: you are matched here")
        said = self.browser.value("[...document.querySelectorAll('#why h3, #why p, #why li')].map((one) => one.textContent)")
        self.assertEqual(said, office("why", self.folder / "out", "Ewa Zielińska").out.splitlines())
        self.browser.value("document.getElementById('counter').scrollIntoView()")
        self.picture("desk-counter.png")

    def withdrawal(self) -> None:
        self.browser.value("document.getElementById('gone').focus()")
        self.browser.type("zoë o'c")
        self.browser.wait("document.querySelectorAll('#gone-people:not([hidden]) [role=option]').length === 1", SECONDS)
        self.browser.press("ArrowDown", 40)
        self.readable()
        self.browser.press("Enter", 13)
        self.seen("Withdraw Zoë O'Connor, and match again without this resident?")
        self.readable()
        self.press_button("No")
        self.assertEqual([*self.running.desk.folders], ["match"])
        self.browser.value("(() => { const one = document.getElementById('gone'); one.focus(); one.dispatchEvent(new Event('input')); })()")
        self.browser.wait("document.querySelectorAll('#gone-people:not([hidden]) [role=option]').length === 1", SECONDS)
        self.browser.press("Enter", 13)
        self.press_button("Withdraw and match again")
        self.wait_for("Zoë O'Connor is withdrawn, in match-without. The folder of before is unchanged.")
        self.assertEqual([*self.running.desk.folders], ["match", "match-without"])
        self.seen("1 filled otherwise")

    def verify(self) -> None:
        self.put("#checked", "match")
        self.click("#with-tables")
        self.click("#check")
        self.wait_for("It holds: 74 files made again, the result, the journal of 265 events.")
        self.seen("✓ audit: S,stable")

    def test_a_sealed_match_and_a_next_round(self) -> None:
        self.start()
        self.give(PROGRAMMES, RESIDENTS)
        self.wait_for("No fault. The match can be made.")
        self.click("[name=how][value=seal]")
        self.press_button("Seal the lists")
        self.wait_for("The lists are sealed in sealed. Publish the roots, save the folder, and match what was sealed.")
        roots = (self.running.desk.folders["sealed"] / "root.txt").read_text().split(",")
        self.seen(",".join(roots[1:]).strip())
        self.press_button("Match what was sealed")
        self.wait_for("What was sealed is matched. Publish the roots, and give all members their receipts.")
        self.press_button("Make the tables of a next round")
        self.wait_for("The tables of a next round are in next-round. Save them, fill in the lists, and give them above.")
        self.assertEqual(sorted(path.name for path in self.running.desk.folders["next-round"].iterdir()), ["programmes.xlsx", "residents.xlsx"])
        self.fits()
        self.quiet()

    def test_a_match_is_cancelled(self) -> None:
        """The match is under way until its cancel was pressed."""
        began, goes_on = self.slow_match()
        self.start()
        self.give(PROGRAMMES, RESIDENTS)
        self.wait_for("No fault. The match can be made.")
        self.click("#run")
        self.assertTrue(began.wait(SECONDS))
        self.wait_for("Making the match …")
        self.press_button("Cancel")
        self.wait_for("Cancelled. Nothing was made.")
        goes_on.set()
        self.assertEqual(self.running.call("state")["folders"], [])
        self.assertFalse(self.browser.value("document.getElementById('cancel').checkVisibility()"))
        self.match()
        self.assertEqual([*self.running.desk.folders], ["match"])

    def slow_match(self) -> Tuple[threading.Event, threading.Event]:
        """Lets each match wait: the first event says that one has begun, and the second lets it go on."""
        began, goes_on, matched = threading.Event(), threading.Event(), running.matched

        def slow(*words: Any) -> Any:
            began.set()
            self.assertTrue(goes_on.wait(SECONDS))
            return matched(*words)

        self.enter(mock.patch.object(running, "matched", slow))
        return began, goes_on

    def test_a_reload_in_the_midst_of_a_match_keeps_the_tables(self) -> None:
        began, goes_on = self.slow_match()
        self.start()
        self.give(PROGRAMMES, RESIDENTS)
        self.wait_for("No fault. The match can be made.")
        self.click("#run")
        self.assertTrue(began.wait(SECONDS))
        self.browser.visit(f"http://{self.running.host}/")
        goes_on.set()
        self.wait_for("No fault. The match can be made.")
        self.assertEqual([*self.running.desk.folders], [])
        self.match()
        self.assertEqual([*self.running.desk.folders], ["match"])

    def test_letters_are_printed_from_a_window_of_their_own(self) -> None:
        self.start()
        self.give(PROGRAMMES, RESIDENTS)
        self.wait_for("No fault. The match can be made.")
        self.match()
        for selector in ("[data-print='letters.html']", "[data-print='rosters.html']"):
            self.browser.ask("Runtime.evaluate", expression=f"document.querySelector({json.dumps(selector)}).click()", userGesture=True)
            self.until(lambda: any(self.views()))
            for view in self.views():
                self.browser.ask("Target.closeTarget", targetId=view)
            self.until(lambda: not self.views() and not self.running.desk.tickets)
        self.assertEqual(self.browser.complaints(), [])

    def views(self) -> List[str]:
        """The windows that show a part of a folder."""
        found = self.browser.ask("Target.getTargets")["targetInfos"]
        return [target["targetId"] for target in found if target["type"] == "page" and "/view/" in target["url"]]

    def test_faults_are_mended_beside_their_cells(self) -> None:
        self.start()
        lines = [b"The residents of 2026", *(SAMPLES / "residents.csv").read_bytes().splitlines()]
        residents = b"\n".join(line.replace("Kwame Mensah".encode(), b"Kwame Mensa") for line in lines)
        self.give((SAMPLES / "programmes.csv").read_bytes().replace(b";4;", b";four;", 1), residents)
        self.browser.wait("document.querySelectorAll('td.bad').length", SECONDS)
        self.seen("four is no number of places")
        self.seen("no resident is named Kwame Mensah; is it Kwame Mensa?")
        self.fits()
        self.picture("desk-faults.png")
        self.browser.value("document.querySelector('ol.faults a').click()")
        self.assertTrue(self.browser.value("document.activeElement.classList.contains('bad')"))
        self.named()
        column = self.browser.value("document.querySelector('[data-key=role-residents-1]').getAttribute('aria-label')")
        self.assertEqual(column, "Column B, Rank 1, is")
        self.samples()

    def test_a_column_is_kept_or_left_out(self) -> None:
        self.start()
        self.give(PROGRAMMES, KEPT)
        self.wait_for("No fault. The match can be made.")
        self.seen("1 column is left out: Email (E)")
        for role, kept, ignored in (("kept", ["Email"], []), ("", [], ["Email"]), ("kept", ["Email"], [])):
            self.put("[data-key=role-residents-4]", role)
            self.until(lambda kept=kept, ignored=ignored: (self.running.desk.settings.keep, self.running.desk.settings.ignore) == (kept, ignored))
            self.browser.wait("!document.body.innerText.includes('1 column is left out')", SECONDS)
        self.match()
        self.assertIn(",Email", (self.running.desk.folders["match"] / "results.csv").read_text(encoding="utf-8"))

    def test_a_remedy_is_a_button(self) -> None:
        self.start()
        self.give(PROGRAMMES, f"Residents,2026\n{RESIDENTS}")
        self.wait_for("1 fault: mend the tables, or say how they are to be read.")
        self.press_button("The headings are in row 2")
        self.wait_for("No fault. The match can be made.")
        self.assertEqual(self.running.desk.settings.heading_row, {"residents": 2})
        self.assertEqual(self.browser.value("document.querySelector('[data-key=heading_row-residents]').value"), "2")
        # On paper there is no control.
        self.browser.ask("Emulation.setEmulatedMedia", media="print")
        shown = self.browser.value("[...document.querySelectorAll('button, input, select, textarea, iframe')].filter((one) => one.checkVisibility()).length")
        self.assertEqual(shown, 0)

    def test_the_right_sheet_is_chosen(self) -> None:
        main, kind = "http://schemas.openxmlformats.org/spreadsheetml/2006/main", "http://schemas.openxmlformats.org/officeDocument/2006/relationships"
        sheets = "".join(f'<sheet name="{name}" sheetId="{number}" r:id="s{number}"/>' for number, name in ((1, "This year"), (2, "Old")))
        parts = "".join(f'<Relationship Id="s{number}" Type="{kind}/worksheet" Target="worksheets/sheet{number}.xml"/>' for number in (1, 2))
        more = {"xl/workbook.xml": f'<workbook xmlns="{main}" xmlns:r="{kind}"><sheets>{sheets}</sheets></workbook>',
                "xl/_rels/workbook.xml.rels": f"<Relationships>{parts}</Relationships>",
                "xl/worksheets/sheet2.xml": f'<worksheet xmlns="{main}"><sheetData><row><c t="inlineStr"><is><t>Old</t></is></c></row></sheetData></worksheet>'}
        self.start()
        self.give(PROGRAMMES, planted.book([line.split(",") for line in RESIDENTS.splitlines()], more))
        self.wait_for("1 fault: mend the tables, or say how they are to be read.")
        self.seen("2 sheets have cells: This year, Old; choose one")
        options = self.browser.value("[...document.querySelector('[data-key=sheet-residents]').options].map((one) => one.textContent)")
        self.assertEqual(options, ["which one?", "This year", "Old"])
        self.press_button("Take the sheet This year")
        self.wait_for("No fault. The match can be made.")
        self.assertEqual(self.running.desk.settings.sheet, {"residents": "This year"})
        self.assertEqual(self.browser.value("document.querySelector('[data-key=sheet-residents]').value"), "This year")
        self.quiet()

    def test_the_right_set_is_chosen_by_the_names(self) -> None:
        self.start()
        names = ["Dvořák", "Łukasz", "Šimůnek", "Křížová", "Žižka"]
        self.give("Programme,Places,Rank 1\nNorth,1,\n", ("Applicant,Rank 1\n" + "".join(f"{name},North\n" for name in names)).encode("cp1250"))
        self.seen("In which of these are the names right?")
        self.picture("desk-names.png")
        self.browser.value("[...document.querySelectorAll('.sample')].find((one) => one.textContent.includes('Dvořák, Łukasz, Šimůnek')).click()")
        self.wait_for("No fault. The match can be made.")
        self.assertEqual(self.running.desk.settings.encoding, {"residents": "cp1250"})
        self.seen("Křížová")

    def test_tables_are_dropped_and_settings_kept(self) -> None:
        self.start()
        for name, text in (("programmes", PROGRAMMES), ("residents", RESIDENTS)):
            self.browser.value(f"(() => {{ const data = new DataTransfer(); data.items.add(new File([{json.dumps(text)}], '{name}.csv'));"
                               f"document.querySelector('[data-table={name}] .drop').dispatchEvent(new DragEvent('drop', {{ dataTransfer: data, bubbles: true, cancelable: true }})); }})()")
            self.browser.wait(f"document.querySelector('[data-table={name}]').classList.contains('given')", SECONDS)
        self.wait_for("No fault. The match can be made.")
        path = self.write("own.ini", "[residents]\nexpect = 8\n[match]\ntitle = The <b>match</b>\nsender = The office | 12 Lane\nlanguage = de\n")
        self.browser.give("#open-settings", path)
        self.wait_for("1 fault: mend the tables, or say how they are to be read.")
        self.press_button("7 is right")
        self.wait_for("No fault. The match can be made.")
        self.assertEqual(self.browser.value("['title', 'sender', 'language', 'expect-residents'].map((id) => document.getElementById(id).value)"),
                         ["The <b>match</b>", "The office\n12 Lane", "de", "7"])
        self.match()
        self.seen("match – The <b>match</b>, 20. März 2026")


class Keyboard(BrowserTest):
    KEYS = {"Tab": 9, "Enter": 13, " ": 32, "ArrowDown": 40, "Escape": 27}

    def key(self, name: str) -> None:
        self.browser.press(name, self.KEYS[name], {"Enter": "\r", " ": " "}.get(name, ""))

    def to(self, wanted: str) -> None:
        """Goes on by Tab until this expression of the element with the focus is true."""
        for _ in range(400):
            if self.browser.value(f"(() => {{ const one = document.activeElement; return Boolean({wanted}); }})()"):
                return
            self.key("Tab")
        self.fail(f"no Tab leads to {wanted}")

    def test_the_walk_by_keyboard_alone(self) -> None:
        """Only the choice of a file is the browser's own window, which a test can't show."""
        self.start(390)
        self.give(PROGRAMMES, RESIDENTS)
        self.wait_for("No fault. The match can be made.")
        self.to("one.id === 'title'")
        self.browser.type("By keys")
        self.to("one.id === 'run'")
        self.key("Enter")
        self.wait_for("The match is made. It is stable, and its journal follows the rules.")
        self.to("one.id === 'out'")
        self.browser.type("kept")
        self.to("one.id === 'save'")
        self.key(" ")
        self.wait_for(f"Saved in {self.folder / 'kept'}.")
        self.assertIn("By keys", (self.folder / "kept" / "page.html").read_text(encoding="utf-8"))
        self.to("one.id === 'gone'")
        self.browser.type("rosa")
        self.browser.wait("document.querySelectorAll('#gone-people:not([hidden]) [role=option]').length === 1", SECONDS)
        self.key("ArrowDown")
        self.key("Enter")
        self.seen("Withdraw Rosa Rossi, and match again without this resident?")
        self.assertEqual(self.browser.value("document.activeElement.id"), "no")
        self.to("one.id === 'yes'")
        self.key("Enter")
        self.wait_for("Rosa Rossi is withdrawn, in match-without. The folder of before is unchanged.")
        self.to("one.id === 'part'")
        self.browser.type("kim")
        self.browser.wait("document.querySelectorAll('#part-people:not([hidden]) [role=option]').length === 1", SECONDS)
        self.key("Enter")
        self.seen("Kim Lee")
        self.to("one.id === 'check'")
        self.key("Enter")
        self.browser.wait("document.getElementById('state').textContent.startsWith('It holds: ')", SECONDS)
        self.assertEqual(self.browser.value("document.querySelector('#held ul').textContent"), "lists and names, for want of the tables")
        self.browser.value("document.getElementById('close').focus()")
        self.key("Enter")
        self.to("one.id === 'yes'")
        self.key("Enter")
        self.wait_for("The desk is closed. You may close this window.")
        self.assertEqual(self.browser.complaints(), [])


class Others(BrowserTest):
    def test_hostile_names_are_text(self) -> None:
        self.start()
        cells = ['"' + name.replace('"', '""') + '"' for name in HOSTILE]
        programmes = "Programme,Places,Rank 1\n" + "".join(f"{cell},1,{cell}\n" for cell in cells)
        residents = "Applicant,Rank 1,\"<img src=x onerror=window.hit=2>\"\n" + "".join(f"{cell},{cell},\n" for cell in cells)
        self.give(programmes.replace(",1,", ",<script>window.hit=3</script>,", 1), residents)
        self.browser.wait("document.querySelectorAll('.bad').length", SECONDS)
        self.seen("<script>window.hit=3</script> is no number of places")
        self.give(*self.distinct(cells))
        self.wait_for("No fault. The match can be made.")
        self.put("#title", HOSTILE[1])
        self.put("#sender", HOSTILE[0])
        self.match()
        self.seen(f"match – {HOSTILE[1]}")
        self.put("#out", HOSTILE[0].replace("/", ""))
        self.click("#save")
        self.browser.wait("document.getElementById('state').textContent.startsWith('Saved in ')", SECONDS)
        for name in HOSTILE:
            self.put("#part", name)
            find = f"[...document.querySelectorAll('#part-people:not([hidden]) [role=option]')].find((one) => one.textContent === {json.dumps(name)})"
            self.browser.wait(find, SECONDS)
            self.browser.value(f"{find}.dispatchEvent(new MouseEvent('mousedown', {{ bubbles: true, cancelable: true }}))")
            self.browser.wait(f"[...document.querySelectorAll('#why h3')].some((one) => one.textContent === {json.dumps(name)})", SECONDS)
        self.assertEqual(self.browser.value("[typeof hit, document.querySelectorAll('main img, main script, main b b, iframe:not(#frame)').length]"), ["undefined", 0])
        self.quiet()

    @staticmethod
    def distinct(cells: List[str]) -> List[str]:
        """Tables of these names, which are residents, and of programmes that are named after them."""
        places = [f'{cell[:-1]} P"' for cell in cells]
        return ["Programme,Places,Rank 1\n" + "".join(f"{place},1,{cell}\n" for place, cell in zip(places, cells)),
                "Applicant,Rank 1\n" + "".join(f"{cell},{place}\n" for place, cell in zip(places, cells))]

    def test_a_second_tab_knows_nothing(self) -> None:
        self.start()
        self.running.give("residents", RESIDENTS.encode())
        self.browser.value("sessionStorage.clear()")
        self.browser.visit(f"http://{self.running.host}/")
        self.wait_for("This window doesn’t know the desk’s token. Open the whole address that the desk printed.")
        self.assertFalse(self.browser.value("document.body.innerText.includes('residents.csv')"))

    def test_a_reload_loses_nothing(self) -> None:
        self.start()
        self.give(PROGRAMMES, KEPT)
        self.wait_for("No fault. The match can be made.")
        self.put("[data-key=role-residents-4]", "kept")
        self.until(lambda: self.running.desk.settings.keep == ["Email"])
        self.browser.visit(f"http://{self.running.host}/")
        self.wait_for("No fault. The match can be made.")
        self.assertEqual(self.running.desk.settings.keep, ["Email"])
        self.assertEqual(self.browser.value("document.querySelector('[data-key=role-residents-4]').value"), "kept")
        self.match()

    def test_a_closed_desk_is_told(self) -> None:
        self.start()
        self.running.desk.over.set()
        self.wait_for("The desk doesn’t answer: it was closed. Start it again.")

    def test_pages_of_another_origin_get_nothing(self) -> None:
        """A page on this machine, at another port and by another name, tries what a browser lets it."""
        self.running.give("residents", RESIDENTS.encode())
        desk = self.running.host
        page = f"""<!doctype html><meta charset="utf-8"><body><script type="module">
          const got = {{}}, tries = {{
            call: () => fetch("http://{desk}/call/state", {{ method: "POST", body: "{{}}", headers: {{ "X-Desk-Token": "x" }} }}).then((one) => one.text()),
            simple: () => fetch("http://{desk}/call/state", {{ method: "POST", body: "{{}}" }}).then((one) => one.text()),
            blind: () => fetch("http://{desk}/close", {{ method: "POST", mode: "no-cors" }}).then((one) => one.type),
            page: () => fetch("http://{desk}/").then((one) => one.text()),
            script: () => import("http://{desk}/call.js").then(Object.keys),
          }};
          for (const [name, does] of Object.entries(tries)) got[name] = await does().catch(() => "nothing");
          const frame = document.createElement("iframe");
          const loaded = new Promise((done) => frame.addEventListener("load", done));
          frame.src = "http://{desk}/";
          document.body.append(frame);
          await loaded;
          try {{ got.frame = frame.contentDocument.body.innerText; }} catch {{ got.frame = "nothing"; }}
          got.frame = got.frame || "nothing";
          document.body.dataset.got = JSON.stringify(got);
        </script><form method="post" action="http://{desk}/table/residents"><input name="a" value="b"></form>"""

        class Handler(http.server.BaseHTTPRequestHandler):
            def do_GET(self) -> None:
                self.send_response(200)
                self.send_header("Content-Type", "text/html")
                self.end_headers()
                self.wfile.write(page.encode())

            def log_message(self, *_: Any) -> None:
                pass

        with http.server.ThreadingHTTPServer(("127.0.0.1", 0), Handler) as other:
            threading.Thread(target=other.serve_forever, daemon=True).start()
            for name in ("127.0.0.1", "localhost", "evil.example"):
                self.browser.visit(f"http://{name}:{other.server_port}/")
                self.browser.wait("document.body.dataset.got", SECONDS)
                got: Dict[str, str] = json.loads(self.browser.value("document.body.dataset.got"))
                self.assertEqual({**got, "blind": ""}, {"call": "nothing", "simple": "nothing", "blind": "", "page": "nothing", "script": "nothing", "frame": "nothing"}, name)
                self.assertIn(got["blind"], ("opaque", "nothing"))
                self.browser.value("document.forms[0].submit()")
                self.browser.wait("document.body && document.body.innerText.includes(\"another site's page asks this\")", SECONDS)
            other.shutdown()
        self.browser.visit(f"http://evil.example:{self.running.server.port}/")
        self.assertEqual(json.loads(self.browser.value("document.querySelector('pre').textContent")), {"error": "the desk answers at its own address alone"})
        self.assertFalse(self.running.desk.over.is_set())
        self.assertEqual(self.running.call("state")["tables"], {"residents": "residents.csv"})
