"""What an office may publish of a sealed match: the page on which a member checks a receipt, the roots, and the figures of the match.
No list stands in it, and no resident's name."""
import html
import json
import re
from pathlib import Path
from typing import Dict, Sequence

from . import compare, folder, rosters
from .folder import Draft
from .outcome import Outcome, Programme
from .page import About, Page, row, section, table
from .tree import Roots

CHECK, FIGURES, CUT_OFFS = "check.html", "figures.csv", "cut-offs.csv"
PARTS = ("unfilled", "figures", "choices", "programmes", "roots")


def check_page(roots: Roots, about: About) -> str:
    """The page that checks a receipt, with the published roots in it. A mark in it stands for a value, or for the phrase of its name."""
    there, said = [("lists", roots.lists), *([("result", roots.result)] if roots.result else [])], about.phrases
    shown: Dict[str, object] = {key.partition(".")[2]: text for key, text in said.texts.items() if key.startswith("checked.")}
    shown.update(choice=said.texts["letter.row"], plurals=said.texts["plurals"], ordinals=said.ordinals)
    marks = {"LANGUAGE": html.escape(said.language), "TITLE": html.escape(about.title), "DAY": html.escape(said.day(about.day)),
             "TELLS": said.html(f"check.tells-{there[-1][0]}"), "SAID": json.dumps(shown).replace("<", "\\u003c"),
             "ROOTS": "\n".join(f"<dt>{said.html(f'check.root-of-{word}', count=roots.count)}</dt>\n<dd><code>{digits}</code></dd>" for word, digits in there),
             "PUBLISHED": json.dumps({"result": None, **{word: {"count": roots.count, "root": digits} for word, digits in there}})}
    text = Path(__file__).with_name(CHECK).read_text(encoding="utf-8")
    return re.sub("@([A-Za-z-]+)@", lambda found: marks[found[1]] if found[1] in marks else said.html(f"check.{found[1]}", title=marks["TITLE"]), text)


class PublicPage(Page):
    """The page of a match without the name of a resident: places, figures and choices, and the roots."""

    def __init__(self, outcome: Outcome, about: About, roots: Roots, cut_offs: bool, order: str = "name") -> None:
        super().__init__(outcome, about, order)
        self.roots, self.cut_offs, self.parts = roots, cut_offs, PARTS

    def rank_of(self, programme: Programme) -> str:
        """The last rank, without how many the list has."""
        return self.ordinal(programme.last_rank or 0)

    def all_programmes(self) -> str:
        if self.cut_offs:
            return super().all_programmes()
        rows = (row(head[1], *cells) for head, *cells in map(self.programme_row, self.programmes))
        heads = self.heads("programme", ".places", ".filled", ".unfilled")
        return section("programmes", self.said("programmes"), table(self.programmes_told(), heads, rows, "stack open"))

    def made_of(self) -> str:
        digits = [("lists", self.roots.lists), ("result", self.roots.result)]
        rows = (row(self.said(f"root-of-{word}"), ("", f"<code>{root}</code>")) for word, root in digits)
        told = self.said("roots-told", count=self.roots.count)
        return section("roots", self.said("roots"), table(told, self.heads("of", "root"), rows, "stack digests"))

    def foot(self) -> str:
        return self.phrases.say("page.public-foot", title=self.about.title, date=self.about.day.isoformat(), digest=self.roots.lists[:16])

    def sections(self) -> Sequence[str]:
        return (self.unfilled(), self.figures(), self.choices(), self.all_programmes(), self.made_of())


def cut_offs(page: PublicPage) -> bytes:
    """The last rank that each programme took, or that it is open."""
    rows = [(programme.name, programme.id, programme.places, programme.filled, html.unescape(page.last_taken(programme))) for programme in page.programmes]
    return rosters.table_bytes(rosters.heads(page.phrases, "programme", "id", "places", "filled", "last-taken"), rows)


def write_check(draft: Draft, roots: Roots, about: About) -> None:
    """Writes what is published before the match."""
    draft.write(f"{folder.PUBLIC}/{CHECK}", check_page(roots, about).encode("utf-8"))
    draft.write(f"{folder.PUBLIC}/{folder.ROOTS}", roots.rows())


def write(draft: Draft, outcome: Outcome, roots: Roots, about: About, order: str, with_cut_offs: bool) -> None:
    """Writes what is published after the match."""
    write_check(draft, roots, about)
    page = PublicPage(outcome, about, roots, with_cut_offs, order)
    draft.write(f"{folder.PUBLIC}/{folder.PAGE}", page.text().encode("utf-8"))
    draft.write(f"{folder.PUBLIC}/{folder.UNFILLED}", rosters.unfilled(outcome, page.phrases))
    figures = compare.figures_of(outcome, page.phrases)
    draft.write(f"{folder.PUBLIC}/{FIGURES}", rosters.table_bytes(rosters.heads(page.phrases, "figure", "number"), figures))
    if with_cut_offs:
        draft.write(f"{folder.PUBLIC}/{CUT_OFFS}", cut_offs(page))
