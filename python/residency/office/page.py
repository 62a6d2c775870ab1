"""One page on a match: who is matched where, by real names, and how the places and the choices went.

It is one file that needs nothing else, without a script; it reads on a telephone and prints with page numbers.
"""
import html
from dataclasses import dataclass, field
from datetime import date
from functools import lru_cache
from pathlib import Path
from typing import Any, Dict, Iterable, List, Optional, Sequence, Tuple, Union

from .outcome import UNMATCHED, Outcome, Programme, Resident, Standing, by_name, called
from .phrases import Phrases, english
from .tree import Roots

# The styles, of which `@FOOT@` and `@OF@` stand for words. Nothing is wider than the screen or the sheet.
COLOURS, PAGE_STYLE, LETTERS_STYLE = (Path(__file__).with_name(f"{name}.css").read_text(encoding="ascii") for name in ("colours", "page", "letters"))
# As many choices have a bar of their own; all later ones share one.
MOST_BARS = 10
# The parts of the page, by the ends of the names of their phrases.
PARTS = ("unfilled", "figures", "choices", "unmatched", "withdrawn", "matched", "programmes", "made")


@dataclass(frozen=True)
class About:
    """What the page says of itself: its title, its day, the digest of each file that it was made from, where the match was
    sealed the roots, and the words that it is written in."""

    title: str
    day: date
    digests: Dict[str, str]
    roots: Optional[Roots] = None
    phrases: Phrases = field(default_factory=english)


@lru_cache(1 << 12)
def bdi(text: str) -> str:
    """A name as it stands in the page; its direction changes nothing beside it."""
    return f"<bdi>{html.escape(text)}</bdi>"


def lang(phrases: Phrases) -> str:
    return f' lang="{html.escape(phrases.language)}"'


def document(language: str, title: str, style: str, body: str) -> str:
    """A whole page, of parts of one."""
    return (f'<!doctype html>\n<html{language}>\n<head>\n<meta charset="utf-8">\n<meta name="viewport" content="width=device-width, initial-scale=1">\n'
            f"<title>{title}</title>\n<style>\n{style}</style>\n</head>\n<body>\n{body}\n</body>\n</html>\n")


def label(member: Union[Programme, Resident]) -> str:
    """A member's name, with its ID where it has one; the family name stands out where it is known, since it gives the order."""
    text = called(member)
    family = getattr(member, "family", "")
    before, space, after = text.rpartition(f" {family}") if family else ("", "", "")
    if not space:
        return bdi(text)
    return f"<bdi>{html.escape(before)} <b>{html.escape(family)}</b>{html.escape(after)}</bdi>"


def table(caption: str, heads: Sequence[Tuple[str, str]], rows: Iterable[str], kind: str) -> str:
    """A table; a head is its class, which may be empty, and its text."""
    head = "".join(f'<th scope="col"{of_class(name)}>{text}</th>' for name, text in heads)
    body = "\n".join(f"<tr>{row}</tr>" for row in rows)
    return (f"<table{of_class(kind)}><caption>{caption}</caption>\n<thead><tr>{head}</tr></thead>\n"
            f"<tbody>\n{body}\n</tbody></table>")


def of_class(name: str) -> str:
    return f' class="{name}"' if name else ""


def row(head: str, *cells: Tuple[str, str]) -> str:
    return f'<th scope="row">{head}</th>' + "".join(f"<td{of_class(name)}>{text}</td>" for name, text in cells)


def section(name: str, title: str, *parts: str) -> str:
    inside = "\n".join(parts)
    return f'<section aria-labelledby="{name}">\n<h2 id="{name}">{title}</h2>\n{inside}\n</section>'


class Page:
    """The parts of the page."""

    def __init__(self, outcome: Outcome, about: About, order: str = "name") -> None:
        self.outcome, self.about, self.order, self.phrases = outcome, about, order, about.phrases
        self.parts: Sequence[str] = PARTS
        self.matched = by_name(outcome.standing(Standing.MATCHED), self.phrases, order)
        self.withdrawn = by_name(outcome.standing(Standing.WITHDRAWN), self.phrases, order)
        self.programmes = by_name(outcome.programmes.values(), self.phrases, order)
        self.taking_part = len(outcome.residents) - len(self.withdrawn)

    def said(self, key: str, **values: Any) -> str:
        """A phrase of the page; its values are parts of a page."""
        return self.phrases.html(f"page.{key}", **values)

    def heads(self, *names: str) -> List[Tuple[str, str]]:
        """The heads of a table: one that begins with a dot is of numbers."""
        return [("n" if name[0] == "." else "", self.phrases.html(f"head.{name.lstrip('.')}")) for name in names]

    def number(self, number: int, kind: str = "n") -> Tuple[str, str]:
        return kind, self.phrases.number(number)

    def ordinal(self, number: int) -> str:
        return html.escape(self.phrases.ordinal(number))

    def in_order(self, members: Sequence[Union[Programme, Resident]]) -> str:
        if self.order != "name":
            return self.said("by-table")
        return self.said("by-family-name" if any(getattr(member, "family", "") for member in members) else "by-name")

    def unfilled(self) -> str:
        short = [programme for programme in self.programmes if programme.unfilled]
        if not short:
            return section("unfilled", self.said("unfilled"), f"<p>{self.said('all-filled')}</p>")
        rows = (row(label(programme), self.number(programme.places), self.number(programme.filled), self.number(programme.unfilled, "n short")) for programme in short)
        told = self.said("unfilled-told", left=sum(programme.unfilled for programme in short), places=self.outcome.places(), programmes=len(short),
                         order=self.in_order(short))
        return section("unfilled", self.said("unfilled"),
                       table(told, self.heads("programme", ".places", ".filled", ".unfilled"), rows, "stack open"))

    def figures(self) -> str:
        counts = [(standing, len(self.outcome.standing(standing))) for standing in (Standing.MATCHED, *UNMATCHED)]
        counts += [(Standing.WITHDRAWN, len(self.withdrawn))] if self.withdrawn else []
        boxes = "".join(f"<div><dt>{self.said(f'figure.{standing.key}')}</dt><dd>{self.number(count)[1]}</dd></div>" for standing, count in counts)
        return section("figures", self.said("figures"), f'<dl class="figures">{boxes}</dl>')

    def choices(self) -> str:
        counts = self.outcome.choices()
        bars = [(self.said("choice", choice=self.ordinal(choice)), count, "bar") for choice, count in enumerate(counts[:MOST_BARS], 1)]
        if len(counts) > MOST_BARS:
            bars.append((self.said("later-choice", choice=self.ordinal(MOST_BARS + 1)), sum(counts[MOST_BARS:]), "bar"))
        bars.append((self.said("no-choice"), self.taking_part - len(self.matched), "bar left"))
        most = max(count for _, count, _ in bars) or 1
        rows = (row(what, self.number(count), ("share", self.bar(count, most, kind))) for what, count, kind in bars)
        told = self.said("choices-told", count=self.taking_part)
        return section("choices", self.said("choices"), table(told, self.heads("choice", ".residents", "share"), rows, "bars"))

    def bar(self, count: int, most: int, kind: str) -> str:
        share = html.escape(self.phrases.percent(count, self.taking_part)) if self.taking_part else ""
        return f'<span class="{kind}" style="width:{70 * count / most:.1f}%"></span>{share}'

    def titled(self, title: str, count: int) -> str:
        return f"<h3>{title}: {self.number(count)[1]}</h3>"

    def unmatched(self) -> str:
        parts: List[str] = []
        for standing in UNMATCHED:
            who = by_name(self.outcome.standing(standing), self.phrases, self.order)
            parts.append(self.titled(self.said(standing.key), len(who)))
            parts.append(f'<p class="soft">{self.said(f"{standing.key}-told")}</p>\n{self.list_of(who)}' if who else self.nobody())
        return section("unmatched", self.said("unmatched"), *parts)

    def nobody(self) -> str:
        return f"<p>{self.said('nobody')}</p>"

    @staticmethod
    def list_of(members: Iterable[Union[Resident, Programme]]) -> str:
        return '<ul class="names">\n' + "\n".join(f"<li>{label(member)}</li>" for member in members) + "\n</ul>"

    def gone(self) -> str:
        programmes = [programme for programme in self.programmes if programme.withdrawn]
        sides: List[Tuple[str, Sequence[Union[Resident, Programme]]]] = [("residents", self.withdrawn), ("programmes", programmes)]
        parts = [f"{self.titled(self.said(title), len(who))}\n{self.list_of(who)}" for title, who in sides if who]
        return section("withdrawn", self.said("withdrawn"), *(parts or [self.nobody()]))

    def residents(self) -> str:
        rows = (row(label(resident), ("", label(self.outcome.programmes[resident.programme or ""])),
                    ("n", self.said("choice-of", choice=self.ordinal(resident.choice or 0), count=resident.ranked))) for resident in self.matched)
        told = self.said("matched-told", count=len(self.matched), order=self.in_order(self.matched))
        return section("matched", self.said("matched"), table(told, self.heads("resident", "programme", ".choice"), rows, "stack matched"))

    def last_taken(self, programme: Programme) -> str:
        """The last rank that a full programme took; one with unfilled places took all who wanted it, so no rank was the last."""
        if programme.withdrawn or not programme.places:
            return "–"
        return self.said("open") if programme.unfilled else self.rank_of(programme)

    def rank_of(self, programme: Programme) -> str:
        return self.said("choice-of", choice=self.ordinal(programme.last_rank or 0), count=programme.ranked)

    def programme_row(self, programme: Programme) -> List[Tuple[str, str]]:
        """What a programme's row has; its head is the first."""
        name = self.said("is-withdrawn", name=label(programme)) if programme.withdrawn else label(programme)
        return [("", name), self.number(programme.places), self.number(programme.filled), self.number(programme.unfilled, "n short" if programme.unfilled else "n")]

    def programmes_told(self) -> str:
        return self.said("programmes-told", count=len(self.programmes), order=self.in_order(self.programmes))

    def all_programmes(self) -> str:
        heads = self.heads("programme", ".places", ".filled", ".unfilled", ".last-taken")
        rows = (row(head[1], *cells, ("n", self.last_taken(programme))) for programme in self.programmes for head, *cells in [self.programme_row(programme)])
        told = f"{self.programmes_told()}; {self.said('last-taken-told')}"
        return section("programmes", self.said("programmes"), table(told, heads, rows, "stack programmes"))

    def made_of(self) -> str:
        rows = (row(f"<code>{html.escape(name)}</code>", ("", f"<code>{digest}</code>"))
                for name, digest in self.about.digests.items())
        told = self.said("made-told", command="<code>sha256sum</code>")
        return section("made", self.said("made"), table(told, [*self.heads("file"), ("", "SHA-256")], rows, "stack digests"))

    def head(self) -> str:
        title = html.escape(self.about.title)
        day = f'<time datetime="{self.about.day.isoformat()}">{html.escape(self.phrases.day(self.about.day))}</time>'
        links = "".join(f'<li><a href="#{name}">{self.said(f"link.{name}")}</a></li>' for name in self.parts)
        counts = self.said("counts", residents=len(self.outcome.residents), programmes=len(self.programmes))
        return (f'<header>\n<h1>{title}</h1>\n<p class="soft">{day}. {counts}</p>\n</header>\n'
                f'<nav aria-label="{html.escape(self.phrases.say("page.parts"))}"><ul>{links}</ul></nav>')

    def foot(self) -> str:
        """What each sheet of paper says."""
        docket = next(iter(self.about.digests.values()), "")[:16]
        return self.phrases.say("page.foot", title=self.about.title, date=self.about.day.isoformat(), digest=docket)

    def style(self) -> str:
        style = COLOURS + PAGE_STYLE
        for mark, text in (("@FOOT@", self.foot()), ("@OF@", self.phrases.say("page.sheet-of"))):
            style = style.replace(mark, "".join(c for c in text if c.isprintable() and c not in '"\\<>&{}'))
        return style

    def sections(self) -> Sequence[str]:
        """The parts of the page, in order."""
        return (self.unfilled(), self.figures(), self.choices(), self.unmatched(), self.gone(), self.residents(),
                self.all_programmes(), self.made_of())

    def text(self) -> str:
        """The whole page."""
        inside = "\n".join(self.sections())
        return document(lang(self.phrases), f"{html.escape(self.about.title)}, {self.about.day.isoformat()}", self.style(),
                        f"{self.head()}\n<main>\n{inside}\n</main>")
