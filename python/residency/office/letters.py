"""A letter for each resident: what the match gave, and the list that it was made from; as text, and as pages to print."""
import html
import re
import textwrap
from functools import lru_cache
from types import MappingProxyType
from typing import Any, Dict, Iterable, Iterator, List, Mapping, Optional, Sequence, Tuple, Union

from ..market import Market
from ..names import docket_names
from .faults import OfficeError
from .outcome import Became, Lists, Outcome, Standing, by_name, called
from .page import COLOURS, LETTERS_STYLE, About, bdi, document, lang
from .phrases import NEW_LINE, Phrases, languages, named
from .text import LINE_END, TEXTS, no_letter
from .tree import Roots

# Templates of an office: one text, or by a standing each one's, with one for all others.
Templates = Union[str, Mapping[str, str], None]
OTHERS, PROGRAMME = "letter", "programme"
# The rows of a letter: each one's number, the name in it, and what is said of that.
Rows = List[Tuple[int, str, str]]
FIELDS = ("day", "date", "title", "name", "id", "programme", "choice", "listed", "outcome", "list", "docket_name",
          "docket_sha256", "lists_root", "result_root", "sealed", *TEXTS)
# A hash without a salt, from which lists can be guessed: no letter of a sealed match has it.
UNSALTED = "docket_sha256"
# The files of all letters, to residents and to programmes.
LETTERS_PAGE, ROSTERS_PAGE = "letters.html", "rosters.html"
# How many letters a line of a letter has.
WIDTH = 72
FIELD = re.compile(r"\$(?:(\$)|(\w+)|\{(\w+)\})")
# What a sentence on a list that led to no place tells apart.
TOGETHER = (Became.FULL, Became.NO_PLACES, Became.NOT_RANKED, Became.IT_WITHDREW)


def fields_of(columns: Sequence[str]) -> List[str]:
    """The fields of the columns that are kept: `$email` for Email, in plain small letters, unlike one another and FIELDS."""
    made: List[str] = []
    for heading in columns:
        stem = re.sub("[-.]", "_", docket_names([heading], "column")[heading])
        stem = free = stem if stem[0].isalpha() else f"column_{stem}"
        count = 1
        while free in FIELDS or free in made:
            count += 1
            free = f"{stem}_{count}"
        made.append(free)
    return made


def checked_template(text: str, columns: Sequence[str] = (), at: str = "", is_sealed: bool = False) -> str:
    """A letter's template, with plain line ends; `columns` are those that are kept, and `at` is its file. OfficeError for one without a
    text, a `$` that names none of the fields, or in sealed letters the docket's hash, or a character that is no letter, but for tabs."""
    known = (*FIELDS, *fields_of(columns))
    lines = LINE_END.split(text)
    for number, line in enumerate(lines, 1):
        if letter := no_letter(line, "\t\u2028\u2029"):
            raise OfficeError("template.no-letter", 3, at, "template", number, letter=letter)
        for found in re.finditer(r"\$(?:(\$)|(\w+)|\{(\w+)\}|)", line):
            name = found.group(2) or found.group(3)
            if not found.group(1) and name not in known:
                raise OfficeError("template.field", 3, at, "template", number, text=found.group(0), fields=known)
            if is_sealed and name == UNSALTED:
                raise OfficeError("template.unsalted", 3, at, "template", number, text=UNSALTED)
    if not text.strip():
        raise OfficeError("template.empty", 3, at, "template")
    return "\n".join(lines)


def why_not(became: List[Became], phrases: Phrases) -> str:
    """Why a list led to no place, in one sentence."""
    counts = [(reason.key, count) for reason in TOGETHER for count in [became.count(reason)] if count]
    if len(counts) > 1:
        parts = phrases.together(phrases.say(f"letter.part.{key}", count=count) for key, count in counts)
        return phrases.say("letter.why", count=len(became), parts=parts)
    key, count = counts[0]
    return phrases.say(f"letter.{'only' if count == 1 else 'both'}.{key}") if count < 3 else phrases.say(f"letter.every.{key}", count=count)


def formed(template: str) -> str:
    """A checked template as a form that takes its fields by `%`."""
    return FIELD.sub(lambda found: "$" if found[1] else f"%({found[2] or found[3]})s", template.replace("%", "%%"))


class Letters:
    """The letters to the residents of one match. With a `column` of those that are kept each resident's is in the language that the
    column says."""

    # The file of all letters, how their phrases begin, and the kinds of their templates.
    page_name, said_by, kinds = LETTERS_PAGE, "letter", tuple(standing.key for standing in Standing)

    def __init__(self, market: Market, outcome: Outcome, about: About, template: Templates = None, order: str = "name",
                 column: str = "", texts: Mapping[str, str] = MappingProxyType({})) -> None:
        self.outcome, self.about, self.order, self.market, self.given = outcome, about, order, market, (market, outcome, about, template, order)
        self.own: Mapping[str, str] = {OTHERS: template} if isinstance(template, str) else template or {}
        self.texts = {name: str(texts.get(name, "")).replace(NEW_LINE, "\n") for name in TEXTS}
        self.phrases = {member.name: about.phrases for member in self.members()}
        if column:
            self.phrases.update(spoken(outcome, outcome.columns.index(column), about.phrases))
        spoken_in = list(dict.fromkeys([about.phrases, *self.phrases.values()]))
        self.templates = {(phrases.language, kind): self.template(phrases, kind) for phrases in spoken_in for kind in self.kinds}
        self.forms = {kind: formed(text) for kind, text in self.templates.items()}
        self.same = {phrases: self.same_fields(phrases) for phrases in spoken_in}
        self.became = {phrases: {became.key: phrases.say(f"letter.became.{became.key}") for became in Became} for phrases in spoken_in}
        self.row = lru_cache(1 << 14)(self.both_rows)
        self.kept = fields_of(outcome.columns)
        self.lists = Lists(market)

    def programmes(self) -> "ProgrammeLetters":
        """The letters to the programmes of the same match."""
        return ProgrammeLetters(*self.given, texts=self.texts)

    def members(self) -> Iterable[Any]:
        """Whom the letters are to."""
        return self.outcome.residents.values()

    def kind(self, member: Any) -> str:
        """Which template is for a member."""
        return str(member.standing.key)

    def own_of(self, kind: str) -> Optional[str]:
        """The office's own template of a kind."""
        return self.own.get(kind, self.own.get(OTHERS))

    def template(self, phrases: Phrases, kind: str) -> str:
        """The template of the letters of a kind in a language, checked."""
        said = phrases.say("letter.docket-name", name="\0").replace("$", "$$").replace("\0", "$docket_name")
        has = {"sealed": self.about.roots is not None, **{name: bool(text) for name, text in self.texts.items()}}
        fields = ("sender", "day", "name", "outcome", "list", "", "sealed", "appeals", "signature")
        made = "\n\n".join(f"${name}" if name else said for name in fields if has.get(name, True))
        own = self.own_of(kind)
        return checked_template(f"{made}\n" if own is None else own, self.outcome.columns, is_sealed=self.about.roots is not None)

    def same_fields(self, phrases: Phrases) -> Dict[str, str]:
        """What the fields of the template stand for that are the same in all letters of a language."""
        roots = self.about.roots
        return {**self.texts, "day": phrases.day(self.about.day), "date": self.about.day.isoformat(), "title": self.about.title,
                UNSALTED: self.about.digests.get("docket.csv", ""), "lists_root": roots.lists if roots else "",
                "result_root": roots.result if roots else "", "sealed": how_to_check(roots, phrases)}

    def fields(self, member: Any) -> Dict[str, str]:
        """What the fields of the template stand for, without those that a text and a page write differently."""
        phrases = self.phrases[member.name]
        return {**self.same[phrases], "name": member.name, "id": member.id, "listed": str(member.ranked), "docket_name": member.docket_name,
                **self.own_fields(member, phrases)}

    def own_fields(self, member: Any, phrases: Phrases) -> Dict[str, str]:
        """Those of a resident alone."""
        return {"programme": member.programme or "", "choice": phrases.ordinal(member.choice) if member.choice else "", **dict(zip(self.kept, member.kept))}

    def letter(self, member: Any, rows: Optional[Rows] = None) -> str:
        """A letter as text, with these rows where they are given."""
        outcome = "\n".join(line if len(line) <= WIDTH and line.isprintable() and line == line.strip() else
                            textwrap.fill(line, WIDTH, break_long_words=False, break_on_hyphens=False) for line in self.said(member))
        rows, phrases = self.rows(member) if rows is None else rows, self.phrases[member.name]
        width = max((len(str(number)) for number, _, _ in rows), default=0)
        lines = [f"  {number:>{width}}. {self.row(phrases, name, said)[0]}" for number, name, said in rows]
        listed = "\n".join([phrases.say(f"{self.said_by}.list"), "", *lines]) if rows else phrases.say(f"{self.said_by}.list-empty")
        return self.forms[phrases.language, self.kind(member)] % {**self.fields(member), "outcome": outcome, "list": listed}

    def both_rows(self, phrases: Phrases, name: str, said: str) -> Tuple[str, str]:
        """A row as text, and as a part of the page."""
        key, shown = f"{self.said_by}.row", bdi(name)
        return (phrases.say(key, programme=name, name=name, said=said),
                phrases.html(key, programme=shown, name=shown, said=html.escape(said, False)) + "</li>")

    def rows(self, member: Any) -> Rows:
        """The list as it was matched, with what became of each."""
        said = self.became[self.phrases[member.name]]
        return [(choice, programme, said[became.key]) for choice, (programme, became) in enumerate(self.lists.became(member), 1)]

    def said(self, member: Any) -> List[str]:
        """What the match gave, as lines."""
        phrases = self.phrases[member.name]
        if member.standing is Standing.MATCHED:
            values = {"programme": member.programme, "choice": phrases.ordinal(member.choice or 0), "count": member.ranked}
            return [phrases.filled(line, values) for line in phrases.texts["letter.matched"].split(NEW_LINE)]
        if member.standing in (Standing.WITHDRAWN, Standing.RANKED_NOBODY):
            return [phrases.say(f"letter.{member.standing.key}")]
        return [phrases.say("letter.unmatched", why=why_not([became for _, became in self.lists.became(member)], phrases))]

    def article(self, member: Any, form: str, sealed: str) -> str:
        """A letter as a part of the page."""
        phrases = self.phrases[member.name]
        fields = {name: html.escape(value) for name, value in self.fields(member).items()}
        fields.update(name=bdi(member.name), outcome=html.escape(" ".join(self.said(member))), sealed=sealed)
        rows = "\n".join((f'<li value="{number}">' if number != count else "<li>") + self.row(phrases, name, said)[1]
                         for count, (number, name, said) in enumerate(self.rows(member), 1))
        fields["list"] = (f"</p>\n<p>{phrases.html(f'{self.said_by}.list')}</p>\n<ol>\n{rows}\n</ol>\n<p>" if rows
                          else phrases.html(f"{self.said_by}.list-empty"))
        spoken = "" if phrases is self.about.phrases or self.own_of(self.kind(member)) is not None else lang(phrases)
        begin = f'<article id="{member.docket_name}"{spoken} aria-label="{html.escape(member.name)}">'
        return f'{begin}\n{EMPTY.sub("", form % fields)}\n</article>'

    def page(self) -> str:
        """All letters in one file, each on a sheet of its own when it is printed."""
        return "".join(self.parts())

    def parts(self) -> Iterator[str]:
        """The parts of the page, in order."""
        phrases, forms = self.about.phrases, {}
        for kind, template in self.templates.items():
            parts = re.split(r"\n(?:[ \t]*\n)+", template.strip("\n"))
            forms[kind] = formed("\n".join(f"<p>{html.escape(part)}</p>" for part in parts if part.strip()))
        sealed = {their_phrases: html.escape(how_to_check(self.about.roots, their_phrases, None, "")) for their_phrases in self.same}
        who = by_name(self.members(), phrases, self.order)
        title = phrases.html("letters.title", title=html.escape(self.about.title), date=self.about.day.isoformat())
        # The words of a template may be in any language.
        language = "" if any(self.own_of(kind) is not None for kind in self.kinds) else lang(phrases)
        begin, _, end = document(language, title, COLOURS + LETTERS_STYLE, f"<header>\n<h1>{html.escape(self.about.title)}</h1>\n<p>"
                              f"{phrases.html('letters.told', count=len(who))}</p>\n</header>\n<main>\0</main>").rpartition("\0")
        yield begin + "\n" * (not who)
        for member in who:
            spoken = self.phrases[member.name]
            yield "\n" + self.article(member, forms[spoken.language, self.kind(member)], sealed[spoken])
        yield "\n" + end


class ProgrammeLetters(Letters):
    """The letters to the programmes of one match: each one's residents with their ranks, and how many of its places stay unfilled."""

    page_name, said_by, kinds = ROSTERS_PAGE, PROGRAMME, (PROGRAMME,)

    def members(self) -> Iterable[Any]:
        return self.outcome.programmes.values()

    def kind(self, member: Any) -> str:
        return PROGRAMME

    def own_of(self, kind: str) -> Optional[str]:
        return self.own.get(kind)

    def own_fields(self, member: Any, phrases: Phrases) -> Dict[str, str]:
        return dict.fromkeys(("programme", "choice", *self.kept), "")

    def rows(self, member: Any) -> Rows:
        ranks = {name: rank for rank, name in enumerate(self.market.programme_lists.get(member.name, ()), 1)}
        return [(ranks[name], called(self.outcome.residents[name]), "") for name in member.residents]

    def said(self, member: Any) -> List[str]:
        phrases = self.phrases[member.name]
        if member.withdrawn or not member.places:
            return [phrases.say("programme.withdrawn" if member.withdrawn else "programme.no-places")]
        return [phrases.say("programme.filled", filled=member.filled, places=member.places), *([phrases.say("programme.unfilled", free=member.unfilled)] * bool(member.unfilled))]


def spoken(outcome: Outcome, column: int, otherwise: Phrases) -> Dict[str, Phrases]:
    """By each resident's name the phrases of the language that this column says. OfficeError for a word that is no language."""
    known = {word.casefold(): named(language) for language in languages() for word in (language, named(language).called)}
    known.update({"": otherwise, otherwise.language.casefold(): otherwise, otherwise.called.casefold(): otherwise})
    for resident in outcome.residents.values():
        if resident.kept[column].strip().casefold() not in known:
            raise OfficeError("language.unknown", 3, "", "residents", text=resident.kept[column], name=resident.name, languages=sorted(known)[1:])
    return {resident.name: known[resident.kept[column].strip().casefold()] for resident in outcome.residents.values()}


def how_to_check(roots: Optional[Roots], phrases: Phrases, width: Optional[int] = WIDTH, before: str = "  ") -> str:
    """What a letter of a sealed match says of it: the roots, and how to check, in three lines. A page breaks lines by itself."""
    if roots is None:
        return ""
    begin, *lines = [phrases.say("letter.sealed", count=roots.count), *phrases.say("letter.check").split(NEW_LINE)]
    return "\n".join([textwrap.fill(begin, width or len(begin)), "", f"{before}{roots.lists}", f"{before}{roots.result}", "", *lines])


# A paragraph of which a field without a text is all.
EMPTY = re.compile(r"<p>\s*</p>\n?")
