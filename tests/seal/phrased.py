"""What the office's page has to show in a language, by its file of phrases: as it is opened, and of a receipt."""
from __future__ import annotations

import re
from html.parser import HTMLParser
from typing import Any, Callable, List, Sequence

from derivation import CHANGED, RANKS, Pair, Roots as Published, Shown, Wrong, compared_fault, pair_of, shown_by
from residency.office.phrases import VALUE, Phrases
from residency.office.tree import Roots

# By a cause the name of its phrase, where it is another one.
CAUSES = {"root row": "root-row", "opening row": "opening-row", "cut": "missing", "not listed": "not-listed", "real name": "real-name"}
REASONS = {"unranked": "unranked", "matched": "matched-here"}


def opened(said: Phrases, title: str, day: str, roots: Roots) -> List[str]:
    """Each text of the page, with its language before them."""
    there = [("lists", roots.lists), *([("result", roots.result)] if roots.result else [])]
    say = {key[6:]: text for key, text in said.texts.items() if key.startswith("check.")}
    digits = [text for word, root in there for text in (said.say(f"check.root-of-{word}", count=roots.count), root)]
    told = f"{say['given']} {say['tells-result' if roots.result else 'tells-lists']} {say['private']}"
    rest = [say[key] for key in ("compare", "receipt", "file", "text", "other", "both", "button", "shows", "nothing-yet", "no-script")]
    return [said.language, said.say("check.title", title=title), say["heading"], f"{title}. {day}.", told, say["published"], *digits, *rest]


class Texts(HTMLParser):
    """The texts of a page that a reader sees, and its language."""

    def __init__(self) -> None:
        super().__init__()
        self.found: List[str] = []
        self.is_code = False

    def handle_starttag(self, tag: str, attrs: Any) -> None:
        self.is_code = tag in ("style", "script")
        self.found += [dict(attrs)["lang"]] if tag == "html" else []

    def handle_endtag(self, tag: str) -> None:
        self.is_code = False

    def handle_data(self, data: str) -> None:
        self.found += [data.strip()] if data.strip() and not self.is_code else []


def texts_of(page: str) -> List[str]:
    texts = Texts()
    texts.feed(page)
    return texts.found


def left_of(other: Phrases, page: str) -> List[str]:
    """What stands in a page, its code too, of this other language's phrases for the page: each part of some words."""
    parts = {part.strip(" .,:") for key, text in other.texts.items() if key.startswith(("check.", "checked.")) for part in re.split(VALUE.pattern, text) if part}
    code = re.sub(r"^ *//.*$", "", page, flags=re.M)
    return sorted(part for part in parts if " " in part and part.isascii() and part in code)


def sayer(said: Phrases) -> Callable[..., str]:
    """Says a phrase of what is shown of a receipt."""
    return lambda key, **values: said.say(f"checked.{key}", **values)


def good(shown: Shown, said: Phrases) -> List[object]:
    """As `by_page` of what is shown, in this language."""
    say = sayer(said)
    who = ("resident" if shown.side == "R" else "programme") + "-gone" * shown.is_gone
    name, one = shown.real
    real = [f"P {say('real', real=f'{name} ({one})' if one else name, name=shown.name)}"] if name else []
    told: List[object] = ["good", f"H3 {say('holds')}", *real, f"P {say(who, name=shown.name, places=shown.quota)}", f"H3 {say('list')}",
                          shown.listed or f"P {say('nobody')}", f"P {say('compare')}"]
    own = said.ordinal(shown.listed.index(shown.where) + 1) if shown.where else ""
    if shown.has_result and shown.side == "P":
        result = say("filled", count=len(shown.filled), quota=shown.quota, names=", ".join(shown.filled)) if shown.filled else say("none-filled", quota=shown.quota)
    else:
        result = say("matched", programme=shown.where, choice=own, count=len(shown.listed)) if shown.where else say("unmatched")
    told += [f"H3 {say('result')}", f"P {result}"] if shown.has_result else []
    rows = [said.say("letter.row", programme=row[1], said=reason(row, shown, own, said)) for row in shown.reasons]
    return told + ([f"H3 {say('why')}", rows] if rows else [])


def reason(row: Sequence[Any], shown: Shown, own: str, said: Phrases) -> str:
    say, (_, _, choice, answer, rank, last, quota) = sayer(said), row
    if answer == "withdrawn":
        return say("you-withdrew" if shown.is_gone else "it-withdrew")
    if answer == "better":
        return say("better", choice=said.ordinal(choice), own=own, programme=shown.where)
    if answer != "full" or not quota:
        return say(REASONS.get(answer, "no-places"))
    return say("one-place" if quota == 1 else "places", rank=said.ordinal(rank), last=said.ordinal(last), quota=quota)


def fault(wrong: Wrong, said: Phrases) -> List[str]:
    """As `by_page` of what is wrong, in this language."""
    kind = "changed" if wrong.cause in CHANGED else "wrong"
    why = said.say(f"checked.{kind}.{CAUSES.get(wrong.cause, wrong.cause)}")
    return ["changed" if kind == "changed" else "bad", f"H3 {said.say(f'checked.{kind}')}", f"P {said.say('checked.row', row=wrong.row, why=why)}",
            f"P {said.say(f'checked.{kind}-next')}"]


def nothing(said: Phrases, key: str) -> List[str]:
    """What is shown where there is no receipt."""
    return ["bad", f"H3 {said.say(f'checked.{key}')}", f"P {said.say(f'checked.{key}-next')}"]


def sentence(pair: Pair, said: Phrases) -> str:
    """What a resident's and a programme's receipts say together."""
    say, kind = sayer(said), pair.what.partition(".")[0]
    values = {key: said.ordinal(value) if key in RANKS and isinstance(value, int) else value for key, value in pair.values.items()}
    values["answer"] = say(f"word.{pair.values['answer']}") if "answer" in values else ""
    return say(kind, resident=values["resident"], programme=values["programme"], said=say(pair.what, **values))


def together(given: Sequence[bytes], roots: Published, said: Phrases) -> List[object]:
    """As `pair_by_page` of two receipts, in this language."""
    say, faults = sayer(said), [compared_fault(receipt, roots) for receipt in given]
    shown = [None if wrong else shown_by(receipt, roots) for wrong, receipt in zip(faults, given)]
    parts: List[List[Any]] = [list(fault(wrong, said)) if wrong else good(receipt, said) if receipt else [] for wrong, receipt in zip(faults, shown)]
    there = {receipt.side: receipt for receipt in shown if receipt}
    if any(faults):
        first: List[object] = [next(part[0] for part, wrong in zip(parts, faults) if wrong), f"H3 {say('pair.none')}", f"P {say('pair.fault')}"]
    elif len(there) < 2:
        first = ["bad", f"H3 {say('pair.none')}", f"P {say('pair.residents' if 'R' in there else 'pair.programmes')}"]
    else:
        pair = pair_of(there["R"], there["P"])
        kind = "agree" if pair.agree else "differ"
        first = ["good" if pair.agree else "bad", f"H3 {say(f'pair.{kind}')}", f"P {sentence(pair, said)}", f"P {say(f'pair.{kind}-next')}"]
    return [first, f"H3 {say('pair.first')}", parts[0], f"H3 {say('pair.second')}", parts[1]]


# Of each language words that the others don't have, by which a sentence is known to be in it.
KNOWN = {
    "de": "und die der das nicht ein eine einen einer einem hat ist sind bei auf laut dort sie ihre ihr wer beide beiden zu den dem steht keine aber oder hier noch warum für diese quittung platz besetzt",
    "en": "the and of is it its that whom has have one both receipt receipts file list your you does not neither here with there yet why by had",
    "es": "el los las y que su sus tiene según pero por con ninguno dos lo se al para no del recibo archivo una persona usted aquí plazas está vacía",
    "fr": "le les et du au une est sur dans chez selon mais pas qui celui deux des ce ne vous votre reçu fichier n’a n’est il ici liste d’un ou pourquoi s’est contredisent",
    "pl": "nie na jest są ma oba obie według pokwitowanie pokwitowania osoba osoby tego się i w z to albo lub tu do proszę pokwitowań listy liczba miejsca korzeń dlaczego po co biuro brak miejsc",
}


def in_another(said: Phrases) -> List[str]:
    """The names of the page's phrases of several words that don't have more words of their language than of another one."""
    counts = {key: {language: sum(word in known.split() for word in re.findall(r"[\w’]+", VALUE.sub(" ", text).lower())) for language, known in KNOWN.items()}
              for key, text in said.texts.items() if key.startswith(("check.", "checked.")) and len(re.findall(r"\w+", VALUE.sub(" ", text))) > 1}
    return [key for key, count in counts.items() if max(count, key=lambda language: (count[language], language != said.language)) != said.language]
