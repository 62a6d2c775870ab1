"""Says by what a check printed which of the edits that stand in it as siblings are refused."""
from __future__ import annotations

import re
from typing import Dict, List, NamedTuple, Optional, Tuple

from siblings import Planted, Sibling

LINE = re.compile(r"^fn (\S+): (.*)$", re.M)
ERROR = re.compile(r"^(?:\./)?(proofs/\S+?):\d+:\d+: error: ((?:.*)(?:\n  .*)*)", re.M)
GOAL = re.compile(r"^note: (?:\./)?(src/\S+?):(\d+):\d+: it is not proved that [^\n]*?\(`([^`]+)`\)", re.M)
COMPILES_NOT = re.compile(r"^(?:\./)?(src/\S+?):(\d+):\d+: error\[", re.M)
# A proof that names what isn't there says nothing of a contract.
NAMES = re.compile(r"has\s+no\s+field|is\s+not\s+in\s+scope|has\s+no\s+`|was\s+not\s+admitted")
# The prover's words for a check that looked at less than all.
LESS = re.compile(r"has not tried the goals of [^\n]*|antt ran out of [^\n]*|outgrew the memory limit[^\n]*|stopped at the step limit[^\n]*"
                  r"|the check was killed[^\n]*|rattle: no verdict[^\n]*")

# A check's words on a function that is proved: of one that is given to another, and of one that waits where the repository lets it.
PROVED = re.compile(r"proved(?: where its callers give what it asks)?(?:, may wait)?")

REFUSED, MISSED, UNTRIED = "refused", "not refused", "no verdict"


class Verdict(NamedTuple):
    kind: str
    why: str


def functions_of(said: str) -> List[Tuple[str, str]]:
    """Each function's path, and what the check says of it."""
    return [(path, "proved" if PROVED.fullmatch(what) else what) for path, what in LINE.findall(said)]


def lines_of(said: str) -> Dict[str, Tuple[str, str]]:
    """By the last step of its path each function's whole path, and what the check says of it."""
    return {path.rpartition("::")[2]: (path, what) for path, what in functions_of(said)}


def is_proved(said: str) -> bool:
    return bool(re.search(r"^logic=proved", said, re.M))


def last_of(said: str) -> str:
    return (said.strip().splitlines() or ["nothing was said"])[-1][:160]


def missing_in_check(said: str, planted: Planted) -> str:
    """Why a whole check says nothing of its edits, or no text."""
    if not re.search(r"^logic=(?:not-)?proved", said, re.M):
        return f"the check ended without a verdict: {last_of(said)}"
    less = LESS.search(said)
    if less:
        return f"the check looked at less than all: {less[0].replace('has not tried', 'left out')[:160]}"
    every = functions_of(said)
    if not every:
        return "the check names no function"
    own = set(planted.siblings)
    for path, what in every:
        if path.rpartition("::")[2] not in own and what != "proved":
            return f"{path} isn't proved beside them: {what[:120]}"
    return ""


def refusal(said: str, sibling: Sibling, what: str) -> str:
    """By what a sibling is refused: a goal that its own line or a note on its own lines names, or an error in its own proof folder."""
    goal = re.search(r"did not prove (`[^`]+`)", what)
    if goal:
        return f"{goal[1]} isn't proved"
    own = [text for path, text in ERROR.findall(said) if sibling.proof and path.startswith(f"{sibling.proof}/")]
    told = next((text for text in own if not NAMES.search(text)), "")
    if told:
        return " ".join(told.split())[:120]
    named = next((name for path, line, name in GOAL.findall(said) if path == sibling.path and int(line) in sibling.lines), "")
    return f"`{named}` isn't proved" if named else ""


def verdict_of(said: str, planted: Planted, name: str) -> Verdict:
    """What the check says of one sibling."""
    sibling, lines = planted.siblings[name], lines_of(said)
    if name not in lines:
        return Verdict(UNTRIED, "the check has no line of it")
    path, what = lines[name]
    if lines.get(sibling.of, ("", ""))[1] != "proved" and f"fn {path[:-len(name)]}{sibling.of}: proved" not in said:
        return Verdict(UNTRIED, f"the check has no line that {sibling.of} is proved")
    for other in planted.unchanged:
        same = planted.siblings[other]
        if (same.of, same.path) == (sibling.of, sibling.path) and lines.get(other, ("", ""))[1] != "proved":
            return Verdict(UNTRIED, f"the unchanged sibling of {sibling.of} isn't proved")
    if what == "proved":
        return Verdict(MISSED, "it is proved with this edit")
    why = refusal(said, sibling, what)
    return Verdict(REFUSED, why) if why else Verdict(MISSED, f"nothing but a name that is gone refuses it: {what[:120]}")


def judge(said: str, planted: Planted) -> Dict[str, Verdict]:
    """By an edit's name its verdict."""
    missing = missing_in_check(said, planted)
    return {edit.name: Verdict(UNTRIED, missing) if missing else verdict_of(said, planted, name) for name, edit in planted.edits.items()}


def broken(said: str, planted: Planted) -> "List[str]":
    """The edits whose siblings the compiler refuses, where it refused the crate before any proof."""
    if re.search(r"^logic=", said, re.M):
        return []
    places = [(path, int(line)) for path, line in COMPILES_NOT.findall(said)]
    return sorted({edit.name for name, edit in planted.edits.items()
                   if any(path == planted.siblings[name].path and line in planted.siblings[name].lines for path, line in places)})


ALONE = re.compile(r"^rt: (?:rt: )?must-fail (\S+?)/(\S+)\.edit: (.*)$", re.M)


def verdict_alone(said: str, name: str) -> Verdict:
    """What `rt must-fail` said of one edit."""
    told: Optional[str] = next((what for _, it, what in ALONE.findall(said) if it == name), None)
    if told is None:
        return Verdict(UNTRIED, last_of(said))
    if told.startswith("refused, as it must be (only because"):
        return Verdict(MISSED, "nothing but a name that is gone refuses it")
    if told.startswith("refused, as it must be (only by a limit"):
        return Verdict(UNTRIED, "the prover met a limit of its own, and gave no verdict")
    if told.startswith("refused, as it must be"):
        return Verdict(REFUSED, told.partition("be: ")[2][:120] or "the crate isn't proved")
    return Verdict(MISSED if told.startswith("NOT REFUSED") else UNTRIED, told[:200])
