"""What README promises: each promise in a sentence, with the clauses of the statement that carry it, from promises.txt."""
import re
from typing import Callable, Dict, List, NamedTuple

from .antt import Item, Missing, Ref
from .repo import Repo

# The call that the statement begins with stands under this heading.
HEADINGS = {"law_match": "the-theorem"}


class Carrier(NamedTuple):
    """A call, those of its clauses that carry a promise, and the definitions by which they do."""

    call: str
    clauses: List[str]
    by: List[str]


class Promise(NamedTuple):
    """A sentence, and what carries it."""

    sentence: str
    carried: List[Carrier]


def promises(top: str) -> List[Promise]:
    with open(f"{top}/tools/statements/promises.txt", encoding="utf-8") as file:
        blocks = [it.split("\n") for it in file.read().strip().split("\n\n")[1:]]
    parts = [(first, [line.partition(" | ") for line in lines]) for first, *lines in blocks]
    return [Promise(first, [Carrier(it.split()[0], it.split()[1:], by.split()) for it, _, by in lines]) for first, lines in parts]


def link(call: str, page: str) -> str:
    return f"[`{call}`]({page}#{HEADINGS.get(call, call)})"


def readme(top: str) -> str:
    """The promises as README has them, each with links to its calls."""
    lines: List[str] = []
    for number, it in enumerate(promises(top), 1):
        calls = dict.fromkeys(carried.call for carried in it.carried)
        lines.append(f"{number}. {it.sentence} See {', '.join(link(call, 'docs/statement.md') for call in calls)}.")
    return "\n".join(lines)


def clause_of(item: Item, clause: str) -> str:
    """The clause of this name, or the one without a name that states this fact; nothing where there is none."""
    clauses = re.split(r"^\s+(?=(?:requires|ensures) )", "\n".join(item.text), flags=re.M)
    return next((it for it in clauses if re.match(rf"ensures (?:{clause} \{{|\{{ {clause}\b)", it)), "")


def below(repo: Repo, item: Item, clause: str) -> Dict[str, Ref]:
    """By its name, or by what the call's file calls it, each definition that a clause stands on."""
    file = repo.file(item.file)
    words = set(re.findall(r"\w+", clause))
    aliases = {name: word for word, targets in (file.imports if file else {}).items() for _, name in targets}
    found = {aliases.get(ref[1], ref[1]): ref for ref in item.refs if words & {ref[1], aliases.get(ref[1], ref[1])}}
    left, seen = list(found.values()), set(found.values())
    while left:
        ref = left.pop()
        for it in repo.item(ref).refs if "/" in ref[0] else []:
            found.setdefault(it[1], it)
            left += [it] if it not in seen else []
            seen.add(it)
    return found


def carrier(repo: Repo, it: Carrier, known: Dict[str, Item], written: Callable[[Ref], str]) -> str:
    """The clauses that carry a promise, and by which definitions. Missing where they don't."""
    names: List[str] = []
    by: Dict[str, Ref] = {}
    for clause in it.clauses:
        text = clause_of(known[it.call], clause) if it.call in known else ""
        if not text:
            raise Missing(f"promises.txt: {it.call} has no clause {clause}")
        by = below(repo, known[it.call], text)
        if set(it.by) - set(by):
            raise Missing(f"promises.txt: {clause} of {it.call} doesn't stand on {', '.join(sorted(set(it.by) - set(by)))}")
        names.append(clause if text.startswith(f"ensures {clause} ") else written(by[clause]))
    return f"{link(it.call, '')}: {', '.join(f'`{name}`' for name in names)} | {', '.join(f'`{written(by[name])}`' for name in it.by)}"


def table(top: str, repo: Repo, calls: List[Item], written: Callable[[Ref], str]) -> str:
    """The promises as the statement has them, with what carries each."""
    known = {it.name: it for it in calls}
    rows = [f"| {promise.sentence if it is promise.carried[0] else ''} | {carrier(repo, it, known, written)} |" for promise in promises(top) for it in promise.carried]
    return "\n".join(["| README promises | Clauses that carry it | By these definitions |", "|---|---|---|", *rows])
