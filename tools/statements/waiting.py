"""What is promised of waiting: the tokens and ranks of a run, and the contracts of the calls that take and give them."""
import re
import textwrap
from typing import Dict, List

from .antt import Item, Missing, Walk, comment_above, tree
from .naming import WIDTH, packed as filled
from .repo import File, Repo
from .rust import bare, body_of, end_of, pieces

# By their files the tokens and ranks, and the calls of each type. A call without a type stands alone.
TOKENS: Dict[str, List[str]] = {
    "desk_scheduler/src/workers.rt": ["Looking", "Holding", "Resting", "Crew", "Workers"],
    "desk_scheduler/src/shift.rt": ["Hand"],
    "desk_scheduler/src/ranks.rt": ["Ranks"],
    "match_pool/src/locks.rt": ["DeskRank", "InnerRank", "DeskGuard", "InnerGuard", "HeldPart",
                                "Unheard"],
}
CALLS: Dict[str, List[str]] = {
    "desk_scheduler/src/shift.rt": ["Shift.begins", "Shift.let_go", "Shift.rests", "Shift.wakes"],
    "desk_scheduler/src/ranks.rt": ["Ranks.of_thread"],
    "match_pool/src/locks.rt": ["ranks_of", "DeskLock.lock", "DeskGuard.give_back", "InnerLock.lock", "InnerRank.give_back",
                                "InnerGuard.rest", "News.wake_all"],
    "match_pool/src/worker.rt": ["Worker.work"],
}


def token(file: File, name: str) -> Item:
    """A token's type: all of its fields, with the facts that hold of each of its values."""
    at = next((at for at, it in enumerate(file.lines) if re.match(rf"(?:pub(?:\(crate\))? )?struct {name}\b", it)), -1)
    if at < 0:
        raise Missing(f"{file.path} has no token {name}")
    end = end_of(file.lines, at)
    item = Item(file.path, name, at + 1, end, comment_above(file.lines, at, "///"), file.lines[at:end])
    parts = pieces(body_of(bare(item.text)))
    fields = {it.split(":")[0].split()[-1] for it in parts}
    for fact in re.findall(r"ghost \w+: \{ (.*) \}", "\n".join(parts)):
        Walk(file, item).term(tree(fact), fields)
    for path in re.findall(r"\b[A-Z]\w+", "\n".join(it for it in parts if not it.startswith("ghost "))):
        if file.uses.get(path, "").startswith("std::"):
            item.note(file.repo.rust(file, path))
    return item


def call(file: File, word: str) -> Item:
    """A call of a type, or one that stands alone: its signature and its clauses."""
    owner, _, name = word.rpartition(".")
    inside, head = not owner, ""
    for at, line in enumerate(file.lines):
        if line.startswith("impl"):
            joined = " ".join(file.lines[at:at + 8])
            inside = re.match(rf"impl(?:<[^{{]*?>)? {owner}\b", joined) is not None
            head = joined[:joined.index(" {") + 2] if inside and owner else ""
        if inside and re.match(rf"\s*pub(?:\(crate\))? fn {name}\b", line):
            break
    else:
        raise Missing(f"{file.path} has no call {word}")
    end = next(it for it in range(at, len(file.lines)) if file.lines[it].endswith("{"))
    text = [*file.lines[at:end], *([file.lines[end][:-2]] if file.lines[end].strip() != "{" else [])]
    item = Item(file.path, word, at + 1, end + 1, comment_above(file.lines, at, "///"), text)
    names = set(re.findall(r"(\w+): ", "\n".join(text))) | {"self", "result"}
    for clause in re.split(r"^\s+(?:requires|ensures)(?: \w+)? \{", "\n".join(text), flags=re.M)[1:]:
        Walk(file, item).term(tree(clause.strip()[:-1]), names)
    head = re.sub(r",? >", ">", re.sub(r"< ", "<", re.sub(r" +", " ", head)))
    if len(head) > WIDTH:
        generics, sign, owner = head[:-2].rpartition("> ")
        heads = [generics + sign.strip(), f"    {owner} {{"]
    else:
        heads = [head]
    lines = [*wrapped(item.sentence), *filled(text)]
    item.text = [*heads, *lines, "}"] if head else lines
    return item


def promises(repo: Repo) -> List[Item]:
    found: List[Item] = []
    for path in dict.fromkeys([*TOKENS, *CALLS]):
        file = repo.file(path)
        if not file:
            raise Missing(f"{path} isn't there")
        found += [token(file, it) for it in TOKENS.get(path, [])]
        found += [call(file, it) for it in CALLS.get(path, [])]
    return found


def meanings(top: str) -> str:
    """The names that the promises use besides, each with its meaning."""
    with open(f"{top}/tools/statements/waiting.txt", encoding="utf-8") as file:
        rows = [line.partition(" | ") for line in file.read().strip().split("\n\n")[1].split("\n")]
    return f"Besides, these promises name types. {' '.join(f'`{name}`: {meaning}.' for name, _, meaning in rows)}"


def wrapped(sentence: List[str]) -> List[str]:
    """A comment in lines of at most 100 letters."""
    words = " ".join(line.strip()[len("/// "):] for line in sentence)
    indent = sentence[0][:len(sentence[0]) - len(sentence[0].lstrip())] if sentence else ""
    return textwrap.wrap(words, WIDTH, initial_indent=f"{indent}/// ", subsequent_indent=f"{indent}/// ")


def packed(text: List[str]) -> List[str]:
    """A type of several lines, with as many fields on a line as it has room for."""
    if len(text) < 3:
        return text
    out = [text[0]]
    for field in [it.strip() for it in text[1:-1]]:
        out = [*out[:-1], f"{out[-1]} {field}"] if len(out[-1]) + len(field) + 3 <= WIDTH else [*out, f"    {field}"]
    return [*out[:-1], f"{out[-1].rstrip(',')} }}"]


def shown(found: List[Item]) -> List[str]:
    """The tokens of each file, and then the calls of its types."""
    out: List[str] = ["```"]
    for path in dict.fromkeys(it.file for it in found):
        out.append(f"-- crates/{path}")
        here, head = [it for it in found if it.file == path], ""
        for it in (item for item in here if item.name in TOKENS.get(path, [])):
            out += [*wrapped(it.sentence), *packed(it.text)]
        for it in (item for item in here if item.name in CALLS.get(path, [])):
            out = [*out[:-1], *it.text[1:]] if it.text[0] == head else [*out, *it.text]
            head = it.text[0] if it.text[-1] == "}" else ""
    return [*out, "```"]
