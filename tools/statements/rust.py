"""Rattle's files of src/: the types, constants and traits that contracts name, and the contracts of calls."""
import re
from dataclasses import dataclass
from typing import Dict, Iterable, List, Set, Tuple

from .antt import Item, Missing, comment_above

WORDS = set("pub crate struct enum mut type const where Self bool char str u8 u16 u32 u64 usize i32 i64".split())


@dataclass
class Parts:
    """What a declaration has besides its text: its kind, its type parameters, the text that names its parts' types, an enum's
    variants, and the value that clauses see of a type with a model, or `hidden` where they see none."""

    kind: str
    generics: Set[str]
    types: str
    variants: Set[str]
    value: str = ""
    hidden: bool = False
    # The fact of this value that always holds, where a call without a condition says so.
    kept: str = ""


def bare(lines: Iterable[str]) -> str:
    """A declaration on one line, without comments and attributes."""
    kept = [it.strip() for it in lines if not it.strip().startswith(("//", "#["))]
    return re.sub(r",? \}", " }", re.sub(r"\s+", " ", " ".join(kept)))


def end_of(lines: List[str], at: int) -> int:
    """The line after the item that starts here."""
    while not re.match(r"\}", lines[at]) and not re.match(r"\S.*(;|\}|\{\})$", lines[at]):
        at += 1
    return at + 1


def uses_of(text: str) -> Dict[str, str]:
    """By name in the file its path."""
    found: Dict[str, str] = {}
    for where, names in re.findall(r"^(?:pub )?use ([\w:]+?)(?:::\{([^}]*)\})?;$", text, re.M):
        for name in [it.strip() for it in names.split(",") if it.strip()]:
            found[name] = f"{where}::{name}"
        if not names:
            found[where.split("::")[-1]] = where
    return found


def block(lines: List[str], pattern: str) -> Tuple[int, List[str]]:
    """Where the item that begins so stands, and the lines of its body."""
    for at, line in enumerate(lines):
        if re.match(pattern, line):
            return at, lines[at + 1:end_of(lines, at) - 1]
    return -1, []


def body_of(text: str) -> str:
    """What a declaration says after its name: what stands between its own brackets, or after its sign."""
    start = re.search(r"[{(=]", text)
    if not start:
        return text.strip(" ;")
    if start[0] == "=":
        return text[start.end():].strip(" ;")
    depth = 0
    for at in range(start.start(), len(text)):
        depth += (text[at] in "({") - (text[at] in ")}")
        if depth == 0:
            return text[start.end():at].strip(" ,")
    raise Missing(f"a bracket is left open in {text}")


def pieces(text: str) -> List[str]:
    """The parts of a list between brackets, split at its own commas."""
    found, depth = [""], 0
    for letter in text:
        depth += (letter in "(<[{") - (letter in ")>]}")
        if letter == "," and depth == 0:
            found.append("")
        else:
            found[-1] += letter
    return [it.strip() for it in found if it.strip()]


def always(lines: List[str], name: str) -> str:
    """What holds of every value of a type: a fact of the value alone, which some call that asks nothing ensures."""
    own = "\n".join(block(lines, rf"impl(?:<[^{{]*>)? {name}(?:<[^{{]*>)? \{{")[1])
    for method in re.findall(r"^    pub fn \w+\(&self\).*?^    \{", own, re.M | re.S):
        found = re.search(r"ensures(?: \w+)? \{ ([A-Z]\w+) self\.now \}", method)
        if found and "requires" not in method:
            return found[1]
    return ""


def read_source(path: str, lines: List[str]) -> Tuple[Dict[str, Item], Dict[str, Parts]]:
    """The declarations of a file, each with the value that clauses see, where its type has a model."""
    items: Dict[str, Item] = {}
    parts: Dict[str, Parts] = {}
    for at, line in enumerate(lines):
        head = re.match(r"(?:pub(?:\(\w+\))? )?(struct|enum|trait|const|type) (\w+)(<[^{;=(]*>)?", line)
        if head:
            kind, name, end = head[1], head[2], end_of(lines, at)
            text = bare(lines[at:end])
            body = body_of(text[len(head[0]):])
            part = Parts(kind, set(re.findall(r"(?:^|, |<)(\w+)", head[3] or "")), body, set())
            item = Item(path, name, at + 1, end, comment_above(lines, at, "///"), [])
            items[name], parts[name] = item, part
            if kind == "enum":
                part.variants = {re.match(r"\w+", it)[0] for it in pieces(body)}  # type: ignore[index]
                part.types = ", ".join(re.sub(r"^\w+", "", it) for it in pieces(body))
            if kind == "struct":
                item.has = set(re.findall(r"pub (\w+):", body))
                part.hidden = any(not it.startswith("pub ") for it in pieces(body))
            inside = block(lines, rf"impl(<.*>)? Model for {name}\b")[1]
            value = re.search(r"ghost Value = \{ (.*?) \};", "\n".join(inside), re.S)
            if value:
                part.value, part.types, part.hidden, item.has = value[1], "", False, set()
                part.kept = always(lines, name)
                kept = f", of which {part.kept} always holds" if part.kept else ""
                text = f"{re.split(r' [{]|[(]', text)[0]} {{ .. }}  // in clauses: {value[1]}{kept}"
            if kind == "const":
                part.types = ""
            fits = len(text) <= 116 or kind not in ("struct", "enum") or part.value
            *upper, last = pieces(body) or [""]
            item.text = [text] if fits else [f"{text.partition(' {')[0]} {{", *[f"    {it}," for it in upper], f"    {last} }}"]
    return items, parts


@dataclass
class Call:
    """A public function: its signature with its clauses, the names of its parameters, and by type parameter its bounds."""

    item: Item
    clauses: List[str]
    signature: str
    parameters: Set[str]
    bounds: Dict[str, List[str]]


def read_call(path: str, lines: List[str], name: str) -> Call:
    """The contract of a function."""
    at = next((at for at, line in enumerate(lines) if re.match(rf"pub fn {name}\b", line)), -1)
    if at < 0:
        raise Missing(f"{path} has no public function {name}")
    end = next((it for it in range(at, end_of(lines, at)) if lines[it].startswith("{")), at)
    first = next((it for it in range(at, end) if re.match(r"\s+(requires|ensures) ", lines[it])), end)
    text = [it for it in lines[at:end] if it.strip()]
    item = Item(path, name, at + 1, end, comment_above(lines, at, "///"), text)
    signature = bare(lines[at:first])
    contract = "\n".join(it for it in lines[first:end] if not it.strip().startswith("//"))
    clauses = [it.strip()[:-1] for it in re.split(r"^\s+(?:requires|ensures)(?: \w+)? \{", contract, flags=re.M)[1:]]
    if not clauses or not all(it.count("{") == it.count("}") for it in clauses):
        raise Missing(f"{path}: {name} has no contract that this tool reads")
    head = re.match(r"pub fn \w+(?:<(.*?)>)?\((.*?)\)(?: ->|$)", signature)
    if not head:
        raise Missing(f"{path}: {name} has a signature that this tool doesn't read")
    bounds: Dict[str, List[str]] = {it.partition(":")[0]: [] for it in pieces(head[1] or "")}
    for it, of in re.findall(r"\b([A-Z]\w*): ([A-Z][\w +]*)", f"{head[1]} {signature.partition(' where ')[2]}"):
        bounds[it] = of.strip().split(" + ")
    parameters = {it.partition(":")[0] for it in pieces(head[2])}
    return Call(item, clauses, signature, parameters | {"result"}, bounds)
