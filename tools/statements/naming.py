"""How the page writes a name: the crate before a name that two crates share, or the file before one that two files of a crate share.

Long lines are broken, and the prover's words before a definition are left out."""
import re
from collections import defaultdict
from typing import Dict, Iterable, List, Set, Tuple

from .antt import Item, Missing, Ref
from .repo import Repo

# No line of code on the page is longer.
WIDTH = 100
# How many blanks are between equations that stand side by side.
GAP = 3
WORD = re.compile(r"(?<![\w.:])([A-Za-z_]\w*)(\.[A-Za-z_]\w*)?(?!\w*::)")
# What is there for the prover, at the beginning of a line of specs/.
PROVERS = re.compile(r"^( *)(?:(?:abbrev|unfoldable|pub) )+")


def crate_of(ref: Ref) -> str:
    return ref[0].split("/")[0]


def hidden(repo: Repo, items: List[Item]) -> Set[Ref]:
    """The definitions that a file calls otherwise, because their name means something else in it."""
    code: Dict[str, str] = defaultdict(str)
    for item in items:
        code[item.file] += re.sub(r"--.*", "", "\n".join(item.text)) + "\n"
    found: Set[Ref] = set()
    for item in items:
        file = repo.file(item.file)
        for ref in item.refs if file else []:
            assert file is not None
            own = ref[0] == item.file or any(name == ref[1] for _, name in file.imports.get(ref[1], []))
            is_rust = "/" not in ref[0] or ref[0].endswith(".rt")
            if not own and not is_rust and re.search(rf"(?<![\w.:]){re.escape(ref[1])}(?!\w)", code[item.file]):
                found.add(ref)
    return found


def called(repo: Repo, refs: Iterable[Ref], items: Iterable[Item]) -> Dict[Ref, str]:
    """What the page calls the definitions whose own name is not enough. A type of Rust and its value may share a name."""
    crates: Dict[str, Set[str]] = defaultdict(set)
    files: Dict[Tuple[str, str, str], Set[str]] = defaultdict(set)
    known = list(refs)
    for ref in known:
        crates[ref[1]].add(crate_of(ref))
        files[(crate_of(ref), ref[1], ref[0][-2:])].add(ref[0])
    several = {ref for ref in hidden(repo, list(items)) if len({it[0] for it in known if it[1] == ref[1]}) == 1}
    found = {ref: f"{crate_of(ref)}::{ref[1]}" for ref in known if len(crates[ref[1]]) > 1 or ref in several}
    twice = [ref for ref in known if len(files[(crate_of(ref), ref[1], ref[0][-2:])]) > 1]
    return {**found, **{ref: f"{re.split(r'[/.]', ref[0])[-2]}::{ref[1]}" for ref in twice}}


class Names:
    """What the names in a definition's file are called on the page."""

    def __init__(self, repo: Repo, items: Dict[Ref, Item], calls: List[Item]) -> None:
        self.repo, self.known = repo, called(repo, items, [*items.values(), *calls])
        # Whether two short facts or equations stand on a line.
        self.pairs_facts = True

    def written(self, ref: Ref) -> str:
        return self.known.get(ref, ref[1])

    def of(self, item: Item, word: str) -> str:
        """A word of a definition as the page has it."""
        if word == item.name:
            return self.written((item.file, word))
        file = self.repo.file(item.file)
        assert file is not None
        if word in file.constructors or any(where.endswith(".TheVariants") for where, _ in file.imports.get(word, [])):
            return word
        scratch = Item(item.file, item.name, 0, 0, [], [])
        try:
            ref, _ = file.find(scratch, word, "")
        except (Missing, KeyError):
            return word
        if ref is None or ref not in item.refs:
            return word
        if "/" not in ref[0]:
            return ref[1] if re.fullmatch(r"\w+", ref[1]) else word
        return self.written(ref) if "." not in ref[1] else word

    def of_module(self, item: Item, word: str, member: str) -> str:
        """A name and what stands behind its dot: of a module that the file calls so, the name that is meant."""
        file = self.repo.file(item.file)
        targets = file.imports.get(word, []) if file else []
        if file is None or [name for _, name in targets] != [""]:
            return f"{self.of(item, word)}.{member}"
        where = targets[0][0]
        if where.endswith(".TheVariants"):
            kind = where.split(".")[-2]
            named = next((it for ref, it in self.known.items() if ref[1] == kind and crate_of(ref) == where.split(".")[1]), kind)
            return f"{named if member[0].isupper() else word}.{member}"
        try:
            ref, _ = file.find(Item(item.file, item.name, 0, 0, [], []), word, member)
        except (Missing, KeyError):
            return f"{word}.{member}"
        return self.written(ref) if ref and "/" in ref[0] else member

    def line(self, item: Item, line: str) -> str:
        """A line of a definition with each name as the page has it; a field that is declared or given keeps its own."""
        code, mark, comment = line.partition("  // in clauses: ")

        def named(found: "re.Match[str]") -> str:
            before, after = code[:found.start()], code[found.end():]
            is_field = not found[2] and re.match(r" =[ \n]|: | : ", after) and found[0] != item.name
            if is_field or before.rstrip().endswith("fn") or before.count('"') % 2:
                return found[0]
            return self.of_module(item, found[1], found[2][1:]) if found[2] else self.of(item, found[0])

        return WORD.sub(named, code) + mark + WORD.sub(lambda it: self.of(item, it[0]), comment)

    def text(self, item: Item) -> List[str]:
        """A definition's lines as the page has them."""
        lines = [self.line(item, it) for it in item.text]
        if item.file.endswith(".antt"):
            lines = [PROVERS.sub(r"\1", it) for it in lines]
        lines = side_by_side(packed([part for line in lines for part in broken(line)]), 2 if self.pairs_facts else 3)
        return paired(lines) if self.pairs_facts and lines[0].startswith("record ") else lines

    def on_one_line(self, lines: List[str]) -> List[str]:
        """A signature with its only equation, if both are short."""
        both = (" " * GAP).join(lines)
        is_short = self.pairs_facts and len(lines) == 2 and re.match(r"[\w:]+ .* = ", lines[1]) and len(both) <= WIDTH
        return [both] if is_short else lines

    def sentence(self, item: Item) -> List[str]:
        """The comment above a definition, without what it says of the file's own names for what other files define."""
        file = self.repo.file(item.file)
        assert file is not None
        others = {word for word, targets in file.imports.items() if any(name and name != word for _, name in targets)}
        (line, *_), text = item.sentence or [""], wrapped_text(item.sentence)
        mark = re.match(r"\s*(?:///?|--) ?", line)
        parts = re.split(r"(?<=\.) (?=[A-Z`])|; ", text)
        kept = [it for it in parts if not others & set(re.findall(r"`(\w+)`", it))]
        told = text if len(kept) == len(parts) else text[:text.index(kept[-1]) + len(kept[-1])] if kept else text
        return broken(f"{mark[0]}{told}") if mark else []


def wrapped_text(comment: List[str]) -> str:
    """A comment's words on one line."""
    marks = [re.match(r"\s*(?:///?|--) ?", it) for it in comment]
    return " ".join(line[len(mark[0]):].strip() for line, mark in zip(comment, marks) if mark)


def goes_on(line: str, margin: int) -> bool:
    """Whether a line belongs to the one above: no equation, field, branch or clause begins there."""
    begins = r"(?:pub |requires |ensures |ghost |fn |const |type |impl |else |[\w:']+ : |// )"
    deeper = len(line) - len(line.lstrip()) > margin
    return (deeper or line.lstrip()[:1] in ("}", ")")) and not re.match(rf"\s*{begins}", line)


def packed(lines: List[str]) -> List[str]:
    """The lines of a definition or a contract, where what goes on stands on the line above as far as that has room."""
    margin = len(lines[0]) - len(lines[0].lstrip())
    out: List[str] = []
    for line in lines:
        above = out[-1] if out else ""
        is_inside = above.endswith("(") or line.lstrip().startswith(")")
        more = (above.rstrip(",") if line.startswith(")") else above) + line.strip() if is_inside else f"{above} {line.strip()}"
        if out and goes_on(line, margin) and len(more) <= WIDTH and not above.startswith("impl ") and not above.endswith("};"):
            out[-1] = more
        else:
            out.append(line)
    return out


def in_columns(lines: List[str]) -> List[str]:
    """Short lines side by side, as many as there is room for."""
    most, indent = max(map(len, lines)), len(lines[0]) - len(lines[0].lstrip())
    count = max(1, (WIDTH + GAP) // (most + GAP))
    rows = [lines[at:at + count] for at in range(0, len(lines), count)]
    return [" " * indent + (" " * GAP).join(it.strip().ljust(most - indent) for it in row).rstrip() for row in rows]


def side_by_side(lines: List[str], least: int) -> List[str]:
    """The lines of a definition, of which short equations in a row stand side by side, if there are so many, and so do the fields of
    data; and a contract of one clause on a line."""
    if len(lines) == 2 and lines[0].endswith("()") and lines[1].lstrip().startswith("ensures"):
        return [f"{lines[0]} {lines[1].strip()}"]
    first = next((at for at, line in enumerate(lines) if at and line[0] != " " and " = " in line), len(lines))
    is_data = re.match(r"record [\w:]+ : Type 0 where$", lines[0]) is not None
    short, inside = (lines[1:], "  ") if is_data else (lines[first:], "")
    if len(short) < (2 if is_data else least) or not all(re.match(rf"{inside}\S", it) for it in short):
        return lines
    columns = in_columns(short)
    return [*lines[:len(lines) - len(short)], *(columns if len(columns) < len(short) else paired(short))]


def paired(lines: List[str]) -> List[str]:
    """The lines of a definition, of which two short facts or equations in a row stand on one."""
    out: List[str] = []
    is_open = False
    for at, line in enumerate(lines):
        is_fact = re.match(r"  \S|[\w:]+ .* = ", line) is not None and not re.match(r"   ", (lines + [""])[at + 1])
        more = f"{out[-1]}{' ' * GAP}{line.strip()}" if out else ""
        if is_fact and is_open and len(more) <= WIDTH:
            out[-1], is_open = more, False
        else:
            out.append(line)
            is_open = is_fact
    return out


def break_of(line: str, floor: int) -> int:
    """Where a line of code is broken: at the blank that the fewest brackets enclose, before a sign if there is one, as late as can be."""
    depth, best = 0, (0, 0, 0)
    for at, letter in enumerate(line[:WIDTH + 1]):
        depth += (letter in "({[") - (letter in ")}]")
        if letter == " " and at >= floor:
            before_sign = line[at + 1:at + 2] in "→×⊎∷/" or line[at + 1:at + 3] == "++"
            best = max(best, (-depth, int(before_sign), at)) if best[2] else (-depth, int(before_sign), at)
    return best[2]


def broken(line: str) -> List[str]:
    """A line in pieces that are no longer than the page is wide, each but the first further in: broken before a sign or a word."""
    pieces: List[str] = []
    mark = re.match(r"\s*(?:///?|--) ", line)
    indent = mark[0] if mark else " " * (len(line) - len(line.lstrip()) + 4)
    while len(line) > WIDTH:
        at = line.rfind(" ", len(indent) + 20, WIDTH + 1) if mark else break_of(line, len(indent) + 20)
        if at <= 0:
            break
        pieces.append(line[:at].rstrip())
        line = indent + line[at:].lstrip()
    return [*pieces, line]
