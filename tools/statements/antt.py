"""antt, the language of contracts: the names that a term uses, and the files of specs/."""
import re
from dataclasses import dataclass, field
from typing import Dict, List, Optional, Protocol, Set, Tuple, Union

# What antt has without an import; the page explains it.
BUILT_IN = {"→", "×", "¬", ":", "=", "_", ".", "Type", "Unit", "tt", "⊥", "then", "else"}
# The constructors of std: a pattern doesn't bind them.
CONSTRUCTORS = {"true", "false", "zero", "suc", "Some", "None", "Ok", "Err", "[]", "◌∷◌"}

# A definition's file, below crates/, and its name; of std and the kit's crates the module, which has no slash, and the name.
Ref = Tuple[str, str]


class Missing(Exception):
    """A name that isn't found."""


@dataclass
class Item:
    """A definition: its lines in its file, from 1, the comment above it, what is printed, and what it names."""

    file: str
    name: str
    first: int
    last: int
    sentence: List[str]
    text: List[str]
    refs: List[Ref] = field(default_factory=list)
    # The fields that it reads, and those that it has.
    reads: Set[str] = field(default_factory=set)
    has: Set[str] = field(default_factory=set)

    def note(self, ref: Ref) -> None:
        if ref not in self.refs and ref != (self.file, self.name):
            self.refs.append(ref)


@dataclass
class Group:
    opening: str
    parts: List["Node"]


Node = Union[str, Group]


def tree(text: str) -> List[Node]:
    """The words of a text, grouped by brackets."""
    stack = [Group("", [])]
    for word in re.findall(r'"[^"]*"|\[\]|[(){}\[\],;]|[^\s(){}\[\],;"]+', re.sub(r"--.*", "", text)):
        if word in "({[":
            stack.append(Group(word, []))
        elif word in ")}]":
            group = stack.pop()
            stack[-1].parts.append(group)
        else:
            stack[-1].parts.append(word)
    return stack[0].parts


def split(parts: List[Node], mark: str) -> List[List[Node]]:
    found: List[List[Node]] = [[]]
    for part in parts:
        if part == mark:
            found.append([])
        else:
            found[-1].append(part)
    return found


def bound(part: Node) -> Optional[Tuple[Set[str], List[Node]]]:
    """The names that `(x y : T)` or `{x y : T}` binds, and T."""
    if isinstance(part, str) or part.opening == "[" or ":" not in part.parts:
        return None
    at = part.parts.index(":")
    names = {it for it in part.parts[:at] if isinstance(it, str)}
    return (names, part.parts[at + 1:]) if len(names) == at > 0 else None


class Lookup(Protocol):
    """Where names are looked up: a file, with what it imports."""

    def find(self, item: Item, word: str, member: str) -> Tuple[Optional[Ref], bool]:
        """What a name means, and whether the field after it says which constructor or member of it is meant."""

    def is_constructor(self, word: str) -> bool:
        """Whether a word in a pattern is a constructor."""


class Walk:
    """Goes through terms of one definition, and notes in it what they name."""

    def __init__(self, names: Lookup, item: Item) -> None:
        self.names, self.item = names, item

    def word(self, word: str, scope: Set[str]) -> None:
        if word in BUILT_IN or word[0] == '"' or word.isdigit():
            return
        head, *fields = word.split(".") if re.search(r"\.\w", word) else [word]
        if head and head not in scope:
            ref, used = self.names.find(self.item, head, fields[0] if fields else "")
            if ref is None:
                raise Missing(f"{self.item.file}: {self.item.name} names {word}, which isn't found")
            self.item.note(ref)
            fields = fields[1:] if used else fields
        self.item.reads.update(fields)

    def pattern(self, parts: List[Node], scope: Set[str]) -> None:
        """Adds the names that a pattern binds, and notes its constructors."""
        for part in parts:
            if isinstance(part, Group):
                self.pattern(part.parts[part.parts.index("=") + 1:] if "=" in part.parts else part.parts, scope)
            elif "." in part or self.names.is_constructor(part):
                self.word(part, set())
            elif part not in BUILT_IN and part != "," and not part.isdigit():
                scope.add(part)

    def binder(self, part: Node, scope: Set[str]) -> bool:
        """Goes through `(x : T)`, and adds x to the scope, where this is one."""
        found = bound(part)
        if found:
            self.term(found[1], scope)
            scope |= found[0]
        return found is not None

    def term(self, parts: List[Node], outer: Set[str]) -> None:
        """What a binder binds holds up to the end of the brackets around it."""
        scope, at = set(outer), 0
        while at < len(parts):
            part = parts[at]
            at += 1
            if isinstance(part, Group):
                if not self.binder(part, scope):
                    for piece in split(part.parts, ","):
                        self.term(piece[2:] if part.opening == "{" and "=" in piece else piece, scope)
            elif part == "λ":
                at = self.arguments(parts, at, scope)
            elif part == "record":
                base = parts[at]
                if isinstance(base, str) or base.opening != "{":
                    self.term([base], scope)
                    at += 1
                self.literal(parts[at], scope)
                at += 1
            elif part == "let":
                equals, end = parts.index("=", at), parts.index("in", at)
                self.term([it for it in parts[at + 1:equals] if it != ":"], scope)
                self.term(parts[equals + 1:end], scope)
                scope.add(str(parts[at]))
                at = end + 1
            elif part in ("elim", "open"):
                raise Missing(f"{self.item.file}: {self.item.name}: this tool doesn't read `{part}` yet")
            else:
                self.word(part, scope)

    def literal(self, group: Node, scope: Set[str]) -> None:
        """The fields of `record { x = e; .. }`."""
        for part in split(group.parts if isinstance(group, Group) else [], ";"):
            if part:
                self.item.reads.add(str(part[0]))
                self.term(part[2:], scope)

    def arguments(self, parts: List[Node], at: int, scope: Set[str]) -> int:
        """Adds what stands between λ and its dot to the scope, and tells where the dot is."""
        while True:
            part = parts[at]
            at += 1
            if isinstance(part, str) and part.endswith("."):
                scope.add(part[:-1])
                return at
            if isinstance(part, str):
                scope.add(part)
            elif not self.binder(part, scope):
                self.pattern(part.parts, scope)


def imports_of(text: str) -> Dict[str, List[Ref]]:
    """By name in the file the module and the name there; the name is empty where the module itself is imported."""
    found: Dict[str, List[Ref]] = {}
    for where, names, alias in re.findall(r"^\s*(?:ghost )?use ([\w.]+?)(?:\.\{([^}]*)\})?(?: as (\w+))?;?$", text, re.M):
        for name in [it.strip() for it in names.split(",")] if names else [f" as {alias or where.split('.')[-1]}"]:
            name, _, other = name.partition(" as ")
            targets = found.setdefault(other or name, [])
            if (where, name) not in targets:
                targets.append((where, name))
    return found


def comment_above(lines: List[str], at: int, mark: str) -> List[str]:
    """The comment that ends above this line, whose lines begin so; attributes may stand between."""
    first = at
    while first > 0 and lines[first - 1].strip().startswith((mark, "#[")):
        first -= 1
    return [it for it in lines[first:at] if it.strip().startswith(mark)]


def read_spec(path: str, lines: List[str]) -> Tuple[Dict[str, Item], Dict[str, str]]:
    """The definitions of a file of specs/, and of those inside a module with parameters its line."""
    items: Dict[str, Item] = {}
    modules: Dict[str, str] = {}
    module, at = "", 0
    while at < len(lines):
        line = lines[at]
        if line.startswith("module "):
            module = line
        elif line.strip() and not re.match(r"\s*(--|use |pub mod )", line):
            head = re.match(r"(\s*)(?:(?:abbrev|unfoldable|pub|record|data) )*(\S+)(?= [:({])", line)
            if not head:
                raise Missing(f"{path}:{at + 1}: this tool doesn't read this line: {line}")
            end = at + 1
            while end < len(lines) and lines[end].strip() and not lines[end].startswith(f"{head[1]}--"):
                end += 1
            # A definition without a sentence of its own stands below the one whose sentence speaks of both.
            sentence = comment_above(lines, at, "--") or (list(items.values())[-1].sentence if items else [])
            items[head[2]] = Item(path, head[2], at + 1, end, sentence, lines[at:end])
            if head[1]:
                modules[head[2]] = module
            at = end - 1
        at += 1
    return items, modules


def constructors_of(item: Item) -> List[str]:
    """The constructors of a type of data, each on a line of its own; none of another definition."""
    if not re.match(r"\s*(pub )?data ", item.text[0]):
        return []
    return [found[1] for line in item.text[1:] if (found := re.match(r"\s+(\S+) : ", line))]


def resolve_spec(item: Item, names: Lookup, module: str) -> None:
    """Notes what a definition of specs/ names."""
    walk = Walk(names, item)
    scope: Set[str] = set()
    for part in tree(module):
        walk.binder(part, scope)
    text = "\n".join(item.text)
    if re.match(r"\s*(pub )?data ", text):
        for line in item.text[1:]:
            walk.term(tree(line.partition(" : ")[2]), scope)
        return
    if re.match(r"\s*(pub )?record ", text):
        head, _, lines = text.partition(" where\n")
        for part in tree(head):
            walk.binder(part, scope)
        for line in re.split(r"^\s*pub ", re.sub(r"--.*", "", lines), flags=re.M)[1:]:
            name, _, kind = line.partition(" : ")
            walk.term(tree(kind), scope)
            scope.add(name)
            item.has.add(name)
        return
    signature, *equations = re.split(rf"^\s*(?={re.escape(item.name)}(?:\s|$))", text, flags=re.M)
    walk.term(tree(signature.partition(" : ")[2]), scope)
    if not equations:
        raise Missing(f"{item.file}: {item.name} has no body that this tool reads")
    for equation in equations:
        left, *right = split(tree(equation), "=")
        inner = set(scope)
        walk.pattern(left[1:], inner)
        for body in right:
            walk.term(body, inner)
