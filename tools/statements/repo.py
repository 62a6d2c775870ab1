"""The repository's files of specs/ and src/, and what a name means in each."""
import re
from typing import Dict, List, Optional, Set, Tuple

from .antt import CONSTRUCTORS, Item, Missing, Ref, Walk, comment_above, constructors_of, imports_of, read_spec, resolve_spec, tree
from .rust import WORDS, Call, Parts, block, read_call, read_source, uses_of

# What clauses name without an import.
STD, RUST, VARIANTS = "Rattle.std.specs.Prelude", "std::prelude", {"Some", "None", "Ok", "Err"}


class File:
    """A file of specs/ or src/, and where its names are looked up."""

    def __init__(self, repo: "Repo", path: str, text: str) -> None:
        self.repo, self.path, self.lines = repo, path, text.split("\n")
        self.imports, self.uses = imports_of(text), uses_of(text)
        self.modules: Dict[str, str] = {}
        # By its constructors each type of data of this file.
        self.constructors: Dict[str, str] = {}
        self.parts: Dict[str, Parts] = {}
        # The type parameters of the call that is looked at, with their bounds.
        self.bounds: Dict[str, List[str]] = {}
        if path.endswith(".antt"):
            self.items, self.modules = read_spec(path, self.lines)
            self.constructors = {constructor: it.name for it in self.items.values() for constructor in constructors_of(it)}
        else:
            self.items, self.parts = read_source(path, self.lines)

    def is_constructor(self, word: str) -> bool:
        if word in self.constructors:
            return True
        targets = self.imports.get(word) or self.imports.get(f"◌{word}◌") or []
        return any(where.endswith(".TheVariants") or name in CONSTRUCTORS for where, name in targets)

    def find(self, item: Item, word: str, member: str) -> Tuple[Optional[Ref], bool]:
        if word in self.constructors:
            return (self.path, self.constructors[word]), False
        if word in self.items:
            return self.repo.variant((self.path, word), member)
        targets = self.imports.get("if◌then◌else◌" if word == "if" else word) or self.imports.get(f"◌{word}◌") or []
        if len(targets) > 1:
            raise Missing(f"{self.path}: {word} is imported from {targets[0][0]} and from {targets[1][0]}")
        for where, name in targets:
            found = self.repo.antt(item, where, name or member)
            return self.repo.variant(found, member) if name else (found, True)
        if word in self.bounds:
            return self.ghost(word, member), True
        if self.path.endswith(".rt"):
            return self.repo.variant(self.repo.rust(self, word), member)
        return None, False

    def ghost(self, word: str, member: str) -> Optional[Ref]:
        """The ghost member of a type parameter, which one of its bounds has."""
        for bound in self.bounds[word]:
            where, name = self.repo.rust(self, bound)
            if (where, f"{name}.{member}") in self.repo.names or "/" in where and self.repo.member(where, name, member):
                return where, f"{name}.{member}"
        return None


class Repo:
    """The repository's crates, and the names of std and the kit that they use."""

    def __init__(self, top: str, names: str) -> None:
        self.top = top
        with open(f"{top}/crates.txt") as lines:
            self.crates = [it.split(":")[0].split()[0] for it in lines if re.match(r"\w", it)]
        self.files: Dict[str, Optional[File]] = {}
        self.items: Dict[Ref, Item] = {}
        self.names: Dict[Ref, str] = {}
        with open(names) as lines:
            where = ""
            for line in lines:
                if re.match(r"\[\S+\]$", line) and len(line) > 4:
                    where = line.strip()[1:-1]
                elif line.strip() and where:
                    name, _, meaning = line.strip().partition(" ")
                    self.names[(where, name)] = meaning.strip()

    def file(self, path: str) -> Optional[File]:
        if path not in self.files:
            try:
                with open(f"{self.top}/crates/{path}") as file:
                    self.files[path] = File(self, path, file.read())
            except FileNotFoundError:
                self.files[path] = None
        return self.files[path]

    def in_file(self, path: str, name: str) -> Optional[Ref]:
        file = self.file(path)
        return (path, name) if file and name in file.items else None

    def antt(self, item: Item, where: str, name: str) -> Ref:
        """What an import of specs/ means."""
        found: Optional[Ref] = None
        parts = where.split(".")
        if parts[0] != "Rattle" or parts[1] not in self.crates:
            found = (where, name) if (where, name) in self.names else None
        elif parts[3] == "declared" and parts[-1] == "TheVariants":
            found = self.in_file(f"{parts[1]}/src/{'/'.join(parts[4:-2])}.rt", parts[-2])
            found = self.variant(found, name)[0] if found else None
        elif parts[3] == "declared":
            found = self.in_file(f"{parts[1]}/src/{'/'.join(parts[4:-1])}.rt", name)
        else:
            found = self.in_file(f"{parts[1]}/specs/{'/'.join(parts[3:])}.antt", name)
        if not found:
            listed = "" if parts[1:2] and parts[1] in self.crates else " (nor has tools/statements/names.txt a line for it)"
            raise Missing(f"{item.file}: {item.name} names {name} of {where}, which isn't there{listed}")
        return found

    def rust(self, file: File, path: str) -> Ref:
        """What a path of Rust means in a file."""
        if path in file.items:
            return file.path, path
        for plain in ((RUST, path), (STD, path) if path in VARIANTS else ("", "")):
            if plain in self.names:
                return plain
        head, _, rest = path.partition("::")
        full = [*file.uses.get(head, head).split("::"), *([rest] if rest else [])]
        crate = file.path.split("/")[0] if full[0] == "crate" else full[0]
        if crate in self.crates and len(full) > 1:
            other = f"{crate}/src/{'/'.join(full[1:-1]) or 'lib'}.rt"
            there = self.file(other)
            if there and full[-1] in there.items:
                return other, full[-1]
            # A crate's root gives what it takes from its modules.
            module = there.uses.get(full[-1], "").replace("crate::", "").split("::")[:-1] if there else []
            found = self.in_file(f"{crate}/src/{'/'.join(module)}.rt", full[-1])
            if found:
                return found
        elif ("::".join(full[:-1]), full[-1]) in self.names:
            return "::".join(full[:-1]), full[-1]
        raise Missing(f"{file.path} names {path}, which isn't found (for one of std tools/statements/names.txt wants a line)")

    def parts(self, ref: Ref) -> Optional[Parts]:
        file = self.file(ref[0]) if "/" in ref[0] else None
        return file.parts.get(ref[1]) if file else None

    def variant(self, ref: Ref, member: str) -> Tuple[Ref, bool]:
        """A type, and whether what stands behind it is a constructor of it."""
        parts = self.parts(ref)
        if ref == (STD, "Bool") and member:
            return (STD, member), True
        if not parts or parts.kind != "enum" or not member:
            return ref, False
        if member not in parts.variants:
            raise Missing(f"{ref[0]}: {ref[1]} has no {member}")
        return ref, True

    def member(self, path: str, trait: str, name: str) -> Optional[Item]:
        """A ghost member of a trait, with the methods whose clauses name it."""
        file = self.file(path)
        assert file is not None
        first, body = block(file.lines, rf"pub trait {trait}\b")
        at = next((at for at, line in enumerate(body) if re.match(rf"\s+ghost {name}: ", line)), -1)
        if at < 0:
            return None
        chunks = [it for it in "\n".join(body).split("\n\n") if re.search(rf"(requires|ensures) .*\b{name}\b", it, re.S)]
        methods = [line for it in chunks for line in it.split("\n") if not line.strip().startswith("///")]
        line = first + 1 + at
        item = Item(path, f"{trait}.{name}", line + 1, line + 1, [it.strip() for it in comment_above(file.lines, line, "//")],
                    [file.lines[first], body[at], *methods, "}"])
        walk = Walk(file, item)
        walk.term(tree(body[at].partition(":")[2].rstrip(";")), {"Self"})
        for clause in re.findall(r"(?:requires|ensures)[ \w]* \{(.*?)\};?$", "\n".join(methods), re.S | re.M):
            walk.term(tree(clause), {name, "result", *re.findall(r"(\w+): ", " ".join(methods))})
        return item

    def item(self, ref: Ref) -> Item:
        """A definition, with what it names."""
        if ref not in self.items:
            file = self.file(ref[0])
            assert file is not None
            if "." in ref[1]:
                found = self.member(ref[0], *ref[1].split("."))
                assert found is not None
                self.items[ref] = found
            else:
                self.items[ref] = file.items[ref[1]]
                self.resolve(file, file.items[ref[1]])
        return self.items[ref]

    def resolve(self, file: File, item: Item) -> None:
        if file.path.endswith(".antt"):
            resolve_spec(item, file, file.modules.get(item.name, ""))
            return
        parts = file.parts[item.name]
        if parts.hidden:
            raise Missing(f"{file.path}: {item.name} has private fields, and no model says how clauses see it")
        Walk(file, item).term(tree(parts.value), parts.generics)
        if parts.kept:
            Walk(file, item).term(tree(parts.kept), set())
        seen = re.sub(r"\w+", lambda it: file.imports.get(it[0], [("", it[0])])[0][1], parts.value)
        item.text = [it.replace(f"in clauses: {parts.value}", f"in clauses: {seen}") for it in item.text]
        self.types(file, item, parts.types, parts.generics)
        for at, line in enumerate(file.lines):
            head = re.match(rf"impl(?:<.*>)? (\w+)(?:<.*>)? for {item.name}\b", line)
            if head:
                self.associated(file, item, head[1], block(file.lines[at:], "impl")[1])

    def associated(self, file: File, item: Item, trait: str, body: List[str]) -> None:
        """Adds the types that a type names for a trait of the repository."""
        given = dict(re.findall(r"^    type (\w+) = (.*);$", "\n".join(body), re.M))
        try:
            where = self.rust(file, trait)[0]
        except Missing:
            where = ""
        there = self.file(where) if "/" in where else None
        asked = block(there.lines, rf"pub trait {trait}\b")[1] if there else []
        for name in re.findall(r"^    type (\w+)", "\n".join(asked), re.M):
            if name not in given:
                raise Missing(f"{file.path}: {item.name} has no {name} of {trait}")
            item.text.append(f"impl {trait} for {item.name}: type {name} = {given[name]};")
            self.types(file, item, given[name], file.parts[item.name].generics)

    def types(self, file: File, item: Item, text: str, generics: Set[str]) -> None:
        """Notes the types that Rust text names, but no trait of the repository: of these clauses see ghost members alone."""
        for path in re.findall(r"(?<![\w:'])(?:[A-Za-z]\w*::)*[A-Za-z]\w*(?![\w:])", re.sub(r"\b\w+:(?!:)", "", text)):
            if path.split("::")[0] not in WORDS | generics:
                ref = self.rust(file, path)
                parts = self.parts(ref)
                if not parts or parts.kind != "trait":
                    item.note(ref)

    def call(self, word: str) -> Call:
        """A public call by its name, with what its contract names."""
        crate, _, name = word.rpartition("::")
        found: List[Tuple[File, str]] = []
        for it in [crate] if crate else self.crates:
            top = self.file(f"{it}/src/lib.rt")
            if top and name in top.uses:
                found.append((top, f"{it}/src/{'/'.join(top.uses[name].split('::')[:-1])}.rt"))
        if len(found) != 1:
            crates = " or ".join(f"{path.split('/')[0]}::{name}" for _, path in found)
            raise Missing(f"which {name}: {crates}?" if found else f"no crate has a public call {word}")
        file = self.file(found[0][1])
        if not file:
            raise Missing(f"{found[0][1]} isn't there")
        call = read_call(file.path, file.lines, name)
        file.bounds = call.bounds
        for clause in call.clauses:
            Walk(file, call.item).term(tree(clause), call.parameters)
        self.types(file, call.item, re.sub(rf"pub fn {name}\b", "", call.signature), set(call.bounds))
        return call
