"""The functions that no clause says anything of, each with the test that finds a wrong body of it, or with the reason why none can."""
import glob
import importlib.machinery
import importlib.util
import os
import re
import sys
from types import ModuleType
from typing import Dict, Iterator, List, NamedTuple, Set, Tuple

from .antt import Missing

BLOCK = re.compile(r"^(?:pub(?:\([a-z]+\))? )?(?:impl|trait)\b")
HEAD = re.compile(r"^( *)(?:pub(?:\([^)]*\))? )?(?:const )?fn (\w+)")
CLAUSE = re.compile(r"^ *(?:requires|ensures|where)\b")
# Crates that only tests use.
FOR_TESTS = ("growth_probe", "library_tests", "pool_tests", "program_tests", "test_gates", "test_support")
# What stands in the pages where a crate has no page of its own.
PAGE_OF_ALL = "crates/README.md"
OTHERS, NAMED = "tools/statements/tested.txt", "`{test}` of `{crate}`"


class Function(NamedTuple):
    """A function with a body: its crate and file, its name with its owner's, the trait whose it is, where it stands in the file, and
    whether a clause says what it does."""

    crate: str
    path: str
    name: str
    of_trait: str
    start: int
    end: int
    promises: bool

    @property
    def file(self) -> str:
        return self.path.split("/src/", 1)[1]


def head_of(lines: List[str], at: int, indent: str) -> "Tuple[List[str], bool]":
    """The lines of a function's head from a line on, and whether a body follows."""
    head: List[str] = []
    has_clauses = False
    for line in lines[at:]:
        has_clauses = has_clauses or CLAUSE.match(line) is not None
        if line == f"{indent}{{" or line.endswith((" {", ";", "{}")) and not has_clauses:
            return [*head, line], line.endswith("{")
        if line.endswith("};"):
            return [*head, line], False
        head.append(line)
    return head, False


def owner_of(block: str) -> "Tuple[str, str]":
    """The trait that a block is for, and the type whose functions it has, both without what stands in angle brackets."""
    while re.search(r"<[^<>]*>", block):
        block = re.sub(r"<[^<>]*>", "", block)
    words = re.sub(r"^.*?\b(?:impl|trait) *|[:{].*", "", " ".join(block.split()).replace("::", "..")).split(" for ")
    names = [word.strip().split("..")[-1] for word in words]
    return (names[0], names[-1]) if len(names) > 1 else ("", names[0])


def functions_of(crate: str, path: str, text: str, traits: Set[str]) -> Iterator[Function]:
    """A file's functions that have a body, or of which a trait promises something. What a trait of another library promises is told by
    the ghost items of its impl, and what one of these traits promises by the trait itself."""
    lines, starts = text.split("\n"), [0]
    for line in lines:
        starts.append(starts[-1] + len(line) + 1)
    trait, owner, has_ghosts, past = "", "", False, -1
    for at, line in enumerate(lines):
        if BLOCK.match(line):
            block = " ".join(lines[at:next(i for i in range(at, len(lines)) if lines[i].endswith(("{", "{}"))) + 1])
            (trait, owner), has_ghosts = owner_of(block), False
        has_ghosts = has_ghosts or re.match(r" +ghost \w+ = ", line) is not None
        found = HEAD.match(line)
        if not found or at <= past or "#[test]" in lines[at - 1]:
            continue
        head, has_body = head_of(lines, at, found[1])
        last = lines.index(f"{found[1]}}}", at) if has_body else at + len(head) - 1
        past = last
        promises = any(re.match(r" *ensures\b", it) for it in head) or trait not in ("", *traits) and has_ghosts
        if has_body or promises:
            name = f"{owner}::{found[2]}" if found[1] else found[2]
            yield Function(crate, path, name, trait, starts[at], starts[last + 1], promises)


def untold(top: str) -> Iterator[Function]:
    """The functions of the product's crates that no clause says anything of, neither theirs nor that of their trait."""
    texts: Dict[str, str] = {}
    for path in sorted(glob.glob(f"{top}/crates/*/src/**/*.rt", recursive=True)):
        short = os.path.relpath(path, top)
        if short.split("/")[1] not in FOR_TESTS and not path.endswith("/tests.rt"):
            with open(path, encoding="utf-8") as file:
                texts[short] = file.read()
    traits = {name for text in texts.values() for name in re.findall(r"^(?:pub(?:\([a-z]+\))? )?trait (\w+)", text, re.M)}
    found = [it for path, text in texts.items() for it in functions_of(path.split("/")[1], path, text, traits)]
    promised = {it.name for it in found if it.promises}
    return (it for it in found if not it.promises and f"{it.of_trait}::{it.name.split('::')[-1]}" not in promised)


def plants_of(top: str) -> ModuleType:
    """tests/plants/run, which reads the plants."""
    loader = importlib.machinery.SourceFileLoader("plants_run", f"{top}/tests/plants/run")
    spec = importlib.util.spec_from_loader("plants_run", loader)
    if spec is None:
        raise Missing("tests/plants/run can't be read")
    module = importlib.util.module_from_spec(spec)
    sys.modules["plants_run"] = module
    loader.exec_module(module)
    return module


def test_of(crate: str, test: str) -> str:
    """A plant's test as a page names it."""
    words = re.findall(r'"[^"]*"|\S+', test)
    if len(words) == 1:
        return NAMED.format(test=test, crate=crate)
    parts = " ".join(it for it in words[1:] if not it.startswith(('"', "--")) and it != crate.split("_")[-1] and it != "residency")
    return f"`{words[0]}`{f' (`{parts}`)' if parts else ''}"


def planted(top: str, functions: List[Function]) -> Dict[Function, str]:
    """By a function the test of the first plant in its body, of those that are proved where there are such."""
    run = plants_of(top)
    found: Dict[Function, str] = {}
    plants = [it for path in sorted(glob.glob(f"{top}/tests/plants/*.plants")) if not path.endswith("/scripts.plants") for it in run.plants_in(path)]
    texts: Dict[str, str] = {}
    for plant in sorted(plants, key=lambda it: bool(it.unproved)):
        for change in plant.changes:
            if change.file not in texts:
                with open(f"{top}/{change.file}", encoding="utf-8") as file:
                    texts[change.file] = file.read()
            at = texts[change.file].find(change.old)
            for it in functions:
                if it.path == change.file and it.start < at + len(change.old) and at < it.end:
                    found.setdefault(it, test_of(plant.crate, plant.test))
    return found


def lists(top: str) -> Dict[str, str]:
    """By its page the table of these functions; Missing where one has neither a plant nor a line of its own, or a line is of no such one."""
    functions = list(untold(top))
    tests = planted(top, functions)
    with open(f"{top}/{OTHERS}", encoding="utf-8") as file:
        others = dict(line.strip().split(" | ", 1) for line in file if " | " in line)
    named: Dict[str, Function] = {f"{it.crate} {it.file} {it.name}": it for it in functions}
    left: Set[str] = {name for name, it in named.items() if it not in tests}
    wrong = [f"neither a plant nor a line is of {name}" for name in sorted(left - set(others))]
    wrong += [f"{name} has a plant, a clause or no body" for name in others if name not in left]
    if wrong:
        raise Missing(f"{OTHERS}: {'; '.join(wrong)}")
    rows: Dict[str, Dict[Tuple[str, str], List[str]]] = {}
    for name, it in named.items():
        own = f"crates/{it.crate}/README.md"
        is_own = os.path.exists(f"{top}/{own}")
        place = it.file if is_own else f"{it.crate}/src/{it.file}"
        found = tests.get(it) or others[name]
        rows.setdefault(own if is_own else PAGE_OF_ALL, {}).setdefault((place, found), []).append(f"`{it.name}`")
    head = "| File | Functions | What finds a wrong body |\n|---|---|---|\n"
    return {page: head + "\n".join(f"| `{place}` | {', '.join(names)} | {found} |" for (place, found), names in of_page.items())
            for page, of_page in rows.items()}
