"""Recipes for one thing more of a kind: the files that name the one that is most alike, in the order in which they are mended."""
import os
import re
from typing import Dict, Iterator, List, NamedTuple, Tuple


class Recipe(NamedTuple):
    """A kind, the thing of this kind that is searched for, how a line of a file names it, and what is done beside that."""

    alike: str
    names: str
    steps: List[str]


RECIPES: Dict[str, Recipe] = {
    "row": Recipe("the row `W` of a docket, which withdraws a member", r"\bWITHDRAWAL\b|\b\w*withdrawal_(?:row|fault|kind)\w*|\bWithdrawal\b"
                  r"|\bBadWithdrawal\b|(?<![\w!#\"])W,[PR]\b|\"W\"", [
        "First define the row's letter, its kind and its meaning. Then define its own fault, and the fault that depends on earlier rows.",
        "Add a worked docket for each of its faults to `tests/rows/run`, and a docket with the row to `program_tests`.",
    ]),
    "field": Recipe("the number of workers, which a `C` row may have, and the worker of each event",
                    r"\b\w*by_worker\w*|\b(?:workers|worker|who)_(?:of|in|row|rows)\b|journal-by-worker", [
        "First define the field's meaning and its fault, with the definitions of its row. Then change the code that keeps the field, and the code that writes it.",
        "A docket without the field has to keep its meaning, which the old worked rows test.",
    ]),
    "fault": Recipe("the fault `bad withdrawal row` of a docket", r"\bBadWithdrawal\b|bad withdrawal", [
        "First add the fault's variant with its text, and define when the fault is told. Then change the clause about the fault, and the body.",
        "A fault that reaches a program has an exit status (`residency/src/status.rt`). ",
        "If a higher crate relies on the fault, add an edit that must fail and tells another fault.",
    ]),
    "event": Recipe("the event `Hear`", r"/\w*hear\w*[/.]|\bHear\b|\bHEAR\b|\b\w*_hear\b|\bhear_\w+|\bfn hear\b|E,hear|\"hear\"", [
        "First add the event's variant and change the definitions of the core, `exchange_core/specs/Legal` before all others. Then change the laws, and the higher crates.",
        "Add a worked journal with the event to `library_tests`, and each place where the event may not stand to `tests/journals/run`.",
    ]),
    "lemma": Recipe("the file of lemmas `exchange_core/proofs/Dues`", r"\bexchange_core\.proofs\.Dues\b|^pub mod Dues$|\bproofs/Dues\b", [
        "A lemma for two functions goes into the file of `proofs/` with its subject. A new file begins with a comment that says what it has.",
        "The folder's `Lib` has to list the file. `tools/pages lemmas CRATE` then prints a line for it.",
    ]),
    "command": Recipe("the command `replay`", r"\bserve_replay\b|\breplay-help\b|\bOrder(?:::|\.)Replay\b|\bresidency replay\b", [
        "First define what the words of the command order, and what the command writes. Then write the call that serves it, with its statuses.",
        "The statement takes the call by a line of `tools/statements/calls.txt`. The help of the command stands in `docs/help/` and is compared with the program.",
    ]),
    "crate": Recipe("the crate `docket_names` in a list of crates", r"^docket_names:|`docket_names`|docket_names/README", [
        "First add the crate's line to `crates.txt`, above all crates that use it. Then write its README, with an example from a test.",
    ]),
    "program": Recipe("the program `residency-seal` with its crate", r"\bresidency[-_]seal\b", [
        "First write the crate with its `main`, and a line for it in `packaging/programs.py`. Then add its start in the top folder, and its help.",
    ]),
    "phrase": Recipe("the phrase *it did not rank you* of an answer", r"it did not rank you", [
        "A phrase stands in the definition of its sentence, in the code and in a derivation of the tests, which are written apart.",
    ]),
}
# Files that are searched, and pages that are made of them or that tell what once was.
SEARCHED = (".antt", ".rt", ".edit", ".py", ".md", ".csv", ".plants", ".rs", ".txt")
LEFT_OUT = ("docs/statement.md", "docs/decisions/", "CONTRIBUTING.md", "CHANGELOG.md", "tools/statements/", "tests/docs/")
SKIPPED_FOLDERS = {".git", ".build", ".bench", "dist", "out", "__pycache__"}
IN_CRATES = ("specs", "src", "proofs", "must-fail")
AFTER = ("tests", "bench", "python", "examples", "tools", "docs")


def crates_of(top: str) -> List[str]:
    with open(f"{top}/crates.txt", encoding="utf-8") as lines:
        return [line.split(":")[0].strip() for line in lines if re.match(r"\w", line)]


def sources(top: str) -> Iterator[str]:
    for folder, folders, names in os.walk(top):
        folders[:] = sorted(set(folders) - SKIPPED_FOLDERS)
        for name in sorted(names):
            path = os.path.relpath(f"{folder}/{name}", top)
            is_script = "." not in name and path.startswith(("tests/", "bench/", "tools/"))
            if (name.endswith(SEARCHED) or is_script) and not path.startswith(LEFT_OUT):
                yield path


def place_of(path: str, crates: List[str]) -> Tuple[int, int, str]:
    """When a file is mended: crates lowest first, in each definitions, code, proofs and edits; then tests, Python and pages."""
    parts = path.split("/")
    if parts[0] == "crates" and len(parts) > 2 and parts[1] in crates:
        return crates.index(parts[1]), IN_CRATES.index(parts[2]) if parts[2] in IN_CRATES else len(IN_CRATES), path
    return len(crates), AFTER.index(parts[0]) if parts[0] in AFTER else len(AFTER), path


def is_of_goals(path: str) -> bool:
    """Whether this is a proof for one function, which is named after the code."""
    return re.match(r"crates/\w+/proofs/.+/", path) is not None


def found(top: str, kind: str) -> List[str]:
    """The files that name the one alike, in their order."""
    names, paths = re.compile(RECIPES[kind].names, re.M), []
    for path in sources(top):
        with open(f"{top}/{path}", encoding="utf-8", errors="replace") as file:
            if names.search(path) or names.search(file.read()):
                paths.append(path)
    crates = crates_of(top)
    return sorted(paths, key=lambda it: place_of(it, crates))


def shown(path: str) -> str:
    """A file's name as pages have it: from the crate on, and without antt's ending."""
    path = path[len("crates/"):] if path.startswith("crates/") else path
    return f"`{path[:-len('.antt')] if path.endswith('.antt') else path}`"


def recipe(top: str, kind: str) -> str:
    """The recipe as it is told."""
    alike, _, steps = RECIPES[kind]
    paths = found(top, kind)
    groups: Dict[str, List[str]] = {}
    for path in paths:
        parts = path.split("/")
        group = parts[1] if parts[0] == "crates" and len(parts) > 2 else parts[0]
        groups.setdefault("pages" if group in ("docs", "README.md", "crates") else group, []).append(path)
    article = "An" if kind[0] in "aeiou" else "A"
    out = [f"### {article} {kind} more", "", " ".join(steps), "", f"{len(paths)} files name {alike}:", ""]
    for number, (group, members) in enumerate(groups.items(), 1):
        goals = sum(map(is_of_goals, members))
        named = [shown(it) for it in members if not is_of_goals(it)]
        if goals:
            named.append(f"and {goals} answer{'s' * (goals > 1)} to goals, which `rt check` asks for")
        out.append(f"{number}. {group}: {', '.join(named)}.")
    return "\n".join(out)
