"""The map of a crate's files of lemmas: one line on each, from the comment that it begins with; and what specs/ defines."""
import glob
import itertools
import os
import re
from typing import List

from .antt import Missing, read_spec
from .marked import cell


def heading(lines: List[str]) -> str:
    """The comment that a file begins with, or nothing."""
    return " ".join(it.strip().lstrip("-").strip() for it in itertools.takewhile(lambda line: line.startswith("--"), lines))


def modules_of(folder: str) -> List[str]:
    """The files of a folder of antt, in the order in which its Lib.antt has them."""
    with open(f"{folder}/Lib.antt", encoding="utf-8") as lib:
        listed = re.findall(r"^(?:pub )?mod (\w+)$", lib.read(), re.M)
    there = {it[:-len(".antt")] for it in os.listdir(folder) if it.endswith(".antt")} - {"Lib"}
    if there != set(listed):
        raise Missing(f"{folder}/Lib.antt doesn't list {', '.join(sorted(there ^ set(listed)))} as it is there")
    return listed


def definition_count(top: str) -> int:
    """How many definitions the crates' specs/ have."""
    count = 0
    for path in glob.glob(f"{top}/crates/*/specs/*.antt"):
        with open(path, encoding="utf-8") as file:
            count += len(read_spec(path, file.read().split("\n"))[0])
    return count


def first_sentence(text: str) -> str:
    return re.split(r"(?<=[.?!])\s+(?=[A-Z])", text, maxsplit=1)[0]


def crates_with_lemmas(top: str) -> List[str]:
    return sorted(it for it in os.listdir(f"{top}/crates") if os.path.isfile(f"{top}/crates/{it}/proofs/Lib.antt"))


def of_crate(top: str, crate: str) -> str:
    """A line for each file of lemmas of a crate, as a table."""
    folder = f"{top}/crates/{crate}/proofs"
    rows: List[str] = ["| File of lemmas | What it has |", "|---|---|"]
    for name in modules_of(folder):
        with open(f"{folder}/{name}.antt", encoding="utf-8") as file:
            told = first_sentence(heading(file.read().split("\n")))
        rows.append(f"| `proofs/{name}` | {cell(told)} |")
    return "\n".join(rows)
