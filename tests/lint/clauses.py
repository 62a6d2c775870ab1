"""The width of the clauses of contracts: no line of a `requires`, an `ensures` or a ghost item has more than 100 columns.

A clause begins with its word and ends where its braces close. A list of imported names is no clause."""
from __future__ import annotations

import re
from typing import Iterator, List

COLUMNS = 100
BEGINS = re.compile(r"\s*(?:pub\s+)?(?:requires|ensures|ghost(?!\s+use\b))\b")

NARROW = "fn one() -> u32\n    ensures { result ≡ 1 }\n{\n    1\n}\n"
LONG = " ".join(["result"] * 20)
# Of each place where a wide line may stand one, with the line that has to be told, or none.
PLANTED = {
    NARROW: [],
    f"fn one() -> u32\n    ensures is {{ {LONG} }}\n{{\n    1\n}}\n": [2],
    f"fn one() -> u32\n    requires {{ result\n        ≡ {LONG} }}\n{{\n    1\n}}\n": [3],
    f"struct One {{\n    one: u32,\n    pub ghost is: {{ {LONG} }},\n}}\n": [3],
    f"impl One {{\n    ghost view = {{ λ o. record {{\n      one = {LONG};\n    }} }};\n}}\n": [3],
    f"// {LONG}\nghost use Rattle.{{{LONG}}};\n{NARROW}": [],
    f"fn one() -> u32\n    ensures {{ result ≡ 1 }}\n{{\n    two({LONG})\n}}\n": [],
}


def wide_lines(text: str) -> Iterator[int]:
    """The numbers of the lines of clauses that are too wide, in a source in Rattle."""
    inside, opened, depth = False, False, 0
    for number, line in enumerate(text.split("\n"), 1):
        if not inside and BEGINS.match(line):
            inside, opened, depth = True, False, 0
        if not inside:
            continue
        if len(line) > COLUMNS:
            yield number
        opened = opened or "{" in line
        depth += line.count("{") - line.count("}")
        inside = depth > 0 or not opened and not line.rstrip().endswith(";")


def planted() -> List[str]:
    """What isn't told as it has to be of the texts that are planted."""
    return [f"of a planted source these lines are told: {list(wide_lines(text))}, and not {lines}"
            for text, lines in PLANTED.items() if list(wide_lines(text)) != lines]
