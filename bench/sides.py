"""Prints what our program and a plain Rust program took, as rows of a table. sides.py RUNS: each line of RUNS is what was done, the
side (`rattle` or `rust`), a figure, and what was found. Both sides have to find the same."""
import statistics
import sys
from typing import Dict, List


def main(path: str) -> int:
    found: Dict[str, str] = {}
    figures: Dict[str, Dict[str, List[int]]] = {}
    with open(path) as file:
        for line in file:
            what, side, figure, result = line.split()
            if found.setdefault(what, result) != result:
                print(f"the two sides disagree on {what}: {found[what]} and {result}", file=sys.stderr)
                return 1
            figures.setdefault(what, {"rattle": [], "rust": []})[side].append(int(figure))
    print("what,found,rounds,rattle_best,rattle,rust_best,rust")
    for what, sides in figures.items():
        told = [f"{min(it)},{statistics.median_low(it)}" for it in (sides["rattle"], sides["rust"])]
        print(f"{what},{found[what]},{len(sides['rust'])},{','.join(told)}")
    return 0


if __name__ == "__main__":
    sys.exit(main(sys.argv[1]))
