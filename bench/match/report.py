"""Prints the figures of whole matches as rows of a table. report.py RUNS: each line of RUNS is a docket, a program, its seconds of a
processor, those of the system, its seconds on the clock and its KB."""
import statistics
import sys
from typing import Dict, List, Tuple


def main(path: str) -> None:
    runs: Dict[Tuple[str, str], List[List[float]]] = {}
    with open(path) as file:
        for line in file:
            docket, name, *figures = line.split()
            user, system, clock, kilobytes = map(float, figures)
            runs.setdefault((docket, name), []).append([user + system, clock, kilobytes / 1024])
    print("docket,program,rounds,processor_best,processor,wall_best,wall,mb")
    for (docket, name), rounds in runs.items():
        processor, wall, memory = [sorted(it) for it in zip(*rounds)]
        print(f"{docket},{name},{len(rounds)},{processor[0]:.3f},{statistics.median(processor):.3f},"
              f"{wall[0]:.3f},{statistics.median(wall):.3f},{statistics.median(memory):.1f}")


if __name__ == "__main__":
    main(sys.argv[1])
