"""Compares the program with a published result.

examples/nrmp.csv is the market by which the NRMP explains its algorithm, and examples/nrmp-sheet.csv the result that it
publishes, written by hand. The program has to give that sheet, whatever the mailboxes and the workers, with a journal that
replays. Of all sheets of this market it may call no other one stable, since the market has one stable match."""
import itertools
import os
import subprocess
import sys
from typing import Dict, List, Optional, Tuple

TOP = os.path.dirname(os.path.dirname(os.path.dirname(os.path.abspath(__file__))))
SECONDS = 20
# The market and its result again, as the NRMP tells them: by programme its list, and by applicant.
PLACES = 2
PROGRAMMES = {
    "Mercy": ["Darrius", "Joseph"],
    "City": ["Darrius", "Arthur", "Sunny", "Latha", "Joseph"],
    "General": ["Darrius", "Arthur", "Joseph", "Latha"],
}
APPLICANTS = {
    "Arthur": ["City"],
    "Sunny": ["City", "Mercy"],
    "Joseph": ["City", "General", "Mercy"],
    "Latha": ["Mercy", "City", "General"],
    "Darrius": ["City", "Mercy", "General"],
}
RESULT = {"Arthur": "City", "Darrius": "City", "Joseph": "General", "Latha": "General", "Sunny": None}

Sheet = Dict[str, Optional[str]]


def rows(sheet: Sheet) -> str:
    marks = [f"M,{it},{sheet[it]}" if sheet[it] else f"U,{it}" for it in APPLICANTS]
    filled = [f"F,{it},{list(sheet.values()).count(it)},{PLACES}" for it in PROGRAMMES]
    return "".join(f"{row}\n" for row in marks + filled)


def docket() -> str:
    quotas = [f"Q,{it},{PLACES}" for it in PROGRAMMES]
    lists = [",".join([kind, name, *ranked]) for kind, side in (("P", PROGRAMMES), ("R", APPLICANTS)) for name, ranked in side.items()]
    return "".join(f"{row}\n" for row in quotas + lists)


def text_of(name: str) -> str:
    with open(f"{TOP}/examples/{name}") as file:
        return file.read()


def said(program: str, words: List[str], given: str) -> Tuple[int, str]:
    done = subprocess.run([program, *words], input=given.encode(), stdout=subprocess.PIPE, stderr=subprocess.STDOUT, timeout=SECONDS)
    return done.returncode, done.stdout.decode()


def cases(program: str) -> List[Tuple[str, object, object]]:
    """What is looked at, what it is, and what it has to be."""
    market, sheet = text_of("nrmp.csv"), text_of("nrmp-sheet.csv")
    found: List[Tuple[str, object, object]] = [("nrmp.csv", market, docket()), ("nrmp-sheet.csv", sheet, rows(RESULT))]
    for workers, room in itertools.product("128", ("full", "1")):
        words = ["match", "--workers", workers, "--capacity", room]
        found.append((" ".join(words), said(program, words, market), (0, sheet)))
        status, text = said(program, [*words, "--journal"], market)
        journal = text[len(sheet):]
        events = journal.count("\nE,")
        found.append((f"the sheet beside a journal of {words}", (status, text[:len(sheet)]), (0, sheet)))
        found.append((f"the replay of {words}", said(program, ["replay"], market + text), (0, f"G,{events}\n")))
    stable = [it for it in itertools.product(*[[*ranked, None] for ranked in APPLICANTS.values()])
              if all(it.count(name) <= PLACES for name in PROGRAMMES)
              and said(program, ["audit"], market + rows(dict(zip(APPLICANTS, it)))) == (0, "S,stable\n")]
    found.append(("the stable sheets", stable, [tuple(RESULT[it] for it in APPLICANTS)]))
    return found


def compared(program: str) -> List[bool]:
    """Whether each thing that is looked at is what it has to be; what isn't is told."""
    looked = cases(program)
    for what, got, wanted in looked:
        if got != wanted:
            print(f"{what}: {got!r} where {wanted!r} is right", file=sys.stderr)
    return [got == wanted for _, got, wanted in looked]
