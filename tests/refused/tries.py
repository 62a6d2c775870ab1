"""Tries edits: those that are one function's body side by side in one check of their crate, the others alone."""
from __future__ import annotations

import os
import shutil
import time
from typing import Dict, List, Tuple

import judge
import kept
import rooms
import siblings
from edits import Change, Edit, Wrong, change_of
from judge import MISSED, REFUSED, UNTRIED, Verdict

Verdicts = Dict[str, Verdict]


class Tries:
    """The edits of one tree, and where they are tried."""

    def __init__(self, top: str, room: str, anew: bool) -> None:
        self.top, self.room, self.anew = top, room, anew
        self.runs, self.lines, version = rooms.Runs(), rooms.listed(top), rooms.version()
        self.sums = {it: kept.sum_of(top, [*rooms.below(self.lines, it), it], self.lines, version) for it in self.lines}
        self.gate = os.environ.get("RESIDENCY_GATE", "")

    def room_for(self, crate: str) -> str:
        """A copy of the crate, over the gate's libraries where these are of the same texts."""
        below = rooms.below(self.lines, crate)
        is_same = self.gate and all(kept.is_same(f"{self.top}/crates/{it}", f"{self.gate}/crates/{it}") for it in below)
        return rooms.room_for(self.top, crate, f"{self.room}/{crate}", self.gate if is_same else "")

    def side_by_side(self, crate: str, changes: List[Tuple[Edit, Change]]) -> Verdicts:
        """All these edits in one check; once more without those that don't compile, if there are some."""
        found: Verdicts = {}
        while changes:
            folder = self.room_for(crate)
            planted = siblings.plant(crate, folder, changes)
            said = self.runs.said([rooms.RT, "check", "--jobs", "1"], folder)
            with open(f"{self.room}/{crate}.log", "w") as log:
                log.write(said)
            broken = judge.broken(said, planted)
            if not broken:
                return {**found, **judge.judge(said, planted)}
            found.update({name: Verdict(UNTRIED, "it doesn't compile") for name in broken})
            changes = [it for it in changes if it[0].name not in broken]
        return found

    def alone(self, edits: List[Edit]) -> Verdicts:
        """These edits of one crate, each alone."""
        crate = edits[0].crate
        folder = self.room_for(crate)
        said = self.runs.said([rooms.RT, "check", "--jobs", "1"], folder)
        if not judge.is_proved(said):
            return {it.name: Verdict(UNTRIED, f"the crate isn't proved as it stands: {judge.last_of(said)}") for it in edits}
        os.mkdir(f"{folder}/must-fail")
        for it in edits:
            with open(f"{folder}/must-fail/{it.name}.edit", "w", encoding="utf-8") as file:
                file.write(it.text)
        said = self.runs.said([rooms.RT, "must-fail", crate, *["--anew"] * self.anew], f"{self.room}/{crate}")
        with open(f"{self.room}/{crate}.alone.log", "w") as log:
            log.write(said)
        return {it.name: judge.verdict_alone(said, it.name) for it in edits}

    def crate(self, edits: List[Edit]) -> Verdicts:
        """By its name each edit's verdict: those that fit side by side, then the others alone."""
        changes: List[Tuple[Edit, Change]] = []
        found: Verdicts = {}
        for edit in edits:
            try:
                change = change_of(edit, f"{self.top}/crates/{edit.crate}")
            except Wrong as fault:
                found[edit.name] = Verdict(MISSED, str(fault))
                continue
            if change:
                changes.append((edit, change))
        found.update(self.side_by_side(edits[0].crate, changes))
        rest = [it for it in edits if found.get(it.name, Verdict(UNTRIED, "")).kind == UNTRIED]
        for it in rest:
            if it.name in found:
                print(f"{it.label}: goes alone, since {found[it.name].why}", flush=True)
        if rest:
            found.update(self.alone(rest))
        shutil.rmtree(f"{self.room}/{edits[0].crate}", ignore_errors=True)
        return found

    def known(self, edit: Edit) -> str:
        return "" if self.anew else kept.find(kept.key_of(edit, self.sums[edit.crate]))

    def told(self, edits: List[Edit]) -> int:
        """Tries edits of one crate, tells each verdict, and keeps what is refused; how many failed."""
        start = time.monotonic()
        verdicts = self.crate(edits)
        lines, failed = [], 0
        for edit in edits:
            verdict = verdicts[edit.name]
            lines.append(f"{edit.label}: {verdict.kind}: {verdict.why}")
            failed += verdict.kind != REFUSED
            if verdict.kind == REFUSED:
                kept.keep(kept.key_of(edit, self.sums[edit.crate]), verdict.why)
        print("\n".join([*lines, f"{edits[0].crate}: {len(edits)} edits in {time.monotonic() - start:.0f} s"]), flush=True)
        return failed
