"""Copies of crates, outside the tree, in which the toolchain checks: what is started here ends when this program ends."""
from __future__ import annotations

import contextlib
import importlib.machinery
import importlib.util
import os
import shutil
import signal
import subprocess
import sys
import threading
from types import FrameType
from typing import Any, Dict, List, Optional, Set

RT = shutil.which("rt") or "/opt/rattle/bin/rt"
PARTS = ("src", "specs", "proofs")


def listed(top: str) -> Dict[str, str]:
    """By its name each crate's line in crates.txt, lowest first."""
    with open(f"{top}/crates.txt") as lines:
        found = [(line.split("#")[0].partition(":")[0].split(), line) for line in lines]
    return {words[0]: line for words, line in found if words and ":" in line.split("#")[0]}


def below(lines: Dict[str, str], crate: str) -> List[str]:
    """The repository's crates below this one, in the order of crates.txt."""
    needed: Set[str] = set()
    todo = [crate]
    while todo:
        new = {it for it in lines[todo.pop()].split("#")[0].partition(":")[2].split() if it in lines} - needed
        needed |= new
        todo += sorted(new)
    return [it for it in lines if it in needed]


def toolchain() -> Any:
    """The toolchain's own module, for the stamp of a library."""
    path = f"{os.path.dirname(os.path.realpath(RT))}/rtlib.py"
    loader = importlib.machinery.SourceFileLoader("rtlib", path)
    spec = importlib.util.spec_from_loader("rtlib", loader)
    assert spec is not None
    module = importlib.util.module_from_spec(spec)
    sys.modules["rtlib"] = module
    loader.exec_module(module)
    return module


def version() -> str:
    return subprocess.run([RT, "version"], stdout=subprocess.PIPE, text=True, check=True).stdout.strip()


class Runs:
    """The commands at work, all of which end when this program is told to end."""

    def __init__(self) -> None:
        self.at_work: List["subprocess.Popen[str]"] = []
        self.starting, self.told, self.turn = 0, 0, threading.Lock()

    def said(self, words: List[str], folder: str) -> str:
        """What a command said, and at its end by which signal it was ended, if by one."""
        with self.turn:
            self.starting += 1
        with subprocess.Popen(words, cwd=folder, stdin=subprocess.DEVNULL, stdout=subprocess.PIPE, stderr=subprocess.STDOUT,
                              text=True, errors="replace", start_new_session=True) as run:
            self.at_work.append(run)
            with self.turn:
                self.starting -= 1
            self.end_if_told()
            said = run.stdout.read() if run.stdout else ""
            status = run.wait()
            self.at_work.remove(run)
        return said if status >= 0 else f"{said}\nended by signal {-status}"

    def end(self, number: int, _: Optional[FrameType]) -> None:
        self.told = number
        self.end_if_told()

    def end_if_told(self) -> None:
        """Ends all that is at work, and this program, unless something is just being started: that comes back here."""
        if not self.told or self.starting:
            return
        for run in self.at_work:
            # (the toolchain's prover ends as soon as `rt` has)
            with contextlib.suppress(ProcessLookupError):
                os.killpg(run.pid, signal.SIGKILL)
        os._exit(128 + self.told)

    def listen(self) -> None:
        for it in (signal.SIGHUP, signal.SIGINT, signal.SIGTERM):
            signal.signal(it, self.end)


def copied(source: str, target: str) -> None:
    for part in PARTS:
        if os.path.isdir(f"{source}/{part}"):
            shutil.copytree(f"{source}/{part}", f"{target}/{part}")


def linked(source: str, target: str) -> str:
    try:
        os.link(source, target)
    except OSError:
        shutil.copy2(source, target)
    return target


def room_for(top: str, crate: str, room: str, gate: str) -> str:
    """A copy of the crate and those below it; its folder. What checks left there stays, for the next check to begin with.

    Libraries are taken from the gate's copy of the tree, if there is one."""
    lines = listed(top)
    names = [*below(lines, crate), crate]
    os.makedirs(f"{room}/.git", exist_ok=True)
    for it in names:
        for part in (*PARTS, "must-fail"):
            shutil.rmtree(f"{room}/crates/{it}/{part}", ignore_errors=True)
        copied(f"{top}/crates/{it}", f"{room}/crates/{it}")
    shutil.copy(f"{top}/HANDLES", room)
    with open(f"{room}/crates.txt", "w") as file:
        file.writelines(lines[it] for it in names)
    if gate and all(os.path.isdir(f"{gate}/crates/{it}/out/rlib") for it in names[:-1]):
        take_libraries(gate, room, names[:-1])
    return f"{room}/crates/{crate}"


def take_libraries(gate: str, room: str, names: List[str]) -> None:
    """Gives a copy the libraries that the gate built, each with the stamp by which `rt check` takes it."""
    new = [it for it in names if not os.path.exists(f"{room}/crates/{it}/out/rlib/stamp")]
    for it in new:
        shutil.copytree(f"{gate}/crates/{it}/out/rlib", f"{room}/crates/{it}/out/rlib", copy_function=linked)
    known = {crate.name: crate for crate in toolchain().crates_below(room)} if new else {}
    for it in new:
        with open(f"{room}/crates/{it}/out/rlib/stamp", "w") as file:
            file.write(known[it].stamp())
