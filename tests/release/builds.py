"""tools/build proves each library after those below it, keeps what is proved of the same sources, and links each program over what
is proved, as soon as it is. Told to end, it leaves nothing at work."""
from __future__ import annotations

import importlib.machinery
import importlib.util
import os
import shutil
import signal
import subprocess
import time
from typing import TYPE_CHECKING, Any, Dict, List
from unittest import mock

import launchers
from roots import put_script

if TYPE_CHECKING:
    from launchers import Trial

# Each crate of a small tree with those that it stands on; `other` is none of the program's.
CRATES: Dict[str, List[str]] = {"low": [], "left": ["low"], "right": ["low"], "top": ["left", "right"], "other": [], "program": ["top"],
                               "residency_one": ["left"], "residency_two": ["right"]}
LIBRARIES = ["low", "left", "right", "top"]
# Stands in for the toolchain: it notes each begin and each end, wants what is below to be proved, and fails where it is told to. It
# ends only when a line is noted, where it is told to wait for one.
RT = """#!/bin/bash
tree={tree}
name=${{PWD##*/}}
case $1 in
version) cat "$tree/version"; exit ;;
run) echo "run $name" >> "$tree/did" ;;
*) echo "begin $name" >> "$tree/did" ;;
esac
sleep 0.05
for below in $(sed -n "s/^$name://p" ../../crates.txt); do
    [ -f "../$below/out/rlib/stamp" ] || {{ echo "$below isn't proved"; exit 1; }}
done
[ ! -e "$tree/says" ] || cat "$tree/says"
[ ! -e "$tree/slow" ] || {{ echo $$ > "$tree/started"; sleep 300; }}
[ ! -e "$tree/fails.$name" ] || {{ echo "$name is NOT PROVED"; mkdir -p out/rlib; touch out/rlib/half; exit 1; }}
[ "$1" != run ] || {{ mkdir -p out; touch "out/$name"; exit; }}
[ ! -e "$tree/waits.$name" ] || timeout 60 sh -c "until grep -qxf '$tree/waits.$name' '$tree/did'; do sleep 0.1; done" || exit
mkdir -p out/rlib
cat src/lib.rt > out/rlib/stamp
echo "end $name" >> "$tree/did"
"""


class Tree:
    """A small tree of crates, with this checkout's tools/build."""

    def __init__(self, trial: Trial, folder: str) -> None:
        self.trial, self.folder = trial, folder
        for name in CRATES:
            for part in ("src/lib.rt", "specs/a.antt", "proofs/a.antt", "must-fail/a.edit"):
                self.write(f"crates/{name}/{part}", f"{name} {part}\n")
        self.write("crates.txt", "# The crates.\n" + "".join(f"{name}: {' '.join(below)}\n" for name, below in CRATES.items()))
        for name in ("program", "residency_one", "residency_two"):
            self.write(f"crates/{name}/src/main.rt", "")
        self.write("tools/weights.txt", "low 60\nleft 120\nright 120\nprogram 70\n")
        self.write("HANDLES", "")
        self.write("version", "rt 1\n")
        os.makedirs(f"{folder}/tools", exist_ok=True)
        shutil.copy(f"{launchers.TOP}/tools/build", f"{folder}/tools/build")
        put_script(f"{folder}/bin/rt", RT.format(tree=folder))

    def write(self, path: str, text: str) -> None:
        os.makedirs(os.path.dirname(f"{self.folder}/{path}"), exist_ok=True)
        with open(f"{self.folder}/{path}", "w") as file:
            file.write(text)

    def did(self) -> List[str]:
        if not os.path.exists(f"{self.folder}/did"):
            return []
        with open(f"{self.folder}/did") as file:
            lines = file.read().splitlines()
        os.remove(f"{self.folder}/did")
        return lines

    def started(self, *words: str, terminal: int = subprocess.PIPE) -> "subprocess.Popen[str]":
        return subprocess.Popen([f"{self.folder}/tools/build", *words], stdout=subprocess.PIPE, stderr=terminal, text=True,
                                env={**os.environ, "PATH": f"{self.folder}/bin:{os.environ['PATH']}"})

    def builds(self, what: str, proved: List[str], status: int = 0, failing: str = "", runs: bool = True, of: str = "program") -> str:
        """What a build says, after which these libraries were proved, in an order in which each came after those below it."""
        with self.started(of) as run:
            said = run.communicate(timeout=300)[1]
        did = self.did()
        ended = [line[len("end "):] for line in did if line.startswith("end ")]
        begun = [line[len("begin "):] for line in did if line.startswith("begin ")]
        self.trial.same((run.returncode, sorted(ended)), (status, sorted(proved)), f"tools/build {what} ({said[-300:]})")
        self.trial.same(sorted(begun), sorted([*proved, *([failing] if failing else [])]), f"what tools/build begins {what}")
        programs = ["run residency_one", "run residency_two"] if of == "all" else ["run program"]
        self.trial.same(sorted(line for line in did if line.startswith("run ")), programs if runs else [], f"what tools/build links {what}")
        for place, name in enumerate(did):
            if name.startswith("begin "):
                early = [it for it in CRATES[name[len("begin "):]] if f"begin {it}" in did and f"end {it}" not in did[:place]]
                self.trial.same(early, [], f"what {name} goes before, {what}")
        return said


def stopping(trial: Trial, tree: Tree) -> None:
    """Told to end by either signal, it ends what it started, and says so."""
    tree.write("slow", "")
    for number in (signal.SIGHUP, signal.SIGTERM):
        with tree.started("program") as run:
            for _ in range(600):
                time.sleep(0.1)
                if os.path.exists(f"{tree.folder}/started") and os.path.getsize(f"{tree.folder}/started"):
                    break
            with open(f"{tree.folder}/started") as file:
                prover = file.read().strip()
            run.send_signal(number)
            said = run.communicate(timeout=60)[1]
        trial.same((run.returncode, os.path.exists(f"/proc/{prover}")), (128 + number, False), f"a build told to end by {number}")
        trial.tell("stopped; what is proved stays" in said, f"what a build says that is told to end: {said}")
        os.remove(f"{tree.folder}/started")
    os.remove(f"{tree.folder}/slow")
    tree.did()


def weighing(trial: Trial, tree: Tree) -> None:
    """The table is renewed by what was measured, in the order of crates.txt."""
    tree.write(".build/measured", "top 7\nright 30\nright 40\n")
    with tree.started("--weights") as run:
        run.communicate(timeout=100)
    with open(f"{tree.folder}/tools/weights.txt") as file:
        trial.same(file.read().splitlines()[1:], ["low 60", "left 120", "right 40", "top 7", "program 70"], "the weights that are measured anew")


def build_tool(top: str) -> Any:
    """The script that builds, of a tree."""
    loader = importlib.machinery.SourceFileLoader("build_tool", f"{top}/tools/build")
    spec = importlib.util.spec_from_loader("build_tool", loader)
    assert spec is not None
    tool = importlib.util.module_from_spec(spec)
    loader.exec_module(tool)
    return tool


def all_weighed(trial: Trial) -> None:
    """Each program of this repository has a weight, and so has each library below one."""
    tool = build_tool(launchers.TOP)
    below = tool.crates()
    programs = [it for it in below if it.startswith("residency_")]
    named = {*programs, *tool.needed(below, *programs)}
    trial.same(sorted(named - set(tool.weights_in(tool.WEIGHTS))), [], "the crates without a weight")


def weighed(trial: Trial, tree: Tree) -> None:
    """By the weights: how many minutes are left, how nice each crate is, and how many jobs it gets.

    `top`, which nobody measured, takes 400 seconds. So `low` can't wait, `left` and `right` can wait for 60, `top` for 180, and the
    program for 580."""
    tool = build_tool(tree.folder)
    os.makedirs(f"{tree.folder}/.build", exist_ok=True)

    def build_of() -> Any:
        with mock.patch.object(tool, "RT", f"{tree.folder}/bin/rt"):
            return tool.Build(tool.crates(), ["program"])

    def left(build: Any, cores: int) -> int:
        with mock.patch.object(tool, "CORES", cores):
            return int(build.minutes_left())

    build = build_of()
    # All take 770 seconds. The longest way takes 650, and two processors halve it.
    trial.same([left(build, cores) for cores in (1, 2, 3, 4)], [13, 6, 5, 5], "the minutes that are left of all")
    trial.same([build.niceness_of(it) for it in [*LIBRARIES, "program"]], [0, 0, 0, 4, 10], "how nice each crate is")
    build.todo = ["right", "top", "program"]
    build.running = {"left": {"of": ("30", "120"), "run": None}}
    # Of `left` three quarters are left, which take 90 seconds: all takes 680, and the way by `right` 590.
    trial.same([left(build, cores) for cores in (1, 2, 4)], [11, 6, 5], "the minutes that are left beside a crate at work")
    # These two took three times as long as the table says.
    for name, seconds in (("low", 180.0), ("left", 360.0)):
        build.measure(name, seconds)
    trial.same([left(build, cores) for cores in (1, 4)], [34, 15], "the minutes that are left where all takes longer")
    with open(f"{tree.folder}/.build/measured") as file:
        trial.same(file.read(), "low 180\nleft 360\n", "what is noted of what was measured")
    os.remove(f"{tree.folder}/.build/measured")
    build.running, build.todo = {}, []
    trial.same(left(build, 4), 0, "the minutes that are left of nothing")
    tree.write("tools/weights.txt", "low 300\nleft 100\nright 20\ntop 400\nprogram 70\n")
    build = build_of()
    trial.same([build.niceness_of(it) for it in LIBRARIES], [0, 10, 10, 10], "how nice each crate is beside a long one")
    tree.write("tools/weights.txt", "low 100\nleft 200\nright 101\ntop 99\nprogram 70\n")
    build = build_of()
    trial.same([build.niceness_of(it) for it in LIBRARIES], [0, 4, 4, 10], "how nice each crate is beside others")
    gigabytes = {8: 2, 4: 1, 2: 1, 100: 4}
    for free, jobs in gigabytes.items():
        with mock.patch.object(tool, "free_memory", lambda free=free: free << 30), mock.patch.object(tool, "CORES", 4):
            trial.same(build.jobs_for("low", 10), jobs, f"the jobs of a small crate that is alone, with {free} gigabytes")
            trial.same(build.jobs_for("right", 10), 1, f"the jobs of a crate while another may go, with {free} gigabytes")
            build.running = {"low": {"of": None, "run": None}}
            # Of 100, 200, 101 and 99 seconds two are more than 100.
            for nice, most in ((0, jobs), (4, min(2, jobs)), (10, 1)):
                trial.same([build.jobs_for(it, nice) for it in LIBRARIES], [1, most, most, 1], f"the jobs of crates that are {nice} nice, with {free} gigabytes")
            build.running = {}
    tree.write("tools/weights.txt", "low 60\nleft 120\nright 120\nprogram 70\n")


def early(trial: Trial, tree: Tree) -> None:
    """A program is linked while a library that it doesn't stand on is still at work."""
    if len(os.sched_getaffinity(0)) == 1:
        return
    for name in ("residency_one", "right"):
        shutil.rmtree(f"{tree.folder}/crates/{name}/out")
    tree.write("waits.right", "run residency_one\n")
    with tree.started("all") as run:
        said = run.communicate(timeout=300)[1]
    did = tree.did()
    trial.same((run.returncode, sorted(did[:-1]), did[-1:]), (0, ["begin right", "run residency_one"], ["end right"]),
               f"a program is linked beside another's library ({said})")
    os.remove(f"{tree.folder}/waits.right")


def on_a_terminal(trial: Trial, tree: Tree) -> None:
    """On a terminal a line says how far a crate at work is."""
    shutil.rmtree(f"{tree.folder}/crates/top/out")
    tree.write("says", "so far: 3 of 7 functions\n")
    here, there = os.openpty()
    try:
        with tree.started("program", terminal=there) as run:
            run.communicate(timeout=300)
        said = os.read(here, 100_000).decode()
    finally:
        os.close(here)
        os.close(there)
    trial.same((run.returncode, tree.did()), (0, ["begin top", "end top"]), f"a build on a terminal ({said})")
    trial.tell("\r\x1b[K  top 3/7" in said, f"a terminal is told {said!r} of a crate at work")
    os.remove(f"{tree.folder}/says")


def try_all(trial: Trial, folder: str) -> None:
    tree = Tree(trial, folder)
    all_weighed(trial)
    weighed(trial, tree)
    stopping(trial, tree)
    said = tree.builds("from nothing", LIBRARIES)
    # 60, 120, 120 and 70 seconds, and 400 for `top`, which nobody measured. Two jobs take 325 s for the longest way; all take 770 s on
    # one processor, and 385 on two.
    minutes = {1: 13, 2: 6}.get(len(os.sched_getaffinity(0)), 5)
    trial.same(said.splitlines()[0], f"residency: 5 crates are proved before anything runs, the first time only; what is said goes to "
               f"{folder}/.build, 0 s so far, some {minutes} minutes left", "what a build says first")
    weighing(trial, tree)
    tree.builds("of all programs", [], of="all")
    trial.tell(not os.path.exists(f"{folder}/crates/other/out"), "tools/build proves a crate that the program doesn't stand on")
    trial.same(tree.builds("again", [], runs=False), "", "what a build says that has nothing to do")
    early(trial, tree)
    on_a_terminal(trial, tree)
    for part in ("src/lib.rt", "specs/a.antt", "proofs/a.antt"):
        tree.write(f"crates/left/{part}", f"another {part}\n")
        tree.builds(f"after {part} of a crate changed", ["left", "top"])
    with open(f"{folder}/crates/left/out/rlib/stamp") as file:
        trial.same(file.read(), "another src/lib.rt\n", "what is proved of the changed crate")
    tree.write("crates/left/must-fail/a.edit", "another\n")
    tree.write("crates/other/src/lib.rt", "another\n")
    tree.builds("after an edit and another crate changed", [], runs=False)
    # What isn't proved ends the build, is told, and keeps what is; the next build goes on from there.
    tree.write("version", "rt 2\n")
    tree.write("fails.right", "")
    said = tree.builds("where a crate isn't proved", ["low", "left"], 1, "right", False)
    trial.tell("right could not be built" in said and "right is NOT PROVED" in said, f"of a crate that isn't proved: {said}")
    said = tree.builds("where it still isn't", [], 1, "right", False)
    os.remove(f"{folder}/fails.right")
    tree.builds("once it is", ["right", "top"])
    tree.write("crates/program/src/main.rt", "another\n")
    tree.write("fails.program", "")
    said = tree.builds("where the program isn't", [], 1)
    trial.tell("program could not be built" in said, f"of a program that isn't proved: {said}")
    os.remove(f"{folder}/fails.program")
    shutil.rmtree(f"{folder}/crates/low/out")
    tree.builds("where a proof is gone", ["low"])
