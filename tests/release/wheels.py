"""The wheel has the archive's files, installs without an index, runs at once, and goes."""
from __future__ import annotations

import ast
import base64
import glob
import hashlib
import json
import os
import re
import shutil
import subprocess
import sys
import tempfile
import zipfile
from typing import TYPE_CHECKING, Dict, List, Set, Tuple

from programs import called

if TYPE_CHECKING:
    from launchers import Trial

SHEET = b"M,x,a\nM,y,b\nF,a,1,1\nF,b,1,1\n"
DOCKET = b"Q,a,1\nQ,b,1\nP,a,x,y\nP,b,y,x\nR,x,b,a\nR,y,a,b\n"
CALLS = """import residency
market = residency.Market({"Köln": 1}, {"Köln": ["王"]}, {"王": ["Köln"]})
match = residency.match(market, journal=True)
answers = market.audit(match), market.replay(match).good, market.why(match, "王")[0].answer
print(ascii(match.places), *answers, residency.__version__)
print(residency.find_program())
"""
# What a wheel has beside the package and its programs.
OWN = {"METADATA", "WHEEL", "RECORD", "entry_points.txt"}


def read(path: str) -> bytes:
    with open(path, "rb") as file:
        return file.read()


def files_below(folder: str) -> Set[str]:
    return {os.path.relpath(f"{at}/{name}", folder) for at, _, names in os.walk(folder) for name in names}


def wanted_of(archive: str, programs: List[str]) -> Dict[str, bytes]:
    """What the wheel is to have, by the unpacked archive: its package, its programs and its VERDICT."""
    package = f"{archive}/lib/residency/python"
    found = {f"residency/{path}": read(f"{package}/residency/{path}") for path in files_below(f"{package}/residency")}
    found.update({f"residency/programs/{name}": read(f"{archive}/bin/{name}") for name in programs})
    return {**found, "residency/programs/VERDICT": read(f"{archive}/VERDICT")}


def opened(trial: Trial, path: str, archive: str, programs: List[str]) -> None:
    """File by file what the archive has; its own files say what it is; nothing of it depends on the hour or the machine."""
    name, version, tag = re.fullmatch(r"(\w+)-([\d.]+)-(py3-none-\w+)\.whl",
                                      os.path.basename(path)).groups()  # type: ignore[union-attr]
    with zipfile.ZipFile(path) as wheel:
        entries = wheel.infolist()
        data = {entry.filename: wheel.read(entry) for entry in entries}
    info = f"{name}-{version}.dist-info"
    wanted, office = wanted_of(archive, programs), f"{name}-{version}.data/scripts/residency-office"
    has_office = os.path.exists(f"{archive}/bin/residency-office")
    if has_office:
        wanted[office] = b"#!/bin/sh\n" + wanted["residency/office/start.sh"].replace(b"@VERSION@", version.encode())
        trial.tell(wanted.get("residency/office/second-opinion.py") == read(f"{archive}/examples/second-opinion.py"),
                   "the wheel's second opinion isn't the example")
    trial.same(set(data), {*wanted, *(f"{info}/{each}" for each in OWN)}, "the wheel's files")
    for each in sorted(set(wanted) & set(data)):
        trial.tell(data[each] == wanted[each], f"the wheel's {each} isn't the archive's")
    order = [entry.filename for entry in entries]
    inner, own = order[:len(wanted)], order[len(wanted):]
    trial.same((inner, own), (sorted(inner), [*sorted(own[:-1]), f"{info}/RECORD"]), "the order of the wheel's files")
    trial.same({entry.date_time for entry in entries}, {(2020, 1, 1, 0, 0, 0)}, "the times of the wheel's files")
    for entry in entries:
        is_program = entry.filename in {office, *(f"residency/programs/{each}" for each in programs)}
        trial.same((oct(entry.external_attr >> 16), entry.create_system), (oct(0o100755 if is_program else 0o100644), 3),
                   f"the mode of the wheel's {entry.filename}")
    record = [line.rsplit(",", 2) for line in data[f"{info}/RECORD"].decode().splitlines()]
    trial.same([row[0] for row in record], order, "the files that RECORD lists")
    for each, digest, size in record[:-1]:
        known = base64.urlsafe_b64encode(hashlib.sha256(data[each]).digest()).rstrip(b"=").decode()
        trial.same((digest, size), (f"sha256={known}", str(len(data[each]))), f"RECORD of {each}")
    trial.same(record[-1][1:], ["", ""], "RECORD of itself")
    lines = data[f"{info}/WHEEL"].decode().splitlines()
    trial.tell({f"Tag: {tag}", "Root-Is-Purelib: false"} <= set(lines), f"WHEEL says {lines}")
    lines = data[f"{info}/METADATA"].decode().splitlines()
    trial.tell({"Name: residency", f"Version: {version}", "Requires-Python: >=3.9"} <= set(lines), f"METADATA says {lines}")
    trial.tell(not any(line.startswith("Requires-Dist") for line in lines), "the wheel wants another package")
    scripts = ["[console_scripts]", *(f"{each} = residency.launch:main" for each in programs)]
    trial.same(data[f"{info}/entry_points.txt"].decode().splitlines(), scripts, "the wheel's scripts")
    for each, text in data.items():
        if each.endswith(".py"):
            try:
                ast.parse(text.decode(), each, feature_version=(3, 9))
            except SyntaxError as fault:
                trial.tell(False, f"{each} isn't in Python 3.9's syntax: {fault}")
    trial.tell(True, "syntax")


def pythons(trial: Trial) -> List[str]:
    """This Python and, where one is at hand, 3.9."""
    found = [shutil.which("python3.9") or "", *sorted(glob.glob(os.path.expanduser("~/.pyenv/versions/3.9.*/bin/python3.9")))]
    for path in found:
        if path and subprocess.run([path, "-m", "ensurepip", "--version"], capture_output=True, check=False).returncode == 0:
            return [sys.executable, path]
    print("no Python 3.9 is at hand: its syntax alone is checked")
    return [sys.executable]


def without_network() -> List[str]:
    """The words before a command that has no network, as far as that is permitted."""
    for words in (["unshare", "--net"], ["unshare", "--map-root-user", "--net"]):
        if shutil.which("unshare") and subprocess.run([*words, "true"], capture_output=True, check=False).returncode == 0:
            return words
    return []


class Venv:
    """A fresh environment of a Python, whose commands see nothing of this one's."""

    def __init__(self, python: str, folder: str) -> None:
        self.folder, self.before = folder, without_network()
        subprocess.run([python, "-m", "venv", folder], check=True, capture_output=True)
        self.empty = f"{folder}-at"
        os.makedirs(self.empty)

    def run(self, *words: str, data: bytes = b"") -> Tuple[int, bytes, bytes]:
        environment = {"PATH": f"{self.folder}/bin:/usr/bin:/bin", "HOME": self.empty, "LC_ALL": "C.UTF-8", "PIP_NO_INPUT": "1"}
        ran = subprocess.run([*self.before, "env", "-i", *(f"{name}={text}" for name, text in environment.items()), *words],
                             input=data, capture_output=True, cwd=self.empty, timeout=300, check=False)
        return ran.returncode, ran.stdout, ran.stderr

    def pip(self, *words: str) -> Tuple[int, bytes, bytes]:
        return self.run(f"{self.folder}/bin/python", "-m", "pip", "--isolated", "--disable-pip-version-check", *words)

    def files(self) -> Set[str]:
        return {path for path in files_below(self.folder) if "__pycache__" not in path}


def without_the_callers_code(venv: Venv, tables: List[str]) -> Tuple[int, bytes, List[str]]:
    """How the office's command ends where PYTHONPATH and the current folder have modules of Python's own names, and which were run."""
    with tempfile.TemporaryDirectory() as folder:
        for name in ("csv", "re", "json", "argparse", "residency", "signal"):
            with open(f"{folder}/{name}.py", "w") as file:
                file.write(f"open({folder!r} + '/told-{name}', 'w')\n")
        done = subprocess.run([f"{venv.folder}/bin/residency-office", "check", *tables], cwd=folder, capture_output=True, check=False,
                              env={"PATH": os.environ["PATH"], "PYTHONPATH": f"{folder}:."})
        return done.returncode, done.stderr, sorted(name for name in os.listdir(folder) if name.startswith("told-"))


def installed(trial: Trial, python: str, room: str, wheel: str, archive: str, programs: List[str]) -> None:
    """As a user takes it: installed without an index, run by its scripts and by calls, and removed."""
    venv = Venv(python, room)
    number = os.path.basename(wheel).split("-")[1]
    before = venv.files()
    status, _, err = venv.pip("install", "--no-index", "--no-cache-dir", wheel)
    trial.same((status, err), (0, b""), f"pip install --no-index by {python}")
    trial.same(venv.pip("check")[0], 0, "pip check")
    old = {os.path.basename(path) for path in before if path.startswith("bin/")}
    scripts = sorted(set(os.listdir(f"{venv.folder}/bin")) - old)
    has_office = os.path.exists(f"{archive}/bin/residency-office")
    trial.same(scripts, sorted([*programs, *(["residency-office"] if has_office else [])]), "what the wheel puts on the path")
    for name in programs:
        trial.same(venv.run(name, "--version")[:2], (0, f"{called(name)} {number}\n".encode()), f"the wheel's {name} --version")
        own = subprocess.run([f"{archive}/bin/{name}", "--help"], capture_output=True, check=False)
        trial.same(venv.run(name, "--help"), (0, own.stdout, b""), f"the wheel's {name} --help")
    trial.same(venv.run("residency", "match", data=DOCKET), (0, SHEET, b""), "the wheel's residency match")
    trial.same(venv.run("residency", "audit", data=DOCKET), (3, b"", b"residency: no sheet in the docket\n"),
               "a fault of the wheel's residency")
    status, out, err = venv.run("residency-why", "x", "a", data=DOCKET + SHEET)
    trial.tell(status == 0 and out.startswith(b"a: "), f"the wheel's residency-why: {status}, {out!r}, {err!r}")
    status, out, err = venv.run("python", "-c", CALLS)
    said = out.decode().splitlines()
    trial.same((status, err, said[:1]), (0, b"", [f"{{'\\u738b': 'K\\xf6ln'}} <Audit: stable> True matched {number}"]),
               "calls of the wheel's package")
    found = re.fullmatch(rf"{re.escape(os.path.realpath(venv.folder))}/.*/residency/programs/residency", "".join(said[1:]))
    trial.tell(found is not None, f"the package runs another program: {said[1:]}")
    out = venv.run("python", "-m", "residency", "match", "--json", data=DOCKET)[1]
    trial.same(json.loads(out or b"{}").get("places"), {"x": "a", "y": "b"}, "the wheel's python -m residency match --json")
    if has_office:
        tables = [f"{archive}/examples/office/{name}.csv" for name in ("programmes", "residents")]
        status, out, err = venv.run("residency-office", "run", *tables, "--out", "new")
        trial.tell((status, err) == (0, b"") and b"audit: stable; replay: good" in out,
                   f"the wheel's residency-office: {status}, {err!r}")
        trial.tell(b"usage: residency-office" in venv.run("residency-office", "--help")[1],
                   "the wheel's residency-office has another name")
        status, out, err = venv.run("residency-office", "verify", "new", "--tables", *tables)
        trial.tell((status, err) == (0, b"") and b", the same\n" in out, f"the wheel's residency-office verify: {status}, {out!r}, {err!r}")
        told = without_the_callers_code(venv, tables)
        trial.same(told, (0, b"", []), "the wheel's residency-office with PYTHONPATH")
    trial.same(venv.pip("uninstall", "--yes", "residency")[0], 0, "pip uninstall")
    trial.same(venv.files() ^ before, set(), "what pip uninstall leaves")
    trial.same(venv.run("python", "-c", "import residency")[0], 1, "the package after pip uninstall")


def try_all(trial: Trial, made: str, room: str, archive: str, programs: List[str]) -> None:
    paths = glob.glob(f"{made}/*.whl")
    trial.same(len(paths), 1, "wheels of a release")
    opened(trial, paths[0], archive, programs)
    if subprocess.run([sys.executable, "-m", "ensurepip", "--version"], capture_output=True, check=False).returncode:
        trial.leave_out("pip")
        return
    if not without_network():
        trial.leave_out("a wheel without a network")
    for number, python in enumerate(pythons(trial)):
        installed(trial, python, f"{room}{number}", paths[0], archive, programs)
