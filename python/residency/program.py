"""Finds the built programs and runs them; a program that is missing, too slow or ends oddly is an exception of its own.

A program is looked for in this order:

1. what the environment's `RESIDENCY_BIN` names, a folder or the file of the program `residency`; where it is set, nothing
   else is looked at;
2. the package itself, where it was installed from a wheel that has the programs;
3. the clone that this package is part of: `crates/residency_cli/out/residency_cli`, `crates/residency_why/out/residency_why`,
   `crates/residency_audit/out/residency_audit`;
4. the clone or the release from which pip installed the package, as the package's file `HOME` tells;
5. the unpacked release that this package is part of, in its `lib/residency/python`;
6. PATH: `residency`, `residency-why`, `residency-audit`.

Nothing that lies above a clone or beside it is taken: who may write there isn't known.
"""
from __future__ import annotations

import os
import re
import shutil
import subprocess
from pathlib import Path
from typing import Dict, Iterator, List, Sequence, Tuple

from .docket import first_fault
from .errors import DocketFault, ProgramFailed, ProgramMissing, ProgramTimeout, UnknownStatus

DEFAULT_TIMEOUT = 600.0
# The package's folder of programs, in a wheel.
WITHIN = "programs"
# Where a release has the package.
_RELEASE = ("lib", "residency", "python", "residency")
_FAULT = re.compile(r"record ([0-9]+): (.*)")
# Large pages, and memory that is kept once it is had, spare a large match an eighth of its time.
_TUNABLES = "glibc.malloc.hugetlb=1:glibc.malloc.mmap_threshold=33554432"


def _files(name: str) -> Tuple[str, str]:
    """Of a program, which is called `residency` or by the word after `residency-`, its crate and its file in a release."""
    return ("residency_cli", "residency") if name == "residency" else (f"residency_{name.replace('-', '_')}", f"residency-{name}")


def _in_folder(name: str, folder: Path) -> Iterator[Path]:
    """Where a folder that a person names may have a program: a clone, a release or its `bin`, a crate's `out`."""
    crate, file = _files(name)
    yield folder / "crates" / crate / "out" / crate
    if (folder / "crates").is_dir():
        # A clone's own `residency` builds the program first, and is none of those that are built.
        return
    for place in (folder, folder / "bin"):
        yield place / file
        yield place / crate
    yield folder.parent.parent / crate / "out" / crate


def _named(name: str, named: Path) -> List[Path]:
    """Where `RESIDENCY_BIN` says that a program is."""
    if named.is_dir():
        return list(_in_folder(name, named))
    if name == "residency":
        return [named]
    return list(_in_folder(name, named.parent))


def _places(name: str) -> Iterator[Path]:
    """Where a program may be without `RESIDENCY_BIN`, but for PATH."""
    crate, file = _files(name)
    package = Path(__file__).resolve().parent
    clone = package.parent.parent
    yield package / WITHIN / file
    yield clone / "crates" / crate / "out" / crate
    if (package / "HOME").is_file():
        yield from _in_folder(name, Path(os.fsdecode((package / "HOME").read_bytes())))
    if package.parts[-4:] == _RELEASE:
        yield package.parents[3] / "bin" / file


def find_program(name: str = "residency") -> Path:
    """The path of a built program: `residency`, or `why` and `audit` for `residency-why` and `residency-audit`. ProgramMissing says
    where it was looked for."""
    named = os.environ.get("RESIDENCY_BIN")
    if named:
        places = _named(name, Path(named))
    else:
        places = list(_places(name))
        on_path = shutil.which(_files(name)[1])
        places += [Path(on_path)] if on_path else []
    for place in places:
        if place.is_file() and os.access(place, os.X_OK):
            return place.absolute()
    if named:
        raise ProgramMissing(f"RESIDENCY_BIN names {named}, and there is no program {name}")
    raise ProgramMissing(f"there is no built program {name}: looked for {', '.join(map(str, places))} and on PATH. "
                         "A wheel of a release has it; or RESIDENCY_BIN may name its folder")


def environment() -> Dict[str, str]:
    """The environment that a program is run in: this one, with what spares a large match time where nothing is said of it."""
    return {"GLIBC_TUNABLES": _TUNABLES, **os.environ}


def run_program(name: str, words: Sequence[str], data: bytes, timeout: float = DEFAULT_TIMEOUT) -> Tuple[int, bytes]:
    """The exit status (0 or 4) and what the program writes with these bytes on its standard input.

    DocketFault for status 3, with the field and the name at fault; ProgramMissing, ProgramTimeout, ProgramFailed
    (statuses 1 and 2) and UnknownStatus otherwise.
    """
    path = str(find_program(name))
    try:
        done = subprocess.run([path, *words], input=data, stdout=subprocess.PIPE, stderr=subprocess.PIPE, timeout=timeout,
                              env=environment(), check=False)
    except subprocess.TimeoutExpired as error:
        raise ProgramTimeout(path, timeout) from error
    except OSError as error:
        raise ProgramMissing(f"{path} can't be started: {error}") from error
    told = done.stderr.decode("utf-8", "backslashreplace").strip()
    told = told[len("residency: "):] if told.startswith("residency: ") else told
    if done.returncode in (0, 4) and not told:
        return done.returncode, done.stdout
    if done.returncode == 3 and told:
        raise _fault_of(told, data)
    if done.returncode in (1, 2) and told:
        raise ProgramFailed(done.returncode, told)
    raise UnknownStatus(done.returncode, told or "nothing was told")


def _fault_of(told: str, data: bytes) -> DocketFault:
    """The fault that the program tells of these bytes, with its field and name by the package's own reader."""
    found = _FAULT.fullmatch(told)
    if found is None:
        return DocketFault(0, told)
    fault = first_fault(data)
    return fault if fault is not None and fault.line == told else DocketFault(int(found.group(1)), found.group(2))
