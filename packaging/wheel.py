"""Makes a release's wheel: the package with the programs inside, and a script on the path for each of them."""
from __future__ import annotations

import os
import sys
from typing import Dict, List, Tuple

TOP = os.path.dirname(os.path.dirname(os.path.abspath(__file__)))
sys.path.insert(0, f"{TOP}/python")
import build_wheel  # noqa: E402

# The C library that it wants is in its tag, so that pip takes it where it runs.
TAG = "py3-none-manylinux_{}_{}_x86_64"
Files = Dict[str, Tuple[bytes, bool]]
# Where the archive has the package.
PACKAGE = "lib/residency/python/"


def name_of(version: str, glibc: Tuple[int, int]) -> str:
    return f"residency-{version}-{TAG.format(*glibc)}.whl"


def scripts_of(programs: List[str]) -> str:
    """What stands on the path besides the office's command: each program by the package's launcher."""
    return "".join(["[console_scripts]\n", *(f"{name} = residency.launch:main\n" for name in programs)])


def contents(files: Files, programs: List[str]) -> Files:
    """The wheel's files but for its own: those of the archive's package, and its programs in the package's folder for them."""
    made = {path[len(PACKAGE):]: kept for path, kept in files.items() if path.startswith(f"{PACKAGE}residency/")}
    made.update({f"residency/programs/{name}": files[f"bin/{name}"] for name in programs})
    made["residency/programs/VERDICT"] = files["VERDICT"]
    return made


def wheel(files: Files, programs: List[str], version: str, glibc: Tuple[int, int]) -> bytes:
    """The wheel's bytes, which follow from the archive's files."""
    made = contents(files, programs)
    return build_wheel.packed({**made, **build_wheel.office_script(made, version)}, version, TAG.format(*glibc), scripts_of(programs))
