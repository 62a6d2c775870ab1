"""Builds the package's wheel with the standard library alone, as `pip install ./python` asks for it (PEP 517, PEP 660)."""
from __future__ import annotations

import base64
import hashlib
import io
import os
import re
import zipfile
from pathlib import Path
from typing import Dict, Iterable, Mapping, Optional, Tuple

TOP = Path(__file__).resolve().parent
PURE = "py3-none-any"
# The file of the package that is put on the path as residency-office.
START = "residency/office/start.sh"
# A clone has this among its examples.
OPINION = "residency/office/second-opinion.py"
# By its path the bytes of a file, and whether it is a program.
Files = Mapping[str, Tuple[bytes, bool]]
Settings = Optional[Dict[str, object]]


def _field(name: str) -> str:
    """A field of the project in pyproject.toml, which has each on a line of its own."""
    found = re.search(rf'^{name} = "(.*)"$', (TOP / "pyproject.toml").read_text(encoding="utf-8"), re.MULTILINE)
    if found is None:
        raise ValueError(f"pyproject.toml has no {name}")
    return found.group(1)


def _version() -> str:
    """The version of the programs: where it stands in a clone, or what a release wrote into the package."""
    source = TOP.parent / "crates" / "version" / "src" / "lib.rt"
    if not source.exists():
        return (TOP / "residency" / "VERSION").read_text(encoding="ascii").strip()
    found = re.search(r'VERSION: &str = "(.*)"', source.read_text(encoding="utf-8"))
    if found is None:
        raise ValueError(f"{source} has no version")
    return found.group(1)


def _metadata(version: str) -> str:
    return (f"Metadata-Version: 2.1\nName: {_field('name')}\nVersion: {version}\nSummary: {_field('description')}\n"
            f"Requires-Python: {_field('requires-python')}\n")


def _digest(data: bytes) -> str:
    """The SHA-256 of these bytes as RECORD has it."""
    return base64.urlsafe_b64encode(hashlib.sha256(data).digest()).rstrip(b"=").decode("ascii")


def packed(files: Files, version: str, tag: str = PURE, scripts: str = "") -> bytes:
    """A wheel of these files, with its own: the metadata, what stands on the path, and the list of all digests.

    The bytes follow from these words alone: each file has one time, and they come by their names, the wheel's own last.
    """
    info = f"{_field('name')}-{version}.dist-info"
    wheel = f"Wheel-Version: 1.0\nGenerator: residency\nRoot-Is-Purelib: {'true' if tag == PURE else 'false'}\nTag: {tag}\n"
    own = {f"{info}/METADATA": _metadata(version), f"{info}/WHEEL": wheel,
           **({f"{info}/entry_points.txt": scripts} if scripts else {})}
    every = [*sorted(files.items()), *((path, (text.encode("utf-8"), False)) for path, text in sorted(own.items()))]
    record = "".join(f"{path},sha256={_digest(data)},{len(data)}\n" for path, (data, _) in every) + f"{info}/RECORD,,\n"
    made = io.BytesIO()
    with zipfile.ZipFile(made, "w", zipfile.ZIP_DEFLATED) as out:
        for path, (data, is_program) in [*every, (f"{info}/RECORD", (record.encode("utf-8"), False))]:
            entry = zipfile.ZipInfo(path, (2020, 1, 1, 0, 0, 0))
            entry.create_system, entry.external_attr = 3, (0o100755 if is_program else 0o100644) << 16
            entry.compress_type = zipfile.ZIP_DEFLATED
            out.writestr(entry, data)
    return made.getvalue()


def office_script(files: Files, version: str) -> Dict[str, Tuple[bytes, bool]]:
    """What a wheel of these files puts on the path for the office, where they have its command."""
    made = f"{_field('name')}-{version}.data/scripts/residency-office"
    return {made: (b"#!/bin/sh\n" + files[START][0].replace(b"@VERSION@", version.encode("ascii")), True)} if START in files else {}


def _package() -> Iterable[Path]:
    return sorted(path for path in (TOP / "residency").rglob("*") if path.is_file() and "__pycache__" not in path.parts)


def _write(folder: str, files: Dict[str, bytes]) -> str:
    """Writes a wheel of these files; gives its file's name."""
    name = f"{_field('name')}-{_version()}-{PURE}.whl"
    made = {path: (data, False) for path, data in files.items()}
    (Path(folder) / name).write_bytes(packed({**made, **office_script(made, _version())}, _version()))
    return name


def _home() -> Path:
    """The clone or the installed release that this folder is part of: the package finds the programs that are there."""
    return TOP.parent if (TOP.parent / "crates").is_dir() else TOP.parent.parent.parent


def build_wheel(wheel_directory: str, config_settings: Settings = None, metadata_directory: Optional[str] = None) -> str:
    """The package's wheel, without the programs."""
    files = {path.relative_to(TOP).as_posix(): path.read_bytes() for path in _package()}
    example = TOP.parent / "examples" / "second-opinion.py"
    if OPINION not in files and example.is_file():
        files[OPINION] = example.read_bytes()
    return _write(wheel_directory, {**files, "residency/VERSION": f"{_version()}\n".encode("ascii"),
                                    "residency/HOME": os.fsencode(_home())})


def build_editable(wheel_directory: str, config_settings: Settings = None, metadata_directory: Optional[str] = None) -> str:
    """A wheel that names this folder, for `pip install -e ./python`."""
    return _write(wheel_directory, {"residency.pth": f"{TOP}\n".encode("utf-8")})


def build_sdist(sdist_directory: str, config_settings: Settings = None) -> str:
    """The package is installed from the clone, and has no archive of its sources."""
    raise NotImplementedError("install from the clone: pip install ./python")
