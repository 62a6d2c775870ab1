"""Makes a release's Debian package, by Python alone: the archive's files below /usr, and what dpkg has to know of them."""
from __future__ import annotations

import email.utils
import hashlib
import lzma
import re
import tarfile
import time
from typing import Dict, Tuple

from archive import tarred, zipped

Files = Dict[str, Tuple[bytes, bool]]
DOC = "usr/share/doc/residency"
# Where files of the archive lie below /usr, the first that fits; what is only for the archive is left out.
PLACES = ((r"share/man/(.*)", r"usr/share/man/\1.gz"),
          (r"share/zsh/site-functions/(.*)", r"usr/share/zsh/vendor-completions/\1"),
          (r"((?:bin|share)/.*)", r"usr/\1"), (r"(lib/residency/python/residency/.*)", r"usr/\1"),
          (r"CHANGELOG.md", rf"{DOC}/CHANGELOG.md"), (r"VERDICT", rf"{DOC}/VERDICT"),
          (r"(README\.md|docs/.*|examples/.*)", rf"{DOC}/\1"))
# The package for the system's own Python.
LINKS = {"usr/lib/python3/dist-packages/residency": "../../residency/python/residency"}
ABOUT = """Description: matches residents to programmes, by a verified program
 Matches residents to programmes by programme-proposing deferred acceptance,
 proved from the bytes of the input to the bytes of the output. It audits a
 result, replays the journal of all offers and answers, and tells residents why
 they are not with a programme. residency-office makes of an office's two tables
 a folder with the match, its checks, letters and rosters.
"""
# What Python keeps beside the package is none of dpkg's files, and goes before them.
PRERM = """#!/bin/sh
set -e
if [ -d "${DPKG_ROOT-}/usr/lib/residency/python" ]; then
    find "${DPKG_ROOT-}/usr/lib/residency/python" -name __pycache__ -type d -prune -exec rm -rf {} +
fi
"""
COPYRIGHT = """Residency: a residency match by a verified program

Copyright {year} the owner of the repository that {name} was built from.
License: the owner has not chosen a licence yet. Until then nobody is given
leave to copy, change or distribute it.
"""


def name_of(version: str) -> str:
    return f"residency_{version}_amd64.deb"


def place_of(path: str) -> str:
    """Where a file of the archive lies in the package, or no text."""
    for pattern, place in PLACES:
        found = re.fullmatch(pattern, path)
        if found:
            return found.expand(place)
    return ""


def adapted(data: bytes, path: str) -> bytes:
    """A file as the package has it: a manual page is compressed, and pages tell where the package lies here."""
    if path.startswith("share/man/"):
        return zipped(data)
    if path.endswith(".md"):
        return data.replace(b"~/.local/lib/residency/python", b"/usr/lib/residency/python")
    return data


def changes(version: str, maintainer: str, seconds: int) -> bytes:
    """The change log in Debian's form, which leads to the whole one."""
    day = email.utils.formatdate(seconds)
    return zipped(f"residency ({version}) unstable; urgency=medium\n\n  * CHANGELOG.md tells what changed.\n\n"
                  f" -- {maintainer}  {day}\n".encode())


def contents(files: Files, version: str, maintainer: str, seconds: int) -> Files:
    """The package's files by their paths from the root, without the ones that dpkg reads."""
    made = {place_of(path): (adapted(data, path), is_program) for path, (data, is_program) in files.items() if place_of(path)}
    made[f"{DOC}/copyright"] = (COPYRIGHT.format(name=name_of(version), year=time.gmtime(seconds).tm_year).encode(), False)
    made[f"{DOC}/changelog.gz"] = (changes(version, maintainer, seconds), False)
    return made


def control(made: Files, version: str, maintainer: str, glibc: Tuple[int, int]) -> Files:
    """What dpkg reads of the package."""
    size = sum((len(data) + 1023) // 1024 for data, _ in made.values())
    text = (f"Package: residency\nVersion: {version}\nArchitecture: amd64\nMaintainer: {maintainer}\nInstalled-Size: {size}\n"
            f"Depends: libc6 (>= {glibc[0]}.{glibc[1]})\nRecommends: python3 (>= 3.9)\nSection: science\nPriority: optional\n"
            f"{ABOUT}")
    sums = "".join(f"{hashlib.md5(data).hexdigest()}  {path}\n" for path, (data, _) in sorted(made.items()))
    return {"control": (text.encode(), False), "md5sums": (sums.encode(), False), "prerm": (PRERM.encode(), True)}


def member(name: str, data: bytes, seconds: int) -> bytes:
    """A member of an ar archive."""
    head = f"{name:<16}{seconds:<12}{0:<6}{0:<6}{'100644':<8}{len(data):<10}`\n".encode("ascii")
    return head + data + b"\n" * (len(data) % 2)


def package(files: Files, version: str, maintainer: str, glibc: Tuple[int, int], seconds: int) -> bytes:
    """The package's bytes, which follow from the archive's files and these words."""
    made = contents(files, version, maintainer, seconds)
    parts = [("debian-binary", b"2.0\n"),
             ("control.tar.xz", lzma.compress(tarred(control(made, version, maintainer, glibc), ".", seconds,
                                                     tarfile.GNU_FORMAT))),
             ("data.tar.xz", lzma.compress(tarred(made, ".", seconds, tarfile.GNU_FORMAT, LINKS)))]
    return b"!<arch>\n" + b"".join(member(name, data, seconds) for name, data in parts)
