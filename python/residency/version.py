"""The version, which is that of the programs: what a release wrote into the package, or where it stands in a clone."""
from __future__ import annotations

import re
from pathlib import Path

__all__ = ["is_release", "version"]

_PACKAGE = Path(__file__).resolve().parent


def is_release() -> bool:
    """Whether this package came with a release, or by pip: what a release wrote into it is there."""
    return (_PACKAGE / "VERSION").is_file()


def version() -> str:
    """The version, or `unknown` for a copy of the package that has neither."""
    for path, pattern in ((_PACKAGE / "VERSION", r"([0-9.]+)\s*"),
                          (_PACKAGE.parent.parent / "crates" / "version" / "src" / "lib.rt",
                           r'(?s).*VERSION: &str = "([0-9.]+)".*')):
        try:
            found = re.fullmatch(pattern, path.read_text(encoding="utf-8"))
        except OSError:
            continue
        if found is not None:
            return found.group(1)
    return "unknown"
