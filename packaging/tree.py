"""The files of the repository, and what git says of them."""
from __future__ import annotations

import os
import subprocess
from typing import Dict, List

# What .gitignore names, for a tree that git doesn't know.
IGNORED = ("out", ".build", ".bench", "dist", "__pycache__", ".git")


def said_by(top: str, *words: str) -> str:
    """What a command says, or no text where it fails or is missing."""
    try:
        ran = subprocess.run(words, cwd=top, capture_output=True, text=True, stdin=subprocess.DEVNULL, check=False)
    except OSError:
        return ""
    return ran.stdout.strip() if ran.returncode == 0 else ""


def git(top: str, *words: str) -> str:
    """What git says of this checkout, whoever owns it; no text where it is none."""
    return said_by(top, "git", "-c", f"safe.directory={os.path.realpath(top)}", *words)


def listed(top: str, *folders: str) -> List[str]:
    """The files of these folders that belong to the repository and are there: those that git knows, or all but what it ignores."""
    found = git(top, "ls-files", "--", *folders).splitlines()
    if not found:
        found = [os.path.relpath(f"{at}/{name}", top) for folder in folders for at, inner, names in os.walk(f"{top}/{folder}")
                 for name in names if not set(os.path.relpath(at, top).split(os.sep)) & set(IGNORED)]
        found += folders
    return sorted(path for path in found if os.path.isfile(f"{top}/{path}"))


def state_of(top: str) -> Dict[str, str]:
    """The commit and its tree that are checked out, and what isn't committed of the files that lie there."""
    return {"commit": git(top, "rev-parse", "HEAD"), "tree": git(top, "rev-parse", "HEAD^{tree}"),
            "changed": git(top, "status", "--porcelain")}
