"""Reads the messages of commits: a subject of at most 72 characters, and in the body why. A merge needs no words of its own."""
from __future__ import annotations

import os
import re
import subprocess
import tempfile
from typing import Dict, Iterator, List, NamedTuple, Optional

# The commits up to this one have messages of other forms, and stay as they are.
SINCE = "0eda78b291a9bc2c98a7e6f6f2affa7ae26a8b88"
LONGEST = 72
# The last lines of a message that name people or commits, and give no reason.
TRAILER = re.compile(r"^[A-Z][\w-]*: \S")
FORMAT = "%H%x00%s%x00%b%x01"


class Commit(NamedTuple):
    id: str
    subject: str
    body: str


def git(top: str, *words: str) -> Optional[str]:
    """What git says about the repository that begins in this folder, or None where it refuses."""
    own = {name: value for name, value in os.environ.items() if not name.startswith("GIT_")}
    own["GIT_CEILING_DIRECTORIES"] = os.path.dirname(os.path.realpath(top))
    try:
        done = subprocess.run(["git", "-C", top, *words], env=own, stdin=subprocess.DEVNULL, stdout=subprocess.PIPE,
                              stderr=subprocess.DEVNULL, text=True, errors="replace")
    except FileNotFoundError:
        return None
    return done.stdout if done.returncode == 0 else None


def commits_since(top: str, since: str) -> Optional[List[Commit]]:
    """The commits after this one that are no merges; None where the history can't be seen so far back."""
    if git(top, "merge-base", "--is-ancestor", since, "HEAD") is None:
        return None
    said = git(top, "log", "--no-merges", f"--format={FORMAT}", f"{since}..HEAD")
    return None if said is None else [Commit(*it.lstrip("\n").split("\0")) for it in said.split("\1")[:-1]]


def faults_of(commit: Commit) -> Iterator[str]:
    told = f"{commit.id[:7]} {commit.subject[:60]}"
    if len(commit.subject) > LONGEST:
        yield f"{told}: its subject has {len(commit.subject)} characters, not {LONGEST} at most"
    if not any(it.strip() and not TRAILER.match(it) for it in commit.body.split("\n")):
        yield f"{told}: it has no body that says why"


def planted() -> List[str]:
    """Over a repository that is made here, what isn't told as it should be."""
    with tempfile.TemporaryDirectory() as top:
        named = ("-c", "user.name=Somebody", "-c", "user.email=somebody@example.org", "-c", "commit.gpgsign=false")

        def commit(*paragraphs: str) -> str:
            told = [word for it in paragraphs for word in ("-m", it)]
            git(top, *named, "commit", "-q", "--allow-empty", *told)
            return (git(top, "rev-parse", "HEAD") or "").strip()

        if commits_since(top, "HEAD") is not None:
            return ["planted and not told: a folder without a history"]
        git(top, "init", "-q")
        since = commit("S" * 90)
        wanted: Dict[str, int] = {
            commit("s" * LONGEST, "Why it is so."): 0,
            commit("s" * (LONGEST + 1), "Why it is so."): 1,
            commit("A subject alone"): 1,
            commit("A subject with who made it", "Co-authored-by: Somebody <somebody@example.org>"): 1,
            commit("s" * (LONGEST + 1)): 2,
        }
        git(top, "checkout", "-q", "-b", "other", since)
        wanted[commit("Another line of commits", "Why it is so.")] = 0
        git(top, *named, "merge", "-q", "--no-ff", "-m", "m" * 90, "@{-1}")
        found = commits_since(top, since) or []
        told = {it.id: len(list(faults_of(it))) for it in found}
        unseen = [] if commits_since(top, "0" * 40) is None else ["planted and not told: a commit that isn't in the history"]
        return unseen + ([] if told == wanted else [f"planted messages: {sorted(told.values())} faults, not {sorted(wanted.values())}"])
