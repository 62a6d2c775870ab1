"""Makes a release's pages from the repository's: README's parts for users, and the pages of docs/ that they lead to, of which
those with marks have their parts for users too."""
from __future__ import annotations

import os
import re
from typing import Dict, List

BEGIN, END = "<!-- for users -->", "<!-- for all others -->"
# Pages that users' pages name, and that are for whoever works on the programs.
NOT_FOR_USERS = ("docs/decisions", "docs/architecture", "docs/testing")
LINK = re.compile(r"(!?)\[([^\]]*)\]\(([^)#\s]*)(#[^)]*)?\)")
INSTALLED = {"./residency": "residency", "./why": "residency-why", "./residency-national": "residency-national",
             "./why-national": "residency-why-national", "./audit": "residency-audit", "./seal": "residency-seal",
             "./office": "residency-office", "./python": "~/.local/lib/residency/python"}
OF_CLONE = re.compile(r"\./(?:residency-national|why-national|residency|why|audit|seal|office|python)\b(?![/-])")


def users_part(text: str) -> str:
    """A page's title, and what stands between each begin and the end after it. ValueError where there is none."""
    title, *parts = text.split(BEGIN)
    if not parts:
        raise ValueError(f"the page has no {BEGIN}")
    return "\n\n".join([title.strip("\n"), *(part.split(END)[0].strip("\n") for part in parts)]) + "\n"


def installed(text: str) -> str:
    """A page's text with the programs as they are called once they are installed, and the package where it is then."""
    return OF_CLONE.sub(lambda found: INSTALLED[found[0]], text)


def targets_of(text: str, folder: str) -> List[str]:
    """The paths that a page in this folder links to."""
    return [os.path.normpath(os.path.join(folder, found[3])) for found in LINK.finditer(text) if found[3] and "://" not in found[3]]


def within(text: str, folder: str, names: "set[str]") -> str:
    """A page's text in which a link to a file that isn't in the release is its words alone."""
    def plain(found: "re.Match[str]") -> str:
        is_there = not found[3] or "://" in found[3] or os.path.normpath(os.path.join(folder, found[3])) in names
        return found[0] if is_there else found[2]
    return LINK.sub(plain, text)


def adapted(path: str, data: bytes, names: "set[str]") -> bytes:
    """A file as the release has it, of whose paths these are: a page's programs are installed, and its links lead there."""
    if not path.endswith(".md"):
        return data
    return installed(within(data.decode(), os.path.dirname(path), names)).encode()


def release_pages(top: str) -> Dict[str, bytes]:
    """The pages by their paths, README.md first, and the pictures that they show."""
    def read(path: str) -> bytes:
        with open(f"{top}/{path}", "rb") as file:
            return file.read()

    texts = {"README.md": users_part(read("README.md").decode())}
    pictures: Dict[str, bytes] = {}
    wanted = ["README.md"]
    while wanted:
        page = wanted.pop(0)
        for path in targets_of(texts[page], os.path.dirname(page)):
            if path in texts or path in pictures or not path.startswith("docs/") or path.startswith(NOT_FOR_USERS):
                continue
            if path.endswith(".md"):
                text = read(path).decode()
                texts[path] = users_part(text) if BEGIN in text else text
                wanted.append(path)
            else:
                pictures[path] = read(path)
    names = {*texts, *pictures, "CHANGELOG.md", "VERDICT"}
    return {**{path: adapted(path, text.encode(), names) for path, text in texts.items()}, **pictures}
