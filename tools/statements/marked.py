"""Parts of pages that a tool makes, each between two marks."""
import re
from typing import Dict, Iterable

END = "<!-- end of what is made -->"
PART = re.compile(r"^<!-- made by tools/pages: (\w+) -->\n(.*?)^" + re.escape(END) + "$", re.M | re.S)


def begin(name: str) -> str:
    return f"<!-- made by tools/pages: {name} -->"


def parts_of(text: str) -> Dict[str, str]:
    """What stands between the marks of a page, by the name of the part."""
    return {found[1]: found[2] for found in PART.finditer(text)}


def with_part(text: str, name: str, part: str) -> str:
    """The page with this between the marks of this name. ValueError where it has no such marks, or has them twice."""
    marks = [found for found in PART.finditer(text) if found[1] == name]
    if len(marks) != 1:
        raise ValueError(f"it has {len(marks)} parts {begin(name)} that end with {END}, not 1")
    return f"{text[:marks[0].start(2)]}{part.strip()}\n{text[marks[0].end(2):]}"


def shared(top: str, name: str, made: Iterable[str] = ()) -> str:
    """What stands once, in a page of statements/; a line of capitals alone is another such page, but for what is made."""
    def filled(line: "re.Match[str]") -> str:
        return line[0] if line[0] in made else shared(top, line[0].lower(), made)

    with open(f"{top}/tools/statements/{name}.md", encoding="utf-8") as file:
        return re.sub(r"^[A-Z]+$", filled, file.read().strip(), flags=re.M)


def points(text: str) -> str:
    """What stands in bold in the items of a list, each a short sentence, with a link to the list."""
    heads = [f"{it.rstrip('.')}." for it in re.findall(r"^- \*\*(.*?)\*\*", text, re.M)]
    return f"Nothing is claimed about these {len(heads)} points, which [docs/statement.md](docs/statement.md#what-is-not-claimed) explains. {' '.join(heads)}"


def cell(text: str) -> str:
    """A text in a cell of a table."""
    return text.replace("|", "\\|")
