"""Reads what a program's --help says, from which its manual page and its completions are made: so neither can differ from it."""
from __future__ import annotations

import os
import re
import subprocess
from dataclasses import dataclass, field
from typing import Dict, Iterator, List, Sequence, Tuple

HEADINGS = {"commands": "commands", "subcommands": "commands", "arguments": "arguments", "positional arguments": "arguments",
            "options": "options", "optional arguments": "options"}
ENTRY = re.compile(r"^( +)(\S.*?)(?:  +(\S.*))?$")
FLAG = re.compile(r"(-{1,2}[A-Za-z0-9][\w-]*)(?:[ =](.+))?$")
RANGE = re.compile(r"\b(\d+) to (\d+)\b")
FILES = re.compile(r"FILE|FOLDER|DIRECTORY|PATH|DOCKET|KEY|PROGRAMMES|RESIDENTS|TABLE\b(?!=)|\.csv", re.IGNORECASE)


@dataclass(frozen=True)
class Entry:
    """A command, an argument or an option: its names, the value that it takes if it takes one, and what is said of it."""

    names: Tuple[str, ...]
    value: str
    text: str

    def choices(self) -> List[str]:
        """The words that its value may be, as far as the help tells them."""
        braces = re.fullmatch(r"\{(.*)\}", self.value)
        if braces:
            return braces[1].split(",")
        several = self.value.strip("<>").split("|") if "|" in self.value else []
        words = [it for it in several if re.fullmatch(r"[a-z][a-z0-9-]*", it)]
        span = RANGE.search(self.text)
        if span and int(span[2]) - int(span[1]) < 20:
            words += [str(it) for it in range(int(span[1]), int(span[2]) + 1)]
        return words

    def takes_file(self) -> bool:
        return bool(FILES.search(self.value or " ".join(self.names)))


@dataclass
class Help:
    """What --help says of a program or of one of its commands."""

    usages: List[str] = field(default_factory=list)
    prose: List[List[str]] = field(default_factory=list)
    commands: List[Entry] = field(default_factory=list)
    arguments: List[Entry] = field(default_factory=list)
    options: List[Entry] = field(default_factory=list)

    def about(self) -> str:
        """The first sentence."""
        return " ".join(self.prose[0]) if self.prose else ""


@dataclass(frozen=True)
class Program:
    """A program by its name, with its help and that of each of its commands."""

    name: str
    top: Help
    commands: Dict[str, Help]


def blocks_of(text: str) -> Iterator[List[str]]:
    """The lines between blank lines."""
    block: List[str] = []
    for line in [*text.expandtabs().splitlines(), ""]:
        if line.strip():
            block.append(line.rstrip())
        elif block:
            yield block
            block = []


def flags_of(words: str) -> Tuple[List[str], str]:
    """The flags that stand before an option's text, and its value."""
    names, value = [], ""
    for part in re.split(r", (?=-)", words):
        found = FLAG.match(part)
        if not found:
            raise ValueError(f"{words!r} is no option")
        names.append(found[1])
        value = found[2] or value
    return names, value.strip()


def entries_of(lines: Sequence[str], are_options: bool) -> List[Tuple[int, Entry]]:
    """The entries of a list with how far each is indented; a line that stands further in goes on with the one before."""
    found: List[Tuple[int, str, List[str]]] = []
    for line in lines:
        matched = ENTRY.match(line)
        if not matched:
            raise ValueError(f"no entry of a list: {line}")
        indent, words, text = len(line) - len(line.lstrip()), matched[2], matched[3]
        is_new = words.startswith("-") if are_options else indent <= 4 or bool(found) and indent <= found[0][0]
        if is_new or not found:
            found.append((indent, words, [text] if text else []))
        else:
            found[-1][2].append(line.strip())
    entries = []
    for indent, words, texts in found:
        names, value = flags_of(words) if are_options else ([words], "")
        entries.append((indent, Entry(tuple(names), value, " ".join(texts))))
    return entries


def usages_of(lines: Sequence[str]) -> List[str]:
    """Each way to call it: a line that doesn't begin with the program's name goes on with the one before."""
    name, found = lines[0].split()[0], []
    for line in lines:
        if line.split()[0] == name:
            found.append(line)
        else:
            found[-1] += " " + line
    return found


def read_help(text: str) -> Help:
    """The help's parts. ValueError where a line fits none."""
    made = Help()
    for block in blocks_of(text):
        head = block[0]
        kind = HEADINGS.get(head[:-1].lower(), "") if head.endswith(":") else ""
        if head.lower().startswith("usage:"):
            made.usages = usages_of([head[len("usage:"):].strip(), *(it.strip() for it in block[1:])])
        elif kind:
            entries = entries_of(block[1:], kind == "options")
            least = min(indent for indent, _ in entries)
            for indent, entry in entries:
                # A list of commands under one argument, as argparse writes it.
                is_command = kind == "commands" or kind == "arguments" and indent > least
                is_title = kind == "arguments" and not entry.text and any(further > least for further, _ in entries)
                if not is_title:
                    (made.commands if is_command else getattr(made, kind)).append(entry)
        else:
            made.prose.append(block)
    if not made.usages or not made.options:
        raise ValueError("a help without a usage or without options")
    return made


def help_text(call: Sequence[str], words: Sequence[str]) -> str:
    """What the program says to these words and --help, in lines as long as they come."""
    known = {**os.environ, "COLUMNS": "1000", "LC_ALL": "C.UTF-8", "NO_COLOR": "1"}
    ran = subprocess.run([*call, *words, "--help"], stdin=subprocess.DEVNULL, capture_output=True, text=True, env=known,
                         check=False)
    if ran.returncode or not ran.stdout:
        raise ValueError(f"{' '.join([*call, *words])} --help ends with status {ran.returncode}: {ran.stderr.strip()}")
    return ran.stdout


def read_program(name: str, call: Sequence[str]) -> Program:
    """What the program says of itself and of each of its commands; `help` is a command that has no help of its own."""
    top = read_help(help_text(call, []))
    names = [entry.names[0] for entry in top.commands if entry.names[0] != "help"]
    return Program(name, top, {it: read_help(help_text(call, [it])) for it in names})
