"""Makes a program's manual page from its help."""
from __future__ import annotations

import re
import textwrap
from typing import List, Sequence

from helps import Entry, Help, Program

TITLED = re.compile(r"^([A-Za-z]+(?: [a-z]+)?):(?: |$)")
# The sections that a paragraph of the help goes to, by the words that it begins with.
SECTIONS = {"exit status": "EXIT STATUS", "exit statuses": "EXIT STATUS", "example": "EXAMPLES", "examples": "EXAMPLES"}


def plain(text: str) -> str:
    """A text as roff takes it, on one line."""
    for sign, written in (("\\", "\\e"), ("-", "\\-"), ("'", "\\(aq"), ("`", "\\(ga"), ("^", "\\(ha"), ("~", "\\(ti")):
        text = text.replace(sign, written)
    return "\\&" + text if text.startswith(".") else text


def filled(text: str) -> List[str]:
    """A text as roff takes it, on lines that it fills again."""
    lines = textwrap.wrap(plain(text), 78, break_long_words=False, break_on_hyphens=False)
    return ["\\&" + line if line.startswith(".") else line for line in lines] or ["\\&"]


def sentence(text: str) -> str:
    """The first sentence of a text, without its point."""
    return re.split(r"(?<=[a-z)])\.(?: |$)", text)[0]


def bold(text: str) -> str:
    return f"\\fB{plain(text)}\\fR"


def slanted(text: str) -> str:
    return f"\\fI{plain(text)}\\fR"


def entry_lines(entry: Entry) -> List[str]:
    names = ", ".join(bold(name) if name.startswith("-") else slanted(name) for name in entry.names)
    return [".TP", names + (f" {slanted(entry.value)}" if entry.value else ""), *filled(entry.text)]


def literal(lines: Sequence[str]) -> List[str]:
    """Lines that stay as they are."""
    return [".RS 4", ".nf", *(plain(line.strip()) for line in lines), ".fi", ".RE"]


def paragraph(block: Sequence[str]) -> List[str]:
    """A paragraph of the help: text is filled; lines that are indented stay as they are."""
    text = [line for line in block if not line.startswith("  ")]
    kept = [line for line in block if line.startswith("  ")]
    return [".PP", *(filled(" ".join(text)) if text else []), *(literal(kept) if kept else [])]


def titled(block: Sequence[str]) -> str:
    """The section that a paragraph opens, or no text."""
    found = TITLED.match(block[0])
    return SECTIONS.get(found[1].lower(), "") if found else ""


def in_section(block: Sequence[str]) -> List[str]:
    """A paragraph without the title that its section has."""
    rest = [TITLED.sub("", block[0], count=1).strip(), *block[1:]]
    rest = [line for line in rest if line]
    return rest


def body(help_: Help, prose: Sequence[Sequence[str]], heading: str) -> List[str]:
    """Arguments, options and paragraphs, each section under a heading of this kind."""
    lines: List[str] = []
    for block in prose:
        if not titled(block):
            lines += paragraph(block)
    for title, entries in (("ARGUMENTS", help_.arguments), ("OPTIONS", help_.options)):
        if entries:
            lines += [f"{heading} {title}"] if heading == ".SH" else []
            for entry in entries:
                lines += entry_lines(entry)
    for block in prose:
        name = titled(block)
        if name:
            rest = in_section(block)
            lines += [f"{heading} {name}"] if heading == ".SH" else [".PP", f"{name.capitalize()}:"]
            lines += literal(rest) if name == "EXAMPLES" else filled(" ".join(rest))
    return lines


def manual_page(program: Program, version: str, date: str, others: Sequence[str]) -> str:
    """The page in the form of man(7)."""
    name, top = program.name, program.top
    lines = [f".\\\" Made from what {name} --help says.", f'.TH {name.upper()} 1 "{date}" "residency {version}" "Residency"',
             ".SH NAME", *filled(f"{name} - {sentence(top.about())}"), ".SH SYNOPSIS"]
    for place, usage in enumerate(usage for help_ in [top, *program.commands.values()] for usage in help_.usages):
        lines += ([".br"] if place else []) + filled(usage)
    lines += [".SH DESCRIPTION", *filled(top.about()), *body(top, top.prose[1:], ".SH")]
    if program.commands:
        lines.append(".SH COMMANDS")
        for entry in top.commands:
            lines += [".TP", bold(entry.names[0]), *filled(entry.text)]
        for word, help_ in program.commands.items():
            lines += [f".SS {plain(name)} {plain(word)}", *filled(help_.about()), *body(help_, help_.prose[1:], ".SS")]
    if others:
        lines += [".SH SEE ALSO", *(f".BR {plain(it)} (1){',' if it != others[-1] else ''}" for it in others)]
    return "\n".join(lines) + "\n"
