"""The command line: its words, their help and their faults. Man pages and completions may be made of `parser`."""
import argparse
import re
import textwrap
from datetime import date
from typing import TYPE_CHECKING, Any, Callable, Dict, Iterator, NoReturn, Tuple

from ..program import DEFAULT_TIMEOUT
from ..version import is_release
from .faults import OfficeError, shown
from .languages import sections
from .letters import FIELDS
from .running import TITLE
from .settings import NAME
from .telling import say

if TYPE_CHECKING:
    from .verify import Published

# A release has the command by a name that says whose it is.
CALLED = "residency-office" if is_release() else "office"
COMMANDS = sections("commands.txt")
TEXTS = COMMANDS["+texts"]
# What stands in braces in these texts.
VALUES = {"name": NAME, "title": TITLE, "fields": ", $".join(FIELDS), "timeout": f"{DEFAULT_TIMEOUT:g}", "tables": TEXTS["tables"]}
SOLE = ("example", "about", "more", "and", "last")


class Parser(argparse.ArgumentParser):
    """A command line whose help and faults are told as all else is."""

    def print_help(self, file: Any = None) -> None:
        say(self.format_help().rstrip())

    def error(self, message: str) -> NoReturn:
        if message == "the following arguments are required: RESIDENTS":
            message = "only one table was given: PROGRAMMES and RESIDENTS are two"
        raise OfficeError("words.wrong", 2, text=message, program=self.prog)


def wrapped(*paragraphs: str) -> str:
    return "\n\n".join(textwrap.fill(paragraph, 78) for paragraph in paragraphs)


def parser() -> argparse.ArgumentParser:
    """The whole command line."""
    own = {name: lines for name, lines in COMMANDS.items() if not name.startswith("+")}
    examples = "\n".join(f"  {CALLED} {lines['example']}" for lines in own.values())
    top = Parser(prog=CALLED, description=wrapped(TEXTS["about"], f"`{CALLED} COMMAND --help` says more of each command."),
                 epilog=f"examples:\n{examples}\n\n{wrapped(TEXTS['statuses'])}", formatter_class=argparse.RawDescriptionHelpFormatter)
    commands = top.add_subparsers(dest="command", metavar="COMMAND", required=True)
    for name, lines in own.items():
        about = [lines[word].format(**VALUES) for word in SOLE[1:] if word in lines]
        command = commands.add_parser(
            name, help=about[0][0].lower() + about[0][1:].rstrip("."), description=wrapped(*about),
            epilog=f"example: {CALLED} {lines['example']}\n\n{wrapped(TEXTS['statuses'])}", formatter_class=argparse.RawDescriptionHelpFormatter)
        either = command.add_mutually_exclusive_group(required=True) if any(line.endswith(" either") for line in lines) else command
        for line, text in words_of(lines):
            words, more = word_of(line)
            (either if line.endswith(" either") else command).add_argument(words, help=text.format(**VALUES), **more)
    return top


def words_of(lines: Dict[str, str]) -> Iterator[Tuple[str, str]]:
    """The words of a command, those of the sections that it names among them."""
    for line, text in lines.items():
        if line.startswith("+"):
            yield from words_of(COMMANDS[line])
        elif line not in SOLE:
            yield line, text


def word_of(line: str) -> Tuple[str, Dict[str, Any]]:
    """The name of a word or an option, and what argparse has to know of it."""
    name, *parts = line.split()
    values = [part for part in parts if not part.islower() or "|" in part]
    if not name.startswith("--"):
        value = (values or [name])[0]
        bare = value.rstrip("?+*")
        return (name if values else bare.lower()), {"metavar": bare, **({"nargs": value[-1]} if bare != value else {})}
    more: Dict[str, Any] = {"required": True} if "required" in parts else {}
    if not values:
        return name, {"action": "store_true"}
    if "several" in parts:
        more.update(action="append", default=[])
    if len(values) > 1:
        more.update(nargs=len(values), metavar=tuple(values))
    elif "|" in values[0]:
        more.update(choices=values[0].split("|"))
    else:
        more.update(metavar=values[0], type=READS.get(values[0], str))
    return name, {**more, **({"default": DEFAULT_TIMEOUT} if values == ["SECONDS"] else {})}


def day(text: str) -> date:
    try:
        return date.fromisoformat(text)
    except ValueError:
        raise argparse.ArgumentTypeError(f"{shown(text)} is no day; it is written as 2026-03-20") from None


def root(text: str) -> "Published":
    from .verify import Published

    found = re.fullmatch("(?:([0-9]{1,9}),)?([0-9a-f]{64})", text)
    if found is None:
        raise argparse.ArgumentTypeError(f"{shown(text)} is no root: it has 64 small hexadecimal digits, after the number of members "
                                         "and a comma")
    return Published(found[2], int(found[1]) if found[1] else None)


def count(text: str) -> int:
    if not (text.isascii() and text.isdecimal() and len(text) < 10):
        raise argparse.ArgumentTypeError(f"{shown(text)} is no number")
    return int(text)


def seconds(text: str) -> float:
    try:
        number = float(text)
    except ValueError:
        number = 0
    if not 0 < number < 1e6:
        raise argparse.ArgumentTypeError(f"{shown(text)} is no number of seconds")
    return number


# What reads a value, by what stands for it.
READS: Dict[str, Callable[[str], Any]] = {"YYYY-MM-DD": day, "N,ROOT": root, "NUMBER": count, "SECONDS": seconds}
