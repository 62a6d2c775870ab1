"""The settings of an office as one value and one file: how its tables are read, and what its match is called.

The file is INI: it may have remarks, a person can mend it, and it is read here, line by line, since the reader of Python's library
doesn't say in which line a setting is at fault (and its reader of TOML comes with 3.11).
"""
from dataclasses import dataclass, field
from typing import Any, Callable, Dict, Iterator, List, Mapping, Tuple

from .cells import WORDS, known_delimiter
from .faults import Faults, FaultsError, OfficeError
from .headings import HEADING, ROLES, plain
from .languages import sections
from .text import TEXTS, known_encoding, own_lines

NAME = "residency-office.ini"
BOTH, MATCH = "tables", "match"
TABLES = ("programmes", "residents")


@dataclass
class Settings:
    """How tables are read, where that isn't found from themselves, and what is said of their match. What is of one table is by
    its name."""

    heading: List[str] = field(default_factory=list)
    ignore: List[str] = field(default_factory=list)
    keep: List[str] = field(default_factory=list)
    allow_gaps: bool = False
    allow_short: bool = False
    allow_alone: bool = False
    sheet: Dict[str, str] = field(default_factory=dict)
    heading_row: Dict[str, int] = field(default_factory=dict)
    encoding: Dict[str, str] = field(default_factory=dict)
    delimiter: Dict[str, str] = field(default_factory=dict)
    expect: Dict[str, int] = field(default_factory=dict)
    title: str = ""
    order: str = "name"
    cut_offs: bool = False
    sender: str = ""
    appeals: str = ""
    signature: str = ""
    language: str = ""
    language_column: str = ""
    allow_lost_letters: bool = False
    allow_alike: bool = False

    def texts(self) -> Dict[str, str]:
        """What is said of every letter."""
        return {name: getattr(self, name) for name in TEXTS if getattr(self, name)}

    def kept(self) -> List[str]:
        """The columns of residents to keep."""
        return list(dict.fromkeys([*self.keep, *([self.language_column] if self.language_column else [])]))


def number(word: str) -> int:
    if not (word.isascii() and word.isdecimal() and 0 < len(word) < 10):
        raise ValueError(word)
    return int(word)


def from_one(word: str) -> int:
    return number(word) or number("")


def heading(word: str) -> str:
    role, _, rest = word.partition("=")
    if role.strip() not in ROLES or not plain(rest):
        raise ValueError(word)
    return f"{role.strip()}={rest.strip()}"


@dataclass(frozen=True)
class Setting:
    """A setting: in which section it stands, what reads its value, what that has to be, and what the setting is."""

    section: str
    reads: Callable[[str], Any]
    wanted: str
    about: str


SEVERAL = ("heading", "ignore", "keep")
# What reads a value, and what that has to be, by the word that settings.txt has of it.
READS: Dict[str, Tuple[Callable[[str], Any], str]] = {
    "heading": (heading, HEADING), "text": (str, "a text"), "yes": (lambda word: {"yes": True, "no": False}[word.lower()], "yes or no"), "row": (from_one, "a number from 1"),
    "set": (known_encoding, "a character set"), "mark": (known_delimiter, "comma, semicolon, tab, bar or a sign"), "number": (number, "a number"),
    "order": ({"name": "name", "table": "table"}.__getitem__, "name or table")}
# The settings by their names, which are those of the options; a section of one table is both tables' here.
SETTINGS: Dict[str, Setting] = {
    name: Setting(section, *READS[how], about) for section, lines in sections("settings.txt").items() for line, about in lines.items()
    for name, how in [line.split()]}
SECTIONS = (BOTH, *TABLES, MATCH)
ALLOWED = tuple(name for name in SETTINGS if name.startswith("allow_"))


def section_of(setting: Setting) -> Tuple[str, ...]:
    """The sections in which a setting may stand."""
    return TABLES if setting.section in TABLES else (setting.section,)


def lines_of(text: str, label: str, faults: Faults) -> Iterator[Tuple[int, str, str, str]]:
    """Each setting of a file with its line, its section, its name and its value."""
    section = ""
    for line, name, mark, value in own_lines(text, label, faults):
        if not mark and name.startswith("[") and name.endswith("]"):
            section = name[1:-1].strip()
            if section not in SECTIONS:
                faults.tell("file.setting-section", label, line, None, {"section": section, "sections": SECTIONS})
        elif not mark:
            faults.tell("file.setting-line", label, line, None, {"text": name})
        elif not section:
            faults.tell("file.setting-nowhere", label, line, None, {"name": name, "sections": SECTIONS})
        elif section in SECTIONS:
            yield line, section, name, value


def read_settings(text: str, label: str) -> Settings:
    """The settings of a file's text. FaultsError with each setting that is unknown, that stands twice, or whose value is none."""
    faults, found, seen = Faults(), Settings(), set()
    for line, section, name, value in lines_of(text, label, faults):
        setting = SETTINGS.get(name)
        if setting is None or section not in section_of(setting):
            others = [other_name for other_name, other in SETTINGS.items() if section in section_of(other)]
            faults.tell("file.setting-unknown", label, line, None, {"name": name, "section": section, "settings": others})
        elif (section, name) in seen and name not in SEVERAL:
            faults.tell("file.setting-twice", label, line, None, {"name": name, "section": section})
        elif value:
            try:
                put(found, section, name, setting.reads(value))
            except (OfficeError, LookupError, ValueError):
                faults.tell("file.setting-value", label, line, None, {"name": name, "value": value, "wanted": setting.wanted})
        seen.add((section, name))
    if len(faults):
        raise FaultsError(faults)
    return found


def put(settings: Settings, section: str, name: str, value: Any) -> None:
    """Sets one setting, or adds a word to one of several."""
    if section in TABLES:
        getattr(settings, name)[section] = value
    elif name in SEVERAL:
        getattr(settings, name).append(value)
    else:
        setattr(settings, name, value)


def values_of(settings: Settings) -> Dict[str, Dict[str, Any]]:
    """What is said, by section and name: only what is another thing than nothing."""
    said: Dict[str, Dict[str, Any]] = {section: {} for section in SECTIONS}
    for name, setting in SETTINGS.items():
        value, otherwise = getattr(settings, name), getattr(Settings(), name)
        for section in section_of(setting):
            said_here = value.get(section) if isinstance(value, dict) else value
            if said_here not in (None, otherwise):
                said[section][name] = said_here
    return {section: values for section, values in said.items() if values}


def from_values(said: Mapping[str, Mapping[str, Any]]) -> Settings:
    """The settings of what `values_of` gave. ValueError where it gave no such thing."""
    found = Settings()
    try:
        for section, values in said.items():
            for name, value in values.items():
                if section not in section_of(SETTINGS[name]) or isinstance(value, list) != (name in SEVERAL):
                    raise ValueError(name)
                for item in value if isinstance(value, list) else [value]:
                    put(found, section, name, SETTINGS[name].reads(word_of(name, item)))
    except (AttributeError, LookupError, TypeError, OfficeError) as error:
        raise ValueError(str(error)) from None
    return found


def word_of(name: str, value: Any) -> str:
    """A value as a file has it."""
    if isinstance(value, bool):
        return "yes" if value else "no"
    return next((word for word, mark in WORDS.items() if name == "delimiter" and mark == value), str(value))


def file_text(settings: Settings, remarks: Mapping[str, List[str]]) -> str:
    """A settings file: each setting with what it is, and those of which nothing is said as a remark; `remarks` stand below the
    heads of their sections."""
    said = values_of(settings)
    lines = ["# The settings of the office's command. A line that begins with # says nothing; take the # away to say what it says.",
             "# What is said on the command line stands in place of what is said here."]
    for section in SECTIONS:
        lines += ["", f"[{section}]", *(f"# {remark}" for remark in remarks.get(section, []))]
        for name, setting in SETTINGS.items():
            if section in section_of(setting):
                value = said.get(section, {}).get(name)
                words = [] if value is None else value if isinstance(value, list) else [word_of(name, value)]
                lines += [f"# {setting.about}", *(f"{name} = {word}" for word in words), *([] if words else [f"#{name} ="])]
    return "\n".join(lines) + "\n"
