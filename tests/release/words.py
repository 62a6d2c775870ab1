"""What a program's --help says, read apart from what makes manual pages and completions of it, and what these two say."""
from __future__ import annotations

import os
import re
import subprocess
from typing import List, Sequence, Set

TITLE = re.compile(r"^(?:usage|exit status(?:es)?|examples?): *", re.IGNORECASE)


def said(words: Sequence[str], **known: str) -> str:
    environment = {**os.environ, "COLUMNS": "1000", "LC_ALL": "C.UTF-8", **known}
    return subprocess.run(words, capture_output=True, text=True, env=environment, stdin=subprocess.DEVNULL, check=False).stdout


def options_of(text: str) -> Set[str]:
    """The options that a help lists: what stands at the head of a line that begins with a dash, up to two spaces."""
    found: Set[str] = set()
    for line in text.splitlines():
        if re.match(r" +-", line):
            head = re.split(r"  +", line.strip())[0]
            found.update(re.findall(r"(?:^|, )(-[A-Za-z]|--[a-z][a-z-]*)", head))
    return found


def commands_of(text: str) -> List[str]:
    """The commands that a help lists, below `Commands:` or, as argparse has it, below `COMMAND`."""
    found, indent = [], 0
    for line in text.splitlines():
        if line in ("Commands:", "  COMMAND"):
            indent = 2 if line == "Commands:" else 4
        elif indent and re.match(rf" {{{indent}}}[a-z]", line):
            found.append(line.split()[0])
        elif not line.startswith("   "):
            indent = 0
    return found


def squeezed(text: str) -> str:
    return re.sub(r"\s+", "", text)


def sayings_of(text: str) -> List[str]:
    """Each line of a help without its blanks and without the words that are a section's title on a manual page."""
    lines = [squeezed(TITLE.sub("", line)) for line in text.splitlines() if not re.fullmatch(r"[A-Za-z ]+:| +COMMAND", line)]
    return [line for line in lines if line]


def page_text(roff: str) -> str:
    """A manual page's words without blanks, read apart from any formatter: its escapes, fonts and requests."""
    lines = []
    for line in roff.splitlines():
        if line.startswith((".S", ".B")):
            line = line.split(" ", 1)[1] if " " in line else ""
        if not line.startswith("."):
            lines.append(line)
    text = "".join(lines)
    for written, sign in ((r"\fB", ""), (r"\fI", ""), (r"\fR", ""), (r"\&", ""), (r"\-", "-"), (r"\(aq", "'"), (r"\(ga", "`"),
                          (r"\(ha", "^"), (r"\(ti", "~"), (r"\e", "\\")):
        text = text.replace(written, sign)
    return squeezed(text)


def bash_offers(path: str, name: str, words: Sequence[str]) -> Set[str]:
    """What bash completes these words by, the last of which is being written."""
    line = " ".join(f"'{word}'" for word in [name, *words])
    function = "_" + name.replace("-", "_")
    script = f". '{path}'; COMP_WORDS=({line}); COMP_CWORD={len(words)}; {function}; printf '%s\\n' \"${{COMPREPLY[@]}}\""
    return set(said(["bash", "--norc", "-c", script]).split())


def fish_offers(path: str, name: str, words: Sequence[str]) -> Set[str]:
    script = f"source '{path}'; complete -C '{' '.join([name, *words])}'"
    return {line.split("\t")[0] for line in said(["fish", "--no-config", "-c", script]).splitlines()}


def zsh_offers(path: str, name: str, words: Sequence[str]) -> Set[str]:
    """What the file tells zsh's own functions, which stand-ins print: of the program, or of the command before the last word."""
    command = words[0] if len(words) > 1 else ""
    state = f"state=words; line=({command})" if command else "state=command"
    script = f"""
        asked=0
        _arguments() {{
            asked=$((asked + 1))
            [[ $asked = {2 if command else 1} ]] && print -rl -- "${{@:#-C}}"
            {state}
            return 0
        }}
        _describe() {{ [[ -n '{command}' ]] || print -rl -- "${{commands[@]}}" }}
        compadd() {{ [[ -z '{command}' ]] || print -rl -- "$@" }}
        complete_it() {{ . '{path}' }}
        complete_it"""
    offers = said(["zsh", "-f", "-c", script]).splitlines()
    return {re.split(r"[\[:]", line)[0] for line in offers}
