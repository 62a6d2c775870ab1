"""Finds what prints, asks or ends a process outside the edge of the office's command, and what words a fault there: its steps and
faults are values."""
from __future__ import annotations

import ast
import re
from typing import Dict, Iterator, List

# Where the command meets a terminal. `apart` ends a process that it made itself, and `leftover` says what a killed command left,
# whatever comes after.
EDGE = {"__main__.py", "command.py", "line.py", "telling.py", "stopping.py"}
# What the office hands out is written by these and by the page that checks a receipt, in phrases; what the command says of two
# matches is in English still.
WRITERS = {"compare.py", "counter.py", "letters.py", "page.py", "phrases.py", "public.py", "rosters.py"}
UNPHRASED = "a sentence that is no phrase"
SENTENCE = re.compile(r"[A-Za-z]{2,},? [a-z]{2,}")
# Markup, and the classes of a table's rows and cells.
MARKUP = re.compile(r"<[^>]*>|<[^>]*$|^[^<]*>|[a-z-]+=\S*|^(?:stack|bar) [a-z]+$")
STILL = {"compare.py": {UNPHRASED}, "apart.py": {"_exit"}, "leftover.py": {"complain"}, "auditor.py": {"a word of the command line"},
         "verify.py": {"a word of the command line"}}
# Where sentences are made, with the names of options, and what else is no sentence. An error is made of its code alone.
TEXTS = {"command.py", "line.py", "sentences.py"}
WORDS = re.compile(r"(?<![\w-])--[a-z]+\b|nothing was (?:written|left)")
CODE = re.compile(r"[a-z]+\.[a-z-]+")
CALLS = {"print", "say", "complain", "failed", "input", "exit", "_exit", "quit", "chdir", "umask"}
OF_OS = {"chdir", "umask"}
STREAMS = {"stdout", "stderr"}


def called(node: ast.Call) -> str:
    """The last name of what is called; a call of the process's own modules alone counts where it is an attribute."""
    if isinstance(node.func, ast.Name):
        return node.func.id if node.func.id not in OF_OS else ""
    if isinstance(node.func, ast.Attribute) and isinstance(node.func.value, ast.Name) and node.func.value.id in ("os", "sys", "telling"):
        return node.func.attr
    return ""


def found_in(text: str) -> Iterator[str]:
    """Each call that a module outside the edge may not make, and each stream that it names."""
    for node in ast.walk(ast.parse(text)):
        if isinstance(node, ast.Call) and called(node) in CALLS:
            yield called(node)
        elif isinstance(node, ast.Attribute) and node.attr in STREAMS and isinstance(node.value, ast.Name) and node.value.id == "sys":
            yield node.attr
        elif isinstance(node, ast.ImportFrom) and node.module == "sys":
            yield from (name.name for name in node.names if name.name in STREAMS)
        elif isinstance(node, ast.Name) and node.id == "SystemExit":
            yield node.id


def worded(text: str) -> Iterator[str]:
    """Each sentence for the command alone. A text of one word is what a program is given, and a docstring is shown to nobody."""
    whole = ast.parse(text)
    untold = {id(node.value) for node in ast.walk(whole) if isinstance(node, ast.Expr)}
    for node in ast.walk(whole):
        if isinstance(node, ast.Constant) and isinstance(node.value, str) and id(node) not in untold:
            if " " in node.value and WORDS.search(node.value):
                yield "a word of the command line"


def uncoded(text: str) -> Iterator[str]:
    """Each error that is made of a sentence."""
    for node in ast.walk(ast.parse(text)):
        if isinstance(node, ast.Call) and isinstance(node.func, ast.Name) and node.func.id == "OfficeError" and node.args:
            first = node.args[0]
            if isinstance(first, ast.JoinedStr) or isinstance(first, ast.Constant) and not CODE.fullmatch(str(first.value)):
                yield "a sentence in an error"


def unphrased(text: str) -> Iterator[str]:
    """Each text of several words that no file of phrases has, and that isn't markup alone."""
    whole = ast.parse(text)
    untold = {id(node.value) for node in ast.walk(whole) if isinstance(node, ast.Expr)}
    for node in ast.walk(whole):
        if isinstance(node, ast.Constant) and isinstance(node.value, str) and id(node) not in untold and SENTENCE.search(MARKUP.sub("", node.value)):
            yield UNPHRASED


def unphrased_page(text: str) -> List[str]:
    """Each word of a page that isn't a mark for a phrase, and each sentence in a text of its script."""
    script = re.sub(r"^ *//.*$", "", "".join(re.findall(r"<script>(.*?)</script>", text, re.S)), flags=re.M)
    texts = [one for one in re.findall(r'"[^"\n]*"|`[^`\n]*`', script) if SENTENCE.search(re.sub(r"\$\{[^}]*\}", "", one))]
    shown = re.sub(r"<(style|script)>.*?</\1>|<[^>]*>|@[A-Za-z-]+@", " ", text, flags=re.S)
    return re.findall(r"[^\W\d_]+", shown) + [script_text for script_text in texts if script_text != '"use strict"']


def faults_of(modules: Dict[str, str]) -> List[str]:
    """What is found in these modules of the office, by their names; and what is let through and isn't there any more."""
    told: List[str] = []
    for name, text in sorted(modules.items()):
        found = set(uncoded(text)) | set(() if name in EDGE else found_in(text)) | set(() if name in TEXTS else worded(text))
        found |= set(unphrased(text)) if name in WRITERS else set()
        allowed = STILL.get(name, set())
        told += [f"{name}: {one} is for the edge alone" for one in sorted(found - allowed)]
        told += [f"{name}: {one} is gone: take it off STILL of tests/lint/edge.py" for one in sorted(allowed - found)]
    return told


def planted() -> List[str]:
    """What isn't told as it should be."""
    plants = {"print.py": "print('one')\n", "say.py": "from .telling import say\nsay('one')\n", "exit.py": "import sys\nsys.exit(1)\n",
              "stream.py": "import sys\nout = sys.stderr\n", "ends.py": "raise SystemExit(2)\n", "mask.py": "import os\nos.umask(7)\n", "streams.py": "from sys import stderr\n",
              "option.py": "told = 'say which (--heading)'\n", "written.py": "told = f'{name}: nothing was written'\n",
              "letters.py": "told = f'{count} letters were written'\n", "page.py": "told = '<p class=\"a b\">No place left</p>'\n",
              "counter.py": "told = [name, f'{name}: it had no places']\n", "rosters.py": "heads = ['Last rank taken']\n", "public.py": "told = 'Check your receipt'\n",
              "error.py": "OfficeError(f'{path} is no folder', 1)\n", "text.py": "OfficeError('it is no folder')\n"}
    unseen = [f"planted and not told: {name}" for name, text in plants.items() if len(faults_of({name: text})) != 1]
    pages = ("<button>Check</button>", '<script>show("it had no places");</script>', "<script>show(`your ${mine} first choice`);</script>")
    unseen += [f"planted and not told: {page}" for page in pages if not unphrased_page(page)]
    whole = {"rosters.py": "\"\"\"Writes some tables.\"\"\"\nmade = f'<td class=\"n short\">{phrases.say(\"head.id\")}</td>'\n", "whole.py": "def exits(words):\n    return words.exit()\n", "command.py": plants["print.py"],
             "coded.py": "'It tells of --key.'\nOfficeError('folder.none', at=path, words=['--sheet', '--version'])\n"}
    unseen += unphrased_page('<style>p { color: red; }</style><p class="a b">@given@ 2</p><script>\n// What is shown.\nsay("no-places");\n</script>')
    return unseen + [f"told, and nothing is wrong: {fault}" for fault in faults_of(whole)]
