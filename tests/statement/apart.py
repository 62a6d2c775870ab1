"""Another reader of docs/statement.md than the tool that prints it: whatever stands in a block is whole, and is the source's.

It takes the sources word by word and knows nothing of how the page is made. A type has all of its fields or variants, a record
all of its lines, a call its whole contract, and each bracket is closed."""
import glob
import itertools
import re
from typing import Dict, Iterable, Iterator, List, NamedTuple, Optional, Set, Tuple

CLOSING = {"(": ")", "[": "]", "{": "}"}
HEAD = re.compile(r"^(?:pub(?:\(\w+\))? )?(struct|enum|trait|const|type|fn) (\w+)", re.M)
MEMBER = re.compile(r"\s*(?:ghost|fn|const|type) ")
RECORD = re.compile(r"^(?:\w+ )*(?:record|data) (\w+)")
# What the theorem's premise names: the page says that serve_match ensures it, and prints it there.
PREMISE = {"AreDocket", "WritesMatch"}
# How a definition begins that stands at the margin.
STARTS = re.compile(r"(?:record|data|pub(?:\(crate\))?|struct|module) |impl(?!\w| \w+ for )|[\w:']+ : ")
# Words of the sources that the page leaves out.
PROVERS = re.compile(r"(?<![\w`])(?:abbrev |unfoldable )*pub (?=[\w◌])")
# What is between equations that stand side by side.
BESIDE = re.compile(r"(?<=\S) {3,}(?=\S)")  # (of two a comment stands behind)


# What the language has of its own, and the page explains; and Rust's own words.
WORDS = set("pub record data where module let in if then else λ Type Unit tt result requires ensures fn struct enum const "
            "trait impl for type mut ghost crate self Self dyn bool char str u8 u16 u32 u64 usize i32 i64 clauses of which always holds _ "
            "io::Result clap::Error".split())


class Block(NamedTuple):
    """What the page shows of one file: the file, its kind, and the text."""

    path: str
    is_rust: bool
    text: str


def blocks(page: str) -> "List[Block]":
    return [it for text in re.findall(r"^```\n(-- crates/.*?)^```$", page, re.M | re.S) for it in dense_blocks(text)]


def theorem(page: str) -> str:
    """The part of the page that stands alone."""
    return page[:page.index("\n## How the definitions differ\n") + 1]


def theorem_blocks(page: str) -> "List[Block]":
    """The definitions of the theorem."""
    return [it for it in blocks(theorem(page)) if not re.search(r"^pub fn ", it.text, re.M)]


def dense_blocks(text_of: str) -> "List[Block]":
    """Definitions, file by file, laid out as in the sources: a sentence that stands behind a line comes above it, and an empty
    line between two definitions. What a type has of calls stands alone."""
    found: "List[Block]" = []
    for line in text_of.rstrip("\n").split("\n"):
        file = re.fullmatch(r"-- (crates/\S+)", line)
        if file:
            found.append(Block(file[1], file[1].endswith(".rt"), ""))
            continue
        path, is_rust, text = found[-1]
        mark = "///" if is_rust else "--"
        behind = re.fullmatch(r"(\S.*?)  (?://|--) (?!in clauses: )(.*)", line)
        if behind and not is_rust and not STARTS.match(line):
            others, gap, last = text.rpartition("\n\n")
            found[-1] = Block(path, is_rust, f"{others}{gap}{mark} {behind[2]}\n{last}{behind[1]}\n")
            continue
        begins = behind is not None or STARTS.match(line) is not None
        above = text.rstrip("\n").split("\n")[-1]
        is_new = (begins or line.startswith(mark)) and not above.startswith(mark)
        if is_rust and (line.startswith("impl") and begins or is_new and text.startswith("impl") and above == "}"):
            found.append(Block(path, is_rust, ""))
            text = ""
        elif text and is_new:
            text += "\n"
        lines = f"{mark} {behind[2]}\n{behind[1]}" if behind else line
        found[-1] = Block(path, is_rust, f"{text}{lines}\n")
    return [it for it in found if it.text]


def words(text: str) -> "List[str]":
    """The words and signs of Rust, without comments, attributes, and the comma before a bracket closes."""
    text = re.sub(r"//[^\n]*", "", text)
    text = re.sub(r"#!?\[(?:[^\[\]]|\[[^\]]*\])*\]", "", text)
    found = re.findall(r'"[^"]*"|\w+|[^\w\s]', text)
    return [it for at, it in enumerate(found) if not (it == "," and found[at + 1:at + 2] in ([")"], ["}"], ["]"]))]


def unclosed(text: str) -> "Optional[str]":
    """The first bracket that isn't closed, or closes none."""
    left: "List[str]" = []
    for it in words(text):
        if it in CLOSING:
            left.append(CLOSING[it])
        elif it in CLOSING.values() and (not left or left.pop() != it):
            return it
    return left[-1] if left else None


def declaration(source: "List[str]", kind: str, name: str) -> "List[str]":
    """A declaration's words: up to the bracket that closes it, or to its semicolon."""
    for at in range(len(source) - 1):
        if source[at] == kind and source[at + 1] == name:
            depth = 0
            for end in range(at, len(source)):
                depth += (source[end] in CLOSING) - (source[end] in CLOSING.values())
                if depth == 0 and (source[end] == ";" or source[end] == "}"):
                    return source[at:end + 1]
    return []


def shown(block: str) -> "Iterator[Tuple[str, str, str]]":
    """Each declaration of a block: its kind, its name and its text."""
    heads = list(HEAD.finditer(block))
    for at, head in enumerate(heads):
        end = heads[at + 1].start() if at + 1 < len(heads) else len(block)
        yield head[1], head[2], block[head.start():end]


def impl_of(source: str, trait: str, name: str) -> str:
    """What a file has of a trait for a type."""
    own = re.search(rf"^impl(?:<[^{{]*>)? {trait} for {name}\b.*?^\}}", source, re.M | re.S)
    return own[0] if own else ""


def model_of(source: str, name: str) -> str:
    """The value that clauses see of a type, by the name that its own file gives it."""
    value = re.search(r"ghost Value = \{ (.*?) \};", impl_of(source, "Model", name), re.S)
    renamed = {new: old for old, new in re.findall(r"(\w+) as (\w+)", source)}
    return renamed.get(value[1], value[1]) if value else ""


def kept_of(source: str, name: str) -> str:
    """What the page says of every value of a type: the fact that the type's calls ensure of it, as often as they say one."""
    own = re.search(rf"^impl(?:<[^{{]*>)? {name}(?:<[^{{]*>)? \{{.*?^\}}", source, re.M | re.S)
    facts = set(re.findall(r"^        ensures (?:\w+ )?\{ (\w+) self\.now \}$", own[0], re.M)) if own else set()
    return f", of which {' and '.join(sorted(facts))} always holds" if facts else ""


def stands_in(part: "List[str]", whole: "List[str]") -> bool:
    """Whether these stand there side by side."""
    return bool(part) and any(whole[at:at + len(part)] == part for at in range(len(whole) - len(part) + 1))


def members(code: str) -> "List[str]":
    """What stands on its own in the body of a trait: each member with its clauses."""
    body = code[code.index("{") + 1:code.rindex("}")]
    return [f"{it};" for it in body.split(";\n") if it.strip()]


def flat(lines: "Iterable[str]") -> str:
    """Lines as one, with a single blank between words and none inside a bracket's ends, and of comments the words alone."""
    stripped = (it.strip() for it in lines)
    text = " ".join(" ".join(re.sub(r"^(?:///?|--)(?= )", "", it) for it in stripped).split())
    return f" {PROVERS.sub('', text).replace('( ', '(').replace(' )', ')')} "


def prefixed(page: str) -> "Set[str]":
    """The names before which the page writes a crate or a file."""
    return set(re.findall(r"(?<![\w:])\w+::\w+", page))


def called_in(source: str, own: str) -> "Dict[Tuple[str, str], str]":
    """By the crate, or the file, and the name of what a source imports, what the source calls it."""
    called: "Dict[Tuple[str, str], str]" = {}
    for crate, file, names in re.findall(r"use (?:Rattle\.)?(\w+)[.:](?:[\w.:]*?[.:])??(\w*)[.:]\{([^}]*)\}", source):
        for part in names.split(","):
            name, _, other = part.strip().partition(" as ")
            for place in (own if crate == "crate" else crate, file):
                called.setdefault((place, name), other or name)
    for crate, name in re.findall(r"use (\w+)::(?:\w+::)*(\w+);", source):
        called.setdefault((own if crate == "crate" else crate, name), name)
    return called


def restored(text: str, source: str, path: str, known: "Set[str]") -> str:
    """The text with each name as its source's file calls it: by its imports, or its own. Known are the names with a crate or a
    file before them on the page."""
    own, places = path.split("/")[1], {path.split("/")[1], path.split("/")[-1].split(".")[0]}
    called = called_in(source, own)
    for crate, kind, word in re.findall(r"use Rattle\.(\w+)\.[\w.]*\.(\w+)\.TheVariants as (\w+)", source):
        text = re.sub(rf"(?<![\w.:])(?:{crate}::)?{kind}\.(?=[A-Z])", f"{word}.", text)
    modules = re.findall(r"use Rattle\.(\w+)\.specs\.(\w+) as (\w+)", source)
    rust = set(re.findall(r"\b[A-Z]\w+", " ".join(re.findall(r"^(?:pub )?(?:use [^;]*;|(?:struct|enum|type) \w+)", source, re.M)))) if path.endswith(".rt") else set()
    shown_so = {name for place, name in called if f"{place}::{name}" in known}
    plain = {name: other for (_, name), other in called.items() if other != name and name not in rust | shown_so}
    plain.update({name: f"{word}.{name}" for crate, _, word in modules for name in re.findall(rf"\b{word}\.(\w+)", source)
                  if not {f"{crate}::{name}", *(f"{it}::{name}" for it in places)} & known and (crate, name) not in called})

    def back(found: "re.Match[str]") -> str:
        several = [f"{word}.{found[2]}" for crate, file, word in modules if found[1] in (crate, file) and f"{word}.{found[2]}" in source]
        if several and (found[1], found[2]) not in called:
            return several[0]
        if found[1] in places and re.search(rf"(?:^|\s){found[2]}(?= [:({{]|;|<)", source):
            return found[2]
        return called.get((found[1], found[2]), found[2] if found[1] == own else found[0])

    text = re.sub(r"(?<![\w.:])(\w+)(?!\w|::)", lambda it: plain.get(it[1], it[0]), text)
    return re.sub(r"(?<![\w:])(\w+)::(\w+)", back, text)


def contract(source: str, name: str) -> "List[str]":
    """The lines of a function from its name to where its body begins, without empty ones."""
    lines = source.split("\n")
    for at, line in enumerate(lines):
        if re.match(rf"pub(?:\(crate\))? fn {name}\b", line):
            end = next(it for it in range(at, len(lines)) if lines[it].startswith("{"))
            return [it.rstrip() for it in lines[at:end] if it.strip()]
    return []


def rust_faults(block: Block, source: str) -> "Iterator[str]":
    bracket = unclosed(block.text)
    if bracket:
        yield f"{block.path}: a bracket {bracket} has no other"
    if block.text.startswith("impl"):
        head, calls = block.text.rstrip().rstrip("}").split("\n", 1)
        whole = words(re.sub(r",\s*>", ">", source))
        for part in (head, *(f"{it} {{" for it in re.split(r"\n(?=    pub)", re.sub(r"^ +///.*\n", "", calls, flags=re.M)))):
            if not stands_in(words(part), whole):
                yield f"{block.path}: this isn't the source's: {part}"
    for kind, name, text in shown(block.text):
        code = "\n".join(it for it in text.split("\n") if not it.startswith("///"))
        extra = re.findall(r"^impl (\w+) for (\w+): (.*)$", code, re.M)
        for trait, owner, item in extra:
            if not stands_in(words(item), words(impl_of(source, trait, owner))):
                yield f"{block.path}: {trait} of {owner} has no {item}"
        code = re.sub(r"^impl \w+ for .*\n?", "", code, flags=re.M)
        if kind == "fn":
            if words(code) != words("\n".join(contract(source, name))):
                yield f"{block.path}: the contract of {name} isn't the source's"
        elif kind == "trait":
            own = declaration(words(source), kind, name)
            if not all(MEMBER.match(it) and stands_in(words(it), own) for it in members(code)):
                yield f"{block.path}: trait {name} isn't the source's"
        elif "// in clauses: " in code:
            value, kept = model_of(source, name), kept_of(source, name)
            if not value or flat([code.split("// in clauses: ")[1]]).strip() != value + kept:
                yield f"{block.path}: clauses see {name} as {value}{kept}"
        else:
            own = declaration(words(source), kind, name)
            told = words(code)
            if not own or told[told.index(kind):] != own:
                yield f"{block.path}: {kind} {name} isn't the source's"


def record_lines(lines: "List[str]", name: str) -> "List[str]":
    """A record's own lines: from its name to the first line that isn't below it."""
    for at, line in enumerate(lines):
        head = RECORD.match(line.strip())
        if head and head[1] == name:
            deep = len(line) - len(line.lstrip())
            end = at + 1
            while end < len(lines) and lines[end].strip() and len(lines[end]) - len(lines[end].lstrip()) > deep:
                end += 1
            return [it.strip() for it in lines[at:end]]
    return []


def has_none(text: "List[str]", lines: "List[str]") -> bool:
    """Whether no sentence stands above this in its file."""
    at = next((at for at, line in enumerate(lines) if line.strip() and flat(text[:1]).startswith(flat([line]))), 0)
    return at > 0 and not lines[at - 1].startswith("--")


def runs(lines: "List[str]") -> "Set[str]":
    """What stands between empty lines and comments: a definition as a whole."""
    return {flat(run) for is_code, run in itertools.groupby(lines, lambda it: bool(it.strip()) and not it.strip().startswith("--")) if is_code}


def spec_faults(block: Block, source: str) -> "Iterator[str]":
    lines = source.split("\n")
    definitions = runs(lines)
    plain = [it.strip() for it in lines if it.strip()]
    whole = flat(plain)
    for part in block.text.strip("\n").split("\n\n"):
        own = [it.strip() for it in part.split("\n") if it.strip()]
        own = own[own[0].startswith("module _"):]
        sentence = [it for it in own if it.startswith("--")]
        text = own[len(sentence):]
        if flat(text) not in definitions or not (flat(sentence).rstrip() in whole if sentence else has_none(text, plain)):
            yield f"{block.path}: {own[-1]} doesn't stand so in the source"
    shown_lines = block.text.split("\n")
    for line in shown_lines:
        head = RECORD.match(line.strip())
        if head and flat(record_lines(shown_lines, head[1])) != flat(record_lines(lines, head[1])):
            yield f"{block.path}: record {head[1]} isn't the source's"


def defined(text: str) -> "Set[str]":
    """The names that a text of specs/ or of src/ defines: at its margin, or in a module with parameters."""
    specs = r"^(?:(?:(?:abbrev|unfoldable|pub) )*(?:(?:record|data) (\S+?)(?= [:({])|([^\s=(]+)(?= : ))|  (?:abbrev|unfoldable) pub (\S+?)(?= [:({]))"
    sources = r"^(?:pub(?:\(\w+\))? )?(?:struct|enum|trait|const|type) ((?:\w+::)?\w+)"
    return {name for names in re.findall(specs, text, re.M) for name in names if name} | set(re.findall(sources, text, re.M))


def bound(text: str) -> "Set[str]":
    """The names that terms of a text bind: behind a λ, before a colon, left of an equation's sign, and those of fields and
    variants."""
    found = re.findall(r"λ ((?:\w+ )*\w+)\.", text) + re.findall(r"\(((?:\w+ )*\w+) :", text) + re.findall(r"^  (?:pub )?(\w+)(?= [:=])", text, re.M)
    variants = re.findall(r"^pub enum \w+ \{(.*)\}", text, re.M)
    return {name for it in [*found, *variants, *re.findall(r"^\w+ ([^=:\n]*) =", text, re.M)] for name in re.findall(r"\w+", it)}


def twice(page: str) -> "List[str]":
    """The names that the page gives to two definitions; a type of Rust and a record may share one."""
    found: "List[Tuple[bool, str]]" = []
    for block in blocks(page):
        found += [(block.is_rust, name) for part in block.text.split("\n\n") for name in defined(part)]
    return sorted({name for is_rust, name in found if found.count((is_rust, name)) > 1})


def outsiders(page: str, top: str) -> "List[str]":
    """What the theorem names and doesn't define, though some crate defines it, but for the names of its premise."""
    own = "".join(it.text for it in theorem_blocks(page))
    clauses = "".join(re.findall(r"(?:requires|ensures) \{.*", "".join(it.text for it in blocks(theorem(page)) if it not in theorem_blocks(page))))
    used = used_in(re.sub(r"^\s*(?:--|///).*", "", own, flags=re.M) + clauses)
    known: "Set[str]" = set()
    for path in [*glob.glob(f"{top}/crates/*/specs/**/*.antt", recursive=True), *glob.glob(f"{top}/crates/*/src/**/*.rt", recursive=True)]:
        with open(path) as file:
            known |= defined(file.read())
    shared = {it for it in used if "::" in it and it.split("::")[1] in known}
    return sorted(((used & known) | shared) - defined(own) - bound(own) - PREMISE)


def used_in(text: str) -> "Set[str]":
    """The names of a text, but for fields; a crate before a name belongs to it."""
    return set(re.findall(r"(?<![\w.:'])(?:[a-z]\w*::)?[A-Za-z_]\w*(?!\w|::)", text))


def parts_of(block: Block) -> "List[str]":
    """The definitions of a block, or its one contract, without comments and texts."""
    code = re.sub(r'b?"[^"]*"|b?\'.\'', "", re.sub(r"^\s*(?:--|///?) .*|(?<=\S)  (?://|--) (?!in clauses: ).*", "", block.text, flags=re.M))
    if block.is_rust:
        return [code]
    lines = (BESIDE.sub("\n" + " " * (len(line) - len(line.lstrip())), line) for line in code.split("\n"))
    return "\n".join(lines).split("\n\n")


def bound_wide(text: str) -> "Set[str]":
    """What a definition binds on one line or on several: left of an equation's sign, behind a λ, after `let`, between braces."""
    left = re.findall(r"^\s*(?:\w+::)?\w+ ([^=:]*?) =(?= |\n)", text, re.M)
    others = re.findall(r"λ ([^.]*)\.", text) + re.findall(r"let (\w+)", text) + re.findall(r"[({]([\w ,]+) :", text) + re.findall(r"<([^>]*)>", text)
    others += re.findall(r"(?:[{;]|^ )\s*(\w+) =\s", text, re.M) + re.findall(r"[({]([^(){}:]*) :", text)
    others += re.findall(r"fn (\w+)", text)
    variables = {it for one in left + others for it in re.findall(r"(?<![\w.])[a-z_]\w*", one)}
    return variables | set(re.findall(r"(\w+)(?=\.[A-Z])", text)) | {it for other in others for it in re.findall(r"\b[A-Z]\b", other)}


def nowhere(page: str) -> "List[str]":
    """The names that a definition or a contract of the page uses, and that the page neither defines, binds nor explains."""
    found = blocks(page)
    everything = "\n".join(it.text for it in found)
    known = defined(everything) | WORDS
    known |= {it for row in re.findall(r"^\| (`[^|]*`) \|", page, re.M) for it in re.findall(r"`(?:[\w.]*\.)?(\w+)`", row)}
    told = page.partition("## Names that the other calls use")[2].partition("\n## ")[0] + "".join(re.findall(r"^Besides, these promises name types.*", page, re.M))
    known |= {name for row in re.findall(r"(?<=\. )(?:`[\w.]+`(?:, )?)+(?=: )", told) for name in re.findall(r"`(?:[\w.]*\.)?(\w+)`", row)}
    known |= set(re.findall(r"`([A-Za-z]\w+)", page.split("## The theorem")[0]))
    known |= set(re.findall(r"^pub fn (\w+)", everything, re.M))
    variants = re.findall(r"^(?:pub(?:\(crate\))? )?enum [\w:]+(?:<[^{]*>)? \{(.*?)\}$", everything, re.M | re.S) + re.findall(r"^  (\w+) : ", everything, re.M)
    known |= {name for it in variants for name in re.findall(r"\b[A-Z]\w*", it)}
    missing: "Set[str]" = set()
    for block in found:
        for part in parts_of(block):
            own = bound(part) | set(re.findall(r"(?:requires|ensures) (\w+) \{", part)) | set(re.findall(r"(\w+):(?!:)", part))
            own |= bound_wide(part)
            missing |= used_in(part) - known - own
    return sorted(missing)


def faults(page: str, top: str) -> "List[str]":
    """All that the page shows otherwise than the sources below this folder have it."""
    found: "List[str]" = []
    known = prefixed(page)
    for block in blocks(page):
        with open(f"{top}/{block.path}") as file:
            source = file.read()
        # (the head of an impl block may stand on two lines)
        text = re.sub(r"^(impl<.*>)\n    (\w.* \{)$", r"\1 \2", block.text, flags=re.M)
        own = block._replace(text=restored(text, source, block.path, known))
        found += (rust_faults if block.is_rust else spec_faults)(own, source)
    return found


def count(page: str) -> "Tuple[int, int]":
    """How many declarations of Rust and how many records the page shows."""
    declared = sum(len(list(shown(it.text))) for it in blocks(page) if it.is_rust)
    records = sum(bool(RECORD.match(line.strip())) for it in blocks(page) if not it.is_rust for line in it.text.split("\n"))
    return declared, records


def cuts(block: Block) -> "Iterator[Tuple[str, str]]":
    """The block with something cut: a bracket or a line of each declaration and contract, a line of each record, a sentence."""
    if block.is_rust:
        for line in re.findall(r"^ {8,}.+\n", block.text, re.M) if block.text.startswith("impl") else []:
            yield line.strip(), block.text.replace(line, "", 1)
        for _, name, text in shown(block.text):
            last = max(text.rfind(it) for it in ")}]")
            if last >= 0 and "// in clauses" not in text:
                yield f"the last bracket of {name}", block.text.replace(text, text[:last] + text[last + 1:])
            for line in text.rstrip("\n").split("\n")[1:]:
                # A trait has the members alone that contracts stand on, so one that is gone as a whole shows in the names.
                if line.startswith("    ") and line.strip() not in (")", "}") and not line.strip().startswith("ghost "):
                    yield f"{line.strip()} of {name}", block.text.replace(text, text.replace(f"{line}\n", "", 1))
            several = re.search(r"\{ (\w+)[^{}]*, (\w+)[^{}]* \}$", text.strip()) if "// in clauses" not in text else None
            if several:
                yield f"{several[1]} of {name}", block.text.replace(text, re.sub(r"\{ [^,]*, ", "{ ", text, count=1))
        return
    for line in block.text.split("\n"):
        if re.match(r"  \w+ :|\w+ (?!: ).* = ", line):
            yield line.strip(), block.text.replace(f"{line}\n", "", 1)
