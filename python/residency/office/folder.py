"""A folder of results: it appears complete or not at all, and says of each file what its digest is."""
import hashlib
import json
import os
import shutil
from contextlib import contextmanager
from itertools import islice
from pathlib import Path
from typing import Any, Dict, Iterable, Iterator, List, Set, Union

from . import leftover, stopping
from .faults import OfficeError
from .text import refuse_odd
from .writing import PRIVATE, SHARED, cause_of, draft_of, refuse, umask, write_new

DOCKET, KEY, SHEET, JOURNAL, PAGE = "docket.csv", "key.csv", "sheet.csv", "journal.csv", "page.html"
AUDIT, REPLAY, MATCHES, UNFILLED, CHANGES = "audit.csv", "replay.csv", "matches.csv", "unfilled.csv", "changes.csv"
MANIFEST, SUMS, LETTERS, ROSTERS, RESULTS, EARLIER = "manifest.json", "SHA256SUMS", "letters", "rosters", "results.csv", "earlier.csv"
# Of a sealed match: the secret, the roots, each member's receipt, what may be published, and what the tables have besides.
SECRET, ROOTS, RECEIPTS, PUBLIC, DETAILS = "secret.txt", "root.txt", "receipts", "public", "details.csv"
# What is readable by its owner alone: who is who, and what is for one member alone.
OWNERS = {KEY, MATCHES, RESULTS, EARLIER, LETTERS, "letters.html", SECRET, RECEIPTS, DETAILS}
# What tells somebody's list, or a hash from which lists can be guessed: it is for its owner, too, unless others may read the folder.
LISTS = {DOCKET, JOURNAL, PAGE, ROSTERS, "rosters.html", CHANGES, MANIFEST, SUMS}
# What only the key, which has the real names, can make, and what only the secret can.
NEEDS_KEY = {KEY, MATCHES, RESULTS, EARLIER, PAGE, UNFILLED, CHANGES, ROSTERS, "rosters.html", LETTERS, "letters.html", DETAILS,
             *(f"{PUBLIC}/{name}" for name in (PAGE, UNFILLED, "cut-offs.csv"))}
NEEDS_SECRET = {SECRET, RECEIPTS}
# The entries of a manifest in their order; the digests follow.
ENTRIES = ("title", "date", "program", "language", "order", "cut_offs", "template", "letter", "tables", "reading", "from", "after", "withdrawn", "details", "sealed", "auditor")
# So many files and bytes are more than any match has.
MOST_FILES, MOST_BYTES = 1_000_000, 2 << 30
RESERVED = {"con", "prn", "aux", "nul"} | {f"{port}{number}" for port in ("com", "lpt") for number in range(1, 10)}


def digest(data: bytes) -> str:
    return hashlib.sha256(data).hexdigest()


def needs(name: str, parts: Set[str]) -> bool:
    """Whether a file is one of these, or in a folder that is."""
    return name in parts or name.split("/")[0] in parts


def sums_of(data: bytes) -> Dict[str, str]:
    """The digest that SHA256SUMS has of each file."""
    lines = [line.split("  ", 1) for line in data.decode("utf-8", "replace").split("\n") if "  " in line]
    return {name: hex_digest for hex_digest, name in lines}


def below(path: str) -> Iterator[str]:
    """The path of every file below a folder, links too, and of every folder there that can't be read."""
    folders = [path]
    while folders:
        at = folders.pop()
        try:
            with os.scandir(at) as found:
                for entry in found:
                    if entry.is_dir(follow_symlinks=False):
                        folders.append(entry.path)
                    else:
                        yield entry.path
        except OSError:
            yield at


def size_of(path: str) -> int:
    """How many bytes the files below a folder have. OfficeError where no match has so many."""
    paths = list(islice(below(path), MOST_FILES + 1))
    size = sum(os.lstat(file).st_size for file in paths if os.path.lexists(file))
    if len(paths) > MOST_FILES or size > MOST_BYTES:
        raise OfficeError("folder.large", 3, path, files=MOST_FILES, megabytes=MOST_BYTES >> 20)
    return size


def files_below(path: Path) -> Dict[str, Path]:
    """Every file below a folder, links too, by its name there."""
    return {file.relative_to(path).as_posix(): file for file in sorted(map(Path, below(str(path))))}


def zipped(path: Path) -> bytes:
    """The files below a folder as one .zip, in a folder of the same name."""
    import io
    import zipfile

    made = io.BytesIO()
    with zipfile.ZipFile(made, "w", zipfile.ZIP_DEFLATED) as archive:
        for name, file in files_below(path).items():
            if not file.is_symlink():
                archive.write(file, f"{path.name}/{name}")
    return made.getvalue()


def copied(path: Path, out: str) -> None:
    """Copies a folder to where nothing stands, whole or not at all. OfficeError."""
    refuse(out)
    try:
        with stopping.unfinished(draft_of(out)) as part, leftover.made(part):
            shutil.copytree(path, part, symlinks=True, dirs_exist_ok=True)
            refuse(out)
            os.rename(part, os.path.abspath(out))
    except OSError as error:
        raise OfficeError("out.unwritten", 1, out, cause=cause_of(error)) from None


def file_names(docket_names: Iterable[str], ending: str) -> Dict[str, str]:
    """A file's name for each of a docket's names: any system takes it, and none is another one in capitals."""
    made: Dict[str, str] = {}
    used: Set[str] = set()
    # The last number that a name has after it, so that names that differ in capitals alone are no more work than others.
    last: Dict[str, int] = {}
    for name in docket_names:
        stem = name.strip(".") or "dots"
        if stem.lower().split(".")[0] in RESERVED:
            stem += "_"
        free, count = stem, last.get(stem.lower(), 1)
        while free.lower() in used:
            count += 1
            free = f"{stem}_{count}"
        last[stem.lower()] = count
        used.add(free.lower())
        made[name] = free + ending
    return made


class Draft:
    """A folder that is being filled beside the place where it will stand. Key and letters are for their owner alone, and lists
    unless it is `readable`; where the folder is `private`, all of it is but what may be published."""

    def __init__(self, path: Path, private: bool = False, readable: bool = False) -> None:
        self.path = path
        self.private = private
        self.owners = OWNERS if readable else OWNERS | LISTS
        self.sums: Dict[str, str] = {}
        self.folders: Set[str] = set()

    def write(self, name: str, data: Union[bytes, Iterable[bytes]]) -> str:
        """Writes a file, whole or part by part, and answers its digest."""
        part = name.split("/")[0]
        private = self.private and part != PUBLIC or part in self.owners
        if part != name and part not in self.folders:
            self.folders.add(part)
            (self.path / part).mkdir(mode=0o700 if private else 0o777)
        self.sums[name] = write_new(f"{self.path}/{name}", data, PRIVATE if private else SHARED)
        return self.sums[name]

    def finish(self, manifest: Dict[str, Any]) -> None:
        """Writes the manifest, which names the digest of each file at the top, and the sums of all files."""
        files = {name: self.sums[name] for name in sorted(self.sums) if "/" not in name}
        self.write(MANIFEST, (json.dumps({**manifest, "sha256": files}, ensure_ascii=False, indent=1) + "\n").encode("utf-8"))
        lines = [f"{self.sums[name]}  {name}\n" for name in sorted(self.sums)]
        self.write(SUMS, "".join(lines).encode("utf-8"))


@contextmanager
def new_folder(out: str, private: bool = False, readable: bool = False) -> Iterator[Draft]:
    """A draft of the folder `out`, which appears under its name when all has been written, and else not at all; for its owner
    alone where it is `private`, and its lists unless it is `readable`.

    OfficeError where it is there already or can't be written; no half of it is left behind, whatever ends the command.
    """
    refuse(out)
    # Its name stands before the folder does, so that no signal comes between the two.
    with stopping.unfinished(draft_of(out)) as part:
        try:
            with leftover.made(part):
                yield Draft(part, private, readable)
                if not private:
                    part.chmod(0o777 & ~umask())
                refuse(out)
                os.rename(part, os.path.abspath(out))
        except OSError as error:
            raise OfficeError("out.unwritten", 1, out, cause=cause_of(error)) from None


class Results:
    """A folder that `run` or `withdraw` made, as it is read again."""

    def __init__(self, path: str) -> None:
        self.path, self.at = Path(path), path
        self.manifest = self.read_manifest()

    def read(self, name: str) -> bytes:
        try:
            return (self.path / name).read_bytes()
        except OSError as error:
            raise OfficeError("folder.unread", 1, self.at, name, cause=cause_of(error)) from None

    def read_manifest(self) -> Dict[str, Any]:
        if not self.path.is_dir():
            raise OfficeError("folder.none", 1, self.at)
        try:
            manifest = json.loads(self.read(MANIFEST).decode("utf-8"))
            refuse_odd(manifest if isinstance(manifest, dict) else {}, str(self.path / MANIFEST))
            # Half of a surrogate pair, which JSON can write, is no text.
            json.dumps(manifest, ensure_ascii=False).encode("utf-8")
        except (ValueError, RecursionError):
            manifest = None
        if not isinstance(manifest, dict) or not isinstance(manifest.get("sha256"), dict):
            raise OfficeError("folder.no-manifest", 3, self.at, MANIFEST)
        return manifest

    def checked(self, name: str) -> bytes:
        """A file's bytes as they were written. OfficeError where they were changed since."""
        data = self.read(name)
        wanted = self.manifest["sha256"].get(name)
        if digest(data) != wanted:
            raise OfficeError("folder.changed", 3, self.at, name)
        return data

    def names(self) -> List[str]:
        return sorted(self.manifest["sha256"])
