"""What the desk's page may ask. Each call does what a command does, by the same steps, and answers values. What is made stands in the
desk's own folder, which goes at its end, until it is saved."""
import argparse
import os
import threading
from contextlib import contextmanager
from itertools import count
from pathlib import Path
from typing import Any, Callable, Dict, Iterator, Set, Tuple

from ...naming import label
from ...names import RESIDENT, SIDES
from ...program import DEFAULT_TIMEOUT
from .. import command, compare, counter, folder, line, rounds, running, settings, steps, stopping, who
from ..faults import OfficeError
from ..phrases import languages, named
from ..sentences import at_desk, faults_at_desk, how
from ..tables import Given
from ..verify import FromTables

# So many members are told for a part of a name, and so many files wait to be fetched.
MOST_MEMBERS, MOST_TICKETS = 12, 4
Tell = Callable[[object], None]


class Refused(Exception):
    """What isn't answered: the status of HTTP, and why."""


class Said(Dict[str, str]):
    """What the page says: texts by their names. One that isn't there has no letter."""

    def __missing__(self, name: str) -> str:
        return ""

    def line(self) -> argparse.Namespace:
        """A command line that says the same day. ArgumentTypeError."""
        return argparse.Namespace(date=line.day(self["day"]) if self["day"] else None, template=None, timeout=DEFAULT_TIMEOUT, readable=False)


class Desk:
    """What a desk has: the two tables with their settings, and the folders that are open, by their names."""

    def __init__(self, room: Path, home: Path) -> None:
        self.room, self.home, self.turn, self.over = room, home, threading.Lock(), threading.Event()
        self.given: Dict[str, Given] = {}
        self.settings = settings.Settings()
        self.folders: Dict[str, Path] = {}
        self.read: Dict[str, running.Kept] = {}
        self.saved: Set[str] = set()
        self.tickets: Dict[str, Tuple[bytes, str]] = {}

    @contextmanager
    def made(self, stem: str, tell: Tell) -> Iterator[Path]:
        """Where a folder is to be made, which is open once it is whole, if whoever asked is still there."""
        name = next(candidate for candidate in (f"{stem}-{number}" if number > 1 else stem for number in count(1)) if candidate not in self.folders)
        try:
            yield self.room / name
            tell("done")
            self.folders[name] = self.room / name
        finally:
            if name not in self.folders:
                stopping.remove(self.room / name)

    def path(self, name: str) -> Path:
        if name not in self.folders:
            raise Refused(404, "no such folder is open")
        return self.folders[name]

    def kept(self, name: str) -> running.Kept:
        """An open folder, read once."""
        self.read[name] = self.read[name] if name in self.read else running.opened(str(self.path(name)))
        return self.read[name]

    def run(self, name: str) -> running.Run:
        found = self.kept(name)
        if not isinstance(found, running.Run):
            raise OfficeError("folder.no-match", 3, found.at)
        return found

    def both(self) -> Tuple[Given, Given]:
        if len(self.given) < 2:
            raise Refused(400, "both tables are wanted")
        return self.given["programmes"], self.given["residents"]

    def ticket(self, data: bytes, name: str) -> str:
        """Where a file may be fetched, once."""
        made = os.urandom(24).hex()
        self.tickets = dict([*self.tickets.items(), (made, (data, name))][-MOST_TICKETS:])
        return f"/view/{made}"

    def state(self, said: Said, tell: Tell) -> Any:
        """What the page begins with."""
        folders = [{"name": name, "is_saved": name in self.saved, "files": sorted(file.name for file in path.glob("*") if file.is_file()),
                    **running.said_of(str(path))} for name, path in self.folders.items()]
        return {"tables": {name: table.name for name, table in self.given.items()}, "settings": settings.values_of(self.settings), "folders": folders,
                "near": sorted(path.parent.name for path in self.home.glob(f"*/{folder.MANIFEST}")), "languages": [(language, named(language).called) for language in languages()]}

    def open(self, said: Said, tell: Tell) -> Any:
        """Opens a folder that is there."""
        where = Path(self.home, said["path"]).resolve()
        if not said["path"] or not where.is_dir():
            raise OfficeError("folder.none", 1, said["path"])
        name = where.name if self.folders.get(where.name, where) == where else str(where)
        self.folders[name] = where
        self.saved.add(name)
        return name

    def check(self, said: Said, tell: Tell) -> Any:
        """How the tables are read, and what is at fault."""
        seen = steps.see(self.given, self.settings)
        read, sheets = seen.read, seen.read.sheets()
        lines = [how(table) for table in read.tables] if read.market is None else command.describe(read.tables, read.market)
        return {"looks": {name: look.as_dict() for name, look in seen.looks.items()}, "how": dict(zip((table.name for table in read.tables), lines)),
                "faults": faults_at_desk(read.faults, sheets), "notes": at_desk(read.notes(), sheets), "ready": read.market is not None}

    def save_settings(self, said: Said, tell: Tell) -> Any:
        """The file of the settings, with what was found of the tables."""
        found = settings.from_values(settings.values_of(self.settings))
        looks = [look for look in steps.see(self.given, found).looks.values() if look.heading_row]
        return settings.file_text(found, command.taken(found, looks, [self.given[look.table].name for look in looks]))

    def open_settings(self, said: Said, tell: Tell) -> Any:
        """Settings of a file's text, or of an open folder."""
        self.settings = steps.next(str(self.path(said["folder"]))) if said["folder"] else settings.read_settings(said["text"], said["name"])
        return settings.values_of(self.settings)

    def seal(self, said: Said, tell: Tell) -> Any:
        given, (tables, market) = said.line(), steps.tables(*self.both(), self.settings, progress=tell)
        with self.made("sealed", tell) as out:
            command.written_seal(given, self.settings, tables, market, str(out))
        return out.name

    def match(self, said: Said, tell: Tell) -> Any:
        """Matches the two tables, or what was sealed, as the first round or after another."""
        before, chosen = rounds.Before(self.run(said["after"])) if said["after"] else None, self.settings
        if before is not None:
            before.at = said["after"]
        if said["sealed"]:
            kept = steps.sealed(str(self.path(said["sealed"])))
            if before is not None and len(faults := before.faults(kept.market, bool(said["new"]))):
                raise steps.TablesError(steps.Read((), faults))
            wishes = command.wishes_of(said.line(), chosen, chosen.title or kept.title(), kept.details.columns, kept.language(), before)
            with self.made("match", tell) as out:
                command.written_sealed(wishes, kept, kept.details, command.from_of(kept), before, str(out), tell)
        else:
            wishes = command.wishes_of(said.line(), chosen, chosen.title, chosen.kept(), before=before)
            tables, market = steps.tables(*self.both(), chosen, before, bool(said["new"]), tell)
            with self.made("match", tell) as out:
                command.written_match(wishes, chosen, tables, market, before, str(out), tell)
        return out.name

    def withdraw(self, said: Said, tell: Tell) -> Any:
        """Matches a folder again without a member, by the folder's own settings."""
        given, before, gone = said.line(), self.kept(said["folder"]), [said["member"]]
        programmes, residents = ((), gone) if said["side"] == RESIDENT else (gone, ())
        done = steps.withdraw(before, programmes, residents, progress=tell)
        with self.made(f"{said['folder']}-without", tell) as out:
            command.written_without(given, steps.next(before.at), done, str(out))
        return {"folder": out.name, "changes": [change.cells() for change in done.changes]}

    def next(self, said: Said, tell: Tell) -> Any:
        """The tables of the next round."""
        with self.made("next-round", tell) as out:
            rounds.write_tables(self.run(said["folder"]), str(out))
        return out.name

    def compare(self, said: Said, tell: Tell) -> Any:
        found = steps.compare(self.run(said["before"]), self.run(said["now"]), tell)
        return {"figures": found.figures, "changes": [change.cells() for change in found.changes],
                "said": compare.summary(found.before.outcome, found.now.outcome, found.changes)}

    def members(self, said: Said, tell: Tell) -> Any:
        """The members whom a part of a name may mean."""
        found = who.found(self.kept(said["folder"]).names, said["part"], said["side"])
        return {"count": len(found), "members": [(member.side, SIDES[member.side], member.label, label(member)) for member in found[:MOST_MEMBERS]]}

    def why(self, said: Said, tell: Tell) -> Any:
        return counter.answer(self.run(said["folder"]), said["member"])

    def letter(self, said: Said, tell: Tell) -> Any:
        text = counter.letter(self.run(said["folder"]), said["member"], None, DEFAULT_TIMEOUT, line.day(said["day"]))
        return self.ticket(text.encode("utf-8"), "letter.txt")

    def view(self, said: Said, tell: Tell) -> Any:
        """Where a file of a folder may be fetched, or without a name all of them as one .zip."""
        path, name = self.path(said["folder"]), said["file"]
        there = folder.files_below(path)
        if name and (name not in there or there[name].is_symlink()):
            raise Refused(404, "there is no such file")
        self.saved.update([] if name else [said["folder"]])
        return self.ticket(there[name].read_bytes(), name) if name else self.ticket(folder.zipped(path), f"{path.name}.zip")

    def save(self, said: Said, tell: Tell) -> Any:
        """Copies a folder to a path, from where the desk was started."""
        out = os.path.join(self.home, said["out"]) if said["out"] else ""
        folder.copied(self.path(said["folder"]), out)
        self.saved.add(said["folder"])
        return out

    def verify(self, said: Said, tell: Tell) -> Any:
        """Checks a folder, line by line, with what was published and the tables where they are given."""
        path, after = str(self.path(said["folder"])), str(self.path(said["after"])) if said["after"] else None
        published = {name: line.root(said[name]) for name in ("lists", "result") if said[name]}
        tables = FromTables.of(*steps.tables(*self.both(), steps.read_by(path), progress=tell)) if said["tables"] else None
        done = steps.verify(path, DEFAULT_TIMEOUT, published, tables, tell, after=after)
        return {"wrong": done.wrong, "held": done.held, "unchecked": done.unchecked}


CALLS = ("state", "open", "check", "save_settings", "open_settings", "seal", "match", "withdraw", "next", "compare", "members", "why", "letter", "view", "save",
         "verify")
