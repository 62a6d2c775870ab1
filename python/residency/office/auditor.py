"""What an auditor gets of a folder: all that can be checked without the names, the key only if it is asked for, and what to run."""
from pathlib import Path
from typing import Any, Dict

from ..names import PROGRAMME, RESIDENT
from . import folder
from .faults import OfficeError
from .running import Kept

PAGE = "for-auditor.txt"


def page(manifest: Dict[str, Any], has_key: bool) -> bytes:
    """A few lines on what to run."""
    sealed = manifest.get("sealed")
    words = [word for word in ("lists", "result") if sealed and sealed.get(word)]
    lines = [f"{manifest['title']}, {manifest['date']}: for its auditor.", "",
             "Get the programs from the project that makes them, not from the office."]
    lines += ["Take the roots, and how many members there are, from where they were published."] * bool(words)
    lines += ["Then run, in a clone of the project (of a release the command is residency-office):", "",
              "  ./office verify FOLDER" + "".join(f" --{word} MEMBERS,ROOT" for word in words), ""]
    lines += ["With the office's two tables, --tables PROGRAMMES RESIDENTS makes docket and key again, too." if has_key else
              f"The key isn't here. Nor is what has names{', nor the secret' * bool(words)}, and verify says that these aren't checked."]
    return ("\n".join(lines) + "\n").encode("utf-8")


def manifest_of(kept: Kept, with_key: bool) -> Dict[str, Any]:
    """The manifest of what an auditor gets: without the key who is withdrawn is told by the docket's names."""
    made = {name: kept.results.manifest[name] for name in folder.ENTRIES if name in kept.results.manifest}
    if not with_key:
        market = kept.market
        sides = ((PROGRAMME, market.withdrawn_programmes), (RESIDENT, market.withdrawn_residents))
        made["withdrawn"] = [[side, market.names.docket_name(side, name)] for side, names in sides for name in names]
    return {**made, "auditor": {"key": with_key}}


def copy(path: str, out: str, with_key: bool) -> int:
    """Copies what an auditor gets into a new folder: how many files. OfficeError where a file isn't as SHA256SUMS has it."""
    kept = Kept(path)
    manifest, sums = manifest_of(kept, with_key), folder.sums_of(kept.results.read(folder.SUMS))
    without = {folder.MANIFEST, folder.SUMS, PAGE} | (set() if with_key else folder.NEEDS_KEY | folder.NEEDS_SECRET)
    names = [name for name in folder.files_below(Path(path)) if not folder.needs(name, without)]
    with folder.new_folder(out, private=True) as draft:
        for name in names:
            data = kept.results.read(name)
            if sums.get(name) != folder.digest(data):
                raise OfficeError("folder.other-sum", 3, kept.at, name)
            draft.write(name, data)
        draft.write(PAGE, page(manifest, with_key))
        draft.finish(manifest)
    return len(names)
