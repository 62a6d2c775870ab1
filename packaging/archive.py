"""Makes a release's archive: a tar of its files in one folder, each with the time of the commit."""
from __future__ import annotations

import gzip
import io
import os
import tarfile
from typing import Dict, List, Tuple

Files = Dict[str, Tuple[bytes, bool]]


def folders_of(paths: "set[str]") -> "set[str]":
    """Every folder that holds one of these paths, from the top."""
    return {os.path.dirname(path)[:end] for path in paths for end in folder_ends(os.path.dirname(path))} | {""}


def folder_ends(folder: str) -> List[int]:
    """Where the names of a folder and of those that hold it end."""
    return [at for at, sign in enumerate(folder + "/") if sign == "/"]


def tarred(files: Files, name: str, seconds: int, form: int = tarfile.USTAR_FORMAT,
           links: "Dict[str, str] | None" = None) -> bytes:
    """A tar of these files below a folder of this name, which depends on nothing else; of links it has what each leads to."""
    packed, lead = io.BytesIO(), links or {}
    with tarfile.open(fileobj=packed, mode="w", format=form) as tar:
        for path in sorted(folders_of({*files, *lead}) | set(files) | set(lead)):
            entry = tarfile.TarInfo(f"{name}/{path}".rstrip("/"))
            entry.mtime, entry.uname, entry.gname = seconds, "root", "root"
            data, is_program = files.get(path, (b"", True))
            entry.mode = 0o755 if is_program else 0o644
            entry.type, entry.size = (tarfile.REGTYPE, len(data)) if path in files else (tarfile.DIRTYPE, 0)
            if path in lead:
                entry.type, entry.linkname, entry.mode = tarfile.SYMTYPE, lead[path], 0o777
            tar.addfile(entry, io.BytesIO(data))
    return packed.getvalue()


def zipped(data: bytes) -> bytes:
    """These bytes by gzip, with no name and no time of their own."""
    made = io.BytesIO()
    with gzip.GzipFile(filename="", mode="wb", fileobj=made, compresslevel=9, mtime=0) as file:
        file.write(data)
    return made.getvalue()


def archive(files: Files, name: str, seconds: int) -> bytes:
    """The archive's bytes."""
    return zipped(tarred(files, name, seconds))
