"""How files are written: under a name that nobody can guess until they are whole, never over what stands, and never through a
link. All that the command writes goes through here."""
import hashlib
import os
import stat
from contextlib import suppress
from pathlib import Path
from typing import Iterable, Union

from . import leftover, stopping
from .faults import OfficeError

# Whom a file is for: its owner alone, or all whom the user's mask lets read it.
PRIVATE, SHARED = 0o600, 0o666
# What the system tells of this process.
STATUS = "/proc/self/status"


def umask() -> int:
    """The mask of this process. To ask for it would change it for a moment, in all threads: where the system doesn't tell it, a new
    folder shows it, which is held, so that no other command takes it for one that was left."""
    with suppress(OSError), open(STATUS, "rb") as file:
        for word, _, text in (line.partition(b":") for line in file):
            if word == b"Umask":
                return int(text, 8)
    import tempfile

    with stopping.unfinished(draft_of(os.path.join(tempfile.gettempdir(), "mask"))) as part, leftover.made(part, leftover.plain_folder) as number:
        return 0o777 & ~stat.S_IMODE(os.fstat(number).st_mode)


def cause_of(error: Exception) -> str:
    return (getattr(error, "strerror", None) or str(error)).lower()


def refuse(out: str) -> None:
    """OfficeError where something stands at this path, be it a link that leads nowhere, or where it is none."""
    if not out or "\0" in out:
        raise OfficeError("out.no-path", 2, out)
    if os.path.lexists(out):
        raise OfficeError("out.there", 2, out)


def draft_of(out: str) -> Path:
    """Where what will stand at a path is made: beside it, under a name that nobody can guess."""
    import secrets

    return Path(os.path.abspath(out)).with_name(f".part-{secrets.token_hex(16)}")


def write_new(path: Union[Path, str], data: Union[bytes, Iterable[bytes]], mode: int = SHARED) -> str:
    """Writes a file, whole or part by part, where nothing stands, not even a link, and answers its digest. OSError."""
    number = os.open(path, os.O_WRONLY | os.O_CREAT | os.O_EXCL | os.O_NOFOLLOW | os.O_CLOEXEC, mode)
    made = hashlib.sha256()
    with open(number, "wb") as file:
        for part in [data] if isinstance(data, bytes) else data:
            made.update(part)
            file.write(part)
    return made.hexdigest()


def settle(part: Path, target: Path) -> None:
    """Gives a file that is whole its name, where nothing has it. OSError."""
    try:
        os.link(part, target, follow_symlinks=False)
    except FileExistsError:
        raise
    except OSError:
        # A file system without links to files: the name is claimed first, and what is renamed over is the claim.
        write_new(target, b"", PRIVATE)
        try:
            os.rename(part, target)
        except BaseException:
            target.unlink()
            raise


def new_file(out: str, data: bytes, mode: int = SHARED) -> None:
    """Writes a file that isn't there yet, whole or not at all; for its owner alone where `mode` is PRIVATE, and in each case until
    it is whole. OfficeError."""
    refuse(out)
    target = Path(os.path.abspath(out))
    with stopping.unfinished(draft_of(out)) as part:
        try:
            with leftover.made(part, leftover.new_file) as number:
                with open(number, "wb", closefd=False) as file:
                    file.write(data)
                wanted = mode if mode == PRIVATE else mode & ~umask()
                settle(part, target)
                with suppress(OSError):
                    os.fchmod(number, wanted)
        except FileExistsError:
            raise OfficeError("out.there", 2, out) from None
        except (OSError, ValueError) as error:
            raise OfficeError("out.unwritten", 1, out, cause=cause_of(error)) from None
