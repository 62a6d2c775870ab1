"""What a killed command left behind: a folder or a file under way, which no command holds any more. The next command says so, and
removes it.

Who makes one holds a lock on it for as long as it lives, however it ends. Where a file system has no locks, nothing is removed."""
import fcntl
import os
import re
import stat
import time
from contextlib import contextmanager
from pathlib import Path
from typing import Callable, Iterator, List

from . import stopping
from .telling import complain

PART = re.compile(r"\.part-[0-9a-f]{32}")
OPEN = os.O_RDONLY | os.O_NOFOLLOW | os.O_NONBLOCK | os.O_CLOEXEC
# How often another command's hold on the folder around is waited for, a hundredth of a second each time.
MOST_TRIES = 100


def is_held(number: int, tries: int = 1) -> bool:
    """Whether this process has the lock of an open folder now."""
    for _ in range(tries):
        try:
            fcntl.flock(number, fcntl.LOCK_EX | fcntl.LOCK_NB)
            return True
        except BlockingIOError:
            time.sleep(0.01 if tries > 1 else 0)
        except OSError:
            return False
    return False


def plain_folder(path: Path, mode: int = 0o777) -> int:
    """A new folder for all whom the mask lets, opened."""
    path.mkdir(mode)
    return os.open(path, OPEN | os.O_DIRECTORY)


def new_folder(path: Path) -> int:
    """A new folder for its owner alone, opened."""
    return plain_folder(path, 0o700)


def new_file(path: Path) -> int:
    """A new file for its owner alone, opened to be written."""
    return os.open(path, os.O_WRONLY | os.O_CREAT | os.O_EXCL | os.O_NOFOLLOW | os.O_CLOEXEC, 0o600)


def is_left(path: Path) -> bool:
    """Whether a folder or a file is this user's own, and nobody holds it. What its maker has removed meanwhile was not left."""
    found = path.lstat()
    if not (stat.S_ISDIR(found.st_mode) or stat.S_ISREG(found.st_mode)) or found.st_uid != os.getuid():
        return False
    number = os.open(path, OPEN)
    try:
        return is_held(number) and path.exists()
    finally:
        os.close(number)


def clear(around: Path) -> List[str]:
    """Removes what killed commands left in a folder, and answers its names."""
    gone: List[str] = []
    for path in sorted(around.iterdir()):
        try:
            if PART.fullmatch(path.name) and is_left(path):
                stopping.remove(path)
                gone.append(path.name)
        except OSError:
            continue
    return gone


@contextmanager
def made(part: Path, make: Callable[[Path], int] = new_folder) -> Iterator[int]:
    """Makes a folder or a file under way and holds it, opened, until it has another name or is removed; first removes what killed
    commands left beside it, and says so. OSError where it can't be made."""
    around = os.open(part.parent, os.O_RDONLY | os.O_DIRECTORY | os.O_CLOEXEC)
    try:
        # No other command looks for what was left between the making of a folder and the hold on it.
        gone = clear(part.parent) if is_held(around, MOST_TRIES) else []
        number = make(part)
        is_held(number)
    finally:
        os.close(around)
    for name in gone:
        complain(f"a run that was killed left {name}, which was removed")
    try:
        yield number
    finally:
        # While it is held, so that no other command takes it for one that was left.
        stopping.remove(part)
        os.close(number)
