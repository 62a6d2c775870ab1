"""Sealing: the secret, the published roots, and each member's receipt. The program `seal` and the trees of this package's own code
have to give the same bytes, else nothing is written."""
from pathlib import Path
from typing import Dict, Optional, Sequence, Tuple

from ..docket import bytes_of
from ..errors import ProgramMissing
from ..names import SIDES
from ..program import find_program, run_program
from . import folder, tree
from .faults import OfficeError
from .folder import Draft
from .tree import Roots

Member = Tuple[str, str]


def new_secret() -> bytes:
    """A secret's file: 64 digits that nobody can guess."""
    import secrets

    return f"{secrets.token_hex(32)}\n".encode("ascii")


def secret_of(data: bytes) -> bytes:
    """The 32 bytes of a secret's file. ValueError where it has none."""
    digits = data.decode("ascii").removesuffix("\n")
    if len(digits) != 64 or digits.strip("0123456789abcdefABCDEF") or not digits.strip("0"):
        raise ValueError("this is no secret: it has not 64 hexadecimal digits, or zeros alone")
    return bytes.fromhex(digits)


def receipt_files(members: Sequence[Member]) -> Dict[Member, str]:
    """The name of each member's receipt; any system takes it, and no two are one in capitals."""
    stems = {f"{SIDES[side]}-{name}": (side, name) for side, name in members}
    names = folder.file_names(stems, ".txt")
    return {stems[stem]: f"{folder.RECEIPTS}/{name}" for stem, name in names.items()}


def is_built() -> bool:
    """Whether the program `seal` is here."""
    try:
        find_program("seal")
    except ProgramMissing:
        return False
    return True


def made(docket: bytes, key: Path, secret: Path, sheet: Optional[Path], timeout: float) -> Tuple[tree.Sealed, Optional[bytes]]:
    """The trees of a docket with its key and, after the match, its sheet's file; and where the program `seal` is here, all receipts as
    that writes them. OfficeError where it writes other roots."""
    own = tree.Sealed(docket, secret_of(secret.read_bytes()), None if sheet is None else sheet.read_bytes(), key.read_bytes())
    data = None
    if is_built():
        words = ["--key", str(key), "--secret", str(secret), *([] if sheet is None else ["--sheet", str(sheet)])]
        roots, data = (run_program("seal", [word, *words], docket, timeout)[1] for word in ("root", "receipts"))
        if roots != own.roots().rows():
            raise OfficeError("program.other-seal")
    return own, data


def write(draft: Draft, docket: bytes, secret: bytes, sheet: bool, timeout: float, roots: Optional[Roots] = None) -> Optional[Roots]:
    """Writes the secret, the roots and each member's receipt into a draft, which has the sheet's file where it is wanted. Without
    a secret the roots are those that are known, if any."""
    if secret:
        draft.write(folder.SECRET, secret)
        own, theirs = made(docket, draft.path / folder.KEY, draft.path / folder.SECRET, draft.path / folder.SHEET if sheet else None, timeout)
        roots, names = own.roots(), receipt_files(own.members)
        at = 0
        for member, receipt in own.receipts():
            row = bytes_of([("member", *member)]) + receipt
            if theirs is not None and not theirs.startswith(row, at):
                raise OfficeError("program.other-seal")
            at += len(row)
            draft.write(names[member], receipt)
        if theirs is not None and at != len(theirs):
            raise OfficeError("program.other-seal")
    if roots is not None:
        draft.write(folder.ROOTS, roots.rows())
    return roots
