"""What install.sh writes and takes away, and what it refuses: it overwrites and removes nothing of anybody else."""
from __future__ import annotations

import hashlib
import os
import shutil
import stat
from typing import TYPE_CHECKING, Callable, Dict, List, Tuple

import checked
import roots
import tree

if TYPE_CHECKING:
    from launchers import Trial
    from roots import Root

TOP = os.path.dirname(os.path.dirname(os.path.dirname(os.path.abspath(__file__))))
SHEET = b"M,x,a\nM,y,b\nF,a,1,1\nF,b,1,1\n"
# Stands in for cp: where a file is copied whose name ends so, it does this in place of it or after it.
FAILING = """#!/bin/bash
if [[ $1 == *{name} ]]; then
    {does}
fi
exec /usr/bin/cp "$@"
"""


def put(path: str, text: str = "", mode: int = 0o644) -> None:
    os.makedirs(os.path.dirname(path), exist_ok=True)
    with open(path, "w") as file:
        file.write(text)
    os.chmod(path, mode)


def modes_below(folder: str) -> Dict[str, int]:
    """The mode of each file and folder by its path below a folder."""
    return {os.path.relpath(f"{at}/{name}", folder): stat.S_IMODE(os.lstat(f"{at}/{name}").st_mode)
            for at, folders, names in os.walk(folder) for name in [*folders, *names]}


class Prefix:
    """A prefix of its own beside the unpacked archive, `../NAME` from there."""

    def __init__(self, trial: Trial, root: Root, folder: str, name: str) -> None:
        self.trial, self.root, self.folder, self.name = trial, root, folder, name
        self.path = root.path(f"{root.home}/{name}")

    def __enter__(self) -> "Prefix":
        shutil.rmtree(self.path, ignore_errors=True)
        os.makedirs(self.path)
        return self

    def __exit__(self, *_: object) -> None:
        if os.path.islink(self.path):
            os.remove(self.path)
        shutil.rmtree(self.path, ignore_errors=True)

    def install(self, *more: str, first: str = "") -> "tuple[int, bytes, bytes]":
        return self.root.run(f"./install.sh --prefix '../{self.name}' {' '.join(more)}", self.folder, first=first)

    def refuses(self, what: str, wanted: bytes, first: str = "") -> None:
        """Status 1, a line that says this, and everything as it was."""
        before = self.root.files()
        status, _, err = self.install(first=first)
        self.trial.tell(status == 1 and wanted in err, f"install.sh {what}: {status}, {err!r}")
        self.trial.same(self.root.files(), before, f"what install.sh {what} leaves")


def of_users_home(trial: Trial, root: Root, folder: str) -> None:
    """README's commands installed it into ~/.local: what is listed is there, again, and goes."""
    status, out, _ = root.run("./install.sh", folder)
    told = {line for line in out.decode().split("\n\n")[0].splitlines()}
    there = {path for path in root.files() if "/.local/" in path and not os.path.isdir(f"{root.root}{path}")}
    told = {path if root.words else path[len(root.root):] for path in told}
    trial.same((status, told), (0, there), "what install.sh lists, over an installation")
    root.run("residency-office --help", folder)
    trial.tell(any("__pycache__" in path for path in root.files()), "the office leaves nothing beside the package")
    trial.same(root.run("$HOME/.local/lib/residency/install.sh --uninstall", root.home)[0], 0,
               "the installed install.sh --uninstall")
    trial.same([path for path in root.files() if "/.local" in path], [], "what --uninstall leaves in ~/.local")
    trial.same(root.run("./install.sh --uninstall", folder)[0], 1, "--uninstall of nothing")


def beside_others(trial: Trial, root: Root, folder: str) -> None:
    """Into a prefix with a blank in its name, that others use: their files stay, those in folders of Residency too."""
    with Prefix(trial, root, folder, "a b") as prefix:
        put(f"{prefix.path}/bin/other")
        before = root.files()
        status, _, err = prefix.install()
        trial.same((status, err), (0, b""), "install.sh --prefix")
        line = f"'{root.home}/a b/bin/residency' match < examples/two-by-two.csv"
        trial.same(root.run(line, folder)[1], SHEET, "a match by another prefix")
        if os.path.exists(f"{prefix.path}/bin/residency-office"):
            trial.same(root.run(f"'{root.home}/a b/bin/residency-office' --help", folder)[0], 0,
                       "the office's command by another prefix")
        trial.same(prefix.install("--uninstall")[0], 0, "install.sh --uninstall --prefix")
        trial.same(root.files(), before, "what --uninstall leaves")
        prefix.install()
        of_others = ["share/man/man1/other.1", "share/doc/residency/mine.txt", "lib/residency/python/residency/mine.py",
                     "lib/residency/python/residency/__pycache__/mine.pyc", "share/doc/residency/examples/mine/docket.csv"]
        for path in of_others:
            put(f"{prefix.path}/{path}", "mine")
        trial.same(prefix.install("--uninstall")[0], 0, "install.sh --uninstall beside others' files")
        left = {os.path.relpath(f"{at}/{name}", prefix.path) for at, _, names in os.walk(prefix.path) for name in names}
        trial.same(left, {"bin/other", *of_others}, "the files that --uninstall leaves beside others'")
    # Nor need the prefix be there: its folders are made, and go.
    with Prefix(trial, root, folder, 'a "b'):
        before = root.files()
        line = "timeout 30 ./install.sh --prefix '../a \"b/c  d/e f'"
        sheet = f"'{root.home}/a \"b/c  d/e f/bin/residency' match < examples/two-by-two.csv"
        for words, wanted in ((line, b""), (line, b""), (sheet, SHEET), (f"{line} --uninstall", b"")):
            status, out, err = root.run(words, folder)
            trial.same((status, err, out if wanted else b""), (0, b"", wanted), f"of a prefix that isn't there: {words}")
            if status:
                break
        trial.same(root.files(), before, "what --uninstall leaves of a prefix that wasn't there")


def over_older(trial: Trial, root: Root, folder: str) -> None:
    """Over an installation of a release that had another file and lacked one: the one goes, and what others put in the place
    of the other stays, so that nothing is written. A folder that others made of a file stays when all is taken away."""
    with Prefix(trial, root, folder, "older") as prefix:
        prefix.install()
        path = f"{prefix.path}/lib/residency/installed"
        with open(path) as file:
            lines = file.read().splitlines()
        put(f"{prefix.path}/share/doc/residency/old.md", "old")
        put(path, "\n".join(["share/doc/residency/old.md", *lines, ""]))
        trial.same(prefix.install()[0], 0, "install.sh over an older release")
        trial.tell(not os.path.exists(f"{prefix.path}/share/doc/residency/old.md"), "a file of the older release alone is left")
        with open(path) as file:
            trial.same(sorted(file.read().splitlines()), sorted(lines), "the list after an older release")
        new = "share/doc/residency/docs/format.md"
        put(f"{prefix.path}/{new}", "mine")
        put(path, "".join(f"{line}\n" for line in lines if line != new))
        prefix.refuses("where a file of others is among Residency's", b"is in the way, and is none of Residency's; nothing was written")
        with open(f"{prefix.path}/{new}") as file:
            trial.same(file.read(), "mine", "a file of others among Residency's")
        os.remove(f"{prefix.path}/share/doc/residency/VERDICT")
        put(f"{prefix.path}/share/doc/residency/VERDICT/mine.txt", "mine")
        trial.same(prefix.install("--uninstall")[0], 0, "--uninstall where others made a folder of a file")
        left = {os.path.relpath(f"{at}/{name}", prefix.path) for at, _, names in os.walk(prefix.path) for name in names}
        trial.same(left, {new, "share/doc/residency/VERDICT/mine.txt"}, "the files of others that --uninstall leaves")


def modes(trial: Trial, root: Root, folder: str) -> None:
    """Programs and folders are 755 and all else 644, whatever the mask of who installs."""
    for mask in ("022", "077", "000"):
        with Prefix(trial, root, folder, "modes") as prefix:
            os.chmod(prefix.path, 0o755)
            root.run(f"umask {mask} && ./install.sh --prefix ../modes", folder)
            found = modes_below(prefix.path)
            wanted = {path: 0o755 if os.path.isdir(f"{prefix.path}/{path}") or path.startswith("bin/")
                      or path.endswith("install.sh") else 0o644 for path in found}
            wanted["lib/residency/installed"] = 0o666 & ~int(mask, 8)
            trial.tell(len(found) > 20, f"install.sh under the mask {mask} wrote {len(found)} files")
            trial.same({path: oct(mode) for path, mode in found.items() if mode != wanted[path]}, {},
                       f"modes under the mask {mask}")


def in_the_way(trial: Trial, root: Root, folder: str) -> None:
    """A file of others, a link that leads nowhere, or a folder, where a file is to be written."""
    for path in ("bin/residency", "share/man/man1/residency-why.1", "lib/residency/installed", "lib/residency/install.sh"):
        for kind in ("file", "link", "folder"):
            if (path, kind) == ("lib/residency/installed", "file"):
                continue
            with Prefix(trial, root, folder, "way") as prefix:
                put(f"{prefix.path}/{path}", "mine")
                if kind != "file":
                    os.remove(f"{prefix.path}/{path}")
                if kind == "link":
                    os.symlink("/nowhere/at/all", f"{prefix.path}/{path}")
                if kind == "folder":
                    os.mkdir(f"{prefix.path}/{path}")
                prefix.refuses(f"with a {kind} at {path}", b"is in the way, and is none of Residency's; nothing was written")
    # A link that leads nowhere, in a folder's place or in the prefix's own.
    with Prefix(trial, root, folder, "way") as prefix:
        os.symlink("/nowhere/at/all", f"{prefix.path}/share")
        prefix.refuses("with a link that leads nowhere at share", b"what was written is taken away again")
    with Prefix(trial, root, folder, "way") as prefix:
        os.rmdir(prefix.path)
        os.symlink("/nowhere/at/all", prefix.path)
        prefix.refuses("into a link that leads nowhere", b"install.sh: ")


def failing(trial: Trial, root: Root, folder: str) -> None:
    """What fails in the middle, or at the end where the list is written, leaves nothing."""
    home = root.home
    for name, does, what in (("/VERDICT", 'echo "no room" >&2; exit 1', "that fails in the middle"),
                             ("/install.sh", '/usr/bin/cp "$@" && /usr/bin/mkdir "${2%/*}/installed" && exit',
                              "whose list can't be written")):
        put(root.path(f"{home}/failing/cp"), FAILING.format(name=name, does=does), 0o755)
        with Prefix(trial, root, folder, "new") as prefix:
            os.rmdir(prefix.path)
            before = root.files()
            status, _, err = prefix.install(first=f"{home}/failing")
            trial.tell(status == 1 and b"install.sh: writing into" in err, f"install.sh {what}: {status}, {err!r}")
            after = [path for path in root.files() if not path.endswith("/installed")]
            # The folder that stands in the list's place is the stand-in's own, with those that hold it.
            holding = [f"{prefix.path[len(root.root):]}{path}" for path in ("", "/lib", "/lib/residency")]
            trial.same([path for path in after if path not in before and not (what.startswith("whose") and path in holding)],
                       [],
                       f"what install.sh {what} leaves")
    shutil.rmtree(root.path(f"{home}/failing"))
    for words, status in (("--prefix ../two/docket/there", 1), ("--prefix", 2), ("--preffix x", 2)):
        put(root.path(f"{home}/two/docket"))
        before = root.files()
        got, _, err = root.run(f"./install.sh {words}", folder)
        trial.tell(got == status and b"install.sh: " in err, f"install.sh {words} ends with {got}: {err!r}")
        trial.same(root.files(), before, f"what install.sh {words} leaves")
    shutil.rmtree(root.path(f"{home}/two"))


def sums(trial: Trial, root: Root, folder: str) -> None:
    """A list of sums that is itself damaged is no list: a line that is none, or none at all, is refused."""
    changes: List[Tuple[str, Callable[[List[str]], List[str]]]] = [
        ("a line that is cut", lambda lines: [lines[0][3:], *lines[1:]]),
        ("a line of another form", lambda lines: [*lines, "and so on"]),
        ("no line", lambda lines: []),
        ("a file that isn't there", lambda lines: [*lines, f"{'0' * 64}  bin/nothing"]),
    ]
    for what, change in changes:
        copy = root.path(f"{root.home}/copy")
        shutil.copytree(root.path(folder), copy)
        with open(f"{copy}/SHA256SUMS") as file:
            lines = file.read().splitlines()
        put(f"{copy}/SHA256SUMS", "".join(f"{line}\n" for line in change(lines)))
        before = root.files()
        status, _, err = root.run("./install.sh --prefix ../elsewhere", f"{root.home}/copy")
        trial.tell(status == 1 and b"the archive is damaged; nothing was written" in err,
                   f"SHA256SUMS with {what}: {status}, {err!r}")
        trial.same(root.files(), before, f"what install.sh writes by SHA256SUMS with {what}")
        shutil.rmtree(copy)
    # A program of another machine is told by its name, though its sum is right.
    copy = root.path(f"{root.home}/copy")
    shutil.copytree(root.path(folder), copy)
    put(f"{copy}/bin/residency", "\x7fELF of another machine\n", 0o755)
    with open(f"{copy}/SHA256SUMS") as file:
        others = [line for line in file if not line.endswith("  bin/residency\n")]
    with open(f"{copy}/bin/residency", "rb") as data:
        put(f"{copy}/SHA256SUMS", "".join([*others, f"{hashlib.sha256(data.read()).hexdigest()}  bin/residency\n"]))
    before = root.files()
    status, _, err = root.run("./install.sh --prefix ../elsewhere", f"{root.home}/copy")
    trial.tell(status == 1 and b"residency doesn't run here" in err, f"a program of another machine: {status}, {err!r}")
    trial.same(root.files(), before, "what install.sh writes of a program of another machine")
    shutil.rmtree(copy)


def told_programs(trial: Trial, root: Root, folder: str) -> None:
    """The office of a release runs the program that RESIDENCY_BIN tells, else its own, whatever lies where it is started."""
    if not os.path.exists(root.path(f"{folder}/bin/residency-office")):
        return
    run = f"'{folder}/bin/residency-office' run p.csv r.csv --out new"
    put(root.path(f"{root.home}/in/p.csv"), "Programme,Places,Rank 1,Rank 2\nNorth,1,Kim,Lee\n")
    put(root.path(f"{root.home}/in/r.csv"), "Applicant,Rank 1\nKim,North\nLee,North\n")
    put(root.path(f"{root.home}/in/residency/__init__.py"), "raise SystemExit('another package')\n")
    status, _, err = root.run(run, f"{root.home}/in", RESIDENCY_BIN="/nowhere")
    trial.tell(status == 1 and b"RESIDENCY_BIN names /nowhere" in err,
               f"the office with RESIDENCY_BIN=/nowhere: {status}, {err!r}")
    put(root.path(f"{root.home}/stand-in/residency"), "#!/bin/bash\necho 'residency: out of memory' >&2\nexit 1\n", 0o755)
    status, _, err = root.run(run, f"{root.home}/in", RESIDENCY_BIN=f"{root.home}/stand-in")
    trial.tell(status == 1 and b"out of memory" in err, f"the office with another program: {status}, {err!r}")
    programs: List[Dict[str, str]] = [{}, {"RESIDENCY_BIN": ""}]
    for told in programs:
        status, _, err = root.run(run, f"{root.home}/in", b"", "", **told)
        trial.same((status, err), (0, b""), f"the office by its own program, with {told}")
        shutil.rmtree(root.path(f"{root.home}/in/new"), ignore_errors=True)
    shutil.rmtree(root.path(f"{root.home}/in"))
    shutil.rmtree(root.path(f"{root.home}/stand-in"))


def says(trial: Trial, root: Root, folder: str) -> None:
    """What install.sh says at its end: what is installed and how it goes again, and where either is wanted, what to do about the path and
    about Python. Without the office nothing wants Python."""
    if not os.path.exists(root.path(f"{folder}/bin/residency-office")):
        return
    put(root.path(f"{root.home}/old/python3"), "#!/bin/bash\nexit 1\n", 0o755)
    without = f"{root.home}/without"
    shutil.copytree(root.path(folder), root.path(without))
    os.remove(root.path(f"{without}/bin/residency-office"))
    with open(root.path(f"{folder}/SHA256SUMS")) as file:
        put(root.path(f"{without}/SHA256SUMS"), "".join(line for line in file if not line.endswith("  bin/residency-office\n")))
    version = root.run("bin/residency --version", folder)[1].decode().strip()
    place = 'Put {0}/bin on the path: export PATH="{0}/bin:$PATH"'
    python = "The office's command wants Python 3.9 or later as python3; the other programs need nothing."
    on_path, old = 'PATH="$PATH:$PWD/../says/bin" ', f"{root.home}/old"
    cases: List[Tuple[str, str, str, List[str]]] = [(folder, "", "", [place]), (folder, on_path, "", []), (folder, on_path, old, [python]), (folder, "", old, [place, python]),
                                                    (without, on_path, old, []), (without, "", "", [place])]
    for at, before, first, hints in cases:
        with Prefix(trial, root, at, "says"):
            status, out, err = root.run(f"{before}./install.sh --prefix ../says", at, first=first)
        lines = ["{1} is installed in {0}; {0}/lib/residency/install.sh --uninstall takes it away.", *hints]
        told = "".join(f"{line}\n" for line in lines).format(f"{at}/../says", version)
        trial.same((status, err, out.decode().partition("\n\n")[2]), (0, b"", told), f"what {before}install.sh says at its end, in {os.path.basename(at)}, with {first}")
    shutil.rmtree(root.path(without))
    shutil.rmtree(root.path(old))


# The parts that need no installation before them, by their names.
PARTS: Dict[str, Callable[[Trial, Root, str], None]] = {
    "told-programs": told_programs, "beside-others": beside_others, "over-older": over_older, "modes": modes, "in-the-way": in_the_way, "failing": failing,
    "sums": sums, "says": says}
# What stands for the program in an archive of stand-ins: it answers each command with the sheet, but for its version.
STAND_IN = """#!/bin/bash
[ "$1" != --version ] || { echo "residency 0.0.0"; exit; }
printf 'M,x,a\\nM,y,b\\nF,a,1,1\\nF,b,1,1\\n'
"""
STAND_INS = ("share/man/man1/residency.1", "share/man/man1/residency-why.1", "share/bash-completion/completions/residency",
             "lib/residency/python/residency/__init__.py", "lib/residency/python/residency/market.py", "README.md", "CHANGELOG.md",
             "VERDICT", "docs/format.md", "docs/setup.md", "examples/two-by-two.csv")


def archive_of_stand_ins(folder: str, has_office: bool) -> None:
    """What an archive has, unpacked, with this checkout's own install.sh; where the office is tried, with its command, the
    package and the program too."""
    with open(f"{TOP}/packaging/install.sh") as file:
        put(f"{folder}/install.sh", file.read(), 0o755)
    put(f"{folder}/bin/residency", STAND_IN, 0o755)
    for path in STAND_INS:
        put(f"{folder}/{path}", path)
    if has_office:
        shutil.copy(checked.tried(TOP, "residency"), f"{folder}/bin/residency")
        shutil.copy(f"{TOP}/packaging/office", f"{folder}/bin/residency-office")
        for path in tree.listed(TOP, "python/residency"):
            os.makedirs(os.path.dirname(f"{folder}/lib/residency/{path}"), exist_ok=True)
            shutil.copy(f"{TOP}/{path}", f"{folder}/lib/residency/{path}")
    paths = sorted(os.path.relpath(f"{at}/{name}", folder) for at, _, names in os.walk(folder) for name in names)
    lines = []
    for path in paths:
        with open(f"{folder}/{path}", "rb") as data:
            lines.append(f"{hashlib.sha256(data.read()).hexdigest()}  {path}\n")
    put(f"{folder}/SHA256SUMS", "".join(lines))


def try_stand_ins(trial: Trial, room: str, name: str) -> None:
    """One part over an archive of stand-ins, on this machine: in a second or two, where a release takes half a minute."""
    root = roots.Here(f"{room}/{name}")
    folder = f"{root.home}/residency-0.0.0-x86_64-linux"
    archive_of_stand_ins(folder, name in ("told-programs", "says"))
    PARTS[name](trial, root, folder)


def try_all(trial: Trial, root: Root, folder: str) -> None:
    of_users_home(trial, root, folder)
    for part in PARTS.values():
        part(trial, root, folder)
