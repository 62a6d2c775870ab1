"""tools/release makes a release of what ./check has passed and of nothing else, and the same bytes each time."""
from __future__ import annotations

import glob
import os
import shutil
import subprocess
import tarfile
import zipfile
from typing import TYPE_CHECKING, Callable, Dict, List, Tuple

import checked
import debs
import launchers
import programs

if TYPE_CHECKING:
    from launchers import Trial

TOP = launchers.TOP
PART = "gate: 5 passed, 0 failed"
# The archive, the wheel and the Debian package, each with its sum.
FORMS = 6
# Stands in for objdump: it says that a program wants this C library.
OBJDUMP = """#!/bin/sh
echo '0000000000000000      DF *UND*  0000000000000000 (GLIBC_2.2.5) abort'
echo '0000000000000000      DF *UND*  0000000000000000 (GLIBC_{version}) thrd_create'
"""


class Scratch:
    """A repository of its own with what lies here committed, and the programs that are built here."""

    def __init__(self, trial: Trial, folder: str) -> None:
        self.trial, self.folder = trial, folder
        launchers.copy_of(".", to=folder)
        self.run("git", "init", "--quiet")
        self.commit()
        for name in programs.listed(TOP):
            os.makedirs(os.path.dirname(checked.built(folder, name)))
            shutil.copy(checked.tried(TOP, name), checked.built(folder, name))

    def run(self, *words: str, at: str = "", **known: str) -> Tuple[int, str, str]:
        ran = subprocess.run(words, cwd=at or self.folder, capture_output=True, text=True, check=False,
                             env={**os.environ, **known})
        return ran.returncode, ran.stdout, ran.stderr

    def write(self, path: str, text: str, mode: int = 0o644) -> None:
        os.makedirs(os.path.dirname(f"{self.folder}/{path}"), exist_ok=True)
        with open(f"{self.folder}/{path}", "w") as file:
            file.write(text)
        os.chmod(f"{self.folder}/{path}", mode)

    def commit(self) -> None:
        self.run("git", "add", "--all")
        who = ["-c", "user.name=test", "-c", "user.email=test@example.org"]
        self.run("git", *who, "commit", "--quiet", "--allow-empty", "-m", "A trial")

    def append(self, path: str, text: str) -> None:
        with open(f"{self.folder}/{path}", "a") as file:
            file.write(text)

    def check(self, part: str = PART, *words: str) -> str:
        """What ./check --anew does at its begin and at its end, with a part between; with other words, what these say."""
        self.run("packaging/checked.py", "begin")
        self.append(".build/parts", part + "\n")
        return self.run("packaging/checked.py", *(words or ("end", "--anew")))[1]

    def made(self) -> List[str]:
        return sorted(glob.glob(f"{self.folder}/dist/*"))

    def refuses(self, wanted: str, what: str, *words: str, **known: str) -> None:
        shutil.rmtree(f"{self.folder}/dist", ignore_errors=True)
        status, out, err = self.run("tools/release", *words, **known)
        self.trial.tell((status, out, self.made()) == (1, "", []) and f"release: {wanted}" in err,
                        f"tools/release {what}: {status}, {out!r}, {err!r}, {self.made()}")


def bytes_of(path: str) -> bytes:
    with open(path, "rb") as file:
        return file.read()


def makes(trial: Trial, scratch: Scratch) -> None:
    """What ./check has passed is released, twice with the same bytes, and its VERDICT says so."""
    status, _, err = scratch.run("tools/release")
    trial.same((status, err, len(scratch.made())), (0, "", FORMS), "tools/release of what ./check has passed")
    if len(scratch.made()) != FORMS:
        return
    archive = next(path for path in scratch.made() if path.endswith(".tar.gz"))
    for path in scratch.made():
        if path.endswith(".sha256"):
            trial.same(scratch.run("sha256sum", "-c", path, at=f"{scratch.folder}/dist")[0], 0, f"{os.path.basename(path)}")
    first = {path: bytes_of(path) for path in scratch.made()}
    with tarfile.open(archive) as tar:
        modes(trial, tar)
        member = next(it for it in tar.getnames() if it.endswith("/VERDICT"))
        text = tar.extractfile(member).read().decode()  # type: ignore[union-attr]
    commit = scratch.run("git", "rev-parse", "HEAD")[1].strip()
    toolchain = scratch.run(shutil.which("rt") or "/opt/rattle/bin/rt", "version")[1].strip()
    for wanted in (commit, toolchain, PART, "What is trusted:"):
        trial.tell(bool(wanted) and wanted in text, f"VERDICT without {wanted!r}")
    trial.tell("NO VERDICT" not in text, "VERDICT of a release")
    status, out, err = scratch.run("tools/release", "--twice")
    trial.tell((status, err) == (0, "") and "the same bytes" in out, f"tools/release --twice: {status}, {out!r}, {err!r}")
    for path in scratch.made():
        trial.tell(bytes_of(path) == first.get(path), f"a second {os.path.basename(path)} of the same commit")


def modes(trial: Trial, tar: tarfile.TarFile) -> None:
    """Programs and folders of the archive are 755, all else is 644, and all is root's, with one time."""
    for entry in tar.getmembers():
        path = entry.name.partition("/")[2]
        is_program = path.startswith("bin/") or path == "install.sh"
        trial.same((oct(entry.mode), entry.uid, entry.gid, entry.uname, entry.gname),
                   (oct(0o755 if is_program or entry.isdir() else 0o644), 0, 0, "root", "root"),
                   f"whose the archive's {path} is")
        trial.tell(entry.isdir() or entry.isfile(), f"the archive's {path} is neither a file nor a folder")
    trial.same(len({entry.mtime for entry in tar.getmembers()}), 1, "the times of the archive's files")


def c_libraries(trial: Trial, scratch: Scratch) -> None:
    """A program that wants a newer C library than is said is refused; versions count by their numbers."""
    known = {"PATH": f"{scratch.folder}/.build/tools:{os.environ['PATH']}"}
    for version, newer in (("2.34", False), ("2.9", False), ("2.35", True), ("2.100", True), ("3.0", True)):
        scratch.write(".build/tools/objdump", OBJDUMP.format(version=version), 0o755)
        if newer:
            scratch.refuses(f"residency wants the C library {version}, and releases are for 2.34", f"of programs for {version}",
                            **known)
        else:
            shutil.rmtree(f"{scratch.folder}/dist", ignore_errors=True)
            status, _, err = scratch.run("tools/release", **known)
            trial.same((status, err, len(scratch.made())), (0, "", FORMS), f"tools/release of programs for {version}")


def twice(trial: Trial, scratch: Scratch) -> None:
    """Where a page depends on the folder in which it is made, one release is made, and of two none."""
    kept = bytes_of(f"{scratch.folder}/packaging/pages.py").decode()
    changed = kept.replace("    return {**{path: adapted", "    texts['docs/setup.md'] += top\n    return {**{path: adapted", 1)
    trial.tell(changed != kept, "nothing of packaging/pages.py was changed")
    scratch.write("packaging/pages.py", changed)
    scratch.commit()
    scratch.check()
    scratch.refuses("two folders gave two of residency-", "--twice where the folder is told", "--twice")
    told = scratch.run("tools/release", "--twice")[2].splitlines()
    number = scratch.run("tools/version")[1].strip()
    trial.same(told, [f"release: two folders gave two of residency{rest}" for rest in (f"-{number}-x86_64-linux.tar.gz",
                                                                                       f"_{number}_amd64.deb")],
               "what --twice tells of the forms that have the page")
    scratch.write("packaging/pages.py", kept)
    scratch.commit()
    scratch.check()


def one_more(trial: Trial, scratch: Scratch) -> None:
    """A program more is a line in the list and a crate that is listed: all three forms have it, with its page and completions."""
    listed = bytes_of(f"{scratch.folder}/crates.txt").decode()
    known = bytes_of(f"{scratch.folder}/packaging/programs.py").decode()
    name = "residency-more"
    scratch.write("packaging/programs.py",
                  known.replace('PROGRAMS = {\n', 'PROGRAMS = {\n    "residency-more": "residency_more",\n'))
    words = ("python3", "-B", "-c", "import programs; print(*programs.listed('..'))")
    trial.same(scratch.run(*words, at=f"{scratch.folder}/packaging")[1].split(), list(programs.listed(TOP)),
               "the programs while no crate of another is listed")
    scratch.write("crates.txt", listed + "residency_more: residency\n")
    status, _, err = scratch.run("tools/release", "--trial", "made", RESIDENCY_BIN="")
    trial.tell(status == 1 and f"release: {name} isn't built" in err, f"a release without a listed program: {status}, {err!r}")
    crate = f"{scratch.folder}/crates/residency_more/out"
    os.makedirs(crate)
    shutil.copy(checked.built(scratch.folder, "residency-why"), f"{crate}/residency_more")
    trial.same(scratch.run("tools/release", "--trial", "made", RESIDENCY_BIN="")[0], 0, "a release with a program more")
    with tarfile.open(glob.glob(f"{scratch.folder}/made/*.tar.gz")[0]) as tar:
        there = {path.partition("/")[2] for path in tar.getnames()}
    wanted = {f"bin/{name}", f"share/man/man1/{name}.1", f"share/bash-completion/completions/{name}",
              f"share/zsh/site-functions/_{name}", f"share/fish/vendor_completions.d/{name}.fish"}
    trial.same(wanted - there, set(), "what the archive lacks of a program more")
    with zipfile.ZipFile(glob.glob(f"{scratch.folder}/made/*.whl")[0]) as wheel:
        trial.tell(f"residency/programs/{name}" in wheel.namelist(), "the wheel lacks a program more")
        scripts = next(wheel.read(path).decode() for path in wheel.namelist() if path.endswith("/entry_points.txt"))
        trial.tell(f"\n{name} = residency.launch:main\n" in scripts, "the wheel has no script of a program more")
    parts = dict(debs.members_of(bytes_of(glob.glob(f"{scratch.folder}/made/*.deb")[0])))
    trial.same({debs.place_of(path) for path in wanted} - {path[2:] for path in debs.tarred(parts["data.tar.xz"])}, set(),
               "what the package lacks of a program more")
    shutil.rmtree(f"{scratch.folder}/made")
    shutil.rmtree(os.path.dirname(crate))
    scratch.write("crates.txt", listed)
    scratch.write("packaging/programs.py", known)


def gate(trial: Trial, scratch: Scratch) -> None:
    """What ./check has to have passed, and what may not have changed since."""
    scratch.append("README.md", "\n")
    scratch.refuses("the checkout has changes", "with a change")
    trial.tell("no release can be made" in scratch.check(), "a check of a checkout with a change")
    scratch.commit()
    scratch.refuses("./check has passed nothing here", "after a check with a change")
    scratch.check()
    scratch.append("new.txt", "\n")
    scratch.refuses("the checkout has changes", "with a new file")
    scratch.commit()
    scratch.refuses("./check passed commit ", "of another commit")
    scratch.check(PART + ", not tried: mandoc")
    scratch.refuses("./check left something out: gate", "after a check that left something out")
    trial.tell("makes a release of what ./check --anew has passed" in scratch.check(PART, "end"), "what ./check says at its end without --anew")
    scratch.refuses("./check counted what an earlier check kept", "after a check without --anew")
    scratch.check()
    scratch.run("packaging/checked.py", "begin")
    scratch.refuses("./check has passed nothing here", "while a check runs, or after one that failed")
    scratch.append("new.txt", "\n")
    scratch.commit()
    trial.tell("changed meanwhile" in scratch.run("packaging/checked.py", "end", "--anew")[1], "a commit while ./check runs")
    scratch.check()


def other_programs(trial: Trial, scratch: Scratch) -> None:
    """Programs that ./check didn't build, or that are missing; and a version without a day."""
    for name in programs.listed(TOP):
        path = checked.built(scratch.folder, name)
        kept = bytes_of(path)
        scratch.append(os.path.relpath(path, scratch.folder), "x")
        scratch.refuses(f"{name} isn't the program that ./check built", f"of another {name}")
        os.remove(path)
        scratch.refuses(f"{name} isn't built", f"without {name}")
        with open(path, "wb") as file:
            file.write(kept)
        os.chmod(path, 0o755)
    text = bytes_of(f"{scratch.folder}/CHANGELOG.md").replace(b"\n## [", b"\n## [9.")
    with open(f"{scratch.folder}/CHANGELOG.md", "wb") as file:
        file.write(text)
    scratch.commit()
    scratch.check()
    scratch.refuses("CHANGELOG.md has no heading", "of a version that CHANGELOG.md doesn't have")
    trial.same(scratch.run("tools/release", "--trial", "dist")[0], 1, "a trial into dist")


PARTS: Dict[str, Callable[[Trial, Scratch], None]] = {
    "makes": makes, "c-library": c_libraries, "twice": twice, "one-more": one_more, "gate": gate, "other-programs": other_programs}


def try_all(trial: Trial, folder: str, wants: Callable[[str], bool]) -> None:
    """Each part over one repository, in this order, each of which leaves a check that has passed."""
    scratch = Scratch(trial, folder)
    scratch.refuses("./check has passed nothing here", "before ./check")
    trial.tell("may make a release" in scratch.check(), "what ./check says at its end")
    scratch.refuses("--maintainer is no 'NAME <MAIL>': Kim", "of a maintainer without a mail", "--maintainer", "Kim")
    for name, part in PARTS.items():
        if wants(name):
            part(trial, scratch)
