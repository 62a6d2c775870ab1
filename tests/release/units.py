"""What the code of a release says of single values, without making one: the modes of an archive, two folders that differ, who
answers for it, the version that a program says, the C library that it wants, what is missing and what VERDICT says, its pages, and what goes before
a package does."""
from __future__ import annotations

import contextlib
import gzip
import importlib.machinery
import importlib.util
import io
import os
import subprocess
import tarfile
from typing import TYPE_CHECKING, Any, Dict, List, Tuple
from unittest import mock

import archive
import debian
import debs
import launchers
import pages
import programs
import refusals
import tree
from roots import put_script

if TYPE_CHECKING:
    from launchers import Trial

# Stands in for `strip --strip-all -o TO FROM`.
STRIP = """#!/bin/bash
exec cp "$4" "$3"
"""
# Of a release by its forms' names, what a second folder may give, and whose bytes differ.
MADE = {"a.tar.gz": b"1", "b.whl": b"2", "c.deb": b"3"}
AGAIN: List[Tuple[Dict[str, bytes], List[str]]] = [
    (dict(MADE), []), ({**MADE, "b.whl": b"9"}, ["b.whl"]), ({**MADE, "a.tar.gz": b"", "c.deb": b"1"}, ["a.tar.gz", "c.deb"]),
    ({"a.tar.gz": b"1", "b.whl": b"2"}, ["c.deb"]), ({**MADE, "d.txt": b"4"}, ["d.txt"]), ({}, sorted(MADE))]


def release_of(top: str) -> Any:
    """tools/release as a module."""
    loader = importlib.machinery.SourceFileLoader("release_tool", f"{top}/tools/release")
    spec = importlib.util.spec_from_loader("release_tool", loader)
    assert spec is not None
    module = importlib.util.module_from_spec(spec)
    loader.exec_module(module)
    return module


def modes(trial: Trial) -> None:
    files = {"bin/residency": (b"x", True), "install.sh": (b"x", True), "README.md": (b"x", False), "docs/a/b.md": (b"x", False),
             "share/man/man1/residency.1": (b"x", False)}
    for mask in (0o022, 0o000, 0o077):
        kept = os.umask(mask)
        data = archive.archive(files, "residency-1.2.3-x86_64-linux", 1_000_000_000)
        os.umask(kept)
        with tarfile.open(fileobj=io.BytesIO(data)) as tar:
            trial.same(len(tar.getmembers()), len(files) + 7, "the files and folders of a small archive")
            refusals.modes(trial, tar)


def twice(trial: Trial) -> None:
    """A release that two folders make alike is written, and of no other anything."""
    tool = release_of(launchers.TOP)
    for again, differing in AGAIN:
        written: List[Dict[str, bytes]] = []
        err = io.StringIO()
        with mock.patch.multiple(tool, forms=lambda *_: MADE, forms_elsewhere=lambda *_: again, missing_always=lambda *_: [],
                                 missing_of_check=lambda: [], write=lambda _, made: written.append(made)), \
                mock.patch("sys.argv", ["release", "--twice", "--maintainer", "Kim <kim@example.org>"]), \
                contextlib.redirect_stdout(io.StringIO()), contextlib.redirect_stderr(err):
            status = tool.main()
        told = "".join(f"release: two folders gave two of {name}\n" for name in differing)
        trial.same((status, written, err.getvalue()), (int(bool(differing)), [] if differing else [MADE], told),
                   f"tools/release --twice where a second folder gives {sorted(again)}")
    # A trial is made of what lies here, and its second folder of what is committed: both have to be the same.
    for changed, told in (("", ""), (" M a.py", "release: the second folder gets what is committed, and the checkout has changes that aren't\n")):
        asked: List[object] = []

        def second(*given: object, asked: List[object] = asked) -> Dict[str, bytes]:
            asked.append(given[0])
            return MADE

        err = io.StringIO()
        with mock.patch.multiple(tool, forms=lambda *_: MADE, forms_elsewhere=second, missing_always=lambda *_: [], write=lambda *_: None), \
                mock.patch.object(tool.tree, "state_of", lambda _, changed=changed: {**STATE, "changed": changed}), \
                mock.patch("sys.argv", ["release", "--trial", "made", "--twice", "--maintainer", "Kim <kim@example.org>"]), \
                contextlib.redirect_stdout(io.StringIO()), contextlib.redirect_stderr(err):
            status = tool.main()
        trial.same((status, asked, err.getvalue()), (int(bool(changed)), [True] * (not changed), told), f"tools/release --trial --twice with the changes {changed!r}")


def files_below(folder: str) -> List[str]:
    return sorted(os.path.relpath(f"{at}/{name}", folder) for at, _, names in os.walk(folder) for name in names)


def elsewhere(trial: Trial, folder: str) -> None:
    """A second release is made in a clone, by the same programs and what ./check noted, and is read where it was made: a trial, of which
    ./check noted nothing, in the folder that it is told."""
    tool = release_of(launchers.TOP)
    put_script(f"{folder}/.build/passed", "")
    for is_trial, where in ((False, "dist"), (True, "../../made")):
        seen: List[object] = []

        def run(words: List[str], seen: List[object] = seen, where: str = where, **_: Any) -> None:
            """What git and the clone's own tools/release leave."""
            copy = words[-1] if words[0] == "git" else os.path.dirname(os.path.dirname(words[1]))
            made = os.path.normpath(f"{copy}/{where}")
            os.makedirs(copy if words[0] == "git" else made)
            if words[0] != "git":
                seen.extend([[it.replace(made, "MADE") for it in words[2:]], files_below(copy)])
                put_script(f"{made}/a.whl", "whole")
                put_script(f"{made}/a.whl.sha256", "")

        again: Dict[str, bytes] = {}
        with mock.patch.object(tool, "TOP", folder), mock.patch.object(tool.subprocess, "run", run), contextlib.suppress(FileNotFoundError):
            again = tool.forms_elsewhere(is_trial, {"residency": f"{folder}/.build/passed"}, "Kim <kim@example.org>")
        wanted = [["--maintainer", "Kim <kim@example.org>", *["--trial", "MADE"] * is_trial], [*[".build/passed"] * (not is_trial), "crates/residency_cli/out/residency_cli"]]
        trial.same((again, seen), ({"a.whl": b"whole"}, wanted), f"a second release, {'a trial' if is_trial else 'no trial'}")


def dated(trial: Trial) -> None:
    """The time of what is made is that of the commit, where there is one."""
    tool = release_of(launchers.TOP)
    for says, seconds, day, year in (("1000000000", 1_000_000_000, "Sun, 09 Sep 2001 01:46:40 -0000", 2001), ("", 0, "Thu, 01 Jan 1970 00:00:00 -0000", 1970)):
        with mock.patch.multiple(tool, files_of=lambda *_: {"README.md": (b"x", False)}, commit_says=lambda _, says=says: says), \
                mock.patch.object(tool.wheel, "wheel", lambda *_: b"wheel"):
            made = tool.forms("1.2.3", None, {}, "Kim <kim@example.org>")
        trial.same(sorted(made), ["residency-1.2.3-py3-none-manylinux_2_34_x86_64.whl", "residency-1.2.3-x86_64-linux.tar.gz", "residency_1.2.3_amd64.deb"], "the forms")
        with tarfile.open(fileobj=io.BytesIO(made["residency-1.2.3-x86_64-linux.tar.gz"])) as tar:
            trial.same({it.mtime for it in tar.getmembers()}, {seconds}, f"the times of an archive where git says {says!r}")
        parts = dict(debs.members_of(made["residency_1.2.3_amd64.deb"]))
        for name in ("control.tar.xz", "data.tar.xz"):
            trial.same({entry.mtime for entry, _ in debs.tarred(parts[name]).values()}, {seconds}, f"the times of {name} where git says {says!r}")
        within = {os.path.basename(path): kept for path, (_, kept) in debs.tarred(parts["data.tar.xz"]).items()}
        trial.same((gzip.decompress(within["changelog.gz"]).decode().splitlines()[-1], within["copyright"].splitlines()[2][:15]),
                   (f" -- Kim <kim@example.org>  {day}", b"Copyright %d " % year), f"the day of a package where git says {says!r}")


def maintainers(trial: Trial) -> None:
    """Who answers for the package is one name and one mail, and no line of the package's control file beside them."""
    tool = release_of(launchers.TOP)
    told = ["Kim <kim@example.org>", "Kim Lee (the office) <kim.lee@example.org>"]
    refused = ["Kim", "<kim@example.org>", "Kim <kim>", "Kim <kim@example.org> ", "Kim <kim@example.org>\nDepends: other",
               "Kim\nDepends: other <kim@example.org>", "Kim <kim@example.org\n>", "Kim <kim@example.org>, Lee <lee@example.org>"]
    for maintainer in told + refused:
        written: List[Dict[str, bytes]] = []
        err = io.StringIO()
        with mock.patch.multiple(tool, forms=lambda *_: MADE, missing_always=lambda *_: [], missing_of_check=lambda: [],
                                 write=lambda _, made: written.append(made)), \
                mock.patch("sys.argv", ["release", "--maintainer", maintainer]), contextlib.redirect_stderr(err):
            status = tool.main()
        trial.same((status, len(written), "--maintainer is no 'NAME <MAIL>'" in err.getvalue()),
                   (0, 1, False) if maintainer in told else (1, 0, True), f"tools/release --maintainer {maintainer!r}")


def versions(trial: Trial, folder: str) -> None:
    """A program that says another version than the sources is none of this release."""
    tool = release_of(launchers.TOP)
    put_script(f"{folder}/tools/strip", STRIP)
    put_script(f"{folder}/tools/objdump", refusals.OBJDUMP.format(version="2.9"))
    os.makedirs(f"{folder}/room")
    for says, is_same in (("residency 1.2.3", True), ("residency 1.2.2", False), ("residency 1.2.30", False), ("residency", False),
                          ("1.2.3 residency", False)):
        put_script(f"{folder}/built", f"#!/bin/bash\necho {says}\n")
        told = ""
        with mock.patch.dict(os.environ, {"PATH": f"{folder}/tools:{os.environ['PATH']}"}):
            try:
                tool.stripped("residency", f"{folder}/built", "1.2.3", f"{folder}/room")
            except tool.Refused as fault:
                told = str(fault)
        wanted = "" if is_same else f"residency says that it is {says}, and crates/version 1.2.3: build it again"
        trial.same(told, wanted, f"of a program that says {says}")


def c_library(trial: Trial, folder: str) -> None:
    """The newest version counts that any symbol wants, by its numbers."""
    tool = release_of(launchers.TOP)
    put_script(f"{folder}/built", "#!/bin/bash\necho residency 1.2.3\n")
    put_script(f"{folder}/tools/strip", STRIP)
    os.makedirs(f"{folder}/room")
    with mock.patch.dict(os.environ, {"PATH": f"{folder}/tools:{os.environ['PATH']}"}):
        for version, newer in (("2.34", False), ("2.9", False), ("2.2.5", False), ("2.35", True), ("2.100", True), ("3.0", True)):
            put_script(f"{folder}/tools/objdump", refusals.OBJDUMP.format(version=version))
            told = ""
            try:
                tool.stripped("residency", f"{folder}/built", "1.2.3", f"{folder}/room")
            except tool.Refused as fault:
                told = str(fault)
            wanted = f"residency wants the C library {version}, and releases are for 2.34" if newer else ""
            trial.same(told, wanted, f"of a program for {version}")


# What git and ./check say of a checkout that may be released, and what of it differs where it may not, with what is told.
STATE = {"commit": "0123456789abcdef0123", "tree": "aa", "changed": ""}
NOTE: Dict[str, Any] = {"commit": "fedcba9876543210fedc", "tree": "aa", "toolchain": "rt 1", "anew": True, "parts": ["gate: 5 passed, 0 failed"],
                        "programs": {"residency": "11", "residency-why": "22"}}
RUN_WHOLE = "./check has passed nothing here: run it whole, on a clean checkout"
OF_CHECKS: List[Tuple[Dict[str, str], Any, List[str]]] = [
    ({}, NOTE, []), ({"commit": ""}, NOTE, ["this is no git checkout"]), ({}, None, [RUN_WHOLE]),
    ({"changed": " M a.py\n?? b.py\nR  c.py"}, None, ["the checkout has changes that aren't committed: a.py, b.py, c.py", RUN_WHOLE]),
    ({"changed": "".join(f" M {it}\n" for it in "abcdefg")}, NOTE, ["the checkout has changes that aren't committed: a, b, c, d, e"]),
    ({"tree": "bb"}, NOTE, ["./check passed commit fedcba987654, and 0123456789ab is checked out: run ./check"]),
    ({}, {**NOTE, "anew": False}, ["./check counted what an earlier check kept: run ./check --anew"]),
    ({}, {**NOTE, "parts": ["lint: 2 passed", "lint: not tried: mypy"]}, ["./check left something out: lint: not tried: mypy"]),
    ({}, {**NOTE, "programs": {"residency": "12"}}, ["residency isn't the program that ./check built: run ./check",
                                                    "residency-why isn't the program that ./check built: run ./check"])]
VERDICT = """Residency 1.2.3, for Linux on x86-64 with the GNU C library 2.34 or later

commit     fedcba9876543210fedc
tree       aa
toolchain  rt 1

What ./check said at the end of each part:

    gate: 5 passed, 0 failed

The programs before they were stripped (SHA-256):

    11  residency
    22  residency-why

What is trusted:

"""
TRIAL = """Residency 1.2.3, for Linux on x86-64 with the GNU C library 2.34 or later

NO VERDICT. This archive is a trial: tools/release --trial made it for a test, and ./check hadn't passed.

commit     0123456789abcdef0123, with or without changes

The programs before they were stripped (SHA-256):

    11  residency
    22  residency-why

What is trusted:

"""


def noted(trial: Trial, folder: str) -> None:
    """What ./check noted is read only in the form that it has now: what an older one wrote is none."""
    tool = release_of(launchers.TOP)
    path = f"{folder}/noted/.build/passed"
    os.makedirs(os.path.dirname(path))
    trial.same(tool.checked.note_of(f"{folder}/noted"), None, "the note where there is none")
    for text, is_note in (('{"form": 2, "tree": "aa"}', True), ('{"form": 1, "tree": "aa"}', False), ('{"tree": "aa"}', False), ("[2]", False),
                          ("form 2", False), ("", False)):
        with open(path, "w") as file:
            file.write(text)
        trial.same(tool.checked.note_of(f"{folder}/noted"), {"form": 2, "tree": "aa"} if is_note else None, f"the note {text!r}")


def told(trial: Trial, folder: str) -> None:
    """What is missing, what VERDICT says, and what was written, whole."""
    tool = release_of(launchers.TOP)
    for differs, note, wanted in OF_CHECKS:
        with mock.patch.object(tool.tree, "state_of", lambda _, differs=differs: {**STATE, **differs}), \
                mock.patch.object(tool.checked, "note_of", lambda _, note=note: note), \
                mock.patch.object(tool.checked, "sums_of", lambda _: NOTE["programs"]):
            trial.same(tool.missing_of_check(), wanted, f"what is missing where the checkout has {differs} and ./check noted {note}")
    put_script(f"{folder}/built", "")
    machines: List[Tuple[str, str, str, Dict[str, str], List[str]]] = [
        ("x86_64", "Linux", "1.2.3", {"a": f"{folder}/built"}, []), ("x86_64", "Darwin", "1.2.3", {}, ["this machine isn't Linux on x86-64"]),
        ("aarch64", "Linux", "1.2.3", {}, ["this machine isn't Linux on x86-64"]),
        ("x86_64", "Linux", "1.2.4", {"a": "/no/a", "b": f"{folder}/built"},
         ["strip is missing", "objdump is missing", "a isn't built: /no/a is missing", "CHANGELOG.md has no heading '## [1.2.4] - YYYY-MM-DD'"])]
    for machine, system, version, paths, missing in machines:
        there = "" if len(missing) > 1 else "/usr/bin/it"
        with mock.patch.object(tool.platform, "machine", lambda machine=machine: machine), \
                mock.patch.object(tool.platform, "system", lambda system=system: system), \
                mock.patch.object(tool.shutil, "which", lambda _, there=there: there), \
                mock.patch.object(tool, "read", lambda _: b"# Log\n\n## [1.2.3] - 2026-11-29\n\n## [1.2.40] - 2026-11-29\n"):
            trial.same(tool.missing_always(version, paths), missing, f"what a {machine} with {system} lacks for {version}")
    with open(f"{launchers.TOP}/packaging/trusted.txt") as file:
        trusted = "".join(f"    {line}" for line in file)
    with mock.patch.object(tool.tree, "state_of", lambda _: STATE), mock.patch.object(tool.checked, "sum_of", lambda path: path[-2:]):
        for note, text in ((NOTE, VERDICT), (None, TRIAL)):
            trial.same(tool.verdict("1.2.3", note, {"residency": "of 11", "residency-why": "of 22"}), text + trusted, "what VERDICT says")
    out = io.StringIO()
    with contextlib.redirect_stdout(out):
        tool.write(f"{folder}/new/dist", {"a.whl": b"abc", "b.deb": b""})
    # The sums of `abc` and of nothing that FIPS 180-2 gives.
    sums = ("ba7816bf8f01cfea414140de5dae2223b00361a396177a9cb410ff61f20015ad", "e3b0c44298fc1c149afbf4c8996fb92427ae41e4649b934ca495991b7852b855")
    trial.same(out.getvalue(), f"{folder}/new/dist/a.whl: 3 bytes, {sums[0]}\n{folder}/new/dist/b.deb: 0 bytes, {sums[1]}\n", "what is told of what is written")
    found = {}
    for name in os.listdir(f"{folder}/new/dist"):
        with open(f"{folder}/new/dist/{name}") as file:
            found[name] = file.read()
    trial.same(found, {"a.whl": "abc", "b.deb": "", "a.whl.sha256": f"{sums[0]}  a.whl\n", "b.deb.sha256": f"{sums[1]}  b.deb\n"}, "what is written")


# The pages of a small tree, and as a release has them.
PAGES: Dict[str, bytes] = {
    "README.md": b"""# Title

Before.

<!-- for users -->
See [the pages](docs/a.md#part), ![shown](docs/p.png), [others](docs/decisions/x.md), [the code](crates/a.rt), [the web](https://example.org/docs/b.md),
[itself](#top), [changes](CHANGELOG.md) and [the verdict](VERDICT). Run `./residency match`, `./why-national`, `./seal/x`, `./office` or `./python`.
<!-- for all others -->
Left out: [b](docs/b.md).
<!-- for users -->
More.
<!-- for all others -->
""",
    "docs/a.md": b"To [c](c.md#c), [back](../README.md), [help](help/x.txt) and [code](../crates/a.rt).\n",
    "docs/c.md": b"# C\n<!-- for users -->\nFor users, `./why`.\n<!-- for all others -->\nNot.\n",
    "docs/help/x.txt": b"./residency\n", "docs/p.png": b"\x89P", "docs/b.md": b"b\n", "docs/decisions/x.md": b"x\n", "crates/a.rt": b"a\n"}
RELEASED: Dict[str, bytes] = {
    "README.md": b"""# Title

Before.

See [the pages](docs/a.md#part), ![shown](docs/p.png), others, the code, [the web](https://example.org/docs/b.md),
[itself](#top), [changes](CHANGELOG.md) and [the verdict](VERDICT). Run `residency match`, `residency-why-national`, `./seal/x`, `residency-office` or `~/.local/lib/residency/python`.

More.
""",
    "docs/a.md": b"To [c](c.md#c), [back](../README.md), [help](help/x.txt) and code.\n", "docs/c.md": b"# C\n\nFor users, `residency-why`.\n",
    "docs/help/x.txt": b"./residency\n", "docs/p.png": b"\x89P"}


def paged(trial: Trial, folder: str) -> None:
    """README's parts for users, and all pages and pictures that they lead to, in which no link leads to what isn't there."""
    for path, data in PAGES.items():
        os.makedirs(os.path.dirname(f"{folder}/{path}"), exist_ok=True)
        with open(f"{folder}/{path}", "wb") as file:
            file.write(data)
    trial.same(pages.release_pages(folder), RELEASED, "the pages of a small release")
    trial.same(pages.adapted("examples/README.md", b"[a](a.csv), [b](b.csv): `./audit`\n", {"examples/a.csv"}), b"[a](a.csv), b: `residency-audit`\n", "a page beside")
    trial.same(pages.adapted("examples/a.csv", b"./audit\n", set()), b"./audit\n", "a file that is no page")


def listed(trial: Trial, folder: str) -> None:
    """The programs whose crates are listed, and the names that two of them share; and the files of a tree."""
    put_script(f"{folder}/crates.txt", "# residency_why: none\nresidency_cli: one\nother: residency_audit\nresidency_seal:\n")
    trial.same(programs.listed(folder), {"residency": "residency_cli", "residency-seal": "residency_seal"}, "the programs of a list")
    trial.same([programs.called(it) for it in ("residency", "residency-national", "residency-why-national", "residency-seal")],
               ["residency", "residency", "residency-why", "residency-seal"], "how programs are called")
    for path in ("a.txt", "b.txt", "c/d.txt", "c/out/e.txt", "c/f/__pycache__/g.pyc"):
        put_script(f"{folder}/unknown/{path}", "")
    trial.same(tree.listed(f"{folder}/unknown", "a.txt", "c", "none"), ["a.txt", "c/d.txt"], "the files of a tree that git doesn't know")


def prerm(trial: Trial, folder: str) -> None:
    """What Python kept beside the package goes before the package's files do, and of other packages nothing."""
    own, others = "usr/lib/residency/python/residency", "usr/lib/python3/dist-packages/other"
    for path in (f"{own}/market.py", f"{own}/__pycache__/market.pyc", f"{own}/office/__pycache__/page.pyc", f"{own}/office/page.py",
                 f"{others}/__pycache__/other.pyc", "usr/lib/residency-more/__pycache__/a.pyc", "usr/lib/__pycache__/b.pyc"):
        put_script(f"{folder}/{path}", "")
    for place in (folder, f"{folder}/nowhere"):
        ran = subprocess.run(["sh", "-c", debian.PRERM, "prerm", "remove"], env={"PATH": os.environ["PATH"], "DPKG_ROOT": place},
                             capture_output=True, text=True, check=False)
        trial.same((ran.returncode, ran.stdout, ran.stderr), (0, "", ""), f"prerm in {os.path.basename(place)}")
    left = sorted(os.path.relpath(f"{at}/{name}", folder) for at, _, names in os.walk(folder) for name in names)
    trial.same(left, sorted([f"{own}/market.py", f"{own}/office/page.py", f"{others}/__pycache__/other.pyc",
                             "usr/lib/residency-more/__pycache__/a.pyc", "usr/lib/__pycache__/b.pyc"]), "what prerm leaves")


def try_all(trial: Trial, folder: str) -> None:
    modes(trial)
    twice(trial)
    elsewhere(trial, f"{folder}/elsewhere")
    dated(trial)
    maintainers(trial)
    versions(trial, f"{folder}/versions")
    c_library(trial, f"{folder}/c-library")
    noted(trial, f"{folder}/told")
    told(trial, f"{folder}/told")
    paged(trial, f"{folder}/pages")
    listed(trial, f"{folder}/programs")
    prerm(trial, f"{folder}/prerm")
