"""What ./residency, ./why and ./office of a clone do without a toolchain, when they build, and what a start through them costs."""
from __future__ import annotations

import glob
import os
import shutil
import subprocess
import time
from typing import TYPE_CHECKING, List, Optional, Tuple

import checked
import roots
import tree

if TYPE_CHECKING:
    from typing import Protocol

    class Trial(Protocol):
        def tell(self, is_right: bool, what: str) -> None: ...
        def same(self, got: object, wanted: object, what: str) -> None: ...
        def leave_out(self, what: str) -> None: ...

TOP = os.path.dirname(os.path.dirname(os.path.dirname(os.path.abspath(__file__))))
SHEET = b"M,x,a\nM,y,b\nF,a,1,1\nF,b,1,1\n"
MATCH = "./residency match < examples/two-by-two.csv"
RUN = "./office run examples/office/programmes.csv examples/office/residents.csv --out new"
# The most that a start through ./residency may cost over the program itself, in seconds.
MOST_COST = 0.020


def some_tools(root: roots.Root, names: List[str], folder: str) -> str:
    """A folder of the root with these programs of the machine."""
    roots.put_programs(names, root.root, folder)
    return folder if root.words else f"{root.root}{folder}"


def unpackers(root: roots.Root) -> str:
    """What unpacks an archive and is none of coreutils."""
    return some_tools(root, ["tar", "gzip"], "/unpack")


def copy_of(*folders: str, to: str) -> None:
    """Copies the files of the repository, as they lie here."""
    for path in tree.listed(TOP, *folders):
        os.makedirs(os.path.dirname(f"{to}/{path}"), exist_ok=True)
        shutil.copy2(f"{TOP}/{path}", f"{to}/{path}")


class Bare:
    """A clone in a root that has no toolchain."""

    def __init__(self, trial: Trial, root: roots.Root, release: str) -> None:
        self.trial, self.root, self.release, self.at = trial, root, release, f"{root.home}/work/clone"
        self.folder = root.path(self.at)
        parts = ["residency", "why", "audit", "seal", "office", "python", "tools", "docs/help", "crates.txt", "crates", "examples"]
        copy_of(*parts, to=self.folder)

    def refused(self, line: str, wanted: bytes, first: str = "", **known: str) -> None:
        """One line on standard error that says this, and status 1."""
        status, out, err = self.root.run(line, self.at, b"", first, **known)
        self.trial.tell((status, out) == (1, b"") and err.count(b"\n") == 1 and err.startswith(b"residency: ") and wanted in err,
                        f"{line} {known} ends with {status}, {out!r}, {err!r}")

    def runs(self, what: str, **known: str) -> None:
        """./residency and ./why run what is installed."""
        found = self.root.run(MATCH, self.at, b"", "", **known)[:2]
        self.trial.same(found, (0, SHEET), f"./residency {what}")
        found = self.root.run("./why --help", self.at, b"", "", **known)[:2]
        self.trial.same(found, self.root.run("residency-why --help", self.at)[:2], f"./why {what}")


def without_toolchain(trial: Trial, root: roots.Root, release: str) -> None:
    """One line and status 1 where there is no program; else the one that RESIDENCY_BIN tells, or a release beside the clone."""
    if not root.words:
        trial.leave_out("launchers without a toolchain")
        return
    bare = Bare(trial, root, release)
    for line in (MATCH, "./why x < examples/two-by-two.csv", RUN):
        bare.refused(line, b"the toolchain (rt) that builds it is missing; a release has it")
        bare.refused(line, b"RESIDENCY_BIN is /nowhere", RESIDENCY_BIN="/nowhere")
    bare.refused(MATCH, b"RESIDENCY_BIN is ", RESIDENCY_BIN=bare.at)
    unbuilt(bare)
    for told in (f"{root.home}/.local/bin", f"{root.home}/.local/bin/residency"):
        bare.runs(f"with RESIDENCY_BIN={told}", RESIDENCY_BIN=told)
    beside = f"{os.path.dirname(bare.folder)}/{os.path.basename(release)}"
    shutil.copytree(root.path(release), beside)
    bare.runs("beside a release")
    line = "cd .. && ln -s clone/residency link && ./link match < clone/examples/two-by-two.csv"
    trial.same(root.run(line, bare.at)[:2], (0, SHEET), "a link to ./residency")
    shutil.rmtree(beside)
    newest(bare)
    built(bare)
    shutil.rmtree(os.path.dirname(bare.folder))


def alone_newest(trial: Trial, folder: str) -> None:
    """The newest of several releases, in a root that has nothing else."""
    os.makedirs(folder)
    root = roots.Root(folder, has_python=False)
    if not root.words:
        trial.leave_out("launchers without a toolchain")
        return
    newest(Bare(trial, root, ""))


def newest(bare: Bare) -> None:
    """Of several releases beside the clone the newest is run, by the numbers of its version."""
    beside = os.path.dirname(bare.folder)
    versions = ["1.9.0", "1.10.0", "1.2.11", "0.99.99"]
    for number in versions:
        roots.put_script(f"{beside}/residency-{number}-x86_64-linux/bin/residency", f"#!/bin/bash\necho {number}\n")
    bare.trial.same(bare.root.run(MATCH, bare.at)[:2], (0, b"1.10.0\n"), "./residency beside several releases")
    for number in versions:
        shutil.rmtree(f"{beside}/residency-{number}-x86_64-linux")


def unbuilt(bare: Bare) -> None:
    """What a clone says of its programs before they are built is what they say; the office's lint needs no program."""
    root, at = bare.root, bare.at
    for path in sorted(os.listdir(f"{TOP}/docs/help")):
        *said, last = path[:-len(".txt")].split("-")
        own = {"why": "why", "seal": "seal", "auditor": "audit"}.get("".join(said[:1]), "")
        launcher, program = (f"./{own}", f"residency-{own}") if own else ("./residency", "residency")
        line = " ".join([*said[bool(own):], f"--{last}"])
        before, after = root.run(f"{launcher} {line}", at), root.run(f"{program} {line}", at)
        bare.trial.tell(before[0] == 0 and before == after, f"{launcher} {line} before the build: {before!r} is not {after!r}")
    for launcher, program in (("./residency", "residency"), ("./why", "residency-why"), ("./audit", "residency-audit"), ("./seal", "residency-seal")):
        before, after = root.run(f"{launcher} --version", at), root.run(f"{program} --version", at)
        bare.trial.tell(before[0] == 0 and before == after, f"{launcher} --version before the build: {before!r} is not {after!r}")
    if os.path.isdir(f"{bare.folder}/python"):
        found = root.run("./office lint examples/two-by-two.csv", at)[:2]
        bare.trial.same(found, (0, b"no fault\n"), "./office lint with no program")


def built(bare: Bare) -> None:
    """A program that is built is run, unless RESIDENCY_BIN tells another or a source is newer."""
    program = checked.built(bare.folder, "residency")
    os.makedirs(os.path.dirname(program))
    shutil.copy(bare.root.path(f"{bare.release}/bin/residency"), program)
    # A program that was built was built on a machine with find.
    find = some_tools(bare.root, ["find"], "/find")
    bare.trial.same(bare.root.run(MATCH, bare.at, first=find)[:2], (0, SHEET), "./residency that is built")
    bare.refused(MATCH, b"RESIDENCY_BIN is /nowhere", RESIDENCY_BIN="/nowhere")
    os.utime(program, (1, 1))
    bare.refused(MATCH, b"is older than crates", first=find)


# Each word of the program's line is shown as it came.
STAND_IN = """#!/bin/bash
# Stands in for what proves and builds: it notes its program, may touch a source meanwhile, and may fail.
cd "$(dirname "$0")/.."
echo "$1" ${GLIBC_TUNABLES:+tuned} >> built
[ ! -e fails ] || exit 1
[ ! -e meanwhile ] || touch "$(cat meanwhile)"
sleep 0.05
mkdir -p "crates/$1/out"
cat > "crates/$1/out/$1" << 'END'
#!/bin/sh
printf '<%s>' "$@"
echo ${GLIBC_TUNABLES:+tuned}
END
chmod +x "crates/$1/out/$1"
"""
# What a start hands on as it is: blanks, signs of the shell, a word without a letter.
WORDS = ["word", "Ana  Abel", "*", "", "$HOME", "-x", "a\nb", "it's", 'a "b']
# Each launcher of a program with its crate; those of a match get tunables.
LAUNCHERS = {"residency": "residency_cli", "residency-national": "residency_national", "why": "residency_why", "why-national": "residency_why_national",
             "audit": "residency_audit", "seal": "residency_seal"}


class Clone:
    """A clone whose builds are counted."""

    def __init__(self, trial: Trial, folder: str) -> None:
        self.trial, self.folder = trial, folder
        copy_of(*LAUNCHERS, "office", "tools", "docs/help", "crates.txt", "crates", to=folder)
        self.write("tools/build", STAND_IN)
        self.write("bin/rt", "#!/bin/sh\n")
        self.known = {**os.environ, "PATH": f"{folder}/bin:{os.environ['PATH']}"}
        for name in ("RESIDENCY_BIN", "GLIBC_TUNABLES"):
            self.known.pop(name, None)

    def write(self, path: str, text: str) -> None:
        os.makedirs(os.path.dirname(f"{self.folder}/{path}"), exist_ok=True)
        with open(f"{self.folder}/{path}", "w") as file:
            file.write(text)
        os.chmod(f"{self.folder}/{path}", 0o755)

    def start(self, launcher: str = "./residency", status: int = 0, folder: str = "", path: str = "") -> None:
        ran = subprocess.run([path or f"{self.folder}/{launcher}", *WORDS], cwd=folder or self.folder, env=self.known, capture_output=True, text=True,
                             check=False)
        says = "" if status else "".join(f"<{word}>" for word in WORDS) + ("tuned\n" if launcher.startswith("./residency") else "\n")
        self.trial.same((ran.returncode, ran.stdout), (status, says), f"{launcher} of a counted clone ({ran.stderr})")

    def built(self) -> str:
        """What was built, in a line each."""
        try:
            with open(f"{self.folder}/built") as file:
                return file.read()
        except OSError:
            return ""

    def builds(self) -> int:
        return self.built().count("\n")

    def after(self, changed: Optional[str], wanted: int, what: str, launcher: str = "./residency") -> None:
        """Changes a file, starts twice, and wants so many builds."""
        before = self.builds()
        time.sleep(0.02)
        if changed:
            with open(f"{self.folder}/{changed}", "a") as file:
                file.write("\n")
        self.start(launcher)
        self.start(launcher)
        self.trial.same(self.builds() - before, wanted, f"builds of {launcher} after {what}")


def freshness(trial: Trial, folder: str) -> None:
    """A start builds where a source of its program is newer, once, and only there."""
    clone = Clone(trial, folder)
    clone.after(None, 1, "nothing was built")
    clone.after(None, 0, "nothing")
    specs = os.path.relpath(glob.glob(f"{folder}/crates/docket/specs/*.antt")[0], folder)
    for path in ("crates/match_model/src/lib.rt", specs, "crates.txt", "crates/residency_cli/src/main.rt",
                 "crates/version/src/lib.rt", "crates/docket/src/new.rt"):
        clone.after(path, 1, f"{path} changed")
    proof = os.path.relpath(glob.glob(f"{folder}/crates/match_model/proofs/*.antt")[0], folder)
    for path in (proof, "crates/residency_why/src/main.rt", "crates/test_support/src/lib.rt", "crates/docket/src/new.rt~"):
        clone.after(path, 0, f"{path} changed")
    clone.after(None, 1, "nothing of it was built", "./why")
    clone.after("crates/match_reasons/src/lib.rt", 1, "crates/match_reasons changed", "./why")
    clone.after(None, 0, "crates/match_reasons changed")
    # A source that is written while the program is built is newer than the program.
    clone.write("meanwhile", "crates/docket/src/lib.rt")
    before = clone.builds()
    clone.after("crates/docket/src/read.rt", 2, "a change, and another while it built")
    os.remove(f"{folder}/meanwhile")
    clone.start()
    clone.after(None, 0, "a build with nothing beside")
    # What couldn't be built is tried again.
    clone.write("fails", "")
    time.sleep(0.02)
    clone.write("crates/docket/src/read.rt", "")
    before = clone.builds()
    clone.start(status=1)
    clone.start(status=1)
    trial.same(clone.builds() - before, 2, "builds that fail")
    trial.tell("tuned" not in clone.built(), "the tunables of a match reach a build")
    elsewhere(trial, clone)
    of_office(trial, clone)
    helped(trial, clone)


# By a launcher's words the kept help that it says before its program is built.
HELPS = {"./residency --help": "help", "./residency match --help": "match-help", "./residency audit --help": "audit-help", "./residency-national --help": "help",
         "./audit --help": "auditor-help", "./why --help": "why-help", "./why-national --help": "why-help", "./seal --help": "seal-help",
         "./seal root --help": "seal-root-help"}


def helped(trial: Trial, clone: Clone) -> None:
    """What a program that isn't built says of itself is its kept help, and nothing is built for it."""
    for crate in LAUNCHERS.values():
        shutil.rmtree(f"{clone.folder}/crates/{crate}/out", ignore_errors=True)
    before = clone.builds()
    for line, name in HELPS.items():
        ran = subprocess.run(line.split(), cwd=clone.folder, env=clone.known, capture_output=True, text=True, check=False)
        with open(f"{clone.folder}/docs/help/{name}.txt") as file:
            trial.same((ran.returncode, ran.stdout, ran.stderr), (0, file.read(), ""), f"{line} before the build")
    trial.same(clone.builds(), before, "what helps build")


# By the office's words what its launcher builds, before Python reads them. The last folder is there, and sealed.
OF_OFFICE: List[Tuple[List[str], List[str]]] = [
    ([], []), (["check", "p.csv", "r.csv"], []), (["letters", "run"], []), (["run", "--help"], []), (["verify", "new", "-h"], []), (["--help", "seal"], []),
    (["run", "p.csv", "r.csv"], ["residency_cli"]), (["withdraw", "new", "Kim"], ["residency_cli"]),
    (["run", "a --help b.csv", "it's -h \"so\".csv"], ["residency_cli"]), (["run", "a --seal b.csv", "c --lists d.csv", "a seal b"], ["residency_cli"]),
    (["seal", "p.csv", "r.csv"], ["residency_seal", "residency_cli"]), (["run", "p.csv", "--seal"], ["residency_seal", "residency_cli"]),
    (["run", "p.csv", "--lists=x y"], ["residency_seal", "residency_cli"]), (["verify", "new"], ["residency_why", "residency_cli"]),
    (["verify", "it's \"a sealed\" one"], ["residency_why", "residency_seal", "residency_cli"]),
    (["desk", "nowhere", "--no-browser"], ["residency_why", "residency_seal", "residency_cli"])]


def of_office(trial: Trial, clone: Clone) -> None:
    """The office's launcher builds what its words ask for; a name of a file that has such a word asks for nothing."""
    clone.write("it's \"a sealed\" one/secret.txt", "")
    for given, wanted in OF_OFFICE:
        for crate in LAUNCHERS.values():
            shutil.rmtree(f"{clone.folder}/crates/{crate}/out", ignore_errors=True)
        before = clone.builds()
        subprocess.run([f"{clone.folder}/office", *given], cwd=clone.folder, env=clone.known, capture_output=True, check=False)
        trial.same([line.split()[0] for line in clone.built().splitlines()[before:]], wanted, f"what ./office {given} builds")


def elsewhere(trial: Trial, clone: Clone) -> None:
    """Each launcher from another folder, by its path and by a link, where the names of both have blanks and quotes: it builds its own
    crate once, and lists the sources for the next start."""
    clone.write("crates/docket/src/read.rt", "")
    os.remove(f"{clone.folder}/fails")
    other = f"{os.path.dirname(clone.folder)}/it's \"an other\" folder"
    os.makedirs(other)
    before = clone.builds()
    for name, crate in LAUNCHERS.items():
        os.symlink(f"../{os.path.basename(clone.folder)}/{name}", f"{other}/a link's {name}")
        for path in (f"../{os.path.basename(clone.folder)}/{name}", f"./a link's {name}", f"{other}/a link's {name}"):
            clone.start(f"./{name}", folder=other, path=path)
        trial.tell(os.path.isfile(f"{clone.folder}/.build/{crate}.sources"), f"./{name} lists no sources for the next start")
    trial.same(clone.built().splitlines()[before:], [*LAUNCHERS.values()], "what is built from another folder")
    trial.same(sorted(os.listdir(f"{clone.folder}/.build") if os.path.isdir(f"{clone.folder}/.build") else []), sorted(f"{it}.sources" for it in LAUNCHERS.values()), "what starts leave beside the lists")
    # The next start looks at the lists alone; but what RESIDENCY_BIN tells comes before what is built.
    os.rename(f"{clone.folder}/tools/launch", f"{clone.folder}/tools/away")
    for name in LAUNCHERS:
        clone.start(f"./{name}", folder=other)
    os.rename(f"{clone.folder}/tools/away", f"{clone.folder}/tools/launch")
    for name in LAUNCHERS:
        program = f"residency-{name}" if not name.startswith("residency") else name
        roots.put_script(f"{other}/told/{program}", '#!/bin/sh\necho "told ${0##*/} $*"\n')
        ran = subprocess.run([f"{clone.folder}/{name}", "a word"], cwd=other, env={**clone.known, "RESIDENCY_BIN": "told"}, capture_output=True, text=True,
                             check=False)
        trial.same((ran.returncode, ran.stdout, ran.stderr), (0, f"told {program} a word\n", ""), f"./{name} that RESIDENCY_BIN tells")
        # A program that may not be run is none.
        os.chmod(f"{other}/told/{program}", 0o644)
        ran = subprocess.run([f"{clone.folder}/{name}", "a word"], cwd=other, env={**clone.known, "RESIDENCY_BIN": "told"}, capture_output=True, text=True,
                             check=False)
        trial.same((ran.returncode, ran.stdout, ran.stderr), (1, "", f"residency: RESIDENCY_BIN is told, where there is no program {program}\n"),
                   f"./{name} where RESIDENCY_BIN tells what may not be run")


def seconds_of(words: List[str]) -> float:
    start = time.perf_counter()
    subprocess.run(words, stdout=subprocess.DEVNULL, stdin=subprocess.DEVNULL, check=True)
    return time.perf_counter() - start


def cost(trial: Trial, folder: str) -> None:
    """What a start through ./residency takes over the program itself, at the best of many turns."""
    copy_of("residency", "tools", "crates.txt", "crates", to=folder)
    program = checked.built(folder, "residency")
    os.makedirs(os.path.dirname(program))
    shutil.copy(checked.tried(TOP, "residency"), program)
    os.environ.pop("RESIDENCY_BIN", None)
    turns = [(seconds_of([f"{folder}/residency", "--version"]), seconds_of([program, "--version"])) for _ in range(41)]
    over = min(turn[0] for turn in turns) - min(turn[1] for turn in turns)
    trial.tell(over <= MOST_COST, f"a start through ./residency costs {over * 1000:.1f} ms over the program")
