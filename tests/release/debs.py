"""The Debian package has the archive's files below /usr; dpkg installs it, it runs, and it goes without a rest.

It is tried in a trial root with the records of a C library; or in a copy of the root that RESIDENCY_DEBIAN_ROOT names, which
debootstrap made (debootstrap --variant=minbase bookworm FOLDER, which wants a network)."""
from __future__ import annotations

import glob
import gzip
import hashlib
import io
import lzma
import os
import re
import shutil
import subprocess
import tarfile
from typing import TYPE_CHECKING, Dict, List, Tuple

import roots
from programs import called

if TYPE_CHECKING:
    from launchers import Trial

SHEET = b"M,x,a\nM,y,b\nF,a,1,1\nF,b,1,1\n"
DOCKET = b"Q,a,1\nQ,b,1\nP,a,x,y\nP,b,y,x\nR,x,b,a\nR,y,a,b\n"
CALLS = """import residency
market = residency.Market({"North": 1}, {"North": ["Kim"]}, {"Kim": ["North"]})
print(residency.match(market).places, residency.__version__)
"""
# What of the archive is no part of the package.
ARCHIVES_OWN = {"install.sh", "SHA256SUMS", "lib/residency/python/build_wheel.py", "lib/residency/python/pyproject.toml"}
STATUS = """Package: libc6
Status: install ok installed
Architecture: amd64
Version: {version}
Maintainer: nobody <nobody@localhost>
Description: a record for the test
"""


def read(path: str) -> bytes:
    with open(path, "rb") as file:
        return file.read()


def members_of(data: bytes) -> List[Tuple[str, bytes]]:
    """The members of an ar archive, by their names."""
    assert data[:8] == b"!<arch>\n"
    at, found = 8, []
    while at < len(data):
        head = data[at:at + 60]
        assert head[58:] == b"`\n", head
        size = int(head[48:58])
        found.append((head[:16].decode().strip(), data[at + 60:at + 60 + size]))
        at += 60 + size + size % 2
    return found


def tarred(data: bytes) -> Dict[str, Tuple[tarfile.TarInfo, bytes]]:
    with tarfile.open(fileobj=io.BytesIO(lzma.decompress(data))) as tar:
        return {entry.name: (entry, tar.extractfile(entry).read() if entry.isfile() else b"")  # type: ignore[union-attr]
                for entry in tar.getmembers()}


def place_of(path: str) -> str:
    """Where a file of the archive is in the package."""
    if path.startswith("share/man/"):
        return f"usr/{path}.gz"
    if path.startswith("share/zsh/"):
        return f"usr/share/zsh/vendor-completions/{os.path.basename(path)}"
    if path.startswith(("bin/", "lib/", "share/")):
        return f"usr/{path}"
    return f"usr/share/doc/residency/{path}"


def opened(trial: Trial, path: str, archive: str, programs: List[str]) -> None:
    """File by file what the archive has; what dpkg reads is right; nothing of it depends on the hour or the machine."""
    number = re.fullmatch(r"residency_([\d.]+)_amd64\.deb", os.path.basename(path))[1]  # type: ignore[index]
    parts = dict(members_of(read(path)))
    trial.same((list(parts), parts.get("debian-binary")), (["debian-binary", "control.tar.xz", "data.tar.xz"], b"2.0\n"),
               "the package's parts")
    data, control = tarred(parts["data.tar.xz"]), tarred(parts["control.tar.xz"])
    files = {name[2:]: kept for name, (entry, kept) in data.items() if entry.isfile()}
    there = {os.path.relpath(f"{at}/{name}", archive) for at, _, names in os.walk(archive) for name in names}
    wanted = {place_of(each): each for each in there - ARCHIVES_OWN}
    own = {"usr/share/doc/residency/copyright", "usr/share/doc/residency/changelog.gz"}
    trial.same(set(files), {*wanted, *own}, "the package's files")
    for place, each in sorted(wanted.items()):
        kept, known = files.get(place, b""), read(f"{archive}/{each}")
        is_zipped = kept[:2] == b"\x1f\x8b"
        trial.same(is_zipped, place.endswith(".gz"), f"whether {place} is compressed")
        kept = gzip.decompress(kept) if is_zipped else kept
        if each.endswith(".md"):
            known = known.replace(b"~/.local/lib/residency/python", b"/usr/lib/residency/python")
            trial.tell(b"/usr/lib/residency/install.sh" not in kept, f"{place} leads to what the package doesn't have")
        trial.tell(kept == known, f"the package's {place} isn't the archive's {each}")
    times = {entry.mtime for entry, _ in [*data.values(), *control.values()]}
    trial.same(len(times), 1, f"the times of the package's files ({times})")
    for name, (entry, kept) in [*data.items(), *control.items()]:
        is_program = entry.isdir() or name.startswith("./usr/bin/") or name == "./prerm"
        mode = 0o777 if entry.issym() else 0o755 if is_program else 0o644
        trial.same((oct(entry.mode), entry.uname, entry.gname, entry.uid, entry.gid), (oct(mode), "root", "root", 0, 0),
                   f"whose {name} is")
        if name.endswith(".gz"):
            trial.same((kept[3], kept[4:8]), (0, b"\0\0\0\0"), f"the name and the time within {name}")
    links = {name: entry.linkname for name, (entry, _) in data.items() if entry.issym()}
    trial.same(links, {"./usr/lib/python3/dist-packages/residency": "../../residency/python/residency"}, "the package's links")
    sums = {name: digest for digest, name in (line.split("  ") for line in control["./md5sums"][1].decode().splitlines())}
    trial.same(sums, {name: hashlib.md5(kept).hexdigest() for name, kept in files.items()}, "the package's sums")
    fields = dict(re.findall(r"^(\S+): (.*)$", control["./control"][1].decode(), re.M))
    size = sum((len(kept) + 1023) // 1024 for kept in files.values())
    for name, text in (("Package", "residency"), ("Version", number), ("Architecture", "amd64"), ("Depends", "libc6 (>= 2.34)"),
                       ("Recommends", "python3 (>= 3.9)"), ("Installed-Size", str(size))):
        trial.same(fields.get(name), text, f"the package's field {name}")
    log = gzip.decompress(files["usr/share/doc/residency/changelog.gz"]).decode()
    trial.tell(log.startswith(f"residency ({number}) ") and f" -- {fields.get('Maintainer')}  " in log,
               f"the package's change log: {log}")
    trial.tell(b"not chosen a licence" in files["usr/share/doc/residency/copyright"], "the package's copyright")


class Debian:
    """A root with dpkg's records: a trial root whose C library dpkg knows, or one of Debian."""

    def __init__(self, room: str) -> None:
        given = os.environ.get("RESIDENCY_DEBIAN_ROOT", "")
        self.root, self.is_debian = room, bool(given)
        if given:
            subprocess.run(["cp", "-a", given, room], check=True)
        else:
            os.makedirs(room)
            roots.make_root(room)
            roots.put_programs(["find"], room, "/usr/bin")
            for folder in ("updates", "info", "triggers"):
                os.makedirs(f"{room}/var/lib/dpkg/{folder}")
            self.knows("2.36-9")
        self.words, self.wanting = roots.way_in(room)

    def knows(self, version: str) -> None:
        """The version of the C library that dpkg has recorded."""
        with open(f"{self.root}/var/lib/dpkg/status", "w") as file:
            file.write(STATUS.format(version=version))

    def dpkg(self, *words: str) -> Tuple[int, bytes, bytes]:
        if self.is_debian:
            return self.run(f"dpkg {' '.join(words)}")
        ran = subprocess.run(["dpkg", f"--root={self.root}", "--force-bad-path,not-root", "--log=/dev/null", *words],
                             capture_output=True,
                             check=False, env={**os.environ, "LC_ALL": "C", "DEBIAN_FRONTEND": "noninteractive"})
        return ran.returncode, ran.stdout, ran.stderr

    def run(self, line: str, data: bytes = b"") -> Tuple[int, bytes, bytes]:
        """A line of the shell in the root."""
        words = ["env", "-i", f"PATH={os.environ['PATH']}", *(self.words or []), "/usr/bin/env", "-i",
                 "PATH=/usr/sbin:/usr/bin:/sbin:/bin",
                 "HOME=/root", "LC_ALL=C", "/bin/sh", "-c", line]
        ran = subprocess.run(words, input=data, capture_output=True, timeout=300, check=False)
        return ran.returncode, ran.stdout, ran.stderr

    def files(self) -> List[str]:
        """Every path of the root but dpkg's own records, its log, and what Python keeps beside its own modules."""
        found = []
        for at, folders, names in os.walk(self.root):
            found += [f"{at}/{name}"[len(self.root):] for name in [*folders, *names]]
        found = [path for path in found if not path.startswith(("/var/lib/dpkg", "/var/log", "/proc", "/sys", "/tmp"))]
        return sorted(path for path in found if not ("/__pycache__" in path and path.startswith("/usr/lib/python3.")))


def runs(trial: Trial, debian: Debian, number: str, programs: List[str]) -> None:
    for name in programs:
        trial.same(debian.run(f"{name} --version")[:2], (0, f"{called(name)} {number}\n".encode()), f"the package's {name} --version")
    trial.same(debian.run("residency match", DOCKET), (0, SHEET, b""), "the package's residency match")
    if debian.run("python3 --version")[0] == 0:
        status, out, err = debian.run("cd /tmp && residency-office run /usr/share/doc/residency/examples/office/programmes.csv "
                                      "/usr/share/doc/residency/examples/office/residents.csv --out new && rm -r new")
        trial.tell((status, err) == (0, b"") and b"audit: stable; replay: good" in out,
                   f"the package's residency-office: {status}, {err!r}")
        path = "" if debian.is_debian else "PYTHONPATH=/usr/lib/python3/dist-packages "
        status, out, err = debian.run(f"{path}python3 -", CALLS.encode())
        trial.same((status, out, err), (0, f"{{'Kim': 'North'}} {number}\n".encode(), b""), "calls of the package's package")
    else:
        status, out, err = debian.run("residency-office --help")
        trial.same((status, err), (1, b"residency-office: it wants Python 3.9 or later as python3\n"),
                   "the package's residency-office without Python")


def by_dpkg(trial: Trial, path: str, room: str, archive: str, programs: List[str]) -> None:
    """dpkg installs it, it runs, and dpkg takes all of it away."""
    number = os.path.basename(path).split("_")[1]
    debian = Debian(room)
    if not debian.words:
        trial.leave_out("the Debian package in a root")
        return
    trial.leave_out(debian.wanting)
    os.makedirs(f"{room}/tmp", exist_ok=True)
    shutil.copy(path, f"{room}/tmp/it.deb")
    place = "/tmp/it.deb" if debian.is_debian else f"{room}/tmp/it.deb"
    before = debian.files()
    status, _, err = debian.dpkg("-i", place)
    trial.same(status, 0, f"dpkg -i ({err!r})")
    runs(trial, debian, number, programs)
    names = {place_of(os.path.relpath(f"{at}/{name}", archive)) for at, _, names in os.walk(archive) for name in names}
    trial.tell(all(f"/{name}" in debian.files() for name in names - set(map(place_of, ARCHIVES_OWN))),
               "a file that dpkg didn't put")
    status, _, err = debian.dpkg("-r", "residency")
    trial.same((status, re.findall(rb"directory '\S*residency\S*' not empty", err)), (0, []), f"dpkg -r ({err!r})")
    trial.same(sorted(set(debian.files()) ^ set(before)), [], "what dpkg -r leaves")
    if not debian.is_debian:
        debian.knows("2.31-13")
        status, _, err = debian.dpkg("-i", place)
        trial.tell(status != 0 and b"libc6" in err, f"dpkg -i beside an older C library: {status}, {err!r}")
    shutil.rmtree(room)


def linted(trial: Trial, path: str) -> None:
    """lintian has no error to tell, and no warning."""
    if not shutil.which("lintian"):
        trial.leave_out("lintian")
        return
    ran = subprocess.run(["lintian", path], capture_output=True, text=True, check=False)
    told = [line for line in ran.stdout.splitlines() if line[:2] in ("E:", "W:")]
    trial.same((ran.returncode, told), (0, []), "what lintian tells")


def try_all(trial: Trial, made: str, room: str, archive: str, programs: List[str]) -> None:
    paths = glob.glob(f"{made}/*.deb")
    trial.same(len(paths), 1, "Debian packages of a release")
    opened(trial, paths[0], archive, programs)
    linted(trial, paths[0])
    if not shutil.which("dpkg") or not shutil.which("dpkg-deb"):
        trial.leave_out("dpkg")
        return
    ran = subprocess.run(["dpkg-deb", "--info", paths[0]], capture_output=True, check=False)
    trial.same((ran.returncode, ran.stderr), (0, b""), "dpkg-deb --info")
    by_dpkg(trial, paths[0], room, archive, programs)
