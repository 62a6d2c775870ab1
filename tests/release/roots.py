"""A root of the C library, bash, coreutils and Python alone, in which a release is tried as on a machine that has nothing else."""
from __future__ import annotations

import glob
import os
import re
import shutil
import signal
import subprocess
import sys
from typing import Iterable, List, Optional, Tuple

# Those of coreutils that README's commands, install.sh and the launchers may take, and then all others.
COREUTILS = """[ arch b2sum base32 base64 basename basenc cat chgrp chmod chown cksum comm cp csplit cut date dd df dir
dircolors dirname du echo env expand expr factor false fmt fold groups head hostid id install join link ln logname ls md5sum
mkdir mkfifo mknod mktemp mv nice nl nohup nproc numfmt od paste pathchk pr printenv printf ptx pwd readlink realpath rm rmdir
seq sha1sum sha224sum sha256sum sha384sum sha512sum shred shuf sleep sort split stat stdbuf stty sum sync tac tail tee test
timeout touch tr true truncate tsort tty uname unexpand uniq unlink users vdir wc who whoami yes""".split()
LEFT_OUT = shutil.ignore_patterns("site-packages", "test", "tests", "idlelib", "tkinter", "turtledemo", "ensurepip", "lib2to3",
                                  "__pycache__", "config-*", "*.a", "_test*", "_tkinter*")
# A command that takes longer hangs; the longest takes a second on a quiet machine.
MOST_SECONDS = 120
LIBRARY = re.compile(r"(?:=> )?(/\S+) \(0x")


def libraries_of(paths: Iterable[str]) -> List[str]:
    """The shared libraries that programs want, and the loader."""
    ran = subprocess.run(["ldd", *paths], capture_output=True, text=True, check=False)
    return sorted(set(LIBRARY.findall(ran.stdout)))


def put(path: str, root: str, place: str) -> None:
    """Copies a file to a place of the root."""
    os.makedirs(os.path.dirname(f"{root}{place}"), exist_ok=True)
    if not os.path.exists(f"{root}{place}"):
        shutil.copy2(os.path.realpath(path), f"{root}{place}")


def put_programs(names: Iterable[str], root: str, folder: str) -> None:
    """Copies programs to a folder of the root, and their libraries to where the loader looks."""
    found = [path for path in (shutil.which(name, path="/usr/bin:/bin:/usr/sbin:/sbin") for name in names) if path]
    for path in found:
        put(path, root, f"{folder}/{os.path.basename(path)}")
    for library in libraries_of(found):
        put(library, root, library)


def put_python(root: str) -> None:
    """Copies this Python with its standard library, and nothing that was installed into it."""
    program, version = os.path.realpath(sys.executable), f"python{sys.version_info[0]}.{sys.version_info[1]}"
    put(program, root, "/usr/bin/python3")
    source, target = os.path.dirname(os.__file__), f"{root}/usr/lib/{version}"
    shutil.copytree(source, target, ignore=LEFT_OUT)
    shutil.rmtree(f"{target}/dist-packages", ignore_errors=True)
    for library in libraries_of([program, *glob.glob(f"{target}/lib-dynload/*.so")]):
        put(library, root, library)


def put_script(path: str, text: str) -> None:
    """Writes a program of these lines."""
    os.makedirs(os.path.dirname(path), exist_ok=True)
    with open(path, "w") as file:
        file.write(text)
    os.chmod(path, 0o755)


def make_root(root: str, has_python: bool = True) -> None:
    for folder in ("tmp", "dev", "home/user", "usr/bin", "usr/sbin"):
        os.makedirs(f"{root}/{folder}", exist_ok=True)
    put_programs(["bash", *COREUTILS], root, "/usr/bin")
    if has_python:
        put_python(root)
    os.symlink("usr/bin", f"{root}/bin")
    os.symlink("bash", f"{root}/usr/bin/sh")
    with open(f"{root}/dev/null", "wb"):
        pass


def way_in(root: str) -> Tuple[Optional[List[str]], str]:
    """The words before a command that is to run in the root without a network, and what couldn't be had: none of it, or nothing."""
    ways = [(["unshare", "--net", "chroot", root], ""), (["unshare", "--map-root-user", "--net", "chroot", root], ""),
            (["chroot", root], "a machine without a network")]
    for words, wanting in ways:
        if shutil.which(words[0]):
            ran = subprocess.run([*words, "/bin/bash", "-c", "true"], capture_output=True, check=False)
            if ran.returncode == 0:
                return words, wanting
    return None, "a root of its own (chroot isn't permitted)"


class Root:
    """Runs commands in the root. Where no root can be had, on this machine with the same folders on the path."""

    words: Optional[List[str]]

    def __init__(self, root: str, has_python: bool = True) -> None:
        make_root(root, has_python)
        self.root = root
        self.words, self.wanting = way_in(root)
        self.home = "/home/user" if self.words else f"{root}/home/user"

    def path(self, place: str) -> str:
        """Where a place of the root lies on this machine."""
        return f"{self.root}{place}" if self.words else place

    def run(self, command: str, folder: str, stdin: bytes = b"", first: str = "", **known: str) -> Tuple[int, bytes, bytes]:
        """The status and both outputs of a line of bash in a folder of the root; `first` comes first on the path."""
        bin_folder = "/usr/bin" if self.words else f"{self.root}/usr/bin"
        path = ":".join(it for it in (first, f"{self.home}/.local/bin", bin_folder) if it)
        bash = "/bin/bash" if self.words else f"{self.root}/usr/bin/bash"
        words = [*(self.words or []), bash, "-c", f"cd '{folder}' && {command}"]
        environment = {"HOME": self.home, "PATH": path, "LC_ALL": "C", **known}
        # `env` comes from outside, since the words before it have to be found there.
        line = ["env", "-i", f"PATH={os.environ['PATH']}", *self.words_within(environment, words)]
        with subprocess.Popen(line, stdin=subprocess.PIPE, stdout=subprocess.PIPE, stderr=subprocess.PIPE,
                              start_new_session=True) as ran:
            try:
                out, err = ran.communicate(stdin, timeout=MOST_SECONDS)
            except subprocess.TimeoutExpired:
                os.killpg(ran.pid, signal.SIGKILL)
                return 124, b"", b"it didn't end"
        return ran.returncode, out, err

    def words_within(self, environment: "dict[str, str]", words: List[str]) -> List[str]:
        before = len(self.words or [])
        inner = "/usr/bin/env" if self.words else "env"
        return [*words[:before], inner, "-i", *(f"{name}={text}" for name, text in environment.items()), *words[before:]]

    def files(self) -> List[str]:
        """Every path of the root but the programs of the machine."""
        found = []
        for folder, folders, names in os.walk(f"{self.root}/home"):
            found += [f"{folder}/{name}"[len(self.root):] for name in [*folders, *names]]
        return sorted(found)


class Here(Root):
    """Runs commands on this machine, with the programs of such a root alone on the path; it is made at once."""

    def __init__(self, root: str) -> None:
        os.makedirs(f"{root}/home/user")
        os.makedirs(f"{root}/usr/bin")
        for name in ("bash", "env", *COREUTILS):
            found = shutil.which(name, path="/usr/bin:/bin")
            if found and not os.path.lexists(f"{root}/usr/bin/{name}"):
                os.symlink(found, f"{root}/usr/bin/{name}")
        os.symlink(os.path.realpath(sys.executable), f"{root}/usr/bin/python3")
        self.root, self.words, self.wanting, self.home = root, None, "", f"{root}/home/user"
