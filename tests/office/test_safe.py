"""What the command never does: run code of the folder where it is started, write over what stands or through a link, leave half
of anything behind, or end by a traceback, whenever it is stopped."""
import fcntl
import os
import resource
import shutil
import signal
import stat
import subprocess
import sys
import tempfile
import threading
import time
import venv
import zipfile
from pathlib import Path
from typing import List, Sequence, Tuple
from unittest import mock

import build_wheel
from residency.errors import ResidencyError
from residency.office import leftover, stopping, writing
from residency.office.faults import OfficeError
from residency.office.sentences import said_by
from residency.program import find_program
from support import OFFICE, PROGRAMMES, RESIDENTS, TOP, OfficeTest, office

# Modules that the command, or Python's own start, imports or could import; a file of each stands in the current folder.
SHADOWS = ("csv", "json", "argparse", "re", "signal", "enum", "secrets", "zipfile", "sitecustomize", "usercustomize", "hashlib",
           "unicodedata", "subprocess", "encodings", "residency", "command")
# Starts the command as the launchers do, with files that take a while to write and to get their names, so that a signal finds it there.
SLOW = """
import runpy, sys, time
sys.path.insert(0, sys.argv.pop(1))
from residency.office import folder, writing
write, settle = folder.Draft.write, writing.settle
folder.Draft.write = lambda *words: (time.sleep(0.05), write(*words))[1]
writing.settle = lambda *words: (time.sleep(9), settle(*words))[1]
runpy.run_path(sys.path[0] + "/residency/office/__main__.py", run_name="__main__")
"""


def installed(at: Path) -> List[str]:
    """Puts the clone's command and a release's below this folder, and answers both launchers."""
    clone, release = at / "clone", at / "release"
    for launcher, tree in ((clone, clone / "python"), (release / "bin", release / "lib" / "residency" / "python")):
        launcher.mkdir(parents=True)
        shutil.copytree(TOP / "python", tree, ignore=shutil.ignore_patterns("__pycache__"))
    shutil.copy(TOP / "office", clone)
    shutil.copytree(TOP / "tools", clone / "tools", ignore=shutil.ignore_patterns("__pycache__"))
    shutil.copy(TOP / "packaging" / "office", release / "bin" / "residency-office")
    shutil.copy(TOP / "examples" / "second-opinion.py", release / "lib" / "residency" / "python" / "residency" / "office")
    return [str(clone / "office"), str(release / "bin" / "residency-office")]


def in_a_wheel(at: Path) -> str:
    """Puts the package's wheel into an environment of its own, as pip does, and answers its command."""
    venv.create(at, symlinks=True)
    (site,) = at.glob("lib/python3*/site-packages")
    with zipfile.ZipFile(at / build_wheel.build_wheel(str(at))) as wheel:
        wheel.extractall(site)
    (script,) = site.glob("*.data/scripts/residency-office")
    script.chmod(0o755)
    return str(script.rename(at / "bin" / script.name))


def mode_of(path: Path) -> int:
    return stat.S_IMODE(os.lstat(path).st_mode)


class CurrentFolder(OfficeTest):
    def ran(self, words: Sequence[str], **more) -> subprocess.CompletedProcess:
        """A command in a folder where a file of each name in SHADOWS would tell that it was run."""
        here = self.folder / "here"
        for name in SHADOWS:
            (here / name).mkdir(parents=True, exist_ok=True)
            for path in (here / f"{name}.py", here / name / "__init__.py"):
                path.write_text(f"open({str(self.folder / 'told')!r}, 'a').write({name!r})\n")
        done = subprocess.run(words, cwd=here, capture_output=True, timeout=100, **more)
        self.assertFalse((self.folder / "told").exists(), words)
        return done

    def test_launchers(self) -> None:
        files = self.tables()
        for launcher in [OFFICE, *installed(self.folder / "installed")]:
            for path in (None, "", ".", ":"):
                env = {**os.environ, "RESIDENCY_BIN": str(find_program())}
                env.pop("PYTHONPATH", None)
                done = self.ran([launcher, "check", *files], env=env if path is None else {**env, "PYTHONPATH": path})
                self.assertEqual((done.returncode, done.stderr), (0, b""), launcher)

    def test_the_shadows_would_be_run(self) -> None:
        """What the launchers don't do does run them, so that the test above can fail."""
        with self.assertRaises(AssertionError):
            self.ran([sys.executable, "-m", "csv"])

    def test_tools(self) -> None:
        for words in (["tools/statement", "of no call"], ["tools/unproved", "--help"], ["tools/release", "--help"]):
            self.ran([str(TOP / words[0]), *words[1:]])

    def test_the_second_opinion(self) -> None:
        """A copy of it is run in the folder where it lies, beside the shadows."""
        here = self.folder / "here"
        here.mkdir()
        shutil.copy(TOP / "examples" / "second-opinion.py", here)
        files = [str(TOP / "examples" / f"two-by-two{part}.csv") for part in ("", "-sheet", "-journal")]
        shadows = [name for name in SHADOWS if name not in ("encodings", "sitecustomize", "usercustomize")]
        with mock.patch.object(sys.modules[__name__], "SHADOWS", shadows):
            done = self.ran([sys.executable, "second-opinion.py", *files])
        self.assertEqual((done.returncode, done.stderr), (0, b""))
        self.assertIn(b"S,stable", done.stdout)


class Places(OfficeTest):
    def test_paths_of_an_installation(self) -> None:
        for number, name in enumerate(("a:b", "a b", "a\nb", "ab\n", " ", "a'\"$(x)", "-a")):
            for launcher in installed(self.folder / str(number) / name):
                out = self.folder / f"out{number}{len(launcher)}"
                done = subprocess.run(
                    [launcher, "run", *self.tables(), "--out", str(out)],
                    capture_output=True,
                    env={**os.environ, "RESIDENCY_BIN": str(find_program())},
                )
                self.assertEqual((done.returncode, done.stderr), (0, b""), launcher)
                self.assertTrue((out / "SHA256SUMS").exists())

    def test_a_program_named_by_its_file_in_a_crate(self) -> None:
        """The others are those of the crates beside it, for the command by its launcher, too."""
        for name in ("residency", "why", "seal"):
            crate = "residency_cli" if name == "residency" else f"residency_{name}"
            out = self.folder / "crates" / crate / "out"
            out.mkdir(parents=True)
            shutil.copy(find_program(name), out / crate)
        env = {**os.environ, "RESIDENCY_BIN": str(self.folder / "crates" / "residency_cli" / "out" / "residency_cli")}
        for words in (["seal", *self.tables()], ["run", str(self.folder / "1")], ["verify", str(self.folder / "2")],
                      ["run", *self.tables()], ["verify", str(self.folder / "4")]):
            self.at = getattr(self, "at", 0) + 1
            out = ["--out", str(self.folder / str(self.at))] * (words[0] != "verify")
            done = subprocess.run([OFFICE, *words, *out], env=env, capture_output=True)
            self.assertEqual((done.returncode, done.stderr), (0, b""), words)
        self.assertIn(b"second opinion: S,stable", done.stdout)

    def test_words_are_handed_on_as_they_come(self) -> None:
        """With blanks, signs of the shell and without a letter, by the clone's launcher and by a release's."""
        files = [self.write(name, text) for name, text in (("a  b *.csv", PROGRAMMES), ("$HOME ; c.csv", RESIDENTS))]
        for launcher in (OFFICE, installed(self.folder / "installed")[1]):
            done = subprocess.run([launcher, "check", *files], capture_output=True, cwd=self.folder)
            self.assertEqual((done.returncode, done.stderr), (0, b""), launcher)
            self.assertIn(f"programmes: {files[0]}, UTF-8".encode(), done.stdout)
            done = subprocess.run([launcher, "check", *files, "--keep", ""], capture_output=True, cwd=self.folder)
            self.assertEqual((done.returncode, b"no column is headed , which --keep names" in done.stdout), (3, True), done)


class Stops(OfficeTest):
    def slow(self, ignored: Sequence[int] = (), does: Sequence[str] = ()) -> subprocess.Popen:
        words = [sys.executable, "-c", SLOW, str(TOP / "python"), *(does or ["run", *self.tables(), "--out", str(self.folder / "out")])]

        def ignore() -> None:
            for number in ignored:
                signal.signal(number, signal.SIG_IGN)

        return subprocess.Popen(words, stdout=subprocess.PIPE, stderr=subprocess.PIPE, preexec_fn=ignore)

    def test_an_ignored_signal_stays_ignored(self) -> None:
        """As nohup has it of a hang-up, and a shell of the interrupts of what it starts in the background."""
        for number in (signal.SIGHUP, signal.SIGINT, signal.SIGTERM):
            with self.slow([number]) as running:
                while not self.left() and running.poll() is None:
                    time.sleep(0.01)
                running.send_signal(number)
                _, err = running.communicate(timeout=100)
            self.assertEqual((running.returncode, err, self.left()), (0, b"", ["out"]))
            shutil.rmtree(self.folder / "out")

    def test_many_signals(self) -> None:
        """A person who presses Ctrl-C again and again gets one line all the same."""
        with self.slow() as running:
            while not self.left() and running.poll() is None:
                time.sleep(0.01)
            while running.poll() is None:
                running.send_signal(signal.SIGINT)
                time.sleep(0.001)
            _, err = running.communicate(timeout=100)
        self.assertEqual((running.returncode, err, self.left()), (1, b"office: interrupted\n", []))

    def test_signals_while_it_cleans(self) -> None:
        """What is half made goes whole, though signals of each kind come as its removal begins."""
        whole, came = stopping.remove, []

        def remove(path: Path) -> None:
            for number in stopping.SIGNALS:
                os.kill(os.getpid(), number)
                came.append(number)
            whole(path)

        before = [signal.getsignal(number) for number in stopping.SIGNALS]
        with mock.patch("residency.office.running.write_letters", side_effect=lambda *_: os.kill(os.getpid(), signal.SIGINT)), \
                mock.patch.object(stopping, "remove", remove):
            said = office("run", *self.tables(), "--out", self.folder / "out")
        self.assertEqual((said.status, said.out, said.err, self.left()), (1, "", "office: interrupted\n", []))
        # Once while the folder is held, and again at the end, where it is gone.
        self.assertEqual(came, list(stopping.SIGNALS) * 2)
        # Whoever calls the command from Python has their own handlers again.
        self.assertEqual([signal.getsignal(number) for number in stopping.SIGNALS], before)

    def test_ctrl_c_at_any_moment(self) -> None:
        """In each form of installation. It goes to all processes of the terminal, as here to a group of them. What came too early
        for the command is the shell's own end, without a line; what came too late is a run that is done."""
        at = self.folder / "installed"
        out, env = self.folder / "out", {**os.environ, "RESIDENCY_BIN": str(find_program())}
        for launcher in (OFFICE, installed(at)[1], in_a_wheel(at / "wheel")):
            words, ends = [launcher, "run", *self.tables(), "--out", str(out)], set()
            shutil.rmtree(out, ignore_errors=True)
            started = time.monotonic()
            subprocess.run(words, env=env, capture_output=True, check=True)
            whole = time.monotonic() - started
            done = subprocess.run([launcher, "verify", str(out)], env=env, capture_output=True)
            self.assertEqual((done.returncode, done.stderr, b"second opinion: S,stable" in done.stdout), (0, b"", True), launcher)
            for wait in [whole * step / 12 for step in range(14)]:
                shutil.rmtree(out, ignore_errors=True)
                with subprocess.Popen(words, env=env, stdout=subprocess.PIPE, stderr=subprocess.PIPE, start_new_session=True) as running:
                    time.sleep(wait)
                    try:
                        os.killpg(running.pid, signal.SIGINT)
                    except ProcessLookupError:
                        pass
                    _, err = running.communicate(timeout=100)
                ends.add(running.returncode)
                self.assertIn(running.returncode, (0, 1, -signal.SIGINT, 128 + signal.SIGINT), err)
                line = b"office: interrupted\n"
                self.assertIn(err, {0: (b"",), 1: (line,)}.get(running.returncode, (b"", line)), launcher)
                self.assertIn(self.left(), (["installed"], ["installed", "out"]))
                self.assertEqual(out.exists(), (out / "SHA256SUMS").exists())
            self.assertIn(1, ends)

    def test_ctrl_c_is_held_back_while_python_starts(self) -> None:
        """Python's own start ends by a traceback: in each form it begins with SIGINT blocked, as a stand-in for it tells."""
        at = self.folder / "installed"
        wheel, stand_in = in_a_wheel(at / "wheel"), self.folder / "path" / "python3"
        stand_in.parent.mkdir()
        stand_in.write_text("#!/bin/sh\nexec grep SigBlk /proc/self/status\n")
        stand_in.chmod(0o755)
        for path in (at / "wheel" / "bin").glob("python*"):
            path.unlink()
            path.symlink_to(stand_in)
        for launcher in (*installed(at), wheel):
            env = {**os.environ, "PATH": f"{stand_in.parent}:{os.environ['PATH']}"}
            done = subprocess.run([launcher, "check", *self.tables()], env=env, capture_output=True, text=True)
            blocked = int(done.stdout.split()[-1], 16)
            self.assertEqual((done.returncode, done.stderr, blocked >> (signal.SIGINT - 1) & 1), (0, "", 1), launcher)

    def test_a_killed_run(self) -> None:
        """What it left is for its owner alone; the next run says so and removes it, and leaves alone what another run is making."""
        old = os.umask(0)
        self.addCleanup(os.umask, old)
        with self.slow() as killed, self.slow() as running:
            while len(self.left()) < 2 or not all((self.folder / name / "docket.csv").exists() for name in self.left()):
                time.sleep(0.01)
            killed.kill()
            killed.communicate(timeout=100)
            parts = self.left()
            self.assertEqual([oct(mode_of(self.folder / name)) for name in parts], [oct(0o700)] * 2)
            said = office("run", *self.tables(), "--out", self.folder / "next")
            gone = [name for name in parts if name not in self.left()]
            self.assertEqual((said.status, said.err, len(gone)), (0, f"office: a run that was killed left {gone[0]}, which was removed\n", 1))
            _, err = running.communicate(timeout=100)
        self.assertEqual((running.returncode, err, self.left()), (0, b"", ["next", "out"]))

    def test_what_is_removed_is_not_left(self) -> None:
        """A folder is held until it is removed, and what was removed before it could be held was not left."""
        part, remove, left = self.folder / f".part-{'3' * 32}", stopping.remove, []

        def look(path: Path) -> None:
            if path.exists():
                left.append(leftover.is_left(path))
            remove(path)

        with mock.patch.object(stopping, "remove", look), stopping.unfinished(part), leftover.made(part):
            pass
        self.assertEqual((left, part.exists()), ([False], False))
        part.mkdir()
        with mock.patch.object(leftover, "is_held", lambda number: part.rmdir() is None):
            self.assertFalse(leftover.is_left(part))

    def half_made(self, name: str, words: Sequence[str], number: int) -> Tuple[Tuple[int, bytes, bytes], List[Path]]:
        """How a command ends and what it says that gets this signal when its draft has this file, or is one; and its drafts then."""
        with self.slow(does=words) as running:
            parts: List[Path] = []
            while running.poll() is None and not (parts and (parts[0] / name).exists() and (name or parts[0].stat().st_size)):
                parts = list(self.folder.glob(".part-*"))
                time.sleep(0.001)
            running.send_signal(number)
            out, err = running.communicate(timeout=100)
        return (running.returncode, out, err), parts

    def test_each_command_half_way(self) -> None:
        """A signal ends it with its line and leaves nothing. Of one that is killed what is left is for its owner alone, the secret
        too, and nothing has the name that was wanted; the next run of it says so and removes it."""
        old = os.umask(0)
        self.addCleanup(os.umask, old)
        tables, (before, now) = self.tables(), (str(self.run_tables(out=name)) for name in ("before", "now"))
        for name, *words in (("docket.csv", "run", *tables), ("secret.txt", "seal", *tables), ("key.csv", "withdraw", before, "Ana Silva"),
                             ("ana-silva.txt", "letters", before), ("docket.csv", "auditor", before), ("", "compare", before, now),
                             ("", "settings", *tables)):
            out = self.folder / words[0]
            for number in stopping.SIGNALS:
                stopped, _ = self.half_made(name, [*words, "--out", str(out)], number)
                self.assertEqual((stopped, list(self.folder.glob(".part-*"))), ((1, b"", b"office: interrupted\n"), []), words)
            killed, (part,) = self.half_made(name, [*words, "--out", str(out)], signal.SIGKILL)
            self.assertEqual((killed, out.exists()), ((-signal.SIGKILL, b"", b""), False), words)
            self.assertEqual(oct(mode_of(part)), oct(0o700 if name else 0o600), words)
            if name == "secret.txt":
                self.assertEqual(oct(mode_of(part / name)), oct(0o600))
            said = office(*words, "--out", out)
            self.assertEqual((said.status, said.err), (0, f"office: a run that was killed left {part.name}, which was removed\n"), words)
            self.assertEqual((out.exists(), part.exists()), (True, False), words)

    def test_a_killed_verify(self) -> None:
        """What it made again is for its owner alone, among the temporary files; the next one there says so and removes it."""
        whole = self.run_tables(out="whole")
        with mock.patch.dict(os.environ, TMPDIR=str(self.folder)), mock.patch.object(tempfile, "tempdir", str(self.folder)):
            killed, (part,) = self.half_made("", ["verify", str(whole)], signal.SIGKILL)
            self.assertEqual((killed[0], oct(mode_of(part))), (-signal.SIGKILL, oct(0o700)))
            said = office("verify", whole)
        self.assertEqual((said.status, said.err), (0, f"office: a run that was killed left {part.name}, which was removed\n"))
        self.assertFalse(part.exists())

    def test_the_mask_of_a_process(self) -> None:
        """It is read. Where the system doesn't tell it, it is shown by a folder that no other command takes for one that was left."""
        whole, gone = os.fstat, []
        self.enter(mock.patch.object(tempfile, "tempdir", str(self.folder)))
        old = os.umask(0)
        self.addCleanup(os.umask, old)
        for mask in (0o077, 0o027, 0):
            os.umask(mask)
            with mock.patch.object(leftover, "plain_folder", side_effect=AssertionError("a folder was made")):
                self.assertEqual(writing.umask(), mask)
            with mock.patch.object(writing, "STATUS", str(self.folder / "nowhere")), \
                    mock.patch("os.fstat", lambda number: (gone.append(leftover.clear(self.folder)), whole(number))[1]):
                self.assertEqual(writing.umask(), mask)
        self.assertEqual(({tuple(names) for names in gone}, self.left()), ({()}, []))

    def test_what_only_looks_left(self) -> None:
        """Another name, a link and, where no lock is had, a folder or a file stay."""
        part, file = f".part-{'0' * 32}", f".part-{'1' * 32}"
        (self.folder / f"{part}x").mkdir()
        (self.folder / f"{file}x").write_text("kept")
        os.symlink(self.folder / "before", self.folder / f".part-{'2' * 32}")
        (self.folder / part).mkdir()
        (self.folder / file).write_text("left")
        before = self.left()
        with mock.patch("fcntl.flock", side_effect=OSError(95, "Operation not supported")):
            self.run_tables(out="a")
        self.assertEqual(self.left(), sorted([*before, "a"]))
        said = office("run", *self.tables(), "--out", self.folder / "b")
        self.assertEqual((said.status, said.err), (0, "".join(
            f"office: a run that was killed left {name}, which was removed\n" for name in (part, file))))
        self.assertEqual(self.left(), sorted([*(name for name in before if name not in (part, file)), "a", "b"]))

    def test_a_program_that_the_same_signal_ended(self) -> None:
        """A signal that comes while a program starts comes again a moment later; if the program has ended by it before, it isn't at fault."""
        def ended(*words: object) -> None:
            signal.signal(signal.SIGALRM, stopping.stop)
            raise ResidencyError("unknown status -2")

        with mock.patch("residency.office.running.matched", ended):
            said = office("run", *self.tables(), "--out", self.folder / "out")
        self.assertEqual((said, self.left(), signal.getsignal(signal.SIGALRM)), ((1, "", "office: interrupted\n"), [], signal.SIG_DFL))

    def test_a_stop_when_all_is_done(self) -> None:
        """A stop while signals are given back to whoever had them changes nothing, and is no traceback."""
        text = (
            "import os, sys, signal; sys.path.insert(0, sys.argv[1]); from residency.office import command, stopping\n"
            "real, sent = signal.signal, []\n"
            "def late(number, handler):\n"
            "    if handler not in (stopping.stop, signal.SIG_IGN) and not sent:\n"
            "        sent.append(number); os.kill(os.getpid(), signal.SIGINT)\n"
            "    return real(number, handler)\n"
            "command.ended, signal.signal = lambda words: 3, late\n"
            "status = command.main([]); real(signal.SIGINT, signal.default_int_handler)\n"
            "print(status, len(sent), real(signal.SIGTERM, signal.SIG_DFL))\n"
        )
        done = subprocess.run([sys.executable, "-c", text, str(TOP / "python")], capture_output=True)
        self.assertEqual((done.returncode, done.stdout, done.stderr), (0, b"3 1 0\n", b""))

    def test_nothing_is_cleared_while_another_looks(self) -> None:
        """While another command holds the folder around, what was left is its to clear."""
        left = self.folder / f".part-{'0' * 32}"
        left.mkdir()
        around = os.open(self.folder, os.O_RDONLY)
        self.addCleanup(os.close, around)
        self.assertTrue(leftover.is_held(around))
        with mock.patch.object(leftover, "MOST_TRIES", 2), leftover.made(self.folder / f".part-{'1' * 32}"):
            self.assertTrue(left.exists())
        fcntl.flock(around, fcntl.LOCK_UN)
        with leftover.made(self.folder / f".part-{'1' * 32}"):
            self.assertFalse(left.exists())

    def test_what_another_has_for_a_moment_is_waited_for(self) -> None:
        """A folder that another command lets go of within a second is had then, and one that it keeps isn't."""
        one, other = (os.open(self.folder, os.O_RDONLY | os.O_CLOEXEC) for _ in range(2))
        self.addCleanup(os.close, one)
        self.addCleanup(os.close, other)
        self.assertTrue(leftover.is_held(one))
        self.assertFalse(leftover.is_held(other, 2))
        timer = threading.Timer(0.5, fcntl.flock, (one, fcntl.LOCK_UN))
        timer.start()
        self.assertTrue(leftover.is_held(other, leftover.MOST_TRIES))
        timer.join()

    def test_a_stop_before_python_is_there(self) -> None:
        """Ctrl-C while one of the scripts starts ends it with one line: that of a clone, of a release, and of a wheel."""
        fake = self.folder / "readlink"
        fake.write_text("#!/bin/sh\ntrap '' INT\nkill -INT 0\nexec /usr/bin/readlink \"$@\"\n")
        fake.chmod(0o755)
        known = {**os.environ, "PATH": f"{self.folder}:{os.environ['PATH']}"}
        for line in ([str(TOP / "office")], [str(TOP / "packaging" / "office")], ["/bin/sh", str(TOP / "python" / "residency" / "office" / "start.sh")]):
            done = subprocess.run([*line, "--help"], env=known, capture_output=True, start_new_session=True, timeout=60)
            self.assertEqual((done.returncode, done.stdout, done.stderr), (1, b"", b"office: interrupted\n"), line)

    def test_a_stop_that_no_exception_carries_out(self) -> None:
        """A stop in the midst of giving up an object is written by Python as ignored; here it ends the command all the same."""
        text = (
            "import os, sys, signal; sys.path.insert(0, sys.argv[1]); from residency.office import stopping, writing\n"
            "class Given:\n"
            "    def __del__(self): os.kill(os.getpid(), signal.SIGINT); print()\n"
            "with stopping.stoppable():\n"
            "    with stopping.unfinished(writing.draft_of('out')) as part:\n"
            "        part.mkdir(); given = Given(); del given\n"
            "        print('gone on')\n"
        )
        done = subprocess.run([sys.executable, "-c", text, str(TOP / "python")], capture_output=True, cwd=self.folder)
        self.assertEqual((done.returncode, done.stdout, done.stderr), (1, b"", b"office: interrupted\n"))
        self.assertEqual(self.left(), [])

    def test_what_is_under_way_goes_whatever_breaks_off(self) -> None:
        for what in (stopping.Stopped, OSError, ValueError):
            with self.assertRaises(what):
                with stopping.unfinished(writing.draft_of(str(self.folder / "out"))) as part:
                    part.mkdir()
                    (part / "letters").mkdir()
                    raise what()
            self.assertEqual((self.left(), stopping.UNFINISHED), ([], set()))


class Writes(OfficeTest):
    """What is written is new, whole, and for whom it is meant."""

    def setUp(self) -> None:
        super().setUp()
        self.runs = [self.run_tables(out=name) for name in ("before", "now")]

    def every(self, out: str) -> List[List[str]]:
        return [
            ["run", *self.tables(), "--out", out],
            ["withdraw", self.runs[0], "Ana Silva", "--out", out],
            ["compare", *self.runs, "--out", out],
            ["letters", self.runs[0], "--out", out],
        ]

    def test_no_name_at_all(self) -> None:
        before = self.left()
        with mock.patch("os.getcwd", return_value=str(self.folder / "nowhere")):
            for words in self.every(""):
                said = office(*words)
                self.assertEqual((said.status, said.out), (2, ""), words)
                self.assertEqual(said.err, "office: '' can't be written: it is no path\n")
        self.assertEqual(self.left(), before)

    def test_links_and_what_stands(self) -> None:
        """Neither what a link leads to nor a link that leads nowhere is written over or through."""
        (self.folder / "kept").write_text("kept")
        os.symlink(self.folder / "kept", self.folder / "link")
        os.symlink(self.folder / "nowhere", self.folder / "dangling")
        os.symlink(self.folder / "before", self.folder / "link-to-a-folder")
        for name in ("kept", "link", "dangling", "link-to-a-folder", "before"):
            for words in self.every(str(self.folder / name)):
                said = office(*words)
                self.assertEqual((said.status, said.out), (2, ""), words)
                self.assertIn("is there already; nothing was written", said.err)
        self.assertEqual((self.folder / "kept").read_text(), "kept")
        self.assertEqual(os.readlink(self.folder / "dangling"), str(self.folder / "nowhere"))
        self.assertEqual(self.left(), ["before", "dangling", "kept", "link", "link-to-a-folder", "now"])

    def test_what_appears_meanwhile(self) -> None:
        """A file or a link that appears while another of its name is being written stays as it is."""
        whole = writing.umask
        target = self.folder / "changes.csv"
        for appear in (lambda: target.write_text("kept"), lambda: os.symlink(self.folder / "nowhere", target)):
            with mock.patch.object(writing, "umask", lambda: (appear(), whole())[1]):
                with self.assertRaises(OfficeError) as told:
                    writing.new_file(str(target), b"new")
            self.assertEqual(said_by(told.exception), f"{target} is there already; nothing was written")
            self.assertFalse((self.folder / "nowhere").exists())
            self.assertTrue(target.is_symlink() or target.read_text() == "kept")
            target.unlink()
            self.assertEqual(self.left(), ["before", "now"])

    def test_a_folder_that_appears_meanwhile(self) -> None:
        target = self.folder / "out"
        said = []
        with mock.patch("residency.office.running.write_letters", side_effect=lambda *words: target.mkdir(exist_ok=True)):
            said.append(office("run", *self.tables(), "--out", target))
        self.assertEqual((said[0].status, said[0].out, os.listdir(target)), (2, "", []))

    def test_a_file_that_cant_be_written(self) -> None:
        """Of a disk that is full when half is written, or of a name that can't be given, nothing is left."""
        words, before = [["compare", *self.runs], ["settings", *self.tables()]], self.left()
        limit = resource.getrlimit(resource.RLIMIT_FSIZE)
        self.addCleanup(resource.setrlimit, resource.RLIMIT_FSIZE, limit)
        no_links = mock.patch("os.link", side_effect=PermissionError(1, "Operation not permitted"))
        no_names = mock.patch("os.rename", side_effect=OSError(5, "Input/output error"))
        for word in words:
            out = self.folder / "out"
            resource.setrlimit(resource.RLIMIT_FSIZE, (20, limit[1]))
            said = office(*word, "--out", out)
            resource.setrlimit(resource.RLIMIT_FSIZE, limit)
            self.assertEqual((said.status, said.out, said.err), (
                1, "", f"office: {out} can't be written: file too large; nothing was left there\n"))
            with no_links, no_names:
                said = office(*word, "--out", out)
            self.assertEqual((said.status, said.out, said.err), (
                1, "", f"office: {out} can't be written: input/output error; nothing was left there\n"))
            self.assertEqual(self.left(), before)

    def test_where_files_have_no_second_name(self) -> None:
        """Some file systems know no links to files: there the name is claimed, and the claim is replaced."""
        target = self.folder / "changes.csv"
        with mock.patch("os.link", side_effect=PermissionError(1, "Operation not permitted")):
            writing.new_file(str(target), b"new", writing.PRIVATE)
            self.assertEqual((target.read_bytes(), mode_of(target)), (b"new", 0o600))
            with mock.patch.object(writing, "refuse"), self.assertRaises(OfficeError):
                writing.new_file(str(target), b"newer")
        self.assertEqual(target.read_bytes(), b"new")
        self.assertEqual(self.left(), ["before", "changes.csv", "now"])

    def test_names_that_nobody_can_guess(self) -> None:
        names = {writing.draft_of(str(self.folder / "out")).name for _ in range(100)}
        self.assertEqual(len(names), 100)
        for name in names:
            self.assertRegex(name, r"\A\.part-[0-9a-f]{32}\Z")
        # However long the name is that is wanted, the draft's isn't too long.
        self.assertEqual(office("compare", *self.runs, "--out", self.folder / ("é" * 120)).status, 0)

    def test_who_may_read_what(self) -> None:
        old = os.umask(0o022)
        self.addCleanup(os.umask, old)
        tables, letters, changes = self.tables(), self.folder / "letters", self.folder / "changes.csv"
        self.assertEqual([office(*words).status for words in (
            ["letters", self.runs[0], "--out", letters], ["compare", *self.runs, "--out", changes])], [0, 0])
        self.assertEqual(oct(mode_of(changes)), oct(0o644))
        self.tell_modes(letters, {"letters.html", "rosters.html"}, {"", "programmes"}, {".txt"})
        owners = {"key.csv", "matches.csv", "results.csv", "letters.html", *(f"letters/{path.name}" for path in (self.runs[0] / "letters").iterdir())}
        lists = {"docket.csv", "journal.csv", "page.html", "rosters.html", "changes.csv", "manifest.json", "SHA256SUMS",
                 *(f"rosters/{path.name}" for path in (self.runs[0] / "rosters").iterdir())}
        for number, words in enumerate((["run", *tables], ["withdraw", self.runs[0], "Ana Silva"])):
            out, readable = self.folder / f"own{number}", self.folder / f"readable{number}"
            self.assertEqual([office(*words, "--out", out).status, office(*words, "--out", readable, "--readable").status], [0, 0])
            self.tell_modes(out, owners | lists, {"letters", "rosters"})
            self.tell_modes(readable, owners, {"letters"})

    def tell_modes(self, out: Path, files: "set[str]", folders: "set[str]", endings: "set[str]" = frozenset()) -> None:
        """Whether these files and folders of a folder are for their owner alone, and no others."""
        for path in (out, *out.rglob("*")):
            name = path.relative_to(out).as_posix().replace(".", "", path == out)
            is_own = name in folders if path.is_dir() else name in files or path.suffix in endings
            self.assertEqual(oct(mode_of(path)), oct((0o755, 0o700)[is_own] if path.is_dir() else (0o644, 0o600)[is_own]), path)

    def test_a_sealed_folder_is_for_its_owner(self) -> None:
        sealed, out = self.folder / "sealed", self.folder / "out"
        self.assertEqual(office("seal", *self.tables(), "--out", sealed).status, 0)
        for words in (["run", sealed], ["withdraw", sealed, "Ana Silva"]):
            said = office(*words, "--out", out, "--readable")
            self.assertEqual((said.status, said.out, said.err, out.exists()), (
                2, "", "office: --readable is for a match that isn't sealed: of a sealed one others may read public/ alone\n", False))

    def test_the_masks_own_will(self) -> None:
        old = os.umask(0o077)
        self.addCleanup(os.umask, old)
        self.assertEqual(office("compare", *self.runs, "--out", self.folder / "changes.csv").status, 0)
        self.assertEqual(oct(mode_of(self.folder / "changes.csv")), oct(0o600))
        self.assertEqual(oct(mode_of(self.run_tables(out="third"))), oct(0o700))
