"""A process of its own for each step that reads what strangers send: with limits that grow with the bytes, and ended as a whole.

What it answers comes back as values of a few known classes. Nothing that it does changes the process that asked: no signal, no
mask, no folder. A process with one thread is copied, and from one with several a new Python is started. What it starts is of its
group and has its limits; and the kernel ends that group where the process that asked is gone, even by a kill.
"""
import fcntl
import gc
import io
import os
import pickle
import resource
import signal
import subprocess
import sys
import threading
from contextlib import closing
from dataclasses import dataclass
from pathlib import Path
from typing import IO, Any, Callable, Generator, NoReturn, Optional, Sequence, Tuple

from ..errors import DocketFault, MarketFault, ResidencyError
from . import stopping
from .faults import OfficeError
from .languages import sections

Progress = Callable[[str], None]
# A step that may be asked for: what does it, by the name of a function of `steps`.
STEPS = ("read", "looked_at", "seen", "linted", "reading_of", "verified")
# The classes of which an answer may be.
KNOWN = {module: classes.split(", ") for module, classes in sections("answers.txt")["KNOWN"].items()}
PROGRESS, DONE, FAILED = "progress", "done", "failed"
# How a process ends that has no memory left.
NO_MEMORY = 7


@dataclass(frozen=True)
class Limits:
    """What a step may take: seconds of a processor, and megabytes."""

    seconds: int
    megabytes: int

    @classmethod
    def of(cls, count: int) -> "Limits":
        """The limits for so many bytes: thirty seconds and a gigabyte, and more for each megabyte."""
        return cls(30 + (3 * count >> 20), 1000 + (40 * count >> 20))


class Costly(Exception):
    """A step was ended at a limit: `what` is which, `slow` or `memory`, and `at` what it was reading."""

    def __init__(self, what: str, at: str, limits: Limits) -> None:
        super().__init__(what, at, limits)
        self.what, self.at, self.limits = what, at, limits


class Answers(pickle.Unpickler):
    """Reads an answer, of the known classes alone: whatever a table makes of its reader, it is no more than values here."""

    def find_class(self, module: str, name: str) -> Any:
        if name not in KNOWN.get(module, ()):
            raise pickle.UnpicklingError(f"{module}.{name} is in no answer")
        return super().find_class(module, name)


def limit(limits: Limits) -> None:
    """Sets the limits of this process and of each one that it starts; what it has of memory already comes on top."""
    try:
        with open("/proc/self/statm", "rb") as file:
            has = int(file.read().split()[0]) * resource.getpagesize()
    except (OSError, ValueError, IndexError):
        has = 0
    for which, most in ((resource.RLIMIT_CPU, limits.seconds), (resource.RLIMIT_AS, has + (limits.megabytes << 20)),
                        (resource.RLIMIT_CORE, 0)):
        hard = resource.getrlimit(which)[1]
        resource.setrlimit(which, (most if hard == resource.RLIM_INFINITY else min(most, hard), hard))


def answer(number: int, message: Tuple[Any, ...]) -> None:
    """Writes a message, after how many bytes it has."""
    data = pickle.dumps(message, protocol=4)
    data = len(data).to_bytes(8, "big") + data
    while data:
        data = data[os.write(number, data):]


def end_with(life: int) -> None:
    """Lets the kernel end this process and all that it starts as soon as nobody has the other end of a pipe."""
    fcntl.fcntl(life, fcntl.F_SETOWN, -os.getpgrp())
    fcntl.fcntl(life, fcntl.F_SETFL, os.O_ASYNC | os.O_NONBLOCK)
    try:
        if not os.read(life, 1):
            os._exit(1)
    except BlockingIOError:
        pass


def work(number: int, life: int, limits: Limits, step: str, words: Sequence[Any]) -> NoReturn:
    """Does a step in a process that was made for it, and ends the process."""
    status = 1
    try:
        for signum in (*stopping.SIGNALS, signal.SIGIO, signal.SIGXCPU):
            signal.signal(signum, signal.SIG_DFL)
            signal.pthread_sigmask(signal.SIG_UNBLOCK, (signum,))
        end_with(life)
        limit(limits)
        from . import steps

        try:
            done: Tuple[str, Any] = (DONE, getattr(steps, step)(*words, lambda what: answer(number, (PROGRESS, what))))
        except OfficeError as error:
            done = (FAILED, (error.fault.code, error.status, error.at, error.fault.table, error.fault.row, dict(error.fault.values)))
        except ResidencyError as error:
            done = (FAILED, ("reader.fault", 3 if isinstance(error, (DocketFault, MarketFault)) else 1, "", "", None, {"cause": str(error)}))
        answer(number, done)
        status = 0
    except MemoryError:
        status = NO_MEMORY
    except OSError:
        pass
    finally:
        os._exit(status)


def serve() -> NoReturn:
    """The whole of a Python that was started for a step: what it is asked stands on its standard input."""
    size = int.from_bytes(sys.stdin.buffer.read(8), "big")
    work(1, 0, *pickle.loads(sys.stdin.buffer.read(size)))


class Started:
    """A process that was started for a step; `answers` has what it says, and while `life` is open, it may live."""

    def __init__(self, limits: Limits, step: str, words: Sequence[Any]) -> None:
        if threading.active_count() > 1:
            self.new_python(pickle.dumps((limits, step, words)))
            return
        (ours, theirs), (held, life) = os.pipe(), os.pipe()
        self.pid: int = os.fork()
        if not self.pid:
            os.setsid()
            os.close(ours)
            os.close(life)
            # What is there already is no waste, and stays shared with the process that was copied.
            gc.freeze()
            work(theirs, held, limits, step, words)
        os.close(theirs)
        os.close(held)
        self.answers: IO[bytes] = open(ours, "rb")
        self.life: IO[bytes] = open(life, "wb", buffering=0)
        self.wait: Callable[[], int] = lambda: os.waitstatus_to_exitcode(os.waitpid(self.pid, 0)[1])

    def new_python(self, request: bytes) -> None:
        text = "import sys; sys.path.insert(0, sys.argv[1]); from residency.office.apart import serve; serve()"
        words = [sys.executable, "-I", "-S", "-B", "-c", text, str(Path(__file__).resolve().parent.parent.parent)]
        child = subprocess.Popen(words, stdin=subprocess.PIPE, stdout=subprocess.PIPE, stderr=subprocess.DEVNULL, start_new_session=True)
        assert child.stdin is not None and child.stdout is not None
        self.pid, self.answers, self.life, self.wait = child.pid, child.stdout, child.stdin, child.wait
        # It reads all before it answers.
        try:
            self.life.write(len(request).to_bytes(8, "big") + request)
            self.life.flush()
        except BrokenPipeError:
            pass

    def message(self) -> Tuple[Any, ...]:
        """The next message, or none where the process ended."""
        head = self.answers.read(8)
        data = self.answers.read(int.from_bytes(head, "big")) if len(head) == 8 else b""
        if len(head) < 8 or len(data) < int.from_bytes(head, "big"):
            return ()
        try:
            message = Answers(io.BytesIO(data)).load()
        except (pickle.UnpicklingError, AttributeError, ImportError, IndexError, TypeError, ValueError, EOFError):
            message = None
        if not isinstance(message, tuple) or len(message) != 2:
            raise OfficeError("reader.silent")
        return message

    def end(self, is_cut: bool) -> int:
        """Waits for the end; ends it with all that it started where it is to be cut off. Its exit status."""
        for kill in (os.killpg, os.kill) if is_cut else ():
            try:
                kill(self.pid, signal.SIGKILL)
            except OSError:
                pass
        self.answers.close()
        status = self.wait()
        try:
            self.life.close()
        except BrokenPipeError:
            pass
        return status


def told(limits: Limits, step: str, words: Sequence[Any]) -> Generator[Any, None, Any]:
    """What a step tells in a process of its own, as soon as it tells it; what is returned is its answer. Costly where it is ended at a
    limit; OfficeError as the step has it. Whoever asks no more closes this, which ends the process."""
    assert step in STEPS
    started: Optional[Started] = None
    message: Tuple[Any, ...] = ()
    at = ""
    before = signal.pthread_sigmask(signal.SIG_BLOCK, stopping.SIGNALS)
    try:
        try:
            started = Started(limits, step, words)
        except OSError as error:
            raise OfficeError("reader.unstarted", status=1, why=(error.strerror or str(error)).lower()) from error
        finally:
            signal.pthread_sigmask(signal.SIG_SETMASK, before)
        message = started.message()
        while message and message[0] == PROGRESS:
            at = message[1] if isinstance(message[1], str) else at
            yield message[1]
            message = started.message()
    finally:
        status = started.end(message[:1] not in ((DONE,), (FAILED,))) if started is not None else 0
    if message and message[0] == DONE:
        return message[1]
    if message and message[0] == FAILED:
        *words, values = message[1]
        raise OfficeError(*words, **values)
    if status == NO_MEMORY:
        raise Costly("memory", at, limits)
    if status == -signal.SIGXCPU:
        raise Costly("slow", at, limits)
    raise OfficeError("reader.ended", status=1, ended=status)


def apart(limits: Limits, step: str, words: Sequence[Any], progress: Callable[[Any], object]) -> Any:
    """What a step answers in a process of its own, whose progress is told by a call. Costly, OfficeError."""
    with closing(told(limits, step, words)) as tells:
        while True:
            try:
                what = next(tells)
            except StopIteration as end:
                return end.value
            progress(what)
