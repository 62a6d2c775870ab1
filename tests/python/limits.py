"""What the runners of test cases share: each test that fails is counted once, and one that takes too long is ended by name."""
from __future__ import annotations

import contextlib
import faulthandler
import signal
import sys
import types
import unittest
from typing import Any, Iterator, List, Optional, Set, Tuple, Type

# How long a test may take; the dearest takes some 20 s on a quiet machine.
SECONDS = 300.0
# A test that is told to end, and goes on, is told so again after so many seconds.
AGAIN = 5.0
# What nothing can tell to end breaks off the process after so many more, with what each thread was doing.
PATIENCE = 120.0


class TookTooLong(BaseException):
    """A test takes longer than it may. It is no Exception, so that a test that wants some failure isn't content with it."""


class Result(unittest.TextTestResult):
    """Counts the tests that fail, each once, and ends each that takes longer than `seconds`, from what is set up to what is
    torn down."""

    seconds = SECONDS

    def __init__(self, *words: Any, **more: Any) -> None:
        super().__init__(*words, **more)
        self.bad: Set[str] = set()
        self.running = ""
        signal.signal(signal.SIGALRM, self.late)
        break_off_after(self.seconds + PATIENCE)

    def late(self, number: int, frame: Optional[types.FrameType]) -> None:
        if self.running:
            raise TookTooLong(f"{self.running} takes more than {self.seconds:g} s")

    def startTest(self, test: unittest.TestCase) -> None:
        super().startTest(test)
        break_off_after(self.seconds + PATIENCE)
        self.running = test.id()
        signal.setitimer(signal.ITIMER_REAL, self.seconds, AGAIN)

    def stopTest(self, test: unittest.TestCase) -> None:
        self.running = ""
        signal.setitimer(signal.ITIMER_REAL, 0)
        super().stopTest(test)
        break_off_after(self.seconds + PATIENCE)

    @contextlib.contextmanager
    def noted(self, test: unittest.TestCase) -> Iterator[None]:
        """Notes a test that fails; while it does nothing is told to end, since what is under way is no test's own."""
        self.bad.add(test.id())
        running, self.running = self.running, ""
        yield
        self.running = running

    def addFailure(self, test: unittest.TestCase, err: Any) -> None:
        with self.noted(test):
            super().addFailure(test, err)

    def addError(self, test: unittest.TestCase, err: Any) -> None:
        with self.noted(test):
            super().addError(test, err)

    def addSubTest(self, test: unittest.TestCase, subtest: unittest.TestCase, err: Any) -> None:
        if err is None:
            return super().addSubTest(test, subtest, err)
        with self.noted(test):
            super().addSubTest(test, subtest, err)

    def addUnexpectedSuccess(self, test: unittest.TestCase) -> None:
        with self.noted(test):
            super().addUnexpectedSuccess(test)

    def counted(self) -> Tuple[int, int]:
        """How many passed, and how many failed; what is set up for several tests at once counts as one that failed."""
        apart = {name for name in self.bad if name.startswith(("setUp", "tearDown"))}
        return self.testsRun - len(self.bad - apart) - len(self.skipped), len(self.bad)


def break_off_after(seconds: float) -> None:
    faulthandler.dump_traceback_later(seconds, exit=True, file=sys.__stderr__)


def run(tests: List[unittest.TestCase], seconds: float, kind: Type[Result] = Result, ends: bool = False) -> Result:
    """Runs these tests, each for so many seconds at most, and tells each that isn't tried; with `ends` up to the first that fails."""
    # Under nohup, or in the background of a script, signals are ignored; what is started here heeds them all the same.
    for number in (signal.SIGINT, signal.SIGHUP):
        if signal.getsignal(number) == signal.SIG_IGN:
            signal.signal(number, lambda *_: None)
    kind.seconds = seconds
    made = unittest.TextTestRunner(stream=sys.stderr, verbosity=0, resultclass=kind, failfast=ends)
    try:
        result = made.run(unittest.TestSuite(tests))
    finally:
        faulthandler.cancel_dump_traceback_later()
    assert isinstance(result, kind)
    for test, why in result.skipped:
        print(f"not tried: {test.id()}: {why}")
    return result
