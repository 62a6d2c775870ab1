"""The office's command, started as a program: `python3 -I -S python/residency/office/__main__.py`, as the launchers do it.

Nothing of the folder in which it is started is run. A signal that comes before the command is ready ends it with one line; so
this stands before all else, and the launchers hold Ctrl-C back until here.
"""
import _signal
import posix
import sys

SIGNALS = (_signal.SIGINT, _signal.SIGTERM, _signal.SIGHUP)
WANTED = [number for number in SIGNALS if _signal.getsignal(number) != _signal.SIG_IGN]


def ended_early(number: int, frame: object) -> None:
    """Ends the command; nothing is made yet."""
    posix.write(2, b"office: interrupted\n")
    posix._exit(1)


for signal in WANTED:
    _signal.signal(signal, ended_early)
_signal.pthread_sigmask(_signal.SIG_UNBLOCK, SIGNALS)

if __name__ == "__main__":
    sys.dont_write_bytecode = sys.dont_write_bytecode or bool(posix.environ.get(b"PYTHONDONTWRITEBYTECODE"))
    if not __package__:
        sys.path.insert(0, __file__.rsplit("/", 3)[0])
    from residency.office import main

    status = main()
    for signal in WANTED:
        _signal.signal(signal, _signal.SIG_IGN)
    sys.exit(status)
