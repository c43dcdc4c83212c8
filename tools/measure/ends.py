"""How a tool ends: with 0, or with another status and a line that says why."""

import errno
import os
import signal
import sys


def status_of(tool, work):
    """The status of a tool that reads its words and does its work here: what this answers, which may be None for 0.

    Where a reader went away, as `head` does, it is that of the signal, without a word.
    """
    try:
        return _written(work) or 0
    except BrokenPipeError:
        return 128 + signal.SIGPIPE
    except ImportError as missing:
        return _fault(tool, f"Python has no {missing.name} (Debian: python3-{missing.name})")
    except (OSError, ValueError) as fault:
        return _fault(tool, fault)


def _written(work):
    """What the work answers, once all that it printed is written."""
    try:
        return work()
    finally:
        _flush()


def _flush():
    if sys.stdout is None:  # As Python has it where the descriptor is closed.
        raise OSError(errno.EBADF, os.strerror(errno.EBADF), "standard output")
    try:
        sys.stdout.flush()
    except OSError as fault:
        os.dup2(os.open(os.devnull, os.O_WRONLY), sys.stdout.fileno())  # So that the end of Python does not try again.
        raise OSError(fault.errno, fault.strerror, "standard output") from None


def _fault(tool, why):
    if isinstance(why, OSError) and why.strerror:
        why = why.strerror if why.filename is None else f"{why.filename}: {why.strerror}"
    print(f"tools/{tool}: {why}", file=sys.stderr)
    return 1
