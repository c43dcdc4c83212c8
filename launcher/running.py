"""Starts the program, and hands on its words, its streams, its signals and its end."""

import os
import select
import signal
import subprocess

from .place import write_all

TUNABLES = "GLIBC_TUNABLES"
# All memory of the program comes from one heap in large pages, which grows by 32 MiB and gives nothing back: fewer pages
# are touched for the first time, so a run takes less.
LARGE_PAGES = (
    "glibc.malloc.hugetlb=1:glibc.malloc.mmap_threshold=1073741824:glibc.malloc.trim_threshold=4294967296:"
    "glibc.malloc.top_pad=33554432:glibc.malloc.arena_max=1"
)
NEEDS = "Linux on x86-64 with GNU's C library 2.34 or later"
OLD_LIBRARY = "version `GLIBC_"  # The loader says so, and ends with 1.
HANDED_ON = (signal.SIGTERM, signal.SIGHUP, signal.SIGUSR1, signal.SIGUSR2)
KEPT = 1 << 16


def environment():
    """The variables of the program: those of the user, and of memory also ours, unless the user has set none at all."""
    users = os.environ.get(TUNABLES)
    if users == "":
        return os.environ
    # Of two values of one name the C library takes the later, so those of the user win.
    return {**os.environ, TUNABLES: f"{LARGE_PAGES}:{users}" if users else LARGE_PAGES}


def needs_line(why):
    """What is said where the program could not be started."""
    here = os.uname()
    try:
        library = os.confstr("CS_GNU_LIBC_VERSION")
    except (OSError, ValueError):
        library = None
    return f"the program cannot be started here ({why}): it needs {NEEDS}, and here is {here.sysname} on {here.machine} with {library or 'another'}"


def run(program, words, clock=None):
    """The program's status, negative where a signal ended it, and what it said on standard error. A clock is told each second
    in which it says nothing."""
    # Where its output and the clock's line go to one terminal, that line goes before the output comes.
    output = subprocess.PIPE if clock and os.isatty(1) else None
    # A name as /dev/fd/63 stands for a file that the shell has opened, so open files are passed on. Python ignores the signal
    # of a file that would be longer than the user's limit, and so does the program: a write is told instead.
    ran = subprocess.Popen(
        [program, *words], stdout=output, stderr=subprocess.PIPE, close_fds=False, restore_signals=False, env=environment(),
    )
    signal.signal(signal.SIGINT, signal.SIG_IGN)  # It goes to the program too, which ends.
    for number in HANDED_ON:
        signal.signal(number, lambda it, _: ran.send_signal(it))
    said = b""
    for stream, piece in _pieces(ran, clock):
        if stream == 2:
            said = (said + piece)[:KEPT]
        write_all(stream, piece)
    return ran.wait(), said.decode(errors="surrogateescape")


def _pieces(ran, clock):
    """What a program says on the streams that are read here, as it comes, behind the number of the stream."""
    open_ones = {pipe.fileno(): number for number, pipe in ((1, ran.stdout), (2, ran.stderr)) if pipe}
    poll = select.poll()
    for pipe in open_ones:
        poll.register(pipe, select.POLLIN)
    while open_ones:
        ready = poll.poll(1000 if clock else None)
        if not ready:
            clock.second(ran.pid)
        for pipe, _ in ready:
            piece = os.read(pipe, KEPT)
            if clock:
                clock.clear()
            if piece:
                yield open_ones[pipe], piece
            else:
                poll.unregister(pipe)
                del open_ones[pipe]


def end_as(status):
    """Ends as the program ended: with its status, or by the same signal."""
    if status < 0:
        if -status != signal.SIGKILL:
            signal.signal(-status, signal.SIG_DFL)
        os.kill(os.getpid(), -status)
    return status
