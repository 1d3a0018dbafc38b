"""Starts the built program, and tells how it ended and what it wrote."""
import os
import resource
import signal
from typing import NamedTuple, Optional

CLOSED = -1
MEGABYTE = 1 << 20


class Ended(NamedTuple):
    """How a run ended: a status below 0 is the signal that ended it. Seconds are the processor's.

    The memory is the most that the process held, or this one where that is more.
    """

    status: int
    output: bytes
    errors: bytes
    seconds: float
    memory: int


class Program:
    """A built program, with files in memory that its runs read and write."""

    def __init__(self, path):
        self.path = path
        self.given = os.memfd_create("input")
        self.output = os.memfd_create("output")
        self.errors = os.memfd_create("errors")

    def start(self, words=(), given=b"", devices=(None, None, None), environment=None, limits=None):
        """Starts a run and returns its process. A device is a descriptor, CLOSED, or None for a file in memory.

        The limits are those of the system, each with what it bounds: RLIMIT_AS the bytes that are mapped, RLIMIT_CPU
        the processor's seconds.
        """
        for file, content in ((self.given, given), (self.output, b""), (self.errors, b"")):
            refill(file, content)
        actions = []
        for number, own in enumerate((self.given, self.output, self.errors)):
            device = own if devices[number] is None else devices[number]
            close = device == CLOSED
            actions.append((os.POSIX_SPAWN_CLOSE, number) if close else (os.POSIX_SPAWN_DUP2, device, number))
        settings = {"PATH": os.environ.get("PATH", ""), **(environment or {})}
        # python ignores these three, and what is ignored stays so in a child
        defaults = [signal.SIGPIPE, signal.SIGXFSZ, signal.SIGINT]
        process = os.posix_spawn(self.path, [self.path, *words], settings, file_actions=actions, setsigdef=defaults)
        for limit, most in (limits or {}).items():
            resource.prlimit(process, limit, (most, most))
        return process

    def wait(self, process, seconds=30):
        """Waits for a run that was started, ends it where it takes too long, and tells how it ended."""
        old = signal.signal(signal.SIGALRM, lambda *_: os.kill(process, signal.SIGKILL))
        signal.setitimer(signal.ITIMER_REAL, seconds)
        try:
            _, status, used = os.wait4(process, 0)
        finally:
            signal.setitimer(signal.ITIMER_REAL, 0)
            signal.signal(signal.SIGALRM, old)
        ended = os.WEXITSTATUS(status) if os.WIFEXITED(status) else -os.WTERMSIG(status)
        taken = used.ru_utime + used.ru_stime
        return Ended(ended, content_of(self.output), content_of(self.errors), taken, 1024 * used.ru_maxrss)

    def run(self, words=(), given=b"", devices=(None, None, None), environment=None, limits=None, seconds=30):
        """Runs the program over a text."""
        return self.wait(self.start(words, given, devices, environment, limits), seconds)

    def bytes_read(self):
        """How many bytes of the file in memory the last run read, by how far the file was gone through."""
        return os.lseek(self.given, 0, os.SEEK_CUR)


def least_seconds(runs, bound, rounds=15, most_rounds=120):
    """The least processor time of each of some runs, which take turns on one processor.

    Other work on the machine only adds to a time, so after so many rounds they go on as long as the bound doesn't hold
    of the least times, up to the most rounds.
    """
    least = [float("inf")] * len(runs)
    with OneProcessor():
        for number in range(most_rounds):
            if number >= rounds and bound(*least):
                break
            least = [min(seconds, run().seconds) for seconds, run in zip(least, runs)]
    return least


def refill(file, content):
    """Gives a file this content, to be read from its beginning."""
    os.ftruncate(file, 0)
    os.lseek(file, 0, os.SEEK_SET)
    while content:
        content = content[os.write(file, content):]
    os.lseek(file, 0, os.SEEK_SET)


def content_of(file):
    return os.pread(file, os.fstat(file).st_size, 0)


class OneProcessor:
    """Holds this process, and what it starts meanwhile, to one of its processors."""

    def __enter__(self):
        self.allowed = os.sched_getaffinity(0)
        own = sorted(self.allowed)
        os.sched_setaffinity(0, {own[os.getpid() % len(own)]})

    def __exit__(self, *_):
        os.sched_setaffinity(0, self.allowed)

