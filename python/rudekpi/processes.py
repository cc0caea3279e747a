"""Starts programs so that an interrupt at any moment loses no process and no pipe.

`subprocess.Popen` loses a process if a signal's handler raises before the process's number is stored. Here
the C call that makes a resource also puts it into a list.
"""

from __future__ import annotations

import contextlib
import functools
import io
import itertools
import math
import operator
import os
import signal
import tempfile
import time
from typing import IO, Any, Iterator, Optional, Sequence, Union

# signals that Python ignores, and a program should not
IGNORED = [getattr(signal, name) for name in ("SIGPIPE", "SIGXFSZ") if hasattr(signal, name)]
# how much is read at once: what a pipe holds
READ = 1 << 16
# whether a read without waiting found nothing
IS_NONE = functools.partial(operator.is_, None)
# how many seconds a program may take to end after the end of its text
LAST_SECONDS = 10
# the path at which a program finds the file that it is given
GIVEN = "/dev/fd/3"
# how many bytes of standard error are read
LONGEST_TOLD = 1 << 16


@contextlib.contextmanager
def no_low_numbers() -> Iterator[None]:
    """While this context lasts, no opened file gets the number of a standard stream, even of a closed one."""
    # files close themselves if an interrupt comes before they are closed here
    held: list[io.FileIO] = []
    try:
        while not held or held[-1].fileno() < 3:
            held.extend(map(io.FileIO, map(os.open, (os.devnull,), (os.O_RDONLY,))))
        yield
    finally:
        for file in held:
            file.close()


def add_nameless(files: list[Any]) -> None:
    """Adds a nameless file to a list, in one C call.

    One of `tempfile` is closed twice if an interrupt cuts its making short.
    """
    if hasattr(os, "memfd_create"):
        files.extend(map(io.FileIO, map(os.memfd_create, ("told",)), ("rb+",)))
    else:
        files.append(tempfile.TemporaryFile())


class Run:
    """A run of a program with two pipes, which can be stopped at any moment.

    Its standard error goes to a file.
    """

    def __init__(self) -> None:
        # the pipes' ends: two for the program's standard input, two for its output
        self.ends: list[io.FileIO] = []
        self.files: list[Union[io.FileIO, IO[bytes]]] = []
        self.numbers: list[int] = []
        self.statuses: list[tuple[int, int]] = []

    def start(self, words: Sequence[str], given: Optional[io.FileIO] = None) -> None:
        """Starts the program in its own session, with a given file at the path `GIVEN`.

        Raises `OSError` if there is no such program.
        """
        with no_low_numbers():
            made = itertools.chain.from_iterable(itertools.starmap(os.pipe, ((), ())))
            self.ends.extend(map(io.FileIO, made, ("rb", "wb", "rb", "wb")))
            self.add_file()
            # the given file comes last: its number there may be another end's here
            ends = [self.ends[0], self.ends[3], self.files[0], *([given] if given else [])]
            moved = [(os.POSIX_SPAWN_DUP2, end.fileno(), number) for number, end in enumerate(ends)]
            spawn = functools.partial(os.posix_spawnp, file_actions=moved, setsid=True, setsigdef=IGNORED)
            self.numbers.extend(map(spawn, (words[0],), (list(words),), (dict(os.environ),)))
        self.ends[0].close()
        self.ends[3].close()
        for end in self.ends[1:3]:
            os.set_blocking(end.fileno(), False)

    def add_file(self) -> None:
        add_nameless(self.files)

    @property
    def to(self) -> io.FileIO:
        """The end that writes the program's input, without waiting."""
        return self.ends[1]

    @property
    def of(self) -> io.FileIO:
        """The end that reads the program's output, without waiting."""
        return self.ends[2]

    def close(self) -> None:
        for end in self.ends:
            with contextlib.suppress(OSError):
                end.close()

    def has_status(self) -> bool:
        return bool(self.statuses) and self.statuses[-1][0] != 0

    def status(self, seconds: float = LAST_SECONDS) -> int:
        """Waits for the program's exit status, and kills it after too long; 0 if none was started."""
        last, pause = time.monotonic() + seconds, 0.0001
        while self.numbers and not self.has_status():
            if time.monotonic() > last:
                self.kill()
            try:
                self.statuses.extend(map(os.waitpid, (self.numbers[0],), (os.WNOHANG,)))
            except ChildProcessError:
                if not self.has_status():
                    return 0  # this process lets the system reap its children
            if not self.has_status():
                time.sleep(pause)
                pause = min(2 * pause, 0.02)
        return os.waitstatus_to_exitcode(self.statuses[-1][1]) if self.numbers else 0

    def kill(self) -> None:
        """Kills the program and all that it started: the processes of its session."""
        if self.numbers and not self.has_status():
            with contextlib.suppress(ProcessLookupError, PermissionError):
                os.killpg(self.numbers[0], signal.SIGKILL)

    def told(self) -> bytes:
        """The end of the program's standard error."""
        for file in self.files:
            size = os.fstat(file.fileno()).st_size
            return os.pread(file.fileno(), LONGEST_TOLD, max(0, size - LONGEST_TOLD))
        return b""

    def release(self) -> None:
        self.close()
        for file in self.files:
            file.close()


class Silent(Run):
    """A run without input or output; its standard error is this process's."""

    def start(self, words: Sequence[str], given: Optional[io.FileIO] = None) -> None:
        null = [
            (os.POSIX_SPAWN_OPEN, number, os.devnull, way, 0) for number, way in ((0, os.O_RDONLY), (1, os.O_WRONLY))
        ]
        spawn = functools.partial(os.posix_spawnp, file_actions=null, setsid=True, setsigdef=IGNORED)
        self.numbers.extend(map(spawn, (words[0],), (list(words),), (dict(os.environ),)))


def status_of(words: Sequence[str]) -> int:
    """Runs a program to its end, however long that takes; returns its exit status.

    An interrupt ends the program and all that it started. Raises `OSError` if there is no such program.
    """
    run = Silent()
    try:
        run.start(words)
        return run.status(math.inf)
    except BaseException:
        run.kill()
        run.status()
        raise
