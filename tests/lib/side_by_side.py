"""Runs commands side by side, and ends all processes that they started."""

from __future__ import annotations

import contextlib
import dataclasses
import os
import pathlib
import signal
import subprocess
import tempfile
import time
from typing import Iterable, Iterator, Optional, Sequence

# The environment of each process that a command starts names the command, also those of outer commands.
MARKS = "RUDEKPI_TEST_RUNS"
# how long processes may take to clean up when they are interrupted
GRACE = 5.0
PAUSE = 0.02
# Ctrl-C, `kill`, and the end of a terminal
ENDING = signal.SIGINT, signal.SIGTERM, signal.SIGHUP


@dataclasses.dataclass(frozen=True)
class Ended:
    """What a command wrote, and its exit status: `None` if it took too long."""

    text: str
    status: Optional[int]
    seconds: float


def each_process(file: str) -> Iterator[tuple[int, bytes]]:
    """The processes of the machine, each with what such a file of /proc says; one that ends is left out."""
    for name in os.listdir("/proc"):
        with contextlib.suppress(OSError):
            if name.isdigit():
                yield int(name), pathlib.Path("/proc", name, file).read_bytes()


def parents() -> dict[int, int]:
    """Each process of the machine, and the one that started it."""
    return {process: int(line.rsplit(b")", 1)[1].split()[1]) for process, line in each_process("stat")}


def below(top: int) -> set[int]:
    """The processes that a process has started, those that these have started, and so on."""
    parent = parents()
    found, more = set[int](), {top}
    while more:
        more = {process for process, starter in parent.items() if starter in more} - found
        found |= more
    return found


def marked(mark: str) -> set[int]:
    """The processes that have the mark, also those whose parent has ended."""
    return {process for process, marks in all_marks() if mark in marks}


def marked_by(top: int) -> set[int]:
    """The processes of all commands that a process runs."""
    return {process for process, marks in all_marks() if any(mark.split(".")[0] == str(top) for mark in marks)}


def all_marks() -> Iterator[tuple[int, list[str]]]:
    """The processes with marks in their environments."""
    for process, words in each_process("environ"):
        marks = [word for word in words.decode(errors="replace").split("\0") if word.startswith(f"{MARKS}=")]
        if marks:
            yield process, marks[0][len(MARKS) + 1 :].split(":")


class Run:
    """A command in a session of its own, so that an interrupt reaches it when it is sent to it alone."""

    def __init__(self, words: Sequence[str], seconds: float) -> None:
        """Raises `OSError` if the command can't be started."""
        self.began = time.monotonic()
        self.late = self.began + seconds
        self.mark = f"{os.getpid()}.{time.monotonic_ns()}"
        self.said = tempfile.TemporaryFile()
        marks = f"{outer}:{self.mark}" if (outer := os.environ.get(MARKS)) else self.mark
        self.process = subprocess.Popen(
            words,
            stdin=subprocess.DEVNULL,
            stdout=self.said,
            stderr=subprocess.STDOUT,
            env=dict(os.environ, **{MARKS: marks}),
            start_new_session=True,
        )

    def ended(self) -> Optional[Ended]:
        """`None` while it runs. A command that is late is stopped."""
        status = self.process.poll()
        if status is None and time.monotonic() < self.late:
            return None
        if status is None:
            stop([self])
        self.said.seek(0)
        text = self.said.read().decode(errors="replace")
        self.said.close()
        return Ended(text, status, time.monotonic() - self.began)

    def processes(self) -> set[int]:
        """Those that it has started and that run, itself included."""
        own = {self.process.pid} if self.process.poll() is None else set()
        return own | below(self.process.pid) | marked(self.mark)


def send(process: int, number: int) -> None:
    with contextlib.suppress(ProcessLookupError, PermissionError):
        os.kill(process, number)


def stop(runs: Iterable[Run]) -> None:
    """Interrupts the commands, and kills what is left of their processes after a moment."""
    alive = [run for run in runs if run.process.poll() is None]
    known = {run: run.processes() for run in alive}
    for run in alive:
        with contextlib.suppress(ProcessLookupError):
            os.killpg(run.process.pid, signal.SIGINT)
    end = time.monotonic() + GRACE
    while time.monotonic() < end and any(run.process.poll() is None for run in alive):
        time.sleep(PAUSE)
    for run in alive:
        left = (known[run] & set(parents())) | run.processes()
        end = time.monotonic() + GRACE
        while left and time.monotonic() < end:
            for process in left:
                send(process, signal.SIGKILL)
            run.process.wait()
            time.sleep(PAUSE)
            left = run.processes()


@contextlib.contextmanager
def signals_noted() -> Iterator[list[int]]:
    """The signals that are to end this process, noted in place of ending it within the block."""
    noted: list[int] = []
    before = {number: signal.signal(number, lambda came, _: noted.append(came)) for number in ENDING}
    try:
        yield noted
    finally:
        for number, handler in before.items():
            signal.signal(number, handler)


def end_by(number: int) -> None:
    """Ends this process by a signal, so that its parent sees that it was broken off."""
    signal.signal(number, signal.SIG_DFL)
    signal.raise_signal(number)
