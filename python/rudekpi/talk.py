"""A program's pipes: an interrupt loses none of their bytes, and a signal's handler may use them.

A signal's handler may raise an error, as `KeyboardInterrupt`, after any instruction: also between the return
of a `write` and the store of its result. In the middle of any function here a handler may itself ask the
program a question, which is answered first. So each transfer of bytes, or of an exit status, is one C call.
That call finds the position, moves the bytes, and records the move before the next handler runs.
"""

from __future__ import annotations

import atexit
import io
import itertools
import os
import select
import weakref
from typing import Callable, Optional, Sequence

from .errors import Ended, Inherited
from .processes import IS_NONE, READ, Run

# the longest wait for the pipes, in milliseconds, before checking whether a handler has read meanwhile
LONGEST_PAUSE = 64
TOTAL: Callable[[list[int]], int] = sum
TALKS: weakref.WeakSet[Talk] = weakref.WeakSet()


class Load:
    """The bytes of the commands with numbers below `end`, how many each write took, and the next load."""

    __slots__ = ("data", "taken", "end", "later")

    def __init__(self, data: bytes, end: int) -> None:
        self.data, self.end = memoryview(data), end
        self.taken: list[int] = []
        # the next load: at most one, which a second one does not replace
        self.later: dict[int, Load] = {}

    def is_unsent(self) -> bool:
        return sum(self.taken) < len(self.data)


class Talk:
    """A program in its own session, which Ctrl-C at a terminal does not reach, with the bytes under way.

    The program is ended when nothing refers to the talk, and when this process ends.
    """

    # the values of a talk that is not fully built
    ended: Optional[Ended] = None
    owner = 0

    def __init__(self, words: Sequence[str], given: Optional[io.FileIO] = None) -> None:
        self.is_deaf = False
        self.pause = 1
        self.reached = Load(b"", 0)
        # the program's output not yet read on, by numbers from 0 on
        self.came: dict[int, bytes] = {}
        self.numbers = itertools.count()
        self.run, self.owner = Run(), os.getpid()
        TALKS.add(self)
        try:
            self.run.start(words, given)
        except BaseException:
            self.kill()
            raise

    def __del__(self) -> None:
        try:
            self.kill()
        except BaseException:
            # cut short by a signal's handler
            self.kill()
            raise

    @property
    def load(self) -> Load:
        load = self.reached
        while load.later:
            load = load.later[0]
        self.reached = load
        return load

    def has_unsent(self) -> bool:
        """Whether the program has yet to take bytes, and still may."""
        return self.load.is_unsent() and not self.is_deaf

    def write(self) -> bool:
        """Writes unsent bytes; returns whether the program took some."""
        load = self.load
        before, taken = len(load.taken), load.taken
        left = map(load.data.__getitem__, map(slice, map(TOTAL, (taken,)), (None,)))
        try:
            taken.extend(filter(None, map(self.run.to.write, left)))
        except BrokenPipeError:
            # the program reads no more; that it ended shows at the end of its output
            self.is_deaf = True
        except ValueError:
            # a handler has ended it
            if not self.run.to.closed:
                raise
        return len(taken) > before

    def wait(self) -> bool:
        """Waits a while for output, or until unsent bytes are taken; returns whether there is output."""
        ready = select.poll()
        try:
            of = self.run.of.fileno()
            ready.register(of, select.POLLIN)
            if self.has_unsent():
                ready.register(self.run.to.fileno(), select.POLLOUT)
        except ValueError:
            # a handler has ended it
            if not self.run.of.closed:
                raise
            return False
        found = ready.poll(self.pause)
        # waits as long as it has waited already, so that a call goes on soon after a handler read everything
        self.pause = 1 if found else min(2 * self.pause, LONGEST_PAUSE)
        return any(end == of for end, _ in found)

    def read(self) -> None:
        """Keeps what the program has written, which is an empty text once its output has ended."""
        try:
            said = itertools.filterfalse(IS_NONE, map(self.run.of.read, (READ,)))
            self.came.update(map(reversed, zip(said, self.numbers)))  # type: ignore[arg-type]
        except ValueError:
            # a handler has ended it
            if not self.run.of.closed:
                raise

    def close_input(self) -> None:
        self.run.to.close()

    def end(self) -> None:
        """Waits for the program, after its output ended, and keeps its status and last line.

        If the call was cut short, call it again.
        """
        try:
            if not self.ended:
                self.run.close()
                self.ended = Ended(self.run.status(), self.run.told())
        except ValueError:
            # a handler has done it meanwhile, and has closed what is read here
            if not self.ended:
                raise
        self.run.release()

    def kill(self) -> None:
        """Ends the program at once; does nothing if it has ended, or if another process started it."""
        if self.owner == os.getpid():
            if not self.ended:
                self.run.kill()
            self.end()

    def leave(self) -> None:
        """In a child of this process: closes its pipes, so that the program still sees its input end."""
        self.ended = Inherited()
        self.run.release()


def leave_all() -> None:
    for talk in list(TALKS):
        if not talk.ended:
            talk.leave()


@atexit.register
def kill_all() -> None:
    for talk in list(TALKS):
        talk.kill()


if hasattr(os, "register_at_fork"):
    os.register_at_fork(after_in_child=leave_all)
