"""Audits that are fed a transcript as it comes, by the library or the program."""

from __future__ import annotations

import contextlib
import ctypes
import itertools
import os
import select
import threading
from typing import Iterator, NoReturn, Optional, Sequence, Union

from .audits import Text, said_by, summary_read
from .given import checked
from .library import NO_SESSION, Library, Slot, Verdict, chosen, summary_of
from .processes import IS_NONE, READ, Run
from .program import Program, found_program
from .replies import Summary

# a kind that no verdict has
NO_VERDICT = 2**32 - 1
# the kind of an audit that is over, or that ran out of memory
UNJUDGED = 6


class Audit:
    """Judges a transcript that comes in pieces, cut anywhere.

        with Audit() as audit:
            for piece in pieces:
                audit.feed(piece)
            print(audit.finish())

    The audit keeps only an unfinished line or base. The engine is chosen as for a `Network`; the program
    reads from a pipe. If an interrupt cuts a `feed` short, it is unknown whether the piece was taken.
    """

    def __init__(self, *, program: Program = None, engine: Optional[str] = None) -> None:
        judge = chosen(engine, program)
        self.engine = "library" if judge else "program"
        self._judge: Union[DirectAudit, AuditRun] = (
            DirectAudit(judge) if judge else AuditRun([found_program(program), "audit"])
        )

    def __enter__(self) -> Audit:
        return self

    def __exit__(self, *_: object) -> None:
        self.close()

    def __reduce__(self) -> NoReturn:
        raise TypeError("an audit belongs to one process and is not copied")

    def feed(self, piece: Text) -> None:
        """Feeds the next piece.

        Raises `Damaged` if the pieces so far begin no transcript, whatever follows; later calls raise it
        again. The program may report the damage only at a later call, at the latest at `finish`. If memory
        runs out, raises `MemoryError`, or with a program `Ended`; that ends the audit.
        """
        self._judge.feed(checked(piece, "a piece of a transcript"))

    def finish(self) -> Summary:
        """The counts of the transcript that was fed; raises as `feed` does.

        May be called again. Nothing can be fed afterwards.
        """
        return self._judge.finish()

    def close(self) -> None:
        """Ends the audit. If `finish` was not called before, there is no verdict."""
        self._judge.close()


class DirectAudit:
    """An audit by the library. Its verdict is written in place: an interrupt after the call loses nothing."""

    # of one that is not fully built
    owner = 0

    def __init__(self, library: Library) -> None:
        self.library, self.slot, self.lock = library, Slot(), threading.RLock()
        # one for each request; at most one of them covers all that was fed
        self.verdicts: list[Verdict] = []
        self.at, self.owner = ctypes.byref(self.slot), os.getpid()
        if library.audit_new(self.at):
            raise MemoryError("no memory for an audit")

    def __del__(self) -> None:
        if self.owner == os.getpid():
            self.close()

    def feed(self, piece: bytes) -> None:
        with self.lock:
            status = self.library.audit_feed(self.at, piece, ctypes.c_size_t(len(piece)))
        if status:
            self.finish()
        if status == NO_SESSION:
            raise ValueError("the audit is over")

    def finish(self) -> Summary:
        verdict = Verdict(NO_VERDICT)
        self.verdicts.append(verdict)
        with self.lock:
            if self.slot.full:
                self.library.audit_finish(self.at, ctypes.byref(verdict))
        told = sorted((it for it in self.verdicts if it.kind != NO_VERDICT), key=lambda it: bool(it.kind == UNJUDGED))
        if not told:
            raise ValueError("the audit is closed")
        return summary_of(told[0])

    def close(self) -> None:
        with self.lock:
            self.library.audit_free(self.at)


class AuditRun:
    """A run of the program's `audit`, fed through a pipe.

    A signal's handler that uses the audit during a call gets an error, since the order of pieces would
    change.
    """

    # of one that is not fully built
    owner = 0

    def __init__(self, words: Sequence[str]) -> None:
        # the status and the output, once a verdict was asked for
        self.ended: Optional[tuple[int, bytes, bytes]] = None
        self.is_busy = self.is_closed = False
        self.said: list[bytes] = []
        self.run, self.owner = Run(), os.getpid()
        try:
            self.run.start(words)
        except BaseException:
            self.close()
            raise

    def __del__(self) -> None:
        try:
            self.close()
        except BaseException:
            # cut short by a signal's handler
            self.close()
            raise

    @contextlib.contextmanager
    def alone(self) -> Iterator[None]:
        """Raises `ValueError` if another call is under way."""
        if self.is_busy:
            raise ValueError("the audit is in the middle of another call")
        try:
            self.is_busy = True
            yield
        finally:
            self.is_busy = False

    def feed(self, piece: bytes) -> None:
        with self.alone():
            if not self.run.to.closed and self.send(memoryview(piece)):
                return
        was_closed = self.run.to.closed
        self.finish()
        if was_closed:
            raise ValueError("the audit is over")

    def send(self, left: memoryview) -> bool:
        """Whether the program took all bytes; after a damage the program takes no more."""
        ready = select.poll()
        ready.register(self.run.to.fileno(), select.POLLOUT)
        try:
            while left:
                left = left[self.run.to.write(left) or 0 :]
                if left:
                    ready.poll()
        except BrokenPipeError:
            return False
        return True

    def finish(self) -> Summary:
        with self.alone():
            if not self.ended:
                if self.is_closed:
                    raise ValueError("the audit is closed")
                self.ended = self.end()
        return summary_read(said_by(*self.ended))

    def end(self) -> tuple[int, bytes, bytes]:
        """Closes the input; returns how the program ended. If the call was cut short, call it again."""
        self.run.to.close()
        ready = select.poll()
        ready.register(self.run.of.fileno(), select.POLLIN)
        while not self.said or self.said[-1]:
            ready.poll()
            # one C call: what was read is kept when the next handler runs
            self.said.extend(itertools.filterfalse(IS_NONE, map(self.run.of.read, (READ,))))
        return self.run.status(), b"".join(self.said), self.run.told()

    def close(self) -> None:
        if self.owner != os.getpid():
            return
        self.is_closed = True
        if not self.ended:
            self.run.kill()
            self.run.close()
            self.run.status()
        self.run.release()
