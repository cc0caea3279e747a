"""Transcripts that are audited in parts, in parallel."""

from __future__ import annotations

import contextlib
import functools
import os
import re
from concurrent.futures import Executor, Future, ProcessPoolExecutor, ThreadPoolExecutor
from typing import Iterator, Optional, Tuple, Union

from .audits import Slice, audit
from .errors import Damaged, Lost
from .given import Given, bytes_of, naming, opened, path_of, pieces_of, size_of
from .library import chosen, found_library
from .numbers import MOST_EDGES, MOST_NODES
from .program import Program
from .replies import Summary
from .workers import Handing

HEAD_START = b"\nmatching2 "
# the first two lines of a base, and a size that is more than theirs
HEAD = re.compile(rb"matching2 [^\n]*\nbase [0-9]{1,10} spent=[0-9]{1,10} nodes=([0-9]{1,10}) edges=([0-9]{1,10})\n")
HEAD_SIZE = 256
# how many bytes are read at once
PIECE = 1 << 18
# a part is about what is left divided by this many parts a thread, so that the last parts are small and all
# threads end together
PARTS_LEFT = 2
# the start of a part, and its end
Part = Tuple[int, int]
# the audit of a part, or None if it is lost
Verdict = Optional["Future[Summary]"]


class LostPart(Lost):
    """Workers died twice over a part of a transcript: the bytes `start` to before `end`.

    The part begins with line number `line`. Everything before the part is accepted.
    """

    def __init__(self, start: int, end: int, line: int) -> None:
        super().__init__(
            f"no verdict from line {line} on: the workers that judged the bytes {start} to {end} died twice"
        )
        self.start, self.end, self.line = start, end, line

    def __reduce__(self) -> tuple[object, ...]:
        return type(self), (self.start, self.end, self.line)


class Held:
    """A transcript in memory, or in a file."""

    def __init__(self, text: bytes, file: Optional[int] = None, path: str = "", is_shared: bool = False) -> None:
        self.text, self.file, self.path, self.is_shared = text, file, path, is_shared
        self.size = len(text) if file is None else os.fstat(file).st_size

    def read(self, start: int, count: int) -> bytes:
        """At most `count` bytes from a place on; fewer at the end, or if the system gives fewer."""
        return self.text[start : start + count] if self.file is None else os.pread(self.file, count, start)

    def part(self, start: int, end: int, executor: Executor) -> Union[bytes, Slice]:
        """A part for a worker: without a copy if the worker is a thread, or may open the file."""
        if self.file is None:
            return Slice(self.text, start, end) if isinstance(executor, ThreadPoolExecutor) else self.text[start:end]
        if isinstance(executor, ThreadPoolExecutor):
            return Slice(self.file, start, end, self.path)
        if self.is_shared or isinstance(executor, ProcessPoolExecutor):
            return Slice(self.path, start, end, self.path)
        with naming(self.path):
            return b"".join(pieces_of(self.file, start, end))

    def lines_before(self, end: int) -> int:
        return sum(self.read(at, min(PIECE, end - at)).count(b"\n") for at in range(0, end, PIECE))


def audit_parts(
    transcript: Given,
    executor: Optional[Executor] = None,
    *,
    program: Program = None,
    size: int = 1 << 21,
    shared: bool = False,
    engine: Optional[str] = None,
) -> Summary:
    """The verdict of `audit` on a transcript with bases, judged in parts of at least about `size` bytes.

    Each part ends with the base that begins the next part. So if all parts are accepted, `audit` accepts the
    whole. If a part is refused, the first damage of the whole is that of the first refused part; `Damaged`
    has the line's number in the whole. Without a base inside there is one part.

    The executor is any of `concurrent.futures`, or that of a cluster whose workers have this package and the
    program; by default a thread for each processor of this machine. A file that is given by its path is not
    read whole and must not change meanwhile; `OSError` if it becomes shorter. Workers open the file if they
    are threads or processes of this machine, or if the file is `shared`: all of them find it by this path.

    If a cluster loses a part's verdict, the part is judged once more. If the second verdict is lost too, and
    everything before the part is accepted, `LostPart` is raised. A process pool of the caller breaks if one
    of its processes dies: the pool is not replaced, and raises its `BrokenExecutor`.
    """
    path = path_of(transcript)
    if path is None:
        return audit_held(Held(bytes_of(transcript)), executor, size, program, engine)
    with opened(path) as file:
        if size_of(file) is None:
            return audit_held(Held(file.readall()), executor, size, program, engine)
        return audit_held(Held(b"", file.fileno(), os.path.abspath(path), shared), executor, size, program, engine)


def audit_held(held: Held, executor: Optional[Executor], size: int, program: Program, engine: Optional[str]) -> Summary:
    chosen(engine, program)
    if executor is not None:
        return verdict_of(held, parts_of(held, size), executor, program, engine)
    workers = len(os.sched_getaffinity(0)) if hasattr(os, "sched_getaffinity") else os.cpu_count() or 1
    with ThreadPoolExecutor(workers) as threads:
        return verdict_of(held, parts_of(held, size, PARTS_LEFT * workers), threads, program, engine)


def verdict_of(
    held: Held, parts: Iterator[Part], executor: Executor, program: Program, engine: Optional[str]
) -> Summary:
    judge = functools.partial(audit, program=program, engine=engine)
    handing: Handing[tuple[int, Part]] = Handing(
        enumerate(parts), lambda task: (judge, held.part(*task[1], executor)), executor
    )
    whole: Optional[Summary] = None
    with contextlib.closing(handing.done()) as done:
        for (start, end), future in in_order(done):
            if not future:
                raise LostPart(start, end, held.lines_before(start) + 1)
            try:
                found: Union[Summary, Damaged] = future.result()
            except Damaged as damaged:
                found = damaged
            whole = joined(whole, found, 0 if isinstance(found, Summary) else held.lines_before(start))
    return whole or Summary(0, 1, 0)


def joined(whole: Optional[Summary], found: Union[Summary, Damaged], lines: int) -> Summary:
    """The joint verdict on the parts so far, if any, and the next part. Raises `Damaged`.

    `lines` is how many lines precede the next part; only a damage needs it. If the library is found, its
    proved call joins the verdicts, whichever engine judged; else this function makes the same sums.
    """
    library = found_library()
    if whole and library:
        return library.joined(whole, found, lines)
    if isinstance(found, Damaged):
        raise Damaged(lines + found.line, found.why)
    if not whole:
        return found
    # a part begins within an epoch of the one before it
    return Summary(whole.entries + found.entries, whole.epochs + found.epochs - 1, whole.moves + found.moves)


def in_order(done: Iterator[tuple[tuple[int, Part], Verdict]]) -> Iterator[tuple[Part, Verdict]]:
    """Numbered parts with verdicts in any order, sorted by number 0, 1, 2, .."""
    held: dict[int, tuple[Part, Verdict]] = {}
    turn = 0
    for (number, part), verdict in done:
        held[number] = part, verdict
        while turn in held:
            yield held.pop(turn)
            turn += 1


def parts_of(held: Held, size: int, parts_left: int = 0) -> Iterator[Part]:
    """Where parts begin and end: from the start or a base, to the end of a later base or of the transcript.

    Each part has at least the size, and with `parts_left` at least the bytes left divided by that.
    """
    start = 0
    while True:
        wanted = max(size, (held.size - start) // parts_left) if parts_left else size
        base = base_behind(held, start + wanted)
        if base is None:
            yield start, held.size
            return
        yield start, base[1]
        start = base[0]


def base_behind(held: Held, place: int) -> Optional[tuple[int, int]]:
    """The start and end of the first base after a place.

    A base without a clear end is skipped: the part that contains this base is refused there.
    """
    while place < held.size:
        piece = held.read(place, PIECE)
        found = piece.find(HEAD_START)
        if found >= 0:
            place += found + 1
            end = end_of_base(held, place)
            if end is not None:
                return place, end
        elif len(piece) < len(HEAD_START):
            return None
        else:
            # a base may begin at the end of this piece
            place += len(piece) - len(HEAD_START) + 1
    return None


def end_of_base(held: Held, start: int) -> Optional[int]:
    """The place after a base's last line; None if its second line is wrong, or lines are missing."""
    found = HEAD.match(held.read(start, HEAD_SIZE))
    if not found or int(found[1]) > MOST_NODES or int(found[2]) > MOST_EDGES:
        return None
    place, lines = start + found.end(), int(found[1]) + int(found[2])
    while lines:
        piece = held.read(place, PIECE)
        if not piece:
            return None
        count = piece.count(b"\n")
        place += len(piece) if count < lines else len(piece) - len(piece.split(b"\n", lines)[-1])
        lines -= min(count, lines)
    return place
