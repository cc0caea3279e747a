"""A log that is open: its lines come in numbered blocks as they are written.

A file and standard input may be compressed with gzip. A last line that is cut comes as a `Flaw`, as does a
line that is too long.
"""

from __future__ import annotations

import contextlib
import io
import json
import os
import select
import stat
from typing import Any, BinaryIO, Callable, Iterable, Iterator, NamedTuple, Optional, Sequence, Union, cast

from .given import encoded, is_file, opened, path_of
from .gzip_pieces import plain_pieces
from .log_lines import LONGEST, PIECE, PLAIN, Block, Log, cut

CUT, BACKWARDS, BAD = "cut", "backwards", "bad"
FEEDS = ("\n", b"\n")
# how many seconds the next line may take before an empty block comes instead; None for ever
Pause = Callable[[], Optional[float]]


class Flaw(NamedTuple):
    """What comes in place of a line that is cut or that can't be read, or before a line whose clock is wrong."""

    why: str
    kind: str = BAD


class Input:
    """A log's lines in blocks. Whoever opens it closes it."""

    # whether something may be writing it at this moment
    is_live = False

    def blocks(self, pause: Optional[Pause] = None) -> Iterator[Block]:
        """The numbered lines as they come, or their values; an empty block after each pause. Raises `OSError`."""
        raise NotImplementedError

    def drain(self) -> None:
        """Reads what is left of a pipe, so that its writer is not stopped. Leaves a file as it is."""

    def close(self) -> None:
        """Closes what was opened here."""


class Lines(Input):
    """Lines, or their values, of a program that makes them."""

    def __init__(self, lines: Iterable[Any]) -> None:
        self.lines, self.is_live = iter(lines), not isinstance(lines, Sequence)

    def blocks(self, pause: Optional[Pause] = None) -> Iterator[Block]:
        has_feeds = False
        for number, line in enumerate(self.lines, 1):
            is_text = isinstance(line, (str, bytes))
            if number == 1:
                has_feeds = is_text and line[-1:] in FEEDS
            elif has_feeds and is_text and line[-1:] not in FEEDS:
                line = last_line(encoded(line))
            yield [(number, line)]

    def drain(self) -> None:
        for _ in self.lines:
            pass


class Text(Input):
    """The text of an open file."""

    def __init__(self, file: BinaryIO, name: str = "", is_own: bool = False) -> None:
        self.file, self.name, self.is_own = file, name, is_own
        self.is_live = not is_quiet(file)

    def blocks(self, pause: Optional[Pause] = None) -> Iterator[Block]:
        splitter = Splitter()
        for piece in plain_pieces(self.pieces(pause), self.name):
            yield splitter.take(piece)
        yield splitter.rest()

    def pieces(self, pause: Optional[Pause] = None) -> Iterator[bytes]:
        """The bytes of the file, or of its text, each piece as soon as it can be read."""
        read = self.reader()
        has_begun = False
        while True:
            # what the file itself holds back is taken by the first read
            if pause and has_begun and self.is_live and not is_readable(self.file, pause()):
                yield b""
                continue
            piece = read(PIECE)
            if not piece:
                return
            has_begun = True
            yield encoded(piece)

    def reader(self) -> Callable[[int], Any]:
        """Reads what is there, and waits only for the first byte."""
        return cast(Callable[[int], Any], getattr(self.file, "read1", self.file.read))

    def drain(self) -> None:
        read = self.reader()
        while self.is_live and read(PIECE):
            pass

    def close(self) -> None:
        if self.is_own:
            self.file.close()


class Splitter:
    """Cuts pieces of text into numbered lines, without blank ones. A line that is too long is not kept."""

    def __init__(self) -> None:
        self.held: list[bytes] = []
        self.size = self.number = 0

    def take(self, piece: bytes) -> Block:
        """The lines that end in this piece."""
        first, *lines = piece.split(b"\n")
        found = self.hold(first)
        if lines:
            *whole, rest = [b"".join(self.held), *lines]
            found += [(at, line) for at, line in enumerate(whole, self.number + 1) if line and not line.isspace()]
            self.held, self.size = [rest], len(rest)
            self.number += len(whole)
        return found

    def hold(self, piece: bytes) -> Block:
        """Keeps a part of a line; returns the flaw once the line is too long."""
        was_long = self.size > LONGEST
        self.size += len(piece)
        if self.size <= LONGEST:
            self.held.append(piece)
            return []
        self.held.clear()
        return [] if was_long else [(self.number + 1, Flaw(f"the line has more than {LONGEST} bytes"))]

    def rest(self) -> Block:
        """The last line, if it has no line feed."""
        rest = b"".join(self.held)
        return [(self.number + 1, last_line(rest))] if rest.strip() else []


def last_line(line: bytes) -> Union[bytes, Flaw]:
    """A last line without a line feed: it is cut if no whole value stands there."""
    try:
        PLAIN.raw_decode(line.decode("utf-8-sig").strip(" \t\r\n"))
    except UnicodeDecodeError as error:
        return Flaw("", CUT) if error.reason == "unexpected end of data" else line
    except json.JSONDecodeError:
        return Flaw("", CUT)
    except (ValueError, RecursionError):
        return line
    return line


def is_quiet(file: Any) -> bool:
    """Whether the rest of this file may stay unread: it is no pipe, and no socket."""
    try:
        mode = os.fstat(file.fileno()).st_mode
    except (AttributeError, OSError, ValueError):
        return isinstance(file, (io.BytesIO, io.StringIO))
    return not (stat.S_ISFIFO(mode) or stat.S_ISSOCK(mode))


def is_readable(file: Any, seconds: Optional[float]) -> bool:
    """Whether a read would not wait. Waits for that, at most these seconds."""
    if seconds is None or isinstance(file, io.TextIOBase):
        return True
    try:
        return bool(select.select([file.fileno()], [], [], seconds)[0])
    except (AttributeError, OSError, ValueError):
        return True


def input_of(log: Union[Log, Input], name: str = "") -> Input:
    """Opens a log, given in any way that `conform` takes. Raises `OSError` and `TypeError`."""
    if isinstance(log, Input):
        return log
    make = getattr(log, "opened_log", None)
    if make:
        return cast(Input, make())
    path = path_of(log)
    if path is not None:
        return Text(cast(BinaryIO, opened(path)), path, True)
    if isinstance(log, (str, bytes, bytearray, memoryview)):
        return Text(io.BytesIO(encoded(log)), name)
    if is_file(log):
        return Text(cast(BinaryIO, log), name)
    if isinstance(log, dict) or not isinstance(log, Iterable):
        raise TypeError(f"a log is a path, an open file, bytes, text or lines, and not {cut(repr(log))}")
    return Lines(log)


@contextlib.contextmanager
def opened_input(log: Union[Log, Input]) -> Iterator[Input]:
    found = input_of(log)
    try:
        yield found
    finally:
        found.close()
