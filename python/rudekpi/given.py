"""What the client's functions take as a transcript or a log, by one rule.

- A `str` with a line feed, or an empty one, is text. Any other `str` is the path of a file, as an
  `os.PathLike` is.
- Bytes are text, also without a line feed.
- An open file is read to its end, whether it was opened for bytes or for text.
- Anything else is iterated, and gives lines: `str` or bytes, all with their line feeds or all without.
"""

from __future__ import annotations

import contextlib
import errno
import io
import os
import stat
from collections import abc
from typing import IO, Any, Iterable, Iterator, Optional, Union

from .processes import no_low_numbers

Given = Union[str, bytes, bytearray, memoryview, "os.PathLike[str]", IO[bytes], IO[str], Iterable[str], Iterable[bytes]]
# how many bytes are read at once
PIECE = 1 << 20


def path_of(given: object) -> Optional[str]:
    """The path that is given; None for anything else."""
    if isinstance(given, os.PathLike):
        return os.fsdecode(given)
    return given if isinstance(given, str) and given and "\n" not in given else None


def encoded(text: Union[str, bytes, bytearray, memoryview]) -> bytes:
    return text.encode("utf-8", "surrogatepass") if isinstance(text, str) else bytes(text)


def is_file(given: object) -> bool:
    return hasattr(given, "read")


def bytes_of(given: Given, what: str = "a transcript") -> bytes:
    """All bytes of a transcript. Raises `OSError` if a file can't be read, and `TypeError`."""
    path = path_of(given)
    if path is not None:
        return read_whole(path)
    if isinstance(given, (str, bytes, bytearray, memoryview)):
        return encoded(given)
    if is_file(given):
        return checked(given.read(), what)  # type: ignore[union-attr]
    if isinstance(given, abc.Mapping) or not isinstance(given, abc.Iterable):
        # `bytes` would accept a number, and read something into it
        raise TypeError(f"{what} is a path, an open file, bytes, text or lines, and not {shortened(given)}")
    return of_lines([checked(line, f"a line of {what}") for line in given])


def checked(text: Any, what: str) -> bytes:
    if not isinstance(text, (str, bytes, bytearray, memoryview)):
        raise TypeError(f"{what} is text or bytes, and not {shortened(text)}")
    return encoded(text)


def shortened(given: object) -> str:
    told = repr(given)
    return told if len(told) <= 200 else f"{told[:200]}.."


def of_lines(lines: list[bytes]) -> bytes:
    """The text of lines, which have their line feeds if the first one has."""
    has_feeds = bool(lines) and lines[0].endswith(b"\n")
    return b"".join(lines) if has_feeds else b"".join(line + b"\n" for line in lines)


def opened(path: Union[str, os.PathLike[str]]) -> io.FileIO:
    """A file for reading, which names its path if a read fails, and never has a standard stream's number."""
    with no_low_numbers():
        return NamedFile(path)


class NamedFile(io.FileIO):
    def readinto(self, room: Any) -> Optional[int]:
        try:
            return super().readinto(room)
        except OSError as error:
            raise self.named(error) from None

    def readall(self) -> bytes:
        try:
            return super().readall()
        except OSError as error:
            raise self.named(error) from None

    def named(self, error: OSError) -> OSError:
        return OSError(error.errno, error.strerror, self.name)


def read_whole(path: Union[str, os.PathLike[str]]) -> bytes:
    """All bytes of a file. Raises `OSError`, also if the file becomes shorter meanwhile."""
    with opened(path) as file:
        size = size_of(file)
        data = file.readall()
    if size is not None and len(data) < size:
        raise became_shorter(path)
    return data


def size_of(file: io.FileIO) -> Optional[int]:
    """How many bytes a regular file has; None for any other file, and for one that claims to be empty."""
    found = os.fstat(file.fileno())
    return found.st_size if stat.S_ISREG(found.st_mode) and found.st_size else None


def became_shorter(path: Union[str, os.PathLike[str], None] = None) -> OSError:
    return OSError(errno.EIO, "the file became shorter while it was read", path)


@contextlib.contextmanager
def naming(path: str) -> Iterator[None]:
    """Errors of files in this context have this path, unless they have one."""
    try:
        yield
    except OSError as error:
        if error.filename is not None or not path:
            raise
        raise OSError(error.errno, error.strerror, path) from None


def pieces_of(file: int, start: int, end: int) -> Iterator[bytes]:
    """The bytes of a range of an open file, given by its number. Raises `OSError` if the file ends before."""
    while start < end:
        piece = os.pread(file, min(PIECE, end - start), start)
        if not piece:
            raise became_shorter()
        yield piece
        start += len(piece)
