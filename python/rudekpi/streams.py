"""The standard streams of the command line: open or closed, they name the stream that fails."""

from __future__ import annotations

import contextlib
import io
import os
import sys
from typing import TYPE_CHECKING, Optional, TextIO, Union

if TYPE_CHECKING:
    from _typeshed import ReadableBuffer, WriteableBuffer


# of all files, and of standard streams that are no terminal, whatever the locale; a path whose bytes are no
# text is written as these bytes
ENCODING, LETTERS = "utf-8", "surrogateescape"


class Input(io.FileIO):
    """A standard input that names itself if a read fails."""

    def readinto(self, room: WriteableBuffer) -> Optional[int]:
        try:
            return super().readinto(room)
        except OSError as error:
            raise OSError(error.errno, f"read failed: {error.strerror}") from None

    def readall(self) -> bytes:
        try:
            return super().readall()
        except OSError as error:
            raise OSError(error.errno, f"read failed: {error.strerror}") from None


class Output(io.FileIO):
    """A file, or a standard output, that names itself if a write fails."""

    def __init__(self, file: Union[str, int], name: Optional[str] = None, appends: bool = False) -> None:
        super().__init__(file, "a" if appends else "w", closefd=isinstance(file, str))
        self.told = name

    def write(self, data: ReadableBuffer) -> int:
        try:
            return super().write(data)
        except OSError as error:
            if self.told is None:
                raise OSError(error.errno, f"write failed: {error.strerror}") from None
            raise OSError(error.errno, error.strerror, self.told) from None


def output_file(path: str, appends: bool = False) -> TextIO:
    """A file opened to write or append, which names its path if a write fails. Raises `OSError`."""
    return io.TextIOWrapper(io.BufferedWriter(Output(path, path, appends)), ENCODING, LETTERS, newline="")


def fill_closed() -> None:
    """Opens the null device under the numbers of closed standard streams, so that no file gets these.

    A read or write then fails as at a closed stream, and standard error goes nowhere.
    """
    for number, way in ((0, os.O_WRONLY), (1, os.O_RDONLY), (2, os.O_WRONLY)):
        try:
            os.fstat(number)
        except OSError:
            os.open(os.devnull, way)  # the least free number


def prepare() -> None:
    """Replaces Python's standard streams by ones that name what fails."""
    fill_closed()
    if sys.stderr is None:
        sys.stderr = open(2, "w", closefd=False, encoding=ENCODING, errors="backslashreplace")
    elif isinstance(sys.stderr, io.TextIOWrapper) and not sys.stderr.isatty():
        sys.stderr.reconfigure(encoding=ENCODING)
    if sys.stdin is None or not sys.stdin.isatty():
        sys.stdin = io.TextIOWrapper(io.BufferedReader(Input(0, "r", closefd=False)), ENCODING, LETTERS)
    if sys.stdout is None or not sys.stdout.isatty():
        sys.stdout = io.TextIOWrapper(io.BufferedWriter(Output(1)), ENCODING, LETTERS)
    elif isinstance(sys.stdout, io.TextIOWrapper):
        # a terminal has the locale's letters, and the others are escaped
        sys.stdout.reconfigure(errors="backslashreplace")


def let_go() -> None:
    """Discards output that could not be written, also at the end of this process."""
    with contextlib.suppress(OSError):
        os.dup2(os.open(os.devnull, os.O_WRONLY), 1)
        sys.stdout.flush()
