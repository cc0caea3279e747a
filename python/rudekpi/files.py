"""Files that are written whole or not at all."""

from __future__ import annotations

import contextlib
import io
import os
import re
import stat
import uuid
from typing import BinaryIO, Optional, Union, cast

from .streams import Output

Path = Union[str, "os.PathLike[str]"]
# names of an open stream
DESCRIPTOR = re.compile(r"/dev/(std(in|out|err)|fd/[0-9]+)|/proc/[^/]+/(task/[^/]+/)?fd/[0-9]+")
MOST_LINKS = 40


def write_whole(path: Path, data: bytes, flushes: bool = False) -> None:
    """Writes a file by way of a temporary one in the same folder, so that it is either whole or unchanged.

    Links are followed, and a file keeps its mode. A device, a pipe or an open stream (`/dev/stdout`) is
    written to directly. With `flushes` the file and its folder are on the disk when the call returns; without,
    a file in a folder that takes no new files is written to directly too. Raises `OSError`.
    """
    file = WholeFile(path, flushes)
    try:
        file.begin()
        file.write(data)
        file.close()
    except BaseException:
        file.drop()
        raise


class WholeFile:
    """A file to be written piece by piece, which takes its place at `close`; `drop` leaves the old one.

    Whoever opens it closes or drops it, also after an interrupt. See `write_whole`.
    """

    def __init__(self, path: Path, flushes: bool = False) -> None:
        self.path, self.flushes = os.fspath(path), flushes
        self.real = os.path.realpath(path)
        self.mode = None if is_descriptor(self.path) else mode_of(self.path)
        folder = os.path.dirname(self.real)
        is_new = self.mode is None and not is_descriptor(self.path)
        self.is_beside = is_new or (stat.S_ISREG(self.mode or 0) and (flushes or os.access(folder, os.W_OK)))
        # the temporary file
        self.other = os.path.join(folder, f".{os.path.basename(self.real)[:100]}.{uuid.uuid4().hex}")
        self.file: Optional[BinaryIO] = None

    def begin(self) -> None:
        try:
            raw = Output(self.other if self.is_beside else self.path, self.path)
            self.file = cast(BinaryIO, io.BufferedWriter(raw))
            if self.is_beside and self.mode is not None:
                os.fchmod(raw.fileno(), stat.S_IMODE(self.mode))
        except OSError as error:
            # the path that the caller knows
            raise OSError(error.errno, error.strerror, self.path) from None

    def write(self, data: bytes) -> None:
        assert self.file
        self.file.write(data)

    def close(self) -> None:
        """The file takes its place, if it was opened. Raises `OSError`."""
        if self.file is None:
            return self.drop()
        self.file.flush()
        if self.flushes and self.is_beside:
            os.fsync(self.file.fileno())
        self.file.close()
        if self.is_beside:
            os.replace(self.other, self.real)
            if self.flushes:
                flush_folder(os.path.dirname(self.real))

    def drop(self) -> None:
        """What was written is lost, unless it went to a stream."""
        with contextlib.suppress(OSError):
            if self.file:
                self.file.close()
        if self.is_beside:
            with contextlib.suppress(FileNotFoundError):
                os.unlink(self.other)


def is_descriptor(path: str) -> bool:
    """Whether a path is, or links to, the name of an open stream such as `/dev/stdout`."""
    for _ in range(MOST_LINKS):
        path = os.path.abspath(path)
        if DESCRIPTOR.fullmatch(path):
            return True
        if not os.path.islink(path):
            return False
        path = os.path.join(os.path.dirname(path), os.readlink(path))
    return False


def flush_folder(folder: str) -> None:
    number = os.open(folder, os.O_RDONLY | os.O_DIRECTORY)
    try:
        os.fsync(number)
    finally:
        os.close(number)


def mode_of(path: str) -> Optional[int]:
    try:
        return os.stat(path).st_mode
    except FileNotFoundError:
        return None
