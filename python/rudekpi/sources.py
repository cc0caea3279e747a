"""Transcripts that a network goes on from: bytes, a file by its path, or an open file."""

from __future__ import annotations

import contextlib
import errno
import io
import os
import re
from typing import Any, Iterable, Iterator, Optional

from .audits import audit
from .errors import Damaged, Ended
from .given import Given, became_shorter, bytes_of, opened, path_of, size_of
from .names import Names, names_for
from .processes import add_nameless, no_low_numbers
from .program import Program
from .replies import Name

# the first line of a transcript, or of a base
HEAD = re.compile(rb"matching2? (hh|manne) [0-9]{1,5}(?: [0-9]{1,5})?\n")
# the program's line if it refuses the file that it is to go on from
REFUSED_FILE = re.compile(r"! .*: line ([0-9]+): (.*)")


class Source:
    """The bytes of a transcript, and the regular file that has them, if any."""

    def __init__(self, text: bytes, file: Optional[io.FileIO] = None) -> None:
        self.text, self.file = text, file

    @contextlib.contextmanager
    def opened(self) -> Iterator[io.FileIO]:
        """A file of the bytes, which the program reads from its start."""
        if self.file:
            yield self.file
            return
        files: list[Any] = []
        try:
            with no_low_numbers():
                add_nameless(files)
            left = memoryview(self.text)
            while left:
                left = left[files[0].write(left) :]
            files[0].seek(0)
            yield files[0]
        finally:
            for file in files:
                file.close()

    def begun(
        self, nodes: Optional[Iterable[Name]], program: Program = None, engine: Optional[str] = None
    ) -> tuple[str, Names]:
        """The rules, and the names of the nodes.

        Raises `Damaged` if the bytes are no transcript and no names can be given, and `ValueError` if a node
        that is ever present has no name, or there are more names than the capacity.
        """
        try:
            head = HEAD.match(self.text)
            if not head:
                raise ValueError("a transcript begins with a header or a base")
            return head[1].decode(), names_for(self.text, nodes)
        except ValueError:
            # a damaged transcript is refused as such, whatever the names
            audit(self.text, program=program, engine=engine)
            raise


@contextlib.contextmanager
def source_of(transcript: Given) -> Iterator[Source]:
    """The bytes of a transcript while the context lasts. Raises `OSError` if a file can't be read."""
    path = path_of(transcript)
    if path is None:
        yield Source(bytes_of(transcript))
        return
    with opened(path) as file:
        size, text = size_of(file), file.readall()
        if size is not None and len(text) < size:
            raise became_shorter(path)
        # the program reads the file itself, from its start
        os.lseek(file.fileno(), 0, os.SEEK_SET) if size is not None else None
        yield Source(text, None if size is None else file)


def refusal_of(ended: Ended) -> Exception:
    """The error that a program's end means which was to go on from a file."""
    found = REFUSED_FILE.fullmatch(ended.last_line)
    if ended.status == 1 and found:
        return Damaged(int(found[1]), found[2])
    if ended.status == 3 and ended.last_line == "! read failed":
        why = f": {ended.reason}" if ended.reason else ""
        return OSError(errno.EIO, f"the program can't read the transcript{why}")
    return ended
