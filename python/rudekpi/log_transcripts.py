"""The machine's transcript of a judged log, and the file of the log's names: both go into files, or nowhere."""

from __future__ import annotations

import os
from typing import BinaryIO, Optional, Sequence, Union

from .files import WholeFile
from .name_files import write_names
from .replies import Name

Target = Union[str, "os.PathLike[str]", BinaryIO, None]


class Transcript:
    """The transcript and the file of names: they go into files, or nowhere.

    A file takes its place at the end, also at an end by an error: it then has the transcript so far.
    """

    def __init__(self, target: Target) -> None:
        self.target = target
        self.file: Union[WholeFile, BinaryIO, None] = None
        self.is_open = False
        self.waiting = b""

    def __enter__(self) -> Transcript:
        return self

    def write(self, text: bytes) -> None:
        """Writes the next text. The first text opens the file; so without text an older file stays.

        If an interrupt comes while the file is opened, the next call opens it again, and writes this text too.
        """
        if self.target is None:
            return
        self.waiting += text
        if not self.waiting:
            return
        if not self.is_open:
            self.begin(self.target)
            self.is_open = True
        text, self.waiting = self.waiting, b""
        assert self.file
        self.file.write(text)

    def begin(self, target: Union[str, os.PathLike[str], BinaryIO]) -> None:
        if not isinstance(target, (str, os.PathLike)):
            self.file = target
            return
        if not isinstance(self.file, WholeFile):
            self.file = WholeFile(target)
        self.file.begin()

    def __exit__(self, kind: Optional[type[BaseException]], *_: object) -> None:
        file = self.file
        if isinstance(file, WholeFile):
            try:
                file.close()
            except BaseException:
                file.drop()
                raise

    def write_names(self, names: Sequence[Name]) -> None:
        if isinstance(self.file, WholeFile) and self.file.is_beside and self.file.file:
            write_names(f"{self.file.path}.names", names)
