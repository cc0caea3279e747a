"""Checks of the named program: its runs, and files in a folder that a class of tests shares."""

from __future__ import annotations

import os
import subprocess
import tempfile
from typing import IO, Optional, Sequence, Union

from .runner import Checks


def pipe(end: Optional[IO[bytes]]) -> IO[bytes]:
    """Raises `ValueError` if the stream is no pipe."""
    if end is None:
        raise ValueError("this stream is no pipe")
    return end


def pipe_of_text(end: Optional[IO[str]]) -> IO[str]:
    if end is None:
        raise ValueError("this stream is no pipe")
    return end


class ProgramChecks(Checks):
    folder: str
    seconds = 600

    @classmethod
    def setUpClass(cls) -> None:
        made = tempfile.TemporaryDirectory()
        cls.addClassCleanup(made.cleanup)
        cls.folder = made.name

    def run_program(self, words: Sequence[str], text: bytes = b"") -> tuple[int, bytes, bytes]:
        """Its status, output, and standard error."""
        made = subprocess.run([self.given.program, *words], input=text, capture_output=True, timeout=self.seconds)
        return made.returncode, made.stdout, made.stderr

    def verdict(self, text: bytes) -> str:
        return self.run_program(["audit"], text)[1].decode()

    def script(self, name: str, text: Union[str, bytes]) -> str:
        path = os.path.join(self.folder, name)
        with open(path, "wb") as file:
            file.write(text if isinstance(text, bytes) else text.encode())
        return path
