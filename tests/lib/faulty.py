"""Runs the program with failing calls, by a library built from tests/faults/refusing_calls.c."""

from __future__ import annotations

import argparse
import dataclasses
import errno
import os
import shutil
import subprocess
import tempfile
import unittest
from typing import IO, Mapping, Optional, Sequence, Union

from .places import TOP
from .runner import Checks

# The error number, or 0 for a write that takes no byte.
FAILS, INTERRUPTED, TAKES_NONE = errno.EIO, errno.EINTR, 0
SOURCE = TOP / "tests" / "faults" / "refusing_calls.c"
# A run's status (`None` without an end), its output, and its standard error.
Answer = tuple[Optional[int], bytes, Optional[bytes]]


@dataclasses.dataclass(frozen=True)
class Ended:
    """How a run ended, and which failures its calls met, by letters of refusing_calls.c; `l` if a thread
    was left."""

    status: Optional[int]
    out: bytes
    err: Optional[bytes]
    met: bytes

    def answer(self) -> Answer:
        return self.status, self.out, self.err


class Faulty:
    """A program with failing calls. `folder` is for the built library and reports; a run may take `wait`
    seconds."""

    def __init__(self, program: str, folder: str, wait: float) -> None:
        self.program, self.folder, self.wait = program, folder, wait
        self.library: Optional[str] = None

    def prepare(self) -> Optional[str]:
        """Returns what is missing if the library can't be built."""
        compiler = shutil.which("cc")
        if compiler is None:
            return "cc"
        self.library = os.path.join(self.folder, "refusing_calls.so")
        words = [compiler, "-O1", "-shared", "-fPIC", "-o", self.library, str(SOURCE), "-ldl"]
        subprocess.run(words, check=True)
        return None

    def refuses_memory(self) -> bool:
        return b"m" in self.run(["--version"], REFUSE_MEMORY=1).met

    def run(
        self, words: Sequence[str], text: bytes = b"", err: Union[int, IO[bytes]] = subprocess.PIPE, **faults: object
    ) -> Ended:
        told = os.path.join(self.folder, "told")
        with open(told, "wb"):
            pass
        environment = {**os.environ, "LD_PRELOAD": self.library or "", "FAULT_TOLD": told}
        environment.update({name: str(number) for name, number in faults.items()})
        status, out, told_err = self.ended(words, text, environment, err)
        with open(told, "rb") as file:
            return Ended(status, out, told_err, file.read(1000).removesuffix(b"e"))

    def ended(
        self,
        words: Sequence[str],
        text: bytes,
        environment: Optional[Mapping[str, str]],
        err: Union[int, IO[bytes]] = subprocess.PIPE,
    ) -> Answer:
        """The status is `None` if it took too long. Standard error goes to `err`; it is `None` if that is a
        file."""
        try:
            made = subprocess.run(
                [self.program, *words],
                input=text,
                stdout=subprocess.PIPE,
                stderr=err,
                timeout=self.wait,
                env=environment,
            )
        except subprocess.TimeoutExpired as late:
            return None, late.stdout or b"", late.stderr or b""
        return made.returncode, made.stdout, made.stderr

    def plainly(self, words: Sequence[str], text: bytes = b"") -> Answer:
        return self.ended(words, text, None)


class Plain(Checks):
    """Without failing calls; the tests of a class share a folder."""

    program: Faulty
    folder: str

    @classmethod
    def setUpClass(cls) -> None:
        made = tempfile.TemporaryDirectory()
        cls.addClassCleanup(made.cleanup)
        cls.folder = made.name
        cls.program = Faulty(cls.given.program, cls.folder, cls.given.wait)

    def script(self, name: str, text: bytes) -> str:
        path = os.path.join(self.folder, name)
        with open(path, "wb") as file:
            file.write(text)
        return path


class Failing(Plain):
    """With failing calls; all are skipped without a compiler."""

    @classmethod
    def setUpClass(cls) -> None:
        super().setUpClass()
        missing = cls.program.prepare()
        if missing:
            raise unittest.SkipTest(f"no {missing}")


def wait_option(parser: argparse.ArgumentParser) -> None:
    parser.add_argument("--wait", type=float, default=60, metavar="SECONDS", help="how long a run may take")
