"""Transcripts, judged by the library or the program."""

from __future__ import annotations

import contextlib
import io
import os
import re
import subprocess
import tempfile
from dataclasses import dataclass, replace
from typing import Any, Iterable, Optional, Union

from .containment import reaches
from .errors import VERDICT, Damaged, Ended, Garbled, text_of
from .given import Given, became_shorter, bytes_of, naming, opened, path_of, size_of
from .labels import named_picture
from .library import Library, chosen
from .names import names_for
from .numbers import MOST_ENTRIES, number_within
from .program import Program, found_program
from .reading import numbers_of
from .replies import Epoch, Name, Summary
from .rules import moves_left

Text = Union[str, bytes, bytearray, memoryview]

# the head of the program's table of epochs, and that of a program that lists no rounds
HEAD = "start,moves,edges,nodes,bound,cost,rounds\n"
WITHOUT_ROUNDS = "start,moves,edges,nodes,bound,cost\n"


@dataclass(frozen=True)
class Slice:
    """A range of a file's bytes, without a copy; the file is a path, an open file's number, or bytes."""

    file: Union[str, int, bytes]
    start: int
    end: int
    # of the file, for errors
    path: str = ""

    def audit(self, judge: Library) -> Summary:
        if isinstance(self.file, bytes):
            return judge.audit_bytes(self.file, self.start, self.end)
        with naming(self.path), open(self.file, "rb", buffering=0, closefd=isinstance(self.file, str)) as file:
            return judge.audit_file(file.fileno(), self.start, self.end)

    def send(self, pipe: int) -> None:
        """Writes the range to a pipe. Raises `OSError` if the file has become shorter."""
        if isinstance(self.file, bytes):
            return send(memoryview(self.file)[self.start : self.end], pipe)
        at = self.start
        with naming(self.path), open(self.file, "rb", buffering=0, closefd=isinstance(self.file, str)) as file:
            while at < self.end:
                taken = os.sendfile(pipe, file.fileno(), at, self.end - at)
                if not taken:
                    raise became_shorter()
                at += taken


def to_judge(transcript: Union[Given, Slice]) -> Union[bytes, bytearray, memoryview, Slice]:
    """What an engine judges: a regular file that is given by its path is not read whole."""
    if isinstance(transcript, (Slice, bytearray, memoryview)):
        return transcript
    path = path_of(transcript)
    if path is not None:
        with opened(path) as file:
            size = size_of(file)
        if size is not None:
            return Slice(os.path.abspath(path), 0, size, path)
    return bytes_of(transcript)


def audit(transcript: Union[Given, Slice], *, program: Program = None, engine: Optional[str] = None) -> Summary:
    """Judges a transcript of a run of the rules: returns its counts, else raises `Damaged`.

    A transcript is given as to every function here: a `str` with a line feed, or an empty one, is its text,
    and any other `str` the path of its file, as a `pathlib.Path` is; or bytes, an open file, or lines. A file
    is read piece by piece if its path is given. `OSError`: the file can't be read, or becomes shorter
    meanwhile.

    The engine is chosen as for a `Network`. If memory runs out, the library raises `MemoryError`, and the
    program `Ended`.
    """
    judge = chosen(engine, program)
    if judge:
        given = to_judge(transcript)
        return given.audit(judge) if isinstance(given, Slice) else judge.audit_bytes(bytes(given))
    return summary_read(judged(["audit"], transcript, program))


def summary_read(said: str) -> Summary:
    return Summary(*numbers_in("audit", said, r"accepted: ([0-9]+) entries, ([0-9]+) epochs, ([0-9]+) moves\n")[0])


def epochs(transcript: Given, *, program: Program = None) -> list[Epoch]:
    """The epochs of a transcript, each with its bound, and the cost and size of reach of its disturbance.

    The program judges the transcript and lists all but the reach, which the client counts. Raises `Damaged`
    if `audit` refuses the transcript, `Garbled` if the program's epochs are not those of the entries or have no
    rounds, and `Ended`.
    """
    text = bytes_of(transcript)
    first, *rest = judged_epochs(text, program)
    lines = (line.decode().rstrip("\n") for line in io.BytesIO(text))
    sizes = dict(reaches(lines))
    if [epoch.start for epoch in rest] != [*sizes]:
        raise Garbled("the program lists epochs that begin at other entries than the accepted edits and faults")
    return [first, *(replace(epoch, reach=size) for epoch, size in zip(rest, sizes.values()))]


def judged_epochs(transcript: Given, program: Program = None) -> list[Epoch]:
    """The epochs as `epochs` lists them, but with None for the reach."""
    row = ",".join(["([0-9]+|-)", *["([0-9]+)"] * 4, "([0-9]+|-)", "([0-9]+)"]) + "\n"
    text = bytes_of(transcript)
    said = judged(["epochs"], text, program)
    if said.startswith(WITHOUT_ROUNDS):
        raise Garbled(
            "the program lists epochs without rounds, so it is older than this package: name another by program= or "
            "RUDEKPI_CONSOLE"
        )
    rows = numbers_in("epochs", said, row, HEAD)
    # the second word of a header, also if the transcript begins with a base
    rules = "hh" if text[:16].split(b" ")[1] == b"hh" else "manne"
    # the columns are fields of an epoch
    columns = HEAD.rstrip().split(",")
    return [bounded(Epoch(**dict(zip(columns, numbers))), rules) for numbers in rows]


def bounded(epoch: Epoch, rules: str) -> Epoch:
    """An epoch with the smaller of its bounds.

    An epoch cut by an opening base keeps the program's bound: the transcript lacks the moves that the base
    counts.
    """
    if epoch.start is None:
        return epoch
    return replace(epoch, bound=moves_left(rules, epoch.bound, epoch.nodes))


def picture(
    transcript: Given,
    entry: Optional[int] = None,
    *,
    names: Optional[Iterable[Name]] = None,
    program: Program = None,
) -> str:
    """The network after an entry of a transcript, by default the last, as text for Graphviz.

    If the caller's `names` are given, in the order of the numbers, the picture shows them.

    Raises `Damaged` if `audit` refuses the transcript, `ValueError` if it has no such entry, or `Ended`.
    """
    words = (
        ["picture"] if entry is None else ["picture", "--entry", str(number_within(entry, MOST_ENTRIES, "an entry"))]
    )
    text = bytes_of(transcript)
    try:
        said = judged(words, text, program)
    except Ended as ended:
        if ended.last_line.startswith("! no entry "):
            raise ValueError(ended.last_line[2:]) from None
        raise
    if not said.startswith("graph ") and not said.startswith("digraph "):
        raise Garbled(f"{said[:200]!r} is no picture")
    return said if names is None else named_picture(said, names_for(text.decode(), names))


def judged(words: list[str], transcript: Union[Given, Slice], program: Program) -> str:
    return said_by(*fed([found_program(program), *words], to_judge(transcript)))


def said_by(status: int, out: bytes, told: bytes) -> str:
    """A successful program's output; else raises `Damaged` or `Ended`."""
    said = text_of(out)
    if status == 1 and VERDICT.fullmatch(said):
        raise Damaged.read(said)
    if status:
        raise Ended(status, told)
    return said


def send(given: Union[bytes, bytearray, memoryview, Slice], pipe: int) -> None:
    """Writes all bytes to a pipe in large pieces, unlike `subprocess.run`."""
    if isinstance(given, Slice):
        return given.send(pipe)
    whole = memoryview(given)
    left = whole.cast("B") if whole.c_contiguous else memoryview(whole.tobytes())
    while left:
        left = left[os.write(pipe, left) :]


def fed(words: list[str], given: Union[bytes, bytearray, memoryview, Slice]) -> tuple[int, bytes, bytes]:
    with tempfile.TemporaryFile() as out, tempfile.TemporaryFile() as told:
        with subprocess.Popen(words, stdin=subprocess.PIPE, stdout=out, stderr=told, bufsize=0) as run:
            try:
                with contextlib.suppress(BrokenPipeError), run.stdin as pipe:  # type: ignore[union-attr]
                    send(given, pipe.fileno())
            except BaseException:
                run.kill()
                raise
        for file in (out, told):
            file.seek(0)
        return run.returncode, out.read(), told.read()


def numbers_in(word: str, said: str, line: str, head: str = "") -> list[tuple[Any, ...]]:
    """The numbers in each line of the program's output after a head; None for `-`."""
    if not re.fullmatch(f"{head}(?:{line})+", said):
        raise Garbled(f"{said[:200]!r} is no answer to {word}")
    return [numbers_of(found) for found in re.finditer(line, said)]
