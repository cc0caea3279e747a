"""The file of a sweep's rows: begun, gone on with, or begun anew, and sorted when the sweep ends."""

from __future__ import annotations

import contextlib
import os
import stat
import sys
from typing import Iterable, Iterator, Mapping, Optional, Sequence, TextIO

from . import streams
from .disturbances import FILED, Disturbance
from .files import is_descriptor, write_whole
from .partners import NAMES as PARTNERS
from .rows import EARLIER, FoundRow, Row, RowFile, lines_of_file, text_of
from .simple_graph import Graph


class RowTarget:
    """The target of a sweep's rows, and the rows that are there already.

    Without `resumes` and `forces` there is no such file yet, or it is empty. Raises `ValueError` otherwise,
    and if the file is none of rows, and `OSError`. `opened` writes first.
    """

    def __init__(self, path: Optional[str], resumes: bool = False, forces: bool = False) -> None:
        self.path, self.resumes = None if path == "-" else path, resumes
        self.found: list[FoundRow] = []
        self.columns: tuple[str, ...] = ()
        # how many bytes the head and the whole rows have
        self.end = 0
        if resumes and forces:
            raise ValueError("--resume goes on with a file, and --force begins it anew: give one of them")
        if (resumes or forces) and self.path is None:
            raise ValueError(f"{'--resume' if resumes else '--force'} needs a file of rows: --csv FILE")
        if resumes:
            self.read()
        elif self.is_there() and not forces:
            raise ValueError(f"{path} is there: --resume adds the rows that it lacks, and --force begins it anew")

    def is_file(self) -> bool:
        """Whether this is a file, or becomes one; streams are written as they are."""
        if self.path is None or is_descriptor(self.path):
            return False
        try:
            return stat.S_ISREG(os.stat(self.path).st_mode)
        except FileNotFoundError:
            return True

    def is_there(self) -> bool:
        return self.path is not None and self.is_file() and os.path.exists(self.path) and os.path.getsize(self.path) > 0

    def read(self) -> None:
        if self.path is None or not self.is_there():
            return
        with open(self.path, "rb") as file:
            rows = RowFile(lines_of_file(file), self.path)
            self.found, self.columns = list(rows), rows.columns
        self.end = self.found[-1].end if self.found else rows.head_end
        if self.columns == EARLIER:
            raise ValueError(
                f"{self.path} has the columns of an earlier version, without the digests of graphs: --csv names "
                "another file, and --force begins this one anew"
            )

    @property
    def rows(self) -> list[Row]:
        return [it.row for it in self.found]

    def check(
        self,
        graphs: Mapping[str, Graph],
        has_maximum: bool,
        has_partners: bool = False,
        hits: Iterable[Disturbance] = (),
    ) -> None:
        """Raises `ValueError` if the rows that are there have other columns, or are of other graphs.

        Also if they are of a trace or of groups, among these disturbances, that have changed since.
        """
        for column, is_asked in (("maximum", has_maximum), ("partners", has_partners)) if self.columns else ():
            name = PARTNERS[0] if column == "partners" else column
            if (name in self.columns) != is_asked:
                has, do = ("no", "leave it out") if is_asked else ("a", "give it too")
                raise ValueError(f"{self.path} has {has} column {name}, which --{column} adds: {do}")
        files = {it.title: it.digest for hit in hits for it in (hit.trace, hit.racks) if it}
        for row, line, _ in self.found:
            found = FILED.search(row.disturbance)
            if found and files.get(found[2], found[3]) != found[3]:
                raise ValueError(f"{self.path}: line {line}: the row is of another {found[2]}, which has changed since")
            digest = graphs[row.graph].digest if row.graph in graphs else row.digest
            if digest != row.digest:
                raise ValueError(
                    f"{self.path}: line {line}: the row is of another graph {row.graph}, with the digest {row.digest} "
                    f"and not {digest}"
                )

    @contextlib.contextmanager
    def opened(self) -> Iterator[TextIO]:
        """The file to add rows to, or standard output. A torn last row is cut off, a torn head begun anew."""
        if self.path is None:
            yield sys.stdout
            return
        if self.resumes and self.is_there():
            os.truncate(self.path, self.end)
        with streams.output_file(self.path, bool(self.columns)) as file:
            yield file

    def count(self, rows: Sequence[Row]) -> int:
        """How many rows are there: those of the file, if it is one, or these.

        An interrupt may come after a row was written and before it was kept.
        """
        if self.path is None or not self.is_file() or not self.is_there():
            return len(rows)
        with open(self.path, "rb") as file:
            return sum(1 for _ in RowFile(lines_of_file(file), self.path))

    def sort(self, rows: Sequence[Row], keys: Iterable[tuple[object, ...]], columns: Sequence[str]) -> None:
        """Writes the file anew, whole or not at all, with its rows in the order of these keys, others first."""
        if self.path is None or not self.is_file():
            return
        place = {key: at for at, key in enumerate(keys)}
        in_order = sorted(rows, key=lambda row: place.get(row.key, -1))
        if in_order != [*rows]:
            write_whole(self.path, text_of(in_order, columns).encode("utf-8", "surrogateescape"))


def rows_of_file(path: str) -> list[Row]:
    """The rows of a file, for a table or a plot; a torn last one is left out, and told on standard error.

    Raises `ValueError`, with the line, for a row that is not whole, and `OSError`.
    """
    with open(path, "rb") as file:
        found = RowFile(lines_of_file(file), path)
        rows = [it.row for it in found]
    if found.torn:
        print(f"! {path}: line {found.torn}: the last row is torn, and is left out", file=sys.stderr)
    return rows


def is_row_file(path: str) -> bool:
    """Whether a file begins as a file of rows does. Raises `OSError`."""
    with open(path, "rb") as file:
        head = file.read(len(EARLIER[0]) + len(EARLIER[1]) + 2)
    return path.lower().endswith(".csv") or head == f"{EARLIER[0]},{EARLIER[1]},".encode()
