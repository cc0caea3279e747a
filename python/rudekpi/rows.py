"""Rows of experiments, and the CSV files that have them."""

from __future__ import annotations

import csv
import io
import math
import re
from dataclasses import dataclass, fields
from typing import Any, BinaryIO, Callable, Iterable, Iterator, NamedTuple, Optional, Sequence, TextIO

from . import rules as rule_sets
from .disturbances import ONE_BY_ONE
from .kept_graphs import keep_beside
from .partners import NAMES as PARTNERS

NUMBER = re.compile("[0-9]{1,20}")
SECONDS = re.compile(r"[0-9.]{1,30}(?:[eE][+-]?[0-9]{1,3})?")


@dataclass(frozen=True)
class Row:
    """The results of an experiment: its sizes, counts, bounds and time.

    `charge` is the charge at the beginning, `pairs` the number of pairs at the end. `bound` is that of the
    last `Epoch`. If disturbances come one by one, `charge` also includes the sum of their costs, and `bound`
    is that of a `Burst`. The moves exceed neither charge nor bound, and the rounds not `most_rounds`.
    `rounds` is the sum of those of each `Epoch` that the daemon moved in.
    `seconds` is the time for the whole experiment.

    `changes` counts the faults that changed a register, None if they were drawn with any value. `digest` is
    that of the graph, empty in a row of an earlier version. `maximum` is the size of a maximum matching at
    the end, if it was asked for. The last columns are those of `PartnerCounts`, summed over the bursts, if
    they were asked for.
    """

    graph: str
    rules: str
    n: int
    m: int
    daemon: str
    seed: int
    disturbance: str
    steps: int
    moves: int
    rounds: int
    update: int
    marry: int
    seduce: int
    abandon: int
    charge: int
    bound: int
    pairs: int
    seconds: float
    changes: Optional[int] = None
    digest: str = ""
    maximum: Optional[int] = None
    broken: Optional[int] = None
    remade: Optional[int] = None
    remade_same: Optional[int] = None
    steps_alone: Optional[int] = None
    most_steps_alone: Optional[int] = None
    rounds_alone: Optional[int] = None
    most_rounds_alone: Optional[int] = None
    lost_untouched: Optional[int] = None

    @property
    def key(self) -> tuple[object, ...]:
        return self.graph, self.rules, self.daemon, self.seed, self.disturbance

    @property
    def most_rounds(self) -> Optional[int]:
        """The proved bound on the rounds: n under `hh`, and 2n under `manne`, or 2n - 1 if n is odd.

        None if the disturbances came one by one: each begins rounds anew, so that no number of nodes bounds them.
        """
        return None if ONE_BY_ONE.fullmatch(self.disturbance) else rule_sets.most_rounds(self.rules, self.n)


OPTIONAL = ("maximum", *PARTNERS)
COLUMNS = tuple(it.name for it in fields(Row) if it.name not in OPTIONAL)
# those of rows without digests
EARLIER = COLUMNS[:-2]


def columns_of(has_maximum: bool, has_partners: bool = False) -> tuple[str, ...]:
    return (*COLUMNS, *OPTIONAL[:has_maximum], *(PARTNERS if has_partners else ()))


WITH_MAXIMUM = columns_of(True)
KNOWN = (EARLIER, COLUMNS, WITH_MAXIMUM, columns_of(False, True), columns_of(True, True))


def values_of(row: Row, columns: Sequence[str]) -> list[object]:
    return [getattr(row, name) for name in columns]


def number_in(text: str) -> int:
    if not NUMBER.fullmatch(text):
        raise ValueError
    return int(text)


def optional_in(text: str) -> Optional[int]:
    return number_in(text) if text else None


def seconds_in(text: str) -> float:
    if not SECONDS.fullmatch(text) or not math.isfinite(float(text)):
        raise ValueError
    return float(text)


KINDS: dict[str, Callable[[str], Any]] = {
    "int": number_in,
    "float": seconds_in,
    "str": str,
    "Optional[int]": optional_in,
}
READERS = {it.name: KINDS[str(it.type)] for it in fields(Row)}


class FoundRow(NamedTuple):
    """A row with its first line, and the number of bytes up to its end."""

    row: Row
    line: int
    end: int


class RowFile:
    """The rows of a file, read one by one.

    `columns` are those of the head, which ends at `head_end`; none if the file is empty or its head is torn.
    `torn` is the line of a last row that is not whole, else 0; it is known once all rows are read.
    """

    def __init__(self, lines: Iterable[str], title: str) -> None:
        self.lines, self.title = iter(lines), title
        self.end = self.head_end = self.torn = 0
        self.last = ""
        self.reader = csv.reader(self.taken(), strict=True)
        self.columns: tuple[str, ...] = ()
        head = self.record()
        if head is None or self.is_torn_head():
            return
        if tuple(head) not in KNOWN:
            raise ValueError(f"{title} has not the columns {','.join(COLUMNS)}")
        self.columns, self.head_end = tuple(head), self.end

    def taken(self) -> Iterator[str]:
        for line in self.lines:
            self.last = line
            self.end += len(line.encode("utf-8", "surrogateescape"))
            yield line

    def is_torn_head(self) -> bool:
        begun = self.last.rstrip("\r")
        return not self.last.endswith("\n") and any(",".join(columns).startswith(begun) for columns in KNOWN)

    def record(self) -> Optional[list[str]]:
        """The next record, None at the end. Raises `ValueError`, with file and line."""
        begin = self.reader.line_num + 1
        try:
            return next(self.reader, None)
        except csv.Error as error:
            if self.reader.line_num == begin and not self.last.endswith("\n"):
                # the last line, cut within quotes
                return []
            raise self.fault(begin, str(error)) from None

    def fault(self, line: int, why: str) -> ValueError:
        return ValueError(f"{self.title}: line {line}: {why}")

    def __iter__(self) -> Iterator[FoundRow]:
        """The rows that are whole. Raises `ValueError`, with file and line, for any other but a torn last one."""
        while self.columns:
            line = self.reader.line_num + 1
            record = self.record()
            if record is None:
                return
            if not self.last.endswith("\n"):
                self.torn = line
                return
            yield FoundRow(self.row_of(record, line), line, self.end)

    def row_of(self, record: Sequence[str], line: int) -> Row:
        if len(record) != len(self.columns):
            raise self.fault(line, f"the row has {len(record)} fields, and the head {len(self.columns)}")
        words = {}
        for name, text in zip(self.columns, record):
            try:
                words[name] = READERS[name](text)
            except ValueError:
                raise self.fault(line, f"{text[:40]!r} is no {name} of a row") from None
        return Row(**words)


def lines_of_file(file: BinaryIO) -> Iterator[str]:
    return (line.decode("utf-8", "surrogateescape") for line in file)


def write_csv(rows: Iterable[Row], file: TextIO, has_head: bool = False) -> Iterator[Row]:
    """The same rows, each written to a CSV file as it comes, so that an interrupt loses none.

    The head is written first, unless the file has it. Graphs of `sweep` that no word makes and no file has
    are kept next to the CSV file: see `rudekpi.kept_graphs`.
    """
    keep_beside(file, getattr(rows, "graphs", ()), has_head)
    columns = getattr(rows, "columns", COLUMNS)
    writer = csv.writer(file)
    if not has_head:
        writer.writerow(columns)
    for row in rows:
        writer.writerow(values_of(row, columns))
        file.flush()
        yield row


def text_of(rows: Iterable[Row], columns: Sequence[str]) -> str:
    """The text of a file with these rows, as `write_csv` writes it."""
    file = io.StringIO(newline="")
    writer = csv.writer(file)
    writer.writerow(columns)
    writer.writerows(values_of(row, columns) for row in rows)
    return file.getvalue()


def read_csv(file: TextIO) -> list[Row]:
    """The rows of a file that `write_csv` wrote, also in an earlier version.

    Raises `ValueError` for another file, and for a row that is not whole, with its line.
    """
    found = RowFile(file, str(getattr(file, "name", "the file")))
    rows = [it.row for it in found]
    if not found.columns:
        raise ValueError(f"{found.title} has not the columns {','.join(COLUMNS)}")
    if found.torn:
        raise found.fault(found.torn, "the row is not whole")
    return rows
