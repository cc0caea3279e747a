"""What registers nodes held before, and how old the copies are that other nodes read of them.

Memory depends on the network alone: each node keeps its last writes, and each pair of nodes counts ages in
buckets.
"""

from __future__ import annotations

import array
import csv
import io
import math
from collections import deque
from dataclasses import dataclass
from typing import Callable, Deque, Dict, Iterable, Mapping, NamedTuple, Optional, Tuple

from .replies import Name
from .view_orders import ViewOrder

# how many writes of a node are kept, and how many in all nodes together
MOST_WRITES, FEWEST_WRITES, ALL_WRITES = 64, 4, 1 << 17
# how many older registers of a node are known to have been held
MOST_OLDER = 256
# how many writes are kept of all nodes together, as long as no copy is looked up
MOST_UNREAD = 1 << 14
# how many pairs of nodes are counted
MOST_PAIRS = 1 << 16
# each octave of ages has as many buckets; an age is rounded down by less than one in as many
BUCKETS = 16
# buckets that span more than this are counted at the ends: 64 octaves
MOST_BUCKETS = 64 * BUCKETS
# from this line and time on a node held a pointer (0 for null) and a flag
Held = Tuple[int, Optional[float], int, bool]
# at this line and time the link to a node came (True) or went
Change = Tuple[int, Optional[float], int, bool]


def since(now: Optional[float], then: Optional[float]) -> Optional[float]:
    """How much time has passed, if that is a finite number."""
    if now is None or then is None:
        return None
    return now - then if math.isfinite(now - then) else None


class Histories:
    """The last writes of each node and the last changes of its links.

    As long as no copy is looked up, only the latest writes of all nodes are kept: those of `age` lines, or more.
    """

    def __init__(self, capacity: int, age: int = 0) -> None:
        self.kept = max(FEWEST_WRITES, min(MOST_WRITES, ALL_WRITES // max(1, capacity)))
        self.age = age
        # each node's writes, but for the latest ones of all nodes, which are in `latest`: the node, what it
        # holds since which line and time, and what it held before
        self.sorted: dict[int, Deque[Held]] = {}
        self.latest: list[Tuple[int, int, Optional[float], int, bool, int, bool]] = []
        self.links: dict[int, Deque[Change]] = {}
        # registers whose last line is no longer kept
        self.older: dict[int, set[tuple[int, bool]]] = {}
        # the line before which nothing is kept
        self.first = 1

    @property
    def held(self) -> Mapping[int, Deque[Held]]:
        """The last writes of each node, the oldest first."""
        if self.latest:
            self.sort()
        return self.sorted

    def write(
        self,
        line: int,
        time: Optional[float],
        node: int,
        pointer: int,
        flag: bool,
        before: Tuple[int, bool] = (0, False),
    ) -> None:
        """A node's registers change at a line, from what it held before."""
        self.latest.append((node, line, time, pointer, flag, *before))

    def shorten(self, is_read: bool) -> None:
        """Takes the latest writes to their nodes; drops them if no copy was looked up, and they are old."""
        if is_read or self.sorted:
            return self.sort()
        while len(self.latest) > MOST_UNREAD and self.latest[-MOST_UNREAD][1] < self.latest[-1][1] - self.age:
            self.first = self.latest[-MOST_UNREAD][1]
            del self.latest[:-MOST_UNREAD]

    def sort(self) -> None:
        """Takes the latest writes to their nodes."""
        found, most = self.sorted, self.kept
        for node, line, time, pointer, flag, old, was in self.latest:
            rows = found.get(node)
            if rows is None:
                # each node begins null and unflagged
                rows = found[node] = deque([(self.first, None, old, was)], most + 1)
            elif len(rows) > most:
                first = rows[0]
                known = self.older.get(node)
                if known is None:
                    self.older[node] = {(first[2], first[3])}
                elif len(known) < MOST_OLDER:
                    known.add((first[2], first[3]))
            rows.append((line, time, pointer, flag))
        self.latest.clear()

    def link(self, line: int, time: Optional[float], a: int, b: int, is_new: bool) -> None:
        for node, other in ((a, b), (b, a)):
            rows = self.links.get(node)
            if rows is None:
                rows = self.links[node] = deque(maxlen=self.kept)
            rows.append((line, time, other, is_new))

    def last(self, node: int, pointer: int, flag: bool) -> Optional[Tuple[Held, Held]]:
        """When a node last held registers that it holds no longer: the writes that began and ended this."""
        after: Optional[Held] = None
        for row in reversed(self.held.get(node, ())):
            if after and row[2] == pointer and row[3] == flag:
                return row, after
            after = row
        return None

    def may_be_older(self, node: int, pointer: int, flag: bool) -> bool:
        """Whether a node held these registers, or may have, before the writes that are kept."""
        older = self.older.get(node, ()) if self.held else ()
        return (pointer, flag) in older or len(older) == MOST_OLDER or self.first > 1

    def at(self, node: int, line: int) -> Optional[Tuple[int, bool]]:
        """What a node held before a line, as far back as its writes are kept; None if it has not been written."""
        rows = self.held.get(node)
        if not rows:
            return None
        found = next((row for row in reversed(rows) if row[0] < line), rows[0])
        return found[2], found[3]

    def before(self, node: int, line: int) -> Optional[Held]:
        """What a node held before it was written at a line; None if no such write is kept."""
        before: Optional[Held] = None
        for row in self.held.get(node, ()):
            if row[0] == line:
                return before
            before = row
        return None

    def changed(self, node: int, other: int) -> Optional[Change]:
        """The last change of the link between two nodes, if it is kept."""
        return next((row for row in reversed(self.links.get(node, ())) if row[2] == other), None)

    def writes_since(self, node: int, line: int) -> Iterable[Tuple[int, Held]]:
        """The lines from one on that wrote a node, the last one first, each with what the node held before."""
        after: Optional[Held] = None
        for row in reversed(self.held.get(node, ())):
            if after:
                yield after[0], row
            if row[0] < line:
                return
            after = row

    def changes_since(self, node: int, line: int) -> Iterable[Change]:
        """The changes of a node's links from a line on, the last one first."""
        for row in reversed(self.links.get(node, ())):
            if row[0] < line:
                return
            yield row


class Ages(NamedTuple):
    """The ages of stale reads, in lines or in the log's time."""

    median: float
    high: float
    most: float


@dataclass(frozen=True)
class PairAges:
    """How old one node's copies of another were.

    `reads` counts the reads by moves with a `saw`, and `stale` those of registers that the other no longer
    held, or across a link that was gone. `lines` and `time` are the ages of stale reads since they were
    overwritten: the median, the 95th percentile and the greatest. `time` is None if lines have no time.
    `unknown` counts the stale reads without an age: of registers never written, or older than what is kept.
    """

    reader: Name
    read: Name
    reads: int
    stale: int
    unknown: int
    lines: Optional[Ages]
    time: Optional[Ages]


class Spread:
    """Counts numbers in buckets of nearly equal ratio; whole numbers below 32 have buckets of their own."""

    __slots__ = ("low", "counts", "none", "count", "most")

    def __init__(self) -> None:
        self.low, self.counts = 0, array.array("I")
        # numbers that are not above 0
        self.none = self.count = 0
        self.most = -math.inf

    def add(self, number: float) -> None:
        self.count += 1
        self.most = max(self.most, number)
        if number <= 0:
            self.none += 1
            return
        part, octave = math.frexp(number)
        at = octave * BUCKETS + int(part * 2 * BUCKETS) - BUCKETS
        if not self.counts:
            self.low = at
        if at < self.low:
            more = min(self.low - at, MOST_BUCKETS - len(self.counts))
            self.counts = array.array("I", bytes(4 * more)) + self.counts
            self.low -= more
            at = max(at, self.low)
        at = min(at - self.low, MOST_BUCKETS - 1)
        if at >= len(self.counts):
            self.counts.extend([0] * (at + 1 - len(self.counts)))
        self.counts[at] += 1

    def at(self, share: int) -> float:
        """The least number that this many hundredths do not exceed, rounded down to its bucket."""
        left = (self.count * share + 99) // 100 - self.none
        if left <= 0:
            return min(0, self.most)
        for at, count in enumerate(self.counts, self.low):
            left -= count
            if left <= 0:
                octave, part = divmod(at, BUCKETS)
                return math.ldexp((part + BUCKETS) / (2 * BUCKETS), octave)
        return self.most

    def ages(self, kind: Callable[[float], float]) -> Optional[Ages]:
        if not self.count:
            return None
        return Ages(kind(self.at(50)), kind(self.at(95)), kind(self.most))


class PairCounts:
    """The stale reads of one node by another."""

    __slots__ = ("stale", "unknown", "lines", "times")

    def __init__(self) -> None:
        self.stale = self.unknown = 0
        self.lines, self.times = Spread(), Spread()

    def add(self, lines: Optional[int], time: Optional[float]) -> None:
        self.stale += 1
        if lines is None:
            self.unknown += 1
        else:
            self.lines.add(lines)
        if time is not None:
            self.times.add(time)


class AgeTable:
    """Reads by pair of nodes. Pairs beyond the first 65,536 that have stale reads are not listed."""

    def __init__(self) -> None:
        # by reader, how often it read each node; the views in its present order are counted there
        self.reads: dict[int, Dict[int, int]] = {}
        self.orders: dict[int, ViewOrder] = {}
        self.pairs: dict[tuple[int, int], PairCounts] = {}

    def add_reads(self, reader: int, nodes: Iterable[int], count: int = 1) -> None:
        found = self.reads.setdefault(reader, {})
        for node in nodes:
            found[node] = found.get(node, 0) + count

    def ordered(self, reader: int, nodes: tuple[int, ...]) -> ViewOrder:
        """The order of the neighbours that a node's last move lists, all of which are neighbours."""
        order = self.orders.get(reader)
        if order and len(order.nodes) == len(nodes) and set(order.nodes) == set(nodes):
            order.take(nodes)
            return order
        self.settle(reader)
        made = self.orders[reader] = ViewOrder(nodes)
        return made

    def settle(self, reader: int) -> None:
        """Forgets the order of a node's neighbours, and counts what it read in that order."""
        order = self.orders.pop(reader, None)
        if order and order.count:
            self.add_reads(reader, order.nodes, order.count)

    def add(self, reader: int, read: int, lines: Optional[int], time: Optional[float]) -> None:
        found = self.pairs.get((reader, read))
        if found is None:
            if len(self.pairs) == MOST_PAIRS:
                return
            found = self.pairs[reader, read] = PairCounts()
        found.add(lines, time)

    def forget(self, reader: int, read: int) -> None:
        """Forgets the reads across a link that goes, unless one of them was stale."""
        self.settle(reader)
        if (reader, read) not in self.pairs:
            self.reads.get(reader, {}).pop(read, None)

    def rows(self, name: Callable[[int], Name]) -> tuple[PairAges, ...]:
        """The pairs with stale reads: those with the most of unknown age first, then by age."""
        found = []
        for (reader, read), it in self.pairs.items():
            self.settle(reader)
            row = PairAges(
                name(reader),
                name(read),
                self.reads.get(reader, {}).get(read, it.stale),
                it.stale,
                it.unknown,
                it.lines.ages(int),
                it.times.ages(float),
            )
            found.append(row)
        return tuple(sorted(found, key=badness, reverse=True))


def badness(row: PairAges) -> tuple[float, ...]:
    return row.unknown, *(row.lines or (0, 0, 0))[1:], row.stale


COLUMNS = ("reader", "read", "reads", "stale", "unknown")
AGES = ("median", "p95", "most")


def values(row: PairAges) -> list[object]:
    ages = [*(row.lines or ("", "", "")), *(row.time or ("", "", ""))]
    return [row.reader, row.read, row.reads, row.stale, row.unknown, *ages]


def table_lines(rows: Iterable[PairAges], shown: Callable[[Name], str]) -> list[str]:
    """A table in columns, without the columns of times if there are none."""
    made = list(rows)
    heads = [*COLUMNS, *(f"{word} lines" for word in AGES), *(f"{word} time" for word in AGES)]
    width = len(heads) if any(row.time for row in made) else len(heads) - len(AGES)
    lines = [heads]
    for row in made:
        ages = [f"{age:.4g}" if isinstance(age, float) else str(age) or "-" for age in values(row)[2:]]
        lines.append([shown(row.reader), shown(row.read), *ages])
    widths = [max(map(len, column)) for column in zip(*lines)]
    return [
        "  ".join(
            text.ljust(wide) if at < 2 else text.rjust(wide)
            for at, (text, wide) in enumerate(zip(line[:width], widths))
        )
        for line in lines
    ]


def csv_text(rows: Iterable[PairAges], shown: Callable[[Name], str]) -> str:
    """All pairs as CSV; an age that there is none of is empty."""
    text = io.StringIO()
    heads = [*COLUMNS, *(f"{word}_lines" for word in AGES), *(f"{word}_time" for word in AGES)]
    csv.writer(text, lineterminator="\n").writerows(
        [heads, *([shown(row.reader), shown(row.read), *values(row)[2:]] for row in rows)]
    )
    return text.getvalue()
