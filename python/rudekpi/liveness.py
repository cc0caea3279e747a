"""Which nodes of a log are enabled and do not move, and since when: a node that died is among them.

At the end the machine says which nodes are enabled. A node's view is its registers, its links and its
neighbours' registers. Since the last line that changed its view a node was enabled without a move. During a
run `Waits` follows the enabled nodes by the client's reading of the rules, and so knows the line exactly.
"""

from __future__ import annotations

import math
import time
from dataclasses import dataclass
from typing import Any, Callable, Collection, NamedTuple, Optional

from . import rules
from .log_places import file_of, line_of
from .log_times import time_of
from .replies import Name
from .state import State

# how many nodes a verdict lists
LISTED = 10


@dataclass(frozen=True)
class Waiting:
    """A node that is enabled by `rule` and has not moved since a line, with the line's time if it has one.

    If `is_exact` is False, the node was enabled before that line too, or became enabled there.
    """

    node: Name
    rule: str
    line: int
    time: Optional[float]
    is_exact: bool
    file: str = ""


class Since(NamedTuple):
    """The line since which a node waits, its time in the log and its arrival in seconds, and the node's rule."""

    number: int
    time: Optional[float]
    arrived: float
    rule: str


class Changes:
    """The last line that changed each node's registers, and its links; costs a store a change.

    With a line's number goes its time, or its text, and the time is read from it at the end.
    """

    def __init__(self, first: tuple[int, Any]) -> None:
        self.first = first
        self.registers: dict[int, tuple[int, Any]] = {}
        self.links: dict[int, tuple[int, Any]] = {}

    def last(self, state: State, node: int) -> tuple[int, Optional[float]]:
        """The last line that changed what a node sees, and its time. Looks at each neighbour."""
        found = [self.registers[other] for other in (node, *state.neighbours[node]) if other in self.registers]
        found += [self.links[node]] if node in self.links else []
        number, stamp = max(found, key=lambda change: change[0], default=self.first)
        return number, time_of(stamp)


class Waits:
    """Since when each enabled node has been enabled without a move, as the lines come.

    `seconds` of the log's `time` are the most that a node may wait. As long as no line has a time they are
    those of the wall clock if the log is live, and else no wait is too long. `on_stuck` is called once for
    each wait that is. A line costs a look at the neighbours of each node that it changes, and at theirs.
    """

    def __init__(
        self,
        state: State,
        seconds: float,
        on_stuck: Callable[[int, Since], object],
        is_live: bool = True,
        now: Callable[[], float] = time.monotonic,
    ) -> None:
        self.state, self.seconds, self.on_stuck, self.is_live, self.wall_clock = state, seconds, on_stuck, is_live, now
        # in the order of the lines: waits that may become too long, and those that are told
        self.young: dict[int, Since] = {}
        self.told: dict[int, Since] = {}
        self.latest: Optional[float] = None
        self.arrived = now()
        # what the present line changed, and the nodes that moved
        self.here: tuple[int, Any] = 0, None
        self.changed: set[int] = set()
        self.moved: set[int] = set()

    def mark(self, here: tuple[int, Any], nodes: Collection[int], moved: bool = False) -> None:
        """Notes nodes whose registers or links a line changes, and whether these nodes moved."""
        self.here = here
        self.changed.update(nodes)
        if moved:
            self.moved.update(nodes)

    def settle(self) -> None:
        """Follows the line whose changes are noted, after the state has followed them."""
        if not self.changed:
            return
        self.advance(time_of(self.here[1]))
        # before the line's moves, which may be those that came too late
        self.tell()
        near = self.state.neighbours
        for node in self.changed.union(*(near[node] for node in self.changed if node in near)):
            self.follow(node)
        self.changed.clear()
        self.moved.clear()

    def follow(self, node: int) -> None:
        rule = rules.rule_at(self.state, node) if node in self.state.neighbours else None
        if node in self.moved or rule is None:
            self.young.pop(node, None)
            self.told.pop(node, None)
        if rule is None:
            return
        for waits in (self.young, self.told):
            if node in waits:
                waits[node] = waits[node]._replace(rule=rule)
                return
        self.young[node] = Since(self.here[0], self.latest, self.arrived, rule)

    def advance(self, at: Optional[float]) -> None:
        """Follows the log's time, which never runs backwards here."""
        if at is None:
            return
        if self.latest is None:
            # the lines before the first time are taken to have it
            for waits in (self.young, self.told):
                waits.update({node: since._replace(time=at) for node, since in waits.items()})
            self.latest = at
        self.latest = max(self.latest, at)

    def arrive(self) -> None:
        """Notes that the wall clock went on."""
        self.arrived = self.wall_clock()
        self.tell()

    def left(self, since: Since) -> float:
        """How many seconds a wait may still last."""
        if self.latest is not None and since.time is not None:
            return since.time + self.seconds - self.latest
        return since.arrived + self.seconds - self.arrived if self.is_live else math.inf

    def tell(self) -> None:
        """Reports the waits that have become too long, the longest first."""
        while self.young:
            node, since = next(iter(self.young.items()))
            if self.left(since) > 0:
                return
            del self.young[node]
            self.told[node] = since
            self.on_stuck(node, since)

    def pause(self) -> Optional[float]:
        """How many seconds of the wall clock may pass before a wait is too long; None if the log has times."""
        if self.latest is not None or not self.young:
            return None
        since = next(iter(self.young.values()))
        return max(0.0, since.arrived + self.seconds - self.wall_clock())

    def since(self, node: int) -> Optional[Since]:
        return self.told.get(node) or self.young.get(node)


def longest(
    enabled: dict[int, str], state: State, changes: Changes, waits: Optional[Waits], name: Callable[[int], Name]
) -> tuple[Waiting, ...]:
    """The enabled nodes that have waited longest for a move, at most ten, the longest first."""
    found = []
    for node, rule in enabled.items():
        since = waits.since(node) if waits else None
        number, at = (since.number, since.time) if since else changes.last(state, node)
        found.append((int(number), node, Waiting(name(node), rule, line_of(number), at, bool(since), file_of(number))))
    return tuple(waiting for *_, waiting in sorted(found, key=lambda it: it[:2])[:LISTED])
