"""Compares what a node saw with what its neighbours held at the move: which copies were stale, and how old."""

from __future__ import annotations

from dataclasses import dataclass
from typing import Callable, Iterator, Mapping, Optional

from .ages import AgeTable, Change, Histories, since
from .numbers import counted
from .replies import Name
from .state import State
from .views import View


@dataclass(frozen=True)
class Difference:
    """How a node's view differs from the network: a register that was seen, or a link.

    `what` is one of these.

    - overwritten: the node held this from the line `since` until the line `until`.
    - older: it held this, or may have, before the last writes that are kept.
    - never-written: no line of the log wrote this.
    - no-neighbour: it was seen, but there is no link; the link went at line `until`, if that is known.
    - not-seen: it is a neighbour; the link came at line `since`, if that is known.

    `lines` and `time` tell how long ago `until` was, or of not-seen `since`. `pointer` and `flag` are what was
    seen; of not-seen None and False.
    """

    node: Name
    what: str
    pointer: Optional[Name]
    flag: bool
    since: Optional[int]
    until: Optional[int]
    lines: Optional[int]
    time: Optional[float]
    text: str


class StaleReads:
    """Compares views with the network. `dangling` has pointers across links that are gone."""

    def __init__(
        self,
        state: State,
        past: Histories,
        dangling: Mapping[int, int],
        shown: Callable[[int], str],
        name: Callable[[int], Name],
    ) -> None:
        self.state, self.past, self.dangling, self.shown, self.name = (state, past, dangling, shown, name)
        self.table = AgeTable()
        # how often a node was seen to hold what no line wrote
        self.unheld: dict[int, int] = {}

    def count(self, line: int, time: Optional[float], node: int, view: View) -> None:
        """Counts the reads of a move."""
        table, order = self.table, view.order
        if order and table.orders.get(node) is order:
            order.count += 1
        else:
            table.add_reads(node, [it[0] for it in view.seen])
        for other, pointer, flag, _ in view.doubtful:
            self.count_stale(line, time, node, other, pointer, flag)

    def count_stale(self, line: int, time: Optional[float], node: int, other: int, pointer: int, flag: bool) -> None:
        begun: tuple[int, Optional[float]]
        if other not in self.state.neighbours.get(node, ()):
            change = self.past.changed(node, other)
            if not change or change[3]:
                return self.table.add(node, other, None, None)
            begun = change[:2]
        elif self.held(other) == (pointer, flag):
            return
        else:
            found = self.past.last(other, pointer, flag)
            if not found:
                if not self.past.may_be_older(other, pointer, flag):
                    self.unheld[other] = self.unheld.get(other, 0) + 1
                return self.table.add(node, other, None, None)
            begun = found[1][:2]
        self.table.add(node, other, line - begun[0], since(time, begun[1]))

    def held(self, node: int) -> tuple[int, bool]:
        return (self.state.pointers.get(node, 0) or self.dangling.get(node, 0), node in self.state.flags)

    def differences(self, line: int, time: Optional[float], node: int, view: View) -> tuple[Difference, ...]:
        return tuple(self.found(line, time, node, view))

    def found(self, line: int, time: Optional[float], node: int, view: View) -> Iterator[Difference]:
        near = self.state.neighbours.get(node, set())
        for other, pointer, flag in view.seen:
            if other not in near:
                change = self.past.changed(node, other)
                went = change if change and not change[3] else None
                text = f"{self.shown(other)} is no neighbour of {self.shown(node)}"
                text += self.of_link("went", went, line, time)
                yield self.made(other, "no-neighbour", (pointer, flag), None, went, line, time, text)
            elif self.held(other) != (pointer, flag):
                yield self.of_registers(line, time, other, pointer, flag)
        for other in sorted(near - {it[0] for it in view.seen}):
            change = self.past.changed(node, other)
            came = change if change and change[3] else None
            text = f"{self.shown(node)} did not see its neighbour {self.shown(other)}"
            text += self.of_link("came", came, line, time)
            yield self.made(other, "not-seen", (0, False), came, None, line, time, text)

    def of_registers(self, line: int, time: Optional[float], other: int, pointer: int, flag: bool) -> Difference:
        found, seen, name = (self.past.last(other, pointer, flag), (pointer, flag), self.shown(other))
        words = self.words(pointer, flag)
        if found:
            begun, ended = found
            text = (
                f"{name} held {words} from line {begun[0]} until line {ended[0]}, {ago(line, time, ended[0], ended[1])}"
            )
            return self.made(other, "overwritten", seen, begun, ended, line, time, text)
        if self.past.may_be_older(other, pointer, flag):
            text = f"{name} held {words} more than {self.past.kept} of its writes ago, if ever"
            return self.made(other, "older", seen, None, None, line, time, text)
        rows = self.past.held.get(other, ())
        parts = any(row[2] == pointer for row in rows) and any(row[3] == flag for row in rows)
        text = f"{name} never held {words}" + (" at once" if parts else "")
        return self.made(other, "never-written", seen, None, None, line, time, text)

    def words(self, pointer: int, flag: bool) -> str:
        text = f"pointer {self.shown(pointer) if pointer else 'null'}"
        return f"{text}, flag {str(flag).lower()}" if self.state.rules == "manne" else text

    @staticmethod
    def of_link(word: str, change: Optional[Change], line: int, time: Optional[float]) -> str:
        return f": their link {word} at line {change[0]}, {ago(line, time, *change[:2])}" if change else ""

    def made(
        self,
        other: int,
        what: str,
        seen: tuple[int, bool],
        begun: Optional[Change],
        ended: Optional[Change],
        line: int,
        time: Optional[float],
        text: str,
    ) -> Difference:
        pointer = self.name(seen[0]) if seen[0] else None
        last = ended or (begun if what == "not-seen" else None)
        return Difference(
            self.name(other),
            what,
            pointer,
            seen[1],
            begun[0] if begun else None,
            ended[0] if ended else None,
            line - last[0] if last else None,
            since(time, last[1]) if last else None,
            text,
        )


def ago(line: int, time: Optional[float], then: int, began: Optional[float]) -> str:
    late = since(time, began)
    return f"{counted(line - then, 'line')} ago" + ("" if late is None else f", {late:.4g} in time")
