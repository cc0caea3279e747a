"""What the judge of a running system's log forgives, names and measures.

Bad lines that are passed over, links that both ends log, pointers across a link that was just removed, a
last line that is cut, and nodes that wait.
"""

from __future__ import annotations

from typing import Any, Callable, Optional, Sequence

from . import log_notes
from .errors import BadLine
from .liveness import Changes, Since, Waits
from .log_inputs import BACKWARDS, CUT, Flaw
from .log_notes import Note
from .log_places import file_of, line_of, where
from .log_times import time_of
from .recent_links import RecentLinks
from .state import State

OnNote = Optional[Callable[[Note], object]]


class Repeated(Exception):
    """The line repeats a link or a cut for the other end."""


class Running:
    """Follows a log for its judge. `here` is the number of the present line, with its text or its time."""

    def __init__(self, stuck: Optional[float], on_note: OnNote, shown: Callable[[int], str]) -> None:
        if stuck is not None and not 0 < stuck < float("inf"):
            raise ValueError(f"a node is stuck after a number of seconds above 0, and not {stuck!r}")
        self.limit, self.on_note, self.shown = stuck, on_note, shown
        self.is_live = True
        self.here: tuple[int, Any] = 1, None
        self.links = RecentLinks()
        self.changes = Changes(self.here)
        # the judge itself writes here, once for each register that is written
        self.registers = self.changes.registers
        self.waits: Optional[Waits] = None
        self.bad_lines = self.twice = self.crossed = self.stuck = self.cut_line = 0

    def begin(self, state: State) -> None:
        self.changes.first = self.here
        if self.limit is not None:
            self.waits = Waits(state, self.limit, self.tell_stuck, self.is_live)

    def note(self, kind: str, number: int, why: str) -> None:
        if self.on_note:
            place = where(number)
            self.on_note(Note(kind, line_of(number), f"{place}{why}", file_of(number)))

    def pass_over(self, bad: BadLine, is_skipped: bool = True) -> None:
        self.bad_lines += 1
        if self.on_note:
            self.on_note(Note(log_notes.BAD_LINE, bad.line, f"{bad}{' (skipped)' if is_skipped else ''}", bad.file))

    def take_flaw(self, number: int, flaw: Flaw, goes_on: bool) -> None:
        """Raises `BadLine` if the line can't be read, or its clock is wrong and the judge does not go on."""
        if flaw.kind == CUT:
            self.cut_line = line_of(number)
            self.note(log_notes.CUT, number, " is cut and was left out")
        elif flaw.kind == BACKWARDS and goes_on:
            self.pass_over(BadLine(number, flaw.why), False)
        else:
            raise BadLine(number, flaw.why)

    def arrive(self) -> None:
        """Notes that lines came, or that none came for a while."""
        if self.waits:
            self.waits.arrive()

    def edited(self, word: str, nodes: Sequence[int], state: State) -> None:
        """Follows an edit, before the state does."""
        cut = [(nodes[0], other) for other in state.neighbours[nodes[0]]] if word == "leave" else []
        pairs = cut or ([(nodes[0], nodes[1])] if len(nodes) == 2 else [])
        for a, b in pairs:
            self.links.add("link" if word == "link" else "unlink", a, b, self.here[0], self.time())
        touched = {*nodes, *(other for _, other in cut)}
        for node in touched:
            self.changes.links[node] = self.here
            if word != "link" and node in state.pointers:
                self.registers[node] = self.here
        if self.waits:
            self.waits.mark(self.here, touched)

    def time(self) -> Optional[float]:
        return time_of(self.here[1])

    def expect_new(self, number: int, word: str, nodes: Sequence[int]) -> None:
        """Raises `Repeated` if a refused edit is the line of a link's other end."""
        if len(nodes) != 2:
            return
        first = self.links.take_second(word, nodes[0], nodes[1], number, self.time())
        if first is None:
            return
        self.twice += 1
        if self.twice == 1:
            names = " and ".join(map(self.shown, nodes))
            what = f"the {word} of {names} is that of line {first.number}: logged by both ends"
            self.note(log_notes.BOTH_ENDS, number, f": {what} (skipped, as later ones are)")
        raise Repeated

    def crossing(self, number: int, node: int, target: int) -> str:
        """That a node's pointer crosses a link that was just removed; empty if there was none."""
        cut = self.links.found("unlink", node, target, number, self.time()) if target else None
        return f"{self.shown(node)} wrote a pointer across a link removed in line {cut.number}" if cut else ""

    def tell_crossing(self, number: int, what: str) -> None:
        self.crossed += 1
        self.note(log_notes.REMOVED_LINK, number, f": {what} (skipped)")

    def tell_stuck(self, node: int, since: Since) -> None:
        self.stuck += 1
        at = "" if since.time is None else f", time {since.time:.15g}"
        what = f"{at}: {self.shown(node)} is enabled since then, by {since.rule}"
        self.note(log_notes.STUCK, since.number, f"{what}, and has not moved for {self.limit:g} seconds")

    def end(self) -> None:
        """Follows the last line, and the time until the log ended."""
        if not self.waits:
            return
        self.waits.settle()
        self.waits.arrive()
        if self.waits.latest is None and not self.is_live and self.on_note:
            self.on_note(Note(log_notes.NO_TIME, 0, "no line of this log has a time, so no wait was measured"))
