"""What is wrong with moves that the rules do not allow: the judge's findings, with the reasons in words."""

from __future__ import annotations

from collections import Counter
from dataclasses import dataclass
from typing import Any, Callable, Mapping, NamedTuple, Optional, Sequence

from . import rules
from .ages import Histories
from .findings import LastMove, is_at_once
from .library import REFUSALS
from .log_lines import cut, spelled
from .log_places import file_of, line_of
from .observed_moves import UPDATE, Observed, is_allowed
from .reasons import Reasons
from .replies import Name
from .stale_hints import StaleHints
from .stale_reads import Difference, StaleReads
from .state import State
from .views import View, ViewWords


@dataclass(frozen=True)
class Divergence:
    """A move that the rules do not allow.

    `line` is the number of the log's line, in `file` if several logs are merged. `kind` is one of these.

    - rule: the move breaks the rule on what its node saw.
    - view: no state shows what its node saw.
    - stale: the rule allows it on what its node saw, and `differences` are what the network was not.
    - order: the move has no `saw`, and the machine refuses it at its place in the log.
    - together: the rules allow the line's moves one by one, and not at once.

    `rule` is the rule that was enabled, or None, and `targets` are the targets that it allowed: for the kinds
    rule and view on what the node saw, else in the network. `hint` is a guess at the cause. `entries` is how
    many entries the transcript had before.
    """

    line: int
    node: Name
    wrote: str
    rule: Optional[str]
    targets: tuple[Name, ...]
    why: str
    entries: int
    event: str
    around: tuple[str, ...] = ()
    hint: str = ""
    kind: str = "order"
    differences: tuple[Difference, ...] = ()
    file: str = ""


class Judged(NamedTuple):
    """A move with what its node saw, if the log has that, and the verdict of the rule on it."""

    seen: Observed
    view: Optional[View]
    verdict: int


class LogPosition(NamedTuple):
    """Where a log is: the line's number, time and text, and the machine's last entry."""

    line: int
    time: Optional[float]
    text: Any
    entry: int


class Diagnosis:
    """Finds which move of a line is wrong, and says why."""

    def __init__(
        self,
        state: State,
        past: Histories,
        reads: StaleReads,
        age: int,
        shown: Callable[[int], str],
        name: Callable[[int], Name],
    ) -> None:
        self.rules, self.state, self.past, self.reads, self.age = state.rules, state, past, reads, age
        self.shown, self.name = shown, name
        self.words_of_views = ViewWords(state.rules, shown)

    def bad_of(self, judged: Sequence[Judged]) -> Optional[Judged]:
        """The first move that is wrong on its view, else the first that the rules do not allow, if any."""
        wrong = (it for it in judged if it.view and it.verdict <= 0 and it.seen.node in self.state.neighbours)
        refused = (it for it in judged if not is_allowed(self.state, it.seen))
        return next(wrong, None) or next(refused, None)

    def divergence(
        self, at: LogPosition, judged: Sequence[Judged], refusal: int, last: Mapping[int, LastMove]
    ) -> Divergence:
        """What is wrong with moves that the machine refuses, or that are wrong on their views."""
        found = self.bad_of(judged)
        # none if the only fault is that several move at once
        bad = found.seen if found else judged[0].seen
        if found and found.view and found.verdict <= 0 and bad.node in self.state.neighbours:
            return self.wrong_on_view(at, found, found.view, last.get(bad.node))
        words, node = Reasons(self.state, self.shown), bad.node
        is_there = node in self.state.neighbours
        rule = rules.rule_at(self.state, node) if is_there else None
        numbers = rules.targets(self.state, node, rule) if rule else []
        differences: tuple[Difference, ...] = ()
        if found and found.view and is_there:
            differences = self.reads.differences(at.line, at.time, node, found.view)
        hint = ""
        if found and not found.view:
            hint = StaleHints(self.state, self.past, self.age, self.shown).hint(at.line, bad)
        return Divergence(
            line_of(at.line),
            self.name(node),
            self.wrote(bad),
            rule,
            tuple(map(self.name, numbers)),
            self.why(words, bad) if found else self.why_together([it.seen for it in judged], refusal),
            at.entry,
            spelled_line(at.text),
            tuple(words.around(node)) if is_there else (),
            hint,
            "stale" if differences else "order" if found else "together",
            differences,
            file_of(at.line),
        )

    def wrong_on_view(self, at: LogPosition, bad: Judged, view: View, last: Optional[LastMove]) -> Divergence:
        seen, words = bad.seen, self.words_of_views
        star = words.reasons(seen, view)
        rule = rules.rule_at(star.state, seen.node) if bad.verdict == 0 else None
        numbers = rules.targets(star.state, seen.node, rule) if rule else []
        twice = (last[0], last[1], is_at_once(at.line, at.time, last)) if last and is_same(last, view) else None
        return Divergence(
            line_of(at.line),
            self.name(seen.node),
            self.wrote(seen),
            rule,
            tuple(map(self.name, numbers)),
            words.why(seen, view, bad.verdict),
            at.entry,
            spelled_line(at.text),
            tuple(star.around(seen.node)),
            words.hint(seen, view, twice) if bad.verdict == 0 else "",
            "view" if bad.verdict < 0 else "rule",
            self.reads.differences(at.line, at.time, seen.node, view),
            file_of(at.line),
        )

    def why(self, words: Reasons, bad: Observed) -> str:
        more: Optional[str] = None
        if bad.flag != bad.was and not words.has_flags:
            more = "there are no flags under hh"
        elif bad.rule < 0:
            more = "no rule writes both registers" if bad.flag != bad.was else "it holds that already"
        elif bad.new and bad.rule != UPDATE:
            more = words.why_not_at(bad.node, bad.new)
        return words.allowed(bad.node) + (f"; {more}" if more else "")

    def why_together(self, seen: Sequence[Observed], refusal: int) -> str:
        """Why moves that the rules allow one by one cannot be made at once."""
        nodes = [it.node for it in seen]
        twice = next((node for node, count in Counter(nodes).items() if count > 1), None)
        if self.rules == "hh":
            return f"{cut(', '.join(map(self.shown, nodes)))} move at once, and under hh one node moves at a time"
        if twice:
            return f"{self.shown(twice)} moves twice in one step"
        return f"the machine refuses this step: {refusal_text(refusal)}"

    def wrote(self, seen: Observed) -> str:
        pointer = "null" if not seen.new else self.shown(seen.new)
        parts = [f"pointer {pointer}"] if seen.new != seen.old else []
        parts += [f"flag {str(seen.flag).lower()}"] if seen.flag != seen.was else []
        return f"{self.shown(seen.node)} wrote {' and '.join(parts) or 'nothing new'}"


def is_same(last: LastMove, view: View) -> bool:
    return last[2].records == view.records


def spelled_line(line: Any) -> str:
    if not isinstance(line, bytes):
        return spelled(line)
    text = line.decode().strip()
    return cut(text if text.isprintable() else ascii(text)[1:-1])


def refusal_text(number: int) -> str:
    return f"{number} {REFUSALS[number - 1]}"
