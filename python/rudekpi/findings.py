"""What is wrong with a node, found from all of its moves that broke the rule on what it saw.

On one line several mistakes look alike: a flag that is written twice may be a lost flag, two moves by one
view, or a move without a line. Over a log they differ, as each of them explains other moves.
"""

from __future__ import annotations

from collections import Counter
from dataclasses import dataclass
from typing import Callable, Iterator, Mapping, Optional, Sequence, Tuple

from .ages import PairAges
from .library import MOVES
from .observed_moves import CHOOSING, Observed, is_allowed, moves_of, with_own
from .replies import Name
from .views import View, star

# a node's last move with a view, its line, and its time
LastMove = Tuple[int, Observed, View, Optional[float]]
TWICE, FLAG, SKIPPED, UNLOGGED, BELOW, GUARD = "twice", "flag", "skipped", "unlogged", "below", "guard"
UNLOCKED, EARLY = "unlocked", "early"
# fewer wrong moves do not tell what explains them
FEW = 3
# how many stale reads have to be a node's, without any of two other nodes, to say that its locks are wrong
ENOUGH = 4
WORDS = {
    TWICE: "it moves twice by one view",
    FLAG: "its flag falls without a line",
    SKIPPED: "it goes on without clearing its flag",
    UNLOGGED: "some of its moves have no line",
    BELOW: "it seduces neighbours below it",
    UNLOCKED: "only its reads, and reads of it, are stale: it writes after it has returned its locks",
    EARLY: "only its reads are stale: it chooses before it has its locks, or writes after it has returned them",
}


@dataclass(frozen=True)
class Finding:
    """What explains a node's moves that broke the rule on what it saw, or all the stale reads of a log.

    `cause` is one of these; the last two are about a system whose stale reads are all of one node.

    - twice: all of them were allowed by the registers before the node's last move, which had the same view.
    - flag: all of them were allowed if the flag had fallen, and some raised it again.
    - skipped: all of them were allowed without the flag, which the node never clears.
    - unlogged: most were allowed by registers that no line wrote, or other nodes saw such registers.
    - below: it seduces neighbours below it (`manne`).
    - guard: nothing else explains them, so the guard of a rule is wrong.
    - unlocked: it reads stale copies, and others read stale copies of it: it writes without their locks.
    - early: only it reads stale copies: it chooses without locks, or writes without them.

    `count` is how many moves, or stale reads, and `text` says it in words.
    """

    node: Name
    cause: str
    count: int
    text: str


def allowed_from(rules: str, did: Observed, view: View, pointer: int, flag: bool) -> bool:
    """Whether a node with other registers of its own was allowed to write this."""
    return any(is_allowed(star(rules, it, view), it) for it in with_own(did, pointer, flag))


def is_at_once(line: int, time: Optional[float], last: LastMove) -> bool:
    """Whether a move follows the node's last one at the same time; without times, on the next line."""
    return time == last[3] if time is not None and last[3] is not None else line == last[0] + 1


class Evidence:
    """How often each mistake explains a wrong move of one node."""

    def __init__(self) -> None:
        self.wrong = self.twice = self.at_once = self.fallen = self.raised = self.changed = self.below = 0
        self.rules: Counter[int] = Counter()

    def cause(self, is_seen_unlogged: bool) -> str:
        """The narrowest mistake that explains all wrong moves; a wrong guard if most have no explanation."""
        if self.twice == self.wrong and (self.fallen < self.wrong or self.at_once * 2 > self.wrong):
            return TWICE
        if self.fallen == self.wrong:
            return FLAG if self.raised else SKIPPED
        if self.changed * 2 >= self.wrong or is_seen_unlogged:
            return UNLOGGED
        return BELOW if self.below == self.wrong else GUARD

    def text(self, cause: str) -> str:
        if cause in (TWICE, FLAG, SKIPPED) and self.wrong < FEW:
            return f"{WORDS[cause]}, or {WORDS[UNLOGGED]}"
        if cause != GUARD:
            return WORDS[cause]
        if not self.rules:
            return "it writes what no rule writes"
        return f"the guard of {MOVES[self.rules.most_common(1)[0][0]]} is wrong"


class Findings:
    """Collects the evidence by node."""

    def __init__(self, rules: str, name: Callable[[int], Name]) -> None:
        self.rules, self.name = rules, name
        self.evidence: dict[int, Evidence] = {}

    def add(self, line: int, time: Optional[float], did: Observed, view: View, last: Optional[LastMove]) -> None:
        """Notes a move that broke the rule on its view."""
        found = self.evidence.setdefault(did.node, Evidence())
        found.wrong += 1
        found.rules.update([did.rule or CHOOSING[is_seduction(did, view)]] if did.rule >= 0 else [])
        is_twice = self.is_twice(did, view, last)
        found.twice += is_twice
        found.at_once += bool(is_twice and last and is_at_once(line, time, last))
        is_fallen = did.was and allowed_from(self.rules, did, view, did.old, False)
        found.fallen += is_fallen
        found.raised += is_fallen and did.flag and did.new == did.old
        found.changed += (
            is_twice or is_fallen or any(allowed_from(self.rules, did, view, *own) for own in self.others(did, view))
        )
        found.below += self.rules == "manne" and did.wish != 0 and did.new < did.node and is_seduction(did, view)

    def is_twice(self, did: Observed, view: View, last: Optional[LastMove]) -> bool:
        if last is None or last[2].records != view.records:
            return False
        return allowed_from(self.rules, did, view, last[1].old, last[1].was)

    def others(self, did: Observed, view: View) -> Iterator[Tuple[int, bool]]:
        """Registers that the node may have had without a line."""
        for move in moves_of(star(self.rules, did, view), did.node):
            yield move.new, move.flag
        yield from ((0, did.was), (did.old, not did.was), (0, not did.was))

    def found(self, unheld: Mapping[int, int]) -> Tuple[Finding, ...]:
        """The nodes with wrong moves, the most first. `unheld` counts registers of each node that others saw
        and no line wrote."""
        made = []
        for node, it in self.evidence.items():
            cause = it.cause(unheld.get(node, 0) > 0)
            made.append(Finding(self.name(node), cause, it.wrong, it.text(cause)))
        return tuple(sorted(made, key=lambda it: -it.count))


def without_locks(ages: Sequence[PairAges], readers: int) -> Tuple[Finding, ...]:
    """The node that all stale reads of a log are about, if other nodes read and there are enough of them."""
    stale = sum(pair.stale for pair in ages)
    if stale < ENOUGH or readers < ENOUGH:
        return ()
    shared = set.intersection(*({pair.reader, pair.read} for pair in ages))
    for node in shared if len(shared) == 1 else ():
        cause = UNLOCKED if any(pair.read == node for pair in ages) else EARLY
        return (Finding(node, cause, stale, WORDS[cause]),)
    return ()


def is_seduction(did: Observed, view: View) -> bool:
    """Whether a node wrote a pointer at a neighbour that, as the node saw, does not point at it."""
    return not any(node == did.new and pointer == did.node for node, pointer, *_ in view.seen)
