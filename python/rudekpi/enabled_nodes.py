"""The enabled nodes of a run, followed along its entries, with its steps, moves and pairs.

The enabled nodes found here are compared with those in the machine's own replies. Rounds are not counted
here: `console epochs` has those of each epoch, and `Network.rounds` those since the last edit or fault.
"""

from __future__ import annotations

from typing import Iterable, Optional, Sequence

from . import rules
from .errors import Garbled
from .reading import MOVE, STATUS
from .state import WORDS, State

RULES = ("update", "marry", "seduce", "abandon")


class Counts:
    """A state with two counts at each node: the neighbours that point at it, and those that it may court.

    So the enabled rule of a node is found without a look at its neighbours. An event at a node takes time in
    proportion to that node's neighbours, not to those of its neighbours.
    """

    def __init__(self, state: State) -> None:
        self.state, self.is_manne = state, state.rules == "manne"
        self.suitors = {node: len(rules.suitors(state, node)) for node in state.neighbours}
        self.courted = {
            node: sum(self.may_court(node, other) for other in near) for node, near in state.neighbours.items()
        }

    def may_court(self, node: int, other: int) -> bool:
        """Whether `node` may begin to point at `other`, a neighbour."""
        state = self.state
        return other not in state.pointers and not (self.is_manne and (other < node or other in state.flags))

    def count(self, node: int, other: int, by: int) -> None:
        """Counts the neighbour `other` at `node`, or with -1 counts it no more."""
        self.courted[node] += by * self.may_court(node, other)
        self.suitors[node] += by * (self.state.pointers.get(other) == node)

    def count_everywhere(self, node: int, by: int) -> None:
        for other in self.state.neighbours[node]:
            self.count(other, node, by)

    def write(self, node: int, pointer: int, flag: bool) -> None:
        self.count_everywhere(node, -1)
        self.state.point(node, pointer)
        self.state.flag(node, flag)
        self.count_everywhere(node, 1)

    def move(self, node: int, rule: str, target: Optional[int]) -> None:
        is_flagged, pointer = node in self.state.flags, self.state.pointers.get(node, 0)
        if rule == "update":
            self.write(node, pointer, not is_flagged)
        else:
            self.write(node, target or 0, is_flagged)

    def point(self, node: int, target: int) -> None:
        self.write(node, target, node in self.state.flags)

    def flag(self, node: int, value: int) -> None:
        self.write(node, self.state.pointers.get(node, 0), bool(value))

    def link(self, a: int, b: int) -> None:
        self.state.link(a, b)
        self.count(a, b, 1)
        self.count(b, a, 1)

    def unlink(self, a: int, b: int) -> None:
        for node, other in ((a, b), (b, a)):
            if self.state.pointers.get(node) == other:
                self.point(node, 0)
        self.count(a, b, -1)
        self.count(b, a, -1)
        self.state.unlink(a, b)

    def join(self, node: int) -> None:
        self.state.join(node)
        self.suitors[node] = self.courted[node] = 0

    def leave(self, node: int) -> None:
        for other in list(self.state.neighbours[node]):
            self.unlink(node, other)
        self.state.leave(node)
        del self.suitors[node], self.courted[node]

    def rule_at(self, node: int) -> Optional[str]:
        """The enabled rule of a present node, or None: as `rules.rule_at`, in constant time."""
        state = self.state
        if node in state.pointers:
            return rules.rule_at(state, node)
        if node in state.flags:
            return "update"
        if self.suitors[node]:
            return "marry"
        return "seduce" if self.courted[node] else None


class Watch:
    """A network that is followed through the entries of an accepted transcript, from a state on.

    After a step the nodes that moved and their neighbours are checked again.
    """

    def __init__(self, state: State) -> None:
        self.state, self.counts = state, Counts(state)
        self.enabled = set(rules.enabled(state))
        self.steps = 0
        self.moves = dict.fromkeys(RULES, 0)
        self.moved: set[int] = set()
        self.pairs = sum(self.is_paired(node) for node in state.pointers) // 2

    @property
    def is_silent(self) -> bool:
        return not self.enabled

    def is_paired(self, node: int) -> bool:
        return self.state.partner(node) is not None

    def follow(self, line: str) -> None:
        """Follows the line of an entry. Raises `Garbled` if the machine listed other enabled nodes."""
        event, _, reply = line.partition(" = ")
        _, word, *rest = event.split(" ")
        if word == "step" and not reply.startswith("refused "):
            self.step(reply.split(" "))
        elif word in WORDS and reply == "ok":
            self.edit(word, [0 if text == "-" else int(text) for text in rest])
        elif word == "status":
            found = STATUS.fullmatch(reply)
            if not found or int(found[4]) != len(self.enabled):
                raise Garbled(
                    f"{line[:200]!r}: {len(self.enabled)} nodes are enabled by the registers that came before"
                )

    def step(self, moves: Iterable[str]) -> None:
        moved = []
        for text in moves:
            found = MOVE.fullmatch(text)
            if not found:
                raise Garbled(f"{text[:80]!r} is no move")
            node, rule = int(found[1]), found[2] or found[3]
            self.pairs -= self.is_paired(node)
            self.counts.move(node, rule, int(found[4]) if found[4] else None)
            self.pairs += self.is_paired(node)
            self.moves[rule] += 1
            moved.append(node)
        self.steps += 1
        self.moved.update(moved)
        self.look_again(self.near(moved))

    def edit(self, word: str, numbers: Sequence[int]) -> None:
        seen = self.seen_by(word, numbers)
        # an edit or a fault changes pairs of its first node only
        self.pairs -= self.is_paired(numbers[0])
        getattr(self.counts, word)(*numbers)
        self.pairs += self.is_paired(numbers[0])
        self.look_again(seen)

    def seen_by(self, word: str, numbers: Sequence[int]) -> set[int]:
        """The nodes whose enabled rule an edit or fault that comes now may change."""
        node = numbers[0]
        if word in ("link", "join"):
            return set(numbers)
        near, pointers = self.state.neighbours[node], self.state.pointers
        if word == "leave":
            return {node, *near} | self.near(other for other in near if pointers.get(other) == node)
        if word == "unlink":
            # only an end that pointed along the link changes a register
            one, other = numbers
            ends = [end for end, far in ((one, other), (other, one)) if pointers.get(end) == far]
            return {one, other} | self.near(ends)
        return self.near([node])

    def near(self, nodes: Iterable[int]) -> set[int]:
        found: set[int] = set()
        for node in nodes:
            found.add(node)
            found |= self.state.neighbours[node]
        return found

    def look_again(self, nodes: Iterable[int]) -> None:
        state = self.state
        for node in nodes:
            if node in state.neighbours and self.counts.rule_at(node):
                self.enabled.add(node)
            else:
                self.enabled.discard(node)


def watch_after(transcript: str, entry: int) -> Watch:
    lines = iter(transcript.splitlines())
    state = State()
    state.follow([next(lines)])
    while state.entry < entry:
        state.follow([next(lines)])
    watch = Watch(state)
    for line in lines:
        watch.follow(line)
    return watch
