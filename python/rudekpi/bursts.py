"""Bursts: the parts of a run from silence to silence, with their lengths and bounds.

The program judges the transcript and lists the moves, costs and rounds of its epochs. This module goes
through the entries and finds silence, steps and the nodes reached.
"""

from __future__ import annotations

import itertools
import json
from collections import Counter
from dataclasses import astuple, dataclass
from typing import Iterable, Iterator, Mapping, Optional

from .audits import judged_epochs
from .containment import reach
from .enabled_nodes import Watch
from .errors import Garbled
from .given import Given, bytes_of
from .names import Names, names_for
from .partners import NAMES, PartnerCounts, PartnerWatch, summed
from .program import Program
from .reading import numbers_of_base
from .replays import parts_of
from .replies import Epoch, Fixed, Name
from .state import WORDS, State


@dataclass(frozen=True)
class Burst:
    """What happened from a silent network to the next silent one.

    A burst begins with the edit or fault of the entry `start`, and ends in silence after the entry `end`.
    Edits and faults that directly follow each other are in one burst, even if the network stays silent
    between them. `start` is None if the transcript begins with a base that has enabled nodes; `end` is None
    if nodes are enabled at the end of the transcript.

    `disturbances` counts edits and faults by word; `moves`, `steps` and `rounds` count what followed. `rounds`
    is the sum of those of the burst's epochs. `cost` is the sum of the costs of the edits and faults. `bound`
    is a proved bound on the moves: the cost and, under `manne`, two more for each pair gained and one for each
    node that left. `cost` and `bound` are None if `start` is.

    `reached` lists the nodes that were in the reach of a disturbance when that came, and `moved` the nodes
    that moved, both in order of number. If the burst began in a silent network, no node outside `reached`
    moved.

    `partners` has what happened to the pairs, None unless it was asked for.
    """

    start: Optional[int]
    end: Optional[int]
    disturbances: Mapping[str, int]
    cost: Optional[int]
    bound: Optional[int]
    moves: int
    steps: int
    rounds: int
    pairs_before: int
    pairs_after: int
    reached: tuple[Name, ...]
    moved: tuple[Name, ...]
    partners: Optional[PartnerCounts] = None


def bound_of_costs(rules: str, cost: int, gained: int, left: int) -> int:
    """The most moves, from silence on, after disturbances of this total cost.

    `gained` counts pairs, below 0 if pairs were lost; `left` counts the nodes that left.
    """
    return cost + 2 * max(0, gained) + left if rules == "manne" else cost


class BurstReader:
    """Reads the bursts of an accepted transcript entry by entry, given its epochs.

    If nodes are enabled in `state`, no node has moved in its epoch before; after a base, since the base.
    """

    def __init__(
        self, rules: str, names: Names, state: State, epochs: Iterable[Epoch], has_partners: bool = False
    ) -> None:
        self.rules, self.names = rules, names
        self.partners = PartnerWatch(state) if has_partners else None
        self.watch = self.partners or Watch(state)
        self.epochs = {epoch.start: epoch for epoch in epochs}
        self.is_open, self.last = False, state.entry
        if not self.watch.is_silent:
            self.begin(None)

    def begin(self, start: Optional[int]) -> None:
        watch = self.watch
        self.is_open, self.start, self.cost, self.pairs_before = (True, start, 0, watch.pairs)
        self.rounds = self.first_rounds() if start is None else 0
        self.words: Counter[str] = Counter()
        self.reached: set[int] = set()
        watch.moved = set()
        self.counts_before = self.counts()
        if self.partners:
            self.partners.begin()

    def counts(self) -> tuple[int, int]:
        return sum(self.watch.moves.values()), self.watch.steps

    def first_rounds(self) -> int:
        """The rounds of the epoch that the first state is in."""
        begun = [epoch for start, epoch in self.epochs.items() if start is None or start <= self.last]
        return begun[-1].rounds

    def read(self, line: str) -> Iterator[Burst]:
        """The bursts that end right before this entry, or with it."""
        event, _, reply = line.partition(" = ")
        number, word, *rest = event.split(" ")
        is_edit = word in WORDS and reply == "ok"
        if self.is_open and self.watch.is_silent and not is_edit:
            # the edits and faults that came at once are over, and no node is enabled
            yield self.ended(self.last)
        self.last = int(number)
        if is_edit:
            if not self.is_open:
                self.begin(self.last)
            self.add(word, [0 if text == "-" else int(text) for text in rest])
        self.watch.follow(line)
        if self.is_open and self.watch.is_silent and not is_edit:
            yield self.ended(self.last)

    def add(self, word: str, numbers: list[int]) -> None:
        """Adds the edit or fault of the last entry, before the state follows that entry."""
        epoch = self.epochs.get(self.last)
        if epoch is None or epoch.cost is None:
            raise Garbled(f"the program lists no epoch that begins at entry {self.last}")
        self.words[word] += 1
        self.cost += epoch.cost
        self.rounds += epoch.rounds
        self.reached |= reach(self.watch.state, word, *numbers)

    def rest(self) -> Iterator[Burst]:
        if self.is_open:
            yield self.ended(self.last if self.watch.is_silent else None)

    def ended(self, end: Optional[int]) -> Burst:
        watch, self.is_open = self.watch, False
        gained = watch.pairs - self.pairs_before
        moves, steps = (now - before for now, before in zip(self.counts(), self.counts_before))
        is_known = self.start is not None
        return Burst(
            self.start,
            end,
            Fixed(self.words),
            self.cost if is_known else None,
            bound_of_costs(self.rules, self.cost, gained, self.words["leave"]) if is_known else None,
            moves,
            steps,
            self.rounds,
            self.pairs_before,
            watch.pairs,
            tuple(map(self.names.name_of, sorted(self.reached))),
            tuple(map(self.names.name_of, sorted(watch.moved))),
            self.partners.counted() if self.partners else None,
        )


def bursts(
    transcript: Given,
    *,
    names: Optional[Iterable[Name]] = None,
    program: Program = None,
    partners: bool = False,
) -> list[Burst]:
    """The bursts of a transcript, from silence to silence, in order.

    `names` are the caller's, in the order of the numbers. With `partners` each burst also has what happened
    to the pairs. Raises `Damaged` if `audit` refuses the transcript,
    `ValueError` if the number of names differs, `Garbled` if the program lists other moves than the entries
    have, and `Ended`.
    """
    given = bytes_of(transcript)
    epochs, text = judged_epochs(given, program), given.decode()
    parts = parts_of(text)
    state, head = State(), next(parts)
    state.follow(head)
    # the first epoch also has the moves before the base that begins a transcript
    spent = numbers_of_base(head)[0] if len(head) > 1 else 0
    reader = BurstReader(state.rules, names_for(text, names), state, epochs, partners)
    # a base in the middle changes nothing
    entries = (part[0] for part in parts if len(part) == 1)
    found = [*itertools.chain.from_iterable(map(reader.read, entries)), *reader.rest()]
    if spent + sum(reader.watch.moves.values()) != sum(epoch.moves for epoch in epochs):
        raise Garbled("the program lists other moves than the entries have")
    return found


def read_after(transcript: str, entry: int, epochs: Iterable[Epoch]) -> tuple[Watch, PartnerCounts]:
    """What followed an entry of an accepted transcript without bases, and the counts of all its bursts."""
    lines, state = iter(transcript.splitlines()), State()
    state.follow([next(lines)])
    while state.entry < entry:
        state.follow([next(lines)])
    reader = BurstReader(state.rules, Names(state.count), state, epochs, has_partners=True)
    found = [*itertools.chain.from_iterable(map(reader.read, lines)), *reader.rest()]
    return reader.watch, summed(burst.partners for burst in found if burst.partners)


COUNTS = "start,end,disturbances,cost,bound,moves,steps,rounds,pairs_before,pairs_after"
HEAD = f"{COUNTS},reached,moved"


def head_of(has_nodes: bool = True, has_partners: bool = False) -> str:
    """The names of the columns of `row_of`."""
    return ",".join([HEAD if has_nodes else COUNTS, *(NAMES if has_partners else ())])


def row_of(burst: Burst, has_nodes: bool = True) -> list[str]:
    """A burst as a row of CSV below `head_of`: `-` for None, lists separated by blanks.

    A name with a blank or a quote is written in quotes, as in JSON.
    """
    words = " ".join(f"{count} {word}" for word, count in burst.disturbances.items())
    figures = (burst.cost, burst.bound, burst.moves, burst.steps, burst.rounds, burst.pairs_before, burst.pairs_after)
    lists = (" ".join(map(word_of, nodes)) for nodes in ((burst.reached, burst.moved) if has_nodes else ()))
    told = ["-" if it is None else str(it) for it in (burst.start, burst.end)]
    counts = map(str, astuple(burst.partners)) if burst.partners else ()
    return [*told, words, *("-" if it is None else str(it) for it in figures), *lists, *counts]


def word_of(name: Name) -> str:
    text = str(name)
    is_word = text.isprintable() and text and not any(sign in text for sign in " \"'")
    return text if is_word else json.dumps(text)
