"""Plays experiments: a daemon moves in a network, after all disturbances or between them."""

from __future__ import annotations

import itertools
from collections import abc
from typing import NamedTuple, Optional, Union, cast

from .chance_daemons import Activation
from .choices import Daemon, checked_choice
from .daemons import AnyDaemon, Seeded, check_daemon, named
from .disturbances import Events
from .network import Network
from .numbers import MOST_SEED, MOST_TURNS, number_within
from .replies import Choice, Enabled, Wish
from .simple_graph import Graph
from .traces import Scripted, Trace


class Mended(NamedTuple):
    """How many steps and moves mended a network."""

    steps: int
    moves: int


class Player:
    """A daemon that moves in a network, a few moves at a time; counts its steps and moves."""

    def __init__(self, net: Network, daemon: Union[AnyDaemon, Daemon]) -> None:
        self.net, self.steps, self.moves = net, 0, 0
        self.is_seeded, self.seed = isinstance(daemon, Seeded), daemon.seed if isinstance(daemon, Seeded) else 0
        if isinstance(daemon, Seeded):
            # the program's daemon takes no limit: these are its chances, drawn here
            daemon = Activation(0.5, self.seed) if net.rules == "manne" else daemon
        if not isinstance(daemon, Seeded):
            self.choose = daemon.begin(net) if hasattr(daemon, "begin") else cast(Daemon, daemon)

    def play(self, least: int) -> None:
        """Makes steps until there are at least this many moves, or the network is silent."""
        wanted = self.moves + least
        while self.moves < wanted and self.step():
            pass

    def play_at_most(self, most: int) -> None:
        """Makes this many moves, or those until silence; the last step is cut to its first nodes."""
        end = self.moves + most
        while self.moves < end and self.step(end - self.moves):
            pass

    def step(self, most: Optional[int] = None) -> int:
        """Makes a step of at most this many nodes; returns how many moved, 0 if none is enabled."""
        if self.is_seeded and (most is None or self.net.rules == "hh"):
            moves = sum(map(len, self.net.drive(self.seed, 1)))
            self.seed = (self.seed + 1) % 2**64
        else:
            enabled = self.net.enabled()
            moves = len(self.net.step(self.chosen(enabled, most))) if enabled else 0
        self.steps, self.moves = self.steps + bool(moves), self.moves + moves
        return moves

    def chosen(self, enabled: Enabled, most: Optional[int]) -> Choice:
        choice = checked_choice(self.choose(enabled), enabled)
        if most is None:
            return choice
        items = [*choice]
        if isinstance(choice, abc.Set):
            items.sort(key=lambda item: self.net.number_of(item.node if isinstance(item, Wish) else item))
        return items[:most]

    def settle(self) -> None:
        settled = self.net.settle(Seeded(self.seed) if self.is_seeded else self.choose)
        self.seed = (self.seed + 1) % 2**64
        self.steps, self.moves = self.steps + settled.steps, self.moves + settled.moves


def disturb_at_once(net: Network, events: Events, seed: int) -> None:
    with net.batch() as batch:
        for event in events.edits():
            events.send(batch, event)
    if events.wanted.any_value:
        faults = events.faults_with_any_value(seed)
    else:
        # no node moves before the faults are drawn
        state = net.follower().state()
        faults = events.faults_that_change(lambda: state)
    with net.batch() as batch:
        for event in faults:
            events.send(batch, event)


def disturb_one_by_one(net: Network, events: Events, seed: int, player: Player) -> None:
    wanted = events.wanted
    if wanted.trace:
        return mend_between(net, wanted.trace.on(events.graph), player, wanted.every)
    if wanted.any_value:
        faults = events.faults_with_any_value(seed)
    else:
        faults = events.faults_that_change(net.follower().state)
    for event in itertools.chain(events.edits(), faults):
        with net.batch() as batch:
            events.send(batch, event)
        player.play(wanted.every)


def mend_between(net: Network, scripted: Scripted, player: Player, every: int) -> None:
    """Plays the events of a trace; between two of them moves come until silence, or at most `every`."""
    for place, (word, numbers) in enumerate(scripted.events):
        if place and every:
            player.play_at_most(every)
        elif place:
            player.settle()
        getattr(net, word)(*(scripted.nodes[number - 1] for number in numbers))


def play_trace(
    net: Network, trace: Trace, daemon: Union[Daemon, AnyDaemon, str] = "seeded", *, seed: int = 0, every: int = 0
) -> Mended:
    """Plays a trace in a network, as `sweep` does: returns the steps and moves that mended it.

    The daemon moves until silence between two events, or at most `every` moves, and until silence at the end.
    The daemon is that of `Network.settle`. Nodes that join under new names need a `capacity`. Raises
    `ValueError`, with the trace's title and the line, for an event that the network would refuse; then none
    is played. Raises what `Network.settle` raises.
    """
    if isinstance(daemon, str):
        daemon = named(daemon, number_within(seed, MOST_SEED, "a seed"))
    check_daemon(daemon)
    number_within(every, MOST_TURNS, "a number of moves")
    scripted = trace.on(Graph("the network", tuple(net.present), tuple(net.edges)))
    # an absent node has its name in the network too, perhaps as a text, and in the trace as a number
    known = {str(name): name for name in net.nodes}
    nodes = tuple(known.get(str(name), name) for name in scripted.nodes)
    player = Player(net, daemon)
    mend_between(net, Scripted(nodes, scripted.events), player, every)
    player.settle()
    return Mended(player.steps, player.moves)
