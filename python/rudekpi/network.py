"""A network that the library or the program plays."""

from __future__ import annotations

import os
from typing import Any, Callable, Iterable, NoReturn, Optional, Sequence, Union, cast

from . import audits, drawings, library
from .answers import Setting
from .batch import Batch
from .choices import Daemon, checked_choice
from .costs import numbers_of_edit, why_refused
from .daemons import AnyDaemon, GreedyChoice, Seeded, check_daemon, named
from .direct import Direct
from .errors import Ended, PastBound
from .files import write_whole
from .given import Given
from .graphs import Graph, from_networkx, is_networkx
from .labels import named_picture
from .name_files import names_text
from .names import Names
from .numbers import MOST_NODES, MOST_SEED, counted, number_within
from .processes import GIVEN
from .program import Program, found_program
from .replies import (
    Accepted,
    Base,
    Choice,
    Enabled,
    Fault,
    Matching,
    Moves,
    Name,
    Registers,
    Settled,
    Shown,
    Status,
    Summary,
    Turns,
)
from .rules import moves_left
from .session import Session
from .sources import Source, refusal_of, source_of
from .state import Follower, Seen, State


class Network:
    """A network, played by the library in this process or by a run of the program, one command a call.

    `nodes` is the number of nodes, 0 to 65,535, or a list of their names. In the transcript these names have
    the numbers 1, 2, .. in their order. A `Graph`, or a graph of networkx, gives the edges too. Under `manne`
    the numbers matter: a node proposes only to neighbours with greater numbers. The first `present` nodes, by
    default all, are present at the start; the others may `join`. With `keep=False` the transcript is kept
    only from the last checkpoint on.

    With a `capacity` nodes may also join under new names, until there are that many names. A new name gets
    the next free number, and keeps that number when its node leaves. If names are numbers, those up to the
    capacity may join.

    The `engine` is "library" or "program". By default it is the value of RUDEKPI_ENGINE, else the library if
    that is found and no program is given. Both give the same replies and transcripts. For the paths of both
    see the package.

    If memory runs out, the library raises `MemoryError` and nothing was carried out; `NoReply`, also a
    `MemoryError`, means that only the reply is lost. An interrupt (Ctrl-C) at any moment leaves the network
    usable. The interrupted command is carried out or was never asked: `status`, `edges` and the transcript
    show which. A network that nothing refers to ends its program.
    """

    def __init__(
        self,
        rules: str = "manne",
        nodes: Union[int, Iterable[Name], Graph] = 0,
        *,
        present: Optional[int] = None,
        capacity: Optional[int] = None,
        program: Program = None,
        keep: bool = True,
        engine: Optional[str] = None,
    ) -> None:
        if rules not in ("hh", "manne"):
            raise ValueError(f"rules are 'hh' or 'manne', and not {rules!r}")
        graph = nodes if isinstance(nodes, Graph) else from_networkx(nodes) if is_networkx(nodes) else None
        names = cast("Union[int, Iterable[Name]]", graph.nodes if graph else nodes)
        self.rules, self._names, self._program = rules, Names(names, capacity), program
        count = self._names.given
        start = count if present is None else number_within(present, count, "a number of nodes that are present")
        held = library.chosen(engine, program)
        self._use(Direct(held, self._names, rules, start, keep) if held else self._run(start, keep))
        if graph and graph.edges:
            with self.batch() as batch:
                for a, b in graph.edges:
                    batch.link(a, b)

    @classmethod
    def resume(
        cls,
        transcript: Given,
        *,
        nodes: Optional[Iterable[Name]] = None,
        program: Program = None,
        keep: bool = True,
        engine: Optional[str] = None,
    ) -> Network:
        """A network that goes on where the run of a transcript ended; the transcript may be a base alone.

        `transcript` is given as to `audit`: a path, an open file, bytes, text or lines. The new network's
        transcript begins with the base at the end of the run, and its next entry has the next number:
        appended to the given transcript, it makes one transcript. `nodes` are the caller's names, in the
        order of the numbers, one for each node that was ever present. The rules and the capacity are the
        transcript's.

        Raises `Damaged` if `audit` refuses the transcript, `ValueError` if the number of names differs, and
        `OSError` if the file can't be read.
        """
        held = library.chosen(engine, program)
        net = cls.__new__(cls)
        with source_of(transcript) as source:
            net.rules, net._names = source.begun(nodes, program, engine)
            net._program = program
            net._use(Direct(held, net._names, net.rules, 0, keep, source.text) if held else net._run_from(source, keep))
        return net

    def _use(self, session: Union[Direct, Session]) -> None:
        self.engine = "library" if isinstance(session, Direct) else "program"
        self._session = session
        self._single = session.batch(keeps=False)
        self._follower = Follower(session)

    def _run(self, start: int, keep: bool) -> Session:
        rules, count = self.rules, self._names.count
        first = [] if start == count else [str(start)]
        header = " ".join(["matching", rules, str(count), *first]).encode()
        words = ["run", "--rules", rules, "--nodes", str(count), *(["--present", *first] if first else [])]
        return Session([found_program(self._program), *words], self._setting(header, keep))

    def _run_from(self, source: Source, keep: bool) -> Session:
        words = [found_program(self._program), "run", "--from", GIVEN]
        with source.opened() as file:
            try:
                return Session(words, self._setting(b"", keep), file)
            except Ended as ended:
                raise refusal_of(ended) from None

    def _setting(self, header: bytes, keep: bool) -> Setting:
        return Setting(self._names, header, f"matching2 {self.rules} {self._names.count}".encode(), keep)

    def __enter__(self) -> Network:
        return self

    def __exit__(self, kind: Optional[type[BaseException]], *_: object) -> None:
        if kind:
            self._session.kill()
        else:
            self.close()

    def __reduce__(self) -> NoReturn:
        raise TypeError(
            "a network belongs to one process and is not copied: replay makes another one of its transcript"
        )

    def __repr__(self) -> str:
        session = self._session
        wrong = session.trouble()
        stands = f", {wrong}" if wrong else ", closed" if session.is_closed else ""
        nodes, entries = counted(self._names.count, "node"), counted(session.entries, "entry", "entries")
        return f"<Network {self.rules}, {nodes}, {entries}{stands}>"

    def _repr_html_(self) -> str:
        return self._look(lambda state: drawings.html_of(repr(self), state, self._names))

    def close(self) -> None:
        """Ends the run, once all commands are carried out; the transcript stays.

        Raises `Ended` if the program ended badly.
        """
        self._session.close()

    @property
    def nodes(self) -> list[Name]:
        """All names, in the order of their numbers, whether present or not."""
        return self._names.all()

    @property
    def present(self) -> list[Name]:
        """The names of the present nodes, in the order of their numbers.

        The library answers this, `edges`, `neighbours` and `registers` from its state, whatever the length of
        the log. With the program, and after `close`, the answer is read from the transcript.
        """
        found = self._session.present()
        return [
            self.name_of(number)
            for number in (self._look(lambda state: sorted(state.neighbours)) if found is None else found)
        ]

    @property
    def edges(self) -> list[tuple[Name, Name]]:
        """The edges, in the order of their nodes' numbers, each with the node of the lower number first."""
        found = self._session.edges()
        return [(self.name_of(a), self.name_of(b)) for a, b in (self._look(State.edges) if found is None else found)]

    def neighbours(self, node: Name) -> list[Name]:
        """The neighbours of a present node, in the order of their numbers.

        Raises `ValueError` for any other node.
        """
        near = self._session.neighbours(self.number_of(node))
        if near is None:
            near = self._look_at(node, lambda state, number: sorted(state.neighbours[number]))
        elif not near:
            # an absent node has none either
            self.registers(node)
        return [self.name_of(number) for number in near]

    def registers(self, node: Name) -> Registers:
        """The registers of a present node. Raises `ValueError` for any other node."""
        found = self._session.registers(self.number_of(node))
        if found is None:
            pointer, flag = self._look_at(
                node, lambda state, number: (state.pointers.get(number, 0), number in state.flags)
            )
        elif found.present:
            pointer, flag = found.pointer, found.flag
        else:
            raise self._absent(node)
        return Registers(self._names.named(pointer or None), flag)

    def partner(self, node: Name) -> Optional[Name]:
        """The partner of a present node, or None. Raises `ValueError` for any other node.

        The library's answer is proved. With the program, and after `close`, the answer is read from the
        transcript.
        """
        found = self._session.partner(self.number_of(node))
        if found:
            return self.name_of(found)
        followed = self._look_at(node, State.partner)
        return None if found == 0 else self._names.named(followed)

    def number_of(self, name: Name) -> int:
        """The number of a name in the transcript.

        A number from 1 to 65,535 is its own number, also if no node has it; the network then refuses it.
        Raises `ValueError` for another number or an unknown name, and `TypeError` for what can be no name.
        """
        return self._names.number_of(name)

    def name_of(self, number: int) -> Name:
        """The name of the node with this number in the transcript."""
        return self._names.name_of(number)

    def follower(self, make: Callable[[], State] = State) -> Follower:
        """Follows the network's state by node number: for daemons that look at the whole state.

        The state that is followed is made by `make`.
        """
        return Follower(self._session, make)

    def batch(self, raises: bool = True) -> Batch:
        """Commands that do not wait for each other: `with net.batch() as batch:`, then `batch.link(1, 2)`."""
        return self._session.batch(raises)

    def link(self, a: Name, b: Name) -> Accepted:
        """Adds an edge."""
        return self._single.link(a, b).result()

    def unlink(self, a: Name, b: Name) -> Accepted:
        """Removes an edge, and clears the pointers that crossed it."""
        return self._single.unlink(a, b).result()

    def point(self, node: Name, target: Optional[Name]) -> Accepted:
        """A fault: sets the node's pointer to a neighbour, or to null (None)."""
        return self._single.point(node, target).result()

    def flag(self, node: Name, value: bool) -> Accepted:
        """A fault: writes the node's married flag (`manne` only)."""
        return self._single.flag(node, value).result()

    def join(self, node: Name) -> Accepted:
        """An absent node becomes present, without edges, its pointer null and its flag false.

        A new name gets the next free number. Raises `ValueError` if the capacity is used up, and `Refused` if
        the name is present already.
        """
        return self._single.join(node).result()

    def leave(self, node: Name) -> Accepted:
        """A node leaves, with its edges and the pointers at it; its name may join again."""
        return self._single.leave(node).result()

    def step(self, choice: Choice) -> Moves:
        """These nodes move at once, each by its rule.

        An item is a name, or `Wish(node, target)` to choose the target.
        """
        return self._single.step(choice).result()

    def show(self, node: Name) -> Shown:
        """Where a node points."""
        return self._single.show(node).result()

    def enabled(self) -> Enabled:
        """The enabled nodes, each with its rule."""
        return self._single.enabled().result()

    def matching(self) -> Matching:
        """The pairs of nodes that point at each other."""
        return self._single.matching().result()

    def status(self) -> Status:
        """Counts of nodes, edges, pairs and enabled nodes; the charge; moves since the last disturbance."""
        return self._single.status().result()

    def drive(self, seed: int, turns: int) -> Turns[Moves]:
        """Makes up to `turns` steps of the program's seeded daemon, until silence; then asks for the status.

        `seed` is 0 to 2^64 - 1, `turns` 0 to 1,000,000. The status is an entry too.
        """
        return self._single.drive(seed, turns).result()

    def scramble(self, seed: int, faults: int) -> Turns[Fault]:
        """Makes this many faults of registers, drawn from a seed; then asks for the status, an entry too.

        `seed` is 0 to 2^64 - 1, `faults` 0 to 1,000,000.
        """
        return self._single.scramble(seed, faults).result()

    def checkpoint(self, path: Union[str, os.PathLike[str], None] = None) -> Base:
        """Adds the lines of a base, which are no entry, to the transcript; returns the current state.

        With a path the base is also written to a file, from which `resume` goes on. The file is replaced whole
        or not at all, and is on the disk when the call returns. Raises `OSError` if it cannot be written; the
        transcript then has the base, and a file at that path is unchanged.
        """
        if path is None:
            return self._single.checkpoint().result()
        base, lines = self._single._written_base()
        write_whole(path, lines, flushes=True)
        return base

    def renumber(self) -> str:
        """Ends the transcript, and goes on in the same state with a new one, whose entries count from 1.

        Returns the transcript that ends: its last lines are the base of the state. The network's transcript
        then begins with the base of the same state, numbered 0; the moves spent are kept. `audit` accepts
        both. A log takes 16,777,216 entries: called before it is full, this lets a network run for weeks.
        With `keep=False` the returned text begins at the last checkpoint.

        Raises `MemoryError` if memory runs out; then nothing has changed. With `NoReply`, also a
        `MemoryError`, the network goes on anew, and the next `renumber` returns this text before its own.
        Raises `NoSuchCommand` with a program.
        """
        return self._session.renumber()

    def cost_of(self, word: str, *given: Name) -> int:
        """The cost in moves of an edit or a fault if it came now: `net.cost_of("unlink", "ann", "bob")`.

        The words are `link`, `unlink`, `join`, `leave`, `point` and `flag`. The charge would grow by at most
        this much. The call changes nothing and adds no entry. Raises `ValueError` for an event that would be
        refused, such as the unlinking of unlinked nodes, `TypeError` for a wrong number of words, and
        `NoSuchCommand` with a program.
        """
        cost = self._asked_cost(self._session.cost_of, word, given)
        assert cost is not None
        return cost

    def silent_cost_of(self, word: str, *given: Name) -> Optional[int]:
        """The most moves that an edit or a fault of a silent network can cause; None if a rule is enabled.

        The words are those of `cost_of`. Only unpaired neighbours count. Under `hh` the silent cost is at
        most `cost_of`. Under `manne` it is at most that cost plus 2 if a new pair may form, plus 1 for
        `leave`. The call changes nothing and adds no entry. Raises what `cost_of` raises.
        """
        return self._asked_cost(self._session.silent_cost_of, word, given)

    def _asked_cost(
        self, ask: Callable[[str, Sequence[int]], Optional[int]], word: str, given: tuple[Name, ...]
    ) -> Optional[int]:
        numbers = numbers_of_edit(self._names, word, given)
        cost = ask(word, numbers)
        if cost == 0:
            # some edits and faults cost nothing, and the library returns 0 for refused ones too
            why = self._look(lambda state: why_refused(state, word, *numbers))
            if why:
                raise ValueError(f"{' '.join([word, *map(repr, given)])} would be refused ({why}), so it has no cost")
        return cost

    def reach(self, word: str, *given: Name) -> set[Name]:
        """The nodes that an edit or a fault would reach if it came now: `net.reach("unlink", "ann", "bob")`.

        The words are those of `cost_of`. Every other node at rest stays at rest. Empty for an event that
        would be refused. No entry is added. Raises `ValueError` for another word or an unknown name,
        `TypeError` for a wrong number of words, and `NoSuchCommand` with a program.
        """
        numbers = numbers_of_edit(self._names, word, given, "reach")
        return set(map(self.name_of, self._session.reach(word, numbers)))

    def is_at_rest(self, node: Name) -> bool:
        """Whether a node stays still until an edit or a fault reaches it, whatever the daemon chooses.

        An absent node is at rest. No entry is added. Raises `ValueError` for an unknown name, and
        `NoSuchCommand` with a program.
        """
        return self._session.is_at_rest(self.number_of(node))

    def restless(self) -> list[Name]:
        """The nodes not at rest, in order of number; only these may move before the next disturbance.

        Raises `NoSuchCommand` with a program.
        """
        return [self.name_of(number) for number in self._session.restless()]

    def moves_left(self) -> int:
        """The most moves before the next edit or fault, whatever the daemon chooses.

        This is 0 if the network is silent; else the charge, but under `hh` at most n²/2 + n - 2 for n nodes,
        the half rounded down. The library adds no entry. A program is asked for the `status`, which adds one.
        """
        found = self._session.moves_left()
        if found is not None:
            return found
        status = self.status()
        return moves_left(self.rules, status.charge, status.nodes) if status.enabled else 0

    def count_rounds(self) -> None:
        """Counts rounds from here on, or from here anew.

        A round is the shortest part of a run after which each node that was enabled at its start has moved, or
        was not enabled in some state since. An accepted edit or fault cuts it off. A resumed network counts no
        rounds before this call; `renumber` changes no count. From then on a step costs a look or two more at each
        node that moves and at each that it disables. No entry is added. Raises `MemoryError` if memory runs out;
        then nothing has changed. Raises `NoSuchCommand` with a program.
        """
        self._session.count_rounds()

    def rounds(self) -> int:
        """How many rounds are complete since the last accepted edit or fault, or since `count_rounds`.

        No entry is added. Constant time. Raises `NotCounted` before `count_rounds`, and `NoSuchCommand` with a
        program.
        """
        return self._session.rounds()

    def rounds_left(self) -> int:
        """The most rounds that can be completed before the next edit or fault, whatever the daemon chooses.

        This is 0 if the network is silent, and at most `moves_left()`. Those complete and those left are together
        at most n of n nodes under `hh`, and 2n under `manne`, or 2n - 1 if n is odd. No entry is added. Raises
        `NotCounted` before `count_rounds`, and `NoSuchCommand` with a program.
        """
        return self._session.rounds_left()

    def settle(self, daemon: Union[Daemon, AnyDaemon, str], *, seed: int = 0) -> Settled:
        """Lets a daemon choose the movers until the network is silent; returns steps, moves and first charge.

        The daemon is called with a mapping from each enabled node to its rule, and returns the nodes that are
        to move, each as a name or a `Wish`. A daemon of `rudekpi.daemons` is given as a value or by its word,
        such as "seeded", with a `seed`. The transcript gets a `status` first, and an `enabled` before each
        step and at the end; with `Greedy` only at the end.

        Raises `TypeError` if `daemon` is none, and `WrongChoice` if the daemon chooses no node or a node that
        is not enabled. Raises `Refused` if the network refuses the choice for another reason (two nodes under
        `hh`), and `PastBound` if there are more moves than the charge.
        """
        if isinstance(daemon, str):
            daemon = named(daemon, number_within(seed, MOST_SEED, "a seed"))
        check_daemon(daemon)
        if isinstance(daemon, Seeded):
            return daemon.settle(self)
        choose = daemon.begin(self) if hasattr(daemon, "begin") else cast(Daemon, daemon)
        if isinstance(choose, GreedyChoice):
            return choose.settle()
        charge, steps, moves = self.status().charge, 0, 0
        while True:
            enabled = self.enabled()
            if not enabled:
                return Settled(steps, moves, charge)
            if moves >= charge:
                raise PastBound(
                    f"{counted(len(enabled), 'node is', 'nodes are')} enabled after {counted(moves, 'move')}, "
                    "as many as the charge was: who disturbs?"
                )
            moves += len(self.step(checked_choice(choose(enabled), enabled)))
            steps += 1

    def transcript(self) -> str:
        """The program's output to the byte, in whole lines, once all commands are carried out.

        With `keep=False` it begins at the last checkpoint.
        """
        self._session.wait_for_all()
        return self._session.text()

    def audit(self) -> Summary:
        """The verdict of `audit` on the transcript."""
        return audits.audit(self.transcript(), program=self._program, engine=self.engine)

    def picture(self, entry: Optional[int] = None) -> str:
        """The network after an entry, by default the last, as text for Graphviz, with the caller's names.

        An entry is 0 to 16,777,216. Raises `ValueError` if there is no such entry.
        """
        return named_picture(audits.picture(self.transcript(), entry, program=self._program), self._names)

    def play(self, path: Union[str, os.PathLike[str]]) -> None:
        """Writes a page that plays the transcript in a browser, with the caller's names.

        Raises `OSError` if the page cannot be written; a file at that path is then unchanged, or absent.
        """
        drawings.write_page(self.transcript(), path, self._program, self._names)

    def save(self, path: Union[str, os.PathLike[str]]) -> None:
        """Writes the transcript, and the caller's own names, if any, to `PATH.names`: see `read_names`.

        Raises `ValueError` if two names would be the same in a file, and `OSError`; each file is whole or
        unchanged.
        """
        names = None if self._names.own is None else names_text(self._names.all())
        write_whole(path, self.transcript().encode())
        if names is not None:
            write_whole(f"{os.fspath(path)}.names", names.encode())

    def to_networkx(self) -> Any:
        """The present nodes and their edges as a `networkx.Graph`, with the caller's names. Needs networkx.

        Nodes have the attributes `pointer` and `flag`. Edges have `pair`: whether their two nodes are paired.
        """
        import networkx

        graph = networkx.Graph()
        self._look(lambda state: self._add_to(graph, state))
        return graph

    def _add_to(self, graph: Any, state: State) -> None:
        name_of = self.name_of
        for node in sorted(state.neighbours):
            graph.add_node(name_of(node), pointer=self._names.named(state.pointers.get(node)), flag=node in state.flags)
        for a, b in state.edges():
            graph.add_edge(name_of(a), name_of(b), pair=state.partner(a) == b)

    @classmethod
    def from_networkx(
        cls,
        graph: Any,
        rules: str = "manne",
        *,
        spare: int = 0,
        program: Program = None,
        keep: bool = True,
        engine: Optional[str] = None,
    ) -> Network:
        """A network with the nodes and edges of a simple undirected `networkx.Graph`, all pointers null.

        `spare` nodes may join under new names. Raises `ValueError` for a directed graph, a multigraph or a
        loop.
        """
        if graph.is_directed() or graph.is_multigraph():
            raise ValueError("a simple undirected graph is wanted: see to_undirected and networkx.Graph")
        if any(a == b for a, b in graph.edges):
            raise ValueError("an edge joins a node with itself")
        nodes = list(graph.nodes)
        capacity = len(nodes) + number_within(spare, MOST_NODES, "a number of nodes that may come")
        net = cls(rules, nodes, capacity=capacity, program=program, keep=keep, engine=engine)
        with net.batch() as batch:
            for a, b in graph.edges:
                batch.link(a, b)
        return net

    def _look(self, see: Callable[[State], Seen]) -> Seen:
        """The result of a function on the state after all commands are carried out."""
        return self._follower.look(see)

    def _look_at(self, node: Name, see: Callable[[State, int], Seen]) -> Seen:
        number = self.number_of(node)

        def look(state: State) -> Seen:
            if number not in state.neighbours:
                raise self._absent(node)
            return see(state, number)

        return self._look(look)

    def _absent(self, node: Name) -> ValueError:
        return ValueError(f"node {node!r} is not present")

    def _played(self, events: Iterable[str]) -> str:
        for event in events:
            self._session.tell(event)
        return self.transcript()
