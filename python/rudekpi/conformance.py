"""Judges the log of your own implementation: whether the rules allow each move observed.

The machine judges each move: it is asked to make the move as a step with the same target. Its answer is a
refusal, the moves that it makes, or its list of enabled nodes. The registers followed here choose the
question and explain the answer.
"""

from __future__ import annotations

import contextlib
from dataclasses import dataclass, replace
from typing import Any, Callable, Iterator, Mapping, Optional, Sequence

from . import log_lines, rules
from .ages import Histories, PairAges
from .divergences import Diagnosis, Divergence, Judged, LogPosition, refusal_text
from .engines import RULES, Engine, Stand, base_of, engine_of
from .errors import BadLine, Ended, Garbled
from .findings import Finding, Findings, LastMove, without_locks
from .library import MOVES
from .liveness import Waiting, longest
from .log_inputs import Flaw, Input, opened_input
from .log_lines import Log, spelled
from .log_names import Named
from .log_places import where
from .log_running import OnNote, Repeated, Running
from .log_times import time_of
from .log_transcripts import Target, Transcript
from .move_tallies import STALE, WRONG, MoveTallies, MoveTally
from .numbers import MOST_NODES
from .observed_moves import ABANDON, CHOOSING, UPDATE, Observed, is_allowed, is_plain, observed, rule_of
from .program import Program
from .replies import Name
from .stale_reads import StaleReads
from .state import State
from .usual_lines import UsualLines, written
from .usual_views import UsualViews
from .views import Rule, View, read_view, rule_on_views

# how many lines back a stale copy is guessed at
AGE = 100
# how many writes may wait until they are taken to their nodes' histories
MOST_LATEST = 1 << 12


@dataclass(frozen=True)
class Conformance:
    """The verdict on a log.

    `moves` counts the accepted moves by rule; `first` is the first divergence. `stand` is the machine's last
    status; its `charge` plus the moves spent since the last edit or fault is within `bound`. `names` are the
    log's, in the order of the numbers. If no fault could write what was observed, `stopped` says why, and the
    rest was not judged.

    `viewed` counts the moves with a `saw`. Of these, `wrong_views` broke the rule on what their nodes saw, and
    `stale_moves` followed it, but the machine refused them. `tallies` has the nodes and rules with such moves
    or divergences, if the judge went on after a divergence. `ages` has the pairs of nodes with stale reads, if
    it judged by views.

    `bad_lines` counts the lines that were passed over, `twice` the links that both ends logged, `crossed` the
    pointers across a removed link, and `stuck` the waits that were too long; `cut_line` is the number of a
    last line that is cut, or 0. `waiting` are the enabled nodes of a log that was judged to its end, at most
    ten, with the longest wait first. `findings` say what explains the wrong moves of each node, if the judge
    went on after a divergence, or the stale reads that are all about one node.
    """

    rules: str
    names: tuple[Name, ...]
    events: int
    edits: int
    faults: int
    moves: Mapping[str, int]
    divergences: int
    first: Optional[Divergence]
    stopped: str
    stand: Stand
    bound: int
    viewed: int = 0
    wrong_views: int = 0
    stale_moves: int = 0
    tallies: tuple[MoveTally, ...] = ()
    ages: tuple[PairAges, ...] = ()
    bad_lines: int = 0
    twice: int = 0
    crossed: int = 0
    stuck: int = 0
    cut_line: int = 0
    waiting: tuple[Waiting, ...] = ()
    findings: tuple[Finding, ...] = ()

    @property
    def is_accepted(self) -> bool:
        return not self.divergences and not self.bad_lines

    def __bool__(self) -> bool:
        return self.is_accepted


class LogJudge:
    """Judges a log line by line; the options are those of `conform`."""

    def __init__(
        self,
        rules: str,
        *,
        resync: bool = False,
        views: bool = False,
        age: int = AGE,
        ignore_extra: bool = False,
        keeps: bool = False,
        stuck: Optional[float] = None,
        on_divergence: Optional[Callable[[Divergence], object]] = None,
        on_note: OnNote = None,
        program: Program = None,
        engine: Optional[str] = None,
    ) -> None:
        if rules not in ("hh", "manne"):
            raise ValueError(f"rules are 'hh' or 'manne', and not {rules!r}")
        if type(age) is not int or age < 0:
            raise ValueError(f"an age is how many lines, 0 or more, and not {age!r}")
        self.rules, self.resync, self.keeps, self.on_divergence = (rules, resync or views, keeps, on_divergence)
        self.views, self.age, self.ignore_extra = views, age, ignore_extra
        self.skips_bad_lines = resync
        self.made_of = program, engine
        self.named: Optional[Named] = None
        self.has_flags = rules == "manne"
        self.machine: Engine
        self.state: State
        self.events = self.edits = self.faults = self.divergences = 0
        self.counts = [0] * len(MOVES)
        self.first: Optional[Divergence] = None
        self.stopped, self.is_over, self.is_closed = "", False, False
        # the verdict up to an interrupt
        self.so_far: Optional[Conformance] = None
        # the present line, or its value, and its time
        self.line: Any = None
        self.time: Optional[float] = None
        self.past: Histories
        self.rule: Rule
        self.views_read: UsualViews
        self.usual: UsualLines
        self.reads: StaleReads
        self.diagnosis: Diagnosis
        self.viewed = self.wrong_views = self.stale_moves = 0
        self.tallies = MoveTallies()
        # pointers across links that are gone, which the machine does not hold: of stale views alone
        self.dangling: dict[int, int] = {}
        # the last move of each node with a view, and its line and view
        self.last_seen: dict[int, LastMove] = {}
        self.findings = Findings(rules, self.name)
        self.running = Running(stuck, on_note, self.shown)

    def take(self, block: log_lines.Block) -> None:
        """Judges the next lines, until a divergence ends the judging. Raises `BadLine`, unless it goes on."""
        lines = iter(block)
        self.running.arrive()
        while not self.is_over:
            try:
                self.take_lines(lines)
                break
            except Repeated:
                pass
            except BadLine as bad:
                if not self.goes_on():
                    raise
                self.running.pass_over(bad)
        if self.running.waits:
            self.running.waits.settle()
        if self.named and len(self.past.latest) > MOST_LATEST:
            self.past.shorten(is_read=self.viewed > 0)

    def goes_on(self) -> bool:
        """Whether a bad line is passed over."""
        return self.skips_bad_lines and self.named is not None

    def take_lines(self, lines: Iterator[tuple[int, Any]]) -> None:
        running = self.running
        for here in lines:
            if self.is_over:
                return
            if running.waits:
                running.waits.settle()
            running.here = here
            number, line = here
            self.line = line
            if type(line) is bytes:
                if self.named and (self.take_register(number, line) or self.take_rarer(number, line, self.named)):
                    self.events += 1
                    continue
            elif type(line) is Flaw:
                running.take_flaw(number, line, self.goes_on())
                continue
            self.line = event = log_lines.value_of(number, line)
            running.here = number, time_of(event)
            if self.named is None:
                self.begin(number, event)
                continue
            self.take_event(number, event, self.named)
            self.events += 1

    def take_register(self, number: int, line: bytes) -> bool:
        """Judges a line that names one register; returns False if it is not in the usual spelling."""
        usual, stamp, view = self.usual, None, None
        # a second brace begins what the node saw
        at = line.find(b"{", 1) + 1
        write = usual.known.get(line[:at] if at else line)
        if write is None:
            write, stamp = usual.register(line, at)
            if write is None:
                return False
        node, new, flag, is_move = write
        if at:
            text = line if line.endswith(b"}") else line[:-1]
            view = self.views_read.view(node, text[at:-3]) if text.endswith(b"]}}") else None
            if view is None:
                return False
        self.time = None if stamp is None else float(stamp)
        state = self.state
        old, was = state.pointers.get(node, 0), node in state.flags
        if self.dangling:
            old = old or self.dangling.get(node, 0)
        seen = written(node, old, was, new, flag)
        if view:
            self.move_seen(number, seen, view)
        elif is_move:
            self.move(number, seen)
        else:
            self.fault(number, seen, new >= 0, new < 0)
        return True

    def take_rarer(self, number: int, line: bytes, named: Named) -> bool:
        """Judges an edge, or several moves at once, in the usual spelling; returns False for other lines."""
        edge = log_lines.EDGE.fullmatch(line)
        if edge:
            a, b = named.raw.get(edge[3]), named.raw.get(edge[4])
            if a and b:
                self.time = None if edge[1] is None else float(edge[1])
                self.edit_numbers(number, edge[2].decode(), [a, b], named)
            return bool(a and b)
        found = self.usual.moves(line)
        if found:
            self.time = None if found.stamp is None else float(found.stamp)
            seen = [written(it.node, *self.held(it.node), it.pointer, it.flag) for it in found.writes]
            self.moves(number, seen, found.views)
        return found is not None

    def held(self, node: int) -> tuple[int, bool]:
        """A node's registers, a pointer across a link that is gone included."""
        state = self.state
        return state.pointers.get(node, 0) or self.dangling.get(node, 0), node in state.flags

    def begin(self, number: int, head: Any) -> None:
        named = Named(number, head, self.ignore_extra)
        present, count = named.present, len(named.all)
        base = base_of(self.rules, named.capacity, present) if len(present) < count else None
        self.machine = engine_of(self.rules, named.capacity, count, self.keeps, *self.made_of, base)
        self.state = State(self.rules, named.capacity, present)
        self.named = named
        self.past = Histories(named.capacity, self.age)
        self.rule = rule_on_views(self.rules, *self.made_of)
        self.reads = StaleReads(self.state, self.past, self.dangling, self.shown, self.name)
        self.views_read = UsualViews(self.state, named.raw, self.held, self.reads.table)
        self.usual = UsualLines(named.raw, self.views_read)
        self.diagnosis = Diagnosis(self.state, self.past, self.reads, self.age, self.shown, self.name)
        self.running.begin(self.state)

    def take_event(self, number: int, event: Any, named: Named) -> None:
        kind = log_lines.kind_of(number, event, self.ignore_extra)
        self.time = time_of(event)
        if kind == "move":
            seen = self.observed(number, event, "move", named)
            if "saw" in event:
                view = read_view(number, event["saw"], named, self.has_flags)
                self.move_seen(number, seen, view)
            else:
                self.move(number, seen)
        elif kind == "moves":
            self.moves(number, *self.all_observed(number, event["moves"], named))
        elif kind == "fault":
            self.fault(number, self.observed(number, event, "fault", named), "pointer" in event, "flag" in event)
        else:
            self.edit(number, event, kind, named)

    def observed(self, number: int, event: Any, kind: str, named: Named) -> Observed:
        node = named.number(number, event[kind])
        old, was = self.held(node)
        new, flag = old, was
        if "pointer" in event:
            target = event["pointer"]
            new = 0 if target is None else named.number(number, target)
        elif "flag" not in event:
            raise BadLine(number, f"a {kind} names what was written: a pointer, a flag, or both")
        if "flag" in event:
            flag = event["flag"]
            if flag is not True and flag is not False:
                raise BadLine(number, f"a flag is true or false, and not {spelled(flag)}")
        return observed(node, old, new, was, flag)

    def all_observed(
        self, number: int, moves: Any, named: Named
    ) -> tuple[Sequence[Observed], Sequence[Optional[View]]]:
        if not isinstance(moves, (list, tuple)) or not moves:
            raise BadLine(number, f"moves is a list of one move or more, and not {spelled(moves)}")
        if len(moves) > MOST_NODES:
            raise BadLine(number, f"{len(moves)} moves are more than a step takes, which is {MOST_NODES}")
        found = []
        views: list[Optional[View]] = []
        for at, move in enumerate(moves, 1):
            try:
                if not is_plain(move) and log_lines.kind_of(number, move, self.ignore_extra) != "move":
                    raise BadLine(number, f"in moves stand moves alone, and not {spelled(move)}")
                found.append(self.observed(number, move, "move", named))
                view = read_view(number, move["saw"], named, self.has_flags) if "saw" in move else None
                views.append(view)
            except BadLine as error:
                raise BadLine(number, f"move {at} of the line: {error.why}") from None
        return found, views

    def edit(self, number: int, event: Any, kind: str, named: Named) -> None:
        """Raises `BadLine` if the machine refuses the edit."""
        given = event[kind]
        if kind in ("link", "unlink"):
            if not isinstance(given, (list, tuple)) or len(given) != 2:
                raise BadLine(number, f"{kind} has a list of two names, and not {spelled(given)}")
            numbers = [named.number(number, name) for name in given]
        elif kind == "join" and type(given) in (str, int) and given not in named.numbers:
            numbers = [named.add(number, given)]
        else:
            numbers = [named.number(number, given)]
        self.edit_numbers(number, kind, numbers, named)

    def edit_numbers(self, number: int, kind: str, numbers: Sequence[int], named: Named) -> None:
        refusal = self.machine.edit(kind, *numbers)
        if refusal:
            self.running.expect_new(number, kind, numbers)
            names = " and ".join(map(named.shown, numbers))
            raise BadLine(number, f"the machine refuses to {kind} {names}: {refusal_text(refusal)}")
        self.remember(number, kind, numbers)
        self.running.edited(kind, numbers, self.state)
        getattr(self.state, kind)(*numbers)
        if self.dangling:
            self.take_dangling(kind, numbers)
        self.edits += 1

    def remember(self, number: int, kind: str, numbers: Sequence[int]) -> None:
        """Remembers an edit, before it is made, with the registers that it clears."""
        state, node, past = self.state, numbers[0], self.past
        if kind == "link":
            past.link(number, self.time, node, numbers[1], True)
        for other in numbers[1:] if kind == "unlink" else state.neighbours[node] if kind == "leave" else ():
            past.link(number, self.time, node, other, False)
            for one, end in ((node, other), (other, node)):
                self.reads.table.forget(one, end)
                if state.pointers.get(one) == end:
                    self.remember_write(number, one, 0, one in state.flags)
        if kind == "leave" and (node in state.flags or node in self.dangling):
            self.remember_write(number, node, 0, False)

    def take_dangling(self, kind: str, numbers: Sequence[int]) -> None:
        """After an edit the machine takes over the pointers that cross a new link."""
        if kind == "leave":
            self.dangling.pop(numbers[0], None)
        for node, other in (numbers, numbers[::-1]) if kind == "link" else ():
            if self.dangling.get(node) == other and not self.machine.edit("point", node, other):
                self.state.point(node, self.dangling.pop(node))

    def fault(self, number: int, seen: Observed, has_pointer: bool, has_flag: bool) -> None:
        """Writes registers. Raises `BadLine` if no fault can write them."""
        # a flag under `hh` is refused before anything is written
        is_flag_first = has_flag and not self.has_flags
        refusal = self.machine.edit("flag", seen.node, int(seen.flag)) if is_flag_first else 0
        if has_pointer and not refusal:
            refusal = self.machine.edit("point", seen.node, seen.new)
        if has_flag and not refusal:
            refusal = self.machine.edit("flag", seen.node, int(seen.flag))
        if refusal:
            crossing = self.running.crossing(number, seen.node, seen.new)
            why = f"{refusal_text(refusal)}{crossing and '; '}{crossing}"
            raise BadLine(number, f"the machine refuses this fault ({self.diagnosis.wrote(seen)}): {why}")
        if has_pointer and self.dangling:
            self.dangling.pop(seen.node, None)
        self.write(number, seen, False)
        self.faults += 1

    def write(self, number: int, seen: Observed, moved: bool = True) -> None:
        node, old, new, was, flag, _, _ = seen
        running, state = self.running, self.state
        running.registers[node] = here = running.here
        if running.waits:
            running.waits.mark(here, (node,), moved)
        if flag != was:
            state.flag(node, flag)
        if new == old:
            if flag == was:
                return
        elif new:
            state.pointers[node] = new
        else:
            state.pointers.pop(node, None)
        self.past.latest.append((node, number, self.time, new, flag, old, was))
        if self.views_read.texts:
            self.views_read.follow(node, new, flag)

    def remember_write(self, number: int, node: int, pointer: int, flag: bool) -> None:
        """Remembers what a node holds from this line on."""
        self.past.write(number, self.time, node, pointer, flag, self.held(node))
        self.views_read.forget(node)

    def move(self, number: int, seen: Observed) -> None:
        """Asks the machine to make a move; a refusal is a divergence."""
        rule = self.asked(number, seen)
        if rule <= 0:
            return self.diverge(number, [Judged(seen, None, 0)], -rule)
        self.counts[rule] += 1
        if self.resync:
            self.tallies.move(seen.node, rule)
        self.write(number, seen)

    def asked(self, number: int, seen: Observed) -> int:
        """The rule of a move that the machine makes; else minus its refusal, 0 if it could not be asked."""
        node, _, _, _, _, wish, expected = seen
        if self.dangling and node in self.dangling:
            return 0
        if not wish and not self.can_be_asked(seen):
            self.check_enabled(number, seen)
            return 0
        rule = self.machine.moved(node, wish)
        if rule != expected and rule > 0 and (expected or rule not in CHOOSING):
            raise Garbled(f"line {number}: the machine moved by {MOVES[rule]}")
        return rule

    def move_seen(self, number: int, seen: Observed, view: View) -> None:
        """Judges a move by what its node saw, and has the machine make it."""
        verdict = self.rule.verdict(seen, view)
        self.viewed += 1
        if self.views:
            self.reads.count(number, self.time, seen.node, view)
        rule = self.asked(number, seen)
        if rule > 0 and verdict > 0:
            self.counts[rule] += 1
            if self.resync:
                self.tallies.move(seen.node, verdict)
            self.write(number, seen)
        else:
            self.settle(number, [Judged(seen, view, verdict)], -rule, [rule] if rule > 0 else [])
        self.last_seen[seen.node] = number, seen, view, self.time

    def moves(self, number: int, seen: Sequence[Observed], views: Sequence[Optional[View]]) -> None:
        if not any(views):
            return self.moves_unseen(number, seen)
        judged = [Judged(it, view, self.rule.verdict(it, view) if view else 0) for it, view in zip(seen, views)]
        for it, view, _ in judged:
            if view:
                self.viewed += 1
                if self.views:
                    self.reads.count(number, self.time, it.node, view)
        self.settle(number, judged, *self.asked_at_once(number, seen))
        for it, view, _ in judged:
            if view:
                self.last_seen[it.node] = number, it, view, self.time

    def moves_unseen(self, number: int, seen: Sequence[Observed]) -> None:
        """Several moves at once, without what their nodes saw."""
        refusal, made = self.asked_at_once(number, seen)
        if not made:
            return self.settle(number, [Judged(it, None, 0) for it in seen], refusal, made)
        for it, rule in zip(seen, made):
            self.counts[rule] += 1
            if self.resync:
                self.tallies.move(it.node, rule)
            self.write(number, it)

    def asked_at_once(self, number: int, seen: Sequence[Observed]) -> tuple[int, Sequence[int]]:
        """The machine's refusal, 0 if it could not be asked; and, if it made the moves, their rules."""
        is_central = not self.has_flags and len(seen) > 1
        if self.dangling and any(it.node in self.dangling for it in seen):
            return 0, []
        odd = None if is_central else next((it for it in seen if not self.can_be_asked(it)), None)
        if odd:
            self.check_enabled(number, odd)
            return 0, []
        refusal, moves = self.machine.step([(it.node, it.wish) for it in seen])
        made = {node: rule for node, rule, _ in moves}
        for it in seen if not refusal else ():
            rule = made[it.node]
            if rule != it.rule and (it.rule or rule not in CHOOSING):
                raise Garbled(f"line {number}: the machine's moves are {moves}")
        return refusal, [] if refusal else [made[it.node] for it in seen]

    def settle(self, number: int, judged: Sequence[Judged], refusal: int, made: Sequence[int]) -> None:
        """Reports moves that are wrong; follows those that the machine made, and writes others as faults."""
        wrong = [it for it in judged if it.view and it.verdict <= 0]
        self.wrong_views += len(wrong)
        reported = [it for it in wrong if self.views] + ([] if made or not self.views else self.by_order(judged))
        if not made and (not self.views or not (reported or any(it.view for it in judged))):
            return self.diverge(number, judged, refusal)
        for it in reported:
            self.report(number, [it], refusal, it.seen)
        told = {id(it) for it in reported}
        for at, it in enumerate(judged):
            if made:
                self.counts[made[at]] += 1
            if self.resync and id(it) not in told:
                self.tally(it, bool(made), made[at] if made else 0)
            if made:
                self.write(number, it.seen)
        for it in judged if not made else ():
            if not self.is_over:
                self.write_as_fault(number, it.seen)

    def by_order(self, judged: Sequence[Judged]) -> list[Judged]:
        """The moves without a view that the rules do not allow, and those of nodes that are not present."""
        return [
            it
            for it in judged
            if (not it.view and not is_allowed(self.state, it.seen))
            or (it.view and it.verdict > 0 and it.seen.node not in self.state.neighbours)
        ]

    def tally(self, it: Judged, is_made: bool, rule: int) -> None:
        """Counts a move that is not reported; if the machine refused it, then its view was stale."""
        is_stale = not is_made and it.view and it.seen.node in self.state.neighbours
        rule = it.verdict if it.view and it.verdict > 0 else rule or self.rule_for(it.seen)
        if is_stale and (it.seen.node in self.dangling or not is_allowed(self.state, it.seen)):
            self.stale_moves += 1
            self.tallies.diverge(it.seen.node, rule, STALE)
        else:
            self.tallies.move(it.seen.node, rule)

    def can_be_asked(self, seen: Observed) -> bool:
        """Whether a step that the machine accepts must be the one observed.

        A step with a target must be. In a step without a target the machine chooses the rule. If that seems
        not to be the observed rule, the machine is asked for its enabled nodes instead.
        """
        node, old, _, was, _, wish, rule = seen
        if wish:
            return True
        if not self.has_flags:
            return rule == ABANDON
        is_wrong = was != (old != 0 and self.state.pointers.get(old) == node)
        return rule == (UPDATE if is_wrong else ABANDON)

    def check_enabled(self, number: int, odd: Observed) -> None:
        """Asks for the enabled nodes, if a move is by no rule, or not by the enabled one."""
        rule = self.machine.enabled().get(odd.node)
        if rule and RULES[rule] == odd.rule:
            raise Garbled(f"line {number}: the machine has {rule} enabled at {self.shown(odd.node)}")

    def diverge(self, number: int, judged: Sequence[Judged], refusal: int) -> None:
        """Reports moves that the machine refuses; writes them as faults if the judge goes on."""
        bad = self.diagnosis.bad_of(judged) or judged[0]
        self.report(number, judged, refusal, bad.seen)
        if not self.resync:
            self.is_over = True
            return
        for it in judged:
            if it is not bad:
                self.tallies.move(it.seen.node, self.rule_for(it.seen))
        for it in judged:
            if not self.is_over:
                self.write_as_fault(number, it.seen)

    def report(self, number: int, judged: Sequence[Judged], refusal: int, bad: Observed) -> None:
        place = LogPosition(number, self.time, self.line, self.machine.entry())
        found = self.diagnosis.divergence(place, judged, refusal, self.last_seen)
        is_unexplained = found.kind == "order" and not found.hint
        crossing = self.running.crossing(number, bad.node, bad.new) if is_unexplained else ""
        found = replace(found, hint=crossing) if crossing else found
        self.divergences += 1
        self.first = self.first or found
        if found.kind == "rule":
            wrong = next(it for it in judged if it.seen is bad or it.seen == bad)
            if wrong.view:
                self.findings.add(number, self.time, bad, wrong.view, self.last_seen.get(bad.node))
        is_stale = found.kind == "stale" or (found.kind == "order" and found.hint)
        if found.kind == "stale":
            self.stale_moves += 1
        self.tallies.diverge(bad.node, self.rule_for(bad), STALE if is_stale else WRONG)
        if self.on_divergence:
            self.on_divergence(found)

    def rule_for(self, seen: Observed) -> int:
        """The rule that a move is counted by: the one that allows it, or else one that writes so; 0 for none."""
        if seen.rule:
            return max(0, seen.rule)
        allowed = rule_of(self.state, seen)
        return allowed or CHOOSING[self.state.pointers.get(seen.new) != seen.node]

    def write_as_fault(self, number: int, seen: Observed) -> None:
        """Writes what was observed as faults; ends the judging if no fault can write it.

        With views a pointer across a link that is gone is remembered, and the machine's is null. Without views
        one across a link that was just removed is left out, as the node's pointer is null by then.
        """
        node, state, new, running = seen.node, self.state, seen.new, self.running
        running.registers[node] = running.here
        if running.waits:
            running.waits.mark(running.here, (node,), True)
        self.views_read.forget(node)
        self.dangling.pop(node, None)
        if self.views and new and node in state.neighbours and new not in state.neighbours[node]:
            self.dangling[node], new = new, 0
        for word, is_new, value in (
            ("point", new != state.pointers.get(node, 0), new),
            ("flag", seen.flag != (node in state.flags), int(seen.flag)),
        ):
            refusal = self.machine.edit(word, node, value) if is_new else 0
            if refusal and (crossing := running.crossing(number, node, seen.new)):
                return running.tell_crossing(number, crossing)
            if refusal:
                what = self.diagnosis.wrote(seen)
                self.stopped = f"{where(number)}: no fault can write this ({what}): {refusal_text(refusal)}"
                self.is_over = True
                return
        if (seen.new, seen.flag) != (seen.old, seen.was):
            self.past.write(number, self.time, node, seen.new, seen.flag, (seen.old, seen.was))
        state.point(node, new)
        state.flag(node, seen.flag)

    def shown(self, number: int) -> str:
        return self.named.shown(number) if self.named else str(number)

    def name(self, number: int) -> Name:
        return self.named.all[number - 1] if self.named else number

    def pause(self) -> Optional[float]:
        """How many seconds the next line may take before a wait is too long; None for any number."""
        return self.running.waits.pause() if self.running.waits else None

    def taken(self) -> bytes:
        return self.machine.taken() if self.named else b""

    def finish(self) -> Conformance:
        """The verdict so far. Raises `BadLine` if there was no first line."""
        if self.named is None:
            raise BadLine(1, 'the log is empty: it begins with {"nodes": ["a", "b", ..], "capacity": N}')
        running = self.running
        if not self.is_over:
            running.end()
        stand = self.machine.status()
        enabled = self.machine.enabled() if stand.enabled and not self.is_over else {}
        ages = self.reads.table.rows(self.name) if self.views else ()
        return Conformance(
            self.rules,
            tuple(self.named.all),
            self.events,
            self.edits,
            self.faults,
            {rule: self.counts[number] for rule, number in RULES.items() if self.rules == "manne" or rule != "update"},
            self.divergences,
            self.first,
            self.stopped,
            stand,
            rules.most_moves(self.rules, stand.edges, stand.nodes),
            self.viewed,
            self.wrong_views,
            self.stale_moves,
            self.tallies.rows(self.name) if self.resync else (),
            ages,
            running.bad_lines,
            running.twice,
            running.crossed,
            running.stuck,
            running.cut_line,
            longest(enabled, self.state, running.changes, running.waits, self.name),
            self.findings.found(self.reads.unheld) + without_locks(ages, len(self.last_seen)) if self.resync else (),
        )

    def close(self) -> None:
        if self.named and not self.is_closed:
            self.is_closed = True
            self.machine.close()


def judge_blocks(judge: LogJudge, log: Input, target: Target) -> Conformance:
    """Judges a log up to its end or the first divergence, and writes the transcript as it comes.

    Raises `BadLine`; the transcript is then written up to the bad line.
    """
    with Transcript(target) as transcript, contextlib.closing(judge):
        try:
            judge.running.is_live = log.is_live
            for block in log.blocks(judge.pause if judge.running.limit else None):
                judge.take(block)
                transcript.write(judge.taken())
                if judge.is_over:
                    break
            return judge.finish()
        except KeyboardInterrupt:
            judge.so_far = judge.finish() if judge.named else None
            raise
        finally:
            transcript.write(judge.taken())
            transcript.write_names(judge.named.all if judge.named else [])


def conform(
    log: Log,
    rules: str,
    *,
    resync: bool = False,
    views: bool = False,
    age: int = AGE,
    ignore_extra: bool = False,
    stop: bool = True,
    stuck: Optional[float] = None,
    transcript: Target = None,
    on_divergence: Optional[Callable[[Divergence], object]] = None,
    on_note: OnNote = None,
    program: Program = None,
    engine: Optional[str] = None,
) -> Conformance:
    """Judges whether the rules allow every move in the log of your own implementation.

    `log` is given as a transcript to `audit`: a `str` without a line feed, or a `pathlib.Path`, is the path
    of a file; other text, bytes or an open file is its text; anything else yields its lines or its objects,
    one by one. `merged` makes one log of several. Text may be compressed with gzip. Judging ends at the first
    divergence; with `resync` it goes on, after the observed values were written as faults, and passes over
    bad lines. With `views` it goes on too, and a move with a `saw` diverges only if the rule does not allow it
    on what its node saw. `age` is how many lines back a stale copy is guessed at if there is no `saw`. With
    `ignore_extra` keys that the judge does not know are ignored. With `stop=False` a pipe is read to its end
    after the judging, so that its writer can go on.

    `stuck` is how many seconds a node may be enabled without a move. `on_divergence` is called with each
    divergence at once, and `on_note` with each `Note`. `transcript`, a path or a file open for bytes, receives
    the machine's transcript; for a path the names go to `PATH.names`.

    Raises `BadLine` for a line that is no event, or that is an edit or a fault which the machine refuses; with
    `resync` only if the first line is bad. Raises `OSError` if the file can't be read, or its gzip is damaged.
    """
    judge = LogJudge(
        rules,
        resync=resync,
        views=views,
        age=age,
        ignore_extra=ignore_extra,
        keeps=transcript is not None,
        stuck=stuck,
        on_divergence=on_divergence,
        on_note=on_note,
        program=program,
        engine=engine,
    )
    with opened_input(log) as source:
        try:
            found = judge_blocks(judge, source, transcript)
        except (BadLine, Ended):
            if not stop:
                source.drain()
            raise
        if not stop:
            source.drain()
        return found
