"""What a node saw when it moved, and whether the rule of one node allows the move by that alone.

A move of a log may have a `saw`: each neighbour's pointer and flag, as the node held them when it chose. The
verdict is that of the proved rule of one node. Without the library it is by this package's own guards.
"""

from __future__ import annotations

import ctypes
import struct
from typing import TYPE_CHECKING, Any, Callable, NamedTuple, Optional, Protocol, Sequence, Tuple

from .errors import BadLine
from .library import DONE, NOT_SHOWN, VIEW_FAULTS, Library, LocalAnswer, chosen
from .local_rules import REPAIR, rules_number
from .log_lines import spelled
from .observed_moves import ABANDON, CHOOSING, UPDATE, Observed, is_allowed, moves_of, observed, rule_of, with_own
from .program import Program
from .reasons import Reasons
from .state import State
from .view_orders import ViewOrder

if TYPE_CHECKING:
    from .log_names import Named

TWICE, OWN, AT_ITSELF, AT_STRANGER = map(
    VIEW_FAULTS.index, ("not-ascending", "own-neighbour", "points-at-itself", "points-at-stranger")
)
RECORD = struct.Struct("=III")
# how many sizes of views are kept
MOST_SIZES = 64
# a neighbour's number, pointer (0 for null) and flag, and the library's record of it
Seen = Tuple[int, int, bool, bytes]


class View(NamedTuple):
    """What a node saw of its neighbours: the library's records, ascending by number.

    `order` is the node's order of its neighbours, None if it is not known, or if one of those
    that it saw is none. `doubtful` has those that may not have held what was seen of them, ascending.
    """

    records: bytes
    order: Optional[ViewOrder]
    doubtful: Sequence[Seen]

    @property
    def seen(self) -> list[tuple[int, int, bool]]:
        """The number, pointer and flag of each neighbour."""
        return [(node, pointer, flag == 1) for node, pointer, flag in RECORD.iter_unpack(self.records)]


def read_view(line: int, saw: Any, named: Named, has_flags: bool) -> View:
    """The view of an object. Raises `BadLine`."""
    if not isinstance(saw, dict):
        raise BadLine(line, f'saw is an object, as {{"b": [null, false]}}, and not {spelled(saw)}')
    found: list[Seen] = []
    for name, held in saw.items():
        node = key_number(line, name, named)
        if not isinstance(held, (list, tuple)) or len(held) not in ((2,) if has_flags else (1, 2)):
            wanted = "[pointer, flag]" if has_flags else "[pointer] or [pointer, false]"
            raise BadLine(line, f"saw has {wanted} of {named.shown(node)}, and not {spelled(held)}")
        pointer = 0 if held[0] is None else named.number(line, held[0])
        flag = held[1] if len(held) == 2 else False
        if flag is not True and flag is not False:
            raise BadLine(line, f"a flag is true or false, and not {spelled(flag)}")
        if flag and not has_flags:
            raise BadLine(line, f"saw has a flag of {named.shown(node)}, and there are no flags under hh")
        found.append((node, pointer, flag, RECORD.pack(node, pointer, flag)))
    found.sort()
    for (node, *_), (after, *_) in zip(found, found[1:]):
        if node == after:
            raise BadLine(line, f"saw has {named.shown(node)} twice")
    return View(b"".join([it[3] for it in found]), None, found)


def key_number(line: int, name: Any, named: Named) -> int:
    """The number of a name among the keys of an object; a whole number is a text there."""
    if type(name) is str and name not in named.numbers and name.isdecimal() and len(name) < 20:
        found = named.numbers.get(int(name))
        if found and str(int(name)) == name:
            return found
    return named.number(line, name)


class Rule(Protocol):
    """The rule of one node."""

    def verdict(self, did: Observed, view: View) -> int:
        """The number of the rule that lets a node move as observed, on what it saw, `REPAIR` included.

        0 if it may not; minus a fault's number if no state shows the view.
        """


class ProvedRule:
    """The library's calls, without the slower types of `local_rule`."""

    def __init__(self, library: Library, rules: str) -> None:
        self.local_rule, self.may_move, self.rules = (library.local_rule, library.may_move, rules_number(rules))
        answer, may = LocalAnswer(), ctypes.c_bool()
        self.answer, self.may = answer, may
        self.told = memoryview(answer).cast("B").cast("I")
        self.told_at, self.may_at = ctypes.byref(answer), ctypes.byref(may)
        # converted once: a call converts a `c_size_t` each time
        self.sizes = [ctypes.c_size_t.from_param(size) for size in range(MOST_SIZES)]

    def verdict(self, did: Observed, view: View) -> int:
        node, old, new, was, _, wish, written = did
        records = view[0]
        count = len(records) // RECORD.size
        size = self.sizes[count] if count < MOST_SIZES else ctypes.c_size_t.from_param(count)
        own = RECORD.pack(node, old, was)
        status = self.local_rule(self.rules, own, records, size, self.told_at)
        if status == NOT_SHOWN:
            return -int(self.answer.fault)
        assert status == DONE
        rule, target = int(self.told[0]), self.told[1]
        if rule == written or not rule or written < 0:
            return rule if rule == written else self.fault_of(rule)
        if rule == REPAIR:
            return REPAIR if written == ABANDON else -AT_STRANGER
        if written or rule not in CHOOSING:
            return 0
        if target == wish:
            return rule
        status = self.may_move(self.rules, own, records, size, rule, wish, self.may_at)
        return rule if status == DONE and self.may.value else 0

    @staticmethod
    def fault_of(rule: int) -> int:
        return -AT_STRANGER if rule == REPAIR else 0


class GuardedRule:
    """This package's own guards, if the engine is the program: it has no call for the rule of one node."""

    def __init__(self, rules: str) -> None:
        self.rules = rules

    def verdict(self, did: Observed, view: View) -> int:
        near = set()
        for node, pointer, _ in view.seen:
            if node == did.node:
                return -OWN
            if node == pointer:
                return -AT_ITSELF
            near.add(node)
        if did.old and did.old not in near:
            return REPAIR if did.rule == ABANDON else -AT_STRANGER
        return rule_of(star(self.rules, did, view), did) or 0


def rule_on_views(rules: str, program: Program, engine: Optional[str]) -> Rule:
    library = chosen(engine, program)
    if library:
        return ProvedRule(library, rules)
    return GuardedRule(rules)


def star(rules: str, did: Observed, view: View) -> State:
    """A node with the neighbours that it saw, and its own registers before its move."""
    state = State(rules)
    state.neighbours = {did.node: {node for node, *_ in view.seen} - {did.node}}
    for node, pointer, flag in view.seen:
        state.neighbours.setdefault(node, {did.node})
        state.point(node, pointer)
        state.flag(node, flag)
    state.point(did.node, did.old)
    state.flag(did.node, did.was)
    return state


class ViewWords:
    """Why a move is not allowed on what its node saw, in words. No verdict is made here."""

    def __init__(self, rules: str, shown: Callable[[int], str]) -> None:
        self.rules, self.shown = rules, shown

    def reasons(self, did: Observed, view: View) -> Reasons:
        return Reasons(star(self.rules, did, view), self.shown)

    def why(self, did: Observed, view: View, verdict: int) -> str:
        if verdict < 0:
            return self.why_not_shown(did, view, -verdict)
        words, name = self.reasons(did, view), self.shown(did.node)
        more: Optional[str] = None
        if did.flag != did.was and self.rules == "hh":
            more = "there are no flags under hh"
        elif did.rule < 0:
            more = "no rule writes both registers" if did.flag != did.was else "it holds that already"
        elif did.new and did.rule != UPDATE and did.new not in words.state.neighbours:
            more = f"{name} saw no {self.shown(did.new)}"
        elif did.new and did.rule != UPDATE:
            more = words.why_not_at(did.node, did.new)
        return words.allowed(did.node) + (f"; {more}" if more else "")

    def why_not_shown(self, did: Observed, view: View, fault: int) -> str:
        name = self.shown(did.node)
        if fault == OWN:
            return f"{name} saw itself among its neighbours"
        if fault == AT_ITSELF:
            at = next(node for node, pointer, *_ in view.seen if node == pointer)
            return f"{self.shown(at)} points at itself in what {name} saw"
        return f"{name} points at {self.shown(did.old)}, and saw no {self.shown(did.old)}: it may only write null"

    def hint(self, did: Observed, view: View, twice: Optional[Tuple[int, Observed, bool]]) -> str:
        """What else may be wrong at the node. `twice` is its last move on the same view, with the line, and
        whether both came at once."""
        name = self.shown(did.node)
        if twice and self.is_allowed_from(did, view, twice[1].old, twice[1].was):
            what = "moved twice by one view" if twice[2] else "changed without a line"
            return (
                f"with what {name} held before line {twice[0]} it was allowed: "
                f"{name} may have {what}, or lost what it wrote"
            )
        for move in moves_of(star(self.rules, did, view), did.node):
            if self.is_allowed_from(did, view, move.new, move.flag):
                return f"{name} had to write {self.words(move)} first: it skipped that, or the line is missing"
        for pointer, flag in ((0, did.was), (did.old, not did.was), (0, not did.was)):
            if self.is_allowed_from(did, view, pointer, flag):
                changed = observed(did.node, did.old, pointer, did.was, flag)
                return f"with {self.words(changed)} it was allowed: {name} may have changed without a line"
        if did.rule < 0 and did.flag == did.was:
            return f"{name} changed without a line, or it wrote this twice"
        return ""

    def is_allowed_from(self, did: Observed, view: View, pointer: int, flag: bool) -> bool:
        """Whether a node with other registers of its own was allowed to write this."""
        return any(is_allowed(star(self.rules, it, view), it) for it in with_own(did, pointer, flag))

    def words(self, move: Observed) -> str:
        if move.flag != move.was:
            return f"flag {str(move.flag).lower()}"
        return f"pointer {self.shown(move.new) if move.new else 'null'}"
