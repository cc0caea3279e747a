"""The proved rule of one node, for nodes of your own: a node's move from what the node itself holds.

    local_rule("manne", me=3, pointer=None, flag=False, neighbours={5: (None, False), 7: (3, True)})
    # LocalMove(rule='marry', target=7, pointer=7, flag=False)

docs/LOCAL.md says what is proved, and what the caller has to ensure.
"""

from __future__ import annotations

import array
import ctypes
from typing import Any, Callable, Iterator, Mapping, NamedTuple, Optional, Tuple

from .errors import BadView, NoSuchCommand
from .library import (
    BAD_ARGUMENT,
    MOVES,
    NOT_SHOWN,
    VIEW_FAULTS,
    Library,
    LocalAnswer,
    chosen,
)
from .names import is_hashable
from .numbers import MOST_NODES
from .replies import Name

Held = Tuple[Optional[Name], bool]
Key = Optional[Callable[[Name], Any]]
REPAIR = len(MOVES)
RULES = ("hh", "manne")


class LocalMove(NamedTuple):
    """What a node does, and its registers afterwards.

    The rule `repair` is none of the machine's: the node's pointer is at no neighbour, and becomes None.
    """

    rule: str
    target: Optional[Name]
    pointer: Optional[Name]
    flag: bool


class View:
    """What a node holds, in the library's numbers, which have the order of the names."""

    def __init__(
        self,
        me: Name,
        pointer: Optional[Name],
        flag: bool,
        neighbours: Mapping[Name, Held],
        key: Key,
    ):
        if not isinstance(neighbours, Mapping):
            raise TypeError(f"neighbours are a dict from names to (pointer, flag), and not {neighbours!r}")
        own = checked({me: (pointer, flag)})
        if me in neighbours:
            raise BadView("own-neighbour", me)
        held = {**own, **checked(neighbours)}
        self.numbers = numbered({*held, *(target for target, _ in held.values() if target is not None)}, key)
        self.size = ctypes.c_size_t(len(neighbours))
        self.own, self.around = rows(self.numbers, own), rows(self.numbers, neighbours)

    def names(self) -> dict[int, Optional[Name]]:
        """From the numbers back to the names; 0 is None."""
        return {0: None, **{number: name for name, number in self.numbers.items()}}

    def give(self) -> tuple[Any, Any, ctypes.c_size_t]:
        """The words of a call."""
        (own, _), (around, _) = self.own.buffer_info(), self.around.buffer_info()
        return ctypes.c_void_p(own), ctypes.c_void_p(around), self.size


def checked(held: Mapping[Name, Held]) -> Mapping[Name, Held]:
    """Raises `TypeError` if a name is None or not hashable, or its registers are not a pointer and a flag."""
    for name, registers in held.items():
        if not isinstance(registers, (tuple, list)) or len(registers) != 2:
            raise TypeError(f"{name!r} holds a pointer and a flag, and not {registers!r}")
        pointer, flag = registers
        if name is None or not is_hashable(pointer):
            raise TypeError(f"a node's name is hashable and not None, and not {(pointer if name else name)!r}")
        if not isinstance(flag, bool):
            raise TypeError(f"the flag of {name!r} is True or False, and not {flag!r}")
    return held


def numbered(names: set[Name], key: Key) -> dict[Name, int]:
    """A number for each name, from 1 on, by their order; numbers from 1 to 65,535 are their own."""
    if key is None and all(type(name) is int and 0 < name <= MOST_NODES for name in names):
        return {name: name for name in names}
    if len(names) > MOST_NODES:
        raise ValueError(f"a network has {MOST_NODES} names at most, and not {len(names)}")
    try:
        ordered = sorted(names, key=key)
    except TypeError as error:
        raise TypeError(f"names need an order, by < or by key, as for sorted: {error}") from None
    if key is not None:
        for one, other in zip(ordered, ordered[1:]):
            if not key(one) < key(other):
                raise ValueError(f"the names {one!r} and {other!r} have the same key")
    return {name: number for number, name in enumerate(ordered, 1)}


def rows(numbers: Mapping[Name, int], held: Mapping[Name, Held]) -> array.array[int]:
    """The records of rudekpi.h, ascending: three 32-bit numbers each."""

    def flat() -> Iterator[int]:
        for name in sorted(held, key=numbers.__getitem__):
            pointer, flag = held[name]
            yield from (numbers[name], 0 if pointer is None else numbers[pointer], flag)

    return array.array("I", flat())


def library_of(engine: Optional[str]) -> Library:
    """Raises `NoSuchCommand` if the engine is the program."""
    found = chosen(engine, None)
    if found is None:
        raise NoSuchCommand("the rule of one node is proved in the library, and the program has no call for it")
    return found


def rules_number(rules: str) -> int:
    if rules not in RULES:
        raise ValueError(f"rules are 'hh' or 'manne', and not {rules!r}")
    return RULES.index(rules)


def local_rule(
    rules: str,
    *,
    me: Name,
    pointer: Optional[Name],
    flag: bool,
    neighbours: Mapping[Name, Held],
    key: Key = None,
    engine: Optional[str] = None,
) -> Optional[LocalMove]:
    """What a node does by its rule, from what it holds alone; None if no rule is enabled.

    `neighbours` has each neighbour's pointer and flag. In every state of the machine that shows this at the
    node, the answer is what the machine does there, to the least target. A pointer at no neighbour, as after
    a link went, gets the answer `repair`. Names are hashable; their order is that of `sorted` with `key`.
    Raises `BadView` if no state shows this, `TypeError` and `ValueError` for other values, `OSError` if the
    library is required but not found, and `NoSuchCommand` if the engine is the program. Costs a sort of the
    names.
    """
    number = rules_number(rules)
    library, view, told = (
        library_of(engine),
        View(me, pointer, flag, neighbours, key),
        LocalAnswer(),
    )
    status = library.local_rule(number, *view.give(), ctypes.byref(told))
    names = view.names()
    if status == NOT_SHOWN:
        raise BadView(VIEW_FAULTS[told.fault], names[told.at])
    assert status != BAD_ARGUMENT
    if not told.rule:
        return None
    rule = "repair" if told.rule == REPAIR else MOVES[told.rule]
    return LocalMove(rule, names[told.target], names[told.pointer], told.flag)


def may_move(
    rules: str,
    *,
    me: Name,
    pointer: Optional[Name],
    flag: bool,
    neighbours: Mapping[Name, Held],
    rule: str,
    target: Optional[Name] = None,
    key: Key = None,
    engine: Optional[str] = None,
) -> bool:
    """Whether the machine may move a node by this rule, to this target, by what the node holds alone.

    `marry` and `seduce` have a target; `update` and `abandon` have none. Arguments and errors are those of
    `local_rule`; `BadView` is raised for a pointer at no neighbour too.
    """
    number = rules_number(rules)
    if rule not in MOVES[1:]:
        raise ValueError(f"a rule is one of {', '.join(MOVES[1:])}, and not {rule!r}")
    library, view, may = (
        library_of(engine),
        View(me, pointer, flag, neighbours, key),
        ctypes.c_bool(),
    )
    if target is not None and target not in view.numbers:
        # no node that this one knows of, and so no neighbour
        target, rule = None, ""
    aim = 0 if target is None else view.numbers[target]
    status = library.may_move(number, *view.give(), MOVES.index(rule or "update"), aim, ctypes.byref(may))
    if status == NOT_SHOWN:
        told = LocalAnswer()
        library.local_rule(number, *view.give(), ctypes.byref(told))
        raise BadView(VIEW_FAULTS[told.fault], view.names()[told.at])
    assert status != BAD_ARGUMENT
    return bool(may.value and rule)
