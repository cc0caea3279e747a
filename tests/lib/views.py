"""Compares what the library lists of a network with a network that is kept from entries alone, and numbers a
session's entries from 1 again."""

from __future__ import annotations

import ctypes
import re
from typing import Any, Callable, Optional

from .c_structs import Row
from .cost_tables import Network
from .reaches import is_at_rest

DONE = 0
NUMBER = ctypes.POINTER(ctypes.c_uint32)
COUNT = ctypes.POINTER(ctypes.c_size_t)
NUMBERED = re.compile(rb"^(base )?(\d+)(?= )", re.MULTILINE)
# By their names after `rudekpi_`.
Calls = dict[str, Any]


class NodeView(ctypes.Structure):
    """A node's registers, and whether the node is present."""

    _fields_ = [("pointer", ctypes.c_uint32), ("flag", ctypes.c_bool), ("present", ctypes.c_bool)]


def typed(library: ctypes.CDLL, slot: Any) -> Calls:
    list_of_names = [NUMBER, ctypes.c_size_t, COUNT]
    of: dict[str, list[Any]] = {
        "registers": [ctypes.c_uint32, ctypes.POINTER(NodeView)],
        "neighbours": [ctypes.c_uint32, *list_of_names],
        "nodes": list_of_names,
        "restless": list_of_names,
        "edges": [ctypes.POINTER(Row), ctypes.c_size_t, COUNT],
        "session_renumber": [COUNT],
    }
    calls: Calls = {}
    for name, words in of.items():
        calls[name] = library[f"rudekpi_{name}"]
        calls[name].argtypes = [slot, *words]
    return calls


def names(call: Callable[..., int], slot: Any, room: int, *numbers: int) -> tuple[Optional[list[int]], int]:
    """The list, or None if `out` was not written, and how many names there are."""
    out, count = (ctypes.c_uint32 * (room + 1))(*[77] * (room + 1)), ctypes.c_size_t(99)
    if call(slot, *numbers, out, room, count) != DONE:
        raise ValueError("no list")
    written = [name for name in out if name != 77]
    return (None if count.value > room and not written else written), count.value


def edges(calls: Calls, slot: Any, room: int) -> tuple[Optional[list[tuple[int, int]]], int]:
    out, count = (Row * (room + 1))(*[Row(77, 0, 77)] * (room + 1)), ctypes.c_size_t(99)
    if calls["edges"](slot, out, room, count) != DONE:
        raise ValueError("no list of edges")
    written = [(row.node, row.other) for row in out if row.node != 77]
    return (None if count.value > room and not written else written), count.value


def differs(calls: Calls, slot: Any, net: Network, rules: str, room: int) -> Optional[str]:
    """What is listed differently from the network that was kept, with room for this many names; or None."""

    def wrong(what: str, found: object, items: list[Any]) -> Optional[str]:
        wanted = (items if len(items) <= room else None, len(items))
        return None if found == wanted else f"{what}: {found} for {wanted}"

    for node in range(1, net.names + 2):
        view, is_present = NodeView(9, True, True), node in net.present
        wanted = (net.pointers.get(node) or 0, net.flags.get(node, False), True) if is_present else (0, False, False)
        if calls["registers"](slot, node, view) != DONE or (view.pointer, view.flag, view.present) != wanted:
            return f"the registers of {node}: {view.pointer} {view.flag} {view.present} for {wanted}"
        why = wrong(f"near {node}", names(calls["neighbours"], slot, room, node), sorted(net.near[node]))
        if why:
            return why
    moving = [node for node in sorted(net.present) if not is_at_rest(net, rules, node)]
    return (
        wrong("the nodes", names(calls["nodes"], slot, room), sorted(net.present))
        or wrong("the restless", names(calls["restless"], slot, room), moving)
        or wrong("the edges", edges(calls, slot, room), sorted((a, b) for a, b in net.edges() if a < b))
    )


def renumber(calls: Calls, slot: Any) -> int:
    """How many bytes of the unread text end the transcript."""
    ended = ctypes.c_size_t(99)
    if calls["session_renumber"](slot, ended) != DONE:
        raise ValueError("no new numbers")
    return ended.value


def counted_on(text: bytes, number: int) -> bytes:
    """A text with its entries and bases numbered from another number on."""
    return NUMBERED.sub(lambda found: b"%s%d" % (found[1] or b"", int(found[2]) + number), text)
