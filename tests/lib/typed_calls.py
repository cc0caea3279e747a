"""Compares the library's calls that take numbers instead of a line with the line's entry."""

from __future__ import annotations

import ctypes
import re
from typing import Any, Optional

from .c_structs import COUNTS, Counts, Item, Row, Told

DONE, REFUSED, NOT_SILENT, NOT_COUNTED = 0, 6, 8, 10
RULES = {"update": 1, "marry": 2, "seduce": 3, "abandon": 4}
EDITS = {"link": 2, "unlink": 2, "join": 1, "leave": 1, "point": 2, "flag": 2}
# By their names after `rudekpi_`.
Calls = dict[str, Any]


def typed(library: ctypes.CDLL, slot: Any) -> Calls:
    number, told = ctypes.c_uint32, ctypes.POINTER(Told)
    of: dict[str, list[Any]] = {name: [number] for name in ("join", "leave", "show")} | {
        name: [number] * 2 for name in ("link", "unlink", "point")
    }
    of |= {
        "flag": [number, ctypes.c_bool],
        "step": [ctypes.POINTER(Item), ctypes.c_size_t],
        "enabled": [],
        "pairs": [],
        "checkpoint": [],
    }
    of |= {"status": [ctypes.POINTER(Counts)]} | {name: [ctypes.c_uint64, number] for name in ("drive", "scramble")}
    calls: Calls = {}
    for name, words in of.items():
        calls[name] = library[f"rudekpi_{name}"]
        calls[name].argtypes = [slot, *words, told]
    others: dict[str, list[Any]] = {
        "rows": [ctypes.POINTER(Row), ctypes.c_size_t],
        "transcript": [ctypes.c_bool],
        "partner": [number, ctypes.POINTER(number)],
        "moves_left": [ctypes.POINTER(number)],
        "count_rounds": [],
        "rounds": [ctypes.POINTER(number)],
        "rounds_left": [ctypes.POINTER(number)],
        "is_at_rest": [number, ctypes.POINTER(ctypes.c_bool)],
    }
    for name, words in others.items():
        calls[name] = library[f"rudekpi_{name}"]
        calls[name].argtypes = [slot, *words]
    for name, count in EDITS.items():
        calls[f"cost_of_{name}"] = library[f"rudekpi_cost_of_{name}"]
        calls[f"cost_of_{name}"].argtypes = [
            slot,
            *[number] * (count - (name == "flag")),
            *[ctypes.c_bool] * (name == "flag"),
            ctypes.POINTER(number),
        ]
        calls[f"silent_cost_of_{name}"] = library[f"rudekpi_silent_cost_of_{name}"]
        calls[f"silent_cost_of_{name}"].argtypes = calls[f"cost_of_{name}"].argtypes
        calls[f"reach_of_{name}"] = library[f"rudekpi_reach_of_{name}"]
        calls[f"reach_of_{name}"].argtypes = [
            *calls[f"cost_of_{name}"].argtypes[:-1],
            ctypes.POINTER(number),
            ctypes.c_size_t,
            ctypes.POINTER(ctypes.c_size_t),
        ]
    calls["rows"].restype = ctypes.c_size_t
    return calls


def made(calls: Calls, slot: Any, line: str, told: Told) -> tuple[int, Optional[list[int]]]:
    """The call's status for a line, and the counts that it reports."""
    word, *names = line.split(" ")
    numbers = [int(name) if name != "-" else 0 for name in names] if word != "step" else []
    if word == "step":
        chosen = (Item * max(1, len(names)))(*(Item(*map(int, name.split(">"))) for name in names))
        return calls[word](slot, chosen, len(names), told), None
    if word == "status":
        counts = Counts()
        return calls[word](slot, counts, told), [getattr(counts, name) for name in COUNTS]
    return calls[{"matching": "pairs"}.get(word, word)](slot, *numbers, told), None


def rows(calls: Calls, slot: Any) -> list[tuple[int, int, int]]:
    """They come whole or not at all."""
    size = calls["rows"](slot, Row(), 0)
    room = (Row * (size + 1))(*[Row(9, 9, 9)] * (size + 1))
    if size and (calls["rows"](slot, room, size - 1) != size or room[0].node != 9 or room[0].other != 9):
        raise ValueError("rows were written where there is too little room")
    if calls["rows"](slot, room, size + 1) != size or room[size].node != 9:
        raise ValueError("other rows than were told")
    return [(row.node, row.rule, row.other) for row in room[:size]]


def row_of(word: str) -> tuple[int, int, int]:
    """A row as a reply writes it: `1:seduce>2`, `1:seduce` or `1-2`."""
    if "-" in word:
        low, high = word.split("-")
        return int(low), 0, int(high)
    node, rule, target = re.findall(r"^(\d+):([a-z]+)>?(\d*)$", word)[0]
    return int(node), RULES[rule], int(target or 0)


def expected(line: str, entries: list[str], base: int) -> tuple[object, ...]:
    """By a line's entries: the status, the numbers, the rows, and the counts."""
    word = line.split(" ")[0]
    if word in ("drive", "scramble", "checkpoint"):
        return DONE, (base if not entries else int(entries[-1].split(" ")[0]), 0, 0, 0), [], None
    number, reply = entries[-1].split(" ")[0], entries[-1].split(" = ")[1]
    if reply.startswith("refused "):
        return REFUSED, (int(number), int(reply.split(" ")[1]), 0, 0), [], None
    listed = (
        [row_of(it) for it in reply.split(" ")] if word in ("step", "enabled", "matching") and reply != "none" else []
    )
    target = int(reply) if word == "show" and reply != "-" else 0
    counts = [int(it.split("=")[1]) for it in reply.split(" ")] if word == "status" else None
    return DONE, (int(number), 0, target, len(listed)), listed, counts


def differs(calls: Calls, slot: Any, line: str, text: bytes, last: int) -> Optional[str]:
    """What is wrong with the call for a line with this text after these entries, or None."""
    entries = [it for it in text.decode().splitlines() if re.match(r"\d", it)]
    told = Told(9, 9, 9, 9)
    status, counts = made(calls, slot, line, told)
    found = status, (told.entry, told.refusal, told.target, told.rows), rows(calls, slot), counts
    wanted = expected(line, entries, last)
    return None if found == wanted else f"{line}: {found} for {wanted}"


def partners(calls: Calls, slot: Any, nodes: int) -> set[tuple[int, int]]:
    found = ctypes.c_uint32()
    pairs: set[tuple[int, int]] = set()
    for node in range(1, nodes + 2):
        if calls["partner"](slot, node, found) != DONE:
            raise ValueError(f"no answer for the partner of {node}")
        if found.value:
            pairs.add((node, found.value))
    return pairs


def cost(calls: Calls, slot: Any, kind: str, *numbers: Optional[int]) -> int:
    found = ctypes.c_uint32(9)
    if calls[f"cost_of_{kind}"](slot, *(number or 0 for number in numbers), found) != DONE:
        raise ValueError(f"no cost for {kind} {numbers}")
    return int(found.value)


def silent_cost(calls: Calls, slot: Any, kind: str, *numbers: Optional[int]) -> Optional[int]:
    """None if a rule is enabled."""
    found = ctypes.c_uint32(9)
    status = calls[f"silent_cost_of_{kind}"](slot, *(number or 0 for number in numbers), found)
    if status not in (DONE, NOT_SILENT) or (status == NOT_SILENT and found.value):
        raise ValueError(f"no silent cost for {kind} {numbers}")
    return int(found.value) if status == DONE else None


def reach(calls: Calls, slot: Any, room: int, kind: str, *numbers: Optional[int]) -> tuple[Optional[list[int]], int]:
    """The list is None if `out` was not written."""
    out, count = (ctypes.c_uint32 * (room + 1))(*[0] * (room + 1)), ctypes.c_size_t(9)
    if calls[f"reach_of_{kind}"](slot, *(number or 0 for number in numbers), out, room, count) != DONE:
        raise ValueError(f"no reach of {kind} {numbers}")
    written = [name for name in out if name]
    return (None if count.value > room and not written else written), count.value


def is_at_rest(calls: Calls, slot: Any, node: int) -> bool:
    found = ctypes.c_bool(True)
    if calls["is_at_rest"](slot, node, found) != DONE:
        raise ValueError(f"no answer whether {node} is at rest")
    return found.value


def left(calls: Calls, slot: Any) -> int:
    found = ctypes.c_uint32(9)
    if calls["moves_left"](slot, ctypes.byref(found)) != DONE:
        raise ValueError("no answer how many moves can still come")
    return int(found.value)


def rounds(calls: Calls, slot: Any, kind: str) -> Optional[int]:
    """The rounds, or the `rounds_left`; None if they are not counted."""
    found = ctypes.c_uint32(9)
    status = calls[kind](slot, ctypes.byref(found))
    if status not in (DONE, NOT_COUNTED) or (status == NOT_COUNTED and found.value):
        raise ValueError(f"no answer how many {kind} there are")
    return int(found.value) if status == DONE else None


def most_left(rules: int, charge: int, nodes: int) -> int:
    """The smaller of the charge and, under the rules 0, n²/2 + n - 2 rounded down; at least 0."""
    return min(charge, max(0, nodes * nodes // 2 + nodes - 2)) if rules == 0 else charge
