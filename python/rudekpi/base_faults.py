"""What is wrong with a line of a base: its form, its order, or the state described."""

from __future__ import annotations

import re
from typing import Optional

from . import rules
from .line_faults import Fault, at_word, whole, words_of_base
from .numbers import MOST_EDGES, MOST_ENTRIES
from .state import WORDS, State

SECOND = re.compile(r"base (\d+) spent=(\d+) nodes=(\d+) edges=(\d+)", re.ASCII)
KINDS = {
    "base": ("the number of the last entry", "what is spent", "how many nodes there are", "how many edges there are"),
    "node": ("the node", "its pointer", "its flag"),
    "edge": ("the lower node of the edge", "the higher node of the edge"),
}


def spent_in(transcript: str) -> int:
    """The moves since the last accepted edit or fault, or the opening base."""
    spent = 0
    for line in transcript.splitlines():
        word, _, rest = line.partition(" ")
        if word == "base":
            spent = int(rest.split(" ")[1].partition("=")[2])
        elif word.isdigit():
            event, _, reply = rest.partition(" = ")
            name = event.split(" ")[0]
            if name == "step" and not reply.startswith("refused"):
                spent += reply.count(" ") + 1
            elif name in WORDS and reply == "ok":
                spent = 0
    return spent


def numbered(line: str, entry: int, spent: int) -> str:
    """The second line of a base with these numbers."""
    words = line.split(" ")
    return " ".join(["base", str(entry), f"spent={spent}", *words[3:]])


def compared(line: str, wanted: str, is_cut: bool) -> Fault:
    """Where a line of a base differs from that of the state reached."""
    ours, theirs = line.split(" "), wanted.split(" ")
    if line == wanted and is_cut:
        return Fault(len(line), len(line) + 1, "the line lacks its line feed: the base is cut here")
    if is_cut and wanted.startswith(line):
        return Fault(len(line), len(line) + 1, f"the base is cut here, in front of the end of `{wanted}`")
    if ours[0] != theirs[0]:
        return at_word(line, 0, f"here stands `{wanted}`")
    if ours[0] == "edge" and ours != theirs:
        return whole(line, f"the next edge is {' '.join(theirs[1:])}")
    for place, (mine, other) in enumerate(zip(ours, theirs)):
        if mine != other:
            kinds = KINDS.get(ours[0], ())
            what = kinds[place - 1] if 0 < place <= len(kinds) else "the word"
            where = f" of node {theirs[1]}" if ours[0] == "node" and place > 1 else ""
            return at_word(line, place, f"{what}{where} is {other.partition('=')[2] or other}")
    return at_word(line, min(len(ours), len(theirs)), f"here stands `{wanted}`")


def of_line(raw: bytes, number: int, lines: list[str], is_cut: bool) -> Optional[Fault]:
    """What is wrong with a line's form or order in an opening base; None if both are right."""
    line = lines[number - 1]
    if number == 2:
        if not SECOND.fullmatch(line):
            return words_of_base(raw) or whole(line, "here stands `base B spent=S nodes=C edges=E`")
        return Fault(len(line), len(line) + 1, "the base is cut here") if is_cut else None
    found = SECOND.fullmatch(lines[1])
    nodes, edges = (int(found[3]), int(found[4])) if found else (0, 0)
    word = "node" if number - 2 <= nodes else "edge"
    place, most = (number - 2, nodes) if word == "node" else (number - 2 - nodes, edges)
    if is_cut:
        return Fault(
            len(line), len(line) + 1, f"the base is cut here: line 2 says that it has {most} lines `{word} ..`"
        )
    if not line.startswith(f"{word} "):
        return at_word(line, 0, f"here stands {word} {place} of {most}, as line 2 says")
    return words_of_base(raw) or of_order(line, lines[number - 2] if place > 1 else "", word)


def of_order(line: str, before: str, word: str) -> Optional[Fault]:
    count = 1 if word == "node" else 2
    ours, theirs = ([int(text) for text in it.split(" ")[1 : 1 + count]] for it in (line, before))
    if word == "edge" and ours[0] >= ours[1]:
        return whole(line, "the lower node of an edge stands first")
    if theirs and ours <= theirs:
        return at_word(line, 1, f"lines `{word} ..` ascend, each once: this comes behind `{before}`")
    return None


def of_state(lines: list[str]) -> tuple[Fault, list[str]]:
    """Why the lines of a base describe no possible state, though each line by itself is right."""
    found = SECOND.fullmatch(lines[1])
    if not found:
        return whole(lines[1], "here stands `base B spent=S nodes=C edges=E`"), []
    entry, spent, nodes, edges = map(int, found.groups())
    if entry > MOST_ENTRIES:
        return at_word(lines[1], 1, f"a log has at most {MOST_ENTRIES} entries"), []
    if edges > MOST_EDGES:
        return at_word(lines[1], 4, f"a network has at most {MOST_EDGES} edges"), []
    body = [line.split(" ") for line in lines[2 : 2 + nodes + edges]]
    why = why_no_state(lines[0].split(" "), body)
    if why:
        return whole(lines[1], f"the lines of this base make no state: {why}"), []
    state = State()
    state.follow(lines[: 2 + nodes + edges])
    charge, bound = rules.charge(state), rules.bound(state.rules, edges, nodes)
    if spent + charge > bound:
        return (
            at_word(lines[1], 2, f"what is spent and the charge, {spent} + {charge}, are above the bound {bound}"),
            [],
        )
    return whole(lines[1], "no run begins at these numbers"), []


def why_no_state(head: list[str], body: list[list[str]]) -> str:
    """Why a line of a base contradicts the other lines; empty if no line does."""
    present = {int(words[1]) for words in body if words[0] == "node"}
    near = {(int(words[1]), int(words[2])) for words in body if words[0] == "edge"}
    for words in body:
        line = " ".join(words)
        if words[0] == "node":
            if int(words[1]) > int(head[2]):
                return f"`{line}` is above the {head[2]} names of line 1"
            ends = int(words[1]), int(words[2]) if words[2] != "-" else 0
            if ends[1] and tuple(sorted(ends)) not in near:
                return f"in `{line}` the pointer is at {words[2]}, which is no neighbour of {words[1]}"
            if words[3] == "1" and head[1] == "hh":
                return f"in `{line}` the flag is 1, and there are no flags under hh"
        else:
            absent = next((end for end in words[1:] if int(end) not in present), None)
            if absent:
                return f"`{line}` has node {absent}, which no line `node ..` has"
    return ""
