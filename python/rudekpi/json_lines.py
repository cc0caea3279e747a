"""Transcripts as JSON Lines: an object for the header, for each entry and for each base."""

from __future__ import annotations

import json
from dataclasses import asdict
from typing import Callable, Iterable, Iterator, Optional

from .names import Names, names_for
from .reading import read_base, read_enabled, read_matching, read_moves, read_status
from .replays import parts_of
from .replies import Name


def objects_of(transcript: str, own: Optional[Iterable[Name]] = None) -> Iterator[dict[str, object]]:
    """The objects of a transcript that `audit` accepts, with numbers of nodes or the caller's own names."""
    names = names_for(transcript, own)
    for part in parts_of(transcript):
        words = part[0].split(" ")
        if words[0] == "matching":
            yield {"header": words[1], "nodes": names.count, "present": int(words[-1])}
        elif words[0] == "matching2":
            yield base_of(part, names, words[1])
        else:
            yield entry_of(part[0], names)


def base_of(part: list[str], names: Names, rules: str) -> dict[str, object]:
    base = read_base(names, 0, "", "\n".join(part))
    nodes = [{"node": node, "pointer": held.pointer, "flag": held.flag} for node, held in base.nodes.items()]
    number = int(part[1].split(" ")[1])
    return {
        "base": number,
        "rules": rules,
        "names": names.count,
        "spent": base.spent,
        "nodes": nodes,
        "edges": base.edges,
    }


def entry_of(line: str, names: Names) -> dict[str, object]:
    head, _, reply = line.partition(" = ")
    entry, word, *rest = head.split(" ")
    made: dict[str, object] = {"entry": int(entry), "event": word}
    if word == "step":
        made["choice"] = [choice_of(item, names) for item in rest]
    elif word == "flag":
        made["words"] = [shown(names, rest[0]), int(rest[1])]
    elif rest:
        made["words"] = [None if text == "-" else shown(names, text) for text in rest]
    if reply.startswith("refused "):
        number, _, text = reply[len("refused ") :].partition(" ")
        return {**made, "refused": int(number), "text": text}
    return {**made, **told(word, names, head.partition(" ")[2], reply)}


def choice_of(item: str, names: Names) -> dict[str, object]:
    node, wish, target = item.partition(">")
    made = {"node": shown(names, node)}
    return {**made, "target": shown(names, target)} if wish else made


def shown(names: Names, digits: str) -> object:
    """A node's name; an object for a number that has no name. Only refused events have such numbers."""
    number = int(digits)
    if names.own is None:
        return number
    name = names.known(number)
    return {"number": number} if name is None else name


def told(word: str, names: Names, event: str, reply: str) -> dict[str, object]:
    """The contents of a reply that is no refusal."""
    if word == "show":
        return {"target": None if reply == "-" else shown(names, reply)}
    if word == "enabled":
        return {
            "enabled": [{"node": node, "rule": rule} for node, rule in read_enabled(names, 0, event, reply).items()]
        }
    if word == "matching":
        return {"pairs": list(read_matching(names, 0, event, reply))}
    if word == "step":
        return {"moves": [asdict(move) for move in read_moves(names, 0, event, reply)]}
    if word == "status":
        status = asdict(read_status(names, 0, event, reply))
        del status["entry"]
        return {"status": status}
    return {"reply": reply}


def lines_of(transcript: str, own: Optional[Iterable[Name]] = None) -> Iterator[str]:
    dumped: Callable[[object], str] = json.JSONEncoder(separators=(",", ":"), default=str).encode
    return (dumped(it) for it in objects_of(transcript, own))
