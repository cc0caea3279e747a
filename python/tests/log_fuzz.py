#!/usr/bin/env python3
"""Damages logs at random, and compares `conform`'s verdict with the auditor's on the claimed moves.

usage: python/tests/log_fuzz.py [--count N] [--seed S] [--engine library|program]

N logs are judged (10,000 by default). A second reading makes a transcript of all that a log claims, with each
move by the one rule that writes so, and has it audited. A log passes if both find the same first line, and
agree that it is no event or that the rules do not allow it. A link that both ends log counts once. A last
line that is cut does not count. Some logs say what the nodes saw. They are judged by views too, which changes
no bad line. Some are judged packed, and as two logs with clocks, too. Any other error fails. A log that fails
is printed, and the exit status is 1.
"""

from __future__ import annotations

import argparse
import collections
import contextlib
import gzip
import io
import json
import os
import pathlib
import random
import re
import sys
import time
from typing import Any, Iterator, Optional

sys.path.insert(0, os.path.join(os.path.dirname(os.path.realpath(__file__)), ".."))
from rudekpi import BadLine, Damaged, Divergence, audit, conform, merged  # noqa: E402

EXAMPLES = pathlib.Path(__file__).resolve().parents[2] / "examples"
FREE = {"time", "clock"}
KEYS = ["nodes", "capacity", "link", "unlink", "join", "leave", "move", "moves", "fault", "pointer", "flag", "time"]
FREE = {"time", "clock", "extra"}
MOVE = re.compile(r"([0-9]+):(update|abandon|marry|seduce)(?:>([0-9]+))?")
# a verdict, and the line concerned, 0 for all
Verdict = tuple[str, int]


def log_of(transcript: str, names: Any = "abcdefghijklmnopqrstuvwxyz") -> list[str]:
    """The log of a transcript whose nodes have these names."""
    header, *lines = transcript.splitlines()
    words = header.split(" ")
    count, present = int(words[2]), int(words[-1])
    log, flags = [json.dumps({"nodes": list(names[:present]), "capacity": count})], set[str]()
    for line in lines:
        head, _, reply = line.partition(" = ")
        _, word, *rest = head.split(" ")
        named = [None if text == "-" else names[int(text) - 1] for text in rest if text.isdigit() or text == "-"]
        if reply.startswith("refused"):
            continue
        if word in ("link", "unlink"):
            log.append(json.dumps({word: named}))
        elif word in ("join", "leave"):
            log.append(json.dumps({word: named[0]}))
            flags.discard(rest[0])
        elif word == "point":
            log.append(json.dumps({"fault": named[0], "pointer": named[1]}))
        elif word == "flag":
            flags ^= flags & {rest[0]} if rest[1] == "0" else {rest[0]} - flags
            log.append(json.dumps({"fault": named[0], "flag": rest[1] == "1"}))
        elif word == "step":
            moves = []
            for node, rule, target in (found.groups() for found in MOVE.finditer(reply)):
                flags ^= {node} if rule == "update" else set()
                wrote: dict[str, Any] = {"flag": node in flags} if rule == "update" else {"pointer": None}
                moves.append(
                    {"move": names[int(node) - 1], **wrote, **({"pointer": names[int(target) - 1]} if target else {})}
                )
            log.append(json.dumps(moves[0] if len(moves) == 1 else {"moves": moves}))
    return log


def with_views(rules: str, lines: list[str], chance: random.Random) -> list[str]:
    """The same log, but most moves say what their nodes saw, often something stale or wrong."""
    held: dict[Any, list[Any]] = {}
    near: dict[Any, set[Any]] = {}
    made = []
    for line in lines:
        event = json.loads(line)
        moves = event.get("moves") or ([event] if "move" in event else [])
        for move in moves:
            if chance.random() < 0.8:
                names = [name for name in sorted(near.get(move["move"], ())) if chance.random() < 0.97]
                seen = {name: list(held.get(name, [None, False])) for name in names}
                for name in names:
                    if chance.random() < 0.1:
                        seen[name] = [chance.choice([None, *sorted(near)]), chance.random() < 0.5]
                move["saw"] = {name: it if rules == "manne" else it[:1] for name, it in seen.items()}
        for write in moves or ([event] if "fault" in event else []):
            registers = held.setdefault(write.get("move", write.get("fault")), [None, False])
            registers[0], registers[1] = write.get("pointer", registers[0]), write.get("flag", registers[1])
        if "link" in event:
            for a, b in (event["link"], event["link"][::-1]):
                near.setdefault(a, set()).add(b)
        made.append(json.dumps(event))
    return made


def samples() -> list[tuple[str, list[str]]]:
    """Logs with their rules, from the examples with few nodes."""
    found = []
    for path in sorted(EXAMPLES.glob("*.transcript")):
        text = path.read_text(encoding="utf-8")
        if len(text) < 20_000:
            rules, lines = text.split(" ")[1], log_of(text)
            found += [(rules, lines), (rules, with_views(rules, lines, random.Random(len(text))))]
    return found


def once(pairs: list[tuple[str, Any]]) -> dict[str, Any]:
    if len({key for key, _ in pairs}) < len(pairs):
        raise ValueError("twice")
    return dict(pairs)


class Claims:
    """The second reading."""

    def __init__(self, rules: str, head: Any) -> None:
        assert isinstance(head, dict) and set(head) <= {"nodes", "capacity", *FREE}
        self.names: list[Any] = []
        assert isinstance(head["nodes"], list)
        self.capacity = head.get("capacity", len(head["nodes"]))
        assert type(self.capacity) is int and len(head["nodes"]) <= self.capacity <= 65_535
        for name in head["nodes"]:
            self.add(name)
        present = f" {len(self.names)}" if len(self.names) < self.capacity else ""
        self.rules, self.text, self.lines = rules, [f"matching {rules} {self.capacity}{present}"], [(1, "")]
        self.pointers: dict[int, Optional[int]] = {}
        self.flags: dict[int, bool] = {}
        self.links: set[frozenset[int]] = set()
        # the last line that linked or cut two nodes, its word and time, and whether a second one came
        self.edits: dict[frozenset[int], tuple[int, str, Any, bool]] = {}

    def add(self, name: Any) -> None:
        assert type(name) in (str, int) and name != "" and str(name) not in map(str, self.names)
        assert len(self.names) < self.capacity
        self.names.append(name)

    def number(self, name: Any) -> int:
        assert type(name) in (str, int)
        return [(type(it), it) for it in self.names].index((type(name), name)) + 1

    def claim(self, line: int, kind: str, event: str, reply: str = "ok") -> None:
        self.text.append(f"{len(self.text)} {event} = {reply}")
        self.lines.append((line, kind))

    def repeats(self, line: int, kind: str, ends: frozenset[int], time: Any) -> bool:
        """Whether a link or a cut comes a second time, a moment after the first."""
        is_one = len(ends) == 2 and (ends in self.links) == (kind == "link")
        if not is_one or ends not in self.edits or self.edits[ends][1::2] != (kind, False):
            return False
        first, _, then, _ = self.edits[ends]
        is_near = line - first <= 50 or (are_seconds(time, then) and abs(time - then) <= 1)
        self.edits[ends] = first, kind, then, is_near
        return is_near

    def edit(self, line: int, kind: str, given: Any, time: Any) -> None:
        if kind in ("link", "unlink"):
            assert isinstance(given, list) and len(given) == 2
            numbers = [self.number(name) for name in given]
            if self.repeats(line, kind, frozenset(numbers), time):
                return
            self.edits[frozenset(numbers)] = line, kind, time, False
        else:
            if (
                kind == "join"
                and type(given) in (str, int)
                and (type(given), given) not in [(type(it), it) for it in self.names]
            ):
                self.add(given)
            numbers = [self.number(given)]
        self.claim(line, "bad", " ".join([kind, *map(str, numbers)]))
        if kind == "link":
            self.links.add(frozenset(numbers))
        for link in list(self.links):
            if (kind == "unlink" and link == frozenset(numbers)) or (kind == "leave" and numbers[0] in link):
                self.links.discard(link)
                self.edits[link] = line, "unlink", time, False
                for end in link:
                    if self.pointers.get(end) in link:
                        self.pointers[end] = None
        if kind == "leave":
            self.flags[numbers[0]] = False

    def wrote(self, event: Any, kind: str) -> tuple[int, Optional[int], bool]:
        """What a node holds after a move or a fault."""
        assert (
            isinstance(event, dict)
            and set(event) <= {kind, "pointer", "flag", *FREE} | ({"saw"} if kind == "move" else set())
            and len(set(event) & {"pointer", "flag"}) > 0
        )
        self.check_clock(event)
        node = self.number(event[kind])
        if "saw" in event:
            self.saw(event["saw"])
        pointer, flag = self.pointers.get(node), self.flags.get(node, False)
        if "pointer" in event:
            pointer = None if event["pointer"] is None else self.number(event["pointer"])
        if "flag" in event:
            assert event["flag"] is True or event["flag"] is False
            flag = event["flag"]
        return node, pointer, flag

    @staticmethod
    def check_clock(event: Any) -> None:
        assert type(event.get("clock", 0)) is int

    def saw(self, saw: Any) -> None:
        assert isinstance(saw, dict)
        for name, held in saw.items():
            self.number(name)
            assert isinstance(held, list) and len(held) in ((1, 2) if self.rules == "hh" else (2,))
            assert held[0] is None or self.number(held[0])
            assert len(held) == 1 or held[1] is False or (held[1] is True and self.rules == "manne")

    def fault(self, line: int, event: Any) -> None:
        node, pointer, flag = self.wrote(event, "fault")
        if "pointer" in event:
            self.claim(line, "bad", f"point {node} {pointer or '-'}")
        if "flag" in event:
            self.claim(line, "bad", f"flag {node} {int(flag)}")
        self.pointers[node], self.flags[node] = pointer, flag

    def moves(self, line: int, events: Any) -> None:
        assert isinstance(events, list) and events
        made = []
        for node, pointer, flag in [self.wrote(event, "move") for event in events]:
            old, was = self.pointers.get(node), self.flags.get(node, False)
            rule = "abandon" if pointer is None else "marry" if self.pointers.get(pointer) == node else "seduce"
            if (pointer != old) == (flag != was):
                rule = "never"
            elif flag != was:
                rule = "update"
            target = f">{pointer}" if rule in ("marry", "seduce") else ""
            made.append((node, f"{node}{target}", f"{node}:{rule}{target}", pointer, flag))
        made.sort()
        choice, reply = " ".join(it[1] for it in made), " ".join(it[2] for it in made)
        self.claim(line, "diverged", f"step {choice}", reply)
        for node, _, _, pointer, flag in made:
            self.pointers[node], self.flags[node] = pointer, flag

    def take(self, line: int, event: Any) -> None:
        assert isinstance(event, dict)
        (kind,) = [key for key in event if key in KEYS[2:9]]
        self.check_clock(event)
        if kind == "move":
            self.moves(line, [event])
        elif kind == "fault":
            self.fault(line, event)
        else:
            assert set(event) <= {kind, *FREE}
            if kind == "moves":
                self.moves(line, event["moves"])
            else:
                self.edit(line, kind, event[kind], event.get("time"))


def are_seconds(*times: Any) -> bool:
    return all(type(time) in (int, float) for time in times)


def is_cut(line: str) -> bool:
    """Whether no value of JSON begins a line."""
    try:
        json.JSONDecoder().raw_decode(line.strip(" \t\r\n"))
        return False
    except json.JSONDecodeError:
        return True


def second_verdict(log: bytes, rules: str, engine: str) -> Verdict:
    claims: Optional[Claims] = None
    last: Verdict = ("accepted", 0)
    number = 0
    for number, line in enumerate(log.split(b"\n"), 1):
        if not line.strip():
            continue
        try:
            text = line.decode("utf-8-sig" if number == 1 else "utf-8")
            if number > log.count(b"\n") and is_cut(text):
                break
            event = json.loads(text.strip(" \t\r\n"), object_pairs_hook=once, parse_constant=float.fromhex)
            if claims:
                claims.take(number, event)
            else:
                claims = Claims(rules, event)
        except (ValueError, AssertionError, KeyError, TypeError, RecursionError):
            last = "bad", number
            break
    if not claims:
        return "bad", last[1] or 1
    try:
        audit("".join(f"{line}\n" for line in claims.text), engine=engine)
        return last
    except Damaged as damaged:
        wrong, kind = claims.lines[damaged.line - 1]
        return kind, wrong


def first_verdict(log: bytes, rules: str, engine: str) -> Verdict:
    try:
        found = conform(log, rules, engine=engine)
    except BadLine as bad:
        return "bad", bad.line
    return ("diverged", found.first.line) if found.first else ("accepted", 0)


def fault_of_resync(log: bytes, rules: str, engine: str, first: Verdict) -> list[str]:
    """What is wrong with a log judged past its divergences, whose transcript must be accepted."""
    transcript, told = io.BytesIO(), list[Divergence]()
    try:
        conform(log, rules, engine=engine, resync=True, transcript=transcript, on_divergence=told.append)
    except BadLine:
        pass
    lines = [it.line for it in told]
    is_right = (
        first[1] in lines[:1] if first[0] == "diverged" else not lines or (first[0] == "bad" and lines[0] > first[1])
    )
    if not is_right:
        return [f"{first}, and with --resync {told[:1]}"]
    try:
        if transcript.getvalue():
            audit(transcript.getvalue(), engine=engine)
        return []
    except Damaged as damaged:
        return [f"the transcript is refused: {damaged}"]


def fault_by_views(log: bytes, rules: str, engine: str, first: Verdict) -> list[str]:
    """What is wrong with a log judged by views: the first bad line is the same, unless the judging ends before."""
    transcript, told = io.BytesIO(), list[Divergence]()
    bad = 0
    try:
        found = conform(log, rules, engine=engine, views=True, transcript=transcript, on_divergence=told.append)
        if found.divergences != len(told) or bool(found) != (not told) or found.viewed < found.stale_moves:
            return [f"by views {found}"]
        if not found.stopped and first[0] == "bad":
            return [f"{first}, and by views no bad line"]
    except BadLine as error:
        bad = error.line
    if first[0] == "bad" and bad and bad != first[1]:
        return [f"{first}, and by views line {bad} is bad"]
    if any(it.kind not in ("rule", "view", "stale", "order", "together") for it in told):
        return [f"by views {told}"]
    try:
        if transcript.getvalue():
            audit(transcript.getvalue(), engine=engine)
        return []
    except Damaged as damaged:
        return [f"by views the transcript is refused: {damaged}"]


def fault_of_forms(log: bytes, rules: str, engine: str, first: Verdict, chance: random.Random) -> list[str]:
    """What is wrong with the same log if it is packed, or if its lines are in two logs and have clocks."""
    packed = first_verdict(gzip.compress(log, 1), rules, engine)
    if packed != first:
        return [f"{first}, and packed {packed}"]
    parts: dict[str, list[bytes]] = {"a": [], "b": []}
    places: dict[tuple[str, int], int] = {}
    for number, line in enumerate(log.split(b"\n"), 1):
        name = chance.choice("ab") if number > 1 else "a"
        parts[name].append(b'{"clock": %d, %b' % (number, line[1:]) if line.startswith(b"{") else line)
        places[name, len(parts[name])] = number
    whole = merged({name: b"".join(line + b"\n" for line in lines) for name, lines in parts.items()})
    with contextlib.suppress(BadLine):
        conform(whole, rules, engine=engine, views=True, resync=True)
    if first[0] == "bad" or b'"clock"' in log or not log.endswith(b"\n"):
        return []
    found = conform(whole, rules, engine=engine).first
    place = places[found.file, found.line] if found else 0
    return [] if place == first[1] else [f"{first}, and in two logs line {place}"]


def damaged_value(value: Any, chance: random.Random) -> Any:
    return chance.choice(
        [value, None, True, 1, 0.5, "", "a", "b", "zz", [], {}, [value], -1, "\ud800", 10**30, {"a": value}]
    )


def damaged_line(line: str, lines: list[str], chance: random.Random) -> str:
    event = json.loads(line)
    key = chance.choice([*event])
    act = chance.randrange(6)
    if act == 0:
        inner = event[key] if isinstance(event[key], dict) and event[key] and chance.random() < 0.8 else event
        key = chance.choice([*inner]) if inner is not event else key
        inner[key] = damaged_value(inner[key], chance)
    elif act == 1:
        other = json.loads(chance.choice(lines))
        event[key] = other.get(key, other[chance.choice([*other])])
    elif act == 2:
        event[chance.choice(KEYS)] = event.pop(key)
    elif act == 3:
        event[chance.choice([*KEYS, "time", "note", "clock", "extra", "saw"])] = chance.choice(
            [None, True, False, "a", "c", 1, -0.5, 1e99]
        )
    elif act == 4:
        return json.dumps({"moves": [json.loads(chance.choice(lines)) for _ in range(chance.randrange(4))]})
    else:
        return line[:-1] + f", {json.dumps(key)}: null}}"
    return json.dumps(event)


def damaged_log(lines: list[str], chance: random.Random) -> bytes:
    lines = lines[:]
    for _ in range(chance.randrange(1, 3)):
        at, act = chance.randrange(len(lines)), chance.randrange(8)
        if act == 0:
            del lines[at]
        elif act == 1:
            lines.insert(at, chance.choice(lines))
        elif act == 2:
            other = chance.randrange(len(lines))
            lines[at], lines[other] = lines[other], lines[at]
        else:
            lines[at] = damaged_line(lines[at], lines, chance) if lines else ""
        lines = lines or [""]
    text = "\n".join(lines).encode() + chance.choice([b"", b"\n", b"\r\n", b"\n\n"])
    act = chance.randrange(20)
    if act == 0:
        text = text[: chance.randrange(len(text) + 1)]
    elif act == 1 and text:
        at = chance.randrange(len(text))
        text = text[:at] + bytes([chance.randrange(256)]) + text[at + 1 :]
    elif act == 2:
        text = text.replace(b"\n", b"\r\n")
    elif act == 3:
        text = b"\xef\xbb\xbf" + text
    elif act == 4:
        text = text.replace(b": ", b":").replace(b", ", b" , ")
    return text


def fuzz(count: int, seed: int, engine: str = "library") -> tuple[collections.Counter[str], Iterator[str]]:
    chance, known = random.Random(seed), samples()
    counts: collections.Counter[str] = collections.Counter()
    wrong: list[str] = []
    for _ in range(count):
        rules, lines = chance.choice(known)
        log = damaged_log(lines, chance)
        if chance.random() < 0.05:
            rules = "hh" if rules == "manne" else "manne"
        try:
            first, second = first_verdict(log, rules, engine), second_verdict(log, rules, engine)
            faults = fault_of_resync(log, rules, engine, first) + fault_by_views(log, rules, engine, first)
            # with draws of its own, so that the logs stay those of the seed
            other = random.Random(len(log))
            faults += fault_of_forms(log, rules, engine, first, other) if other.random() < 0.2 else []
        except Exception as error:
            wrong.append(f"{error!r}: {rules} {log!r}")
            continue
        counts[first[0]] += 1
        wrong += [f"{it}: {rules} {log!r}" for it in faults]
        if first != second:
            wrong.append(f"{first}, and the second reading {second}: {rules} {log!r}")
    return counts, iter(wrong)


def main() -> int:
    parser = argparse.ArgumentParser(
        allow_abbrev=False, description=__doc__, formatter_class=argparse.RawDescriptionHelpFormatter
    )
    parser.add_argument("--count", type=int, default=10_000)
    parser.add_argument("--seed", type=int, default=1)
    parser.add_argument("--engine", choices=("library", "program"), default="library")
    given = parser.parse_args()
    began = time.monotonic()
    counts, wrong = fuzz(given.count, given.seed, given.engine)
    print(*(f"{count} {word}" for word, count in sorted(counts.items())), f"{time.monotonic() - began:.0f} s", sep=", ")
    told = list(wrong)
    print("".join(f"{it}\n" for it in told), end="")
    return 1 if told else 0


if __name__ == "__main__":
    sys.exit(main())
