#!/usr/bin/env python3
"""Both auditors on transcripts and on edited ones: they must print the same line, and for every fifth text
the same table of epochs but for its rounds, and exit alike.

differ.py SEED SCRIPTS EDITS [near] [big] [FILE ..]: transcripts of random scripts with EDITS edits of each;
near: edits that mostly keep the form; big: larger networks; FILE: a transcript; each of its lines is edited
EDITS times, in two ways."""

from __future__ import annotations

import random
import re
import sys
import time
from typing import Callable, Sequence

sys.dont_write_bytecode = True
import scripts  # noqa: E402

chance = random.Random(int(sys.argv[1]))
WORDS = (
    b"unknown-node self-loop already-linked not-linked too-many-edges not-neighbour no-flag empty-choice "
    b"not-central chosen-twice not-enabled bad-target already-present"
)
REFUSALS = [b"refused %d %s" % (i + 1, word) for i, word in enumerate(WORDS.split())]
BYTES = b"0123456789 -=>:abcdefknoprstuwy"
LIMITS = [65536, 65535, 4294967296, 4294967295, 0]


def name() -> bytes:
    return b"%d" % chance.randint(1, 6)


def with_number(line: bytes, number: Callable[[int], bytes]) -> bytes:
    """The line with another number at a random place of one."""
    places = list(re.finditer(rb"\d+", line))
    if not places:
        return line
    place = chance.choice(places)
    return line[: place.start()] + number(int(place[0])) + line[place.end() :]


def near_event(event: bytes) -> bytes:
    words = event.split(b" ")
    if words[0] == b"step":
        act = chance.random()
        if act < 0.4 or len(words) == 1:
            words.insert(chance.randint(1, len(words)), name() + chance.choice([b"", b">" + name()]))
        elif act < 0.6:
            del words[chance.randrange(1, len(words))]
        else:
            i = chance.randrange(1, len(words))
            first = words[i].split(b">")[0]
            words[i] = chance.choice([first + b">" + name(), first, name()])
    elif len(words) > 1:
        words[chance.randrange(1, len(words))] = chance.choice([name(), name(), b"-", b"0"])
        if chance.random() < 0.3:
            words[0] = chance.choice([b"link", b"unlink", b"point", b"join", b"leave", b"show", b"flag"])
    else:
        words = [chance.choice([b"enabled", b"matching", b"status"])]
    return b" ".join(words)


def near_reply(reply: bytes) -> bytes:
    words, act = reply.split(b" "), chance.random()
    i, j = chance.randrange(len(words)), chance.randrange(len(words))
    if reply.startswith(b"nodes="):
        words[i] = with_number(words[i], lambda n: b"%d" % max(0, n + chance.choice([-1, 1, 2, 7])))
    elif b":" in reply or b"-" in reply:
        if act < 0.2:
            del words[i]
        elif act < 0.35:
            words.insert(i, words[i])
        elif act < 0.5:
            words[i], words[j] = words[j], words[i]
        elif act < 0.7:
            words[i] = re.sub(rb">\d+", b">" + name(), words[i])
        elif act < 0.8:
            words[i] = re.sub(rb"^\d+", name(), words[i])
        else:
            words[i] = chance.choice(
                [
                    words[i].replace(b"marry", b"seduce"),
                    words[i].replace(b"seduce", b"marry"),
                    re.sub(rb":.*", b":abandon", words[i]),
                    re.sub(rb":.*", b":update", words[i]),
                ]
            )
    elif reply == b"none":
        words = [chance.choice([b"1:seduce", b"1:marry", b"1-2", b"2:update"])]
    else:
        words = [name()] if reply != b"ok" else [b"refused 11 not-enabled"]
    return b" ".join(words) or b"none"


def near(line: bytes) -> bytes:
    """An edit that mostly keeps the form: another reply, name, rule or refusal."""
    if line.startswith(b"node ") and line.count(b" ") == 3:
        words, i = line.split(b" "), chance.randint(1, 3)
        words[i] = chance.choice([[name(), b"9"], [name(), b"-"], [b"0", b"1"]][i - 1])
        return b" ".join(words)
    if line.startswith(b"edge "):
        return b"edge %d %d" % tuple(sorted(chance.sample(range(1, 13), 2)))
    if b" = " not in line or line.startswith(b"matching"):
        return with_number(line, lambda n: b"%d" % max(0, n + chance.choice([-1, 1, 1, 2])))
    (head, reply), act = line.split(b" = ", 1), chance.random()
    number, event = head.split(b" ", 1) if b" " in head else (head, b"")
    if act < 0.35:
        event = near_event(event)
    elif act < 0.5:
        reply = chance.choice([b"ok", b"-", name(), b"none"] + REFUSALS)
    else:
        reply = near_reply(reply)
    return number + b" " + event + b" = " + reply


def far(line: bytes, lines: Sequence[bytes]) -> bytes:
    """Any edit of a line."""
    kind, data, words, other = chance.randint(0, 13), bytearray(line), line.split(b" "), chance.choice(lines)
    i, j = chance.randrange(len(words)), chance.randrange(len(words))
    if kind in (0, 1) and data:
        at = chance.randrange(len(data))
        data[at : at + 1] = b"" if kind else bytes([chance.choice(BYTES)])
        return bytes(data)
    if kind == 2:
        data.insert(chance.randint(0, len(data)), chance.choice(BYTES + b"\r\n\0\xff"))
        return bytes(data)
    if kind in (3, 4, 5, 6):
        zero = chance.choice([b"", b"0"]) if kind == 6 else b""
        return with_number(
            line, lambda n: zero + b"%d" % chance.choice([n + 1, n + 1, max(n - 1, 0), chance.randint(0, 9)] + LIMITS)
        )
    if kind == 7:
        words[i], words[j] = words[j], words[i]
    elif kind == 8:
        del words[i]
    elif kind == 9:
        words.insert(i, words[i])
    elif kind == 10:
        words[i] = chance.choice(other.split(b" "))
    elif kind == 11:
        return line.split(b" = ")[0] + b" = " + other.split(b" = ")[-1]
    elif kind == 12:
        return chance.choice(
            [
                line.replace(b"marry", b"seduce"),
                line.replace(b"seduce", b"marry"),
                line.replace(b"abandon", b"update"),
                line.replace(b" = ", b" = refused 11 not-enabled\n", 1),
                line + b" ",
                b" " + line,
                re.sub(rb"(\d+) (step|show|link) .*= ", rb"\1 \2 1 = ", line),
            ]
        )
    elif kind == 13:
        return chance.choice(
            [
                re.sub(rb"= .*", b"= ok", line),
                re.sub(rb"= .*", b"= none", line),
                re.sub(rb"= .*", b"= refused 1 unknown-node", line),
                re.sub(rb">\d+", b"", line, count=1),
                re.sub(rb"-", b"1", line),
                line.replace(b"refused", b"Refused"),
            ]
        )
    return b" ".join(words)


def edited(given: Sequence[bytes], is_near: bool) -> bytes:
    """A text with one edit: in a line, or of lines, or cut off."""
    lines, at, act = list(given), chance.randrange(len(given)), chance.random()
    if act < 0.86 or act >= 0.95:
        lines[at] = near(lines[at]) if is_near else far(lines[at], lines)
    elif act < 0.89:
        del lines[at]
    elif act < 0.92:
        lines.insert(at, chance.choice(lines))
    else:
        other = chance.randrange(len(lines))
        lines[at], lines[other] = lines[other], lines[at]
    text = b"\n".join(lines) + b"\n" if lines else b""
    return text[: chance.randint(0, len(text))] if act >= 0.95 else text


def without_rounds(table: bytes) -> bytes:
    """The table without its last column, which audit2 does not have."""
    return b"".join(row.rpartition(b",")[0] + b"\n" for row in table.splitlines())


class Comparison:
    """Counts what the auditors say of texts, and how often it differs."""

    def __init__(self, seed: int) -> None:
        self.seed, self.cases, self.accepted, self.epochs, self.different = seed, 0, 0, 0, 0
        self.kinds: dict[bytes, int] = {}

    def of(self, text: bytes) -> None:
        theirs = self.said(text, [], ["audit"])
        self.cases += 1
        self.accepted += theirs[0] == 0
        kind = re.sub(rb"\d+", b"N", theirs[1] + theirs[2]).strip()
        self.kinds[kind] = self.kinds.get(kind, 0) + 1
        if self.cases % 5 == 1:
            table = self.said(text, ["epochs"], ["epochs"])
            self.epochs += table[1].count(b"\n") - 1

    def said(self, text: bytes, our_words: list[str], their_words: list[str]) -> tuple[int, bytes, bytes]:
        """What ./console says of a text, after a look whether audit2 says the same."""
        ours = scripts.called([scripts.AUDIT2] + our_words, text)
        theirs = scripts.called([scripts.CONSOLE] + their_words, text)
        if their_words == ["epochs"] and theirs[0] == 0:
            theirs = (theirs[0], without_rounds(theirs[1]), theirs[2])
        if ours != theirs:
            self.different += 1
            scripts.differs(f"{their_words[0]}_{self.seed}_{self.cases}", text, ours, theirs)
        return theirs


def main(seed: int, count: int, edits: int, words: Sequence[str]) -> int:
    start, compare = time.time(), Comparison(seed)
    for path in [word for word in words if "/" in word]:
        with open(path, "rb") as file:
            lines = file.read().split(b"\n")[:-1]
        compare.of(b"\n".join(lines) + b"\n")
        for at, line in enumerate(lines):
            for is_near in (False, True) * edits:
                other = near(line) if is_near else far(line, lines)
                compare.of(b"\n".join(lines[:at] + [other] + lines[at + 1 :]) + b"\n")
    for _ in range(count):
        big = "big" in words
        nodes = chance.choice([20, 40, 80] if big else [0, 1, 2, 3, 4, 4, 5, 6, 8, 12])
        text = scripts.ran(
            chance.choice(["hh", "manne"]),
            nodes,
            chance.choice([nodes, nodes, chance.randint(0, nodes)]),
            scripts.script(chance, nodes, 500 if big else 60),
        )
        bases = [place.start() for place in re.finditer(rb"^matching2", text, re.M)]
        if bases and chance.random() < 0.35:
            text = text[chance.choice(bases) :]
        compare.of(text)
        for _ in range(edits):
            compare.of(edited(text.split(b"\n")[:-1], "near" in words))
    print(
        f"audits, seed {seed}: {compare.cases} texts, {compare.accepted} accepted with {compare.epochs} epochs, "
        f"{compare.different} differ, {time.time() - start:.0f} s"
    )
    if compare.different:
        for kind, number in sorted(compare.kinds.items(), key=lambda item: -item[1]):
            print(number, kind.decode("latin1"))
    return 1 if compare.different or not compare.epochs else 0


if __name__ == "__main__":
    sys.exit(main(int(sys.argv[1]), int(sys.argv[2]), int(sys.argv[3]), sys.argv[4:]))
