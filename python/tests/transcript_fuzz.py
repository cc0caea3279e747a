#!/usr/bin/env python3
"""Damages transcripts at random, and compares `explain` with the verdict of `audit`.

usage: python/tests/transcript_fuzz.py [--count N] [--seed S] [--engine library|program]

N transcripts are explained (10,000 by default). One passes if `explain` returns None for what `audit`
accepts, and otherwise names the same line and verdict, marks a place in that line, and prints in ASCII. One
that fails is printed, and the exit status is 1.
"""

from __future__ import annotations

import argparse
import collections
import os
import pathlib
import random
import re
import sys
import time
from typing import Callable, Optional

sys.path.insert(0, os.path.join(os.path.dirname(os.path.realpath(__file__)), ".."))
from rudekpi import Damaged, Network, audit, explain  # noqa: E402

EXAMPLES = pathlib.Path(__file__).resolve().parents[2] / "examples"
NUMBERS = ["0", "1", "2", "3", "5", "01", "65535", "65536", "99999999999", "1" * 30, "-1", "x", ""]
REPLIES = ["ok", "refused 11 not-enabled", "refused 12 bad-target", "refused 3 already-linked", "none", "-", ""]


def samples() -> list[str]:
    """Examples of few nodes, and runs with bases."""
    found = [path.read_text(encoding="utf-8") for path in sorted(EXAMPLES.glob("*.transcript"))]
    for rules in ("hh", "manne"):
        with Network(rules, 6, present=5) as net:
            for a, b in ((1, 2), (2, 3), (3, 4), (4, 1)):
                net.link(a, b)
            net.drive(3, 4)
            net.checkpoint()
            net.scramble(4, 6)
            net.enabled()
            net.drive(1, 100)
            net.checkpoint()
            net.leave(2)
            net.join(2)
            net.link(2, 4)
            net.drive(9, 90)
            net.matching()
            net.show(2)
            found.append(net.transcript())
    starts = [text[text.index("\nmatching2") + 1 :] for text in found if "\nmatching2" in text]
    return [text for text in found if len(text) < 20_000] + starts


def damaged_words(line: str, lines: list[str], chance: random.Random) -> str:
    words = line.split(" ")
    at, other = chance.randrange(len(words)), chance.choice(chance.choice(lines).split(" "))
    act = chance.randrange(6)
    if act == 0:
        words[at] = other
    elif act == 1:
        del words[at]
    elif act == 2:
        words.insert(at, other)
    elif act == 3:
        words[at] = chance.choice(NUMBERS)
    elif act == 4:
        words[at] = words[at][:-1]
    else:
        words[at] = re.sub(r"\d+", lambda found: str(int(found[0][:9]) + chance.choice([-1, 1])), words[at])
    return " ".join(words)


def damaged_reply(line: str, lines: list[str], chance: random.Random) -> str:
    """Mostly another one of the form of its kind."""
    head, sign, reply = line.partition(" = ")
    act = chance.randrange(4)
    if act == 0:
        reply = chance.choice(REPLIES)
    elif act == 1:
        reply = re.sub(
            "marry|seduce|abandon|update", lambda _: chance.choice(["marry", "seduce", "abandon", "update"]), reply
        )
    elif act == 2:
        reply = re.sub(r"\d+", lambda found: str(max(1, int(found[0][:9]) + chance.choice([0, -1, 1]))), reply)
    else:
        event = head.partition(" ")[2].split(" ")[0]
        reply = chance.choice([it.partition(" = ")[2] for it in lines if f" {event}" in it] or [reply])
    return head + sign + reply


def damaged(text: str, chance: random.Random) -> bytes:
    lines = text.split("\n")
    for _ in range(chance.randrange(1, 3)):
        at, act = chance.randrange(len(lines)), chance.randrange(10)
        other = chance.randrange(len(lines))
        if act == 0 and len(lines) > 1:
            del lines[at]
        elif act == 1:
            lines.insert(at, lines[other])
        elif act == 2:
            lines[at], lines[other] = lines[other], lines[at]
        else:
            change: Callable[[str, list[str], random.Random], str] = damaged_words if act < 5 else damaged_reply
            lines[at] = change(lines[at], lines, chance)
    made = "\n".join(lines).encode()
    act = chance.randrange(25)
    if act == 0:
        return made[: chance.randrange(len(made) + 1)]
    if act == 1 and made:
        place = chance.randrange(len(made))
        return made[:place] + bytes([chance.randrange(256)]) + made[place + 1 :]
    return made.replace(b"\n", b"\r\n") if act == 2 else b"\xef\xbb\xbf" + made if act == 3 else made


def fault_of(text: bytes, engine: str) -> tuple[str, str]:
    """The verdict, and what is wrong with the explanation, if anything."""
    verdict: Optional[Damaged] = None
    try:
        audit(text, engine=engine)
    except Damaged as error:
        verdict = error
    try:
        found = explain(text, engine=engine)
        said = str(found)
    except Exception as error:
        return "", repr(error)
    if not found or not verdict:
        return "accepted", "" if bool(found) == bool(verdict) else f"{found!r}, and the verdict is {verdict!r}"
    if (found.line, found.verdict) != (verdict.line, verdict.why) or not found.why:
        return verdict.why, f"{found!r}, and the verdict is {verdict!r}"
    if not 0 <= found.start < found.end <= len(found.text) + 1 or not said.isascii():
        return verdict.why, f"{found!r} marks no place"
    return verdict.why, ""


def fuzz(count: int, seed: int, engine: str = "library") -> tuple[collections.Counter[str], list[str]]:
    chance, known = random.Random(seed), samples()
    counts: collections.Counter[str] = collections.Counter()
    wrong = []
    for _ in range(count):
        text = damaged(chance.choice(known), chance)
        verdict, fault = fault_of(text, engine)
        counts[verdict] += 1
        if fault:
            wrong.append(f"{fault}: {text!r}")
    return counts, wrong


def main() -> int:
    parser = argparse.ArgumentParser(
        allow_abbrev=False, description=__doc__, formatter_class=argparse.RawDescriptionHelpFormatter
    )
    parser.add_argument("--count", type=int, default=10_000)
    parser.add_argument("--seed", type=int, default=1)
    parser.add_argument("--engine", choices=("library", "program"), default="library")
    given = parser.parse_args()
    began = time.monotonic()
    counts, wrong = fuzz(given.count, given.seed, given.engine)
    print(*(f"{count} {word}" for word, count in sorted(counts.items())), f"{time.monotonic() - began:.0f} s", sep=", ")
    print("".join(f"{it}\n" for it in wrong), end="")
    return 1 if wrong else 0


if __name__ == "__main__":
    sys.exit(main())
