"""Random scripts: edits, faults, steps, questions and checkpoints, refused ones too; and damages."""

from __future__ import annotations

import random
from typing import Callable

LINES = 60


def script(chance: random.Random, nodes: int) -> str:
    """Lines for a network of these many names; some use the name after the last."""

    def name() -> int:
        return chance.randint(1, nodes + 1)

    def item() -> str:
        return f"{name()}>{name()}" if chance.random() < 0.2 else str(name())

    kinds: dict[Callable[[], str], int] = {
        lambda: f"link {name()} {name()}": 9,
        lambda: f"unlink {name()} {name()}": 2,
        lambda: f"point {name()} {name()}": 3,
        lambda: f"point {name()} -": 1,
        lambda: f"flag {name()} {chance.randint(0, 1)}": 2,
        lambda: f"join {name()}": 5,
        lambda: f"leave {name()}": 4,
        lambda: " ".join(["step", *(item() for _ in range(chance.randint(0, 3)))]): 6,
        lambda: f"show {name()}": 1,
        lambda: "enabled": 1,
        lambda: "matching": 1,
        lambda: "status": 2,
        lambda: "checkpoint": 3,
        lambda: f"drive {chance.randint(0, 99)} {chance.randint(0, 9)}": 3,
        lambda: f"scramble {chance.randint(0, 99)} {chance.randint(0, 4)}": 2,
    }
    return "".join(f"{kind()}\n" for kind in chance.choices([*kinds], [*kinds.values()], k=LINES))


def damaged(chance: random.Random, text: bytes) -> bytes:
    at, other = chance.randrange(len(text)), bytes([chance.choice(b"0123456789 -=>:\nabe")])
    return text[:at] + chance.choice([other + text[at + 1 :], text[at + 1 :], other + text[at:]])
