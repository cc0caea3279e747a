"""What the comparisons share: where the programs are, random scripts, and a note of what differs."""

from __future__ import annotations

import os
import random as randoms
import re
import subprocess
import sys
from typing import Callable, Iterable, Iterator

sys.dont_write_bytecode = True
HERE = os.path.dirname(os.path.abspath(__file__))
CONSOLE = os.environ.get("CONSOLE", HERE + "/../../console")
AUDIT2 = os.environ.get("AUDIT2", HERE + "/../out/audit2")
RUN2 = os.environ.get("RUN2", HERE + "/../out/run2")
DIFFERENT = os.environ.get("DIFFERENT", HERE + "/../out/different")
# why a line is no command: the program alone says so, in a second line
REASON = re.compile(rb"\A(! line [0-9]+: not a command\n)! [^\n]+\n\Z")


def called(words: list[str], text: bytes) -> tuple[int, bytes, bytes]:
    """The exit status and what was written, as bytes: to standard output and to standard error."""
    done = subprocess.run(words, input=text, stdout=subprocess.PIPE, stderr=subprocess.PIPE, check=False)
    return done.returncode, done.stdout, REASON.sub(rb"\1", done.stderr)


def opening(rules: str, nodes: int, present: int) -> tuple[list[str], list[str]]:
    """The words with which ./console run and run2 begin; without the present nodes if all are."""
    some = present < nodes
    console = [CONSOLE, "run", "--rules", rules, "--nodes", str(nodes)] + (["--present", str(present)] if some else [])
    return console, [RUN2, rules, str(nodes)] + ([str(present)] if some else [])


def ran(rules: str, nodes: int, present: int, script: Iterable[str]) -> bytes:
    """The transcript that ./console run writes for a script."""
    return called(opening(rules, nodes, present)[0], "\n".join(script).encode() + b"\n")[1]


def differs(name: str, text: bytes, *told: object) -> None:
    """Keeps a text of which the programs say different things."""
    os.makedirs(DIFFERENT, exist_ok=True)
    path = f"{DIFFERENT}/{name}"
    with open(path, "wb") as file:
        file.write(text)
    print("DIFFERS", path, *told, flush=True)


def script(random: randoms.Random, nodes: int, length: int) -> Iterator[str]:
    """Random commands: most are sensible, some have names that no node has."""

    def name() -> int:
        return random.randint(1, nodes + 2 if random.random() < 1 / 3 else max(nodes, 1))

    def item() -> str:
        return f"{name()}>{name()}" if random.random() < 0.3 else f"{name()}"

    def seed() -> int:
        return random.choice([random.randint(0, 99), random.randint(0, 99), random.getrandbits(64), 2**64 - 1])

    commands: dict[str, tuple[int, Callable[[], str]]] = {
        "link": (28, lambda: f"{name()} {name()}"),
        "unlink": (6, lambda: f"{name()} {name()}"),
        "point": (10, lambda: f'{name()} {random.choice(["-", name(), name(), name()])}'),
        "flag": (6, lambda: f"{name()} {random.randint(0, 1)}"),
        "join": (4, lambda: f"{name()}"),
        "leave": (3, lambda: f"{name()}"),
        "step": (14, lambda: " ".join(item() for _ in range(random.choice([0, 1, 1, 1, 1, 2, 3, 5])))),
        "show": (5, lambda: f"{name()}"),
        "enabled": (4, lambda: ""),
        "matching": (4, lambda: ""),
        "status": (4, lambda: ""),
        "drive": (5, lambda: f"{seed()} {random.choice([random.randint(0, 9), random.randint(0, 9), 1000000])}"),
        "scramble": (4, lambda: f"{seed()} {random.randint(0, 6)}"),
        "checkpoint": (3, lambda: ""),
    }
    for _ in range(random.randint(0, length)):
        word = random.choices(list(commands), [weight for weight, _ in commands.values()])[0]
        yield f"{word} {commands[word][1]()}".rstrip()
