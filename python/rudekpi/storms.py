"""Scripts that the program's threads play at once."""

from __future__ import annotations

import os
import subprocess
import tempfile
from typing import Iterable, Optional, Union

from .errors import Ended, text_of
from .numbers import MOST_NODES, MOST_TURNS, number_within
from .program import Program, found_program

MOST_SCRIPTS = MOST_WORKERS = 64
Script = Union[str, "os.PathLike[str]", Iterable[str]]


def storm(
    scripts: Iterable[Script],
    rules: str = "manne",
    nodes: int = 0,
    *,
    present: Optional[int] = None,
    workers: int = 1,
    roam: int = 0,
    turns: int = 1000,
    program: Program = None,
) -> str:
    """Plays 1 to 64 scripts at once on one network of the nodes 1 to `nodes`; returns its transcript.

    A script is a text, a list of lines, or a `pathlib.Path`. 1 to 64 `workers` judge a large step. While the
    scripts play, `roam` more workers roam, 0 to 64: each takes `turns` turns, at most 1,000,000, and in each
    turn lets an enabled node move. How the scripts interleave is not fixed.

    Raises `TypeError` for a single text, `ValueError` for numbers out of range, and `Ended` if the program
    fails: on a line that is no command (status 2), a file that can't be read (3), lack of memory or a full
    log (4).
    """
    if rules not in ("hh", "manne"):
        raise ValueError(f"rules are 'hh' or 'manne', and not {rules!r}")
    if isinstance(scripts, (str, bytes)):
        raise TypeError("scripts are a list of scripts, and no text alone")
    count = number_within(nodes, MOST_NODES, "a number of nodes")
    words = ["storm", "--rules", rules, "--nodes", str(count)]
    if present is not None:
        words += ["--present", str(number_within(present, count, "a number of nodes that are present"))]
    if not number_within(workers, MOST_WORKERS, "a number of workers"):
        raise ValueError("a number of workers is 1 to 64, and not 0")
    words += [
        "--workers",
        str(workers),
        "--roam",
        str(number_within(roam, MOST_WORKERS, "a number of workers who roam")),
    ]
    words += ["--turns", str(number_within(turns, MOST_TURNS, "a number of turns"))]
    with tempfile.TemporaryDirectory() as folder:
        paths = [path_of(script, os.path.join(folder, str(place))) for place, script in enumerate(scripts, 1)]
        if not 0 < len(paths) <= MOST_SCRIPTS:
            raise ValueError(f"a storm has 1 to {MOST_SCRIPTS} scripts, and not {len(paths)}")
        done = subprocess.run(
            [found_program(program), *words, *paths],
            stdin=subprocess.DEVNULL,
            stdout=subprocess.PIPE,
            stderr=subprocess.PIPE,
        )
    if done.returncode:
        raise Ended(done.returncode, done.stderr)
    return text_of(done.stdout)


def path_of(script: Script, path: str) -> str:
    """The path of a script; one that is not a file is written to `path` first."""
    if isinstance(script, os.PathLike):
        return os.path.abspath(script)
    lines = script.splitlines() if isinstance(script, str) else script
    with open(path, "w", encoding="utf-8") as file:
        file.writelines(f"{line.rstrip()}\n" for line in lines)
    return path
