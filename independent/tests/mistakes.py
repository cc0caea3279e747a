#!/usr/bin/env python3
"""Tries each mistake of the list `mistakes` on a copy of what ../build made.

usage: independent/tests/mistakes.py [--program PATH] [--jobs N] [NAME ..]

A mistake is found by a proof that stops (not by its own text, which must be well-typed), by an axiom, or by
compare.py. It must be found in the way that the list says. NAMEs choose mistakes by a part of their names.
The last line is `N passed, N failed`; the exit status is 0 if some passed and none failed, else 1.
"""

from __future__ import annotations

import argparse
import concurrent.futures
import dataclasses
import os
import pathlib
import re
import shutil
import subprocess
import sys
import tempfile
import time

sys.dont_write_bytecode = True
HERE = pathlib.Path(__file__).resolve().parent
TOP = HERE.parent
FAULT = re.compile(r'^File "\./(\S+)", line (\d+), .*\n((?:.*\n?){1,3})', re.M)


@dataclasses.dataclass
class Mistake:
    """A name, how it is found, and texts with what replaces them, by file."""

    name: str
    found_by: str
    edits: list[tuple[str, str, str]]


def mistakes() -> list[Mistake]:
    found = []
    for block in (TOP / "mistakes").read_text(encoding="ascii").split("\n\n"):
        lines = [line.partition(": ") for line in block.rstrip("\n").split("\n") if line[:1] not in ("", "#")]
        if lines:
            texts = [text for word, _, text in lines if word in ("file", "old", "new")]
            edits = [*zip(texts[::3], texts[1::3], texts[2::3])]
            found.append(Mistake(lines[0][2], lines[1][2], edits))
    return found


def apply(edit: tuple[str, str, str], folder: pathlib.Path) -> int:
    """Writes the edit, and returns the line it is in."""
    path, text = folder / edit[0], (folder / edit[0]).read_text(encoding="utf-8")
    if text.count(edit[1]) != 1:
        raise ValueError(f"{edit[0]} has {text.count(edit[1])} times: {edit[1]}")
    path.write_text(text.replace(edit[1], edit[2]), encoding="utf-8")
    return text[: text.index(edit[1])].count("\n") + 1


def by_proofs(folder: pathlib.Path, changed: dict[str, int]) -> tuple[str, str]:
    """How a build ends: whether a proof stops, and its place; nothing if all is proved."""
    built = subprocess.run(["./build"], cwd=folder, stdout=subprocess.PIPE, stderr=subprocess.STDOUT, encoding="utf-8")
    if built.returncode == 0:
        return "", ""
    fault = FAULT.search(built.stdout)
    if fault is None:
        return "no proof", built.stdout[-300:]
    place = f"{fault[1]}:{fault[2]}"
    own = fault[1] in changed and int(fault[2]) <= changed[fault[1]] + 2
    return ("its own text" if own else "proofs"), place


def found(mistake: Mistake, program: str, folder: pathlib.Path) -> tuple[str, str]:
    """How a mistake is found, and the place."""
    shutil.copytree(TOP, folder, ignore=shutil.ignore_patterns("different", "__pycache__"))
    changed = {edit[0]: apply(edit, folder) for edit in mistake.edits}
    how, where = by_proofs(folder, changed)
    if how:
        return how, where
    if subprocess.run([folder / "tests" / "assumptions"], capture_output=True).returncode:
        return "axioms", "tests/assumptions"
    places = {name.upper(): str(folder / "out" / name) for name in ("audit2", "run2", "different")}
    words = [sys.executable, str(HERE / "compare.py"), "--program", program, "--scripts", "100"]
    compared = subprocess.run(words, env={**os.environ, **places}, capture_output=True, encoding="utf-8")
    last = compared.stdout.rstrip().rpartition("\n")[2]
    return ("comparison" if compared.returncode == 1 else "nothing"), last


def tried(mistake: Mistake, program: str) -> bool:
    began = time.monotonic()
    with tempfile.TemporaryDirectory() as made:
        how, where = found(mistake, program, pathlib.Path(made) / "independent")
    good = how == mistake.found_by
    word = "found" if good else f"WRONG, not by {mistake.found_by}: found"
    print(f"{word} by {how}: {mistake.name} ({where}, {time.monotonic() - began:.0f} s)", flush=True)
    return good


def main() -> int:
    parser = argparse.ArgumentParser(description=__doc__, usage=argparse.SUPPRESS)
    parser.formatter_class = argparse.RawDescriptionHelpFormatter
    default = os.environ.get("CONSOLE", str(TOP.parent / "crates" / "console" / "out" / "console"))
    parser.add_argument("--program", default=default, metavar="PATH", help="the program to compare with")
    parser.add_argument("--jobs", type=int, default=1, metavar="N", help="how many at once")
    parser.add_argument("names", nargs="*", metavar="NAME", help="a part of a mistake's name")
    given = parser.parse_args()
    program = os.path.abspath(given.program)
    chosen = [it for it in mistakes() if not given.names or any(name in it.name for name in given.names)]
    with concurrent.futures.ThreadPoolExecutor(given.jobs) as pool:
        good = [*pool.map(lambda it: tried(it, program), chosen)]
    print(f"{good.count(True)} passed, {good.count(False)} failed")
    return 0 if good and all(good) else 1


if __name__ == "__main__":
    sys.exit(main())
