"""Pages made by scripts/play, and the program that they are compared with."""

from __future__ import annotations

import os
import re
import subprocess
from typing import Any, Optional, Sequence

from browser import PageFault
from lib.tally import Tally
from scripts_for_pages import Page

TOP = os.path.dirname(os.path.dirname(os.path.abspath(__file__)))
PLAY = f"{TOP}/scripts/play"
NODE = re.compile(r'^(\d+) \[label="\d+(?:\\n([a-z]+))?"(, style=filled)?\];$')
EDGE = re.compile(r"^(\d+) -- (\d+)(?: \[(style=bold|dir=forward|dir=back)\])?;$")
# Exit status, standard output and standard error.
Ended = tuple[int, bytes, bytes]


class Pages(Tally):
    def __init__(self, program: str, wait: float, folder: str, own: bool = False) -> None:
        super().__init__()
        self.program, self.wait, self.folder, self.own = program, wait, folder, own

    def run(self, words: Sequence[str], text: bytes) -> Ended:
        made = subprocess.run(words, input=text, capture_output=True, timeout=600)
        return made.returncode, made.stdout, made.stderr

    def play(self, text: bytes, program: Optional[str] = None) -> Ended:
        return self.run([PLAY, "--program", program or self.program], text)

    def write(self, text: bytes, program: Optional[str] = None) -> str:
        status, made, told = self.play(text, program)
        if status != 0:
            raise PageFault(f"no page: {told.decode()}")
        path = os.path.join(self.folder, "page.html")
        with open(path, "wb") as file:
            file.write(made)
        return path

    def drawing(self, text: bytes) -> dict[str, list[Any]]:
        return drawing_of(self.run([self.program, "picture"], text)[1].decode())

    def transcript(self, page: Page) -> str:
        if page.storm:
            paths = []
            for number, script in enumerate(page.storm):
                paths.append(os.path.join(self.folder, f"{page.name}.{number}"))
                with open(paths[-1], "w", encoding="ascii") as file:
                    file.write(script)
            words = ["storm", *page.words(), *paths]
            return self.run([self.program, *words], b"")[1].decode()
        return self.run([self.program, "run", *page.words()], page.script.encode())[1].decode()


def drawing_of(picture: str) -> dict[str, list[Any]]:
    # lists, as JSON from a page has them
    nodes: list[list[Any]] = []
    edges: list[list[Any]] = []
    arrows: list[list[int]] = []
    for line in picture.splitlines()[1:-1]:
        if node := NODE.match(line):
            nodes.append([int(node[1]), (node[2] or "")[:1].upper(), bool(node[3])])
            continue
        edge = EDGE.match(line)
        assert edge is not None, line
        low, high, drawn = edge.groups()
        edges.append([int(low), int(high), drawn == "style=bold"])
        if drawn == "dir=forward":
            arrows.append([int(low), int(high)])
        elif drawn == "dir=back":
            arrows.append([int(high), int(low)])
    return {"nodes": nodes, "edges": sorted(edges), "arrows": sorted(arrows)}
