"""Small drawings of networks, and pages that play their transcripts."""

from __future__ import annotations

import html
import json
import math
import os
import subprocess
import sys
from typing import Optional, Union

from .errors import Damaged, Ended, text_of
from .files import write_whole
from .labels import in_markup, label, page_names, visible
from .names import Names
from .program import Program, found_program, page_maker
from .state import State

# the most nodes; the most with names; pixels
MOST_DRAWN, MOST_NAMED, SIZE = 200, 40, 260
# the element for names, in a page that shows the numbers
NO_NAMES = b'<script type="application/json" id="names">null</script>'


def places(nodes: list[int]) -> dict[int, tuple[float, float]]:
    radius, turn = SIZE / 2 - 20, 2 * math.pi / max(1, len(nodes))
    return {
        node: (SIZE / 2 + radius * math.sin(at * turn), SIZE / 2 - radius * math.cos(at * turn))
        for at, node in enumerate(nodes)
    }


def edge_line(state: State, a: int, b: int, at: dict[int, tuple[float, float]]) -> str:
    """An edge: thick if it joins a pair, orange if one end points along it without an answer."""
    along = (state.pointers.get(a) == b) + (state.pointers.get(b) == a)
    width, colour = ((1, "#bbb"), (1.5, "#e69f00"), (4, "#0072b2"))[along]
    (x, y), (u, v) = at[a], at[b]
    return f'<line x1="{x:.1f}" y1="{y:.1f}" x2="{u:.1f}" y2="{v:.1f}" stroke="{colour}" stroke-width="{width}"/>'


def node_sign(state: State, node: int, names: Names, at: dict[int, tuple[float, float]]) -> str:
    """A node: filled if it is paired, with its name if there is room."""
    (x, y), name = at[node], names.name_of(node)
    fill = "#0072b2" if state.partner(node) else "#fff"
    sign = f'<circle cx="{x:.1f}" cy="{y:.1f}" r="5" fill="{fill}" stroke="#333">'
    sign += f"<title>{in_markup(visible(name))}</title></circle>"
    if len(state.neighbours) > MOST_NAMED:
        return sign
    place = f'x="{x:.1f}" y="{y - 8:.1f}"'
    return f'{sign}<text {place} font-size="9" text-anchor="middle">{in_markup(label(name))}</text>'


def html_of(title: str, state: State, names: Names) -> str:
    """A line of text, and below it the network if it is small enough."""
    head = f"<div>{html.escape(title)}</div>"
    nodes = sorted(state.neighbours)
    if len(nodes) > MOST_DRAWN:
        return head
    at = places(nodes)
    lines = [edge_line(state, a, b, at) for a, b in state.edges()]
    signs = [node_sign(state, node, names, at) for node in nodes]
    return (
        f'{head}<svg xmlns="http://www.w3.org/2000/svg" width="{SIZE}" height="{SIZE}">{"".join(lines + signs)}</svg>'
    )


def write_page(
    transcript: str, path: Union[str, os.PathLike[str]], program: Program, names: Optional[Names] = None
) -> None:
    """Writes a page that plays a transcript, with the names of its nodes.

    Raises `Damaged` if `audit` refuses the transcript, `FileNotFoundError` if the page maker is missing,
    `Ended`, and `OSError` if the page cannot be written; nothing of the page is left then.
    """
    words = [sys.executable, page_maker(), "--program", found_program(program)]
    done = subprocess.run(words, input=transcript.encode(), stdout=subprocess.PIPE, stderr=subprocess.PIPE)
    if done.returncode == 1:
        raise Damaged.read(text_of(done.stderr))
    if done.returncode:
        raise Ended(done.returncode, done.stderr)
    write_whole(path, with_names(done.stdout, names))


def with_names(page: bytes, names: Optional[Names]) -> bytes:
    """A page with the caller's names in an element; no text in these names can end that element."""
    shown = page_names(names)
    if shown is None:
        return page
    data = json.dumps(shown).replace("<", "\\u003c")
    # the first such text is the page's own element: the transcript comes after it, and has no such text
    return page.replace(NO_NAMES, NO_NAMES.replace(b"null", data.encode()), 1)
