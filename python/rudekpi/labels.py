"""Names of nodes as pictures and pages show them: in one line, without signs that change the text around."""

from __future__ import annotations

import html
import re
import unicodedata
from typing import Optional

from .names import Names
from .replies import Name

# how many letters of a name a picture shows
MOST_SHOWN = 24
CUT = "\u2026"
# those that join letters and emoji stay; a noncharacter may not stand in XML
JOINERS, NONCHARACTERS = "\u200c\u200d", "\ufffe\uffff"
# controls, formats such as marks of direction, halves of letters, and ends of lines
HIDDEN = ("Cc", "Cf", "Cs", "Zl", "Zp")
NODE = re.compile(r'^([0-9]+) \[label="[0-9]+', re.MULTILINE)


def is_hidden(letter: str) -> bool:
    """Whether to show a letter by its number: it is invisible, turns the direction, or may not be in XML."""
    return letter in NONCHARACTERS or (letter not in JOINERS and unicodedata.category(letter) in HIDDEN)


def visible(name: Name) -> str:
    r"""A name as a text of one line, in which a hidden letter is written as `\u202e`."""
    text = str(name)
    return text if text.isprintable() else "".join(escaped(it) if is_hidden(it) else it for it in text)


def escaped(letter: str) -> str:
    number = ord(letter)
    return f"\\u{number:04x}" if number < 0x10000 else f"\\U{number:08x}"


def label(name: Name, most: int = MOST_SHOWN) -> str:
    text = visible(name)
    return text if len(text) <= most else text[: most - 1] + CUT


def in_markup(text: str) -> str:
    return html.escape(text)


def in_graphviz(text: str) -> str:
    """A text for a quoted string of Graphviz, which reads escapes and entities in it."""
    return text.replace("\\", "\\\\").replace('"', '\\"').replace("&", "&amp;")


def named_picture(dot: str, names: Names) -> str:
    """A picture for Graphviz whose nodes have the caller's names; a cut name is whole in its tooltip."""

    def sign(found: re.Match[str]) -> str:
        name = names.known(int(found[1]))
        if name is None:
            return found[0]
        shown = f'{found[1]} [label="{in_graphviz(label(name))}'
        if label(name) == visible(name):
            return shown
        # Graphviz takes attributes in any order
        return f'{found[1]} [tooltip="{in_graphviz(visible(name))}", {shown.partition("[")[2]}'

    return dot if names.own is None else NODE.sub(sign, dot)


def page_names(names: Optional[Names]) -> Optional[list[list[str]]]:
    """The label and the whole name of each node, for a page, in the order of the numbers; None if the names
    are numbers."""
    if names is None or names.own is None:
        return None
    known = [names.known(number) for number in range(1, names.count + 1)]
    return [[] if name is None else [label(name), visible(name)] for name in known]
