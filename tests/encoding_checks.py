"""Which calls of a Python source read or write text without the name of an encoding.

Such a call takes the locale's encoding: it fails, or writes other bytes, in a locale that is not UTF-8.
"""

from __future__ import annotations

import ast
from typing import Iterator, Optional

# What opens a file, with the mode that is usual, and the places of the mode and of the encoding.
OPENERS = {
    "open": ("r", 1, 3),
    "fdopen": ("r", 1, 3),
    "NamedTemporaryFile": ("w+b", 0, 2),
    "TemporaryFile": ("w+b", 0, 2),
    "SpooledTemporaryFile": ("w+b", 1, 3),
}
# Modules whose `open` takes a path first, with the usual mode; a method `open` of a path takes none.
MODULES = {"io": "r", "gzip": "rb", "bz2": "rb", "lzma": "rb"}
# Modules whose `open` opens no file of text, and what opens a page in these tests.
OTHERS = {"os", "tarfile", "zipfile", "webbrowser", "browser"}
# Functions and methods that always read or write text, with the place of the encoding.
TEXTS = {"read_text": 0, "write_text": 1, "TextIOWrapper": 1}
# These have no encoding to name.
NAMELESS = {"popen", "getoutput", "getstatusoutput"}
# Words of `subprocess` that ask for text.
ASKING = ("text", "universal_newlines")


def bare_lines(text: str) -> Iterator[int]:
    """The line of each such call of a source. Raises `SyntaxError` for a text that is no Python."""
    for node in ast.walk(ast.parse(text)):
        if isinstance(node, ast.Call) and is_bare(node):
            yield node.lineno
        elif isinstance(node, ast.Dict) and are_bare_words(node):
            yield node.lineno


def is_bare(call: ast.Call) -> bool:
    name, owner = name_and_owner(call.func)
    if word(call, "encoding") is not None:
        return False
    if name in NAMELESS:
        return owner in ("os", "subprocess")
    if name in TEXTS:
        return len(call.args) <= TEXTS[name]
    if name in OPENERS and not (name == "open" and owner in OTHERS):
        return opens_text(call, name, owner)
    return asks_for_text(call, owner)


def name_and_owner(called: ast.expr) -> tuple[str, Optional[str]]:
    """The last name of what is called, and what it is taken from: none if it is not an attribute."""
    if isinstance(called, ast.Name):
        return called.id, None
    if not isinstance(called, ast.Attribute):
        return "", None
    before = called.value
    if isinstance(before, ast.Name):
        return called.attr, before.id
    return called.attr, before.attr if isinstance(before, ast.Attribute) else ""


def word(call: ast.Call, name: str) -> Optional[ast.expr]:
    return next((given.value for given in call.keywords if given.arg == name), None)


def opens_text(call: ast.Call, name: str, owner: Optional[str]) -> bool:
    mode, place, encoding = OPENERS[name]
    if name == "open" and owner is not None:
        mode = MODULES.get(owner, mode)
        place, encoding = (place, encoding) if owner in MODULES else (place - 1, encoding - 1)
    given = word(call, "mode") or next(iter(call.args[place : place + 1]), None)
    if isinstance(given, ast.Constant):
        mode = str(given.value)
    is_packed = owner in ("gzip", "bz2", "lzma")
    return ("t" in mode if is_packed else "b" not in mode) and len(call.args) <= encoding


def asks_for_text(call: ast.Call, owner: Optional[str]) -> bool:
    """`text=True` in any call, as a wrapper passes it on; other values only in calls that start a process."""
    if any(is_true(word(call, asking)) for asking in ASKING):
        return True
    given = [word(call, asking) for asking in (*ASKING, "errors")]
    return owner == "subprocess" and any(value is not None and not is_false(value) for value in given)


def are_bare_words(made: ast.Dict) -> bool:
    """A dictionary of words for `subprocess`, as `{"text": True}`."""
    keys = [key.value if isinstance(key, ast.Constant) else None for key in made.keys]
    asks = any(key in ASKING and is_true(value) for key, value in zip(keys, made.values))
    return asks and "encoding" not in keys


def is_true(value: Optional[ast.expr]) -> bool:
    return isinstance(value, ast.Constant) and value.value is True


def is_false(value: Optional[ast.expr]) -> bool:
    return isinstance(value, ast.Constant) and not value.value
