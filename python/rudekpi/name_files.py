"""Files of names for a transcript: line K is the name of node K.

A line is a whole number, a text of JSON in double quotes, or a plain text, which is taken unchanged. Only the
first two are written, in ASCII.
"""

from __future__ import annotations

import json
import os
import re
from operator import index
from typing import Iterable, Union

from .files import write_whole
from .labels import visible
from .names import own_names
from .numbers import MOST_NODES
from .replies import Name

Path = Union[str, "os.PathLike[str]"]
WHOLE = re.compile(r"-?(?:0|[1-9][0-9]{0,3999})")
CONTROL = re.compile("[\x00-\x1f\x7f-\x9f\u2028\u2029]")


def line_of(name: Name) -> str:
    if not isinstance(name, (bool, str)):
        try:
            return str(index(name))
        except TypeError:
            pass
    return json.dumps(str(name))


def names_text(names: Iterable[Name]) -> str:
    """The text of a file of names.

    Raises `ValueError` if two names would be the same in the text, as 'None' and None, or a name is empty.
    """
    given = own_names(names)
    lines: dict[str, Name] = {}
    for name in given:
        line = line_of(name)
        if line == '""':
            raise ValueError(f"a name in a file has a letter at least, and the text of {name!r} has none")
        if line in lines:
            raise ValueError(f"the names {lines[line]!r} and {name!r} would be the same in a file: {line}")
        lines[line] = name
    return "".join(f"{line}\n" for line in lines)


def write_names(path: Path, names: Iterable[Name]) -> None:
    """Writes a file of names, in the order of the numbers, whole or not at all.

    Raises `ValueError` if two names have the same text, and `OSError`.
    """
    write_whole(path, names_text(names).encode())


def read_names(path: Path) -> list[Name]:
    """The names in a file, in the order of the numbers.

    Raises `ValueError`, with the file and the line, for a text that is no name or is there twice, and
    `OSError`.
    """
    with open(path, "rb") as file:
        data = file.read()
    return names_in(data, os.fspath(path))


def names_in(data: bytes, title: str) -> list[Name]:
    lines = data.removeprefix(b"\xef\xbb\xbf").split(b"\n")
    if not lines[-1]:
        lines.pop()
    if len(lines) > MOST_NODES:
        raise ValueError(f"{title}: line {MOST_NODES + 1}: a network has at most {MOST_NODES} nodes")
    names: dict[Name, int] = {}
    for number, line in enumerate(lines, 1):
        try:
            name = name_in(line.decode().removesuffix("\r"))
            if name in names:
                raise ValueError(f"the name {visible(name)} is that of line {names[name]}")
        except UnicodeDecodeError:
            raise ValueError(f"{title}: line {number}: this is no UTF-8") from None
        except ValueError as error:
            raise ValueError(f"{title}: line {number}: {error}") from None
        names[name] = number
    return list(names)


def name_in(line: str) -> Name:
    if WHOLE.fullmatch(line):
        return int(line)
    if CONTROL.search(line):
        raise ValueError("a control character, which stands in a name by an escape of JSON alone")
    if line.startswith('"'):
        try:
            name = json.loads(line)
        except ValueError:
            raise ValueError("a quote begins a text of JSON, and this is none") from None
        if name:
            return name
    if not line.strip() or line == '""':
        raise ValueError("a name has a letter at least")
    return line
