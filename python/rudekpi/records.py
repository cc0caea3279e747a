"""Files of records, a line each: rows of CSV, or objects of JSON Lines.

The first record decides which of both a file has. Blank lines and lines that begin with `#` are no records.
"""

from __future__ import annotations

import csv
import re
from typing import Any, Iterable, Iterator, Sequence, Union

from .errors import BadLine
from .graph_text import lines_of
from .log_lines import object_of, spelled
from .name_files import WHOLE
from .replies import Name
from .simple_graph import Graph

Record = Union[list[str], dict[str, Any]]
CUT = re.compile(r"[^\S\n]*#")


def fault(title: str, line: int, why: str) -> ValueError:
    return ValueError(f"{title}: line {line}: {why}")


def records_of(path: str) -> Iterator[tuple[int, Record]]:
    """The records of a file with the numbers of their lines: the fields of a row, or an object.

    Raises `ValueError`, with file and line, for a line that is none, and `OSError`.
    """
    has_objects = None
    for number, line in lines_of(path):
        if not line.strip() or CUT.match(line):
            continue
        if has_objects is None:
            has_objects = line.lstrip().startswith("{")
        yield number, object_in(path, number, line) if has_objects else fields_in(path, number, line)


def object_in(path: str, number: int, line: str) -> dict[str, Any]:
    try:
        made = object_of(number, line.encode())
    except BadLine as error:
        raise ValueError(f"{path}: {error}") from None
    if not isinstance(made, dict):
        raise fault(path, number, f"an object is expected, as in the lines before, and not {spelled(made)}")
    return made


def fields_in(path: str, number: int, line: str) -> list[str]:
    """The fields between commas without the blanks around them; empty ones at the end are left out."""
    try:
        [found] = csv.reader([line.replace("\t", " ").strip()], strict=True, skipinitialspace=True)
    except csv.Error as error:
        raise fault(path, number, f"this is no row of CSV: {error}") from None
    fields = [text.strip() for text in found]
    while fields and not fields[-1]:
        fields.pop()
    if not all(text.isprintable() for text in fields):
        odd = next(sign for text in fields for sign in text if not sign.isprintable())
        raise fault(path, number, f"{odd!r} stands in no row of CSV")
    return fields


def name_in(given: object) -> Name:
    """A name of a record: a text, or a whole number, also if a text has its digits.

    Raises `ValueError` for anything else, and for an empty text.
    """
    if isinstance(given, str) and given.strip():
        return int(given) if WHOLE.fullmatch(given) else given
    if type(given) is int:
        return given
    raise ValueError(f"a name is a text or a whole number, and not {spelled(given)}")


def numbers_of(names: Sequence[Name], title: str) -> dict[str, int]:
    """The number of each node by the text of its name: 7 and "7" are the same name in a file of records.

    Raises `ValueError` if two names have the same text.
    """
    numbers = {str(name): number for number, name in enumerate(names, 1)}
    if len(numbers) != len(names):
        raise ValueError(f"{title}: two nodes have names with the same text, which a file can't tell from each other")
    return numbers


def key_of(graph: Graph) -> tuple[str, str]:
    return graph.title, graph.digest


def check_keys(given: dict[str, Any], wanted: Iterable[str]) -> None:
    """Raises `ValueError` unless an object has exactly these keys."""
    keys = [*wanted]
    odd = next((key for key in given if key not in keys), None)
    if odd is not None:
        raise ValueError(f"there is no key {spelled(odd)}: the keys are {', '.join(keys)}")
    lacking = next((key for key in keys if key not in given), None)
    if lacking is not None:
        raise ValueError(f"the key {lacking!r} is missing")
