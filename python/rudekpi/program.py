"""Finds the program."""

from __future__ import annotations

import functools
import os
from typing import Union

from .errors import Ended
from .processes import status_of

Program = Union[str, "os.PathLike[str]", None]
PACKAGE = os.path.dirname(os.path.realpath(__file__))


@functools.lru_cache(maxsize=None)
def repository_program() -> str:
    """The program of this repository. It is built first if needed; the build prints on standard error."""
    path = os.path.join(os.path.dirname(os.path.dirname(PACKAGE)), "console")
    if not os.path.isfile(path):
        raise FileNotFoundError(f"no program at {path}: name one by program= or RUDEKPI_CONSOLE")
    status = status_of([path, "--version"])
    if status:
        raise Ended(status, b"the program could not be built")
    return path


def found_program(program: Program = None) -> str:
    """The path of the program.

    Raises `FileNotFoundError` if there is none, and `Ended` if the repository's can't be built.
    """
    given = program or os.environ.get("RUDEKPI_CONSOLE")
    if given:
        return os.fspath(given)
    beside = os.path.join(PACKAGE, "bin", "console")
    return beside if os.path.isfile(beside) else repository_program()


def page_maker() -> str:
    """The script that makes pages of transcripts: the package's, else the repository's.

    Raises `FileNotFoundError` if there is neither.
    """
    tops = [os.path.join(PACKAGE, "page"), os.path.dirname(os.path.dirname(PACKAGE))]
    paths = [os.path.join(top, "scripts", "play") for top in tops]
    for path in paths:
        if os.path.isfile(path):
            return path
    raise FileNotFoundError(f"nothing that makes pages, at {' or '.join(paths)}")
