"""The paths of the repository, the program and the library."""

from __future__ import annotations

import os
import pathlib
import subprocess
from typing import Optional, Union

TOP = pathlib.Path(__file__).resolve().parent.parent.parent
RELEASE = TOP / "release"
BUILT = TOP / "crates" / "console" / "out" / "console"


class Missing(Exception):
    """Something that the tests need is missing, named in one line."""


def program_at(path: Union[str, os.PathLike[str]]) -> pathlib.Path:
    """The absolute path. Raises `Missing` if it can't be run."""
    found = pathlib.Path(os.path.abspath(path))
    if not os.access(found, os.X_OK) or found.is_dir():
        raise Missing(f"no program at {found}")
    return found


def built_program() -> pathlib.Path:
    """What `./console` runs, taken from release/ or built if need be. Raises `Missing` if there is none."""
    try:
        ran = subprocess.run([TOP / "console", "--version"], stdin=subprocess.DEVNULL, stdout=subprocess.DEVNULL)
    except OSError as error:
        raise Missing(f"./console does not run: {error}") from None
    if ran.returncode:
        raise Missing("the program could not be built")
    return program_at(BUILT)


def program_of(given: Optional[str]) -> pathlib.Path:
    """The named one, or what `./console` runs. Raises `Missing` if there is none."""
    return built_program() if given is None else program_at(given)


def library_in(folder: Union[str, os.PathLike[str]]) -> pathlib.Path:
    found = pathlib.Path(os.path.abspath(folder)) / "librudekpi.so"
    if not found.is_file():
        raise Missing(f"no library at {found}")
    return found


def is_as_released() -> bool:
    """Whether release/ was made from the sources."""
    try:
        digest = subprocess.run([TOP / "scripts" / "digest"], capture_output=True, encoding="utf-8", check=True).stdout
        told = (RELEASE / "MADE_FROM").read_text(encoding="ascii").splitlines()
    except (OSError, subprocess.CalledProcessError):
        return False
    return f"sources {digest.strip()}" in told
