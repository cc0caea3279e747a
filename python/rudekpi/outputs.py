"""The outputs of commands: never written over what is read, and a file whole or not at all.

Each command names the files that it reads and writes. `refuse_clashes` compares them before any is opened to
write. `write` then writes a temporary file in the same folder and renames it; streams are written directly.
"""

from __future__ import annotations

import os
import stat
import sys
from typing import Iterable, Optional, Tuple, Union

from .files import is_descriptor, write_whole

STANDARD = "-"
# a file that is there, by device and inode; or the path of one that is not
Identity = Union[Tuple[int, int], str]


def write(path: Optional[str], text: str) -> None:
    """Writes a text to a file, or to standard output for None and `-`. Raises `OSError`.

    A file is whole or unchanged: see `files.write_whole`.
    """
    if path is None or path == STANDARD:
        sys.stdout.buffer.write(text.encode())
    else:
        write_whole(path, text.encode())


def names_file(path: Optional[str]) -> Optional[str]:
    """The file of names that goes with an output; None for standard output."""
    return None if path is None or path == STANDARD else f"{path}.names"


def is_file(path: Optional[str]) -> bool:
    """Whether an output is a file that is there, and no stream."""
    return path is not None and path != STANDARD and not is_descriptor(path) and os.path.isfile(path)


def refuse_clashes(writes: Iterable[Optional[str]], reads: Iterable[Optional[str]]) -> None:
    """Raises `ValueError` if a file that is to be written is also read, or is to be written twice.

    `-` is standard input among what is read, and standard output among what is written; None is left out.
    Standard output is always among what is written: `>> FILE` may have opened it on a file that is read.
    Links are followed. Devices, pipes and terminals are no files. Opens nothing.
    """
    read = {where: path for path in reads if (where := identity(path, 0)) is not None}
    written: dict[Identity, str] = {}
    for path in (STANDARD, *writes):
        where = identity(path, 1)
        if path is None or where is None:
            continue
        if where in read:
            raise ValueError(
                f"{told(path, 'output')} would be written over {told(read[where], 'input')}, which is read"
            )
        # another name of an open stream appends to it
        if where in written and path != STANDARD and not is_descriptor(path):
            raise ValueError(f"{told(path, 'output')} would be written twice, also as {told(written[where], 'output')}")
        written[where] = path


def told(path: Optional[str], stream: str) -> str:
    return f"standard {stream}" if path is None or path == STANDARD else path


def identity(path: Optional[str], number: int) -> Optional[Identity]:
    """What tells a file from others; None for no path, and for what is no file.

    `-` is the stream `number`.
    """
    if path is None:
        return None
    try:
        found = os.fstat(number) if path == STANDARD else os.stat(path)
    except ValueError:
        # no path in this locale's encoding, so no file
        return None
    except OSError:
        return None if path == STANDARD else os.path.realpath(path)
    return (found.st_dev, found.st_ino) if stat.S_ISREG(found.st_mode) else None
