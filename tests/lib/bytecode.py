"""Compiled modules of the Python client for the many processes that tests start."""

from __future__ import annotations

import compileall
import os

from .places import TOP


def compile_client() -> None:
    """Compiles the client's modules that have changed, into their `__pycache__`, and has children write none.

    Without them each process would compile the client anew: half of a short command's time. Children write
    none, as a module that is cut by a test's limit of the size of files would stay. If the folder can't be
    written, all is only slower.
    """
    compileall.compile_dir(str(TOP / "python" / "rudekpi"), quiet=2)
    os.environ["PYTHONDONTWRITEBYTECODE"] = "1"
