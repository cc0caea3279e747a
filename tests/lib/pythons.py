"""Which Python runs tests that need libraries."""

from __future__ import annotations

import os
import subprocess
import sys
from typing import Sequence

# the Python with a distribution's packages, if another one is first in the PATH
SYSTEM_PYTHON = "/usr/bin/python3"
LACKS = """import sys
if sys.version_info < (3, 9):
    sys.exit(1)
import importlib.util
print(*[name for name in sys.argv[1:] if not importlib.util.find_spec(name)])"""


def lacked_by(python: str, libraries: Sequence[str]) -> list[str]:
    """All if it can't run the tests."""
    try:
        ran = subprocess.run(
            [python, "-c", LACKS, *libraries], stdin=subprocess.DEVNULL, capture_output=True, encoding="utf-8"
        )
    except OSError:
        return list(libraries)
    return list(libraries) if ran.returncode else ran.stdout.split()


def best_python(libraries: Sequence[str]) -> tuple[str, list[str], list[str]]:
    """The Python with the most of the libraries, this one if no other has more; and what each of the two
    lacks."""
    here = lacked_by(sys.executable, libraries)
    there = lacked_by(SYSTEM_PYTHON, libraries) if here else here
    return (SYSTEM_PYTHON, there, here) if len(there) < len(here) else (sys.executable, here, here)


def run_by_best(libraries: Sequence[str]) -> None:
    """Runs this script anew by the system's Python, and says so, if that has more of the libraries."""
    python, _, lacked_here = best_python(libraries)
    if python != sys.executable:
        print(f"by {python}: {sys.executable} has no {', '.join(lacked_here)}", flush=True)
        os.execv(python, [python, *sys.argv])
