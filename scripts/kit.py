"""The Rattle kit's own library for its commands, which checks and builds crates."""

from __future__ import annotations

import importlib.machinery
import importlib.util
import os
import re
import shutil
import subprocess
import sys
import types

WITHOUT = (
    "nothing is proved or built without it, and ./console runs as long as the sources are those of release/console"
)


def require() -> None:
    """Ends the program with one line if the kit is missing."""
    if shutil.which("rt") is None:
        sys.exit(f"{os.path.basename(sys.argv[0])}: the Rattle kit is missing (no rt in PATH): {WITHOUT}")


def load() -> types.ModuleType:
    require()
    try:
        page = subprocess.run(["rt", "doc"], capture_output=True, encoding="utf-8", check=True).stdout.strip()
    except (OSError, subprocess.CalledProcessError) as wrong:
        sys.exit(f"{os.path.basename(sys.argv[0])}: the Rattle kit does not run: {wrong}")
    loader = importlib.machinery.SourceFileLoader("rtlib", f"{os.path.dirname(page)}/bin/rtlib.py")
    spec = importlib.machinery.ModuleSpec("rtlib", loader, origin=loader.path)
    spec.has_location = True
    made = importlib.util.module_from_spec(spec)
    sys.modules["rtlib"] = made
    loader.exec_module(made)
    # its first call sets a signal's handler, which only the main thread may
    made.guarded()
    return made


def at_once() -> int:
    """How many checks to run: one a processor, if memory allows."""
    with open("/proc/meminfo", encoding="utf-8") as file:
        free = int(re.findall(r"MemAvailable:\s+(\d+)", file.read())[0]) * 1024
    return max(1, min(len(os.sched_getaffinity(0)), int(free // 2_500_000_000)))
