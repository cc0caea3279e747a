"""The `time` of a log's line, if it is a number of seconds."""

from __future__ import annotations

import math
import re
from typing import Any, Optional

TIME = re.compile(rb'"time": ?(-?[0-9][-+.0-9eE]*)')


def time_of(line: Any) -> Optional[float]:
    """The seconds of an event, or of its line in the spelling that `log_lines` reads fast; None without a number."""
    if isinstance(line, bytes):
        found = TIME.search(line)
        return finite(float(found[1])) if found else None
    value = line.get("time") if isinstance(line, dict) else line
    if type(value) not in (int, float):
        return None
    try:
        return finite(float(value))
    except OverflowError:
        return None


def finite(seconds: float) -> Optional[float]:
    return seconds if math.isfinite(seconds) else None
