"""The structs of include/rudekpi.h."""

from __future__ import annotations

import ctypes
import sys

from .places import TOP

sys.path.insert(0, str(TOP / "python"))
from rudekpi.library import DAMAGES, Slot, Verdict  # noqa: E402

__all__ = ["COUNTS", "DAMAGES", "Counts", "Item", "Row", "Slot", "Told", "Verdict"]
COUNTS = ("nodes", "edges", "pairs", "enabled", "charge", "spent")


class Told(ctypes.Structure):
    """What a call reports of its entry."""

    _fields_ = [(name, ctypes.c_uint32) for name in ("entry", "refusal", "target")] + [("rows", ctypes.c_size_t)]


class Row(ctypes.Structure):
    """A move, an enabled node or a pair."""

    _fields_ = [(name, ctypes.c_uint32) for name in ("node", "rule", "other")]


class Item(ctypes.Structure):
    """A node of a step, with the wished target, or 0."""

    _fields_ = [("node", ctypes.c_uint32), ("wish", ctypes.c_uint32)]


class Counts(ctypes.Structure):
    _fields_ = [(name, ctypes.c_uint32) for name in COUNTS]
