#!/usr/bin/env python3
"""A ring of twelve nodes settles, is broken by a fault and a leaving node, and mends itself.

It calls the C library by ctypes alone; `rudekpi.Network` does all of this by itself. The transcript is
printed; the pairs and the verdict go to standard error.

usage: ring.py LIBRARY
"""

from __future__ import annotations

import ctypes
import sys

MANNE, DONE, ACCEPTED = 1, 0, 0


class Slot(ctypes.Structure):
    """The place of a session: all bytes 0 at first, and never copied while it is full."""

    _fields_ = [("at", ctypes.c_void_p), ("full", ctypes.c_bool)]


class Told(ctypes.Structure):
    _fields_ = [
        ("entry", ctypes.c_uint32),
        ("refusal", ctypes.c_uint32),
        ("target", ctypes.c_uint32),
        ("rows", ctypes.c_size_t),
    ]


class Counts(ctypes.Structure):
    _fields_ = [(name, ctypes.c_uint32) for name in ("nodes", "edges", "pairs", "enabled", "charge", "spent")]


class Row(ctypes.Structure):
    _fields_ = [("node", ctypes.c_uint32), ("rule", ctypes.c_uint32), ("other", ctypes.c_uint32)]


class Verdict(ctypes.Structure):
    _fields_ = [(name, ctypes.c_uint32) for name in ("kind", "entries", "epochs")] + [
        ("moves", ctypes.c_uint64),
        ("line", ctypes.c_uint64),
    ]


class Ring:
    """A session, which is ended with its block."""

    def __init__(self, path: str, nodes: int) -> None:
        self.library, self.slot, self.told = ctypes.CDLL(path), Slot(), Told()
        for name in ("session_length", "session_read", "rows"):
            getattr(self.library, f"rudekpi_{name}").restype = ctypes.c_size_t
        status = self.library.rudekpi_session_new(MANNE, nodes, nodes, ctypes.byref(self.slot))
        if status != DONE:
            raise MemoryError(f"status {status}")

    def __enter__(self) -> Ring:
        return self

    def __exit__(self, *_: object) -> None:
        self.library.rudekpi_session_free(ctypes.byref(self.slot))

    def ask(self, name: str, *words: object) -> None:
        """Makes a call that one or more entries answer."""
        status = getattr(self.library, f"rudekpi_{name}")(ctypes.byref(self.slot), *words, ctypes.byref(self.told))
        if status != DONE:
            raise ValueError(f"{name}: status {status}, refusal {self.told.refusal}")

    def pairs(self) -> list[tuple[int, int]]:
        self.ask("pairs")
        rows = (Row * self.told.rows)()
        self.library.rudekpi_rows(ctypes.byref(self.slot), rows, ctypes.c_size_t(len(rows)))
        return [(row.node, row.other) for row in rows]

    def text(self) -> bytes:
        """All text written and not yet read."""
        size = self.library.rudekpi_session_length(ctypes.byref(self.slot))
        room = ctypes.create_string_buffer(size)
        self.library.rudekpi_session_read(ctypes.byref(self.slot), room, ctypes.c_size_t(size))
        return room.raw

    def audit(self, text: bytes) -> Verdict:
        verdict = Verdict()
        self.library.rudekpi_audit(text, ctypes.c_size_t(len(text)), ctypes.byref(verdict))
        return verdict


def main() -> int:
    with Ring(sys.argv[1], 12) as ring:
        for node in range(1, 13):
            ring.ask("link", node, node % 12 + 1)
        ring.ask("drive", ctypes.c_uint64(7), 100)
        print("pairs:", *ring.pairs(), file=sys.stderr)
        ring.ask("point", 1, 12)
        ring.ask("leave", 4)
        ring.ask("drive", ctypes.c_uint64(8), 100)
        print("mended:", *ring.pairs(), file=sys.stderr)
        counts = Counts()
        ring.ask("status", ctypes.byref(counts))
        text = ring.text()
        verdict = ring.audit(text)
    print(
        f"{counts.pairs} pairs after {counts.spent} moves; the audit has {verdict.entries} entries, "
        f"{verdict.moves} moves",
        file=sys.stderr,
    )
    sys.stdout.write(text.decode())
    return 0 if verdict.kind == ACCEPTED and not counts.enabled else 1


if __name__ == "__main__":
    sys.exit(main())
