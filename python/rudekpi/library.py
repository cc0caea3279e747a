"""The C library, whose engine runs in this process: the library's path, and its calls with their types."""

from __future__ import annotations

import ctypes
import functools
import os
import platform
from typing import TYPE_CHECKING, Callable, Optional, Union

from .costs import COSTED
from .errors import Damaged
from .given import pieces_of
from .program import PACKAGE, Program
from .replies import Summary

if TYPE_CHECKING:
    from ctypes import _CArgObject

DONE, BAD_LINE, LOG_FULL, NO_MEMORY, NO_SESSION, BAD_ARGUMENT, REFUSED, DAMAGED, NOT_SILENT, NOT_SHOWN = range(10)
NOT_COUNTED = 10
ENGINES = ("library", "program")
# numbered from 1
REFUSALS = (
    "unknown-node",
    "self-loop",
    "already-linked",
    "not-linked",
    "too-many-edges",
    "not-neighbour",
    "no-flag",
    "empty-choice",
    "not-central",
    "chosen-twice",
    "not-enabled",
    "bad-target",
    "already-present",
)
MOVES = ("", "update", "marry", "seduce", "abandon")
DAMAGES = {1: "bad header", 2: "not a transcript line", 3: "out of order", 4: "not the machine's reply", 5: "bad base"}

# what is wrong with what a node holds, numbered from 1
VIEW_FAULTS = ("", "not-ascending", "own-neighbour", "points-at-itself", "points-at-stranger")

# the 32-bit numbers of rudekpi_told; after them its rows, one 64-bit number
TOLD_NUMBERS, TOLD_ROWS = 6, 2
ENTRY, REFUSAL, TARGET = range(3)
COUNTS = 6
ROW_NUMBERS = 3


class Slot(ctypes.Structure):
    _fields_ = [("at", ctypes.c_void_p), ("full", ctypes.c_bool)]


class NodeView(ctypes.Structure):
    """A node's registers, and whether the node is present."""

    _fields_ = [("pointer", ctypes.c_uint32), ("flag", ctypes.c_bool), ("present", ctypes.c_bool)]


class Verdict(ctypes.Structure):
    _fields_ = [(name, ctypes.c_uint32) for name in ("kind", "entries", "epochs")] + [
        (name, ctypes.c_uint64) for name in ("moves", "line")
    ]


class LocalAnswer(ctypes.Structure):
    """A node's move, or the fault of what the node holds."""

    _fields_ = [
        ("rule", ctypes.c_uint32),
        ("target", ctypes.c_uint32),
        ("pointer", ctypes.c_uint32),
        ("flag", ctypes.c_bool),
        ("fault", ctypes.c_uint32),
        ("at", ctypes.c_uint32),
    ]


def summary_of(verdict: Verdict) -> Summary:
    """The counts of a verdict. Raises `Damaged`, or `MemoryError`."""
    if not verdict.kind:
        return Summary(verdict.entries, verdict.epochs, verdict.moves)
    if verdict.kind not in DAMAGES:
        raise MemoryError("no memory for an audit")
    raise Damaged(verdict.line, DAMAGES[verdict.kind])


def verdict_of(found: Union[Summary, Damaged]) -> Verdict:
    """The verdict that `summary_of` reads as this. Raises `KeyError` for a damage of another kind."""
    if isinstance(found, Summary):
        return Verdict(0, found.entries, found.epochs, found.moves, 0)
    return Verdict({why: kind for kind, why in DAMAGES.items()}[found.why], 0, 0, 0, found.line)


# the calls of a session and of an audit, with references, numbers below 2^31, or wrapped numbers. ctypes
# needs no types for these; converting would take as long as the call. During the calls that may take long,
# other Python threads run
SHORT = (
    "link",
    "unlink",
    "point",
    "flag",
    "show",
    "status",
    "partner",
    "registers",
    "neighbours",
    "moves_left",
    "count_rounds",
    "rounds",
    "rounds_left",
    "is_at_rest",
    "transcript",
    "local_rule",
    "may_move",
    *(f"cost_of_{word}" for word in COSTED),
    *(f"silent_cost_of_{word}" for word in COSTED),
    *(f"reach_of_{word}" for word in COSTED),
)
LONG = (
    "session_new",
    "session_resume",
    "session_feed",
    "session_renumber",
    "nodes",
    "edges",
    "restless",
    "join",
    "leave",
    "step",
    "enabled",
    "pairs",
    "drive",
    "scramble",
    "checkpoint",
    "audit_new",
    "audit_feed",
    "audit_finish",
    "audit_join",
)
SIZES = ("rows", "session_length", "session_read")
# the same calls for one node, during which other Python threads wait
OF_ONE = "step", "rows"
NONE = ("session_free", "audit_free")


def address_of(text: bytes) -> int:
    """The address of bytes, which the caller keeps meanwhile."""
    return ctypes.cast(ctypes.c_char_p(text), ctypes.c_void_p).value  # type: ignore[return-value]


class Library:
    """The calls of a shared library, named without their prefix `rudekpi_`.

    Raises `OSError` if there is no library at the path, or the library lacks a call.
    """

    def __init__(self, path: str) -> None:
        self.path = path
        held, holding = ctypes.CDLL(path), ctypes.PyDLL(path)
        number, size = ctypes.c_uint32, ctypes.c_size_t
        try:
            for where, names, answer in (
                (holding, SHORT, number),
                (held, LONG, number),
                (held, SIZES, size),
                (held, NONE, None),
            ):
                for name in names:
                    made = getattr(where, f"rudekpi_{name}")
                    made.restype = answer
                    setattr(self, name, made)
            for name in OF_ONE:
                made = getattr(holding, f"rudekpi_{name}")
                made.restype = size if name in SIZES else number
                setattr(self, f"{name}_of_one", made)
            self.judge = held.rudekpi_audit
        except AttributeError as error:
            raise OSError(f"{path} is no library of this package: {error}") from None
        self.judge.argtypes, self.judge.restype = (ctypes.c_void_p, ctypes.c_size_t, ctypes.c_void_p), None

    def __getattr__(self, name: str) -> Callable[..., int]:
        raise AttributeError(name)

    def audit(self, at: int, size: int) -> Summary:
        """The verdict on `size` bytes at an address. Raises `Damaged`, or `MemoryError`."""
        verdict = Verdict()
        self.judge(at, size, ctypes.addressof(verdict))
        return summary_of(verdict)

    def joined(self, whole: Summary, found: Union[Summary, Damaged], lines: int) -> Summary:
        """The joint verdict on an accepted text and the next text, which begins with its last base.

        `lines` is how many lines precede the base; only a damage needs that. Raises `Damaged`, or
        `OverflowError` if a sum is more than a verdict holds.
        """
        verdict, second = verdict_of(whole), verdict_of(found)
        if self.audit_join(ctypes.byref(verdict), ctypes.c_uint64(lines), ctypes.byref(second)) != DONE:
            raise OverflowError(f"a verdict holds no sum of {whole} and {found!r} behind {lines} lines")
        return summary_of(verdict)

    def audit_bytes(self, text: bytes, start: int = 0, end: Optional[int] = None) -> Summary:
        return self.audit(address_of(text) + start, (len(text) if end is None else end) - start)

    def audit_file(self, file: int, start: int, end: int) -> Summary:
        """The verdict on a range of an open file, given by its number. The file is read piece by piece.

        A mapped file would end this process if another one shortens it. Raises `OSError` instead.
        """
        slot, verdict = Slot(), Verdict()
        at = ctypes.byref(slot)
        try:
            if self.audit_new(at):
                raise MemoryError("no memory for an audit")
            for piece in pieces_of(file, start, end):
                if self.audit_feed(at, piece, ctypes.c_size_t(len(piece))):
                    break
            self.audit_finish(at, ctypes.byref(verdict))
        finally:
            self.audit_free(at)
        return summary_of(verdict)

    def resume(self, slot: _CArgObject, transcript: bytes) -> None:
        """Begins a session at the end of a transcript's run. Raises `Damaged`, or `MemoryError`."""
        verdict = Verdict()
        at, size = ctypes.c_void_p(address_of(transcript)), ctypes.c_size_t(len(transcript))
        status = self.session_resume(slot, at, size, ctypes.byref(verdict))
        if status == DAMAGED or verdict.kind:
            summary_of(verdict)
        if status != DONE:
            raise MemoryError("no memory for a network")


@functools.lru_cache(maxsize=None)
def loaded(path: str) -> Library:
    return Library(path)


def paths() -> list[str]:
    given = os.environ.get("RUDEKPI_LIBRARY")
    if given:
        return [os.path.abspath(given)]
    folders = [part for part in (platform.machine(),) if part in ("aarch64", "riscv64")]
    return [
        os.path.join(PACKAGE, "bin", "librudekpi.so"),
        os.path.join(os.path.dirname(os.path.dirname(PACKAGE)), "release", *folders, "librudekpi.so"),
    ]


def found_library() -> Optional[Library]:
    """The library; None if there is none, or this system cannot load it."""
    for path in paths():
        if os.path.isfile(path):
            try:
                return loaded(path)
            except OSError:
                return None
    return None


def chosen(engine: Optional[str], program: Program) -> Optional[Library]:
    """The library if it is the engine; None if the program is.

    The default is that of a `Network`. Raises `ValueError` for an unknown engine, or for the library with a
    program, and `OSError` if the library is required but not found.
    """
    engine = engine or (None if program else os.environ.get("RUDEKPI_ENGINE") or None)
    if engine is None:
        return None if program else found_library()
    if engine not in ENGINES:
        raise ValueError(f"an engine is 'library' or 'program', and not {engine!r}")
    if engine == "program":
        return None
    if program:
        raise ValueError("the engine 'library' runs no program")
    for path in paths():
        if os.path.isfile(path):
            return loaded(path)
    raise FileNotFoundError(f"no library at {' or '.join(paths())}: name one by RUDEKPI_LIBRARY")
