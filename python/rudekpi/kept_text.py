"""The text of a library session that was already copied.

In the middle of each function here, a signal's handler may ask for the text, or cause more of it. So no text
is moved: one C call adds each part to a list, and a part that is forgotten becomes empty at its index.
"""

from __future__ import annotations

import ctypes
import functools
import operator
import weakref
from typing import TYPE_CHECKING, Callable, Union

from .library import Library

if TYPE_CHECKING:
    from ctypes import _CArgObject

BASE_START = b"matching2 "
# calls its argument; this is one C call
CALLED = operator.methodcaller("__call__")
# a buffer with how many bytes came into it, 0 if they were more than it holds; or the bytes
Part = Union["tuple[ctypes.Array[ctypes.c_char], int]", bytes]


class Reader:
    """Waits for a part of the text; while it is referenced, no part is forgotten."""

    __slots__ = ("__weakref__",)


def in_one_call(*calls: Callable[[], int]) -> list[int]:
    """The results of these calls, each a C function; no signal's handler runs between them."""
    return list(map(CALLED, calls))


def last_base(text: bytes) -> int:
    """The offset of the last base of a text; -1 if there is none."""
    at = text.rfind(b"\n" + BASE_START) + 1
    return at or (0 if text.startswith(BASE_START) else -1)


class KeptText:
    """The parts of a text, in order. If not all is kept, the text begins with its last base."""

    def __init__(self, library: Library, at: _CArgObject, keeps: bool) -> None:
        self.library, self.at, self.keeps = library, at, keeps
        self.parts: list[Part] = []
        # all parts below this index are empty
        self.low = 0
        self.readers: list[weakref.ref[Reader]] = []
        # the renumberings: the part that each wrote, its status, and how many bytes of the part end the old text
        self.renumberings: list[tuple[int, int, ctypes.c_size_t]] = []
        # the part and the offset of the text that the next renumbering returns
        self.returned = (0, 0)
        self.length: Callable[[], int] = functools.partial(library.session_length, at)

    def collect(self) -> None:
        """Copies what the session has written.

        Raises `MemoryError`. If called again, it continues where memory ran out.
        """
        while wanted := self.length():
            room = (ctypes.c_char * wanted)()
            # one C call: what was read is in the list when the next handler runs
            self.parts.extend(
                zip((room,), map(self.library.session_read, (self.at,), (room,), (ctypes.c_size_t(wanted),)))
            )

    def part(self, place: int) -> bytes:
        held = self.parts[place]
        if isinstance(held, bytes):
            return held
        room, came = held
        made = memoryview(room)[:came].tobytes() if came <= len(room) else b""
        self.parts[place] = made
        return made

    def since(self, place: int) -> tuple[bytes, int]:
        """The text from a place of the list on, and the place after it."""
        self.collect()
        end = len(self.parts)
        begin, offset = self.begin()
        first = max(place, self.low, begin)
        text = b"".join([self.part(at) for at in range(first, end)])
        if first == begin:
            text = text[offset:]
        return text if self.keeps else text[max(0, last_base(text)) :], end

    def begin(self) -> tuple[int, int]:
        """The part that begins the text, and the offset in it: those of the last renumbering."""
        for place, status, ended in reversed(self.renumberings):
            if not status:
                return self.filled(place), ended.value
        return 0, 0

    def filled(self, place: int) -> int:
        """The first part at or after a place of the list that is not empty."""
        while place < len(self.parts) and not self.part(place):
            place += 1
        return place

    def renumbered(self) -> tuple[int, Callable[[], bytes]]:
        """Numbers the entries anew: the status, and a function that returns the text that ends."""
        self.collect()
        ended = ctypes.c_size_t()
        place = functools.partial(len, self.parts)
        call = functools.partial(self.library.session_renumber, self.at, ctypes.byref(ended))
        # one C call, so that no handler takes the two texts for one
        self.renumberings.extend(zip(map(CALLED, (place,)), map(CALLED, (call,)), (ended,)))
        at, status, _ = next(made for made in self.renumberings if made[2] is ended)
        return status, functools.partial(self.text_before, at, ended)

    def text_before(self, place: int, ended: ctypes.c_size_t) -> bytes:
        """The text that ends in the first part at or after a place, so far as not returned yet; forgets it."""
        self.collect()
        last = self.filled(place)
        first, offset = self.returned if self.returned[0] >= self.low else (self.low, 0)
        before = b"".join([self.part(at) for at in range(first, last)])
        text = (before + self.part(last)[: ended.value])[offset:]
        self.returned = (last, ended.value)
        self.drop_below(place)
        # the last base ends the text
        return text if self.keeps else text[max(0, last_base(text[: last_base(text)])) :]

    def drop_below(self, first: int) -> None:
        """Forgets the parts below a place of the list, unless a reader waits for a part."""
        self.readers[:] = [reader for reader in self.readers if reader() is not None]
        if self.readers or first <= self.low:
            return
        for at in range(self.low, first):
            self.parts[at] = b""
        self.low = first

    def written_by(self, call: Callable[[], int]) -> tuple[int, Callable[[], bytes]]:
        """Makes a call that writes several lines: its status, and a function that returns the lines."""
        reader = Reader()
        self.readers.append(weakref.ref(reader))
        place, start, status, end = in_one_call(functools.partial(len, self.parts), self.length, call, self.length)
        return status, functools.partial(self.lines, reader, place, start, end)

    def lines(self, reader: Reader, place: int, start: int, end: int) -> bytes:
        """A piece of the first part at or after a place of the list."""
        self.collect()
        while start < end:
            part = self.part(place)
            if part:
                return part[start:end]
            place += 1
        return b""

    def last(self) -> bytes:
        """The last part that is not empty."""
        self.collect()
        return next((part for part in map(self.part, reversed(range(len(self.parts)))) if part), b"")

    def forget(self) -> None:
        """Forgets the parts before the one with the last base, unless a reader waits for a part."""
        self.collect()
        self.drop_below(next(at for at in reversed(range(len(self.parts))) if last_base(self.part(at)) >= 0))
