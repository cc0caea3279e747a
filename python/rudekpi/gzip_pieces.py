"""The text of a log that may be compressed with gzip, piece by piece; its first two bytes tell."""

from __future__ import annotations

import errno
import zlib
from typing import Iterable, Iterator

MAGIC = b"\x1f\x8b"
# how much text is made at once, however small its compressed form is
MOST = 1 << 16
# a stream with the header of gzip
WINDOW = 31


def plain_pieces(pieces: Iterable[bytes], name: str) -> Iterator[bytes]:
    """The text of the pieces. Empty pieces are handed on. Raises `OSError`, with the name, for damaged gzip."""
    first = b""
    pieces = iter(pieces)
    for piece in pieces:
        first += piece
        if len(first) >= len(MAGIC) or not MAGIC.startswith(first):
            break
        yield b""
    if first.startswith(MAGIC):
        yield from unpacked(first, pieces, name)
        return
    yield first
    yield from pieces


def unpacked(first: bytes, pieces: Iterable[bytes], name: str) -> Iterator[bytes]:
    """The text of gzip, which may have several members, and zeros after the last one."""
    stream = zlib.decompressobj(WINDOW)
    for piece in chained(first, pieces):
        if not piece:
            yield b""
        while piece:
            if stream.eof:
                piece = piece.lstrip(b"\0")
                if not piece:
                    break
                stream = zlib.decompressobj(WINDOW)
            try:
                yield stream.decompress(piece, MOST)
            except zlib.error as error:
                raise damaged(str(error).rpartition(": ")[2], name) from None
            piece = stream.unused_data if stream.eof else stream.unconsumed_tail
    if not stream.eof:
        raise damaged("it ends too early", name)


def chained(first: bytes, pieces: Iterable[bytes]) -> Iterator[bytes]:
    yield first
    yield from pieces


def damaged(why: str, name: str) -> OSError:
    text = f"the gzip is damaged: {why}"
    return OSError(errno.EIO, text, name) if name else OSError(errno.EIO, f"read failed: {text}")
