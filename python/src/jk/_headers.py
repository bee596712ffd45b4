"""Boxes and headers of a file, read without the rest: what `jk.info` needs of a path.

The bytes stand at their places in memory as long as the file, whose other bytes are zeros that take no room. Where boxes or
headers aren't as they should be, the whole file is read, so that the library judges it.
"""
from __future__ import annotations

import mmap
import os
from typing import Any

import numpy as np

from ._types import Array

#: Files of fewer bytes are read whole.
SMALL = 1 << 16
#: So much is read at a place.
STEP = 4096
SOC, SOT, SOD, EOC = 0xFF4F, 0xFF90, 0xFF93, 0xFFD9


class Odd(Exception):
    """Boxes or headers that aren't as they should be."""


class Sparse:
    """A file of which some bytes are read."""

    def __init__(self, descriptor: int, size: int) -> None:
        self.descriptor, self.size = descriptor, size
        self.room = mmap.mmap(-1, size)

    def taken(self, place: int, length: int) -> bytes:
        """Bytes at a place, which stand in the memory then."""
        end = place + length
        if end > self.size:
            raise Odd
        for at in range(place, end, STEP):
            part = os.pread(self.descriptor, min(STEP, end - at), at)
            if len(part) != min(STEP, end - at):
                raise Odd
            self.room[at : at + len(part)] = part
        return self.room[place:end]

    def number(self, place: int, length: int) -> int:
        return int.from_bytes(self.taken(place, length), "big")

    def boxes(self) -> None:
        """Reads the headers of all boxes, the contents of `jp2h`, and the headers of the codestream."""
        at = 0
        while at < self.size:
            length, kind, head = self.number(at, 4), self.taken(at + 4, 4), 8
            if length == 1:
                length, head = self.number(at + 8, 8), 16
            end = at + length if length else self.size
            if end < at + head or end > self.size:
                raise Odd
            if kind == b"jp2c":
                self.codestream(at + head, end)
            elif kind in (b"jP  ", b"ftyp", b"jp2h"):
                self.taken(at + head, end - at - head)
            else:
                # Of a UUID box what it is.
                self.taken(at + head, min(16, end - at - head))
            at = end

    def codestream(self, at: int, end: int) -> None:
        """Reads the main header and those of the tile-parts."""
        if self.number(at, 2) != SOC:
            raise Odd
        at = self.segments(at + 2, SOT)
        while at + 2 <= end and self.number(at, 2) == SOT:
            length = self.number(at + 6, 4)
            begin = self.segments(at, SOD)
            if not length:
                break
            if at + length < begin + 2 or at + length > end:
                raise Odd
            at += length
        # EOC, and what follows it.
        self.taken(max(end - STEP, 0), min(end, STEP))

    def segments(self, at: int, last: int) -> int:
        """Reads marker segments up to a marker, and gives its place."""
        begin = at
        while True:
            marker = self.number(at, 2)
            if marker == last and (at > begin or last != SOT):
                return at
            if marker in (SOC, SOD, EOC) or marker < 0xFF00:
                raise Odd
            length = self.number(at + 2, 2)
            if length < 2:
                raise Odd
            self.taken(at + 4, length - 2)
            at += 2 + length


def headers_of(path: Any) -> Array:
    """The bytes of a file, of which boxes and headers were read; all of them where it is small or odd."""
    with open(path, "rb", buffering=0) as file:
        size = os.fstat(file.fileno()).st_size
        if size < SMALL:
            return np.frombuffer(file.read(), np.uint8)
        try:
            sparse = Sparse(file.fileno(), size)
            if sparse.number(0, 2) == SOC:
                sparse.codestream(0, size)
            else:
                sparse.boxes()
        except (Odd, OSError):
            # A system may have no room for so many zeros.
            return np.fromfile(path, np.uint8)
        return np.frombuffer(sparse.room, np.uint8)
