"""Pixel Data in fragments: DICOM PS3.5 A.4."""
from __future__ import annotations

import os
import struct
from typing import BinaryIO, Iterator, List, Optional, Sequence, Tuple

import numpy as np

from .pixels import Note, Refused

ITEM, DELIMITER = b"\xfe\xff\x00\xe0", b"\xfe\xff\xdd\xe0"
SIGNATURE = b"\x00\x00\x00\x0cjP  \r\n\x87\n"
EOC = b"\xff\xd9"


def unpadded(data: bytes) -> bytes:
    """A frame's codestream or JP2 file, without the byte that DICOM adds where its length is odd: one 00 behind the
    end, and no more."""
    if data[-1:] != b"\0":
        return data
    if data[-3:-1] == EOC:
        return data[:-1]
    if data.startswith(SIGNATURE):
        at = 0
        while at + 8 <= len(data):
            length, kind = struct.unpack_from(">I4s", data, at)
            if length == 1 and at + 16 <= len(data):
                length = struct.unpack_from(">Q", data, at + 8)[0]
            if length < 8:
                break
            at += length
        if at == len(data) - 1:
            return data[:-1]
    return data


class Fragments:
    """The fragments of Pixel Data, of which each frame has one or more."""

    def __init__(self, file: BinaryIO, start: int, is_delimited: bool = True) -> None:
        """Walks the items that begin at a place of a file. Those of an element that pydicom has read aren't delimited:
        there the file ends."""
        self.file, self.is_delimited = file, is_delimited
        self.length = file.seek(0, os.SEEK_END)
        table = self._item(start)
        if table is None or table[1] % 4:
            raise Refused("Pixel Data doesn't begin with a Basic Offset Table")
        file.seek(table[0])
        self.table = np.frombuffer(file.read(table[1]), "<u4")
        self.first = sum(table)
        self.count = 0
        at: int = self.first
        while (item := self._item(at)) is not None:
            self.count, at = self.count + 1, sum(item)
        #: Where the element ends.
        self.end = at + 8 if is_delimited else at

    def _item(self, at: int) -> Optional[Tuple[int, int]]:
        """Where the contents of the item at a place begin, and their length; None where items end."""
        if at == self.length and not self.is_delimited:
            return None
        self.file.seek(at)
        head = self.file.read(8)
        length = int.from_bytes(head[4:], "little")
        if head[:4] == DELIMITER and len(head) == 8:
            return None
        if len(head) < 8 or head[:4] == ITEM and at + 8 + length > self.length:
            raise Refused("the file ends inside Pixel Data")
        if head[:4] != ITEM:
            raise Refused(f"no item of Pixel Data stands at byte {at} of it")
        return at + 8, length

    def _walk(self) -> Iterator[Tuple[int, int, int]]:
        """Of each fragment its distance from the first one, and where its contents begin and how long they are."""
        at = self.first
        for _ in range(self.count):
            start, length = self._item(at) or (0, 0)
            yield at - self.first, start, length
            at = start + length

    def _begins(self, frames: int, table: Sequence[int], note: Note) -> Optional[List[int]]:
        """With which fragments frames begin, by their distances; None: each is a frame."""
        if len(table) == frames and frames > 0:
            begins, found = [int(it) for it in table], 0
            for distance, _, _ in self._walk():
                found += found < frames and distance == begins[found]
            if found == frames and begins[0] == 0:
                return begins
        if self.count == frames:
            if len(table):
                note("the offset table doesn't fit the fragments; there is one for each frame, and so they are taken")
            return None
        if frames == 1 and self.count:
            return [0]
        why = "the offset table doesn't fit them" if len(table) else "no offset table tells which are whose"
        raise Refused(f"{frames} frames have {self.count} fragments, and {why}")

    def frames(self, frames: int, extended: bytes, note: Note) -> Iterator[bytes]:
        """The bytes of each frame, by the Basic Offset Table or the Extended one."""
        table = np.frombuffer(extended, "<u8") if extended and len(extended) % 8 == 0 else self.table
        begins = self._begins(frames, table, note)
        parts: List[bytes] = []
        number = 0
        for distance, start, length in self._walk():
            if begins is None or number < frames and distance == begins[number]:
                if number:
                    yield b"".join(parts)
                parts, number = [], number + 1
            self.file.seek(start)
            parts.append(self.file.read(length))
        yield b"".join(parts)
