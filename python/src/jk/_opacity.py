"""Opacity in one file: JP2 files of 2 or 4 components, the last of which is the opacity by the box `cdef` (T.800 I.5.3.6).

The library writes JP2 files of 1 and 3 components, so the boxes of these are put together here, around a bare codestream.
"""
from __future__ import annotations

import struct
from typing import Any, List, Optional, Tuple

from ._colour import header_of, with_header
from ._extras import box, boxes_in
from .faults import BadBox

#: Kinds of opacity, and the values Typ and Asoc of its channel: colours as they are, colours multiplied by it, and a
#: component of no told kind.
KINDS = {"straight": (1, 0), "premultiplied": (2, 0), "unspecified": (65535, 65535)}
#: Boxes before the header of each JP2 file.
BEGIN = box(b"jP  ", b"\r\n\x87\n") + box(b"ftyp", b"jp2 \0\0\0\0jp2 ")
#: Enumerated colour spaces, by the number of colours.
SPACES = {1: 17, 3: 16}
#: A channel: its component, Typ and Asoc.
Channel = Tuple[int, int, int]


def wrapped(codestream: bytes, width: int, height: int, depth: int, components: int, kind: str) -> bytes:
    """A JP2 file around a bare codestream of 2 or 4 components of unsigned samples."""
    colours = components - 1
    channels = [(number, 0, number + 1) for number in range(colours)] + [(colours, *KINDS[kind])]
    header = [
        box(b"ihdr", struct.pack(">LLHBBBB", height, width, components, depth - 1, 7, 0, 0)),
        box(b"colr", struct.pack(">BBBL", 1, 0, 0, SPACES[colours])),
        box(b"cdef", struct.pack(">H", components) + b"".join(struct.pack(">HHH", *it) for it in channels)),
    ]
    size = 8 + len(codestream)
    head = struct.pack(">L4s", size, b"jp2c") if size < 1 << 32 else struct.pack(">L4sQ", 1, b"jp2c", size + 8)
    return BEGIN + box(b"jp2h", b"".join(header)) + head + codestream


def channels_of(file: Any) -> List[Channel]:
    """The channels that `cdef` of a file defines, in its order; none where it has no such box."""
    for kind, contents in boxes_in(header_of(file)):
        if kind == b"cdef":
            count = int.from_bytes(contents[:2], "big")
            if len(contents) != 2 + 6 * count:
                raise BadBox("the box cdef hasn't the length of its channels")
            numbers = struct.unpack(f">{3 * count}H", contents[2:])
            return list(zip(numbers[::3], numbers[1::3], numbers[2::3]))
    return []


def order_of(channels: List[Channel], components: int) -> Tuple[List[int], Optional[str]]:
    """Components in the order of colours, the opacity last, and what kind that is; None where there is none. BadBox: the
    channels are of another kind."""
    if not channels:
        return list(range(components)), None
    colours = {asoc: number for number, typ, asoc in channels if typ == 0}
    others = [(number, typ) for number, typ, asoc in channels if typ != 0 and asoc in (0, 65535)]
    order = [colours[asoc] for asoc in sorted(colours)] + [number for number, _ in others]
    is_whole = sorted(colours) == list(range(1, len(colours) + 1)) and sorted(order) == list(range(components))
    if not is_whole or len(channels) != components or len(others) > 1:
        raise BadBox("the box cdef defines other channels than grey or RGB with one opacity")
    kinds = {typ: kind for kind, (typ, _) in KINDS.items()}
    if others and others[0][1] not in kinds:
        raise BadBox(f"the box cdef has a channel of the type {others[0][1]}")
    return order, kinds[others[0][1]] if others else None


def opacity_of(file: Any, components: int) -> Optional[str]:
    """What kind of opacity the last component of a file is; None where it is none."""
    try:
        order, kind = order_of(channels_of(file), components)
    except BadBox:
        return None
    return kind if order == list(range(components)) else None


def components_of(file: Any) -> int:
    """How many components the box `ihdr` of a file tells; 0 where it can't be found, which the library judges."""
    try:
        header = header_of(file)
    except struct.error:
        return 0
    return int.from_bytes(header[16:18], "big") if header[4:8] == b"ihdr" else 0


def counted(file: bytes, components: int) -> bytes:
    """A JP2 file whose box `ihdr` tells another number of components, as the library is to judge a profile by it."""
    header = bytearray(header_of(file))
    # HEIGHT and WIDTH stand before it, and `ihdr` is the first box.
    header[16:18] = struct.pack(">H", components)
    return with_header(file, bytes(header))
