"""TIFF files, of one image in strips that aren't compressed, with what stands beside its samples."""
from __future__ import annotations

import struct
from typing import BinaryIO, List

import numpy as np

from .._beside import LONG, SHORT, Field, built, fields_of, order_of
from .images import Picture, Refused
from .tiff_form import (
    BITS, BLACK_IS_ZERO, COMPRESSION, EXTRA, FORMAT, HEIGHT, OPACITIES, PHOTOMETRIC, PLANAR, RGB, ROWS, SAMPLES,
    STRIP_SIZES, STRIPS, WHITE_IS_ZERO, WIDTH,
)

#: So many bytes a strip has, where a row has no more.
STRIP = 1 << 18


def write(out: BinaryIO, picture: Picture) -> List[str]:
    """Writes an image; what of `kept` isn't in it: nothing."""
    samples, order = picture.whole(), order_of(picture.kept)
    height, width = samples.shape[:2]
    components = 1 if samples.ndim == 2 else samples.shape[2]
    if picture.alpha is not None and picture.depth not in (8, 16):
        raise Refused(f"an opacity of {picture.depth} bits would be another one in TIFF")
    bits = 1 if picture.depth == 1 and components == 1 else 8 * samples.dtype.itemsize
    row = (width * components * bits + 7) // 8
    rows = min(height, max(1, STRIP // row))
    sizes = [row * min(rows, height - at) for at in range(0, height, rows)]
    if row * height > 0xF0000000:
        raise Refused("it would be longer than a TIFF file may be")

    def words(size: int, *numbers: int) -> Field:
        return Field(LONG if size == 4 else SHORT, len(numbers),
                     struct.pack(f"{order}{len(numbers)}{'L' if size == 4 else 'H'}", *numbers))

    grey = WHITE_IS_ZERO if picture.kept.white_is_zero else BLACK_IS_ZERO
    fields = {
        **fields_of(picture.kept), WIDTH: words(4, width), HEIGHT: words(4, height), COMPRESSION: words(2, 1),
        BITS: words(2, *[bits] * components), PHOTOMETRIC: words(2, grey if components < 3 else RGB),
        STRIPS: words(4, *sizes), SAMPLES: words(2, components), ROWS: words(4, rows), STRIP_SIZES: words(4, *sizes),
        PLANAR: words(2, 1), FORMAT: words(2, *[2 if samples.dtype.kind == "i" else 1] * components),
    }
    if picture.alpha is not None:
        fields[EXTRA] = words(2, next(number for number, kind in OPACITIES.items() if kind == picture.opacity))
    # The directory stands before the samples, and is as long wherever these are.
    begin = 8 + len(built(order, fields, 8))
    places = [begin + sum(sizes[:1]) * number for number in range(len(sizes))]
    fields[STRIPS] = words(4, *places)
    out.write((b"II" if order == "<" else b"MM") + struct.pack(f"{order}HL", 42, 8) + built(order, fields, 8))
    for at in range(0, height, rows):
        part = samples[at : at + rows]
        if bits == 1:
            part = np.packbits(part, axis=1)
        out.write(part.astype(part.dtype.newbyteorder(order), copy=False).tobytes())
    return []
