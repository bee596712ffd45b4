"""Images with a palette, whose samples are numbers of colours."""
from __future__ import annotations

from dataclasses import replace
from typing import Tuple

import numpy as np

from .._types import Array
from .images import Picture, Refused

WAY_OUT = "the image has a palette: with --palette rgb its colours are written, and not the palette"


def of_tiff(values: Array) -> Tuple[Array, int]:
    """The colours (entries, 3) of ColorMap, and how many bits they have: 8 where its words repeat a byte, have a lower byte
    of 0 all of them, or are less than 256 all of them, as writers have it."""
    words = values.reshape(3, -1).T
    for is_byte, bytes_ in ((words % 257 == 0, words // 257), (words % 256 == 0, words >> 8), (words < 256, words)):
        if is_byte.all():
            return bytes_.astype(np.uint8), 8
    return words.astype(np.uint16), 16


def expanded(picture: Picture, palette: str) -> Picture:
    """An image with the colours of its palette, where that is asked for."""
    if picture.palette is None:
        return picture
    if palette != "rgb":
        raise Refused(WAY_OUT)
    colours, numbers = picture.palette, picture.samples
    if int(numbers.max(initial=0)) >= len(colours):
        raise Refused(f"a pixel has the colour {int(numbers.max())} of a palette of {len(colours)}")
    depth = 8 * colours.dtype.itemsize
    alpha = picture.alpha
    if alpha is not None and picture.depth != depth:
        raise Refused(f"colours have {depth} bits, and their opacity {picture.depth}")
    if colours.shape[1] == 4:
        alpha = colours[numbers, 3]
    kind = "RGB" if alpha is None else "RGB with opacity"
    return replace(picture, samples=np.ascontiguousarray(colours[numbers][:, :, :3]), depth=depth, alpha=alpha, palette=None,
                   notes=(*picture.notes, f"a palette of {len(colours)} colours, as {kind}"))
