"""The picture that a request of the IIIF Image API asks for: scaled, turned, in its quality, and written."""
from __future__ import annotations

import io
from typing import Dict, Tuple

import numpy as np

from ._iiif_request import Asked
from ._needs import raise_told
from ._pieces import Box
from ._types import Array

try:
    import PIL
    from PIL import Image, features
except ImportError as error:
    raise_told("jk.iiif", error)

#: The formats that can be written: their names in Pillow and their media types.
FORMATS: Dict[str, Tuple[str, str]] = {"jpg": ("JPEG", "image/jpeg"), "png": ("PNG", "image/png")}
if features.check("webp"):
    FORMATS["webp"] = ("WEBP", "image/webp")
#: What else than the samples and the request decides the bytes of a picture.
WRITER = f"Pillow {PIL.__version__}"
TURNS = {90: Image.ROTATE_270, 180: Image.ROTATE_180, 270: Image.ROTATE_90}
#: The least shade that is white in a bitonal picture.
WHITE = 128


def halved(asked: Asked, reduce: int) -> Box:
    """The samples of the reduced image that the region touches: left, upper, right and lower edge."""
    x, y, width, height = asked.region
    step = 1 << reduce
    return x // step, y // step, -(-(x + width) // step), -(-(y + height) // step)


def reduction(asked: Asked) -> int:
    """How often the region may be halved and still is as large as it is asked for."""
    reduce = 0
    while reduce < asked.image.levels:
        left, upper, right, lower = halved(asked, reduce + 1)
        if right - left < asked.size[0] or lower - upper < asked.size[1]:
            break
        reduce += 1
    return reduce


def eight_bits(samples: Array, depth: int) -> Array:
    """Samples of this depth as bytes, 0 for the least and 255 for the greatest."""
    if samples.dtype == np.uint8 and depth == 8:
        return samples
    wide = samples.astype(np.int32)
    if samples.dtype.kind == "i":
        wide += 1 << (depth - 1)
    return (wide.astype(np.uint32) * 255 // ((1 << depth) - 1)).astype(np.uint8)


def _edges(start: int, length: int, whole: int, step: int) -> Tuple[float, float]:
    """Where a stretch begins and ends among the samples that it touches. The last sample of an image is whole."""
    first = start // step
    end = start + length
    last = -(-end // step) if end == whole else end / step
    return start / step - first, last - first


def written(samples: Array, asked: Asked, reduce: int) -> bytes:
    """The file of what is asked for, out of the samples of `halved(asked, reduce)`."""
    x, y, width, height = asked.region
    drawn = Image.fromarray(samples)
    if asked.quality in ("gray", "bitonal"):
        drawn = drawn.convert("LA" if drawn.mode in ("LA", "RGBA") else "L")
    across = _edges(x, width, asked.image.width, 1 << reduce)
    down = _edges(y, height, asked.image.height, 1 << reduce)
    box = (across[0], down[0], across[1], down[1])
    if asked.size != drawn.size or box != (0, 0, *drawn.size):
        drawn = drawn.resize(asked.size, Image.LANCZOS, box=box)
    if asked.is_mirrored:
        drawn = drawn.transpose(Image.FLIP_LEFT_RIGHT)
    if asked.turn:
        drawn = drawn.transpose(TURNS[asked.turn])
    if asked.quality == "bitonal":
        drawn = drawn.convert("L").point([255 * (shade >= WHITE) for shade in range(256)], "1")
    if asked.format == "jpg" and drawn.mode in ("LA", "RGBA"):
        # JPEG has no opacity.
        drawn = drawn.convert(drawn.mode[:-1])
    out = io.BytesIO()
    drawn.save(out, FORMATS[asked.format][0])
    return out.getvalue()
