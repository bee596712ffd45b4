"""Arrays as files, encoded and written."""
from __future__ import annotations

import ctypes
import os
from typing import Optional, Sequence, SupportsIndex, Tuple, Union

import numpy as np

from . import _calls, _opacity
from ._extras import Extras
from ._placing import placed
from ._types import Array
from .faults import BadParameters
from .files import handed_out, list_of, with_extras, word

ORDERS = ("LRCP", "RLCP", "RPCL", "PCRL", "CPRL")
STYLES = {"reset": 2, "causal": 8, "segments": 32}
#: Two whole numbers, of rows and of columns.
Pair = Union[Tuple[SupportsIndex, SupportsIndex], Sequence[SupportsIndex], Array]


def encode(
    array: Array, *, extras: Optional[Extras] = None, depth: Optional[SupportsIndex] = None, place: Pair = (0, 0),
    levels: SupportsIndex = 5, layers: SupportsIndex = 1, order: str = "LRCP", tile: Optional[Pair] = None,
    block: Pair = (6, 6), precincts: Union[Sequence[Pair], Array] = (), colour: Optional[bool] = None, sop: bool = False,
    eph: bool = False, raw: Optional[bool] = None, reset: bool = False, causal: bool = False, segments: bool = False,
    opacity: Optional[str] = None,
) -> bytes:
    """The file of an array (height, width) or (height, width, components) of uint8, uint16, int8 or int16, with what it is
    to keep beside the samples.

    Parameters: `depth`, bits of a sample, the sign counted (8 or 16 by the array's type); `place`, the upper left
    sample's (x, y) on the reference grid; `levels`, `layers`, `order`, `tile` (width, height; one tile where none is
    given), `block` and `precincts` by exponents, `colour` (with three components), `sop`, `eph`, `reset`, `causal` and
    `segments` for the styles of code-blocks, and `raw` for a bare codestream (with 2 and 4 components, and signed samples,
    which JP2 doesn't hold). With `opacity` the last of 2 or 4 components is one, and the file is a JP2 file with the box
    cdef: "straight", "premultiplied" where colours are multiplied by it, or "unspecified".
    """
    image = _image(array)
    components = 1 if image.ndim == 2 else image.shape[2]
    signed = image.dtype.kind == "i"
    coding = _calls.Coding(levels=word(levels), layers=word(layers), sop=bool(sop), eph=bool(eph))
    _lay_out(coding, order, tile, block, precincts)
    coding.colour = components - (opacity is not None) == 3 if colour is None else bool(colour)
    coding.raw = signed or components not in (1, 3) if raw is None else bool(raw)
    coding.style = sum(STYLES[name] for name, it in (("reset", reset), ("causal", causal), ("segments", segments)) if it)
    if opacity is not None:
        _check_opacity(opacity, components, signed, raw)
        coding.raw = True
    elif extras is not None and coding.raw:
        raise BadParameters("a bare codestream keeps nothing beside the samples, and JP2 has no signed ones and no 2 or 4 "
                            "components")
    x0, y0 = (word(it) for it in place)
    frame = _calls.Frame(
        x0=x0, y0=y0, width=image.shape[1], height=image.shape[0], components=components,
        depth=8 * image.dtype.itemsize if depth is None else word(depth), is_signed=signed,
    )
    file = _encoded(image, frame, coding)
    if opacity is not None:
        file = _opacity.wrapped(file, image.shape[1], image.shape[0], frame.depth, components, opacity)
    return file if extras is None else with_extras(file, extras)


def _image(array: Array) -> Array:
    """An array that the library takes, row by row and at an even address."""
    if isinstance(array, np.ma.MaskedArray):
        raise TypeError("a masked array: a file holds no mask, so give array.filled(..), or array.data")
    image = np.asarray(array)
    if not image.dtype.isnative or image.dtype.name not in _calls.encode or image.ndim not in (2, 3):
        kinds = ", ".join(_calls.encode)
        raise TypeError(f"not an image of one of {kinds} in this machine's order: {image.dtype} with {image.ndim} axes")
    return np.require(image, requirements=["C", "A"])


def _lay_out(
    coding: _calls.Coding, order: str, tile: Optional[Pair], block: Pair, precincts: Union[Sequence[Pair], Array]
) -> None:
    """Fills in the order of packets, and the sizes of tiles, code-blocks and precincts."""
    if order not in ORDERS:
        raise ValueError(f"{order!r} isn't one of {', '.join(ORDERS)}")
    coding.order = ORDERS.index(order)
    coding.tile_width, coding.tile_height = (0, 0) if tile is None else map(word, tile)
    coding.block_width, coding.block_height = map(word, block)
    pairs = [tuple(map(word, pair)) for pair in precincts]
    if len(pairs) > 8 or not all(len(pair) == 2 and max(pair) < 16 for pair in pairs):
        raise ValueError("precincts aren't at most 8 pairs of exponents from 0 to 15")
    coding.precinct_count = len(pairs)
    for at, (wide, high) in enumerate(pairs):
        coding.precincts[at] = wide | high << 4


def _encoded(image: Array, frame: _calls.Frame, coding: _calls.Coding) -> bytes:
    call = _calls.encode[image.dtype.name]
    told, asked = ctypes.byref(frame), ctypes.byref(coding)
    room = image.nbytes + image.nbytes // 4 + 65536
    return handed_out(lambda *out: call(told, *list_of(image), asked, *out), room)


def _check_opacity(kind: str, components: int, signed: bool, raw: Optional[bool]) -> None:
    """Whether an image may have an opacity; it is encoded as a bare codestream, and the package puts boxes around it."""
    if kind not in _opacity.KINDS:
        raise ValueError(f"opacity {kind!r} isn't one of {', '.join(_opacity.KINDS)}")
    if components not in (2, 4) or signed or raw:
        raise BadParameters("an opacity is the last of 2 or 4 components of unsigned samples, and not in a bare codestream")


def write(
    path: Union[str, "os.PathLike[str]"], array: Array, *, extras: Optional[Extras] = None,
    depth: Optional[SupportsIndex] = None, place: Pair = (0, 0), levels: SupportsIndex = 5, layers: SupportsIndex = 1,
    order: str = "LRCP", tile: Optional[Pair] = None, block: Pair = (6, 6), precincts: Union[Sequence[Pair], Array] = (),
    colour: Optional[bool] = None, sop: bool = False, eph: bool = False, raw: Optional[bool] = None, reset: bool = False,
    causal: bool = False, segments: bool = False, opacity: Optional[str] = None,
) -> None:
    """Writes the file of an array, with the parameters of `encode`. A file that is there is replaced as a whole and keeps
    its mode; a link is followed, and a pipe or a device is written as it is."""
    file = encode(
        array, extras=extras, depth=depth, place=place, levels=levels, layers=layers, order=order, tile=tile, block=block,
        precincts=precincts, colour=colour, sop=sop, eph=eph, raw=raw, reset=reset, causal=causal, segments=segments,
        opacity=opacity)
    with placed(path) as out:
        out.write(file)
