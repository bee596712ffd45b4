"""Samples of TIFF files of 1 to 15 bits, which lie bit by bit: tifffile reads those of 8 and 16 bits."""
from __future__ import annotations

import zlib
from typing import BinaryIO

import numpy as np

from .._types import Array
from .images import Refused, type_of
from .tiff_form import DEFLATE, Form

#: Bytes with their bits from right to left.
TURNED = np.packbits(np.unpackbits(np.arange(256, dtype=np.uint8)[:, np.newaxis], axis=1)[:, ::-1], axis=1)[:, 0]


def samples_of(file: BinaryIO, form: Form) -> Array:
    """The samples (height, width) of an image of one sample a pixel, whose strips or tiles were judged."""
    room = np.empty((form.height, form.width), type_of(form.bits))
    across, down = form.part
    columns = -(-form.width // across)
    for number, (place, size) in enumerate(zip(form.places, form.sizes)):
        x, y = number % columns * across, number // columns * down
        rows = down if form.is_tiled else min(down, form.height - y)
        file.seek(place)
        data = file.read(size)
        if form.compression in DEFLATE:
            data = zlib.decompress(data)
        part = _unpacked(data, form, rows, across)
        room[y : y + rows, x : x + across] = part[: form.height - y, : form.width - x]
    return room


def _unpacked(data: bytes, form: Form, rows: int, across: int) -> Array:
    """The samples of a strip or tile: each row begins with a byte, and the upper bits stand first."""
    length = (across * form.bits + 7) // 8
    if len(data) < rows * length:
        raise Refused(f"a strip or tile has {len(data)} bytes of {rows * length}")
    lines = np.frombuffer(data, np.uint8, rows * length).reshape(rows, length)
    if form.is_turned:
        lines = TURNED[lines]
    weights = (1 << np.arange(form.bits, dtype=np.uint16)[::-1]).astype(np.uint16)
    bits = np.unpackbits(lines, axis=1)[:, : across * form.bits].reshape(rows, across, form.bits)
    return (bits * weights).sum(axis=2, dtype=np.uint16).astype(type_of(form.bits))
