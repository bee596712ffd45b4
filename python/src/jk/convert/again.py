"""Samples that are read a second time, by another reader where there is one: a reader that loses bits would agree with
itself."""
from __future__ import annotations

import tempfile
import warnings
from typing import Optional

import numpy as np
from PIL import Image

from .._types import Array
from .images import Picture, Refused, type_of
from .tiff import by_tiffcp, directories_of, judge_parts
from .tiff_form import DEFLATE, PLAIN, Form

#: How Pillow's turning of an image by its orientation is undone.
BACK = {
    2: Image.Transpose.FLIP_LEFT_RIGHT, 3: Image.Transpose.ROTATE_180, 4: Image.Transpose.FLIP_TOP_BOTTOM,
    5: Image.Transpose.TRANSPOSE, 6: Image.Transpose.ROTATE_90, 7: Image.Transpose.TRANSVERSE,
    8: Image.Transpose.ROTATE_270,
}


def agreed(path: str, kind: str, picture: Picture) -> Optional[str]:
    """Which other reader gives the samples of an image too; None where there is none. Refused: it gives others."""
    if kind == "jp2":
        return None
    form = next(it for number, it, _ in directories_of(path) if number == picture.number) if kind == "tiff" else None
    if form is not None:
        # Pillow divides samples by an opacity by which they are multiplied.
        if form.bits == 16 or form.signed or form.extra is not None:
            return _by_tiffcp(path, form, picture)
    # Pillow scales what PGM and PPM files have of other depths.
    if kind == "pnm" and (picture.depth, picture.samples.ndim) not in ((8, 2), (8, 3), (16, 2)):
        return None
    reader = _by_pillow(path, kind, picture)
    # Pillow opens no very large images, and some kinds not at all.
    return _by_tiffcp(path, form, picture) if form is not None and reader is None else reader


def _whole(picture: Picture) -> Array:
    """Samples with their opacity, (height, width, samples of a pixel); that of one colour, as tRNS tells it, no reader
    gives."""
    return np.atleast_3d(picture.samples if picture.is_by_colour else picture.whole())


def _expect(is_so: bool, reader: str) -> str:
    if not is_so:
        raise Refused(f"{reader} reads other samples of it")
    return reader


def _by_pillow(path: str, kind: str, picture: Picture) -> Optional[str]:
    """Pillow has no mode for more than 8 bits of RGB, and gives the upper 8 of 16."""
    samples, depth = _whole(picture), picture.depth
    try:
        with warnings.catch_warnings():
            warnings.simplefilter("ignore")
            theirs = _of_pillow(path, kind, picture)
    except (OSError, ValueError, SyntaxError, TypeError, KeyError, Image.DecompressionBombError):
        return None
    theirs = theirs.reshape(*theirs.shape[:2], -1)
    if (theirs.shape[2], samples.shape[2]) == (4, 2):
        # 16 bits of grey with opacity it gives as RGB with opacity.
        theirs = theirs[:, :, [0, 3]]
    if theirs.shape != samples.shape:
        return None
    if picture.kept.white_is_zero and kind == "tiff":
        samples = (1 << depth) - 1 - samples.astype(np.int32)
    if depth == 16 and theirs.dtype == np.uint8:
        return _expect(np.array_equal(theirs, samples >> 8), "Pillow, in the upper 8 bits,")
    if depth < 8 and theirs.dtype == np.uint8 and picture.palette is None:
        # Pillow spreads fewer bits over 8.
        samples = samples * np.uint8(255 // ((1 << depth) - 1))
    return _expect(np.array_equal(theirs, samples), "Pillow")


def _of_pillow(path: str, kind: str, picture: Picture) -> Array:
    with Image.open(path) as image:
        if kind == "tiff":
            image.seek(picture.number)
            image.load()
            way = BACK.get(picture.kept.orientation or 1)
            return np.asarray(image.transpose(way) if way is not None else image)
        return np.asarray(image)


def _by_tiffcp(path: str, form: Form, picture: Picture) -> Optional[str]:
    """What libtiff makes of an image, in one strip, where tifffile read the file itself."""
    if form.compression not in PLAIN + DEFLATE or not form.is_for_tiffcp or form.bits not in (8, 16):
        return None
    with tempfile.TemporaryDirectory(prefix="jk-convert-") as folder:
        try:
            plain = by_tiffcp(path, picture.number, folder, "-s", "-r", str(form.height))
        except Refused:
            return None
        (_, form, _), = directories_of(plain)
        judge_parts(plain, form)
        with open(plain, "rb") as file:
            order = ">" if file.read(2) == b"MM" else "<"
        kind = type_of(form.bits, form.signed).newbyteorder(order)
        planes = [np.fromfile(plain, kind, size // kind.itemsize, offset=place)
                  for place, size in zip(form.places, form.sizes)]
    if form.planar and form.samples > 1:
        theirs = np.stack(planes, axis=-1).reshape(form.height, form.width, form.samples)
    else:
        theirs = np.concatenate(planes).reshape(form.height, form.width, form.samples)
    return _expect(np.array_equal(theirs, _whole(picture)), "tiffcp")
