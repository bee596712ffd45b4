"""PGM and PPM files: the binary forms, whose greatest value is one less than a power of two."""
from __future__ import annotations

import os
import re
from typing import BinaryIO, Iterator, List

import numpy as np

from .images import Picture, Refused, judge_size

GAP = rb"(?:[ \t\n\v\f\r]|#[^\r\n]*[\r\n])+"
HEAD = re.compile(rb"P([56])" + (GAP + rb"(\d+)") * 3 + rb"[ \t\n\v\f\r]")
#: The longest head that is looked for.
LONGEST = 1 << 16


def pictures(path: str) -> Iterator[Picture]:
    """The image of a file."""
    with open(path, "rb") as file:
        head = HEAD.match(file.read(LONGEST))
    if head is None:
        raise Refused("width, height and greatest value don't stand behind P5 or P6")
    components = {b"5": 1, b"6": 3}[head[1]]
    width, height, greatest = (int(number) for number in head.groups()[1:])
    depth = greatest.bit_length()
    if not 1 <= depth <= 16 or greatest + 1 != 1 << depth:
        raise Refused(f"the greatest value is {greatest}, and not one less than a power of two up to 65536")
    if not width or not height:
        raise Refused("the image has no sample")
    judge_size(width, height)
    kind = np.dtype(np.uint8 if depth <= 8 else ">u2")
    wanted, there = width * height * components * kind.itemsize, os.path.getsize(path) - head.end()
    if wanted != there:
        raise Refused(f"behind the head stand {there} bytes, and the image takes {wanted}")
    shape = (height, width) if components == 1 else (height, width, components)
    samples = np.fromfile(path, kind, offset=head.end()).reshape(shape).astype(kind.newbyteorder("="), copy=False)
    if int(samples.max()) > greatest:
        raise Refused(f"a sample is greater than {greatest}")
    comments = b"#" in head[0]
    yield Picture(samples, depth, lost=("comments of its head",) * comments)


def write(out: BinaryIO, picture: Picture) -> List[str]:
    """Writes an image; what of `kept` isn't in it."""
    samples = picture.samples
    if samples.dtype.kind == "i":
        raise Refused("samples are signed, and PGM and PPM hold none")
    magic = "P5" if samples.ndim == 2 else "P6"
    out.write(f"{magic}\n{samples.shape[1]} {samples.shape[0]}\n{(1 << picture.depth) - 1}\n".encode("ascii"))
    out.write(memoryview(samples if samples.dtype.itemsize == 1 else samples.astype(">u2")).cast("B"))
    return picture.kept.names()
