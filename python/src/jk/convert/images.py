"""What an image is between two files, and what isn't taken."""
from __future__ import annotations

import contextlib
import os
import stat
from dataclasses import dataclass, replace
from typing import Any, Iterator, List, Optional, Tuple

import numpy as np

from .._beside import Kept
from .._types import Array

#: What a file is, by the bytes that it begins with.
BEGINNINGS = (
    ("tiff", b"II*\0"), ("tiff", b"MM\0*"), ("tiff", b"II+\0"), ("tiff", b"MM\0+"), ("png", b"\x89PNG\r\n\x1a\n"),
    ("pnm", b"P5"), ("pnm", b"P6"), ("jp2", b"\0\0\0\x0cjP  \r\n\x87\n"), ("jp2", b"\xff\x4f\xff\x51"),
)
#: So many pixels an image has at most.
MOST_PIXELS = 1 << 28
#: The endings of files that are looked for in a folder, and what they are.
ENDINGS = {
    ".tif": "tiff", ".tiff": "tiff", ".png": "png", ".pgm": "pnm", ".ppm": "pnm", ".pnm": "pnm", ".jp2": "jp2",
    ".j2k": "jp2", ".j2c": "jp2", ".jpc": "jp2",
}


class Refused(ValueError):
    """A file that isn't taken, and why."""


@dataclass(frozen=True)
class Picture:
    """An image, and what is known of it."""

    #: (height, width), or (height, width, 3).
    samples: Array
    #: Bits of a sample, the sign counted.
    depth: int
    kept: Kept = Kept()
    #: What stands beside the samples and isn't in `kept`.
    lost: Tuple[str, ...] = ()
    notes: Tuple[str, ...] = ()
    #: Opacity, (height, width), of the depth of the samples.
    alpha: Optional[Array] = None
    #: What kind of opacity that is, as `jk.encode` takes it.
    opacity: str = "straight"
    #: Whether all pixels of one colour are transparent, and no others.
    is_by_colour: bool = False
    #: Colours (entries, 3), or (entries, 4) with their opacity, of which the samples are the numbers.
    palette: Optional[Array] = None
    #: Which image of its file it is, from 0 on.
    number: int = 0

    def whole(self) -> Array:
        """Samples with their opacity behind them."""
        return self.samples if self.alpha is None else np.dstack([self.samples, self.alpha])

    def apart(self) -> List["Picture"]:
        """The image, and its opacity as another one."""
        if self.alpha is None:
            return [self]
        return [replace(self, alpha=None), Picture(self.alpha, self.depth, notes=("of the image before",))]


def spread(picture: Picture, to: str) -> Picture:
    """An image of 1, 2 or 4 bits with an opacity, whose samples are spread over the 8 bits that TIFF and PNG have for it:
    each is multiplied, so that none is lost."""
    if picture.alpha is None or to not in ("tiff", "png") or picture.depth not in (1, 2, 4):
        return picture
    factor = np.uint8(255 // ((1 << picture.depth) - 1))
    notes = (*picture.notes, f"samples of {picture.depth} bits are spread over 8, by {factor}")
    return replace(picture, samples=picture.samples * factor, alpha=picture.alpha * factor, depth=8, notes=notes)


def kind_of(path: str) -> str:
    """What a file is: tiff, png, pnm or jp2."""
    with open(path, "rb") as file:
        head = file.read(16)
    for kind, beginning in BEGINNINGS:
        if head.startswith(beginning):
            return kind
    if not head:
        raise Refused("the file is empty")
    raise Refused("this is no TIFF, PNG, PGM, PPM or JPEG 2000 file, by its first bytes")


def judge_size(width: int, height: int) -> None:
    """Refuses an image past jk's limit, before its samples are read."""
    if width * height > MOST_PIXELS:
        raise Refused(f"it has {width} by {height} pixels, and jk takes 2^28 at most")


def judge_file(path: str) -> None:
    """Refuses what is no regular file, as a pipe, on which a read would wait."""
    mode = os.stat(path).st_mode
    if not stat.S_ISREG(mode):
        kinds = {stat.S_IFIFO: "a pipe (FIFO)", stat.S_IFCHR: "a device", stat.S_IFBLK: "a device",
                 stat.S_IFSOCK: "a socket", stat.S_IFDIR: "a folder"}
        raise Refused(f"this is {kinds.get(stat.S_IFMT(mode), 'something else')}, and no file")


def type_of(depth: int, signed: bool = False) -> np.dtype[Any]:
    """The type of samples of so many bits."""
    return np.dtype(f"{'i' if signed else 'u'}{1 if depth <= 8 else 2}")


@contextlib.contextmanager
def unchanged(path: str) -> Iterator[None]:
    """Refuses a file that another program writes meanwhile."""
    before = _state(path)
    yield
    if _state(path) != before:
        raise Refused("the file changed while it was read")


def _state(path: str) -> Tuple[int, ...]:
    told = os.stat(path)
    return told.st_dev, told.st_ino, told.st_size, told.st_mtime_ns, told.st_ctime_ns
