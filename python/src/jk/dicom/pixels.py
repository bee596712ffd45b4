"""What the elements of an image say of its samples: DICOM PS3.3 C.7.6.3."""
from __future__ import annotations

from dataclasses import dataclass
from typing import Any, Callable, Optional, Tuple

import numpy as np
from pydicom.dataelem import DataElement_from_raw
from pydicom.dataset import Dataset

#: Where notes go: what a user should know of a file that is taken all the same.
Note = Callable[[str], None]


class Refused(ValueError):
    """A file that isn't taken, and why."""


def value(dataset: Dataset, keyword: str, default: Any = None) -> Any:
    """An element's value. The element stays as it was read, so that it is written with the same bytes."""
    if keyword not in dataset:
        return default
    element = dataset.get_item(keyword)
    if element.is_raw:
        element = DataElement_from_raw(element)
    return default if element.value is None or element.value == "" else element.value


def number(dataset: Dataset, keyword: str, default: Optional[int] = None) -> int:
    """An element's value, which must be one whole number."""
    found = value(dataset, keyword, default)
    if found is None:
        raise Refused(f"{keyword} isn't there")
    if not isinstance(found, int):
        raise Refused(f"{keyword} isn't one whole number: {found!r}")
    return int(found)


@dataclass(frozen=True)
class Pixels:
    """Frames, and how their samples lie."""

    frames: int
    rows: int
    columns: int
    samples: int
    photometric: str
    planar: bool
    allocated: int
    stored: int
    high: int
    signed: bool

    @property
    def shape(self) -> Tuple[int, ...]:
        """The shape of a frame."""
        return (self.rows, self.columns) if self.samples == 1 else (self.rows, self.columns, self.samples)

    @property
    def dtype(self) -> np.dtype:
        """The type of a sample, in this machine's order."""
        return np.dtype(f"{'i' if self.signed else 'u'}{self.allocated // 8}")

    @property
    def size(self) -> int:
        """The bytes of a frame that isn't encoded."""
        return self.rows * self.columns * self.samples * self.allocated // 8

    def __str__(self) -> str:
        sign = " signed" if self.signed else ""
        frames = f"{self.frames} frame{'s' * (self.frames != 1)}"
        return f"{frames} of {self.columns} by {self.rows}, {self.photometric}, {self.stored} bits{sign}"


def pixels_of(dataset: Dataset) -> Pixels:
    """The elements of a data set that tell of its samples, judged one by one."""
    allocated = number(dataset, "BitsAllocated")
    stored = number(dataset, "BitsStored")
    representation = number(dataset, "PixelRepresentation")
    pixels = Pixels(
        frames=number(dataset, "NumberOfFrames", 1), rows=number(dataset, "Rows"),
        columns=number(dataset, "Columns"), samples=number(dataset, "SamplesPerPixel"),
        photometric=str(value(dataset, "PhotometricInterpretation", "")),
        planar=number(dataset, "PlanarConfiguration", 0) == 1, allocated=allocated, stored=stored,
        high=number(dataset, "HighBit", stored - 1), signed=representation == 1,
    )
    if allocated not in (8, 16):
        raise Refused(f"Bits Allocated is {allocated}; jk takes 8 and 16")
    if not 1 <= stored <= allocated:
        raise Refused(f"Bits Stored is {stored}, of {allocated} Bits Allocated")
    if representation not in (0, 1):
        raise Refused(f"Pixel Representation is {representation}, neither 0 nor 1")
    if pixels.samples not in (1, 3):
        raise Refused(f"Samples per Pixel is {pixels.samples}; jk takes 1 and 3")
    if min(pixels.frames, pixels.rows, pixels.columns) < 1:
        raise Refused("Number of Frames, Rows or Columns is 0")
    return pixels


def judge_high_bit(pixels: Pixels) -> None:
    """Samples begin at bit 0: others would have to be shifted."""
    if pixels.high != pixels.stored - 1:
        raise Refused(f"High Bit is {pixels.high} and not Bits Stored - 1, {pixels.stored - 1}; jk shifts no sample")
