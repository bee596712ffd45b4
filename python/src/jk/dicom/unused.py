"""The bits above High Bit, where older files keep overlays: DICOM PS3.5 8.1.1 and PS3.3 C.9.2."""
from __future__ import annotations

from typing import Dict, Iterable, List

import numpy as np
from pydicom.dataset import Dataset

from .._types import Array
from .pixels import Pixels, Refused, number


def claimed(dataset: Dataset) -> Dict[int, int]:
    """The groups of overlays that lie in bits of samples, and in which bit each."""
    found = {}
    for group in range(0x6000, 0x6100, 2):
        if (group, 0x0102) in dataset and (group, 0x3000) not in dataset:
            position = number(dataset, (group, 0x0102), 0)  # type: ignore[arg-type]
            if position:
                found[group] = position
    return found


def expected(samples: Array, pixels: Pixels) -> Array:
    """Samples whose unused bits are as they must be: 0, or where samples are signed the sign."""
    shift = pixels.allocated - pixels.stored
    return (samples << shift) >> shift


def judged(samples: Array, pixels: Pixels, overlays: Dict[int, int], may_clear: int) -> Array:
    """A frame's samples. Of the unused bits only those of a mask may be other than expected."""
    if pixels.stored == pixels.allocated:
        return samples
    made = expected(samples, pixels)
    if np.array_equal(made, samples):
        return samples
    other = int(np.bitwise_or.reduce((made ^ samples).view(f"u{pixels.allocated // 8}"), axis=None))
    if other & ~may_clear:
        raise Refused(_words(other, pixels, overlays))
    return made


def _words(other: int, pixels: Pixels, overlays: Dict[int, int]) -> str:
    bits = [bit for bit in range(pixels.allocated) if other >> bit & 1]
    groups = [f"{group:04x} in bit {bit}" for group, bit in overlays.items() if bit in bits]
    what = f"an overlay of group {', '.join(groups)}" if groups else "no element tells what"
    way = "--unpack-overlays makes elements of their own of overlays" if groups else ""
    if len(groups) < len(bits):
        way += f"{', and ' if way else ''}--clear-unused clears what no overlay claims"
    numbers = ", ".join(map(str, bits))
    return f"samples have something in unused bits ({numbers}), above Bits Stored {pixels.stored}: {what}; {way}"


def unpack(dataset: Dataset, pixels: Pixels, overlays: Dict[int, int], frames: Iterable[Array]) -> None:
    """Makes an element of its own, 60xx,3000, of each overlay that lies in samples."""
    for group, bit in overlays.items():
        size = [number(dataset, (group, place), 0) for place in (0x10, 0x11)]  # type: ignore[arg-type]
        size.append(number(dataset, (group, 0x15), pixels.frames))  # type: ignore[arg-type]
        if not pixels.stored <= bit < pixels.allocated or pixels.samples != 1 or \
                size != [pixels.rows, pixels.columns, pixels.frames]:
            raise Refused(f"the overlay of group {group:04x} doesn't lie in unused bits of the whole image")
    planes: Dict[int, List[Array]] = {group: [] for group in overlays}
    for frame in frames:
        for group, bit in overlays.items():
            planes[group].append(np.packbits((frame >> bit & 1).astype(np.uint8), bitorder="little"))
    for group, bit in overlays.items():
        dataset.add_new((group, 0x0100), "US", 1)
        dataset.add_new((group, 0x0102), "US", 0)
        if pixels.frames > 1 and (group, 0x0015) not in dataset:
            dataset.add_new((group, 0x0015), "IS", str(pixels.frames))
            dataset.add_new((group, 0x0051), "US", 1)
        dataset.add_new((group, 0x3000), "OW", _joined(planes[group], pixels))


def _joined(planes: List[Array], pixels: Pixels) -> bytes:
    """Bits of frames, one behind another without a gap."""
    count = pixels.rows * pixels.columns
    if count % 8:
        bits = [np.unpackbits(plane, count=count, bitorder="little") for plane in planes]
        planes = [np.packbits(np.concatenate(bits), bitorder="little")]
    data = b"".join(plane.tobytes() for plane in planes)
    return data + b"\0" * (len(data) % 2)
