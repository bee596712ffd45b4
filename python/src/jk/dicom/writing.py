"""DICOM files, written frame by frame."""
from __future__ import annotations

import shutil
import struct
import warnings
from typing import BinaryIO, Dict, Iterator, List, Tuple

import numpy as np
from pydicom.dataset import Dataset
from pydicom.uid import ExplicitVRLittleEndian, JPEG2000Lossless

from .._placing import placed
from .._types import Array
from ..encoding import encode as codestream_of
from ..faults import Fault
from .elements import OF_FRAGMENTS, write_elements, write_header
from .fragments import DELIMITER, ITEM
from .pixels import Note, Pixels, Refused, judge_high_bit
from .reading import CODED, NATIVE, UNDEFINED, Path, Source, numbered, opened
from .unused import claimed, judged, unpack

PIXEL_DATA = b"\xe0\x7f\x10\x00"
#: What native frames may be, by their samples.
TAKEN = {1: ("MONOCHROME1", "MONOCHROME2", "PALETTE COLOR"), 3: ("RGB", "YBR_FULL")}
#: The first length that a Basic Offset Table can't tell.
BASIC = 1 << 32


def encode(
    source: Path, target: Path, unpack_overlays: bool = False, clear_unused: bool = False, note: Note = warnings.warn
) -> None:
    """Makes the frames of a native file lossless codestreams, one fragment each (1.2.840.10008.1.2.4.90).

    Bits above Bits Stored that aren't 0, or where samples are signed the sign, are refused: with `unpack_overlays`
    those of an overlay become an element of its own, and with `clear_unused` those that no overlay claims are cleared.
    """
    with opened(source) as found:
        judge_native(found)
        overlays = claimed(found.dataset)
        if unpack_overlays:
            unpack(found.dataset, found.pixels, overlays, found.frames(note))
        _tell(found, note)
        of_overlays = sum(1 << bit for bit in set(overlays.values()))
        may_clear = of_overlays if unpack_overlays else 0
        if clear_unused:
            may_clear |= (1 << found.pixels.allocated) - 1 & ~of_overlays
        frames = judged_frames(found, overlays, may_clear, note)
        _change(found, "RGB", "YBR_RCT")
        with placed(target) as out:
            _write_coded(out, found, frames)
            write_behind(out, found)


def judge_native(found: Source) -> None:
    """Whether the elements of a native file tell of what `encode` takes."""
    pixels = found.pixels
    if found.syntax not in NATIVE:
        raise Refused("the file is JPEG 2000 already")
    if pixels.photometric not in TAKEN[pixels.samples]:
        raise Refused(f"Photometric Interpretation is {pixels.photometric or 'not told'}; jk takes "
                      f"{', '.join(TAKEN[pixels.samples])} of {pixels.samples} samples a pixel")
    judge_high_bit(pixels)


def judged_frames(found: Source, overlays: Dict[int, int], may_clear: int, note: Note) -> Iterator[Array]:
    """The frames of a native file, whose unused bits are as they must be, but for those of a mask."""
    for number, samples in enumerate(found.frames(note), 1):
        try:
            yield judged(samples, found.pixels, overlays, may_clear)
        except Refused as why:
            raise numbered(number, why) from why


def _change(found: Source, photometric: str, becomes: str) -> None:
    """The elements that are others in the other form."""
    for tag in OF_FRAGMENTS:
        if tag in found.dataset:
            del found.dataset[tag]
    if found.pixels.photometric == photometric:
        found.dataset.PhotometricInterpretation = becomes
    if found.pixels.samples > 1:
        found.dataset.PlanarConfiguration = 0


def _tell(found: Source, note: Note) -> None:
    """What comes back in another form."""
    if found.pixels.planar and found.pixels.samples > 1:
        note("Planar Configuration is 1 and becomes 0: samples come back pixel by pixel")
    if found.syntax != ExplicitVRLittleEndian:
        note("elements are written as explicit VR, little endian, and come back so")
    if "MACParametersSequence" in found.dataset:
        note("the file has digital signatures, which are kept; one over Pixel Data is of what `decode` gives back")


def _write_coded(out: BinaryIO, found: Source, frames: Iterator[Array]) -> None:
    """Header and fragments. The table, before the frames, is filled in when they are written."""
    pixels, dataset = found.pixels, found.dataset
    is_basic = pixels.frames * (pixels.size + pixels.size // 4 + (1 << 16)) < BASIC
    if not is_basic:
        for keyword in ("ExtendedOffsetTable", "ExtendedOffsetTableLengths"):
            setattr(dataset, keyword, bytes(8 * pixels.frames))
    write_header(out, dataset, JPEG2000Lossless)
    # The Extended Offset Table and its lengths are the last elements of the header: 12 bytes, and 8 for each frame.
    table = out.tell() - 2 * (12 + 8 * pixels.frames) + 12
    out.write(PIXEL_DATA + b"OB\0\0" + struct.pack("<L", UNDEFINED))
    out.write(ITEM + struct.pack("<L", 4 * pixels.frames * is_basic))
    if is_basic:
        table = out.tell()
        out.write(bytes(4 * pixels.frames))
    begins, lengths = _write_fragments(out, frames, pixels)
    out.write(DELIMITER + bytes(4))
    end = out.tell()
    out.seek(table)
    out.write(np.array(begins, "<u4" if is_basic else "<u8").tobytes())
    if not is_basic:
        out.seek(12, 1)
        out.write(np.array(lengths, "<u8").tobytes())
    out.seek(end)


def _write_fragments(out: BinaryIO, frames: Iterator[Array], pixels: Pixels) -> Tuple[List[int], List[int]]:
    """A fragment for each frame, of an even length. Where they begin, counted from the first one, and how long they
    are."""
    begins: List[int] = []
    lengths: List[int] = []
    first = out.tell()
    for number, samples in enumerate(frames, 1):
        try:
            file = codestream_of(samples, depth=pixels.stored, colour=pixels.photometric == "RGB", raw=True)
        except Fault as why:
            raise numbered(number, why) from why
        begins.append(out.tell() - first)
        lengths.append(len(file) + len(file) % 2)
        out.write(ITEM + struct.pack("<L", lengths[-1]))
        out.write(file + b"\0" * (len(file) % 2))
    return begins, lengths


def decode(source: Path, target: Path, note: Note = warnings.warn) -> None:
    """Makes the codestreams of a file native frames (explicit VR, little endian)."""
    with opened(source) as found:
        pixels = found.pixels
        if found.syntax not in CODED:
            raise Refused("the file isn't JPEG 2000")
        judge_high_bit(pixels)
        size = pixels.frames * pixels.size
        if size + size % 2 >= UNDEFINED:
            raise Refused(f"its frames take {size} bytes, more than a native file may have")
        frames = found.frames(note)
        _change(found, "YBR_RCT", "RGB")
        with placed(target) as out:
            write_header(out, found.dataset, ExplicitVRLittleEndian)
            vr = b"OW" if pixels.allocated == 16 else b"OB"
            out.write(PIXEL_DATA + vr + b"\0\0" + struct.pack("<L", size + size % 2))
            for samples in frames:
                out.write(samples.astype(pixels.dtype.newbyteorder("<"), copy=False).tobytes())
            out.write(b"\0" * (size % 2))
            write_behind(out, found)


def write_behind(out: BinaryIO, found: Source) -> None:
    """What stands behind Pixel Data."""
    behind = found.behind()
    if isinstance(behind, Dataset):
        write_elements(out, behind)
    else:
        shutil.copyfileobj(behind, out)
