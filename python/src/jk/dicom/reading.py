"""DICOM files whose elements are read and whose Pixel Data is walked, frame by frame."""
from __future__ import annotations

import contextlib
import io
import os
from dataclasses import dataclass, replace
from typing import Any, BinaryIO, Iterator, Optional, Union

import numpy as np
import pydicom
from pydicom.dataset import Dataset
from pydicom.filereader import read_dataset
from pydicom.uid import (
    JPEG2000, UID, DeflatedExplicitVRLittleEndian, ExplicitVRBigEndian, ExplicitVRLittleEndian, ImplicitVRLittleEndian,
    JPEG2000Lossless,
)

from .._types import Array
from ..faults import Fault
from ..files import info, read
from .elements import explicit, in_words, inflated
from .fragments import Fragments, unpadded
from .pixels import Note, Pixels, Refused, pixels_of, value

Path = Union[str, "os.PathLike[str]"]
NATIVE = (ImplicitVRLittleEndian, ExplicitVRLittleEndian, ExplicitVRBigEndian, DeflatedExplicitVRLittleEndian)
#: The transfer syntaxes of JPEG 2000 that may be lossless: the first is, the second may be.
CODED = (JPEG2000Lossless, JPEG2000)
PIXEL_DATA, UNDEFINED = 0x7FE00010, 0xFFFFFFFF
#: Markers of a codestream.
SOC_SIZ, COD = b"\xff\x4f\xff\x51", b"\xff\x52"


def samples_of(data: bytes, pixels: Pixels, note: Note) -> Array:
    """The samples of a frame's codestream or JP2 file, which must be of the image that the elements tell."""
    file = unpadded(data)
    told = info(file)
    if (told.height, told.width, told.components) != (pixels.rows, pixels.columns, pixels.samples):
        raise Refused(f"the codestream has {told.width} by {told.height} pixels of {told.components} samples, "
                      f"and the elements tell {pixels.columns} by {pixels.rows} of {pixels.samples}")
    if told.depth > pixels.allocated:
        raise Refused(f"the codestream has {told.depth} bits a sample, more than Bits Allocated {pixels.allocated}")
    if told.signed and not pixels.signed:
        raise Refused("the codestream's samples are signed, and Pixel Representation is 0")
    if told.depth != pixels.stored:
        note(f"the codestream has {told.depth} bits a sample, and Bits Stored is {pixels.stored}")
    if pixels.photometric == "YBR_RCT" and not has_colour_transform(file):
        note("Photometric Interpretation is YBR_RCT, and the codestream has no colour transform: samples stay as "
             "they are")
    samples = read(file)
    if pixels.signed and not told.signed:
        note("the codestream's samples are unsigned, and Pixel Representation is 1: they are taken as two's "
             f"complement of the codestream's {told.depth} bits")
        shift = pixels.allocated - told.depth
        return (samples.astype(pixels.dtype) << shift) >> shift
    return samples.astype(pixels.dtype, copy=False)


def has_colour_transform(file: bytes) -> bool:
    """Whether the main header of a codestream, which `info` has read, tells of the colour transform."""
    at = file.index(SOC_SIZ) + 2
    while file[at : at + 2] != COD:
        at += 2 + int.from_bytes(file[at + 2 : at + 4], "big")
    return file[at + 8] == 1


def numbered(frame: int, why: Exception) -> Refused:
    """What was refused, with the frame's number."""
    return Refused(f"frame {frame}: {why}")


@dataclass(frozen=True)
class Source:
    """A DICOM file that is open: its elements as explicit VR, little endian, and where its Pixel Data lies."""

    file: BinaryIO
    dataset: pydicom.FileDataset
    syntax: UID
    pixels: Pixels
    #: Where the value of Pixel Data begins, and where the element ends.
    start: int
    end: int
    fragments: Optional[Fragments]
    #: The Extended Offset Table.
    table: bytes
    #: Whether the file's elements are of implicit VR, and of little endian.
    implicit: bool
    little: bool
    #: Whether the bytes of Pixel Data lie in big-endian words.
    swapped: bool

    def frames(self, note: Note) -> Iterator[Array]:
        """The samples of each frame, by pixel, in this machine's order."""
        return self._native() if self.fragments is None else self._coded(self.fragments, note)

    def _coded(self, fragments: Fragments, note: Note) -> Iterator[Array]:
        for number, data in enumerate(fragments.frames(self.pixels.frames, self.table, note), 1):
            try:
                samples = samples_of(data, self.pixels, note)
            except (Fault, Refused) as why:
                raise numbered(number, why) from why
            yield samples

    def _native(self) -> Iterator[Array]:
        pixels = self.pixels
        kind = pixels.dtype.newbyteorder(">" if self.swapped else "<")
        for number in range(pixels.frames):
            data = self._bytes(number * pixels.size, pixels.size)
            samples = np.frombuffer(data, kind).astype(pixels.dtype, copy=False)
            if pixels.planar and pixels.samples > 1:
                planes = samples.reshape(pixels.samples, pixels.rows, pixels.columns)
                yield np.ascontiguousarray(planes.transpose(1, 2, 0))
            else:
                yield samples.reshape(pixels.shape)

    def _bytes(self, at: int, length: int) -> bytes:
        """Bytes of Pixel Data; samples of 8 bits that lie in big-endian words are put in their order."""
        if not self.swapped or self.pixels.allocated == 16:
            self.file.seek(self.start + at)
            return self.file.read(length)
        first, last = at & ~1, at + length + (at + length & 1)
        self.file.seek(self.start + first)
        words = np.frombuffer(self.file.read(last - first), ">u2").astype("<u2").tobytes()
        return words[at - first : at - first + length]

    def behind(self) -> Union[BinaryIO, Dataset]:
        """What stands behind Pixel Data: the file at that place, or elements that had to be made anew."""
        self.file.seek(self.end)
        if self.little and not self.implicit:
            return self.file
        with in_words("read"):
            return explicit(read_dataset(self.file, self.implicit, self.little), self.pixels.signed)


@contextlib.contextmanager
def opened(path: Path) -> Iterator[Source]:
    """A DICOM file, native or of JPEG 2000."""
    with open(path, "rb") as file:
        with in_words("read"):
            source = _source(file)
        yield source


def _source(found: BinaryIO) -> Source:
    file = inflated(found)
    dataset = pydicom.dcmread(file, stop_before_pixels=True)
    syntax = dataset.file_meta.get("TransferSyntaxUID")
    if syntax not in NATIVE + CODED:
        name = syntax.name if syntax else "none"
        raise Refused(f"the transfer syntax is {name}; jk takes native files, and JPEG 2000 (.90 and .91)")
    # pydicom goes by the elements where they aren't of the VR that the transfer syntax tells.
    rows = dataset.get_item("Rows") if "Rows" in dataset else dataset
    implicit = bool(getattr(rows, "is_implicit_VR", dataset.is_implicit_VR))
    little = bool(dataset.is_little_endian)
    vr, length = _head(file, implicit, little)
    explicit(dataset)
    told = syntax if file is found else DeflatedExplicitVRLittleEndian
    source = Source(file, dataset, told, pixels_of(dataset), file.tell(), file.tell() + length, None,
                    value(dataset, "ExtendedOffsetTable", b""), implicit, little, not little and vr == b"OW")
    if syntax in CODED:
        if length != UNDEFINED:
            raise Refused("Pixel Data has a length, and the transfer syntax asks for fragments")
        fragments = Fragments(file, source.start)
        return replace(source, fragments=fragments, end=fragments.end)
    _judge_length(source, length)
    return source


def _head(file: BinaryIO, implicit: bool, little: bool) -> Any:
    """The VR and the length of Pixel Data, at which the file stands."""
    order = "little" if little else "big"
    tag, word = file.read(4), file.read(4)
    found = int.from_bytes(tag[:2], order) << 16 | int.from_bytes(tag[2:], order)
    if found != PIXEL_DATA or len(word) < 4:
        is_float = found in (0x7FE00008, 0x7FE00009)
        raise Refused("the file has floating-point pixels, which JPEG 2000 hasn't" if is_float else
                      "the file has no Pixel Data")
    if implicit:
        return b"OW", int.from_bytes(word, order)
    if word[:2] not in (b"OB", b"OW", b"UN"):
        raise Refused(f"Pixel Data has the VR {word[:2].decode('latin-1')!r}")
    return word[:2], int.from_bytes(file.read(4), order)


def _judge_length(source: Source, length: int) -> None:
    """A native file has each byte of its frames, and one more where that makes their length even."""
    wanted, size = source.pixels.frames * source.pixels.size, source.file.seek(0, io.SEEK_END)
    if length == UNDEFINED:
        raise Refused("Pixel Data has no length, and the transfer syntax asks for one")
    if length < wanted or source.start + length > size:
        raise Refused(f"Pixel Data has {min(length, size - source.start)} bytes, and its frames take {wanted}")
    if length > wanted + wanted % 2:
        raise Refused(f"behind the {wanted} bytes of its frames Pixel Data has {length - wanted} more, which would be "
                      f"lost: cut them off first, if they are nothing but padding")
