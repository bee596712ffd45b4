"""Elements as explicit VR, little endian, which JPEG 2000 transfer syntaxes ask for: with the same values, byte for
byte. Text isn't decoded, so that none can be lost to a character set that isn't the one that is told."""
from __future__ import annotations

import contextlib
import io
import zlib
from typing import Any, BinaryIO, Iterator

import numpy as np
import pydicom
from pydicom.datadict import dictionary_VR
from pydicom.dataelem import DataElement, DataElement_from_raw, RawDataElement
from pydicom.dataset import Dataset
from pydicom.errors import InvalidDicomError
from pydicom.filebase import DicomFileLike
from pydicom.filereader import read_file_meta_info
from pydicom.filewriter import write_file_meta_info
from pydicom.uid import DeflatedExplicitVRLittleEndian, ExplicitVRLittleEndian

from .pixels import Refused, number

#: Bytes of a number, of the VRs that have numbers.
WORDS = {
    **dict.fromkeys(("AT", "OW", "SS", "US"), 2), **dict.fromkeys(("FL", "OF", "OL", "SL", "UL"), 4),
    **dict.fromkeys(("FD", "OD", "OV", "SV", "UV"), 8),
}
#: Elements that tell of fragments: the Extended Offset Table, its lengths, and the length of all.
OF_FRAGMENTS = (0x7FE00001, 0x7FE00002, 0x7FE00003)


@contextlib.contextmanager
def in_words(what: str) -> Iterator[None]:
    """Refuses whatever pydicom raises where it meets damage."""
    try:
        yield
    except (Refused, MemoryError, OSError):
        raise
    except InvalidDicomError as why:
        raise Refused("this is no DICOM file: DICM doesn't stand behind the preamble") from why
    except Exception as why:
        raise Refused(f"its elements can't be {what}: {type(why).__name__}: {why}") from why


def inflated(file: BinaryIO) -> BinaryIO:
    """The file, or if its data set is deflated, one in memory in which it isn't."""
    meta = read_file_meta_info(file.name)
    if meta.get("TransferSyntaxUID") != DeflatedExplicitVRLittleEndian:
        return file
    if "FileMetaInformationGroupLength" not in meta:
        raise Refused("the data set is deflated, and no element tells where it begins")
    front = file.read(144 + meta.FileMetaInformationGroupLength)
    inflating = zlib.decompressobj(-zlib.MAX_WBITS)
    try:
        plain = inflating.decompress(file.read())
    except zlib.error as error:
        raise Refused(f"the data set isn't deflated as it should be: {error}") from error
    if not inflating.eof:
        raise Refused("the deflated data set ends too early")
    meta.TransferSyntaxUID = ExplicitVRLittleEndian
    room = io.BytesIO()
    room.write(front[:132])
    write_file_meta_info(DicomFileLike(room), meta, enforce_standard=False)
    room.write(plain)
    room.seek(0)
    return room


def vr_of(raw: RawDataElement, is_signed: bool) -> str:
    """The VR of an element that was read without one."""
    if raw.tag.is_private:
        return "LO" if raw.tag.is_private_creator else "UN"
    if raw.tag.element == 0:
        return "UL"
    try:
        return one_vr(str(dictionary_VR(raw.tag)), is_signed)
    except KeyError:
        return "UN"


def one_vr(vr: str, is_signed: bool) -> str:
    """The VR of those among which the dictionary leaves the choice."""
    if vr == "US or SS":
        return "SS" if is_signed else "US"
    return "OW" if " or " in vr else vr


def swapped(values: bytes, vr: str) -> bytes:
    """A value's bytes from big to little endian."""
    size = WORDS.get(vr, 1)
    if len(values) % size:
        raise Refused(f"an element of VR {vr} has {len(values)} bytes")
    return np.frombuffer(values, f">u{size}").astype(f"<u{size}").tobytes()


def explicit(dataset: Dataset, is_signed: bool = False) -> Dataset:
    """Makes each element of a data set one of explicit VR, little endian."""
    if "PixelRepresentation" in dataset:
        is_signed = number(dataset, "PixelRepresentation", 0) == 1
    for tag in list(dataset.keys()):
        # dataset[tag] = .. would read a private element anew, by what pydicom knows of it.
        dataset._dict[tag] = _explicit(dataset, dataset.get_item(tag), is_signed)
    dataset.is_implicit_VR, dataset.is_little_endian = False, True
    dataset.set_original_encoding(False, True, dataset._character_set)
    return dataset


def _explicit(dataset: Dataset, element: Any, is_signed: bool) -> Any:
    if not element.is_raw:
        if element.VR == "SQ":
            for item in element.value:
                explicit(item, is_signed)
        elif element.is_empty:
            return RawDataElement(element.tag, one_vr(str(element.VR), is_signed), 0, b"", 0, False, True)
        return element
    vr = str(element.VR or vr_of(element, is_signed))
    is_plain = element.VR and not element.is_implicit_VR and element.is_little_endian
    if vr == "SQ" and not is_plain:
        made = DataElement_from_raw(element, dataset._character_set)
        return _explicit(dataset, DataElement(element.tag, "SQ", made.value), is_signed)
    values = element.value or b""
    if not element.is_little_endian:
        values = swapped(values, vr)
    return RawDataElement(element.tag, vr, len(values), values, element.value_tell, False, True)


def write_header(out: BinaryIO, dataset: pydicom.FileDataset, syntax: str) -> None:
    """Writes preamble, file meta information and the elements that stand before Pixel Data."""
    with in_words("written"):
        dataset.file_meta.TransferSyntaxUID = syntax
        pydicom.dcmwrite(out, dataset, write_like_original=True)


def write_elements(out: BinaryIO, dataset: Dataset) -> None:
    """Writes elements of explicit VR, little endian."""
    file = DicomFileLike(out)
    file.is_implicit_VR, file.is_little_endian = False, True
    with in_words("written"):
        pydicom.filewriter.write_dataset(file, dataset)
