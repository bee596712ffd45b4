"""Colour of JP2 files by their boxes `colr`, those of METH 3 and 4 too, which JP2 readers pass over (T.800 I.5.3.3).

METH 3 is an ICC profile of any kind and METH 4 a vendor's colour (T.801 M.11.7.3). A profile that JP2 doesn't take stands
as METH 3 right after the colour that JP2 readers take, so that these read the file as before.
"""
from __future__ import annotations

import struct
from dataclasses import dataclass
from typing import Any, List, Optional

from ._extras import box, boxes_in
from .faults import BadParameters

ENUMERATED, RESTRICTED, ANY, VENDOR = 1, 2, 3, 4
#: Enumerated colour spaces whose samples are neither grey nor RGB (T.801 table M.25).
OTHERS = {
    1: "YCbCr", 3: "YCbCr", 4: "YCbCr", 9: "PhotoYCC", 11: "CMY", 12: "CMYK", 13: "YCCK", 14: "CIELab", 18: "sYCC",
    19: "CIEJab", 22: "YPbPr", 23: "YPbPr", 24: "e-sYCC",
}
#: Components of an image by the colour space of an ICC profile.
OF_PROFILE = {b"GRAY": 1, b"RGB ": 3}
#: The bytes of an ICC profile's header.
HEADER = 128


@dataclass(frozen=True)
class Colour:
    """A box `colr`."""

    method: int
    #: What follows METH, PREC and APPROX.
    contents: bytes

    @property
    def number(self) -> Optional[int]:
        """EnumCS; None where the colour isn't enumerated."""
        if self.method != ENUMERATED or len(self.contents) < 4:
            return None
        return int.from_bytes(self.contents[:4], "big")

    def other_space(self) -> str:
        """The name of the colour space where its samples are neither grey nor RGB, else nothing."""
        if self.method in (RESTRICTED, ANY):
            space = self.contents[16:20]
            return "" if space in OF_PROFILE or len(space) < 4 else space.decode("latin-1").strip()
        return OTHERS.get(self.number or 0, "")


def is_boxed(file: Any) -> bool:
    """Whether a file is a JP2 file, and no bare codestream."""
    return bytes(file[4:8]) == b"jP  "


def header_of(file: Any) -> bytes:
    """The contents of the box `jp2h` of a file whose boxes the library has judged; nothing in a bare codestream."""
    if not is_boxed(file):
        return b""
    return next((bytes(contents) for kind, contents in boxes_in(memoryview(file)) if kind == b"jp2h"), b"")


def colours_of(file: Any) -> List[Colour]:
    """The boxes `colr` of a file, in their order."""
    return [Colour(it[0], it[3:]) for kind, it in boxes_in(header_of(file)) if kind == b"colr" and len(it) > 3]


def any_profile_of(file: Any) -> Optional[bytes]:
    """The profile of the first METH 3; None where there is none."""
    return next((it.contents for it in colours_of(file) if it.method == ANY), None)


def check_profile(profile: bytes, components: int) -> None:
    """BadParameters: this is no ICC profile, or one for another number of components."""
    if len(profile) < HEADER or profile[36:40] != b"acsp" or int.from_bytes(profile[:4], "big") != len(profile):
        raise BadParameters("the profile isn't an ICC profile of its whole length")
    if OF_PROFILE.get(profile[16:20], components) != components:
        space = profile[16:20].decode("latin-1").strip()
        raise BadParameters(f"the profile is for {space}, and the image has {components} components of colour")


def with_any_profile(file: bytes, profile: bytes) -> bytes:
    """A JP2 file with a profile as METH 3, in the place of those that it has, after its first colour."""
    added, inner = box(b"colr", bytes([ANY, 0, 0]) + profile), []
    for kind, contents in boxes_in(header_of(file)):
        if kind != b"colr" or contents[0] != ANY:
            inner.append(box(kind, contents))
        if kind == b"colr" and added:
            inner.append(added)
            added = b""
    return with_header(file, b"".join(inner) + added)


def with_header(file: bytes, header: bytes) -> bytes:
    """A JP2 file with other contents of the box `jp2h`."""
    at = 0
    for kind, contents in boxes_in(memoryview(file)):
        size = struct.unpack(">L", file[at : at + 4])[0]
        head = 16 if size == 1 else 8
        if kind == b"jp2h":
            return file[:at] + box(b"jp2h", header) + file[at + head + len(contents) :]
        at += head + len(contents)
    return file
