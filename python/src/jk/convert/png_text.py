"""Text of PNG files: XMP in any kind of chunk, and what ImageMagick and ExifTool write as text, "Raw profile type ..": a
name, a length in decimal, and bytes in hexadecimal."""
from __future__ import annotations

import re
import struct
import zlib
from typing import Dict, Optional, Tuple

from .images import Refused

XMP = "XML:com.adobe.xmp"
RAW = "Raw profile type "
#: The longest profile and text.
MOST = 1 << 24
RAW_TEXT = re.compile(rb"\s*[^\n]*\n\s*(\d+)\s*\n([0-9a-fA-F\s]*)", re.DOTALL)
#: What stands before EXIF and XMP in the segments APP1 of JPEG.
OF_EXIF, OF_XMP = b"Exif\0\0", b"http://ns.adobe.com/xap/1.0/\0"
#: The number of IPTC among Photoshop's resources.
IPTC = 0x0404


def inflated(data: bytes, what: str) -> bytes:
    """Deflated bytes of at most 16 MiB."""
    inflating = zlib.decompressobj()
    try:
        plain = inflating.decompress(data, MOST)
    except zlib.error as error:
        raise Refused(f"its {what} isn't deflated as it should be: {error}") from error
    if not inflating.eof:
        raise Refused(f"its {what} is cut off, or longer than 16 MiB")
    return plain


def text_of(kind: bytes, data: bytes) -> Tuple[str, Optional[bytes]]:
    """The keyword of a chunk of text, and the text; None where it can't be read."""
    keyword, _, rest = data.partition(b"\0")
    name = keyword.decode("latin-1")
    try:
        if kind == b"tEXt":
            return name, rest
        if kind == b"zTXt":
            return name, inflated(rest[1:], "text") if rest[:1] == b"\0" else None
        # A flag, a method, a language and the keyword in it stand before the text.
        parts = rest[2:].split(b"\0", 2)
        if len(parts) < 3 or rest[0] > 1:
            return name, None
        return name, inflated(parts[2], "text") if rest[0] else parts[2]
    except (Refused, IndexError):
        return name, None


def carried(kind: bytes, data: bytes) -> Dict[str, bytes]:
    """What a chunk of text has that is carried, by its name in `Kept`; `exif` is a TIFF stream."""
    name, text = text_of(kind, data)
    if text is None:
        return {}
    if name == XMP:
        return {"xmp": text}
    if not name.startswith(RAW):
        return {}
    found = RAW_TEXT.fullmatch(text.rstrip(b"\0"))
    if found is None:
        return {}
    digits = re.sub(rb"\s", b"", found[2]).decode("ascii")
    if len(digits) != 2 * int(found[1]):
        return {}
    return _of_raw(name[len(RAW) :].lower(), bytes.fromhex(digits))


def _of_raw(kind: str, data: bytes) -> Dict[str, bytes]:
    if kind == "xmp" or kind == "app1" and data.startswith(OF_XMP):
        return {"xmp": data[len(OF_XMP) :] if data.startswith(OF_XMP) else data}
    if kind in ("exif", "app1"):
        exif = data[len(OF_EXIF) :] if data.startswith(OF_EXIF) else data
        return {"exif": exif} if exif[:2] in (b"II", b"MM") else {}
    if kind in ("icc", "icm"):
        return {"profile": data}
    if kind in ("iptc", "8bim"):
        iptc = data if data[:1] == b"\x1c" else _iptc_of(data)
        return {"iptc": iptc} if iptc else {}
    return {}


def _iptc_of(resources: bytes) -> bytes:
    """IPTC, where it is all that Photoshop's resources have: a signature, a number, a name and a length stand before each
    one, and each is filled up to two bytes."""
    if resources[:4] != b"8BIM" or len(resources) < 12:
        return b""
    number, name = struct.unpack(">HB", resources[4:7])
    at = 6 + (name + 2) // 2 * 2
    size = int.from_bytes(resources[at : at + 4], "big")
    end = at + 4 + size
    is_alone = number == IPTC and len(resources) in (end, end + size % 2)
    return resources[at + 4 : end] if is_alone else b""
