"""What a JP2 file keeps beside the samples: profile, resolution, XMP, EXIF, XML and boxes under UUIDs, as the library has
them: boxes of T.800 Annex I, one after another."""
from __future__ import annotations

import math
import numbers
import struct
import uuid
from dataclasses import dataclass
from decimal import Decimal
from fractions import Fraction
from typing import Any, Iterator, List, Optional, Sequence, Tuple, Union

Number = Union[int, float, Fraction, str]
#: Samples by the inch, of a row and of a column.
Inches = Tuple[Fraction, Fraction]

XMP = bytes.fromhex("be7acfcb97a942e89c71999491e3afac")
EXIF = b"JpgTiffExif->JP2"
IPTC = bytes.fromhex("33c7a4d2b81d4723a0baf1a3e097ad38")
#: What enumerated colour spaces are called.
SPACES = {16: "sRGB", 17: "grey", 18: "sYCC"}
#: The greatest numerator and denominator of a resolution.
MOST = 65535
#: Samples by the metre of one by the inch.
METRE = Fraction(5000, 127)


def _blob(name: str, given: object) -> bytes:
    """Bytes that were given; numbers and text are none."""
    if not isinstance(given, (bytes, bytearray, memoryview)):
        raise TypeError(f"{name} is bytes, and not {type(given).__name__}")
    return bytes(given)


def _blobs(name: str, given: object) -> Tuple[bytes, ...]:
    """A sequence of bytes; bytes alone aren't one."""
    if not isinstance(given, (list, tuple)):
        raise TypeError(f"{name} is a sequence of bytes, and not {type(given).__name__}")
    return tuple(_blob(f"each of {name}", it) for it in given)


def _uuid(given: object) -> Tuple[bytes, bytes]:
    """A UUID and what follows it in its box."""
    if not isinstance(given, (list, tuple)) or len(given) != 2:
        raise TypeError("each of uuids is a pair of a UUID and bytes")
    name = given[0].bytes if isinstance(given[0], uuid.UUID) else _blob("a UUID", given[0])
    if len(name) != 16:
        raise ValueError(f"a UUID has 16 bytes, and not {len(name)}")
    return name, _blob("what follows a UUID", given[1])


@dataclass(frozen=True)
class Extras:
    """What a JP2 file keeps beside the samples, or is to keep. TypeError: a field of another type."""

    #: An ICC profile; a restricted one of grey or RGB, where it is given to a file.
    profile: Optional[bytes] = None
    #: Samples by the inch when the image was captured: a number, or a pair for a row and a column. `jk.extras` tells a
    #: pair of `Fraction`.
    resolution: Union[None, Number, Sequence[Number]] = None
    xmp: Optional[bytes] = None
    #: A TIFF stream, with or without `Exif\\0\\0` in front.
    exif: Optional[bytes] = None
    iptc: Optional[bytes] = None
    #: The same as `resolution`, of what the image is to be displayed at.
    display: Union[None, Number, Sequence[Number]] = None
    xml: Tuple[bytes, ...] = ()
    #: Other boxes under UUIDs: their 16 bytes, and what stands behind them.
    uuids: Tuple[Tuple[Union[bytes, uuid.UUID], bytes], ...] = ()
    #: The enumerated colour space that a file tells, as sRGB; not written.
    space: Optional[str] = None
    #: An ICC profile of any kind (METH 3 of T.801), after the colour that JP2 readers take; these pass over it.
    any_profile: Optional[bytes] = None

    def __post_init__(self) -> None:
        for name in ("profile", "xmp", "exif", "iptc", "any_profile"):
            if getattr(self, name) is not None:
                object.__setattr__(self, name, _blob(name, getattr(self, name)))
        object.__setattr__(self, "xml", _blobs("xml", self.xml))
        if not isinstance(self.uuids, (list, tuple)):
            raise TypeError(f"uuids is a sequence of pairs, and not {type(self.uuids).__name__}")
        object.__setattr__(self, "uuids", tuple(_uuid(it) for it in self.uuids))
        for name in ("resolution", "display"):
            object.__setattr__(self, name, _resolution(name, getattr(self, name)))

    def inches(self) -> Optional[Inches]:
        """The resolution of a row and of a column; None where there is none."""
        told = self.resolution
        if told is None:
            return None
        across, down = told if isinstance(told, tuple) else (told, told)
        return Fraction(across), Fraction(down)


def _resolution(name: str, given: Any) -> Union[None, Number, Tuple[Number, ...]]:
    """A resolution with numbers of Python's own, numpy's among them."""
    if given is None:
        return None
    if isinstance(given, (str, bytes)) or not hasattr(given, "__iter__"):
        return _number(name, given)
    return tuple(_number(name, it) for it in given)


def _number(name: str, given: Any) -> Number:
    if isinstance(given, (str, Fraction)):
        return given
    if isinstance(given, numbers.Integral) and not isinstance(given, bool):
        return int(given)
    if isinstance(given, Decimal):
        return Fraction(given)
    if isinstance(given, numbers.Real) and not isinstance(given, bool):
        return float(given)
    raise TypeError(f"{name} is a number of samples by the inch, or a pair of them, and not {type(given).__name__}")


def ratio(value: Fraction) -> Optional[Tuple[int, int, int]]:
    """The numerator, denominator and exponent of ten that are exactly so many samples by the metre. Of all that there
    are, those whose exponent is nearest to 2, and of these the greater one."""
    for exponent in sorted(range(-128, 128), key=lambda it: (abs(it - 2), -it)):
        part = value / Fraction(10) ** exponent
        if 0 < part.numerator <= MOST and part.denominator <= MOST:
            return part.numerator, part.denominator, exponent
    return None


def nearest(value: Fraction) -> Tuple[int, int, int]:
    """Those that are nearest to so many samples by the metre."""
    found: List[Tuple[Fraction, int, int, Fraction]] = []
    for exponent in range(-128, 128):
        part = value / Fraction(10) ** exponent
        if Fraction(1, MOST) <= part <= MOST:
            near = part.limit_denominator(MOST) if part < 1 else 1 / (1 / part).limit_denominator(MOST)
            if near.numerator <= MOST and near.denominator <= MOST:
                error = abs(near - part) * Fraction(10) ** exponent
                found.append((error, abs(exponent - 2), -exponent, near))
    if not found:
        raise ValueError(f"{value} samples by the metre are beyond what JP2 holds")
    _, _, minus, near = min(found)
    return near.numerator, near.denominator, -minus


def _grid(told: Union[Number, Sequence[Number]]) -> bytes:
    """A resolution as its box holds it: the samples of a column come first."""
    pair = told if isinstance(told, tuple) else (told, told)
    if len(pair) != 2:
        raise ValueError("a resolution is a number, or one of a row and one of a column")
    ratios = []
    for number in (pair[1], pair[0]):
        if isinstance(number, float) and not math.isfinite(number):
            raise ValueError(f"{number} samples by the inch")
        inches = Fraction(number)
        found = ratio(inches * METRE) if inches > 0 else None
        if found is None:
            raise ValueError(f"{number} samples by the inch: JP2 holds ratios above 0 of 16 bits and a power of ten, as of "
                             "each whole number to 65535")
        ratios.append(found)
    (down, under, high), (across, below, wide) = ratios
    return struct.pack(">HHHHbb", down, under, across, below, high, wide)


def box(kind: bytes, contents: bytes) -> bytes:
    """A box."""
    return struct.pack(">L4s", 8 + len(contents), kind) + contents


def grids(capture: Optional[bytes], display: Optional[bytes]) -> bytes:
    """The box of resolutions, where there is one."""
    inner = b"".join(box(kind, grid) for kind, grid in ((b"resc", capture), (b"resd", display)) if grid is not None)
    return box(b"res ", inner) if inner else b""


def boxes_of(extras: Extras) -> bytes:
    """The boxes that say what a file is to keep."""
    told = [None if it is None else _grid(it) for it in (extras.resolution, extras.display)]
    exif = extras.exif
    if exif is not None and exif.startswith(b"Exif\0\0"):
        exif = exif[6:]
    others: List[Tuple[Union[bytes, uuid.UUID], Optional[bytes]]] = [
        (XMP, extras.xmp), (EXIF, exif), (IPTC, extras.iptc), *extras.uuids]
    made = [box(b"colr", b"\2\0\0" + extras.profile)] if extras.profile is not None else []
    made.append(grids(*told))
    made += [box(b"xml ", text) for text in extras.xml]
    made += [box(b"uuid", _uuid((name, contents))[0] + contents) for name, contents in others if contents is not None]
    return b"".join(made)


def boxes_in(text: Any) -> Iterator[Tuple[bytes, Any]]:
    """Boxes one after another, which the library has judged: their kinds and contents."""
    at = 0
    while at < len(text):
        size, kind = struct.unpack(">L4s", text[at : at + 8])
        head = 8
        if size == 1:
            size, head = int.from_bytes(text[at + 8 : at + 16], "big"), 16
        size = size or len(text) - at
        yield kind, text[at + head : at + size]
        at += size


def _inches(grid: bytes) -> Inches:
    """Samples by the inch that the contents of a box tell."""
    down, under, across, below, high, wide = struct.unpack(">HHHHbb", grid)
    return (Fraction(across, below) * Fraction(10) ** wide / METRE, Fraction(down, under) * Fraction(10) ** high / METRE)


def extras_of(text: bytes) -> Extras:
    """What boxes tell. Of XMP, EXIF and IPTC the first has a name of its own, and others stand among the UUIDs."""
    profile = space = None
    told = {}
    xml: List[bytes] = []
    uuids: List[Tuple[bytes, bytes]] = []
    named = {XMP: None, EXIF: None, IPTC: None}
    for kind, contents in boxes_in(text):
        if kind == b"colr" and contents[0] == 2:
            profile = contents[3:]
        elif kind == b"colr":
            number = int.from_bytes(contents[3:7], "big")
            space = SPACES.get(number, f"enumerated={number}")
        elif kind == b"res ":
            told = {inner: _inches(grid) for inner, grid in reversed(list(boxes_in(contents)))}
        elif kind == b"xml ":
            xml.append(contents)
        elif named.get(contents[:16], b"") is None:
            named[contents[:16]] = contents[16:]
        else:
            uuids.append((contents[:16], contents[16:]))
    return Extras(
        profile=profile, resolution=told.get(b"resc"), display=told.get(b"resd"), xmp=named[XMP], exif=named[EXIF],
        iptc=named[IPTC], xml=tuple(xml), uuids=tuple(uuids), space=space,
    )
