"""What stands beside the samples of an image: profile, resolution, XMP, IPTC, EXIF and orientation, as one value, and
the directories of TIFF in which TIFF and EXIF have it.

A directory is read by the bytes of its fields and built anew from these, in the same byte order, so that no value
changes; only places do."""
from __future__ import annotations

import io
import struct
from dataclasses import dataclass, replace
from fractions import Fraction
from typing import BinaryIO, Dict, List, Optional, Tuple

#: Bytes of a value, by its type.
SIZES = {1: 1, 2: 1, 3: 2, 4: 4, 5: 8, 6: 1, 7: 1, 8: 2, 9: 4, 10: 8, 11: 4, 12: 8, 13: 4, 16: 8, 17: 8, 18: 8}
ASCII, SHORT, LONG, RATIONAL, UNDEFINED, DOUBLE = 2, 3, 4, 5, 7, 12
#: The longest field that is read.
MOST = 1 << 24
WHITE, ACROSS, DOWN, UNIT, ORIENTATION, XMP = 262, 282, 283, 296, 274, 700
IPTC, PROFILE, EXIF, GPS, INTEROPERABILITY = 33723, 34675, 34665, 34853, 40965
#: Text of the first directory that goes with EXIF: names of document and page, description, maker, model, software,
#: date, artist, computer, copyright.
TEXTS = (269, 270, 271, 272, 285, 305, 306, 315, 316, 33432)
#: GeoTIFF's fields: the size of a pixel, tie points, transformation, directory of keys, numbers and texts of these.
GEO = (33550, 33922, 34264, 34735, 34736, 34737)
UNITS = {1: "none", 2: "inch", 3: "centimetre"}
#: Tags that tell how samples lie in the file, or what is known of it otherwise.
LAYOUT = {254, 255, 256, 257, 258, 259, 262, 263, 266, 273, 277, 278, 279, 280, 281, 284, 292, 293, 297, 317, 322, 323,
          324, 325, 326, 327, 328, 338, 339, 340, 341}
#: Tags of these that may say something.
SAYING = {254: "SubfileType", 255: "SubfileType", 280: "MinSampleValue", 281: "MaxSampleValue", 297: "PageNumber",
          340: "SMinSampleValue", 341: "SMaxSampleValue"}
#: What other tags are called.
NAMES = {290: "grey response curve", 291: "grey response curve", 301: "transfer function", 318: "white point",
         319: "primary chromaticities", 330: "images inside the image", 34377: "Photoshop's resources",
         37724: "Photoshop's layers", **dict.fromkeys(GEO, "GeoTIFF")}


class Damaged(ValueError):
    """A directory that can't be read, and why."""


@dataclass(frozen=True)
class Field:
    """A field of a directory: its type, how many values, their bytes, or what directory it points to."""

    kind: int
    count: int
    #: None where the type isn't known or the field is too long.
    data: Optional[bytes]
    directory: Optional["Directory"] = None


Directory = Dict[int, Field]


class Stream:
    """A TIFF stream, or a BigTIFF one."""

    def __init__(self, file: BinaryIO) -> None:
        self.file = file
        self.size = file.seek(0, io.SEEK_END)
        head = self.taken(0, min(16, self.size))
        self.order = {b"II": "<", b"MM": ">"}.get(head[:2], "")
        version = self.number(head[2:4]) if self.order else 0
        self.is_big = version == 43 and self.number(head[4:8]) == (8 if self.order == "<" else 0x80000)
        if version != 42 and not self.is_big or len(head) < (16 if self.is_big else 8):
            raise Damaged("it doesn't begin as TIFF does")
        self.wide = 8 if self.is_big else 4
        self.first = self.number(head[self.wide : 2 * self.wide])

    def taken(self, place: int, size: int) -> bytes:
        """Bytes at a place."""
        if place + size > self.size:
            raise Damaged(f"it ends at {self.size}, and {size} bytes at {place} are told of")
        self.file.seek(place)
        return self.file.read(size)

    def number(self, data: bytes) -> int:
        """A number that is as long as its bytes."""
        return int.from_bytes(data, "little" if self.order == "<" else "big")

    def numbers(self, field: Field) -> List[int]:
        """The values of a field of whole numbers without a sign."""
        size = SIZES.get(field.kind, 0)
        if field.data is None or field.kind not in (1, SHORT, LONG, 13, 16, 18):
            raise Damaged("a field that must have whole numbers has none")
        return [self.number(field.data[at : at + size]) for at in range(0, len(field.data), size)]

    def directory(self, place: int, inside: Tuple[int, ...] = (EXIF, GPS)) -> Tuple[Directory, int]:
        """The directory at a place, with those that these tags point to, and where the next one is."""
        head = 8 if self.is_big else 2
        count, length = self.number(self.taken(place, head)), 20 if self.is_big else 12
        if count > 0xFFFF:
            raise Damaged(f"a directory has {count} fields")
        entries = self.taken(place + head, count * length + self.wide)
        found = {}
        for at in range(0, count * length, length):
            tag = self.number(entries[at : at + 2])
            found[tag] = self.field(tag, entries[at : at + length], inside)
        return found, self.number(entries[count * length :])

    def field(self, tag: int, entry: bytes, inside: Tuple[int, ...]) -> Field:
        """A field by the entry of its directory."""
        kind, count = self.number(entry[2:4]), self.number(entry[4 : 4 + self.wide])
        size, value = SIZES.get(kind, 0) * count, entry[4 + self.wide :]
        if not size or size > MOST:
            return Field(kind, count, None)
        data = value[:size] if size <= self.wide else self.taken(self.number(value), size)
        field = Field(kind, count, data)
        if tag not in inside:
            return field
        place = self.numbers(field)[0]
        within = (INTEROPERABILITY,) if tag == EXIF else ()
        return Field(LONG, 1, data, self.directory(place, within)[0])

    def directories(self) -> List[Directory]:
        """All directories of the chain."""
        found, seen, place = [], set(), self.first
        while place:
            if place in seen:
                raise Damaged("its directories go in a ring")
            seen.add(place)
            directory, place = self.directory(place)
            found.append(directory)
        return found


def built(order: str, directory: Directory, place: int) -> bytes:
    """A directory as it stands at a place, behind it what it points to, and none next."""
    behind = bytearray()
    entries = []
    begin = place + 6 + 12 * len(directory)
    for tag, field in sorted(directory.items()):
        value = field.data or b""
        if field.directory is not None:
            value = struct.pack(f"{order}L", begin + len(behind))
            behind += built(order, field.directory, begin + len(behind))
        elif len(value) > 4:
            place_of_value = struct.pack(f"{order}L", begin + len(behind))
            behind += value + b"\0" * (len(value) % 2)
            value = place_of_value
        entries.append(struct.pack(f"{order}HHL", tag, field.kind, field.count) + value.ljust(4, b"\0"))
    return struct.pack(f"{order}H", len(entries)) + b"".join(entries) + bytes(4) + bytes(behind)


def stream_of(order: str, directory: Directory) -> bytes:
    """A TIFF stream of one directory."""
    return (b"II" if order == "<" else b"MM") + struct.pack(f"{order}HL", 42, 8) + built(order, directory, 8)


@dataclass(frozen=True)
class Resolution:
    """Samples for each unit of length, as numerators and denominators."""

    across: Tuple[int, int]
    down: Tuple[int, int]
    #: inch, centimetre, metre; none where it only tells how wide a pixel is beside its height.
    unit: str

    def says_nothing(self) -> bool:
        """Whether it is that of any image."""
        return self.unit == "none" and Fraction(*self.across) == Fraction(*self.down)

    def is_without_unit(self) -> bool:
        """Whether it has numbers of no unit that aren't carried: of pixels as wide as high, and not 1 by 1."""
        return self.says_nothing() and Fraction(*self.across) != 1

    def value(self) -> Tuple[Fraction, ...]:
        """What it tells, whatever its unit: samples for each metre, or how wide a pixel is beside its height."""
        if self.unit == "none":
            return (Fraction(*self.across) / Fraction(*self.down),)
        return self.per_metre()

    def per_metre(self) -> Tuple[Fraction, Fraction]:
        """Samples for each metre."""
        of_unit = {"inch": Fraction(5000, 127), "centimetre": Fraction(100), "metre": Fraction(1)}[self.unit]
        return Fraction(*self.across) * of_unit, Fraction(*self.down) * of_unit


@dataclass(frozen=True)
class Kept:
    """What stands beside the samples of an image."""

    profile: bytes = b""
    resolution: Optional[Resolution] = None
    xmp: bytes = b""
    iptc: bytes = b""
    #: A TIFF stream of texts, EXIF and GPS.
    exif: bytes = b""
    #: As TIFF counts it, 1 to 8; samples aren't turned.
    orientation: Optional[int] = None
    #: Whether the least sample is white.
    white_is_zero: bool = False
    #: Where the image stands on the Earth: GeoTIFF's fields by their tags, the lower byte of a value first.
    geo: Tuple[Tuple[int, Field], ...] = ()

    def tells_the_same(self, other: "Kept") -> bool:
        """Whether both tell the same, in whatever unit of length."""
        values = [it.resolution and it.resolution.value() for it in (self, other)]
        return values[0] == values[1] and replace(self, resolution=None) == replace(other, resolution=None)

    def that_says(self) -> "Kept":
        """The same without what would say the same of any image."""
        resolution = None if self.resolution is None or self.resolution.says_nothing() else self.resolution
        return replace(self, resolution=resolution, orientation=None if self.orientation == 1 else self.orientation)

    def names(self) -> List[str]:
        """What of it says something."""
        told = {
            "profile": self.profile, "resolution": self.resolution and not self.resolution.says_nothing(),
            "XMP": self.xmp, "IPTC": self.iptc, "EXIF": self.exif,
            "orientation": self.orientation not in (None, 1), "that the least sample is white": self.white_is_zero,
            "GeoTIFF": self.geo,
        }
        return [name for name, is_told in told.items() if is_told]


def kept_of(stream: Stream, directory: Directory) -> Tuple[Kept, List[str]]:
    """What a directory tells beside the samples, and by name what of it isn't in that value."""
    lost: List[str] = []
    resolution = _resolution(stream, directory, lost)
    orientation, white = (_one(stream, directory.get(tag)) for tag in (ORIENTATION, WHITE))
    whole = {tag: directory[tag].data or b"" for tag in (PROFILE, XMP, IPTC) if tag in directory}
    described = {tag: _classic(directory[tag], lost) for tag in (*TEXTS, EXIF, GPS)
                 if tag in directory and directory[tag].data is not None and directory[tag].kind <= 13}
    geo = _geo(stream, directory)
    known = {*LAYOUT, *described, *dict(geo), *(tag for tag in whole if whole[tag]), ACROSS, DOWN, UNIT, ORIENTATION}
    lost += [NAMES.get(tag, f"tag {tag}") for tag in directory if tag not in known]
    lost += _of_layout(stream, directory)
    if resolution is not None and resolution.is_without_unit():
        lost.append("resolution without a unit")
    kept = Kept(
        profile=whole.get(PROFILE, b""), resolution=resolution, xmp=whole.get(XMP, b""),
        iptc=_iptc(whole.get(IPTC, b"")), exif=_stream(stream.order, described),
        orientation=orientation if orientation in range(1, 9) else None, white_is_zero=white == 0, geo=geo,
    )
    return kept, list(dict.fromkeys(lost))


def _of_layout(stream: Stream, directory: Directory) -> List[str]:
    """Tags of the layout that say something, by name: kinds of subfiles, the page's number, least and greatest samples."""
    bits = _one(stream, directory.get(258)) or 1
    usual = {254: (0, 1), 255: (1,), 280: (0,), 281: ((1 << bits) - 1,), 340: (0,), 341: ((1 << bits) - 1,)}
    found = []
    for tag, name in SAYING.items():
        field = directory.get(tag)
        if field is None or field.data is None:
            continue
        values = stream.numbers(field) if field.kind in (SHORT, LONG) else []
        if not values or not set(values) <= set(usual.get(tag, ())):
            found.append(name)
    return found


def _iptc(data: bytes) -> bytes:
    """IPTC begins with 1C. Where words of four bytes were turned, as in files of the other byte order, they are turned
    back."""
    if data[:1] != b"\x1c" and data[3:4] == b"\x1c" and len(data) % 4 == 0:
        return b"".join(data[at : at + 4][::-1] for at in range(0, len(data), 4))
    return data


def _geo(stream: Stream, directory: Directory) -> Tuple[Tuple[int, Field], ...]:
    """GeoTIFF's fields of a directory, as `Kept` has them."""
    found = {tag: directory[tag] for tag in GEO if tag in directory}
    return tuple((tag, in_order(field, stream.order, "<")) for tag, field in found.items()
                 if field.data is not None and field.kind in (ASCII, SHORT, DOUBLE))


def in_order(field: Field, old: str, new: str) -> Field:
    """A field of plain values in another byte order."""
    data, size = field.data or b"", SIZES[field.kind]
    if old == new or size == 1:
        return field
    return replace(field, data=b"".join(data[at : at + size][::-1] for at in range(0, len(data), size)))


def geo_stream(kept: Kept) -> bytes:
    """A GeoTIFF file of one black pixel with GeoTIFF's fields, as GeoJP2 has it in a box."""
    def word(number: int) -> Field:
        return Field(LONG, 1, struct.pack("<L", number))

    pixel = dict.fromkeys((256, 257, 259, 262, 277, 278, 279), word(1))
    fields = {**dict(kept.geo), **pixel, 258: word(8), 273: word(0)}
    fields[273] = word(len(stream_of("<", fields)))
    return stream_of("<", fields) + b"\0"


def geo_of(data: bytes) -> Tuple[Tuple[int, Field], ...]:
    """GeoTIFF's fields of such a file: the inverse of `geo_stream`."""
    stream = Stream(io.BytesIO(data))
    return _geo(stream, stream.directory(stream.first)[0])


def _stream(order: str, directory: Directory) -> bytes:
    return stream_of(order, directory) if directory else b""


def _one(stream: Stream, field: Optional[Field]) -> Optional[int]:
    return stream.numbers(field)[0] if field and field.kind in (SHORT, LONG) and field.data else None


def _classic(field: Field, lost: List[str]) -> Field:
    """A field without what can't be built anew."""
    if field.directory is None:
        return field
    inside = {}
    for tag, value in field.directory.items():
        if value.data is None or value.kind > 13:
            lost.append(f"tag {tag} of EXIF")
        else:
            inside[tag] = _classic(value, lost)
    return replace(field, directory=inside)


def _resolution(stream: Stream, directory: Directory, lost: List[str]) -> Optional[Resolution]:
    fields = [directory.get(tag) for tag in (ACROSS, DOWN)]
    if fields == [None, None]:
        return None
    pairs = []
    for field in fields:
        if field is not None and field.kind == RATIONAL and field.count == 1 and field.data is not None:
            pairs.append((stream.number(field.data[:4]), stream.number(field.data[4:])))
    unit = _one(stream, directory.get(UNIT))
    if len(pairs) < 2 or 0 in pairs[0] + pairs[1] or (2 if unit is None else unit) not in UNITS:
        lost.append("resolution that isn't two ratios above 0")
        return None
    return Resolution(pairs[0], pairs[1], UNITS[2 if unit is None else unit])


def order_of(kept: Kept) -> str:
    """The byte order of its EXIF."""
    return ">" if kept.exif[:2] == b"MM" else "<"


def fields_of(kept: Kept) -> Directory:
    """The fields of a first directory that tell all of a value but its samples' form, in the byte order of its
    EXIF."""
    order = order_of(kept)
    fields = dict(Stream(io.BytesIO(kept.exif)).directory(8)[0]) if kept.exif else {}
    for tag, kind, data in ((PROFILE, UNDEFINED, kept.profile), (XMP, 1, kept.xmp), (IPTC, UNDEFINED, kept.iptc)):
        if data:
            fields[tag] = Field(kind, len(data), data)
    fields.update((tag, in_order(field, "<", order)) for tag, field in kept.geo)
    if kept.orientation is not None:
        fields[ORIENTATION] = Field(SHORT, 1, struct.pack(f"{order}H", kept.orientation))
    if kept.resolution is not None:
        pairs, unit = _of_units(kept.resolution)
        for tag, pair in zip((ACROSS, DOWN), pairs):
            fields[tag] = Field(RATIONAL, 1, struct.pack(f"{order}LL", *pair))
        fields[UNIT] = Field(SHORT, 1, struct.pack(f"{order}H", unit))
    return fields


def _of_units(resolution: Resolution) -> Tuple[List[Tuple[int, int]], int]:
    """Ratios and unit as TIFF has them: it has no metre."""
    pairs = [resolution.across, resolution.down]
    if resolution.unit != "metre":
        return pairs, next(unit for unit, name in UNITS.items() if name == resolution.unit)
    of_centimetre = [Fraction(*pair) / 100 for pair in pairs]
    return [(it.numerator, it.denominator) for it in of_centimetre], 3


def exif_of(kept: Kept, with_profile: bool = False) -> bytes:
    """EXIF with orientation, resolution, and whether the least sample is white, by which these are told exactly; and with
    the profile, where nothing else has it."""
    fields = fields_of(replace(kept, profile=kept.profile if with_profile else b"", xmp=b"", iptc=b"", geo=()))
    if kept.white_is_zero:
        fields[WHITE] = Field(SHORT, 1, struct.pack(f"{order_of(kept)}H", 0))
    return _stream(order_of(kept), fields)


def kept_of_exif(data: bytes) -> Tuple[Kept, List[str]]:
    """What EXIF tells, and what of it isn't in that value: the inverse of `exif_of`."""
    stream = Stream(io.BytesIO(data))
    directory, thumbnail = stream.directory(stream.first)
    kept, lost = kept_of(stream, directory)
    return kept, lost + ["EXIF's thumbnail"] * bool(thumbnail)
