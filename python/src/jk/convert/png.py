"""PNG files, of all depths: Pillow reads 16 bits of RGB as 8, so samples are read and written here."""
from __future__ import annotations

import struct
import zlib
from dataclasses import replace
from typing import BinaryIO, Dict, Iterator, List, Tuple

import numpy as np

from .._beside import Damaged, Kept, Resolution, exif_of, kept_of_exif
from .._types import Array
from .images import Picture, Refused, judge_size, type_of
from .png_filters import filtered, unfiltered
from .png_text import carried, inflated

SIGNATURE = b"\x89PNG\r\n\x1a\n"
#: Samples of a pixel, by the colour type.
CHANNELS = {0: 1, 2: 3, 3: 1, 4: 2, 6: 4}
DEPTHS = {0: (1, 2, 4, 8, 16), 2: (8, 16), 3: (1, 2, 4, 8), 4: (8, 16), 6: (8, 16)}
#: The passes of an interlaced image: first column and row, and the steps.
PASSES = ((0, 0, 8, 8), (4, 0, 8, 8), (0, 4, 4, 8), (2, 0, 4, 4), (0, 2, 2, 4), (1, 0, 2, 2), (0, 1, 1, 2))
XMP = b"XML:com.adobe.xmp"
TEXTS = (b"tEXt", b"zTXt", b"iTXt")
#: So many bytes of samples are filtered at a time.
BAND = 1 << 20


def chunks(path: str) -> Iterator[Tuple[bytes, bytes]]:
    """The chunks of a file, whose sums are right, to its end."""
    with open(path, "rb") as file:
        file.read(len(SIGNATURE))
        kind = b""
        while kind != b"IEND":
            head = file.read(8)
            size = int.from_bytes(head[:4], "big")
            kind = head[4:]
            data = file.read(size + 4) if len(head) == 8 and size < 1 << 31 else b""
            if len(data) != size + 4:
                raise Refused("the file ends inside a chunk, or before IEND")
            if zlib.crc32(data[:-4], zlib.crc32(kind)) != int.from_bytes(data[-4:], "big"):
                raise Refused(f"the sum of a chunk {kind.decode('latin-1')} is wrong")
            yield kind, data[:-4]
        if file.read(1):
            raise Refused("bytes stand behind the last chunk")


class Inflated:
    """The rows of an image, as its IDAT chunks give them."""

    def __init__(self, size: int) -> None:
        self.room = np.empty(size, np.uint8)
        self.at = 0
        self.inflating = zlib.decompressobj()

    def take(self, data: bytes) -> None:
        try:
            plain = self.inflating.decompress(data, self.room.size - self.at + 1)
        except zlib.error as error:
            raise Refused(f"the samples aren't deflated as they should be: {error}") from error
        if self.at + len(plain) > self.room.size or self.inflating.unused_data:
            raise Refused("there are more samples than the image has")
        self.room[self.at : self.at + len(plain)] = np.frombuffer(plain, np.uint8)
        self.at += len(plain)

    def whole(self) -> Array:
        if self.at != self.room.size or not self.inflating.eof:
            raise Refused("there are fewer samples than the image has")
        return self.room


def pictures(path: str) -> Iterator[Picture]:
    """The image of a file."""
    found = chunks(path)
    kind, head = next(found)
    if kind != b"IHDR" or len(head) != 13:
        raise Refused("the first chunk isn't IHDR")
    width, height, depth, colour, *methods = struct.unpack(">LLBBBBB", head)
    _judge(width, height, depth, colour, methods)
    shapes = _shapes(width, height, methods[2])
    inflated = Inflated(sum(down * (1 + _row(across, depth, colour)) for across, down in shapes))
    others: List[Tuple[bytes, bytes]] = []
    palette, key = b"", b""
    for kind, data in found:
        if kind == b"IDAT":
            inflated.take(data)
        elif kind == b"PLTE" and colour == 3:
            palette = data
        elif kind == b"PLTE" and colour in (2, 6):
            # Colours that a program may show the image with, where it has few.
            others.append((kind, data))
        elif kind == b"tRNS" and colour in (0, 2, 3):
            key = data
        elif kind == b"acTL":
            raise Refused("the file is an animation of several images")
        elif kind[:1].isupper() and kind != b"IEND":
            raise Refused(f"a chunk {kind.decode('latin-1')} isn't known, and the image depends on it")
        elif kind != b"IEND":
            others.append((kind, data))
    samples = _samples(inflated.whole(), shapes, (width, height, depth, colour, methods[2]))
    kept, lost = _kept(others)
    picture = Picture(samples, depth, kept, tuple(lost))
    if colour == 3:
        yield replace(picture, palette=_palette(palette, key))
    elif colour in (4, 6):
        alpha = np.ascontiguousarray(samples[:, :, -1])
        colours = samples[:, :, 0] if colour == 4 else samples[:, :, :3]
        yield replace(picture, samples=np.ascontiguousarray(colours), alpha=alpha)
    else:
        yield _with_key(picture, key) if key else picture


def _palette(data: bytes, opacities: bytes) -> Array:
    """The colours of PLTE, with their opacities where tRNS has them."""
    count = len(data) // 3
    if not count or len(data) % 3 or len(opacities) > count:
        raise Refused("the image has a palette whose colours aren't there")
    colours = np.frombuffer(data, np.uint8).reshape(count, 3)
    if not opacities:
        return colours
    return np.column_stack([colours, np.frombuffer(opacities.ljust(count, b"\xff"), np.uint8)])


def _with_key(picture: Picture, key: bytes) -> Picture:
    """An image in which all pixels of one colour are transparent, with an opacity that says so."""
    samples = np.atleast_3d(picture.samples)
    if len(key) != 2 * samples.shape[2]:
        raise Refused(f"a chunk tRNS has {len(key)} bytes")
    colour = np.frombuffer(key, ">u2")
    greatest = (1 << picture.depth) - 1
    alpha = np.where((samples == colour).all(axis=2), 0, greatest).astype(picture.samples.dtype)
    return replace(picture, alpha=alpha, is_by_colour=True, notes=("tRNS as opacity",))


def _judge(width: int, height: int, depth: int, colour: int, methods: List[int]) -> None:
    if depth not in DEPTHS.get(colour, ()) or methods[:2] != [0, 0] or methods[2] > 1 or not width or not height:
        raise Refused("IHDR has a value that PNG doesn't allow")
    judge_size(width, height)


def _row(across: int, depth: int, colour: int) -> int:
    """Bytes of a row."""
    return (across * depth * CHANNELS[colour] + 7) // 8


def _shapes(width: int, height: int, is_interlaced: int) -> List[Tuple[int, int]]:
    """Width and height of each pass."""
    if not is_interlaced:
        return [(width, height)]
    return [(-(-(width - x) // across), -(-(height - y) // down)) if width > x and height > y else (0, 0)
            for x, y, across, down in PASSES]


def _samples(data: Array, shapes: List[Tuple[int, int]], form: Tuple[int, int, int, int, int]) -> Array:
    width, height, depth, colour, is_interlaced = form
    room = np.empty((height, width, CHANNELS[colour]), type_of(depth))
    at = 0
    for (across, down), (x, y, right, below) in zip(shapes, PASSES if is_interlaced else ((0, 0, 1, 1),)):
        if not across or not down:
            continue
        size = 1 + _row(across, depth, colour)
        rows = unfiltered(data[at : at + down * size].reshape(down, size), max(1, depth * CHANNELS[colour] // 8))
        room[y::below, x::right] = _unpacked(rows, across, depth).reshape(down, across, CHANNELS[colour])
        at += down * size
    return room[:, :, 0] if colour in (0, 3) else room


def _unpacked(rows: Array, across: int, depth: int) -> Array:
    """Rows of samples of rows of bytes."""
    if depth == 16:
        return rows.view(">u2")
    if depth == 8:
        return rows
    weights = (1 << np.arange(depth, dtype=np.uint8)[::-1]).astype(np.uint8)
    return (np.unpackbits(rows, axis=1)[:, : across * depth].reshape(len(rows), across, depth) * weights).sum(
        axis=2, dtype=np.uint8)


def _kept(others: List[Tuple[bytes, bytes]]) -> Tuple[Kept, List[str]]:
    """What chunks beside the samples tell."""
    told: Dict[str, object] = {}
    of_text: Dict[str, bytes] = {}
    lost: List[str] = []
    for kind, data in others:
        if kind == b"iCCP":
            told["profile"] = inflated(data.partition(b"\0")[2][1:], "profile")
        elif kind == b"pHYs" and len(data) == 9 and 0 not in struct.unpack(">LL", data[:8]):
            across, down, unit = struct.unpack(">LLB", data)
            told["resolution"] = Resolution((across, 1), (down, 1), "metre" if unit == 1 else "none")
        elif kind == b"eXIf":
            told["exif"] = data
        else:
            found = carried(kind, data) if kind in TEXTS else {}
            if not found or set(found) & set(of_text):
                lost.append(_name(kind, data))
            else:
                of_text.update(found)
    for name, value in of_text.items():
        if told.setdefault(name, value) != value:
            lost.append(f"a second {name} in text")
    exif = told.pop("exif", b"")
    kept = Kept(**told)  # type: ignore[arg-type]
    if kept.resolution and kept.resolution.is_without_unit():
        lost.append("resolution without a unit")
    if exif:
        kept, of_exif = _with_exif(kept, exif)  # type: ignore[arg-type]
        lost += of_exif
    return kept, list(dict.fromkeys(lost))


def _name(kind: bytes, data: bytes) -> str:
    name = kind.decode("latin-1")
    if kind in TEXTS:
        return f"{name} {data.partition(bytes(1))[0].decode('latin-1')}"
    return name


def _with_exif(kept: Kept, exif: bytes) -> Tuple[Kept, List[str]]:
    """What chunks tell with what EXIF tells: its resolution where that is the chunk's, which is rounded."""
    try:
        of_exif, lost = kept_of_exif(exif)
    except Damaged as why:
        return kept, [f"EXIF, which can't be read: {why}"]
    resolution = kept.resolution or of_exif.resolution
    if kept.resolution and of_exif.resolution:
        if _rounded(of_exif.resolution) == _rounded(kept.resolution):
            resolution = of_exif.resolution
        else:
            lost.append("resolution of EXIF, which is another than that of pHYs")
    return Kept(kept.profile or of_exif.profile, resolution, kept.xmp or of_exif.xmp, kept.iptc or of_exif.iptc,
                of_exif.exif, of_exif.orientation, of_exif.white_is_zero), lost


def _rounded(resolution: Resolution) -> Tuple[int, int, int]:
    """Resolution as pHYs has it: whole samples a metre, or the sides of a pixel."""
    if resolution.unit == "none":
        ratio, = resolution.value()
        return ratio.numerator, ratio.denominator, 0
    across, down = (round(number) for number in resolution.per_metre())
    return across, down, 1


def write(out: BinaryIO, picture: Picture) -> List[str]:
    """Writes an image; what of `kept` isn't in it."""
    samples, depth = picture.whole(), picture.depth
    if samples.dtype.kind == "i":
        raise Refused("samples are signed, and PNG holds none")
    colour = (0 if picture.samples.ndim == 2 else 2) + (0 if picture.alpha is None else 4)
    if picture.alpha is not None and (picture.opacity != "straight" or depth not in (8, 16)):
        raise Refused(f"PNG holds straight opacity of 8 and 16 bits, and this one is {picture.opacity} of {depth}")
    depth = next(it for it in DEPTHS[colour] if it >= depth)
    height, width = samples.shape[:2]
    out.write(SIGNATURE)
    _put(out, b"IHDR", struct.pack(">LLBBBBB", width, height, depth, colour, 0, 0, 0))
    left = _put_kept(out, picture.kept)
    deflating = zlib.compressobj(6)
    step = max(1, BAND // max(1, _row(width, depth, colour)))
    above = np.zeros(_row(width, depth, colour), np.uint8)
    for at in range(0, height, step):
        rows = _packed(samples[at : at + step], depth)
        _put(out, b"IDAT", deflating.compress(filtered(rows, above, max(1, depth * CHANNELS[colour] // 8))))
        above = rows[-1]
    _put(out, b"IDAT", deflating.flush())
    _put(out, b"IEND", b"")
    return left


def _put(out: BinaryIO, kind: bytes, data: bytes) -> None:
    out.write(struct.pack(">L", len(data)) + kind + data + struct.pack(">L", zlib.crc32(data, zlib.crc32(kind))))


def _packed(samples: Array, depth: int) -> Array:
    """Rows of bytes of rows of samples."""
    if depth >= 8:
        return samples.astype(">u2" if depth == 16 else np.uint8).reshape(len(samples), -1).view(np.uint8)
    bits = samples[:, :, np.newaxis] >> np.arange(depth, dtype=np.uint8)[::-1] & 1
    return np.packbits(bits.reshape(len(samples), -1), axis=1)


def _put_kept(out: BinaryIO, kept: Kept) -> List[str]:
    """Writes what stands beside the samples, the chunks that must stand before IDAT; what has no chunk."""
    if kept.profile:
        _put(out, b"iCCP", b"ICC profile\0\0" + zlib.compress(kept.profile))
    if kept.resolution and max(_rounded(kept.resolution)) < 1 << 31:
        _put(out, b"pHYs", struct.pack(">LLB", *_rounded(kept.resolution)))
    if kept.xmp:
        _put(out, b"iTXt", XMP + bytes(5) + kept.xmp)
    exif = exif_of(kept)
    if exif:
        _put(out, b"eXIf", exif)
    return ["IPTC"] * bool(kept.iptc) + ["GeoTIFF"] * bool(kept.geo)
