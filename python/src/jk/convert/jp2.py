"""JPEG 2000 files: what is read of them, and how images are handed to jk."""
from __future__ import annotations

from dataclasses import replace
from fractions import Fraction
from typing import Any, BinaryIO, Dict, Iterator, List, Optional, Tuple

import numpy as np

from .. import _beside, _extras
from .._beside import Damaged, Kept, Resolution
from .._colour import ANY, RESTRICTED, VENDOR, Colour, colours_of
from .._opacity import channels_of, order_of
from .._types import Array
from ..encoding import encode
from ..faults import BadParameters, Fault
from ..files import extras, info, read, with_extras
from .images import Picture, Refused

#: What isn't carried of what is no ICC profile for the image's components.
IN_EXIF = "the profile outside EXIF (it is none for such an image)"
#: How a profile is carried that JP2 readers don't take.
AS_ANY = "the profile is carried as METH 3 of JPX, which readers of JP2 alone pass over and jpylyzer calls invalid"
#: The UUID of GeoJP2's box.
GEO = bytes.fromhex("b14bf8bd083d4b43a5ae8cd7d5a6ce03")
#: Colour spaces whose samples are grey or RGB.
SPACES = ("sRGB", "grey", None)


def pictures(path: str) -> Iterator[Picture]:
    """The image of a file."""
    data = np.fromfile(path, np.uint8)
    told = info(data)
    order, opacity = order_of(channels_of(data), told.components)
    colours = told.components - (opacity is not None)
    if colours not in (1, 3):
        raise Refused(f"the image has {told.components} components, and no box cdef tells what they are: jk.convert takes "
                      "grey and RGB, with an opacity or without")
    kept, lost = beside(data)
    if (told.x0, told.y0) != (0, 0):
        lost.append("place on the reference grid")
    samples = np.atleast_3d(read(data))
    if order != sorted(order):
        samples = samples[:, :, order]
    alpha = np.ascontiguousarray(samples[:, :, -1]) if opacity else None
    image = np.ascontiguousarray(samples[:, :, 0] if colours == 1 else samples[:, :, :3])
    yield Picture(image, told.depth, kept, tuple(lost), alpha=alpha, opacity=opacity or "straight")


def beside(data: Array) -> Tuple[Kept, List[str]]:
    """What a file has beside its samples, and by name what of it isn't in that value."""
    colours = colours_of(data)
    judge_colour(colours)
    try:
        found = extras(data)
    except Fault as why:
        return Kept(), [f"what stands there: {why}"]
    lost = [] if found.space in SPACES else [f"colour space {(found.space or '').partition('=')[2]}"]
    lost += _colours(colours, found)
    kept = Kept()
    if found.exif is not None:
        try:
            kept, of_exif = _beside.kept_of_exif(found.exif)
            lost += of_exif
        except Damaged:
            lost.append("EXIF that can't be read")
    inches = found.inches()
    if inches is not None and not _is_rounded(kept.resolution, inches):
        kept = replace(kept, resolution=_of_inches(inches))
    kept = replace(kept, profile=found.profile or found.any_profile or kept.profile, xmp=found.xmp or kept.xmp,
                   iptc=found.iptc or kept.iptc)
    boxes = list(found.uuids)
    geo = next((it for it in boxes if it[0] == GEO), None)
    if geo is not None:
        boxes.remove(geo)
        try:
            kept = replace(kept, geo=_beside.geo_of(geo[1]))
        except Damaged:
            lost.append("GeoJP2 that can't be read")
    others = _others(replace(found, uuids=tuple(boxes)))
    return kept, list(dict.fromkeys([*lost, *others, *_boxes(data.data)]))


def judge_colour(colours: List[Colour]) -> None:
    """Refuses samples that are neither grey nor RGB, by the colour that counts: the first one that JP2 readers take, else
    the first one."""
    space = counting(colours)[0].other_space() if colours else ""
    if space:
        raise Refused(f"the colour space is {space}: its samples are no RGB")


def counting(colours: List[Colour]) -> List[Colour]:
    """Colours, the one that counts first."""
    return sorted(colours, key=lambda it: it.method > RESTRICTED)


def _colours(colours: List[Colour], found: _extras.Extras) -> List[str]:
    """Colours beside the one that is carried, by name."""
    used, (first, *others) = found.profile or found.any_profile, counting(colours) or [Colour(1, b"")]
    lost = {ANY: "a profile of METH 3", VENDOR: "a vendor's colour (METH 4)"}
    names = [lost.get(it.method, "further colours") for it in others if it.contents != used]
    if first.method > ANY:
        names.insert(0, lost.get(first.method, f"a colour of METH {first.method}"))
    return names


def _is_rounded(exact: Optional[Resolution], found: Tuple[Fraction, Fraction]) -> bool:
    """Whether a resolution box tells what EXIF tells exactly, or the nearest to it that the box has."""
    if exact is None or exact.unit == "none":
        return False
    return [_told(value) for value in exact.per_metre()] == [inches * _extras.METRE for inches in found]


def _told(value: Fraction) -> Fraction:
    """What the box tells where it is to tell so many samples by the metre."""
    try:
        above, below, exponent = _extras.ratio(value) or _extras.nearest(value)
    except ValueError:
        return Fraction(0)
    return Fraction(above, below) * Fraction(10) ** exponent


def _of_inches(found: Tuple[Fraction, Fraction]) -> Resolution:
    across, down = found
    if max(*across.as_integer_ratio(), *down.as_integer_ratio()) < 1 << 32:
        return Resolution(across.as_integer_ratio(), down.as_integer_ratio(), "inch")
    # By the metre these are ratios of 16 bits and a power of ten.
    across, down = (it * _extras.METRE for it in found)
    return Resolution(across.as_integer_ratio(), down.as_integer_ratio(), "metre")


def _others(found: _extras.Extras) -> List[str]:
    """What is told and has no place in `Kept`, by name."""
    names = ["display resolution"] * (found.display is not None) + ["a box xml"] * bool(found.xml)
    return names + ["GeoJP2" if name == GEO else "a uuid box" for name, _ in found.uuids]


def _boxes(file: memoryview) -> List[str]:
    """Boxes that are neither part of the image nor what `extras` tells, by name."""
    if file[:2] == b"\xff\x4f":
        return []
    found = []
    for kind, _ in _extras.boxes_in(file):
        if kind not in (b"jP  ", b"ftyp", b"jp2h", b"jp2c", b"xml ", b"uuid"):
            found.append(f"a box {kind.decode('latin-1').strip()}")
    return found


def write(out: BinaryIO, picture: Picture, raw: bool, parameters: Dict[str, Any]) -> Tuple[List[str], List[str]]:
    """Writes an image; what of `kept` isn't in it, and notes."""
    samples = picture.whole()
    if samples.dtype.kind == "i" and not raw:
        raise Refused("samples are signed, and JP2 holds none: a bare codestream does (--raw, or OUT.j2k)")
    if picture.alpha is None:
        file = encode(samples, depth=picture.depth, raw=raw, **parameters)
    else:
        file = encode(samples, depth=picture.depth, opacity=picture.opacity, **parameters)
    file, left, notes = handed(file, picture, raw)
    out.write(file)
    return left, notes


def handed(file: bytes, picture: Picture, raw: bool) -> Tuple[bytes, List[str], List[str]]:
    """A file with what stands beside the samples, what of it isn't carried, of a bare codestream all, and notes."""
    kept = picture.kept.that_says()
    if raw or kept == Kept():
        return file, kept.names(), []
    try:
        return with_extras(file, extras_of(kept)), [], []
    except BadParameters:
        if not kept.profile:
            raise
    others = extras_of(replace(kept, profile=b""))
    try:
        return with_extras(file, replace(others, any_profile=kept.profile)), [], [AS_ANY]
    except BadParameters:
        # EXIF holds any profile, where no reader of JP2 looks for it.
        return with_extras(file, replace(others, exif=_beside.exif_of(kept, with_profile=True))), [IN_EXIF], []


def extras_of(kept: Kept) -> _extras.Extras:
    """What a file is to keep: ratios of any size, orientation and texts stand in EXIF, and a resolution in the box too, as
    near as that has it."""
    resolution = None
    if kept.resolution is not None and kept.resolution.unit != "none":
        told = [_told(value) for value in kept.resolution.per_metre()]
        resolution = tuple(it / _extras.METRE for it in told) if all(told) else None
    return _extras.Extras(
        profile=kept.profile or None, resolution=resolution, xmp=kept.xmp or None, iptc=kept.iptc or None,
        exif=_beside.exif_of(kept) or None, uuids=((GEO, _beside.geo_stream(kept)),) if kept.geo else (),
    )
