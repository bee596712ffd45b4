"""JPEG 2000 for Pillow (Debian's python3-pil, 9.4): `Image.open` and `save` by jk.

>>> import jk.pillow
>>> jk.pillow.register()
>>> Image.open("page.jp2").save("again.j2k", quality_layers=[40, 20, 10])

Pillow's own plugin decodes what is damaged or isn't lossless without a word, and makes 16 bits of RGB 8. So after
`register` the format "JPEG2000" is jk's. What jk rejects, or what Pillow has no mode for, is an exception and no other
decoder's image; `Image.open(path, formats=["OPENJPEG"])` asks Pillow's own decoder. Errors are both those of jk and
OSError, as Pillow's callers wait for.
"""
from __future__ import annotations

import os
import warnings
from fractions import Fraction
from typing import IO, Any, Dict, Optional, Type, Union

import numpy as np

from ._needs import raise_told
from . import _pillow_options
from ._colour import colours_of
from ._extras import METRE, Extras, nearest, ratio
from ._types import Array
from .encoding import encode
from .faults import BadBox, BadParameters, Fault, Truncated, Unsupported, of_number
from .files import Info, extras, info, read, with_extras

try:
    from PIL import Image, ImageFile, Jpeg2KImagePlugin, UnidentifiedImageError
except ImportError as error:
    raise_told(__name__, error)

FORMAT = "JPEG2000"
#: Another name of this format, and the name of Pillow's own.
OTHER_NAME, OWN = "JK", "OPENJPEG"
BEGINNINGS = (b"\0\0\0\x0cjP  \r\n\x87\n", b"\xff\x4f\xff\x51")
#: The endings of what `save` writes, and whether that is a bare codestream.
ENDINGS = {".jp2": False, ".j2k": True, ".j2c": True, ".jpc": True, ".jpf": False, ".jpx": False}
#: Pillow's type of an element, by the mode.
MODES = {"L": "uint8", "RGB": "uint8", "I;16": "uint16", "LA": "uint8", "La": "uint8", "RGBA": "uint8", "RGBa": "uint8"}
#: Modes of 2 and 4 components, and what kind of opacity their last one is.
OF_OPACITY = {"LA": "straight", "RGBA": "straight", "La": "premultiplied", "RGBa": "premultiplied"}
PARAMETERS = ("depth", "levels", "layers", "order", "tile", "block", "precincts", "colour", "sop", "eph", "reset",
              "causal", "segments", "raw", "place", "opacity")
#: What stands beside the samples, as `save` takes it, and in `info` of an image; what `Extras` calls it; and what it is.
BESIDE = {"icc_profile": ("profile", "profile"), "dpi": ("resolution", "resolution"), "xmp": ("xmp", "XMP"),
          "exif": ("exif", "EXIF")}


class NoMode(UnidentifiedImageError, ValueError):
    """An image that Pillow has no mode for, or a mode that isn't written."""


#: Faults that are also what Pillow's callers wait for, by the fault.
_AS_PILLOWS: Dict[Type[Fault], Type[Fault]] = {}


def _of_number(number: int, cause: str) -> Fault:
    return as_pillows(of_number(number, cause))


def as_pillows(fault: Fault) -> Fault:
    """A fault that is an OSError too, since Pillow's callers wait for one."""
    kind = type(fault)
    if kind not in _AS_PILLOWS:
        def reduced(self: Fault) -> Any:
            return _of_number, (self.number, self.told)

        fields = {"__module__": kind.__module__, "__reduce__": reduced}
        _AS_PILLOWS[kind] = type(kind.__name__, (kind, UnidentifiedImageError), fields)
    return _AS_PILLOWS[kind](fault.told)


def mode_of(told: Info, space: str = "") -> str:
    """The mode that holds each sample as it is; signed samples are shifted to begin at 0, as Pillow's own plugin does."""
    if told.components == 3 and told.depth <= 8 and space in ("", "sYCC"):
        # Pillow's YCbCr is that of sYCC.
        return "YCbCr" if space else "RGB"
    if told.components == 1 and not space:
        return "L" if told.depth <= 8 else "I;16"
    if not told.signed and told.depth == 8 and told.components in (2, 4) and not space:
        # Colours that are multiplied by their opacity have modes of their own.
        kind = "premultiplied" if told.opacity == "premultiplied" else "straight"
        return next(mode for mode, it in OF_OPACITY.items() if it == kind and len(mode) == told.components)
    of_space = f" of {space}" if space else ""
    raise NoMode(f"Pillow has no mode for {told.components} components{of_space} of {told.depth} bits: jk.read gives them")


class File(ImageFile.ImageFile):
    """A JPEG 2000 file; `info["depth"]` tells the bits of a sample, `info["signed"]` that samples are signed and were
    shifted, and `icc_profile`, `dpi`, `xmp` and `exif` what it keeps beside them."""

    format = FORMAT
    format_description = "lossless JPEG 2000 by jk"
    data: Any = None
    #: What jk rejects of an image that others may read; raised when it is loaded.
    fault: Optional[Fault] = None
    _reduce = 0
    #: Taken as Pillow's own plugin has it; all layers are decoded.
    layers = 0

    def _open(self) -> None:
        self.data = self.fp.read()
        if self.data[20:24] == b"jpx ":
            self.custom_mimetype = "image/jpx"
        try:
            told = info(self.data)
            counting = sorted(colours_of(self.data), key=lambda it: it.method > 2)
            mode = mode_of(told, counting[0].other_space() if counting else "")
        except Unsupported as fault:
            self._open_as_it_says(fault)
            return
        except Fault as fault:
            raise as_pillows(fault) from None
        self._take(mode, (told.width, told.height))
        self.info["depth"] = told.depth
        if told.signed:
            self.info["signed"] = True
        self.info.update(beside(self.data))

    def _take(self, mode: str, size: Any) -> None:
        # Newer versions of Pillow have a property `mode`.
        setattr(self, "_mode" if isinstance(getattr(type(self), "mode", None), property) else "mode", mode)
        self._size = size
        # Nothing is left for Pillow's own decoders, nor for its parser.
        self.tile = []

    def _open_as_it_says(self, fault: Fault) -> None:
        """Mode and size of an image that jk doesn't decode, by its headers, so that it can be looked at and not loaded."""
        self.fp.seek(0)
        try:
            other = Jpeg2KImagePlugin.Jpeg2KImageFile(self.fp)
        except (SyntaxError, OSError, IndexError, TypeError, ValueError):
            raise as_pillows(fault) from None
        self.fault = fault
        self._take(other.mode, other.size)

    @property
    def reduce(self) -> Any:
        """So often the image is halved when it is loaded, or Pillow's call where that isn't set."""
        return self._reduce or super().reduce

    @reduce.setter
    def reduce(self, value: int) -> None:
        self._reduce = value

    def load(self) -> Any:
        if self.fault is not None:
            raise as_pillows(self.fault)
        if self.data is not None:
            try:
                samples = read(self.data, reduce=self._reduce)
            except Fault as fault:
                raise as_pillows(fault) from None
            if samples.dtype.kind == "i":
                shift = 1 << (self.info["depth"] - 1)
                samples = (samples.astype(np.int32) + shift).astype(f"u{samples.dtype.itemsize}")
            self.im = Image.fromarray(samples, self.mode).im
            self._size = self.im.size
            self.data = None
            if self._exclusive_fp and self._close_exclusive_fp_after_loading:
                self.fp.close()
            self.fp = None
        return Image.Image.load(self)


def beside(data: bytes) -> Dict[str, Any]:
    """What a file keeps beside the samples, as Pillow has it in `info`; nothing where a value of it can't be read. Where its
    boxes are broken, so is the file."""
    try:
        found = extras(data)
    except (BadBox, Truncated) as why:
        raise as_pillows(why) from None
    except Fault as why:
        warnings.warn(f"what stands beside the samples can't be read: {why}", stacklevel=4)
        return {}
    told: Dict[str, Any] = {"icc_profile": found.profile or found.any_profile, "xmp": found.xmp}
    inches = found.inches()
    if inches is not None:
        told["dpi"] = tuple(float(it) for it in inches)
    if found.exif is not None:
        told["exif"] = b"Exif\0\0" + found.exif
    return {name: value for name, value in told.items() if value is not None}


def _value(option: str, told: Any) -> Any:
    """What `Extras` takes for what Pillow has. A resolution is a number of samples by the inch, or the nearest to it that
    JP2 holds."""
    if option == "exif":
        return told.tobytes() if isinstance(told, Image.Exif) else bytes(told)
    if option != "dpi":
        return bytes(told)
    found = []
    for number in told if isinstance(told, (tuple, list)) else (told, told):
        value = Fraction(number) * METRE
        if value <= 0:
            raise ValueError(f"dpi: {number} samples by the inch")
        above, below, exponent = ratio(value) or nearest(value)
        found.append(Fraction(above, below) * Fraction(10) ** exponent / METRE)
    return tuple(found)


def _warn(what: str, why: object) -> None:
    warnings.warn(f"the {what} of the image isn't carried: {why}", stacklevel=5)


def _given(file: bytes, asked: Dict[str, Any], image: Image.Image) -> bytes:
    """A JP2 file with what is asked for beside the samples, and with what the image has otherwise. What can't be carried of
    the first raises, and is warned of of the second."""
    for option, (name, what) in BESIDE.items():
        told, is_asked = asked.get(option), bool(asked.get(option))
        if option not in asked:
            told = image.info.get(option)
        if not told:
            continue
        try:
            file = _with(file, name, _value(option, told))
        except (BadParameters, ValueError, TypeError) as why:
            if is_asked:
                raise ValueError(f"{option}: the {what} isn't carried: {why}") from why
            _warn(what, why)
    return file


def _with(file: bytes, name: str, value: Any) -> bytes:
    """A file with a field of `Extras`; a profile that JP2 doesn't take stands as METH 3."""
    try:
        return with_extras(file, Extras(**{name: value}))
    except BadParameters:
        if name != "profile":
            raise
        return with_extras(file, Extras(any_profile=value))


def save(image: Image.Image, out: IO[bytes], name: Union[str, bytes]) -> None:
    """Writes an image by the parameters of `jk.encode` or the options of Pillow's own plugin, which `Image.save` passes on,
    and `icc_profile`, `dpi`, `xmp` and `exif`, which are those of `info` where none is named. The depth is that of `info`
    where samples of that depth were read and none is named. What is lossy raises, and so does what is named and can't be
    carried. `quality_layers` gives the number of layers; the last one has all of the image."""
    asked: Dict[str, Any] = dict(getattr(image, "encoderinfo", {}))
    given = {option: asked.pop(option) for option in BESIDE if option in asked}
    asked = _pillow_options.taken(asked, image.size)
    is_signed = asked.pop("signed", False)
    for option in asked:
        if option not in PARAMETERS:
            raise TypeError(f"{option}: jk has no such parameter")
    if image.mode not in MODES:
        raise NoMode(f"mode {image.mode} isn't written: {', '.join(MODES)} are, and jk.encode takes more kinds of "
                     "arrays")
    # Of a stream without a name Pillow gives an empty one.
    ending = os.path.splitext(os.fsdecode(name or ""))[1].lower()
    asked["raw"] = bool(asked.get("raw")) or ENDINGS.get(ending, False)
    if image.mode in OF_OPACITY and not asked["raw"]:
        asked.setdefault("opacity", OF_OPACITY[image.mode])
    if image.mode in ("L", "I;16"):
        asked.pop("colour", None)
    samples = np.asarray(image)
    asked.setdefault("depth", depth_for(samples, image))
    if is_signed:
        samples, asked["raw"] = _signed(samples, asked["depth"]), True
    out.write(_given(encode(samples, **asked), given, image))


def _signed(samples: Array, depth: int) -> Array:
    """The same numbers as signed samples."""
    if int(samples.max(initial=0)) >= 1 << (depth - 1):
        raise ValueError(f"signed: samples of {depth} bits are at most {(1 << (depth - 1)) - 1}")
    return samples.astype(f"i{samples.dtype.itemsize}")


def depth_for(samples: Array, image: Image.Image) -> int:
    """The depth that was told of an image if its samples fit into it, and else that of its mode."""
    whole = 8 * samples.dtype.itemsize
    told = image.info.get("depth")
    if told in range(whole - 7, whole + 1) and int(samples.max(initial=0)) < 1 << told:
        return told
    return whole


def accept(beginning: bytes) -> bool:
    """Whether a file begins as JPEG 2000 does."""
    return beginning.startswith(BEGINNINGS)


def register() -> None:
    """Makes jk what opens and saves the format "JPEG2000", before any other that Pillow asks. Pillow's own decoder is asked
    by the name "OPENJPEG" alone."""
    # Pillow's own plugin would take the endings back when it is loaded later.
    Image.init()
    if Image.OPEN[FORMAT][0] is not File:
        Image.OPEN[OWN] = Image.OPEN[FORMAT]
    for name in (OTHER_NAME, FORMAT):
        Image.OPEN[name] = File, accept
        Image.register_save(name, save)
    Image.ID[:] = [FORMAT, *(it for it in Image.ID if it not in (FORMAT, OTHER_NAME, OWN))]
    Image.register_extensions(FORMAT, list(ENDINGS))
    Image.register_mime(FORMAT, "image/jp2")
