"""How the samples of a TIFF image lie in its file, by the fields of its directory, judged one by one."""
from __future__ import annotations

from dataclasses import dataclass
from typing import Optional, Tuple

from .._beside import Directory, Stream
from .images import Refused, judge_size

WIDTH, HEIGHT, BITS, COMPRESSION, PHOTOMETRIC, SAMPLES, ROWS = 256, 257, 258, 259, 262, 277, 278
PLANAR, PREDICTOR, TILE_WIDTH, TILE_HEIGHT, EXTRA, FORMAT, SUBFILE = 284, 317, 322, 323, 338, 339, 254
STRIPS, STRIP_SIZES, TILES, TILE_SIZES, DEPTH, DESCRIPTION = 273, 279, 324, 325, 32997, 270
PLAIN, DEFLATE = (1,), (8, 32946)
#: What tiffcp unpacks: CCITT, LZW, PackBits.
BY_TIFFCP = (2, 3, 4, 5, 32773)
COMPRESSIONS = {6: "JPEG", 7: "JPEG", 34712: "JPEG 2000", 34925: "LZMA", 50000: "Zstandard", 50001: "WebP"}
FILL_ORDER, COLOURS = 266, 320
WHITE_IS_ZERO, BLACK_IS_ZERO, RGB, PALETTE = range(4)
#: Kinds of opacity, by ExtraSamples.
OPACITIES = {0: "unspecified", 1: "premultiplied", 2: "straight"}
WAY_OUT = "ImageMagick's `convert IN.tif {} OUT.tif` makes RGB of it, with {}"
OF_COLOUR = "the image is {}, and jk.convert takes grey and RGB: " + WAY_OUT.format("-colorspace sRGB", "other samples")
#: Why samples of other photometric interpretations aren't taken.
OTHERS = {
    4: "the image is a mask of another one",
    5: OF_COLOUR.format("CMYK"), 6: OF_COLOUR.format("YCbCr"),
    **dict.fromkeys((8, 9, 10), OF_COLOUR.format("Lab")),
}


@dataclass(frozen=True)
class Form:
    """How the samples of an image lie in its file."""

    width: int
    height: int
    bits: int
    samples: int
    signed: bool
    photometric: int
    compression: int
    planar: bool
    #: Width and height of a tile, or of a strip.
    part: Tuple[int, int]
    is_tiled: bool
    places: Tuple[int, ...]
    sizes: Tuple[int, ...]
    #: What the samples behind grey or RGB are; None where there is none.
    extra: Optional[int]
    #: Whether the lower bits of a byte stand first.
    is_turned: bool = False

    @property
    def colours(self) -> int:
        return 3 if self.photometric == RGB else 1

    @property
    def is_for_tiffcp(self) -> bool:
        """Whether tiffcp gives its samples: those of tiles in planes it mixes up where they have more than 8 bits."""
        return not (self.planar and self.is_tiled and self.samples > 1 and self.bits > 8)


def form_of(stream: Stream, directory: Directory) -> Form:
    """The fields that tell of the samples, judged one by one."""
    def numbers(tag: int, default: Tuple[int, ...] = ()) -> Tuple[int, ...]:
        return tuple(stream.numbers(directory[tag])) if tag in directory else default

    def one(tag: int, default: Optional[int] = None) -> int:
        found = numbers(tag, () if default is None else (default,))
        if not found or len(set(found)) > 1:
            raise Refused(f"tag {tag} isn't one number" if found else f"tag {tag} isn't there")
        return found[0]

    width, height, photometric = one(WIDTH), one(HEIGHT), one(PHOTOMETRIC)
    if photometric not in (WHITE_IS_ZERO, BLACK_IS_ZERO, RGB, PALETTE):
        raise Refused(OTHERS.get(photometric, f"the photometric interpretation is {photometric}; "
                                              "jk.convert takes grey and RGB"))
    is_tiled = TILES in directory or TILE_WIDTH in directory
    rows = min(one(ROWS, 0xFFFFFFFF), height)
    places, sizes = (TILES, TILE_SIZES) if is_tiled else (STRIPS, STRIP_SIZES)
    form = Form(
        width=width, height=height, bits=one(BITS, 1), samples=one(SAMPLES, 1), signed=one(FORMAT, 1) == 2,
        photometric=photometric, compression=one(COMPRESSION, 1), planar=one(PLANAR, 1) == 2,
        part=(one(TILE_WIDTH), one(TILE_HEIGHT)) if is_tiled else (width, rows),
        is_tiled=is_tiled, places=numbers(places), sizes=numbers(sizes), extra=(numbers(EXTRA) or (None,))[0],
        is_turned=one(FILL_ORDER, 1) == 2,
    )
    _judge(form, one(FORMAT, 1), one(DEPTH, 1), one(PREDICTOR, 1))
    return form


def _judge(form: Form, sample_format: int, depth: int, predictor: int) -> None:
    if sample_format not in (1, 2, 4):
        kind = {3: "floating-point numbers", 5: "complex", 6: "complex"}.get(sample_format, f"format {sample_format}")
        raise Refused(f"samples are {kind}, which JPEG 2000 of this kind hasn't: scale them to whole numbers first, or "
                      "keep the TIFF")
    is_alone = form.samples == 1 and not form.signed
    if form.bits not in (8, 16) and not (is_alone and 1 <= form.bits <= 15 and predictor == 1):
        raise Refused(f"samples have {form.bits} bits; jk.convert takes 8 and 16, and 1 to 16 of grey and palettes")
    if form.photometric == PALETTE and (form.signed or form.bits > 8):
        raise Refused(f"the image has a palette, and signed samples or {form.bits} bits")
    if form.samples - form.colours not in (0, 1):
        raise Refused(f"a pixel has {form.samples} samples, of which {form.colours} are its colour; jk.convert takes "
                      "one more at most")
    if form.compression not in PLAIN + DEFLATE + BY_TIFFCP:
        name = COMPRESSIONS.get(form.compression, f"scheme {form.compression}")
        raise Refused(f"it is compressed by {name}, which jk.convert doesn't read; of a lossy scheme the samples "
                      "depend on the decoder")
    if 0 in (form.width, form.height, *form.part) or depth != 1 or predictor not in (1, 2):
        raise Refused("it has no sample, or a depth of its own, or an unknown predictor")
    judge_size(form.width, form.height)
