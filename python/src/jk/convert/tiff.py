"""TIFF and BigTIFF files: their directories are read here, and their samples by tifffile (Debian's python3-tifffile).

tifffile has no LZW, PackBits or CCITT in Debian: these go through `tiffcp -c none` of libtiff-tools."""
from __future__ import annotations

import logging
import os
import re
import subprocess
import tempfile
import threading
import zlib
from dataclasses import replace
from typing import Iterator, List, Optional, Tuple

import numpy as np
import tifffile

from .._beside import LAYOUT, Damaged, Directory, Stream, kept_of
from .._types import Array
from . import palettes, tiff_bits
from .images import Picture, Refused, type_of
from .tiff_form import COLOURS, DEFLATE, DESCRIPTION, OPACITIES, PALETTE, PHOTOMETRIC, PLAIN, SUBFILE, Form, form_of

#: So many bytes a strip or tile may have too many.
SPARE = 1 << 16
#: What tiffcp says of directories, which are read here.
HARMLESS = re.compile(r"TIFF(ReadDirectory\w*|FetchNormalTag|FetchDirectory\w*|ReadCustomDirectory): Warning|"
                      r"LZW\w+: Warning, Old-style LZW codes")


def judge_parts(path: str, form: Form) -> None:
    """Whether each strip or tile is in the file and has its samples, for which tifffile would put zeros."""
    across, down = -(-form.width // form.part[0]), -(-form.height // form.part[1])
    planes = form.samples if form.planar else 1
    wanted = across * down * planes
    if not len(form.places) == len(form.sizes) == wanted:
        raise Refused(f"it has {wanted} strips or tiles, and tells {len(form.places)} places and {len(form.sizes)} "
                      "lengths")
    row = (form.part[0] * form.bits * (1 if form.planar else form.samples) + 7) // 8
    with open(path, "rb") as file:
        end = os.fstat(file.fileno()).st_size
        for number, (place, size) in enumerate(zip(form.places, form.sizes)):
            rows = form.part[1]
            if not form.is_tiled:
                rows = min(rows, form.height - number % down * rows)
            if not place or place + size > end:
                raise Refused(f"strip or tile {number + 1} isn't in the file")
            if form.compression in DEFLATE:
                file.seek(place)
                size = _inflated_size(file.read(size), row * rows)
            if form.compression in PLAIN + DEFLATE and size < row * rows:
                raise Refused(f"strip or tile {number + 1} has {size} bytes of {row * rows}")


def _inflated_size(data: bytes, most: int) -> int:
    """So many bytes data inflate to; more than a part may have are refused, before they are inflated."""
    inflating = zlib.decompressobj()
    try:
        size = len(inflating.decompress(data, most + SPARE))
    except zlib.error as error:
        raise Refused(f"samples aren't deflated as they should be: {error}") from error
    if inflating.unconsumed_tail:
        raise Refused(f"a strip or tile inflates to more than its {most} bytes")
    if not inflating.eof:
        raise Refused("samples aren't deflated as they should be: a strip or tile is cut off")
    return size


def directories_of(path: str) -> List[Tuple[int, Form, Picture]]:
    """The images of a file but for smaller ones of the same: which one each is, its form, and an image without
    samples."""
    with open(path, "rb") as file:
        try:
            stream = Stream(file)
            directories = stream.directories()
            if not directories:
                raise Refused("the file has no image")
            _judge_stack(directories)
            smaller = [_is_smaller(stream, directory) for directory in directories]
            return [(number, form_of(stream, directory), _told(stream, directory, number, any(smaller)))
                    for number, directory in enumerate(directories) if not smaller[number]]
        except Damaged as why:
            raise Refused(str(why)) from why


def _is_smaller(stream: Stream, directory: Directory) -> bool:
    return SUBFILE in directory and bool(stream.numbers(directory[SUBFILE])[0] & 1)


def _judge_stack(directories: List[Directory]) -> None:
    """ImageJ writes one directory for many images, of which the others would be lost."""
    text = directories[0].get(DESCRIPTION)
    found = re.search(rb"^images=(\d+)", text.data, re.MULTILINE) if text and text.data else None
    if found and text and text.data and text.data.startswith(b"ImageJ=") and int(found[1]) > len(directories):
        raise Refused(f"it is a stack of ImageJ of {int(found[1])} images with {len(directories)} directories: save it "
                      "as a sequence of images")


def _told(stream: Stream, directory: Directory, number: int, has_smaller: bool) -> Picture:
    kept, lost = kept_of(stream, directory)
    palette = _palette(stream, directory)
    if palette is not None:
        lost.remove(f"tag {COLOURS}")
    if has_smaller:
        lost.append("smaller images of the same")
    return Picture(np.empty(0), 0, kept, tuple(lost), number=number, palette=palette)


def _palette(stream: Stream, directory: Directory) -> Optional[Array]:
    """The colours of an image that has a palette."""
    if PHOTOMETRIC not in directory or stream.numbers(directory[PHOTOMETRIC]) != [PALETTE]:
        return None
    words = np.array(stream.numbers(directory[COLOURS]) if COLOURS in directory else [], np.int64)
    if not words.size or words.size % 3 or int(words.max()) > 65535:
        raise Refused("the image has a palette whose colours aren't there")
    return palettes.of_tiff(words)[0]


def pictures(path: str) -> Iterator[Picture]:
    """The images of a file, but for smaller ones of the same, one after another."""
    found = directories_of(path)
    if all(form.compression in PLAIN + DEFLATE for _, form, _ in found):
        for number, form, told in found:
            judge_parts(path, form)
            yield _picture(path, number, form, told)
        return
    with tempfile.TemporaryDirectory(prefix="jk-convert-") as folder:
        for number, form, told in found:
            if not form.is_for_tiffcp:
                raise Refused("it is packed, and has 16 bits in tiles and planes, which tiffcp mixes up: unpack it by "
                              "the program that made it")
            plain = by_tiffcp(path, number, folder)
            (_, form_of_plain, _), = directories_of(plain)
            judge_parts(plain, form_of_plain)
            yield _picture(plain, 0, form_of_plain, replace(told, notes=("unpacked by tiffcp",)))


def by_tiffcp(path: str, number: int, folder: str, *words: str) -> str:
    """An image of a file as a file of its own that isn't compressed."""
    # tiffcp takes what stands behind a comma in a name for a number.
    link, plain = os.path.join(folder, "in.tif"), os.path.join(folder, "plain.tif")
    if not os.path.lexists(link):
        os.symlink(os.path.abspath(path), link)
    if os.path.exists(plain):
        os.unlink(plain)
    # The upper bits of a byte stand first then, however they lie in the file.
    line = ["tiffcp", "-c", "none", "-f", "msb2lsb", *words, f"{link},{number}", plain]
    try:
        done = subprocess.run(line, stdin=subprocess.DEVNULL, capture_output=True, text=True, errors="replace")
    except OSError as error:
        raise Refused("it is packed in a way for which tiffcp is needed, and that isn't there: `apt install "
                      f"libtiff-tools` ({error.strerror})") from error
    told = [text for text in done.stderr.splitlines() if text.strip() and not HARMLESS.match(text)]
    if done.returncode or told:
        raise Refused(f"tiffcp: {(told or ['status ' + str(done.returncode)])[0]}")
    return plain


class _Warnings(logging.Filter):
    """What tifffile has to say, in this thread, of how samples lie in a file: other tags are read here."""

    def __init__(self) -> None:
        super().__init__()
        self.thread = threading.get_ident()
        self.told: List[str] = []

    def filter(self, record: logging.LogRecord) -> bool:
        if record.thread != self.thread:
            return True
        text = record.getMessage()
        tag = re.search(r"TiffTag (\d+) ", text)
        if tag is None or int(tag[1]) in LAYOUT:
            self.told.append(text)
        return False


def _picture(path: str, number: int, form: Form, told: Picture) -> Picture:
    """An image whose samples tifffile reads, or those of other than 8 and 16 bits."""
    if form.bits in (8, 16):
        planes = _by_tifffile(path, number, form)
    else:
        with open(path, "rb") as opened:
            planes = tiff_bits.samples_of(opened, form)[:, :, np.newaxis]
    alpha, opacity, notes = None, "straight", list(told.notes)
    if form.samples > form.colours:
        alpha = np.ascontiguousarray(planes[:, :, -1])
        opacity = OPACITIES.get(form.extra or 0, "unspecified")
        notes.append(f"opacity: {opacity}")
    samples = np.ascontiguousarray(planes[:, :, 0] if form.colours == 1 else planes[:, :, :3])
    return replace(told, samples=samples, depth=form.bits, alpha=alpha, opacity=opacity, notes=tuple(notes))


def _by_tifffile(path: str, number: int, form: Form) -> Array:
    """Samples (height, width, samples of a pixel) of 8 and 16 bits."""
    warnings = _Warnings()
    logger = logging.getLogger("tifffile")
    logger.addFilter(warnings)
    try:
        with tifffile.TiffFile(path) as file:
            samples = file.pages[number].asarray(squeeze=False, maxworkers=1)
    except (OSError, MemoryError):
        raise
    except Exception as why:
        raise Refused(f"tifffile can't read it: {type(why).__name__}: {why}") from why
    finally:
        logger.removeFilter(warnings)
    shape = (form.samples, 1, form.height, form.width, 1) if form.planar and form.samples > 1 else \
        (1, 1, form.height, form.width, form.samples)
    if samples.shape != shape or warnings.told:
        raise Refused(f"tifffile reads it otherwise: {(warnings.told or [str(samples.shape)])[0]}")
    planes = samples[:, 0, :, :, 0].transpose(1, 2, 0) if shape[0] > 1 else samples[0, 0]
    return planes.astype(type_of(form.bits, form.signed), copy=False)
