"""One file: read, written, read back from the disk and compared, and read a second time."""
from __future__ import annotations

import hashlib
import os
import time
from dataclasses import dataclass, field, replace
from typing import Any, BinaryIO, Callable, Dict, Iterator, List, Tuple, Union

import numpy as np

from .._types import Array
from ..faults import Fault
from . import jp2, png, pnm, tiff, tiff_writing
from .again import agreed
from .images import Picture, Refused, judge_file, kind_of, spread, unchanged
from .into import Adding
from .palettes import expanded
from .placing import Placing, digest_of
from .rows import Row

READERS: Dict[str, Callable[[str], Iterator[Picture]]] = {
    "tiff": tiff.pictures, "png": png.pictures, "pnm": pnm.pictures, "jp2": jp2.pictures,
}
#: What a row says where no second reader reads a file.
ALONE = "read by one reader alone"
#: What isn't carried where it isn't asked for.
GEO_LEFT = "GeoTIFF (--geo carries it)"
WRITERS: Dict[str, Callable[[BinaryIO, Picture], List[str]]] = {
    "tiff": tiff_writing.write, "png": png.write, "pnm": pnm.write,
}


@dataclass(frozen=True)
class Asked:
    """How files are converted."""

    #: What is written: tiff, png, pnm or jp2.
    to: str = "jp2"
    #: Whether a file is refused of which something isn't carried.
    strict: bool = False
    raw: bool = False
    #: Whether it is carried where an image stands on the Earth.
    geo: bool = False
    #: What is written of an image with a palette: rgb, its colours; nothing where it is refused.
    palette: str = ""
    #: The parameters of `jk.encode`.
    parameters: Dict[str, Any] = field(default_factory=dict)
    #: An archive that files are added to, by a program `jk`.
    into: str = ""
    program: str = "jk"


@dataclass(frozen=True)
class Job:
    """A file to convert."""

    name: str
    source: str
    #: Where OUT goes, without its ending.
    stem: str
    #: The ending of OUT; nothing where it follows from the image.
    ending: str
    #: The folder from which the table counts.
    base: str
    asked: Asked
    #: The rows that stand of it.
    rows: Tuple[Row, ...] = ()


@dataclass(frozen=True)
class Done:
    """What became of a file."""

    job: Job
    rows: Tuple[Row, ...] = ()
    refused: str = ""
    #: Whether it had been converted before.
    is_passed: bool = False


def done(job: Job) -> Done:
    """Converts a file, or tells why it isn't."""
    try:
        judge_file(job.source)
        if job.rows and stands(job):
            return Done(job, job.rows, is_passed=True)
        return Done(job, tuple(converted(job)))
    except (Fault, Refused, OSError, MemoryError) as why:
        return Done(job, refused=str(why) or type(why).__name__)


def stands(job: Job) -> bool:
    """Whether all that its rows tell is so."""
    for row in job.rows:
        out = os.path.join(job.base, row.out)
        if os.path.getsize(job.source) != row.size or not os.path.isfile(out) or digest_of(out) != row.sha256_of_out:
            return False
    return True


def converted(job: Job) -> List[Row]:
    """Converts a file. Its rows are to be written when its files are in their places, as they are then."""
    begun, asked = time.monotonic(), job.asked
    made: List[Tuple[str, Dict[str, str]]] = []
    places: Union[Placing, Adding] = Adding(asked.into, asked.program, asked.parameters) if asked.into else Placing()
    with places as placing:
        with unchanged(job.source):
            size, kind = os.path.getsize(job.source), kind_of(job.source)
            judge_kinds(kind, asked.to)
            count = len(tiff.directories_of(job.source)) if kind == "tiff" else 1
            for number, picture in enumerate(READERS[kind](job.source), 1):
                if picture.kept.geo and not asked.geo:
                    picture = replace(picture, kept=replace(picture.kept, geo=()), lost=(*picture.lost, GEO_LEFT))
                reader = agreed(job.source, kind, picture)
                picture = spread(expanded(picture, asked.palette), asked.to)
                picture = replace(picture, notes=(*picture.notes, f"read again by {reader}" if reader else ALONE))
                stem = f"{job.stem}-{number:04}" if count > 1 else job.stem
                parts = [picture] if holds_opacity(job, picture) else picture.apart()
                made += [written(job, stem + ending, part, placing) for ending, part in zip(("", "-alpha"), parts)]
        placing.place()
    seconds = f"{time.monotonic() - begun:.3f}"
    return [Row(job.name, size, out=os.path.relpath(out, job.base), part=f"{number}/{len(made)}", seconds=seconds,
                sha256_of_out=digest_of(out), **told)
            for number, (out, told) in enumerate(made, 1)]


def judge_kinds(kind: str, to: str) -> None:
    """Either what is read or what is written is JPEG 2000."""
    if kind == to == "jp2":
        raise Refused("it is JPEG 2000 already")
    if "jp2" not in (kind, to):
        raise Refused(f"it is no JPEG 2000 file, of which {to} is made")


def ending_of(job: Job, picture: Picture) -> str:
    """The ending of OUT, which may be told and must fit then."""
    is_grey, is_raw = picture.samples.ndim == 2, job.asked.raw or picture.samples.dtype.kind == "i"
    due = {"tiff": ".tif", "png": ".png", "pnm": ".pgm" if is_grey else ".ppm", "jp2": ".j2k" if is_raw else ".jp2"}
    if job.ending.lower() in (".pgm", ".ppm") and job.ending.lower() != due["pnm"]:
        raise Refused(f"OUT ends with {job.ending}, and the image is {'grey' if is_grey else 'RGB'}")
    return job.ending or due[job.asked.to]


def holds_opacity(job: Job, picture: Picture) -> bool:
    """Whether an image and its opacity go to one file: else to two, as PGM and PPM files and bare codestreams."""
    is_bare = job.asked.raw or job.ending.lower() in (".j2k", ".j2c", ".jpc") or picture.samples.dtype.kind == "i"
    return job.asked.to != "pnm" and not job.asked.into and not is_bare


def written(
    job: Job, stem: str, picture: Picture, placing: Union[Placing, Adding]
) -> Tuple[str, Dict[str, str]]:
    """Writes an image beside its place and reads it back; where it goes, and what its row tells."""
    notes = list(picture.notes)
    out, kind = stem + ending_of(job, picture), "pnm" if job.asked.into else job.asked.to
    if job.asked.into and picture.samples.dtype.kind == "i":
        raise Refused("samples are signed, and an archive holds none")
    with placing.part(out) as (path, file):
        if kind == "jp2":
            left, of_writing = jp2.write(file, picture, not out.lower().endswith(".jp2"), job.asked.parameters)
            notes = notes + of_writing
        else:
            left = WRITERS[kind](file, picture)
    lost = [*picture.lost, *left]
    if lost and job.asked.strict:
        raise Refused(f"not carried: {', '.join(lost)}")
    notes = notes + read_back(path, kind, picture, out) + [f"not carried: {', '.join(lost)}"] * bool(lost)
    carried = ", ".join(name for name in picture.kept.names() if name not in left)
    return out, {"image": image_of(picture), "sha256_of_samples": digest_of_samples(picture.whole()),
                 "carried": carried, "notes": "; ".join(notes)}


def read_back(path: str, kind: str, picture: Picture, out: str) -> List[str]:
    """Compares what stands on the disk, and is to go to OUT, with an image; notes."""
    back, = READERS[kind](path)
    ours, theirs = picture.whole(), back.whole()
    if ours.dtype != theirs.dtype or not np.array_equal(ours, theirs):
        raise Refused("what was written reads back with other samples")
    if picture.alpha is not None and back.opacity != picture.opacity:
        raise Refused("what was written reads back with another kind of opacity")
    # PNG has no place for IPTC and GeoTIFF, and PGM, PPM and a bare codestream for nothing.
    due = replace(picture.kept, iptc=b"", geo=()) if kind == "png" else picture.kept
    has_place = kind in ("tiff", "png") or kind == "jp2" and out.lower().endswith(".jp2")
    if has_place and not back.kept.that_says().tells_the_same(due.that_says()):
        raise Refused("what was written reads back with other things beside the samples")
    agreed(path, kind, back)
    if back.depth == picture.depth:
        return []
    return [f"samples of {picture.depth} bits stand in {back.depth}, as they are"]


def image_of(picture: Picture) -> str:
    """Width, height, components and bits of a sample."""
    height, width, *components = picture.whole().shape
    return f"{width} {height} {(components or [1])[0]} {picture.depth}"


def digest_of_samples(samples: Array) -> str:
    """SHA-256 of samples, as a row tells it."""
    little = samples.astype(samples.dtype.newbyteorder("<"), copy=False)
    return hashlib.sha256(np.ascontiguousarray(little).data).hexdigest()
