"""The IIIF Image API 3 for an archive of `jk serve`, as a WSGI application.

It has level 2 of the API, and in addition mirroring, upscaling by `^`, bitonal, and webp. For each request it fetches the
file of one region at the next larger reduction, decodes that alone or with its neighbours, which are kept, and scales,
turns and writes it by Pillow (Debian's python3-pil).

    waitress-serve --listen 127.0.0.1:8182 --call jk.iiif:from_environment       # JK_ARCHIVE=http://127.0.0.1:8080
    gunicorn --threads 4 'jk.iiif:Application("http://127.0.0.1:8080")'

JK_IIIF_CACHE is how many megabytes of decoded samples and of answers a process keeps (64), and JK_IIIF_MAX_AGE for how many
seconds a browser or proxy may keep an answer (600).

Samples of other depths than 8 bits are scaled to 8 bits. An image must be at (0, 0) of the reference grid, where `jk add`
puts it.
"""
from __future__ import annotations

import itertools
import json
import os
import random
from dataclasses import dataclass, replace
from functools import partial
from hashlib import blake2b
from typing import Any, Callable, Dict, Iterable, Iterator, List, Optional, Tuple
from urllib.parse import quote, unquote

from ._iiif_picture import FORMATS, WRITER, eight_bits, halved, reduction, written
from ._iiif_request import Asked, Refused, asked_of, size_of
from ._pieces import Box, Named, Pieces
from ._types import Array
from .archive import Archive, Listed
from .faults import BadWindow, Fault, NoSuchImage
from .files import info, read

CONTEXT = "http://iiif.io/api/image/3/context.json"
LEVEL = "level2"
PROFILE = f"http://iiif.io/api/image/3/{LEVEL}.json"
#: What is served in addition to level 2.
FEATURES = ["canonicalLinkHeader", "mirroring", "profileLinkHeader", "sizeUpscaling"]
METHODS = "GET, HEAD, OPTIONS"
LINKED = "application/ld+json"
#: How many bytes of samples and answers are kept, and the side of the pieces that are decoded, unless a tile is larger.
CACHE, PIECE = 64_000_000, 1024
#: Formats whose files are much smaller than the samples: the neighbours of a tile are written with it.
SMALL_FORMATS = ("jpg", "webp")
#: For how many seconds others may keep an answer.
MAX_AGE = 600
#: The side of the part of the lowest resolution that tells an image from another.
STAMP_SIDE = 512
#: How often a request is begun again where the image changes meanwhile.
TRIES = 3

Headers = List[Tuple[str, str]]
Reply = Tuple[str, Headers, bytes]


@dataclass(frozen=True)
class Seen:
    """An image as the server has it at a moment, and a digest that another image under its name doesn't have."""

    image: Listed
    stamp: bytes


class Changed(Exception):
    """The name of an image means another one by now."""


@dataclass(frozen=True)
class Reduced:
    """An image at a reduction, out of which regions are decoded."""

    application: "Application"
    seen: Seen
    reduce: int

    @property
    def image(self) -> Named:
        return self.seen.image.name, self.seen.stamp

    @property
    def size(self) -> Tuple[int, int]:
        image, step = self.seen.image, 1 << self.reduce
        return -(-image.width // step), -(-image.height // step)

    def file(self, box: Box) -> bytes:
        """The file of a region, of this image and no other one. Changed: the name means another one."""
        name, (left, upper, right, lower) = self.seen.image.name, box
        fault: Optional[Fault] = None
        try:
            file = self.application.archive.cut(name, left, upper, right - left, lower - upper, self.reduce)
        except Fault as error:
            fault = error
        if self.application.look(name) != self.seen:
            raise Changed(name)
        if fault is not None:
            self.application.forget(name)
            raise fault
        return file

    def decoded(self, file: bytes, box: Box) -> Array:
        """The samples of a region out of its file, as bytes."""
        left, upper, right, lower = box
        samples = read(file, reduce=self.reduce, window=(left, upper, right - left, lower - upper))
        return eight_bits(samples, self.seen.image.depth)


class Application:
    """A WSGI application that answers for the archive at an address. `prefix` is the path that its images are under, `most`
    the most pixels of a side, `tile` the side of a tile that `info.json` proposes, `cache` the most bytes of decoded samples
    and of answers that are kept, and `max_age` for how many seconds others may keep an answer."""

    def __init__(self, url: str, prefix: str = "", most: int = 8192, tile: int = 512, cache: int = CACHE,
                 max_age: int = MAX_AGE) -> None:
        self.archive = Archive(url)
        self.prefix, self.most, self.tile, self.max_age = prefix, most, tile, max_age
        self.pieces = Pieces(cache, tile * max(1, PIECE // tile))
        self.known: Dict[str, Seen] = {}
        # jk serve keeps the windows that it was asked for last, by their numbers: another number of layers, past those that
        # an image has, is answered from the file anew.
        self.layers = itertools.count(random.randrange(1 << 20, 1 << 30))

    def look(self, name: str) -> Seen:
        """The image of a name as the server has it now. What was kept of another one under this name is dropped."""
        known = self.known.get(name)
        for _ in range(TRIES):
            listed = known.image if known else self._listed(name)
            now = None
            try:
                now = self._stamped(listed)
            except (BadWindow, NoSuchImage):
                # Another image has the name, or none.
                pass
            except BaseException:
                self.forget(name)
                raise
            if known is not None and now == known:
                return known
            self.forget(name)
            if now is not None and now.image.levels == listed.levels:
                self.known[name] = now
                return now
            known = None
        raise Refused("503 Service Unavailable", f"the image {name!r} changes")

    def forget(self, name: str) -> None:
        """Drops what is known and kept of the images of a name."""
        self.known.pop(name, None)
        self.pieces.forget(name)

    def _listed(self, name: str) -> Listed:
        for image in self.archive.images():
            if image.name == name:
                return image
        self.forget(name)
        raise Refused("404 Not Found", f"{name!r} isn't listed")

    def _stamped(self, listed: Listed) -> Seen:
        """What the server has under the name, by the middle of its lowest resolution, which it reads from the file."""
        step, side = 1 << listed.levels, STAMP_SIDE
        x, y = (max(0, (-(-length // step) - side) // 2) for length in (listed.width, listed.height))
        place = f"x={x}&y={y}&w={side}&h={side}&r={listed.levels}&layers={next(self.layers)}"
        file = self.archive.get(f"/images/{listed.name}/window?{place}")
        told = info(file)
        image = Listed(listed.name, told.width, told.height, told.components, told.depth, told.levels)
        return Seen(image, blake2b(file, digest_size=32).digest())

    def info(self, base: str, image: Listed) -> Dict[str, Any]:
        """What `info.json` has."""
        reduced = range(image.levels + 1)
        sizes = [(-(-image.width // 2 ** r), -(-image.height // 2 ** r)) for r in reduced]
        qualities = ["gray", "bitonal"] if image.components < 3 else ["color", "gray", "bitonal"]
        return {
            "@context": CONTEXT,
            "id": base,
            "type": "ImageService3",
            "protocol": "http://iiif.io/api/image",
            "profile": LEVEL,
            "width": image.width,
            "height": image.height,
            "maxWidth": self.most,
            "maxHeight": self.most,
            "sizes": [{"width": w, "height": h} for w, h in reversed(sizes) if max(w, h) <= self.most],
            "tiles": [{"width": self.tile, "height": self.tile, "scaleFactors": [2 ** r for r in reduced]}],
            "preferredFormats": ["png", "jpg"],
            "extraFormats": [form for form in FORMATS if form not in ("jpg", "png")],
            "extraQualities": qualities,
            "extraFeatures": FEATURES,
        }

    def reply(self, environ: Dict[str, Any]) -> Reply:
        """Status, headers and body for a request."""
        method = environ["REQUEST_METHOD"]
        if method == "OPTIONS":
            allowed = [("Allow", METHODS), ("Access-Control-Allow-Methods", METHODS), ("Access-Control-Allow-Headers", "*")]
            return "204 No Content", allowed, b""
        if method not in ("GET", "HEAD"):
            raise Refused("405 Method Not Allowed", f"the methods are {METHODS}")
        path = environ.get("PATH_INFO", "")
        if not path.startswith(self.prefix + "/"):
            raise Refused("404 Not Found", "no image is under this path")
        # A server has undone one percent encoding; names of an archive have no character that needs one.
        name, *words = [unquote(word) for word in path[len(self.prefix) + 1:].split("/")]
        for _ in range(TRIES):
            try:
                return self._reply(environ, self.look(name), words)
            except Changed:
                pass
        raise Refused("503 Service Unavailable", f"the image {name!r} changes")

    def _reply(self, environ: Dict[str, Any], seen: Seen, words: List[str]) -> Reply:
        host = environ.get("HTTP_HOST") or f"{environ['SERVER_NAME']}:{environ['SERVER_PORT']}"
        scheme = environ.get("HTTP_X_FORWARDED_PROTO", environ["wsgi.url_scheme"])
        base = f"{scheme}://{host}{quote(environ.get('SCRIPT_NAME', ''))}{self.prefix}/{quote(seen.image.name)}"
        if not words or words == [""]:
            return "303 See Other", [("Location", f"{base}/info.json")], b""
        if words == ["info.json"]:
            return self._info_reply(environ, base, seen.image)
        asked = asked_of(seen.image, words, self.most, list(FORMATS))
        links = f'<{base}/{asked.canonical}>;rel="canonical", <{PROFILE}>;rel="profile"'
        tag = self._tag(seen, asked)
        headers = [("Content-Type", FORMATS[asked.format][1]), ("Link", links), *self._kept_for(tag)]
        if has_tag(environ, tag):
            return "304 Not Modified", headers[1:], b""
        return "200 OK", headers, self._picture(seen, asked)

    def _tag(self, seen: Seen, asked: Asked) -> str:
        return tag_of(seen.stamp, asked.canonical.encode(), WRITER.encode())

    def _picture(self, seen: Seen, asked: Asked) -> bytes:
        reduce = reduction(asked)
        source, box = Reduced(self, seen, reduce), halved(asked, reduce)

        def neighbours(piece: Box) -> Iterator[Tuple[str, Box, Callable[[Array], bytes]]]:
            for other in self._tiles_like(asked, reduce, piece):
                yield self._tag(seen, other), halved(other, reduce), partial(written, asked=other, reduce=reduce)
        is_small = asked.format in SMALL_FORMATS
        return self.pieces.answer(source, box, self._tag(seen, asked), partial(written, asked=asked, reduce=reduce),
                                  neighbours if is_small else None)

    def _tiles_like(self, asked: Asked, reduce: int, piece: Box) -> Iterator[Asked]:
        """The tiles of a piece, where a tile is asked for as viewers do: on the grid of `info.json`, and not scaled."""
        image, step, tile = asked.image, 1 << reduce, self.tile

        def tile_at(left: int, upper: int) -> Asked:
            x, y = left * step, upper * step
            width, height = min(tile * step, image.width - x), min(tile * step, image.height - y)
            size, name = size_of(f"{-(-width // step)},{-(-height // step)}", width, height, self.most)
            return replace(asked, region=(x, y, width, height), size=size, size_name=name)
        left, upper, _, _ = halved(asked, reduce)
        if tile <= self.most and tile_at(left // tile * tile, upper // tile * tile) == asked:
            for y in range(piece[1], piece[3], tile):
                for x in range(piece[0], piece[2], tile):
                    yield tile_at(x, y)

    def _info_reply(self, environ: Dict[str, Any], base: str, image: Listed) -> Reply:
        body = json.dumps(self.info(base, image), indent=1).encode()
        links = f'<{PROFILE}>;rel="profile"'
        kind = "application/json"
        if wants_linked(environ.get("HTTP_ACCEPT", "")):
            kind = f'{LINKED};profile="{CONTEXT}"'
        else:
            links += f', <{CONTEXT}>;rel="http://www.w3.org/ns/json-ld#context";type="{LINKED}"'
        tag = tag_of(kind.encode(), body)
        headers = [("Content-Type", kind), ("Link", links), ("Vary", "Accept"), *self._kept_for(tag)]
        if has_tag(environ, tag):
            return "304 Not Modified", headers[1:], b""
        return "200 OK", headers, body

    def _kept_for(self, tag: str) -> Headers:
        return [("Cache-Control", f"public, max-age={self.max_age}"), ("ETag", tag)]

    def __call__(self, environ: Dict[str, Any], start: Callable[..., Any]) -> Iterable[bytes]:
        try:
            status, headers, body = self.reply(environ)
        except Refused as refused:
            status, headers, body = told(refused.status, refused)
        except NoSuchImage as fault:
            status, headers, body = told("404 Not Found", fault)
        except BadWindow as fault:
            status, headers, body = told("400 Bad Request", fault)
        except (Fault, OSError) as fault:
            status, headers, body = told("502 Bad Gateway", fault)
        if status.startswith("405"):
            headers.append(("Allow", METHODS))
        if status[:3] not in ("204", "304"):
            headers.append(("Content-Length", str(len(body))))
        start(status, [*headers, ("Access-Control-Allow-Origin", "*")])
        return [b"" if environ["REQUEST_METHOD"] == "HEAD" else body]


def told(status: str, why: Exception) -> Reply:
    """The reply to a request that fails."""
    return status, [("Content-Type", "text/plain; charset=utf-8")], f"{why}\n".encode("utf-8", "replace")


def tag_of(*parts: bytes) -> str:
    """An ETag that differs where one of the parts differs."""
    return f'"{blake2b(b"".join(blake2b(part).digest() for part in parts), digest_size=16).hexdigest()}"'


def has_tag(environ: Dict[str, Any], tag: str) -> bool:
    """Whether the client has the answer with this ETag already."""
    tags = environ.get("HTTP_IF_NONE_MATCH", "").split(",")
    return any(it.strip() == "*" or it.strip().removeprefix("W/") == tag for it in tags)


def wants_linked(accept: str) -> bool:
    """Whether a client asks for JSON-LD by name, and not less than for JSON."""
    weights: Dict[str, float] = {}
    for part in accept.split(","):
        kind, *parameters = (word.strip().lower() for word in part.split(";"))
        weight = next((word[2:] for word in parameters if word.startswith("q=")), "1")
        try:
            weights[kind] = float(weight)
        except ValueError:
            weights[kind] = 0
    return weights.get(LINKED, 0) > 0 and weights[LINKED] >= weights.get("application/json", 0)


def from_environment() -> Application:
    """The application for the archive that JK_ARCHIVE names."""
    megabytes, seconds = (number_in(name, default) for name, default in (("JK_IIIF_CACHE", CACHE // 10 ** 6),
                                                                         ("JK_IIIF_MAX_AGE", MAX_AGE)))
    url = os.environ.get("JK_ARCHIVE", "http://127.0.0.1:8080")
    return Application(url, cache=megabytes * 10 ** 6, max_age=seconds)


def number_in(name: str, default: int) -> int:
    """The number that a variable of the environment has. ValueError: it has none."""
    text = os.environ.get(name, str(default))
    if not (text.isascii() and text.isdigit() and len(text) < 10):
        raise ValueError(f"{name} is a number of at most 9 digits, and not {text!r}")
    return int(text)
