"""What a path of the IIIF Image API 3 asks for, and its canonical form."""
from __future__ import annotations

import re
from dataclasses import dataclass
from fractions import Fraction
from typing import List, Optional, Tuple

from .archive import Listed

#: Formats that the API names.
KNOWN_FORMATS = ("jpg", "tif", "png", "gif", "jp2", "pdf", "webp")
QUALITIES = ("default", "color", "gray", "bitonal")
#: The most digits of a number of pixels, and the most characters of a decimal number.
MOST_DIGITS, MOST_DECIMAL = 10, 32


class Refused(Exception):
    """A request that is answered with another status than 200."""

    def __init__(self, status: str, why: str) -> None:
        super().__init__(why)
        self.status = status


def bad(why: str) -> Refused:
    return Refused("400 Bad Request", why)


def missing(why: str) -> Refused:
    return Refused("501 Not Implemented", why)


@dataclass(frozen=True)
class Asked:
    """A request for an image: what of it, how large, how turned, and how written."""

    image: Listed
    #: x, y, width and height, in pixels of the whole image.
    region: Tuple[int, int, int, int]
    size: Tuple[int, int]
    #: What the API calls this size: `max`, `^max`, `w,h` or `^w,h`.
    size_name: str
    is_mirrored: bool
    #: Degrees clockwise, after mirroring: 0, 90, 180 or 270.
    turn: int
    quality: str
    format: str

    @property
    def canonical(self) -> str:
        """The parameters as the API writes them in a canonical address."""
        x, y, width, height = self.region
        whole = self.region == (0, 0, self.image.width, self.image.height)
        region = "full" if whole else f"{x},{y},{width},{height}"
        is_default = self.quality == "color" or self.quality == "gray" and self.image.components < 3
        quality = "default" if is_default else self.quality
        return f"{region}/{self.size_name}/{'!' * self.is_mirrored}{self.turn}/{quality}.{self.format}"


def asked_of(image: Listed, words: List[str], most: int, formats: List[str]) -> Asked:
    """What a path asks for, judged from left to right. `most` is the most pixels of a side, and `formats` are those that
    can be written."""
    if len(words) != 4:
        raise bad("an image has a region, a size, a rotation, and a quality with a format")
    region = region_of(words[0], image)
    size, name = size_of(words[1], region[2], region[3], most)
    is_mirrored, turn = rotation_of(words[2])
    quality, dot, form = words[3].rpartition(".")
    if not dot or quality not in QUALITIES:
        raise bad(f"{_shown(words[3])} isn't a quality and a format")
    if form not in KNOWN_FORMATS:
        raise bad(f"{_shown(form)} isn't a format")
    if form not in formats:
        raise missing(f"the format {form} isn't written")
    return Asked(image, region, size, name, is_mirrored, turn, quality, form)


def _shown(text: str) -> str:
    """A word of a request, as an answer has it."""
    return repr(text if len(text) <= 64 else text[:61] + "...")


def _decimal(text: str) -> Fraction:
    if len(text) > MOST_DECIMAL or not re.fullmatch(r"[0-9]+(\.[0-9]*)?|\.[0-9]+", text):
        raise bad(f"{_shown(text)} isn't a number of at most {MOST_DECIMAL} characters")
    return Fraction(text)


def _number(text: str) -> int:
    if len(text) > MOST_DIGITS or not re.fullmatch(r"[0-9]+", text):
        raise bad(f"{_shown(text)} isn't a number of at most {MOST_DIGITS} digits")
    return int(text)


def _half_up(number: Fraction) -> int:
    return int(number + Fraction(1, 2))


def region_of(text: str, image: Listed) -> Tuple[int, int, int, int]:
    """The rectangle that a region names, cut with the image."""
    if text == "full":
        return 0, 0, image.width, image.height
    if text == "square":
        side = min(image.width, image.height)
        return (image.width - side) // 2, (image.height - side) // 2, side, side
    is_percent = text.startswith("pct:")
    words = text[4 * is_percent:].split(",")
    if len(words) != 4:
        raise bad("a region has four numbers")
    if is_percent:
        sides = (image.width, image.height) * 2
        x, y, width, height = (_half_up(_decimal(word) * side / 100) for word, side in zip(words, sides))
    else:
        x, y, width, height = (_number(word) for word in words)
    width, height = min(x + width, image.width) - x, min(y + height, image.height) - y
    if width <= 0 or height <= 0:
        raise bad("the region has no pixel")
    return x, y, width, height


def size_of(text: str, width: int, height: int, most: int) -> Tuple[Tuple[int, int], str]:
    """How large a region of this size becomes, and the canonical name of that size."""
    grows = text.startswith("^")
    size = _size(text[grows:], width, height, most, grows)
    if size[0] < 1 or size[1] < 1:
        raise bad("the size has no pixel")
    is_larger = size[0] > width or size[1] > height
    if is_larger and not grows:
        raise bad("the size is larger than the region, and doesn't begin with ^")
    if max(size) > most:
        raise bad(f"the size is larger than {most}")
    sign = "^" if is_larger else ""
    if size == _size("max", width, height, most, is_larger):
        return size, f"{sign}max"
    return size, f"{sign}{size[0]},{size[1]}"


def _size(text: str, width: int, height: int, most: int, grows: bool) -> Tuple[int, int]:
    if text == "max":
        factor = Fraction(most, max(width, height))
        if not grows:
            factor = min(Fraction(1), factor)
        return max(1, int(width * factor)), max(1, int(height * factor))
    if text.startswith("pct:"):
        factor = _decimal(text[4:]) / 100
        return _half_up(width * factor), _half_up(height * factor)
    if text.startswith("!"):
        wide, high = _pair(text[1:])
        if not wide or not high:
            raise bad("the size has no pixel")
        factor = min(Fraction(wide, width), Fraction(high, height), Fraction(most, max(width, height)))
        if not grows:
            factor = min(factor, Fraction(1))
        return max(1, _half_up(width * factor)), max(1, _half_up(height * factor))
    wide, high = _pair(text)
    if wide is None and high is not None:
        wide = max(1, _half_up(Fraction(width * high, height)))
    if high is None and wide is not None:
        high = max(1, _half_up(Fraction(height * wide, width)))
    if wide is None or high is None:
        raise bad(f"{_shown(text)} isn't a size")
    return wide, high


def _pair(text: str) -> Tuple[Optional[int], Optional[int]]:
    """Two numbers, of which either may be left out."""
    parts = text.split(",")
    if len(parts) != 2:
        raise bad(f"{_shown(text)} isn't a size")
    wide, high = (_number(part) if part else None for part in parts)
    return wide, high


def rotation_of(text: str) -> Tuple[bool, int]:
    """Whether the image is mirrored, and by how many degrees it is turned clockwise then."""
    is_mirrored = text.startswith("!")
    degrees = _decimal(text[is_mirrored:])
    if degrees > 360:
        raise bad("a rotation is from 0 to 360")
    if degrees % 90:
        raise missing("a rotation that isn't a multiple of 90")
    return is_mirrored, int(degrees) % 360
