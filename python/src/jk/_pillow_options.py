"""The options of Pillow's own JPEG 2000 plugin, as parameters of `jk.encode`."""
from __future__ import annotations

import operator
from typing import Any, Dict, List, Sequence, Tuple

#: The most levels that jk writes.
LEVELS = 5
#: Names of Pillow, and those of `jk.encode` that they stand for.
NAMES = {"offset": "place", "tile_size": "tile", "progression": "order", "num_resolutions": "levels",
         "codeblock_size": "block", "precinct_size": "precincts", "mct": "colour", "quality_layers": "layers", "no_jp2": "raw"}
#: Options that lose nothing with these values alone.
ONLY = {"irreversible": (False, None), "cinema_mode": ("no", None), "tile_offset": ((0, 0), None), "plt": (False, None)}


class TooSmall(OSError, ValueError):
    """An image that can't be halved as often as asked, for which Pillow raises OSError."""


def exponent(side: Any, option: str) -> int:
    """The exponent of a power of two."""
    side = int(operator.index(side))
    if side < 1 or side & (side - 1):
        raise ValueError(f"{option}: {side} isn't a power of two")
    return int(side).bit_length() - 1


def _layers(given: Any) -> int:
    """As many layers as there are rates. The last one has all of the image, whatever its rate."""
    if not isinstance(given, (list, tuple)) or not all(isinstance(it, (int, float)) for it in given):
        raise ValueError("quality_layers must be a sequence of numbers")
    return max(1, len(given))


def _levels(given: Any, size: Tuple[int, int]) -> int:
    """As many levels as resolutions but one, and no more than jk writes."""
    number = operator.index(given)
    if number < 1 or min(size) < 1 << number - 1:
        raise TooSmall(f"num_resolutions: an image of {size[0]} by {size[1]} has fewer than {number}")
    return min(number - 1, LEVELS)


def _precincts(given: Sequence[Any], levels: int) -> List[Tuple[int, int]]:
    """Precincts of this size at the whole resolution, and of half of it at each lower one."""
    wide, high = (exponent(it, "precinct_size") for it in given)
    return [(max(1, wide - down), max(1, high - down)) for down in range(levels, -1, -1)]


def taken(asked: Dict[str, Any], size: Tuple[int, int]) -> Dict[str, Any]:
    """Options with Pillow's names in those of `jk.encode`; `signed` stays. ValueError: one would lose something."""
    found = dict(asked)
    for option, values in ONLY.items():
        given = found.pop(option, None)
        if (tuple(given) if isinstance(given, list) else given) not in values:
            raise ValueError(f"{option}: jk writes lossless files alone, with tiles from (0, 0)")
    if found.pop("quality_mode", "rates") not in ("rates", "dB"):
        raise ValueError("quality_mode is rates or dB")
    place, tile = found.get("offset"), found.get("tile_size")
    if place and tile and not all(at < side for at, side in zip(place, tile)):
        raise ValueError(f"offset: the first tile, of {tile[0]} by {tile[1]}, ends before the image begins")
    given_of = {name: found.pop(name) for name in NAMES if name in found}
    made = {name: it for name, it in given_of.items() if it is not None}
    for name in made:
        if NAMES[name] in found:
            raise TypeError(f"{name} and {NAMES[name]} are one")
    if "num_resolutions" in made and made["num_resolutions"] == 0:
        del made["num_resolutions"]
    if "num_resolutions" in made:
        made["num_resolutions"] = _levels(made["num_resolutions"], size)
    if "codeblock_size" in made:
        made["codeblock_size"] = tuple(exponent(it, "codeblock_size") for it in made["codeblock_size"])
    if "precinct_size" in made:
        made["precinct_size"] = _precincts(made["precinct_size"], made.get("num_resolutions", found.get("levels", LEVELS)))
    if "quality_layers" in made:
        made["quality_layers"] = _layers(made["quality_layers"])
    return {**found, **{NAMES[name]: it for name, it in made.items()}}
