"""What calls refuse: an exception for each fault of `jk faults`, and two for lists that don't fit."""
from __future__ import annotations

from typing import Callable, Dict, Tuple, Type


class Fault(ValueError):
    """What a call refused, as `jk faults` lists it."""

    #: The fault's number.
    number: int = 0
    #: What it means, in words.
    cause: str = "an unknown fault"

    @property
    def name(self) -> str:
        """The fault's name."""
        return type(self).__name__

    def __init__(self, cause: str = "") -> None:
        #: What was told in the place of `cause`.
        self.told = cause
        super().__init__(f"F{self.number} {self.name}: {cause or self.cause}")

    def __reduce__(self) -> Tuple[Callable[[int, str], "Fault"], Tuple[int, str]]:
        return of_number, (self.number, self.told)


class Memory(Fault, MemoryError):
    number, cause = 1, "out of memory"


class Truncated(Fault):
    number = 2
    cause = "the file, a box or a tile-part is cut off, or EOC is missing at the end"


class BadMarker(Fault):
    number = 3
    cause = "a marker that isn't allowed here, a second one where one is allowed, or a required one is missing"


class BadLength(Fault):
    number = 4
    cause = "a segment's length contradicts its contents; Psot from 1 to 13; a length of SOP other than 4"


class BadValue(Fault):
    number = 5
    cause = "a field has a value that T.800 doesn't allow, or a segmentation symbol is wrong"


class Unsupported(Fault):
    number, cause = 6, "allowed by T.800, but not supported by jk"


class Limit(Fault):
    number = 7
    cause = (
        "past a limit of jk, such as on samples, coordinates, levels, bit-planes, packets or the length of a tile-part"
    )


class PacketHeader(Fault):
    number = 8
    cause = (
        "a stuffed bit is 1, more zero bit-planes than Mb, a length field wider than 32 bits, "
        "or EPH is missing"
    )


class TooManyPasses(Fault):
    number, cause = 9, "more coding passes of a code-block than its bit-planes have"


class CodeOutOfInterval(Fault):
    number, cause = 10, "the code value leaves the interval of the MQ coder"


class MissingPackets(Fault):
    number, cause = 11, "the tile-parts of a tile end with packets left, or a tile has no tile-part"


class SurplusBytes(Fault):
    number, cause = 12, "bytes after a tile's last packet or after EOC"


class BadBox(Fault):
    number, cause = 13, "the structure of the JP2 boxes is broken"


class BadParameters(Fault):
    number, cause = 15, "the image or a parameter is outside the profile"


class BadWindow(Fault):
    number = 16
    cause = "more reductions than levels, no layer, or a window or reduced image without samples"


class NoSuchImage(Fault):
    number, cause = 17, "the name isn't listed"


class Shelf(Fault):
    number, cause = 20, "I/O error: a file can't be read or written"


class Changed(Fault):
    number, cause = 21, "the file was changed since it was indexed"


class Short(Fault):
    number, cause = 64, "the room for the result is too small"


class Misfit(Fault):
    number, cause = 65, "the samples are signed or wider than the array's, or the array has another length"


#: The exceptions by number.
BY_NUMBER: Dict[int, Type[Fault]] = {kind.number: kind for kind in Fault.__subclasses__()}


def of_number(number: int, cause: str = "") -> Fault:
    """The exception of a number."""
    return BY_NUMBER.get(number, Fault)(cause)


def check(result: int) -> None:
    """Raises the exception of what a call answered, unless it was done."""
    if result:
        raise of_number(result)
