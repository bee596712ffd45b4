"""Files as arrays, and arrays as files."""
from __future__ import annotations

import ctypes
import operator
import os
import stat
from dataclasses import dataclass, replace
from typing import Any, Optional, SupportsIndex, Tuple, Union

import numpy as np

from . import _calls, _colour, _opacity
from ._extras import Extras, boxes_of, extras_of
from ._headers import headers_of
from ._types import Array
from .faults import Fault, check

#: A file by its path, or its bytes.
File = Union[str, "os.PathLike[str]", bytes, bytearray, memoryview, Array]
#: A rectangle, counted from the upper left sample: x, y, width, height.
Window = Tuple[int, int, int, int]



@dataclass(frozen=True)
class Info:
    """What boxes and headers of a file say of its image at a reduction."""

    x0: int
    y0: int
    width: int
    height: int
    components: int
    #: Bits of a sample, the sign counted.
    depth: int
    signed: bool
    #: So often the image can be halved.
    levels: int
    #: What the last of 2 or 4 components of a JP2 file is: "straight" opacity, "premultiplied" where colours are multiplied
    #: by it, "unspecified"; None where the file doesn't tell.
    opacity: Optional[str] = None

    @property
    def shape(self) -> Tuple[int, ...]:
        """The shape of the array that `read` gives."""
        return _shape(self.height, self.width, self.components)

    @property
    def dtype(self) -> np.dtype[Any]:
        """The type of its elements."""
        if self.signed:
            return np.dtype(np.int8 if self.depth <= 8 else np.int16)
        return np.dtype(np.uint8 if self.depth <= 8 else np.uint16)


def _shape(height: int, width: int, components: int) -> Tuple[int, ...]:
    return (height, width) if components == 1 else (height, width, components)


def _bytes_of(file: File) -> Array:
    """The bytes of a file: read, or seen where they lie."""
    if isinstance(file, (str, os.PathLike)):
        with open(file, "rb") as opened:
            if not stat.S_ISREG(os.fstat(opened.fileno()).st_mode):
                return np.frombuffer(opened.read(), np.uint8)
        return np.fromfile(file, np.uint8)
    if isinstance(file, np.ndarray):
        return np.ascontiguousarray(file).reshape(-1).view(np.uint8)
    return np.frombuffer(file, np.uint8)


def list_of(array: Array) -> Tuple[int, int]:
    """Where the elements lie, and how many they are."""
    return array.ctypes.data, array.size


def word(number: SupportsIndex) -> int:
    """A number that the library takes as it is. TypeError: it isn't a whole number, as 2.7 or "1"."""
    number = operator.index(number)
    if not 0 <= number < 1 << 32:
        raise ValueError(f"{number} isn't a number from 0 to 2^32 - 1")
    return number


def info(file: File, reduce: int = 0) -> Info:
    """What boxes and headers of a file say of its image, `reduce` times halved. No sample is decoded, and of a path boxes
    and headers alone are read."""
    if isinstance(file, (str, os.PathLike)) and os.path.isfile(file):
        try:
            return _info(headers_of(file), reduce)
        except Fault:
            # It is told of the whole file, as it is.
            pass
    return _info(_bytes_of(file), reduce)


def _info(data: Array, reduce: int) -> Info:
    frame = _calls.Frame()
    check(_calls.info(*list_of(data), word(reduce), ctypes.byref(frame)))
    return Info(
        frame.x0, frame.y0, frame.width, frame.height,
        frame.components, frame.depth, bool(frame.is_signed), frame.levels,
        _opacity.opacity_of(data, frame.components) if frame.components in (2, 4) else None,
    )


def _room(told: Info, shape: Tuple[int, ...], out: Optional[Array], data: Array) -> Array:
    """The array that samples are written to, which may not be where the file lies."""
    if out is None:
        return np.empty(shape, told.dtype)
    if not isinstance(out, np.ndarray) or isinstance(out, np.ma.MaskedArray):
        raise TypeError(f"out is a plain array, and not {type(out).__name__}")
    if out.shape != shape or out.dtype != told.dtype or not out.flags.c_contiguous or not out.flags.writeable:
        raise ValueError(f"out isn't a writable array in C order, of shape {shape} and type {told.dtype}")
    if not out.flags.aligned:
        raise ValueError("out begins at an odd address, where no uint16 and no int16 may lie")
    if np.may_share_memory(out, data):
        raise ValueError("out lies where the bytes of the file do")
    return out


def read(
    file: File, reduce: int = 0, window: Optional[Window] = None, out: Optional[Array] = None
) -> Array:
    """The image of a file, by its path or its bytes, `reduce` times halved, or a window of it.

    The array is (height, width), or (height, width, components) where there are 2 to 4 of them, of uint8 for samples
    of at most 8 bits, else of uint16; of int8 and int16 for signed samples. A window (x, y, width, height) is counted
    on the halved image and cut with it, and the rest isn't decoded. With `out`, an array of that shape and type, the
    samples are written there.
    """
    data = _bytes_of(file)
    told = _info(data, reduce)
    if window is None:
        array = _room(told, told.shape, out, data)
        check(_calls.decode[array.dtype.name](*list_of(data), word(reduce), *list_of(array)))
        return array
    x, y, width, height = (word(number) for number in window)
    across = max(0, min(x + width, told.width) - x)
    down = max(0, min(y + height, told.height) - y)
    array = _room(told, _shape(down, across, told.components), out, data)
    check(_calls.decode_window[array.dtype.name](*list_of(data), word(reduce), x, y, width, height, *list_of(array)))
    return array


def cut(file: File, window: Window, reduce: int = 0) -> bytes:
    """The file of a window (x, y, width, height) of a file, cut out without decoding: it means on the window what the
    stored file means there, `reduce` times halved."""
    data = _bytes_of(file)
    view = [word(number) for number in (reduce, *window)]
    return handed_out(lambda *out: _calls.cut(*list_of(data), *view, *out), data.size)


def handed_out(call: Any, room: int) -> bytes:
    """The bytes that a call hands out; it is asked again where the room was too small."""
    length = ctypes.c_size_t()
    while True:
        out = np.empty(room, np.uint8)
        result = call(*list_of(out), ctypes.byref(length))
        if result != _calls.SHORT:
            check(result)
            return out[: length.value].tobytes()
        room = length.value


def extras(file: File) -> Extras:
    """What a file, by its path or its bytes, keeps beside the samples. No header of the codestream is read."""
    data = _bytes_of(file)
    found = extras_of(handed_out(lambda *out: _calls.extras(*list_of(data), *out), data.size))
    return replace(found, any_profile=_colour.any_profile_of(data))


def with_extras(file: File, extras: Extras) -> bytes:
    """A JP2 file, by its path or its bytes, with what it is to keep beside the samples, without coding it anew.

    A profile takes the place of what the file tells of colour, and a resolution, of capture or display, that of all that it
    tells of resolutions; all else is put behind what it has. BadParameters: a bare codestream; a profile that isn't a
    restricted one of grey or RGB (T.800 I.5.3.3), or is for other components; more than 2^24 bytes. `any_profile` may be
    any ICC profile for the file's components, and takes the place of the one that the file has.
    """
    data = _bytes_of(file)
    boxes = np.frombuffer(boxes_of(extras), np.uint8)
    components = _opacity.components_of(data) if extras.profile is not None or extras.any_profile is not None else 0
    colours = components
    if components in (2, 4) and _opacity.opacity_of(data, components) is not None:
        # A profile is for the colours alone.
        colours -= 1
        data = np.frombuffer(_opacity.counted(data.tobytes(), colours), np.uint8)
    made = handed_out(lambda *out: _calls.with_extras(*list_of(data), *list_of(boxes), *out), data.size + boxes.size)
    if colours != components:
        made = _opacity.counted(made, components)
    if extras.any_profile is None:
        return made
    _colour.check_profile(extras.any_profile, colours)
    return _colour.with_any_profile(made, extras.any_profile)
