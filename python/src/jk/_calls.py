"""The calls of the library, as include/jk.h declares them."""
import ctypes
import os
from ctypes import POINTER, c_size_t, c_uint8, c_uint32, c_void_p
from typing import Any, Callable, cast

VERSION = 302
SHORT = 64


class Frame(ctypes.Structure):
    """An image: `jk_frame`."""

    _fields_ = [
        *[(name, c_uint32) for name in ("x0", "y0", "width", "height", "components", "depth", "is_signed", "levels")],
        ("reserved", c_uint32 * 4),
    ]


class Coding(ctypes.Structure):
    """How an image is encoded: `jk_coding`."""

    _fields_ = [
        *[(name, c_uint32) for name in ("levels", "layers", "order", "tile_width", "tile_height")],
        *[(name, c_uint32) for name in ("block_width", "block_height", "precinct_count")],
        ("precincts", c_uint8 * 8),
        *[(name, c_uint32) for name in ("colour", "sop", "eph", "raw", "style")],
        ("reserved", c_uint32 * 3),
    ]


def _load() -> ctypes.CDLL:
    path = os.environ.get("JK_LIBRARY") or os.path.join(os.path.dirname(os.path.abspath(__file__)), "libjk.so.0")
    if not os.path.exists(path):
        raise ImportError(f"{path} isn't there: tools/build-c of the repository makes it, and JK_LIBRARY names another")
    library = ctypes.CDLL(path)
    if library.jk_version() // 100 != VERSION // 100:
        raise ImportError(f"{path} is version {library.jk_version()}, and this package is for {VERSION}")
    return library


_library = _load()


def _call(name: str, *kinds: Any) -> Callable[..., int]:
    call = getattr(_library, name)
    call.argtypes, call.restype = kinds, c_uint32
    return cast(Callable[..., int], call)


_LIST = (c_void_p, c_size_t)
_VIEW = (c_uint32,) * 5
_OUT = (*_LIST, POINTER(c_size_t))

info = _call("jk_info", *_LIST, c_uint32, POINTER(Frame))
#: By the name of numpy's type of a sample.
_TYPES = {"uint8": "u8", "uint16": "u16", "int8": "i8", "int16": "i16"}
decode = {kind: _call(f"jk_decode_{short}", *_LIST, c_uint32, *_LIST) for kind, short in _TYPES.items()}
decode_window = {kind: _call(f"jk_decode_window_{short}", *_LIST, *_VIEW, *_LIST) for kind, short in _TYPES.items()}
encode = {
    kind: _call(f"jk_encode_{short}", POINTER(Frame), *_LIST, POINTER(Coding), *_OUT) for kind, short in _TYPES.items()
}
cut = _call("jk_cut", *_LIST, *_VIEW, *_OUT)
extras = _call("jk_extras", *_LIST, *_OUT)
with_extras = _call("jk_with_extras", *_LIST, *_LIST, *_OUT)
