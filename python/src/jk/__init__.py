"""Lossless JPEG 2000 Part 1 on its reversible path: files, windows of them and archives as numpy arrays.

>>> import jk
>>> image = jk.read("page.jp2")                                  # (height, width) or (height, width, 3)
>>> half = jk.read("page.jp2", reduce=1)
>>> part = jk.read("page.jp2", window=(1024, 0, 512, 512))       # x, y, width, height
>>> jk.write("again.jp2", image, levels=3, extras=jk.Extras(resolution=300))
>>> jk.extras("again.jp2").resolution                            # of a row and of a column, by the inch
>>> jk.info("page.jp2").shape
>>> jk.Archive("http://127.0.0.1:8080").window("page", 0, 0, 256, 256)
"""
from ._extras import Extras
from .archive import Archive, Listed
from .encoding import encode, write
from .faults import (
    BadBox, BadLength, BadMarker, BadParameters, BadValue, BadWindow, Changed, CodeOutOfInterval, Fault, Limit, Memory,
    Misfit, MissingPackets, NoSuchImage, PacketHeader, Shelf, Short, SurplusBytes, TooManyPasses, Truncated,
    Unsupported,
)
from .files import Info, cut, extras, info, read, with_extras

__version__ = "0.3.2"
__all__ = [
    "Archive", "BadBox", "BadLength", "BadMarker", "BadParameters", "BadValue", "BadWindow", "Changed",
    "CodeOutOfInterval", "Extras", "Fault", "Info", "Limit", "Listed", "Memory", "Misfit", "MissingPackets", "NoSuchImage",
    "PacketHeader", "Shelf", "Short", "SurplusBytes", "TooManyPasses", "Truncated", "Unsupported", "cut", "encode",
    "extras", "info", "read", "with_extras", "write",
]
