"""JPEG 2000 for pydicom (Debian's python3-pydicom, 2.3.1): `pixel_array` and `decompress` by jk.

>>> import jk.pydicom_handler
>>> jk.pydicom_handler.register()
>>> pydicom.dcmread("coded.dcm").pixel_array

pydicom asks its handlers in turn and passes over any exception, so that a file that jk refuses would come from the next
decoder unseen. So `register` takes the others out for the transfer syntaxes of JPEG 2000 unless it is asked not to.
"""
from __future__ import annotations

import io
import sys
import warnings
from typing import Any

import numpy as np
import pydicom.config
from pydicom.dataset import Dataset
from pydicom.pixel_data_handlers.util import pixel_dtype
from pydicom.uid import UID

from ._types import Array
from .dicom.fragments import Fragments
from .dicom.pixels import pixels_of, value
from .dicom.reading import CODED, samples_of

HANDLER_NAME = "jk"
DEPENDENCIES = {"numpy": ("https://numpy.org", "NumPy"), "jk": ("", "jk")}


def is_available() -> bool:
    """Whether the handler can be used: this module can't be imported without what it needs."""
    return True


def supports_transfer_syntax(transfer_syntax: UID) -> bool:
    """Whether it is one of JPEG 2000 that may be lossless."""
    return transfer_syntax in CODED


def needs_to_convert_to_RGB(ds: Dataset) -> bool:
    """The reversible transform, YBR_RCT, is the codestream's own."""
    return False


def should_change_PhotometricInterpretation_to_RGB(ds: Dataset) -> bool:
    """Elements stay as they are, as long as pixels are only read."""
    return False


def get_pixeldata(ds: Dataset) -> Array:
    """The samples of all frames, pixel by pixel, in one row."""
    pixels = pixels_of(ds)
    fragments = Fragments(io.BytesIO(ds.PixelData), 0, is_delimited=False)
    table = value(ds, "ExtendedOffsetTable", b"")
    room = np.empty((pixels.frames, *pixels.shape), pixel_dtype(ds))
    for number, data in enumerate(fragments.frames(pixels.frames, table, warnings.warn)):
        room[number] = samples_of(data, pixels, warnings.warn)
    return room.reshape(-1)


class Others:
    """Another handler, without the transfer syntaxes that jk has."""

    def __init__(self, handler: Any) -> None:
        self.handler = handler

    def __getattr__(self, name: str) -> Any:
        return getattr(self.handler, name)

    def supports_transfer_syntax(self, transfer_syntax: UID) -> bool:
        return transfer_syntax not in CODED and bool(self.handler.supports_transfer_syntax(transfer_syntax))


def register(alone: bool = True) -> None:
    """Makes jk the first handler that pydicom asks, and `ds.decompress("jk")` known. With `alone` it is the only one
    for JPEG 2000: what jk refuses is an exception then, and no other decoder's image. Another one is still asked by
    its name, as in `ds.decompress("pillow")`."""
    own = sys.modules[__name__]
    before = [it for it in pydicom.config.pixel_data_handlers if it is not own]
    others = [it.handler if isinstance(it, Others) else it for it in before]
    pydicom.config.pixel_data_handlers[:] = [own, *([Others(it) for it in others] if alone else others)]
    pydicom.config.jk_handler = own
