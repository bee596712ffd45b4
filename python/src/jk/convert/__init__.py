"""TIFF, PNG, PGM and PPM files to lossless JPEG 2000 and back, and whole folders of them.

    python -m jk.convert scans coded               # a folder to a folder, with a table of what was done
    python -m jk.convert page.tif page.jp2
    python -m jk.convert --to tiff coded back

Every sample comes back as it was, and what can't is refused. What was written is read back from the disk and compared,
and each file is read a second time by another reader where there is one. docs/library.md has what is carried of what
stands beside the samples. It needs Debian's python3-tifffile and python3-pil, and for packed TIFF files libtiff-tools.

>>> from jk import convert
>>> counts = convert.convert("scans", "coded", workers=4)
>>> assert not counts.refused
"""
from typing import TYPE_CHECKING

if TYPE_CHECKING:
    from .images import Refused
    from .many import CannotConvert, Counts, convert
    from .one import Done
    from .rows import Row, Table

__all__ = ["CannotConvert", "Counts", "Done", "Refused", "Row", "Table", "convert"]
#: Where names stand, which are imported when they are asked for, so that it can be told what to install.
_PLACES = {"Refused": "images", "CannotConvert": "many", "Counts": "many", "convert": "many", "Done": "one", "Row": "rows",
           "Table": "rows"}


def __getattr__(name: str) -> object:
    from .._needs import found
    return found(__name__, name, _PLACES)
