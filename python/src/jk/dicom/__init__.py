"""DICOM files with lossless JPEG 2000, by pydicom (Debian's python3-pydicom).

    python -m jk.dicom encode IN.dcm OUT.dcm       # native frames become codestreams (1.2.840.10008.1.2.4.90)
    python -m jk.dicom decode IN.dcm OUT.dcm       # and back (explicit VR, little endian)
    python -m jk.dicom check FILE.dcm --against ORIGINAL.dcm

Frames go one after another, so that a file may be larger than the memory. Every sample and every other element comes
back as it was, and what can't is refused. docs/library.md tells how elements are mapped.

>>> from jk import dicom
>>> dicom.encode("scan.dcm", "coded.dcm")
>>> assert not dicom.differences("scan.dcm", "coded.dcm")
"""
from typing import TYPE_CHECKING

if TYPE_CHECKING:
    from .comparing import differences
    from .pixels import Pixels, Refused
    from .reading import Source, opened
    from .writing import decode, encode

__all__ = ["Pixels", "Refused", "Source", "decode", "differences", "encode", "opened"]
#: Where names stand, which are imported when they are asked for, so that it can be told what to install.
_PLACES = {"differences": "comparing", "Pixels": "pixels", "Refused": "pixels", "Source": "reading", "opened": "reading",
           "decode": "writing", "encode": "writing"}


def __getattr__(name: str) -> object:
    from .._needs import found
    return found(__name__, name, _PLACES)
