"""The programs jk-convert, jk-dicom and jk-view, which are also python -m jk.convert and so on."""
from __future__ import annotations

from typing import Callable

from ._needs import run


def convert() -> int:
    """jk-convert."""
    def main() -> Callable[[], int]:
        from .convert.commands import main
        return main
    return run("jk.convert", main)


def dicom() -> int:
    """jk-dicom."""
    def main() -> Callable[[], int]:
        from .dicom.commands import main
        return main
    return run("jk.dicom", main)


def view() -> int:
    """jk-view."""
    def main() -> Callable[[], int]:
        from .view import main
        return main
    return run("jk.view", main)
