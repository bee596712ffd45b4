"""What to install where a library lacks."""
from __future__ import annotations

import importlib
import sys
from typing import Callable, Dict, NoReturn, Optional, Tuple

#: Debian's packages of libraries, and the extra of jk that has them, by the module.
LIBRARIES: Dict[str, Tuple[str, str]] = {
    "PIL": ("python3-pil", "pillow"), "tifffile": ("python3-tifffile", "convert"), "pydicom": ("python3-pydicom", "dicom"),
    "distributed": ("python3-distributed", "dask"), "waitress": ("python3-waitress", "iiif"), "numpy": ("python3-numpy", ""),
}


def what_to_do(error: ImportError) -> Optional[str]:
    """What to install for a library that isn't there; None where the error is of another kind."""
    name = (error.name or "").partition(".")[0]
    if name not in LIBRARIES:
        return None
    package, extra = LIBRARIES[name]
    by_pip = f", or `pip install 'jk[{extra}]'`" if extra else ""
    return f"the library {name} isn't there: `apt install {package}`{by_pip}"


def found(package: str, name: str, places: Dict[str, str]) -> object:
    """A name of a package from the module where it stands. ImportError: a library lacks, and which."""
    if name not in places:
        raise AttributeError(f"module {package!r} has no attribute {name!r}")
    try:
        return getattr(importlib.import_module(f"{package}.{places[name]}"), name)
    except ImportError as error:
        raise_told(package, error)


def raise_told(package: str, error: ImportError) -> NoReturn:
    """Raises an import's error in words that say what to install."""
    told = what_to_do(error)
    if told is None:
        raise error
    raise ImportError(f"{package}: {told}", name=error.name) from error


def run(program: str, main: Callable[[], Callable[[], int]]) -> int:
    """Imports a command line and runs it; status 2, and what to install, where a library lacks."""
    try:
        command = main()
    except ImportError as error:
        told = what_to_do(error)
        if told is None:
            raise
        print(f"{program}: {told}", file=sys.stderr)
        return 2
    return command()
