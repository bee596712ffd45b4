"""Files that are written beside their places and go there when all is right, in the place of no other file."""
from __future__ import annotations

import contextlib
import errno
import filecmp
import hashlib
import os
from typing import BinaryIO, Iterator, List, Tuple

from .._placing import Part, sync_folder
from .images import Refused

#: What systems say that have no second name for a file.
NO_LINKS = (errno.EPERM, errno.ENOTSUP, errno.EOPNOTSUPP, errno.ENOSYS, errno.EMLINK)


class Placing:
    """The files that are made of one: all of them go to their places, or none."""

    def __init__(self) -> None:
        self.parts: List[Tuple[Part, str]] = []

    @contextlib.contextmanager
    def part(self, out: str) -> Iterator[Tuple[str, BinaryIO]]:
        """A file beside its place, and its path; it is on the disk afterwards, and no longer in memory."""
        part = Part(os.path.dirname(out) or ".")
        self.parts.append((part, out))
        yield part.path, part.file
        part.sync()
        os.posix_fadvise(part.file.fileno(), 0, 0, os.POSIX_FADV_DONTNEED)

    def place(self) -> None:
        """Gives each file its name."""
        placed: List[str] = []
        try:
            for part, out in self.parts:
                if _named(part.path, out):
                    placed.append(out)
        except BaseException:
            for out in placed:
                os.unlink(out)
            raise
        for folder in {os.path.dirname(out) or "." for _, out in self.parts}:
            sync_folder(folder)

    def __enter__(self) -> "Placing":
        return self

    def __exit__(self, *_: object) -> None:
        for part, _out in self.parts:
            part.end()


def _named(path: str, out: str) -> bool:
    """Gives a file its name; False where the same stands there already."""
    try:
        os.link(path, out)
        return True
    except FileExistsError:
        pass
    except OSError as error:
        if error.errno not in NO_LINKS:
            raise
        if not os.path.lexists(out):
            os.rename(path, out)
            return True
    if not os.path.isfile(out) or not filecmp.cmp(path, out, shallow=False):
        raise Refused(f"{out} is there already, and is another file")
    return False


def digest_of(path: str) -> str:
    """SHA-256 of a file."""
    found = hashlib.sha256()
    with open(path, "rb") as file:
        for data in iter(lambda: file.read(1 << 20), b""):
            found.update(data)
    return found.hexdigest()
