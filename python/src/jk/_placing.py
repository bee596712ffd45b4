"""Files that are replaced as a whole, as the program `jk` does it.

What is written goes to a file `.jk-tmp-N` in the same folder first, which is locked (flock) while its writer lives. It gets
the mode of the file that it replaces, and from root its owner; it is synced, renamed, and its folder synced. Files
`.jk-tmp-N` that nobody holds are left from a writer that was killed, and are removed.
"""
from __future__ import annotations

import contextlib
import errno
import fcntl
import os
import re
import stat
from typing import BinaryIO, Iterator, Optional, Union

Path = Union[str, "os.PathLike[str]"]
PART = re.compile(r"\.jk-tmp-\d+")
#: How many names are tried for a part.
NAMES = 1000
#: So many further names are looked at for parts that were left.
FURTHER = 64
#: What a system says where a folder doesn't allow that a file in it is replaced.
FORBIDDEN = (errno.EACCES, errno.EPERM, errno.EROFS, errno.EBUSY)
#: Links below these lead to open files, which are written as they are.
OPEN_FILES = ("/dev/", "/proc/")


class Part:
    """A file that is being written in a folder, and locked."""

    def __init__(self, folder: str, mode: int = 0o666) -> None:
        """With the mode, of which the umask takes away."""
        number = 0
        while True:
            self.path = os.path.join(folder, f".jk-tmp-{number}")
            descriptor = _made(self.path, mode)
            if descriptor is not None:
                break
            if not _removed(self.path):
                number += 1
            if number == NAMES:
                raise FileExistsError(errno.EEXIST, "too many files .jk-tmp-N in the folder", folder)
        self.file: BinaryIO = os.fdopen(descriptor, "r+b")
        for further in range(number + 1, number + 1 + FURTHER):
            _removed(os.path.join(folder, f".jk-tmp-{further}"))

    def sync(self) -> None:
        """Puts what was written on the disk."""
        self.file.flush()
        os.fsync(self.file.fileno())

    def take_from(self, replaced: os.stat_result) -> None:
        """Gives it the mode of a file, and from root its owner."""
        if os.geteuid() == 0:
            os.fchown(self.file.fileno(), replaced.st_uid, replaced.st_gid)
        os.fchmod(self.file.fileno(), stat.S_IMODE(replaced.st_mode))

    def end(self) -> None:
        """Removes it where it still has its name, and lets go of it."""
        with contextlib.suppress(OSError):
            if _is_at(self.file.fileno(), self.path):
                os.unlink(self.path)
        with contextlib.suppress(OSError):
            self.file.close()


def _made(path: str, mode: int) -> Optional[int]:
    """A new file, locked; None where the name is taken, or was taken from it before it was locked."""
    try:
        descriptor = os.open(path, os.O_RDWR | os.O_CREAT | os.O_EXCL | os.O_NOFOLLOW | os.O_CLOEXEC, mode)
    except FileExistsError:
        return None
    if _locked(descriptor) and _is_at(descriptor, path):
        return descriptor
    os.close(descriptor)
    return None


def _locked(descriptor: int) -> bool:
    try:
        fcntl.flock(descriptor, fcntl.LOCK_EX | fcntl.LOCK_NB)
    except BlockingIOError:
        return False
    except OSError as error:
        # A file system without locks.
        return error.errno in (errno.ENOLCK, errno.ENOTSUP, errno.ENOSYS)
    return True


def _is_at(descriptor: int, path: str) -> bool:
    """Whether a file still has its name."""
    try:
        return os.path.samestat(os.fstat(descriptor), os.lstat(path))
    except FileNotFoundError:
        return False


def _removed(path: str) -> bool:
    """Removes a part that nobody holds; whether it did."""
    try:
        descriptor = os.open(path, os.O_RDWR | os.O_NOFOLLOW | os.O_NONBLOCK | os.O_CLOEXEC)
    except OSError:
        return False
    try:
        if not stat.S_ISREG(os.fstat(descriptor).st_mode):
            return False
        fcntl.flock(descriptor, fcntl.LOCK_EX | fcntl.LOCK_NB)
        if not _is_at(descriptor, path):
            return False
        os.unlink(path)
        return True
    except OSError:
        return False
    finally:
        os.close(descriptor)


def remove_parts(folder: str) -> None:
    """Removes all parts of a folder that nobody holds."""
    for name in os.listdir(folder):
        if PART.fullmatch(name):
            _removed(os.path.join(folder, name))


def sync_folder(folder: str) -> None:
    """Puts names of a folder on the disk."""
    descriptor = os.open(folder, os.O_RDONLY | os.O_DIRECTORY)
    try:
        os.fsync(descriptor)
    except OSError as error:
        # Some file systems have no such call for folders.
        if error.errno != errno.EINVAL:
            raise
    finally:
        os.close(descriptor)


@contextlib.contextmanager
def placed(path: Path) -> Iterator[BinaryIO]:
    """A file to write to, which takes its place when all went well. A link is followed; a pipe or a device is written as
    it is, and so is a file whose folder may not be written."""
    given = os.fsdecode(path)
    if given.endswith(os.sep):
        raise IsADirectoryError(errno.EISDIR, os.strerror(errno.EISDIR), given)
    target = given if given.startswith(OPEN_FILES) else os.path.realpath(given)
    try:
        there: Optional[os.stat_result] = os.stat(target)
    except FileNotFoundError:
        there = None
    if there is not None and (not stat.S_ISREG(there.st_mode) or given.startswith(OPEN_FILES)):
        with open(target, "wb") as out:
            yield out
        return
    part = _part_for(target, there)
    if part is None:
        with open(target, "r+b") as out:
            out.truncate()
            yield out
            out.flush()
            os.fsync(out.fileno())
        return
    try:
        yield part.file
        if there is not None:
            part.take_from(there)
        part.sync()
        os.rename(part.path, target)
    finally:
        part.end()
    sync_folder(os.path.dirname(target) or ".")


def _part_for(target: str, there: Optional[os.stat_result]) -> Optional[Part]:
    """A part for a file; None where its folder doesn't allow one. A file that may not be written isn't replaced either."""
    if there is not None:
        os.close(os.open(target, os.O_WRONLY))
    try:
        return Part(os.path.dirname(target) or ".", 0o600 if there is not None else 0o666)
    except OSError as error:
        if there is None or error.errno not in FORBIDDEN:
            raise
        return None
