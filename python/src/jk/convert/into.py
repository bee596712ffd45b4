"""Images that `jk add` puts into an archive."""
from __future__ import annotations

import contextlib
import fcntl
import os
import re
import subprocess
import tempfile
from typing import Any, BinaryIO, Dict, Iterator, List, Tuple

import numpy as np

from ..files import read
from . import pnm
from .images import Refused

#: An archive takes names of 64 characters; of these some are for pages and opacity.
LONGEST = 52


def name_for(path: str) -> str:
    """The name that an image has in an archive, by the path of its file."""
    return re.sub(r"[^a-z0-9_-]", "-", os.path.splitext(path)[0].lower())[:LONGEST]


def words_of(parameters: Dict[str, Any]) -> List[str]:
    """Parameters of `jk.encode` as words of `jk add`."""
    given, words = dict(parameters), []
    for sides, names in (("tile", ("--tile-width", "--tile-height")), ("block", ("--block-x", "--block-y"))):
        for name, number in zip(names, given.pop(sides, None) or ()):
            words += [name, str(number)]
    if not given.pop("colour", True):
        words.append("--no-colour")
    precincts = given.pop("precincts", ())
    if precincts:
        words += ["--precincts", "".join(f"{down:x}{across:x}" for across, down in precincts)]
    for name, value in given.items():
        if value is not False:
            words += [f"--{name}"] if value is True else [f"--{name}", str(value)]
    return words


class Adding:
    """The images of a file, which are written as PGM and PPM files and then added."""

    def __init__(self, folder: str, program: str, parameters: Dict[str, Any]) -> None:
        self.folder, self.program, self.words = folder, program, words_of(parameters)
        self.parts: List[Tuple[str, str]] = []
        self.room = tempfile.TemporaryDirectory(prefix="jk-convert-")

    @contextlib.contextmanager
    def part(self, out: str) -> Iterator[Tuple[str, BinaryIO]]:
        """A file for an image, and its path."""
        path = os.path.join(self.room.name, f"{len(self.parts)}.pnm")
        self.parts.append((path, out))
        with open(path, "xb") as file:
            yield path, file

    def place(self) -> None:
        """Adds each, by one `jk add` at a time, and reads back what was added."""
        folder = os.open(self.folder, os.O_RDONLY)
        try:
            fcntl.flock(folder, fcntl.LOCK_EX)
            for path, out in self.parts:
                self._add(path, out)
        finally:
            os.close(folder)

    def _add(self, path: str, out: str) -> None:
        name = os.path.splitext(os.path.basename(out))[0]
        line = [self.program, "add", self.folder, name, path, *self.words]
        run = subprocess.run(line, stdin=subprocess.DEVNULL, capture_output=True, text=True, errors="replace")
        is_taken = run.returncode != 0 and "F18 " in run.stderr
        if run.returncode and not is_taken:
            raise Refused(f"jk add: {run.stderr.strip() or 'status ' + str(run.returncode)}")
        picture, = pnm.pictures(path)
        try:
            is_there = np.array_equal(read(out), picture.samples)
        except (OSError, ValueError) as why:
            raise Refused(f"{out} can't be read back: {why}") from why
        if not is_there:
            raise Refused(f"{out} is another image, which has the name already" if is_taken else
                          f"{out} reads back with other samples")

    def __enter__(self) -> "Adding":
        return self

    def __exit__(self, *_: object) -> None:
        self.room.cleanup()
