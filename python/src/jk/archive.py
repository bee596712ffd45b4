"""Images of an archive behind `jk serve`."""
from __future__ import annotations

import urllib.error
import urllib.request
from dataclasses import dataclass
from typing import Dict, List

import numpy as np

from ._types import Array
from .faults import BadWindow, Fault, NoSuchImage, Shelf
from .files import read


@dataclass(frozen=True)
class Listed:
    """An image as the archive lists it."""

    name: str
    width: int
    height: int
    components: int
    depth: int
    levels: int


class Archive:
    """An archive behind `jk serve`, as `Archive("http://127.0.0.1:8080")`."""

    def __init__(self, url: str, timeout: float = 30) -> None:
        self.url = url.rstrip("/")
        self.timeout = timeout

    def get(self, path: str) -> bytes:
        """The reply to a request for a path. NoSuchImage, BadWindow and Shelf: the server refused it."""
        refused: Dict[int, Fault] = {404: NoSuchImage(path), 400: BadWindow(path), 500: Shelf(path)}
        try:
            with urllib.request.urlopen(self.url + path, timeout=self.timeout) as reply:
                return bytes(reply.read())
        except urllib.error.HTTPError as error:
            if error.code in refused:
                raise refused[error.code] from error
            raise

    def images(self) -> List[Listed]:
        """The images, in the order of their names."""
        lines = (line.split() for line in self.get("/images").decode("ascii").splitlines())
        return [Listed(name, *(int(number) for number in numbers)) for name, *numbers in lines]

    def file(self, name: str) -> bytes:
        """The stored file of an image."""
        return self.get(f"/images/{name}")

    def cut(self, name: str, x: int, y: int, w: int, h: int, r: int = 0) -> bytes:
        """The file of a window of an image, `r` times halved."""
        return self.get(f"/images/{name}/window?x={x}&y={y}&w={w}&h={h}&r={r}")

    def window(self, name: str, x: int, y: int, w: int, h: int, r: int = 0) -> Array:
        """The samples of a window of an image, `r` times halved: what `read` gives of the stored file."""
        return read(self.cut(name, x, y, w, h, r), reduce=r, window=(x, y, w, h))
