"""Decoded samples that are kept, so that the next tile of a view is a slice, and answers that were made of them, which take
less room and so are kept longer.

A region is decoded alone, or with its neighbours: as the aligned piece that holds it. Decoding a region takes the
code-blocks around it too, so a piece of 1,024 by 1,024 samples costs little more than two of its four tiles of 512 by 512.
It is decoded where a region that touches this one, or shows the same place at the next reduction, was asked for shortly
before. Where pieces are decoded for nothing, as for tiles that are asked for at random, a balance runs out and regions are
decoded alone again.
"""
from __future__ import annotations

import threading
import time
from collections import OrderedDict, deque
from concurrent.futures import Future
from dataclasses import dataclass, replace
from hashlib import blake2b
from typing import Callable, Deque, Dict, Hashable, Iterable, List, Optional, Protocol, Tuple, Union

import numpy as np

from ._types import Array

#: A rectangle of samples: its left, upper, right and lower edge.
Box = Tuple[int, int, int, int]
#: A name, and what tells its image from another one under that name at another time.
Named = Tuple[str, bytes]
#: An image, and a region at a reduction or the tag of an answer.
Key = Tuple[Named, Hashable]

#: The tags, regions and writers of the answers that are made of a piece.
Neighbours = Callable[[Box], Iterable[Tuple[str, Box, Callable[[Array], bytes]]]]

#: How many requests are remembered, to know neighbours by.
RECENT = 8
#: So many samples are added to each side of a region to compare what regions cost: 512 by 512 samples take 150 to 210 ms,
#: 1,024 by 1,024 380 to 500 and 2,048 by 2,048 1,180 to 1,360 (colour, 3.4 bits a sample).
MARGIN = 512
#: How many pieces may be decoded for nothing before regions are decoded alone, and how many a run of hits allows at most.
FIRST_PIECES, MOST_PIECES = 1, 16
#: A region that is decoded alone allows this part of its cost for pieces.
PART = 1 / 16
#: One part in so many of what is kept is for answers: a JPEG file of a tile has a twelfth of the bytes of its samples.
PART_OF_ANSWERS = 2
#: After so many seconds the file of a region is asked for again, and compared with that of which it was decoded.
RECHECK = 10.0


class Source(Protocol):
    """An image at a reduction."""

    @property
    def image(self) -> Named:
        """The image, told from all others."""

    @property
    def reduce(self) -> int:
        """How often it is halved."""

    @property
    def size(self) -> Tuple[int, int]:
        """Width and height."""

    def file(self, box: Box) -> bytes:
        """The file of a region."""

    def decoded(self, file: bytes, box: Box) -> Array:
        """The samples of a region, out of its file."""


@dataclass(frozen=True)
class Place:
    """A region of an image at a reduction."""

    image: Named
    reduce: int
    box: Box

    def is_near(self, other: "Place") -> bool:
        """Whether two regions meet, if only at a corner, or show the same place at two reductions that follow each other."""
        if self.image != other.image or abs(self.reduce - other.reduce) > 1:
            return False
        if self.reduce == other.reduce:
            return _gap(self.box, other.box) <= 0
        coarse, fine = (self, other) if self.reduce > other.reduce else (other, self)
        return _gap(_doubled(coarse.box), fine.box) < 0


@dataclass(frozen=True)
class Entry:
    """What is kept: samples or an answer, the region of which it was made, the digest of that region's file, when the
    server last gave that file, and whether it is an answer that nobody has asked for yet."""

    value: Union[Array, bytes]
    box: Box
    digest: bytes
    given: float
    is_ahead: bool = False

    @property
    def size(self) -> int:
        return len(self.value) if isinstance(self.value, bytes) else self.value.nbytes


def cost(box: Box) -> int:
    """What decoding a region costs, in a unit of its own."""
    left, upper, right, lower = box
    return (right - left + MARGIN) * (lower - upper + MARGIN)


def _gap(one: Box, other: Box) -> int:
    """How far regions are from each other: 0 where they touch, less where they overlap."""
    return max(max(one[0], other[0]) - min(one[2], other[2]), max(one[1], other[1]) - min(one[3], other[3]))


def _doubled(box: Box) -> Box:
    return 2 * box[0], 2 * box[1], 2 * box[2], 2 * box[3]


def pieces_of(box: Box, size: Tuple[int, int], side: int) -> List[Box]:
    """The aligned pieces that a region meets, row by row."""
    left, upper, right, lower = box
    return [
        (x, y, min(x + side, size[0]), min(y + side, size[1]))
        for y in range(upper // side * side, lower, side)
        for x in range(left // side * side, right, side)
    ]


class Kept:
    """The entries that were used last, of `most` bytes at most."""

    def __init__(self, most: int) -> None:
        self.most, self.size = most, 0
        # The least recently used first.
        self.entries: OrderedDict[Key, Entry] = OrderedDict()

    def get(self, key: Key) -> Optional[Entry]:
        entry = self.entries.get(key)
        if entry is not None:
            self.entries.move_to_end(key)
        return entry

    def put(self, key: Key, entry: Entry) -> None:
        self.drop(key)
        # One that is as large as half of all would drive out the others.
        if entry.size > self.most // 2:
            return
        self.entries[key] = entry
        self.size += entry.size
        while self.size > self.most:
            self.drop(next(iter(self.entries)))

    def drop(self, key: Key) -> None:
        gone = self.entries.pop(key, None)
        if gone is not None:
            self.size -= gone.size

    def forget(self, name: str) -> None:
        """Drops what is kept of the images of a name."""
        for key in [it for it in self.entries if it[0][0] == name]:
            self.drop(key)


class Pieces:
    """Samples and answers, `most` bytes of them; with 0 nothing is kept. `side` is that of a piece.

    Calls may come from several threads: what two of them ask for is decoded once."""

    def __init__(self, most: int, side: int = 1024) -> None:
        self.most, self.side = most, side
        self._lock = threading.Lock()
        self._answers = Kept(most // PART_OF_ANSWERS)
        self._held = Kept(most - self._answers.most)
        self._making: Dict[Key, Future[Entry]] = {}
        self._recent: Deque[Place] = deque(maxlen=RECENT)
        whole = cost((0, 0, side, side))
        self._balance, self._most_balance = float(FIRST_PIECES * whole), float(MOST_PIECES * whole)

    @property
    def kept(self) -> int:
        """How many bytes are kept."""
        return self._held.size + self._answers.size

    def answer(self, source: Source, box: Box, tag: str, write: Callable[[Array], bytes],
               neighbours: Optional[Neighbours] = None) -> bytes:
        """The answer of a tag, kept or made of the samples of a region. Where a piece is decoded for it, the answers of
        `neighbours` of that piece are made and kept too: they take less room than the piece, which may be dropped soon."""
        if not self.most:
            return write(source.decoded(source.file(box), box))
        key = source.image, tag
        with self._lock:
            entry = self._answers.get(key)
            if entry is not None:
                self._recent.append(Place(source.image, source.reduce, box))
                if entry.is_ahead:
                    entry = replace(entry, is_ahead=False)
                    self._answers.put(key, entry)
                    self._balance = min(self._balance + cost(box), self._most_balance)
        if entry is not None:
            if time.monotonic() - entry.given >= RECHECK:
                entry = self._given_again(source, key, entry)
            if entry is not None and isinstance(entry.value, bytes):
                return entry.value
        samples, whole, is_new = self._cut(source, box)
        made = write(samples)
        if whole is not None:
            self._keep(key, Entry(made, whole.box, whole.digest, whole.given))
            if is_new and neighbours is not None and whole.box != box:
                for other, part, write_other in neighbours(whole.box):
                    if other != tag:
                        ahead = Entry(write_other(_part(whole, part)), whole.box, whole.digest, whole.given, is_ahead=True)
                        self._keep((source.image, other), ahead)
        return made

    def samples(self, source: Source, box: Box) -> Array:
        """The samples of a region, which nobody may change."""
        if not self.most:
            return source.decoded(source.file(box), box)
        return self._cut(source, box)[0]

    def forget(self, name: str) -> None:
        """Drops what is kept of the images of a name."""
        with self._lock:
            self._held.forget(name)
            self._answers.forget(name)

    def _keep(self, key: Key, answer: Entry) -> None:
        with self._lock:
            # Another thread may have made it meanwhile, and it may have been asked for.
            if not answer.is_ahead or key not in self._answers.entries:
                self._answers.put(key, answer)

    def _cut(self, source: Source, box: Box) -> Tuple[Array, Optional[Entry], bool]:
        """The samples of a region, what they were cut out of, where that is one region, and whether it was decoded now."""
        around = pieces_of(box, source.size, self.side)
        if len(around) > 1:
            joined = self._joined(source, box, around)
            if joined is not None:
                return joined, None, False
        whole = box if len(around) > 1 else self._whole(Place(source.image, source.reduce, box), around[0])
        entry, is_new = self._had(source, whole)
        return _part(entry, box), entry, is_new

    def _whole(self, place: Place, piece: Box) -> Box:
        """What is decoded, or was, for a region of a piece."""
        box = place.box
        with self._lock:
            is_near = any(place.is_near(it) for it in self._recent)
            self._recent.append(place)
            if self._is_there(place, piece):
                self._balance = min(self._balance + cost(box), self._most_balance)
                return piece
            if piece == box or self._is_there(place, box):
                return box
            more = cost(piece) - cost(box)
            if is_near and self._balance >= more:
                self._balance -= more
                return piece
            self._balance = min(self._balance + PART * cost(box), self._most_balance)
            return box

    def _is_there(self, place: Place, box: Box) -> bool:
        key = place.image, (place.reduce, box)
        return key in self._held.entries or key in self._making

    def _joined(self, source: Source, box: Box, around: List[Box]) -> Optional[Array]:
        """A region of several pieces, where all of them are kept."""
        with self._lock:
            if not all((source.image, (source.reduce, piece)) in self._held.entries for piece in around):
                return None
        parts = [self._had(source, piece)[0] for piece in around]
        left, upper, right, lower = box
        first = parts[0].value
        assert not isinstance(first, bytes)
        out = np.empty((lower - upper, right - left, *first.shape[2:]), first.dtype)
        for entry in parts:
            inner = (max(left, entry.box[0]), max(upper, entry.box[1]), min(right, entry.box[2]), min(lower, entry.box[3]))
            out[inner[1] - upper:inner[3] - upper, inner[0] - left:inner[2] - left] = _part(entry, inner)
        return out

    def _had(self, source: Source, box: Box) -> Tuple[Entry, bool]:
        """The samples of a region, kept or decoded, and whether this thread decoded them; of several threads one does."""
        key = source.image, (source.reduce, box)
        with self._lock:
            entry = self._held.get(key)
            if entry is not None and time.monotonic() - entry.given < RECHECK:
                return entry, False
            others = self._making.get(key)
            if others is None:
                mine: Future[Entry] = Future()
                self._making[key] = mine
        if others is not None:
            return others.result(), False
        try:
            made = _made(source, box, entry)
        except BaseException as error:
            with self._lock:
                del self._making[key]
                self._held.drop(key)
            mine.set_exception(error)
            raise
        with self._lock:
            del self._making[key]
            self._held.put(key, made)
        mine.set_result(made)
        return made, True

    def _given_again(self, source: Source, key: Key, entry: Entry) -> Optional[Entry]:
        """An answer, where the server gives the file of its region as before."""
        given = time.monotonic()
        is_same = blake2b(source.file(entry.box)).digest() == entry.digest
        again = Entry(entry.value, entry.box, entry.digest, given)
        with self._lock:
            if is_same:
                self._answers.put(key, again)
            else:
                self._answers.drop(key)
        return again if is_same else None


def _made(source: Source, box: Box, old: Optional[Entry]) -> Entry:
    given = time.monotonic()
    file = source.file(box)
    digest = blake2b(file).digest()
    if old is not None and old.digest == digest:
        return Entry(old.value, box, digest, given)
    samples = source.decoded(file, box)
    samples.flags.writeable = False
    return Entry(samples, box, digest, given)


def _part(entry: Entry, box: Box) -> Array:
    """A region out of the samples of another one that holds it."""
    samples, (x, y, _, _) = entry.value, entry.box
    assert not isinstance(samples, bytes)
    return samples[box[1] - y:box[3] - y, box[0] - x:box[2] - x]
