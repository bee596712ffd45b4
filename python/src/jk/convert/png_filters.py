"""The filters of PNG's rows (its section 9), with numpy."""
from __future__ import annotations

import numpy as np

from .._types import Array
from .images import Refused

NONE, SUB, UP, AVERAGE, PAETH = range(5)
#: So many rows are unfiltered together where bytes depend on those to the left and above.
ROWS = 1024
#: By one of so many rows a filter is chosen for all.
EACH = 8


def unfiltered(data: Array, step: int) -> Array:
    """The bytes of rows, of which each begins with its filter; a pixel has `step` bytes."""
    kinds, rows = data[:, 0], data[:, 1:]
    if int(kinds.max(initial=0)) > PAETH:
        raise Refused("a row has a filter that PNG hasn't")
    width = -(-rows.shape[1] // step)
    room = np.zeros((len(rows) + 1, (width + 1) * step), np.uint8)
    room[1:, step : step + rows.shape[1]] = rows
    at = 0
    while at < len(rows):
        if kinds[at] <= UP:
            _simple(room[at : at + 2, step:], int(kinds[at]), step)
            at += 1
            continue
        count = len(kinds[at : at + ROWS])
        _by_diagonals(room[at : at + count + 1].reshape(count + 1, width + 1, step), kinds[at : at + count])
        at += count
    return np.ascontiguousarray(room[1:, step : step + rows.shape[1]])


def _simple(rows: Array, kind: int, step: int) -> None:
    """The second of two rows, by a filter that needs one neighbour."""
    if kind == UP:
        rows[1] += rows[0]
    elif kind == SUB:
        pixels = rows[1].reshape(-1, step)
        np.cumsum(pixels, axis=0, dtype=np.uint8, out=pixels)


def _by_diagonals(room: Array, kinds: Array) -> None:
    """Rows behind a first one that is done, pixels behind a first column of zeros. Pixels of a diagonal, from the lower
    left to the upper right, depend on those of the two diagonals before it alone."""
    rows, width = room.shape[0] - 1, room.shape[1] - 1
    flat = room.reshape(-1, room.shape[2])
    stride = width + 1
    is_kind = [(kinds == kind)[:, np.newaxis] for kind in range(5)]
    for diagonal in range(rows + width - 1):
        first, last = max(0, diagonal - width + 1), min(rows - 1, diagonal)
        begin = (first + 1) * stride + diagonal - first + 1
        # One row further down and one pixel to the left.
        end = begin + (last - first) * (stride - 1) + 1
        here = flat[begin : end : stride - 1]
        left, above, corner = (flat[begin - far : end - far : stride - 1].astype(np.int16)
                               for far in (1, stride, stride + 1))
        chosen = [kind[first : last + 1] for kind in is_kind]
        here += predicted(left, above, corner, chosen)


def predicted(left: Array, above: Array, corner: Array, chosen: list) -> Array:
    """What each filter foretells of bytes."""
    to_left, to_above = np.abs(above - corner), np.abs(left - corner)
    to_corner = np.abs(left + above - 2 * corner)
    paeth = np.where((to_left <= to_above) & (to_left <= to_corner), left,
                     np.where(to_above <= to_corner, above, corner))
    found = np.where(chosen[PAETH], paeth, 0)
    found += chosen[SUB] * left + chosen[UP] * above + chosen[AVERAGE] * ((left + above) >> 1)
    return found.astype(np.uint8)


def filtered(rows: Array, above: Array, step: int) -> bytes:
    """Rows behind a filter, one for all of them, by which the bytes of some are nearest to 0; `above` stands before the
    first."""
    over = np.vstack([above[np.newaxis], rows[:-1]])
    sums = [_far(rows[::EACH] - foretold(rows[::EACH], over[::EACH], kind, step)) for kind in range(5)]
    best = int(np.argmin(sums))
    out = np.empty((len(rows), rows.shape[1] + 1), np.uint8)
    out[:, 0] = best
    np.subtract(rows, foretold(rows, over, best, step), out=out[:, 1:])
    return out.tobytes()


def _far(made: Array) -> int:
    """How far bytes are from 0 in sum, as numbers with a sign."""
    return int(np.minimum(made, 0 - made).sum(dtype=np.int64))


def foretold(rows: Array, over: Array, kind: int, step: int) -> Array:
    """What a filter foretells of the bytes of rows, of which each has one over it."""
    left = np.pad(rows, ((0, 0), (step, 0)))[:, : rows.shape[1]]
    if kind <= UP:
        return (np.zeros_like(rows), left, over)[kind]
    corner = np.pad(over, ((0, 0), (step, 0)))[:, : rows.shape[1]]
    return predicted(*(it.astype(np.int16) for it in (left, over, corner)), [kind == it for it in range(5)])
