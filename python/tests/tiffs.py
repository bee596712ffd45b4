"""TIFF and PNG files that are made for tests, byte by byte."""
import struct
import zlib

import numpy as np

SIZES = {1: 1, 2: 1, 3: 2, 4: 4, 5: 8, 7: 1, 12: 8, 16: 8, 18: 8}
LETTERS = {1: "B", 2: "B", 3: "H", 4: "L", 7: "B", 12: "d", 16: "Q", 18: "Q"}


def value(order, kind, values):
    """The bytes of a field's values: numbers, pairs of a ratio, or bytes as they are."""
    if isinstance(values, (bytes, bytearray)):
        return bytes(values), len(values) // SIZES[kind]
    if kind == 5:
        return b"".join(struct.pack(f"{order}LL", *pair) for pair in values), len(values)
    return struct.pack(f"{order}{len(values)}{LETTERS[kind]}", *values), len(values)


def directory(order, fields, place, big=False, after=0):
    """A directory of fields {tag: (kind, values)}, of which values may be another such, at a place."""
    wide, letter = (8, "Q") if big else (4, "L")
    head = struct.pack(f"{order}{'Q' if big else 'H'}", len(fields))
    begin = place + len(head) + len(fields) * (4 + 2 * wide) + wide
    entries, behind = b"", b""
    for tag, (kind, values) in sorted(fields.items()):
        if isinstance(values, dict):
            data, count = value(order, kind, [begin + len(behind)])
            behind += directory(order, values, begin + len(behind), big)
        else:
            data, count = value(order, kind, values)
            if len(data) > wide:
                at = begin + len(behind)
                behind += data + bytes(len(data) % 2)
                data = struct.pack(f"{order}{letter}", at)
        entries += struct.pack(f"{order}HH{letter}", tag, kind, count) + data.ljust(wide, b"\0")
    return head + entries + struct.pack(f"{order}{letter}", after) + behind


def parts_of(samples, order, tile, rows, planar, compression, predictor):
    """The strips or tiles of samples (height, width, components), as bytes."""
    planes = [samples[:, :, k : k + 1] for k in range(samples.shape[2])] if planar else [samples]
    across, down = tile or (samples.shape[1], rows)
    for plane in planes:
        for y in range(0, plane.shape[0], down):
            for x in range(0, plane.shape[1], across):
                part = plane[y : y + down, x : x + across]
                if tile:
                    part = np.pad(part, ((0, down - part.shape[0]), (0, across - part.shape[1]), (0, 0)))
                if predictor == 2:
                    part = np.diff(part, axis=1, prepend=part.dtype.type(0))
                data = part.astype(part.dtype.newbyteorder(order)).tobytes()
                yield zlib.compress(data) if compression == 8 else data


#: How samples lie, where it isn't told.
USUAL = {"order": "<", "big": False, "tile": None, "rows": 16, "planar": False, "compression": 1, "predictor": 1,
         "fields": {}, "parts": None}


def page(samples, place, **how):
    """The text of an image at a place: its samples, where its directory begins, and what that is by where the next one
    begins. A field that is None is left out."""
    order, big, tile, rows, planar, compression, predictor, fields, parts = {**USUAL, **how}.values()
    whole = samples[:, :, np.newaxis] if samples.ndim == 2 else samples
    height, width, components = whole.shape
    parts = parts or list(parts_of(whole, order, tile, rows, planar, compression, predictor))
    places = [place + sum(map(len, parts[:number])) for number in range(len(parts))]
    told = {
        256: (4, [width]), 257: (4, [height]), 258: (3, [8 * whole.dtype.itemsize] * components),
        259: (3, [compression]), 262: (3, [2 if components >= 3 else 1]), 277: (3, [components]),
        284: (3, [2 if planar else 1]), 339: (3, [2 if whole.dtype.kind == "i" else 1] * components),
        **({317: (3, [2])} if predictor == 2 else {}),
    }
    wide, sizes = 16 if big else 4, (4, [len(it) for it in parts])
    if tile:
        told.update({322: (3, [tile[0]]), 323: (3, [tile[1]]), 324: (wide, places), 325: sizes})
    else:
        told.update({278: (4, [rows]), 273: (wide, places), 279: sizes})
    told = {tag: it for tag, it in {**told, **fields}.items() if it is not None}
    data = b"".join(parts)
    data += bytes(-(place + len(data)) % 8)
    return data, place + len(data), lambda following: directory(order, told, place + len(data), big, following)


def tiff(path, *images, **how):
    """A file of images, each an array, or an array and how it lies, other than all."""
    order, big = how.get("order", "<"), how.get("big", False)
    head = (b"II" if order == "<" else b"MM") + struct.pack(f"{order}H", 43 if big else 42)
    head += struct.pack(f"{order}HH", 8, 0) if big else b""
    begin = 16 if big else 8
    body, places, made = b"", [], []
    for image in images:
        samples, own = image if isinstance(image, tuple) else (image, {})
        data, at, text = page(samples, begin + len(body), **{**how, **own})
        places.append(at)
        made.append((len(body) + len(data), text))
        body += data + text(0)
        body += bytes(-len(body) % 8)
    for number, (at, text) in enumerate(made[:-1]):
        told = text(places[number + 1])
        body = body[:at] + told + body[at + len(told) :]
    path.write_bytes(head + struct.pack(f"{order}{'Q' if big else 'L'}", places[0]) + body)
    return path


def chunk(kind, data):
    return struct.pack(">L", len(data)) + kind + data + struct.pack(">L", zlib.crc32(kind + data))


def png_rows(samples, depth, kinds):
    """The rows of samples (height, width, channels), filtered by these filters in turn, as the standard has them, byte
    by byte."""
    if depth < 8:
        bits = samples[:, :, 0][:, :, np.newaxis] >> np.arange(depth)[::-1] & 1
        rows = np.packbits(bits.astype(np.uint8).reshape(len(samples), -1), axis=1).tolist()
    else:
        rows = [list(row.astype(">u2" if depth == 16 else "u1").tobytes()) for row in samples]
    step, above, out = max(1, depth * samples.shape[2] // 8), [0] * len(rows[0]), b""
    for number, row in enumerate(rows):
        kind = kinds[number % len(kinds)]
        made = []
        for at, byte in enumerate(row):
            a, b, c = row[at - step] if at >= step else 0, above[at], above[at - step] if at >= step else 0
            nearest = min((abs(b - c), 0, a), (abs(a - c), 1, b), (abs(a + b - 2 * c), 2, c))[2]
            made.append((byte - (0, a, b, (a + b) // 2, nearest)[kind]) % 256)
        out += bytes([kind, *made])
        above = row
    return out


PASSES = ((0, 0, 8, 8), (4, 0, 8, 8), (0, 4, 4, 8), (2, 0, 4, 4), (0, 2, 2, 4), (1, 0, 2, 2), (0, 1, 1, 2))


def png(path, samples, depth=None, colour=None, kinds=(0, 1, 2, 3, 4), interlaced=False, chunks=()):
    """A PNG file, of samples (height, width) or (height, width, channels)."""
    whole = samples[:, :, np.newaxis] if samples.ndim == 2 else samples
    depth = depth or 8 * whole.dtype.itemsize
    colour = {1: 0, 2: 4, 3: 2, 4: 6}[whole.shape[2]] if colour is None else colour
    parts = [whole[y::down, x::across] for x, y, across, down in PASSES] if interlaced else [whole]
    rows = b"".join(png_rows(part, depth, kinds) for part in parts if part.size)
    data = zlib.compress(rows)
    head = struct.pack(">LLBBBBB", whole.shape[1], whole.shape[0], depth, colour, 0, 0, int(interlaced))
    text = [chunk(b"IHDR", head), *(chunk(*it) for it in chunks)]
    text += [chunk(b"IDAT", data[: len(data) // 2]), chunk(b"IDAT", data[len(data) // 2 :]), chunk(b"IEND", b"")]
    path.write_bytes(b"\x89PNG\r\n\x1a\n" + b"".join(text))
    return path
