"""JP2 files with boxes as other programs write them, and with damaged ones: a part of tools/trials/others. Boxes are those of
T.800 Annex I; what `jk extras` is to list of a file is known by what was put into it."""
import struct

# XMP, EXIF, IPTC, GeoJP2, Photoshop's resources, EXIF by Photoshop.
UUIDS = [bytes.fromhex(it) for it in (
    "be7acfcb97a942e89c71999491e3afac", "4a706754696666457869662d3e4a5032", "33c7a4d2b81d4723a0baf1a3e097ad38",
    "b14bf8bd083d4b43a5ae8cd7d5a6ce03", "2c4c0100850440b9a03e562148d6dfeb", "0537cdab9d0c4431a72afa561f2a113e")]
SPACES = {16: "sRGB", 17: "grey", 18: "sYCC"}


def box(kind, contents, form="short"):
    """A box, whose length has four bytes, eight, or isn't told."""
    if form == "long":
        return struct.pack(">L4sQ", 1, kind, 16 + len(contents)) + contents
    return struct.pack(">L4s", 0 if form == "open" else 8 + len(contents), kind) + contents


def boxes_in(data):
    """The boxes that stand one after another: the kind, the place, the place of the contents and that behind them."""
    found, at = [], 0
    while at + 8 <= len(data):
        size, kind = struct.unpack(">L4s", data[at:at + 8])
        head = 16 if size == 1 else 8
        end = at + int.from_bytes(data[at + 8:at + 16], "big") if size == 1 else at + size if size else len(data)
        found.append((kind, at, at + head, end))
        at = end
    return found


def some(chance, most):
    return bytes(chance.randrange(256) for _ in range(chance.randint(0, most)))


def colours(chance, plain):
    """Colour specification boxes, and the lines that list them: that of the encoder, and others beside it."""
    number = int.from_bytes(plain[3:7], "big")
    told = [(plain, SPACES.get(number, "enumerated=%d" % number))]
    for _ in range(chance.choice((0, 0, 1, 1, 2))):
        method = chance.choice((1, 2, 2, 3, 4, 255))
        front = bytes((method, chance.choice((0, 0, 1, 255)), chance.choice((0, 1, 4))))
        if method == 1:
            space = chance.choice((16, 17, 18, 12, 14, 4000))
            one = front + space.to_bytes(4, "big"), SPACES.get(space, "enumerated=%d" % space)
        else:
            rest = b"?" + some(chance, 600)
            one = front + rest, ("profile=%d" % len(rest)) if method == 2 else "method=%d" % method
        told.insert(chance.randint(0, len(told)), one)
    return [box(b"colr", contents) for contents, _ in told], ["colour: " + value for _, value in told]


def resolution(chance):
    """Resolution boxes, and the lines that list the first of them."""
    boxes, lines = [], []
    for number in range(chance.choice((0, 1, 1, 1, 2))):
        inside, told = [], {}
        for kind in chance.choice(((b"resc",), (b"resd",), (b"resc", b"resd"), (b"resd", b"resc"), (b"resc", b"resc"), (b"free", b"resd"))):
            grid = [chance.randint(1, 65535) for _ in range(4)] + [chance.randint(-128, 127) for _ in range(2)]
            contents = struct.pack(">4H2b", *grid) if kind != b"free" else some(chance, 9)
            inside.append(box(kind, contents))
            if kind != b"free":
                told.setdefault(kind, "%d/%de%dx%d/%de%d" % (grid[2], grid[3], grid[5], grid[0], grid[1], grid[4]))
        boxes.append(box(b"res ", b"".join(inside)))
        if number == 0:
            lines = ["%s: %s" % (label, told[kind]) for kind, label in ((b"resc", "capture"), (b"resd", "display")) if kind in told]
    return boxes, lines


def another(chance):
    """A box of another program, and the line that lists it, if it has one."""
    kind = chance.choice((b"xml ", b"xml ", b"uuid", b"uuid", b"uuid", b"uinf", b"jp2i", b"free", b"asoc", b"rreq", b"mdat"))
    contents = some(chance, chance.choice((5, 40, 3000)))
    if kind == b"uuid":
        name = chance.choice((*UUIDS, bytes(chance.randrange(256) for _ in range(16))))
        return kind, name + contents, "uuid: %s=%d" % (name.hex(), len(contents))
    if kind == b"uinf":
        contents = box(b"ulst", b"\0\1" + UUIDS[0]) + box(b"url ", bytes(4) + b"http://localhost/\0")
    return kind, contents, "xml: %d" % len(contents) if kind == b"xml " else None


def odd(chance, data):
    """The file with odd boxes around its codestream, and the lines that list what it keeps."""
    found = {kind: data[start:end] for kind, _, start, end in boxes_in(data)}
    inner = {kind: found[b"jp2h"][start:end] for kind, _, start, end in boxes_in(found[b"jp2h"])}
    colour, lines = colours(chance, inner[b"colr"])
    grids, told = resolution(chance)
    rest = grids
    for one in [box(b"bpcc", inner[b"bpcc"])] if b"bpcc" in inner else []:
        rest.insert(chance.randint(0, len(rest)), one)
    if chance.random() < 0.3:
        one = chance.choice((box(b"uuid", UUIDS[0] + b"inside"), box(b"lbl ", b"a label"), box(b"free", some(chance, 30))))
        rest.insert(chance.randint(0, len(rest)), one)
    header = box(b"jp2h", box(b"ihdr", inner[b"ihdr"]) + b"".join([*colour, *rest] if chance.random() < 0.7 else [*rest, *colour]),
                 chance.choice(("short", "short", "long")))
    lines += told
    parts = [box(b"jP  ", found[b"jP  "]), box(b"ftyp", found[b"ftyp"])]
    places = [[another(chance) for _ in range(chance.choice((0, 0, 1, 3)))] for _ in range(3)]
    last = len(places[2]) > 0 or chance.random() < 0.7
    for number, (boxes, behind) in enumerate(zip(places, (header, box(b"jp2c", found[b"jp2c"], chance.choice(("short", "long")) if last else "open"), b""))):
        for count, (kind, contents, line) in enumerate(boxes):
            is_last = number == 2 and count == len(boxes) - 1
            parts.append(box(kind, contents, chance.choice(("short", "short", "long", "open") if is_last else ("short", "short", "long"))))
            lines += [line] if line else []
        parts.append(behind)
    return b"".join(parts), lines


def outside(data):
    """The places of a file that aren't within its codestream."""
    code = next((start, end) for kind, _, start, end in boxes_in(data) if kind == b"jp2c")
    return [*range(code[0]), *range(code[1], len(data))]


def heads(data):
    """Where the boxes begin, those within the JP2 header box too."""
    found = boxes_in(data)
    inside = next((start, end) for kind, _, start, end in found if kind == b"jp2h")
    return [at for _, at, _, _ in found] + [inside[0] + at for _, at, _, _ in boxes_in(data[inside[0]:inside[1]])]


def moved(chance, data):
    """The file with a box left out, doubled, or at another place."""
    parts = [data[at:end] for _, at, _, end in boxes_in(data)]
    place = chance.randrange(len(parts))
    part = parts[place]
    how = chance.choice(("lost", "doubled", "elsewhere"))
    if how != "doubled":
        del parts[place]
    if how != "lost":
        parts.insert(chance.randint(0, len(parts)), part)
    return b"".join(parts)


def damaged(chance, data):
    """The file with one to six changes to its boxes; its codestream stays."""
    if chance.random() < 0.2:
        return moved(chance, data)
    changed, places = bytearray(data), outside(data)
    for _ in range(chance.choice((1, 1, 1, 2, 3, 6))):
        how = chance.choice(("byte", "bit", "length", "kind"))
        at = chance.choice(places) if how in ("byte", "bit") else chance.choice(heads(data))
        if how == "byte":
            changed[at] = chance.randrange(256)
        elif how == "bit":
            changed[at] ^= 1 << chance.randrange(8)
        elif how == "length":
            size = int.from_bytes(changed[at:at + 4], "big")
            size = chance.choice((0, 1, 7, 8, size - 1, size + 1, size + 8, len(data), 0xFFFFFFFF, chance.randrange(1 << 32)))
            changed[at:at + 4] = (size % (1 << 32)).to_bytes(4, "big")
        else:
            kind = chance.choice((b"xml ", b"uuid", b"colr", b"res ", b"resc", b"jp2h", b"jp2c", b"pclr", b"ihdr", b"bpcc", b"\0\0\0\0"))
            changed[at + 4:at + 8] = kind
    if chance.random() < 0.1:
        places = outside(bytes(data))
        del changed[chance.choice(places):]
    return bytes(changed)
