"""The slowest files known, for trials."""

MB = 1 << 20
LRCP, RLCP, RPCL, PCRL, CPRL = range(5)


# Parts of a codestream.

def number(value, size):
    return value.to_bytes(size, "big")


def segment(marker, body):
    return number(marker, 2) + number(len(body) + 2, 2) + body


def siz(width, height, tile=None, components=1, depth=8, origin=(0, 0)):
    across, down = tile or (origin[0] + width, origin[1] + height)
    frame = (origin[0] + width, origin[1] + height, *origin, across, down, 0, 0)
    return segment(0xFF51, b"\0\0" + b"".join(number(n, 4) for n in frame) + number(components, 2)
                   + bytes((depth - 1, 1, 1)) * components)


def cod(levels=0, order=LRCP, layers=1, colour=0, block=(4, 4), precincts=None, flags=0):
    style = flags | (1 if precincts else 0)
    return segment(0xFF52, bytes((style, order)) + number(layers, 2) + bytes((colour, levels, *block, 0, 1))
                   + bytes(precincts or b""))


def qcd(levels=0, exponent=8, guard=2):
    return segment(0xFF5C, bytes((guard << 5,)) + bytes((exponent << 3,)) * (3 * levels + 1))


def part(tile, data, header=b"", which=0, parts=1):
    return (number(0xFF90000A, 4) + number(tile, 2) + number(14 + len(header) + len(data), 4)
            + bytes((which, parts)) + header + b"\xFF\x93" + data)


def stream(main, parts):
    return b"\xFF\x4F" + main + b"".join(parts) + b"\xFF\xD9"


def box(kind, body):
    return number(len(body) + 8, 4) + kind + body


def boxes(width, height, codestream, between=b""):
    head = box(b"ihdr", number(height, 4) + number(width, 4) + b"\0\1\7\7\0\0") + box(b"colr", b"\1\0\0" + number(17, 4))
    return (box(b"jP  ", b"\r\n\x87\n") + box(b"ftyp", b"jp2 \0\0\0\0jp2 ") + box(b"jp2h", head) + between
            + box(b"jp2c", codestream))


class Bits:
    """The bits of a packet header (T.800 B.10.1)."""

    def __init__(self):
        self.out, self.byte, self.room = bytearray(), 0, 8

    def put(self, bit):
        self.room -= 1
        self.byte |= bit << self.room
        if self.room == 0:
            self.out.append(self.byte)
            self.room, self.byte = 7 if self.byte == 255 else 8, 0

    def many(self, value, count):
        for at in range(count - 1, -1, -1):
            self.put(value >> at & 1)

    def end(self):
        if self.room < 8:
            self.out.append(self.byte)
            if self.byte == 255:
                self.out.append(0)
        return bytes(self.out)


class Ones:
    """A tag tree whose values are all 0, told up to 1: a bit for each node that is new."""

    def __init__(self, across, down):
        self.levels = []
        while True:
            self.levels.append((across, set()))
            if across * down <= 1:
                break
            across, down = (across + 1) // 2, (down + 1) // 2

    def tell(self, bits, x, y):
        for level in range(len(self.levels) - 1, -1, -1):
            across, told = self.levels[level]
            place = (y >> level) * across + (x >> level)
            if place not in told:
                told.add(place)
                bits.put(1)


def closed_packets(across, down, squares, layers):
    """Packets of so many layers that include no code-block: in each, the tag tree of inclusion tells of each of these squares,
    by the node over it, that it isn't included, and of no other node anything but that it is below the first threshold.

    A square is a level, and a column and a row of nodes of this level; together they cover all leaves once.
    """
    top = 0
    while max(across, down) > 1 << top:
        top += 1
    bits, known = Bits(), set()
    bits.put(1)
    for _, _, level, x, y in sorted((y << level, x << level, level, x, y) for level, x, y in squares):
        for over in range(top, level, -1):
            node = (over, x >> over - level, y >> over - level)
            if node not in known:
                known.add(node)
                bits.put(1)
        bits.put(0)
    return bits.end() + (b"\x80" + bytes(len(squares) // 8)) * (layers - 1)


def grid(side, level):
    """All squares of a level."""
    return [(level, x, y) for y in range(side >> level) for x in range(side >> level)]


def grid_and_column(side, level):
    """The same, but each leaf of the first column for itself, and with it the least squares that lie beside it."""
    beside = [(0, x, y) for y in range(side) for x in range(2)]
    beside += [(over, 1, y) for over in range(1, level) for y in range(side >> over)]
    return beside + [square for square in grid(side, level) if square[1] > 0]


def full_packet(across, down, passes, data):
    """The first packet of a precinct in which each code-block has so many passes, all bit-planes and this segment."""
    bits, inclusion, planes = Bits(), Ones(across, down), Ones(across, down)
    bits.put(1)
    width = max(3 + passes.bit_length() - 1, len(data).bit_length())
    for y in range(down):
        for x in range(across):
            inclusion.tell(bits, x, y)
            planes.tell(bits, x, y)
            if passes == 1:
                bits.put(0)
            elif passes == 2:
                bits.many(2, 2)
            elif passes < 6:
                bits.many(12 + passes - 3, 4)
            elif passes < 37:
                bits.many(0x1E0 + passes - 6, 9)
            else:
                bits.many((0x1FF << 7) + passes - 37, 16)
            more = width - (3 + passes.bit_length() - 1)
            bits.many((2 << more) - 2, more + 1)
            bits.many(len(data), width)
    return bits.end() + data * (across * down)


def flat(width, height, levels=0, block=(4, 4), **more):
    """A file of one tile without a coded block."""
    precincts, layers = more.pop("precincts", None), more.pop("layers", 1)
    packets, components = more.pop("packets", (levels + 1) * layers), more.get("components", 1)
    order, colour = more.pop("order", LRCP), more.pop("colour", 0)
    main = siz(width, height, **more) + cod(levels, order, layers, colour, block, precincts) + qcd(levels)
    return stream(main, [part(0, bytes(packets * components))])


def packets_of_line(length, levels):
    """How many precincts of 2^15 a line has at all resolutions."""
    sides = [(length + (1 << n) - 1) >> n for n in range(levels + 1)]
    return sum((side + 32767) >> 15 for side in sides)


def tiles(side, across, down, **more):
    main = siz(side * across, side * down, (side, side)) + cod(**more) + qcd(more.get("levels", 0))
    return main, across * down


SMALL, LARGE = (0, 0), (4, 4)
ROWS = []


def row(name, samples, time_is_judged=True):
    """A file: the samples that it shows."""
    def keep(made):
        ROWS.append((name, samples, time_is_judged, made))
        return made
    return keep


AREA = 1 << 28
for side, levels in ((16384, 0), (16384, 5), (16384, 10)):
    for name, block in (("4 by 4", SMALL), ("64 by 64", LARGE)):
        row(f"empty, 16384 by 16384, {levels} levels, blocks of {name}", AREA)(
            lambda levels=levels, block=block: flat(16384, 16384, levels, block))
for name, block in (("1024 by 4", (8, 0)), ("4 by 1024", (0, 8))):
    row(f"empty, 16384 by 16384, 5 levels, blocks of {name}", AREA)(lambda block=block: flat(16384, 16384, 5, block))
for levels in (0, 5, 10):
    for name, block in (("4 by 4", SMALL), ("64 by 64", LARGE)):
        row(f"wide and flat, 2^28 by 1, {levels} levels, blocks of {name}", AREA)(
            lambda levels=levels, block=block: flat(AREA, 1, levels, block, packets=packets_of_line(AREA, levels)))
        row(f"high and narrow, 1 by 2^28, {levels} levels, blocks of {name}", AREA)(
            lambda levels=levels, block=block: flat(1, AREA, levels, block, packets=packets_of_line(AREA, levels)))
row("empty, 3 components with the colour transform, 8192 by 8192", 3 << 26)(
    lambda: flat(8192, 8192, 5, LARGE, components=3, colour=1))
row("empty, 4 components of 16 bits, 8192 by 8192", 4 << 26)(lambda: flat(8192, 8192, 5, SMALL, components=4, depth=16))
row("2^28 samples claimed, nothing there", AREA)(lambda: flat(16384, 16384, 5, packets=0))
row("2^28 samples of 4 components claimed, nothing there", AREA)(lambda: flat(16384, 16384, 10, components=4, packets=0))
row("2^28 samples claimed, the main header alone", AREA)(lambda: flat(16384, 16384, 5)[:77])

# Packets.
row("2^24 packets claimed, none there", 1 << 24)(lambda: flat(4096, 4096, precincts=(0,), packets=0))
row("2^24 packets claimed, 900,000 there", 1 << 24)(lambda: flat(4096, 4096, precincts=(0,), packets=900_000))
for order in range(5):
    row(f"960,400 packets of a sample each, order {order}", 980 * 980)(
        lambda order=order: flat(980, 980, precincts=(0,), packets=980 * 980, order=order))
    row(f"65,535 layers of 14 precincts, order {order}", 14)(
        lambda order=order: flat(14, 1, precincts=(0,), layers=65535, packets=14 * 65535, order=order))
    row(f"narrow precincts, 2^18 at each of 11 resolutions claimed, order {order}", AREA)(
        lambda order=order: flat(AREA, 1, 10, precincts=(0, *range(0x11, 0x1B)), packets=900_000, order=order))
row("65,535 layers claimed, 256 precincts", 256)(lambda: flat(256, 1, precincts=(0,), layers=65535, packets=0))
row("65,535 layers of one precinct of 2^24 code-blocks, all empty", AREA)(
    lambda: flat(16384, 16384, 0, SMALL, layers=65535, packets=65535))

# Tag trees: packets that aren't empty and include no code-block.
for layers in (1, 2, 16, 65535):
    row(f"asked, {layers} layers of a precinct of 2^24 code-blocks, none included", AREA)(
        lambda layers=layers: stream(siz(16384, 16384) + cod(layers=layers, block=SMALL) + qcd(), [part(0, b"\x80" * layers)]))
row("asked, 65,535 layers of a precinct of 2^12 code-blocks, none included", 1 << 16)(
    lambda: stream(siz(256, 256) + cod(layers=65535, block=SMALL) + qcd(), [part(0, b"\x80" * 65535)]))
row("asked, 950,000 layers' packets of 14 precincts of 64 code-blocks, none included", 14 * 1024)(
    lambda: stream(siz(448, 32) + cod(layers=65535, block=SMALL, precincts=(0x55,)) + qcd(), [part(0, b"\x80" * (14 * 65535))]))
for level, layers in ((11, 65535), (8, 20000), (6, 1900), (4, 120)):
    row(f"asked, {layers} layers of 2^24 code-blocks, each node of level {level} told", AREA)(
        lambda level=level, layers=layers: stream(siz(16384, 16384) + cod(layers=layers, block=SMALL) + qcd(), [
            part(0, closed_packets(4096, 4096, grid(4096, level), layers))]))
for level, layers in ((11, 600), (7, 270), (6, 450)):
    row(f"asked, {layers} layers of 2^24 code-blocks, each node of level {level} and a column of leaves told", AREA)(
        lambda level=level, layers=layers: stream(siz(16384, 16384) + cod(layers=layers, block=SMALL) + qcd(), [
            part(0, closed_packets(4096, 4096, grid_and_column(4096, level), layers))]))
row("asked, a packet of 2^24 code-blocks in two bits, then the end", AREA)(
    lambda: stream(siz(16384, 16384) + cod(block=SMALL) + qcd(), [part(0, b"\xC0")]))

# Tiles and tile-parts.
row("65,535 tiles of a sample, each there", 65535)(
    lambda: (lambda main, count: stream(main, [part(t, b"\0") for t in range(count)]))(*tiles(1, 257, 255)))
row("65,535 tiles of a sample, the last first", 65535)(
    lambda: (lambda main, count: stream(main, [part(t, b"\0") for t in range(count - 1, -1, -1)]))(*tiles(1, 257, 255)))
row("65,535 tiles of 64 by 64, each there", 65535 * 4096)(
    lambda: (lambda main, count: stream(main, [part(t, b"\0") for t in range(count)]))(*tiles(64, 257, 255, block=LARGE)))
row("65,535 tiles of 64 by 64 with blocks of 4 by 4", 65535 * 4096)(
    lambda: (lambda main, count: stream(main, [part(t, b"\0") for t in range(count)]))(*tiles(64, 257, 255, block=SMALL)))
row("65,535 tiles claimed, one there", 65535)(
    lambda: (lambda main, count: stream(main, [part(0, b"\0")]))(*tiles(1, 257, 255)))
row("65,025 tiles of 64 by 64 claimed, 4 levels, one there", 65025 * 4096)(
    lambda: (lambda main, count: stream(main, [part(0, bytes(5))]))(*tiles(64, 255, 255, levels=4)))
row("28,000 tiles with codings and exponents of their own", 28000 * 64)(
    lambda: (lambda main, count: stream(main, [part(t, b"\0", cod() + qcd()) for t in range(count)]))(*tiles(8, 200, 140)))
row("65,535 tiles as wide as the image", 65535 * 4096)(
    lambda: stream(siz(4096, 65535, (4096, 1)) + cod(block=LARGE) + qcd(), [part(t, b"\0") for t in range(65535)]))
row("255 tile-parts of each of 260 tiles", 260)(
    lambda: stream(siz(260, 1, (1, 1)) + cod(layers=255) + qcd(),
                   [part(t, b"\0", which=p, parts=255) for p in range(255) for t in range(260)]))
row("255 tile-parts, nothing in them", 1)(
    lambda: stream(siz(1, 1) + cod() + qcd(), [part(0, b"", which=p, parts=255) for p in range(255)]))

# Segments and boxes.
row("190,000 comments", 1)(lambda: stream(siz(1, 1) + cod() + qcd() + segment(0xFF64, b"\0") * 190_000, [part(0, b"\0")]))
row("190,000 comments in a tile-part", 1)(lambda: stream(siz(1, 1) + cod() + qcd(), [part(0, b"\0", segment(0xFF64, b"\0") * 190_000)]))
row("190,000 packet lengths in a tile-part", 1)(lambda: stream(siz(1, 1) + cod() + qcd(), [part(0, b"\0", segment(0xFF58, b"\0") * 190_000)]))
row("120,000 boxes", 1)(lambda: boxes(1, 1, flat(1, 1), box(b"free", b"") * 120_000))

# Code-blocks of many coding passes.
for name, passes, data in (("no byte", 67, b""), ("eight bytes", 67, bytes(8)), ("one pass", 1, b"\0"), ("ten passes", 10, b"\0\1\2")):
    row(f"coded, 4096 by 4096, {name} in each block of 64 by 64", 1 << 24, False)(
        lambda passes=passes, data=data: stream(siz(4096, 4096, depth=16) + cod(block=LARGE) + qcd(exponent=22),
                                                [part(0, full_packet(64, 64, passes, data))]))
row("coded, 1024 by 1024, no byte in each block of 4 by 4", 1 << 20, False)(
    lambda: stream(siz(1024, 1024, depth=16) + cod(block=SMALL) + qcd(exponent=22), [part(0, full_packet(256, 256, 67, b""))]))
