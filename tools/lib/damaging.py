"""Damaged files, and the program that gives them to the C library, for trials."""
import os
import struct
import subprocess
import threading
import zlib

import encoders
from common import ROOT

NAMES = {0: "an image", 1: "F1 Memory", 2: "F2 Truncated", 3: "F3 BadMarker", 4: "F4 BadLength", 5: "F5 BadValue",
         6: "F6 Unsupported", 7: "F7 Limit", 8: "F8 PacketHeader", 9: "F9 TooManyPasses", 10: "F10 CodeOutOfInterval",
         11: "F11 MissingPackets", 12: "F12 SurplusBytes", 13: "F13 BadBox", 16: "F16 BadWindow", 65: "an image of signed samples"}


def source(chance, jk, folder):
    """A small file of one of three encoders, or nothing where it refuses."""
    components, depth = chance.choice((1, 1, 1, 3)), chance.choice((1, 4, 8, 8, 8, 12, 16))
    side = chance.choice((1, 3, 8, 12, 20, 32))
    width, height = chance.randint(1, side), chance.randint(1, side)
    image, stored = os.path.join(folder, "source.p%sm" % "gp"[components == 3]), os.path.join(folder, "source." + chance.choice(("jp2", "j2k")))
    encoder = chance.choice(("jk", "OpenJPEG", "Grok"))
    if encoder != "jk":
        depth = max(8, depth)
        width, height = width + 1, height + 1
    with open(image, "wb") as file:
        file.write(encoders.picture(chance, components, depth, width, height))
    if os.path.exists(stored):
        os.remove(stored)
    if encoder == "jk":
        words = encoders.parameters(chance, components, width, height)[0]
        command = [jk, "encode", image, stored, *words]
    else:
        words = encoders.options(chance, encoder, components, width, height, 4)[0]
        command = ["opj_compress" if encoder == "OpenJPEG" else "grk_compress", "-i", image, "-o", stored, *words]
    try:
        done = encoders.run(command)
    except subprocess.TimeoutExpired:
        return None
    if done.returncode != 0 or not os.path.exists(stored):
        return None
    with open(stored, "rb") as file:
        return encoder, file.read()


MARKERS = (0x4F, 0x50, 0x51, 0x52, 0x53, 0x55, 0x57, 0x58, 0x5C, 0x5D, 0x5E, 0x5F, 0x60, 0x61, 0x63, 0x64, 0x90, 0x91, 0x92,
           0x93, 0xD9, 0x30, 0x3F, 0x70)
WITHOUT_LENGTH = (0x4F, 0x92, 0x93, 0xD9, 0x30, 0x3F)
EDGES = (0, 1, 2, 3, 4, 7, 8, 0x0F, 0x10, 0x20, 0x21, 0x7F, 0x80, 0xC0, 0xFE, 0xFF)


def markers_in(data):
    """The places of what looks like a marker."""
    found, at = [], data.find(b"\xFF")
    while 0 <= at < len(data) - 1:
        if data[at + 1] >= 0x4F and data[at + 1] != 0xFF:
            found.append(at)
        at = data.find(b"\xFF", at + 1)
    return found


def segment_at(data, at):
    """The end of the marker segment at a place."""
    if data[at + 1] in WITHOUT_LENGTH or at + 4 > len(data):
        return at + 2
    return min(len(data), at + 2 + (data[at + 2] << 8 | data[at + 3]))


def boxes_in(data):
    """Places and ends of the outer boxes."""
    found, at = [], 0
    while at + 8 <= len(data) and len(found) < 20:
        length = int.from_bytes(data[at:at + 4], "big") or len(data) - at
        if length < 8:
            break
        found.append((at, min(len(data), at + length)))
        at += length
    return found


def damage_bits(chance, data):
    at = chance.randrange(min(len(data), chance.choice((120, 240, len(data)))))
    data[at] ^= 1 << chance.randrange(8)


def damage_bytes(chance, data):
    at = chance.randrange(min(len(data), chance.choice((120, 240, len(data)))))
    do = chance.randrange(4)
    if do == 0:
        data[at] = chance.choice(EDGES)
    elif do == 1:
        data[at] = chance.randrange(256)
    elif do == 2:
        del data[at:at + chance.choice((1, 1, 2, 3, 8, 40))]
    else:
        data[at:at] = bytes(chance.randrange(256) for _ in range(chance.choice((1, 1, 2, 6))))


def damage_end(chance, data):
    if chance.randrange(3):
        del data[chance.randrange(len(data)):]
    else:
        data += bytes(chance.choice(EDGES) for _ in range(chance.randint(1, 9)))


def damage_length(chance, data):
    """A length, or another field, of a segment: a little more or less, a power of two, or anything."""
    places = [at for at in markers_in(data)[:40] if data[at + 1] not in WITHOUT_LENGTH and at + 4 < len(data)]
    if not places:
        return
    at = chance.choice(places)
    size = chance.choice((1, 2, 4))
    field = at + 2 if chance.random() < 0.4 else at + 2 + chance.randrange(0, 44)
    if field + size > len(data):
        return
    value = int.from_bytes(data[field:field + size], "big")
    value = chance.choice((value + chance.choice((-2, -1, 1, 2)), 1 << chance.randrange(8 * size), (1 << chance.randrange(8 * size)) - 1, value * 2, value // 2,
                           chance.randrange(1 << 8 * size), 0, -1))
    data[field:field + size] = (value % (1 << 8 * size)).to_bytes(size, "big")


def damage_marker(chance, data):
    places = markers_in(data)[:60]
    if not places:
        return
    at, do = chance.choice(places), chance.randrange(5)
    text = bytes(data[at:segment_at(data, at)])
    if do == 0:
        data[at + 1] = chance.choice(MARKERS)
    elif do == 1:
        data[at:at] = text
    elif do == 2:
        del data[at:at + len(text)]
    elif do == 3:
        marker = chance.choice(MARKERS)
        body = b"" if marker in WITHOUT_LENGTH else bytes(chance.choice(EDGES) for _ in range(chance.choice((0, 1, 2, 3, 8))))
        data[at:at] = bytes((255, marker)) + (b"" if marker in WITHOUT_LENGTH else (len(body) + 2).to_bytes(2, "big")) + body
    else:
        other = chance.choice(places)
        first, second = sorted((at, other))
        a, b = bytes(data[first:segment_at(data, first)]), bytes(data[second:segment_at(data, second)])
        if first + len(a) <= second:
            data[first:second + len(b)] = b + bytes(data[first + len(a):second]) + a


def damage_box(chance, data):
    found = boxes_in(data)
    if len(found) < 2:
        return damage_length(chance, data)
    at, end = chance.choice(found)
    do = chance.randrange(6)
    if do == 0:
        value = chance.choice((0, 1, 2, 7, 8, end - at + chance.choice((-1, 1)), 0xFFFFFFFF, 0x80000000))
        data[at:at + 4] = (value % (1 << 32)).to_bytes(4, "big")
    elif do == 1:
        data[at + 4:at + 8] = chance.choice((b"jp2c", b"jp2h", b"ftyp", b"ihdr", b"colr", b"free", b"jP  ", b"uuid", b"bpcc"))
    elif do == 2:
        data[at:at] = data[at:end]
    elif do == 3:
        del data[at:end]
    elif do == 4:
        # The length in eight bytes.
        data[at:at + 4] = b"\0\0\0\1"
        data[at + 8:at + 8] = (end - at + 8 + chance.choice((0, 0, -1, 1, 1 << 32))).to_bytes(8, "big")
    else:
        place = end if at == found[-1][0] else at + 8 + chance.randrange(max(1, end - at - 8))
        if place < len(data):
            data[place] = chance.choice(EDGES)


def joined(chance, data, other):
    """The front of one file and the end of another, often at a marker."""
    first, second = markers_in(data), markers_in(other)
    if first and second and chance.random() < 0.7:
        return data[:chance.choice(first)] + other[chance.choice(second):]
    return data[:chance.randrange(len(data) + 1)] + other[chance.randrange(len(other) + 1):]


KINDS = (("bits", damage_bits), ("bytes", damage_bytes), ("the end", damage_end), ("lengths and fields", damage_length),
         ("markers", damage_marker), ("boxes", damage_box))


def damaged(chance, sources):
    """A damaged file, and how it was damaged first."""
    data = bytearray(chance.choice(sources)[1])
    if chance.random() < 0.1:
        return bytes(joined(chance, bytes(data), chance.choice(sources)[1])), "joined halves"
    first = None
    for _ in range(chance.choice((1, 1, 1, 2, 3))):
        name, act = chance.choice(KINDS)
        first = first or name
        if data:
            act(chance, data)
    return bytes(data), first


class Judge:
    """The program over the library that takes files one after another."""

    def __init__(self, program, seconds):
        self.command = [program, str(seconds)]
        self.start()

    def start(self):
        self.child = subprocess.Popen(self.command, stdin=subprocess.PIPE, stdout=subprocess.PIPE)

    def answers(self, files):
        """The line of each file, or why there is none."""
        text = b"".join(struct.pack("<I", len(data)) + data for data in files)
        child = self.child
        feeding = threading.Thread(target=self.feed, args=(child, text))
        feeding.start()
        found = []
        for at in range(len(files)):
            line = child.stdout.readline()
            if not line:
                feeding.join()
                status = child.wait()
                self.start()
                found.append(("ended", status))
                return found + (self.answers(files[at + 1:]) if at + 1 < len(files) else [])
            found.append(line.split())
        feeding.join()
        return found

    @staticmethod
    def feed(child, text):
        try:
            child.stdin.write(text)
            child.stdin.flush()
        except BrokenPipeError:
            pass


def made(library, folder):
    """tools/trials/judge.c over the static library."""
    program = os.path.join(folder, "judge")
    subprocess.run(["gcc", "-std=gnu99", "-O2", "-Wall", "-Werror", "-o", program, os.path.join(ROOT, "tools", "trials", "judge.c"),
                    "-I" + os.path.join(library, "include"), os.path.join(library, "lib", "libjk.a")], check=True)
    return program


def reference_answer(codec, data):
    """The fault's number and nothing, or 0 with size and CRC-32 as tools/trials/judge.c tells them; None where it gives up."""
    try:
        image = codec.decode(data)
    except Exception as error:
        return (error.number, None) if hasattr(error, "number") else None
    if image.signed:
        return 65, None
    samples = [sample for pixel in zip(*image.planes) for sample in pixel]
    crc = zlib.crc32(struct.pack("<%dH" % len(samples), *samples))
    return 0, (image.width, image.height, len(image.planes), image.depth, crc)
