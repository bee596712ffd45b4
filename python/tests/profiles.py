"""ICC profiles that are made for tests."""
import struct


def icc(space=b"RGB ", kind=b"mntr", version=0x02400000, connection=b"XYZ ", tags=None):
    """A profile as ICC.1 lays it out: a header of 128 bytes, a table of tags, and what they name."""
    if tags is None:
        tags = [b"kTRC"] if space == b"GRAY" else [b"rXYZ", b"gXYZ", b"bXYZ", b"rTRC", b"gTRC", b"bTRC"]
    tags = [b"cprt", b"desc", b"wtpt", *tags]
    values = {b"XYZ": b"XYZ \0\0\0\0" + struct.pack(">3l", 29000, 33000, 25000), b"TRC": b"curv" + bytes(4) + struct.pack(">LHH", 1, 0x0233, 0),
              b"prt": b"text\0\0\0\0none\0\0\0\0", b"tpt": b"XYZ \0\0\0\0" + struct.pack(">3l", 63190, 65536, 54061)}
    values[b"esc"] = b"desc" + bytes(4) + struct.pack(">L", 5) + b"test\0" + bytes(78 + 1)
    table, behind = b"", b""
    begin = 132 + 12 * len(tags)
    for tag in tags:
        data = values.get(tag[1:], values[b"TRC"])
        table += struct.pack(">4sLL", tag, begin + len(behind), len(data))
        behind += data + bytes(-len(data) % 4)
    head = struct.pack(">L4sL4s4s4s", begin + len(behind), bytes(4), version, kind, space, connection)
    head += struct.pack(">6H", 2026, 11, 27, 10, 0, 0) + b"acsp" + bytes(28) + struct.pack(">3l", 63190, 65536, 54061)
    return head + bytes(128 - len(head)) + struct.pack(">L", len(tags)) + table + behind
