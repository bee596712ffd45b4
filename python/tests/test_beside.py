"""What stands beside samples, read from directories of TIFF and written to them again."""
import io
import struct
from fractions import Fraction

import numpy as np
import pytest
import tiffs
from conftest import noise
from jk import _beside
from jk._beside import Damaged, Kept, Resolution, Stream

PROFILE, XMP, IPTC = b"\0\0\1\0profile!", b"<x:xmpmeta>\xc3\xa9</x:xmpmeta>", b"\x1c\x02\x05\0\x03one\0\0\0\0"
#: EXIF with fields of each size, MakerNote and a directory inside.
EXIF = {33434: (5, [(1, 125)]), 34855: (3, [400]), 36864: (7, b"0230"), 37500: (7, b"a maker's note, \xff"),
        40965: (4, {1: (2, b"R98\0"), 2: (7, b"0100")}), 40962: (4, [353])}
GPS = {0: (1, b"\2\3\0\0"), 1: (2, b"N\0"), 2: (5, [(59, 1), (51, 1), (2999, 100)])}
FIELDS = {
    270: (2, b"a page\0"), 271: (2, b"MAKER\0"), 272: (2, b"M\0"), 274: (3, [6]), 282: (5, [(3000000, 10000)]),
    283: (5, [(60, 2)]), 296: (3, [3]), 305: (2, b"scan 1\0"), 306: (2, b"2026:11:27 10:00:00\0"), 315: (2, b"N\0"),
    700: (1, XMP), 33432: (2, b"\xa9 N\0"), 33723: (7, IPTC), 34665: (4, EXIF), 34853: (4, GPS), 34675: (7, PROFILE),
}


def kept(path):
    with open(path, "rb") as file:
        stream = Stream(file)
        found, lost = _beside.kept_of(stream, stream.directories()[0])
    return found, lost


def inside(data):
    """All fields of a TIFF stream, by tags and those of the directories that they stand in, types and bytes."""
    stream = Stream(io.BytesIO(data))
    found = {}

    def walk(directory, above):
        for tag, field in directory.items():
            if field.directory is None:
                found[(*above, tag)] = (field.kind, field.count, field.data)
            else:
                walk(field.directory, (*above, tag))

    walk(stream.directory(stream.first)[0], ())
    return found


@pytest.mark.parametrize("order", "<>")
@pytest.mark.parametrize("big", [False, True])
def test_all_that_stands_beside_samples_is_read(tmp_path, order, big):
    found, lost = kept(tiffs.tiff(tmp_path / "a.tif", noise((5, 6)), order=order, big=big, fields=FIELDS))
    assert lost == []
    assert (found.profile, found.xmp, found.iptc, found.orientation) == (PROFILE, XMP, IPTC, 6)
    assert found.resolution == Resolution((3000000, 10000), (60, 2), "centimetre")
    assert found.exif[:2] == (b"II" if order == "<" else b"MM") and not found.white_is_zero
    fields = inside(found.exif)
    assert fields[(270,)] == (2, 7, b"a page\0") and fields[(33432,)] == (2, 4, b"\xa9 N\0")
    assert fields[(34665, 37500)] == (7, 17, b"a maker's note, \xff")
    assert fields[(34665, 33434)] == (5, 1, struct.pack(f"{order}LL", 1, 125))
    assert fields[(34665, 40965, 1)] == (2, 4, b"R98\0")
    assert fields[(34853, 2)] == (5, 3, struct.pack(f"{order}6L", 59, 1, 51, 1, 2999, 100))
    assert len(fields) == 7 + 5 + 2 + 3


@pytest.mark.parametrize("order", "<>")
def test_exif_is_built_anew_with_all_that_it_tells(tmp_path, order):
    path = tiffs.tiff(tmp_path / "a.tif", noise((5, 6)), order=order, fields={**FIELDS, 262: (3, [0])})
    found, _ = kept(path)
    assert found.white_is_zero
    exif = _beside.exif_of(found)
    fields = inside(exif)
    assert fields[(262,)][2] == struct.pack(f"{order}H", 0) and fields[(274,)][2] == struct.pack(f"{order}H", 6)
    assert fields[(282,)] == (5, 1, struct.pack(f"{order}LL", 3000000, 10000))
    again, lost = _beside.kept_of_exif(exif)
    assert again == Kept(b"", found.resolution, b"", b"", found.exif, 6, True) and lost == []
    assert _beside.exif_of(again) == exif


def test_a_directory_is_as_tiff_asks():
    """Tags go up, and values that don't stand in their fields have even places."""
    texts = ((305, b"scan 1\0"), (271, b"MAKER\0"), (270, b"12345678\0"))
    made = {tag: _beside.Field(2, len(text), text) for tag, text in texts}
    data = _beside.stream_of("<", made)
    assert struct.unpack("<2sHLH", data[:10]) == (b"II", 42, 8, 3)
    fields = [struct.unpack("<HHLL", data[at : at + 12]) for at in (10, 22, 34)]
    assert fields == [(270, 2, 9, 50), (271, 2, 6, 60), (305, 2, 7, 66)]
    assert data[46:] == bytes(4) + b"12345678\0\0MAKER\0scan 1\0\0"


def test_nothing_is_nothing(tmp_path):
    found, lost = kept(tiffs.tiff(tmp_path / "a.tif", noise((5, 6))))
    assert (found, lost, found.names(), _beside.exif_of(found), _beside.fields_of(found)) == (Kept(), [], [], b"", {})


@pytest.mark.parametrize("fields, unit, metre", [
    ({282: (5, [(300, 1)]), 283: (5, [(300, 1)])}, "inch", Fraction(1500000, 127)),
    ({282: (5, [(118, 1)]), 283: (5, [(118, 1)]), 296: (3, [3])}, "centimetre", 11800),
    ({282: (5, [(601, 2)]), 283: (5, [(601, 2)]), 296: (3, [2])}, "inch", Fraction(601, 2) * Fraction(5000, 127)),
])
def test_resolution_is_a_ratio(tmp_path, fields, unit, metre):
    found, lost = kept(tiffs.tiff(tmp_path / "a.tif", noise((5, 6)), fields=fields))
    assert (found.resolution.unit, found.resolution.per_metre()[0], found.names(), lost) == \
        (unit, metre, ["resolution"], [])


def test_resolution_that_says_nothing():
    alike = Kept(resolution=Resolution((1, 1), (2, 2), "none"))
    assert alike.names() == []
    assert Kept(resolution=Resolution((1, 1), (2, 1), "none")).names() == ["resolution"]
    assert Kept(orientation=1).names() == [] and Kept(orientation=3).names() == ["orientation"]


@pytest.mark.parametrize("fields", [
    {282: (5, [(0, 1)]), 283: (5, [(300, 1)])}, {282: (5, [(300, 0)]), 283: (5, [(300, 1)])}, {283: (5, [(300, 1)])},
    {282: (4, [300]), 283: (4, [300])}, {282: (5, [(300, 1)]), 283: (5, [(300, 1)]), 296: (3, [9])},
])
def test_resolution_that_is_none_is_told(tmp_path, fields):
    found, lost = kept(tiffs.tiff(tmp_path / "a.tif", noise((5, 6)), fields=fields))
    assert found.resolution is None and lost == ["resolution that isn't two ratios above 0"]


def test_a_metre_becomes_centimetres():
    fields = _beside.fields_of(Kept(resolution=Resolution((11811, 1), (500, 1), "metre")))
    assert struct.unpack("<LL", fields[282].data) == (11811, 100)
    assert struct.unpack("<LL", fields[283].data) == (5, 1)
    assert fields[296].data == b"\3\0"


def test_units_of_length_tell_the_same():
    def kept_at(across, down, unit, **others):
        return Kept(resolution=Resolution(across, down, unit), **others)

    metre = kept_at((11800, 1), (5900, 1), "metre")
    assert metre.tells_the_same(kept_at((118, 1), (590, 10), "centimetre"))
    assert not metre.tells_the_same(kept_at((118, 1), (118, 1), "centimetre"))
    assert not metre.tells_the_same(kept_at((11800, 1), (5900, 1), "metre", xmp=b"<x/>"))
    assert not metre.tells_the_same(Kept()) and Kept().tells_the_same(Kept())
    assert kept_at((2, 1), (1, 1), "none").tells_the_same(kept_at((4, 2), (3, 3), "none"))
    assert not kept_at((2, 1), (1, 1), "none").tells_the_same(kept_at((2, 1), (1, 1), "metre"))


def test_what_is_not_kept_is_told_by_name(tmp_path):
    fields = {301: (3, [0] * 6), 318: (5, [(1, 3), (1, 3)]), 34377: (7, b"8BIM...."), 65000: (4, [1, 2]),
              33550: (7, bytes(24)), 33922: (7, bytes(48)), 330: (4, [8])}
    found, lost = kept(tiffs.tiff(tmp_path / "a.tif", noise((5, 6)), fields=fields))
    assert lost == ["transfer function", "white point", "images inside the image", "GeoTIFF", "Photoshop's resources",
                    "tag 65000"]
    assert found == Kept()


def test_numbers_of_eight_bytes_in_exif_are_told(tmp_path):
    path = tiffs.tiff(tmp_path / "a.tif", noise((5, 6)), big=True, fields={34665: (18, {1: (16, [1]), 2: (3, [2])})})
    found, lost = kept(path)
    assert lost == ["tag 1 of EXIF"] and inside(found.exif) == {(34665, 2): (3, 1, b"\2\0")}


def test_iptc_of_turned_words_is_turned_back(tmp_path):
    turned = b"".join(IPTC[at : at + 4][::-1] for at in range(0, len(IPTC), 4))
    found, _ = kept(tiffs.tiff(tmp_path / "a.tif", noise((5, 6)), fields={33723: (4, turned)}))
    assert found.iptc == IPTC


def test_a_thumbnail_of_exif_is_told():
    data = bytearray(_beside.exif_of(Kept(orientation=3)))
    assert data[22:26] == bytes(4)
    data[22:26] = struct.pack("<L", 8)
    assert _beside.kept_of_exif(bytes(data))[1] == ["EXIF's thumbnail"]


@pytest.mark.parametrize("change, word", [
    (lambda data: b"", "doesn't begin"), (lambda data: b"IM" + data[2:], "doesn't begin"),
    (lambda data: data[:7], "doesn't begin"), (lambda data: data[:4] + b"\xff\xff\xff\0", "it ends at"),
    (lambda data: data[:-9], "it ends at"), (lambda data: data.replace(b"\x69\x87\4\0", b"\x69\x87\2\0"), "whole numbers"),
])
def test_damage_is_told(tmp_path, change, word):
    data = tiffs.tiff(tmp_path / "a.tif", noise((2, 2)), fields={34665: (4, {1: (2, b"twelve bytes")})}).read_bytes()
    with pytest.raises(Damaged, match=word):
        Stream(io.BytesIO(change(data))).directories()


def test_directories_in_a_ring_are_told(tmp_path):
    path = tiffs.tiff(tmp_path / "a.tif", noise((2, 2)), noise((2, 2)))
    data = bytearray(path.read_bytes())
    with open(path, "rb") as file:
        stream = Stream(file)
        first = stream.first
        second = stream.directory(first)[1]
    end = second + 2 + 12 * int.from_bytes(data[second : second + 2], "little")
    data[end : end + 4] = struct.pack("<L", first)
    with pytest.raises(Damaged, match="ring"):
        Stream(io.BytesIO(data)).directories()


def test_a_field_that_is_too_long_is_told(tmp_path):
    found, lost = kept(tiffs.tiff(tmp_path / "a.tif", noise((2, 2)), fields={700: (1, bytes(_beside.MOST + 1))}))
    assert found.xmp == b"" and lost == ["tag 700"]
    assert np.array_equal(kept(tiffs.tiff(tmp_path / "b.tif", noise((2, 2)), fields={700: (1, bytes(9))}))[0].xmp, bytes(9))
