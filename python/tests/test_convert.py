"""Files of other formats there and back, what is refused of them, tables, processes and archives."""
import contextlib
import csv
import fcntl
import hashlib
import os
import pty
import resource
import shutil
import signal
import struct
import subprocess
import sys
import time
import zlib
from fractions import Fraction

import jk
import numpy as np
import pytest
import tiffs
from conftest import noise
from profiles import icc

tifffile = pytest.importorskip("tifffile")
Image = pytest.importorskip("PIL.Image")
from jk import _beside  # noqa: E402
from jk.convert import (  # noqa: E402
    CannotConvert, convert, jp2, one, placing, png, png_filters, rows, tiff, tiff_writing, workers,
)
from jk.convert.images import Picture  # noqa: E402
from jk.convert.jp2 import IN_EXIF  # noqa: E402

U8, U16, I8, I16 = np.uint8, np.uint16, np.int8, np.int16
needs_tiffcp = pytest.mark.skipif(not shutil.which("tiffcp"), reason="libtiff-tools isn't there")
FIELDS = {282: (5, [(3005, 10)]), 283: (5, [(300, 1)]), 700: (1, b"<x/>"), 34675: (7, b"profile!!"), 274: (3, [6])}


def run(*words, **how):
    """What the command line says."""
    return subprocess.run([sys.executable, "-m", "jk.convert", *map(str, words)], capture_output=True, text=True, **how)


def converted(source, out, **how):
    """The rows of a file that is converted."""
    told = []
    counts = convert(source, out, tell=lambda done, number, total: told.append(done), **how)
    assert (counts.refused, len(told)) == ([], 1)
    return told[0].rows


def refused(source, out, word, **how):
    """A file is refused in these words, and nothing is written."""
    before = sorted(out.parent.iterdir())
    (_, why), = convert(source, out, **how).refused
    assert word in why
    assert sorted(out.parent.iterdir()) == before


def table_of(path):
    with open(path, newline="", encoding="utf-8", errors="surrogateescape") as file:
        return list(csv.DictReader(file))


@pytest.fixture
def folder(tmp_path):
    """A folder of three files."""
    made = tmp_path / "in"
    (made / "sub").mkdir(parents=True)
    tiffs.tiff(made / "a.tif", noise((9, 11, 3)))
    tiffs.png(made / "sub" / "b.png", noise((9, 11), U16))
    (made / "c.pgm").write_bytes(b"P5 3 2 255\n123456")
    (made / "notes.txt").write_bytes(b"no image")
    return made


# TIFF.

@pytest.mark.parametrize("order, big, shape, dtype, how", [
    ("<", False, (37, 41), U8, {}), (">", False, (37, 41), U16, {"rows": 7}), ("<", True, (37, 41, 3), U8, {"rows": 5}),
    (">", True, (37, 41, 3), U16, {"tile": (16, 32)}), ("<", False, (37, 41, 3), U16, {"planar": True}),
    (">", False, (37, 41, 3), U8, {"planar": True, "tile": (32, 16)}), ("<", False, (37, 41, 3), U8, {"compression": 8}),
    (">", False, (37, 41, 3), U16, {"compression": 8, "predictor": 2}), ("<", True, (1, 1), U8, {}),
    ("<", False, (37, 41, 3), U8, {"compression": 8, "predictor": 2, "planar": True, "tile": (16, 16)}),
    (">", False, (37, 41, 3), U16, {"planar": True, "tile": (16, 16)}), ("<", False, (37, 41), U16, {"rows": 99}),
])
def test_a_tiff_comes_back(tmp_path, order, big, shape, dtype, how):
    samples = noise(shape, dtype)
    source = tiffs.tiff(tmp_path / "a.tif", samples, order=order, big=big, **how)
    row, = converted(source, tmp_path / "a.jp2")
    assert np.array_equal(jk.read(tmp_path / "a.jp2"), samples)
    assert row.image == f"{shape[1]} {shape[0]} {3 if len(shape) == 3 else 1} {8 * samples.itemsize}"
    assert row.sha256_of_samples == hashlib.sha256(samples.astype(samples.dtype.newbyteorder("<")).tobytes()).hexdigest()
    assert row.sha256_of_out == hashlib.sha256((tmp_path / "a.jp2").read_bytes()).hexdigest()
    # tiffcp mixes up 16 bits in tiles and planes.
    is_read_again = dtype == U8 or shutil.which("tiffcp") and not ("planar" in how and "tile" in how)
    assert row.notes.startswith("read again by" if is_read_again else "read by one reader alone")
    converted(tmp_path / "a.jp2", tmp_path / "back.tif")
    back = tifffile.imread(tmp_path / "back.tif")
    assert back.dtype == dtype and np.array_equal(back, samples)


@needs_tiffcp
@pytest.mark.parametrize("scheme", ["lzw", "lzw:2", "packbits", "zip:2"])
@pytest.mark.parametrize("shape, dtype, how", [
    ((37, 41), U8, {}), ((37, 41, 3), U8, {"tile": (16, 16)}), ((37, 41, 3), U16, {}), ((37, 41, 3), U8, {"planar": True}),
])
def test_a_packed_tiff_is_read_by_libtiff(tmp_path, scheme, shape, dtype, how):
    samples = noise(shape, dtype, 6)
    plain = tiffs.tiff(tmp_path / "plain.tif", samples, **how)
    subprocess.run(["tiffcp", "-c", scheme, plain, tmp_path / "a,1.tif"], check=True)
    row, = converted(tmp_path / "a,1.tif", tmp_path / "a.jp2")
    assert np.array_equal(jk.read(tmp_path / "a.jp2"), samples)
    assert ("unpacked by tiffcp" in row.notes) == (scheme[:3] != "zip")
    assert ("one reader" in row.notes) == (dtype == U16 and scheme[:3] != "zip")


@needs_tiffcp
def test_what_tiffcp_mixes_up_is_refused(tmp_path):
    plain = tiffs.tiff(tmp_path / "plain.tif", noise((37, 41, 3), U16), planar=True, tile=(16, 32))
    subprocess.run(["tiffcp", "-c", "lzw", plain, tmp_path / "a.tif"], check=True)
    refused(tmp_path / "a.tif", tmp_path / "a.jp2", "tiffcp mixes up")


@needs_tiffcp
@pytest.mark.parametrize("scheme", ["none", "g3:1d", "g3:2d", "g4", "packbits", "lzw"])
@pytest.mark.parametrize("white", [0, 1])
def test_black_and_white(tmp_path, scheme, white):
    samples = noise((37, 41), U8, 1)
    packed = np.packbits(samples, axis=1)
    fields = {256: (4, [41]), 258: (3, [1]), 262: (3, [white])}
    tiffs.tiff(tmp_path / "plain.tif", packed, fields=fields)
    subprocess.run(["tiffcp", "-c", scheme, tmp_path / "plain.tif", tmp_path / "a.tif"], check=True)
    row, = converted(tmp_path / "a.tif", tmp_path / "a.jp2")
    assert (row.image, jk.info(tmp_path / "a.jp2").depth) == ("41 37 1 1", 1)
    assert np.array_equal(jk.read(tmp_path / "a.jp2"), samples)
    assert "read again by Pillow" in row.notes and row.carried == "that the least sample is white" * (white == 0)
    converted(tmp_path / "a.jp2", tmp_path / "back.tif")
    # It comes back as it was, and Pillow turns samples of which the least is white.
    assert np.array_equal(np.asarray(Image.open(tmp_path / "back.tif")), samples ^ (white == 0))
    assert (tmp_path / "back.tif").stat().st_size < 600


@needs_tiffcp
@pytest.mark.parametrize("scheme, fields", [("none", {}), ("lzw", {}), ("g4", {256: (4, [88]), 258: (3, [1])})])
def test_bits_from_right_to_left(tmp_path, scheme, fields):
    samples = noise((9, 11), U8)
    plain = tiffs.tiff(tmp_path / "plain.tif", samples, fields=fields)
    subprocess.run(["tiffcp", "-c", scheme, "-f", "lsb2msb", plain, tmp_path / "a.tif"], check=True)
    with tifffile.TiffFile(tmp_path / "a.tif") as file:
        assert file.pages[0].fillorder == 2
    converted(tmp_path / "a.tif", tmp_path / "a.jp2")
    assert np.array_equal(jk.read(tmp_path / "a.jp2"), np.unpackbits(samples, axis=1) if fields else samples)


@needs_tiffcp
@pytest.mark.parametrize("scheme", ["none", "lzw"])
def test_words_whose_bits_lie_from_right_to_left(tmp_path, scheme):
    samples = noise((9, 11, 3), U16)
    plain = tiffs.tiff(tmp_path / "plain.tif", samples)
    subprocess.run(["tiffcp", "-c", scheme, "-f", "lsb2msb", plain, tmp_path / "a.tif"], check=True)
    row, = converted(tmp_path / "a.tif", tmp_path / "a.jp2")
    assert np.array_equal(jk.read(tmp_path / "a.jp2"), samples) and ("tiffcp" in row.notes)


@pytest.mark.parametrize("dtype", [I8, I16])
def test_signed_samples_become_a_codestream(tmp_path, dtype):
    samples = noise((9, 11), dtype)
    source = tiffs.tiff(tmp_path / "a.tif", samples)
    refused(source, tmp_path / "a.jp2", "signed")
    converted(source, tmp_path / "a.j2k")
    assert np.array_equal(jk.read(tmp_path / "a.j2k"), samples)
    converted(tmp_path / "a.j2k", tmp_path / "back.tif")
    back = tifffile.imread(tmp_path / "back.tif")
    assert back.dtype == dtype and np.array_equal(back, samples)
    for ending in ("png", "pgm"):
        refused(tmp_path / "a.j2k", tmp_path / f"back.{ending}", "signed")
    (tmp_path / "in").mkdir()
    shutil.move(source, tmp_path / "in" / "a.tif")
    convert(tmp_path / "in", tmp_path / "out")
    assert sorted(os.listdir(tmp_path / "out")) == ["a.j2k", "jk-convert.csv"]


def test_pages_have_files_of_their_own(tmp_path):
    pages = [noise((9, 11), U8), noise((8, 7, 3), U16), noise((3, 3), U8, seed=4)]
    small = noise((4, 5), U8)
    source = tiffs.tiff(tmp_path / "a.tif", pages[0], (small, {"fields": {254: (4, [1])}}), *pages[1:])
    found = converted(source, tmp_path / "a.jp2")
    assert [(row.out, row.part) for row in found] == [(f"a-000{it}.jp2", f"{it}/3") for it in (1, 2, 3)]
    for number, samples in enumerate(pages, 1):
        assert np.array_equal(jk.read(tmp_path / f"a-000{number}.jp2"), samples)
    assert all("smaller images of the same" in row.notes for row in found)


def test_white_that_is_0_stays_so(tmp_path):
    samples = noise((9, 11), U8)
    row, = converted(tiffs.tiff(tmp_path / "a.tif", samples, fields={262: (3, [0])}), tmp_path / "a.jp2")
    assert np.array_equal(jk.read(tmp_path / "a.jp2"), samples)
    assert (row.carried, row.notes) == ("that the least sample is white", "read again by Pillow")


@pytest.mark.parametrize("turned", range(1, 9))
def test_samples_are_not_turned(tmp_path, turned):
    samples = noise((9, 11, 3), U8)
    row, = converted(tiffs.tiff(tmp_path / "a.tif", samples, fields={274: (3, [turned])}), tmp_path / "a.jp2")
    assert np.array_equal(jk.read(tmp_path / "a.jp2"), samples)
    assert (row.carried, row.notes) == ("orientation" * (turned > 1), "read again by Pillow")


@pytest.mark.parametrize("extra, kind", [(0, "unspecified"), (1, "premultiplied"), (2, "straight")])
@pytest.mark.parametrize("shape, dtype", [((9, 11, 4), U8), ((9, 11, 2), U8), ((9, 11, 4), U16), ((9, 11, 2), U16)])
def test_opacity_of_a_tiff_is_in_one_file(tmp_path, shape, dtype, extra, kind):
    samples = noise(shape, dtype)
    source = tiffs.tiff(tmp_path / "a.tif", samples, fields={338: (3, [extra])})
    row, = converted(source, tmp_path / "a.jp2", strict=True)
    assert row.image == f"11 9 {shape[2]} {8 * samples.itemsize}" and f"opacity: {kind}" in row.notes
    assert row.sha256_of_samples == hashlib.sha256(samples.tobytes()).hexdigest()
    assert jk.info(tmp_path / "a.jp2").opacity == kind and np.array_equal(jk.read(tmp_path / "a.jp2"), samples)
    converted(tmp_path / "a.jp2", tmp_path / "b.tif", strict=True)
    with tifffile.TiffFile(tmp_path / "b.tif") as file:
        assert np.array_equal(file.asarray(), samples) and int(file.pages[0].extrasamples[0]) == extra
    if kind != "straight":
        refused(tmp_path / "a.jp2", tmp_path / "b.png", "PNG holds straight opacity")
    # Bare codestreams, and PGM and PPM files, don't tell of an opacity.
    for source, ending in ((source, "j2k"), (tmp_path / "a.jp2", "pnm")):
        found = converted(source, tmp_path / f"c.{ending}")
        assert [it.out for it in found] == [f"c.{ending}", f"c-alpha.{ending}"] and "of the image before" in found[1].notes


def test_components_in_another_order(tmp_path):
    from test_opacity import with_channels
    samples = noise((9, 11, 4))
    file = with_channels(jk.encode(samples, opacity="straight"), [(0, 1, 0), (1, 0, 3), (2, 0, 2), (3, 0, 1)])
    (tmp_path / "a.jp2").write_bytes(file)
    converted(tmp_path / "a.jp2", tmp_path / "a.tif")
    assert np.array_equal(tifffile.imread(tmp_path / "a.tif"), samples[:, :, [3, 2, 1, 0]])
    (tmp_path / "b.jp2").write_bytes(with_channels(file, [(0, 1, 0), (1, 0, 3), (2, 0, 2), (3, 0, 7)]))
    refused(tmp_path / "b.jp2", tmp_path / "b.tif", "F13 BadBox: the box cdef defines other channels")


@pytest.mark.parametrize("word, shape, dtype, fields", [
    ("palette", (9, 11), U8, {262: (3, [3]), 320: (3, [0] * 768)}), ("CMYK", (9, 11, 4), U8, {262: (3, [5])}),
    ("Lab", (9, 11, 3), U8, {262: (3, [8])}), ("YCbCr", (9, 11, 3), U8, {262: (3, [6])}),
    ("mask", (9, 11), U8, {262: (3, [4])}), ("interpretation is 32803", (9, 11), U8, {262: (3, [32803])}),
    ("floating-point", (9, 11), np.float32, {339: (3, [3])}), ("32 bits", (9, 11), np.uint32, {}),
    ("complex", (9, 11), U16, {339: (3, [6])}), ("have 12 bits", (9, 12, 3), U8, {256: (4, [8]), 258: (3, [12] * 3)}),
    ("5 samples", (9, 11, 5), U8, {262: (3, [2]), 338: (3, [0, 0])}), ("compressed by JPEG,", (9, 11), U8, {259: (3, [7])}),
    ("scheme 32809", (9, 11), U8, {259: (3, [32809])}), ("depth of its own", (9, 11), U8, {32997: (4, [2])}),
    ("predictor", (9, 11), U8, {317: (3, [3])}), ("2 strips or tiles, and tells 1 places", (9, 11), U8, {278: (4, [5])}),
    ("and 0 lengths", (9, 11), U8, {279: None}),
    ("no sample", (9, 11), U8, {256: (4, [0])}), ("2^28", (9, 11), U8, {256: (4, [1 << 20]), 257: (4, [1 << 10])}),
    ("tag 258 isn't one number", (9, 11, 3), U8, {258: (3, [8, 8, 16])}), ("tag 257 isn't there", (9, 11), U8, {257: None}),
    ("whole numbers", (9, 11), U8, {257: (2, b"nine\0")}), ("bytes of 99", (9, 11), U8, {279: (4, [98])}),
    ("stack of ImageJ of 3 images", (9, 11), U8, {270: (2, b"ImageJ=1.53t\nimages=3\nslices=3\n\0")}),
    ("strip or tile 1 isn't in the file", (9, 11), U8, {273: (4, [1 << 20])}),
    ("strip or tile 1 isn't in the file", (9, 11), U8, {273: (4, [0])}),
])
def test_what_a_tiff_may_not_be(tmp_path, word, shape, dtype, fields):
    samples = noise(shape, U8).astype(dtype)
    refused(tiffs.tiff(tmp_path / "a.tif", samples, fields=fields), tmp_path / "a.jp2", word)


def test_damaged_samples_of_a_tiff_are_refused(tmp_path):
    samples = noise((20, 30), U8)
    source = tiffs.tiff(tmp_path / "a.tif", samples, compression=8)
    data = source.read_bytes()
    source.write_bytes(data[:20] + b"\xff" + data[21:])
    refused(source, tmp_path / "a.jp2", "deflated")
    plain = tiffs.tiff(tmp_path / "b.tif", samples, compression=8, rows=20, fields={257: (4, [20]), 278: (4, [20])})
    text = plain.read_bytes()
    whole = zlib.compress(samples.tobytes())
    assert whole in text
    plain.write_bytes(text.replace(whole, zlib.compress(bytes(100)).ljust(len(whole), b"\0")))
    refused(plain, tmp_path / "b.jp2", "bytes of 600")


def test_without_tiffcp_a_packed_file_is_refused(tmp_path, monkeypatch):
    source = tiffs.tiff(tmp_path / "a.tif", noise((9, 11)), fields={259: (3, [5])})
    monkeypatch.setenv("PATH", str(tmp_path))
    refused(source, tmp_path / "a.jp2", "libtiff-tools")


def test_what_tifffile_complains_of_counts_where_it_is_of_samples(tmp_path, monkeypatch):
    """In BigTIFF it takes the place of EXIF for one of 8 bytes where it has 4, in a field that is read here."""
    fields = {34665: (4, {33434: (5, [(1, 9)])})}
    source = tiffs.tiff(tmp_path / "a.tif", noise((9, 11)), order=">", big=True, fields=fields)
    assert converted(source, tmp_path / "a.jp2")[0].carried == "EXIF"

    def warn(page, real=tifffile.TiffPage.asarray, **how):
        tiff.logging.getLogger("tifffile").warning("corrupted strip cannot be reshaped")
        return real(page, **how)

    monkeypatch.setattr(tifffile.TiffPage, "asarray", warn)
    refused(source, tmp_path / "b.jp2", "corrupted strip")


@needs_tiffcp
def test_what_libtiff_complains_of_is_refused(tmp_path):
    samples = np.packbits(noise((64, 64), U8, 1), axis=1)
    tiffs.tiff(tmp_path / "plain.tif", samples, fields={256: (4, [64]), 258: (3, [1])})
    subprocess.run(["tiffcp", "-c", "g4", tmp_path / "plain.tif", tmp_path / "a.tif"], check=True)
    data = bytearray((tmp_path / "a.tif").read_bytes())
    data[40:60] = bytes(20)
    (tmp_path / "a.tif").write_bytes(data)
    refused(tmp_path / "a.tif", tmp_path / "a.jp2", "tiffcp: ")


# PNG.

@pytest.mark.parametrize("interlaced", [False, True])
@pytest.mark.parametrize("shape, dtype, depth", [
    ((13, 17), U8, 1), ((13, 17), U8, 2), ((13, 17), U8, 4), ((13, 17), U8, 8), ((13, 17), U16, 16), ((13, 17, 3), U8, 8),
    ((13, 17, 3), U16, 16), ((1, 1), U8, 8), ((2, 1, 3), U16, 16), ((40, 3, 3), U16, 16),
])
def test_a_png_comes_back(tmp_path, shape, dtype, depth, interlaced):
    samples = noise(shape, dtype, depth)
    source = tiffs.png(tmp_path / "a.png", samples, depth, interlaced=interlaced)
    row, = converted(source, tmp_path / "a.jp2")
    assert jk.info(tmp_path / "a.jp2").depth == depth
    assert np.array_equal(jk.read(tmp_path / "a.jp2"), samples)
    upper = ", in the upper 8 bits," if dtype == U16 and len(shape) == 3 else ""
    assert row.notes == f"read again by Pillow{upper}"
    row, = converted(tmp_path / "a.jp2", tmp_path / "back.png")
    assert row.notes == "read by one reader alone"
    picture, = png.pictures(str(tmp_path / "back.png"))
    assert picture.depth == depth and np.array_equal(picture.samples, samples)
    if upper == "" and depth >= 8:
        assert np.array_equal(np.asarray(Image.open(tmp_path / "back.png")), samples)


@pytest.mark.parametrize("shape, step", [((70, 9), 1), ((5, 34), 2), ((600, 12), 6), ((8, 24), 8)])
def test_each_filter_there_and_back(shape, step):
    rows_ = noise(shape, U8)
    for kinds in (range(5), (4, 3), (0, 4), (3,), (4,)):
        text = tiffs.png_rows(rows_.reshape(shape[0], shape[1] // step, step), 8, list(kinds))
        data = np.frombuffer(text, U8).reshape(shape[0], shape[1] + 1)
        assert np.array_equal(png_filters.unfiltered(data, step), rows_)
    made = png_filters.filtered(rows_, np.zeros(shape[1], U8), step)
    assert np.array_equal(png_filters.unfiltered(np.frombuffer(made, U8).reshape(shape[0], shape[1] + 1), step), rows_)


@pytest.mark.parametrize("kind", range(5))
def test_each_filter_is_written_as_the_standard_has_it(monkeypatch, kind):
    rows_ = noise((9, 24), U8)
    wanted = tiffs.png_rows(rows_.reshape(9, 4, 6), 8, [kind])
    far = iter([it != kind for it in range(5)])
    monkeypatch.setattr(png_filters, "_far", lambda made: next(far))
    assert png_filters.filtered(rows_, np.zeros(24, U8), 6) == wanted


@pytest.mark.parametrize("shape, dtype", [((9, 11, 2), U8), ((9, 11, 4), U8), ((9, 11, 2), U16), ((9, 11, 4), U16)])
def test_opacity_of_a_png_is_in_one_file(tmp_path, shape, dtype):
    samples = noise(shape, dtype)
    chunks = [(b"iCCP", b"name\0\0" + zlib.compress(icc(b"GRAY" if shape[2] == 2 else b"RGB ")))]
    row, = converted(tiffs.png(tmp_path / "a.png", samples, chunks=chunks), tmp_path / "a.jp2", strict=True)
    assert np.array_equal(jk.read(tmp_path / "a.jp2"), samples) and jk.extras(tmp_path / "a.jp2").profile
    assert jk.info(tmp_path / "a.jp2").opacity == "straight" and "read again by Pillow" in row.notes
    converted(tmp_path / "a.jp2", tmp_path / "b.png", strict=True)
    picture, = png.pictures(str(tmp_path / "b.png"))
    assert np.array_equal(picture.whole(), samples) and picture.kept.profile


def test_what_stands_beside_the_samples_of_a_png(tmp_path):
    exif = _beside.exif_of(_beside.Kept(orientation=8, resolution=_beside.Resolution((3001, 10), (300, 1), "inch")))
    chunks = [(b"iCCP", b"name\0\0" + zlib.compress(b"the profile")), (b"pHYs", struct.pack(">LLB", 11815, 11811, 1)),
              (b"iTXt", b"XML:com.adobe.xmp\0\0\0\0\0<x/>"), (b"eXIf", exif), (b"gAMA", bytes(4)),
              (b"tEXt", b"Title\0a page")]
    source = tiffs.png(tmp_path / "a.png", noise((9, 11)), chunks=chunks)
    picture, = png.pictures(str(source))
    assert picture.kept == _beside.Kept(b"the profile", _beside.Resolution((3001, 10), (300, 1), "inch"), b"<x/>",
                                        orientation=8)
    assert picture.lost == ("gAMA", "tEXt Title")
    row, = converted(source, tmp_path / "a.jp2")
    assert row.notes.endswith(f"not carried: gAMA, tEXt Title, {IN_EXIF}")
    assert row.carried == "profile, resolution, XMP, orientation"
    chunks[1] = (b"pHYs", struct.pack(">LLB", 2835, 2835, 1))
    picture, = png.pictures(str(tiffs.png(tmp_path / "b.png", noise((9, 11)), chunks=chunks)))
    assert picture.kept.resolution == _beside.Resolution((2835, 1), (2835, 1), "metre")
    assert "resolution of EXIF, which is another than that of pHYs" in picture.lost


def test_what_a_png_holds_of_what_is_kept(tmp_path):
    kept = _beside.Kept(b"a profile", _beside.Resolution((601, 2), (600, 1), "inch"), b"<x>\xc3\xa9</x>", b"\x1c\2", b"", 3)
    with open(tmp_path / "a.png", "wb") as out:
        assert png.write(out, Picture(noise((5, 6)), 8, kept)) == ["IPTC"]
    picture, = png.pictures(str(tmp_path / "a.png"))
    assert picture.kept == _beside.Kept(kept.profile, kept.resolution, kept.xmp, orientation=3)
    with Image.open(tmp_path / "a.png") as image:
        assert image.info["icc_profile"] == kept.profile and image.getexif()[274] == 3
        assert image.info["dpi"] == pytest.approx((300.5, 600), abs=0.02)


@pytest.mark.parametrize("word, change", [
    ("sum of a chunk", lambda data: data.replace(b"IDAT", b"IDAX", 1)), ("ends inside", lambda data: data[:-5]),
    ("ends inside", lambda data: data[:-12]), ("behind the last", lambda data: data + b"\0"),
    ("first chunk", lambda data: data[:8] + data[33:]),
    ("animation", lambda data: data[:33] + tiffs.chunk(b"acTL", bytes(8)) + data[33:]),
    ("ABCD isn't known", lambda data: data[:33] + tiffs.chunk(b"ABCD", b"") + data[33:]),
    ("fewer samples", lambda data: data[:8] + tiffs.chunk(b"IHDR", data[16:20] + b"\0\0\0\x0a" + data[24:29]) + data[33:]),
    ("more samples", lambda data: data[:8] + tiffs.chunk(b"IHDR", data[16:20] + b"\0\0\0\x08" + data[24:29]) + data[33:]),
    ("doesn't allow", lambda data: data[:8] + tiffs.chunk(b"IHDR", data[16:24] + b"\3" + data[25:29]) + data[33:]),
    ("palette", lambda data: data[:8] + tiffs.chunk(b"IHDR", data[16:25] + b"\3" + data[26:29]) + data[33:]),
    ("deflated", lambda data: data[:33] + tiffs.chunk(b"IDAT", b"\0\0\0") + data[33:]), ("is empty", lambda data: b""),
    ("by its first bytes", lambda data: b"GIF89a" + data),
])
def test_what_a_png_may_not_be(tmp_path, word, change):
    source = tiffs.png(tmp_path / "a.png", noise((9, 11)))
    source.write_bytes(change(source.read_bytes()))
    refused(source, tmp_path / "a.jp2", word)


@pytest.mark.parametrize("change, word", [
    (lambda data: data[:-4], "fewer samples"), (lambda data: data[:-1], "fewer samples"),
    (lambda data: data + b"\0", "more samples"), (lambda data: data[:-1] + bytes([data[-1] ^ 1]), "deflated"),
])
def test_the_end_of_deflated_samples_is_judged(tmp_path, change, word):
    text = b"\x89PNG\r\n\x1a\n" + tiffs.chunk(b"IHDR", struct.pack(">LLBBBBB", 2, 1, 8, 0, 0, 0, 0))
    samples = tiffs.chunk(b"IDAT", change(zlib.compress(b"\0ab")))
    (tmp_path / "a.png").write_bytes(text + samples + tiffs.chunk(b"IEND", b""))
    refused(tmp_path / "a.png", tmp_path / "a.jp2", word)


def test_rows_are_filtered_in_bands(tmp_path, monkeypatch):
    monkeypatch.setattr(png, "BAND", 64)
    samples = np.cumsum(noise((40, 11, 3), U16, 3), axis=0, dtype=U16)
    with open(tmp_path / "a.png", "wb") as out:
        png.write(out, Picture(samples, 16))
    picture, = png.pictures(str(tmp_path / "a.png"))
    assert np.array_equal(picture.samples, samples)
    assert np.array_equal(np.asarray(Image.open(tmp_path / "a.png")), samples >> 8)


def test_a_filter_that_png_has_not_is_refused(tmp_path):
    data = zlib.compress(b"\5ab")
    text = b"\x89PNG\r\n\x1a\n" + tiffs.chunk(b"IHDR", struct.pack(">LLBBBBB", 2, 1, 8, 0, 0, 0, 0))
    (tmp_path / "a.png").write_bytes(text + tiffs.chunk(b"IDAT", data) + tiffs.chunk(b"IEND", b""))
    refused(tmp_path / "a.png", tmp_path / "a.jp2", "filter")


# PGM and PPM.

@pytest.mark.parametrize("depth", range(1, 17))
def test_a_pnm_comes_back(tmp_path, depth):
    for ending, magic, shape in (("pgm", b"P5", (7, 9)), ("ppm", b"P6", (7, 9, 3))):
        samples = noise(shape, U8 if depth <= 8 else U16, depth)
        text = magic + f"\n9 7\n{(1 << depth) - 1}\n".encode() + samples.astype(U8 if depth <= 8 else ">u2").tobytes()
        source = tmp_path / f"{depth}.{ending}"
        source.write_bytes(text)
        converted(source, tmp_path / f"{depth}-{ending}.jp2")
        assert jk.info(tmp_path / f"{depth}-{ending}.jp2").depth == depth
        row, = converted(tmp_path / f"{depth}-{ending}.jp2", tmp_path / f"{depth}-back.{ending}")
        assert (tmp_path / f"{depth}-back.{ending}").read_bytes() == text
        row, = converted(tmp_path / f"{depth}-{ending}.jp2", tmp_path / f"{depth}-{ending}.tif")
        assert ("as they are" in row.notes) == (depth not in (8, 16) and (depth, ending) != (1, "pgm"))
        assert np.array_equal(tifffile.imread(tmp_path / f"{depth}-{ending}.tif"), samples)


@pytest.mark.parametrize("text, word", [
    (b"P5 2 2 254 1234", "254"), (b"P5 2 2 0 1234", "0, and not"), (b"P5 2 2 131071 12345678", "131071"),
    (b"P5 2 2 255 123", "3 bytes, and the image takes 4"), (b"P5 2 2 255 12345", "5 bytes"), (b"P5 0 2 255 ", "no sample"),
    (b"P5 2 2 127 12\xff4", "greater than 127"), (b"P5 2 255 ", "don't stand"), (b"P4 8 1 1", "first bytes"),
])
def test_what_a_pnm_may_not_be(tmp_path, text, word):
    (tmp_path / "a.pgm").write_bytes(text)
    refused(tmp_path / "a.pgm", tmp_path / "a.jp2", word)


def test_comments_of_a_pnm_are_told(tmp_path):
    (tmp_path / "a.pgm").write_bytes(b"P5 # a comment\n2 2 255\n1234")
    assert "comments" in converted(tmp_path / "a.pgm", tmp_path / "a.jp2")[0].notes


# JPEG 2000.

def boxed(*boxes, space=17):
    """A JP2 file with further boxes in its header and behind that."""
    data = jk.encode(noise((9, 11)))
    inner = b"".join(struct.pack(">L", 8 + len(text)) + kind + text for kind, text, is_inner in boxes if is_inner)
    outer = b"".join(struct.pack(">L", 8 + len(text)) + kind + text for kind, text, is_inner in boxes if not is_inner)
    header = data[32:77].replace(b"\0\0\0\x11", struct.pack(">L", space)) if space != 17 else data[32:77]
    return data[:32] + struct.pack(">L", 45 + len(inner)) + header[4:] + inner + outer + data[77:]


GRID = struct.pack(">L4sHHHHbb", 18, b"resc", 15000, 127, 15000, 127, 2, 2)
XMP_BOX = bytes.fromhex("be7acfcb97a942e89c71999491e3afac") + b"<x/>"


@pytest.mark.parametrize("boxes, carried, told", [
    ([], "", []), ([(b"res ", GRID, True)], "resolution", []),
    ([(b"res ", GRID + GRID.replace(b"resc", b"resd"), True)], "resolution", ["display resolution"]),
    ([(b"res ", bytes(18), True)], "", ["what stands there: F2 Truncated: the file, a box or a tile-part is cut off, or EOC "
                                        "is missing at the end"]),
    ([(b"colr", b"\2\0\0" + bytes(9), True)], "", ["further colours"]),
    ([(b"uuid", XMP_BOX, False), (b"xml ", b"<x/>", False)], "XMP", ["a box xml"]),
    ([(b"uuid", bytes(20), False)], "", ["a uuid box"]), ([(b"uinf", bytes(4), False)], "", ["a box uinf"]),
    ([(b"uuid", b"JpgTiffExif->JP2II", False)], "", ["EXIF that can't be read"]),
])
def test_what_a_jp2_has_beside_its_samples_is_told(tmp_path, boxes, carried, told):
    (tmp_path / "a.jp2").write_bytes(boxed(*boxes))
    row, = converted(tmp_path / "a.jp2", tmp_path / "a.tif")
    assert row.notes == "; ".join(["read by one reader alone", *[f"not carried: {', '.join(told)}"] * bool(told)])
    assert row.carried == carried
    if told:
        refused(tmp_path / "a.jp2", tmp_path / "b.tif", f"not carried: {told[0]}", strict=True)


def test_a_place_on_the_reference_grid_is_told(tmp_path):
    jk.write(tmp_path / "a.jp2", noise((9, 11)), place=(3, 0))
    assert converted(tmp_path / "a.jp2", tmp_path / "a.tif")[0].notes.endswith("not carried: place on the reference grid")


def test_sycc_is_refused(tmp_path):
    (tmp_path / "a.jp2").write_bytes(boxed(space=18))
    refused(tmp_path / "a.jp2", tmp_path / "a.tif", "sYCC")


def test_other_components_and_damage_are_refused(tmp_path):
    (tmp_path / "a.j2k").write_bytes(jk.encode(noise((9, 11, 4))))
    refused(tmp_path / "a.j2k", tmp_path / "a.tif", "4 components")
    (tmp_path / "b.jp2").write_bytes(jk.encode(noise((9, 11)))[:-3])
    refused(tmp_path / "b.jp2", tmp_path / "b.tif", "F2 Truncated")
    (tmp_path / "c.jp2").write_bytes(jk.encode(noise((9, 11))))
    refused(tmp_path / "c.jp2", tmp_path / "c2.jp2", "already")
    refused(tiffs.tiff(tmp_path / "d.tif", noise((9, 11))), tmp_path / "d.png", "no JPEG 2000")
    refused(tmp_path / "c.jp2", tmp_path / "c.ppm", "the image is grey")


# What stands beside the samples.

@pytest.mark.parametrize("order", "<>")
def test_a_tiff_to_a_tiff_keeps_what_stands_beside(tmp_path, order):
    exif = {33434: (5, [(1, 125)]), 37500: (7, b"a maker's note"), 40965: (4, {1: (2, b"R98\0")})}
    fields = {**FIELDS, 270: (2, b"a page\0"), 34665: (4, exif), 34853: (4, {0: (1, b"\2\3\0\0")}),
              33723: (7, b"\x1c\2\5\0\1x")}
    samples = noise((9, 11), U16)
    source = tiffs.tiff(tmp_path / "a.tif", samples, order=order, fields={**fields, 262: (3, [0])})
    picture, = tiff.pictures(str(source))
    with open(tmp_path / "b.tif", "wb") as out:
        assert tiff_writing.write(out, picture) == []
    again, = tiff.pictures(str(tmp_path / "b.tif"))
    assert again.kept == picture.kept and again.kept.white_is_zero and np.array_equal(again.samples, samples)
    with tifffile.TiffFile(tmp_path / "b.tif") as file:
        tags = file.pages[0].tags
        assert (file.byteorder, tags[34675].value, tags[274].value, tags[282].value) == (order, b"profile!!", 6, (3005, 10))
        assert tags[34665].value["ExposureTime"] == (1, 125) and tags[270].value == "a page"
    # Pillow doesn't open 16 bits whose least is white in the other byte order.
    if order == "<":
        image = Image.open(tmp_path / "b.tif")
        assert image.info["icc_profile"] == b"profile!!" and image.getexif().get_ifd(34665)[37500] == b"a maker's note"


def test_what_is_not_carried_is_told_and_refused_where_it_is_asked(tmp_path):
    source = tiffs.tiff(tmp_path / "a.tif", noise((9, 11)), fields={**FIELDS, 65000: (3, [1])})
    refused(source, tmp_path / "a.jp2", f"not carried: tag 65000, {IN_EXIF}", strict=True)
    row, = converted(source, tmp_path / "a.jp2")
    assert (row.carried, row.notes) == \
        ("profile, resolution, XMP, orientation", f"read again by Pillow; not carried: tag 65000, {IN_EXIF}")
    # A profile that JP2 doesn't take comes back all the same.
    assert jk.extras(tmp_path / "a.jp2").profile is None
    converted(tmp_path / "a.jp2", tmp_path / "b.tif")
    assert next(tiff.pictures(str(tmp_path / "b.tif"))).kept.profile == b"profile!!"
    row, = converted(source, tmp_path / "a.j2k")
    assert (row.carried, row.notes) == \
        ("", "read again by Pillow; not carried: tag 65000, profile, resolution, XMP, orientation")


@pytest.mark.parametrize("ratio, unit, inches", [
    ((3005, 10), 2, (Fraction(601, 2), Fraction(601, 2))), ((118, 1), 3, (Fraction(14986, 50), Fraction(14986, 50))),
    ((3000001, 10000), 2, None), ((2, 1), 1, None),
])
def test_all_goes_to_a_jp2_and_comes_back(tmp_path, ratio, unit, inches):
    """What a resolution box hasn't exactly stands in EXIF, and in the box the nearest to it."""
    exif = {33434: (5, [(1, 125)]), 37500: (7, b"a maker's note"), 40965: (4, {1: (2, b"R98\0")})}
    down = (1, 1) if unit == 1 else ratio
    fields = {270: (2, b"a page\0"), 274: (3, [6]), 282: (5, [ratio]), 283: (5, [down]), 296: (3, [unit]), 700: (1, b"<x/>"),
              33723: (7, b"\x1c\2\5\0\1x"), 34665: (4, exif), 34853: (4, {0: (1, b"\2\3\0\0")}), 34675: (7, icc())}
    source = tiffs.tiff(tmp_path / "a.tif", noise((9, 11, 3)), fields=fields)
    row, = converted(source, tmp_path / "a.jp2", strict=True)
    assert row.carried == "profile, resolution, XMP, IPTC, EXIF, orientation"
    told = jk.extras(tmp_path / "a.jp2")
    assert (told.profile, told.xmp, told.iptc) == (icc(), b"<x/>", b"\x1c\2\5\0\1x")
    if unit == 1:
        assert told.resolution is None
    elif inches is not None:
        assert told.resolution == inches
    else:
        assert told.resolution[0] != Fraction(*ratio) and abs(told.resolution[0] / Fraction(*ratio) - 1) < Fraction(1, 10 ** 9)
    converted(tmp_path / "a.jp2", tmp_path / "b.tif", strict=True)
    (one_way,), (other,) = (list(tiff.pictures(str(tmp_path / name))) for name in ("a.tif", "b.tif"))
    assert one_way.kept == other.kept and np.array_equal(one_way.samples, other.samples)


#: A map in UTM zone 32 with pixels of half a metre: GeoTIFF 1.0's fields, with a key of numbers and one of text.
MAP = {33550: (12, [0.5, 0.5, 0.0]), 33922: (12, [0.0, 0.0, 0.0, 500000.25, 5400000.75, 0.0]),
       34735: (3, [1, 1, 0, 4, 1024, 0, 1, 1, 1025, 0, 1, 1, 2057, 34736, 1, 0, 3072, 0, 1, 32632]),
       34736: (12, [6378137.0]), 34737: (2, b"UTM 32N|\0")}


@pytest.mark.parametrize("order, big", [("<", False), (">", False), ("<", True), (">", True)])
def test_where_a_map_stands_goes_along_where_it_is_asked(tmp_path, order, big):
    """As GeoJP2 has it, in a GeoTIFF file of one pixel in a box; EXIF keeps its own byte order."""
    samples = noise((9, 11, 3))
    source = tiffs.tiff(tmp_path / "a.tif", samples, order=order, big=big, fields={**MAP, **FIELDS, 34675: (7, icc())})
    row, = converted(source, tmp_path / "a.jp2", geo=True, strict=True)
    assert row.carried == "profile, resolution, XMP, orientation, GeoTIFF"
    (name, text), = jk.extras(tmp_path / "a.jp2").uuids
    assert name.hex() == "b14bf8bd083d4b43a5ae8cd7d5a6ce03"
    (tmp_path / "one.tif").write_bytes(text)
    row, = converted(tmp_path / "a.jp2", tmp_path / "b.tif", geo=True, strict=True)
    assert row.carried == "profile, resolution, XMP, orientation, GeoTIFF"
    for path, pixels in (("one.tif", np.zeros((1, 1), U8)), ("b.tif", samples)):
        with tifffile.TiffFile(tmp_path / path) as file:
            assert np.array_equal(file.pages[0].asarray(), pixels)
            tags = file.pages[0].tags
            found = {tag: tags[tag].value for tag in MAP}
        assert found == {tag: tuple(it) if kind != 2 else it[:-1].decode() for tag, (kind, it) in MAP.items()}
    assert next(tiff.pictures(str(tmp_path / "b.tif"))).kept.geo == next(tiff.pictures(str(source))).kept.geo


def test_where_a_map_stands_is_told_where_it_does_not_go_along(tmp_path):
    source = tiffs.tiff(tmp_path / "a.tif", noise((9, 11)), fields=MAP)
    refused(source, tmp_path / "a.jp2", "not carried: GeoTIFF (--geo carries it)", strict=True)
    row, = converted(source, tmp_path / "a.jp2")
    assert (row.carried, row.notes) == ("", "read again by Pillow; not carried: GeoTIFF (--geo carries it)")
    assert jk.extras(tmp_path / "a.jp2").uuids == ()
    assert run("--geo", source, tmp_path / "b.jp2").returncode == 0
    for out, notes in (("b.tif", "not carried: GeoTIFF (--geo carries it)"), ("c.tif", None), ("b.png", "not carried: GeoTIFF")):
        row, = converted(tmp_path / "b.jp2", tmp_path / out, geo=out != "b.tif")
        assert row.notes == "; ".join(["read by one reader alone", *[notes] * bool(notes)])
    refused(tmp_path / "b.jp2", tmp_path / "c.png", "not carried: GeoTIFF", geo=True, strict=True)


def test_a_box_of_geojp2_that_can_not_be_read_is_told(tmp_path):
    (tmp_path / "a.jp2").write_bytes(boxed((b"uuid", jp2.GEO + b"II*\0\xff\0\0\0", False)))
    row, = converted(tmp_path / "a.jp2", tmp_path / "a.tif", geo=True)
    assert row.notes == "read by one reader alone; not carried: GeoJP2 that can't be read"


def test_a_jp2_that_loses_what_stands_beside_is_found(tmp_path, monkeypatch):
    source = tiffs.tiff(tmp_path / "a.tif", noise((9, 11)), fields=FIELDS)
    monkeypatch.setattr(jp2, "with_extras", lambda file, extras: file)
    refused(source, tmp_path / "a.jp2", "other things beside the samples")


# Checks.

def test_a_reader_that_gives_other_samples_is_found(tmp_path, monkeypatch):
    """Of each of the two readers."""
    source = tiffs.tiff(tmp_path / "a.tif", noise((9, 11)))
    real = tifffile.TiffPage.asarray
    monkeypatch.setattr(tifffile.TiffPage, "asarray", lambda *it, **how: real(*it, **how) ^ 1)
    refused(source, tmp_path / "a.jp2", "Pillow reads other samples")
    monkeypatch.undo()
    if shutil.which("tiffcp"):
        wide = tiffs.tiff(tmp_path / "b.tif", noise((9, 11, 3), U16), tile=(16, 16))
        monkeypatch.setattr(np, "fromfile", lambda *it, real=np.fromfile, **how: real(*it, **how) ^ 1)
        refused(wide, tmp_path / "b.jp2", "tiffcp reads other samples")


@pytest.mark.parametrize("ending, module", [("tif", tiff_writing), ("png", png), ("pgm", None)])
def test_a_writer_that_loses_bits_is_found(tmp_path, monkeypatch, ending, module):
    (tmp_path / "a.jp2").write_bytes(jk.encode(noise((9, 11))))
    real = one.WRITERS[{"tif": "tiff", "pgm": "pnm"}.get(ending, ending)]
    worse = {key: lambda out, it: real(out, Picture(it.samples & 254, it.depth)) for key in one.WRITERS}
    monkeypatch.setattr(one, "WRITERS", worse)
    refused(tmp_path / "a.jp2", tmp_path / f"a.{ending}", "other samples")


def test_a_writer_that_loses_what_stands_beside_is_found(tmp_path, monkeypatch):
    (tmp_path / "a.jp2").write_bytes(jk.encode(noise((9, 11))))
    kept = _beside.Kept(resolution=_beside.Resolution((11811, 1), (11811, 1), "metre"))
    monkeypatch.setitem(one.READERS, "jp2", lambda path: iter([Picture(jk.read(path), 8, kept)]))
    assert converted(tmp_path / "a.jp2", tmp_path / "a.tif")[0].carried == "resolution"
    with tifffile.TiffFile(tmp_path / "a.tif") as file:
        assert (file.pages[0].tags[282].value, file.pages[0].tags[296].value) == ((11811, 100), 3)
    assert converted(tmp_path / "a.jp2", tmp_path / "a.png")[0].carried == "resolution"
    monkeypatch.setattr(tiff_writing, "fields_of", lambda kept: {})
    refused(tmp_path / "a.jp2", tmp_path / "b.tif", "other things beside the samples")
    monkeypatch.setattr(png, "_put_kept", lambda out, kept: [])
    refused(tmp_path / "a.jp2", tmp_path / "b.png", "other things beside the samples")


def test_an_encoder_that_loses_bits_is_found(tmp_path, monkeypatch):
    source = tiffs.tiff(tmp_path / "a.tif", noise((9, 11)))
    monkeypatch.setattr(jp2, "encode", lambda samples, **how: jk.encode(samples & 254, **how))
    refused(source, tmp_path / "a.jp2", "what was written reads back with other samples")


@pytest.mark.parametrize("change", [lambda path: path.write_bytes(path.read_bytes() + b"\0"),
                                    lambda path: os.utime(path, ns=(1, 1)), lambda path: shutil.move(path, f"{path}.old")])
def test_a_file_that_changes_while_it_is_read_is_told(tmp_path, monkeypatch, change):
    (tmp_path / "in").mkdir()
    (tmp_path / "out").mkdir()
    source = tiffs.tiff(tmp_path / "in" / "a.tif", noise((9, 11)))
    monkeypatch.setattr(one, "agreed", lambda *it, real=one.agreed: (real(*it), change(source))[0])
    (_, why), = convert(source, tmp_path / "out" / "a.jp2").refused
    assert "changed while it was read" in why or "No such file" in why
    assert os.listdir(tmp_path / "out") == []


def test_what_is_there_is_not_overwritten(tmp_path):
    source = tiffs.tiff(tmp_path / "a.tif", noise((9, 11)))
    (tmp_path / "a.jp2").write_bytes(b"of another")
    refused(source, tmp_path / "a.jp2", "is there already, and is another file")
    assert (tmp_path / "a.jp2").read_bytes() == b"of another"
    (tmp_path / "a.jp2").unlink()
    assert converted(source, tmp_path / "a.jp2")[0].sha256_of_out == converted(source, tmp_path / "a.jp2")[0].sha256_of_out
    # All pages or none.
    pages = tiffs.tiff(tmp_path / "b.tif", noise((9, 11)), noise((9, 12)))
    (tmp_path / "b-0002.jp2").write_bytes(b"of another")
    refused(pages, tmp_path / "b.jp2", "b-0002.jp2 is there already")


def test_a_file_is_stored_before_it_has_its_name_and_that_before_its_row(tmp_path, folder, monkeypatch):
    steps, fsync, link = [], os.fsync, os.link

    def stored(file):
        steps.append(f"store {os.path.basename(os.readlink(f'/proc/self/fd/{file}'))}")
        fsync(file)

    def named(part, out):
        steps.append(f"name {os.path.basename(out)}")
        link(part, out)

    monkeypatch.setattr(os, "fsync", stored)
    monkeypatch.setattr(os, "link", named)
    convert(folder / "a.tif", tmp_path / "out" / "a.jp2", tmp_path / "table.csv")
    assert steps == ["store table.csv", "store .jk-tmp-0", "name a.jp2", "store out", "store table.csv"]


def test_where_a_file_has_no_second_name(tmp_path, monkeypatch):
    def link(*_):
        raise OSError(1, "Operation not permitted")

    source = tiffs.tiff(tmp_path / "a.tif", noise((9, 11)))
    monkeypatch.setattr(placing.os, "link", link)
    converted(source, tmp_path / "a.jp2")
    converted(source, tmp_path / "a.jp2")
    assert sorted(os.listdir(tmp_path)) == ["a.jp2", "a.tif"]
    (tmp_path / "a.jp2").write_bytes(b"of another")
    refused(source, tmp_path / "a.jp2", "another file")


def test_a_full_disk_is_told_and_nothing_is_half(tmp_path):
    """A limit on files stands for the disk."""
    (tmp_path / "in").mkdir()
    tiffs.tiff(tmp_path / "in" / "a.tif", noise((9, 11)))
    tiffs.tiff(tmp_path / "in" / "b.tif", noise((99, 99)))
    limit = lambda: resource.setrlimit(resource.RLIMIT_FSIZE, (4096, 4096))  # noqa: E731
    told = run(tmp_path / "in", tmp_path / "out", preexec_fn=limit)
    assert told.returncode == 1 and "File too large" in told.stderr and "Traceback" not in told.stderr
    assert sorted(os.listdir(tmp_path / "out")) == ["a.jp2", "jk-convert.csv"]
    assert [row["name"] for row in table_of(tmp_path / "out" / "jk-convert.csv")] == ["a.tif"]


# Folders and tables.

def test_a_folder_there_and_back(tmp_path, folder):
    counts = convert(folder, tmp_path / "out")
    assert (counts.converted, counts.others, counts.refused) == (3, 1, [])
    found = table_of(tmp_path / "out" / "jk-convert.csv")
    assert [(row["name"], row["out"]) for row in found] == \
        [("a.tif", "a.jp2"), ("c.pgm", "c.jp2"), ("sub/b.png", "sub/b.jp2")]
    for row in found:
        out = tmp_path / "out" / row["out"]
        assert row["sha256_of_out"] == hashlib.sha256(out.read_bytes()).hexdigest()
        assert int(row["size"]) == (folder / row["name"]).stat().st_size
        assert row["sha256_of_samples"] == one.digest_of_samples(jk.read(out))
    assert convert(tmp_path / "out", tmp_path / "back", to="png").converted == 3
    assert np.array_equal(np.asarray(Image.open(tmp_path / "back" / "sub" / "b.png")), noise((9, 11), U16))


def test_a_table_is_gone_on_with_when_it_is_asked(tmp_path, folder):
    out = tmp_path / "out"
    convert(folder, out)
    table = (out / "jk-convert.csv").read_bytes()
    with pytest.raises(CannotConvert, match="is there already: --resume"):
        convert(folder, out)
    counts = convert(folder, out, resume=True)
    assert (counts.converted, counts.passed) == (0, 3) and (out / "jk-convert.csv").read_bytes() == table
    # A row that was cut off is none, and its file is the same again.
    (out / "jk-convert.csv").write_bytes(table[:-9])
    counts = convert(folder, out, resume=True)
    assert (counts.converted, counts.passed) == (1, 2)
    assert [row["name"] for row in table_of(out / "jk-convert.csv")] == ["a.tif", "c.pgm", "sub/b.png"]
    # OUT is gone, and IN is another.
    (out / "a.jp2").unlink()
    counts = convert(folder, out, resume=True)
    assert (counts.converted, counts.passed, counts.refused) == (1, 2, [])
    (folder / "c.pgm").write_bytes(b"P5 3 3 255\n123456789")
    (name, why), = convert(folder, out, resume=True).refused
    assert name == "c.pgm" and "another file" in why


def test_out_of_another_digest_is_not_passed_over(tmp_path, folder):
    convert(folder, tmp_path / "out")
    data = (tmp_path / "out" / "a.jp2").read_bytes()
    (tmp_path / "out" / "a.jp2").write_bytes(data[:-1] + b"\0")
    counts = convert(folder, tmp_path / "out", resume=True)
    assert counts.passed == 2 and [name for name, _ in counts.refused] == ["a.tif"]


def test_only_all_rows_of_a_file_let_it_be_passed_over(tmp_path):
    (tmp_path / "in").mkdir()
    tiffs.tiff(tmp_path / "in" / "a.tif", noise((9, 11)), noise((9, 12)))
    convert(tmp_path / "in", tmp_path / "out")
    table = tmp_path / "out" / "jk-convert.csv"
    table.write_bytes(b"".join(table.read_bytes().splitlines(True)[:-1]))
    assert convert(tmp_path / "in", tmp_path / "out", resume=True).converted == 1


def test_two_files_with_one_out(tmp_path, folder):
    tiffs.png(folder / "a.png", noise((4, 4)))
    (name, why), = convert(folder, tmp_path / "out").refused
    assert (name, why) == ("a.tif", "OUT would be that of a.png too")


def test_a_table_of_others_is_refused(tmp_path, folder):
    (tmp_path / "table.csv").write_text("name,size\n")
    with pytest.raises(CannotConvert, match="isn't a table"):
        convert(folder, tmp_path / "out", tmp_path / "table.csv", resume=True)
    (tmp_path / "table.csv").write_text(",".join(rows.HEAD) + "\na,b\n")
    with pytest.raises(CannotConvert, match="line 2 isn't a row"):
        convert(folder, tmp_path / "out", tmp_path / "table.csv", resume=True)


def test_one_program_at_a_time_has_a_table(tmp_path, folder):
    held = rows.Table(str(tmp_path / "table.csv"), False)
    with pytest.raises(CannotConvert, match="another jk.convert writes to it"):
        convert(folder, tmp_path / "out", tmp_path / "table.csv", resume=True)
    held.close()
    assert convert(folder, tmp_path / "out", tmp_path / "table.csv", resume=True).converted == 3


def test_a_table_that_can_not_be_written_ends_all(tmp_path, folder, monkeypatch):
    def refuse(file, text, real=os.write):
        return real(file, text) if text.startswith(b"name,") else real(file, text[:7])

    monkeypatch.setattr(rows.os, "write", refuse)
    with pytest.raises(OSError, match="cut off"):
        convert(folder, tmp_path / "out")
    monkeypatch.undo()
    assert table_of(tmp_path / "out" / "jk-convert.csv") == []
    assert sorted(os.listdir(tmp_path / "out")) == ["a.jp2", "jk-convert.csv"]
    assert convert(folder, tmp_path / "out", resume=True).converted == 3


def test_names_of_any_kind(tmp_path):
    (tmp_path / "in").mkdir()
    for name in ('a "b", c.pgm', "\u00fc.pgm", "line\nbreak.pgm", "x\udcff.pgm"):
        (tmp_path / "in" / name).write_bytes(b"P5 3 2 255\n123456")
    counts = convert(tmp_path / "in", tmp_path / "out")
    assert counts.converted == 3 and counts.refused == [("line\nbreak.pgm", "its name has a line break")]
    assert sorted(row["name"] for row in table_of(tmp_path / "out" / "jk-convert.csv")) == \
        sorted(['a "b", c.pgm', "\u00fc.pgm", "x\udcff.pgm"])
    assert convert(tmp_path / "in", tmp_path / "out", resume=True).passed == 3


def test_parts_that_nobody_holds_are_removed(tmp_path, folder):
    out = tmp_path / "out"
    out.mkdir()
    for name in (".jk-tmp-0", ".jk-tmp-700", ".jk-tmp-x", "a.jk-tmp-1"):
        (out / name).write_bytes(b"")
    with open(out / ".jk-tmp-3", "wb") as held:
        fcntl.flock(held, fcntl.LOCK_EX)
        convert(folder, out)
    assert {it for it in os.listdir(out) if "tmp" in it} == {".jk-tmp-3", ".jk-tmp-x", "a.jk-tmp-1"}


def test_a_part_that_is_out_by_another_name(tmp_path):
    """A process that was killed between two steps leaves one."""
    source = tiffs.tiff(tmp_path / "a.tif", noise((9, 11)))
    converted(source, tmp_path / "a.jp2")
    data = (tmp_path / "a.jp2").read_bytes()
    os.link(tmp_path / "a.jp2", tmp_path / ".jk-tmp-0")
    converted(source, tmp_path / "a.jp2")
    assert (tmp_path / "a.jp2").read_bytes() == data and sorted(os.listdir(tmp_path)) == ["a.jp2", "a.tif"]


# Processes.

def many_files(path, count):
    path.mkdir()
    for number in range(count):
        tiffs.tiff(path / f"{number:03}.tif", noise((9, 11), seed=number))
    return path


def test_several_processes_do_the_same(tmp_path, monkeypatch):
    source = many_files(tmp_path / "in", 9)
    (source / "004.tif").write_bytes(b"II*\0")
    monkeypatch.setattr(workers, "FILES", 2)
    begun, real = [], subprocess.Popen
    monkeypatch.setattr(workers.subprocess, "Popen", lambda *it, **how: begun.append(it) or real(*it, **how))
    counts = convert(source, tmp_path / "out", workers=3)
    assert (counts.converted, [name for name, _ in counts.refused]) == (8, ["004.tif"])
    assert 5 <= len(begun) <= 6
    monkeypatch.undo()
    assert sorted(row["name"] for row in table_of(tmp_path / "out" / "jk-convert.csv")) == \
        sorted(f"{it:03}.tif" for it in range(9) if it != 4)
    assert convert(source, tmp_path / "out", workers=2, resume=True).passed == 8


def test_a_process_that_is_killed_costs_its_file_alone(tmp_path, monkeypatch):
    source = many_files(tmp_path / "in", 6)
    given = []

    def give(worker, job, real=workers.Worker.give):
        given.append(job.name)
        if len(given) == 3:
            worker.child.kill()
            worker.child.wait()
        real(worker, job)

    monkeypatch.setattr("jk.convert.workers.Worker.give", give)
    counts = convert(source, tmp_path / "out", workers=2)
    (name, why), = counts.refused
    assert counts.converted == 5 and name == given[2] and "signal 9" in why
    assert convert(source, tmp_path / "out", workers=2, resume=True).converted == 1


def test_ctrl_c_lets_files_end_and_a_second_one_does_not(capsys):
    before = signal.getsignal(signal.SIGINT)
    with workers.Stop() as stop:
        os.kill(os.getpid(), signal.SIGINT)
        assert stop.is_asked and "it ends when" in capsys.readouterr().err
        assert list(workers.each_done(iter([None]), 1, stop)) == list(workers.each_done(iter([None]), 2, stop)) == []
        with pytest.raises(KeyboardInterrupt):
            os.kill(os.getpid(), signal.SIGTERM)
    assert signal.getsignal(signal.SIGINT) == before


@pytest.mark.parametrize("count", [1, 2])
def test_ctrl_c_leaves_whole_files_and_a_true_table(tmp_path, count):
    source = many_files(tmp_path / "in", 150)
    out = tmp_path / "out"
    child = subprocess.Popen([sys.executable, "-m", "jk.convert", source, out, "--workers", str(count)],
                             stderr=subprocess.PIPE, text=True)
    while not (out / "003.jp2").exists():
        assert child.poll() is None
        time.sleep(0.005)
    child.send_signal(signal.SIGINT)
    told = child.communicate()[1]
    assert child.returncode == 130 and "Traceback" not in told
    found = table_of(out / "jk-convert.csv")
    assert 0 < len(found) < 150
    assert sorted(os.listdir(out)) == sorted([row["out"] for row in found] + ["jk-convert.csv"])
    counts = convert(source, out, resume=True)
    assert (counts.passed, counts.converted) == (len(found), 150 - len(found))


# Archives.

# It fails where another one is at work.
ADD = f"""#!{sys.executable}
import os, sys
_, command, folder, name, path, *words = sys.argv
os.mkdir(folder + "/alone")
try:
    sys.path[:0] = {[it for it in sys.path if it]!r}
    import jk
    from jk.convert import pnm
    assert command == "add"
    out = folder + "/" + name + ".jp2"
    if os.path.exists(out):
        sys.exit("jk: F18 NameTaken")
    if name == "worse":
        sys.exit("jk: F20 Shelf")
    picture, = pnm.pictures(path)
    samples = picture.samples & 254 if name == "loses" else picture.samples
    open(out, "wb").write(jk.encode(samples, depth=picture.depth))
    open(folder + "/words", "w").write(" ".join(words))
finally:
    os.rmdir(folder + "/alone")
"""


@pytest.fixture
def program(tmp_path):
    path = tmp_path / "jk"
    path.write_text(ADD)
    path.chmod(0o755)
    (tmp_path / "archive").mkdir()
    return str(path)


def test_files_go_into_an_archive(tmp_path, folder, program):
    archive = tmp_path / "archive"
    how = {"into": archive, "program": program, "windows": True, "colour": False, "tile": (64, 32)}
    tiffs.png(folder / "Slide 12.png", noise((9, 11, 4)))
    assert convert(folder, **how).converted == 4
    found = table_of(archive / "jk-convert.csv")
    assert [row["out"] for row in found] == ["slide-12.jp2", "slide-12-alpha.jp2", "a.jp2", "c.jp2", "sub-b.jp2"]
    assert np.array_equal(jk.read(archive / "a.jp2"), noise((9, 11, 3)))
    assert (archive / "words").read_text() == \
        "--tile-width 64 --tile-height 32 --no-colour --precincts 777777777777 --order RPCL --layers 8"
    # What was added and has no row is taken as it stands.
    (archive / "jk-convert.csv").write_bytes(b"")
    assert convert(folder, resume=True, **how).converted == 4
    assert [row["sha256_of_out"] for row in table_of(archive / "jk-convert.csv")] == [row["sha256_of_out"] for row in found]


def test_one_jk_add_at_a_time_is_begun(tmp_path, program):
    counts = convert(many_files(tmp_path / "in", 9), into=tmp_path / "archive", program=program, workers=3)
    assert (counts.converted, counts.refused) == (9, [])


@pytest.mark.parametrize("name, word", [("loses", "reads back with other samples"), ("worse", "jk add: jk: F20 Shelf"),
                                        ("taken", "another image, which has the name")])
def test_what_jk_add_refuses_is_told(tmp_path, program, name, word):
    source = tiffs.tiff(tmp_path / f"{name}.tif", noise((9, 11)))
    jk.write(tmp_path / "archive" / "taken.jp2", noise((4, 4)))
    told = run(source, "--into", tmp_path / "archive", "--jk", program)
    assert told.returncode == 1 and word in told.stderr


def test_long_names_leave_room_for_pages_and_opacity(tmp_path, program):
    source = tiffs.tiff(tmp_path / f"{'n' * 99}.tif", noise((9, 11, 4)), noise((9, 11, 4)), fields={338: (3, [2])})
    assert convert(source, into=tmp_path / "archive", program=program).converted == 1
    assert max(len(it) for it in os.listdir(tmp_path / "archive")) <= 64 + len(".jp2")


def test_signed_samples_have_no_archive(tmp_path, program):
    source = tiffs.tiff(tmp_path / "a.tif", noise((9, 11), I16))
    (_, why), = convert(source, into=tmp_path / "archive", program=program).refused
    assert "signed" in why


# The command line.

def test_the_command_line_tells_and_has_a_status(tmp_path, folder):
    told = run(folder / "c.pgm", tmp_path / "c.jp2", "--levels", 6)
    assert (told.returncode, told.stderr) == \
        (1, f"jk.convert: {folder}/c.pgm: F15 BadParameters: the image or a parameter is outside the profile\n")
    told = run(folder / "a.tif", tmp_path / "a.j2k", "--raw", "--tile-width", 8, "--tile-height", 8, "--segments")
    assert (told.returncode, told.stderr) == (0, f"jk.convert: {folder}/a.tif: a.j2k: note: read again by Pillow\n")
    assert (tmp_path / "a.j2k").read_bytes()[:4] == b"\xff\x4f\xff\x51"
    (folder / "bad.tif").write_bytes(b"II*\0")
    told = run(folder, tmp_path / "out")
    assert told.returncode == 1 and told.stderr.splitlines()[-1] == \
        "jk.convert: 3 converted, 0 passed over, 1 other files in the folders, 1 refused"


def test_a_terminal_has_a_bar(tmp_path, folder):
    pytest.importorskip("tqdm")
    (folder / "bad.tif").write_bytes(b"II*\0")
    ours, theirs = pty.openpty()
    child = subprocess.Popen([sys.executable, "-m", "jk.convert", folder, tmp_path / "out"], stderr=theirs)
    os.close(theirs)
    told = b""
    with contextlib.suppress(OSError):
        # The terminal ends with an error when the program has.
        while True:
            told += os.read(ours, 4096)
    os.close(ours)
    assert child.wait() == 1
    assert b"0/4" in told and b"file/s" in told and b"bad.tif: it doesn't begin as TIFF does" in told


@pytest.mark.parametrize("words, word", [
    (["a.tif"], "OUT is missing"), (["a.tif", "a.gif"], "its ending isn't that of"),
    (["a.tif", "a.jp2", "--workers", "0"], "0 workers"),
    (["a.tif", "a.jp2", "--raw"], "is no JP2 file"), (["a.jp2", "a.tif", "--sop"], "how JP2 is written"),
    (["a.tif", "a.png", "--to", "jp2"], "its ending isn't that of jp2"),
    (["a.tif", "a.jp2", "--resume"], "no table"),
    (["a.tif", "a.jp2", "--tile-width", "8"], "go together"),
    (["a.tif", "--into", "nowhere", "--jk", sys.executable], "no such folder"),
    (["a.tif", "--into", ".", "--jk", "nowhere"], "--jk PROGRAM"),
    (["a.tif", "--into", ".", "--raw", "--jk", sys.executable], "archive"),
    (["a.tif", "a.jp2", "--layers", "x"], "invalid int"),
])
def test_wrong_command_lines_have_the_status_2(tmp_path, words, word):
    told = run(*words, cwd=tmp_path)
    assert told.returncode == 2 and word in told.stderr and os.listdir(tmp_path) == []


def test_unknown_parameters_are_a_type_error(tmp_path):
    with pytest.raises(TypeError, match="depth"):
        convert(tmp_path / "a.tif", tmp_path / "a.jp2", depth=8)


# Limits, pipes, and what is told of tags and text.

def test_an_image_past_the_limits_is_refused_before_it_is_inflated(tmp_path):
    packed = zlib.compress(bytes(1 << 26), 1)
    head = struct.pack(">LLBBBBB", 20000, 20000, 8, 0, 0, 0, 0)
    (tmp_path / "a.png").write_bytes(png.SIGNATURE + b"".join(tiffs.chunk(*it) for it in ((b"IHDR", head), (b"IDAT", packed))))
    (tmp_path / "a.pgm").write_bytes(b"P5 20000 20000 255\n1")
    for ending in ("png", "pgm"):
        refused(tmp_path / f"a.{ending}", tmp_path / "a.jp2", "20000 by 20000 pixels, and jk takes 2^28 at most")
    bomb = zlib.compress(bytes(300 << 20), 1)
    tiffs.tiff(tmp_path / "b.tif", noise((9, 11)), compression=8, parts=[bomb])
    limit = lambda: resource.setrlimit(resource.RLIMIT_AS, (400 << 20, 400 << 20))  # noqa: E731
    told = run(tmp_path / "b.tif", tmp_path / "b.jp2", preexec_fn=limit, env={**os.environ, "OPENBLAS_NUM_THREADS": "1"})
    assert told.returncode == 1 and "inflates to more than its 99 bytes" in told.stderr


@pytest.mark.parametrize("workers", [1, 2])
def test_a_pipe_in_a_folder_is_skipped_and_named(tmp_path, folder, workers):
    os.mkfifo(folder / "pipe.tif")
    counts = convert(folder, tmp_path / "out", workers=workers)
    assert counts.converted == 3 and counts.refused == [("pipe.tif", "this is a pipe (FIFO), and no file")]
    told = run(folder / "pipe.tif", tmp_path / "a.jp2", timeout=60)
    assert told.returncode == 1 and "pipe.tif: this is a pipe" in told.stderr


@pytest.mark.parametrize("fields, name", [
    ({254: (4, [2])}, "SubfileType"), ({255: (3, [3])}, "SubfileType"), ({297: (3, [1, 3])}, "PageNumber"),
    ({280: (3, [3])}, "MinSampleValue"), ({281: (3, [200])}, "MaxSampleValue"), ({340: (3, [1])}, "SMinSampleValue"),
    ({341: (3, [254])}, "SMaxSampleValue"), ({282: (5, [(72, 1)]), 283: (5, [(72, 1)]), 296: (3, [1])}, "resolution without a unit"),
])
def test_tags_that_say_something_are_told(tmp_path, fields, name):
    source = tiffs.tiff(tmp_path / "a.tif", noise((9, 11)), fields=fields)
    refused(source, tmp_path / "a.jp2", f"not carried: {name}", strict=True)
    assert converted(source, tmp_path / "a.jp2")[0].notes.endswith(f"not carried: {name}")


def test_tags_that_say_nothing_are_not_told(tmp_path):
    fields = {254: (4, [0]), 255: (3, [1]), 280: (3, [0]), 281: (3, [255]), 340: (3, [0]), 341: (3, [255]),
              282: (5, [(1, 1)]), 283: (5, [(1, 1)]), 296: (3, [1])}
    converted(tiffs.tiff(tmp_path / "a.tif", noise((9, 11)), fields=fields), tmp_path / "a.jp2", strict=True)
    row, = converted(tiffs.png(tmp_path / "b.png", noise((9, 11)), chunks=[(b"pHYs", struct.pack(">LLB", 2835, 2835, 0))]),
                     tmp_path / "b.jp2")
    assert row.notes.endswith("not carried: resolution without a unit")


def raw(kind, data):
    """A text as ImageMagick writes it."""
    digits = data.hex().encode()
    return b"Raw profile type " + kind + b"\0\0" + zlib.compress(
        b"\n" + kind + b"\n" + b"%8d\n" % len(data) + b"\n".join(digits[at : at + 72] for at in range(0, len(digits), 72)) + b"\n")


XMP_KEY, RESOURCES = b"XML:com.adobe.xmp", b"8BIM\4\4\0\0\0\0\0\6\x1c\2\5\0\1x"
TURNED = _beside.exif_of(_beside.Kept(orientation=6))


@pytest.mark.parametrize("kind, text, carried", [
    (b"zTXt", XMP_KEY + b"\0\0" + zlib.compress(b"<x/>"), "XMP"), (b"tEXt", XMP_KEY + b"\0<x/>", "XMP"),
    (b"iTXt", XMP_KEY + b"\0\1\0\0\0" + zlib.compress(b"<x/>"), "XMP"), (b"iTXt", XMP_KEY + b"\0\0\0en\0\0<x/>", "XMP"),
    (b"zTXt", raw(b"xmp", b"<x/>"), "XMP"), (b"zTXt", raw(b"APP1", b"http://ns.adobe.com/xap/1.0/\0<x/>"), "XMP"),
    (b"zTXt", raw(b"exif", b"Exif\0\0" + TURNED), "orientation"), (b"zTXt", raw(b"APP1", b"Exif\0\0" + TURNED), "orientation"),
    (b"zTXt", raw(b"iptc", RESOURCES), "IPTC"), (b"zTXt", raw(b"8bim", b"\x1c\2\5\0\1x"), "IPTC"),
    (b"zTXt", raw(b"icc", icc(b"GRAY")), "profile"),
])
def test_text_of_a_png_that_is_carried(tmp_path, kind, text, carried):
    source = tiffs.png(tmp_path / "a.png", noise((9, 11)), chunks=[(kind, text)])
    row, = converted(source, tmp_path / "a.jp2", strict=True)
    assert row.carried == carried
    picture, = jp2.pictures(str(tmp_path / "a.jp2"))
    assert picture.kept.xmp == b"<x/>" * (carried == "XMP") and picture.kept.iptc == b"\x1c\2\5\0\1x" * (carried == "IPTC")
    assert picture.kept.profile == (icc(b"GRAY") if carried == "profile" else b"")
    assert picture.kept.orientation == (6 if carried == "orientation" else None)


@pytest.mark.parametrize("kind, text", [
    (b"zTXt", raw(b"iptc", RESOURCES + b"8BIM\4\5\0\0\0\0\0\0")), (b"zTXt", raw(b"xmp", b"<x/>")[:-6]), (b"zTXt", raw(b"other", b"1")),
    (b"tEXt", b"Raw profile type xmp\0\nxmp\n5\n3c3c"), (b"zTXt", XMP_KEY + b"\0\1<x/>"), (b"iTXt", XMP_KEY), (b"iTXt", XMP_KEY + b"\0\0"),
    (b"tEXt", b"Raw profile type exif\0\nexif\n2\n3c3c"),
])
def test_text_of_a_png_that_is_told(tmp_path, kind, text):
    source = tiffs.png(tmp_path / "a.png", noise((9, 11)), chunks=[(kind, text)])
    name = f"{kind.decode()} {text.partition(bytes(1))[0].decode()}"
    refused(source, tmp_path / "a.jp2", f"not carried: {name}", strict=True)


def test_the_second_text_is_told(tmp_path):
    chunks = [(b"tEXt", XMP_KEY + b"\0<x/>"), (b"zTXt", raw(b"xmp", b"<y/>"))]
    row, = converted(tiffs.png(tmp_path / "a.png", noise((9, 11)), chunks=chunks), tmp_path / "a.jp2")
    assert row.notes.endswith("not carried: zTXt Raw profile type xmp") and row.carried == "XMP"


# Palettes, opacity of one colour, and other depths.

def packed(samples, bits):
    """Rows of samples bit by bit, the upper bits first."""
    found = samples[:, :, np.newaxis].astype(np.uint16) >> np.arange(bits, dtype=np.uint16)[::-1] & 1
    return np.packbits(found.astype(np.uint8).reshape(len(samples), -1), axis=1)


@pytest.mark.parametrize("bits", [1, 2, 3, 4, 6, 7, 9, 10, 12, 14, 15])
@pytest.mark.parametrize("order, how", [("<", {}), (">", {"rows": 2}), ("<", {"compression": 8}), ("<", {"white": 0}), ("<", {"turned": True})])
def test_grey_of_other_depths(tmp_path, bits, order, how):
    samples = noise((9, 11), U16, bits).astype(U8 if bits <= 8 else U16)
    rows_ = packed(samples, bits)
    how, white, turned = {"rows": 16, **how}, how.get("white", 1), how.get("turned")
    step = how["rows"]
    data = [rows_[at : at + step] for at in range(0, 9, step)]
    if turned:
        data = [np.packbits(np.unpackbits(it, axis=1).reshape(len(it), -1, 8)[:, :, ::-1].reshape(len(it), -1), axis=1) for it in data]
    data = [zlib.compress(it.tobytes()) if how.get("compression") == 8 else it.tobytes() for it in data]
    fields = {258: (3, [bits]), 262: (3, [white]), **({266: (3, [2])} if turned else {})}
    source = tiffs.tiff(tmp_path / "a.tif", samples, order=order, rows=step, compression=how.get("compression", 1), parts=data, fields=fields)
    row, = converted(source, tmp_path / "a.jp2", strict=True)
    assert row.image == f"11 9 1 {bits}" and np.array_equal(jk.read(tmp_path / "a.jp2"), samples)
    assert ("Pillow" in row.notes) == (bits in (1, 2, 4)) or bits == 12
    row, = converted(tmp_path / "a.jp2", tmp_path / "b.tif")
    assert np.array_equal(np.asarray(tifffile.imread(tmp_path / "b.tif")) * 1, samples)


@needs_tiffcp
@pytest.mark.parametrize("bits, scheme", [(4, "lzw"), (2, "packbits"), (12, "lzw"), (4, "zip")])
def test_grey_of_other_depths_that_is_packed(tmp_path, bits, scheme):
    samples = noise((9, 11), U16, bits).astype(U8 if bits <= 8 else U16)
    tiffs.tiff(tmp_path / "plain.tif", samples, parts=[packed(samples, bits).tobytes()], fields={258: (3, [bits])})
    subprocess.run(["tiffcp", "-c", scheme, tmp_path / "plain.tif", tmp_path / "a.tif"], check=True)
    converted(tmp_path / "a.tif", tmp_path / "a.jp2")
    assert np.array_equal(jk.read(tmp_path / "a.jp2"), samples)


@pytest.mark.parametrize("bits", [1, 4, 8])
@pytest.mark.parametrize("scale, depth", [(257, 8), (256, 8), (1, 8), (251, 16)])
def test_a_palette_of_a_tiff(tmp_path, bits, scale, depth):
    numbers, colours = noise((9, 11), U8, bits), noise((1 << bits, 3), U8, seed=4)
    colours[0] = 255
    words = (colours.astype(np.int64) * scale).T.reshape(-1).tolist()
    source = tiffs.tiff(tmp_path / "a.tif", numbers, parts=[packed(numbers, bits).tobytes()],
                        fields={258: (3, [bits]), 262: (3, [3]), 320: (3, words)})
    refused(source, tmp_path / "a.jp2", "with --palette rgb")
    row, = converted(source, tmp_path / "a.jp2", palette="rgb", strict=True)
    assert f"a palette of {1 << bits} colours, as RGB" in row.notes and row.image == f"11 9 3 {depth}"
    assert np.array_equal(jk.read(tmp_path / "a.jp2"), colours[numbers].astype(np.int64) * (scale if depth == 16 else 1))
    if depth == 8 and scale == 257:
        assert np.array_equal(np.asarray(Image.open(source).convert("RGB")), jk.read(tmp_path / "a.jp2"))


@pytest.mark.parametrize("bits", [1, 2, 4, 8])
@pytest.mark.parametrize("opacities", [0, 1])
def test_a_palette_of_a_png(tmp_path, bits, opacities):
    numbers, colours = noise((9, 11), U8, bits), noise((1 << bits, 3), U8, seed=4)
    chunks = [(b"PLTE", colours.tobytes())] + [(b"tRNS", b"\x11")] * opacities
    source = tiffs.png(tmp_path / "a.png", numbers, depth=bits, colour=3, chunks=chunks)
    refused(source, tmp_path / "a.jp2", "with --palette rgb")
    told = run(source, tmp_path / "a.jp2", "--palette", "rgb")
    kind = "RGB with opacity" if opacities else "RGB"
    assert told.returncode == 0 and f"a palette of {1 << bits} colours, as {kind}" in told.stderr
    assert "read again by Pillow" in told.stderr
    due = np.asarray(Image.open(source).convert("RGBA" if opacities else "RGB"))
    assert np.array_equal(jk.read(tmp_path / "a.jp2"), due)
    assert jk.info(tmp_path / "a.jp2").opacity == ("straight" if opacities else None)


def test_palettes_that_are_broken(tmp_path):
    numbers = noise((9, 11), U8)
    for chunks, word in (([(b"PLTE", bytes(3))], "a palette of 1"), ([], "colours aren't there"), ([(b"PLTE", bytes(4))], "aren't there")):
        source = tiffs.png(tmp_path / "a.png", numbers, colour=3, chunks=chunks)
        refused(source, tmp_path / "a.jp2", word, palette="rgb")
    source = tiffs.tiff(tmp_path / "a.tif", numbers, fields={262: (3, [3])})
    refused(source, tmp_path / "a.jp2", "colours aren't there", palette="rgb")
    with pytest.raises(CannotConvert, match="isn't rgb"):
        convert(source, tmp_path / "a.jp2", palette="grey")


@pytest.mark.parametrize("shape, dtype, depth", [((9, 11), U8, 8), ((9, 11), U8, 2), ((9, 11), U16, 16), ((9, 11, 3), U8, 8), ((9, 11, 3), U16, 16)])
def test_one_colour_that_is_transparent(tmp_path, shape, dtype, depth):
    samples = noise(shape, dtype, depth)
    key = np.atleast_1d(samples[4, 5]).astype(">u2").tobytes()
    source = tiffs.png(tmp_path / "a.png", samples, depth=depth, chunks=[(b"tRNS", key)])
    row, = converted(source, tmp_path / "a.jp2", strict=True)
    assert "tRNS as opacity" in row.notes and "read again by Pillow" in row.notes
    back = jk.read(tmp_path / "a.jp2")
    whole = np.atleast_3d(samples)
    assert np.array_equal(back[:, :, :-1], whole)
    assert np.array_equal(back[:, :, -1] == 0, (whole == whole[4, 5]).all(axis=2)) and set(np.unique(back[:, :, -1])) <= {0, (1 << depth) - 1}


def test_colours_that_a_png_proposes_are_told(tmp_path):
    source = tiffs.png(tmp_path / "a.png", noise((9, 11, 3)), chunks=[(b"PLTE", bytes(9))])
    assert converted(source, tmp_path / "a.jp2")[0].notes.endswith("not carried: PLTE")


@needs_tiffcp
def test_a_mere_warning_of_old_lzw_is_no_damage(tmp_path, monkeypatch):
    samples = noise((9, 11))
    tiffs.tiff(tmp_path / "plain.tif", samples)
    subprocess.run(["tiffcp", "-c", "lzw", tmp_path / "plain.tif", tmp_path / "a.tif"], check=True)
    (tmp_path / "bin").mkdir()
    script = '#!/bin/sh\necho "LZWPreDecode: Warning, Old-style LZW codes, convert file." >&2\nexec ' + shutil.which("tiffcp") + ' "$@"\n'
    (tmp_path / "bin" / "tiffcp").write_text(script)
    (tmp_path / "bin" / "tiffcp").chmod(0o755)
    monkeypatch.setenv("PATH", f"{tmp_path / 'bin'}:{os.environ['PATH']}")
    converted(tmp_path / "a.tif", tmp_path / "a.jp2")
    assert np.array_equal(jk.read(tmp_path / "a.jp2"), samples)


@pytest.mark.parametrize("depth", [1, 2, 4])
@pytest.mark.parametrize("ending", ["png", "tif"])
def test_an_opacity_of_few_bits_is_spread(tmp_path, depth, ending):
    samples = noise((9, 11), U8, depth)
    source = tiffs.png(tmp_path / "a.png", samples, depth=depth, chunks=[(b"tRNS", b"\0\1")])
    converted(source, tmp_path / "a.jp2")
    row, = converted(tmp_path / "a.jp2", tmp_path / f"b.{ending}", strict=True)
    assert f"samples of {depth} bits are spread over 8" in row.notes
    picture, = (png if ending == "png" else tiff).pictures(str(tmp_path / f"b.{ending}"))
    assert np.array_equal(picture.whole(), jk.read(tmp_path / "a.jp2") * U8(255 // ((1 << depth) - 1)))
    # Other depths have no such factor.
    jk.write(tmp_path / "c.jp2", noise((9, 11, 2), U8, 5), depth=5, opacity="straight")
    (_, why), = convert(tmp_path / "c.jp2", tmp_path / f"c.{ending}").refused
    assert "opacity of 5 bits" in why or "straight of 5" in why


@pytest.mark.parametrize("extra", [1, 2])
def test_signed_samples_with_an_opacity_are_two_codestreams(tmp_path, extra):
    samples = noise((9, 11, 2), I8)
    (tmp_path / "in").mkdir()
    tiffs.tiff(tmp_path / "in" / "a.tif", samples, fields={338: (3, [extra])})
    counts = convert(tmp_path / "in", tmp_path / "out")
    assert counts.refused == [] and sorted(os.listdir(tmp_path / "out")) == ["a-alpha.j2k", "a.j2k", "jk-convert.csv"]
    assert np.array_equal(jk.read(tmp_path / "out" / "a.j2k"), samples[:, :, 0])
    assert np.array_equal(jk.read(tmp_path / "out" / "a-alpha.j2k"), samples[:, :, 1])


def test_another_kind_of_opacity_that_reads_back_is_refused(tmp_path, monkeypatch):
    source = tiffs.tiff(tmp_path / "a.tif", noise((9, 11, 2)), fields={338: (3, [1])})
    write = jp2.encode

    def straight(samples, opacity, **how):
        return write(samples, opacity="straight", **how)

    monkeypatch.setattr(jp2, "encode", straight)
    refused(source, tmp_path / "a.jp2", "reads back with another kind of opacity")
