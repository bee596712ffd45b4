"""JP2 files with an opacity: by the boxes of T.800 Annex I, by OpenJPEG, Pillow and ExifTool, and by the package."""
import io
import shutil
import struct
import subprocess

import jk
import numpy as np
import pytest
from conftest import noise
from jk import _opacity
from jk._colour import colours_of, header_of, with_header
from jk._extras import box, boxes_in
from profiles import icc

SHAPES = [(9, 11, 2), (9, 11, 4)]
KINDS = ["straight", "premultiplied", "unspecified"]
TYPES = [(np.uint8, 8), (np.uint16, 16), (np.uint8, 5), (np.uint16, 12)]


@pytest.mark.parametrize("shape", SHAPES)
@pytest.mark.parametrize("dtype, depth", TYPES)
@pytest.mark.parametrize("kind", KINDS)
def test_an_opacity_comes_back(tmp_path, shape, dtype, depth, kind):
    samples = noise(shape, dtype, depth)
    jk.write(tmp_path / "a.jp2", samples, depth=depth, opacity=kind, levels=2)
    told = jk.info(tmp_path / "a.jp2")
    assert (told.shape, told.depth, told.opacity, told.levels) == (shape, depth, kind, 2)
    assert np.array_equal(jk.read(tmp_path / "a.jp2"), samples)
    assert np.array_equal(jk.read(tmp_path / "a.jp2", window=(2, 3, 4, 5)), samples[3:8, 2:6])
    window = jk.cut(tmp_path / "a.jp2", (2, 3, 4, 5))
    assert jk.info(window).opacity == kind and np.array_equal(jk.read(window, window=(2, 3, 4, 5)), samples[3:8, 2:6])
    assert jk.extras(tmp_path / "a.jp2") == jk.Extras(space="grey" if shape[2] == 2 else "sRGB")


@pytest.mark.parametrize("shape, space, channels", [
    ((9, 11, 2), 17, [(0, 0, 1), (1, 1, 0)]), ((9, 11, 4), 16, [(0, 0, 1), (1, 0, 2), (2, 0, 3), (3, 1, 0)]),
])
def test_its_boxes_are_those_of_the_standard(shape, space, channels):
    samples = noise(shape)
    file = jk.encode(samples, opacity="straight")
    header = struct.pack(">L4sLLHBBBB", 22, b"ihdr", 9, 11, shape[2], 7, 7, 0, 0)
    header += struct.pack(">L4sBBBL", 15, b"colr", 1, 0, 0, space)
    header += struct.pack(">L4sH", 10 + 6 * shape[2], b"cdef", shape[2]) + b"".join(struct.pack(">HHH", *it) for it in channels)
    codestream = jk.encode(samples, colour=shape[2] == 4)
    due = b"\0\0\0\x0cjP  \r\n\x87\n\0\0\0\x14ftypjp2 \0\0\0\0jp2 " + struct.pack(">L4s", 8 + len(header), b"jp2h") + header
    assert file == due + struct.pack(">L4s", 8 + len(codestream), b"jp2c") + codestream


@pytest.mark.parametrize("shape, space", [((9, 11, 2), b"GRAY"), ((9, 11, 4), b"RGB ")])
def test_it_keeps_what_others_keep(shape, space):
    given = {"resolution": (300, 600), "xmp": b"<x/>", "xml": (b"<a/>",)}
    file = jk.encode(noise(shape), opacity="straight", extras=jk.Extras(profile=icc(space), **given))
    assert jk.extras(file) == jk.Extras(profile=icc(space), **given) and jk.info(file).opacity == "straight"
    kinds = [kind for kind, _ in boxes_in(header_of(file))]
    assert kinds == [b"ihdr", b"colr", b"cdef", b"res "] and struct.unpack(">H", header_of(file)[16:18]) == (shape[2],)
    table = jk.with_extras(file, jk.Extras(any_profile=icc(space, kind=b"prtr")))
    assert [it.method for it in colours_of(table)] == [2, 3] and np.array_equal(jk.read(table), noise(shape))
    other = icc(b"RGB " if space == b"GRAY" else b"GRAY")
    for wrong in (jk.Extras(profile=other), jk.Extras(any_profile=other)):
        with pytest.raises(jk.BadParameters):
            jk.with_extras(file, wrong)


@pytest.mark.parametrize("samples, how", [
    (noise((9, 11)), {}), (noise((9, 11, 3)), {}), (noise((9, 11, 4), np.int8), {}), (noise((9, 11, 4)), {"raw": True}),
])
def test_what_may_have_none(samples, how):
    with pytest.raises(jk.BadParameters):
        jk.encode(samples, opacity="straight", **how)
    with pytest.raises(ValueError, match="isn't one of"):
        jk.encode(noise((9, 11, 4)), opacity=True)


def test_codestreams_tell_of_none():
    assert jk.info(jk.encode(noise((9, 11, 4)))).opacity is None
    assert jk.encode(noise((9, 11, 4)))[:4] == b"\xff\x4f\xff\x51"


def with_channels(file, channels):
    inner = [box(kind, it) for kind, it in boxes_in(header_of(file)) if kind != b"cdef"]
    made = box(b"cdef", struct.pack(">H", len(channels)) + b"".join(struct.pack(">HHH", *it) for it in channels))
    return with_header(file, b"".join(inner) + made)


@pytest.mark.parametrize("channels, order, kind", [
    ([(3, 1, 0), (2, 0, 3), (0, 0, 1), (1, 0, 2)], [0, 1, 2, 3], "straight"),
    ([(0, 1, 0), (1, 0, 1), (2, 0, 2), (3, 0, 3)], [1, 2, 3, 0], "straight"),
    ([(0, 0, 3), (1, 0, 2), (2, 0, 1), (3, 2, 0)], [2, 1, 0, 3], "premultiplied"), ([], [0, 1, 2, 3], None),
])
def test_channels_in_another_order(channels, order, kind):
    assert _opacity.order_of(channels, 4) == (order, kind)
    file = with_channels(jk.encode(noise((9, 11, 4)), opacity="straight"), channels)
    assert jk.info(file).opacity == (kind if order == [0, 1, 2, 3] else None)


@pytest.mark.parametrize("channels", [
    [(0, 0, 1), (1, 0, 2), (2, 0, 3)], [(0, 0, 1), (0, 0, 1), (1, 0, 2), (2, 0, 3), (3, 1, 0)], [(0, 0, 1), (1, 0, 2), (2, 1, 0), (3, 1, 0)], [(0, 0, 1), (1, 0, 2), (2, 0, 2), (3, 1, 0)],
    [(0, 0, 1), (1, 0, 2), (2, 0, 3), (9, 1, 0)], [(0, 0, 1), (1, 0, 2), (2, 0, 3), (3, 1, 1)], [(0, 0, 1), (1, 0, 2), (2, 0, 3), (3, 7, 0)],
])
def test_channels_of_another_kind(channels):
    with pytest.raises(jk.BadBox, match="cdef"):
        _opacity.order_of(channels, 4)


# Other readers.

@pytest.mark.skipif(not shutil.which("opj_decompress"), reason="libopenjp2-tools isn't there")
@pytest.mark.parametrize("shape", SHAPES)
@pytest.mark.parametrize("dtype", [np.uint8, np.uint16])
def test_openjpeg_reads_it(tmp_path, shape, dtype):
    samples = noise(shape, dtype)
    jk.write(tmp_path / "a.jp2", samples, opacity="straight")
    done = subprocess.run(["opj_decompress", "-i", tmp_path / "a.jp2", "-o", tmp_path / "a.png"], capture_output=True, text=True)
    assert done.returncode == 0 and "WARNING" not in done.stdout + done.stderr, done.stdout + done.stderr
    pytest.importorskip("tifffile")
    from jk.convert import png
    picture, = png.pictures(str(tmp_path / "a.png"))
    assert np.array_equal(picture.whole(), samples)


@pytest.mark.parametrize("shape, mode", [((9, 11, 2), "LA"), ((9, 11, 4), "RGBA")])
def test_pillow_reads_and_writes_it(shape, mode):
    Image = pytest.importorskip("PIL.Image")
    samples = noise(shape)
    file = jk.encode(samples, opacity="straight")
    with Image.open(io.BytesIO(file), formats=["JPEG2000"]) as image:
        assert image.mode == mode and np.array_equal(np.asarray(image), samples)
        out = io.BytesIO()
        image.save(out, "JPEG2000")
    assert np.array_equal(jk.read(out.getvalue()), samples)


@pytest.mark.skipif(not shutil.which("exiftool"), reason="exiftool isn't there")
def test_exiftool_reads_it(tmp_path):
    jk.write(tmp_path / "a.jp2", noise((9, 11, 4)), opacity="straight", extras=jk.Extras(resolution=300))
    done = subprocess.run(["exiftool", "-validate", "-NumberOfComponents", str(tmp_path / "a.jp2")], capture_output=True, text=True)
    assert "OK" in done.stdout and ": 4" in done.stdout, done.stdout


def test_jpylyzer_finds_it_valid(tmp_path):
    jpylyzer = pytest.importorskip("jpylyzer.jpylyzer")
    for shape in SHAPES:
        jk.write(tmp_path / "a.jp2", noise(shape), opacity="straight", extras=jk.Extras(resolution=300))
        told = jpylyzer.checkOneFile(str(tmp_path / "a.jp2"))
        assert told.findtext(".//isValid") == "True"
        assert [it.text for it in told.findall(".//cTyp")] == ["colour"] * (shape[2] - 1) + ["opacity"]
