"""Pillow opens and saves by jk, and never narrows."""
import io
import os
import subprocess
import sys
import warnings
from fractions import Fraction

import jk
import numpy as np
import pytest
from conftest import noise
from profiles import icc

Image = pytest.importorskip("PIL.Image")
import jk.pillow  # noqa: E402

U8, U16 = np.uint8, np.uint16
KINDS = [((9, 11), U8, "L", 8), ((9, 11), U16, "I;16", 16), ((9, 11, 3), U8, "RGB", 8), ((9, 11), U8, "L", 5),
         ((9, 11), U16, "I;16", 12), ((9, 11, 3), U8, "RGB", 7), ((9, 11), U8, "L", 1)]


@pytest.fixture(autouse=True)
def registered():
    """Pillow as it was, afterwards."""
    Image.init()
    tables = [Image.EXTENSION, Image.OPEN, Image.SAVE, Image.MIME]
    ids, before = list(Image.ID), [dict(it) for it in tables]
    jk.pillow.register()
    yield
    Image.ID[:] = ids
    for table, it in zip(tables, before):
        table.clear()
        table.update(it)


@pytest.mark.parametrize("ending", ["jp2", "j2k"])
@pytest.mark.parametrize("shape, dtype, mode, depth", KINDS)
def test_an_image_comes_back(tmp_path, shape, dtype, mode, depth, ending):
    samples = noise(shape, dtype, depth)
    jk.write(tmp_path / f"a.{ending}", samples, depth=depth, raw=ending == "j2k")
    with Image.open(tmp_path / f"a.{ending}") as image:
        assert (image.format, image.mode, image.size, image.info["depth"]) == ("JPEG2000", mode, (11, 9), depth)
        assert np.array_equal(np.asarray(image), samples)
        image.save(tmp_path / f"b.{ending}", levels=2)
    assert (jk.info(tmp_path / f"b.{ending}").depth, jk.info(tmp_path / f"b.{ending}").levels) == (depth, 2)
    assert ((tmp_path / f"b.{ending}").read_bytes()[:4] == b"\xff\x4f\xff\x51") == (ending == "j2k")
    assert np.array_equal(jk.read(tmp_path / f"b.{ending}"), samples)


@pytest.mark.parametrize("samples, depth", [
    (noise((9, 11, 3), U16), 16), (noise((9, 11, 3), U16, 9), 9), (noise((9, 11, 4), np.int8), 8), (noise((9, 11, 2), U8, 7), 7),
    (noise((9, 11, 4), U16), 16),
])
def test_what_pillow_has_no_mode_for_raises(tmp_path, samples, depth):
    jk.write(tmp_path / "a.jp2", samples, depth=depth)
    with pytest.raises(jk.pillow.NoMode, match="jk.read"):
        Image.open(tmp_path / "a.jp2")


@pytest.mark.parametrize("mode, kind", [("LA", "straight"), ("RGBA", "straight"), ("La", "premultiplied"), ("RGBa", "premultiplied")])
@pytest.mark.parametrize("ending", ["jp2", "j2k"])
def test_an_image_with_opacity_comes_back(tmp_path, mode, kind, ending):
    samples = noise((9, 11, len(mode)))
    Image.fromarray(samples, mode).save(tmp_path / f"a.{ending}")
    assert jk.info(tmp_path / f"a.{ending}").opacity == (kind if ending == "jp2" else None)
    with Image.open(tmp_path / f"a.{ending}") as image:
        # A bare codestream doesn't tell of the kind.
        assert image.mode == (mode if ending == "jp2" else mode.upper()) and np.array_equal(np.asarray(image), samples)


def test_damage_raises_and_no_other_plugin_is_asked(tmp_path):
    data = jk.encode(noise((9, 11)))
    (tmp_path / "a.jp2").write_bytes(data[:-2])
    with pytest.raises(jk.Truncated):
        Image.open(tmp_path / "a.jp2")
    at = data.index(b"\xff\x93") + 20
    (tmp_path / "b.jp2").write_bytes(data[:at] + b"\xff\x8f" + data[at + 2 :])
    with pytest.raises(jk.Fault), Image.open(tmp_path / "b.jp2") as image:
        image.load()
    lossy = bytearray(data)
    lossy[data.index(b"\xff\x52") + 13] = 0
    (tmp_path / "c.jp2").write_bytes(lossy)
    # An image that others read can be looked at, and not loaded.
    with Image.open(tmp_path / "c.jp2") as image:
        assert (image.mode, image.size) == ("L", (11, 9))
        with pytest.raises(jk.Unsupported) as raised:
            image.load()
        assert isinstance(raised.value, OSError) and str(raised.value) == str(jk.Unsupported())
    with pytest.raises(OSError):
        Image.open(tmp_path / "a.jp2")


@pytest.mark.parametrize("mode", ["1", "P", "I", "F", "CMYK", "YCbCr", "I;16B"])
def test_other_modes_are_not_written(tmp_path, mode):
    with pytest.raises(jk.pillow.NoMode, match=f"mode {mode}"):
        Image.new(mode, (9, 11)).save(tmp_path / "a.jp2")
    assert not (tmp_path / "a.jp2").exists()


@pytest.mark.parametrize("option, kind, word", [
    ({"irreversible": True}, ValueError, "lossless"), ({"quality_layers": "20"}, ValueError, "sequence of numbers"),
    ({"cinema_mode": "cinema2k-24"}, ValueError, "lossless"), ({"num_resolutions": 5}, OSError, "fewer than 5"),
    ({"tile_offset": (4, 4)}, ValueError, "tiles from"), ({"comment": "a"}, TypeError, "no such"),
    ({"codeblock_size": (48, 64)}, ValueError, "power of two"), ({"tile_size": (16, 16), "tile": (16, 16)}, TypeError, "are one"),
    ({"offset": (16, 0), "tile_size": (16, 16)}, ValueError, "before the image begins"), ({"quality_mode": 5}, ValueError, "rates or dB"),
    ({"icc_profile": b"profile"}, ValueError, "profile isn't carried"), ({"dpi": (0, 300)}, ValueError, "resolution"),
    ({"xmp": b"<x/>", "raw": True}, ValueError, "XMP isn't carried"), ({"exif": 5, "raw": True}, ValueError, "EXIF"),
])
def test_options_of_save_that_lose_something_raise(tmp_path, option, kind, word):
    with pytest.raises(kind, match=word):
        Image.new("L", (9, 11)).save(tmp_path / "a.jp2", **option)
    assert not (tmp_path / "a.jp2").exists()


def test_options_that_lose_nothing(tmp_path):
    image = Image.fromarray(noise((40, 50, 3)))
    image.save(tmp_path / "a.jp2", irreversible=False, quality_layers=None, icc_profile=None, tile=(16, 16), order="RPCL",
               layers=3, colour=False)
    assert np.array_equal(jk.read(tmp_path / "a.jp2"), noise((40, 50, 3)))
    image.save(tmp_path / "b.jp2", raw=True)
    assert (tmp_path / "b.jp2").read_bytes()[:2] == b"\xff\x4f"
    with pytest.raises(jk.BadParameters):
        image.save(tmp_path / "c.jp2", levels=9)


def test_what_stands_beside_the_samples_comes_back(tmp_path):
    exif = Image.Exif()
    exif[274] = 6
    image = Image.fromarray(noise((9, 11)))
    image.save(tmp_path / "a.jp2", icc_profile=icc(b"GRAY"), dpi=(300, 600.5), xmp=b"<x/>", exif=exif)
    told = jk.extras(tmp_path / "a.jp2")
    assert (told.profile, told.resolution, told.xmp, told.exif) == (icc(b"GRAY"), (300, 600.5), b"<x/>", exif.tobytes()[6:])
    with Image.open(tmp_path / "a.jp2") as again:
        assert (again.info["icc_profile"], again.info["dpi"], again.info["xmp"]) == (icc(b"GRAY"), (300, 600.5), b"<x/>")
        assert again.getexif()[274] == 6
        again.save(tmp_path / "b.jp2")
        again.save(tmp_path / "c.jp2", icc_profile=None, exif=None)
    assert jk.extras(tmp_path / "b.jp2") == told
    assert jk.extras(tmp_path / "c.jp2") == jk.Extras(resolution=(300, 600.5), xmp=b"<x/>", space="grey")
    image.save(tmp_path / "d.jp2", dpi=(299.9994, 72))
    across, down = jk.extras(tmp_path / "d.jp2").resolution
    assert down == 72 and across != 299.9994 and abs(across - Fraction(299.9994)) < 1e-6


def test_what_an_image_has_and_is_not_carried_is_warned_of(tmp_path):
    image = Image.fromarray(noise((9, 11)))
    image.info.update(icc_profile=b"profile", dpi=(300, 300))
    with pytest.warns(UserWarning) as told:
        image.save(tmp_path / "a.jp2")
    assert [str(it.message).partition(": ")[0] for it in told] == ["the profile of the image isn't carried"]
    assert jk.extras(tmp_path / "a.jp2").resolution == (300, 300)
    with pytest.warns(UserWarning) as told:
        image.save(tmp_path / "a.j2k")
    assert [str(it.message).partition(": ")[0] for it in told] == \
        [f"the {what} of the image isn't carried" for what in ("profile", "resolution")]


def test_what_stands_there_and_is_broken_is_warned_of(tmp_path):
    file = jk.encode(noise((9, 11)), extras=jk.Extras(resolution=300))
    (tmp_path / "a.jp2").write_bytes(file.replace(b"\x3a\x98\0\x7f", bytes(4)))
    with pytest.warns(UserWarning, match="can't be read: F5"):
        assert np.array_equal(np.asarray(Image.open(tmp_path / "a.jp2")), noise((9, 11)))


def test_a_depth_that_does_not_fit_is_not_taken(tmp_path):
    jk.write(tmp_path / "a.jp2", noise((9, 11), U8, 4), depth=4)
    image = Image.open(tmp_path / "a.jp2").point(lambda it: it * 16)
    image.info["depth"] = 4
    image.save(tmp_path / "b.jp2")
    assert jk.info(tmp_path / "b.jp2").depth == 8
    image.save(tmp_path / "c.jp2", depth=8)
    with pytest.raises(jk.BadParameters):
        image.save(tmp_path / "d.jp2", depth=4)
    # The depth of another type says nothing.
    wide = Image.fromarray(noise((9, 11), U16, 3))
    wide.info["depth"] = 5
    wide.save(tmp_path / "e.jp2")
    assert jk.info(tmp_path / "e.jp2").depth == 16


def test_streams_and_whole_files(tmp_path):
    room = io.BytesIO()
    Image.fromarray(noise((9, 11))).save(room, "JK")
    room.seek(0)
    image = Image.open(room)
    image.load()
    image.load()
    assert np.array_equal(np.asarray(image.copy().crop((1, 2, 8, 7))), noise((9, 11))[2:7, 1:8])
    with warnings.catch_warnings():
        warnings.simplefilter("error", ResourceWarning)
        jk.write(tmp_path / "a.jp2", noise((9, 11)))
        Image.open(tmp_path / "a.jp2").load()


def test_pillows_own_plugin_does_not_take_endings_back(tmp_path):
    script = f"""import jk.pillow, numpy
from PIL import Image
jk.pillow.register()
jk.pillow.register()
import PIL.Jpeg2KImagePlugin
black = Image.fromarray(numpy.zeros((9, 11), numpy.uint8))
black.save({str(tmp_path / "a.jp2")!r}, segments=True)
image = Image.open({str(tmp_path / "a.jp2")!r})
print(image.format, Image.ID.count("JPEG2000"), type(image).__module__)
for name in ("JK", "JPEG2000", "OPENJPEG"):
    print(type(Image.open({str(tmp_path / "a.jp2")!r}, formats=[name])).__module__)
"""
    told = subprocess.run([sys.executable, "-c", script], capture_output=True, text=True)
    assert told.stdout == "JPEG2000 1 jk.pillow\njk.pillow\njk.pillow\nPIL.Jpeg2KImagePlugin\n", told.stderr


# As Pillow's own plugin.

def coding_of(file):
    """Fields of COD: style, order, layers, colour transform, levels, exponents of code-blocks less 2, precincts."""
    at = file.index(b"\xff\x52")
    levels = file[at + 9]
    return (file[at + 5], int.from_bytes(file[at + 6 : at + 8], "big"), file[at + 8], levels, file[at + 10] + 2, file[at + 11] + 2,
            file[at + 14 : at + 15 + levels] if file[at + 4] & 1 else b"")


def test_options_of_pillows_own_plugin(tmp_path):
    samples = noise((140, 150, 3))
    image, room = Image.fromarray(samples), io.BytesIO()
    image.save(room, "JPEG2000", offset=(3, 5), tile_offset=(0, 0), tile_size=(64, 128), quality_mode="rates", quality_layers=[40, 20, 1],
               num_resolutions=4, codeblock_size=(32, 16), precinct_size=(128, 64), irreversible=False, progression="RPCL",
               cinema_mode="no", mct=0, signed=False)
    file = room.getvalue()
    assert coding_of(file) == (2, 3, 0, 3, 5, 4, bytes([0x34, 0x45, 0x56, 0x67]))
    told = jk.info(file)
    assert (told.x0, told.y0) == (3, 5) and np.array_equal(jk.read(file), samples)
    # By jk's own names these are the same bytes.
    image.save(tmp_path / "a.jp2", place=(3, 5), tile=(64, 128), layers=3, levels=3, block=(5, 4), order="RPCL", colour=False,
               precincts=[(4, 3), (5, 4), (6, 5), (7, 6)])
    assert (tmp_path / "a.jp2").read_bytes() == file
    for mct in (0, 1):
        image.save(tmp_path / "a.j2k", mct=mct, num_resolutions=0, no_jp2=False)
        assert coding_of((tmp_path / "a.j2k").read_bytes())[2] == mct
    Image.fromarray(samples[:, :, 0]).save(tmp_path / "b.jp2", mct=1, no_jp2=True, num_resolutions=8)
    assert coding_of((tmp_path / "b.jp2").read_bytes())[2:4] == (0, 5)
    assert (tmp_path / "b.jp2").read_bytes()[:2] == b"\xff\x4f"


def test_signed_samples_are_shifted_and_told(tmp_path):
    for dtype, mode in ((np.int8, "L"), (np.int16, "I;16")):
        samples = noise((9, 11), dtype)
        jk.write(tmp_path / "a.j2k", samples)
        with Image.open(tmp_path / "a.j2k") as image:
            assert image.mode == mode and image.info["signed"]
            assert np.array_equal(np.asarray(image).astype(int) - (1 << image.info["depth"] - 1), samples)
    numbers = noise((9, 11), U8, 7)
    Image.fromarray(numbers).save(tmp_path / "b.jp2", signed=True)
    assert jk.info(tmp_path / "b.jp2").signed and np.array_equal(jk.read(tmp_path / "b.jp2"), numbers)
    with pytest.raises(ValueError, match="at most 127"):
        Image.fromarray(numbers + U8(100)).save(tmp_path / "c.jp2", signed=True)


def test_an_image_is_halved_when_it_is_loaded(tmp_path):
    samples = noise((41, 50, 3))
    jk.write(tmp_path / "a.jp2", samples)
    with Image.open(tmp_path / "a.jp2") as image:
        assert callable(image.reduce)
        image.reduce = 2
        assert image.reduce == 2
        image.load()
        assert image.size == (13, 11) and np.array_equal(np.asarray(image), jk.read(tmp_path / "a.jp2", 2))
        image.thumbnail((4, 4))
        assert max(image.size) == 4
    with Image.open(tmp_path / "a.jp2") as image:
        assert image.reduce(2).size == (25, 21)
        image.layers = 1
        assert np.array_equal(np.asarray(image), samples)


def test_a_parser_is_fed(tmp_path):
    from PIL import ImageFile
    file = jk.encode(noise((41, 50, 3)), extras=jk.Extras(resolution=300))
    parser = ImageFile.Parser()
    for at in range(0, len(file), 1000):
        parser.feed(file[at : at + 1000])
    assert np.array_equal(np.asarray(parser.close()), noise((41, 50, 3)))


def test_spaces_that_are_no_rgb(tmp_path):
    from test_colour import boxed
    import struct
    (tmp_path / "a.jp2").write_bytes(boxed(b"\1\0\0" + struct.pack(">L", 18)))
    with Image.open(tmp_path / "a.jp2") as image:
        assert image.mode == "YCbCr" and np.array_equal(np.asarray(image), noise((9, 11, 3)))
    (tmp_path / "b.jp2").write_bytes(boxed(b"\1\0\0" + struct.pack(">L", 14)))
    with pytest.raises(jk.pillow.NoMode, match="CIELab"):
        Image.open(tmp_path / "b.jp2")
    with pytest.raises(OSError):
        Image.open(tmp_path / "b.jp2")


@pytest.mark.parametrize("shape, space", [((9, 11, 3), b"RGB "), ((9, 11, 4), b"RGB "), ((9, 11, 2), b"GRAY"), ((9, 11), b"GRAY")])
def test_metadata_of_all_modes_comes_back(tmp_path, shape, space):
    exif = Image.Exif()
    exif[274] = 6
    for profile in (icc(space), icc(space, kind=b"prtr")):
        given = {"icc_profile": profile, "dpi": (300, 72), "xmp": b"<x/>", "exif": exif}
        Image.fromarray(noise(shape), {2: "LA", 4: "RGBA"}.get(shape[2] if len(shape) == 3 else 0)).save(tmp_path / "a.jp2", **given)
        with Image.open(tmp_path / "a.jp2") as image:
            assert {**image.info, "exif": None} == {**given, "exif": None, "depth": 8} and image.getexif()[274] == 6
            assert np.array_equal(np.asarray(image), noise(shape))
            image.save(tmp_path / "b.jp2")
        assert (tmp_path / "b.jp2").read_bytes() == (tmp_path / "a.jp2").read_bytes()


#: The folder of Pillow's sources, as `apt-get source pillow` makes it.
SOURCE = os.environ.get("PILLOW_SOURCE", "")


@pytest.mark.skipif(not os.path.isfile(os.path.join(SOURCE, "Tests", "test_file_jpeg2k.py")), reason="PILLOW_SOURCE isn't set")
def test_pillows_own_tests(tmp_path):
    (tmp_path / "registering.py").write_text("import jk.pillow\n\n\ndef pytest_configure(config):\n    jk.pillow.register()\n")
    env = {**os.environ, "PYTHONPATH": os.pathsep.join([str(tmp_path), *sys.path]), "PYTHONDONTWRITEBYTECODE": "1"}
    line = [sys.executable, "-m", "pytest", "-q", "-p", "no:cacheprovider", "-p", "registering", "--import-mode=append", "-rf",
            "--color=no", os.path.join("Tests", "test_file_jpeg2k.py")]
    done = subprocess.run(line, cwd=SOURCE, env=env, capture_output=True, text=True)
    failed = [it.split("::")[1].split()[0] for it in done.stdout.splitlines() if it.startswith("FAILED ")]
    # It asks for a file by the irreversible path.
    assert failed == ["test_irreversible_rt"] and "47 passed" in done.stdout, done.stdout[-3000:]
