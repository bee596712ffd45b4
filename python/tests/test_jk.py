"""Tests of the package: what the arrays are, each exception, archives over HTTP."""
import os
import threading

import jk
import numpy as np
import pytest
from conftest import noise

PHOTO = os.path.join(os.path.dirname(os.path.abspath(__file__)), "..", "..", "docs", "retina.ppm")


def photo():
    with open(PHOTO, "rb") as file:
        data = file.read()
    return np.frombuffer(data, np.uint8)[-353 * 353 * 3:].reshape(353, 353, 3)


def test_the_photograph_has_the_commands_length_and_comes_back(tmp_path):
    path = tmp_path / "photo.jp2"
    jk.write(path, photo())
    assert path.stat().st_size == 128124
    assert os.listdir(tmp_path) == ["photo.jp2"]
    told = jk.info(path)
    assert (told.shape, told.dtype, told.depth, told.levels, told.signed) == ((353, 353, 3), np.uint8, 8, 5, False)
    assert np.array_equal(jk.read(path), photo())
    assert np.array_equal(jk.read(path.read_bytes()), photo())
    assert jk.read(path, reduce=2).shape == jk.info(path, reduce=2).shape == (89, 89, 3)


@pytest.mark.parametrize("components", [1, 2, 3, 4])
@pytest.mark.parametrize("dtype, depth", [
    (np.uint8, 8), (np.uint8, 5), (np.uint16, 16), (np.uint16, 12), (np.int8, 8), (np.int8, 5), (np.int16, 16), (np.int16, 9),
])
def test_arrays_come_back(components, dtype, depth):
    shape = (19, 23) if components == 1 else (19, 23, components)
    image = noise(shape, dtype, depth)
    file = jk.encode(image, depth=depth, levels=2)
    assert (jk.info(file).signed, jk.info(file).dtype) == (dtype in (np.int8, np.int16), dtype)
    back = jk.read(file)
    assert (back.dtype, back.shape) == (image.dtype, image.shape)
    assert np.array_equal(back, image)
    part = jk.read(file, window=(5, 7, 100, 4))
    assert np.array_equal(part, image[7:11, 5:])
    assert np.array_equal(jk.read(jk.cut(file, (5, 7, 100, 4)), window=(5, 7, 100, 4)), part)
    whole = jk.read(file, reduce=1)
    assert np.array_equal(jk.read(file, reduce=1, window=(0, 0, 3, 9)), whole[:9, :3])


def test_arrays_are_written_in_place():
    image = noise((16, 24, 3))
    file = jk.encode(image)
    room = np.zeros((20, 24, 3), np.uint8)
    assert jk.read(file, out=room[2:18]).base is not None
    assert np.array_equal(room[2:18], image)
    assert not room[:2].any() and not room[18:].any()
    other = np.zeros((16, 48, 3), np.uint8)[:, ::2]
    for wrong in (np.zeros((16, 24), np.uint8), np.zeros((16, 24, 3), np.uint16), other):
        with pytest.raises(ValueError):
            jk.read(file, out=wrong)


def test_arrays_that_do_not_lie_in_rows_are_read():
    image = noise((24, 16))
    assert np.array_equal(jk.read(jk.encode(image[::2, ::-1])), image[::2, ::-1])
    assert np.array_equal(jk.read(jk.encode(image.T)), image.T)


def test_parameters():
    image = noise((40, 50, 3))
    file = jk.encode(
        image, levels=1, layers=3, order="RPCL", tile=(16, 32), block=(2, 3), precincts=[(5, 5), (6, 6)],
        colour=False, sop=True, eph=True, raw=True, reset=True, causal=True, segments=True, place=(7, 9),
    )
    assert file[:4] == b"\xff\x4f\xff\x51"
    assert file.count(b"\xff\x91\x00\x04") > 0
    assert file[file.index(b"\xff\x52") + 12] == 0x2A
    told = jk.info(file)
    assert (told.x0, told.y0, told.width, told.height, told.levels) == (7, 9, 50, 40, 1)
    assert np.array_equal(jk.read(file), image)
    with pytest.raises(TypeError):
        jk.encode(image, level=1)
    for other in (np.int32, np.float32, bool, ">u2", ">i2"):
        with pytest.raises(TypeError):
            jk.encode(image.astype(other))


def faulty():
    """Files with one fault each, and the fault: made by hand from a bare codestream of 16 by 16 samples."""
    good = jk.encode(noise((16, 16)), levels=1, raw=True)
    boxed = jk.encode(noise((16, 16)), levels=1)

    def changed(place, *values):
        return good[:place] + bytes(values) + good[place + len(values):]

    cod, qcd, sot = (good.index(bytes([255, code])) for code in (0x52, 0x5C, 0x90))
    yield jk.Truncated, b""
    yield jk.Truncated, good[:-1]
    yield jk.BadMarker, changed(2, 255, 0x52)
    yield jk.BadLength, changed(4, 0, 40)
    yield jk.BadValue, changed(sot + 4, 1, 0)
    yield jk.Unsupported, changed(cod + 13, 0)
    yield jk.Limit, changed(8, 0, 1, 0, 0, 0, 1, 0, 0)
    yield jk.SurplusBytes, good + b"\0"
    yield jk.BadBox, boxed[:4] + b"none" + boxed[8:]
    yield jk.PacketHeader, changed(sot + 14, 255, 255)
    yield jk.TooManyPasses, changed(sot + 14, 255, 127)
    yield jk.CodeOutOfInterval, changed(sot + 17, 255, 143)
    yield jk.MissingPackets, good[:sot + 6] + bytes([0, 0, 0, 14]) + good[sot + 10:sot + 14] + b"\xff\xd9"


@pytest.mark.parametrize("fault, file", list(faulty()), ids=lambda case: getattr(case, "__name__", ""))
def test_each_fault_is_an_exception(fault, file):
    with pytest.raises(fault) as raised:
        jk.read(file)
    assert type(raised.value) is fault
    assert raised.value.name == fault.__name__
    assert str(raised.value) == f"F{fault.number} {fault.__name__}: {fault.cause}"


def test_faults_of_calls():
    image = noise((16, 16))
    file = jk.encode(image)
    for view in ((16, 0, 1, 1), (0, 16, 1, 1), (0, 0, 0, 5)):
        with pytest.raises(jk.BadWindow):
            jk.read(file, window=view)
        with pytest.raises(jk.BadWindow):
            jk.cut(file, view)
    for call in (jk.read, jk.info):
        with pytest.raises(jk.BadWindow):
            call(file, reduce=6)
    for wrong in ({"levels": 6}, {"layers": 33}, {"block": (7, 7)}, {"depth": 17}, {"colour": True}, {"levels": 300}):
        with pytest.raises(jk.BadParameters):
            jk.encode(image, **wrong)
    with pytest.raises(jk.BadParameters):
        jk.encode(image, depth=4)
    with pytest.raises(jk.BadParameters):
        jk.encode(noise((16, 16, 2)), raw=False)
    with pytest.raises(jk.BadParameters):
        jk.encode(noise((4, 4, 5)))
    with pytest.raises(ValueError):
        jk.read(file, reduce=-1)


def test_signed_samples_at_their_bounds():
    image = np.array([[-32768, 32767, 0, -1], [1, -32767, 32766, -2]], np.int16)
    file = jk.encode(image, levels=1)
    assert file[:4] == b"\xff\x4f\xff\x51"
    assert file[42] == 128 + 15  # Ssiz of the only component
    assert np.array_equal(jk.read(file), image)
    assert np.array_equal(jk.read(file, window=(1, 1, 2, 1)), image[1:, 1:3])
    slice_ = np.array([[-1024, 3071], [0, -1]], np.int16)
    assert np.array_equal(jk.read(jk.encode(slice_, depth=13)), slice_)
    with pytest.raises(jk.BadParameters):
        jk.encode(slice_, depth=12)
    with pytest.raises(jk.BadParameters):
        jk.encode(slice_, depth=13, raw=False)


def test_the_sign_of_a_codestream_decides():
    image = noise((16, 16), np.int8)
    signed = jk.encode(image)
    unsigned = bytearray(signed)
    unsigned[42] &= 127
    # The level shift, of 128, is all that differs (T.800 G.1).
    assert np.array_equal(jk.read(bytes(unsigned)).astype(np.int16), image.astype(np.int16) + 128)
    with pytest.raises(ValueError):
        jk.read(signed, out=np.empty((16, 16), np.uint8))


def test_faults_are_value_errors():
    assert issubclass(jk.Fault, ValueError)
    assert issubclass(jk.Memory, MemoryError)
    assert jk.faults.BY_NUMBER[16] is jk.BadWindow
    assert {kind.number for kind in jk.Fault.__subclasses__()} == {*range(1, 14), 15, 16, 17, 20, 21, 64, 65}


def test_an_archive(archive):
    image = noise((30, 40))
    assert archive.images()[0] == jk.Listed("page", 40, 30, 1, 8, 5)
    assert np.array_equal(jk.read(archive.file("page")), image)
    assert np.array_equal(archive.window("page", 3, 5, 9, 100), image[5:, 3:12])
    half = jk.read(archive.file("page"), reduce=1)
    assert np.array_equal(archive.window("page", 3, 5, 9, 4, r=1), half[5:9, 3:12])
    with pytest.raises(jk.BadWindow):
        archive.window("page", 40, 0, 1, 1)
    with pytest.raises(jk.NoSuchImage):
        archive.file("other")
    with pytest.raises(jk.Shelf):
        archive.file("broken")


def test_threads_decode_side_by_side():
    image = noise((64, 64), np.uint16, 12)
    file = jk.encode(image, depth=12)
    seen = []
    threads = [threading.Thread(target=lambda: seen.append(np.array_equal(jk.read(file), image))) for _ in range(8)]
    for thread in threads:
        thread.start()
    for thread in threads:
        thread.join()
    assert seen == [True] * 8
