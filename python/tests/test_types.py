"""Arguments of another type are a TypeError, and numpy's numbers are numbers."""
from decimal import Decimal
from fractions import Fraction

import jk
import numpy as np
import pytest
from conftest import noise

SAMPLES = noise((16, 24))
FILE = jk.encode(SAMPLES)


@pytest.mark.parametrize("fields", [
    {"xml": b"<a/>"}, {"xml": "<a/>"}, {"xml": (5,)}, {"xml": ("<a/>",)}, {"xmp": 5}, {"xmp": "text"}, {"exif": [1, 2]},
    {"iptc": 3}, {"profile": 7}, {"any_profile": 7}, {"uuids": b"0123456789abcdef"}, {"uuids": ((b"0123456789abcdef", 5),)},
    {"uuids": ((16, b""),)}, {"uuids": (b"0123456789abcdef",)}, {"resolution": b"300"}, {"resolution": True},
    {"resolution": (300, None)}, {"display": {}.items}, {"resolution": 1j},
])
def test_extras_of_another_type(fields):
    with pytest.raises(TypeError):
        jk.Extras(**fields)


@pytest.mark.parametrize("number", [np.int64(300), np.uint8(200), np.int32(65535), np.float32(300.5), np.float64(300), Decimal("300.5"),
                                    Fraction(601, 2), "300.5", 300.5])
def test_numbers_of_numpy_are_numbers(number):
    file = jk.with_extras(FILE, jk.Extras(resolution=number, display=(number, number)))
    due = Fraction(str(number)) if isinstance(number, str) else Fraction(float(number))
    assert jk.extras(file).resolution == jk.extras(file).display == (due, due)
    assert jk.extras(jk.with_extras(FILE, jk.Extras(resolution=np.array([number, number], object)))).resolution == (due, due)


@pytest.mark.parametrize("number", [float("inf"), float("nan")])
def test_numbers_that_are_none(number):
    with pytest.raises(ValueError):
        jk.with_extras(FILE, jk.Extras(resolution=number))


@pytest.mark.parametrize("parameters", [
    {"levels": 2.7}, {"levels": "2"}, {"layers": 2.0}, {"depth": 8.0}, {"depth": "8"}, {"tile": (16.0, 16)}, {"tile": "16"},
    {"block": (4.5, 4)}, {"precincts": [(7.0, 7)] * 6}, {"place": (0.5, 0)}, {"levels": None},
])
def test_parameters_of_another_type(parameters):
    with pytest.raises(TypeError):
        jk.encode(SAMPLES, **parameters)


def test_whole_numbers_of_numpy_are_whole_numbers():
    sides = np.array([16, 16])
    file = jk.encode(SAMPLES, levels=np.int64(2), layers=np.uint8(3), tile=sides, block=np.array([4, 4]),
                     precincts=np.array([[7, 7]] * 3), depth=np.int16(8), place=np.array([1, 2]))
    assert file == jk.encode(SAMPLES, levels=2, layers=3, tile=(16, 16), block=(4, 4), precincts=[(7, 7)] * 3, place=(1, 2))
    assert np.array_equal(jk.read(file, reduce=np.int8(1), window=np.array([0, 0, 4, 4])), jk.read(file, 1)[:4, :4])
    with pytest.raises(ValueError):
        jk.encode(SAMPLES, precincts=[(7, 7, 7)] * 6)


@pytest.mark.parametrize("call", [jk.read, jk.info, lambda file, reduce: jk.cut(file, (0, 0, 4, 4), reduce)])
def test_reductions_of_another_type(call):
    for reduce in ("1", 1.0, None):
        with pytest.raises(TypeError):
            call(FILE, reduce)
    for window in ((0, 0, 4.0, 4), ("0", 0, 4, 4)):
        with pytest.raises(TypeError):
            jk.read(FILE, window=window)


def test_masked_arrays():
    masked = np.ma.masked_array(SAMPLES, mask=SAMPLES > 3)
    with pytest.raises(TypeError, match="filled"):
        jk.encode(masked)
    with pytest.raises(TypeError):
        jk.read(FILE, out=np.ma.masked_array(np.empty_like(SAMPLES)))
    with pytest.raises(TypeError):
        jk.read(FILE, out=bytearray(SAMPLES.nbytes))


def test_out_is_aligned_and_apart_from_the_file():
    wide = jk.encode(noise((16, 24), np.uint16))
    odd = np.zeros(16 * 24 * 2 + 1, np.uint8)[1:].view(np.uint16).reshape(16, 24)
    if odd.flags.aligned:
        odd = np.zeros(16 * 24 * 2 + 2, np.uint8)[2:].view(np.uint16).reshape(16, 24)
    with pytest.raises(ValueError, match="odd address"):
        jk.read(wide, out=odd)
    room = np.zeros(len(FILE) + SAMPLES.size, np.uint8)
    room[: len(FILE)] = np.frombuffer(FILE, np.uint8)
    with pytest.raises(ValueError, match="the bytes of the file"):
        jk.read(room[: len(FILE)], out=room[: SAMPLES.size].reshape(16, 24))
    # Side by side they may lie.
    out = room[len(FILE) :].reshape(16, 24)
    assert np.array_equal(jk.read(room[: len(FILE)], out=out), SAMPLES)


def test_samples_at_odd_addresses_are_written():
    samples = noise((9, 11), np.uint16)
    odd = np.frombuffer(b"\0" + samples.tobytes(), np.uint8)[1:].view(np.uint16).reshape(9, 11)
    assert np.array_equal(jk.read(jk.encode(odd)), samples)


def test_the_library_is_given_even_addresses(monkeypatch):
    seen = []
    monkeypatch.setattr(jk.encoding, "list_of", lambda array: seen.append(array.ctypes.data % array.itemsize) or jk.files.list_of(array))
    for at in (0, 1):
        odd = np.frombuffer(bytes(at) + noise((9, 11), np.uint16).tobytes(), np.uint8)[at:].view(np.uint16).reshape(9, 11)
        jk.encode(odd)
    assert seen and not any(seen)
