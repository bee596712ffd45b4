"""DICOM files there and back, what is refused of them, and the handler for pydicom."""
import subprocess
import sys

import jk
import numpy as np
import pytest
from conftest import noise

pydicom = pytest.importorskip("pydicom")
import dicoms  # noqa: E402
import jk.dicom  # noqa: E402
import jk.pydicom_handler  # noqa: E402
from jk.dicom import reading, writing  # noqa: E402
from pydicom.data import get_testdata_file  # noqa: E402
from pydicom.uid import (  # noqa: E402
    DeflatedExplicitVRLittleEndian, ExplicitVRBigEndian, ImplicitVRLittleEndian, JPEG2000,
)

U8, U16, I8, I16 = np.uint8, np.uint16, np.int8, np.int16


def run(*words):
    """What the command line says."""
    return subprocess.run([sys.executable, "-m", "jk.dicom", *map(str, words)], capture_output=True, text=True)


def codestream(frame, bits, **parameters):
    return jk.encode(frame, depth=bits, raw=True, **parameters)


@pytest.fixture
def paths(tmp_path):
    return [tmp_path / name for name in ("in.dcm", "coded.dcm", "back.dcm")]


def quiet(text):
    raise AssertionError(f"there is a note: {text}")


# There and back.

@pytest.mark.parametrize("shape, dtype, bits, photometric", [
    ((1, 20, 30), U8, 8, "MONOCHROME2"), ((1, 9, 7), U8, 5, "MONOCHROME1"), ((3, 10, 11), U16, 12, "MONOCHROME2"),
    ((2, 10, 12), U16, 16, "MONOCHROME1"), ((1, 9, 9), U16, 7, "PALETTE COLOR"), ((1, 20, 22), I16, 12, "MONOCHROME2"),
    ((2, 9, 7), I16, 13, "MONOCHROME2"), ((1, 20, 22), I16, 16, "MONOCHROME2"), ((1, 8, 8), I16, 6, "MONOCHROME2"),
    ((3, 9, 7), I8, 8, "MONOCHROME2"), ((1, 12, 16, 3), U8, 8, "RGB"), ((3, 5, 7, 3), U8, 8, "RGB"),
    ((1, 9, 8, 3), U16, 16, "RGB"), ((1, 9, 8, 3), U8, 8, "YBR_FULL"),
])
def test_a_file_comes_back_byte_for_byte(paths, shape, dtype, bits, photometric):
    source, coded, back = paths
    frames = noise(shape, dtype, bits)
    dicoms.native(source, frames, bits, photometric)
    jk.dicom.encode(source, coded, note=quiet)
    stored = pydicom.dcmread(coded)
    assert stored.file_meta.TransferSyntaxUID == "1.2.840.10008.1.2.4.90"
    assert stored.PhotometricInterpretation == ("YBR_RCT" if photometric == "RGB" else photometric)
    files = [it[: it.rindex(b"\xff\xd9") + 2] for it in pydicom.encaps.decode_data_sequence(stored.PixelData)]
    told = [(it.depth, it.signed) for it in map(jk.info, files)]
    assert told == [(bits, dtype(0).dtype.kind == "i")] * shape[0]
    assert [reading.has_colour_transform(it) for it in files] == [photometric == "RGB"] * shape[0]
    assert jk.dicom.differences(source, coded, quiet) == []
    jk.dicom.decode(coded, back, note=quiet)
    assert back.read_bytes() == source.read_bytes()


@pytest.mark.parametrize("syntax, vr", [
    (ImplicitVRLittleEndian, "OW"), (ExplicitVRBigEndian, "OW"), (DeflatedExplicitVRLittleEndian, "OW"),
])
@pytest.mark.parametrize("dtype, bits", [(U8, 8), (I16, 12)])
def test_other_encodings_keep_each_element(paths, syntax, vr, dtype, bits):
    """Elements come back as those of the same file in explicit VR, little endian, has them."""
    source, coded, back = paths
    frames = noise((3, 5, 7), dtype, bits)
    plain = dicoms.native(source.with_name("plain.dcm"), frames, bits)
    made = pydicom.dcmread(plain)
    made.is_little_endian, made.is_implicit_VR = syntax.is_little_endian, syntax.is_implicit_VR
    made.file_meta.TransferSyntaxUID = syntax
    data = made.PixelData
    made.PixelData = np.frombuffer(data, "<u2").astype(">u2").tobytes() if syntax == ExplicitVRBigEndian else data
    made["PixelData"].VR = vr
    made.save_as(source)
    told = []
    jk.dicom.encode(source, coded, note=told.append)
    assert ["explicit VR, little endian" in text for text in told] == [True]
    jk.dicom.decode(coded, back, note=quiet)
    # A private element has no VR in implicit VR, so it becomes UN, which it is here already.
    assert jk.dicom.differences(plain, back, quiet) == []


def test_text_that_is_not_of_its_character_set_is_kept(paths):
    """In implicit VR elements have to be written anew."""
    source, coded, back = paths
    dicoms.native(source, noise((1, 8, 8)), 8)
    made = pydicom.dcmread(source)
    made.is_implicit_VR, made.file_meta.TransferSyntaxUID = True, ImplicitVRLittleEndian
    made.save_as(source)
    data = source.read_bytes()
    at = data.index(b"kept")
    head = data[at - 8 : at - 4]
    source.write_bytes(data[: at - 8] + head + len(dicoms.TEXT).to_bytes(4, "little") + dicoms.TEXT + data[at + 4 :])
    jk.dicom.encode(source, coded, note=lambda text: None)
    jk.dicom.decode(coded, back)
    assert dicoms.TEXT in coded.read_bytes() and dicoms.TEXT in back.read_bytes()


def test_private_elements_keep_their_bytes(paths):
    """Also one that pydicom knows to be LO, and text that isn't of the character set."""
    source, coded, back = paths
    dicoms.native(source, noise((1, 8, 8)), 8)
    data = source.read_bytes()
    at = data.index(b"\x09\x00\x10\x00LO")
    made = [b"\x09\x00\x10\x00LO\x0c\0GEMS_IDEN_01", b"\x09\x00\x01\x10UN\0\0\x04\0\0\0\xfcGE ",
            b"\x09\x00\x02\x10LO" + len(dicoms.TEXT).to_bytes(2, "little") + dicoms.TEXT]
    source.write_bytes(data[:at] + b"".join(made) + data[data.index(b"\x10\x00\x10\x00PN") :])
    jk.dicom.encode(source, coded, note=quiet)
    jk.dicom.decode(coded, back, note=quiet)
    assert back.read_bytes() == source.read_bytes()


def test_sequences_of_any_form_and_what_stands_behind_are_kept(paths):
    """Of undefined length, of UN with implicit VR inside, and a group's length; bytes behind the last element."""
    source, coded, back = paths
    dicoms.native(source, noise((1, 8, 8)), 8)
    data = source.read_bytes()
    item = b"\xfe\xff\x00\xe0\xff\xff\xff\xff" + b"\x08\x00\x50\x11UI\x04\x001.2\0" + b"\xfe\xff\x0d\xe0" + bytes(4)
    end = b"\xfe\xff\xdd\xe0" + bytes(4)
    open_sequence = b"\x08\x00\x15\x11SQ\0\0\xff\xff\xff\xff" + item + end
    inner = b"\x08\x00\x50\x11\x04\0\0\x001.2\0"
    unknown = b"\x08\x00\x40\x11UN\0\0\xff\xff\xff\xff" + b"\xfe\xff\x00\xe0" + len(inner).to_bytes(4, "little") + inner
    at = data.index(b"\x08\x00\x40\x11SQ")
    after = data.index(b"\x09\x00\x10\x00LO")
    source.write_bytes(data[:at] + open_sequence + unknown + end + data[after:] + b"\xfc\xff")
    jk.dicom.encode(source, coded, note=quiet)
    jk.dicom.decode(coded, back, note=quiet)
    assert jk.dicom.differences(source, back, quiet) == []
    assert open_sequence in back.read_bytes() and back.read_bytes().endswith(b"\xfc\xff")
    found = pydicom.dcmread(back)
    assert found.ReferencedImageSequence[0].ReferencedSOPClassUID == "1.2"


def test_signatures_are_kept_and_told(paths):
    source, coded, back = paths
    item = pydicom.Dataset()
    item.MACIDNumber, item.MACAlgorithm = 1, "SHA256"
    dicoms.native(source, noise((1, 8, 8)), 8, MACParametersSequence=[item], DigitalSignaturesSequence=[item])
    told = []
    jk.dicom.encode(source, coded, note=told.append)
    assert ["signatures" in text for text in told] == [True]
    jk.dicom.decode(coded, back, note=quiet)
    assert back.read_bytes() == source.read_bytes()
    assert pydicom.dcmread(coded).DigitalSignaturesSequence[0].MACAlgorithm == "SHA256"


def test_planes_become_pixels_and_that_is_told(paths):
    source, coded, back = paths
    frames = noise((2, 5, 6, 3))
    dicoms.native(source, frames, 8, PixelData=np.ascontiguousarray(frames.transpose(0, 3, 1, 2)).tobytes(),
                  PlanarConfiguration=1)
    told = []
    jk.dicom.encode(source, coded, note=told.append)
    assert ["Planar" in text for text in told] == [True]
    jk.dicom.decode(coded, back, note=quiet)
    assert pydicom.dcmread(back).PixelData == frames.tobytes() and pydicom.dcmread(back).PlanarConfiguration == 0
    assert jk.dicom.differences(source, back, quiet) == []


def test_an_extended_table_is_written_where_a_basic_one_does_not_reach(paths, monkeypatch):
    source, coded, back = paths
    dicoms.native(source, noise((3, 9, 7), U16, 12), 12)
    monkeypatch.setattr(writing, "BASIC", 1)
    jk.dicom.encode(source, coded, note=quiet)
    stored = pydicom.dcmread(coded)
    begins, lengths = (np.frombuffer(stored[0x7FE00000 + it].value, "<u8").tolist() for it in (1, 2))
    parts = [len(it) for it in pydicom.encaps.decode_data_sequence(stored.PixelData)]
    assert lengths == parts and begins == [0, parts[0] + 8, parts[0] + parts[1] + 16]
    jk.dicom.decode(coded, back, note=quiet)
    assert back.read_bytes() == source.read_bytes()


# What is refused, and how it is let through.

def with_bits(frames, bits, overlay):
    return frames | (overlay.astype(frames.dtype) << frames.dtype.type(bits))


def test_overlays_in_unused_bits_are_refused_or_unpacked(paths):
    source, coded, back = paths
    frames = noise((2, 5, 7), U16, 12)
    overlay = noise((2, 5, 7), U8, 1, seed=5)
    dicoms.native(source, with_bits(frames, 14, overlay), 12)
    made = pydicom.dcmread(source)
    for element, vr, value in ((0x10, "US", 5), (0x11, "US", 7), (0x40, "CS", "G"), (0x50, "SS", [1, 1]),
                               (0x100, "US", 16), (0x102, "US", 14)):
        made.add_new((0x6002, element), vr, value)
    made.save_as(source)
    told = run("encode", source, coded)
    assert told.returncode == 1 and "frame 1: samples" in told.stderr
    assert list(source.parent.iterdir()) == [source]
    assert "6002 in bit 14" in told.stderr and "--unpack-overlays" in told.stderr and "--clear" not in told.stderr
    assert run("encode", source, coded, "--clear-unused").returncode == 1
    assert run("encode", source, coded, "--unpack-overlays").returncode == 0
    jk.dicom.decode(coded, back)
    found = pydicom.dcmread(back)
    assert found.PixelData == frames.tobytes()
    assert (found[0x6002, 0x100].value, found[0x6002, 0x102].value, found[0x6002, 0x15].value) == (1, 0, 2)
    assert np.array_equal(found.overlay_array(0x6002), overlay)
    for element, vr, other in ((0x10, "US", 4), (0x11, "US", 8), (0x15, "IS", "1"), (0x102, "US", 11)):
        made = pydicom.dcmread(source)
        made.add_new((0x6002, element), vr, other)
        made.save_as(source.with_name("other.dcm"))
        with pytest.raises(jk.dicom.Refused, match="group 6002 doesn't lie in unused bits of the whole image"):
            jk.dicom.encode(source.with_name("other.dcm"), coded, unpack_overlays=True)


@pytest.mark.parametrize("dtype", [U16, I16])
def test_unused_bits_of_no_overlay_are_refused_or_cleared(paths, dtype):
    source, coded, back = paths
    frames = noise((1, 6, 7), dtype, 12)
    other = frames.copy()
    other[0, 2, 3] ^= 1 << 13
    dicoms.native(source, other, 12)
    told = run("encode", source, coded)
    assert told.returncode == 1 and not coded.exists()
    assert "(13)" in told.stderr and "--clear-unused" in told.stderr and "--unpack" not in told.stderr
    assert run("check", source).returncode == 1
    assert run("encode", source, coded, "--unpack-overlays").returncode == 1
    jk.dicom.encode(source, coded, clear_unused=True)
    jk.dicom.decode(coded, back)
    assert pydicom.dcmread(back).PixelData == frames.tobytes()


@pytest.mark.parametrize("word, elements", [
    ("High Bit is 15", {"HighBit": 15}), ("Bits Allocated is 32", {"BitsAllocated": 32}),
    ("Bits Allocated is 1;", {"BitsAllocated": 1}), ("Bits Stored is 17", {"BitsStored": 17}),
    ("Pixel Representation is 2", {"PixelRepresentation": 2}), ("Samples per Pixel is 2", {"SamplesPerPixel": 2}),
    ("YBR_FULL_422", {"PhotometricInterpretation": "YBR_FULL_422"}), ("is 0", {"NumberOfFrames": 0}),
    ("frames take 252", {"NumberOfFrames": 2}), ("more, which would be lost", {"Rows": 8}),
    ("BitsStored isn't there", {"BitsStored": None}), ("one whole number", {"Rows": [9, 9]}),
])
def test_what_a_native_file_may_not_be(paths, word, elements):
    source, coded, _ = paths
    dicoms.native(source, noise((1, 9, 7), U16, 12), 12, **elements)
    told = run("encode", source, coded)
    assert told.returncode == 1 and word in told.stderr and "Traceback" not in told.stderr
    assert list(source.parent.iterdir()) == [source]


@pytest.mark.parametrize("name, word", [
    ("MR_small_RLE.dcm", "RLE Lossless"), ("rtplan.dcm", "no Pixel Data"), ("README.txt", "no DICOM file"),
    ("MR_small_padded.dcm", "128 more"), ("MR_truncated.dcm", "8130 bytes"), ("rtdose.dcm", "Bits Allocated is 32"),
    ("MR_small_jp2klossless.dcm", "already"), ("SC_ybr_full_422_uncompressed.dcm", "its frames take 30000"),
    ("badVR.dcm", "one whole number"), ("meta_missing_tsyntax.dcm", "transfer syntax is none"),
])
def test_what_files_of_pydicom_may_not_be(paths, name, word):
    told = run("encode", get_testdata_file(name), paths[1])
    assert told.returncode == 1 and word in told.stderr and not paths[1].exists()


def test_damaged_files_are_refused_in_words(paths):
    """Cut anywhere, the file is refused; what is cut off behind Pixel Data isn't judged."""
    source, coded, back = paths
    frames = noise((2, 9, 7))
    for path in (dicoms.native(source, frames, 8), coded):
        if path == coded:
            jk.dicom.encode(source, coded)
        data = path.read_bytes()
        end = data.rindex(b"\xfc\xff\xfc\xff")
        for length in [*range(0, end - 1, 37), end - 1]:
            path.write_bytes(data[:length])
            with pytest.raises(jk.dicom.Refused):
                (jk.dicom.encode if path == source else jk.dicom.decode)(path, back)
            assert not back.exists()
        path.write_bytes(data)


def test_a_deflated_file_is_whole_or_refused(paths):
    source, coded, _ = paths
    dicoms.native(source, noise((1, 9, 7)), 8)
    made = pydicom.dcmread(source)
    made.file_meta.TransferSyntaxUID = DeflatedExplicitVRLittleEndian
    made.save_as(source)
    data = source.read_bytes()
    assert run("check", source).stdout.endswith("8 bits, Deflated Explicit VR Little Endian\n")
    for length, word in ((len(data) - 3, "ends too early"), (400, "ends too early"), (330, "")):
        source.write_bytes(data[:length])
        with pytest.raises(jk.dicom.Refused, match=word):
            jk.dicom.encode(source, coded)
    source.write_bytes(data[:400] + b"\xff" * 40 + data[440:])
    with pytest.raises(jk.dicom.Refused):
        jk.dicom.encode(source, coded)
    assert list(source.parent.iterdir()) == [source]


def test_an_element_that_pydicom_can_not_write_is_refused(paths):
    """The length of the file meta information, as a UID."""
    source, coded, _ = paths
    dicoms.native(source, noise((1, 9, 7)), 8)
    data = source.read_bytes()
    source.write_bytes(data.replace(b"\x02\0\0\0UL", b"\x02\0\0\0UI", 1))
    told = run("encode", source, coded)
    assert told.returncode == 1 and "its elements can't be" in told.stderr and "Traceback" not in told.stderr
    assert list(source.parent.iterdir()) == [source]


# Fragments.

def test_frames_of_several_fragments(paths):
    _, coded, back = paths
    frames = noise((3, 9, 7), I16, 12)
    files = [codestream(frame, 12) for frame in frames]
    split = [[file[:10], file[10:40], file[40:]] if at != 1 else [file] for at, file in enumerate(files)]
    dicoms.coded(coded, frames, 12, split)
    jk.dicom.decode(coded, back, note=quiet)
    assert pydicom.dcmread(back).PixelData == frames.tobytes()
    dicoms.coded(coded, frames, 12, split, table=False)
    with pytest.raises(jk.dicom.Refused, match="3 frames have 7 fragments, and no offset table"):
        jk.dicom.decode(coded, back)
    dicoms.coded(coded, frames[:1], 12, split[:1], table=False)
    jk.dicom.decode(coded, back, note=quiet)
    assert pydicom.dcmread(back).PixelData == frames[:1].tobytes()


def test_a_table_that_does_not_fit(paths):
    _, coded, back = paths
    frames = noise((3, 9, 7))
    dicoms.coded(coded, frames, 8, [[codestream(frame, 8)] for frame in frames])
    data = coded.read_bytes()
    at = data.index(b"\xfe\xff\x00\xe0\x0c\0\0\0") + 16
    coded.write_bytes(data[:at] + b"\xff" + data[at + 1 :])
    told = run("decode", coded, back)
    assert told.returncode == 0 and "table doesn't fit" in told.stderr
    assert pydicom.dcmread(back).PixelData == frames.tobytes() + b"\0"


def test_an_extended_table_is_read(paths):
    _, coded, back = paths
    frames = noise((2, 9, 8))
    files = [codestream(frame, 8) for frame in frames]
    split = [[file[:20], file[20:]] for file in files]
    begin = sum(len(part) + len(part) % 2 + 8 for part in split[0])
    dicoms.coded(coded, frames, 8, split, table=False,
                 ExtendedOffsetTable=np.array([0, begin], "<u8").tobytes(),
                 ExtendedOffsetTableLengths=np.array([begin - 16, 4], "<u8").tobytes())
    jk.dicom.decode(coded, back, note=quiet)
    found = pydicom.dcmread(back)
    assert found.PixelData == frames.tobytes() and "ExtendedOffsetTable" not in found


@pytest.mark.parametrize("is_raw", [True, False])
def test_one_padding_byte_is_taken_off_and_no_more(paths, is_raw):
    """Also of a JP2 file, and where other boxes stand behind the codestream."""
    _, coded, back = paths
    frames = noise((1, 9, 7))
    file = jk.encode(frames[0], raw=is_raw)
    files = [file] if is_raw else [file, file + b"\0\0\0\x0cfree1234", file + b"\0\0\0\x0bfree123"]
    for file in files:
        for more in range(4):
            dicoms.coded(coded, frames, 8, [[file + b"\0" * more]])
            if more + (len(file) + more) % 2 <= 1:
                jk.dicom.decode(coded, back, note=quiet)
                assert pydicom.dcmread(back).PixelData[:63] == frames.tobytes()
            else:
                with pytest.raises(jk.dicom.Refused, match="frame 1: F"):
                    jk.dicom.decode(coded, back)


# What the codestream and the elements tell.

def test_signs_that_differ(paths):
    _, coded, back = paths
    frames = noise((1, 9, 8), I16, 12)
    unsigned = frames[0].view(U16) & 0xFFF
    dicoms.coded(coded, frames, 12, [[codestream(unsigned, 12)]])
    told = run("decode", coded, back)
    assert told.returncode == 0 and "two's complement of the codestream's 12 bits" in told.stderr
    assert pydicom.dcmread(back).PixelData == frames.tobytes()
    dicoms.coded(coded, frames.view(U16), 12, [[codestream(frames[0], 12)]])
    with pytest.raises(jk.dicom.Refused, match="signed, and Pixel Representation is 0"):
        jk.dicom.decode(coded, back)


def test_depths_that_differ(paths):
    _, coded, back = paths
    frames = noise((1, 9, 8), U16, 10)
    dicoms.coded(coded, frames, 12, [[codestream(frames[0], 10)]])
    told = run("decode", coded, back)
    assert told.returncode == 0 and "10 bits a sample, and Bits Stored is 12" in told.stderr
    assert pydicom.dcmread(back).PixelData == frames.tobytes()
    dicoms.coded(coded, frames.astype(U8), 8, [[codestream(frames[0], 10)]])
    with pytest.raises(jk.dicom.Refused, match="more than Bits Allocated 8"):
        jk.dicom.decode(coded, back)
    dicoms.coded(coded, frames, 12, [[codestream(frames[0, :8], 12)]])
    with pytest.raises(jk.dicom.Refused, match="8 by 8 pixels of 1 samples, and the elements tell 8 by 9"):
        jk.dicom.decode(coded, back)


def test_a_transform_that_is_missing_is_told(paths):
    _, coded, back = paths
    frames = noise((1, 9, 8, 3))
    for file in (codestream(frames[0], 8, colour=False), jk.encode(frames[0], colour=False)):
        dicoms.coded(coded, frames, 8, [[file]], PhotometricInterpretation="YBR_RCT")
        told = []
        jk.dicom.decode(coded, back, told.append)
        assert ["no colour transform" in text for text in told] == [True]
        assert pydicom.dcmread(back).PixelData == frames.tobytes()
    dicoms.coded(coded, frames, 8, [[jk.encode(frames[0])]], PhotometricInterpretation="YBR_RCT")
    jk.dicom.decode(coded, back, quiet)
    assert pydicom.dcmread(back).PixelData == frames.tobytes()


def test_check_tells_what_differs(paths):
    source, coded, _ = paths
    frames = noise((2, 9, 7), I16, 12)
    dicoms.native(source, frames, 12)
    jk.dicom.encode(source, coded)
    told = run("check", coded, "--against", source)
    assert told.returncode == 0 and "2 frames of 7 by 9, MONOCHROME2, 12 bits signed" in told.stdout
    frames[1, 3, 3:5] ^= 1
    dicoms.native(source, frames, 12, PatientID="1")
    data = source.read_bytes()
    source.write_bytes(data.replace(b"2.25.3", b"2.25.4").replace(b"\0" * 6, b"\1" * 6))
    told = run("check", coded, "--against", source)
    assert told.returncode == 1 and "2 of 63 samples of frame 2" in told.stdout
    for place in ("(0010, 0020)", "(0008, 1140)[0](0008, 1155)", "(fffc, fffc)"):
        assert place in told.stdout
    assert told.stdout.count("\n") == 5
    data = coded.read_bytes()
    coded.write_bytes(data.replace(b"\xff\x4f\xff\x51", b"\xff\x4f\xff\x50", 1))
    told = run("check", source, coded)
    assert told.returncode == 1 and "frame 1: F3 BadMarker" in told.stderr and str(source) in told.stdout


# Files of pydicom, of GDCM, JasPer and OpenJPEG.

@pytest.mark.parametrize("name", ["MR_small.dcm", "CT_small.dcm"])
def test_files_of_pydicom_come_back_byte_for_byte(paths, name):
    source = get_testdata_file(name)
    jk.dicom.encode(source, paths[1], note=quiet)
    jk.dicom.decode(paths[1], paths[2], note=quiet)
    with open(source, "rb") as file:
        assert paths[2].read_bytes() == file.read()


def decoded(paths, name):
    """What jk makes of a file of pydicom, and what it tells."""
    told = []
    jk.dicom.decode(get_testdata_file(name), paths[2], told.append)
    return pydicom.dcmread(paths[2]).pixel_array, told


def test_a_codestream_of_gdcm(paths):
    """Of its 16 code-blocks one lacks its lowest bit-plane, for which jk takes zeros: so 1,005 samples are off by 1."""
    samples, told = decoded(paths, "MR_small_jp2klossless.dcm")
    apart = samples - pydicom.dcmread(get_testdata_file("MR_small.dcm")).pixel_array
    assert told == [] and samples.dtype == I16
    assert np.count_nonzero(apart) == 1005 and np.abs(apart).max() == 1


def test_an_unsigned_codestream_of_signed_samples(paths):
    """The numbers are those of pydicom's own tests."""
    samples, told = decoded(paths, "J2K_pixelrep_mismatch.dcm")
    assert len(told) == 1 and "13 bits" in told[0]
    assert samples[0, 0] == -2000
    assert samples[47:57, 279].tolist() == [621, 412, 138, -193, -520, -767, -907, -966, -988, -995]


def test_a_jp2_file_in_a_fragment(paths):
    """A file of GDCM with a padding byte, and with texts in green, blue and red on grey."""
    samples, told = decoded(paths, "GDCMJ2K_TextGBR.dcm")
    assert told == [] and samples.shape == (400, 400, 3) and samples[0, 0].tolist() == [128, 128, 128]
    colours = {tuple(it) for it in np.unique(samples.reshape(-1, 3), axis=0).tolist()}
    assert {(0, 255, 0), (0, 0, 255), (255, 0, 0)} <= colours
    assert pydicom.dcmread(paths[2]).PhotometricInterpretation == "RGB"


@pytest.mark.parametrize("name", ["J2K_pixelrep_mismatch.dcm", "SC_rgb_gdcm_KY.dcm"])
def test_reversible_files_of_others_as_pillow_reads_them(paths, name):
    """Of transfer syntax .90, and of .91."""
    pytest.importorskip("PIL")
    theirs = pydicom.dcmread(get_testdata_file(name))
    theirs.convert_pixel_data("pillow")
    assert np.array_equal(decoded(paths, name)[0], theirs.pixel_array)


@pytest.mark.parametrize("name", ["JPEG2000.dcm", "JPEG2000-embedded-sequence-delimiter.dcm"])
def test_irreversible_files_are_refused(paths, name):
    with pytest.raises(jk.dicom.Refused, match="frame 1: F6 Unsupported"):
        decoded(paths, name)
    assert not paths[2].exists()


# The handler.

@pytest.fixture
def handlers():
    """pydicom's handlers, put back behind a test."""
    before = list(pydicom.config.pixel_data_handlers)
    yield pydicom.config
    pydicom.config.pixel_data_handlers[:] = before
    del pydicom.config.jk_handler


@pytest.mark.parametrize("shape, dtype, bits", [
    ((1, 9, 7), U8, 8), ((3, 9, 7), I16, 12), ((1, 9, 8, 3), U8, 8), ((2, 5, 7, 3), U16, 16),
])
def test_the_handler_gives_what_was_encoded(paths, handlers, shape, dtype, bits):
    source, coded, back = paths
    frames = noise(shape, dtype, bits)
    dicoms.native(source, frames, bits)
    jk.dicom.encode(source, coded)
    jk.pydicom_handler.register()
    found = pydicom.dcmread(coded)
    assert found.pixel_array.dtype == frames.dtype
    assert np.array_equal(found.pixel_array, frames[0] if shape[0] == 1 else frames)
    found = pydicom.dcmread(coded)
    found.decompress("jk")
    found.save_as(back)
    assert pydicom.dcmread(back).PixelData[: frames.nbytes] == frames.tobytes()


class Other:
    """A handler that gives an image of anything, as one does that doesn't see damage."""

    HANDLER_NAME, DEPENDENCIES = "other", {}
    is_available = staticmethod(lambda: True)
    supports_transfer_syntax = staticmethod(lambda syntax: True)
    needs_to_convert_to_RGB = staticmethod(lambda dataset: False)
    get_pixeldata = staticmethod(lambda dataset: np.zeros(dataset.Rows * dataset.Columns, np.uint8))


@pytest.mark.parametrize("syntax", ["1.2.840.10008.1.2.4.90", JPEG2000])
def test_a_damaged_file_is_no_image_of_another_decoder(paths, handlers, syntax):
    _, coded, _ = paths
    frame = noise((9, 7))
    dicoms.coded(coded, frame[np.newaxis], 8, [[codestream(frame, 8)[:-9] + b"\xff\xd9"]], syntax=syntax)
    before = list(handlers.pixel_data_handlers)
    handlers.pixel_data_handlers.append(Other)
    jk.pydicom_handler.register(alone=False)
    assert not pydicom.dcmread(coded).pixel_array.all(), "pydicom passes over what jk refuses"
    for _ in range(2):
        jk.pydicom_handler.register()
    with pytest.raises(jk.Fault):
        pydicom.dcmread(coded).pixel_array
    jk.pydicom_handler.register(alone=False)
    assert handlers.pixel_data_handlers == [jk.pydicom_handler, *before, Other]


def test_other_transfer_syntaxes_stay_with_other_handlers(paths, handlers):
    jk.pydicom_handler.register()
    one, other = (pydicom.dcmread(get_testdata_file(f"MR_small{it}.dcm")).pixel_array for it in ("", "_RLE"))
    assert np.array_equal(one, other)


def test_an_element_without_a_value_is_the_same_in_both_forms(tmp_path):
    frames = noise((1, 9, 12))
    dicoms.native(tmp_path / "plain.dcm", frames, 8)
    made = pydicom.dcmread(tmp_path / "plain.dcm")
    made.ReferencedImageSequence[0].add_new(0x00181182, "IS", "")
    made.ReferencedImageSequence[0].add_new(0x00280008, "IS", "3")
    made.is_implicit_VR, made.file_meta.TransferSyntaxUID = True, ImplicitVRLittleEndian
    made.save_as(tmp_path / "in.dcm", write_like_original=False)
    jk.dicom.encode(tmp_path / "in.dcm", tmp_path / "coded.dcm", note=lambda text: None)
    assert jk.dicom.differences(tmp_path / "in.dcm", tmp_path / "coded.dcm") == []


@pytest.mark.parametrize("length", [6, 7])
def test_a_sequence_delimiter_inside_a_codestream(tmp_path, length):
    """It is no end of the fragments, and the padding behind the codestream is taken off as elsewhere."""
    frames = noise((1, 9, 12))
    file = jk.encode(frames[0], raw=True)
    at = file.index(b"\xff\x90")
    text = b"\xfe\xff\xdd\xe0\0\0\0"[:length]
    file = file[:at] + b"\xff\x64" + (4 + length).to_bytes(2, "big") + b"\0\0" + text + file[at:]
    dicoms.coded(tmp_path / "coded.dcm", frames, 8, [[file]])
    jk.dicom.decode(tmp_path / "coded.dcm", tmp_path / "back.dcm")
    assert np.array_equal(pydicom.dcmread(tmp_path / "back.dcm").pixel_array, frames[0])
