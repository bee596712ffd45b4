"""What JP2 files keep beside the samples, by the boxes of T.800 Annex I and by jpylyzer, ExifTool and Pillow."""
import glob
import io
import json
import shutil
import struct
import subprocess
import uuid
from fractions import Fraction

import jk
import numpy as np
import pytest
from conftest import noise
from jk import _extras
from profiles import icc

XMP = (b'<?xpacket begin="" id="W5M0MpCehiHzreSzNTczkc9d"?><x:xmpmeta xmlns:x="adobe:ns:meta/"><rdf:RDF '
       b'xmlns:rdf="http://www.w3.org/1999/02/22-rdf-syntax-ns#"><rdf:Description rdf:about="" '
       b'xmlns:dc="http://purl.org/dc/elements/1.1/"><dc:title><rdf:Alt><rdf:li xml:lang="x-default">A page</rdf:li></rdf:Alt>'
       b"</dc:title></rdf:Description></rdf:RDF></x:xmpmeta><?xpacket end='w'?>")
#: A TIFF stream of one field, orientation 6.
EXIF = b"II*\0" + struct.pack("<LHHHLHHL", 8, 1, 274, 3, 1, 6, 0, 0)
XML = b"<?xml version='1.0'?><page><title>A page</title></page>"


def parts(file):
    """The boxes of a file: kind and bytes of each."""
    found, at = [], 0
    while at < len(file):
        size, kind = struct.unpack(">L4s", file[at : at + 8])
        found.append((kind, file[at : at + (size or len(file) - at)]))
        at += size or len(file) - at
    return found


def test_a_resolution_stands_at_the_end_of_the_header():
    plain = jk.encode(noise((5, 6)))
    header = dict(parts(plain))[b"jp2h"]
    at = plain.index(header)
    # 15000 / 127 * 10^2 samples by the metre are 300 by the inch; those of a column come first.
    both = struct.pack(">L4sL4sHHHHbb", 26, b"res ", 18, b"resc", 15025, 127, 15000, 127, 2, 2)
    dressed = plain[:at] + struct.pack(">L", len(header) + 26) + header[4:] + both + plain[at + len(header) :]
    assert jk.with_extras(plain, jk.Extras(resolution=(300, 300.5))) == dressed
    assert jk.encode(noise((5, 6)), extras=jk.Extras(resolution=(300, Fraction(601, 2)))) == dressed
    assert jk.extras(dressed).resolution == (300, Fraction(601, 2))
    assert np.array_equal(jk.read(dressed), noise((5, 6)))


@pytest.mark.parametrize("shape, space", [((9, 11), b"GRAY"), ((9, 11, 3), b"RGB ")])
def test_all_comes_back(tmp_path, shape, space):
    samples, profile = noise(shape), icc(space)
    given = jk.Extras(
        profile=profile, resolution=(300, 600), display=72, xmp=XMP, exif=b"Exif\0\0" + EXIF, iptc=b"\x1c\2\5\0\1a",
        xml=(XML, b"<b/>"), uuids=((uuid.UUID(int=5), b"five"), (b"0123456789abcdef", b"")),
    )
    jk.write(tmp_path / "a.jp2", samples, extras=given, levels=2)
    told = jk.extras(tmp_path / "a.jp2")
    assert told == jk.Extras(
        profile=profile, resolution=(300, 600), display=(72, 72), xmp=XMP, exif=EXIF, iptc=b"\x1c\2\5\0\1a", xml=(XML, b"<b/>"),
        uuids=((uuid.UUID(int=5).bytes, b"five"), (b"0123456789abcdef", b"")),
    )
    assert np.array_equal(jk.read(tmp_path / "a.jp2"), samples)
    kinds = [kind for kind, _ in parts((tmp_path / "a.jp2").read_bytes())]
    assert kinds == [b"jP  ", b"ftyp", b"jp2h", *[b"xml "] * 2, *[b"uuid"] * 5, b"jp2c"]
    window = jk.cut(tmp_path / "a.jp2", (1, 2, 3, 4))
    assert jk.extras(window) == told


def test_what_a_file_has_gives_way_or_stays():
    plain = jk.encode(noise((5, 6)))
    assert jk.extras(plain) == jk.Extras(space="grey")
    once = jk.with_extras(plain, jk.Extras(profile=icc(b"GRAY"), display=10, xml=(XML,)))
    twice = jk.with_extras(once, jk.Extras(resolution=20, xml=(b"<c/>",)))
    assert jk.extras(twice) == jk.Extras(profile=icc(b"GRAY"), resolution=(20, 20), xml=(XML, b"<c/>"))
    assert jk.with_extras(twice, jk.Extras()) == twice
    assert jk.extras(jk.encode(noise((5, 6, 3)))).space == "sRGB"


def test_the_second_of_a_kind_stands_among_the_others():
    file = jk.with_extras(jk.encode(noise((5, 6))), jk.Extras(xmp=b"one", uuids=((_extras.XMP, b"two"),)))
    assert (jk.extras(file).xmp, jk.extras(file).uuids) == (b"one", ((_extras.XMP, b"two"),))


@pytest.mark.parametrize("profile", [
    b"", b"no profile" * 20, icc(b"RGB ")[:-1], icc(b"RGB ") + b"\0", icc(b"GRAY"), icc(b"CMYK"), icc(kind=b"prtr"), icc(kind=b"spac"),
    icc(version=0x05000000), icc(connection=b"Lab "), icc(tags=[b"rXYZ", b"gXYZ", b"bXYZ", b"rTRC", b"gTRC"]),
    icc(tags=[b"rXYZ", b"gXYZ", b"bXYZ", b"rTRC", b"gTRC", b"bTRC", b"A2B0"]), icc(tags=[b"rXYZ"] * 101),
])
def test_other_profiles_are_refused(profile):
    with pytest.raises(jk.BadParameters if profile else jk.BadBox):
        jk.encode(noise((5, 6, 3)), extras=jk.Extras(profile=profile))


@pytest.mark.parametrize("samples", [noise((5, 6), np.int8), noise((5, 6, 2)), noise((5, 6, 4))])
def test_bare_codestreams_keep_nothing(samples):
    with pytest.raises(jk.BadParameters, match="bare codestream"):
        jk.encode(samples, extras=jk.Extras(xmp=XMP))
    bare = jk.encode(samples)
    assert jk.extras(bare) == jk.Extras()
    with pytest.raises(jk.BadParameters):
        jk.with_extras(bare, jk.Extras(xmp=XMP))
    with pytest.raises(jk.BadParameters, match="bare codestream"):
        jk.encode(noise((5, 6)), raw=True, extras=jk.Extras())


def test_there_are_limits():
    plain = jk.encode(noise((5, 6)))
    assert len(jk.with_extras(plain, jk.Extras(xml=(bytes((1 << 24) - 8),)))) == len(plain) + (1 << 24)
    for many in (jk.Extras(xml=(bytes((1 << 24) - 7),)), jk.Extras(xml=(b"",) * 1025)):
        with pytest.raises(jk.BadParameters):
            jk.with_extras(plain, many)


@pytest.mark.parametrize("resolution, word", [
    (0, "above 0"), (-300, "above 0"), (65537, "16 bits"), (300.1234567, "16 bits"), ((300,), "one of a row"),
    ((1, 2, 3), "one of a row"),
])
def test_resolutions_that_jp2_has_not(resolution, word):
    with pytest.raises(ValueError, match=word):
        jk.encode(noise((5, 6)), extras=jk.Extras(resolution=resolution))


def test_every_whole_number_by_the_inch_is_exact():
    for inches in range(1, 65536, 61):
        above, below, exponent = _extras.ratio(inches * _extras.METRE)
        assert above <= 65535 and below <= 65535 and 2 <= exponent <= 4
        assert Fraction(above, below) * 10 ** exponent == Fraction(5000 * inches, 127)
    assert _extras.ratio(Fraction(11800)) == (118, 1, 2)
    assert _extras.ratio(Fraction(3000001, 10000) * _extras.METRE) is None
    assert _extras.nearest(Fraction(3000001, 10000) * _extras.METRE) == (47276, 40027, 4)


def test_uuids_have_sixteen_bytes():
    with pytest.raises(ValueError, match="16 bytes"):
        jk.encode(noise((5, 6)), extras=jk.Extras(uuids=((b"short", b""),)))


def test_damage_is_told():
    file = jk.encode(noise((5, 6)), extras=jk.Extras(resolution=300, xmp=XMP))
    zero = file.replace(struct.pack(">HHHH", 15000, 127, 15000, 127), struct.pack(">HHHH", 15000, 0, 15000, 127))
    with pytest.raises(jk.BadValue):
        jk.extras(zero)
    assert np.array_equal(jk.read(zero), noise((5, 6)))
    at = file.index(b"uuid")
    short = file[: at - 4] + struct.pack(">L4s4s", 12, b"uuid", b"abcd") + dict(parts(file))[b"jp2c"]
    with pytest.raises(jk.BadBox):
        jk.extras(short)
    with pytest.raises(jk.Truncated):
        jk.extras(file[:100])


# Other readers.

def test_jpylyzer_finds_it_valid(tmp_path):
    jpylyzer = pytest.importorskip("jpylyzer.jpylyzer")
    for shape, space, kind in (((9, 11), b"GRAY", b"scnr"), ((9, 11, 3), b"RGB ", b"mntr")):
        path = tmp_path / f"{space.strip().decode()}.jp2"
        jk.write(path, noise(shape), extras=jk.Extras(
            profile=icc(space, kind), resolution=(300, 600), display=72, xmp=XMP, exif=EXIF, xml=(XML,)))
        told = jpylyzer.checkOneFile(str(path))
        assert told.findtext(".//isValid") == "True"
        assert told.findtext(".//colourSpecificationBox/meth") == "Restricted ICC"
        assert told.findtext(".//colourSpecificationBox/icc/colourSpace").strip() == space.strip().decode()
        assert float(told.findtext(".//captureResolutionBox/hRescInPixelsPerInch")) == pytest.approx(300, abs=0.01)
        assert float(told.findtext(".//captureResolutionBox/vRescInPixelsPerInch")) == pytest.approx(600, abs=0.01)
        assert float(told.findtext(".//displayResolutionBox/hResdInPixelsPerInch")) == pytest.approx(72, abs=0.01)
        assert len(told.findall(".//uuidBox")) == 2 and len(told.findall(".//xmlBox")) == 1


@pytest.mark.skipif(not shutil.which("exiftool"), reason="exiftool isn't there")
def test_exiftool_reads_it(tmp_path):
    jk.write(tmp_path / "a.jp2", noise((9, 11, 3)), extras=jk.Extras(profile=icc(), resolution=300, xmp=XMP, exif=EXIF))
    done = subprocess.run(["exiftool", "-j", "-n", "-G1", str(tmp_path / "a.jp2")], capture_output=True, check=True)
    told, = json.loads(done.stdout)
    assert told["XMP-dc:Title"] == "A page" and told["IFD0:Orientation"] == 6
    assert told["ICC-header:ColorSpaceData"] == "RGB " and told["ICC_Profile:ProfileDescription"] == "test"
    assert told["Jpeg2000:CaptureXResolution"] == pytest.approx(15000 / 127, abs=1e-3)
    assert not [name for name in told if name.endswith(("Warning", "Error"))]


@pytest.mark.skipif(not shutil.which("exiftool"), reason="exiftool isn't there")
def test_what_exiftool_adds_is_read(tmp_path):
    """It puts its boxes behind the codestream, and the profile into the JP2 header box."""
    jk.write(tmp_path / "a.jp2", noise((9, 11, 3)))
    (tmp_path / "p.icc").write_bytes(icc())
    line = ["exiftool", "-q", "-XMP-dc:Title=A page", "-Orientation#=6", f"-icc_profile<={tmp_path / 'p.icc'}", str(tmp_path / "a.jp2")]
    subprocess.run(line, check=True, capture_output=True)
    told = jk.extras(tmp_path / "a.jp2")
    assert b"A page" in told.xmp and told.exif[:2] in (b"II", b"MM") and told.profile == icc()
    assert np.array_equal(jk.read(tmp_path / "a.jp2"), noise((9, 11, 3)))


def test_pillow_reads_the_resolution(tmp_path):
    Image = pytest.importorskip("PIL.Image")
    file = jk.encode(noise((9, 11)), extras=jk.Extras(resolution=(300, 600)))
    with Image.open(io.BytesIO(file), formats=["JPEG2000"]) as image:
        assert image.info["dpi"] == pytest.approx((300, 600))


@pytest.mark.parametrize("name", ["sRGB.icc", "AdobeRGB1998.icc", "Gamma6500K.icc"])
def test_profiles_of_debian(name):
    found = glob.glob(f"/usr/share/color/icc/**/{name}", recursive=True)
    if not found:
        pytest.skip("icc-profiles-free and colord-data aren't there")
    with open(found[0], "rb") as file:
        profile = file.read()
    assert jk.extras(jk.encode(noise((5, 6, 3)), extras=jk.Extras(profile=profile))).profile == profile
