"""Colour of JP2 files: profiles of METH 3, vendors' colours, and colour spaces whose samples are no RGB."""
import struct

import jk
import numpy as np
import pytest
import tiffs
from conftest import noise
from profiles import icc

pytest.importorskip("tifffile")
pytest.importorskip("PIL.Image")
from jk import _colour  # noqa: E402
from jk._extras import box, boxes_in  # noqa: E402
from jk.convert import convert, tiff  # noqa: E402

#: A profile by tables, as printers have it.
TABLES = icc(kind=b"prtr")
ENUMERATED = b"\1\0\0" + struct.pack(">L", 16)


def boxed(*colours):
    """A JP2 file of RGB with these colours."""
    file = jk.encode(noise((9, 11, 3)))
    others = [box(kind, it) for kind, it in boxes_in(_colour.header_of(file)) if kind != b"colr"]
    return _colour.with_header(file, others[0] + b"".join(box(b"colr", it) for it in colours) + b"".join(others[1:]))


def rows_of(source, out, **how):
    found = []
    counts = convert(source, out, tell=lambda done, number, total: found.append(done), **how)
    return counts, found[0]


@pytest.mark.parametrize("colours", [[b"\3\0\0" + TABLES], [ENUMERATED, b"\3\0\0" + TABLES], [b"\3\0\0" + TABLES, ENUMERATED]])
@pytest.mark.parametrize("ending", ["tif", "png"])
def test_a_profile_of_any_kind_is_carried(tmp_path, colours, ending):
    (tmp_path / "a.jp2").write_bytes(boxed(*colours))
    counts, done = rows_of(tmp_path / "a.jp2", tmp_path / f"b.{ending}", strict=True)
    assert counts.refused == [] and done.rows[0].carried == "profile"
    counts, done = rows_of(tmp_path / f"b.{ending}", tmp_path / "c.jp2", strict=True)
    assert counts.refused == [] and "METH 3" in done.rows[0].notes and "not carried" not in done.rows[0].notes
    assert jk.extras(tmp_path / "c.jp2") == jk.Extras(space="sRGB", any_profile=TABLES)
    assert np.array_equal(jk.read(tmp_path / "c.jp2"), noise((9, 11, 3)))


def test_a_tiff_with_tables_comes_back(tmp_path):
    source = tiffs.tiff(tmp_path / "a.tif", noise((9, 11, 3)), fields={34675: (7, TABLES)})
    assert rows_of(source, tmp_path / "a.jp2", strict=True)[0].refused == []
    assert [it.method for it in _colour.colours_of((tmp_path / "a.jp2").read_bytes())] == [1, 3]
    assert rows_of(tmp_path / "a.jp2", tmp_path / "b.tif", strict=True)[0].refused == []
    assert next(tiff.pictures(str(tmp_path / "b.tif"))).kept.profile == TABLES


@pytest.mark.parametrize("colours, name", [
    ([ENUMERATED, b"\4\0\0" + bytes(20)], "a vendor's colour (METH 4)"),
    ([b"\4\0\0" + bytes(20)], "a vendor's colour (METH 4)"), ([b"\5\0\0" + bytes(20)], "a colour of METH 5"),
    ([b"\2\0\0" + icc(), b"\3\0\0" + TABLES], "a profile of METH 3"),
    ([b"\1\0\0" + struct.pack(">L", 21)], "colour space 21"),
])
def test_what_is_not_carried_of_colour_is_told(tmp_path, colours, name):
    (tmp_path / "a.jp2").write_bytes(boxed(*colours))
    counts, _ = rows_of(tmp_path / "a.jp2", tmp_path / "b.tif", strict=True)
    assert counts.refused == [("a.jp2", f"not carried: {name}")]
    counts, done = rows_of(tmp_path / "a.jp2", tmp_path / "b.tif")
    assert counts.incomplete == 1 and name in done.rows[0].notes


@pytest.mark.parametrize("colour, name", [
    (b"\1\0\0" + struct.pack(">L", 18), "sYCC"), (b"\1\0\0" + struct.pack(">L", 14), "CIELab"),
    (b"\1\0\0" + struct.pack(">L", 14) + bytes(28), "CIELab"), (b"\1\0\0" + struct.pack(">L", 1), "YCbCr"),
    (b"\1\0\0" + struct.pack(">L", 12), "CMYK"), (b"\3\0\0" + icc(b"Lab "), "Lab"),
])
@pytest.mark.parametrize("strict", [False, True])
def test_what_is_no_rgb_does_not_become_it(tmp_path, colour, name, strict):
    (tmp_path / "a.jp2").write_bytes(boxed(colour))
    counts, _ = rows_of(tmp_path / "a.jp2", tmp_path / "b.tif", strict=strict)
    assert counts.refused == [("a.jp2", f"the colour space is {name}: its samples are no RGB")]
    assert not (tmp_path / "b.tif").exists()


def test_a_profile_is_given_and_taken():
    plain = jk.encode(noise((9, 11)))
    once = jk.with_extras(plain, jk.Extras(any_profile=icc(b"GRAY", kind=b"prtr"), resolution=300))
    assert jk.extras(once) == jk.Extras(space="grey", resolution=(300, 300), any_profile=icc(b"GRAY", kind=b"prtr"))
    other = icc(b"GRAY", kind=b"spac")
    again = jk.with_extras(once, jk.Extras(any_profile=other))
    assert jk.extras(again).any_profile == other and len(_colour.colours_of(again)) == 2
    assert np.array_equal(jk.read(again), noise((9, 11)))


@pytest.mark.parametrize("profile", [b"", b"no profile" * 20, TABLES[:-1], TABLES + b"\0", icc(b"GRAY"),
                                     TABLES[:36] + b"none" + TABLES[40:]])
def test_what_is_no_profile_is_refused(profile):
    with pytest.raises(jk.BadParameters, match="profile"):
        jk.encode(noise((5, 6, 3)), extras=jk.Extras(any_profile=profile))


def test_a_profile_is_given_without_a_look_at_the_codestream():
    """As resolution and XMP are: what is damaged there is told when it is read."""
    file = jk.encode(noise((9, 11, 3)))
    at = file.index(b"\xff\x52")
    damaged = file[: at + 4] + b"\xff" + file[at + 5 :]
    for given in (jk.Extras(profile=icc()), jk.Extras(any_profile=TABLES), jk.Extras(resolution=300)):
        made = jk.with_extras(damaged, given)
        assert made.endswith(damaged[damaged.index(b"jp2c") :])
        with pytest.raises(jk.Fault):
            jk.read(made)
    for broken in (b"", b"no file", file[:20], file[:60], jk.encode(noise((9, 11, 4)))):
        for given in (jk.Extras(profile=icc()), jk.Extras(any_profile=TABLES)):
            with pytest.raises(jk.Fault):
                jk.with_extras(broken, given)


def test_jpylyzer_finds_nothing_but_the_method(tmp_path):
    jpylyzer = pytest.importorskip("jpylyzer.jpylyzer")
    jk.write(tmp_path / "a.jp2", noise((9, 11, 3)), extras=jk.Extras(any_profile=TABLES))
    told = jpylyzer.checkOneFile(str(tmp_path / "a.jp2"))
    assert [(it.tag, it.text) for it in told.find("tests").iter() if it.text] == [("methIsValid", "False")]
