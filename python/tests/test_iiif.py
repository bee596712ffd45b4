"""The IIIF Image API 3, by the rows of its compliance table, and as viewers ask."""
import io
import json

import jk
import numpy as np
import pytest
from conftest import Served, noise, stored

pytest.importorskip("PIL")
from jk.iiif import FORMATS, Application, from_environment  # noqa: E402
from PIL import Image  # noqa: E402

WHOLE = noise((150, 201, 3), seed=2)


class Client:
    """Asks the application as a server would."""

    def __init__(self, url):
        self.application = Application(url, tile=64, most=1000)

    def __call__(self, path, method="GET", **headers):
        told = {}

        def start(status, headers):
            told.update(status=int(status[:3]), headers=dict(headers))

        environ = {
            "REQUEST_METHOD": method, "PATH_INFO": path, "SERVER_NAME": "host", "SERVER_PORT": "80",
            "HTTP_HOST": "host", "wsgi.url_scheme": "http", **headers,
        }
        body = b"".join(self.application(environ, start))
        return told["status"], told["headers"], body

    def image(self, path):
        status, headers, body = self(path)
        assert status == 200, body
        assert headers["Access-Control-Allow-Origin"] == "*"
        return np.asarray(Image.open(io.BytesIO(body)))


@pytest.fixture
def ask(archive):
    return Client(archive.url)


def test_info(ask):
    status, headers, body = ask("/photo/info.json")
    told = json.loads(body)
    assert (status, headers["Content-Type"]) == (200, "application/json")
    assert headers["Access-Control-Allow-Origin"] == "*"
    assert headers["Link"].startswith('<http://iiif.io/api/image/3/level2.json>;rel="profile", ')
    assert (told["id"], told["type"], told["profile"]) == ("http://host/photo", "ImageService3", "level2")
    assert told["extraQualities"] == ["color", "gray", "bitonal"] and "webp" in told["extraFormats"] or "webp" not in FORMATS
    assert told["@context"] == "http://iiif.io/api/image/3/context.json"
    assert told["protocol"] == "http://iiif.io/api/image"
    assert (told["width"], told["height"]) == (201, 150)
    assert [(size["width"], size["height"]) for size in told["sizes"]] == [
        (7, 5), (13, 10), (26, 19), (51, 38), (101, 75), (201, 150)]
    assert told["tiles"] == [{"width": 64, "height": 64, "scaleFactors": [1, 2, 4, 8, 16, 32]}]


@pytest.mark.parametrize("region, due", [
    ("full", WHOLE), ("square", WHOLE[:, 25:175]), ("10,20,30,40", WHOLE[20:60, 10:40]),
    ("190,140,500,500", WHOLE[140:, 190:]), ("pct:50,50,50,50", WHOLE[75:, 101:]), ("pct:0,0,10.2,10", WHOLE[:15, :21]),
])
def test_regions(ask, region, due):
    assert np.array_equal(ask.image(f"/photo/{region}/max/0/default.png"), due)


@pytest.mark.parametrize("size, due", [
    ("max", (201, 150)), ("100,", (100, 75)), (",75", (101, 75)), ("100,20", (100, 20)), ("pct:50", (101, 75)),
    ("!50,1000", (50, 37)), ("!1000,1000", (201, 150)), ("^402,", (402, 300)), ("^!402,1000", (402, 300)),
    ("^max", (1000, 746)), ("1,1", (1, 1)),
])
def test_sizes(ask, size, due):
    assert ask.image(f"/photo/full/{size}/0/default.png").shape == (due[1], due[0], 3)


@pytest.mark.parametrize("path, status", [
    ("/none/info.json", 404), ("/none/full/max/0/default.jpg", 404), ("/photo/full/max/0", 400),
    ("/photo/201,0,1,1/max/0/default.jpg", 400), ("/photo/0,0,0,1/max/0/default.jpg", 400),
    ("/photo/0,0,1/max/0/default.jpg", 400), ("/photo/-1,0,1,1/max/0/default.jpg", 400),
    ("/photo/pct:0,0,0,100/max/0/default.jpg", 400), ("/photo/pct:0,0,100/max/0/default.jpg", 400),
    ("/photo/all/max/0/default.jpg", 400), ("/photo/full/202,/0/default.jpg", 400), ("/photo/full/0,/0/default.jpg", 400),
    ("/photo/full/,/0/default.jpg", 400), ("/photo/full/!9,/0/default.jpg", 400), ("/photo/full/!0,9/0/default.jpg", 400),
    ("/photo/full/^1001,/0/default.jpg", 400), ("/photo/full/pct:101/0/default.jpg", 400),
    ("/photo/full/full/0/default.jpg", 400), ("/photo/full/max/361/default.jpg", 400),
    ("/photo/full/max/x/default.jpg", 400), ("/photo/full/max/-90/default.jpg", 400),
    ("/photo/full/max/45/default.jpg", 501), ("/photo/full/max/!22.5/default.jpg", 501),
    ("/photo/full/max/0/best.jpg", 400), ("/photo/full/max/0/default.gif", 501), ("/photo/full/max/0/default.jp2", 501),
    ("/photo/full/max/0/default.xyz", 400), ("/photo/full/max/0/default", 400), ("/broken/full/max/0/default.jpg", 404),
])
def test_refusals(ask, path, status):
    assert ask(path)[0] == status


@pytest.mark.parametrize("number", [
    "9" * 33, "9" * 5000, "0" * 5000 + "1", "\xb2", "\u0661", ".\u0661", "\uff11", "+1", "1_0", " 1", "1e1", ""])
def test_numbers_that_are_none(ask, number):
    """Of any length, and of no other digits than those of ASCII: 400, and no exception."""
    for path in (f"{number},0,9,9/max/0", f"0,0,{number},9/max/0", f"pct:{number},0,9,9/max/0", f"pct:0,0,9,{number}/max/0",
                 f"full/{number},9/0", f"full/^9,{number}x/0", f"full/!{number},9/0", f"full/pct:{number}/0",
                 f"full/max/{number}", f"full/max/!{number}"):
        status, _, body = ask(f"/photo/{path}/default.png")
        # A side may be left out.
        assert status == (200 if not number and path == "full/,9/0" else 400), (path, body)
        assert len(body) < 200 or status == 200


def test_qualities(ask):
    """Level 2 has color and gray."""
    assert np.array_equal(ask.image("/photo/full/max/0/color.png"), WHOLE)
    gray = ask.image("/photo/full/max/0/gray.png")
    assert np.array_equal(gray, np.asarray(Image.fromarray(WHOLE).convert("L")))
    assert np.array_equal(ask.image("/photo/full/max/0/bitonal.png"), gray >= 128)
    assert np.array_equal(ask.image("/page/full/max/0/default.png"), noise((30, 40)))
    assert np.array_equal(ask.image("/page/full/max/0/color.png"), noise((30, 40)))
    deep = noise((64, 64), np.uint16, 12)
    assert np.array_equal(ask.image("/xray/full/max/0/default.png"), (deep.astype(int) * 255 // 4095).astype(np.uint8))


@pytest.mark.parametrize("form, kind, name", [
    ("jpg", "image/jpeg", "JPEG"), ("png", "image/png", "PNG"), ("webp", "image/webp", "WEBP")])
@pytest.mark.parametrize("quality", ["default", "gray", "bitonal"])
def test_formats(ask, form, kind, name, quality):
    if form not in FORMATS:
        pytest.skip("Pillow has no WebP here")
    status, headers, body = ask(f"/photo/full/max/0/{quality}.{form}")
    assert (status, headers["Content-Type"], headers["Content-Length"]) == (200, kind, str(len(body)))
    picture = Image.open(io.BytesIO(body))
    assert (picture.format, picture.size) == (name, (201, 150))


@pytest.mark.parametrize("turn, due", [
    ("0", WHOLE), ("90", np.rot90(WHOLE, -1)), ("180", WHOLE[::-1, ::-1]), ("270", np.rot90(WHOLE)), ("360", WHOLE),
    ("90.0", np.rot90(WHOLE, -1)), ("!0", WHOLE[:, ::-1]), ("!90", np.rot90(WHOLE[:, ::-1], -1)), ("!180", WHOLE[::-1]),
    ("!270", np.rot90(WHOLE[:, ::-1])),
])
def test_rotations(ask, turn, due):
    """Level 2 has turns by 90 degrees, clockwise and after mirroring."""
    assert np.array_equal(ask.image(f"/photo/full/max/{turn}/default.png"), due)
    assert np.array_equal(ask.image(f"/photo/20,30,40,50/max/{turn}/gray.png").shape, [40, 50] if "90" in turn or "270" in turn
                          else [50, 40])


@pytest.mark.parametrize("path, due", [
    ("0,0,201,150/201,/0/color.png", "full/max/0/default.png"), ("0,0,999,999/max/360/default.jpg", "full/max/0/default.jpg"),
    ("0,0,100,100/^200,/0/default.png", "0,0,100,100/^200,200/0/default.png"),
    ("square/pct:50/!90/gray.jpg", "25,0,150,150/75,75/!90/gray.jpg"), ("pct:0,0,50,50/,25/270.0/default.png",
     "0,0,101,75/34,25/270/default.png"), ("full/!100,100/0/bitonal.png", "full/100,75/0/bitonal.png"),
    ("full/^max/0/default.png", "full/^max/0/default.png"), ("full/^1000,746/0/default.png", "full/^max/0/default.png"),
    ("full/^201,150/0/default.png", "full/max/0/default.png"),
])
def test_canonical_addresses(ask, path, due):
    _, headers, body = ask(f"/photo/{path}")
    assert headers["Link"] == (f'<http://host/photo/{due}>;rel="canonical", '
                               '<http://iiif.io/api/image/3/level2.json>;rel="profile"')
    again = ask(f"/photo/{due}")
    assert again[2] == body and again[1]["ETag"] == headers["ETag"]


def test_a_grey_image_has_one_quality(ask):
    for quality in ("default", "color", "gray"):
        assert "/page/full/max/0/default.png>" in ask(f"/page/full/max/0/{quality}.png")[1]["Link"]


def test_opacity_and_sign(ask, archive):
    Served.files["clear"] = jk.encode(np.dstack([WHOLE, WHOLE[..., 0]]), opacity="straight")
    Served.files["slice"] = jk.encode(noise((20, 30), np.int16, 13), depth=13)
    assert np.array_equal(ask.image("/clear/full/max/0/default.png"), np.dstack([WHOLE, WHOLE[..., 0]]))
    assert ask.image("/clear/full/max/0/gray.png").shape == (150, 201, 2)
    assert ask.image("/clear/full/max/0/default.jpg").shape == (150, 201, 3)
    due = (noise((20, 30), np.int16, 13).astype(int) + 4096) * 255 // 8191
    assert np.array_equal(ask.image("/slice/full/max/0/default.png"), due)


def test_methods(ask):
    assert ask("/photo/full/max/0/default.png", method="HEAD")[2] == b""
    status, headers, body = ask("/photo/info.json", method="OPTIONS")
    assert (status, headers["Access-Control-Allow-Origin"], body) == (204, "*", b"")
    for method in ("POST", "PUT", "DELETE", "TRACE"):
        status, headers, _ = ask("/photo/info.json", method=method)
        assert (status, headers["Allow"]) == (405, "GET, HEAD, OPTIONS")


def test_what_others_keep(ask):
    """Cache-Control, ETag and 304."""
    path = "/photo/full/max/0/default.png"
    status, headers, _ = ask(path)
    tag = headers["ETag"]
    assert (status, headers["Cache-Control"]) == (200, "public, max-age=600") and len(tag) == 34
    for given in (tag, f"W/{tag}", f'"other", {tag}', "*"):
        status, headers, body = ask(path, HTTP_IF_NONE_MATCH=given)
        assert (status, headers["ETag"], body) == (304, tag, b"")
        assert "Content-Length" not in headers and "Content-Type" not in headers and "Cache-Control" in headers
    assert ask(path, HTTP_IF_NONE_MATCH='"other"')[0] == 200
    assert ask(path, HTTP_IF_NONE_MATCH=tag, method="HEAD")[0] == 304
    paths = path.replace("png", "jpg"), path.replace("/0/", "/90/"), path.replace("photo", "page")
    others = [ask(other)[1]["ETag"] for other in paths]
    assert len({tag, *others}) == 4
    # What isn't there any more isn't confirmed.
    assert ask("/photo/full/999,/0/default.png", HTTP_IF_NONE_MATCH="*")[0] == 400
    Served.files["photo"] = stored(noise((150, 201, 3), seed=3))
    status, headers, _ = ask(path, HTTP_IF_NONE_MATCH=tag)
    assert status == 200 and headers["ETag"] != tag
    tag = ask("/photo/info.json")[1]["ETag"]
    assert ask("/photo/info.json", HTTP_IF_NONE_MATCH=tag)[0] == 304
    assert ask("/photo/info.json", HTTP_IF_NONE_MATCH=tag, HTTP_HOST="other")[0] == 200


@pytest.mark.parametrize("accept, is_linked", [
    ("application/ld+json", True), ("application/ld+json;profile=\"http://iiif.io/api/image/3/context.json\"", True),
    ("application/json, application/ld+json", True), ("application/json, application/ld+json;q=0.5", False),
    ("application/ld+json;q=0", False), ("*/*", False), ("text/html", False), ("application/ld+json;q=x", False), ("", False),
])
def test_json_ld_where_it_is_asked_for(ask, accept, is_linked):
    status, headers, body = ask("/photo/info.json", HTTP_ACCEPT=accept)
    due = 'application/ld+json;profile="http://iiif.io/api/image/3/context.json"' if is_linked else "application/json"
    assert (status, headers["Content-Type"], headers["Vary"]) == (200, due, "Accept")
    assert ('rel="http://www.w3.org/ns/json-ld#context"' in headers["Link"]) != is_linked
    assert json.loads(body)["profile"] == "level2"


def test_redirects_of_the_base(ask):
    for path in ("/photo", "/photo/"):
        status, headers, _ = ask(path)
        assert (status, headers["Location"]) == (303, "http://host/photo/info.json")
    below = ask("/photo", SCRIPT_NAME="/iiif", HTTP_X_FORWARDED_PROTO="https")[1]
    assert below["Location"] == "https://host/iiif/photo/info.json"
    assert ask("/none")[0] == 404


def test_the_environment(monkeypatch):
    monkeypatch.setenv("JK_ARCHIVE", "http://127.0.0.1:1")
    monkeypatch.setenv("JK_IIIF_CACHE", "3")
    monkeypatch.setenv("JK_IIIF_MAX_AGE", "7")
    made = from_environment()
    assert (made.archive.url, made.pieces.most, made.max_age) == ("http://127.0.0.1:1", 3_000_000, 7)
    monkeypatch.setenv("JK_IIIF_CACHE", "3MB")
    with pytest.raises(ValueError, match="JK_IIIF_CACHE"):
        from_environment()


def test_an_archive_that_cant_be_reached():
    assert Client("http://127.0.0.1:9")("/photo/info.json")[0] == 502


@pytest.mark.parametrize("reduce", [0, 1, 2])
def test_tiles_put_together_are_the_image(ask, archive, reduce):
    """As OpenSeadragon asks: tiles of 64 by 64 at a scale factor, cut at the edge."""
    step, tile = 2 ** reduce, 64 * 2 ** reduce
    due = jk.read(archive.file("photo"), reduce=reduce)
    seen = np.zeros_like(due)
    for y in range(0, 150, tile):
        for x in range(0, 201, tile):
            width, height = min(tile, 201 - x), min(tile, 150 - y)
            size = f"{-(-width // step)},{-(-height // step)}"
            part = ask.image(f"/photo/{x},{y},{width},{height}/{size}/0/default.png")
            seen[y // step:y // step + part.shape[0], x // step:x // step + part.shape[1]] = part
    assert np.array_equal(seen, due)
