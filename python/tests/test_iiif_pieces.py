"""Decoded samples that the IIIF server keeps: what is decoded how often, and that no sample is that of another image."""
import os
import random
import re
import subprocess
import threading
import time
from collections import deque

import jk
import numpy as np
import pytest
from conftest import Served, noise, stored

pytest.importorskip("PIL")
from jk import _pieces, iiif  # noqa: E402
from jk._pieces import Pieces, pieces_of  # noqa: E402
from test_iiif import Client  # noqa: E402

#: The released program, for tests over `jk serve` itself.
PROGRAM = os.path.join(os.path.dirname(os.path.realpath(__file__)), "..", "..", "dist", "x86_64-linux", "jk")
SIDE, TILE = 1024, 512


class Stub:
    """An image whose samples say where they are; it counts what is decoded."""

    def __init__(self, name="image", reduce=0, size=(8192, 8192), file=b"file"):
        self.image, self.reduce, self.size, self.bytes = (name, b"stamp"), reduce, size, file
        self.asked, self.boxes = 0, []

    def file(self, box):
        self.asked += 1
        return self.bytes

    def decoded(self, file, box):
        self.boxes.append(box)
        left, upper, right, lower = box
        x, y = np.arange(left, right), np.arange(upper, lower)[:, None]
        return (x // 16 + y // 16 * 7).astype(np.uint8)


def tile(column, row):
    return TILE * column, TILE * row, TILE * (column + 1), TILE * (row + 1)


def is_right(samples, box):
    return np.array_equal(samples, Stub().decoded(b"", box))


# What is decoded.

def test_a_neighbour_is_decoded_with_its_piece():
    pieces, image = Pieces(64_000_000), Stub()
    for place in [(2, 2), (3, 2), (2, 3), (3, 3), (3, 3), (4, 2), (5, 3)]:
        assert is_right(pieces.samples(image, tile(*place)), tile(*place))
    assert image.boxes == [tile(2, 2), (1024, 1024, 2048, 2048), (2048, 1024, 3072, 2048)]


def test_tiles_that_are_apart_are_decoded_alone():
    pieces, image = Pieces(64_000_000), Stub()
    places = [(column, row) for column in range(0, 16, 4) for row in range(0, 16, 4)]
    for place in places:
        assert is_right(pieces.samples(image, tile(*place)), tile(*place))
    assert image.boxes == [tile(*place) for place in places]
    # Neither are tiles of another image, of other places and of the reduction after the next one.
    for other, place in [(Stub("other"), (13, 12)), (Stub(reduce=1), (5, 5)), (Stub(reduce=2), (3, 3))]:
        pieces.samples(other, tile(*place))
        assert other.boxes == [tile(*place)]


def test_a_tile_of_the_next_reduction_is_decoded_with_its_piece():
    for reduce, place in [(1, (3, 3)), (3, (0, 1)), (3, (1, 0))]:
        pieces = Pieces(64_000_000)
        pieces.samples(Stub(reduce=2), tile(1, 1))
        zoomed = Stub(reduce=reduce)
        is_same = (reduce, place) == (1, (3, 3))
        assert is_right(pieces.samples(zoomed, tile(*place)), tile(*place))
        assert zoomed.boxes == [(1024, 1024, 2048, 2048) if is_same else tile(*place)]
    pieces = Pieces(64_000_000)
    pieces.samples(Stub(reduce=2), tile(5, 3))
    coarse = Stub(reduce=3)
    pieces.samples(coarse, tile(2, 1))
    assert coarse.boxes == [(1024, 0, 2048, 1024)]


def test_reductions_are_told_apart():
    pieces = Pieces(64_000_000)
    for reduce in range(3):
        image = Stub(reduce=reduce)
        pieces.samples(image, tile(0, 0))
        pieces.samples(image, tile(1, 0))
        assert sum(box[2] for box in image.boxes) >= 1024


def test_what_pieces_cost_for_nothing_is_bounded():
    """Pairs of neighbours, each pair in pieces of its own: the second tile of a pair is in no kept piece."""
    pieces, image = Pieces(64_000_000), Stub(size=(1 << 21, 1 << 21))
    for number in range(300):
        pieces.samples(image, tile(10 * number + 1, 0))
        pieces.samples(image, tile(10 * number + 2, 0))
    alone = sum(_pieces.cost(box) for box in [tile(1, 0)] * 600)
    assert sum(map(_pieces.cost, image.boxes)) < 1.08 * alone
    assert sum(box[2] - box[0] == SIDE for box in image.boxes) >= 2
    # A viewer that comes then is served by pieces again, once it has been there for some tiles.
    before = len(image.boxes)
    for row in range(20, 40):
        for column in range(20):
            pieces.samples(image, tile(column, row))
    assert len(image.boxes) - before < 170


def test_regions_of_several_pieces():
    pieces, image = Pieces(64_000_000), Stub(size=(2000, 1500))
    pieces._balance = 1e9
    across = (900, 900, 1100, 1100)
    assert is_right(pieces.samples(image, across), across)
    for box in [(0, 0, 512, 512), (512, 0, 1024, 512), (1024, 0, 1536, 512), (1024, 512, 1536, 1024), (1024, 1024, 1536, 1500),
                (512, 1024, 1024, 1500), (0, 512, 512, 1024)]:
        assert is_right(pieces.samples(image, box), box)
    decoded = len(image.boxes)
    for box in [(900, 901, 1101, 1100), (1000, 10, 1999, 1020), (0, 0, 2000, 1500)]:
        assert is_right(pieces.samples(image, box), box)
    assert len(image.boxes) == decoded
    assert pieces_of((900, 900, 1100, 1100), image.size, SIDE) == [
        (0, 0, 1024, 1024), (1024, 0, 2000, 1024), (0, 1024, 1024, 1500), (1024, 1024, 2000, 1500)]


def test_memory_is_bounded():
    chance = random.Random(1)
    pieces, image = Pieces(3_000_000), Stub()
    for _ in range(300):
        place = chance.randrange(6), chance.randrange(6)
        assert is_right(pieces.samples(image, tile(*place)), tile(*place))
        held = sum(entry.value.nbytes for entry in pieces._held.entries.values())
        assert pieces.kept == held <= 3_000_000
    assert pieces.kept > 1_000_000 and pieces._held.most == 1_500_000
    large = (0, 0, 4096, 1024)
    pieces.samples(image, large)
    assert (image.image, (0, large)) not in pieces._held.entries
    pieces.forget("other")
    assert pieces.kept
    pieces.forget("image")
    assert pieces.kept == 0 and not pieces._held.entries


def test_nothing_is_kept():
    pieces, image = Pieces(0), Stub()
    for _ in range(3):
        assert is_right(pieces.samples(image, tile(1, 1)), tile(1, 1))
    assert image.boxes == [tile(1, 1)] * 3 and pieces.kept == 0


def test_samples_cant_be_written():
    samples = Pieces(64_000_000).samples(Stub(), tile(0, 0))
    with pytest.raises(ValueError):
        samples[0, 0] = 1


# Threads.

class Slow(Stub):
    """One whose decoding waits until it is let go."""

    def __init__(self, **parameters):
        super().__init__(**parameters)
        self.begun, self.go = threading.Event(), threading.Event()

    def decoded(self, file, box):
        self.begun.set()
        assert self.go.wait(20)
        return super().decoded(file, box)


def in_threads(count, act):
    """What a call gives in so many threads, or raises."""
    given = [None] * count

    def run(number):
        try:
            given[number] = act(number)
        except Exception as error:
            given[number] = error
    threads = [threading.Thread(target=run, args=(number,)) for number in range(count)]
    for thread in threads:
        thread.start()
    return threads, given


def wait_for(pieces, count):
    """Waits until so many requests have come."""
    end = time.monotonic() + 20
    while len(pieces._recent) < count and time.monotonic() < end:
        time.sleep(0.001)
    assert len(pieces._recent) == count


def test_threads_that_ask_for_one_piece_decode_it_once():
    pieces, image = Pieces(64_000_000), Slow()
    pieces._recent = deque()
    image.go.set()
    pieces.samples(image, tile(0, 0))
    image.go.clear()
    image.begun.clear()
    threads, given = in_threads(8, lambda number: pieces.samples(image, tile(number % 2, 1)))
    assert image.begun.wait(20)
    wait_for(pieces, 9)
    image.go.set()
    for thread in threads:
        thread.join(20)
    assert all(is_right(samples, tile(number % 2, 1)) for number, samples in enumerate(given))
    assert image.boxes == [tile(0, 0), (0, 0, 1024, 1024)]


def test_an_error_reaches_each_thread_and_isnt_kept():
    pieces, image = Pieces(64_000_000), Slow()
    pieces._recent = deque()
    wrong = [True]

    def fail(file, box):
        image.begun.set()
        assert image.go.wait(20)
        if wrong[0]:
            raise jk.Truncated("a file")
        return Stub().decoded(file, box)
    image.decoded = fail
    threads, given = in_threads(4, lambda number: pieces.samples(image, tile(0, 0)))
    assert image.begun.wait(20)
    wait_for(pieces, 4)
    image.go.set()
    for thread in threads:
        thread.join(20)
    assert [type(it) for it in given] == [jk.Truncated] * 4
    assert pieces.kept == 0 and not pieces._making
    wrong[0] = False
    assert is_right(pieces.samples(image, tile(0, 0)), tile(0, 0))


def test_many_threads():
    chance = random.Random(2)
    pieces, images = Pieces(5_000_000), [Stub(name, size=(4096, 4096)) for name in "ab"]
    walks = [[(chance.randrange(8), chance.randrange(8)) for _ in range(150)] for _ in range(8)]

    def walk(number):
        return all(is_right(pieces.samples(images[number % 2], tile(*place)), tile(*place)) for place in walks[number])
    threads, given = in_threads(8, walk)
    for thread in threads:
        thread.join(60)
    assert given == [True] * 8
    assert pieces.kept == sum(entry.size for entry in pieces._held.entries.values()) <= 5_000_000 and not pieces._making


# An image that changes.

def test_a_file_is_compared_again_after_a_while(monkeypatch):
    now = [1000.0]
    monkeypatch.setattr(_pieces.time, "monotonic", lambda: now[0])
    pieces, image = Pieces(64_000_000), Stub()
    pieces.samples(image, tile(0, 0))
    now[0] += 9
    pieces.samples(image, tile(0, 0))
    assert (image.asked, len(image.boxes)) == (1, 1)
    now[0] += 2
    pieces.samples(image, tile(0, 0))
    pieces.samples(image, tile(0, 0))
    assert (image.asked, len(image.boxes)) == (2, 1)
    now[0] += 11
    image.bytes = b"another file"
    pieces.samples(image, tile(0, 0))
    assert (image.asked, len(image.boxes)) == (3, 2)
    assert pieces.kept == TILE * TILE
    now[0] += 11

    def fail(box):
        raise jk.Shelf("image")
    image.file = fail
    with pytest.raises(jk.Shelf):
        pieces.samples(image, tile(0, 0))
    assert pieces.kept == 0


WHOLE = noise((300, 400, 3), seed=5)
OTHER = noise((300, 400, 3), seed=6)
SCAN, AGAIN = stored(WHOLE), stored(OTHER)
PLACES = [(x, y, min(64, 400 - x), min(64, 300 - y)) for y in range(0, 300, 64) for x in range(0, 400, 64)]


def region(samples, place):
    x, y, width, height = place
    return samples[y:y + height, x:x + width]


def seen_tile(ask, name, place):
    x, y, width, height = place
    return ask.image(f"/{name}/{x},{y},{width},{height}/max/0/default.png")


def shows(ask, name, samples, places=PLACES):
    return all(np.array_equal(seen_tile(ask, name, place), region(samples, place)) for place in places)


@pytest.fixture
def ask(archive):
    """An archive of an image of 300 by 400, whose tiles are 64 by 64 and whose pieces are 128 by 128."""
    Served.files = {"scan": SCAN}
    client = Client(archive.url)
    client.application.pieces = Pieces(64_000_000, 128)
    return client


def count_decoded(monkeypatch):
    windows = []

    def read(file, **parameters):
        windows.append(parameters["window"])
        return jk.read(file, **parameters)
    monkeypatch.setattr(iiif, "read", read)
    return windows


def test_tiles_of_a_view_are_slices(ask, monkeypatch):
    windows = count_decoded(monkeypatch)
    assert shows(ask, "scan", WHOLE)
    assert len(PLACES) == 35 and len(windows) == 13
    assert shows(ask, "scan", WHOLE) and len(windows) == 13


def test_answers_are_kept(monkeypatch):
    """Also where the samples of which they were made aren't any more."""
    now = [1000.0]
    monkeypatch.setattr(_pieces.time, "monotonic", lambda: now[0])
    pieces, image, written = Pieces(1_500_000), Stub(), []

    def answer(place, source=image):
        def write(samples):
            assert is_right(samples, tile(*place))
            written.append(place)
            return b"answer %d %d" % place
        assert pieces.answer(source, tile(*place), f"tag {place}", write) == b"answer %d %d" % place
    places = [(2 * column, 0) for column in range(6)]
    for place in places * 2:
        answer(place)
    assert written == places and len(image.boxes) == 6 and pieces.kept <= 1_500_000
    # After a while the file of the region is compared, and where it is another one the answer is made anew.
    now[0] += 11
    asked = image.asked
    answer((0, 0))
    answer((0, 0))
    assert written == places and (image.asked, len(image.boxes)) == (asked + 1, 6)
    now[0] += 11
    image.bytes = b"another file"
    answer((0, 0))
    assert written == [*places, (0, 0)] and len(image.boxes) == 7
    other = Stub()
    other.image = ("image", b"another stamp")
    answer((0, 0), other)
    assert written == [*places, (0, 0), (0, 0)]
    pieces.forget("image")
    assert pieces.kept == 0


def test_answers_that_were_made_ahead_count_for_pieces():
    """Samples are dropped at once here: a walk lives by the answers that are made of a piece."""
    pieces, image = Pieces(64_000_000), Stub()
    pieces._held = _pieces.Kept(0)

    def tag(box):
        return "tag %d %d" % box[:2]

    def neighbours(whole):
        for y in range(whole[1], whole[3], TILE):
            for x in range(whole[0], whole[2], TILE):
                box = (x, y, x + TILE, y + TILE)
                yield tag(box), box, lambda samples, box=box: is_right(samples, box) and b"%d %d" % box[:2]
    for row in range(16):
        for column in range(16):
            box = tile(column, row)
            assert pieces.answer(image, box, tag(box), lambda samples: b"%d %d" % box[:2], neighbours) == b"%d %d" % box[:2]
    singles = [box for box in image.boxes if box[2] - box[0] == TILE]
    # The balance lasts for one piece at first, and a new row of pieces begins without a neighbour among the last eight.
    assert len(image.boxes) - len(singles) == 64 and len(singles) < 32, singles


@pytest.mark.parametrize("reduce", [0, 1])
@pytest.mark.parametrize("form, is_kept", [("jpg", True), ("png", False)])
def test_the_neighbours_of_a_tile_are_written_with_it(ask, monkeypatch, form, is_kept, reduce):
    """Where their files are small; they are those that are made of each tile alone."""
    plain = Client(ask.application.archive.url)
    plain.application.pieces = Pieces(0)
    step = 1 << reduce
    places = [(x, y, min(64, 400 // step - x), min(64, 300 // step - y)) for y in range(0, 300 // step, 64)
              for x in range(0, 400 // step, 64)]

    def get(client, place):
        x, y, width, height = (step * it for it in place)
        status, _, body = client(f"/scan/{x},{y},{width},{height}/{place[2]},{place[3]}/!90/gray.{form}")
        assert status == 200
        return body
    # The second tile is decoded with its piece, and so are the two below.
    for place in places[:2]:
        assert get(ask, place) == get(plain, place)
    ask.application.pieces._held.forget("scan")
    windows = count_decoded(monkeypatch)
    below = [place for place in places if place[1] == 64][:2]
    written = [get(ask, place) for place in below]
    assert (windows == []) == is_kept
    monkeypatch.undo()
    assert written == [get(plain, place) for place in below]
    assert all(get(ask, place) == get(plain, place) for place in places)
    # Scaled, and between two tiles: no neighbours are written.
    before = len(ask.application.pieces._answers.entries)
    for path in ("128,128,64,64/32,32/0/default.jpg", "136,136,64,64/64,64/0/default.jpg", "256,64,64,64/64,63/0/default.jpg"):
        assert ask(f"/scan/{path}")[0] == 200
    assert len(ask.application.pieces._answers.entries) == before + 3


@pytest.mark.parametrize("cache", [0, 100_000, 64_000_000])
def test_tiles_at_random_are_those_of_the_image(ask, cache):
    """In PNG each sample is that of the file, whatever is kept."""
    ask.application.pieces = Pieces(cache, 128)
    chance = random.Random(cache)
    wholes = [jk.read(Served.files["scan"], reduce=reduce) for reduce in range(3)]
    for _ in range(80):
        reduce = chance.randrange(3)
        due = wholes[reduce]
        height, width = due.shape[:2]
        x, y = (chance.randrange(side // 8) * 8 for side in (width, height))
        across, down = min(chance.choice((8, 64, 100)), width - x), min(chance.choice((8, 64, 100)), height - y)
        step = 1 << reduce
        place = f"{x * step},{y * step},{min(across * step, 400 - x * step)},{min(down * step, 300 - y * step)}"
        assert np.array_equal(ask.image(f"/scan/{place}/{across},{down}/0/default.png"), due[y:y + down, x:x + across])


def test_a_replaced_image_is_seen_at_once(ask):
    assert shows(ask, "scan", WHOLE)
    Served.files["scan"] = AGAIN
    assert shows(ask, "scan", OTHER)
    # Of another size, with other levels.
    Served.files["scan"] = jk.encode(OTHER[:200, :100], levels=2)
    assert ask("/scan/info.json")[2].count(b'"width": 100,') == 2
    assert ask("/scan/0,250,64,50/max/0/default.png")[0] == 400
    assert np.array_equal(ask.image("/scan/full/max/0/default.png"), OTHER[:200, :100])
    Served.files["scan"] = SCAN
    assert shows(ask, "scan", WHOLE)


def test_what_was_kept_of_a_replaced_image_is_dropped(ask):
    assert shows(ask, "scan", WHOLE) and ask.application.pieces.kept > 0
    Served.files["scan"] = AGAIN
    assert ask("/scan/info.json")[0] == 200 and ask.application.pieces.kept == 0


def test_an_image_that_changes_while_a_region_is_decoded(ask, monkeypatch):
    """Samples of the old one that are kept after the new one was seen are no samples of the new one."""
    changes = [AGAIN]

    def read(file, **parameters):
        samples = jk.read(file, **parameters)
        if changes:
            Served.files["scan"] = changes.pop()
            assert ask("/scan/info.json")[0] == 200
        return samples
    monkeypatch.setattr(iiif, "read", read)
    assert np.array_equal(seen_tile(ask, "scan", PLACES[0]), region(WHOLE, PLACES[0]))
    assert shows(ask, "scan", OTHER)


def test_a_name_that_was_taken_away_and_given_again(ask):
    assert shows(ask, "scan", WHOLE)
    del Served.files["scan"]
    assert [ask(f"/scan/{path}")[0] for path in ("info.json", "0,0,64,64/max/0/default.png")] == [404, 404]
    assert ask.application.pieces.kept == 0
    Served.files["scan"] = AGAIN
    assert shows(ask, "scan", OTHER)


def test_an_image_that_cant_be_read_any_more(ask, monkeypatch):
    assert shows(ask, "scan", WHOLE)
    get = ask.application.archive.get

    def broken(path):
        if path.startswith("/images/scan"):
            raise jk.Shelf(path)
        return get(path)
    monkeypatch.setattr(ask.application.archive, "get", broken)
    assert ask("/scan/0,0,64,64/max/0/default.png")[0] == 502
    assert ask.application.pieces.kept == 0 and not ask.application.known


@pytest.mark.parametrize("fault", [None, jk.BadWindow, jk.Shelf])
def test_an_image_that_changes_while_a_region_is_fetched(ask, monkeypatch, fault):
    """What was fetched isn't taken for the image that it was before, nor kept as one."""
    cut, changes = ask.application.archive.cut, [AGAIN]

    def cut_late(*words):
        if changes:
            Served.files["scan"] = changes.pop()
            if fault:
                raise fault("scan")
        return cut(*words)
    ask.image("/scan/64,64,64,64/max/0/default.png")
    monkeypatch.setattr(ask.application.archive, "cut", cut_late)
    assert shows(ask, "scan", OTHER)
    Served.files["scan"] = SCAN
    assert shows(ask, "scan", WHOLE)


def test_an_image_that_never_stops_changing(ask, monkeypatch):
    cut, seeds = ask.application.archive.cut, iter(range(100, 200))

    def cut_late(*words):
        Served.files["scan"] = stored(noise((300, 400, 3), seed=next(seeds)))
        return cut(*words)
    monkeypatch.setattr(ask.application.archive, "cut", cut_late)
    assert ask("/scan/0,0,64,64/max/0/default.png")[0] == 503


def test_a_change_that_the_lowest_resolution_doesnt_show(ask, monkeypatch):
    """One sample differs by 1, and the lowest resolution is the same: the file of the piece tells, after a while."""
    lowest = jk.cut(Served.files["scan"], (0, 0, 512, 512), 5)
    for at in range(400):
        changed = WHOLE.copy()
        changed[200, at, 1] ^= 1
        file = stored(changed)
        if jk.cut(file, (0, 0, 512, 512), 5) == lowest:
            break
    else:
        pytest.fail("each change shows")
    assert shows(ask, "scan", WHOLE)
    Served.files["scan"] = file
    now = time.monotonic()
    monkeypatch.setattr(_pieces.time, "monotonic", lambda: now + _pieces.RECHECK)
    assert shows(ask, "scan", changed)


# Over jk serve itself.

class Program:
    """`jk serve` of the release over a folder."""

    def __init__(self, folder, port=0):
        self.child = subprocess.Popen([PROGRAM, "serve", str(folder), "--port", str(port), "--workers", "4"],
                                      stdin=subprocess.DEVNULL, stderr=subprocess.PIPE, text=True)
        self.port = int(re.search(r"127\.0\.0\.1:(\d+)/", self.child.stderr.readline())[1])

    def end(self):
        self.child.terminate()
        self.child.communicate()


@pytest.mark.skipif(not os.access(PROGRAM, os.X_OK), reason="the released program isn't there")
def test_files_that_change_behind_jk_serve(tmp_path):
    """A file is replaced while jk serve runs, and before it starts again; one is taken away, and another one has its name."""
    (tmp_path / "scan.jp2").write_bytes(SCAN)
    (tmp_path / "page.jp2").write_bytes(AGAIN)
    server = Program(tmp_path)
    try:
        ask = Client(f"http://127.0.0.1:{server.port}")
        ask.application.pieces = Pieces(64_000_000, 128)
        assert shows(ask, "scan", WHOLE) and shows(ask, "page", OTHER)
        tag = ask("/scan/full/max/0/default.png")[1]["ETag"]
        (tmp_path / "scan.jp2").write_bytes(stored(noise((300, 400, 3), seed=7)))
        # The server finds that the file isn't the one that it listed, and what was kept of it isn't shown either.
        for path in ("0,0,64,64/max/0/default.png", "64,64,64,64/max/0/default.png", "info.json"):
            assert ask(f"/scan/{path}")[0] == 502
        assert ask("/scan/full/max/0/default.png", HTTP_IF_NONE_MATCH=tag)[0] == 502
        assert shows(ask, "page", OTHER)
        server.end()
        assert ask("/page/0,0,64,64/max/0/default.png")[0] == 502
        os.remove(tmp_path / "page.jp2")
        server = Program(tmp_path, server.port)
        assert shows(ask, "scan", noise((300, 400, 3), seed=7))
        assert ask("/page/0,0,64,64/max/0/default.png")[0] == 404
        server.end()
        (tmp_path / "page.jp2").write_bytes(SCAN)
        server = Program(tmp_path, server.port)
        assert shows(ask, "page", WHOLE)
        status, headers, _ = ask("/scan/full/max/0/default.png", HTTP_IF_NONE_MATCH=tag)
        assert status == 200 and headers["ETag"] != tag
    finally:
        server.end()
