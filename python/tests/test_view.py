"""A look at images, over a stand-in for `jk serve` that replies as the server of the other tests does."""
import contextlib
import glob
import http.client
import os
import re
import signal
import subprocess
import sys
import time

import pytest
from jk import view

# It lists the files of its folder, replies to what is asked of them with the words of the request, and ends where it
# is asked for /images/end. In a folder with a file `slow` it is long in starting, with `latin` it tells of a name that
# is no UTF-8, and no file `bad` is an image.
STAND_IN = f"""#!{sys.executable}
import http.server, os, sys, time
folder = sys.argv[2]
older = os.path.exists(sys.argv[0] + ".older")
if sys.argv[1:] == ["serve", "--help"]:
    sys.exit(print("" if older else "  --host-names NAMES"))
assert sys.argv[1] == "serve" and sys.argv[3:5] == ["--port", "0"], sys.argv
assert older != (sys.argv[-2:] == ["--host-names", "127.0.0.1"]), sys.argv

class Replies(http.server.BaseHTTPRequestHandler):
    protocol_version = "HTTP/1.1"

    def do_GET(self):
        if self.path == "/images/end":
            os._exit(3)
        names = sorted(os.listdir(folder))
        body = "".join(name + "\\n" for name in names) if self.path == "/images" else self.path
        self.send_response(404 if self.path.endswith("missing") else 200)
        self.send_header("Content-Type", "image/jp2" if self.path != "/images" else "text/plain")
        self.send_header("Content-Length", str(len(body)))
        self.end_headers()
        self.wfile.write(body.encode())

    def log_message(self, *words):
        pass

if os.path.exists(os.path.join(folder, "slow")):
    print("jk: opening", file=sys.stderr, flush=True)
    time.sleep(60)
server = http.server.ThreadingHTTPServer(("127.0.0.1", 0), Replies)
print("jk: odd.jp2 isn't listed: F2 Truncated", file=sys.stderr)
if os.path.exists(os.path.join(folder, "latin")):
    sys.stderr.buffer.write(b"jk: \\xff.jp2 isn't listed: F2 Truncated\\n")
count = sum(not name.startswith("bad") for name in os.listdir(folder))
print(f"jk: {{count}} images on http://127.0.0.1:{{server.server_port}}/images", file=sys.stderr, flush=True)
server.serve_forever()
"""


@pytest.fixture
def site(tmp_path):
    """A page, Leaflet, two files and the stand-in, and what runs them."""
    program = tmp_path / "jk"
    program.write_text(STAND_IN)
    program.chmod(0o755)
    leaflet = tmp_path / "leaflet"
    leaflet.mkdir()
    (leaflet / "leaflet.css").write_text("css of Leaflet")
    for name in ("One Page.jp2", "one_page.jp2"):
        (tmp_path / name).write_bytes(b"jp2")
    return tmp_path


def begun(site, *words, hangup=signal.SIG_DFL):
    """A look that begins."""
    room = site / "room"
    room.mkdir(exist_ok=True)
    command = [sys.executable, "-m", "jk.view", "--no-browser", "--jk", str(site / "jk"), "--leaflet",
               str(site / "leaflet"), *map(str, words)]
    # What a shell starts in the background passes over SIGINT, and what nohup starts over SIGHUP, and so would what those
    # start.
    def as_asked():
        signal.signal(signal.SIGINT, signal.SIG_DFL)
        signal.signal(signal.SIGHUP, hangup)

    return subprocess.Popen(command, stdout=subprocess.PIPE, stderr=subprocess.PIPE, text=True,
                            env={**os.environ, "TMPDIR": str(room)},
                            preexec_fn=as_asked)


class Shown:
    """`python -m jk.view`, as it runs."""

    def __init__(self, site, *words, **how):
        self.child, self.room = begun(site, *words, **how), site / "room"
        self.said = self.child.stdout.readline()
        found = re.match(r"http://127\.0\.0\.1:(\d+)/", self.said)
        self.port = int(found[1]) if found else None

    def get(self, path, host=None):
        asked = http.client.HTTPConnection("127.0.0.1", self.port, timeout=10)
        asked.request("GET", path, headers={"Host": host} if host else {})
        got = asked.getresponse()
        body = got.read()
        asked.close()
        return got.status, got.getheader("Content-Type"), body

    def end(self, number=signal.SIGINT):
        self.child.send_signal(number)
        _, told = self.child.communicate(timeout=20)
        return self.child.returncode, told


def running(site):
    """The stand-ins of this site that still run."""
    found = []
    for at in glob.glob("/proc/[0-9]*/cmdline"):
        with contextlib.suppress(OSError), open(at, "rb") as file:
            if os.fsencode(site / "jk") in file.read() and int(at.split("/")[2]) != os.getpid():
                found.append(at)
    return found


def ended(site, shown):
    """Nothing is left of it: no process, no port, no folder."""
    with pytest.raises(OSError):
        shown.get("/")
    assert running(site) == []
    assert os.listdir(shown.room) == []


def test_files_are_shown(site):
    shown = Shown(site, site / "One Page.jp2", site / "one_page.jp2", site / "One Page.jp2")
    try:
        assert shown.get("/images")[2] == b"one-page-2.jp2\none-page.jp2\none_page.jp2\n"
        status, kind, body = shown.get("/images/one-page/window?x=0&y=0&w=4&h=4&r=0")
        assert (status, kind, body) == (200, "image/jp2", b"/images/one-page/window?x=0&y=0&w=4&h=4&r=0")
        assert shown.get("/images/missing")[0] == 404
    finally:
        status, told = shown.end()
    assert status == 0
    assert told == "jk: odd.jp2 isn't listed: F2 Truncated\n"
    ended(site, shown)


def test_the_page_is_served(site):
    shown = Shown(site, site)
    try:
        status, kind, body = shown.get("/")
        assert (status, kind) == (200, "text/html; charset=utf-8") and b"<title>Images of an archive</title>" in body
        assert shown.get("/viewer.js")[:2] == (200, "text/javascript")
        assert shown.get("/leaflet/leaflet.css") == (200, "text/css", b"css of Leaflet")
        assert shown.get("/jk.wasm")[1] == "application/wasm"
        for path in ("/../setup.py", "/%2e%2e/setup.py", "/leaflet/../jk", "/nothing"):
            assert shown.get(path)[0] == 404, path
    finally:
        shown.end()
    ended(site, shown)


def test_the_parts_of_the_page_fit():
    """Modules that a script imports are there, and so are the elements that it asks for; each module is loaded ahead."""
    page = view.first_of(view.PAGES, "")
    texts = {name: open(os.path.join(page, name), encoding="utf-8").read() for name in os.listdir(page)
             if name.endswith((".js", ".html", ".css"))}
    there = set(re.findall(r'\bid="(\w+)"', texts["index.html"]))
    named = ("element\\('(\\w+)'\\)", "getElementById\\('(\\w+)'\\)")
    asked = {found for name in texts if name.endswith(".js") for pattern in named for found in re.findall(pattern, texts[name])}
    parts = re.search(r"^const BUTTONS = {(.*?)};", texts["viewer.js"], re.MULTILINE | re.DOTALL)[1].split(",")
    buttons = {part.split(":")[0].strip() for part in parts} - {""}
    assert {"map", "list", "filter", "pixel"} <= asked <= there and {"fit", "samples", "screen"} <= buttons <= there
    imported = {found for name, text in texts.items() if name.endswith(".js")
                for found in re.findall(r"^import .* from '\./([\w./]+)';$", text, re.MULTILINE) if "leaflet" not in found}
    loaded = set(re.findall(r'(?:href|src)="([\w.]+\.js)"', texts["index.html"]))
    assert imported <= set(texts) and imported - loaded <= {"jk.js", "sample.js"} and loaded <= set(texts)


def test_files_that_arent_listed_are_named(site):
    """The page gets their names and the reasons; a file that is shown through a link has its own name."""
    program = (site / "jk").read_text().replace("jk: odd.jp2 isn't", "jk: one-page.jp2 isn't")
    (site / "jk").write_text(program)
    shown = Shown(site, site / "One Page.jp2", site / "one_page.jp2")
    try:
        assert shown.get("/refused") == (200, "text/plain; charset=utf-8", b"One Page.jp2\tF2 Truncated\n")
        asked = http.client.HTTPConnection("127.0.0.1", shown.port, timeout=10)
        for path, count in (("/images", "1"), ("/images/one-page", None), ("/", None)):
            asked.request("GET", path)
            got = asked.getresponse()
            got.read()
            assert got.getheader("X-Refused") == count
        asked.close()
        assert shown.get("/refused", "example.org")[0] == 403
    finally:
        shown.end()
    ended(site, shown)


def test_files_of_which_none_is_an_image_are_told(site):
    for name in ("bad-1.jp2", "bad-2.jp2"):
        (site / name).write_bytes(b"")
    shown = Shown(site, site / "bad-1.jp2", site / "bad-2.jp2")
    _, told = shown.child.communicate(timeout=20)
    assert (shown.child.returncode, told) == (2, "jk: odd.jp2 isn't listed: F2 Truncated\njk.view: no image to show\n")
    assert running(site) == [] and os.listdir(shown.room) == []
    shown = Shown(site, site / "bad-1.jp2", site / "One Page.jp2")
    assert shown.end()[0] == 0
    ended(site, shown)


def test_more_connections_than_threads_of_the_server(site):
    """A browser has six: each is answered, though a thread of jk serve has one connection until that is closed."""
    program = (site / "jk").read_text().replace("http.server.ThreadingHTTPServer", "http.server.HTTPServer")
    (site / "jk").write_text(program)
    shown = Shown(site, site, "--workers", "1")
    asked = [http.client.HTTPConnection("127.0.0.1", shown.port, timeout=10) for _ in range(6)]
    try:
        for _ in range(3):
            for one in asked:
                one.request("GET", "/images/here")
                assert one.getresponse().read() == b"/images/here"
    finally:
        for one in asked:
            one.close()
        shown.end()


def test_other_hosts_are_refused(site):
    shown = Shown(site, site)
    try:
        for host in ("example.org", f"example.org:{shown.port}", "127.0.0.1", f"127.0.0.1:{shown.port + 1}"):
            for path in ("/", "/images", "/jk.wasm"):
                assert shown.get(path, host)[0] == 403, (host, path)
        assert shown.get("/images", f"localhost:{shown.port}")[0] == 200
    finally:
        shown.end()


def test_the_server_answers_for_this_machine_alone(site):
    shown = Shown(site, site)
    assert shown.get("/images")[0] == 200
    shown.end()
    (site / "jk.older").write_text("")
    older = Shown(site, site)
    assert older.get("/images")[0] == 200
    older.end()


def test_it_ends_when_the_server_ends(site):
    shown = Shown(site, site)
    assert shown.get("/images/end")[0] == 502
    _, told = shown.child.communicate(timeout=20)
    assert shown.child.returncode == 3 and "jk.view: jk serve ended with the status 3" in told
    ended(site, shown)


def test_it_ends_when_the_server_is_killed(site):
    shown = Shown(site, site)
    for at in running(site):
        with open(at, "rb") as file:
            if b"\0serve\0" in file.read():
                os.kill(int(at.split("/")[2]), signal.SIGKILL)
    _, told = shown.child.communicate(timeout=20)
    assert shown.child.returncode == 137 and "jk.view: jk serve was ended by SIGKILL" in told
    ended(site, shown)


def test_under_nohup_a_closed_terminal_ends_nothing(site):
    shown = Shown(site, site, hangup=signal.SIG_IGN)
    shown.child.send_signal(signal.SIGHUP)
    assert shown.get("/images")[0] == 200
    assert shown.end()[0] == 0
    ended(site, shown)


def test_bytes_that_are_no_utf_8_are_told(site):
    (site / "latin").touch()
    shown = Shown(site, site)
    assert shown.get("/images/end")[0] == 502
    _, told = shown.child.communicate(timeout=20)
    assert shown.child.returncode == 3 and "jk: \\xff.jp2 isn't listed: F2 Truncated\n" in told
    ended(site, shown)


def test_what_it_says_need_not_be_read(site):
    shown = Shown(site, site)
    shown.child.stderr.close()
    assert shown.get("/images/end")[0] == 502
    shown.child.stdout.read()
    assert shown.child.wait(20) == 3
    ended(site, shown)


def test_it_ends_when_it_is_asked_to(site):
    for number in (signal.SIGINT, signal.SIGTERM, signal.SIGHUP):
        for wait in (0, 0.05, 0.3):
            shown = Shown(site, site)
            time.sleep(wait)
            assert shown.end(number)[0] == 0
            ended(site, shown)


def test_it_ends_while_the_server_starts(site):
    (site / "slow").touch()
    for number in (signal.SIGINT, signal.SIGTERM, signal.SIGHUP):
        child = begun(site, site)
        assert child.stderr.readline() == "jk: opening\n"
        child.send_signal(number)
        child.communicate(timeout=20)
        assert child.returncode == 0
        assert running(site) == [] and os.listdir(site / "room") == []


@pytest.mark.parametrize("words, told", [
    (["absent.jp2"], "jk.view: absent.jp2: there is no such file\n"),
    (["One Page.jp2", "."], "jk.view: . is a folder: one archive alone is shown, or files\n"),
    ([".", "--leaflet", "/nowhere"], "jk.view: Leaflet isn't in /nowhere: "),
    ([".", "--jk", "/nowhere"], "jk.view: /nowhere: No such file or directory\n"),
])
def test_what_cant_be_shown_is_told(site, words, told):
    shown = Shown(site, *[str(site / word) if word[:3] in ("One",) else word for word in words])
    _, said = shown.child.communicate(timeout=20)
    assert shown.child.returncode == 2 and said.startswith(told), said
    assert os.listdir(shown.room) == [] and running(site) == []
