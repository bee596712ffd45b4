"""A look at images: `python -m jk.view ARCHIVE`, or `python -m jk.view FILE..`.

It starts `jk serve` on a free port, and before it, on this machine alone, a server of the viewer's page, which passes
what is asked of the archive on. It prints the page's address and opens it in the browser. Both servers end at Ctrl-C,
or when `jk serve` ends. Files are shown through a folder of links, which goes again.

The page is for this machine: what is asked under another name than 127.0.0.1 or localhost is refused.
"""
from __future__ import annotations

import argparse
import contextlib
import http.client
import http.server
import os
import queue
import re
import shutil
import signal
import subprocess
import sys
import tempfile
import threading
import webbrowser
from typing import Dict, List, Optional, Sequence, Tuple, cast

HERE = os.path.dirname(os.path.abspath(__file__))
REPOSITORY = os.path.dirname(os.path.dirname(os.path.dirname(HERE)))
#: Where the page may lie: in the package, and where the package lies in its repository.
PAGES = (os.path.join(HERE, "viewer"), os.path.join(REPOSITORY, "viewer"))
MODULES = (*(os.path.join(page, "jk.wasm") for page in PAGES),
           os.path.join(REPOSITORY, "dist", "x86_64-linux", "viewer", "jk.wasm"))
LEAFLET = "/usr/share/javascript/leaflet"
#: What the page may load; the same as examples/viewer.conf has it.
POLICY = "default-src 'self'; script-src 'self' 'wasm-unsafe-eval'"
TYPES = {
    ".css": "text/css", ".html": "text/html; charset=utf-8", ".js": "text/javascript", ".png": "image/png",
    ".svg": "image/svg+xml", ".wasm": "application/wasm",
}
#: How long `jk serve` has to end, in seconds.
PATIENCE = 10
#: How long a wait lasts before it is begun again. Python heeds a signal that comes right before a wait only behind it.
SOON = 0.5


class CannotShow(Exception):
    """Something that is needed isn't there; the text says what to do."""


def first_of(paths: Sequence[str], what: str) -> str:
    """The first of these paths that is there."""
    for path in paths:
        if os.path.exists(path):
            return path
    raise CannotShow(what)


def files_of_page(leaflet: str) -> Dict[str, str]:
    """The files of the page, by the paths under which they are asked for."""
    page = first_of(PAGES, "the viewer's page isn't there: the package was installed without it")
    module = first_of(MODULES, "the viewer's module jk.wasm isn't there: tools/build-wasm of the repository makes it")
    if not os.path.isfile(os.path.join(leaflet, "leaflet.css")):
        raise CannotShow(f"Leaflet isn't in {leaflet}: `apt install libjs-leaflet` puts it there, and with "
                         "--leaflet DIR the folder dist/ of Leaflet from elsewhere is taken")
    found = {f"/{name}": os.path.join(page, name) for name in os.listdir(page)}
    for at, _, names in os.walk(leaflet):
        for name in names:
            path = os.path.join(at, name)
            found[f"/leaflet/{os.path.relpath(path, leaflet)}"] = path
    found["/"], found["/jk.wasm"] = os.path.join(page, "index.html"), module
    return found


def name_of(path: str, taken: Dict[str, str]) -> str:
    """A name for a file that an archive may have and that no other has."""
    stem = re.sub(r"[^a-z0-9_-]", "-", os.path.splitext(os.path.basename(path))[0].lower())[:48] or "image"
    name, number = stem, 1
    while name in taken:
        number += 1
        name = f"{stem}-{number}"
    return name


def linked(paths: Sequence[str], folder: str) -> None:
    """Makes an archive of links to these files."""
    taken: Dict[str, str] = {}
    for path in paths:
        if not os.path.isfile(path):
            raise CannotShow(f"{path}: there is no such file")
        name = name_of(path, taken)
        taken[name] = path
        os.symlink(os.path.abspath(path), os.path.join(folder, f"{name}.jp2"))


def knows_hosts(program: str) -> bool:
    """Whether `jk serve` of this program has the option --host-names, which that of jk 0.3.2 lacks."""
    try:
        told = subprocess.run([program, "serve", "--help"], stdin=subprocess.DEVNULL, capture_output=True, timeout=SOON * 10)
    except (OSError, subprocess.TimeoutExpired):
        return False
    return b"--host-names" in told.stdout


class Served:
    """`jk serve` over a folder, how many images it has, the port that it listens at, and the files that it doesn't list,
    each with the reason. What it says goes on to standard error."""

    def __init__(self, program: str, folder: str, workers: int) -> None:
        self.workers, self.refused = workers, cast(List[Tuple[str, str]], [])
        words = [program, "serve", folder, "--port", "0", "--workers", str(workers)]
        if knows_hosts(program):
            words += ["--host-names", "127.0.0.1"]
        try:
            # Its standard input stays open, since it would end without. Ctrl-C ends this process, which ends it.
            # Bytes that are no UTF-8, as another program than jk's may tell, must not end what reads them.
            self.child = subprocess.Popen(words, stdin=subprocess.PIPE, stderr=subprocess.PIPE, encoding="utf-8",
                                          errors="backslashreplace", start_new_session=True)
        except OSError as error:
            raise CannotShow(f"{program}: {error.strerror}") from error
        self.told: queue.SimpleQueue[Optional[Tuple[int, int]]] = queue.SimpleQueue()
        try:
            threading.Thread(target=self.tell, daemon=True).start()
            self.images, self.port = self.started()
        except BaseException:
            self.end()
            raise

    def tell(self) -> None:
        """Hands on what it says, but for how many images it has and where, which is put into `told`, as its end is."""
        assert self.child.stderr is not None
        has_started = False
        for line in self.child.stderr:
            found = None if has_started else re.search(r"(\d+) images on http://127\.0\.0\.1:(\d+)/", line)
            if found:
                has_started = True
                self.told.put((int(found[1]), int(found[2])))
            else:
                refused = re.match(r"jk: (.+) isn't listed: (.+)", line)
                if refused:
                    self.refused.append((refused[1], refused[2]))
                # It is read to its end, whoever still reads what is told here: else it would wait for a reader.
                with contextlib.suppress(OSError, ValueError):
                    sys.stderr.write(line)
        self.told.put(None)

    def next_told(self) -> Optional[Tuple[int, int]]:
        while True:
            with contextlib.suppress(queue.Empty):
                return self.told.get(timeout=SOON)

    def started(self) -> Tuple[int, int]:
        found = self.next_told()
        if found is None:
            raise CannotShow(f"jk serve ended with the status {self.child.wait()}")
        return found

    def wait(self) -> int:
        """The status with which it ends."""
        self.next_told()
        return self.child.wait()

    def end(self) -> None:
        if self.child.poll() is None:
            self.child.terminate()
        try:
            self.child.wait(PATIENCE)
        except subprocess.TimeoutExpired:
            self.child.kill()
            self.child.wait()


class Asked(http.server.BaseHTTPRequestHandler):
    """What the browser asks for: a file of the page, or what the archive has."""

    protocol_version = "HTTP/1.1"
    #: A browser that asks nothing for so many seconds is left.
    timeout = 60
    server: "Page"

    def do_GET(self) -> None:
        if self.headers.get("Host") not in self.server.hosts:
            return self.reply(403, "text/plain", b"this page is for the machine that it runs on\n")
        path = self.path.partition("?")[0]
        if path == "/images" or path.startswith("/images/"):
            return self.pass_on()
        if path == "/refused":
            return self.reply(200, "text/plain; charset=utf-8", self.server.refused())
        file = self.server.files.get(path)
        if file is None:
            return self.reply(404, "text/plain", b"404 Not Found\n")
        with open(file, "rb") as opened:
            body = opened.read()
        return self.reply(200, TYPES.get(os.path.splitext(file)[1], "application/octet-stream"), body)

    do_HEAD = do_GET

    def reply(self, status: int, kind: str, body: bytes, *more: Tuple[str, str]) -> None:
        self.send_response(status)
        for name, value in more:
            self.send_header(name, value)
        self.send_header("Content-Type", kind)
        self.send_header("Content-Length", str(len(body)))
        self.send_header("Content-Security-Policy", POLICY)
        self.end_headers()
        if self.command != "HEAD":
            self.wfile.write(body)

    def pass_on(self) -> None:
        """What `jk serve` replies."""
        got = self.server.asked(self.path)
        if got is None:
            return self.reply(502, "text/plain", b"jk serve doesn't reply\n")
        # The page asks for the list of refused files where there are some.
        more = [("X-Refused", str(len(self.server.served.refused)))] if self.path == "/images" else []
        return self.reply(*got, *more)

    def log_message(self, *words: object) -> None:
        pass


class Page(http.server.ThreadingHTTPServer):
    """The server of the page, on this machine alone."""

    daemon_threads = True
    allow_reuse_address = False

    def __init__(self, port: int, files: Dict[str, str], served: Served, folder: str) -> None:
        super().__init__(("127.0.0.1", port), Asked)
        self.files, self.served, self.folder = files, served, folder
        # A thread of `jk serve` has one connection at a time: a browser's six share as many as there are threads.
        self.free: queue.LifoQueue[http.client.HTTPConnection] = queue.LifoQueue()
        for _ in range(served.workers):
            self.free.put(http.client.HTTPConnection("127.0.0.1", served.port, timeout=Asked.timeout))
        self.address = f"http://127.0.0.1:{self.server_port}/"
        self.hosts = {f"{name}:{self.server_port}" for name in ("127.0.0.1", "localhost")}

    def asked(self, path: str) -> Optional[Tuple[int, str, bytes]]:
        """What `jk serve` replies to a request: status, type and body. None: it doesn't."""
        behind = self.free.get()
        try:
            for _ in range(2):
                try:
                    behind.request("GET", path)
                    got = behind.getresponse()
                    return got.status, got.getheader("Content-Type", "text/plain"), got.read()
                except (OSError, http.client.HTTPException):
                    # `jk serve` leaves a connection on which nothing is asked for; it is opened again.
                    behind.close()
            return None
        finally:
            self.free.put(behind)

    def refused(self) -> bytes:
        """The files that aren't listed, a line each: its name, a tab and the reason. A file of a link has its own name."""
        lines = []
        for name, reason in list(self.served.refused):
            path = os.path.join(self.folder, name)
            shown = os.path.basename(os.readlink(path)) if os.path.islink(path) else name
            lines.append("\t".join(re.sub(r"[\t\r\n]", " ", text) for text in (shown, reason)) + "\n")
        return "".join(lines).encode("utf-8", "backslashreplace")

    def handle_error(self, request: object, client_address: object) -> None:
        # A browser that has gone is no fault of the page.
        if not isinstance(sys.exc_info()[1], (ConnectionError, TimeoutError)):
            super().handle_error(request, client_address)  # type: ignore[arg-type]


def program_of(asked: Optional[str]) -> str:
    """The program `jk`: what was asked for, or what is on the PATH, or the repository's own."""
    if asked:
        return asked
    found = shutil.which("jk") or shutil.which(os.path.join(REPOSITORY, "jk"))
    if found is None:
        raise CannotShow("the program jk isn't on the PATH: --jk PROGRAM says where it is")
    return found


def folder_of(paths: Sequence[str], links: str) -> str:
    """The archive that is shown: a folder that is one, or one of links to files."""
    if len(paths) == 1 and os.path.isdir(paths[0]):
        return paths[0]
    for path in paths:
        if os.path.isdir(path):
            raise CannotShow(f"{path} is a folder: one archive alone is shown, or files")
    linked(paths, links)
    return links


def show(asked: argparse.Namespace, links: str) -> int:
    """Serves the page until `jk serve` ends, whose status it gives."""
    files, program = files_of_page(asked.leaflet), program_of(asked.jk)
    folder = folder_of(asked.paths, links)
    served = Served(program, folder, asked.workers)
    try:
        if folder == links and served.images == 0:
            raise CannotShow("no image to show")
        try:
            page = Page(asked.port, files, served, folder)
        except OSError as error:
            raise CannotShow(f"port {asked.port}: {error.strerror}") from error
        with page:
            threading.Thread(target=page.serve_forever, args=(0.1,), daemon=True).start()
            try:
                print(f"{page.address}  (Ctrl-C ends it)", flush=True)
                if not asked.no_browser:
                    webbrowser.open(page.address)
                return ended(served.wait())
            finally:
                page.shutdown()
    finally:
        served.end()


def ended(status: int) -> int:
    """Says that `jk serve` has ended by itself; the status that it leaves."""
    how = f"was ended by {signal.Signals(-status).name}" if status < 0 else f"ended with the status {status}"
    with contextlib.suppress(OSError, ValueError):
        print(f"jk.view: jk serve {how}; the page ends with it", file=sys.stderr, flush=True)
    return 128 - status if status < 0 else status


def words_of(line: Optional[Sequence[str]]) -> argparse.Namespace:
    words = argparse.ArgumentParser(prog="python -m jk.view", description=(__doc__ or "").split("\n\n", 1)[1],
                                    formatter_class=argparse.RawDescriptionHelpFormatter)
    words.add_argument("paths", nargs="+", metavar="ARCHIVE or FILE",
                       help="a folder that `jk serve` takes, or JP2 files")
    words.add_argument("--port", type=int, default=0, help="the port of the page; without it a free one")
    words.add_argument("--workers", type=int, default=4, help="how many threads jk serve answers with (4)")
    words.add_argument("--no-browser", action="store_true", help="print the address and open nothing")
    words.add_argument("--leaflet", default=LEAFLET, metavar="DIR", help=f"where Leaflet is ({LEAFLET})")
    words.add_argument("--jk", metavar="PROGRAM", help="the program jk; without it the one on the PATH")
    return words.parse_args(line)


def main(line: Optional[Sequence[str]] = None) -> int:
    asked = words_of(line)
    # A request to end, or a terminal that was closed, is taken as Ctrl-C, so that nothing is left running and no folder
    # stays.
    for number in (signal.SIGTERM, signal.SIGHUP):
        # nohup has SIGHUP ignored.
        if signal.getsignal(number) != signal.SIG_IGN:
            signal.signal(number, signal.default_int_handler)
    links = tempfile.mkdtemp(prefix="jk-view-")
    try:
        return show(asked, links)
    except KeyboardInterrupt:
        return 0
    except CannotShow as error:
        print(f"jk.view: {error}", file=sys.stderr)
        return 2
    finally:
        shutil.rmtree(links, ignore_errors=True)


if __name__ == "__main__":
    sys.exit(main())
