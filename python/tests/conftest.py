"""What tests share: samples, and an archive behind a server in this process."""
import http.server
import threading
import urllib.parse

import jk
import numpy as np
import pytest


def noise(shape, dtype=np.uint8, depth=None, seed=1):
    top = 1 << (depth or np.dtype(dtype).itemsize * 8)
    low = -(top >> 1) if np.dtype(dtype).kind == "i" else 0
    return np.random.default_rng(seed).integers(low, low + top, shape).astype(dtype)


def stored(image, **parameters):
    return jk.encode(image, order="RPCL", precincts=[(4, 4)] * 6, **parameters)


class Served(http.server.BaseHTTPRequestHandler):
    """Replies as `jk serve` does."""

    files = {}

    def do_GET(self):
        path, _, query = self.path.partition("?")
        words = {key: int(value) for key, value in urllib.parse.parse_qsl(query)}
        _, images, *rest = path.split("/")
        body, status = b"", 200
        if rest and rest[0] not in self.files:
            status = 500 if rest[0] == "broken" else 404
        elif not rest:
            for name, file in sorted(self.files.items()):
                told = jk.info(file)
                body += f"{name} {told.width} {told.height} {told.components} {told.depth} {told.levels}\n".encode()
        elif len(rest) == 1:
            body = self.files[rest[0]]
        else:
            try:
                body = jk.cut(self.files[rest[0]], (words["x"], words["y"], words["w"], words["h"]), words["r"])
            except jk.BadWindow:
                status = 400
        self.send_response(status)
        self.send_header("Content-Length", str(len(body)))
        self.end_headers()
        self.wfile.write(body)

    def log_message(self, *words):
        pass


@pytest.fixture
def archive():
    Served.files = {
        "page": stored(noise((30, 40))),
        "photo": stored(noise((150, 201, 3), seed=2)),
        "xray": stored(noise((64, 64), np.uint16, 12), depth=12),
    }
    server = http.server.ThreadingHTTPServer(("127.0.0.1", 0), Served)
    thread = threading.Thread(target=server.serve_forever, args=(0.02,))
    thread.start()
    yield jk.Archive(f"http://127.0.0.1:{server.server_port}/")
    server.shutdown()
    thread.join()
    server.server_close()
