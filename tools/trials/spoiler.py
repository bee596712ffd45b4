#!/usr/bin/env python3
"""A stand-in for `jk` with a fault: a part of tools/trials/opens, which must tell each of them.

It runs the program that SPOILT_JK names. SPOILT_BY names the fault, of which `none` is none. Of `serve` it stands between the
clients and the server, connection by connection, and changes replies, lines or the end; of `add` what has been done.
"""
import os
import re
import signal
import socket
import subprocess
import sys
import threading
import time
import zlib

JK, FAULT = os.environ.get("SPOILT_JK"), os.environ.get("SPOILT_BY")
REFUSED = {404: b"404 Not Found\n", 500: b"500 Internal Server Error\n"}


def is_one_of(name, many):
    """Whether a name is one of those, one in so many, that have the fault."""
    return zlib.crc32(name.encode()) % many == 0


def is_hidden(names):
    """Whether this is the name of an image, if there is one, that isn't shown."""
    return any("-stays-" in name and is_one_of(name, 8) for name in names)


class Upstream:
    """A connection to the server."""

    def __init__(self, port):
        self.stream = socket.create_connection(("127.0.0.1", port))
        self.file = self.stream.makefile("rb")

    def reply(self, request):
        """The status, the fields and the body of a reply; none where it closes."""
        self.stream.sendall(request)
        head = b""
        while not head.endswith(b"\r\n\r\n"):
            if not (line := self.file.readline()):
                return None
            head += line
        length = int(re.search(rb"Content-Length: (\d+)", head)[1])
        return int(head.split()[1]), head, self.file.read(length)

    def close(self):
        self.file.close()
        self.stream.close()


def text_of(status, head, body):
    """A reply with another status or body."""
    head = re.sub(rb"^(HTTP/1.1) [^\r]*", lambda found: found[1] + b" %d Other" % status, head)
    return re.sub(rb"Content-Length: \d+", b"Content-Length: %d" % len(body), head) + body


class Between:
    """What stands before a server, and what it keeps."""

    def __init__(self, port):
        self.port, self.listener = port, socket.create_server(("127.0.0.1", 0), backlog=128)
        self.lock, self.count, self.lists, self.files, self.is_full = threading.Lock(), 0, [], {}, False
        threading.Thread(target=self.accept, daemon=True).start()

    def accept(self):
        while True:
            client, _ = self.listener.accept()
            threading.Thread(target=self.attend, args=(client,), daemon=True).start()

    def attend(self, client):
        try:
            upstream = Upstream(self.port)
            requests = client.makefile("rb")
            while request := self.request(requests):
                reply = upstream.reply(request)
                text = reply and self.spoilt(upstream, request.split()[1].decode(), *reply)
                if not text:
                    break
                client.sendall(text)
                is_cut = FAULT == "cut-off" and len(text) < len(reply[2])
                if is_cut or b"Connection: close" in request or b"Connection: close" in reply[1]:
                    break
            upstream.close()
        except OSError:
            pass
        # The file that reads from it keeps it open otherwise.
        try:
            client.shutdown(socket.SHUT_RDWR)
        except OSError:
            pass
        client.close()

    def request(self, requests):
        head = b""
        while not head.endswith(b"\r\n\r\n"):
            if not (line := requests.readline()):
                return b""
            head += line
        return head

    def is_turn(self, many):
        with self.lock:
            self.count += 1
            return self.count % many == 0

    def spoilt(self, upstream, target, status, head, body):
        """The reply with the fault, if it is one that has it; none where the connection is closed."""
        if FAULT == "never" and is_hidden(target.split("?")[0].split("/")[2:3]):
            status, body = 404, REFUSED[404]
        elif target == "/images" and status == 200:
            body = self.spoilt_list(upstream, body)
        elif FAULT == "absent" and status == 200 and self.is_turn(20):
            status, body = 404, REFUSED[404]
        elif FAULT == "failing" and status == 200 and self.is_turn(20):
            status, body = 500, REFUSED[500]
        elif FAULT == "bad-view" and status == 400:
            status = 200
        elif FAULT in ("file", "window") and status == 200 and ("?" in target) == (FAULT == "window") and self.is_turn(5):
            body = body[:-1] + bytes([body[-1] ^ 1])
        elif FAULT == "stale" and target in self.files:
            status, body = 200, self.files[target]
        elif FAULT in ("cut-off", "no-reply") and status == 200 and self.is_turn(50):
            return text_of(status, head, body)[:-1 - len(body) // 2] if FAULT == "cut-off" else None
        return text_of(status, head, body)

    def spoilt_list(self, upstream, body):
        lines = body.splitlines(True)
        if FAULT == "unlisted" and self.is_turn(9):
            lines = lines[:-1]
        elif FAULT == "line":
            lines = [line.replace(b" 300 301 ", b" 300 302 ") for line in lines]
        elif FAULT in ("unlisted-for-ever", "never"):
            lines = [line for line in lines if not is_hidden([line.split()[0].decode()])]
        elif FAULT == "beyond" and self.is_full:
            lines.append(b"d-9 17 16 1 8 5\n")
        elif FAULT == "late":
            with self.lock:
                self.lists.append((time.monotonic(), lines))
                old = [it for moment, it in self.lists if moment < time.monotonic() - 3]
                lines = old[-1] if old else self.lists[0][1]
        elif FAULT == "stale":
            for line in lines:
                target = f"/images/{line.split()[0].decode()}"
                if "-replaced-" in target and target not in self.files:
                    status, _, file = upstream.reply(f"GET {target} HTTP/1.1\r\n\r\n".encode())
                    if status == 200:
                        self.files[target] = file
        return b"".join(lines)


def spoilt_line(line):
    """A line of standard error, none or more of them."""
    found = re.match(r"jk: (\S+)\.jp2 isn't listed: ", line)
    if found and "-cut-" in line:
        if FAULT == "untold":
            return ""
        if FAULT == "told-twice":
            return line + line
        if FAULT == "told-otherwise":
            return found[0] + "for no cause\n"
    if FAULT == "opened-twice" and "all files are opened" in line:
        return line + line
    if FAULT == "untold-full" and "files more aren't listed" in line:
        return ""
    if FAULT == "words" and "all files are opened" in line:
        return line + "other words\n"
    if FAULT == "connections":
        return re.sub(r"served (\d+) connections", lambda it: f"served {int(it[1]) + 1} connections", line)
    return line


def spoilt_answer(line):
    """An answer to the operator."""
    if FAULT == "answer":
        return re.sub(r"^added (\S+)$", r"refused \1 F20 Shelf", line)
    return line.replace("refused c F7 Limit", "added c") if FAULT == "more" else line


def follow(lines, out, spoil):
    """Passes lines on with their fault."""
    between = None
    for line in lines:
        found = re.search(r"http://127\.0\.0\.1:(\d+)/images", line)
        if found:
            between = Between(int(found[1]))
            line = line.replace(f":{found[1]}/", f":{between.listener.getsockname()[1]}/")
        if between and "files more aren't listed" in line:
            between.is_full = True
        try:
            out.write(spoil(line))
            out.flush()
        except OSError:
            pass


def spoil_folder(folder):
    """What is done to a folder where its server is ended by a signal."""
    names = sorted(name for name in os.listdir(folder) if name.endswith(".jp2"))
    if FAULT == "harm":
        os.remove(os.path.join(folder, names[0]))
    elif FAULT == "litter":
        os.link(os.path.join(folder, names[0]), os.path.join(folder, f"t-{os.getpid()}.jp2"))
    elif FAULT == "forgotten":
        for name in names:
            if name.startswith("s-"):
                os.remove(os.path.join(folder, name))
    elif FAULT == "slow-end":
        time.sleep(11)


def serve(words):
    if FAULT == "unwatched" and "--watch" in words:
        at = words.index("--watch")
        words = words[:at] + words[at + 2:]
    answers = FAULT in ("answer", "more")
    child = subprocess.Popen([JK, *words], stdout=subprocess.PIPE if answers else None, stderr=subprocess.PIPE, text=True)

    ended_by = []

    def end(number, _):
        spoil_folder(words[1])
        ended_by.append(number)
        child.send_signal(number)

    for number in (signal.SIGTERM, signal.SIGINT):
        signal.signal(number, end)
    if answers:
        threading.Thread(target=follow, args=(child.stdout, sys.stdout, spoilt_answer), daemon=True).start()
    # What it says is followed to its end before this ends.
    following = threading.Thread(target=follow, args=(child.stderr, sys.stderr, spoilt_line))
    following.start()
    os.close(0)
    if not answers:
        os.close(1)
    status = child.wait()
    following.join()
    if FAULT == "stays":
        time.sleep(10 ** 6)
    if ended_by and FAULT != "deaf":
        signal.signal(ended_by[0], signal.SIG_DFL)
        os.kill(os.getpid(), ended_by[0])
    os._exit({"status": 7, "zero": 0}.get(FAULT, max(0, status)))


def main():
    words = sys.argv[1:]
    if words[0] == "serve":
        serve(words)
    if words[0] == "add" and words[2] != "--all":
        if FAULT == "lost-addition" and is_one_of(words[2], 4):
            return
        if FAULT == "taken":
            status = subprocess.run([JK, *words], stderr=subprocess.DEVNULL).returncode
            sys.exit(0 if status == 1 else status)
    os.execv(JK, [JK, *words])


if __name__ == "__main__":
    main()
