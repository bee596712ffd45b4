"""Who asks servers of an archive while others change it, and what each reply must be: a part of tools/trials/opens."""
import collections
import dataclasses
import http.client
import multiprocessing
import random
import subprocess
import time

FORK = multiprocessing.get_context("fork")
# What takes so many seconds hangs.
LONGEST = 60
# How many connections one who asks makes to a server, of few requests each.
SHARE = 800
# How often a list is asked for by who waits for new names.
EACH = 0.02
# Views that each image has.
VIEWS = ("x=0&y=0&w=8&h=8", "x=5&y=3&w=200&h=9", "x=1&y=0&w=64&h=64&r=1", "x=0&y=0&w=9999&h=9999&r=3", "x=2&y=2&w=50&h=50&layers=1")
# Views that none has.
BAD_VIEWS = ("x=0&y=0&w=0&h=8", "x=0&y=0&w=8", "x=99999&y=0&w=8&h=8", "x=0&y=0&w=8&h=8&r=9", "x=0&y=0&w=8&h=8&layers=0", "z=1")
# What is asked for that isn't an image or a list: method, target, and the status that is due.
OTHERS = (("DELETE", "/images", 405), ("GET", "/", 404), ("GET", "/images/Not%20one", 404), ("GET", "/images/no-such/window", 404))


class Kind:
    """An image: its PGM file, its JP2 file, its line in a list without a name, and its views."""

    def __init__(self, jk, path, width, height, samples, words=()):
        self.source, self.path = path + ".pgm", path + ".jp2"
        with open(self.source, "wb") as file:
            file.write(b"P5\n%d %d\n255\n" % (width, height) + samples)
        subprocess.run([jk, "encode", self.source, self.path, *words], check=True)
        with open(self.path, "rb") as file:
            self.bytes = file.read()
        self.line, self.views = f"{width} {height} 1 8 5", {}
        for view in VIEWS:
            cut = dict(pair.split("=") for pair in view.replace("r=", "reduce=").split("&"))
            options = [word for key, value in cut.items() for word in (f"--{key}", value)]
            self.views[view] = subprocess.run([jk, "cut", self.path, "-", *options], check=True, capture_output=True).stdout


@dataclasses.dataclass
class File:
    """What a file is at first and at last, of which None is no image, and the number of its change, if it has one."""
    first: Kind = None
    last: Kind = None
    change: int = None


class Changes:
    """When each change began and ended, for all processes; 0 before."""

    def __init__(self, count):
        self.begun, self.ended = FORK.Array("d", count, lock=False), FORK.Array("d", count, lock=False)

    def begin(self, number):
        self.begun[number] = time.monotonic()

    def end(self, number):
        self.ended[number] = time.monotonic()


class Asker(FORK.Process):
    """Asks servers at their ports, compares each reply with what is due, and tells in the end what it found.

    `files` has what each file may be by its name; those of `sure` are listed sooner or later."""

    def __init__(self, ports, files, sure, changes, seed):
        super().__init__(daemon=True)
        self.ports, self.files, self.sure, self.changes, self.chance = ports, files, sure, changes, random.Random(seed)
        self.lists, self.lines = {port: b"" for port in ports}, {port: {} for port in ports}
        self.first_seen = {port: {} for port in ports}
        self.statuses, self.made, self.waits, self.wrong = collections.Counter(), collections.Counter(), [], []
        self.connection, self.port, self.left, self.overslept = None, None, 0, 0
        self.is_over = FORK.Event()
        self.mine, self.theirs = FORK.Pipe()

    # What goes on in its own process.

    def run(self):
        try:
            while not self.is_over.is_set():
                self.step()
            self.end()
        except Exception as cause:
            self.fail(f"{type(cause).__name__} {cause}")
        self.leave()
        self.theirs.send((self.statuses, self.made, self.waits, self.wrong, self.first_seen, self.overslept))

    def step(self):
        raise NotImplementedError

    def end(self):
        """What is still to be asked for when nothing more comes."""

    def fail(self, words):
        if len(self.wrong) < 100:
            self.wrong.append(words)

    def leave(self):
        if self.connection:
            self.connection.close()
        self.connection = None

    def turn_to(self, port):
        """Connects to a server, if it isn't that one already, for so many requests."""
        if self.connection and self.port == port and self.left > 0:
            return
        self.leave()
        self.connection, self.port = http.client.HTTPConnection("127.0.0.1", port, timeout=LONGEST), port
        self.connection.connect()
        # Where the server closes it nobody connects again without a word.
        self.connection.auto_open = 0
        self.made[port] += 1
        self.left = self.chance.randint(1, 100) if self.made[port] < SHARE else 10000

    def reply(self, method, target):
        """The status and the body of a reply that comes whole, or status 0."""
        try:
            self.connection.request(method, target)
            answer = self.connection.getresponse()
            body = answer.read()
        except (OSError, http.client.HTTPException) as cause:
            self.fail(f"{method} {target}: no reply, or a part of it: {type(cause).__name__} {cause}")
            self.leave()
            return 0, b""
        self.statuses[answer.status] += 1
        self.left -= 1
        if answer.will_close:
            self.leave()
        if answer.getheader("Content-Length") != str(len(body)):
            self.fail(f"{target}: {len(body)} bytes, and a length of {answer.getheader('Content-Length')}")
        return answer.status, body

    def look_at_list(self, port):
        """Asks for a list, which begins with the one before and has known lines; the new names."""
        self.turn_to(port)
        status, body = self.reply("GET", "/images")
        if status != 200 or not body.startswith(self.lists[port]):
            self.fail(f"a list of status {status} doesn't begin with the one before: {len(body)} bytes, and {len(self.lists[port])}")
            return []
        now, new = time.monotonic(), []
        for text in body[len(self.lists[port]):].decode().splitlines():
            name, _, line = text.partition(" ")
            file, lines = self.files.get(name, File()), self.lines[port]
            if name in lines or line not in [kind.line for kind in self.kinds(file)]:
                self.fail(f"a list has the line {text}")
            lines[name] = line
            self.first_seen[port].setdefault(name, now)
            new.append(name)
        self.lists[port] = body
        return new

    def kinds(self, file):
        """What a file may have been until now."""
        is_changed = file.change is not None and self.changes.begun[file.change]
        return [kind for kind in (file.first, file.last if is_changed else None) if kind]

    def look_at(self, port, name, view=None):
        """Asks for an image, or for a view of it. Its status."""
        self.turn_to(port)
        sent = time.monotonic()
        target = f"/images/{name}" + (f"/window?{view}" if view else "")
        status, body = self.reply("GET", target)
        if status and not self.is_due(port, name, view, status, body, sent):
            self.fail(f"{target}: the status {status} and {len(body)} bytes, which aren't due")
        return status

    def is_due(self, port, name, view, status, body, sent):
        """Whether a reply to a request that was sent then is one that may be."""
        file, line = self.files.get(name, File()), self.lines[port].get(name)
        if status == 404 or not self.kinds(file):
            return status == 404 and line is None
        is_begun = file.change is not None and self.changes.begun[file.change] > 0
        is_behind = is_begun and 0 < self.changes.ended[file.change] < sent
        is_other = file.first is not file.last
        if view in BAD_VIEWS:
            return status == 400
        if status == 500:
            return file.first is not None and is_begun and (is_other or not is_behind)
        of_line = [kind for kind in self.kinds(file) if line in (None, kind.line)]
        if view:
            return status == 200 and body in [kind.views[view] for kind in of_line]
        # What was another file before the request isn't sent any more.
        whole = [kind for kind in of_line if not (is_behind and is_other and kind is file.first)]
        return status == 200 and body in [kind.bytes for kind in whole]

    # What goes on in the process that began it.

    def found(self):
        """Lets it end, and takes what it found."""
        self.is_over.set()
        if not self.mine.poll(2 * LONGEST):
            self.kill()
            self.wrong = ["a client hangs"]
            return self
        self.statuses, self.made, self.waits, self.wrong, self.first_seen, self.overslept = self.mine.recv()
        self.join(LONGEST)
        return self


class Client(Asker):
    """Asks for lists, images and windows by chance, and for an image that isn't listed yet until it comes."""

    def step(self):
        port = self.port if self.connection and self.left > 0 else self.chance.choice(self.ports)
        kind = self.chance.randrange(12)
        if kind < 2:
            self.look_at_list(port)
        elif kind == 2:
            self.turn_to(port)
            method, target, due = self.chance.choice(OTHERS)
            status, _ = self.reply(method, target)
            if status not in (0, due):
                self.fail(f"{method} {target}: the status {status} in the place of {due}")
        elif kind < 5:
            self.wait_for(port, self.chance.choice(self.sure))
        else:
            name = self.chance.choice(self.names())
            self.look_at(port, name, self.chance.choice((None, *VIEWS, *VIEWS, self.chance.choice(BAD_VIEWS))))

    def names(self):
        """All names, but for some of those that there is nothing to be said of: of these are most."""
        if not hasattr(self, "all_names"):
            changed = [name for name, file in self.files.items() if file.change is not None]
            self.all_names = list(self.files) + changed * (len(self.files) // (4 * len(changed) + 1))
        return self.all_names

    def wait_for(self, port, name):
        began = time.monotonic()
        while self.look_at(port, name, VIEWS[0]) in (0, 404) and not self.is_over.is_set():
            if LONGEST < time.monotonic() - began:
                self.fail(f"{name} was asked for, and didn't come in {LONGEST} seconds")
                return
            time.sleep(0.001)
        self.waits.append(time.monotonic() - began)


class Watcher(Asker):
    """Asks for the list of one server again and again, and for each image that is new in it.

    How much longer than due it slept tells by how much the machine itself, and not the server, was late."""

    def step(self):
        self.end()
        began = time.monotonic()
        time.sleep(EACH)
        self.overslept = max(self.overslept, time.monotonic() - began - EACH)

    def end(self):
        for name in self.look_at_list(self.ports[0]):
            self.look_at(self.ports[0], name)


def told_of(askers):
    """What several found together: their statuses, connections by port, waits and what was wrong."""
    statuses, made, waits, wrong = collections.Counter(), collections.Counter(), [], []
    for asker in askers:
        statuses, made, waits, wrong = statuses + asker.statuses, made + asker.made, waits + asker.waits, wrong + asker.wrong
    return statuses, made, sorted(waits), wrong
