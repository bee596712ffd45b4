"""What becomes of an archive's folder while it is served, and what is due of it in the end: a part of tools/trials/opens."""
import os
import random
import re
import shutil
import threading
import time

from askers import Changes, File

# How many names of images a folder has at most, of which an archive lists 4,096.
ROOM = 4040
# What a file is told by that can't be listed.
NO_IMAGE, GONE, CLOSED = r"F\d+ \w+", r"No such file or directory.*", r"Permission denied.*"


class Plan:
    """What stands in a folder at first, what becomes of it at which moment from 0 to 1, and what is due in the end.

    `listed` has the images that are listed in the end and how often they may be told before, `once` the files that are told
    once and aren't listed, and `either` those of which one of both holds; each with the words of the cause."""

    def __init__(self, trial, folder):
        self.trial, self.folder, self.chance = trial, folder, trial.chance
        self.files, self.added, self.listed, self.once, self.either = {}, {}, {}, {}, {}
        self.steps, self.count = [], 0
        side = trial.asked.side
        self.small = [trial.kind(16 + number, 16, "--windows") for number in range(4)]
        self.all = self.small + [trial.kind(300 + number, 300, "--windows") for number in range(4)] + \
            [trial.kind(side + number, side, "--windows") for number in range(2)]
        self.fresh = [trial.kind(24 + number, 30) for number in range(10)]

    # Names, places and kinds.

    def name(self, role, file=None):
        """A new name. Of these some are before those that are there, and some behind."""
        name = f"{self.chance.choice('abcdefghijklmnopqrstuvwxyz')}-{role}-{len(self.files)}"
        self.files[name] = file or File()
        return name

    def changing(self, role, first, last):
        """A new name whose file changes."""
        self.count += 1
        return self.name(role, File(first, last, self.count - 1))

    def path(self, name):
        return os.path.join(self.folder, name + ".jp2")

    def is_image(self):
        """A kind by chance, of which half are large."""
        return self.chance.choice((*self.all, *self.all[-2:], *self.all[-2:], *self.all[-2:]))

    def write(self, name, data):
        with open(self.path(name), "wb") as file:
            file.write(data)

    def cut(self, name):
        """A file that is no image: the beginning of one, or other bytes."""
        kind = self.chance.choice(self.all[:-2])
        self.write(name, self.chance.choice((kind.bytes[:len(kind.bytes) // 2], b"", b"other bytes" * 9)))

    # What becomes of files, at moments.

    def at(self, moment, call, *words):
        self.steps.append((moment, lambda: call(*words)))

    def change(self, name, call, *words):
        """Changes a file at a moment by chance, and keeps when that begins and ends."""
        number = self.files[name].change

        def step():
            self.changes.begin(number)
            call(*words)
            self.changes.end(number)

        self.at(self.chance.uniform(0, 0.95), step)

    def stays(self):
        kind = self.is_image()
        name = self.name("stays", File(kind))
        self.trial.put(kind, self.path(name))
        self.listed[name] = 0

    def no_image(self):
        name = self.name("cut")
        self.cut(name)
        self.once[name] = NO_IMAGE

    def gone(self):
        kind = self.is_image()
        name = self.changing("gone", kind, None)
        self.trial.put(kind, self.path(name))
        self.change(name, os.remove, self.path(name))
        self.either[name] = GONE

    def cut_gone(self):
        name = self.changing("gone", None, None)
        self.cut(name)
        self.change(name, os.remove, self.path(name))
        self.once[name] = f"{NO_IMAGE}|{GONE}"

    def replaced(self):
        first, last = self.chance.sample(self.all[:-2], 2)
        name = self.changing("replaced", first, last)
        self.trial.put(first, self.path(name))
        self.change(name, self.trial.put, last, self.path(name))
        self.listed[name] = 0

    def spoilt(self):
        kind = self.chance.choice(self.all[:-2])
        name = self.changing("spoilt", kind, None)
        self.write(name, kind.bytes)

        def without_head():
            with open(self.path(name), "r+b") as file:
                file.write(bytes(12))

        self.change(name, *self.chance.choice(((without_head,), (os.truncate, self.path(name), len(kind.bytes) // 2))))
        self.either[name] = NO_IMAGE

    def mended(self):
        kind = self.is_image()
        name = self.changing("mended", None, kind)
        self.cut(name)
        self.change(name, self.trial.put, kind, self.path(name))
        self.listed[name] = 1

    def shut(self):
        kind = self.is_image()
        name = self.changing("shut", kind, None)
        self.write(name, kind.bytes)
        self.change(name, os.chmod, self.path(name), 0)
        self.either[name] = CLOSED

    def opened_again(self):
        """One that is closed to readers for a while; its time tells that it isn't any more."""
        kind, moment = self.chance.choice(self.all[:-2]), self.chance.uniform(0, 0.7)
        name = self.changing("shut", kind, kind)
        number = self.files[name].change
        self.write(name, kind.bytes)

        def shut():
            self.changes.begin(number)
            os.chmod(self.path(name), 0)

        def open_again():
            os.chmod(self.path(name), 0o644)
            os.utime(self.path(name))
            self.changes.end(number)

        self.at(moment, shut)
        self.at(moment + 0.25, open_again)
        self.listed[name] = 1

    def moved(self):
        kind = self.is_image()
        name = self.changing("moved", None, kind)
        self.change(name, self.trial.put, kind, self.path(name))
        self.listed[name] = 0

    def slow(self):
        """One that another program writes in three pieces."""
        kind, moment = self.chance.choice(self.all[:-2]), self.chance.uniform(0, 0.7)
        name, third = self.changing("slow", None, kind), len(kind.bytes) // 3
        number = self.files[name].change

        def append(piece, is_last):
            self.changes.begin(number)
            with open(self.path(name), "ab") as file:
                file.write(piece)
            if is_last:
                self.changes.end(number)

        for at, piece in enumerate((kind.bytes[:third], kind.bytes[third:2 * third], kind.bytes[2 * third:])):
            self.at(moment + at * 0.1, append, piece, at == 2)
        self.listed[name] = 3

    def other(self, way, is_late):
        """What can't be opened as a file, now or at a moment."""
        name = self.name(way)
        aside = os.path.join(self.trial.work, name)

        def make():
            if way == "folder":
                os.mkdir(aside)
            elif way == "link":
                os.symlink("nowhere", aside)
            elif way == "pipe":
                os.mkfifo(aside)
            else:
                shutil.copy(self.small[0].path, aside)
                os.chmod(aside, 0)
            os.rename(aside, self.path(name))

        if is_late:
            self.at(self.chance.uniform(0, 0.95), make)
        else:
            make()
        self.once[name] = {"folder": "is a directory", "link": GONE, "pipe": "not a regular file", "closed": CLOSED}[way]

    def fill(self, files, additions):
        """Makes the files, plans what becomes of them, and gives names to what is added."""
        some, few = files // 40, files // 80
        moved, slow = additions // 10, additions // 20
        gone = max(some, files + 16 + additions + moved + slow - ROOM - some)
        for count, make in ((some, self.no_image), (some, self.gone), (gone, self.cut_gone), (some, self.replaced),
                            (some, self.spoilt), (some, self.mended), (few, self.shut), (few, self.opened_again),
                            (files - 6 * some - gone - 2 * few, self.stays), (moved, self.moved), (slow, self.slow)):
            for _ in range(count):
                make()
        for way in ("folder", "link", "pipe", "closed") * 2:
            self.other(way, False)
            self.other(way, True)
        for number in range(additions):
            kind = self.fresh[number % 10]
            name = self.name("added", File(kind))
            self.added[name], self.listed[name] = kind, 0
        self.steps.sort(key=lambda step: step[0])
        self.changes = Changes(max(1, self.count))


class Adders:
    """Who adds the images of a plan, each once, in several ways."""

    def __init__(self, trial, plan, server):
        self.trial, self.plan, self.server = trial, plan, server
        self.names, self.lock, self.operator = list(plan.added), threading.Lock(), threading.Lock()
        self.done, self.early, self.locked, self.is_opened, self.is_over = 0, 0, 0, False, False

    def take(self, count):
        with self.lock:
            taken, self.names = self.names[:count], self.names[count:]
        return taken

    def count(self, names):
        """Counts what was added, and what of it while files were opened."""
        self.is_opened = self.is_opened or any("all files are opened" in line for line in self.server.said())
        with self.lock:
            self.done += len(names)
            self.early += 0 if self.is_opened else len(names)

    def tried(self, add):
        """What an addition says, made again where others have held the folder's lock for ten seconds."""
        while "F20 Shelf" in str(said := add()) and self.locked < len(self.plan.added):
            with self.lock:
                self.locked += 1
        return said

    def run(self, seed):
        chance = random.Random(seed)
        rare = [self.many, self.twice, self.by_operator, self.by_operator, self.taken]
        for way in chance.sample(rare, len(rare)):
            way(chance)
        while self.names:
            chance.choice([self.alone] * 16 + rare)(chance)

    def alone(self, _):
        for name in self.take(1):
            self.add(name)
            self.count([name])

    def add(self, name):
        said = self.tried(lambda: self.trial.run("add", self.plan.folder, name, self.plan.added[name].source))
        self.trial.check(said == (0, []), "jk add", name, said)

    def many(self, _):
        """Five by one command."""
        names, paths = self.take(5), []
        for name in names:
            paths.append(os.path.join(self.trial.work, name + ".pgm"))
            os.link(self.plan.added[name].source, paths[-1])
        if paths:
            said = self.trial.run("add", self.plan.folder, "--all", *paths, "--workers", "2")
            locked = [name for name in names if f"refused {name} F20 Shelf" in said[1]]
            due = [f"refused {name} F20 Shelf" if name in locked else f"added {name}" for name in names]
            self.trial.check(said == (1 if locked else 0, due), "jk add --all", names, said)
            for name in locked:
                self.add(name)
            self.count(names)

    def twice(self, _):
        """One name by two at once, of which one is refused."""
        for name in self.take(1):
            ends = []
            add = lambda: self.trial.run("add", self.plan.folder, name, self.plan.added[name].source)
            self.trial.together([lambda: ends.append(self.tried(add))] * 2)
            self.trial.check(sorted(ends) == [(0, []), (1, ["jk: F18 NameTaken"])], "two of", name, ends)
            self.count([name])

    def by_operator(self, _):
        for name in self.take(1):
            with self.operator:
                said = self.tried(lambda: self.server.add(name, self.plan.added[name].source))
                self.trial.check(said == f"added {name}", "the operator's", name, said)
                status, body = self.server.ask(f"/images/{name}")
                self.trial.check((status, body) == (200, self.plan.added[name].bytes), name, "was added, and asked for is", status)
            self.count([name])

    def taken(self, chance):
        """One that is taken: by an image, listed or not, or by what is none."""
        name = chance.choice([it for it in self.plan.once if "gone" not in it] + list(self.plan.listed)[:50])
        if not os.path.lexists(self.plan.path(name)):
            return
        said = self.trial.run("add", self.plan.folder, name, self.plan.fresh[0].source)
        self.trial.check(said == (1, ["jk: F18 NameTaken"]), "a name that is taken,", name, said)
        with self.operator:
            said = self.server.add(name, self.plan.fresh[0].source)
        self.trial.check(said == f"refused {name} F18 NameTaken", "a name that is taken,", name, said)

    def meddle(self):
        """Does what the plan has, as far as adding has come."""
        for moment, step in self.plan.steps:
            while self.done < moment * len(self.plan.added) and not self.is_over:
                time.sleep(0.002)
            step()

    def run_all(self, count):
        def add(number):
            try:
                self.run(self.trial.asked.seed + number)
            finally:
                self.is_over = self.is_over or not self.names

        self.trial.together([self.meddle] + [lambda number=number: add(number) for number in range(count)])


def told_by(server):
    """What was said of files that aren't listed: by each name the causes."""
    told = {}
    for line in server.said():
        if found := re.fullmatch(r"(\S+)\.jp2 isn't listed: (.*)", line):
            told.setdefault(found[1], []).append(found[2])
    return told


def untold(plan, server, lines):
    """What of the files that aren't listed isn't told as it is due, in words."""
    told, wrong = told_by(server), []
    for name in set(told) | set(plan.once) | set(plan.either) | set(lines):
        causes, is_listed = told.get(name, []), name in lines
        if name in plan.listed:
            is_right = is_listed and len(causes) <= plan.listed[name]
        else:
            pattern = plan.once.get(name) or plan.either.get(name, "")
            # One that was told and is taken away while the folder is listed again is opened again, and is gone then.
            if "-gone-" in name and len(causes) == 2 and re.fullmatch(GONE, causes[1]):
                causes = causes[:1]
            due = 0 if name in plan.either and is_listed else 1
            is_right = len(causes) == due and (name in plan.either or not is_listed)
            is_right = is_right and all(re.fullmatch(pattern, cause) for cause in causes)
        if not is_right:
            wrong.append(f"{name}, which is {'' if is_listed else 'not '}listed, was told so: {causes}")
    return wrong
