"""Runs programs with a growth of memory refused, or the start of a thread (tools/gate/refuse.c)."""
import os
import subprocess
import time
from collections import namedtuple

from common import ROOT

# How a run ended: its status, or None where it didn't end in time; what it wrote; how many growths it made; and what
# was refused: `growth`, `shrink` (a list is to be no longer), `thread` or `none`.
Run = namedtuple("Run", "status out told count refused seconds")


class Refuser:
    """Runs commands with a growth refused."""

    def __init__(self, work):
        self.work = work
        self.library = os.path.join(work, "refuse.so")
        subprocess.run(["gcc", "-std=gnu11", "-O2", "-Wall", "-Wextra", "-Werror", "-shared", "-fPIC",
                        "-o", self.library, os.path.join(ROOT, "tools", "gate", "refuse.c"), "-ldl"], check=True)

    def counting(self):
        """The file that is told how many growths there were, of this process alone."""
        return os.path.join(self.work, f"count.{os.getpid()}")

    def environment(self, number, on=False):
        """The environment in which that growth is refused, and all behind it too if asked; of None they are counted."""
        made = {**os.environ, "LD_PRELOAD": self.library, "REFUSE_COUNT": self.counting()}
        if number is not None:
            made["REFUSE_AT"], made["REFUSE_ON"] = str(number), "1" if on else "0"
        return made

    def counted(self):
        """How many growths there were, and what was refused."""
        with open(self.counting(), encoding="ascii") as file:
            count, refused = file.read().split()
        return int(count), refused

    def count(self):
        return self.counted()[0]

    def run(self, command, number, on=False, given=b"", seconds=60, folder=None):
        """How a command ends, at most so many seconds later. What it makes for a time stands in the folder too."""
        around = self.environment(number, on)
        if folder:
            around["TMPDIR"] = folder
        began = time.monotonic()
        if os.path.exists(self.counting()):
            os.remove(self.counting())
        try:
            done = subprocess.run(command, input=given, capture_output=True, env=around, timeout=seconds,
                                  cwd=folder)
            ended = done.returncode, done.stdout, done.stderr
        except subprocess.TimeoutExpired:
            ended = None, b"", b""
        try:
            told = self.counted()
        except (OSError, ValueError):
            told = 0, "none"
        return Run(*ended, *told, time.monotonic() - began)
