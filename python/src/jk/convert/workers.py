"""Files converted by several processes, one each at a time."""
from __future__ import annotations

import os
import pickle
import selectors
import signal
import subprocess
import sys
import threading
from typing import Any, Dict, Generator, Iterator, List, Optional

from .._placing import remove_parts
from .one import Done, Job, done

#: So many files a process converts before another one takes its place, since libraries may lose memory.
FILES = 100
HERE = os.path.dirname(os.path.dirname(os.path.dirname(os.path.abspath(__file__))))


class Stop:
    """Whether it was asked to end, by Ctrl-C or SIGTERM: what is being done is finished then. A second time it ends at
    once."""

    def __init__(self) -> None:
        self.is_asked = False
        self.before: Dict[int, Any] = {}

    def __enter__(self) -> "Stop":
        if threading.current_thread() is threading.main_thread():
            for number in (signal.SIGINT, signal.SIGTERM):
                self.before[number] = signal.signal(number, self.ask)
        return self

    def ask(self, number: int, frame: object) -> None:
        if self.is_asked:
            raise KeyboardInterrupt
        self.is_asked = True
        print("jk.convert: it ends when the files that are being converted are done, and at once when asked again",
              file=sys.stderr, flush=True)

    def __exit__(self, *_: object) -> None:
        for number, handler in self.before.items():
            signal.signal(number, handler)


class Worker:
    """A process, and the file that it is at."""

    def __init__(self) -> None:
        paths = os.pathsep.join(filter(None, (HERE, os.environ.get("PYTHONPATH"))))
        # Ctrl-C is for this process, which lets the others finish.
        self.child = subprocess.Popen(
            [sys.executable, "-m", "jk.convert.worker"], stdin=subprocess.PIPE, stdout=subprocess.PIPE,
            start_new_session=True, env={**os.environ, "PYTHONPATH": paths})
        self.files = 0
        self.job: Optional[Job] = None

    def give(self, job: Job) -> None:
        assert self.child.stdin is not None
        self.job = job
        self.files += 1
        try:
            pickle.dump(job, self.child.stdin)
            self.child.stdin.flush()
        except BrokenPipeError:
            # Its reply tells that it has ended.
            pass

    def reply(self) -> Done:
        assert self.child.stdout is not None and self.job is not None
        job, self.job = self.job, None
        try:
            found: Done = pickle.load(self.child.stdout)
            return found
        except (EOFError, pickle.UnpicklingError):
            self.files = FILES
            status = self.child.wait()
            remove_parts(os.path.dirname(job.stem) or ".")
            how = f"signal {-status}, perhaps for want of memory" if status < 0 else f"the status {status}"
            return Done(job, refused=f"the process that converted it ended by {how}")

    def end(self) -> None:
        """Ends it; at once where it is at a file."""
        assert self.child.stdin is not None and self.child.stdout is not None
        if self.job is not None:
            self.child.kill()
        try:
            self.child.stdin.close()
        except BrokenPipeError:
            pass
        self.child.wait()
        self.child.stdout.close()
        if self.job is not None:
            remove_parts(os.path.dirname(self.job.stem) or ".")


def each_done(jobs: Iterator[Job], count: int, stop: Stop) -> Generator[Done, None, None]:
    """Converts files: one after another in this process, or by so many others, as they come."""
    if count == 1:
        for job in jobs:
            if stop.is_asked:
                return
            yield done(job)
    else:
        yield from _by_workers(jobs, count, stop)


def _by_workers(jobs: Iterator[Job], count: int, stop: Stop) -> Generator[Done, None, None]:
    idle: List[Worker] = []
    busy: Dict[int, Worker] = {}
    try:
        with selectors.DefaultSelector() as replies:
            while True:
                while len(busy) < count and not stop.is_asked:
                    job = next(jobs, None)
                    if job is None:
                        break
                    worker = idle.pop() if idle else Worker()
                    busy[worker.child.pid] = worker
                    worker.give(job)
                    replies.register(worker.child.stdout, selectors.EVENT_READ, worker)  # type: ignore[arg-type]
                if not busy:
                    return
                for key, _ in replies.select():
                    worker = key.data
                    replies.unregister(key.fileobj)
                    found = worker.reply()
                    del busy[worker.child.pid]
                    if worker.files < FILES:
                        idle.append(worker)
                    else:
                        worker.end()
                    yield found
    finally:
        for worker in [*busy.values(), *idle]:
            worker.end()
