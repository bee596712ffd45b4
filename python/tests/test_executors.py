"""Files converted by executors: threads, processes, and a Dask cluster of which a worker is killed and another one added."""
import concurrent.futures
import csv
import hashlib
import os
import signal
import subprocess
import sys
import threading
import time

import jk
import numpy as np
import pytest
import tiffs
from conftest import noise

pytest.importorskip("tifffile")
pytest.importorskip("PIL.Image")
from jk.convert import convert  # noqa: E402

ENV = {**os.environ, "PYTHONPATH": os.pathsep.join(sys.path), "PYTHONDONTWRITEBYTECODE": "1", "OMP_NUM_THREADS": "1"}


@pytest.fixture
def many(tmp_path):
    """A folder of files of several kinds, one of which is refused."""
    made = tmp_path / "in"
    (made / "sub").mkdir(parents=True)
    for number in range(30):
        tiffs.tiff(made / f"t{number}.tif", noise((30, 41, 3), seed=number))
        tiffs.png(made / "sub" / f"p{number}.png", noise((9, 11, 4), seed=number))
    (made / "bad.tif").write_bytes(b"II*\0 and no more")
    return made


def judged(source, out, count):
    """The table of a run, with one row for each file, whose OUT has its digest and its samples."""
    with open(out / "jk-convert.csv", newline="") as file:
        rows = list(csv.DictReader(file))
    assert len(rows) == len({row["name"] for row in rows}) == count
    for row in rows:
        data = (out / row["out"]).read_bytes()
        assert hashlib.sha256(data).hexdigest() == row["sha256_of_out"]
        assert hashlib.sha256(jk.read(data).tobytes()).hexdigest() == row["sha256_of_samples"]
    found = {os.path.relpath(os.path.join(at, name), out) for at, _, names in os.walk(out) for name in names}
    assert found == {row["out"] for row in rows} | {"jk-convert.csv"}
    return {row["name"]: {name: it for name, it in row.items() if name != "seconds"} for row in rows}


@pytest.mark.parametrize("kind", [concurrent.futures.ThreadPoolExecutor, concurrent.futures.ProcessPoolExecutor])
def test_any_executor(tmp_path, many, kind, monkeypatch):
    plain = convert(many, tmp_path / "plain")
    monkeypatch.chdir(tmp_path)
    with kind(3) as executor:
        counts = convert("in", "out", executor=executor)
        assert (counts.converted, len(counts.refused)) == (plain.converted, 1) == (60, 1)
        again = convert("in", "out", resume=True, executor=executor)
    assert (again.converted, again.passed, len(again.refused)) == (0, 60, 1)
    assert judged(many, tmp_path / "out", 60) == judged(many, tmp_path / "plain", 60)


def test_threads_tell_of_their_own_files_alone(tmp_path):
    """What tifffile says of one file isn't said of another one that is read meanwhile."""
    (tmp_path / "in").mkdir()
    for number in range(60):
        fields = {65000: (3, [1])} if number % 2 else {}
        tiffs.tiff(tmp_path / "in" / f"{number}.tif", noise((40, 40), np.uint16, seed=number), fields=fields)
    with concurrent.futures.ThreadPoolExecutor(8) as executor:
        counts = convert(tmp_path / "in", tmp_path / "out", executor=executor)
    assert (counts.refused, counts.converted, counts.incomplete) == ([], 60, 30)


def test_what_another_thread_hears_of_tifffile(tmp_path, monkeypatch):
    import logging
    from jk.convert import tiff
    source = tiffs.tiff(tmp_path / "a.tif", noise((9, 11)))
    asarray = tiff.tifffile.TiffPage.asarray

    def meanwhile(page, *words, **named):
        thread = threading.Thread(target=lambda: logging.getLogger("tifffile").warning("corrupted strip of another file"))
        thread.start()
        thread.join()
        return asarray(page, *words, **named)

    monkeypatch.setattr(tiff.tifffile.TiffPage, "asarray", meanwhile)
    assert convert(source, tmp_path / "a.jp2").refused == []


def test_an_executor_that_breaks(tmp_path, many):
    class Broken(concurrent.futures.Executor):
        def submit(self, call, *words, **named):
            future = concurrent.futures.Future()
            if words[0].name == "t7.tif":
                future.set_exception(concurrent.futures.BrokenExecutor("gone"))
            elif words[0].name == "t8.tif":
                raise RuntimeError("cannot schedule new futures after shutdown")
            else:
                future.set_result(call(*words))
            return future

    counts = convert(many, tmp_path / "out", executor=Broken())
    assert counts.converted == 58 and dict(counts.refused).keys() == {"bad.tif", "t7.tif", "t8.tif"}
    assert "BrokenExecutor: gone" in dict(counts.refused)["t7.tif"] and "takes no more" in dict(counts.refused)["t8.tif"]
    assert convert(many, tmp_path / "out", resume=True).converted == 2
    judged(many, tmp_path / "out", 60)


def test_no_scheduler(tmp_path, many):
    words = [sys.executable, "-m", "jk.convert", str(many), str(tmp_path / "out"), "--scheduler", "tcp://127.0.0.1:9"]
    pytest.importorskip("distributed")
    told = subprocess.run(words, env=ENV, capture_output=True, text=True, timeout=60)
    assert told.returncode == 2 and "tcp://127.0.0.1:9: there is no Dask scheduler" in told.stderr
    assert "Traceback" not in told.stderr and not (tmp_path / "out").exists()


class Cluster:
    """A scheduler of Dask and workers, each a process of its own."""

    def __init__(self, folder):
        self.folder, self.workers = folder, []
        self.scheduler = self.begun("scheduler", "--host", "127.0.0.1", "--port", "0", "--no-dashboard", "--scheduler-file", "scheduler")
        until = time.monotonic() + 60
        while not (folder / "scheduler").exists():
            assert time.monotonic() < until and self.scheduler.poll() is None
            time.sleep(0.05)
        time.sleep(0.3)
        import json
        self.address = json.loads((folder / "scheduler").read_text())["address"]

    def begun(self, kind, *words):
        with open(self.folder / f"{kind}.log", "ab") as log:
            line = [sys.executable, "-m", f"distributed.cli.dask_{kind}", *words]
            return subprocess.Popen(line, cwd=self.folder, env=ENV, stdout=log, stderr=log, start_new_session=True)

    def add(self):
        words = ("--nthreads", "1", "--no-nanny", "--no-dashboard", "--host", "127.0.0.1", "--local-directory", str(self.folder))
        self.workers.append(self.begun("worker", self.address, *words))

    def end(self):
        for child in [*self.workers, self.scheduler]:
            if child.poll() is None:
                os.killpg(child.pid, signal.SIGKILL)
            child.wait()


@pytest.fixture
def cluster(tmp_path):
    pytest.importorskip("distributed")
    (tmp_path / "dask").mkdir()
    made = Cluster(tmp_path / "dask")
    try:
        for _ in range(4):
            made.add()
        from distributed import Client
        with Client(made.address, set_as_default=False) as client:
            client.wait_for_workers(4, timeout=60)
        yield made
    finally:
        made.end()


def test_a_dask_cluster_of_which_a_worker_is_killed(tmp_path, cluster):
    source, out = tmp_path / "in", tmp_path / "out"
    source.mkdir()
    for number in range(400):
        tiffs.tiff(source / f"{number:03}.tif", noise((120, 140, 3), seed=number))
    line = [sys.executable, "-m", "jk.convert", "in", "out", "--scheduler", cluster.address]
    run = subprocess.Popen(line, cwd=tmp_path, env=ENV, stderr=subprocess.PIPE, text=True)
    until = time.monotonic() + 300
    told = []
    threading.Thread(target=lambda: told.append(run.stderr.read()), daemon=True).start()

    def rows():
        path = out / "jk-convert.csv"
        return path.read_bytes().count(b"\n") - 1 if path.exists() else 0

    while rows() < 60 and run.poll() is None and time.monotonic() < until:
        time.sleep(0.01)
    assert 60 <= rows() < 400 and run.poll() is None
    os.killpg(cluster.workers[0].pid, signal.SIGKILL)
    cluster.add()
    assert run.wait(max(1, until - time.monotonic())) == 0, told
    judged(source, out, 400)
    told = subprocess.run([*line, "--resume"], cwd=tmp_path, env=ENV, capture_output=True, text=True, timeout=300)
    assert told.returncode == 0 and "0 converted, 400 passed over" in told.stderr, told.stderr
    plain = convert(source, tmp_path / "plain", workers=4)
    assert plain.converted == 400
    assert judged(source, out, 400) == judged(source, tmp_path / "plain", 400)
