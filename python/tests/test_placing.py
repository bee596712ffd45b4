"""`jk.write` is as careful with files as the program jk."""
import fcntl
import os
import signal
import stat
import subprocess
import sys
import threading
import time

import jk
import numpy as np
import pytest
from conftest import noise

SAMPLES = noise((9, 11))
needs_root = pytest.mark.skipif(os.geteuid() != 0, reason="for root alone")


def mode_of(path):
    return stat.S_IMODE(os.stat(path).st_mode)


@pytest.mark.parametrize("mode", [0o600, 0o640, 0o664])
def test_a_mode_stays(tmp_path, mode):
    path = tmp_path / "a.jp2"
    path.write_bytes(b"old")
    path.chmod(mode)
    jk.write(path, SAMPLES)
    assert mode_of(path) == mode and np.array_equal(jk.read(path), SAMPLES)
    assert os.listdir(tmp_path) == ["a.jp2"]


@pytest.mark.parametrize("umask, mode", [(0o022, 0o644), (0o077, 0o600)])
def test_a_new_file_heeds_the_umask(tmp_path, umask, mode):
    before = os.umask(umask)
    try:
        jk.write(tmp_path / "a.jp2", SAMPLES)
    finally:
        os.umask(before)
    assert mode_of(tmp_path / "a.jp2") == mode


@needs_root
def test_an_owner_stays(tmp_path):
    (tmp_path / "a.jp2").write_bytes(b"old")
    os.chown(tmp_path / "a.jp2", 1234, 2345)
    jk.write(tmp_path / "a.jp2", SAMPLES)
    told = os.stat(tmp_path / "a.jp2")
    assert (told.st_uid, told.st_gid) == (1234, 2345)


@pytest.mark.parametrize("is_there", [True, False])
def test_a_link_is_followed(tmp_path, is_there):
    (tmp_path / "store").mkdir()
    if is_there:
        (tmp_path / "store" / "a.jp2").write_bytes(b"old")
    (tmp_path / "link.jp2").symlink_to("store/a.jp2")
    jk.write(tmp_path / "link.jp2", SAMPLES)
    assert (tmp_path / "link.jp2").is_symlink() and os.listdir(tmp_path / "store") == ["a.jp2"]
    assert np.array_equal(jk.read(tmp_path / "store" / "a.jp2"), SAMPLES)


def test_a_pipe_is_written_as_it_is(tmp_path):
    os.mkfifo(tmp_path / "pipe")
    got = []
    reader = threading.Thread(target=lambda: got.append((tmp_path / "pipe").read_bytes()))
    reader.start()
    jk.write(tmp_path / "pipe", SAMPLES)
    reader.join(10)
    assert got == [jk.encode(SAMPLES)] and stat.S_ISFIFO(os.stat(tmp_path / "pipe").st_mode)
    assert os.listdir(tmp_path) == ["pipe"]


@needs_root
def test_a_device_is_written_as_it_is(tmp_path):
    os.mknod(tmp_path / "null", 0o666 | stat.S_IFCHR, os.makedev(1, 3))
    jk.write(tmp_path / "null", SAMPLES)
    assert stat.S_ISCHR(os.stat(tmp_path / "null").st_mode)


def test_two_writers_leave_each_others_parts(tmp_path):
    """A second writer of the same path in this process begins and ends while the first one writes."""
    from jk import _placing
    with _placing.placed(tmp_path / "a.jp2") as out:
        out.write(b"first")
        jk.write(tmp_path / "a.jp2", SAMPLES)
        assert np.array_equal(jk.read(tmp_path / "a.jp2"), SAMPLES)
        out.write(b" and last")
    assert (tmp_path / "a.jp2").read_bytes() == b"first and last" and os.listdir(tmp_path) == ["a.jp2"]
    threads = [threading.Thread(target=jk.write, args=(tmp_path / "b.jp2", noise((40, 40), seed=it))) for it in range(16)]
    for thread in threads:
        thread.start()
    for thread in threads:
        thread.join()
    assert any(np.array_equal(jk.read(tmp_path / "b.jp2"), noise((40, 40), seed=it)) for it in range(16))
    assert sorted(os.listdir(tmp_path)) == ["a.jp2", "b.jp2"]


def test_file_and_folder_are_stored(tmp_path, monkeypatch):
    steps, fsync, rename = [], os.fsync, os.rename

    def stored(file):
        steps.append(f"store {os.path.basename(os.readlink(f'/proc/self/fd/{file}'))}")
        fsync(file)

    def renamed(part, out):
        steps.append(f"rename {os.path.basename(out)}")
        rename(part, out)

    monkeypatch.setattr(os, "fsync", stored)
    monkeypatch.setattr(os, "rename", renamed)
    jk.write(tmp_path / "a.jp2", SAMPLES)
    assert steps == ["store .jk-tmp-0", "rename a.jp2", f"store {tmp_path.name}"]


def test_parts_that_nobody_holds_are_removed_and_others_stay(tmp_path):
    for number in (0, 1, 3, 9):
        (tmp_path / f".jk-tmp-{number}").write_bytes(b"left")
    with open(tmp_path / ".jk-tmp-1", "rb") as held:
        fcntl.flock(held, fcntl.LOCK_EX)
        jk.write(tmp_path / "a.jp2", SAMPLES)
    assert sorted(os.listdir(tmp_path)) == [".jk-tmp-1", "a.jp2"] and (tmp_path / ".jk-tmp-1").read_bytes() == b"left"


def test_a_writer_that_is_killed_costs_nothing(tmp_path):
    jk.write(tmp_path / "a.jp2", SAMPLES)
    words = [sys.executable, "-c", "import sys, time\nfrom jk import _placing\nwith _placing.placed(sys.argv[1]) as out:\n"
             "    out.write(b'half'); out.flush(); print('begun', flush=True); time.sleep(60)", str(tmp_path / "a.jp2")]
    child = subprocess.Popen(words, stdout=subprocess.PIPE, env={**os.environ, "PYTHONPATH": os.pathsep.join(sys.path)})
    assert child.stdout.readline() == b"begun\n"
    assert mode_of(tmp_path / ".jk-tmp-0") == 0o600
    jk.write(tmp_path / "b.jp2", SAMPLES)
    assert (tmp_path / ".jk-tmp-0").read_bytes() == b"half"
    child.send_signal(signal.SIGKILL)
    child.wait()
    child.stdout.close()
    assert np.array_equal(jk.read(tmp_path / "a.jp2"), SAMPLES)
    jk.write(tmp_path / "b.jp2", SAMPLES)
    assert sorted(os.listdir(tmp_path)) == ["a.jp2", "b.jp2"]


def test_a_failure_leaves_what_was_there(tmp_path):
    jk.write(tmp_path / "a.jp2", SAMPLES)
    from jk import _placing
    with pytest.raises(RuntimeError), _placing.placed(tmp_path / "a.jp2") as out:
        out.write(b"half")
        raise RuntimeError
    assert np.array_equal(jk.read(tmp_path / "a.jp2"), SAMPLES) and os.listdir(tmp_path) == ["a.jp2"]
    for path in (tmp_path, f"{tmp_path}/none/a.jp2", f"{tmp_path}/b/"):
        with pytest.raises(OSError):
            jk.write(path, SAMPLES)
    assert os.listdir(tmp_path) == ["a.jp2"]


@pytest.mark.skipif(os.geteuid() == 0, reason="root may write everywhere")
def test_what_may_not_be_written(tmp_path):
    (tmp_path / "a.jp2").write_bytes(b"old")
    (tmp_path / "a.jp2").chmod(0o400)
    with pytest.raises(PermissionError):
        jk.write(tmp_path / "a.jp2", SAMPLES)
    (tmp_path / "a.jp2").chmod(0o600)
    tmp_path.chmod(0o500)
    try:
        jk.write(tmp_path / "a.jp2", SAMPLES)
    finally:
        tmp_path.chmod(0o700)
    assert np.array_equal(jk.read(tmp_path / "a.jp2"), SAMPLES)


def test_many_processes_write_beside_each_other(tmp_path):
    """Each of four processes writes to one folder again and again, and one file of all is theirs in common."""
    code = ("import sys, jk, numpy as np\nfor number in range(12):\n    a = np.full((9, 11), number, np.uint8)\n"
            "    jk.write(f'{sys.argv[1]}/own-{sys.argv[2]}.jp2', a)\n    jk.write(f'{sys.argv[1]}/all.jp2', a)\n")
    env = {**os.environ, "PYTHONPATH": os.pathsep.join(sys.path)}
    children = [subprocess.Popen([sys.executable, "-c", code, str(tmp_path), str(it)], env=env) for it in range(4)]
    until = time.monotonic() + 60
    for child in children:
        assert child.wait(max(1, until - time.monotonic())) == 0
    assert sorted(os.listdir(tmp_path)) == ["all.jp2", *[f"own-{it}.jp2" for it in range(4)]]
    assert all(int(jk.read(tmp_path / it).max()) == 11 for it in os.listdir(tmp_path))


def test_a_part_whose_name_another_one_took_stays(tmp_path, monkeypatch):
    """Between the look at a part that was left and the lock on it another writer removes it, and makes its own."""
    from jk import _placing
    (tmp_path / ".jk-tmp-0").write_bytes(b"left")
    flock = fcntl.flock

    def late(file, kind):
        if os.fstat(file).st_size == 4:
            (tmp_path / ".jk-tmp-0").unlink()
            (tmp_path / ".jk-tmp-0").write_bytes(b"another's")
        flock(file, kind)

    monkeypatch.setattr(fcntl, "flock", late)
    assert not _placing._removed(str(tmp_path / ".jk-tmp-0"))
    assert (tmp_path / ".jk-tmp-0").read_bytes() == b"another's"
