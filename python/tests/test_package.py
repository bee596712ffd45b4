"""What the package is to others: types, errors that are pickled, programs, what is told where a library lacks, and how much
`jk.info` reads."""
import concurrent.futures
import importlib.util
import os
import pickle
import shutil
import subprocess
import sys

import jk
import numpy as np
import pytest
from conftest import noise
from jk import _headers

ENV = {**os.environ, "PYTHONPATH": os.pathsep.join(sys.path)}
#: Modules that are public, or of which public names come.
PUBLIC = ("__init__", "_extras", "archive", "encoding", "faults", "files", "view", "convert/__init__", "convert/images", "convert/many",
          "convert/one", "convert/rows", "convert/executors", "convert/workers", "dicom/__init__")

USER = """
import concurrent.futures
from typing import List, Tuple
import jk
import numpy as np
from jk import convert
from jk.convert import Counts, Done

a = jk.read("a.jp2", reduce=1, window=(0, 0, 4, 4))
shape: Tuple[int, ...] = jk.info("a.jp2").shape
kind: str = jk.info("a.jp2").opacity or ""
jk.write("b.jp2", a, depth=12, levels=2, precincts=[(7, 7)] * 3, tile=(64, 64), opacity="straight", extras=jk.Extras(resolution=300))
data: bytes = jk.with_extras(jk.encode(a, order="RPCL"), jk.Extras(xmp=b"", display=(72, "72.5")))
try:
    jk.cut(data, (0, 0, 4, 4))
except jk.Truncated as fault:
    number: int = fault.number
    name: str = fault.name

def tell(done: Done, number: int, total: int) -> None:
    print(done.refused, number, total)

with concurrent.futures.ThreadPoolExecutor() as executor:
    counts: Counts = convert.convert(["a", "b"], "out", executor=executor, tell=tell, levels=3, palette="rgb", strict=True)
refused: List[Tuple[str, str]] = counts.refused
"""


@pytest.fixture(scope="module")
def mypy(tmp_path_factory):
    if importlib.util.find_spec("mypy") is None:
        pytest.skip("mypy isn't there")

    cache = tmp_path_factory.mktemp("mypy")

    # Libraries whose own sources have types take a minute to read.
    others = "".join(f"[mypy-{it}.*]\nfollow_imports = skip\nignore_missing_imports = True\n"
                     for it in ("distributed", "dask", "pydicom", "tifffile", "PIL"))
    # Of a package that is installed the sources are looked at too.
    sources = tmp_path_factory.mktemp("sources")
    (sources / "jk").symlink_to(os.path.dirname(jk.__file__))
    (cache / "mypy.ini").write_text(f"[mypy]\nfollow_imports = silent\nstrict = True\n{others}")

    def run(folder, *words):
        line = [sys.executable, "-m", "mypy", "--config-file", str(cache / "mypy.ini"), "--cache-dir", str(cache), *words]
        paths = {**os.environ, "MYPYPATH": str(sources)}
        return subprocess.run(line, cwd=folder, env=paths, capture_output=True, text=True)
    return run


def test_types_of_the_public_surface(tmp_path, mypy):
    modules = [f"jk.{it}".replace("/", ".").replace(".__init__", "") for it in PUBLIC]
    done = mypy(tmp_path, *[word for it in modules for word in ("-m", it)])
    assert done.returncode == 0 and f"no issues found in {len(PUBLIC)} source files" in done.stdout, done.stdout


def test_types_in_a_program_of_a_user(tmp_path, mypy):
    (tmp_path / "user.py").write_text(USER)
    wrong = ['jk.encode(a, level=2)', 'jk.write("a", a, levels="2")', 'jk.Extras(xmp=5)', 'convert.convert("a", "b", colours=1)']
    (tmp_path / "wrong.py").write_text("\n".join([USER, *wrong]) + "\n")
    done = mypy(tmp_path, "user.py", "wrong.py")
    first = USER.count("\n") + 2
    found = {line.split(":")[1] for line in done.stdout.splitlines() if line.startswith("wrong.py:") and ": error:" in line}
    assert found == {str(first + it) for it in range(4)} and "user.py:" not in done.stdout, done.stdout


@pytest.mark.parametrize("kind", sorted(jk.faults.BY_NUMBER.values(), key=lambda it: it.number))
def test_errors_are_pickled(kind):
    for fault in (kind(), kind("in other words")):
        again = pickle.loads(pickle.dumps(fault))
        assert (type(again), str(again), again.name, again.number) == (kind, str(fault), fault.name, fault.number)


def test_an_error_of_another_process():
    with concurrent.futures.ProcessPoolExecutor(1) as executor, pytest.raises(jk.Truncated, match="F2 Truncated: the file"):
        executor.submit(jk.read, jk.encode(noise((9, 11)))[:-1]).result()


def test_errors_of_pillow_are_pickled():
    pytest.importorskip("PIL.Image")
    import jk.pillow
    again = pickle.loads(pickle.dumps(jk.pillow.as_pillows(jk.BadBox("in other words"))))
    assert isinstance(again, jk.BadBox) and isinstance(again, OSError) and str(again) == "F13 BadBox: in other words"


@pytest.mark.parametrize("module, library, package, extra", [
    ("jk.convert", "tifffile", "python3-tifffile", "convert"), ("jk.convert", "PIL", "python3-pil", "pillow"),
    ("jk.dicom", "pydicom", "python3-pydicom", "dicom"),
])
def test_what_to_install_is_told(tmp_path, module, library, package, extra):
    if library == "PIL":
        pytest.importorskip("tifffile")
    (tmp_path / f"{library}.py").write_text(f"raise ModuleNotFoundError('No module named so', name={library!r})")
    env = {**ENV, "PYTHONPATH": os.pathsep.join([str(tmp_path), *sys.path])}
    words = {"jk.convert": ["a", "b"], "jk.dicom": ["check", "a"]}[module]
    told = subprocess.run([sys.executable, "-m", module, *words], env=env, capture_output=True, text=True)
    due = f"the library {library} isn't there: `apt install {package}`, or `pip install 'jk[{extra}]'`\n"
    assert (told.returncode, told.stderr) == (2, f"{module}: {due}")
    name = {"jk.convert": "convert", "jk.dicom": "encode"}[module]
    told = subprocess.run([sys.executable, "-c", f"from {module} import {name}"], env=env, capture_output=True, text=True)
    assert told.stderr.endswith(f"ImportError: {module}: {due}")


@pytest.mark.parametrize("module", ["jk.pillow", "jk.iiif"])
def test_what_to_install_for_a_module(tmp_path, module):
    (tmp_path / "PIL.py").write_text("raise ModuleNotFoundError('No module named PIL', name='PIL')")
    env = {**ENV, "PYTHONPATH": os.pathsep.join([str(tmp_path), *sys.path])}
    told = subprocess.run([sys.executable, "-c", f"import {module}"], env=env, capture_output=True, text=True)
    assert f"ImportError: {module}: the library PIL isn't there: `apt install python3-pil`" in told.stderr


def test_programs_are_installed():
    found = {name: os.path.join(os.path.dirname(sys.executable), name) for name in ("jk-convert", "jk-dicom", "jk-view")}
    if not all(map(os.path.exists, found.values())):
        pytest.skip("the package isn't installed")
    for path in found.values():
        told = subprocess.run([path, "--help"], capture_output=True, text=True)
        assert told.returncode == 0 and "usage" in told.stdout
    from importlib import metadata
    told = metadata.metadata("jk")
    assert told["License"] and told["Description-Content-Type"] == "text/markdown" and "jk for Python" in metadata.metadata("jk").get_payload()
    assert set(told.get_all("Provides-Extra")) == {"convert", "dask", "dicom", "iiif", "pillow", "view"}


# How much is read.

def big(**how):
    return jk.encode(noise((700, 900, 3)), **how)


FILES = {
    "jp2": lambda: big(), "raw": lambda: big(raw=True), "tiles": lambda: big(tile=(128, 96), levels=2), "layers": lambda: big(layers=8, order="RPCL"),
    "opacity": lambda: jk.encode(noise((500, 600, 4)), opacity="premultiplied"),
    "extras": lambda: jk.with_extras(big(), jk.Extras(xml=(bytes(300000),), xmp=b"x" * 200000, resolution=300)),
    "behind": lambda: big() + b"\0\0\0\x0cfree1234",
}


@pytest.mark.parametrize("name", FILES)
def test_info_of_a_path_reads_headers_alone(tmp_path, name, monkeypatch):
    data = FILES[name]()
    (tmp_path / "a.jp2").write_bytes(data)
    # No file is read whole.
    monkeypatch.setattr(np, "fromfile", None)
    read = []
    pread = os.pread

    def counted(descriptor, length, place):
        read.append(length)
        return pread(descriptor, length, place)

    os.pread = counted
    try:
        told = jk.info(tmp_path / "a.jp2"), jk.info(tmp_path / "a.jp2", 2)
    finally:
        os.pread = pread
    assert told == (jk.info(data), jk.info(data, 2))
    assert 0 < sum(read) < 40000


@pytest.mark.parametrize("name", ["jp2", "tiles"])
def test_info_of_a_path_is_that_of_its_bytes(tmp_path, name):
    """Also where bytes of its boxes and headers are changed, or it is cut off."""
    data, chance = FILES[name](), np.random.default_rng(1)

    def said(file):
        try:
            return jk.info(file)
        except jk.Fault as fault:
            return str(fault)

    seen = set()
    for number in range(150):
        changed = bytearray(data)
        if number % 5 == 0:
            del changed[int(chance.integers(len(data))):]
        else:
            for place in chance.integers(0, 200, 2):
                changed[place] = int(chance.integers(256))
        (tmp_path / "a.jp2").write_bytes(changed)
        assert said(tmp_path / "a.jp2") == said(bytes(changed)), number
        seen.add(type(said(bytes(changed))))
    assert seen == {str, jk.Info}


def test_a_file_that_is_much_larger_than_its_headers(tmp_path):
    """A file of 8 GiB, most of it a box that is left out, is told of at once, and takes no memory."""
    data = big()
    at = data.index(b"jp2c") - 4
    with open(tmp_path / "a.jp2", "wb") as file:
        file.write(data[:at] + b"\0\0\0\1free" + (8 << 30).to_bytes(8, "big"))
        file.seek((8 << 30) - 16, os.SEEK_CUR)
        file.write(data[at:])
    assert jk.info(tmp_path / "a.jp2") == jk.info(data)
    assert _headers.headers_of(tmp_path / "a.jp2").size > 8 << 30


@pytest.mark.skipif(not shutil.which("mkfifo"), reason="mkfifo isn't there")
def test_info_of_a_pipe(tmp_path):
    import threading
    os.mkfifo(tmp_path / "pipe")
    data = jk.encode(noise((9, 11)))
    for call in (jk.info, jk.read):
        thread = threading.Thread(target=lambda: (tmp_path / "pipe").write_bytes(data))
        thread.start()
        found = call(tmp_path / "pipe")
        thread.join(10)
        assert np.array_equal(found, noise((9, 11))) if call is jk.read else found == jk.info(data)
