"""The table of a run, a CSV file: a row for each file that was written and checked."""
from __future__ import annotations

import csv
import fcntl
import io
import os
from dataclasses import astuple, dataclass, fields
from typing import Dict, List, Sequence, Tuple

#: The longest row that is read.
csv.field_size_limit(1 << 24)


class NoTable(ValueError):
    """A table that can't be gone on with, and why."""


@dataclass(frozen=True)
class Row:
    """A file that was written."""

    #: The file that was read, by its path below the folder that was named.
    name: str
    #: Its bytes.
    size: int
    #: The file that was written, by its path from the table's folder.
    out: str
    #: Which of the files it is that were made of that one, as 1/3.
    part: str
    #: Width, height, components and bits of a sample.
    image: str
    #: Of samples row by row and pixel by pixel, those of more than 8 bits as two bytes, the lower one first.
    sha256_of_samples: str
    sha256_of_out: str
    #: What was carried of what stood beside the samples.
    carried: str
    notes: str
    seconds: str


HEAD = tuple(field.name for field in fields(Row))


def _line(cells: Sequence[object]) -> bytes:
    room = io.StringIO()
    csv.writer(room, lineterminator="\n").writerow([" ".join(str(cell).split("\n")) for cell in cells])
    return room.getvalue().encode("utf-8", "surrogateescape")


class Table:
    """A table that rows are added to, by one program at a time."""

    def __init__(self, path: str, is_resumed: bool) -> None:
        self.path = path
        self.rows: Dict[str, List[Row]] = {}
        self.file = os.open(path, os.O_RDWR | os.O_APPEND | os.O_CREAT, 0o666)
        try:
            self._begin(is_resumed)
        except BaseException:
            os.close(self.file)
            raise

    def _begin(self, is_resumed: bool) -> None:
        try:
            fcntl.flock(self.file, fcntl.LOCK_EX | fcntl.LOCK_NB)
        except BlockingIOError as error:
            raise NoTable(f"{self.path}: another jk.convert writes to it") from error
        with open(self.path, "rb") as file:
            text = file.read()
        if text and not is_resumed:
            raise NoTable(f"{self.path} is there already: --resume goes on with it, and --csv FILE names another")
        # A row that was cut off, by a full disk or a power cut, isn't one.
        whole = text[: text.rfind(b"\n") + 1]
        if whole:
            self._take(whole)
        os.ftruncate(self.file, len(whole))
        if not whole:
            self._append(_line(HEAD))

    def _take(self, text: bytes) -> None:
        lines = csv.reader(io.StringIO(text.decode("utf-8", "surrogateescape"), newline=""))
        if tuple(next(lines)) != HEAD:
            raise NoTable(f"{self.path} isn't a table of jk.convert")
        for cells in lines:
            if len(cells) != len(HEAD) or not cells[1].isdecimal():
                raise NoTable(f"{self.path}: line {lines.line_num} isn't a row")
            row = Row(cells[0], int(cells[1]), *cells[2:])
            self.rows.setdefault(row.name, []).append(row)

    def of(self, name: str) -> Tuple[Row, ...]:
        """The rows of a file, if all of them are there."""
        found = {row.part: row for row in self.rows.get(name, ())}
        count = int(next(iter(found), "/0").split("/")[1])
        return tuple(found.values()) if len(found) == count else ()

    def add(self, rows: Sequence[Row]) -> None:
        """Adds the rows of a file, all or none."""
        self._append(b"".join(_line(astuple(row)) for row in rows))

    def _append(self, text: bytes) -> None:
        begin = os.fstat(self.file).st_size
        try:
            if os.write(self.file, text) != len(text):
                raise OSError(28, "a row was cut off", self.path)
            os.fsync(self.file)
        except OSError:
            os.ftruncate(self.file, begin)
            raise

    def close(self) -> None:
        # Processes that were begun meanwhile may have the file open too.
        fcntl.flock(self.file, fcntl.LOCK_UN)
        os.close(self.file)
