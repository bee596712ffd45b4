"""Files and folders: which are converted, where they go, and the table of what was done."""
from __future__ import annotations

import contextlib
import os
from concurrent.futures import Executor
from dataclasses import dataclass, field
from typing import Any, Callable, Dict, Iterator, List, Optional, Sequence, Set, Tuple, Union

from .._placing import remove_parts
from .executors import by_executor
from .images import ENDINGS
from .into import name_for
from .one import Asked, Done, Job
from .rows import NoTable, Table
from .workers import Stop, each_done

#: The name of a table where none is told.
TABLE = "jk-convert.csv"
Path = Union[str, "os.PathLike[str]"]
#: Told of each file that is done, how many are, and of how many.
Tell = Callable[[Done, int, int], None]


class CannotConvert(ValueError):
    """What was asked for can't be done, whatever the files are."""


@dataclass
class Counts:
    """What became of the files."""

    converted: int = 0
    #: Those that had been converted before.
    passed: int = 0
    #: Of the converted ones those of which something isn't carried.
    incomplete: int = 0
    #: Names, and why.
    refused: List[Tuple[str, str]] = field(default_factory=list)
    #: Files of folders that are none of an image, and are left where they are.
    others: int = 0
    #: Whether it was ended before all were done.
    is_stopped: bool = False

    @property
    def done(self) -> int:
        return self.converted + self.passed + len(self.refused)


@dataclass(frozen=True)
class Plan:
    """Where files go."""

    asked: Asked
    #: OUT is a folder, or an archive.
    is_folder: bool
    target: str
    #: The path of the table; nothing where there is none.
    table: str

    @property
    def base(self) -> str:
        return os.path.dirname(self.table or self.target) or "."


def convert(
    sources: Union[Path, Sequence[Path]], target: Optional[Path] = None, table: Optional[Path] = None,
    resume: bool = False, workers: int = 1, tell: Optional[Tell] = None, *, executor: Optional[Executor] = None,
    to: Optional[str] = None, strict: bool = False, raw: bool = False, geo: bool = False, palette: Optional[str] = None,
    into: Optional[Path] = None, program: Optional[str] = None, windows: bool = False, levels: Optional[int] = None,
    layers: Optional[int] = None, order: Optional[str] = None, tile: Optional[Tuple[int, int]] = None,
    block: Optional[Tuple[int, int]] = None, precincts: Optional[Sequence[Tuple[int, int]]] = None,
    colour: Optional[bool] = None, sop: Optional[bool] = None, eph: Optional[bool] = None, reset: Optional[bool] = None,
    causal: Optional[bool] = None, segments: Optional[bool] = None,
) -> Counts:
    """Converts TIFF, PNG, PGM and PPM files, or folders of them, to JP2 files, and these back.

    `target` is a file, whose ending says what is written, or a folder, of which `to` says it ("jp2", "tiff", "png" or
    "pnm"). `palette` "rgb" writes colours in the place of a palette; `into` is an archive, in the place of `target`, and
    `program` the program jk, for that; the others are parameters of `jk.encode`. A `table` is written for a folder, and for
    a file where it is named; with `resume` it is gone on with, and files are passed over of which the rows stand and hold.
    `workers` is a number of processes; with 1 there is no other than this one. With an `executor`, any of
    `concurrent.futures` or that of a Dask client, that converts the files, on this machine or on others that have the
    folders under the same paths. CannotConvert: nothing was begun.
    """
    if not 1 <= workers <= 64:
        raise CannotConvert(f"{workers} workers aren't from 1 to 64")
    parameters = {"levels": levels, "layers": layers, "order": order, "tile": tile, "block": block, "precincts": precincts,
                  "colour": colour, "sop": sop, "eph": eph, "reset": reset, "causal": causal, "segments": segments}
    asked = {name: it for name, it in parameters.items() if it is not None}
    paths = [os.fspath(it) for it in ([sources] if isinstance(sources, (str, os.PathLike)) else sources)]
    places = [None if it is None else os.fspath(it) for it in (target, table, into)]
    if executor is not None:
        # Processes of others begin in other folders.
        paths = [whole(it) for it in paths]
        places = [None if it is None else whole(it) for it in places]
    plan = planned(paths, places[0], places[1], to=to, strict=strict, raw=raw, geo=geo, palette=palette or "",
                   into=places[2] or "", program=program or "jk", windows=windows, parameters=asked)
    with Stop() as stop, contextlib.ExitStack() as opened:
        run = Run(plan, tell)
        run.list(paths)
        if plan.table:
            run.rows = _table(plan, resume)
            opened.callback(run.rows.close)
        elif resume:
            raise CannotConvert("there is no table to go on with: --csv FILE names it")
        way = each_done(run.jobs(), workers, stop) if executor is None else by_executor(run.jobs(), executor, stop)
        for found in opened.enter_context(contextlib.closing(way)):
            run.take(found)
        run.counts.is_stopped = stop.is_asked and run.counts.done < len(run.files)
    return run.counts


def whole(path: str) -> str:
    """A path from the root; one that ends as a folder's does stays so."""
    return os.path.abspath(path) + (os.sep if path.endswith(os.sep) and os.path.abspath(path) != os.sep else "")


def planned(
    paths: Sequence[str], target: Optional[str], table: Optional[str], *, to: Optional[str], strict: bool, raw: bool,
    geo: bool, palette: str, into: str, program: str, windows: bool, parameters: Dict[str, Any],
) -> Plan:
    """Where files go, and how they are converted."""
    is_folder = bool(into) or len(paths) != 1 or os.path.isdir(paths[0]) or target is not None and (
        os.path.isdir(target) or target.endswith(os.sep))
    if into and (target or raw or to not in (None, "jp2")):
        raise CannotConvert("what goes into an archive is JP2, and has no other OUT")
    if not into and not target:
        raise CannotConvert("there is no OUT")
    if is_folder:
        target = into or target or ""
        to = to or "jp2"
        table = table or os.path.join(target, TABLE)
    else:
        to = _of_ending(target or "", to, raw)
    if to not in ("jp2", "tiff", "png", "pnm"):
        raise CannotConvert(f"{to!r} isn't one of jp2, tiff, png and pnm")
    if into and not os.path.isdir(into):
        raise CannotConvert(f"{into}: there is no such folder")
    if palette not in ("", "rgb"):
        raise CannotConvert(f"{palette!r} isn't rgb, as whose colours a palette is written")
    if windows:
        levels = parameters.get("levels", 5)
        parameters = {"order": "RPCL", "layers": 8, "precincts": [(7, 7)] * (levels + 1), **parameters}
    if to != "jp2" and (raw or parameters):
        raise CannotConvert(f"options say how JP2 is written, and {to} is to be")
    asked = Asked(to, strict, raw, geo, palette, into=into, program=program, parameters=parameters)
    return Plan(asked, is_folder, target or "", table or "")


def _of_ending(target: str, to: Optional[str], raw: bool) -> str:
    """What is written to a file, by its ending."""
    of_ending = ENDINGS.get(os.path.splitext(target)[1].lower())
    if of_ending is None or to not in (None, of_ending):
        raise CannotConvert(f"{target}: its ending isn't that of {to or 'tiff, png, pnm or jp2'}")
    if raw and target.lower().endswith(".jp2"):
        raise CannotConvert(f"{target}: a bare codestream is no JP2 file, and ends with .j2k")
    return of_ending


def _table(plan: Plan, is_resumed: bool) -> Table:
    if plan.is_folder:
        os.makedirs(plan.target, exist_ok=True)
    try:
        return Table(plan.table, is_resumed)
    except (NoTable, OSError) as why:
        raise CannotConvert(str(why)) from why


class Run:
    """The files of a run, its table, and what became of them so far."""

    def __init__(self, plan: Plan, tell: Optional[Tell]) -> None:
        self.plan, self.tell = plan, tell
        self.counts = Counts()
        self.rows: Optional[Table] = None
        #: The names that the files have in the table, and their paths.
        self.files: List[Tuple[str, str]] = []

    def list(self, paths: Sequence[str]) -> None:
        """Finds the files to convert."""
        for path in paths:
            if not os.path.isdir(path):
                self.files.append((os.path.basename(path), path))
                continue
            for at, folders, names in os.walk(path):
                folders.sort()
                for name in sorted(names):
                    kind, whole = ENDINGS.get(os.path.splitext(name)[1].lower()), os.path.join(at, name)
                    if kind is not None and (kind == "jp2") != (self.plan.asked.to == "jp2"):
                        self.files.append((os.path.relpath(whole, path), whole))
                    elif kind is None and name != TABLE:
                        self.counts.others += 1

    def jobs(self) -> Iterator[Job]:
        """A job for each file, as they are asked for. One whose OUT would be that of another is refused here."""
        taken: Dict[str, str] = {}
        folders: Set[str] = set()
        for name, path in self.files:
            stem, ending = self.place(name)
            rows = self.rows.of(name) if self.rows else ()
            job = Job(name, path, stem, ending, self.plan.base, self.plan.asked, rows)
            if stem in taken or "\n" in name or "\r" in name:
                why = f"OUT would be that of {taken[stem]} too" if stem in taken else "its name has a line break"
                self.take(Done(job, refused=why))
                continue
            taken[stem] = name
            folder = os.path.dirname(stem) or "."
            if folder not in folders:
                folders.add(folder)
                os.makedirs(folder, exist_ok=True)
                remove_parts(folder)
            yield job

    def place(self, name: str) -> Tuple[str, str]:
        """Where OUT goes, without its ending, and the ending where it is told."""
        if self.plan.asked.into:
            return os.path.join(self.plan.target, name_for(name)), ""
        if self.plan.is_folder:
            return os.path.join(self.plan.target, os.path.splitext(name)[0]), ""
        return os.path.splitext(self.plan.target)

    def take(self, found: Done) -> None:
        """Counts a file, and writes its rows when it was converted."""
        if found.refused:
            self.counts.refused.append((found.job.name, found.refused))
        elif found.is_passed:
            self.counts.passed += 1
        else:
            if self.rows:
                self.rows.add(found.rows)
            self.counts.converted += 1
            self.counts.incomplete += any("not carried" in row.notes for row in found.rows)
        if self.tell:
            self.tell(found, self.counts.done, len(self.files))
