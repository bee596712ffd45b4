"""The command line: python -m jk.convert."""
from __future__ import annotations

import argparse
import contextlib
import os
import shutil
import sys
from typing import Any, Dict, List, Optional

from .executors import cluster
from .images import Refused
from .many import TABLE, CannotConvert, Counts, convert
from .one import Done

USAGE = """python -m jk.convert [OPTION ..] IN.. OUT
       python -m jk.convert [OPTION ..] IN.. --into ARCHIVE"""
ABOUT = """TIFF, PNG, PGM and PPM files to lossless JPEG 2000, and back.

    python -m jk.convert IN.. FOLDER           files and whole folders, to JP2 or what --to says
    python -m jk.convert IN OUT                one file; the ending of OUT says what is written
    python -m jk.convert IN.. --into ARCHIVE   by `jk add`

Taken are RGB of 8 and 16 bits, grey, PGM and PPM of 1 to 16, with an opacity or without, and palettes where --palette
says so. Pages go to OUT-0001, OUT-0002 and so on. Samples are never narrowed: all else is refused, with the way out
told. What is written is read back from the disk and compared, and IN is read a second time by another reader where
there is one. No file is removed or overwritten: where OUT is there already with other bytes, it is refused."""
AFTER = """A folder gets a table, jk-convert.csv, with a row for each file that was written: its digests, what was
carried of profile, resolution and so on, and what wasn't. The status is 1 where a file was refused, and 2 where nothing
was begun; Ctrl-C lets files that are being converted end, and the status is 130."""


def words() -> argparse.ArgumentParser:
    parser = argparse.ArgumentParser("python -m jk.convert", USAGE, ABOUT, AFTER,
                                     formatter_class=argparse.RawDescriptionHelpFormatter)
    parser.add_argument("paths", nargs="+", metavar="IN.. OUT", help="files and folders, and behind them OUT")
    parser.add_argument("--to", choices=("jp2", "tiff", "png", "pnm"), help="what is written to a folder (jp2)")
    parser.add_argument("--csv", metavar="FILE", help=f"the table; of a folder {TABLE} in it, where none is named")
    parser.add_argument("--resume", action="store_true",
                        help="go on with the table: files are passed over of which rows stand and OUT has its digest")
    parser.add_argument("--strict", action="store_true",
                        help="refuse files of which something isn't carried that stands beside the samples")
    parser.add_argument("--geo", action="store_true",
                        help="carry where an image stands on the Earth: GeoTIFF's fields, in JP2 the box of GeoJP2")
    parser.add_argument("--palette", choices=("rgb",),
                        help="write the colours of images with a palette, as RGB, or RGB with opacity where tRNS has it")
    parser.add_argument("--workers", type=int, default=1, metavar="N", help="processes, 1 to 64, of a file each (1)")
    parser.add_argument("--scheduler", metavar="tcp://HOST:PORT",
                        help="convert by the Dask cluster of this scheduler, whose machines have the folders too")
    parser.add_argument("--into", metavar="ARCHIVE", help="add to an archive, in the place of OUT")
    parser.add_argument("--jk", metavar="PROGRAM", help="the program jk, for --into; without it the one on the PATH")
    coding = parser.add_argument_group("how JP2 is written, as by `jk encode`")
    coding.add_argument("--windows", action="store_true",
                        help="make windows small: RPCL, 8 layers, precincts of 128 by 128, unless these are given")
    coding.add_argument("--levels", type=int, metavar="N", help="decomposition levels, 0 to 5 (5)")
    coding.add_argument("--layers", type=int, metavar="N", help="layers, 1 to 32 (1)")
    coding.add_argument("--order", choices=("LRCP", "RLCP", "RPCL", "PCRL", "CPRL"), help="of packets (LRCP)")
    coding.add_argument("--tile-width", type=int, metavar="N", help="the width of a tile; with --tile-height")
    coding.add_argument("--tile-height", type=int, metavar="N", help="the height of a tile")
    coding.add_argument("--no-colour", action="store_true", help="leave the components of a colour image as they are")
    for name, brief in (("reset", "contexts begin anew with each coding pass"),
                        ("causal", "no stripe of a code-block depends on the one below it"),
                        ("segments", "segmentation symbols, by which damage is seen"),
                        ("sop", "SOP before each packet"), ("eph", "EPH behind each packet header"),
                        ("raw", "a bare codestream, OUT.j2k, which holds signed samples too")):
        coding.add_argument(f"--{name}", action="store_true", help=brief)
    return parser


def how_of(asked: argparse.Namespace) -> Dict[str, Any]:
    """What was asked for, as `convert` takes it."""
    names = ("to", "strict", "geo", "palette", "into", "windows", "levels", "layers", "order", "reset", "causal",
             "segments", "sop", "eph", "raw")
    how = {name: getattr(asked, name) for name in names if getattr(asked, name) not in (None, False)}
    if asked.no_colour:
        how["colour"] = False
    if (asked.tile_width is None) != (asked.tile_height is None):
        raise CannotConvert("--tile-width and --tile-height go together")
    if asked.tile_width is not None:
        how["tile"] = (asked.tile_width, asked.tile_height)
    if asked.into:
        how["program"] = shutil.which(asked.jk or "jk")
        if how["program"] is None:
            raise CannotConvert(f"the program {asked.jk or 'jk'} isn't there: --jk PROGRAM says where it is")
    return how


class Telling:
    """Tells of each file, and on a terminal how many there were."""

    def __init__(self, has_table: bool) -> None:
        self.has_table = has_table
        self.bar: Any = None

    def __call__(self, done: Done, number: int, total: int) -> None:
        lines = [done.refused] if done.refused else [] if self.has_table else \
            [f"{row.out}: note: {row.notes}" for row in done.rows]
        if self.bar is None:
            self.bar = bar_of(total)
        for line in lines:
            self.bar.write(f"jk.convert: {done.job.source}: {line}", file=sys.stderr)
        self.bar.update(number - self.bar.n)

    def end(self) -> None:
        if self.bar is not None:
            self.bar.close()


class Plain:
    """What stands for a bar where there is none."""

    n = 0

    def write(self, line: str, file: Any) -> None:
        print(line, file=file, flush=True)

    def update(self, more: int) -> None:
        self.n += more

    def close(self) -> None:
        pass


def bar_of(total: int) -> Any:
    """A bar, of more than one file on a terminal, if Debian's python3-tqdm is there."""
    if total > 1 and sys.stderr.isatty():
        try:
            import tqdm
            return tqdm.tqdm(total=total, unit="file", leave=False, dynamic_ncols=True)
        except ImportError:
            pass
    return Plain()


def summary(counts: Counts) -> str:
    """What became of a folder."""
    told = [f"{counts.converted} converted", f"{counts.passed} passed over"]
    if counts.incomplete:
        told.append(f"of {counts.incomplete} something isn't carried (notes of the table)")
    if counts.others:
        told.append(f"{counts.others} other files in the folders")
    return ", ".join([*told, f"{len(counts.refused)} refused"])


def main(line: Optional[List[str]] = None) -> int:
    parser = words()
    asked = parser.parse_args(line)
    if not asked.into and len(asked.paths) < 2:
        parser.error("OUT is missing")
    sources, target = (asked.paths, None) if asked.into else (asked.paths[:-1], asked.paths[-1])
    is_one = not asked.into and len(sources) == 1 and not os.path.isdir(sources[0]) and not os.path.isdir(target) and \
        not target.endswith(os.sep)
    telling = Telling(not is_one or asked.csv is not None)
    try:
        with contextlib.ExitStack() as opened:
            executor = None
            if asked.scheduler:
                client, executor = cluster(asked.scheduler)
                opened.callback(client.close)
            counts = convert(sources, target, asked.csv, asked.resume, asked.workers, telling, executor=executor,
                             **how_of(asked))
    except (CannotConvert, Refused) as why:
        print(f"jk.convert: {why}", file=sys.stderr)
        return 2
    except OSError as why:
        print(f"jk.convert: it ends here, since the table or a folder can't be written: {why}", file=sys.stderr)
        return 1
    except KeyboardInterrupt:
        return 130
    finally:
        telling.end()
    if telling.has_table:
        print(f"jk.convert: {summary(counts)}", file=sys.stderr)
    return 130 if counts.is_stopped else 1 if counts.refused else 0
