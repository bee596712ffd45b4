"""The command line: python -m jk.dicom."""
from __future__ import annotations

import argparse
import sys
import warnings
from typing import List, Optional, Set

from ..faults import Fault
from .comparing import differences
from .pixels import Refused
from .reading import opened
from .unused import claimed
from .writing import decode, encode, judge_native, judged_frames

ABOUT = """DICOM files with lossless JPEG 2000 (transfer syntax 1.2.840.10008.1.2.4.90), and back.

Every sample and every other element comes back as it was; what can't is refused, and nothing is written then. OUT is
written beside its place and renamed."""
OF_ENCODE = """IN is native: implicit or explicit VR, little or big endian, or deflated; of 1 sample a pixel
(MONOCHROME1, MONOCHROME2, PALETTE COLOR) or 3 (RGB, which becomes YBR_RCT; YBR_FULL), signed or not, of 1 to 16 bits
in 8 or 16."""
OF_DECODE = """IN is JPEG 2000 (.90, or .91 if it is of the reversible path); OUT is of explicit VR, little endian."""
OF_CHECK = """Each FILE is read from end to end: of an encoded one every frame is decoded and compared with what the
elements tell, and of a native one it is told whether `encode` takes it. With --against, samples and elements are
compared with those of another file, of either form; the status is 1 where they differ."""


def words() -> argparse.ArgumentParser:
    parser = argparse.ArgumentParser("python -m jk.dicom", description=ABOUT,
                                     formatter_class=argparse.RawDescriptionHelpFormatter)
    commands = parser.add_subparsers(dest="command", required=True, metavar="COMMAND")
    for name, about, brief in (("encode", OF_ENCODE, "native frames to codestreams"),
                               ("decode", OF_DECODE, "codestreams to native frames")):
        command = commands.add_parser(name, help=brief, description=about)
        command.add_argument("input", metavar="IN", help="the file to read")
        command.add_argument("output", metavar="OUT", help="the file to write, in the place of one that is there")
    command = commands.choices["encode"]
    command.add_argument("--unpack-overlays", action="store_true",
                         help="make an element of its own, 60xx,3000, of each overlay in unused bits of samples")
    command.add_argument("--clear-unused", action="store_true",
                         help="clear unused bits that no overlay claims, whatever they were")
    command = commands.add_parser("check", help="whether files are whole, or mean the same", description=OF_CHECK)
    command.add_argument("files", metavar="FILE", nargs="+")
    command.add_argument("--against", metavar="ORIGINAL", help="the file that FILE was made of, or of FILE")
    return parser


def check(path: str, against: Optional[str], note: "Notes") -> List[str]:
    """Reads a file from end to end; what differs from another one."""
    with opened(path) as found:
        frames = found.frames(note)
        if not found.fragments:
            judge_native(found)
            frames = judged_frames(found, claimed(found.dataset), 0, note)
        for _ in frames:
            pass
        print(f"{path}: {found.pixels}, {found.syntax.name}")
    return differences(path, against, note) if against else []


class Notes:
    """Tells each note of a file once."""

    def __init__(self, path: str) -> None:
        self.path = path
        self.told: Set[str] = set()

    def __call__(self, text: str) -> None:
        if text not in self.told:
            self.told.add(text)
            print(f"jk.dicom: {self.path}: note: {text}", file=sys.stderr)


def run(asked: argparse.Namespace, path: str) -> bool:
    """Whether all went well with a file."""
    note = Notes(path)
    # What pydicom warns of is told as a note too.
    warnings.simplefilter("always")
    warnings.showwarning = lambda message, *_: note(str(message))
    try:
        if asked.command == "check":
            found = check(path, asked.against, note)
            print("".join(f"{path}: {line}\n" for line in found), end="")
            return not found
        if asked.command == "encode":
            encode(path, asked.output, asked.unpack_overlays, asked.clear_unused, note)
        else:
            decode(path, asked.output, note)
        return True
    except (Fault, Refused, OSError) as why:
        print(f"jk.dicom: {path}: {why}", file=sys.stderr)
        return False


def main(line: Optional[List[str]] = None) -> int:
    parser = words()
    asked = parser.parse_args(line)
    files = asked.files if asked.command == "check" else [asked.input]
    if asked.command == "check" and asked.against and len(files) != 1:
        parser.error("with --against there is one FILE")
    return 0 if all([run(asked, path) for path in files]) else 1
