"""What dist/MANIFEST says, and whether dist/ is what it says."""
import os
import re

from common import DIST, text_of, digest_of

MANIFEST = os.path.join(DIST, "MANIFEST")


def files_in(folder):
    """The files of a release, by their places in it."""
    found = [os.path.join(at, it) for at, _, files in os.walk(folder) for it in files]
    places = [os.path.relpath(it, folder) for it in found if not os.path.islink(it)]
    return sorted((it for it in places if it != "MANIFEST"), key=os.fsencode)


def said():
    """What the manifest says: the digests of files, and what stands behind each of the other words."""
    lines = text_of(MANIFEST).splitlines() if os.path.exists(MANIFEST) else []
    digests = [line for line in lines if re.match(r"[0-9a-f]{64}  ", line)]
    words = [line for line in lines if re.match(r"[a-z]+ ", line)]
    return {line[66:]: line[:64] for line in digests}, dict(line.split(" ", 1) for line in words)


def is_whole():
    """Whether dist/ has the bytes that the manifest names, and no others; lines tell what differs."""
    digests, _ = said()
    there = {it: digest_of(os.path.join(DIST, it)) for it in files_in(DIST)}
    others = sorted(it for it in {*digests, *there} if digests.get(it) != there.get(it))
    for it in others:
        print(f"tools/release: dist/{it} isn't what dist/MANIFEST says")
    return not others
