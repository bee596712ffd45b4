"""A process that converts the files that it is told of, one after another: python -m jk.convert.worker."""
from __future__ import annotations

import os
import pickle
import sys

from .one import done


def main() -> int:
    # What a library prints goes to standard error, and not among the replies.
    replies = os.fdopen(os.dup(1), "wb")
    os.dup2(2, 1)
    while True:
        try:
            job = pickle.load(sys.stdin.buffer)
        except EOFError:
            return 0
        try:
            pickle.dump(done(job), replies)
            replies.flush()
        except BrokenPipeError:
            return 1


if __name__ == "__main__":
    sys.exit(main())
