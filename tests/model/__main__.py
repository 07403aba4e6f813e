"""python3 -m model WORD [CARD]: what `gp WORD` does, with the card in the file CARD instead of card.img."""
import os
import sys
from pathlib import Path

from .gp import gp


class Closed:
    """A standard stream that was closed: each call is refused."""

    def __iter__(self):
        raise OSError

    def write(self, _: bytes):
        raise OSError

    def flush(self) -> None:
        pass


def main(words: list[str]) -> int:
    own = 3 if words[:1] == ["mill"] else 1
    path = Path(words.pop() if len(words) == own + 1 else "card.img")
    source = sys.stdin.buffer if sys.stdin else Closed()
    sink = open(1, "wb", buffering=0, closefd=False) if sys.stdout else Closed()
    return gp(words, path, source, sink)


# Not by sys.exit, which would flush standard output once more and complain where it is closed.
os._exit(main(sys.argv[1:]))
