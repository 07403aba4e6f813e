"""Lines of standard input, and how a run stops: README, "The lines of run and why" and "Statuses"."""
from __future__ import annotations

import re
from typing import BinaryIO, Callable, Iterator

LONGEST_LINE = 522
INPUT_LIMIT = 67_108_864

Write = Callable[[str], None]
DIGITS = re.compile("(?:[0-9a-fA-F]{2})+")


class Stop(Exception):
    """Ends a run before its input does, with a status and perhaps a last line."""

    def __init__(self, status: int, text: str | None = None):
        super().__init__(status, text)
        self.status = status
        self.text = text


def malformed(number: int) -> Stop:
    return Stop(2, f"line {number}")


def whole_lines(source: BinaryIO) -> Iterator[bytes]:
    try:
        yield from source
    except OSError:
        raise Stop(5) from None


def read_lines(source: BinaryIO) -> Iterator[tuple[int, str]]:
    """The lines that do something, each with its number. Blank lines and comments count as lines."""
    room = INPUT_LIMIT
    for number, line in enumerate(whole_lines(source), 1):
        is_whole = line.endswith(b"\n")
        is_cut = len(line) > room or (len(line) == room and not is_whole)
        text = line[:room]
        if is_whole or is_cut:
            text = text.removesuffix(b"\n").removesuffix(b"\r")
        if len(text) > LONGEST_LINE:
            raise malformed(number)
        if is_cut:
            raise Stop(9)
        room -= len(line)
        if text.strip(b" ") and not text.startswith(b"#"):
            yield number, text.decode("latin-1")
        if not room:
            raise Stop(9)


def digits(word: str) -> bytes | None:
    """The bytes that an even number of hexadecimal digits spell, at least two."""
    return bytes.fromhex(word) if DIGITS.fullmatch(word) else None
