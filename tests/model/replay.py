"""A log played again: README, "gp", the word `replay`."""
from __future__ import annotations

from typing import BinaryIO

from .lines import Write, digits, malformed, read_lines


def replay(card, source: BinaryIO, write: Write) -> int:
    """A line `= 9000`, with spaces or none, has to follow a command, with nothing but blank lines and comments between, and has a status
    word at least."""
    last, differed = None, False
    for number, text in read_lines(source):
        command, wanted = digits(text), digits(text[1:].lstrip(" ")) if text.startswith("=") else None
        if command is not None:
            last = card.process(command)[0]
        elif text == "reset":
            card.reset()
            last = None
        elif last is None or wanted is None or len(wanted) < 2:
            raise malformed(number)
        else:
            if wanted != last:
                differed = True
                write(f"line {number} want {wanted.hex()} got {last.hex()}")
            last = None
    return 8 if differed else 0
