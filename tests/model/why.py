"""Commands one by one, with the rule of each or without: README, "The lines of run and why"."""
from __future__ import annotations

from typing import BinaryIO

from .lines import Write, digits, malformed, read_lines


def run(card, source: BinaryIO, write: Write, rules: bool = False) -> int:
    for number, text in read_lines(source):
        command = digits(text)
        if command is not None:
            reply, rule = card.process(command)
            write(f"{reply.hex()} {rule or '-'}" if rules else reply.hex())
        elif text == "reset":
            card.reset()
        else:
            raise malformed(number)
    return 0


def why(card, source: BinaryIO, write: Write) -> int:
    return run(card, source, write, rules=True)
