"""The host over a pair of streams: docs/READERS.md.

    python3 -m model.stream_host FILE       what `gp_host FILE` does
"""
from __future__ import annotations

import os
import re
import sys
from collections.abc import Callable
from typing import BinaryIO

from .gp import is_utf8
from .lines import INPUT_LIMIT, LONGEST_LINE, Stop
from .play import play

USAGE = "usage: gp_host FILE"
REPLY = re.compile(b"(?:[0-9a-fA-F]{2}){0,258}")


class StreamCard:
    """What stands for a card: a command goes out as a line, and the line that comes is its reply."""

    def __init__(self, replies: BinaryIO, write: Callable[[str], None]):
        self.replies = replies
        self.write = write
        self.number = self.taken = 0

    def reset(self) -> None:
        self.write("reset")

    def process(self, command: bytes) -> tuple[bytes, str]:
        self.write(command.hex())
        self.number += 1
        line = self.next_line()
        if len(line) > LONGEST_LINE or not REPLY.fullmatch(line):
            raise Stop(3, f"reply {self.number}")
        return bytes.fromhex(line.decode()), ""

    def next_line(self) -> bytes:
        try:
            line = self.replies.readline(LONGEST_LINE + 2) if self.taken < INPUT_LIMIT else b""
        except OSError:
            line = b""
        self.taken += len(line)
        if not line or self.taken > INPUT_LIMIT:
            raise Stop(3, "no reply")
        return line.removesuffix(b"\n").removesuffix(b"\r") if line.endswith(b"\n") else line


def writer(sink: BinaryIO) -> Callable[[str], None]:
    """Each line is handed on at once."""
    def write(line: str) -> None:
        try:
            sink.write(line.encode() + b"\n")
            sink.flush()
        except OSError:
            raise Stop(6) from None
    return write


def open_script(words: list[str]) -> BinaryIO:
    if not all(map(is_utf8, words)):
        raise Stop(1)
    if len(words) != 1:
        raise Stop(1, USAGE)
    try:
        script = os.open(words[0], os.O_RDONLY | os.O_CLOEXEC)
    except (OSError, ValueError):
        raise Stop(5, "no script") from None
    try:
        return os.fdopen(script, "rb")
    except OSError:
        # A folder is opened, but can't be read.
        raise Stop(5) from None


def host(words: list[str], replies: BinaryIO, commands: BinaryIO, transcript: BinaryIO) -> int:
    """What `gp_host` does with these words and streams; gives the exit status."""
    tell = writer(transcript)
    try:
        try:
            with open_script(words) as script:
                return play(StreamCard(replies, writer(commands)), script, tell)
        except Stop as stop:
            if stop.text is not None:
                tell(stop.text)
            return stop.status
    except Stop as stop:
        return stop.status


def stream(number: int, mode: str) -> BinaryIO:
    """A standard stream; where it is closed, one that refuses."""
    try:
        return open(number, mode, closefd=False)
    except OSError:
        return os.fdopen(os.open(os.devnull, os.O_PATH | os.O_CLOEXEC), mode)


if __name__ == "__main__":
    os._exit(host(sys.argv[1:], stream(0, "rb"), stream(1, "wb"), stream(2, "wb")))
