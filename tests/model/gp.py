"""The program: README, "gp" and "The file"; STATUS.md, "How gp ends"."""
from __future__ import annotations

import fcntl
import os
from collections.abc import Iterable, Iterator
from contextlib import contextmanager
from pathlib import Path
from typing import BinaryIO, Callable

from . import access, cap, desk, image, listing, mill, play, replay, why
from .card import Card
from .lines import Stop, Write

USAGE = "usage: gp format | run | why | replay | play | mill SEED COUNT | show | access | desk | cap"
LONGEST_FILE = 155_648
LONGEST_WRITE = 4096

RUNS = {"run": why.run, "why": why.why, "replay": replay.replay, "play": play.play}
SHOWS = {"show": listing.show, "access": access.access}


@contextmanager
def device(path: Path, flags: int = 0) -> Iterator[int]:
    """The file of the card, open and locked. Where it fails, the run ends with 3."""
    try:
        file = os.open(path, os.O_RDWR | os.O_CLOEXEC | flags, 0o600)
        try:
            fcntl.flock(file, fcntl.LOCK_EX | fcntl.LOCK_NB)
            yield file
        finally:
            os.close(file)
    except OSError:
        raise Stop(3) from None


def with_card(path: Path, act: Callable[[Card], int]) -> int:
    """Powers the card on and acts; what has changed stays, however that ends."""
    if not path.exists():
        return 4
    with device(path) as file:
        before = os.pread(file, LONGEST_FILE, 0)
        try:
            card = Card(image.read_image(before))
        except image.BadImage:
            return 4
        try:
            return act(card)
        finally:
            after = image.write_image(card.registry)
            if after != before:
                os.pwrite(file, after, 0)


def make(path: Path) -> int:
    """`card.img` as it leaves the factory."""
    with device(path, os.O_CREAT) as file:
        os.pwrite(file, image.write_image(image.factory_registry()), 0)
    return 0


def write_all(lines: Iterable[str], write: Write) -> int:
    for line in lines:
        write(line)
    return 0


def write_together(lines: Iterable[str], write: Write) -> int:
    """As many lines by one write as have room in it."""
    texts = [""]
    for line in lines:
        if len(texts[-1]) + len(line) + 1 > LONGEST_WRITE:
            texts.append("")
        texts[-1] += line + "\n"
    return write_all((text.removesuffix("\n") for text in texts), write)


def is_utf8(word: str) -> bool:
    """Python puts lone surrogates in the place of bytes that are none."""
    return not any(0xD800 <= ord(letter) < 0xE000 for letter in word)


def do(words: list[str], path: Path, source: BinaryIO, write: Write) -> int:
    if not all(map(is_utf8, words)):
        raise Stop(1)
    match words:
        case ["format"]:
            return make(path)
        case [verb] if verb in RUNS:
            return with_card(path, lambda card: RUNS[verb](card, source, write))
        case [verb] if verb in SHOWS:
            return with_card(path, lambda card: write_all(SHOWS[verb](card.registry), write))
        case ["desk"]:
            return desk.desk(source, write)
        case ["cap"]:
            return write_together(cap.cap(source), write)
        case ["mill", seed, count] if mill.has_numbers(seed, count):
            make(path)
            return with_card(path, lambda card: write_together(mill.mill(card, int(seed), int(count)), write))
    raise Stop(1, USAGE)


def gp(words: list[str], path: Path, source: BinaryIO, sink: BinaryIO) -> int:
    """What `gp` does with these words on the card in this file; gives the exit status."""
    def write(line: str) -> None:
        text = line.encode() + b"\n"
        try:
            while text:
                text = text[sink.write(text):]
        except OSError:
            raise Stop(6) from None
    try:
        try:
            status = do(words, path, source, write)
        except Stop as stop:
            if stop.text is not None:
                write(stop.text)
            status = stop.status
    except Stop as stop:
        status = stop.status
    return status if status in (4, 6) else flushed(sink, status)


def flushed(sink: BinaryIO, status: int) -> int:
    """The status after the flush that ends a run. The first fault counts."""
    try:
        sink.flush()
    except OSError:
        return status if status in (3, 5) else 6
    return status
