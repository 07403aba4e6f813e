#!/usr/bin/env python3
"""Plays the cases of crates/cases on the model of tests/model.

usage: cases_on_model.py [--list] [NAME ...]

Plays all cases, or those with these names, and compares what each writes with its part of crates/cases/stdout. docs/TESTS.md
has the language. A case that asks for what the model doesn't have is left out whole: calls on the device that fail, power that
is lost, a registry that is committed in words. Lines that ask how many calls there were are passed over, with what they write.
--list names the cases that are left out.

For each case that differs it prints the first line that does. At last it prints how many passed, failed and were left out. It
ends with 0 where none failed.
"""
from __future__ import annotations

import argparse
import importlib
import io
import itertools
import os
import sys
import tempfile
from dataclasses import dataclass, field
from pathlib import Path
from types import ModuleType, SimpleNamespace

CASES = Path(__file__).resolve().parent.parent / "crates" / "cases"
LEFT_OUT = {"fuse", "once", "cut", "fail", "|", "set", "commit"}
PASSED_OVER = {"calls", "counts"}
AMPLE = 65536
MODULES = ("card", "gp", "image", "listing", "mill", "play", "script")

PAGE, PAGES = 256, 608
FIRST_LOAD_PAGE = 96
# Of each kind: where its first slot is, and how many bytes a slot has.
SLOTS = {"entry": (0x100, 64), "file": (0x900, 256), "key": (0x1900, 64), "object": (0x2500, 128)}


# ---- Cases

@dataclass(slots=True)
class Case:
    name: str
    lines: list[str] = field(default_factory=list)
    wanted: list[str] = field(default_factory=list)

    @property
    def is_left_out(self) -> bool:
        return any(line.partition(" ")[0] in LEFT_OUT for line in self.lines)


def parts(path: Path) -> dict[str, list[str]]:
    """The lines after each line `case NAME`."""
    found: dict[str, list[str]] = {}
    part: list[str] = []
    for line in path.read_text("utf-8", "surrogateescape").removesuffix("\n").split("\n"):
        if line.startswith("case "):
            name = line.removeprefix("case ")
            if name in found:
                raise ValueError(f"two cases are named {name}")
            part = found[name] = []
        else:
            part.append(line)
    return found


def read_cases(stdin: Path = CASES / "stdin", stdout: Path = CASES / "stdout") -> list[Case]:
    wanted = parts(stdout)
    return [Case(name, [line for line in lines if line and not line.startswith("#")], wanted.get(name, []))
            for name, lines in parts(stdin).items()]


# ---- A registry in words

def sized(data: bytes, room: int = 16) -> bytes:
    """A length, and the bytes in their room."""
    return bytes((len(data),)) + data.ljust(room, b"\x00")


class Layout:
    """Lays things out in pages, each in the next slot of its kind, as POLICY.md says in "The card in its file"."""

    def __init__(self, pages: bytearray):
        self.pages = pages
        self.names: dict[str, list[str]] = {kind: [] for kind in SLOTS}
        self.load_pages = 0

    def lay(self, kind: str, words: list[str]) -> None:
        getattr(self, "lay_" + {"domain": "entry", "app": "entry"}.get(kind, kind))(words)

    def put(self, kind: str, name: str, slot: bytes) -> None:
        first, size = SLOTS[kind]
        at = first + size * len(self.names[kind])
        self.pages[at:at + len(slot)] = slot
        self.names[kind].append(name)

    def slot_of(self, kind: str, name: str) -> bytes:
        return bytes((self.names[kind].index(name),))

    def lay_card(self, words: list[str]) -> None:
        self.pages[0:6] = b"GPCD\x03" + bytes.fromhex(words[0])

    def lay_entry(self, words: list[str]) -> None:
        aid, _, domain, _, file, _, module, _, life, _, privileges, _, receipts = words
        above = self.slot_of("entry", domain) if domain != aid else bytes((len(self.names["entry"]),))
        numbers = bytes.fromhex(life + privileges + receipts)
        self.put("entry", aid, b"\x01" + sized(bytes.fromhex(aid)) + above + self.slot_of("file", file)
                 + sized(bytes.fromhex(module)) + numbers)

    def lay_file(self, words: list[str]) -> None:
        aid, _, domain, _, size, _, fill = words
        # The factory's file comes before its domain.
        owner = self.slot_of("entry", domain) if self.names["file"] else b"\x00"
        numbers, ninth = self.fill_pages(int(size), bytes.fromhex(fill))
        head = b"\x01" + sized(bytes.fromhex(aid)) + owner + int(size).to_bytes(2, "big")
        self.put("file", aid, head.ljust(64, b"\x00") + numbers.ljust(128, b"\x00") + ninth.to_bytes(16, "big"))

    def fill_pages(self, size: int, fill: bytes) -> tuple[bytes, int]:
        """Fills the next load pages. Answers the low eight bits of their numbers, and the ninth bits, the first one highest."""
        numbers = range(self.load_pages, self.load_pages + -(-size // PAGE))
        at = (FIRST_LOAD_PAGE + self.load_pages) * PAGE
        self.pages[at:at + size] = fill * size
        self.load_pages += len(numbers)
        return bytes(number % 256 for number in numbers), sum(number // 256 << 127 - at for at, number in enumerate(numbers))

    def lay_key(self, words: list[str]) -> None:
        owner, version, identifier, key, counter = words
        self.put("key", "", b"\x01" + self.slot_of("entry", owner) + bytes.fromhex(version + identifier)
                 + sized(bytes.fromhex(key), 32) + bytes.fromhex(counter))

    def lay_object(self, words: list[str]) -> None:
        owner, tag, value = words
        self.put("object", "", b"\x01" + self.slot_of("entry", owner) + bytes.fromhex(tag) + sized(bytes.fromhex(value), 0))


# ---- Streams whose calls are counted, and some refused

class Source(io.RawIOBase):
    """Gives what it holds in pieces."""

    def __init__(self, given: bytes, piece: int, refused: set[int]):
        self.left = io.BytesIO(given)
        self.piece = piece
        self.refused = refused
        self.calls = itertools.count()

    def readable(self) -> bool:
        return True

    def readinto(self, buffer: memoryview) -> int:
        if next(self.calls) in self.refused:
            raise OSError
        return self.left.readinto(buffer[:self.piece])


class Sink:
    """Takes what it has room for."""

    def __init__(self, room: int, refused: set[int]):
        self.text = b""
        self.room = room
        self.refused = refused
        self.calls = itertools.count()

    def write(self, text: bytes) -> int:
        self.flush()
        if len(self.text) + len(text) > self.room:
            raise OSError
        self.text += text
        return len(text)

    def flush(self) -> None:
        if next(self.calls) in self.refused:
            raise OSError


# ---- A case, as far as its lines have made it

@dataclass(slots=True)
class Streams:
    """How the streams of the next run behave."""
    piece: int = AMPLE
    room: int = AMPLE
    reads: set[int] = field(default_factory=set)
    writes: set[int] = field(default_factory=set)

    def set(self, name: str, words: list[str]) -> None:
        numbers = set(map(int, words))
        setattr(self, name, numbers if name in ("reads", "writes") else numbers.pop())


class Bench:
    def __init__(self, model: SimpleNamespace, path: Path):
        self.model = model
        self.path = path
        self.streams = Streams()
        self.pages = bytearray(PAGES * PAGE)
        self.kept = b""
        self.layout: Layout | None = None
        self.player = None
        self.input = b""
        self.last = b"", ""
        self.written: list[str] = []

    def act(self, line: str) -> None:
        verb, _, rest = line.partition(" ")
        words = rest.split(" ")
        match verb:
            case "format" | "keep" | "again" | "sent" | "rule":
                getattr(self, "do_" + verb)()
            case "page":
                self.put(*words)
            case "image":
                data = (CASES / "data" / rest).read_bytes()
                self.pages[:] = data.ljust(len(self.pages), b"\x00")
            case "card" | "file" | "domain" | "app" | "key" | "object":
                self.laid().lay(verb, words)
            case "look":
                self.look(*map(int, words))
            case "power" if rest == "on":
                self.power_on()
            case "power":
                self.off()
            case "<":
                self.input += rest.encode("utf-8", "surrogateescape") + b"\n"
            case "bytes":
                self.input += repeated(*words)
            case "gp":
                self.gp(rest.split("/") if " " in line else [])
            case "count":
                text = self.call(["show"], b"")[0].decode()
                self.write(str(sum(shown.startswith(rest + " ") for shown in text.splitlines())))
            case "mill":
                self.mill(*map(int, words))
            case ">":
                self.step(rest)
            case "piece" | "room" | "reads" | "writes":
                self.streams.set(verb, words)
            case _:
                raise ValueError(f"no such line: {line}")

    def write(self, text: str) -> None:
        self.written.append(text)

    # ---- The pages

    def off(self) -> None:
        """The power goes off. What is laid out next begins with the first slots again."""
        if self.player is not None:
            self.pages[:] = self.model.image.write_image(self.player.card.registry).ljust(len(self.pages), b"\x00")
        self.player = self.layout = None

    def laid(self) -> Layout:
        if self.layout is None:
            self.off()
            self.layout = Layout(self.pages)
        return self.layout

    def put(self, page: str, place: str, *words: str) -> None:
        self.laid()
        data, at = repeated(*words), int(page) * PAGE + int(place)
        self.pages[at:at + len(data)] = data

    def do_keep(self) -> None:
        self.off()
        self.kept = bytes(self.pages)

    def do_again(self) -> None:
        self.off()
        self.pages[:] = self.kept

    def look(self, page: int, place: int, count: int) -> None:
        self.off()
        at = page * PAGE + place
        self.write(self.pages[at:at + count].hex())

    # ---- The program

    def call(self, words: list[str], given: bytes) -> tuple[bytes, int]:
        """What `gp` writes, and its status."""
        self.off()
        self.path.write_bytes(self.pages)
        asked, self.streams = self.streams, Streams()
        source, sink = io.BufferedReader(Source(given, asked.piece, asked.reads)), Sink(asked.room, asked.writes)
        status = self.model.gp.gp(words, self.path, source, sink)
        self.pages[:] = self.path.read_bytes().ljust(len(self.pages), b"\x00")
        return sink.text, status

    def do_format(self) -> None:
        self.call(["format"], b"")

    def gp(self, words: list[str]) -> None:
        text, status = self.call(words, self.input)
        self.input = b""
        lines = text.decode("utf-8", "replace").removesuffix("\n").split("\n") if text else []
        self.written += [*lines, f"status {status}"]

    def mill(self, seed: int, rounds: int) -> None:
        for words in self.model.mill.chosen(seed, rounds):
            self.written += self.model.mill.lines_of_a_round(*words)

    # ---- Lines of a script

    def power_on(self) -> None:
        self.off()
        self.last = b"", ""
        try:
            registry = self.model.image.read_image(bytes(self.pages))
        except self.model.image.BadImage:
            self.write("no card")
            return
        self.player = self.model.play.Player(self.model.card.Card(registry, self.note))

    def note(self, command: bytes, _reply: bytes, rule: str) -> None:
        self.last = command, rule

    def step(self, text: str) -> None:
        if self.player is None:
            self.power_on()
        if self.player is None or not text.strip(" ") or text.startswith("#"):
            return
        asks = text.startswith(("why ", "- why "))
        try:
            line = self.model.script.parse(text.replace("why ", "raw ", 1) if asks else text)
        except self.model.script.Wrong:
            self.write("no form")
            return
        shown = self.player.play(line)
        if shown is not None:
            self.write(f"{shown} {self.last[1] or '-'}" if asks else shown)

    def do_sent(self) -> None:
        self.write(self.last[0].hex())

    def do_rule(self) -> None:
        self.write(self.last[1] or "-")


def repeated(digits: str, times: str = "x1") -> bytes:
    return bytes.fromhex(digits) * int(times.removeprefix("x"))


# ---- Playing

def load_model() -> SimpleNamespace:
    """The modules of the model."""
    modules: dict[str, ModuleType] = {name: importlib.import_module("model." + name) for name in MODULES}
    return SimpleNamespace(**modules)


def first_difference(case: Case, model: SimpleNamespace, path: Path) -> tuple[str, str] | None:
    """The first line that is wanted and what came in its place, or None where the case passes."""
    bench, at = Bench(model, path), 0
    for line in case.lines:
        if line in PASSED_OVER:
            bench.write(case.wanted[at])
            at += 1
            continue
        try:
            bench.act(line)
        except Exception as error:
            bench.write(f"({type(error).__name__}: {error})")
        for came in bench.written[at:]:
            wanted = case.wanted[at] if at < len(case.wanted) else "(nothing)"
            if came != wanted:
                return wanted, came
            at += 1
    return None if at == len(case.wanted) else (case.wanted[at], "(nothing)")


def in_memory() -> Path | None:
    """A folder in memory, where there is one."""
    shm = Path("/dev/shm")
    return shm if shm.is_dir() else None


def scratch_file() -> Path:
    """A file for the card."""
    handle, name = tempfile.mkstemp(prefix="card", dir=in_memory())
    os.close(handle)
    return Path(name)


def main() -> int:
    parser = argparse.ArgumentParser(description="Plays the cases of crates/cases on the model.")
    parser.add_argument("--list", action="store_true", help="name the cases that are left out")
    parser.add_argument("names", nargs="*", metavar="NAME")
    options = parser.parse_args()
    cases = [case for case in read_cases() if not options.names or case.name in options.names]
    played = [case for case in cases if not case.is_left_out]
    if options.list:
        print(*(case.name for case in cases if case.is_left_out), sep="\n")
    model, path, failed = load_model(), scratch_file(), 0
    try:
        for case in played:
            difference = first_difference(case, model, path)
            if difference is not None:
                failed += 1
                print(f"{case.name}\n  wanted {difference[0]}\n  came   {difference[1]}")
    finally:
        path.unlink(missing_ok=True)
    print(f"{len(played) - failed} passed, {failed} failed, {len(cases) - len(played)} left out")
    return 1 if failed else 0


if __name__ == "__main__":
    sys.exit(main())
