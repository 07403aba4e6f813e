#!/usr/bin/env python3
"""Plays random scripts on the built program and on the model of tests/model, and compares all that both leave.

usage: differ.py [--gp PROGRAM] [--lines N] [--jobs N] SEED ...      a seed is a number, or two with a hyphen: 1-500

Each seed is a script of its own (random_script.py), of 400 lines or as many as --lines says, on a card of its own. What is compared:
what `gp play` prints, and its status; what `gp why` prints of the same commands on another such card, so each reply, and the rule
that decided; what `gp show` prints then, and after each tenth script `gp access`; and both files of cards, byte for byte.

A script that differs is made as short as it can be, and printed with both texts, for a case in crates/cases. At last it prints
how many commands were played, and by kind how many were accepted, refused by a rule of their own, and refused before. It ends
with 0 where nothing differed.
"""
from __future__ import annotations

import argparse
import multiprocessing
import os
import subprocess
import sys
import tempfile
from collections import Counter
from dataclasses import dataclass, field
from pathlib import Path

from model import access, image, listing, script
from model.card import Card
from model.play import Player
from random_script import Author, start_of

TOP = Path(__file__).resolve().parent.parent
GENERAL = {f"G{number}" for number in range(1, 9)} | {"P", "S"}
MANAGING = {"LOAD", "PUT KEY", "STORE DATA", "DELETE", "SET STATUS", "GET STATUS"}
INSTRUCTIONS = {
    0xA4: "SELECT", 0x70: "MANAGE CHANNEL", 0xCA: "GET DATA", 0x50: "INITIALIZE UPDATE", 0x82: "EXTERNAL AUTHENTICATE",
    0xE8: "LOAD", 0xD8: "PUT KEY", 0xE2: "STORE DATA", 0xE4: "DELETE", 0xE6: "INSTALL", 0xF0: "SET STATUS", 0xF2: "GET STATUS",
}
INSTALLS = {0x02: "for load", 0x04: "for install", 0x08: "for make selectable", 0x0C: "for install", 0x10: "for extradition"}


@dataclass
class Left:
    """What a script leaves: texts, the status of `play`, and the files of both cards."""

    printed: str = ""
    status: int = 0
    why: str = ""
    show: str = ""
    access: str = ""
    first: bytes = b""
    second: bytes = b""


@dataclass
class Played:
    """A script on the model, and its commands for `gp why`."""

    left: Left
    commands: list[str] = field(default_factory=list)
    log: list[tuple[bytes, bytes, str]] = field(default_factory=list)


def on_model(start: bytes, lines: list[str], rights: bool) -> Played:
    """What the model leaves; with `rights` also what it says of `gp access`, which takes as long as a script."""
    log, commands = [], []

    def note(command: bytes, reply: bytes, rule: str) -> None:
        log.append((command, reply, rule))
        commands.append(command.hex())

    card = Card(image.read_image(start), note)
    player = Player(card)
    printed = []
    for line in lines:
        if line == "reset":
            commands.append(line)
        shown = player.play(script.parse(line))
        if shown is not None:
            printed.append(shown)
    kept = image.write_image(card.registry)
    left = Left(
        text(printed), 0, text(f"{reply.hex()} {rule or '-'}" for _, reply, rule in log),
        text(listing.show(card.registry)), text(access.access(card.registry)) if rights else "", kept, kept,
    )
    return Played(left, commands, log)


def text(lines) -> str:
    return "".join(line + "\n" for line in lines)


def call(program: str, word: str, folder: Path, given: str = "") -> tuple[str, int]:
    ended = subprocess.run([program, word], cwd=folder, input=given.encode(), capture_output=True)
    return ended.stdout.decode(), ended.returncode


def on_program(program: str, start: bytes, lines: list[str], commands: list[str], rights: bool) -> Left:
    with tempfile.TemporaryDirectory(prefix="differ.") as name:
        first, second = Path(name, "first"), Path(name, "second")
        for folder in (first, second):
            folder.mkdir()
            (folder / "card.img").write_bytes(start)
        printed, status = call(program, "play", first, text(lines))
        why, _ = call(program, "why", second, text(commands))
        show, _ = call(program, "show", first)
        may = call(program, "access", first)[0] if rights else ""
        return Left(printed, status, why, show, may, (first / "card.img").read_bytes(), (second / "card.img").read_bytes())


def differences(ours: Left, theirs: Left) -> list[str]:
    """The first line that differs of each text, and the first byte of each file."""
    found = []
    for name in ("printed", "why", "show", "access"):
        mine, other = getattr(ours, name).splitlines(), getattr(theirs, name).splitlines()
        if mine != other:
            at = next((n for n, pair in enumerate(zip(mine, other)) if pair[0] != pair[1]), min(len(mine), len(other)))
            found.append(f"{name}, line {at + 1}: the model has {''.join(mine[at:at + 1])}, the program {''.join(other[at:at + 1])}")
    if ours.status != theirs.status:
        found.append(f"status: the model has {ours.status}, the program {theirs.status}")
    for name in ("first", "second"):
        mine, other = getattr(ours, name), getattr(theirs, name)
        if mine != other:
            at = next((n for n, pair in enumerate(zip(mine, other)) if pair[0] != pair[1]), min(len(mine), len(other)))
            found.append(f"{name} card, page {at // 256}, byte {at % 256}: the model has {mine[at:at + 8].hex()}, the program {other[at:at + 8].hex()}")
    return found


def compare(program: str, start: bytes, lines: list[str], rights: bool) -> list[str]:
    ours = on_model(start, lines, rights)
    return differences(ours.left, on_program(program, start, lines, ours.commands, rights))


def shorten(program: str, start: bytes, lines: list[str], rights: bool) -> list[str]:
    """Leaves out lines, half of them, then quarters, and so on, as long as something differs."""
    size = len(lines) // 2
    while size:
        at = 0
        while at < len(lines):
            fewer = lines[:at] + lines[at + size:]
            if compare(program, start, fewer, rights):
                lines = fewer
            else:
                at += size
        size //= 2
    return lines


def kind_of(command: bytes) -> str:
    if len(command) < 4:
        return "other"
    name = INSTRUCTIONS.get(command[1], "other")
    if name == "INSTALL":
        return f"INSTALL [{INSTALLS.get(command[2], 'other')}]"
    return name


def outcome_of(rule: str) -> str:
    return "accepted" if not rule else "before" if rule in GENERAL else "own rules"


def try_seed(job: tuple[str, int, int]) -> tuple[int, Counter, str]:
    """How many commands a seed played, by kind and outcome and by rule, and a report where something differs."""
    program, count, seed = job
    start = start_of(seed)
    author = Author(seed, start)
    author.compose(count)
    rights = seed % 10 == 0
    played = on_model(start, author.lines, rights)
    counts = Counter((kind_of(command), outcome_of(rule)) for command, _, rule in played.log)
    counts.update(("rule", rule) for _, _, rule in played.log if rule)
    found = differences(played.left, on_program(program, start, author.lines, played.commands, rights))
    if not found:
        return len(played.log), counts, ""
    lines = shorten(program, start, author.lines, rights)
    ours = on_model(start, lines, rights)
    theirs = on_program(program, start, lines, ours.commands, rights)
    report = [f"seed {seed} differs:", *differences(ours.left, theirs), "-- the card", *listing.show(image.read_image(start)), "-- the script", *lines, "-- the model prints", ours.left.printed,
              "-- the program prints", theirs.printed]
    return len(played.log), counts, "\n".join(report)


def seeds(words: list[str]) -> list[int]:
    found: list[int] = []
    for word in words:
        first, _, last = word.partition("-")
        found += range(int(first), int(last or first) + 1)
    return found


def write_counts(total: int, counts: Counter) -> None:
    outcomes = ("accepted", "own rules", "before")
    print(f"{'':32}{outcomes[0]:>12}{outcomes[1]:>12}{outcomes[2]:>12}")
    for kind in sorted({kind for kind, _ in counts if kind != "rule"}):
        print(f"{kind:32}" + "".join(f"{counts[kind, outcome]:12}" for outcome in outcomes))
    managed = [sum(counts[kind, outcome] for kind, o in counts if o == outcome and (kind in MANAGING or kind.startswith("INSTALL")))
               for outcome in outcomes]
    print(f"{'card content management':32}" + "".join(f"{number:12}" for number in managed))
    rules = sorted((rule, number) for (kind, rule), number in counts.items() if kind == "rule")
    print(f"{len(rules)} rules: " + ", ".join(f"{rule} {number}" for rule, number in rules))
    print(f"{total} commands")


def main() -> int:
    given = argparse.ArgumentParser(usage=__doc__)
    given.add_argument("--gp", default=str(TOP / "gp"))
    given.add_argument("--lines", type=int, default=400)
    given.add_argument("--jobs", type=int, default=os.cpu_count())
    given.add_argument("seed", nargs="+")
    words = given.parse_args()
    jobs = [(os.path.abspath(words.gp), words.lines, seed) for seed in seeds(words.seed)]
    total, counts, differing = 0, Counter(), 0
    with multiprocessing.Pool(words.jobs) as pool:
        for done, (number, found, report) in enumerate(pool.imap_unordered(try_seed, jobs), 1):
            total += number
            if done % 100 == 0:
                print(f"differ: {done} of {len(jobs)} scripts, {total} commands", file=sys.stderr, flush=True)
            counts.update(found)
            if report:
                differing += 1
                print(report, flush=True)
    write_counts(total, counts)
    print(f"{len(jobs) - differing} passed, {differing} failed")
    return 1 if differing else 0


if __name__ == "__main__":
    sys.exit(main())
