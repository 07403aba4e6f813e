#!/usr/bin/env python3
"""Gives `gp_host` the replies of a hostile card or reader, and compares all that it does with the model of tests/model.

usage: hostile.py [--replies N] [--jobs N] [--seed N] [WORD...]      the words run the host (crates/gp_host/out/gp_host)

Each seed is a script of its own and a temper of the card. The card is that of the model; on their way its replies get a bit turned, a
wrong MAC, another status word, are cut, lengthened, exchanged for an earlier one or for 0 to 300 random bytes. Some lines are no
replies: an odd number of digits, other bytes, lines that are too long; or the replies end, after a silence or within a line.

Every run has to end within a minute, with the status, the commands and the transcript that the model has for the same bytes. It goes
on until N replies were given, 100,000 if nothing is said. At last it prints how many replies there were of each kind, how the runs
ended, and what was printed of replies that could not be opened. It ends with 0 where nothing differed.
"""
from __future__ import annotations

import argparse
import io
import multiprocessing
import os
import random
import subprocess
import sys
import tempfile
from collections import Counter
from dataclasses import dataclass, field
from pathlib import Path

from model import image, stream_host
from model.card import Card

TOP = Path(__file__).resolve().parent.parent
SECONDS = 60
NAMED = {0, 2, 3, 8}
WORDS = ("short", "mac", "padding", "cryptogram", "no session", "too long", "want")
# Of a thousand replies, how many are not those of the card.
TEMPERS = (5, 20, 80, 300, 1000)


class Author:
    """Lines of a script that opens sessions again and again, since hostile replies end them."""

    def __init__(self, chance: random.Random):
        self.chance = chance

    def line(self) -> str:
        verb = self.chance.choices(*zip(*VERBS))[0]
        mark = "- " if verb not in QUIET_ALREADY and self.chance.random() < 0.1 else ""
        return mark + verb + getattr(self, verb)()

    def script(self) -> str:
        lines = [self.line() for _ in range(self.chance.randint(60, 160))]
        if self.chance.random() < 0.05:
            lines.insert(self.chance.randrange(len(lines)), self.chance.choice(["send 84ca00c1", "selct", "raw 0", "x" * 523]))
        return "".join(line + "\n" for line in lines)

    def byte(self, *values: int) -> str:
        return f"{self.chance.choice(values):02x}"

    def aid(self) -> str:
        return self.chance.choice(["d2000000aa", "d2000000bb", "d100000001", "a000000151000000", "a0000001515350"])

    def open(self) -> str:
        return f" {self.byte(0, 0, 0, 0x30, 0x31)} {self.byte(0x01, 0x03, 0x11, 0x13, 0x33)} {self.chance.randbytes(8).hex()}"

    def send(self) -> str:
        return " " + self.chance.choice(["80ca00c1", "80ca00e000", "80ca0045", "80f28002024f00", "80ca0042"])

    bad = send

    def raw(self) -> str:
        return " " + self.chance.choice(["80ca00e000", "00a40400", "00700000", "01a40400", "00708001", self.chance.randbytes(9).hex()])

    def select(self) -> str:
        return self.chance.choice(["", "", f" {self.aid()}"])

    def store(self) -> str:
        return f" 4508{self.chance.randbytes(8).hex()}"

    def load(self) -> str:
        return f" {self.aid()} - {self.chance.choice(['none', 'sha1', 'sha256'])} fill {self.chance.randint(1, 3000)} 5a"

    def install(self) -> str:
        return f" 0c a0000001515350 a000000151535041 {self.aid()} 80 c900"

    def putkey(self) -> str:
        size = self.chance.choice((16, 24, 32))
        return f" 00 {self.byte(0x70, 0x71)} {self.chance.randbytes(size).hex()}"

    def life(self) -> str:
        return f" 40 {self.byte(0x80, 0x07, 0x0f)} {self.aid()}"

    def list(self) -> str:
        return f" {self.byte(0x80, 0x40, 0x20, 0x10)}"

    more = list

    def delete(self) -> str:
        return f" {self.aid()} {self.byte(0x00, 0x80)}"

    def want(self) -> str:
        return " 9000"

    def channel(self) -> str:
        return f" {self.chance.choice((0, 0, 0, 1))}"

    def reset(self) -> str:
        return ""


VERBS = [
    ("open", 12), ("send", 20), ("list", 6), ("more", 2), ("store", 5), ("load", 4), ("install", 3), ("putkey", 2), ("life", 3),
    ("delete", 3), ("select", 3), ("raw", 4), ("bad", 1), ("want", 3), ("channel", 2), ("reset", 1),
]
QUIET_ALREADY = {"want", "channel", "reset"}


class Liar:
    """A card between whose replies and the host somebody stands. Each kind of lie is a method; what has no newline is the last."""

    def __init__(self, chance: random.Random):
        self.chance = chance
        self.card = Card(image.factory_registry())
        self.temper = chance.choice(TEMPERS)
        self.old = [b"\x90\x00"]

    def answer(self, line: bytes) -> tuple[str, bytes]:
        """The kind of a reply, and what is sent for it."""
        reply, _ = self.card.process(bytes.fromhex(line.decode()))
        self.old.append(reply)
        kind = "right"
        if self.chance.randrange(1000) < self.temper:
            kind = self.chance.choices(LIES, WEIGHTS)[0]
        return kind, getattr(self, kind)(reply)

    def line(self, reply: bytes) -> bytes:
        return reply.hex().encode() + b"\n"

    right = line

    def bit(self, reply: bytes) -> bytes:
        turned = bytearray(reply)
        turned[self.chance.randrange(len(turned))] ^= 1 << self.chance.randrange(8)
        return self.line(turned)

    def mac(self, reply: bytes) -> bytes:
        return self.line(reply[:-10] + self.chance.randbytes(8) + reply[-2:])

    def status(self, reply: bytes) -> bytes:
        return self.line(reply[:-2] + self.chance.choice((b"\x90\x00", b"\x63\x10", b"\x62\x83", b"\x69\x82", self.chance.randbytes(2))))

    def cut(self, reply: bytes) -> bytes:
        return self.line(reply[:self.chance.randrange(len(reply))])

    def longer(self, reply: bytes) -> bytes:
        return self.line(reply[:-2] + self.chance.randbytes(self.chance.choice((1, 8, 16))) + reply[-2:])

    def earlier(self, _: bytes) -> bytes:
        return self.line(self.chance.choice(self.old))

    def random(self, _: bytes) -> bytes:
        # More than 258 bytes are no reply.
        most = 300 if self.chance.randrange(8) == 0 else 258
        return self.line(self.chance.randbytes(self.chance.choice((0, 1, 2, 3, 32, 34, self.chance.randint(0, most)))))

    def plausible(self, reply: bytes) -> bytes:
        return self.line(self.chance.randbytes(len(reply) - 2) + reply[-2:])

    def two(self, reply: bytes) -> bytes:
        return self.line(reply) + self.line(self.chance.choice(self.old))

    def odd(self, reply: bytes) -> bytes:
        return self.line(reply)[:-2] + b"\n"

    def letter(self, reply: bytes) -> bytes:
        spoilt = bytearray(self.line(reply))
        spoilt[self.chance.randrange(len(spoilt) - 1)] = self.chance.choice(b"gG -\0\r\xff=#")
        return bytes(spoilt)

    def long(self, _: bytes) -> bytes:
        return b"00" * self.chance.choice((262, 300, 5000, 40_000)) + b"\n"

    def binary(self, _: bytes) -> bytes:
        return self.chance.randbytes(self.chance.randint(1, 600)) + b"\n"

    def end(self, _: bytes) -> bytes:
        return b""

    def part(self, reply: bytes) -> bytes:
        line = self.line(reply)
        return line[:self.chance.randrange(1, len(line))]


# The last six are no replies, or the end of them: one of these ends the run.
LIES = ["bit", "mac", "status", "cut", "longer", "earlier", "random", "plausible", "two", "odd", "letter", "long", "binary", "end", "part"]
WEIGHTS = [40, 30, 30, 20, 20, 20, 40, 20, 3, 1, 1, 1, 1, 1, 1]


@dataclass
class Run:
    """What the host did, and the bytes that it was given."""

    status: int | str = "no end"
    commands: bytes = b""
    transcript: bytes = b""
    replies: bytes = b""
    kinds: Counter = field(default_factory=Counter)


def run_host(words: list[str], script: str, liar: Liar) -> Run:
    run = Run()
    with tempfile.TemporaryFile() as transcript:
        pipes = {"stdin": subprocess.PIPE, "stdout": subprocess.PIPE, "stderr": transcript}
        host = subprocess.Popen([*words, script], **pipes)
        try:
            converse(host, liar, run)
            run.commands += host.stdout.read()
            run.status = host.wait(SECONDS)
        except subprocess.TimeoutExpired:
            host.kill()
            host.wait()
        finally:
            host.stdout.close()
        transcript.seek(0)
        run.transcript = transcript.read()
    return run


def converse(host: subprocess.Popen, liar: Liar, run: Run) -> None:
    """Answers the lines of the host until they end, or the replies do."""
    try:
        for line in host.stdout:
            run.commands += line
            if line == b"reset\n":
                liar.card.reset()
                continue
            kind, sent = liar.answer(line)
            run.kinds[kind] += 1
            run.replies += sent
            host.stdin.write(sent)
            host.stdin.flush()
            if not sent.endswith(b"\n"):
                break
    except BrokenPipeError:
        # It has ended within a line that is too long.
        pass
    try:
        host.stdin.close()
    except BrokenPipeError:
        pass


def try_seed(job: tuple[list[str], int]) -> tuple[Counter, Counter, str]:
    words, seed = job
    chance = random.Random(seed)
    with tempfile.NamedTemporaryFile("w", prefix="hostile.") as script:
        script.write(Author(chance).script())
        script.flush()
        run = run_host(words, script.name, Liar(chance))
        commands, transcript = io.BytesIO(), io.BytesIO()
        status = stream_host.host([script.name], io.BytesIO(run.replies), commands, transcript)
    ends = Counter({("status", run.status): 1})
    for line in run.transcript.decode().splitlines():
        ends.update(word for word in WORDS if word in line)
    found = ""
    wanted, got = (status, commands.getvalue(), transcript.getvalue()), (run.status, run.commands, run.transcript)
    if wanted != got or status not in NAMED:
        found = f"seed {seed} differs: the model has {brief(wanted)}, the host {brief(got)}"
    return run.kinds, ends, found


def brief(left: tuple) -> str:
    status, *texts = left
    return f"status {status}, " + ", ".join(f"{len(text.splitlines())} lines that end with {text[-120:]!r}" for text in texts)


def main() -> int:
    parser = argparse.ArgumentParser(usage=__doc__)
    parser.add_argument("--replies", type=int, default=100_000)
    parser.add_argument("--jobs", type=int, default=os.cpu_count())
    parser.add_argument("--seed", type=int, default=1)
    parser.add_argument("host", nargs=argparse.REMAINDER)
    given = parser.parse_args()
    words = given.host or [str(TOP / "crates/gp_host/out/gp_host")]
    kinds, ends, passed, failed = Counter(), Counter(), 0, 0
    with multiprocessing.Pool(given.jobs) as pool:
        jobs = ((words, seed) for seed in range(given.seed, given.seed + given.replies))
        for some_kinds, some_ends, found in pool.imap(try_seed, jobs):
            kinds += some_kinds
            ends += some_ends
            passed, failed = passed + (not found), failed + bool(found)
            if found:
                print(found, flush=True)
            if (passed + failed) % 100 == 0:
                print(f"hostile: {passed + failed} scripts, {kinds.total()} replies", file=sys.stderr, flush=True)
            if kinds.total() >= given.replies or failed >= 20:
                break
        pool.terminate()
    print(f"{kinds.total()} replies in {passed + failed} scripts: " + ", ".join(f"{kind} {count}" for kind, count in kinds.most_common()))
    print("ended with " + ", ".join(f"{status[1]}: {count}" for status, count in sorted(ends.items(), key=str) if isinstance(status, tuple)))
    print("printed " + ", ".join(f"{word} {ends[word]}" for word in WORDS))
    print(f"{passed} passed, {failed} failed")
    return 1 if failed else 0


if __name__ == "__main__":
    sys.exit(main())
