"""The mill: SCRIPTS.md, "What `gp mill` plays"."""
from __future__ import annotations

import re
import struct
from collections.abc import Iterator

from cryptography.hazmat.primitives.ciphers import Cipher, algorithms

from . import script
from .card import Card
from .play import Player
from .registry import ISSUER

LEVELS = ("01", "03", "11", "13", "33")
WORDS_A_ROUND = 5


def has_numbers(seed: str, count: str) -> bool:
    if not (re.fullmatch("[0-9]{1,20}", seed) and re.fullmatch("[0-9]{1,5}", count)):
        return False
    return int(seed) < 1 << 64 and 1 <= int(count) <= 10_000


def chosen(seed: int, rounds: int) -> Iterator[tuple[int, ...]]:
    """The words of each round: the key stream of ChaCha20, four bytes a word."""
    key = seed.to_bytes(8, "big") + bytes(24)
    stream = Cipher(algorithms.ChaCha20(key, bytes(16)), mode=None).encryptor()
    for _ in range(rounds):
        yield struct.unpack(f"<{WORDS_A_ROUND}I", stream.update(bytes(4 * WORDS_A_ROUND)))


def lines_of_a_round(level: int, first: int, second: int, number: int, last: int) -> list[str]:
    challenge = f"{first:08x}{second:08x}"
    file, application = f"f0{number:08x}01", f"f0{number:08x}02"
    return [
        "reset",
        f"open 00 {LEVELS[level % 5]} {challenge}",
        f"store 4508{challenge}",
        f"load {file} - none fill {1 + last % 200} {last >> 24:02x}",
        f"install 04 {file} {application} {application} 00 c900",
        f"selectable {application}",
        "list 40",
        f"life 40 80 {application}",
        f"life 40 00 {application}",
        f"delete {file} 80",
    ]


def mill(card: Card, seed: int, rounds: int) -> Iterator[str]:
    player, printed = Player(card), []
    for words in chosen(seed, rounds):
        printed += [player.play(script.parse(line)) for line in lines_of_a_round(*words)]
    texts = [text for text in printed if text is not None]
    fine = sum(text.endswith("9000") for text in texts)
    yield from (f"mill {seed} {rounds}", f"rounds {rounds}", f"9000 {fine}", f"other {len(texts) - fine}")
    sets = card.registry.key_sets(ISSUER)
    yield f"counter {card.registry.counters[ISSUER, sets[0]]:06x}" if sets else "counter none"
