"""The lines of a script: SCRIPTS.md. Each verb has its forms in a table, and what it sends is a function of its words."""
from __future__ import annotations

import hashlib
import re
from collections.abc import Callable
from typing import Any, NamedTuple

from . import crypto
from .host import Command, key_field
from .lines import digits


class Wrong(Exception):
    """A line that is an error."""


def check(is_right: bool) -> None:
    if not is_right:
        raise Wrong


# ---- Words

def take_bytes(word: str, *lengths: int) -> bytes:
    """As many bytes as one of these lengths says, or any number."""
    data = digits(word)
    check(data is not None and (not lengths or len(data) in lengths))
    return data


def take_byte(word: str) -> int:
    return take_bytes(word, 1)[0]


def byte_of(*values: int) -> Callable[[str], int]:
    def take(word: str) -> int:
        value = take_byte(word)
        check(value in values)
        return value
    return take


def take_apdu(word: str) -> Command:
    """A short command of class 80, in one of its four forms, without Le."""
    data = take_bytes(word)
    check(len(data) >= 4 and data[0] == 0x80)
    lc = data[4] if len(data) > 5 else 0
    check(len(data) <= 5 or lc != 0 and len(data) - 5 - lc in (0, 1))
    return Command(*data[1:4], data[5:5 + lc])


def of_lengths(*lengths: int, empty: str | None = None) -> Callable[[str], bytes]:
    return lambda word: b"" if word == empty else take_bytes(word, *lengths)


def number(least: int, most: int) -> Callable[[str], int]:
    def take(word: str) -> int:
        check(re.fullmatch("0|[1-9][0-9]*", word) is not None and least <= int(word) <= most)
        return int(word)
    return take


def one_of(*words: str) -> Callable[[str], str]:
    def take(word: str) -> str:
        check(word in words)
        return word
    return take


AID_LENGTHS, KEY_LENGTHS = range(5, 17), (16, 24, 32)

WORDS: dict[str, Callable[[str], Any]] = {
    "BYTE": take_byte, "04|0C": byte_of(0x04, 0x0C), "LL": byte_of(*crypto.LEVELS), "CHALLENGE": of_lengths(8),
    "SSSS": of_lengths(2), "HEX": take_bytes,
    "AID": of_lengths(*AID_LENGTHS), "DOMAIN": of_lengths(*AID_LENGTHS, empty="-"), "PARTIAL": of_lengths(*range(1, 17)),
    "KEY": of_lengths(*KEY_LENGTHS), "TOKENKEY": of_lengths(*KEY_LENGTHS, empty="none"),
    "RAW": of_lengths(*range(1, 259)), "APDU": take_apdu, "CHANNEL": number(0, 3),
    "HASH": one_of("none", "sha1", "sha256"), "FILL": one_of("fill"), "N": number(1, 60_000),
    "PRIV": of_lengths(1, 3), "PARAMS": of_lengths(*range(1, 128), empty="-"),
    "UNIQUE": of_lengths(*range(1, 21), empty="-"), "NNNN": of_lengths(2), "FIELDS": of_lengths(*range(1, 256), empty="-"),
    "RECEIPT": of_lengths(*range(1, 49)),
}

# ---- Lines

# No two forms of a verb have as many words.
FORMS = {
    "open": ["BYTE LL CHALLENGE"], "keys": ["KEY KEY KEY"], "channel": ["CHANNEL"], "reset": [""],
    "select": ["", "AID"], "raw": ["RAW"], "send": ["APDU"], "bad": ["APDU"],
    "putkey": ["BYTE BYTE KEY", "BYTE BYTE KEY KEY KEY"], "store": ["RAW"], "life": ["BYTE BYTE", "BYTE BYTE AID"],
    "list": ["BYTE", "BYTE PARTIAL"], "more": ["BYTE", "BYTE PARTIAL"],
    "load": ["AID DOMAIN HASH HEX", "AID DOMAIN HASH FILL N BYTE"], "install": ["04|0C AID AID AID PRIV PARAMS"],
    "selectable": ["AID"], "extradite": ["AID AID"], "delete": ["AID BYTE"],
    "tokenkey": ["TOKENKEY"], "badtoken": ["KEY"], "want": ["SSSS"],
}
SENDS_NOTHING = {"keys", "channel", "reset", "tokenkey", "badtoken", "want"}
IN_PLAIN = {"open", "select", "raw"}


class Line(NamedTuple):
    verb: str
    words: tuple
    quiet: bool


def take_words(forms: dict[str, list[str]], verb: str, words: list[str]) -> tuple:
    """What the words of a verb stand for, in the form that has as many."""
    for form in forms.get(verb, []):
        kinds = form.split()
        if len(kinds) == len(words):
            taken = tuple(WORDS[kind](word) for kind, word in zip(kinds, words))
            check(len({len(key) for kind, key in zip(kinds, taken) if kind == "KEY"}) <= 1)
            return taken
    raise Wrong


def parse(text: str) -> Line:
    quiet = text.startswith("- ")
    verb, *words = text.removeprefix("- ").split(" ")
    check(not (quiet and verb in SENDS_NOTHING))
    return Line(verb, take_words(FORMS, verb, words), quiet)


# ---- Tokens

Token = Callable[[int, int, bytes], bytes]


def with_length(data: bytes) -> bytes:
    return bytes((len(data),)) + data


def token_under(key: bytes, p1: int, p2: int, fields: bytes) -> bytes:
    """POLICY.md, "Delegated management"."""
    return crypto.cmac(key, bytes((p1, p2)) + with_length(fields))


def no_token(_p1: int, _p2: int, _fields: bytes) -> bytes:
    return b""


def token_maker(key: bytes, is_bad: bool = False) -> Token:
    """What `tokenkey` and `badtoken` choose."""
    def make(p1: int, p2: int, fields: bytes) -> bytes:
        made = token_under(key, p1, p2, fields)
        return made[:-1] + bytes((made[-1] ^ is_bad,))
    return make if key else no_token


# ---- What a line sends in a session: the host's means and the words of the line make commands

class Means(NamedTuple):
    dek: bytes
    longest: int
    token: Token


def send(_: Means, command: Command) -> list[Command]:
    return [command]


def putkey(means: Means, old: int, new: int, *keys: bytes) -> list[Command]:
    fields = b"".join(key_field(key, means.dek) for key in keys)
    return [Command(0xD8, old, 0x81 if len(keys) == 3 else 0x01, bytes((new,)) + fields)]


def store(_: Means, data: bytes) -> list[Command]:
    return [Command(0xE2, 0x90, 0x00, data)]


def life(_: Means, p1: int, p2: int, aid: bytes = b"") -> list[Command]:
    return [Command(0xF0, p1, p2, aid)]


def list_part(p2: int) -> Callable[..., list[Command]]:
    return lambda _, p1, aid=b"": [Command(0xF2, p1, p2, b"\x4f" + with_length(aid))]


def install_of(p1: int, *fields: bytes, token: Token = no_token) -> Command:
    """INSTALL with these fields, each after its length, and the token at last."""
    data = b"".join(map(with_length, fields))
    return Command(0xE6, p1, 0x00, data + with_length(token(p1, 0x00, data)))


def load(means: Means, file: bytes, domain: bytes, hash_name: str, *content: Any) -> list[Command]:
    data = content[0] if len(content) == 1 else bytes((content[2],)) * content[1]
    digest = b"" if hash_name == "none" else hashlib.new(hash_name, data).digest()
    return [install_of(0x02, file, domain, digest, b"", token=means.token), *load_blocks(data, means.longest)]


def load_blocks(data: bytes, longest: int) -> list[Command]:
    size = len(data)
    length = bytes((size,)) if size < 0x80 else bytes((0x81, size)) if size < 0x100 else b"\x82" + size.to_bytes(2, "big")
    whole = b"\xc4" + length + data
    blocks = [whole[at:at + longest] for at in range(0, len(whole), longest)]
    return [Command(0xE8, 0x80 if at == len(blocks) - 1 else 0x00, at, block) for at, block in enumerate(blocks)]


def install(means: Means, p1: int, *fields: bytes) -> list[Command]:
    return [install_of(p1, *fields, token=means.token)]


def selectable(means: Means, aid: bytes) -> list[Command]:
    return [install_of(0x08, b"", b"", aid, b"", b"", token=means.token)]


def extradite(means: Means, aid: bytes, domain: bytes) -> list[Command]:
    return [install_of(0x10, domain, b"", aid, b"", b"", token=means.token)]


def delete(means: Means, aid: bytes, p2: int) -> list[Command]:
    data = b"\x4f" + with_length(aid)
    token = means.token(0x00, p2, data)
    return [Command(0xE4, 0x00, p2, data + (b"\x9e" + with_length(token) if token else b""))]


COMMANDS: dict[str, Callable[..., list[Command]]] = {
    "send": send, "bad": send, "putkey": putkey, "store": store, "life": life, "list": list_part(0x02), "more": list_part(0x03),
    "load": load, "install": install, "selectable": selectable, "extradite": extradite, "delete": delete,
}
