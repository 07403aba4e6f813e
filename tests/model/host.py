"""The host end of SCP03: SCRIPTS.md, "Sessions"; POLICY.md, "Secure messaging"; Amendment D, 6.2."""
from __future__ import annotations

from dataclasses import dataclass
from typing import NamedTuple

from . import crypto

OK = b"\x90\x00"


class Command(NamedTuple):
    """A command of class 80, without Le."""

    ins: int
    p1: int
    p2: int
    data: bytes = b""


class Keys(NamedTuple):
    """The static keys of the host."""

    enc: bytes
    mac: bytes
    dek: bytes


FACTORY_KEYS = Keys(*3 * (bytes(range(0x40, 0x50)),))


class CantOpen(Exception):
    """A reply that can't be opened: its word is what `gp play` prints."""


def on_channel(command: bytes, channel: int) -> bytes:
    return bytes((command[0] | channel,)) + command[1:]


@dataclass(slots=True)
class Session:
    keys: crypto.SessionKeys
    level: int
    chaining: bytes = crypto.ZEROS
    number: int = 0

    @property
    def longest(self) -> int:
        """The longest data field of one protected command."""
        return 239 if self.level & crypto.C_DECRYPTION else 247

    def sign(self, command: Command, sent: bytes) -> bytes:
        """The command as the next message, with its C-MAC."""
        header = bytes((0x84, command.ins, command.p1, command.p2, len(sent) + 8))
        self.chaining = crypto.chain(self.keys, self.chaining, header, sent)
        return header + sent + self.chaining[:8]

    def protect(self, command: Command) -> bytes:
        self.number += 1
        sent = command.data
        if sent and self.level & crypto.C_DECRYPTION:
            sent = crypto.cbc_encrypt(self.keys.enc, crypto.command_icv(self.keys, self.number), crypto.pad(sent))
        return self.sign(command, sent)

    def open_reply(self, reply: bytes) -> bytes:
        """The data in plain and the status word of the reply to the last command."""
        if len(reply) < 2:
            raise CantOpen("short")
        data, status = reply[:-2], reply[-2:]
        if self.level & crypto.R_MAC:
            if not crypto.is_warning_or_fine(status):
                if data:
                    raise CantOpen("padding")
                return status
            data = self.without_mac(data, status)
        if data and self.level & crypto.R_ENCRYPTION:
            data = self.deciphered(data)
        return data + status

    def without_mac(self, data: bytes, status: bytes) -> bytes:
        if len(data) < 8:
            raise CantOpen("short")
        if crypto.reply_mac(self.keys, self.chaining, data[:-8], status) != data[-8:]:
            raise CantOpen("mac")
        return data[:-8]

    def deciphered(self, data: bytes) -> bytes:
        if len(data) % crypto.BLOCK:
            raise CantOpen("padding")
        plain = crypto.unpad(crypto.cbc_decrypt(self.keys.enc, crypto.reply_icv(self.keys, self.number), data))
        if plain is None:
            raise CantOpen("padding")
        return plain


def initialize_update(version: int, challenge: bytes) -> bytes:
    return bytes((0x80, 0x50, version, 0x00, len(challenge))) + challenge


class Offer:
    """What the host makes of the 32 bytes that INITIALIZE UPDATE answers."""

    def __init__(self, static: Keys, host_challenge: bytes, answer: bytes):
        card_challenge, card_cryptogram, self.counter = answer[13:21], answer[21:29], answer[29:32]
        self.keys = crypto.session_keys(*static, host_challenge, card_challenge)
        self.is_right = card_cryptogram == self.keys.card_cryptogram()

    def answer(self, level: int) -> tuple[Session, bytes]:
        """EXTERNAL AUTHENTICATE, and the session that it begins as message 0."""
        session = Session(self.keys, level)
        return session, session.sign(Command(0x82, level, 0x00), self.keys.host_cryptogram())


def key_field(key: bytes, dek: bytes) -> bytes:
    """A key of PUT KEY, enciphered under the static Key-DEK, with its check value."""
    cipher = crypto.cbc_encrypt(dek, crypto.ZEROS, key + bytes(-len(key) % crypto.BLOCK))
    return bytes((0x88, len(cipher) + 1, len(key))) + cipher + b"\x03" + crypto.key_check_value(key)
