"""Tokens and receipts: DESK.md, "The lines of gp desk"."""
from __future__ import annotations

from typing import BinaryIO, NamedTuple

from . import crypto
from .lines import Write, malformed, read_lines
from .script import Wrong, check, take_words, token_under, with_length

LAST_NUMBER = 0xFFFF

FORMS = {
    "key": ["KEY"], "unique": ["UNIQUE"], "from": ["NNNN"], "sign": ["BYTE BYTE FIELDS"],
    "receipt": ["RECEIPT AID", "RECEIPT AID AID", "RECEIPT AID AID AID"],
}


class Receipt(NamedTuple):
    mac: bytes
    number: int
    unique: bytes


def read_receipt(data: bytes) -> Receipt | None:
    """A length, 10 and sixteen bytes of CMAC, 02 and the number, a length and the unique data, and no more."""
    if len(data) < 22 or data[0] != len(data) - 1 or data[1] != 0x10 or data[18] != 0x02 or data[21] != len(data) - 22:
        return None
    return Receipt(data[2:18], int.from_bytes(data[19:21], "big"), data[22:])


def receipt_mac(key: bytes, receipt: Receipt, aids: tuple[bytes, ...]) -> bytes:
    """POLICY.md, "Delegated management"."""
    number = b"\x02" + receipt.number.to_bytes(2, "big")
    return crypto.cmac(key, number + b"".join(map(with_length, (receipt.unique, *aids))))


class Desk:
    def __init__(self):
        self.key: bytes | None = None
        self.unique = b""
        self.last = 0
        self.all_fit = True

    def take(self, text: str) -> str | None:
        """What a line writes, if anything."""
        verb, *words = text.split(" ")
        taken = take_words(FORMS, verb, words)
        if verb == "key":
            self.key, = taken
        elif verb == "unique":
            self.unique, = taken
        elif verb == "from":
            self.last = int.from_bytes(taken[0], "big")
        else:
            check(self.key is not None)
            return token_under(self.key, *taken).hex() if verb == "sign" else self.judge(*taken)
        return None

    def judge(self, data: bytes, *aids: bytes) -> str:
        verdict = self.verdict(read_receipt(data), aids)
        self.all_fit &= verdict.startswith("ok")
        return verdict

    def verdict(self, receipt: Receipt | None, aids: tuple[bytes, ...]) -> str:
        if receipt is None:
            return "form"
        if receipt.unique != self.unique:
            return "unique"
        if self.last == LAST_NUMBER:
            return f"number {receipt.number:04x} want none"
        if receipt.number != self.last + 1:
            return f"number {receipt.number:04x} want {self.last + 1:04x}"
        if receipt_mac(self.key, receipt, aids) != receipt.mac:
            return "mac"
        self.last = receipt.number
        return f"ok {receipt.number:04x}"


def desk(source: BinaryIO, write: Write) -> int:
    at = Desk()
    for number, text in read_lines(source):
        try:
            written = at.take(text)
        except Wrong:
            raise malformed(number) from None
        if written is not None:
            write(written)
    return 0 if at.all_fit else 10
