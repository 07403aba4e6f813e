"""BER-TLV, in its one spelling."""

from collections.abc import Iterator


class BadTlv(Exception):
    """The bytes are no data objects."""


def length_of(data: bytes, at: int, longest: int = 3) -> tuple[int, int]:
    """A length at a place, in as few bytes as can be and no more than `longest`, and the place after it."""
    if at >= len(data):
        raise BadTlv
    first = data[at]
    if first < 0x80:
        return first, at + 1
    count = first - 0x80
    digits = data[at + 1:at + 1 + count]
    if count not in (1, 2) or 1 + count > longest or len(digits) != count:
        raise BadTlv
    length = int.from_bytes(digits, "big")
    if length < (0x80 if count == 1 else 0x100):
        raise BadTlv
    return length, at + 1 + count


def tag_of(data: bytes, at: int) -> tuple[int, int]:
    """A tag at a place, of one byte that is not 00 or of two, and the place after it."""
    tag = data[at]
    if tag == 0x00:
        raise BadTlv
    if tag & 0x1F != 0x1F:
        return tag, at + 1
    if at + 1 >= len(data) or data[at + 1] >= 0x80 or data[at + 1] < 0x1F:
        raise BadTlv
    return tag << 8 | data[at + 1], at + 2


def elements(data: bytes) -> Iterator[tuple[int, bytes]]:
    """The data objects that the bytes are, one after the other: tag and value."""
    at = 0
    while at < len(data):
        tag, at = tag_of(data, at)
        length, at = length_of(data, at)
        if at + length > len(data):
            raise BadTlv
        yield tag, data[at:at + length]
        at += length


def read(data: bytes) -> list[tuple[int, bytes]] | None:
    """All of them, or None where the bytes are none."""
    try:
        return list(elements(data))
    except BadTlv:
        return None


def write(tag: int, value: bytes) -> bytes:
    """A data object: a tag below 0100 in one byte, any other in two."""
    spelled = bytes((tag,)) if tag < 0x100 else tag.to_bytes(2, "big")
    if len(value) < 0x80:
        return spelled + bytes((len(value),)) + value
    return spelled + bytes((0x81, len(value))) + value
