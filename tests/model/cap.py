"""CAP files to scripts: DESK.md, "gp cap: from a CAP file to a script"; Java Card Virtual Machine Specification 3, chapter 6."""
from __future__ import annotations

import hashlib
from typing import BinaryIO, NamedTuple

from .host import Command
from .lines import Stop, digits, malformed, read_lines
from .script import AID_LENGTHS, install_of, load_blocks, with_length

LARGEST = 32768
LONGEST_BLOCK = 239
HEADER, APPLET = 1, 3
MAGIC = bytes.fromhex("decaffed")


class Component(NamedTuple):
    at: int
    tag: int
    content: bytes


def cant(why: str) -> Stop:
    return Stop(11, f"cap {why}")


def components(data: bytes) -> list[Component]:
    """A tag that is not 00, a size in two bytes, and as many bytes."""
    found, at = [], 0
    while at < len(data):
        size = int.from_bytes(data[at + 1:at + 3], "big")
        end = at + 3 + size
        if data[at] == 0 or end > len(data):
            raise cant(f"component {at}")
        found.append(Component(at, data[at], data[at + 3:end]))
        at = end
    return found


def aid_at(content: bytes, at: int) -> bytes | None:
    """A length and an AID."""
    aid = content[at + 1:at + 1 + content[at]] if at < len(content) else b""
    return aid if len(aid) in AID_LENGTHS and len(aid) == content[at] else None


def package_of(found: list[Component]) -> bytes:
    """The AID of the package: after the magic, two versions of two bytes and the flags."""
    aid = aid_at(found[0].content, 9) if found and found[0].tag == HEADER and found[0].content.startswith(MAGIC) else None
    if aid is None:
        raise cant("header")
    return aid


def applets_of(component: Component) -> list[bytes]:
    """How many there are, and of each the AID after its length, and an offset in two bytes."""
    content, at, aids = component.content, 1, []
    for _ in range(content[0] if content else 1):
        aid = aid_at(content, at)
        if aid is None or at + 3 + len(aid) > len(content):
            raise cant(f"applets {component.at}")
        aids.append(aid)
        at += 3 + len(aid)
    return aids


def pack(data: bytes) -> list[Command]:
    if len(data) > LARGEST:
        raise cant("large")
    found = components(data)
    package = package_of(found)
    seen = set()
    for component in found:
        if component.tag in seen and component.tag in (HEADER, APPLET):
            raise cant(f"twice {component.at}")
        seen.add(component.tag)
    applets = [aid for component in found if component.tag == APPLET for aid in applets_of(component)]
    return [
        install_of(0x02, package, b"", hashlib.sha256(data).digest(), b""),
        *load_blocks(data, LONGEST_BLOCK),
        *(install_of(0x0C, package, aid, aid, b"\0", b"\xc9\0") for aid in applets),
    ]


def cap(source: BinaryIO) -> list[str]:
    """The lines of the script. Nothing is written before all lines of the input are read."""
    spelled = []
    for number, text in read_lines(source):
        data = digits(text)
        if data is None:
            raise malformed(number)
        spelled.append(data)
    return ["send 80" + (bytes(command[:3]) + with_length(command.data)).hex() for command in pack(b"".join(spelled))]
