"""LOAD: a file that comes in blocks."""

import hashlib

from . import tlv
from .delegation import confirm, confirmer, is_delegated
from .keys import manages_content
from .live import Answer, Command, Live, Load
from .registry import BLOCKS, FILE_BYTES, LOAD_PAGES, PAGE, File, Registry, pages_for
from .rules import FINE, Refused


def load(live: Live, command: Command) -> Answer:
    try:
        return take_block(live, command)
    except Refused as refused:
        if refused.rule not in ("P", "LO2"):
            live.end_load(command.channel)
        raise


def take_block(live: Live, command: Command) -> Answer:
    registry, domain, load = live.registry, command.domain, live.load
    is_last = command.p1 == 0x80
    if command.p1 not in (0x00, 0x80): raise Refused("P")
    if not command.data: raise Refused("S")
    manages_content(live, command)
    if load is None or load.channel != command.channel.number or load.blocks == BLOCKS: raise Refused("LO1")
    if command.p2 != load.blocks: raise Refused("LO2")
    announced, block = load.announced, command.data
    if announced is None:
        first = first_block(block)
        if first is None: raise Refused("LO3")
        announced, block = first
    if announced > FILE_BYTES or pages_for(announced) > registry.free_pages(): raise Refused("LO4")
    content = load.content + block
    if len(content) > announced or is_last and len(content) < announced: raise Refused("LO5")
    if is_last and not has_hash(content, load.hash): raise Refused("LO6")
    if is_last and not registry.is_at_or_below(load.domain, domain.aid): raise Refused("LO7")
    receipter = confirmer(registry, domain, "LO8") if is_last and is_delegated(domain) else None
    load.announced, load.content, load.blocks = announced, content, load.blocks + 1
    write_pages(registry, load, is_last)
    if not is_last:
        return b"\x00", FINE
    registry.add_file(File(load.aid, load.domain, content, load.pages))
    live.end_load(command.channel)
    return confirm(registry, receipter, load.aid, load.domain)


def first_block(block: bytes) -> tuple[int, bytes] | None:
    """The length that the first block announces, and the bytes after it."""
    try:
        length, at = tlv.length_of(block, 1)
    except tlv.BadTlv:
        return None
    return (length, block[at:]) if block[0] == 0xC4 and length else None


def has_hash(content: bytes, digest: bytes) -> bool:
    if not digest:
        return True
    return digest == (hashlib.sha1 if len(digest) == 20 else hashlib.sha256)(content).digest()


def write_pages(registry: Registry, load: Load, is_last: bool) -> None:
    """Each page that is full, and with the last block what is left, stands in the lowest page that is free."""
    taken = {page for file in registry.files.values() for page in file.pages} | set(load.pages)
    whole = pages_for(len(load.content)) if is_last else len(load.content) // PAGE
    for number in range(len(load.pages), whole):
        page = next(page for page in range(LOAD_PAGES) if page not in taken)
        taken.add(page)
        load.pages.append(page)
        registry.load_pages[page] = load.content[number * PAGE:(number + 1) * PAGE].ljust(PAGE, b"\x00")
        registry.stage("load", page)
