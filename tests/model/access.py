"""Who may do what: ACCESS.md. Each line stands for a command that the card accepts in a session of that domain."""
from __future__ import annotations

import copy
from collections.abc import Iterator
from dataclasses import replace
from itertools import count

from . import host, script
from .card import Card
from .host import Command
from .registry import FACTORY_FILE, FACTORY_MODULE, KEY_DEK, KEY_ENC, KEY_MAC, TOKEN_KEY, Registry

CHALLENGE, LEVEL, HASH = bytes(8), 0x01, bytes(32)


def copy_of(registry: Registry) -> Registry:
    """A registry of its own, as far as commands change things in their places, and on no device."""
    kinds = ("entries", "files", "keys", "counters", "objects")
    copies = {kind: {name: copy.copy(value) for name, value in getattr(registry, kind).items()} for kind in kinds}
    return replace(registry, **copies, staged={}, device=None)


def begin(registry: Registry, domain: bytes) -> tuple[Card, host.Session | None]:
    """A card as it is after power on, and a session of the domain on the basic channel, where one can be opened."""
    card = Card(copy_of(registry))
    selected, rule = card.process(b"\x00\xa4\x04\x00" + script.with_length(domain))
    if rule or selected[4:4 + selected[3]] != domain:
        return card, None
    answer, rule = card.process(host.initialize_update(0x00, CHALLENGE))
    if rule:
        return card, None
    owner, version = registry.whose_sets(domain), answer[10]
    static = host.Keys(*(registry.keys[owner, version, part].value for part in (KEY_ENC, KEY_MAC, KEY_DEK)))
    session, command = host.Offer(static, CHALLENGE, answer[:-2]).answer(LEVEL)
    return card, session if card.process(command)[0] == host.OK else None


def tokens(registry: Registry, domain: bytes) -> script.Token:
    """Those of the domain's verifier, where it has one. The card doesn't read the token of a command that needs none."""
    verifier = registry.verifier(domain)
    return script.no_token if verifier is None else script.token_maker(registry.keys[verifier.aid, TOKEN_KEY, 0x01].value)


def deeds(registry: Registry, domain: bytes) -> Iterator[tuple[str, Command]]:
    """All that a domain might do, in the order of the lines."""
    means = script.Means(b"", 0, tokens(registry, domain))
    entries, files = sorted(registry.entries), sorted(registry.files)
    things = sorted(entries + files)
    new = next(aid for aid in (b"\xf0" + number.to_bytes(4, "big") for number in count()) if aid not in things)
    for x in things:
        yield f"delete {domain.hex()} {x.hex()}", *script.delete(means, x, 0x00)
    for x in files:
        yield f"related {domain.hex()} {x.hex()}", *script.delete(means, x, 0x80)
    for x in entries:
        verb, p2 = ("unlock", 0x00) if registry.entries[x].locked else ("lock", 0x80)
        yield f"{verb} {domain.hex()} {x.hex()}", *script.life(means, 0x40, p2, x)
    for x in things:
        for d in (aid for aid in entries if registry.entries[aid].is_domain):
            yield f"move {domain.hex()} {x.hex()} {d.hex()}", *script.extradite(means, x, d)
    for x in files:
        module, privileges = (FACTORY_MODULE, b"\x80") if x == FACTORY_FILE else (new, b"\x00")
        yield f"install {domain.hex()} {x.hex()}", *script.install(means, 0x0C, x, module, new, privileges, b"\xc9\x00")
    yield f"load {domain.hex()}", script.install_of(0x02, new, domain, HASH, b"", token=means.token)


def access_of(registry: Registry, domain: bytes) -> Iterator[str]:
    card, session = begin(registry, domain)
    if session is None:
        return
    for line, command in deeds(registry, domain):
        if card.process(session.protect(command))[1] == "":
            yield line
            card, session = begin(registry, domain)


def access(registry: Registry) -> Iterator[str]:
    for aid, entry in sorted(registry.entries.items(), key=lambda item: item[0]):
        if entry.is_domain:
            yield from access_of(registry, aid)
