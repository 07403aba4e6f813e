"""INSTALL in its four forms."""

from . import tlv
from .delegation import approve, approved, confirm, is_delegated
from .keys import manages_content
from .live import Answer, Command, Live, Load
from .registry import (AUTHORIZED_MANAGEMENT, CARD_LOCK, CARD_TERMINATE, CIPHERED_LOAD, DAP_VERIFICATION,
                       DELEGATED_MANAGEMENT, ENTRIES, FACTORY_FILE, FACTORY_MODULE, FILES, FINAL_APPLICATION, GLOBAL_DELETE,
                       GLOBAL_LOCK, GLOBAL_REGISTRY, INSTALLED, ISSUER, MANDATED_DAP, NAMELESS, PERSONALIZED,
                       RECEIPT_GENERATION, SECURITY_DOMAIN, SELECTABLE, TOKEN_VERIFICATION, Entry, Registry, Thing, is_aid)
from .rules import FINE, Refused

GRANTED_TO_NOBODY = DAP_VERIFICATION | MANDATED_DAP | FINAL_APPLICATION | CIPHERED_LOAD
GRANTED_BY_HOLDERS = (CARD_LOCK | CARD_TERMINATE | AUTHORIZED_MANAGEMENT | TOKEN_VERIFICATION | GLOBAL_DELETE
                      | GLOBAL_LOCK | GLOBAL_REGISTRY | RECEIPT_GENERATION)
OF_DOMAINS = DELEGATED_MANAGEMENT | AUTHORIZED_MANAGEMENT | TOKEN_VERIFICATION | RECEIPT_GENERATION


def install(live: Live, command: Command) -> Answer:
    form = FORMS.get(command.p1)
    if form is None or command.p2 != 0x00: raise Refused("P")
    return form(live, command)


def fields_of(data: bytes, count: int) -> list[bytes] | None:
    """So many fields, each after its length in one byte, 00 to 7F."""
    fields, at = [], 0
    for _ in range(count):
        if at >= len(data) or data[at] > 0x7F or at + 1 + data[at] > len(data):
            return None
        fields.append(data[at + 1:at + 1 + data[at]])
        at += 1 + data[at]
    return fields if at == len(data) else None


def privileges_of(field: bytes) -> int | None:
    """One byte or three, each bit with a name."""
    if len(field) not in (1, 3):
        return None
    privileges = int.from_bytes(field.ljust(3, b"\x00"), "big")
    return None if privileges & NAMELESS else privileges


def before_token(command: Command, token: bytes) -> bytes:
    return command.data[:len(command.data) - len(token) - 1]


# ---- [for install]

def for_install(live: Live, command: Command) -> Answer:
    registry, domain = live.registry, command.domain
    fields = fields_of(command.data, 6)
    if fields is None: raise Refused("S")
    file_aid, module, aid, given, parameters, token = fields
    privileges = privileges_of(given)
    if not (is_aid(file_aid) and is_aid(module) and is_aid(aid)) or privileges is None: raise Refused("S")
    if 0xC9 not in dict(tlv.read(parameters) or []): raise Refused("S")
    manages_content(live, command)
    if not domain.manages: raise Refused("II1")
    file = registry.files.get(file_aid)
    is_domain = file_aid == FACTORY_FILE
    if file is None or is_domain and module != FACTORY_MODULE: raise Refused("II2")
    if not is_domain and not registry.is_in_charge(domain.aid, file): raise Refused("II3")
    if is_taken(live, aid): raise Refused("II4")
    if not go_together(privileges, is_domain): raise Refused("II5")
    if privileges & GRANTED_BY_HOLDERS & ~domain.privileges: raise Refused("II6")
    if len(registry.entries) == ENTRIES: raise Refused("II7")
    receipter = approved(live, command, before_token(command, token), token, is_delegated(domain))
    state = SELECTABLE if command.p1 == 0x0C else INSTALLED
    registry.add_entry(Entry(aid, domain.aid, file_aid, module, state, privileges))
    return confirm(registry, receipter, file_aid, aid)


def is_taken(live: Live, aid: bytes) -> bool:
    return live.registry.thing(aid) is not None or live.load is not None and live.load.aid == aid


def go_together(privileges: int, is_domain: bool) -> bool:
    if privileges & GRANTED_TO_NOBODY or is_domain != bool(privileges & SECURITY_DOMAIN):
        return False
    if privileges & OF_DOMAINS and not is_domain:
        return False
    return not (privileges & AUTHORIZED_MANAGEMENT and privileges & DELEGATED_MANAGEMENT)


# ---- [for make selectable]

def for_make_selectable(live: Live, command: Command) -> Answer:
    registry, domain = live.registry, command.domain
    fields = fields_of(command.data, 6)
    if fields is None: raise Refused("S")
    first, second, aid, given, _, token = fields
    privileges = privileges_of(given)
    if first or second or not is_aid(aid) or given and privileges is None: raise Refused("S")
    manages_content(live, command)
    if not domain.manages: raise Refused("MS1")
    entry = registry.entries.get(aid)
    if entry is None: raise Refused("MS2")
    if not registry.is_below(aid, domain.aid): raise Refused("MS3")
    if entry.state != INSTALLED or entry.locked: raise Refused("MS4")
    if given and privileges != entry.privileges: raise Refused("MS5")
    receipter = approved(live, command, before_token(command, token), token, is_delegated(domain))
    entry.state = SELECTABLE
    registry.changed(entry)
    return confirm(registry, receipter, aid)


# ---- [for extradition]

def for_extradition(live: Live, command: Command) -> Answer:
    registry, domain = live.registry, command.domain
    fields = fields_of(command.data, 6)
    if fields is None: raise Refused("S")
    to, second, aid, given, _, token = fields
    if not is_aid(to) or second or not is_aid(aid) or given: raise Refused("S")
    manages_content(live, command)
    if not domain.manages: raise Refused("EX1")
    thing, new = registry.thing(aid), registry.domain(to)
    if thing is None or new is None: raise Refused("EX2")
    if aid in (ISSUER, FACTORY_FILE): raise Refused("EX3")
    if not registry.is_in_charge(domain.aid, thing): raise Refused("EX4")
    if new.state != PERSONALIZED or new.locked: raise Refused("EX5")
    if registry.is_below(to, aid): raise Refused("EX6")
    if not may_move(registry, domain, thing, to): raise Refused("EX7")
    receipter = approved(live, command, before_token(command, token), token, is_delegated(domain))
    old, thing.domain = thing.domain, to
    registry.changed(thing)
    return confirm(registry, receipter, old, aid, to)


def may_move(registry: Registry, domain: Entry, thing: Thing, to: bytes) -> bool:
    if domain.holds(AUTHORIZED_MANAGEMENT):
        return to == thing.aid or registry.is_at_or_below(to, domain.aid)
    verifier = registry.verifier(domain.aid)
    return verifier is not None and to != thing.aid and registry.is_at_or_below(to, verifier.aid)


# ---- [for load]

def for_load(live: Live, command: Command) -> Answer:
    registry, domain = live.registry, command.domain
    fields = fields_of(command.data, 5)
    if fields is None: raise Refused("S")
    aid, owner, digest, _, token = fields
    if not is_aid(aid) or owner and not is_aid(owner): raise Refused("S")
    manages_content(live, command)
    if not domain.manages: raise Refused("IL1")
    if live.load is not None: raise Refused("IL2")
    if registry.thing(aid) is not None: raise Refused("IL3")
    owner = owner or domain.aid
    if registry.domain(owner) is None: raise Refused("IL4")
    if not registry.is_at_or_below(owner, domain.aid): raise Refused("IL5")
    if len(digest) not in (0, 20, 32) or not digest and is_delegated(domain): raise Refused("IL6")
    if len(registry.files) == FILES: raise Refused("IL7")
    if is_delegated(domain):
        approve(live, command, before_token(command, token), token)
    live.load = Load(command.channel.number, aid, owner, digest)
    return b"\x00", FINE


FORMS = {0x02: for_load, 0x04: for_install, 0x0C: for_install, 0x08: for_make_selectable, 0x10: for_extradition}
