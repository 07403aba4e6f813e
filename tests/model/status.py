"""SET STATUS and GET STATUS."""

from . import tlv
from .live import Answer, Command, Live, Place
from .registry import (CARD_LOCK, CARD_LOCKED, CARD_TERMINATE, FACTORY_FILE, FACTORY_MODULE, GLOBAL_LOCK, GLOBAL_REGISTRY,
                       INITIALIZED, ISSUER, LOADED, LOCK, OP_READY, PERSONALIZED, SECURED, SELECTABLE, TERMINATED, Entry,
                       File, Registry, Thing, is_aid)
from .rules import FINE, MORE_DATA, Refused

OF_CARD, OF_ENTRY, OF_TREE = 0x80, 0x40, 0x60
STEPS = {(OP_READY, INITIALIZED), (INITIALIZED, SECURED), (SECURED, CARD_LOCKED), (CARD_LOCKED, SECURED)}

OTHERS, LOAD_FILES, WITH_MODULES = 0x40, 0x20, 0x10
FIRST_PART, NEXT_PART = 0x02, 0x03
ROOM = 239


def set_status(live: Live, command: Command) -> Answer:
    registry, domain = live.registry, command.domain
    if command.p1 not in (OF_CARD, OF_ENTRY, OF_TREE): raise Refused("P")
    if command.p1 != OF_CARD and not is_aid(command.data): raise Refused("S")
    if domain.locked: raise Refused("M2")
    is_locked = registry.card_state == CARD_LOCKED
    if is_locked and (command.p1 != OF_CARD or domain.aid != ISSUER): raise Refused("M3")
    if command.p1 == OF_CARD:
        return set_card_status(registry, domain, command.p2)
    return set_entry_status(registry, domain, command)


# ---- The card

def set_card_status(registry: Registry, domain: Entry, to: int) -> Answer:
    if to != TERMINATED and (registry.card_state, to) not in STEPS: raise Refused("SC1")
    if not may_step(registry.card_state, to, domain): raise Refused("SC2")
    registry.set_card_state(to)
    return b"", FINE


def may_step(state: int, to: int, domain: Entry) -> bool:
    if to == TERMINATED:
        return domain.holds(CARD_TERMINATE)
    if CARD_LOCKED in (state, to):
        return domain.holds(CARD_LOCK)
    return domain.aid == ISSUER


# ---- An entry

def set_entry_status(registry: Registry, domain: Entry, command: Command) -> Answer:
    p1, to, aid = command.p1, command.p2, command.data
    entry = registry.entries.get(aid)
    if entry is None or p1 == OF_TREE and not entry.is_domain: raise Refused("SS1")
    if aid == ISSUER: raise Refused("SS2")
    if not may_set(registry, domain, entry, p1, to): raise Refused("SS3")
    marks, personalizes = (to >= LOCK) != entry.locked, is_step_to_personalized(entry, p1, to)
    if not marks and not personalizes: raise Refused("SS4")
    if personalizes:
        entry.state = PERSONALIZED
        registry.changed(entry)
        return b"", FINE
    marked = [entry]
    if p1 == OF_TREE:
        marked += [other for other in registry.entries.values() if registry.is_below(other.aid, aid)]
    for other in sorted(marked, key=lambda other: other.slot):
        if other.locked != (to >= LOCK):
            other.locked = to >= LOCK
            registry.changed(other)
    return b"", FINE


def is_step_to_personalized(entry: Entry, p1: int, to: int) -> bool:
    return p1 == OF_ENTRY and to == PERSONALIZED and entry.is_domain and entry.state == SELECTABLE and not entry.locked


def may_set(registry: Registry, domain: Entry, entry: Entry, p1: int, to: int) -> bool:
    if registry.is_below(entry.aid, domain.aid) or domain.holds(GLOBAL_LOCK):
        return True
    return entry is domain and p1 == OF_ENTRY and to == PERSONALIZED


# ---- GET STATUS

def get_status(live: Live, command: Command) -> Answer:
    registry, domain, place = live.registry, command.domain, command.place
    kind, part = command.p1, command.p2
    if kind not in (OF_CARD, OTHERS, LOAD_FILES, WITH_MODULES) or part not in (FIRST_PART, NEXT_PART): raise Refused("P")
    asked = tlv.read(command.data) or []
    if [tag for tag, _ in asked] not in ([0x4F], [0x4F, 0x5C]) or len(asked[0][1]) > 16: raise Refused("S")
    if domain.locked: raise Refused("M2")
    goes_on = place is not None and (place.p1, place.asked) == (kind, command.data)
    if part == NEXT_PART and not goes_on: raise Refused("GS1")
    above = place.shown if part == NEXT_PART else None
    things = listed(registry, domain, kind, asked[0][1], above)
    if not things: raise Refused("GS2")
    data, shown = b"", b""
    for thing in things:
        template = template_of(registry, thing, kind)
        if len(data) + len(template) > ROOM:
            command.channel.place = Place(kind, command.data, shown)
            return data, MORE_DATA
        data, shown = data + template, thing.aid
    return data, FINE


def listed(registry: Registry, domain: Entry, kind: int, partial: bytes, above: bytes | None) -> list[Thing]:
    things = registry.entries if kind in (OF_CARD, OTHERS) else registry.files
    sees_all = domain.holds(GLOBAL_REGISTRY)
    return [things[aid] for aid in sorted(things)
            if aid.startswith(partial) and (above is None or aid > above)
            and (kind not in (OF_CARD, OTHERS) or (aid == ISSUER) == (kind == OF_CARD))
            and (sees_all or registry.is_in_tree(things[aid], domain.aid))]


def template_of(registry: Registry, thing: Thing, kind: int) -> bytes:
    data = tlv.write(0x4F, thing.aid)
    if isinstance(thing, File):
        data += tlv.write(0x9F70, bytes((LOADED,)))
        if kind == WITH_MODULES and thing.aid == FACTORY_FILE:
            data += tlv.write(0x84, FACTORY_MODULE)
    else:
        life = registry.card_state if thing.aid == ISSUER else thing.life
        data += tlv.write(0x9F70, bytes((life,))) + tlv.write(0xC5, thing.privileges.to_bytes(3, "big"))
        data += tlv.write(0xC4, thing.file)
    return tlv.write(0xE3, data + tlv.write(0xCC, thing.domain))
