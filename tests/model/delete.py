"""DELETE of an object, and which of the two a DELETE is."""

from . import tlv
from .delegation import approved, confirm, is_delegated
from .keys import delete_key, key_named, manages_content
from .live import Answer, Command, Live
from .registry import FACTORY_FILE, GLOBAL_DELETE, ISSUER, Entry, File, Registry, Thing, is_aid
from .rules import Refused


def delete(live: Live, command: Command) -> Answer:
    if command.p1 != 0x00 or command.p2 not in (0x00, 0x80): raise Refused("P")
    named = key_named(command.data)
    if named is not None:
        return delete_key(live, command, *named)
    named = tlv.read(command.data) or []
    if [tag for tag, _ in named] not in ([0x4F], [0x4F, 0x9E]) or not is_aid(named[0][1]): raise Refused("S")
    aid, token = named[0][1], named[1][1] if len(named) == 2 else b""
    return delete_object(live, command, aid, token)


def delete_object(live: Live, command: Command, aid: bytes, token: bytes) -> Answer:
    registry, domain = live.registry, command.domain
    manages_content(live, command)
    thing = registry.thing(aid)
    if thing is None: raise Refused("DO1")
    if aid in (ISSUER, FACTORY_FILE): raise Refused("DO2")
    come_from = [entry for entry in registry.entries.values() if isinstance(thing, File) and entry.file == aid]
    come_from.sort(key=lambda entry: entry.slot)
    going = [*come_from, thing] if command.p2 == 0x80 else [thing]
    if not may_delete(registry, domain, going): raise Refused("DO3")
    if any(is_needed(live, gone) for gone in going) or come_from and command.p2 == 0x00: raise Refused("DO4")
    delegated = is_delegated(domain) and not domain.holds(GLOBAL_DELETE)
    receipter = approved(live, command, tlv.write(0x4F, aid), token, delegated)
    for gone in going:
        registry.remove(gone)
    return confirm(registry, receipter, aid)


def may_delete(registry: Registry, domain: Entry, going: list[Thing]) -> bool:
    if domain.holds(GLOBAL_DELETE):
        return True
    return domain.manages and all(registry.is_in_charge(domain.aid, thing) for thing in going)


def is_needed(live: Live, thing: Thing) -> bool:
    """Whether it is selected, or the domain of another thing or of a file that is being loaded."""
    if live.is_selected(thing.aid) or live.load is not None and live.load.domain == thing.aid:
        return True
    things = [*live.registry.entries.values(), *live.registry.files.values()]
    return any(other.domain == thing.aid and other is not thing for other in things)
