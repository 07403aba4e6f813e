"""SELECT, MANAGE CHANNEL and GET DATA."""

from . import tlv
from .live import Answer, Command, Live
from .registry import CARD_LOCKED, INSTALLED, ISSUER, Entry, Registry
from .rules import CARD_IS_LOCKED, FINE, NOTHING_CHANGED, Refused


def select(live: Live, command: Command) -> Answer:
    registry = live.registry
    if (command.p1, command.p2) != (0x04, 0x00): raise Refused("P")
    if len(command.data) > 16: raise Refused("S")
    found = least(registry, command.data) if command.data else ISSUER
    if found is None: raise Refused("SE1")
    live.select(command.channel, found)
    data = tlv.write(0x6F, tlv.write(0x84, found) + bytes.fromhex("a5049f6501ff"))
    return data, CARD_IS_LOCKED if registry.card_state == CARD_LOCKED else FINE


def least(registry: Registry, partial: bytes) -> bytes | None:
    return min((aid for aid, entry in registry.entries.items()
                if aid.startswith(partial) and can_be_selected(registry, entry)), default=None)


def can_be_selected(registry: Registry, entry: Entry) -> bool:
    if registry.card_state == CARD_LOCKED and entry.aid != ISSUER:
        return False
    return entry.state != INSTALLED and not entry.locked


def manage_channel(live: Live, command: Command) -> Answer:
    opens = (command.p1, command.p2) == (0x00, 0x00)
    closes = command.p1 == 0x80 and command.p2 in (1, 2, 3)
    if not opens and not closes: raise Refused("P")
    if command.data: raise Refused("S")
    if closes:
        channel = live.channels[command.p2]
        was_open = channel.is_open
        live.close(channel)
        return b"", FINE if was_open else NOTHING_CHANGED
    channel = next((channel for channel in live.channels if not channel.is_open), None)
    if channel is None: raise Refused("MC1")
    live.select(channel, ISSUER)
    return bytes((channel.number,)), FINE


def get_data(live: Live, command: Command) -> Answer:
    if command.data: raise Refused("S")
    tag = command.p1 << 8 | command.p2
    value = value_of(live.registry, command.domain.aid, tag)
    if value is None: raise Refused("GD1")
    return tlv.write(tag, value), FINE


def value_of(registry: Registry, domain: bytes, tag: int) -> bytes | None:
    if tag == 0xE0:
        return key_information(registry, domain) or None
    if tag == 0xC1:
        owner = registry.whose_sets(domain)
        return None if owner is None else registry.counters[owner, registry.key_sets(owner)[0]].to_bytes(3, "big")
    found = registry.objects.get((domain, tag))
    return None if found is None else found.value


def key_information(registry: Registry, domain: bytes) -> bytes:
    names = sorted((version, identifier) for owner, version, identifier in registry.keys if owner == domain)
    return b"".join(bytes((0xC0, 4, identifier, version, 0x88, len(registry.keys[domain, version, identifier].value)))
                    for version, identifier in names)
