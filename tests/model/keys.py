"""PUT KEY, DELETE of a key, STORE DATA."""

from . import crypto, tlv
from .live import Answer, Command, Live
from .registry import (CARD_LOCKED, DOMAIN_KEYS, KEY_ENC, KEYS, LAST_SET, OBJECT_LENGTHS, OBJECTS, RECEIPT_KEY, TOKEN_KEY)
from .rules import FINE, Refused

AES = 0x88
SINGLE = (TOKEN_KEY, RECEIPT_KEY)
# How many bytes of key data follow for each length of a key.
KEY_DATA = {0x10: 0x11, 0x18: 0x21, 0x20: 0x21}


def manages_content(live: Live, command: Command) -> None:
    """The rules of card content management on the card and on the domain."""
    if live.registry.card_state == CARD_LOCKED: raise Refused("M1")
    if command.domain.locked: raise Refused("M2")


def put_key(live: Live, command: Command) -> Answer:
    registry, owner, old = live.registry, command.domain.aid, command.p1
    is_set = command.p2 == 0x81 and old <= LAST_SET
    is_single = command.p2 == 0x01 and (old == 0 or old in SINGLE)
    if not is_set and not is_single: raise Refused("P")
    fields = key_fields(command.data[1:])
    new = command.data[0] if command.data else 0
    if fields is None or len(fields) != (3 if is_set else 1): raise Refused("S")
    if len({length for length, _, _ in fields}) != 1: raise Refused("S")
    if not (1 <= new <= LAST_SET if is_set else new in SINGLE): raise Refused("S")
    manages_content(live, command)
    if old and not registry.has_version(owner, old): raise Refused("PK1")
    if new != old and registry.has_version(owner, new): raise Refused("PK2")
    dek = command.channel.session.keys.static_dek
    keys = [crypto.cbc_decrypt(dek, crypto.ZEROS, sealed)[:length] for length, sealed, _ in fields]
    values = [crypto.key_check_value(key) for key in keys]
    if values != [value for _, _, value in fields]: raise Refused("PK3")
    gone = [key for key in registry.keys if key[:2] == (owner, old)]
    owned = [key for key in registry.keys if key[0] == owner]
    if len(registry.keys) - len(gone) + len(keys) > KEYS: raise Refused("PK4")
    if len(owned) - len(gone) + len(keys) > DOMAIN_KEYS: raise Refused("PK4")
    registry.remove_version(owner, old)
    for number, key in enumerate(keys):
        registry.add_key(owner, new, KEY_ENC + number, key)
    return bytes((new,)) + b"".join(values), FINE


def key_fields(data: bytes) -> list[tuple[int, bytes, bytes]] | None:
    """Key fields that are all of the data: the length of a key, the bytes it is enciphered in, its check value."""
    fields = []
    while data:
        length = data[2] if len(data) > 2 else 0
        size = KEY_DATA.get(length, 0) - 1
        field, data = data[:size + 7], data[size + 7:]
        if size < 0 or len(field) != size + 7 or field[:2] != bytes((AES, size + 1)) or field[3 + size] != 3:
            return None
        fields.append((length, field[3:3 + size], field[4 + size:]))
    return fields


def key_named(data: bytes) -> tuple[int, int | None] | None:
    """The key version number, and the key identifier where there is one, that a DELETE of a key names."""
    named = tlv.read(data) or []
    values = dict(named)
    if set(values) not in ({0xD2}, {0xD2, 0xD0}) or len(values) != len(named):
        return None
    if any(len(value) != 1 for value in values.values()):
        return None
    return values[0xD2][0], values[0xD0][0] if 0xD0 in values else None


def delete_key(live: Live, command: Command, version: int, identifier: int | None) -> Answer:
    """After P and S, which delete.py asks."""
    registry, domain = live.registry, command.domain
    manages_content(live, command)
    if not registry.has_version(domain.aid, version): raise Refused("DK1")
    if identifier is not None and (identifier != 0x01 or version < TOKEN_KEY): raise Refused("DK1")
    left = [kept for kept in registry.key_sets(domain.aid) if kept != version]
    if domain.domain == domain.aid and not left: raise Refused("DK2")
    registry.remove_version(domain.aid, version)
    return b"\x00", FINE


def store_data(live: Live, command: Command) -> Answer:
    registry, owner = live.registry, command.domain.aid
    if command.p1 not in (0x00, 0x80, 0x10, 0x90): raise Refused("P")
    objects = tlv.read(command.data)
    if not objects: raise Refused("S")
    if any(len(value) not in OBJECT_LENGTHS.get(tag, ()) for tag, value in objects): raise Refused("S")
    manages_content(live, command)
    new = {(owner, tag) for tag, _ in objects} - registry.objects.keys()
    if len(registry.objects) + len(new) > OBJECTS: raise Refused("SD1")
    for tag, value in objects:
        registry.put_object(owner, tag, value)
    return b"", FINE
