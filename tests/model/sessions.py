"""INITIALIZE UPDATE and EXTERNAL AUTHENTICATE."""

from . import crypto
from .live import Answer, Command, Live, Offer, Session
from .registry import CARD_LOCKED, ISSUER, KEY_DEK, KEY_ENC, KEY_MAC, LAST_COUNTER
from .rules import FINE, Refused

SCP03 = bytes.fromhex("0370")


def initialize_update(live: Live, command: Command) -> Answer:
    registry, domain = live.registry, command.domain
    if command.p2 != 0x00: raise Refused("P")
    if len(command.data) != 8: raise Refused("S")
    if domain.locked: raise Refused("M2")
    if registry.card_state == CARD_LOCKED and domain.aid != ISSUER: raise Refused("IU1")
    owner = registry.whose_sets(domain.aid)
    version = command.p1 or (registry.key_sets(owner)[0] if owner is not None else 0)
    if owner is None or (owner, version) not in registry.counters: raise Refused("IU2")
    counter = registry.counters[owner, version]
    if counter == LAST_COUNTER: raise Refused("IU3")
    enc, mac, dek = (registry.keys[owner, version, identifier].value for identifier in (KEY_ENC, KEY_MAC, KEY_DEK))
    challenge = crypto.card_challenge(enc, counter, domain.aid)
    keys = crypto.session_keys(enc, mac, dek, command.data, challenge)
    live.end_session(command.channel)
    command.channel.offer = Offer(keys)
    registry.raise_counter(owner, version)
    diversification = registry.objects.get((owner, 0xCF))
    data = diversification.value if diversification is not None else bytes(10)
    data += bytes((version,)) + SCP03 + challenge + keys.card_cryptogram() + counter.to_bytes(3, "big")
    return data, FINE


def external_authenticate(live: Live, command: Command) -> Answer:
    """Its data field is the host cryptogram and the C-MAC: it is protected by no session. card.py has taken the offer."""
    channel = command.channel
    offer, channel.offer = channel.offer, None
    if offer is None: raise Refused("EA1")
    if command.p1 not in crypto.LEVELS or command.p2 != 0x00: raise Refused("P")
    if len(command.data) != 16: raise Refused("S")
    cryptogram, mac = command.data[:8], command.data[8:]
    if cryptogram != offer.keys.host_cryptogram(): raise Refused("EA2")
    chaining = crypto.chain(offer.keys, crypto.ZEROS, bytes((0x84, 0x82, command.p1, command.p2)), cryptogram)
    if mac != chaining[:8]: raise Refused("EA3")
    channel.session = Session(offer.keys, command.p1, chaining)
    return b"", FINE
