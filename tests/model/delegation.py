"""Delegated management: tokens and receipts."""

from .crypto import cmac
from .live import Answer, Command, Live
from .registry import DELEGATED_MANAGEMENT, KEY_ENC, LAST_RECEIPT, RECEIPT_KEY, TOKEN_KEY, Entry, Registry
from .rules import FINE, Refused


def is_delegated(domain: Entry) -> bool:
    return domain.holds(DELEGATED_MANAGEMENT)


def sign(key: bytes, p1: int, p2: int, before: bytes) -> bytes:
    """The token of a command with these bytes before it."""
    return cmac(key, bytes((p1, p2, len(before))) + before)


def approve(live: Live, command: Command, before: bytes, token: bytes) -> None:
    """The rules on the token of a delegated command."""
    if len(token) != 16: raise Refused("TK1")
    verifier = live.registry.verifier(command.domain.aid)
    if verifier is None: raise Refused("TK2")
    key = live.registry.keys[verifier.aid, TOKEN_KEY, KEY_ENC].value
    if token != sign(key, command.p1, command.p2, before): raise Refused("TK3")


def confirmer(registry: Registry, domain: Entry, rule: str) -> Entry | None:
    """Who confirms a delegated command, if anyone does."""
    receipter = registry.receipter(domain.aid)
    if receipter is not None and receipter.receipts == LAST_RECEIPT: raise Refused(rule)
    return receipter


def approved(live: Live, command: Command, before: bytes, token: bytes, delegated: bool) -> Entry | None:
    """The rules on token and receipt. Answers who confirms."""
    if not delegated:
        return None
    approve(live, command, before, token)
    return confirmer(live.registry, command.domain, "RC1")


def confirm(registry: Registry, receipter: Entry | None, *aids: bytes) -> Answer:
    """The answer to a command that is done: a receipt, or 00 where nobody confirms."""
    if receipter is None:
        return b"\x00", FINE
    receipter.receipts += 1
    registry.changed(receipter)
    unique = registry.unique_data()
    said = b"\x02" + receipter.receipts.to_bytes(2, "big") + bytes((len(unique),)) + unique
    about = b"".join(bytes((len(aid),)) + aid for aid in aids)
    mac = cmac(registry.keys[receipter.aid, RECEIPT_KEY, KEY_ENC].value, said + about)
    receipt = b"\x10" + mac + said
    return bytes((len(receipt),)) + receipt, FINE
