"""What is so of every card: POLICY.md, "What is so of every card"."""

from . import registry as of
from .registry import (AUTHORIZED_MANAGEMENT, DELEGATED_MANAGEMENT, FACTORY_FILE, FACTORY_MODULE, ISSUER, KEY_DEK, KEY_ENC,
                       LAST_SET, NAMELESS, OBJECT_LENGTHS, PERSONALIZED, RECEIPT_KEY, TOKEN_KEY, Entry, File, Registry, is_aid,
                       pages_for)

STATES = (of.INSTALLED, of.SELECTABLE, PERSONALIZED)
CARD_STATES = (of.OP_READY, of.INITIALIZED, of.SECURED, of.CARD_LOCKED, of.TERMINATED)
OF_DOMAINS = AUTHORIZED_MANAGEMENT | DELEGATED_MANAGEMENT | of.TOKEN_VERIFICATION | of.RECEIPT_GENERATION


def cause_against(registry: Registry) -> str | None:
    """What is wrong with the registry, or None where it is in order."""
    checks = [whole_is_well(registry)]
    checks += [entry_is_well(registry, entry) for entry in registry.entries.values()]
    checks += [file_is_well(registry, file) for file in registry.files.values()]
    checks += [keys_are_well(registry), objects_are_well(registry)]
    return next((cause for cause in checks if cause is not None), None)


def whole_is_well(registry: Registry) -> str | None:
    issuer, file = registry.entries.get(ISSUER), registry.files.get(FACTORY_FILE)
    if registry.card_state not in CARD_STATES: return "the state of the card"
    if issuer is None or issuer.domain != ISSUER: return "the Issuer Security Domain"
    if issuer.life != PERSONALIZED or not issuer.is_domain: return "the Issuer Security Domain"
    if file is None or file.domain != ISSUER or file.content: return "the factory's file"
    pages = [page for kept in registry.files.values() for page in kept.pages]
    if len(set(pages)) < len(pages) or any(page >= of.LOAD_PAGES for page in pages): return "load pages"
    return None


def entry_is_well(registry: Registry, entry: Entry) -> str | None:
    if not is_aid(entry.aid) or not is_aid(entry.module): return "an AID"
    if entry.file not in registry.files: return "the file of an entry"
    if registry.domain(entry.domain) is None or not leads_to_root(registry, entry): return "the domain of an entry"
    if entry.state not in STATES: return "a life cycle state"
    if entry.file == FACTORY_FILE and entry.module != FACTORY_MODULE: return "a Module of the factory's file"
    if entry.is_domain != entry.holds(of.SECURITY_DOMAIN): return "what makes a security domain"
    if not entry.is_domain and (entry.state == PERSONALIZED or entry.holds(OF_DOMAINS)): return "what only a domain has"
    if entry.holds(AUTHORIZED_MANAGEMENT) and entry.holds(DELEGATED_MANAGEMENT): return "two kinds of management"
    if entry.privileges & NAMELESS: return "a privilege without a name"
    return None


def leads_to_root(registry: Registry, entry: Entry) -> bool:
    for _ in registry.entries:
        if entry.domain == entry.aid:
            return True
        entry = registry.entries[entry.domain]
    return False


def file_is_well(registry: Registry, file: File) -> str | None:
    if not is_aid(file.aid) or file.aid in registry.entries: return "the AID of a file"
    if registry.domain(file.domain) is None: return "the domain of a file"
    if len(file.content) > of.FILE_BYTES or not file.content and file.aid != FACTORY_FILE: return "the size of a file"
    return "load pages" if pages_for(len(file.content)) != len(file.pages) else None


def keys_are_well(registry: Registry) -> str | None:
    sizes: dict[tuple[bytes, int], set[int]] = {}
    for (domain, version, identifier), key in registry.keys.items():
        if registry.domain(domain) is None: return "the domain of a key"
        is_of_set = 1 <= version <= LAST_SET and KEY_ENC <= identifier <= KEY_DEK
        if not is_of_set and (version not in (TOKEN_KEY, RECEIPT_KEY) or identifier != 0x01): return "the name of a key"
        if len(key.value) not in (16, 24, 32): return "the length of a key"
        sizes.setdefault((domain, version), set()).add(len(key.value))
    if any(len(lengths) > 1 for lengths in sizes.values()): return "two lengths in a key set"
    sets = {name for name in sizes if name[1] <= LAST_SET}
    if any((*name, identifier) not in registry.keys for name in sets for identifier in (1, 2, 3)): return "a key set"
    if sets != registry.counters.keys(): return "a sequence counter"
    owners = [domain for domain, _, _ in registry.keys]
    return "the keys of a domain" if any(owners.count(owner) > of.DOMAIN_KEYS for owner in set(owners)) else None


def objects_are_well(registry: Registry) -> str | None:
    for (domain, tag), kept in registry.objects.items():
        if registry.domain(domain) is None: return "the domain of a data object"
        if len(kept.value) not in OBJECT_LENGTHS.get(tag, ()): return "a data object"
    return None
