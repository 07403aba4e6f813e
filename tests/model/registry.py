"""What a card keeps without power: POLICY.md, "What a card keeps".

Each thing has a slot too, where it stands in the file of the card: of those that are free the lowest. No rule looks at it.
`staged` has the slots that have changed since the last commit, for image.py.
"""

from collections.abc import Callable, Iterator
from dataclasses import dataclass, field
from typing import Any

# Life cycle states of the card.
OP_READY, INITIALIZED, SECURED, CARD_LOCKED, TERMINATED = 0x01, 0x07, 0x0F, 0x7F, 0xFF

# Life cycle states of an entry, to which a lock adds 80; and that of an Executable Load File.
INSTALLED, SELECTABLE, PERSONALIZED = 0x03, 0x07, 0x0F
LOCK = 0x80
LOADED = 0x01

# Privileges, in three bytes.
SECURITY_DOMAIN, DAP_VERIFICATION, DELEGATED_MANAGEMENT = 0x800000, 0x400000, 0x200000
CARD_LOCK, CARD_TERMINATE, CARD_RESET, CVM_MANAGEMENT, MANDATED_DAP = 0x100000, 0x080000, 0x040000, 0x020000, 0x010000
TRUSTED_PATH, AUTHORIZED_MANAGEMENT, TOKEN_VERIFICATION = 0x008000, 0x004000, 0x002000
GLOBAL_DELETE, GLOBAL_LOCK, GLOBAL_REGISTRY, FINAL_APPLICATION = 0x001000, 0x000800, 0x000400, 0x000200
GLOBAL_SERVICE, RECEIPT_GENERATION, CIPHERED_LOAD = 0x000100, 0x000080, 0x000040
CONTACTLESS_ACTIVATION, CONTACTLESS_SELF_ACTIVATION = 0x000020, 0x000010
NAMELESS = 0x00000F

# Key version numbers and key identifiers.
LAST_SET, TOKEN_KEY, RECEIPT_KEY = 0x6F, 0x70, 0x71
KEY_ENC, KEY_MAC, KEY_DEK = 0x01, 0x02, 0x03

# Limits.
ENTRIES, FILES, KEYS, DOMAIN_KEYS, OBJECTS = 32, 16, 48, 12, 16
LOAD_PAGES, PAGE, FILE_BYTES, BLOCKS = 512, 256, 32768, 256
LAST_RECEIPT, LAST_COUNTER = 0xFFFF, 0xFFFFFF

# How many bytes the value of a data object has, by its tag.
OBJECT_LENGTHS = {0x42: range(1, 11), 0x45: range(1, 11), 0xCF: range(10, 11), 0x66: range(1, 121), 0x5F50: range(1, 121)}

ISSUER = bytes.fromhex("a000000151000000")
FACTORY_FILE = bytes.fromhex("a0000001515350")
FACTORY_MODULE = bytes.fromhex("a000000151535041")
FACTORY_PRIVILEGES = 0x9EFE80
FACTORY_VERSION, FACTORY_KEY = 0x30, bytes(range(0x40, 0x50))


def is_aid(data: bytes) -> bool:
    return 5 <= len(data) <= 16


@dataclass(slots=True)
class Entry:
    """An application or a security domain."""

    aid: bytes
    domain: bytes
    file: bytes
    module: bytes
    state: int
    privileges: int
    locked: bool = False
    receipts: int = 0
    slot: int = -1

    @property
    def is_domain(self) -> bool:
        return self.file == FACTORY_FILE and self.module == FACTORY_MODULE

    @property
    def life(self) -> int:
        return self.state | LOCK if self.locked else self.state

    @property
    def manages(self) -> bool:
        return self.holds(AUTHORIZED_MANAGEMENT | DELEGATED_MANAGEMENT)

    def holds(self, privileges: int) -> bool:
        """Whether it holds one of these privileges."""
        return self.privileges & privileges != 0


@dataclass(slots=True)
class File:
    """An Executable Load File, with the load pages that it has."""

    aid: bytes
    domain: bytes
    content: bytes = b""
    pages: list[int] = field(default_factory=list)
    slot: int = -1


@dataclass(slots=True)
class Key:
    value: bytes
    slot: int = -1


@dataclass(slots=True)
class DataObject:
    value: bytes
    slot: int = -1


Thing = Entry | File


def free_slot(things) -> int:
    """The lowest slot that none of these has."""
    taken = {thing.slot for thing in things}
    return next(slot for slot in range(len(taken) + 1) if slot not in taken)


@dataclass
class Registry:
    card_state: int = OP_READY
    entries: dict[bytes, Entry] = field(default_factory=dict)
    files: dict[bytes, File] = field(default_factory=dict)
    keys: dict[tuple[bytes, int, int], Key] = field(default_factory=dict)      # by domain, version number, identifier
    counters: dict[tuple[bytes, int], int] = field(default_factory=dict)       # by domain, version number
    objects: dict[tuple[bytes, int], DataObject] = field(default_factory=dict)  # by domain, tag
    load_pages: dict[int, bytes] = field(default_factory=dict)                 # what stands in the load pages
    staged: dict[tuple[str, int], None] = field(default_factory=dict)          # what has changed since the last commit
    device: Any = None                                                         # where it stands, by image.py

    # ---- The forest

    def thing(self, aid: bytes) -> Thing | None:
        return self.entries.get(aid) or self.files.get(aid)

    def domain(self, aid: bytes) -> Entry | None:
        entry = self.entries.get(aid)
        return entry if entry is not None and entry.is_domain else None

    def above(self, aid: bytes) -> Iterator[Entry]:
        """The domains above a domain, the nearest first. Nothing is above a root."""
        entry = self.entries[aid]
        while entry.domain != entry.aid:
            entry = self.entries[entry.domain]
            yield entry

    def is_below(self, aid: bytes, domain: bytes) -> bool:
        return any(entry.aid == domain for entry in self.above(aid))

    def is_at_or_below(self, aid: bytes, domain: bytes) -> bool:
        return aid == domain or self.is_below(aid, domain)

    def is_in_charge(self, domain: bytes, thing: Thing) -> bool:
        """Of the entries below it, and of the files that belong to it or to a domain below it."""
        if isinstance(thing, Entry):
            return self.is_below(thing.aid, domain)
        return self.is_at_or_below(thing.domain, domain)

    def is_in_tree(self, thing: Thing, domain: bytes) -> bool:
        if isinstance(thing, Entry):
            return self.is_at_or_below(thing.aid, domain)
        return self.is_at_or_below(thing.domain, domain)

    # ---- Keys and sizes

    def versions(self, domain: bytes) -> list[int]:
        """The key version numbers of a domain, each once."""
        return sorted({version for owner, version, _ in self.keys if owner == domain})

    def has_version(self, domain: bytes, version: int) -> bool:
        return (domain, version, KEY_ENC) in self.keys

    def key_sets(self, domain: bytes) -> list[int]:
        return sorted(version for owner, version in self.counters if owner == domain)

    def whose_sets(self, domain: bytes) -> bytes | None:
        """Whose key sets a domain uses: its own, or those of the nearest domain above that has any."""
        owners = {owner for owner, _ in self.counters}
        if domain in owners:
            return domain
        return next((entry.aid for entry in self.above(domain) if entry.aid in owners), None)

    def charged(self, domain: bytes, privilege: int, version: int) -> Entry | None:
        """The nearest domain above that holds a privilege and has the key for it."""
        return next((entry for entry in self.above(domain)
                     if entry.holds(privilege) and self.has_version(entry.aid, version)), None)

    def verifier(self, domain: bytes) -> Entry | None:
        return self.charged(domain, TOKEN_VERIFICATION, TOKEN_KEY)

    def receipter(self, domain: bytes) -> Entry | None:
        return self.charged(domain, RECEIPT_GENERATION, RECEIPT_KEY)

    def free_pages(self) -> int:
        return LOAD_PAGES - sum(pages_for(len(file.content)) for file in self.files.values())

    def unique_data(self) -> bytes:
        objects = (self.objects.get((ISSUER, tag)) for tag in (0x42, 0x45))
        return b"".join(found.value for found in objects if found is not None)

    # ---- Changes

    def stage(self, kind: str, slot: int = 0) -> None:
        self.staged[kind, slot] = None

    def set_card_state(self, state: int) -> None:
        self.card_state = state
        self.stage("card")

    def add_entry(self, entry: Entry) -> None:
        entry.slot = free_slot(self.entries.values())
        self.entries[entry.aid] = entry
        self.stage("entry", entry.slot)

    def add_file(self, file: File) -> None:
        file.slot = free_slot(self.files.values())
        self.files[file.aid] = file
        self.stage("file", file.slot)

    def changed(self, thing: Thing) -> None:
        """The thing was changed in its place."""
        self.stage("entry" if isinstance(thing, Entry) else "file", thing.slot)

    def remove(self, thing: Thing) -> None:
        """A thing goes, a domain with its keys, sequence counters and data objects."""
        if isinstance(thing, File):
            del self.files[thing.aid]
        else:
            del self.entries[thing.aid]
            self.drop("key", self.keys, lambda name: name[0] == thing.aid)
            self.drop("object", self.objects, lambda name: name[0] == thing.aid)
            self.counters = {name: counter for name, counter in self.counters.items() if name[0] != thing.aid}
        self.changed(thing)

    def drop(self, kind: str, table: dict, goes: Callable[[tuple], bool]) -> None:
        """What goes of a table, in the order of its slots."""
        for name in sorted(filter(goes, table), key=lambda name: table[name].slot):
            self.stage(kind, table.pop(name).slot)

    def add_key(self, domain: bytes, version: int, identifier: int, value: bytes) -> None:
        key = self.keys[domain, version, identifier] = Key(value, free_slot(self.keys.values()))
        if version <= LAST_SET:
            self.counters[domain, version] = 0
        self.stage("key", key.slot)

    def remove_version(self, domain: bytes, version: int) -> None:
        """The keys of a key version number go, with the sequence counter of a key set."""
        self.drop("key", self.keys, lambda name: name[:2] == (domain, version))
        self.counters.pop((domain, version), None)

    def raise_counter(self, domain: bytes, version: int) -> None:
        self.counters[domain, version] += 1
        self.stage("key", self.keys[domain, version, KEY_ENC].slot)

    def put_object(self, domain: bytes, tag: int, value: bytes) -> None:
        kept = self.objects.get((domain, tag))
        slot = free_slot(self.objects.values()) if kept is None else kept.slot
        self.objects[domain, tag] = DataObject(value, slot)
        self.stage("object", slot)


def pages_for(length: int) -> int:
    """A load page for each 256 bytes that a file has or begins."""
    return -(-length // PAGE)


def factory_registry() -> Registry:
    registry = Registry()
    registry.add_file(File(FACTORY_FILE, ISSUER))
    registry.add_entry(Entry(ISSUER, ISSUER, FACTORY_FILE, FACTORY_MODULE, PERSONALIZED, FACTORY_PRIVILEGES))
    for identifier in (KEY_ENC, KEY_MAC, KEY_DEK):
        registry.add_key(ISSUER, FACTORY_VERSION, identifier, FACTORY_KEY)
    registry.staged.clear()
    return registry
