"""The card in its file: POLICY.md, "The card in its file". 608 pages of 256 bytes.

Pages, gate and the order of a commit are what that page says. What stands where in a slot, a load directory and the descriptor,
and in which order pages are copied, it does not say: this was seen in images of the program.
"""

from collections.abc import Iterable

from . import registry as of
from .registry import LOAD_PAGES, PAGE, DataObject, Entry, File, Key, Registry, pages_for
from .well import cause_against

SUPERBLOCK, GATE, DESCRIPTOR, COPIES, FIRST_LOAD_PAGE, ALL_PAGES = 0, 45, 46, 47, 96, 608
MOST_COPIES = 30
MAGIC, LAYOUTS, OPEN = b"GPCD", (0x02, 0x03), 0xA5
# Of each kind: the first page, slots on a page, slots in all.
TABLES = {"entry": (1, 4, of.ENTRIES), "file": (9, 1, of.FILES), "key": (25, 4, of.KEYS), "object": (37, 2, of.OBJECTS)}


class BadImage(Exception):
    """The image holds no card; the cause says why."""


class Device:
    """The pages that a card stands on, and where the last byte that was written ends."""

    def __init__(self, data: bytes = b""):
        self.bytes = bytearray(data[:ALL_PAGES * PAGE].ljust(ALL_PAGES * PAGE, b"\x00"))
        self.end = min(len(data), ALL_PAGES * PAGE)

    def read(self, page: int) -> bytes:
        return bytes(self.bytes[page * PAGE:(page + 1) * PAGE])

    def write(self, page: int, data: bytes) -> None:
        self.bytes[page * PAGE:(page + 1) * PAGE] = data.ljust(PAGE, b"\x00")
        self.end = max(self.end, (page + 1) * PAGE)


# ---- Slots

def sized(data: bytes) -> bytes:
    """An AID or a Module: its length, and room for sixteen bytes."""
    return bytes((len(data),)) + data.ljust(16, b"\x00")


def unsized(data: bytes) -> bytes:
    if data[0] > 16: raise BadImage("AID")
    return data[1:1 + data[0]]


def number(data: bytes) -> int:
    return int.from_bytes(data, "big")


def entry_bytes(registry: Registry, entry: Entry) -> bytes:
    domain, file = registry.entries[entry.domain].slot, registry.files[entry.file].slot
    return (b"\x01" + sized(entry.aid) + bytes((domain, file)) + sized(entry.module) + bytes((entry.life,))
            + entry.privileges.to_bytes(3, "big") + entry.receipts.to_bytes(2, "big"))


def file_bytes(registry: Registry, file: File) -> bytes:
    """From 40 on the low bytes of the load pages; from C0 on their high bits, the first page's the highest bit of a byte."""
    head = b"\x01" + sized(file.aid) + bytes((registry.entries[file.domain].slot,)) + len(file.content).to_bytes(2, "big")
    low = bytes(page & 0xFF for page in file.pages)
    high = sum(1 << 127 - place for place, page in enumerate(file.pages) if page > 0xFF)
    return head.ljust(0x40, b"\x00") + low.ljust(0x80, b"\x00") + high.to_bytes(16, "big")


def key_bytes(registry: Registry, name: tuple[bytes, int, int], key: Key) -> bytes:
    """The sequence counter stands in the slot of Key-ENC."""
    domain, version, identifier = name
    counter = registry.counters.get((domain, version), 0) if identifier == of.KEY_ENC else 0
    return (bytes((0x01, registry.entries[domain].slot, version, identifier, len(key.value))) + key.value.ljust(32, b"\x00")
            + counter.to_bytes(3, "big"))


def object_bytes(registry: Registry, name: tuple[bytes, int], kept: DataObject) -> bytes:
    domain, tag = name
    return bytes((0x01, registry.entries[domain].slot)) + tag.to_bytes(2, "big") + bytes((len(kept.value),)) + kept.value


def slots_of(registry: Registry, kind: str) -> dict[int, bytes]:
    """The slots of a kind that are used."""
    if kind == "entry":
        return {entry.slot: entry_bytes(registry, entry) for entry in registry.entries.values()}
    if kind == "file":
        return {file.slot: file_bytes(registry, file) for file in registry.files.values()}
    if kind == "key":
        return {key.slot: key_bytes(registry, name, key) for name, key in registry.keys.items()}
    return {kept.slot: object_bytes(registry, name, kept) for name, kept in registry.objects.items()}


def superblock(registry: Registry) -> bytes:
    return MAGIC + bytes((0x03, registry.card_state))


def page_of(kind: str, slot: int) -> int:
    return SUPERBLOCK if kind == "card" else TABLES[kind][0] + slot // TABLES[kind][1]


def made(registry: Registry, page: int) -> bytes:
    """What stands in a store page."""
    if page == SUPERBLOCK:
        return superblock(registry)
    for kind, (first, per_page, slots) in TABLES.items():
        if first <= page < first + slots // per_page:
            used, size = slots_of(registry, kind), PAGE // per_page
            begin = (page - first) * per_page
            return b"".join(used.get(slot, b"").ljust(size, b"\x00") for slot in range(begin, begin + per_page))
    raise ValueError(page)


# ---- A commit

def commit(registry: Registry) -> None:
    """Load pages first, and then all that was staged at once: copies and descriptor, gate, pages in place, gate."""
    device = registry.device
    if device is not None:
        for kind, slot in registry.staged:
            if kind == "load":
                device.write(FIRST_LOAD_PAGE + slot, registry.load_pages[slot])
        pages = list(dict.fromkeys(page_of(kind, slot) for kind, slot in registry.staged if kind != "load"))
        if pages:
            commit_pages(device, {page: made(registry, page) for page in pages})
    registry.staged.clear()


def commit_pages(device: Device, pages: dict[int, bytes]) -> None:
    for place, data in enumerate(pages.values()):
        device.write(COPIES + place, data)
    device.write(DESCRIPTOR, bytes((len(pages), *pages)))
    device.write(GATE, bytes((OPEN,)))
    settle(device)


def settle(device: Device) -> None:
    """A commit whose gate is open is ended: pages in place, and the gate is closed."""
    count, *pages = device.read(DESCRIPTOR)
    if not 1 <= count <= MOST_COPIES or len(set(pages[:count])) < count: raise BadImage("the descriptor")
    if any(page >= GATE for page in pages[:count]): raise BadImage("the descriptor")
    for place, page in enumerate(pages[:count]):
        device.write(page, device.read(COPIES + place))
    device.write(GATE, b"")


# ---- Whole images

def lay_out(registry: Registry) -> Device:
    device = Device()
    for page in range(GATE):
        device.write(page, made(registry, page))
    device.write(GATE, b"")
    for page, data in registry.load_pages.items():
        device.write(FIRST_LOAD_PAGE + page, data)
    return device


def factory() -> Registry:
    """The factory card, on a device of its own."""
    registry = of.factory_registry()
    registry.device = lay_out(registry)
    return registry


def write_image(registry: Registry) -> bytes:
    """The image of the card: with all that its commits have left in it, where it stands on a device."""
    device = registry.device if registry.device is not None else lay_out(registry)
    return bytes(device.bytes[:device.end])


def read_image(data: bytes) -> Registry:
    """The registry that an image represents. A commit that was cut off is ended first."""
    device = Device(data)
    if device.read(GATE)[0] == OPEN:
        settle(device)
    registry = read_registry(device)
    registry.device = device
    cause = cause_against(registry)
    if cause is not None: raise BadImage(cause)
    if device.read(SUPERBLOCK)[4] == LAYOUTS[0]:
        if any(len(key.value) != 16 for key in registry.keys.values()): raise BadImage("a key in layout 02")
        registry.stage("card")
        commit(registry)
    return registry


def read_registry(device: Device) -> Registry:
    registry, head = Registry(), device.read(SUPERBLOCK)
    if head[:4] != MAGIC or head[4] not in LAYOUTS: raise BadImage("superblock")
    registry.card_state = head[5]
    registry.load_pages = {page: device.read(FIRST_LOAD_PAGE + page) for page in range(LOAD_PAGES)}
    slots = {kind: dict(used_slots(device, kind)) for kind in TABLES}
    names = {kind: {slot: unsized(data[1:18]) for slot, data in slots[kind].items()} for kind in ("entry", "file")}
    if names["entry"].get(0) != of.ISSUER: raise BadImage("slot 0")
    try:
        for slot, data in slots["entry"].items():
            put(registry.entries, names["entry"][slot], Entry(
                names["entry"][slot], names["entry"][data[18]], names["file"][data[19]], unsized(data[20:37]),
                data[37] & ~of.LOCK, number(data[38:41]), data[37] >= of.LOCK, number(data[41:43]), slot))
        for slot, data in slots["file"].items():
            put(registry.files, names["file"][slot], read_file(registry, slot, data, names["entry"][data[18]]))
        for slot, data in slots["key"].items():
            domain, version, identifier = names["entry"][data[1]], data[2], data[3]
            if data[4] > 32: raise BadImage("the length of a key")
            put(registry.keys, (domain, version, identifier), Key(data[5:5 + data[4]], slot))
            if identifier == of.KEY_ENC and version <= of.LAST_SET:
                registry.counters[domain, version] = number(data[37:40])
        for slot, data in slots["object"].items():
            put(registry.objects, (names["entry"][data[1]], number(data[2:4])), DataObject(data[5:5 + data[4]], slot))
    except KeyError:
        raise BadImage("a slot that is not used") from None
    return registry


def put(table: dict, name: object, thing: object) -> None:
    if name in table: raise BadImage("a name that stands twice")
    table[name] = thing


def used_slots(device: Device, kind: str) -> Iterable[tuple[int, bytes]]:
    first, per_page, slots = TABLES[kind]
    size = PAGE // per_page
    for slot in range(slots):
        place = first * PAGE + slot * size
        data = bytes(device.bytes[place:place + size])
        if data[0] > 1: raise BadImage("the first byte of a slot")
        if data[0] == 1:
            yield slot, data


def read_file(registry: Registry, slot: int, data: bytes, domain: bytes) -> File:
    length = number(data[19:21])
    if length > of.FILE_BYTES: raise BadImage("the size of a file")
    count = pages_for(length)
    high = number(data[0xC0:0xD0])
    pages = [data[0x40 + place] | (high >> 127 - place & 1) << 8 for place in range(count)]
    content = b"".join(registry.load_pages[page] for page in pages)
    return File(unsized(data[1:18]), domain, content[:length], pages, slot)


factory_registry = factory
