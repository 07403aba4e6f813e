"""The registry as text: README, "The lines of show"."""
from __future__ import annotations

import hashlib
from collections.abc import Iterator

from .registry import Entry, Registry


def entry_line(entry: Entry) -> str:
    kind = "domain" if entry.is_domain else "app"
    return (f"{kind} {entry.aid.hex()} in {entry.domain.hex()} from {entry.file.hex()} module {entry.module.hex()}"
            f" life {entry.life:02x} priv {entry.privileges:06x} receipts {entry.receipts:04x}")


def show(registry: Registry) -> Iterator[str]:
    yield f"card {registry.card_state:02x}"
    for _, entry in sorted(registry.entries.items(), key=lambda item: item[0]):
        yield entry_line(entry)
    for aid, file in sorted(registry.files.items(), key=lambda item: item[0]):
        digest = hashlib.sha256(file.content).hexdigest()
        yield f"file {aid.hex()} in {file.domain.hex()} bytes {len(file.content)} sha256 {digest}"
    for (domain, version, identifier), key in sorted(registry.keys.items(), key=lambda item: item[0]):
        yield f"key {domain.hex()} {version:02x} {identifier:02x} {len(key.value)}"
    for (domain, version), counter in sorted(registry.counters.items()):
        yield f"counter {domain.hex()} {version:02x} {counter:06x}"
    for (domain, tag), kept in sorted(registry.objects.items(), key=lambda item: item[0]):
        yield f"object {domain.hex()} {tag:04x} {kept.value.hex()}"
