#!/usr/bin/env python3
"""Makes a small CAP file, as a Java Card converter leaves one: a zip with one file for each component.

usage: applet_cap.py FILE [BYTES]

The package is F00000000101, and its one applet F0000000010101. The Method component has BYTES bytes of code, 20 where none are said, all
of them 7A (return): nobody is to run them. The package exports nothing, so there is no Export component. The Descriptor is there, and is
not loaded.
"""
import sys
import zipfile

PACKAGE = bytes.fromhex("f00000000101")
APPLET = bytes.fromhex("f0000000010101")
FRAMEWORK = bytes.fromhex("a0000000620101")

TAGS = {
    "Header": 1, "Directory": 2, "Applet": 3, "Import": 4, "ConstantPool": 5, "Class": 6,
    "Method": 7, "StaticField": 8, "RefLocation": 9, "Descriptor": 11,
}


def with_length(field):
    return bytes([len(field)]) + field


def contents(code):
    """The content of each component but the Directory (Java Card Virtual Machine Specification 3, chapter 6)."""
    return {
        "Header": bytes.fromhex("decaffed 0202 04 0001") + with_length(PACKAGE) + with_length(b"hello"),
        "Applet": b"\1" + with_length(APPLET) + b"\0\1",
        "Import": bytes.fromhex("01 0601") + with_length(FRAMEWORK),
        "ConstantPool": bytes.fromhex("0001 06800300"),
        "Class": bytes.fromhex("0080030000000000"),
        "Method": b"\0" + b"\x7a" * code,
        "StaticField": bytes(10),
        "RefLocation": bytes(4),
        "Descriptor": bytes(8),
    }


def main(name, code):
    parts = contents(code)
    sizes = {TAGS[part]: len(content) for part, content in parts.items()}
    sizes[TAGS["Directory"]] = 33
    listed = b"".join(sizes.get(tag, 0).to_bytes(2, "big") for tag in range(1, 13))
    parts["Directory"] = listed + bytes(6) + bytes([1, 1, 0])
    with zipfile.ZipFile(name, "w", zipfile.ZIP_DEFLATED) as file:
        for part, content in sorted(parts.items()):
            component = bytes([TAGS[part]]) + len(content).to_bytes(2, "big") + content
            # The time is fixed, so the same words make the same file.
            file.writestr(zipfile.ZipInfo(f"hello/javacard/{part}.cap", (2020, 1, 1, 0, 0, 0)), component)


if len(sys.argv) not in (2, 3) or sys.argv[1].startswith("-"):
    sys.exit(__doc__.strip())
main(sys.argv[1], int(sys.argv[2]) if len(sys.argv) == 3 else 20)
