#!/usr/bin/env python3
"""Finds numbers that have a name and stand bare all the same: pages of a device, and the room of a reply.

It reads the code and the definitions of all crates, crates/*/src and crates/*/specs, without comments and without the lines in which a
constant gets its value. Tests (vectors, card_tests, cases, case_cards) and the tables of AES are left out. It prints each place, and
then 'N passed, M failed', and ends with 1 where there is one.
"""
import re
import sys
from pathlib import Path

CRATES = Path(__file__).resolve().parent.parent / "crates"
LEFT_OUT = {"vectors", "card_tests", "cases", "case_cards", "aes_block"}
# The files in which each name is tied to its number.
TIES = "literals.rt"
NAMES = {
    "45": "STORE_PAGES or GATE of page_journal",
    "46": "DESCRIPTOR of page_journal",
    "47": "COPIES of page_journal",
    "96": "FIRST_LOAD_PAGE of page_journal",
    "608": "PAGES of flash_core",
    "239": "DATA_LIMIT of scp03_card",
}
# What these numbers say besides.
OTHERS = {
    ("policy_machine/specs/GetStatus.antt", "239"): "part_limit, which the standard leaves open",
    ("scp03_host/src/wrap.rt", "239"): "the room of a command that is enciphered",
    ("scp03_host/specs/Wrapped.antt", "239"): "the same, defined",
    ("script_tool/src/aes_session.rt", "239"): "the same, over keys of each length",
    ("script_tool/src/loading.rt", "239"): "the same, as the shortest block",
    ("cap_pack/src/pack.rt", "239"): "the same, for commands of a pack",
    ("line_runs/src/bad_line.rt", "46"): "the room of a line",
}
CONSTANT = re.compile(r"^ *(?:pub(?:\(crate\))? )?const \w+: \w+ = ")
NUMBER = re.compile(r"(?<![\w.])(?:" + "|".join(NAMES) + r")(?![\w.])")


def main():
    passed = failed = 0
    used = set()
    for path in sorted([*CRATES.glob("*/src/**/*.rt"), *CRATES.glob("*/specs/*.antt")]):
        name = str(path.relative_to(CRATES))
        if name.split("/")[0] in LEFT_OUT or path.name == TIES:
            continue
        comment = "--" if path.suffix == ".antt" else "//"
        bare = []
        for number, line in enumerate(path.read_text().split("\n"), 1):
            if CONSTANT.match(line):
                continue
            for found in NUMBER.findall(line.split(comment)[0]):
                if (name, found) in OTHERS:
                    used.add((name, found))
                else:
                    bare.append(f"numbers: crates/{name}:{number}: {found} is {NAMES[found]}")
        print(*bare, sep="\n", end="\n" if bare else "")
        passed += not bare
        failed += bool(bare)
    for name, number in sorted(OTHERS.keys() - used):
        print(f"numbers: crates/{name} has no {number} any more")
        failed += 1
    print(f"{passed} passed, {failed} failed")
    return 1 if failed else 0


sys.exit(main())
