#!/usr/bin/env python3
"""Finds public definitions of specifications that have no name of their own: two of one name, or a bare participle.

It reads the specifications of all crates, crates/*/specs, without what a Prelude passes on. A definition is a thing or a property, so its
name is a noun or begins as a statement does, as `thing_in` or `IsInOrder`; a participle alone, as `held`, says neither what is held nor by
whom. It prints each name with the places where it stands, and then 'N passed, M failed', and ends with 1 where there is one.
"""
import collections
import re
import sys
from pathlib import Path

CRATES = Path(__file__).resolve().parent.parent / "crates"
DEFINITION = re.compile(r"^(?:abbrev )?pub (?:record |data )?(\w+)(?: :| \(| \{| where)", re.M)
# Of verbs whose participle does not end with -ed.
IRREGULAR = set(
    "begun born bound broken brought built chosen come cut dealt done drawn fed fit found given gone got grown heard held hid kept known "
    "laid led left lost made met paid put read run said seen sent set shown spent spoken stood taken thrown told understood won worn written".split()
)


def is_participle(name):
    return name in IRREGULAR or re.fullmatch(r"[a-z]{3,}ed", name)


def main():
    places = collections.defaultdict(list)
    for path in sorted(CRATES.glob("*/specs/**/*.antt")):
        text = path.read_text()
        for found in DEFINITION.finditer(text):
            line = text.count("\n", 0, found.start()) + 1
            places[found[1]].append(f"crates/{path.relative_to(CRATES)}:{line}")
    failed = 0
    for name, found in sorted(places.items()):
        reasons = ["is defined more than once"] * (len(found) > 1) + ["is a bare participle"] * bool(is_participle(name))
        for reason in reasons:
            print(f"names: {name} {reason}: {', '.join(found)}")
        failed += bool(reasons)
    print(f"{len(places) - failed} passed, {failed} failed")
    return 1 if failed or not places else 0


sys.exit(main())
