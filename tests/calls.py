#!/usr/bin/env python3
"""The public calls of the crates, each with the labels of its clauses. It fails where a call promises nothing.

    tests/calls.py             for each crate how many calls it has, and how many clauses they have
    tests/calls.py WORD...     the calls whose crate, name or file has a WORD, with the labels of their clauses
    tests/calls.py --all       all of them

A public call is a `pub fn`, by itself or of a type, or a method of a `pub trait`. A method of an `impl` of a trait has the
clauses of the trait, which stands behind it; those of the library speak of a ghost word, which the `impl` has to give. A clause
without a label is written as -. What a clause says is not looked at: that is for the prover and the reader.

Behind this it prints each call without an `ensures`, and then 'N passed, M failed'. It ends with 1 where there is such a call
that is not excepted here with a reason, or an exception that no call needs. It needs no prover; run it anywhere.
"""
import collections
import pathlib
import re
import sys

CRATES = pathlib.Path(__file__).resolve().parent.parent / "crates"

# Crates whose functions promise no more than each function does: to do nothing undefined, and to return.
WITHOUT_PROMISES = {
    "cases": "plays cases: what it does shows in its text alone, which is compared",
    "case_cards": "the cards that cases plays on: each case shows whether they are laid out as it says",
    "vectors": "tests",
    "card_tests": "tests",
    "cipher_bench": "a program for timing",
}

# Traits of the library whose methods are written here, and the ghost word that their clauses speak of.
OF_LIBRARY = {"Default": "is_default", "Flags": "set_of", "From": "from_gives", "PartialEq": "eq"}

# Calls without an `ensures`, by crate and name, each with the reason.
EXCEPTED = {
    "frame_pool FramePool::drop": "the library has no clause: what it was called on is gone, and nothing is answered",
    "load_session LoadWrite::default": "fills the places of an ArrayVec that are not used",
}

FUNCTION = re.compile(r"( *)(pub )?(?:const |unsafe )*fn (\w+)")
BLOCK = re.compile(r"(pub )?trait (\w+)|impl(?:<.*?>)? (?:(?P<trait>\w+)(?:<.*>)? for )?(?P<type>\w+)")
CLAUSE = re.compile(r" *(requires|ensures)\*? (?:(\w+) )?\{")

Call = collections.namedtuple("Call", "crate name trait word requires ensures place")


def clauses_of(lines, indent):
    """The labels of the clauses of the function that begins with these lines, by the word that they begin with."""
    found = {"requires": [], "ensures": []}
    any_found = False
    for line in lines:
        clause = CLAUSE.match(line)
        if clause:
            any_found = True
            found[clause[1]].append(clause[2] or "-")
        # Behind clauses the body has a line of its own; without any it begins, or ends, the line.
        if re.fullmatch(rf"{indent}\{{\}}?", line) or line.endswith(";") or (not any_found and line.endswith(("{", "}"))):
            break
    return found["requires"], found["ensures"]


def calls_of(path):
    """The public calls of a file. A block ends where a brace stands in the first column."""
    lines = path.read_text().split("\n")
    owner, trait, word, is_public = "", "", "", False
    for number, line in enumerate(lines):
        block = BLOCK.match(line)
        if line.startswith("}"):
            owner, trait, word, is_public = "", "", "", False
        elif block:
            owner, trait, word, is_public = block[2] or block["type"], block["trait"] or "", "", bool(block[1] or block["trait"])
        ghost = re.match(r" +ghost (\w+) =", line)
        if ghost and ghost[1] == OF_LIBRARY.get(trait):
            word = ghost[1]
        function = FUNCTION.match(line)
        if function and (function[2] or is_public):
            name = f"{owner}::{function[3]}" if owner else function[3]
            place = f"{path.relative_to(CRATES.parent)}:{number + 1}"
            yield Call(path.relative_to(CRATES).parts[0], name, trait, word, *clauses_of(lines[number:], function[1]), place)


def shown(call):
    parts = [f"{call.crate} {call.name}"]
    if call.trait:
        parts.append(f"as {call.trait}" + (f", by {call.word}" if call.word else ""))
    for word, labels in (("requires", call.requires), ("ensures", call.ensures)):
        if labels:
            parts.append(f"{word} {' '.join(labels)}")
    return "  ".join([*parts, call.place])


def main(words):
    calls = [call for path in sorted(CRATES.glob("*/src/**/*.rt")) for call in calls_of(path)]
    if words:
        for call in calls:
            if words == ["--all"] or any(word in shown(call).split("  ")[0] or word in call.place for word in words):
                print(shown(call))
    else:
        for crate in dict.fromkeys(call.crate for call in calls):
            of_crate = [call for call in calls if call.crate == crate]
            clauses = sum(len(call.requires) + len(call.ensures) for call in of_crate)
            print(f"{crate}: calls {len(of_crate)}, clauses {clauses}")

    promised = {call.name for call in calls if call.ensures}
    unused = {*WITHOUT_PROMISES, *EXCEPTED}
    passed = failed = 0
    for call in calls:
        by_trait = f"{call.trait}::{call.name.split('::')[-1]}"
        if call.ensures or call.word or by_trait in promised:
            passed += 1
            continue
        exception = {call.crate, f"{call.crate} {call.name}"} & {*WITHOUT_PROMISES, *EXCEPTED}
        unused -= exception
        passed += bool(exception)
        failed += not exception
        if not exception:
            print(f"calls: {call.place}: {call.crate} {call.name} has no ensures")
    for word in sorted(unused):
        print(f"calls: no call needs the exception for {word}")
    failed += len(unused)
    print(f"{passed} passed, {failed} failed")
    sys.exit(failed != 0)


main(sys.argv[1:])
