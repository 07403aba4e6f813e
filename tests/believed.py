#!/usr/bin/env python3
"""What a reviewer has to believe: the definitions that the clauses of the top calls lead to.

    tests/believed.py             for each top call its definitions: how many, and their lines, by crate
    tests/believed.py WORD...     the definitions themselves, with file and line, of the calls whose name has a WORD
    tests/believed.py --heads     the files of specs/ whose head is wrong; it ends with 1 where there is one

The head of a file that no top call and no law leads to begins with "For the code inside", and no other head does.

It goes by names: from the words of a call's clauses to the definitions in specs/ that the file imports, and from each of
these on. Words of the toolchain's library and types of the code are not followed. Run it anywhere in the repository.
"""
import collections
import pathlib
import re
import sys

CRATES = pathlib.Path(__file__).resolve().parent.parent / "crates"

# A top call: the crate, its file, and where its clauses begin: a function, or a trait with all its clauses.
CALLS = [
    ("gp_tool", "top.rt", "pub fn gp<"),
    ("gp_tool", "serving.rt", "pub fn serve<"),
    ("host_tool", "top.rt", "pub fn gp_host<"),
    ("script_tool", "player.rt", "pub fn step<"),
    ("card_core", "card.rt", "pub fn power_on("),
    ("card_core", "card.rt", "pub fn process("),
    ("card_core", "card.rt", "pub fn reset("),
    ("card_core", "formatting.rt", "pub fn format<"),
    ("flash_core", "flash.rt", "pub trait Flash"),
    ("io_edge", "source.rt", "pub trait Source"),
    ("io_edge", "sink.rt", "pub trait Sink"),
]
CALLS += [(path.parts[-3], "laws.rt", "pub fn ") for path in sorted(CRATES.glob("*/src/laws.rt"))]

WORD = re.compile(r"[^\W\d][\w'-]*(?:\.[A-Za-z_][\w']*)*")
USE = re.compile(r"(?:ghost |pub )?use Rattle\.(\w+)\.specs\.([\w.]+?)(?:\.\{([^}]*)\})?(?: as (\w+))?;?$")
# At the beginning of a line, or within a module: there a bare `pub` is a field of a record.
DEFINITION = re.compile(r"(?:(?:abbrev |unfoldable )?pub (?:record |data )?|  (?:abbrev |unfoldable )pub |  pub (?:record|data) )([^\s:({]+)")


def imports(lines):
    """What each imported name stands for: a crate, a file of its specs/, and a name in it, or None for the whole file."""
    found = {}
    for line in lines:
        use = USE.match(line.strip())
        if not use or use[2].startswith("declared"):
            continue
        if use[3] is None:
            found[use[4] or use[2]] = use[1], use[2], None
            continue
        for name in filter(None, (it.strip() for it in use[3].split(","))):
            own, _, other = name.partition(" as ")
            found[other.strip() or own] = use[1], use[2], own
    return found


class Specs:
    """One file of specs/: its definitions with first line, number of lines and words, and its imports."""

    def __init__(self, path):
        self.path = path
        lines = path.read_text().split("\n")
        self.uses = imports(line for line in lines if line.startswith("use "))
        self.first, self.size = {}, collections.Counter()
        self.words = collections.defaultdict(set)
        self.owner = {}
        name = None
        for number, line in enumerate(lines, 1):
            if not line.strip() or line.lstrip().startswith("--") or line.startswith("use "):
                continue
            head = DEFINITION.match(line)
            if head:
                name = head[1]
                self.first[name] = number
            if name:
                self.size[name] += 1
                self.words[name] |= set(WORD.findall(line))
                member = re.match(r"  ([A-Z]\w*) :", line)
                if member:
                    self.owner[member[1]] = name


def all_specs():
    paths = sorted(CRATES.glob("*/specs/*.antt"))
    return {(path.parts[-3], path.stem): Specs(path) for path in paths if path.stem not in ("Lib", "Prelude")}


def passed_on():
    """Where each file of specs/ stands that a crate passes on from another."""
    return {
        (path.parts[-3], module): (crate, module)
        for path in CRATES.glob("*/specs/Lib.antt")
        for crate, module in re.findall(r"(?m)^pub use Rattle\.(\w+)\.specs\.(\w+)$", path.read_text())
    }


def preludes():
    """Where each name stands that a crate's Prelude passes on."""
    return {path.parts[-3]: imports(path.read_text().split("\n")) for path in CRATES.glob("*/specs/Prelude.antt")}


def clauses(crate, file, begin):
    """The words of the clauses, and what the file imports."""
    text = (CRATES / crate / "src" / file).read_text()
    uses = imports(re.findall(r"(?m)^\s*(ghost use .*;)$", text))
    start = text.index(begin)
    end = len(text) if begin.endswith("fn ") or "trait" in begin else text.index("\n    {\n" if text[start - 4 : start].isspace() else "\n{\n", start)
    return set(WORD.findall(text[start:end])), uses


def reached(specs, words, uses):
    """The definitions that these words lead to."""
    seen, left, stands, gathered = set(), [], passed_on(), preludes()

    def push(crate, module, name):
        if module == "Prelude":
            crate, module, name = gathered.get(crate, {}).get(name, (crate, module, name))
        crate, module = stands.get((crate, module), (crate, module))
        file = specs.get((crate, module))
        name = file and (name if name in file.first else file.owner.get(name))
        if name and (crate, module, name) not in seen:
            seen.add((crate, module, name))
            left.append((crate, module, name))

    def follow(words, uses, here):
        for word in words:
            front, _, member = word.partition(".")
            if front in uses:
                crate, module, name = uses[front]
                push(crate, module, name or member)
            elif here:
                push(*here, front)

    follow(words, uses, None)
    while left:
        crate, module, name = left.pop()
        file = specs[crate, module]
        follow(file.words[name], file.uses, (crate, module))
    return seen


def wrong_heads(specs):
    """The files whose head says the wrong thing of who reads them."""
    top = {at[:2] for crate, file, begin in CALLS for at in reached(specs, *clauses(crate, file, begin))}
    return [
        file.path.relative_to(CRATES.parent)
        for at, file in specs.items()
        if file.first and (at in top) == file.path.read_text().startswith("-- For the code inside")
    ]


def main(wanted):
    specs = all_specs()
    if wanted == ["--heads"]:
        wrong = wrong_heads(specs)
        print(*wrong, sep="\n", end="\n" if wrong else "")
        return 1 if wrong else 0
    for crate, file, begin in CALLS:
        call = f"{crate} {begin.removeprefix('pub ').rstrip('(<')}".replace(" fn ", " ").rstrip()
        if begin == "pub fn ":
            call = f"{crate} laws"
        if wanted and not any(word in call for word in wanted):
            continue
        found = reached(specs, *clauses(crate, file, begin))
        lines = collections.Counter()
        for at in found:
            lines[at[0]] += specs[at[:2]].size[at[2]]
        print(f"{call}: {len(found)} definitions in {sum(lines.values())} lines: " + ", ".join(f"{name} {count}" for name, count in sorted(lines.items())))
        for at in sorted(found, key=lambda it: (it[0], it[1], specs[it[:2]].first[it[2]])) if wanted else []:
            path = specs[at[:2]].path
            print(f"  {at[2]}  {path.relative_to(CRATES.parent)}:{specs[at[:2]].first[at[2]]}")


if __name__ == "__main__":
    sys.exit(main(sys.argv[1:]))
