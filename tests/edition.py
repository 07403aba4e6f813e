#!/usr/bin/env python3
"""A reader's edition: the definitions that the clauses of a top call lead to, each after those that it stands on.

    tests/edition.py               of `gp_tool gp`, whole
    tests/edition.py --contents    its sections, files and line counts alone
    tests/edition.py WORD...       of the top calls of tests/believed.py whose name has a WORD; --contents may stand before them

Crates are its sections, in an order in which each comes after those that it stands on (crates.txt); so are the files of a crate, by what
they import. Of a file the definitions stand in their order, with the comments before them. At the end are the names that the
definitions take from the libraries of the toolchain, and the types and constants that they take from the code: they are believed too.
Which definitions there are is found by tests/believed.py, and lines are counted as there: blank lines and comments do not count.
"""
import collections
import re
import signal
import sys

import believed

TOP = believed.CRATES.parent
DECLARED = re.compile(r"use Rattle\.(\w+)\.specs\.declared\.([\w.]+?)(?:\.\{([^}]*)\})?(?: as (\w+))?;?$")


def in_order(names, stands_on):
    """The names, each after those that it stands on."""
    done = []

    def visit(name):
        if name in done or name not in names:
            return
        waiting.add(name)
        for other in sorted(stands_on(name)):
            if other not in waiting:
                visit(other)
        done.append(name)

    waiting = set()
    for name in sorted(names):
        visit(name)
    return done


def texts(path, wanted):
    """The text of each wanted definition: the comment before it, and its lines up to the next one."""
    found, comment, name = collections.defaultdict(list), [], None
    for line in path.read_text().split("\n"):
        head = believed.DEFINITION.match(line)
        if line.startswith("--"):
            comment.append(line)
            continue
        if not line.strip() or line.startswith("use "):
            if comment and not line.strip():
                comment = []
            continue
        if head:
            name = head[1]
            found[name] += comment
            comment = []
        elif comment:
            found[name] += comment
            comment = []
        found[name].append(line)
    return {name: found[name] for name in wanted}


def taken(path, words):
    """What a file takes from the toolchain and from types of the code, as far as these words use it."""
    libraries, types = set(), set()
    ours = {folder.name for folder in believed.CRATES.iterdir()}
    for line in path.read_text().split("\n"):
        use, declared = believed.USE.match(line.strip()), DECLARED.match(line.strip())
        crate = (declared or use or [None, None])[1]
        if crate is None or (crate in ours and not declared):
            continue
        for name in filter(None, (it.strip() for it in ((declared or use)[3] or (declared or use)[2]).split(","))):
            own, _, other = name.partition(" as ")
            if (other or own).startswith("◌") or any(word.split(".")[0] == (other or own) for word in words) or not own.isidentifier():
                (types if declared and crate in ours else libraries).add(f"{crate} {own}")
    return libraries, types


def print_names(title, names):
    by_crate = collections.defaultdict(list)
    for name in sorted(names):
        crate, _, own = name.partition(" ")
        by_crate[crate].append(own)
    print(f"\n## {title}: {len(names)} names\n")
    for crate, owns in sorted(by_crate.items()):
        print(f"{crate}: {', '.join(owns)}")


def main(words):
    contents = "--contents" in words
    wanted = [word for word in words if word != "--contents"]
    specs = believed.all_specs()
    found = set()
    for crate, file, begin in believed.CALLS:
        call = f"{crate} {begin.removeprefix('pub ').replace('fn ', '').rstrip('(<')}".strip()
        if any(word in call for word in wanted) or (not wanted and call == "gp_tool gp"):
            found |= believed.reached(specs, *believed.clauses(crate, file, begin))
    files = collections.defaultdict(set)
    for crate, module, name in found:
        files[crate, module].add(name)
    below = dict(line.split(":") for line in (TOP / "crates.txt").read_text().splitlines() if ":" in line and not line.startswith("#"))
    libraries, types = set(), set()
    total = sum(specs[at[:2]].size[at[2]] for at in found)
    print(f"# {len(found)} definitions in {total} lines")
    for crate in in_order({crate for crate, _ in files}, lambda name: below[name].split()):
        modules = {module for owner, module in files if owner == crate}
        near = {module: {use[1] for use in specs[crate, module].uses.values() if use[0] == crate} for module in modules}
        lines = sum(specs[crate, module].size[name] for module in modules for name in files[crate, module])
        print(f"\n## {crate}: {lines} lines")
        for module in in_order(modules, near.__getitem__):
            file, names = specs[crate, module], sorted(files[crate, module], key=specs[crate, module].first.get)
            libraries_here, types_here = taken(file.path, set().union(*(file.words[name] for name in names)))
            libraries, types = libraries | libraries_here, types | types_here
            print(f"\n### {file.path.relative_to(TOP)}: {sum(file.size[name] for name in names)} lines\n" if not contents
                  else f"  {module}: {sum(file.size[name] for name in names)}")
            if not contents:
                text = texts(file.path, names)
                print("\n\n".join("\n".join(text[name]) for name in names))
    print_names("taken from the libraries of the toolchain", libraries)
    print_names("taken from the code, as types, variants and constants", types)


if __name__ == "__main__":
    signal.signal(signal.SIGPIPE, signal.SIG_DFL)
    main(sys.argv[1:])
