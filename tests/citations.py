#!/usr/bin/env python3
"""Checks where README.md, docs/ and the README.md of each crate say that a definition stands: that the file is there, and defines that name.

    tests/citations.py            what is wrong, and then 'N passed, M failed'; it ends with 1 where something is
    tests/citations.py --list     before it each citation: page and line, name and place

A citation is a name in a code span, or several joined by commas and `and`, and after it a place: `IsBlank` in
`script_lines/specs/Line.antt`, `playing` (in `Play.antt` of `script_tool`), `run` (`src/run.rt`), `IsCard` of `card_check`. A place is a
file, a folder or a crate. A file is cited so too, with a folder or a crate. A part of a definition stands before it: `Differs`
in `EndsAt` of `Ends.antt`. In a list of files a name in brackets is cited with the file before it: - `Spelling.antt`: ..
(`AreElements`). Besides, each file has to be there, and each name of two words in capitals, as `IsCard`, somewhere in the code.

A file without a folder is in the crate named after it, or in the folder of the file before it in the same paragraph, or in
the crate that the heading or the beginning of the paragraph names, or in any crate.
"""
import functools
import pathlib
import re
import sys

TOP = pathlib.Path(__file__).resolve().parent.parent
CRATES = TOP / "crates"
PAGES = [TOP / "README.md", *sorted((TOP / "docs").glob("*.md")), *sorted((TOP / "crates").glob("*/README.md"))]

# gp is the program and its top call too, and nothing is cited from that crate.
CRATE_NAMES = {path.name for path in CRATES.iterdir()} - {"gp"}
CODE = [path for part in ("src", "specs", "proofs") for path in CRATES.glob(f"*/{part}/**/*.*")]
OTHER_FILES = [path for part in ("bench", "examples", "tests", "tools") for path in (TOP / part).iterdir()]

SPAN = re.compile(r"([^`]*)`([^`]+)`")
FILE = re.compile(r"[\w./*-]+\.(?:rt|antt|py|sh|c|h|edit|script)")
NAME = re.compile(r"[A-Za-z]\w*(?:(?:::|\.)\w+)*")
CAPITALS = re.compile(r"(?:[A-Z][a-z0-9]+){2,}")
SECTION = re.compile(r"(?:#+ |In |The same in files of |)`(\w+)(?:/specs)?`")
LIST = re.compile(r"- `\w+\.antt`")
SHORT = re.compile(r"`([A-Z]+)` (?:is )?`(\w+/specs)`")
JOINS = {", ", " and "}
OF = {" in ", " of "}
BEHIND = OF | {" in its ", " (", " (in "}

# What defines a name in a line: an item, a variant, a field, a label.
DEFINES = {
    ".rt": re.compile(
        r" *(?:pub(?:\(\w+\))? )?(?:(?:const |unsafe )*fn|struct|enum|trait|const|static|type|ghost) (\w+)"
        r"| *(?:pub )?(\w+)(?:,$|:| ?[({])| *ensures\*? (\w+) "
    ),
    ".antt": re.compile(r"(?: *(?:abbrev|unfoldable|opaque|pub|record|data) )*([^\s:({=]+)(?: |$)| +(?:pub )?([^\s:({]+) :"),
}


@functools.cache
def text_of(path):
    return path.read_text()


@functools.cache
def defined_by(path):
    rule = DEFINES.get(path.suffix)
    found = map(rule.match, text_of(path).splitlines()) if rule else []
    return {name for match in found if match for name in match.groups() if name}


@functools.cache
def code_in(folder):
    return [path for path in CODE if folder in path.parents]


@functools.cache
def is_known(name):
    return any(path.stem == name or re.search(rf"\b{name}\b", text_of(path)) for path in CODE)


def defines(path, name, whole):
    """A call stands in a file with its type, a member with its record, and a part with what it is a part of."""
    if FILE.fullmatch(name):
        return path.name == name
    *owners, last = re.split("::|[.]", name)
    others = [*owners, last] if whole else owners
    return (whole or last) in defined_by(path) and all(re.search(rf"\b{other}\b", text_of(path)) for other in others)


class Page:
    """A page, and what a citation may leave out at this place of it."""

    def __init__(self, path):
        self.name = path.relative_to(TOP)
        self.short = dict(SHORT.findall(text_of(path)))
        self.lines = text_of(path).splitlines()
        self.heading = self.section = self.folder = None

    def paths_of(self, place):
        """The files or folders of a place that names its folder, from the crate of the section, crates/, the top or any crate."""
        if place in CRATE_NAMES:
            return [CRATES / place]
        first, _, rest = place.rstrip("/").partition("/")
        place = f"{self.short[first]}/{rest}" if first in self.short else place
        roots = [CRATES / self.section] if self.section else []
        near = [root / place for root in [*roots, CRATES, TOP] if rest and (root / place).exists()]
        return near[:1] or (list(CRATES.glob(f"*/{place}")) if rest else [])

    def files_of(self, place, crate):
        """The files that a place may stand for."""
        if "*" in place:
            return list(TOP.glob(place))
        paths = self.paths_of(place)
        if paths or "/" in place:
            return [file for path in paths for file in ([path] if path.is_file() else code_in(path))]
        alike = [file for file in CODE if file.name == place]
        if crate:
            return [file for file in alike if CRATES / crate in file.parents]
        beside = [file for file in alike if file.parent == self.folder]
        here = [file for file in alike if self.section and CRATES / self.section in file.parents]
        return beside or here or alike or [file for file in OTHER_FILES if file.name == place]

    def is_place(self, span):
        return bool(FILE.fullmatch(span)) or any(path.is_dir() for path in self.paths_of(span))

    def cited_at(self, spans, at):
        """The names that a place is given for, each with what it is a part of: the one before it, and those joined to that."""
        gap, place = spans[at]
        name = spans[at - 1][1]
        if at == 0 or gap not in BEHIND or not NAME.fullmatch(name) or name in CRATE_NAMES:
            return []
        if FILE.fullmatch(name) and FILE.fullmatch(place):
            return []
        at -= 1
        names = [(name, None)]
        if spans[at][0] in OF and at > 0:
            return [*names, (spans[at - 1][1], name)]
        while at > 0 and spans[at][0] in JOINS and spans[at - 1][0] not in OF and NAME.fullmatch(spans[at - 1][1]):
            at -= 1
            names.append((spans[at][1], None))
        return names

    def listed_at(self, spans, at):
        """The names in brackets after a file of a list."""
        names = []
        for gap, span in spans[at + 1 :]:
            if FILE.fullmatch(span) or ". " in gap:
                break
            if NAME.fullmatch(span) and (gap.endswith(" (") or (names and gap in JOINS)):
                names.append((span, None))
        return names

    def read_line(self, line):
        """What a line cites, each with its place and whether it is right."""
        spans = SPAN.findall(line)
        cited = set()
        for at, (_, place) in enumerate(spans):
            if not self.is_place(place):
                continue
            is_file = FILE.fullmatch(place)
            behind, owner = spans[at + 1] if at + 1 < len(spans) else ("", "")
            crate = owner.removeprefix("crates/").split("/")[0] if is_file and behind in OF else None
            files = self.files_of(place, crate if crate in CRATE_NAMES else None)
            names = self.cited_at(spans, at)
            if is_file and LIST.match(line):
                names += self.listed_at(spans, at)
            for name, whole in names:
                cited.add(name)
                yield name, place, any(defines(file, name, whole) for file in files)
            if is_file:
                yield place, "the tree", bool(files)
                if "/" in place and len(files) == 1:
                    self.folder = files[0].parent
        for _, name in spans:
            if CAPITALS.fullmatch(name) and name not in cited:
                yield name, "the code", is_known(name)

    def citations(self):
        is_fenced = False
        for number, line in enumerate(self.lines, 1):
            is_fenced ^= line.startswith("```")
            self.begin(line)
            if not is_fenced:
                yield from ((f"{self.name}:{number}", *found) for found in self.read_line(line))

    def begin(self, line):
        """Takes from the beginning of a line which crate it is about."""
        section = SECTION.match(line)
        if line.startswith("#"):
            self.heading = section[1] if section and section[1] in CRATE_NAMES else None
        if not line or line.startswith("#"):
            self.section, self.folder = self.heading, None
        elif section and section[1] in CRATE_NAMES:
            self.section = section[1]


def main():
    counts = {True: 0, False: 0}
    for page in PAGES:
        for where, name, place, is_right in Page(page).citations():
            counts[is_right] += 1
            if "--list" in sys.argv[1:]:
                print(f"{where}: {name} in {place}")
            if not is_right:
                print(f"citations: {where}: {name} is not in {place}")
    print(f"{counts[True]} passed, {counts[False]} failed")
    return counts[False] > 0


sys.exit(main())
