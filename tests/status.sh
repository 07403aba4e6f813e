#!/usr/bin/env bash
# Checks that the pages say what the code says. tools/tables/make --check compares the tables that it makes: of docs/STATUS.md all, of
# docs/POLICY.md the instructions of each class, data objects, limits and the pages of a card. The rest stands here: code and definitions
# (crates/*/src and crates/*/specs) agree on rules, status words, codes and privileges; README.md has the exit statuses and the number
# of rules, docs/POLICY.md the commands, docs/DESK.md lines, verdicts, stops and statuses; and no page names a rule that is not there.
#
# What is to be found is a row of a table. That the sentence in it is right is for the reader.
#
# It prints what stands in one and not in the other, and then 'N passed, M failed', and ends with 1 where something differs.
set -euo pipefail

cd "$(dirname "$(dirname "$(readlink -f "${BASH_SOURCE[0]}")")")"
exec python3 - <<'END'
import re
import subprocess
import sys
from pathlib import Path

sys.dont_write_bytecode = True
sys.path.insert(0, "tools/tables")
import sources as code

STATUS = "docs/STATUS.md"
POLICY = "docs/POLICY.md"
DESK = "docs/DESK.md"
passed = failed = 0


def judge(good, text):
    global passed, failed
    passed += good
    failed += not good
    if not good:
        print(f"status: {text}")


def compare(what, one, ones, other, others):
    """Two dicts: each key has to stand in both, with the same value."""
    judge(bool(others), f"{what}: {other} has none")
    for key in list(dict.fromkeys([*ones, *others])):
        if key not in ones:
            judge(False, f"{what} {key}: stands in {other}, and not in {one}")
        elif key not in others:
            judge(False, f"{what} {key}: stands in {one}, and not in {other}")
        else:
            judge(ones[key] == others[key], f"{what} {key}: in {one} {ones[key]!r}, in {other} {others[key]!r}")


def tables(path, *head):
    """The rows of the tables of a page whose head begins so, each as the list of its cells."""
    rows = []
    inside = False
    for line in Path(path).read_text().splitlines():
        cells = [cell.strip() for cell in line.split("|")[1:-1]]
        if not line.startswith("|"):
            inside = False
        elif inside:
            rows.append(cells)
        else:
            inside = cells[: len(head)] == list(head)
    return [row for row in rows if not re.fullmatch("-+", row[0])]


def rows_by(path, key, value, *head):
    """The same by the cell in one place, which no two rows have, each with what is taken of its cells."""
    found = {}
    for row in tables(path, *head):
        judge(row[key] not in found, f"{path}: {row[key]} stands twice")
        found[row[key]] = value(row)
    return found


# The tables that are made.
made = subprocess.run(["tools/tables/make", "--check"], capture_output=True, text=True)
judge(made.returncode == 0, made.stderr.strip())

# The rules, as the code and as the definitions have them.
statuses = code.statuses
compare("the name of rule", "the code", {name: name for name in code.variants}, "fn name", code.names)
compare("rule", "fn status", statuses, "the definitions", code.refusals)

# A rule that a page names is there.
letters = "|".join(sorted({name.rstrip("0123456789") for name in statuses if name[-1].isdigit()}))
for page in (Path("README.md"), *sorted(Path("docs").glob("*.md"))):
    named = re.findall(rf"(?<![\w`/-])((?:{letters})\d+)(?!\w)", page.read_text())
    for name in sorted(set(named) - set(statuses)):
        judge(False, f"{page}: there is no rule {name}")

# How many there are, in words.
units = "one two three four five six seven eight nine".split()
tens = "twenty thirty forty fifty sixty seventy eighty ninety".split()
number = tens[len(statuses) // 10 - 2] + ("-" + units[len(statuses) % 10 - 1] if len(statuses) % 10 else "")
judge(f"{number} rules" in Path("README.md").read_text(), f"README.md: there are {number} rules")

# The order of the rules: each command is there, and G1 to G8 come first.
commands = re.search(r"^# commands:.*\n((?:.+\n)+)", Path("tools/tables/rules").read_text(), re.M).group(1)
titles = {group: name for name, group in re.findall(r"^(.*) \| (\w+)$", commands, re.M)}
orders = code.orders(titles)
judge(set(titles.values()) <= set(orders), "the definitions: a form of card content management was not found")
judge(code.expand(code.lists["general_rules"]) == [f"G{n}" for n in range(1, 9)], "the definitions: G1 to G8 are not in order")

# docs/POLICY.md says of the same commands which form they have.
told = {row[0].removesuffix(" of a key set").removesuffix(" of one key") for row in tables(POLICY, "instruction", "P1; P2 (else P)")}
compare("the form of", POLICY, dict.fromkeys(sorted(told), True), "the definitions", dict.fromkeys(sorted(orders), True))

# Codes and privileges, as the code and as the definitions have them.
compare("state of the card", "the code", code.card_states, "the definitions", code.defined("CardLife.antt", "card_life_code"))
compare("state of an entry", "the code", code.entry_states, "the definitions", code.defined("LifeMark.antt", "life_code"))
compare("security level", "the code", code.levels, "the definitions", code.defined("Level.antt", "code_of"))
coded = re.findall(r'\(codes "(\w+)", 0x(\w+)\)', (code.TYPES / "specs/Privileges.antt").read_text())
compare("privilege", "the code", code.privileges, "the definitions", {name: int(number, 16) for name, number in coded})
judge(set(code.lone_keys) == set(code.lone_versions), "the code: its token key and receipt key are not those of the definitions")

# What STATUS says of the factory card.
number = code.constant(code.TYPES / "src/factory.rt", "FACTORY_PRIVILEGES")
judge(f"factory card has {number:06X}" in Path(STATUS).read_text(), f"{STATUS}: the factory card has {number:06X}")
version = f"{code.constant(code.TYPES / 'src/factory.rt', 'FACTORY_VERSION'):02X}"
judge(f"a key set of key version number {version}" in Path(STATUS).read_text(), f"{STATUS}: the factory card has version {version}")

# How the program ends.
ends = dict.fromkeys(sorted(code.ends, key=int), True)
compare("exit status", "README.md", rows_by("README.md", 0, lambda row: True, "status", "when"), "the code", ends)

# docs/DESK.md: the lines of a desk, its verdicts, the stops of a CAP file, and how the two verbs end.


def first_words(path, *head):
    """The first word of each code span that begins a row."""
    return {span.split()[0] for row in tables(path, *head) for span in re.findall("`([^`]*)`", row[0])}


def said(folder, file):
    return {text.split()[0] for text in re.findall(r'codes "([a-z][^"]*)"', (code.CRATES / folder / "specs" / file).read_text())}


def same_set(what, page, words, others):
    judge(bool(others), f"{what}: the definitions have none")
    judge(words == others, f"{what}: {page} and the definitions differ in {sorted(words ^ others)}")


same_set("the lines of a desk", DESK, first_words(DESK, "line", "what it does", "writes"), said("receipt_desk", "Lines.antt"))
same_set("the verdicts", DESK, first_words(DESK, "verdict", "what is wrong"), said("receipt_desk", "Text.antt") - {"none", "want"})
stops = {span.rstrip(" N") for row in tables(DESK, "line", "what is wrong") for span in re.findall("`([^`]*)`", row[0])}
same_set("the stops", DESK, stops, {text.strip() for text in re.findall(r'codes "([^"]*)"', Path("crates/cap_pack/specs/Said.antt").read_text())})
ended = [row[0] for row in tables(DESK, "status", "when", "what has been written")]
differing = {re.search(r"status_with\((\d+)\)", (code.TOOL / name).read_text()).group(1) for name in ("desk_verb.rt", "cap_verb.rt")}
same_set("the statuses of desk and cap", DESK, set(ended), {"0", "2", "5", "6", "7", "9"} | differing)

# The pages of a card: the load pages are the last ones, and POLICY says how many there are.
judge(code.pages["load"][1] + 1 == code.limits["PAGES"], "the code: the load pages are not the last ones")
size = f"{code.limits['PAGES']} pages of {code.limits['PAGE']} bytes"
judge(size in Path(POLICY).read_text(), f"{POLICY}: a card has {size}")

print(f"{passed} passed, {failed} failed")
sys.exit(failed != 0)
END
