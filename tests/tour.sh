#!/usr/bin/env bash
# Plays the tours of README.md, docs/DESK.md and docs/READERS.md, and compares what each of their commands writes with the lines after
# it, to the byte.
# It is no part of `rt ci`.
#
#   tests/tour.sh [PAGE...]      these pages, from the top of the repository
#
# In a block ```console the lines that begin with `$ ` are commands, each for a shell of its own, and the others are what they
# write, on standard output and standard error. All blocks of a page are played in their order, in one folder: the card of one is there
# for the next. At first the folder has `gp`, `demo`, `examples` and `tools` of the repository, and nothing else. `./gp` and `./demo`
# build what is missing; `gp_host` is the built one. Where it, unzip or xxd is missing, a page ends before the first command that names
# it, which is said.
#
# It says what differs, then 'N passed, M failed', and ends with 0 where nothing failed.
set -euo pipefail

cd "$(dirname "$(dirname "$(readlink -f "${BASH_SOURCE[0]}")")")"

# The launcher builds before the tour begins, and says so here. With no words the program only says its usage, and ends with 1.
./gp >/dev/null || (($? == 1))
exec python3 - "$@" <<'END'
import os
import re
import shutil
import subprocess
import sys
import tempfile
from pathlib import Path

TOP = Path.cwd()
PAGES = sys.argv[1:] or ["README.md", "docs/DESK.md", "docs/READERS.md"]
os.environ["PATH"] += f":{TOP / 'crates/gp_host/out'}"

# Programs of other packages, and the one that ./gp doesn't build.
NEEDED = ("unzip", "xxd", "gp_host")
MISSING = [name for name in NEEDED if not shutil.which(name)]

# When kill -9 ends the run in ./demo is the machine's: of the two numbers that tell it only the form is compared.
MOVING = re.compile(rb"^(answered: )\d+( commands\ncounter [0-9a-f]+ [0-9a-f]{2} )[0-9a-f]{6}$", re.MULTILINE)

passed = failed = 0


def judge(good, text):
    global passed, failed
    passed += good
    failed += not good
    if not good:
        print(f"FAIL {text}")


def read_blocks(page):
    """The blocks: the number of the line that each begins with, its commands with what they write, and what stands before them."""
    blocks = []
    open_block = None
    for number, line in enumerate((TOP / page).read_bytes().splitlines(keepends=True), 1):
        if open_block is None:
            if line == b"```console\n":
                open_block = (number, [], [])
        elif line == b"```\n":
            blocks.append(open_block)
            open_block = None
        elif line.startswith(b"$ "):
            open_block[1].append((number, line[2:].decode(), []))
        else:
            steps = open_block[1]
            (steps[-1][2] if steps else open_block[2]).append(line)
    judge(open_block is None, f"{page}:{open_block and open_block[0]}: the block has no end")
    judge(bool(blocks), f"{page}: there is no block ```console")
    return blocks


def form(text):
    return MOVING.sub(rb"\1N\2N", text)


def play(where, command, wanted, folder):
    done = subprocess.run(
        ["bash", "-c", command], cwd=folder, stdin=subprocess.DEVNULL, stdout=subprocess.PIPE, stderr=subprocess.STDOUT
    )
    good = form(done.stdout) == form(wanted)
    judge(good, f"{where}: {command}wanted\n{wanted.decode()}got\n{done.stdout.decode(errors='replace')}")


def steps_of(page):
    """The commands of a page, each with its place and what it is to write, up to the first that can't be played here."""
    for begins, steps, before in read_blocks(page):
        judge(bool(steps), f"{page}:{begins}: the block has no command")
        judge(not before, f"{page}:{begins}: the block begins with no command")
        for number, command, wanted in steps:
            if any(re.search(rf"\b{name}\b", command) for name in MISSING):
                print(f"{page}:{number}: skipped from here on: there is no {' and no '.join(MISSING)}")
                return
            yield f"{page}:{number}", command, b"".join(wanted)


for page in PAGES:
    with tempfile.TemporaryDirectory(prefix="tour.") as folder:
        for name in ("gp", "demo", "examples", "tools"):
            (Path(folder) / name).symlink_to(TOP / name)
        for step in steps_of(page):
            play(*step, folder)
print(f"{passed} passed, {failed} failed")
sys.exit(failed > 0)
END
