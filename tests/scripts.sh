#!/usr/bin/env bash
# Plays the examples of docs/SCRIPTS.md by `gp play`, each on a card that `gp format` has just made, and compares what is
# printed, to the byte, and the status. It is no part of `rt ci`.
#
# An example is a block ```script, and behind it a block ```text with what it prints; ```text 8 wants the status 8, and
# ```text alone 0. In a block ```console the lines that begin with `$ ` are given to a shell, and the others are what they
# write. Each heading of the page that begins with a code span is that of a verb: it has an example with this verb, and the
# verbs are those that a `match` of crates/script_lines/src tells apart.
#
# It says what differs, then 'N passed, M failed', and ends with 0 where nothing failed.
set -euo pipefail

cd "$(dirname "$(dirname "$(readlink -f "${BASH_SOURCE[0]}")")")"
gp=$PWD/crates/gp/out/gp
if [[ ! -x $gp ]]; then
    echo "scripts: $gp is not built: ./gp builds it" >&2
    exit 1
fi
exec python3 - "$gp" <<'END'
import re
import subprocess
import sys
import tempfile
from pathlib import Path

GP = sys.argv[1]
PAGE = Path("docs/SCRIPTS.md")
CODE = Path("crates/script_lines/src")

passed = failed = 0


def judge(good, text):
    global passed, failed
    passed += good
    failed += not good
    if not good:
        print(f"FAIL {text}")


def try_console(number, block):
    with tempfile.TemporaryDirectory() as folder:
        (Path(folder) / "gp").symlink_to(GP)
        commands = "".join(line[2:] for line in block if line.startswith("$ "))
        wanted = "".join(line for line in block if not line.startswith("$ "))
        done = subprocess.run(["bash", "-c", commands], cwd=folder, stdout=subprocess.PIPE, stderr=subprocess.STDOUT)
        judge(done.stdout.decode() == wanted, f"line {number}: wanted\n{wanted}got\n{done.stdout.decode()}")


def read_page():
    """The verbs of the headings, and the examples: the number of the line, the verb that it stands under, the script, and
    what it prints with its status."""
    verbs, examples = [], []
    verb = script = None
    text = iter(enumerate(PAGE.read_text().splitlines(keepends=True), 1))
    for number, line in text:
        heading = re.match(r"#+ (?:`([a-z]+))?", line)
        if heading:
            verb = heading[1]
            if verb:
                verbs.append(verb)
        fence = re.fullmatch(r"```(\w+)(?: (\d))?\n", line)
        if not fence:
            continue
        block = []
        for _, inside in text:
            if inside == "```\n":
                break
            block.append(inside)
        if fence[1] == "script":
            judge(script is None, f"line {number}: the example before it has no text")
            script = (number, "".join(block))
        elif fence[1] == "text" and script:
            examples.append((script[0], verb, script[1], "".join(block), int(fence[2] or 0)))
            script = None
        elif fence[1] == "console":
            try_console(number, block)
    judge(script is None, "the last example has no text")
    return verbs, examples


def verbs_of_code():
    source = "".join(path.read_text() for path in sorted(CODE.glob("*.rt")))
    return set(re.findall(r'^ +b"([a-z]+)" =>', source, re.M))


def play(script):
    with tempfile.TemporaryDirectory() as folder:
        made = subprocess.run([GP, "format"], cwd=folder, capture_output=True)
        if made.returncode:
            sys.exit(f"scripts: the card can't be made: {made.returncode}")
        done = subprocess.run([GP, "play"], cwd=folder, input=script.encode(), capture_output=True)
        return done.stdout.decode(), done.stderr.decode(), done.returncode


def plays(script, verb):
    return any(re.match(rf"(?:- )?{verb}\b", line) for line in script.splitlines())


verbs, examples = read_page()
judge(set(verbs) == verbs_of_code(), f"the verbs that differ: {sorted(set(verbs) ^ verbs_of_code())}")
judge(len(examples) >= len(set(verbs)), f"{len(examples)} examples for {len(set(verbs))} verbs")
for verb in verbs:
    judge(any(verb == under and plays(script, verb) for _, under, script, _, _ in examples), f"{verb}: no example")
for number, _, script, wanted, status in examples:
    printed, errors, ended = play(script)
    judge(printed == wanted, f"line {number}: wanted\n{wanted}got\n{printed}")
    judge((ended, errors) == (status, ""), f"line {number}: wanted status {status}, got {ended} {errors}")
print(f"{passed} passed, {failed} failed")
sys.exit(failed > 0)
END
