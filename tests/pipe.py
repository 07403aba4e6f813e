#!/usr/bin/env python3
"""Talks to the built program over two pipes, as a card reader would: each line is
sent only after the reply to the last one came. So it fails where the program keeps
a reply back until more input comes."""

import os
import select
import subprocess
import sys
import tempfile
import time

# Each line that is sent, and the reply that must come. The card is behind the last line
# as it was before the first, so the table can be sent again and again.
TABLE = [
    ("00A4040008A000000151000000", "6f108408a000000151000000a5049f6501ff9000"),
    ("00A404", "6700"),
    ("00A4040005D200000001", "6a82"),
    ("00B00000", "6d00"),
    ("00700000", "019000"),
    ("80CA00E000", "e012c00401308810c00402308810c004033088109000"),
    ("00708001", "9000"),
]
LINES = 1000
SECONDS = 5

TOP = os.path.dirname(os.path.dirname(os.path.realpath(__file__)))
PROGRAM = os.path.join(TOP, "crates", "gp", "out", "gp")


def fail(text):
    print(f"pipe: {text}")
    sys.exit(1)


def reply_from(pipe):
    """The bytes that come up to a newline, the end of the output or the time limit."""
    got = b""
    last = time.monotonic() + SECONDS
    while not got.endswith(b"\n"):
        left = last - time.monotonic()
        if left <= 0 or not select.select([pipe], [], [], left)[0]:
            break
        piece = os.read(pipe.fileno(), 4096)
        if not piece:
            break
        got += piece
    return got


def talk(program):
    for number in range(1, LINES + 1):
        line, wanted = TABLE[(number - 1) % len(TABLE)]
        program.stdin.write(f"{line}\n".encode())
        got = reply_from(program.stdout)
        if got != f"{wanted}\n".encode():
            fail(f"line {number}, {line}: wanted {wanted}, got {got!r} within {SECONDS} s")
    try:
        more, errors = program.communicate(timeout=SECONDS)
    except subprocess.TimeoutExpired:
        fail(f"the program had not ended {SECONDS} s after its input did")
    if program.returncode != 0 or more or errors:
        fail(f"at the end: status {program.returncode}, {more!r}, standard error {errors!r}")
    print(f"pipe: {LINES} lines, each answered before the next was sent")


def main():
    if not os.access(PROGRAM, os.X_OK):
        fail(f"{PROGRAM} is not built: ./gp builds it")
    with tempfile.TemporaryDirectory() as folder:
        subprocess.run([PROGRAM, "format"], cwd=folder, check=True)
        pipes = dict.fromkeys(("stdin", "stdout", "stderr"), subprocess.PIPE)
        with subprocess.Popen([PROGRAM, "run"], bufsize=0, cwd=folder, **pipes) as program:
            try:
                talk(program)
            except BrokenPipeError:
                fail("the program took no more lines")
            finally:
                program.kill()


main()
