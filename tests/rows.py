#!/usr/bin/env python3
"""Turns worked rows into cases of crates/cases, and plays them.

usage: rows.py FOLDER PROGRAM [WORD...]    plays the rows of FOLDER
       rows.py --write PREFIX FOLDER       writes them: the cases as PREFIX.in, and the wanted text as PREFIX.out

PROGRAM with its words is given the cases as standard input. The last line says 'N passed, M failed', and the status is 0
where each case was answered as wanted, to the byte, and the program ended with 0.

A row is a folder with these files:

    args    the words of a call of `gp`, one a line
    stdin   its input
    want    what it is to write
    status  the status that it is to end with
    setup   what comes before it, one step a line; where it has none, the factory card is there
    show    where there: what `gp show` is to write after it, with the same status
    why     where there: what the row shows, in one line

A step is `image FILE` (the pages of the card, and zeros behind them), `sparse FILE` (the same as text: lines OFFSET HEX or
OFFSET HEX xN, the bytes N times, the offset in hexadecimal; `size N` says nothing more), `gp WORD...` or
`gp WORD... < FILE`. What a step but `gp format` answers is not said by its row. It is taken from the row of the same folder
that makes this call after the same steps.
"""
from __future__ import annotations

import re
import subprocess
import sys
from dataclasses import dataclass
from itertools import zip_longest
from pathlib import Path
from typing import Dict, List, NoReturn, Optional, Tuple

PAGE_SIZE = 256

# Bytes that may come to stand on one line.
LINE_SIZE = 64

# So many zeros in a row end a line.
ZEROS = 4

# So many equal bytes have a line of their own.
EQUALS = 16

# What can be seen, with no space at its ends.
PLAIN_LINE = re.compile(rb"[!-~]([ -~]*[!-~])?\n")


@dataclass(frozen=True)
class Pages:
    """The start of a card, as lines of a case."""

    lines: Tuple[str, ...]


@dataclass(frozen=True)
class Call:
    """A call of `gp`."""

    words: Tuple[str, ...]
    data: bytes

    def lines(self) -> List[str]:
        if self == FORMAT:
            return ["format"]
        return [*input_lines(self.data), "gp " + "/".join(self.words)]


FORMAT = Call(("format",), b"")
SHOW = Call(("show",), b"")


@dataclass(frozen=True)
class Row:
    name: str
    why: Optional[str]
    steps: Tuple[Pages | Call, ...]
    call: Call
    want: bytes
    status: int
    show: Optional[bytes]


@dataclass(frozen=True)
class Case:
    """The lines of a case, and what they are to answer."""

    name: str
    why: Optional[str]
    lines: Tuple[str, ...]
    wanted: bytes

    def text(self) -> str:
        why = [] if self.why is None else ["# " + self.why]
        return "\n".join(["case " + self.name, *why, *self.lines]) + "\n"

    def answer(self) -> bytes:
        return b"case %s\n%s" % (self.name.encode(), self.wanted)


def fail(text: str) -> NoReturn:
    print("rows: " + text, file=sys.stderr)
    sys.exit(1)


def lines_of(data: bytes) -> List[bytes]:
    """The lines of a text, each with its newline; the last one may have none."""
    return re.findall(rb"[^\n]*\n|[^\n]+", data)


def input_lines(data: bytes) -> List[str]:
    """The lines that give `gp` this input."""
    return [
        "< " + line[:-1].decode() if PLAIN_LINE.fullmatch(line) else "bytes " + line.hex() for line in lines_of(data)
    ]


def page_line(offset: int, data: bytes, times: int = 1) -> str:
    line = f"page {offset // PAGE_SIZE} {offset % PAGE_SIZE} {data.hex()}"
    return line if times == 1 else f"{line} x{times}"


def run_length(data: bytes, start: int) -> int:
    """How many bytes from here on are equal."""
    rest = data[start:]
    return len(rest) - len(rest.lstrip(rest[:1]))


def image_lines(data: bytes) -> List[str]:
    """The lines that lay these pages."""
    lines = []
    at = 0
    while at < len(data):
        length = run_length(data, at)
        if data[at] == 0:
            at += length
        elif length >= EQUALS:
            lines.append(page_line(at, data[at : at + 1], length))
            at += length
        else:
            start = at
            while at < min(len(data), start + LINE_SIZE):
                length = run_length(data, at)
                if length >= (ZEROS if data[at] == 0 else EQUALS):
                    break
                at = min(at + length, start + LINE_SIZE)
            lines.append(page_line(start, data[start:at].rstrip(b"\0")))
    return lines


def sparse_lines(text: str) -> List[str]:
    """The lines that lay pages which are given as text."""
    lines = []
    for words in map(str.split, text.splitlines()):
        if words and words[0] != "size":
            times = int(words[2][1:]) if len(words) > 2 else 1
            lines.append(page_line(int(words[0], 16), bytes.fromhex(words[1]), times))
    return lines


def read_step(folder: Path, line: str) -> Pages | Call:
    kind, _, rest = line.partition(" ")
    if kind == "image":
        return Pages(tuple(image_lines((folder / rest).read_bytes())))
    if kind == "sparse":
        return Pages(tuple(sparse_lines((folder / rest).read_text())))
    if kind == "gp":
        words, _, file = rest.partition(" < ")
        return Call(tuple(words.split(" ")), (folder / file).read_bytes() if file else b"")
    fail(f"{folder.name}: no such step: {line}")


def read_row(folder: Path) -> Row:
    def optional(name: str) -> Optional[bytes]:
        file = folder / name
        return file.read_bytes() if file.exists() else None

    steps = tuple(read_step(folder, line) for line in (folder / "setup").read_text().splitlines())
    if any(isinstance(step, Pages) for step in steps[1:]):
        fail(f"{folder.name}: pages come before all other steps")
    why = optional("why")
    return Row(
        name=folder.name,
        why=None if why is None else why.decode().strip(),
        steps=steps or (FORMAT,),
        call=Call(tuple((folder / "args").read_text().splitlines()), (folder / "stdin").read_bytes()),
        want=(folder / "want").read_bytes(),
        status=int((folder / "status").read_text()),
        show=optional("show"),
    )


def answered(row: Row) -> bytes:
    """What the call of a row writes."""
    return b"%sstatus %d\n" % (row.want, row.status)


def answer_of_step(row: Row, index: int, rows: List[Row]) -> bytes:
    """What a step of a row writes."""
    step = row.steps[index]
    if isinstance(step, Pages) or step == FORMAT:
        return b""
    for other in rows:
        if other.steps == row.steps[:index] and other.call == step:
            return answered(other)
    fail(f"{row.name}: no row says what its step {index + 1} answers")


def case_of(row: Row, rows: List[Row]) -> Case:
    lines: List[str] = []
    wanted = b""
    for index, step in enumerate(row.steps):
        lines += step.lines if isinstance(step, Pages) else step.lines()
        wanted += answer_of_step(row, index, rows)
    lines += row.call.lines()
    wanted += answered(row)
    if row.show is not None:
        lines += SHOW.lines()
        wanted += b"%sstatus %d\n" % (row.show, row.status)
    return Case(row.name, row.why, tuple(lines), wanted)


def read_cases(folder: Path) -> List[Case]:
    """The cases of all rows of a folder."""
    rows = [read_row(row) for row in sorted(folder.iterdir()) if row.is_dir()]
    if not rows:
        fail(f"{folder} has no rows")
    return [case_of(row, rows) for row in rows]


def text_of(cases: List[Case]) -> str:
    return "\n".join(case.text() for case in cases)


def write(cases: List[Case], prefix: str) -> None:
    Path(prefix + ".in").write_text(text_of(cases))
    Path(prefix + ".out").write_bytes(b"".join(case.answer() for case in cases))


def split(text: bytes) -> Dict[str, bytes]:
    """What was written behind each line `case NAME`, this line with it."""
    parts: Dict[str, bytes] = {}
    name = ""
    for line in lines_of(text):
        if line.startswith(b"case "):
            name = line[5:].rstrip(b"\n").decode()
        parts[name] = parts.get(name, b"") + line
    return parts


def difference(got: bytes, wanted: bytes) -> Optional[str]:
    """Where the first of two texts leaves the second one."""
    if got == wanted:
        return None
    pairs = zip_longest(lines_of(got), lines_of(wanted), fillvalue=b"")
    first, (got_line, wanted_line) = next((at, pair) for at, pair in enumerate(pairs) if pair[0] != pair[1])
    return f"line {first} of its text: got {got_line!r}, wanted {wanted_line!r}"


def play(cases: List[Case], program: List[str]) -> int:
    done = subprocess.run(program, input=text_of(cases).encode(), stdout=subprocess.PIPE, stderr=subprocess.PIPE)
    parts = split(done.stdout)
    failed = 0
    for case in cases:
        wrong = difference(parts.pop(case.name, b""), case.answer())
        if wrong is not None:
            failed += 1
            print(f"FAIL {case.name}: {wrong}")
    passed = len(cases) - failed
    for name in parts:
        failed += 1
        print(f"FAIL {name or 'before the first case'}: not asked for")
    if done.returncode != 0:
        failed += 1
        print(f"FAIL the program ended with {done.returncode}:")
        print(done.stderr.decode(errors="replace"), end="")
    print(f"{passed} passed, {failed} failed")
    return 1 if failed else 0


def main(words: List[str]) -> int:
    try:
        if len(words) == 3 and words[0] == "--write":
            write(read_cases(Path(words[2])), words[1])
            return 0
        if len(words) < 2 or words[0].startswith("--"):
            print(__doc__, file=sys.stderr)
            return 1
        return play(read_cases(Path(words[0])), words[1:])
    except OSError as error:
        fail(str(error))


if __name__ == "__main__":
    sys.exit(main(sys.argv[1:]))
