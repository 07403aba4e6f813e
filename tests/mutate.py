#!/usr/bin/env python3
"""Changes the model of tests/model at one place at a time, and counts which changes the cases of crates/cases notice.

usage: mutate.py [--jobs N] [--cases STDIN STDOUT] [FILE ...]      FILE is a name as card.py; without one all files are changed

A change is noticed where some case writes another text than it has to, or ends in an exception. The changes are:

  left out     a rule, any other `if` that ends in a raise or a return, or a statement that has an effect is left out
  turned       the condition of an `if` or a conditional expression is negated
  part         an operand of `and` or `or`, or a condition of a comprehension is left out
  exchanged    two rules that stand next to each other, each in a line, or one and a call that may refuse, change places
  number       a number, the first or last byte of a constant is one more or one less, and a bit of three bytes the one beside it;
               < becomes <=, or the reverse
  status       a rule is refused under the name of one with another status word
  name         a rule is refused under the name of one with the same status word

For each file it prints how many changes there are and how many are noticed, and then those that are not: the place, the kind, how
many cases come by, the line before and after. Cases that the model itself doesn't pass, or that cases_on_model.py leaves out, are
not played. --cases adds cases of two further files. Which lines a case comes by is found once and kept in the folder for
temporary files. It ends with 0.
"""
from __future__ import annotations

import argparse
import ast
import hashlib
import importlib
import importlib.abc
import importlib.util
import multiprocessing
import os
import pickle
import resource
import signal
import sys
import tempfile
from collections import defaultdict
from collections.abc import Iterator
from dataclasses import dataclass
from functools import lru_cache
from pathlib import Path
from types import CodeType, SimpleNamespace
from typing import Any, NamedTuple

from cryptography.hazmat.primitives import ciphers
from cryptography.hazmat.primitives.ciphers import Cipher as PlainCipher, algorithms

import cases_on_model
from cases_on_model import CASES, Case

MODEL = Path(__file__).resolve().parent / "model"
# No case can see these: opening and locking a file, what only speed depends on.
HIDDEN_FILES = {"__init__.py", "__main__.py"}
HIDDEN = {("gp.py", "device"), ("gp.py", "LONGEST_FILE")}
# The program writes 4 for each fault of an image, so the order in which these are looked for is not seen.
WITHOUT_ORDER = {"well.py", "image.py"}

MOST_SECONDS, MOST_MEMORY = 6, 3 << 30      # of one case
ANNOTATIONS = {"annotation", "returns", "decorator_list"}
EXCHANGED = {ast.Lt: ast.LtE, ast.LtE: ast.Lt, ast.Gt: ast.GtE, ast.GtE: ast.Gt}


# ---- Changes of a tree

class Edit(NamedTuple):
    """What stands in a place becomes another value."""

    owner: Any
    field: Any
    value: Any

    def swap(self) -> Edit:
        """Makes the edit, and answers the one that takes it back."""
        if isinstance(self.owner, list):
            before, self.owner[self.field] = self.owner[self.field], self.value
        else:
            before = getattr(self.owner, self.field)
            setattr(self.owner, self.field, self.value)
        return Edit(self.owner, self.field, before)


class Place(NamedTuple):
    """A field of a node, or a place of a list."""

    owner: Any
    field: Any

    @property
    def node(self) -> Any:
        return self.owner[self.field] if isinstance(self.owner, list) else getattr(self.owner, self.field)


class Edits:
    """Edits of a file that are in force within a `with`."""

    def __init__(self, edits: list[Edit]):
        self.edits = edits

    def __enter__(self) -> None:
        self.back = [edit.swap() for edit in self.edits]

    def __exit__(self, *_: object) -> None:
        for edit in reversed(self.back):
            edit.swap()


@dataclass
class Change:
    file: str
    kind: str
    line: int
    before: str
    after: str
    edits: list[Edit]
    lines: range            # One of these is executed where the change can be seen.
    names: set[str]         # Or, where it is executed once at the beginning, what it gives a value to.
    raises: bool = False    # It can be seen only where the line raises an exception.


@dataclass
class Site:
    """A statement, with where it stands."""

    statement: ast.stmt
    body: list[ast.stmt]
    at: int
    lines: range
    names: set[str]


def places_in(statement: ast.AST) -> Iterator[Place]:
    """Where the expressions of a statement stand, without those of the statements in it."""
    for field, value in ast.iter_fields(statement):
        if field in ANNOTATIONS:
            continue
        places = [Place(value, at) for at in range(len(value))] if isinstance(value, list) else [Place(statement, field)]
        for place in places:
            if isinstance(place.node, ast.AST) and not isinstance(place.node, (ast.stmt, ast.expr_context)):
                yield place
                yield from places_in(place.node)


def header_lines(statement: ast.stmt) -> range:
    body = getattr(statement, "body", None) or getattr(statement, "cases", None)
    if not body:
        return range(statement.lineno, statement.end_lineno + 1)
    first = body[0].lineno if hasattr(body[0], "lineno") else body[0].pattern.lineno
    return range(statement.lineno, max(first, statement.lineno + 1))


def sites(body: list[ast.stmt], names: set[str], outer: bool = True) -> Iterator[Site]:
    """The statements of a body and of those within. `outer` are those that are executed when the file is read."""
    for at, statement in enumerate(body):
        if is_text(statement) or isinstance(statement, (ast.Import, ast.ImportFrom, ast.Pass)):
            continue
        given = names if names or not outer else names_given(statement)
        is_function = isinstance(statement, ast.FunctionDef)
        if is_function:
            yield Site(statement, body, at, range(statement.lineno, statement.end_lineno + 1), set())
        else:
            yield Site(statement, body, at, header_lines(statement), given if outer else set())
        for inner in bodies(statement):
            yield from sites(inner, set() if is_function else given, outer and not is_function)


def bodies(statement: ast.stmt) -> Iterator[list[ast.stmt]]:
    for field in ("body", "orelse", "finalbody"):
        yield getattr(statement, field, [])
    for part in [*getattr(statement, "handlers", []), *getattr(statement, "cases", [])]:
        yield part.body


def names_given(statement: ast.stmt) -> set[str]:
    if isinstance(statement, (ast.ClassDef, ast.FunctionDef)):
        return {statement.name}
    targets = getattr(statement, "targets", None) or [getattr(statement, "target", None)]
    return {node.id for target in targets if target is not None for node in ast.walk(target) if isinstance(node, ast.Name)}


def names_of_place(site: Site, node: ast.AST) -> set[str]:
    """Of the names that `A, B = 1, 2` gives values to, the one whose value a node is part of."""
    match site.statement:
        case ast.Assign(targets=[ast.Tuple(elts=targets)], value=ast.Tuple(elts=values)):
            for target, value in zip(targets, values):
                if any(part is node for part in ast.walk(value)) and isinstance(target, ast.Name):
                    return {target.id}
    return site.names


def is_text(statement: ast.stmt) -> bool:
    return isinstance(statement, ast.Expr) and isinstance(statement.value, ast.Constant)


def is_guard(statement: ast.stmt) -> bool:
    """An `if` without `else` that ends in a raise or a return: as a rule does."""
    return isinstance(statement, ast.If) and not statement.orelse and isinstance(statement.body[-1], (ast.Raise, ast.Return))


def is_line(statement: ast.stmt) -> bool:
    return statement.lineno == statement.end_lineno


def calls(statement: ast.stmt, names: set[str]) -> bool:
    """Whether the statement is a call of one of these functions, or gives a variable what the call answers."""
    call = statement.value if isinstance(statement, (ast.Expr, ast.Assign)) else None
    return isinstance(call, ast.Call) and isinstance(call.func, ast.Name) and call.func.id in names


@lru_cache
def refusing() -> set[str]:
    """The functions that refuse by a rule, themselves or by one that they call."""
    trees = [ast.parse(path.read_text()) for path in MODEL.glob("*.py")]
    functions = [node for tree in trees for node in ast.walk(tree) if isinstance(node, ast.FunctionDef)]
    found: set[str] = set()
    for _ in functions:
        found |= {function.name for function in functions for node in ast.walk(function)
                  if isinstance(node, ast.Call) and isinstance(node.func, ast.Name) and node.func.id in found | {"Refused"}}
    return found


def has_effect(statement: ast.stmt) -> bool:
    if isinstance(statement, (ast.Assign, ast.AnnAssign)):
        targets = statement.targets if isinstance(statement, ast.Assign) else [statement.target]
        return any(isinstance(node, (ast.Attribute, ast.Subscript)) for target in targets for node in ast.walk(target))
    return isinstance(statement, (ast.AugAssign, ast.Delete)) or isinstance(statement, ast.Expr) and not is_text(statement)


class Finder:
    """Finds the changes of a file."""

    def __init__(self, path: Path):
        self.file = path.name
        self.source = path.read_text()
        self.source_lines = self.source.split("\n")
        self.tree = ast.parse(self.source)
        self.statuses = rules_of_words()

    def changes(self) -> Iterator[Change]:
        for site in sites(self.tree.body, set()):
            hidden = site.names | names_given(site.statement)
            if any((self.file, name) in HIDDEN for name in hidden) or self.is_within_hidden(site.statement):
                continue
            for kind, place, edits in self.edits_at(site):
                line, before, after = self.shown(kind, place, edits)
                names = site.names and names_of_place(site, place.node)
                yield Change(self.file, kind, line, before, after, edits, site.lines, names, kind in ("status", "name"))

    def is_rule(self, statement: ast.stmt) -> bool:
        """A rule in a line, or a call that may refuse."""
        return (self.file not in WITHOUT_ORDER and is_line(statement)
                and (is_guard(statement) or calls(statement, refusing())))

    def is_within_hidden(self, statement: ast.stmt) -> bool:
        return any(isinstance(function, ast.FunctionDef) and (self.file, function.name) in HIDDEN
                   and function.lineno <= statement.lineno <= function.end_lineno for function in self.tree.body)

    def shown(self, kind: str, place: Place, edits: list[Edit]) -> tuple[int, str, str]:
        """The line of a change, and the source before and after it."""
        node = place.node
        at = node.iter if isinstance(node, ast.comprehension) else node
        line = self.source_lines[at.lineno - 1]
        if kind == "left out":
            return at.lineno, line.strip(), "(left out)"
        if kind == "exchanged":
            return at.lineno, line.strip(), f"(after) {self.source_lines[at.lineno].strip()}"
        with Edits(edits):
            new = place.node
            text = ast.unparse(new).strip()
        if isinstance(new, ast.Constant) and line[at.col_offset:].startswith("0x"):
            text = f"{new.value:#0{len(self.segment(node))}x}"
        if at is node and is_line(node):
            text = line[:node.col_offset] + text + line[node.end_col_offset:]
        return at.lineno, line.strip(), text.strip()

    def edits_at(self, site: Site) -> Iterator[tuple[str, Place, list[Edit]]]:
        statement, body, at = site.statement, site.body, site.at
        if is_guard(statement) or has_effect(statement):
            yield "left out", Place(body, at), [Edit(body, at, ast.copy_location(ast.Pass(), statement))]
        if isinstance(statement, (ast.If, ast.While)):
            yield "turned", Place(statement, "test"), [Edit(statement, "test", negated(statement.test))]
        if self.is_rule(statement) and at + 1 < len(body) and self.is_rule(body[at + 1]):
            yield "exchanged", Place(body, at), [Edit(body, at, body[at + 1]), Edit(body, at + 1, statement)]
        for place in places_in(statement):
            for kind, edit in self.edits_of(place):
                yield kind, place, [edit]

    def edits_of(self, place: Place) -> Iterator[tuple[str, Edit]]:
        match place.node:
            case ast.IfExp() as node:
                yield "turned", Edit(node, "test", negated(node.test))
            case ast.BoolOp() as node:
                for at in range(len(node.values)):
                    left = node.values[:at] + node.values[at + 1:]
                    yield "part", Edit(node, "values", left) if len(left) > 1 else Edit(*place, left[0])
            case ast.comprehension() as node:
                for at in range(len(node.ifs)):
                    yield "part", Edit(node, "ifs", node.ifs[:at] + node.ifs[at + 1:])
            case ast.Compare() as node:
                for at, operator in enumerate(node.ops):
                    if type(operator) in EXCHANGED:
                        yield "number", Edit(node.ops, at, EXCHANGED[type(operator)]())
            case ast.Call(func=ast.Name(id="Refused"), args=[ast.Constant(value=str(rule)) as named]):
                for kind, other in self.other_rules(rule):
                    yield kind, Edit(named, "value", other)
            case ast.Call(func=ast.Attribute(attr="fromhex"), args=[ast.Constant(value=str(digits)) as spelled]):
                for value in neighbours(bytes.fromhex(digits)):
                    yield "number", Edit(spelled, "value", value.hex())
            case ast.Constant(value=int() | bytes() as value) if not isinstance(value, bool):
                is_bit = isinstance(value, int) and len(self.segment(place.node)) == len("0x000000") and value.bit_count() == 1
                for other in (value << 1, value >> 1) if is_bit else neighbours(value):
                    yield "number", Edit(*place, ast.copy_location(ast.Constant(other), place.node))

    def segment(self, node: ast.AST) -> str:
        return self.source_lines[node.lineno - 1][node.col_offset:node.end_col_offset]

    def other_rules(self, rule: str) -> Iterator[tuple[str, str]]:
        """Of the rules with another status word one, and of those with the same."""
        words = self.statuses
        yield "status", next(other for other in words if words[other] != words[rule])
        same = [other for other in words if words[other] == words[rule] and other != rule]
        if same:
            yield "name", same[0]


def rules_of_words() -> dict[str, bytes]:
    return dict(importlib.import_module("model.rules").STATUS_OF)


def negated(test: ast.expr) -> ast.expr:
    return ast.copy_location(ast.UnaryOp(ast.Not(), test), test)


def neighbours(value: int | bytes) -> Iterator[Any]:
    if isinstance(value, int):
        yield from (value + 1, value - 1)
    elif value:
        yield value[:-1] + bytes(((value[-1] + 1) % 256,))
        yield bytes(((value[0] - 1) % 256,)) + value[1:]


# ---- A model with a change

@lru_cache(maxsize=1 << 17)
def ciphered(key: bytes, mode: type, iv: bytes, encrypts: bool, data: bytes) -> bytes:
    plain = PlainCipher(algorithms.AES(key), mode(iv) if iv else mode())
    return (plain.encryptor() if encrypts else plain.decryptor()).update(data)


class KnownCipher:
    """Stands in for the Cipher that the model uses: with each change most of what is enciphered is the same again."""

    def __init__(self, algorithm: Any, mode: Any):
        self.known = algorithm.key, type(mode), getattr(mode, "initialization_vector", b"")

    def encryptor(self) -> SimpleNamespace:
        return SimpleNamespace(update=lambda data: ciphered(*self.known, True, data))

    def decryptor(self) -> SimpleNamespace:
        return SimpleNamespace(update=lambda data: ciphered(*self.known, False, data))


def cipher(algorithm: Any, mode: Any) -> Any:
    return KnownCipher(algorithm, mode) if isinstance(algorithm, algorithms.AES) else PlainCipher(algorithm, mode)


class ModelLoader(importlib.abc.MetaPathFinder, importlib.abc.Loader):
    """Reads the files of the model from what was compiled before, so that each load begins anew."""

    def __init__(self, finders: dict[str, Finder]):
        self.codes = {file: self.compiled(finders[file]) for file in finders}
        sys.meta_path.insert(0, self)
        ciphers.Cipher = cipher

    @staticmethod
    def compiled(finder: Finder) -> CodeType:
        return compile(ast.fix_missing_locations(finder.tree), str(MODEL / finder.file), "exec")

    def load(self) -> SimpleNamespace:
        for name in [name for name in sys.modules if name == "model" or name.startswith("model.")]:
            del sys.modules[name]
        return cases_on_model.load_model()

    def find_spec(self, name: str, path: Any = None, target: Any = None) -> Any:
        package, _, module = name.partition(".")
        file = f"{module or '__init__'}.py"
        if package != "model" or file not in self.codes:
            return None
        return importlib.util.spec_from_loader(name, self, origin=file, is_package=not module)

    def create_module(self, spec: Any) -> None:
        return None

    def exec_module(self, module: Any) -> None:
        exec(self.codes[module.__spec__.origin], module.__dict__)


# ---- Which lines a case comes by

class Trail(NamedTuple):
    """The lines that a case executes, those that raise an exception, and how many steps it takes."""

    lines: frozenset[tuple[str, int]]
    raised: frozenset[tuple[str, int]]
    steps: int


def follow(case: Case, model: SimpleNamespace, path: Path) -> Trail | None:
    """The trail of a case, or None where the model doesn't pass it."""
    lines, raised, steps, files = set(), set(), 0, {str(found): found.name for found in MODEL.glob("*.py")}

    def at_line(frame: Any, event: str, _: Any) -> Any:
        nonlocal steps
        steps += 1
        if event in ("line", "exception"):
            (lines if event == "line" else raised).add((files[frame.f_code.co_filename], frame.f_lineno))
        return at_line

    sys.settrace(lambda frame, _event, _arg: at_line if frame.f_code.co_filename in files else None)
    try:
        passed = cases_on_model.first_difference(case, model, path) is None
    finally:
        sys.settrace(None)
    return Trail(frozenset(lines), frozenset(raised), steps) if passed else None


def trails_of(cases: list[Case], loader: ModelLoader) -> dict[str, Trail]:
    """The trails of the cases that pass, kept from run to run while nothing changes."""
    sums = hashlib.sha256(Path(cases_on_model.__file__).read_bytes())
    for path in sorted(MODEL.glob("*.py")):
        sums.update(path.name.encode() + path.read_bytes())
    sums.update(repr(cases).encode("utf-8", "surrogateescape"))
    kept = Path(tempfile.gettempdir()) / f"mutate-{sums.hexdigest()[:24]}.pickle"
    if kept.exists():
        return {name: Trail(*trail) for name, trail in pickle.loads(kept.read_bytes()).items()}
    model, path = loader.load(), cases_on_model.scratch_file()
    trails = {case.name: follow(case, model, path) for case in cases}
    path.unlink()
    trails = {name: trail for name, trail in trails.items() if trail is not None}
    kept.write_bytes(pickle.dumps({name: tuple(trail) for name, trail in trails.items()}))
    return trails


class Mentions:
    """Where the names that the files give values to are used."""

    def __init__(self, finders: dict[str, Finder]):
        self.lines: dict[str, set[tuple[str, int]]] = defaultdict(set)
        self.names: dict[str, set[str]] = defaultdict(set)
        for finder in finders.values():
            for site in sites(finder.tree.body, set()):
                used = names_used(site.statement)
                for name in used:
                    self.lines[name] |= {(finder.file, line) for line in site.lines}
                    self.names[name] |= site.names
                for name in site.names if isinstance(site.statement, ast.ClassDef) else ():
                    self.lines[name] |= {(finder.file, line) for line in range(site.statement.lineno, site.statement.end_lineno + 1)}

    def of(self, names: set[str]) -> set[tuple[str, int]]:
        """All lines that use these names, or such as get their values from them."""
        reached, new = set(), set(names)
        while new:
            reached |= new
            new = {given for name in new for given in self.names[name]} - reached
        return {line for name in reached for line in self.lines[name]}


def names_used(statement: ast.stmt) -> set[str]:
    found = set()
    for place in places_in(statement):
        if isinstance(place.node, (ast.Name, ast.Attribute)) and isinstance(place.node.ctx, ast.Load):
            found.add(place.node.id if isinstance(place.node, ast.Name) else place.node.attr)
    return found


# ---- Trying the changes

class TooLong(Exception):
    """A case goes on for ever."""


def places(trails: list[frozenset[tuple[str, int]]]) -> dict[tuple[str, int], list[int]]:
    """For each line the numbers of the trails that have it."""
    found: dict[tuple[str, int], list[int]] = defaultdict(list)
    for number, trail in enumerate(trails):
        for line in trail:
            found[line].append(number)
    return found


class Trial:
    """Tries changes, each on the cases that come by."""

    def __init__(self, finders: dict[str, Finder], cases: list[Case], chosen: list[str]):
        self.finders = finders
        self.loader = ModelLoader(finders)
        self.trails = trails_of(cases, self.loader)
        ordered = sorted((case for case in cases if case.name in self.trails),
                         key=lambda case: (len(self.trails[case.name].lines), self.trails[case.name].steps))
        self.cases = ordered
        self.executed, self.raised = (places([getattr(self.trails[case.name], part) for case in ordered]) for part in ("lines", "raised"))
        self.mentions = Mentions(finders)
        self.changes = [change for file in chosen for change in finders[file].changes() if self.is_used(change)]
        self.path: Path | None = None

    def begin(self, folder: Path) -> None:
        """What each process does at first."""
        self.path = folder / f"card-{os.getpid()}.img"
        resource.setrlimit(resource.RLIMIT_AS, (MOST_MEMORY, MOST_MEMORY))
        signal.signal(signal.SIGPROF, stop)

    def is_used(self, change: Change) -> bool:
        """Not the value of a name that stands in no other line."""
        return not change.names or bool(self.mentions.of(change.names))

    def coming_by(self, change: Change) -> list[Case]:
        """The cases that may notice a change, first those that come by a line where few do."""
        lines = self.mentions.of(change.names) if change.names else {(change.file, line) for line in change.lines}
        trails = self.raised if change.raises else self.executed
        numbers = {line: len(trails.get(line, ())) for line in lines}
        least: dict[int, int] = {}
        for line in sorted(lines, key=lambda line: -numbers[line]):
            least.update(dict.fromkeys(trails.get(line, ()), numbers[line]))
        return [self.cases[at] for at in sorted(least, key=lambda at: (least[at], at))]

    def noticed_by(self, change: Change) -> str | None:
        """The case that notices a change, or None where there is none."""
        finder, codes = self.finders[change.file], dict(self.loader.codes)
        try:
            with Edits(change.edits):
                self.loader.codes[change.file] = self.loader.compiled(finder)
            return self.first_that_differs(self.coming_by(change))
        finally:
            self.loader.codes = codes

    def first_that_differs(self, cases: list[Case]) -> str | None:
        try:
            model = self.loader.load()
        except Exception as error:
            return f"({type(error).__name__})"
        for case in cases:
            signal.setitimer(signal.ITIMER_PROF, MOST_SECONDS)
            try:
                if cases_on_model.first_difference(case, model, self.path) is not None:
                    return case.name
            except TooLong:
                return case.name
            finally:
                signal.setitimer(signal.ITIMER_PROF, 0)
        return None


def stop(_signal: int, _frame: Any) -> None:
    raise TooLong


trial: Trial


def begin(folder: Path) -> None:
    trial.begin(folder)


def try_change(number: int) -> tuple[int, str | None, int]:
    change = trial.changes[number]
    noticed = trial.noticed_by(change)
    return number, noticed, 0 if noticed else len(trial.coming_by(change))


def try_all(jobs: int) -> dict[int, tuple[str | None, int]]:
    numbers, results = range(len(trial.changes)), {}
    with (tempfile.TemporaryDirectory(dir=cases_on_model.in_memory()) as folder,
          multiprocessing.get_context("fork").Pool(jobs, begin, [Path(folder)]) as pool):
        for number, noticed, came_by in pool.imap_unordered(try_change, numbers, chunksize=4):
            results[number] = noticed, came_by
            if sys.stderr.isatty() and len(results) % 20 == 0:
                print(f"\r{len(results)} of {len(numbers)}", end="", file=sys.stderr)
        pool.close()
        pool.join()
    return results


def report(results: dict[int, tuple[str | None, int]], chosen: list[str]) -> None:
    of_file = {file: [n for n, change in enumerate(trial.changes) if change.file == file] for file in chosen}
    for file, numbers in [*of_file.items(), ("all", list(results))]:
        noticed = sum(results[number][0] is not None for number in numbers)
        share = f" ({noticed / len(numbers):.1%})" if numbers else ""
        print(f"{file:15} {len(numbers):5} changes, {noticed:5} noticed{share}")
    for number in sorted(results):
        noticed, came_by = results[number]
        if noticed is None:
            change = trial.changes[number]
            print(f"\n{change.file}:{change.line} {change.kind}, {came_by} cases come by\n  - {change.before}\n  + {change.after}")


def main() -> int:
    global trial
    parser = argparse.ArgumentParser(description="Counts which changes of the model the cases notice.")
    parser.add_argument("--jobs", type=int, default=1, metavar="N")
    parser.add_argument("--cases", nargs=2, type=Path, metavar=("STDIN", "STDOUT"), help="cases of two further files")
    parser.add_argument("files", nargs="*", metavar="FILE")
    options = parser.parse_args()
    finders = {path.name: Finder(path) for path in sorted(MODEL.glob("*.py"))}
    chosen = options.files or [file for file in finders if file not in HIDDEN_FILES]
    cases = cases_on_model.read_cases(CASES / "stdin", CASES / "stdout")
    if options.cases:
        cases += cases_on_model.read_cases(*options.cases)
    trial = Trial(finders, [case for case in cases if not case.is_left_out], chosen)
    report(try_all(options.jobs), chosen)
    return 0


if __name__ == "__main__":
    sys.exit(main())
