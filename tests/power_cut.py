#!/usr/bin/env python3
"""Ends the built program between two calls on the file of its card, as power that goes.

usage: power_cut.py N PROGRAM [WORD...]    runs a program and kills it before its Nth write to card.img, from 1
       power_cut.py --each PROGRAM SCRIPT RECOVERY
                                           plays SCRIPT with `PROGRAM play`, each time on a card that `PROGRAM format` has made,
                                           killed before write 1, before write 2, and so on, until it is played whole; then plays
                                           RECOVERY on the card that is left

The program has the standard streams and the folder of the caller. It is followed by ptrace, through ctypes; the write that it is
stopped at is not carried out. It is SIGKILL that comes, so what was written before stands: what a disk loses without power is
left to the cases, which have a device for that.

The first form ends with 0 where the program was killed, and with 1 where it ended before. The second one judges what each kill
leaves by the model of tests/model: the file has to hold the registry that the model has after the lines of the script that were
answered, or after one more, and `PROGRAM show` has to write this registry. Each line of the script that sends prints one line, and
no other does. RECOVERY has to end with 0, and to leave one registry, wherever the program was killed, but for its sequence
counters. It says what differs, and at last 'N passed, M failed' and how many writes
the whole script makes.

Where ptrace is refused, as in some containers, or is not that of Linux on x86-64, it says so and ends with 77.
"""
import ctypes
import errno
import os
import platform
import signal
import subprocess
import sys
import tempfile
from pathlib import Path

from model import image, listing, script
from model.card import Card
from model.play import Player

CARD = "card.img"
SKIPPED = 77

TRACEME, PEEKUSER, POKEUSER, SYSCALL, SETOPTIONS = 0, 3, 6, 24, 0x4200
TRACESYSGOOD, EXITKILL = 1, 0x100000

# Places in what PEEKUSER reads of x86-64, and its calls that write: write, pwrite64, writev, pwritev, pwritev2.
ORIG_RAX, RDI = 15 * 8, 14 * 8
WRITES = {1, 18, 20, 296, 328}

libc = ctypes.CDLL(None, use_errno=True)
libc.ptrace.restype = ctypes.c_long
libc.ptrace.argtypes = [ctypes.c_long, ctypes.c_long, ctypes.c_void_p, ctypes.c_void_p]


def ptrace(request, pid, place=0, data=0):
    ctypes.set_errno(0)
    answer = libc.ptrace(request, pid, place, data)
    if answer == -1 and ctypes.get_errno():
        raise OSError(ctypes.get_errno(), os.strerror(ctypes.get_errno()))
    return answer


def skip(why):
    print(f"power_cut: skipped: {why}", file=sys.stderr)
    sys.exit(SKIPPED)


def start(program, words, streams):
    """A process that waits in front of the program's first instruction."""
    pid = os.fork()
    if pid == 0:
        try:
            for number, stream in enumerate(streams):
                os.dup2(stream, number)
            ptrace(TRACEME, 0)
        except OSError:
            os._exit(SKIPPED)
        try:
            os.execv(program, [program, *words])
        finally:
            os._exit(127)
    _, status = os.waitpid(pid, 0)
    if os.WIFEXITED(status):
        if os.WEXITSTATUS(status) == SKIPPED:
            skip("ptrace is refused here")
        sys.exit(f"power_cut: {program} can't be run")
    try:
        ptrace(SETOPTIONS, pid, 0, TRACESYSGOOD | EXITKILL)
    except OSError as error:
        os.kill(pid, signal.SIGKILL)
        os.waitpid(pid, 0)
        skip(f"ptrace is refused here: {error.strerror}")
    return pid


def is_write_to_card(pid):
    if ptrace(PEEKUSER, pid, ORIG_RAX) not in WRITES:
        return False
    try:
        target = os.readlink(f"/proc/{pid}/fd/{ptrace(PEEKUSER, pid, RDI)}")
    except OSError as error:
        if error.errno == errno.ENOENT:
            return False
        raise
    return os.path.basename(target) == CARD


def run(kill_at, program, words, streams):
    """Runs a program, and kills it before that write. It answers how many writes it has carried out, and its status, or None
    where it was killed."""
    pid = start(program, words, streams)
    done = 0
    entering = True
    deliver = 0
    while True:
        ptrace(SYSCALL, pid, 0, deliver)
        _, status = os.waitpid(pid, 0)
        if not os.WIFSTOPPED(status):
            return done, os.waitstatus_to_exitcode(status)
        stop = os.WSTOPSIG(status)
        deliver = 0
        if stop == signal.SIGTRAP | 0x80:
            if entering and is_write_to_card(pid):
                if done + 1 == kill_at:
                    # The call gets a number that no call has, so it can't be carried out before the signal comes.
                    ptrace(POKEUSER, pid, ORIG_RAX, ctypes.c_void_p(-1))
                    os.kill(pid, signal.SIGKILL)
                    os.waitpid(pid, 0)
                    return done, None
                done += 1
            entering = not entering
        elif stop != signal.SIGTRAP:
            deliver = stop


def once(kill_at, program, words):
    done, status = run(kill_at, program, words, (0, 1, 2))
    if status is None:
        return 0
    print(f"power_cut: {program} ended with {status} after {done} writes", file=sys.stderr)
    return 1


def call(program, word, folder, text=""):
    ended = subprocess.run([program, word], cwd=folder, input=text.encode(), capture_output=True)
    if ended.returncode:
        sys.exit(f"power_cut: {program} {word} ended with {ended.returncode}")
    return ended.stdout.decode()


def sends(line):
    verb = line.removeprefix("- ").split(" ")[0]
    return line.strip() != "" and not line.startswith("#") and verb not in (
        "reset", "channel", "keys", "tokenkey", "badtoken", "want")


def show(registry):
    return "".join(line + "\n" for line in listing.show(registry))


def registries(lines):
    """What the registry of the model is after each line that sends, and before the first."""
    card = Card(image.factory_registry())
    player = Player(card)
    shown = [show(card.registry)]
    for line in lines:
        if line.strip() and not line.startswith("#"):
            player.play(script.parse(line.rstrip("\n")))
        if sends(line):
            shown.append(show(card.registry))
    return shown


def without_counters(registry):
    return [line for line in registry.splitlines() if not line.startswith("counter ")]


def cut(kill_at, program, path, recovery):
    """Plays a script, and kills it before that write: the writes that were done, the status, the lines that were printed, the
    registry afterwards as the model reads it in the file and as the program shows it, and what the recovery leaves of it."""
    here = os.getcwd()
    with tempfile.TemporaryDirectory() as folder, tempfile.TemporaryFile() as printed, open(path, "rb") as lines:
        call(program, "format", folder)
        os.chdir(folder)
        try:
            done, status = run(kill_at, program, ["play"], (lines.fileno(), printed.fileno(), 2))
        finally:
            os.chdir(here)
        printed.seek(0)
        held = show(image.read_image(Path(folder, CARD).read_bytes()))
        registry = call(program, "show", folder)
        call(program, "play", folder, recovery)
        recovered = without_counters(call(program, "show", folder))
        return done, status, printed.read().count(b"\n"), held, registry, recovered


def each(program, path, recovery):
    shown = registries(Path(path).read_text().splitlines(keepends=True))
    going_on = Path(recovery).read_text()
    passed = failed = 0
    kill_at = 0
    status = last = None
    while status is None:
        kill_at += 1
        done, status, answered, held, registry, recovered = cut(kill_at, program, path, going_on)
        if status is not None:
            good = status == 0 and answered == len(shown) - 1 and registry == shown[-1]
        else:
            good = registry in shown[answered : answered + 2]
        last = last or recovered
        good = good and held == registry and recovered == last
        passed += good
        failed += not good
        if not good:
            print(f"FAIL before write {kill_at}: {answered} lines were answered, status {status}, and the registry is\n{registry}")
    print(f"{passed} passed, {failed} failed: {done} writes")
    return failed > 0


def main(words):
    if platform.system() != "Linux" or platform.machine() != "x86_64":
        skip("it knows the calls of Linux on x86-64 alone")
    if len(words) == 4 and words[0] == "--each":
        return each(os.path.abspath(words[1]), words[2], words[3])
    if len(words) < 2 or not words[0].isdecimal():
        sys.exit(__doc__)
    return once(int(words[0]), os.path.abspath(words[1]), words[2:])


if __name__ == "__main__":
    sys.exit(main(sys.argv[1:]))
