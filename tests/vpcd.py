#!/usr/bin/env python3
"""Tries tools/reader against a stand-in for pcscd's virtual reader: a port that waits for a card, as vpcd does. The card is
that of the words given, to which `run`, `format` or `show` is added. tests/reader.sh calls it.

What the card answers is compared with what the program answers by itself to the same lines."""

import os
import signal
import socket
import subprocess
import sys
import tempfile

TOP = os.path.dirname(os.path.dirname(os.path.realpath(__file__)))
READER = os.path.join(TOP, "tools", "reader")
SECONDS = 10
OFF, ON, RESET, ATR = b"\x00", b"\x01", b"\x02", b"\x04"

SELECT = "00A4040008A000000151000000"
UPDATE = "80500000080001020304050607"
COUNTER = "80CA00C100"

passed = failed = 0


def wants(what, wanted, got):
    global passed, failed
    passed += wanted == got
    failed += wanted != got
    if wanted != got:
        print(f"FAIL {what}: wanted {wanted!r}, got {got!r}")


class Reader:
    """The stand-in on a port of its own, and tools/reader that connects to it."""

    bridges = []

    def __init__(self, words, folder, *options):
        self.port = socket.create_server(("127.0.0.1", 0))
        self.port.settimeout(SECONDS)
        number = str(self.port.getsockname()[1])
        call = [READER, "--host", "127.0.0.1", "--port", number, *options, *words]
        self.bridge = subprocess.Popen(call, cwd=folder, stderr=subprocess.PIPE, text=True)
        self.bridges.append(self.bridge)
        self.card = None

    def accept(self):
        self.card, _ = self.port.accept()
        self.card.settimeout(SECONDS)
        return self

    def send(self, message):
        self.card.sendall(len(message).to_bytes(2, "big") + message)

    def bytes_of(self, count):
        held = b""
        while len(held) < count:
            piece = self.card.recv(count - len(held))
            if not piece:
                return held + b" and the end"
            held += piece
        return held

    def ask(self, message):
        self.send(message)
        return self.bytes_of(int.from_bytes(self.bytes_of(2), "big"))

    def reply(self, digits):
        return self.ask(bytes.fromhex(digits)).hex()

    def is_gone(self):
        try:
            return self.card.recv(1) == b""
        except ConnectionResetError:
            return True

    def leave(self):
        """The stand-in goes away."""
        if self.card:
            self.card.close()
        self.port.close()

    def ended(self):
        """The exit status of tools/reader, and what it said last."""
        try:
            _, said = self.bridge.communicate(timeout=SECONDS)
        except subprocess.TimeoutExpired:
            self.bridge.kill()
            return "no end", ""
        finally:
            self.leave()
        return self.bridge.returncode, said.splitlines()[-1] if said else ""


def judge_atr(atr):
    """Reads an ATR as ISO/IEC 7816-3, 8.2, has it: its protocols, its historical bytes, and that TCK closes it."""
    wants("ATR: TS", 0x3B, atr[0])
    at, follows = 2, atr[1] >> 4
    protocols = []
    while follows:
        at += bin(follows & 0x7).count("1")
        if not follows & 0x8:
            break
        protocols.append(atr[at] & 0x0F)
        follows = atr[at] >> 4
        at += 1
    historical = atr[at : at + (atr[1] & 0x0F)]
    wants("ATR: protocols", [1], protocols)
    wants("ATR: historical bytes", b"\x80\x62gp", historical)
    wants("ATR: length", at + len(historical) + 1, len(atr))
    check = 0
    for byte in atr[1:]:
        check ^= byte
    wants("ATR: TCK", 0, check)


def program(words, folder, word, text=""):
    """What the program writes by itself, and its status."""
    done = subprocess.run([*words, word], cwd=folder, input=text, capture_output=True, text=True, timeout=SECONDS)
    return done.stdout.splitlines(), done.returncode


def tries_commands(words, folder, twin):
    """Commands of a day, with the reader's power among them: whole replies, and the registry behind them."""
    day = [ON, SELECT, "00700000", "01A40400", COUNTER, UPDATE, COUNTER, RESET, "01A40400", "00B00000", OFF, ON]
    day += ["00A404", UPDATE, "848233001076857F0738AB1422CC3A9195E19F90A3", UPDATE, "00A4040005D200000001", RESET, COUNTER]
    lines = ["reset" if isinstance(step, bytes) else step for step in day]
    wanted, _ = program(words, twin, "run", "\n".join(lines) + "\n")

    reader = Reader([*words, "run"], folder).accept()
    judge_atr(reader.ask(ATR))
    got = []
    for step in day:
        if isinstance(step, bytes):
            reader.send(step)
        else:
            got.append(reader.reply(step))
    wants("replies", wanted, got)
    judge_atr(reader.ask(ATR))

    # What is no line of `gp run` is no command, and the card goes on.
    for odd in ("", "80", "00", "00E2000000012C" + "AA" * 300, "AA" * 262, "00" * 65535):
        if len(odd) != 2 or odd == "80":
            wants(f"{len(odd) // 2} bytes", "6700", reader.reply(odd))
    longest = "00D60000FF" + "AA" * 255 + "00"
    wants("261 bytes", "6d00", reader.reply(longest))
    wants("the card goes on", wanted[-1], reader.reply(COUNTER))

    # A message that comes byte by byte, and two at once.
    command = bytes.fromhex(COUNTER)
    for byte in len(command).to_bytes(2, "big") + command:
        reader.card.sendall(bytes([byte]))
    wants("byte by byte", wanted[-1], reader.bytes_of(int.from_bytes(reader.bytes_of(2), "big")).hex())
    both = (len(command).to_bytes(2, "big") + command) * 2
    reader.card.sendall(both)
    for _ in range(2):
        wants("two at once", wanted[-1], reader.bytes_of(int.from_bytes(reader.bytes_of(2), "big")).hex())

    wants("the card is held", 3, program(words, folder, "show")[1])
    reader.leave()
    wants("the reader goes away", (0, "reader: the reader went away"), reader.ended())
    wants("the registry", program(words, twin, "show"), program(words, folder, "show"))


def tries_ends(words, folder):
    run = [*words, "run"]

    reader = Reader(run, folder).accept()
    reader.reply(SELECT)
    reader.card.sendall(b"\x00\x05\x80")
    reader.leave()
    wants("the reader goes away within a message", 0, reader.ended()[0])

    for number in (signal.SIGTERM, signal.SIGINT):
        reader = Reader(run, folder).accept()
        reader.reply(SELECT)
        reader.bridge.send_signal(number)
        wants(f"{number.name}: the card is gone", True, reader.is_gone())
        wants(f"{number.name}: status", (0, True), (reader.ended()[0], program(words, folder, "show")[1] == 0))

    # Nothing listens on a port that was closed, and no card is held afterwards.
    with socket.create_server(("127.0.0.1", 0)) as closed:
        number = closed.getsockname()[1]
    status, said = Reader(run, folder, "--port", str(number)).ended()
    wants("no reader: status", (1, 0), (status, program(words, folder, "show")[1]))
    wants("no reader", True, said.startswith(f"reader: no virtual reader on 127.0.0.1:{number}: "))

    # A folder without a card: nothing connects.
    with tempfile.TemporaryDirectory() as empty:
        reader = Reader(run, empty)
        status, said = reader.ended()
        wants("no card", (3, True), (status, " ended with 4: " in said))

    # Programs that are no card. Each answers the first command by 6700 where it answers.
    scripts = {
        "ends before a reply": ("exit 5", " ended with 5: "),
        "ends within a command": ("read -r _; echo 6700; read -r _; exit 6", " ended with 6: "),
        "ends at rest": ("read -r _; echo 6700; exit 7", " ended with 7: "),
        "writes no reply": ("read -r _; echo 6700; read -r _; echo line 2", " wrote b'line 2', "),
        "is killed": ("read -r _; echo 6700; read -r _; kill -9 $$", " ended with -9: "),
    }
    for name, (script, wanted) in scripts.items():
        reader = Reader(["sh", "-c", script], folder)
        if "before" not in name:
            reader.accept()
            if "rest" not in name:
                reader.send(bytes.fromhex(SELECT))
            wants(f"a program that {name}: the card is gone", True, reader.is_gone())
        status, said = reader.ended()
        wants(f"a program that {name}", (3, True), (status, wanted in said))

    wants("no program", (3, "reader: ./none: No such file or directory"), Reader(["./none"], folder).ended())
    wants("no port", 2, Reader(run, folder, "--port", "0").ended()[0])
    wants("an option that is none", 2, Reader(run, folder, "--none").ended()[0])


def main(words):
    with tempfile.TemporaryDirectory() as folder, tempfile.TemporaryDirectory() as twin:
        for made in (folder, twin):
            subprocess.run([*words, "format"], cwd=made, check=True)
        try:
            tries_commands(words, folder, twin)
            tries_ends(words, folder)
        except TimeoutError:
            wants(f"an answer within {SECONDS} s", True, False)
            raise
        finally:
            for bridge in Reader.bridges:
                bridge.kill()
    print(f"{passed} passed, {failed} failed")
    sys.exit(failed != 0)


main(sys.argv[1:])
