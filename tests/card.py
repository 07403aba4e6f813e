#!/usr/bin/env python3
"""Tries `gp_host` and tools/card. tests/card.sh calls it, and says what it tries.

    card.py [--pcscd PORT] [--gp WORDS] WORD...      the words run the host; with a port the card is in pcscd's virtual reader there
"""
import argparse
import contextlib
import io
import os
import pty
import re
import shlex
import signal
import socket
import subprocess
import sys
import tempfile
import threading
import time
from pathlib import Path

from model import stream_host

TOP = Path(__file__).resolve().parent.parent
EXAMPLES = TOP / "examples"
DAYS = ("issuer", "provider", "auditor", "applet")
SECONDS = 60
OPENING = "open 00 33 0001020304050607\n"

passed = failed = 0


def wants(what, wanted, got):
    global passed, failed
    passed += wanted == got
    failed += wanted != got
    if wanted != got:
        print(f"FAIL {what}: wanted {wanted!r:.500}, got {got!r:.500}")


class Programs:
    """The two programs, and scripts and cards in folders that go away at the end."""

    def __init__(self, gp, host, folder):
        self.gp = gp
        self.host = host
        self.folder = folder
        self.count = 0

    def new_folder(self):
        self.count += 1
        made = self.folder / str(self.count)
        made.mkdir()
        return made

    def new_card(self):
        folder = self.new_folder()
        subprocess.run([*self.gp, "format"], cwd=folder, check=True)
        return folder

    def script(self, text):
        path = self.new_folder() / "script"
        path.write_text(text)
        return path

    def call(self, folder, word, text=""):
        done = subprocess.run([*self.gp, word], cwd=folder, input=text.encode(), capture_output=True, timeout=SECONDS)
        return done.stdout.decode(), done.returncode

    def model(self, script, replies):
        """What the model makes of a script with these replies: status, commands, transcript."""
        commands, transcript = io.BytesIO(), io.BytesIO()
        status = stream_host.host([str(script)], io.BytesIO(replies), commands, transcript)
        return status, commands.getvalue(), transcript.getvalue().decode()

    def answered(self, words, replies, **streams):
        """What the host makes of these words, where all replies lie ready: status, commands, transcript."""
        pipes = {"stdout": subprocess.PIPE, "stderr": subprocess.PIPE, **streams}
        done = subprocess.run([*self.host, *words], input=replies, timeout=SECONDS, **pipes)
        return done.returncode, done.stdout, (done.stderr or b"").decode()


def loads():
    """The longest file and a short one, at each level that enciphers."""
    lines = [OPENING, "load d2000000aa - sha256 fill 32768 5a\n", "list 20 d2\n"]
    return "".join([*lines, "open 00 13 0001020304050607\n", "load d2000000bb - sha1 616263\n", "delete d2000000aa 80\n", "list 20 d2\n"])


# ---- The host over two pipes


def tries_pipes(programs):
    """A card at the other end of the pipes, each reply sent only after its command came."""
    for name, script in scripts(programs):
        card, twin = programs.new_card(), programs.new_card()
        pipes = {"stdin": subprocess.PIPE, "stdout": subprocess.PIPE}
        with subprocess.Popen([*programs.gp, "run"], cwd=card, **pipes) as run:
            host = subprocess.Popen([*programs.host, str(script)], **pipes, stderr=subprocess.PIPE)
            replies = b""
            for line in host.stdout:
                run.stdin.write(line)
                run.stdin.flush()
                if line != b"reset\n":
                    reply = run.stdout.readline()
                    replies += reply
                    host.stdin.write(reply)
                    host.stdin.flush()
            host.stdin.close()
            transcript = host.stderr.read().decode()
            status = host.wait()
            run.stdin.close()
        wants(f"pipes, {name}", programs.call(twin, "play", script.read_text()), (transcript, status))
        wants(f"pipes, {name}: registry", programs.call(twin, "show"), programs.call(card, "show"))
        # With all replies in one file before the first command, the host writes the same.
        wants(f"replies in a file, {name}", programs.model(script, replies), programs.answered([script], replies))


def scripts(programs):
    yield from ((name, EXAMPLES / f"{name}.script") for name in DAYS)
    yield "loads at level 33", programs.script(loads())
    yield "resets and wants", programs.script("reset\nselect\nwant 6a82\nraw 00700000\nreset\nraw 01a40400\nwant 6881\nreset\n")


def tries_replies(programs):
    """Lines that are replies, and lines that are none. The script sends two commands."""
    script = programs.script("select\nraw 80ca00e000\n")
    sent = b"00a40400\n80ca00e000\n"
    first = b"00a40400\n"
    longest = "ab" * 256 + "9000"
    replies = {
        "two replies": ("6a82\n6a88\n", (0, sent, "6a82\n6a88\n")),
        "digits of both cases": ("6A82\nAbCd9000\n", (0, sent, "6a82\nabcd9000\n")),
        "carriage returns": ("6a82\r\n6a88\r\n", (0, sent, "6a82\n6a88\n")),
        "no newline at the end": ("6a82\n6a88", (0, sent, "6a82\n6a88\n")),
        "a carriage return at the end": ("6a82\n6a88\r", (3, sent, "6a82\nreply 2\n")),
        "an empty reply": ("\n6a88\n", (0, sent, "short\n6a88\n")),
        "a reply of one byte": ("6a82\n90\n", (0, sent, "6a82\nshort\n")),
        "the longest": (f"6a82\n{longest}\n", (0, sent, f"6a82\n{longest}\n")),
        "one byte more": (f"6a82\nab{longest}\n", (3, sent, "6a82\nreply 2\n")),
        "as many digits as a line has": (f"{'ab' * 261}\n", (3, first, "reply 1\n")),
        "a line that is too long": (f"6a82\n{'ab' * 262}\n", (3, sent, "6a82\nreply 2\n")),
        "a line without an end": ("ab" * 100_000, (3, first, "reply 1\n")),
        "an odd digit": ("6a8\n6a88\n", (3, first, "reply 1\n")),
        "a letter": ("6a82\n6a8g\n", (3, sent, "6a82\nreply 2\n")),
        "a space": ("6a82 \n6a88\n", (3, first, "reply 1\n")),
        "a comment": ("# 6a82\n6a88\n", (3, first, "reply 1\n")),
        "a byte of none": ("6a82\n6a8\0\n", (3, sent, "6a82\nreply 2\n")),
        "no reply": ("", (3, first, "no reply\n")),
        "one reply": ("6a82\n", (3, sent, "6a82\nno reply\n")),
        "a reply that is cut": ("6a82\n6a8", (3, sent, "6a82\nreply 2\n")),
        "more replies than commands": ("6a82\n6a88\n6a88\n", (0, sent, "6a82\n6a88\n")),
    }
    for name, (text, wanted) in replies.items():
        wants(name, wanted, programs.answered([script], text.encode()))
        wants(f"{name}: the model", wanted, programs.model(script, text.encode()))


def tries_statuses(programs):
    usage = "usage: gp_host FILE\n"
    select = programs.script("select\n")
    wants("no word", (1, b"", usage), programs.answered([], b""))
    wants("two words", (1, b"", usage), programs.answered([select, select], b""))
    wants("a word that is no UTF-8", (1, b"", ""), programs.answered([b"\xff"], b""))
    wants("no script", (5, b"", "no script\n"), programs.answered([select.parent / "none"], b""))
    wants("a folder for a script", (5, b"", ""), programs.answered([select.parent], b""))
    wants("an empty script", (0, b"", ""), programs.answered([programs.script("")], b""))
    wants("a malformed line", (2, b"00a40400\n", "6a82\nline 3\n"), programs.answered([programs.script("select\n\nselect \nselect\n")], b"6a82\n6a82\n"))
    wants("a line that is too long", (2, b"", "line 1\n"), programs.answered([programs.script("#" * 523)], b""))
    wants("a want that differs", (8, b"00a40400\n", "6a82\nwant 9000 got 6a82\n"), programs.answered([programs.script("select\nwant 9000\n")], b"6a82\n"))
    wants("a difference, and then no reply", (3, b"00a40400\n", "want 9000 got none\nno reply\n"), programs.answered([programs.script("want 9000\nselect\n")], b""))
    line = "#" * 511 + "\n"
    wants("the longest script", (0, b"", ""), programs.answered([programs.script(line * 131_071 + line[1:])], b""))
    wants("one byte more", (9, b"", ""), programs.answered([programs.script(line * 131_072)], b""))

    # 131,072 replies of 512 bytes are as many as are read; the command after them gets none.
    many = programs.script("- raw 80ca00e0\n" * 131_073)
    replies = b"ab" * 253 + b"9000\r\n"
    wants("as many replies as are read", (3, b"80ca00e0\n" * 131_073, "9000\n" * 131_072 + "no reply\n"), programs.answered([many], replies * 131_072))
    wants("more", (3, b"80ca00e0\n" * 131_073, "9000\n" * 131_072 + "no reply\n"), programs.answered([many], replies * 131_073))

    with open("/dev/full", "wb") as full:
        wants("commands that are refused", (6, None, ""), programs.answered([select], b"6a82\n", stdout=full))
        wants("a reset that is refused", (6, None, ""), programs.answered([programs.script("reset\nselect\n")], b"6a82\n", stdout=full))
        wants("a transcript that is refused", (6, b"00a40400\n", ""), programs.answered([select], b"6a82\n", stderr=full))
        wants("a usage line that is refused", (6, b"", ""), programs.answered([], b"", stderr=full))
    closed = subprocess.run(["sh", "-c", 'exec "$@" <&-', "sh", *programs.host, str(select)], capture_output=True, timeout=SECONDS)
    wants("no standard input", (3, "no reply\n"), (closed.returncode, closed.stderr.decode()))


def tries_pace(programs):
    """The host waits for a reply that comes byte by byte, and for one that comes late."""
    host = subprocess.Popen([*programs.host, str(programs.script("select\nselect\n"))], stdin=subprocess.PIPE, stdout=subprocess.PIPE, stderr=subprocess.PIPE, bufsize=0)
    wants("a command before the reply", b"00a40400\n", host.stdout.readline())
    for byte in b"6a82\n":
        host.stdin.write(bytes([byte]))
        time.sleep(0.01)
    wants("the text before the next reply", b"6a82\n", host.stderr.readline())
    wants("the next command before the next reply", b"00a40400\n", host.stdout.readline())
    time.sleep(0.2)
    wants("it waits", None, host.poll())
    host.stdin.write(b"9000\n")
    host.stdin.close()
    wants("it ends", (0, b"", b"9000\n"), (host.wait(SECONDS), host.stdout.read(), host.stderr.read()))
    host.stdout.close()
    host.stderr.close()


# ---- tools/card, with a stand-in for pyscard or with pcscd


class Bridge:
    """tools/card with a card in a folder in its reader."""

    def __init__(self, programs):
        self.programs = programs

    def call(self, *words, env):
        with subprocess.Popen([TOP / "tools/card", *map(str, words)], env={**os.environ, **env}, stdout=subprocess.PIPE, stderr=subprocess.PIPE, text=True) as card:
            printed, said = card.communicate(timeout=SECONDS)
        return printed, card.returncode, said

    def play(self, script, *options, **where):
        with self.inserted(**where) as env:
            return self.call(*options, script, *self.programs.host, env=env)


class Inserted:
    """A card in a reader for a while: its environment, and the process that is ended then."""

    def __init__(self, env, leave=lambda: None):
        self.env = env
        self.leave = leave

    def __enter__(self):
        return self.env

    def __exit__(self, *_):
        self.leave()


class StandIn(Bridge):
    name = "stand-in"

    def inserted(self, folder=None, kind="t1", card=None):
        card = card or ["env", "--chdir", str(folder), *self.programs.gp, "run"]
        path = f"{TOP / 'tests/pcsc'}:{os.environ.get('PYTHONPATH', '')}"
        return Inserted({"PCSC_KIND": kind, "PCSC_CARD": shlex.join(card), "PYTHONPATH": path})


class Pcscd(Bridge):
    name = "pcscd"

    def __init__(self, programs, port):
        super().__init__(programs)
        self.port = port

    def inserted(self, folder=None, kind="t1", card=None):
        """The card is in the reader once pcscd has seen it. tools/reader shows one that speaks T=1."""
        card = card or [*self.programs.gp, "run"]
        if kind == "t0":
            leave = show_t0(self.port, card)
            self.comes("ATR 3b00")
        else:
            reader = subprocess.Popen([TOP / "tools/reader", "--port", str(self.port), *card], cwd=folder, stderr=subprocess.PIPE)
            reader.stderr.readline()
            self.comes("ATR 3b84")

            def leave():
                reader.terminate()
                reader.communicate()

        def take_out():
            leave()
            self.comes("no card")

        return Inserted({}, take_out)

    def comes(self, word):
        for _ in range(100):
            if f"00 00: {word}" in self.call("--list", env={})[0]:
                return
            time.sleep(0.1)
        wants(f"{word} in the reader within ten seconds", True, False)


def show_t0(port, words):
    """A card that speaks T=0 alone, in the virtual reader; messages as in tools/reader. It is out when what comes is called."""
    card = subprocess.Popen(words, stdin=subprocess.PIPE, stdout=subprocess.PIPE)
    reader = socket.create_connection(("localhost", port))

    def serve():
        # The end may come as a reset.
        with contextlib.suppress(ConnectionResetError):
            while head := reader.recv(2, socket.MSG_WAITALL):
                answer_message(head)

    def answer_message(head):
        message = reader.recv(int.from_bytes(head, "big"), socket.MSG_WAITALL)
        answer = b"\x3b\x00"
        if message != b"\x04":
            card.stdin.write(b"reset\n" if len(message) == 1 else message.hex().encode() + b"\n")
            card.stdin.flush()
            if len(message) == 1:
                return
            answer = bytes.fromhex(card.stdout.readline().decode())
        reader.sendall(len(answer).to_bytes(2, "big") + answer)

    served = threading.Thread(target=serve)
    served.start()

    def leave():
        reader.shutdown(socket.SHUT_RDWR)
        served.join()
        reader.close()
        card.communicate()

    return leave


def odd_card(programs, kind, number, folder):
    return [sys.executable, str(TOP / "tests/odd_card.py"), kind, str(number), str(folder), *programs.gp, "run"]


def of_log(path):
    """The commands of a log, with `reset`, and the lines that were replies. Of one that is too long the log has no more than a part."""
    commands, replies = "", ""
    for line in path.read_text().splitlines():
        odd = re.fullmatch("# ([0-9]+) bytes, which are no short reply: ([0-9a-f]*)", line)
        if odd:
            replies += (odd[2] if int(odd[1]) < 2 else "00" * int(odd[1])) + "\n"
        elif line[0] == "=":
            replies += line[2:] + "\n"
        elif line[0] != "#":
            commands += line + "\n"
    return commands.encode(), replies.encode()


def tries_days(programs, bridge):
    """The same text and registry as from `gp play`, and a log that `gp replay` finds no difference in."""
    for name, script in scripts(programs):
        card, twin, third = (programs.new_card() for _ in range(3))
        log = card / "log"
        printed, status, said = bridge.play(script, "--log", log, folder=card)
        wants(f"{bridge.name}, {name}", programs.call(twin, "play", script.read_text()), (printed, status))
        wants(f"{bridge.name}, {name}: standard error", "", said)
        wants(f"{bridge.name}, {name}: registry", programs.call(twin, "show"), programs.call(card, "show"))
        wants(f"{bridge.name}, {name}: the log", ("", 0), programs.call(third, "replay", log.read_text()))
        commands, replies = of_log(log)
        wants(f"{bridge.name}, {name}: the model", (status, commands, printed), programs.model(script, replies))


def tries_t0(programs, bridge):
    """The same text at T=0, where data are asked for and Le is repeated."""
    plain = programs.script("select\nraw 00700000\nreset\nraw 80ca00e0\nraw 80ca00e000\nraw 00a4040008a00000015100000000\nwant 9000\n")
    for name, script in [("in plain", plain), *((day, EXAMPLES / f"{day}.script") for day in DAYS)]:
        play = programs.call(programs.new_card(), "play", script.read_text())
        where = {"card": odd_card(programs, "t0", 0, programs.new_card()), "kind": "t0"}
        wants(f"{bridge.name}, T=0, {name}", (*play, ""), bridge.play(script, **where))


def tries_outs(programs, bridge, outs):
    """A card that is taken out before a command: what was printed until then, and `no reply`."""
    script = EXAMPLES / "issuer.script"
    whole, _ = programs.call(programs.new_card(), "play", script.read_text())
    for at in outs:
        card = programs.new_card()
        log = card / "log"
        where = {"folder": card} if bridge.name == "stand-in" else {"card": odd_card(programs, "out", at, card)}
        printed, status, said = bridge.play(script, "--log", log, **where, kind=f"out {at}")
        text, last = printed.splitlines()[:-1], printed.splitlines()[-1:]
        wants(f"{bridge.name}, out before command {at}", (3, ["no reply"], whole.splitlines()[:len(text)]), (status, last, text))
        wants(f"{bridge.name}, out before command {at}: what is said", True, said.startswith("card: the card was taken out of "))
        commands, replies = of_log(log)
        wants(f"{bridge.name}, out before command {at}: commands", at, len(replies.splitlines()))
        wants(f"{bridge.name}, out before command {at}: the model", (3, commands, printed), programs.model(script, replies))


def tries_garbage(programs, bridge, seeds):
    """A reader that answers anything: a status that has a name, and the text that the model has for these replies."""
    for seed in seeds:
        card = programs.new_card()
        log = card / "log"
        printed, status, said = bridge.play(EXAMPLES / "provider.script", "--log", log, card=odd_card(programs, "garbage", seed, card))
        commands, replies = of_log(log)
        wants(f"{bridge.name}, garbage {seed}", (status, commands, printed), programs.model(EXAMPLES / "provider.script", replies))
        wants(f"{bridge.name}, garbage {seed}: status", True, status in (0, 3, 8))
        wants(f"{bridge.name}, garbage {seed}: what is said", True, said == "" or said.endswith("failed: its reply has no bytes\n"))


def tries_words(programs, bridge):
    """What tools/card says of itself, and of a host that is none."""
    card = programs.new_card()
    script = programs.script("select\n")
    with bridge.inserted(folder=card) as env:
        printed, status, said = bridge.call("--list", env=env)
        wants(f"{bridge.name}, --list", (0, True, ""), (status, "00 00: ATR 3b" in printed, said))
        printed, status, said = bridge.call("--reader", "7", script, *programs.host, env=env)
        wants(f"{bridge.name}, reader 7", ("", 69, "card: there is no reader 7: --list shows those that are there\n"), (printed, status, said))
        printed, status, said = bridge.call("--log", card / "no" / "log", script, *programs.host, env=env)
        wants(f"{bridge.name}, a log in no folder", ("", 74, f"card: {card}/no/log: No such file or directory\n"), (printed, status, said))
        wants(f"{bridge.name}, a host that is none", ("", 70, "card: ./none: No such file or directory\n"), bridge.call(script, "./none", env=env))
        said = "card: sh -c echo hallo x wrote 'hallo', which is no command\n"
        wants(f"{bridge.name}, a host that writes no command", ("", 70, said), bridge.call("x", "sh", "-c", "echo hallo", env=env)[:3])
        wants(f"{bridge.name}, a host that is killed", ("", 137, ""), bridge.call(script, "sh", "-c", "kill -9 $$", env=env))
        wants(f"{bridge.name}, no script", ("no script\n", 5, ""), bridge.call(card / "none", *programs.host, env=env))
    for words in ([], ["--reader", "x", script], ["--none"]):
        wants(f"{bridge.name}, words {words}", 1, bridge.call(*words, env=env)[1])


def tries_stand_in(programs, bridge):
    """What a reader does that vpcd can't be made to do."""
    script = programs.script("select\nreset\nselect\n")
    first = programs.call(programs.new_card(), "play", "select\n")[0]
    reader = "Stand-in 00 00"
    failures = {
        "stopped": ("", 69, "card: pcscd does not run\n"),
        "bare": ("", 69, "card: pcscd knows no reader\n"),
        "empty": ("", 69, f"card: there is no card in {reader}\n"),
        "taken": ("", 69, f"card: another program has the card in {reader}\n"),
        "gone 1": (first + "no reply\n", 3, f"card: the reader {reader} is gone\n"),
        "deaf 0": ("no reply\n", 3, f"card: the card in {reader} failed: error 108\n"),
        "down 0": ("", 69, f"card: the card in {reader} failed: error 108\n"),
        "down 1": (first + "no reply\n", 3, f"card: the card in {reader} failed: error 108\n"),
    }
    for kind, wanted in failures.items():
        wants(f"stand-in, {kind}", wanted, bridge.play(script, folder=programs.new_card(), kind=kind))
    last = programs.script("select\nreset\n")
    wants("a last reset that fails", (first, 3), bridge.play(last, folder=programs.new_card(), kind="down 1")[:2])


def tries_terminal(programs, bridge):
    """On a terminal a load shows how far it is, and that line is gone before the text that follows."""
    script = programs.script(loads())
    main_end, terminal = pty.openpty()
    with bridge.inserted(folder=programs.new_card()) as env:
        words = [TOP / "tools/card", script, *programs.host]
        card = subprocess.Popen(words, env={**os.environ, **env}, stdout=terminal, stderr=terminal)
        os.close(terminal)
        shown = b""
        try:
            while piece := os.read(main_end, 65536):
                shown += piece
        except OSError:
            # The end of a terminal that nobody writes to any more.
            pass
        os.close(main_end)
        status = card.wait(SECONDS)
    wants("a terminal: the last block", True, b"\r\x1b[Kcard: load, block 138, " in shown)
    text = re.sub(rb"\r\x1b\[K(card: load, block [0-9]+, [0-9]+ bytes sent)?", b"", shown).replace(b"\r\n", b"\n").decode()
    wants("a terminal: text", programs.call(programs.new_card(), "play", script.read_text()), (text, status))


def tries_signals(programs, bridge):
    """tools/card is told to end while the card is busy: the transcript has an end."""
    script = programs.script("select\nselect\n")
    slow = ["sh", "-c", "read -r _; read -r _; echo 6a82; read -r _; sleep 2; echo 6a82"]
    for number in (signal.SIGINT, signal.SIGTERM):
        with bridge.inserted(card=slow) as env:
            words = [TOP / "tools/card", script, *programs.host]
            card = subprocess.Popen(words, env={**os.environ, **env}, stdout=subprocess.PIPE, stderr=subprocess.PIPE, text=True)
            first = card.stdout.readline()
            card.send_signal(number)
            printed, said = card.communicate(timeout=SECONDS)
        wants(f"{number.name}", ("6a82\nno reply\n", 128 + number, f"card: ended by {number.name}\n"), (first + printed, card.returncode, said))


def tries_pcscd(programs, bridge):
    """A reader without a card, and two programs that want one card."""
    script = programs.script("select\n")
    printed, status, said = bridge.call(script, *programs.host, env={})
    wants("pcscd, no card", ("", 69, True), (printed, status, said.startswith("card: there is no card in ")))
    card = programs.new_card()
    with bridge.inserted(folder=card) as env:
        first = subprocess.Popen([TOP / "tools/card", script, "sh", "-c", "echo 00a40400; sleep 3"], env={**os.environ, **env}, stdout=subprocess.PIPE)
        time.sleep(1.5)
        printed, status, said = bridge.call(script, *programs.host, env=env)
        wants("pcscd, another program", ("", 69, True), (printed, status, said.startswith("card: another program has the card in ")))
        first.communicate()
        printed, status, said = bridge.call(script, *programs.host, env=env)
        wants("pcscd, after it", (*programs.call(programs.new_card(), "play", "select\n"), ""), (printed, status, said))


def main():
    parser = argparse.ArgumentParser(usage=__doc__)
    parser.add_argument("--pcscd", type=int)
    parser.add_argument("--gp", type=shlex.split, default=[str(TOP / "crates/gp/out/gp")])
    parser.add_argument("host", nargs=argparse.REMAINDER)
    given = parser.parse_args()
    with tempfile.TemporaryDirectory(prefix="card.") as folder:
        programs = Programs(given.gp, given.host, Path(folder))
        if given.pcscd:
            bridge, outs, seeds = Pcscd(programs, given.pcscd), (0, 5, 30), range(3)
            tries_pcscd(programs, bridge)
        else:
            bridge, outs, seeds = StandIn(programs), range(0, 43, 6), range(20)
            tries_pipes(programs)
            tries_replies(programs)
            tries_statuses(programs)
            tries_pace(programs)
            tries_stand_in(programs, bridge)
            tries_terminal(programs, bridge)
            tries_signals(programs, bridge)
        tries_days(programs, bridge)
        tries_t0(programs, bridge)
        tries_words(programs, bridge)
        tries_outs(programs, bridge, outs)
        tries_garbage(programs, bridge, seeds)
    print(f"{passed} passed, {failed} failed")
    sys.exit(failed != 0)


main()
