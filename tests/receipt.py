#!/usr/bin/env python3
"""Computes what a card answers where CMAC and AES come in, by OpenSSL, and compares it with the text of a script.

usage: receipt.py SCRIPT TEXT

SCRIPT is a script of `gp play` on a card that `gp format` has made, TEXT what it is to print. The program follows which domain
is selected on each channel, whose domain each thing is, and the keys and data objects that are put; it looks no status up by a
rule, but takes TEXT's word for it. Of each accepted line it checks

    receipts       of delegated commands, byte by byte, with their numbers; and 00 of all others
    tokens         of an INSTALL that is sent by `send`, which stand in SCRIPT
    check values   of the keys that are put

It knows one domain that verifies and confirms, the Issuer Security Domain, and `select` with whole AIDs. It needs OpenSSL 3.
The last line says 'N passed, M failed', and the status is 0 where all are as computed.
"""
import subprocess
import sys
from collections import defaultdict
from pathlib import Path

ISSUER = "a000000151000000"
FACTORY_FILE = "a0000001515350"
SILENT = {"reset", "channel", "keys", "tokenkey", "badtoken"}
DELEGATED_MANAGEMENT = 0x20

passed = failed = 0


def judge(what, printed, computed):
    global passed, failed
    if printed == computed:
        passed += 1
    else:
        failed += 1
        print(f"FAIL {what}: computed {computed}, printed {printed}")


def openssl(words, data):
    done = subprocess.run(["openssl", *words], input=data, capture_output=True)
    if done.returncode:
        sys.exit(f"receipt: openssl failed: {done.stderr.decode()}")
    return done.stdout


def cmac(key, data):
    """The CMAC of bytes, in digits."""
    words = ["mac", "-cipher", f"AES-{4 * len(key)}-CBC", "-macopt", f"hexkey:{key}", "-in", "-", "CMAC"]
    return openssl(words, data).decode().strip().lower()


def check_value(key):
    return openssl(["enc", f"-aes-{4 * len(key)}-ecb", "-nopad", "-K", key], b"\1" * 16).hex()[:6]


def with_length(digits):
    """Bytes behind their length in one byte, all in digits."""
    return f"{len(digits) // 2:02x}{digits}"


def objects_in(digits):
    """The data objects of a field: their tags and values. Lengths of one byte are enough here."""
    found = {}
    while digits:
        size = 4 if int(digits[:2], 16) & 0x1F == 0x1F else 2
        length = 2 * int(digits[size : size + 2], 16)
        found[digits[:size]] = digits[size + 2 : size + 2 + length]
        digits = digits[size + 2 + length :]
    return found


def fields_in(digits):
    """The fields of an INSTALL."""
    fields = []
    while digits:
        length = 2 * int(digits[:2], 16)
        fields.append(digits[2 : 2 + length])
        digits = digits[2 + length :]
    return fields


class Card:
    """What is followed."""

    def __init__(self):
        self.channel = 0
        self.selected = defaultdict(lambda: ISSUER)
        self.domain = {FACTORY_FILE: ISSUER}
        self.delegates = set()
        self.keys = {}
        self.objects = {}
        self.number = 0

    def own(self):
        return self.selected[self.channel]

    def confirmed(self, aids):
        """What an accepted INSTALL, last LOAD or DELETE answers."""
        key = self.keys.get((ISSUER, "71"))
        if self.own() not in self.delegates or key is None:
            return "00"
        self.number += 1
        unique = with_length("".join(self.objects.get((ISSUER, tag), "") for tag in ("42", "45")))
        covered = f"02{self.number:04x}{unique}" + "".join(map(with_length, aids))
        return with_length("10" + cmac(key, bytes.fromhex(covered)) + f"02{self.number:04x}" + unique)

    def install(self, file, aid, privileges):
        self.domain[aid] = self.own()
        if int(privileges[:2], 16) & DELEGATED_MANAGEMENT:
            self.delegates.add(aid)
        return self.confirmed([file, aid])

    def extradite(self, aid, to):
        old = self.domain[aid]
        self.domain[aid] = to
        return self.confirmed([old, aid, to])

    def load(self, file, domain):
        self.domain[file] = self.own() if domain == "-" else domain
        return self.confirmed([file, self.domain[file]])

    def put(self, old, new, keys):
        self.keys.pop((self.own(), old), None)
        self.keys[self.own(), new] = keys[0]
        return new + "".join(map(check_value, keys))

    def send_install(self, number, command):
        """An INSTALL in digits: its token is checked, if it has to have one."""
        p1, body = command[4:6], command[10:]
        *fields, token = fields_in(body)
        before = "".join(map(with_length, fields))
        if self.own() in self.delegates:
            covered = f"{p1}00{with_length(before)}"
            judge(f"line {number}: token", token, cmac(self.keys[ISSUER, "70"], bytes.fromhex(covered)))
        if p1 in ("04", "0c"):
            return self.install(fields[0], fields[2], fields[3])
        if p1 == "08":
            return self.confirmed([fields[2]])
        if p1 == "10":
            return self.extradite(fields[2], fields[0])
        return None

    def accept(self, number, verb, words):
        """Follows a line that was accepted. It answers the data of its reply, where they are computed here."""
        if verb == "select":
            self.selected[self.channel] = words[0] if words else ISSUER
        elif verb == "store":
            self.objects.update({(self.own(), tag): value for tag, value in objects_in(words[0]).items()})
        elif verb == "putkey":
            return self.put(words[0], words[1], words[2:])
        elif verb == "load":
            return self.load(words[0], words[1])
        elif verb == "install":
            return self.install(words[1], words[3], words[4])
        elif verb == "selectable":
            return self.confirmed([words[0]])
        elif verb == "extradite":
            return self.extradite(*words)
        elif verb == "delete":
            return self.confirmed([words[0]])
        elif verb == "send" and words[0].startswith("80e6"):
            return self.send_install(number, words[0])
        return None

    def silent(self, verb, words):
        if verb == "channel":
            self.channel = int(words[0])
        elif verb == "reset":
            self.channel = 0
            self.selected.clear()


def main(script, text):
    card = Card()
    printed = iter(text)
    for number, line in enumerate(script, 1):
        if line.startswith("#") or not line.strip():
            continue
        quiet = line.startswith("- ")
        verb, *words = line.removeprefix("- ").lower().split(" ")
        if verb in SILENT:
            card.silent(verb, words)
        elif verb != "want":
            reply = next(printed, "nothing")
            if reply.endswith("9000"):
                computed = card.accept(number, verb, words)
                if computed is not None and not quiet:
                    judge(f"line {number}: {verb}", reply, computed + "9000")
    judge("lines left", list(printed), [])
    print(f"{passed} passed, {failed} failed")
    return failed > 0


if __name__ == "__main__":
    if len(sys.argv) != 3:
        sys.exit(__doc__)
    sys.exit(main(*(Path(file).read_text().splitlines() for file in sys.argv[1:])))
