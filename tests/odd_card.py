#!/usr/bin/env python3
"""A card with a fault or a manner of its own, for tests/card.py: it takes and gives lines as `gp run` does.

    odd_card.py out N FOLDER WORD...        the card of the words in this folder, until the command N comes, counted from 0
    odd_card.py garbage SEED FOLDER WORD... that card, but of eight replies one is of random bytes, and one has a bit turned
    odd_card.py t0 0 FOLDER WORD...         that card as it speaks at T=0: it keeps data back until they are asked for with the right Le

A command of one byte, by which tools/reader finds out that there is a card, is not counted and is answered as it is."""
import random
import subprocess
import sys


class Card:
    def __init__(self, folder, words):
        self.process = subprocess.Popen(words, cwd=folder, stdin=subprocess.PIPE, stdout=subprocess.PIPE)

    def give(self, line):
        self.process.stdin.write(line.encode() + b"\n")
        self.process.stdin.flush()

    def ask(self, command):
        self.give(command.hex())
        return bytes.fromhex(self.process.stdout.readline().decode())

    def reset(self):
        self.give("reset")

    def end(self):
        self.process.stdin.close()
        self.process.wait()


class Out(Card):
    def __init__(self, number, *card):
        super().__init__(*card)
        self.left = number

    def answer(self, command):
        if self.left == 0:
            raise EOFError
        self.left -= 1
        return self.ask(command)


class Garbage(Card):
    def __init__(self, seed, *card):
        super().__init__(*card)
        self.chance = random.Random(seed)

    def answer(self, command):
        reply = self.ask(command)
        kind = self.chance.randrange(8)
        if kind == 0:
            return self.chance.randbytes(self.chance.choice((0, 1, 2, 10, 32, 34, 100, 256, 258, 259, 300)))
        if kind == 1:
            turned = bytearray(reply)
            turned[self.chance.randrange(len(turned))] ^= 1 << self.chance.randrange(8)
            return bytes(turned)
        return reply


class T0(Card):
    def __init__(self, _, *card):
        super().__init__(*card)
        self.kept = {}

    def reset(self):
        super().reset()
        self.kept = {}

    def answer(self, command):
        """A command has Le or data. What is kept is given to its own command alone, or to GET RESPONSE on its channel."""
        if len(command) > 5:
            return self.answer_data(command)
        reply = self.kept.get(command[:4]) or self.ask(command)
        size = len(reply) - 2
        if size and command[4:] != bytes([size & 0xFF]):
            self.kept = {command[:4]: reply}
            return bytes([0x6C, size & 0xFF])
        self.kept = {}
        return reply

    def answer_data(self, command):
        if len(command) != 5 + command[4]:
            return b"\x67\x00"
        reply = self.ask(command)
        if len(reply) == 2:
            return reply
        self.kept = {bytes([command[0] & 0x03, 0xC0, 0x00, 0x00]): reply}
        # Where their number is odd, the host hears a wrong one.
        return bytes([0x61, len(reply) - 2 & 0xFF if len(reply) % 2 == 0 else 0xFF])


def main(kind, number, *words):
    card = {"out": Out, "garbage": Garbage, "t0": T0}[kind](int(number), words[0], words[1:])
    try:
        for line in sys.stdin:
            line = line.strip()
            if line == "reset":
                card.reset()
            else:
                command = bytes.fromhex(line)
                print((card.answer if len(command) > 1 else card.ask)(command).hex(), flush=True)
    except EOFError:
        pass
    card.end()


main(*sys.argv[1:])
