"""A stand-in for pyscard's module of this name, for tests/card.py: one reader with a card in it, or what the environment says.

PCSC_CARD has the words that run the card, which takes and gives lines as `gp run`. PCSC_KIND is a word:

    t1, t0          a card that speaks this protocol
    stopped         pcscd does not run
    bare            pcscd has no reader
    empty           there is no card in the reader
    taken           another program has the card
    out N           the card is taken out before its command N, counted from 0
    gone N          the reader goes away before it
    deaf N          the card does not answer it
    down N          the reset N fails, the one at the beginning counted as 0
"""
import os
import shlex
import subprocess

SCARD_S_SUCCESS, SCARD_SCOPE_USER, SCARD_SHARE_EXCLUSIVE, SCARD_UNPOWER_CARD = 0, 0, 1, 2
SCARD_PROTOCOL_T0, SCARD_PROTOCOL_T1, SCARD_PCI_T0, SCARD_PCI_T1 = 1, 2, 11, 12
SCARD_STATE_UNAWARE, SCARD_STATE_PRESENT, SCARD_STATE_EMPTY = 0, 0x20, 0x10
SCARD_E_NO_SERVICE, SCARD_E_SERVICE_STOPPED, SCARD_E_NO_READERS_AVAILABLE, SCARD_E_NO_SMARTCARD = 101, 102, 103, 104
SCARD_E_READER_UNAVAILABLE, SCARD_E_UNKNOWN_READER, SCARD_E_SHARING_VIOLATION, SCARD_E_NOT_TRANSACTED = 105, 106, 107, 108
SCARD_W_REMOVED_CARD, SCARD_W_UNRESPONSIVE_CARD = 109, 110

NAME = "Stand-in 00 00"
KIND, *NUMBERS = os.environ["PCSC_KIND"].split()
AT = int(NUMBERS[0]) if NUMBERS else -1


class Card:
    def __init__(self):
        self.process = subprocess.Popen(shlex.split(os.environ["PCSC_CARD"]), stdin=subprocess.PIPE, stdout=subprocess.PIPE)
        self.commands = self.resets = 0

    def give(self, line):
        self.process.stdin.write(line.encode() + b"\n")
        self.process.stdin.flush()

    def reset(self):
        self.give("reset")

    def ask(self, command):
        self.give(command.hex())
        return bytes.fromhex(self.process.stdout.readline().decode())


card = None


def SCardGetErrorMessage(result):
    return f"error {result}"


def SCardEstablishContext(_scope):
    return (SCARD_E_NO_SERVICE if KIND == "stopped" else SCARD_S_SUCCESS), 1


def SCardListReaders(_context, _groups):
    return (SCARD_E_NO_READERS_AVAILABLE, []) if KIND == "bare" else (SCARD_S_SUCCESS, [NAME])


def has_card():
    return KIND != "empty" and not (KIND == "out" and card is not None and card.commands >= AT)


def SCardGetStatusChange(_context, _timeout, states):
    state, atr = (SCARD_STATE_PRESENT, [0x3B, 0x00]) if has_card() else (SCARD_STATE_EMPTY, [])
    return SCARD_S_SUCCESS, [(states[0][0], state, atr)]


def SCardConnect(_context, _name, _mode, _protocols):
    global card
    refused = {"empty": SCARD_E_NO_SMARTCARD, "taken": SCARD_E_SHARING_VIOLATION}.get(KIND)
    if refused:
        return refused, 0, 0
    card = Card()
    return SCARD_S_SUCCESS, 1, protocol()


def protocol():
    return SCARD_PROTOCOL_T0 if KIND == "t0" else SCARD_PROTOCOL_T1


def SCardReconnect(_handle, _mode, _protocols, disposition):
    assert disposition == SCARD_UNPOWER_CARD
    card.resets += 1
    if KIND == "down" and card.resets > AT:
        return SCARD_E_NOT_TRANSACTED, 0
    card.reset()
    return SCARD_S_SUCCESS, protocol()


def SCardTransmit(_handle, header, command):
    failing = {"out": SCARD_W_REMOVED_CARD, "gone": SCARD_E_READER_UNAVAILABLE, "deaf": SCARD_E_NOT_TRANSACTED}.get(KIND)
    if failing and card.commands >= AT:
        return failing, []
    card.commands += 1
    assert header == (SCARD_PCI_T0 if KIND == "t0" else SCARD_PCI_T1)
    return SCARD_S_SUCCESS, list(card.ask(bytes(command)))


def SCardDisconnect(_handle, disposition):
    assert disposition == SCARD_UNPOWER_CARD
    card.process.stdin.close()
    card.process.wait()
    return SCARD_S_SUCCESS
