"""What `gp play` prints: SCRIPTS.md."""
from __future__ import annotations

from typing import BinaryIO

from . import host, script
from .host import CantOpen, Command
from .lines import Write, malformed, read_lines


class Player:
    """A host that plays lines on a card."""

    def __init__(self, card):
        self.card = card
        self.keys = host.FACTORY_KEYS
        self.channel = 0
        self.sessions: dict[int, host.Session] = {}
        self.token = script.no_token
        self.last_status: str | None = None
        self.differed = False

    def play(self, line: script.Line) -> str | None:
        """The line that is printed, if any."""
        if line.verb in script.SENDS_NOTHING:
            return getattr(self, "do_" + line.verb)(*line.words)
        try:
            if line.verb in script.IN_PLAIN:
                return getattr(self, "do_" + line.verb)(*line.words, quiet=line.quiet)
            return self.in_session(line)
        except CantOpen as why:
            return str(why)

    def printed(self, reply: bytes, quiet: bool) -> str:
        """A reply as it is printed; its status is the last one."""
        self.last_status = reply[-2:].hex()
        return self.last_status if quiet else reply.hex()

    def transmit(self, command: bytes) -> bytes:
        reply, _ = self.card.process(command)
        if len(reply) < 2:
            raise CantOpen("short")
        return reply

    # ---- Lines that print nothing, and `want`

    def do_keys(self, *keys: bytes) -> None:
        self.keys = host.Keys(*keys)

    def do_channel(self, number: int) -> None:
        self.channel = number

    def do_reset(self) -> None:
        self.card.reset()
        self.sessions.clear()
        self.channel = 0

    def do_tokenkey(self, key: bytes) -> None:
        self.token = script.token_maker(key)

    def do_badtoken(self, key: bytes) -> None:
        self.token = script.token_maker(key, is_bad=True)

    def do_want(self, status: bytes) -> str | None:
        if status.hex() == self.last_status:
            return None
        self.differed = True
        return f"want {status.hex()} got {self.last_status or 'none'}"

    # ---- In plain

    def do_select(self, aid: bytes = b"", quiet: bool = False) -> str:
        command = bytes([self.channel, 0xA4, 0x04, 0x00]) + (script.with_length(aid) if aid else b"")
        reply = self.transmit(command)
        if reply[-2:] in (host.OK, b"\x62\x83"):
            self.sessions.pop(self.channel, None)
        return self.printed(reply, quiet)

    def do_raw(self, command: bytes, quiet: bool = False) -> str:
        return self.printed(self.transmit(command), quiet)

    def do_open(self, version: int, level: int, challenge: bytes, quiet: bool = False) -> str:
        reply = self.transmit(host.on_channel(host.initialize_update(version, challenge), self.channel))
        data, status = reply[:-2], reply[-2:]
        if status != host.OK:
            return self.printed(status, quiet)
        self.sessions.pop(self.channel, None)
        if len(data) != 32:
            raise CantOpen("short")
        offer = host.Offer(self.keys, challenge, data)
        if not offer.is_right:
            return f"{offer.counter.hex()} cryptogram"
        session, command = offer.answer(level)
        status = self.transmit(host.on_channel(command, self.channel))[-2:]
        if status == host.OK:
            self.sessions[self.channel] = session
        shown = self.printed(status, quiet)
        return shown if quiet else f"{offer.counter.hex()} {shown}"

    # ---- In a session

    def in_session(self, line: script.Line) -> str:
        session = self.sessions.get(self.channel)
        if session is None:
            return "no session"
        means = script.Means(session.keys.static_dek, session.longest, self.token)
        for command in script.COMMANDS[line.verb](means, *line.words):
            if len(command.data) > session.longest:
                return "too long"
            reply = self.protected(session, command, bad=line.verb == "bad")
            if reply[-2:] != host.OK:
                break
        return self.printed(reply, line.quiet)

    def protected(self, session: host.Session, command: Command, bad: bool) -> bytes:
        sent = host.on_channel(session.protect(command), self.channel)
        if bad:
            sent = sent[:-8] + bytes([sent[-8] ^ 1]) + sent[-7:]
        try:
            return session.open_reply(self.transmit(sent))
        except CantOpen:
            del self.sessions[self.channel]
            raise


def play(card, source: BinaryIO, write: Write) -> int:
    player = Player(card)
    for number, text in read_lines(source):
        try:
            line = script.parse(text)
        except script.Wrong:
            raise malformed(number) from None
        shown = player.play(line)
        if shown is not None:
            write(shown)
    return 8 if player.differed else 0
