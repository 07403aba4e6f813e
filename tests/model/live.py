"""What a card has while it has power: POLICY.md, "The volatile state"."""

from dataclasses import dataclass, field

from . import crypto
from .registry import Entry, Registry
from .rules import Refused


@dataclass(slots=True)
class Offer:
    """What INITIALIZE UPDATE has made, and the host has yet to answer."""

    keys: crypto.SessionKeys


@dataclass(slots=True)
class Session:
    """An offer that was answered, a level, and the messages so far: their chaining value and their number."""

    keys: crypto.SessionKeys
    level: int
    chaining: bytes
    number: int = 0

    def open_command(self, header: bytes, body: bytes) -> bytes:
        """The data field in plain. The message joins the session."""
        sent, mac = body[:-8], body[-8:]
        if len(body) < 8: raise Refused("G7")
        chaining = crypto.chain(self.keys, self.chaining, header, sent)
        if mac != chaining[:8]: raise Refused("G7")
        plain = self._deciphered(sent)
        if plain is None: raise Refused("G8")
        self.chaining, self.number = chaining, self.number + 1
        return plain

    def _deciphered(self, sent: bytes) -> bytes | None:
        if not sent or not self.level & crypto.C_DECRYPTION:
            return sent
        if len(sent) % crypto.BLOCK:
            return None
        icv = crypto.command_icv(self.keys, self.number + 1)
        return crypto.unpad(crypto.cbc_decrypt(self.keys.enc, icv, sent))

    def close_reply(self, data: bytes, status: bytes) -> bytes:
        """The reply to an accepted command, as the level says."""
        if data and self.level & crypto.R_ENCRYPTION:
            data = crypto.cbc_encrypt(self.keys.enc, crypto.reply_icv(self.keys, self.number), crypto.pad(data))
        if self.level & crypto.R_MAC:
            data += crypto.reply_mac(self.keys, self.chaining, data, status)
        return data + status


@dataclass(slots=True)
class Place:
    """Where a listing goes on."""

    p1: int
    asked: bytes
    shown: bytes


@dataclass(slots=True)
class Load:
    """The load session of a card."""

    channel: int
    aid: bytes
    domain: bytes
    hash: bytes
    announced: int | None = None
    content: bytes = b""
    blocks: int = 0
    pages: list[int] = field(default_factory=list)


@dataclass(slots=True)
class Channel:
    number: int
    is_open: bool = False
    selected: bytes = b""
    offer: Offer | None = None
    session: Session | None = None
    place: Place | None = None


@dataclass(slots=True)
class Live:
    """Four logical channels, and the load session."""

    registry: Registry
    channels: list[Channel]
    load: Load | None = None

    def end_load(self, channel: Channel) -> None:
        if self.load is not None and self.load.channel == channel.number:
            self.load = None

    def end_session(self, channel: Channel) -> None:
        """The session ends, and with it the load session."""
        channel.session = None
        self.end_load(channel)

    def select(self, channel: Channel, aid: bytes) -> None:
        """The entry is selected on the channel, which then holds nothing else."""
        self.close(channel)
        channel.is_open, channel.selected = True, aid

    def close(self, channel: Channel) -> None:
        self.end_session(channel)
        channel.is_open, channel.selected, channel.offer, channel.place = False, b"", None, None

    def is_selected(self, aid: bytes) -> bool:
        return any(channel.is_open and channel.selected == aid for channel in self.channels)


@dataclass(slots=True)
class Command:
    """A command that G1 to G8 have let pass, with its data field in plain, and the domain that acts."""

    p1: int
    p2: int
    data: bytes
    channel: Channel
    domain: Entry
    place: Place | None


Answer = tuple[bytes, bytes]
