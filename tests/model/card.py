"""The card: a command passes the stages of POLICY.md, "In stages", and the first rule that fails refuses it."""

from collections.abc import Callable

from .delete import delete
from .image import commit
from .install import install
from .keys import put_key, store_data
from .live import Answer, Channel, Command, Live
from .load import load
from .registry import ISSUER, TERMINATED, Registry
from .rules import Refused
from .plain import get_data, manage_channel, select
from .sessions import external_authenticate, initialize_update
from .status import get_status, set_status

SELECT, MANAGE_CHANNEL, GET_DATA, INITIALIZE_UPDATE, EXTERNAL_AUTHENTICATE = 0xA4, 0x70, 0xCA, 0x50, 0x82
LOAD, PUT_KEY, STORE_DATA, DELETE, INSTALL, SET_STATUS, GET_STATUS = 0xE8, 0xD8, 0xE2, 0xE4, 0xE6, 0xF0, 0xF2

MANAGING = {LOAD, PUT_KEY, STORE_DATA, DELETE, INSTALL, SET_STATUS, GET_STATUS}
# By the class byte without its channel: the instructions that the class has.
CLASSES = {
    0x00: {SELECT, MANAGE_CHANNEL, GET_DATA},
    0x80: {GET_DATA, INITIALIZE_UPDATE} | MANAGING,
    0x84: {GET_DATA, EXTERNAL_AUTHENTICATE} | MANAGING,
}
OF_APPLICATIONS = {SELECT, MANAGE_CHANNEL}

COMMANDS: dict[int, Callable[[Live, Command], Answer]] = {
    SELECT: select, MANAGE_CHANNEL: manage_channel, GET_DATA: get_data, INITIALIZE_UPDATE: initialize_update,
    EXTERNAL_AUTHENTICATE: external_authenticate, LOAD: load, PUT_KEY: put_key, STORE_DATA: store_data, DELETE: delete,
    INSTALL: install, SET_STATUS: set_status, GET_STATUS: get_status,
}

Log = Callable[[bytes, bytes, str], None]


class Card:
    """A card with power. It needs nothing random; `log`, if there is one, is called with command, reply and rule."""

    def __init__(self, registry: Registry, log: Log | None = None):
        self.registry = registry
        self.log = log
        self.reset()

    def reset(self) -> None:
        """Power off and on: channel 0 is open, with the Issuer Security Domain selected, and nothing else is there."""
        self.live = Live(self.registry, [Channel(number) for number in range(4)])
        self.live.select(self.live.channels[0], ISSUER)

    def process(self, command: bytes) -> tuple[bytes, str]:
        """The whole reply, and the name of the rule that refused the command, or an empty one."""
        try:
            reply, rule = self._answer(command), ""
        except Refused as refused:
            reply, rule = refused.status, refused.rule
        if self.registry.staged:
            commit(self.registry)
        if self.log is not None:
            self.log(command, reply, rule)
        return reply, rule

    def _answer(self, command: bytes) -> bytes:
        if not is_short_command(command): raise Refused("G1")
        live, header, ins = self.live, command[:4], command[1]
        group = header[0] & 0xFC
        if group not in CLASSES: raise Refused("G2")
        channel = live.channels[header[0] & 0x03]
        if not channel.is_open: raise Refused("G3")
        if ins not in CLASSES[group]: raise Refused("G4")
        domain = self.registry.entries[channel.selected]
        if not domain.is_domain and ins not in OF_APPLICATIONS: raise Refused("G4")
        place, channel.place = channel.place, None
        if ins != EXTERNAL_AUTHENTICATE:
            channel.offer = None
        if self.registry.card_state == TERMINATED and (ins != GET_DATA or group == 0x84):
            channel.offer = None
            raise Refused("G5")
        body = command[5:5 + command[4]] if len(command) > 5 else b""
        session = None
        if group == 0x84 and ins != EXTERNAL_AUTHENTICATE:
            session = channel.session
            if session is None: raise Refused("G6")
            body = self._opened(channel, header, body)
        elif ins in MANAGING:
            live.end_session(channel)
            raise Refused("G6")
        if ins != LOAD:
            live.end_load(channel)
        data, status = COMMANDS[ins](live, Command(header[2], header[3], body, channel, domain, place))
        return data + status if session is None else session.close_reply(data, status)

    def _opened(self, channel: Channel, header: bytes, body: bytes) -> bytes:
        """The data field in plain. A refusal by G7 or G8 ends the session."""
        try:
            return channel.session.open_command(header, body)
        except Refused:
            self.live.end_session(channel)
            raise


def is_short_command(command: bytes) -> bool:
    """Four bytes; or five, with Le; or Lc and so many bytes, with Le or without."""
    if len(command) < 6:
        return len(command) >= 4
    return command[4] != 0 and len(command) - 5 - command[4] in (0, 1)
