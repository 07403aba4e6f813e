"""Writes random scripts for `gp play` that reach deep.

An author writes a script line by line and plays each line on the model of a card (tests/model), and so knows what the card keeps by
then. Most lines are such as the card accepts; the others fail a rule. Some scripts begin on a card that was used before, whose
receipt numbers and sequence counters are near their limits."""
from __future__ import annotations

import copy
import hashlib
import random

from model import crypto, host, image, script
from model.card import Card
from model.play import Player
from model.registry import (
    AUTHORIZED_MANAGEMENT, DELEGATED_MANAGEMENT, FACTORY_FILE, FACTORY_MODULE, ISSUER, KEY_DEK, KEY_ENC, KEY_MAC, LAST_COUNTER, LAST_RECEIPT,
    PERSONALIZED,     RECEIPT_GENERATION, RECEIPT_KEY, SECURITY_DOMAIN, TERMINATED, TOKEN_KEY, TOKEN_VERIFICATION, Entry,
)

DOMAINS = [bytes.fromhex(f"d1000000{n:02x}") for n in range(1, 40)] + [bytes.fromhex("d1" + "00" * n) for n in (4, 7, 15)]
APPLICATIONS = [bytes.fromhex(f"a2000000{n:02x}") for n in range(1, 40)] + [bytes.fromhex("a20000000101"), bytes(range(16))]
FILES = [bytes.fromhex(f"f3000000{n:02x}") for n in range(1, 20)] + [bytes.fromhex("f3" * 16)]

LEVELS = ["01", "03", "11", "13", "33"]
TAGS = {"42": (1, 10), "45": (1, 10), "cf": (10, 10), "66": (1, 120), "5f50": (1, 120)}
READ_TAGS = ["0042", "0045", "0066", "00cf", "5f50", "00e0", "00c1", "00c2", "00ce", "ff21", "0000"]
GRANTED = [0x040000, 0x020000, 0x008000, 0x000100, 0x000020, 0x000010]
HELD = [0x100000, 0x080000, AUTHORIZED_MANAGEMENT, TOKEN_VERIFICATION, 0x001000, 0x000800, 0x000400, RECEIPT_GENERATION]
NOBODYS = [0x400000, 0x010000, 0x000200, 0x000040, 0x000001]
SIZES = [1, 2, 200, 230, 238, 239, 240, 247, 255, 256, 257, 512, 700, 1500]
LARGE = [32_766, 32_767, 32_768, 32_769, 40_000]

# How often a line of each kind is written in a session, beside one another.
WEIGHTS = {
    "install": 18, "selectable": 6, "extradite": 8, "load": 6, "load_by_hand": 4, "begin_load": 3, "delete": 12, "put_key": 7, "put_one_key": 4,
    "delete_key": 5, "store": 6, "life": 16, "card_life": 1, "listing": 7, "more": 5, "change_token": 4, "in_plain": 8, "bad": 1,
    "noise": 3, "change_channel": 6, "reopen": 10, "reset": 1, "wrong_check": 1, "bad_padding": 1, "load_and_move": 2,
}


class Author:
    """Writes a script and plays it. `lines` is the script, `printed` what it prints, `log` each command with its reply and rule."""

    def __init__(self, seed: int, start: bytes):
        self.random = random.Random(seed)
        self.lines: list[str] = []
        self.printed: list[str] = []
        self.log: list[tuple[bytes, bytes, str]] = []
        self.card = Card(image.read_image(start), lambda *entry: self.log.append(entry))
        self.player = Player(self.card)
        self.keys = None
        self.token = "none"

    # ---- What is there

    @property
    def registry(self):
        return self.card.registry

    @property
    def selected(self) -> bytes | None:
        channel = self.card.live.channels[self.player.channel]
        return channel.selected if channel.is_open else None

    @property
    def domain(self) -> Entry | None:
        return None if self.selected is None else self.registry.domain(self.selected)

    @property
    def has_session(self) -> bool:
        """Whether host and card have a session on the host's channel. One that the card has dropped is used now and then."""
        number = self.player.channel
        return number in self.player.sessions and (self.card.live.channels[number].session is not None or self.chance(.1))

    def write(self, line: str) -> str | None:
        self.lines.append(line)
        shown = self.player.play(script.parse(line))
        if shown is not None:
            self.printed.append(shown)
        return shown

    # ---- Choices

    def chance(self, share: float) -> bool:
        return self.random.random() < share

    def pick(self, things):
        return self.random.choice(list(things))

    def bytes(self, least: int, most: int) -> bytes:
        return self.random.randbytes(self.random.randint(least, most))

    def some_domain(self) -> bytes:
        return self.pick(aid for aid, entry in self.registry.entries.items() if entry.is_domain)

    def some_entry(self) -> bytes:
        return self.pick(self.registry.entries) if self.chance(.92) else self.pick(DOMAINS + APPLICATIONS + FILES)

    def some_file(self) -> bytes:
        """An Executable Load File, most often another than the factory's."""
        others = [aid for aid in self.registry.files if aid != FACTORY_FILE]
        return self.pick(others) if others and self.chance(.92) else self.pick(list(self.registry.files) + FILES)

    def below(self, aid: bytes) -> list[bytes]:
        return [other for other in self.registry.entries if self.registry.is_below(other, aid)]

    def thing_in_charge(self) -> bytes:
        """A thing that the selected domain is in charge of, if there is one; now and then any."""
        things = [*self.registry.entries.values(), *self.registry.files.values()]
        if self.domain is not None and self.chance(.85):
            own = [thing.aid for thing in things if self.registry.is_in_charge(self.domain.aid, thing)]
            if own:
                return self.pick(own)
        return self.pick(things).aid if self.chance(.9) else self.pick(DOMAINS + APPLICATIONS + FILES)

    def entry_in_charge(self, wants=lambda entry: True) -> bytes:
        """An entry as is wanted that is below the selected domain, or the domain itself; now and then any."""
        if self.domain is not None and self.chance(.9):
            own = [aid for aid in self.below(self.domain.aid) + [self.domain.aid] if wants(self.registry.entries[aid])]
            if own:
                return self.pick(own)
        return self.some_entry()

    # ---- Sessions

    def to_channel(self, number: int) -> None:
        self.write(f"channel {number}")
        for _ in range(3):
            if self.selected is None:
                self.write("raw 0070000000")

    def keys_of(self, owner: bytes, version: int) -> tuple[bytes, ...]:
        return tuple(self.registry.keys[owner, version, identifier].value for identifier in (KEY_ENC, KEY_MAC, KEY_DEK))

    def use_keys(self, keys: tuple[bytes, ...]) -> None:
        if keys != self.keys:
            self.keys = keys
            self.write("keys " + " ".join(key.hex() for key in keys))

    def open(self, level: str | None = None) -> None:
        """Opens a session of the selected domain, most often with the right keys."""
        owner = None if self.domain is None else self.registry.whose_sets(self.domain.aid)
        versions = [] if owner is None else self.registry.key_sets(owner)
        version = self.pick(versions) if versions and self.chance(.97) else self.random.randrange(256)
        asked = version if self.chance(.8) else 0
        if versions:
            found = min(versions) if asked == 0 else asked
            if found in versions and self.chance(.97):
                self.use_keys(self.keys_of(owner, found))
        self.write(f"open {asked:02x} {level or self.pick(LEVELS)} {self.random.randbytes(8).hex()}")

    def reopen(self) -> None:
        if self.chance(.3):
            self.to_channel(self.random.randrange(4))
        if self.chance(.85):
            self.write("select " + (self.some_domain() if self.chance(.9) else self.some_entry()).hex())
        self.open()

    def in_session_of(self, aid: bytes, level: str = "01") -> None:
        self.write("- select " + aid.hex())
        self.open(level)

    def change_channel(self) -> None:
        self.to_channel(self.random.randrange(4))

    def right_token(self) -> str:
        verifier = None if self.domain is None else self.registry.verifier(self.domain.aid)
        return "none" if verifier is None else self.registry.keys[verifier.aid, TOKEN_KEY, 1].value.hex()

    def use_token(self) -> None:
        """Tokens under the key of the domain that verifies them."""
        wanted = self.right_token()
        if wanted != self.token and self.chance(.3 if self.token == "bad" else .9):
            self.token = wanted
            self.write("tokenkey " + wanted)

    # ---- Lines in a session

    def privileges(self, is_domain: bool) -> str:
        own = self.domain.privileges if self.domain is not None else 0
        bits = SECURITY_DOMAIN if is_domain else 0
        bits |= sum(bit for bit in GRANTED if self.chance(.1))
        bits |= sum(bit for bit in HELD if own & bit and self.chance(.3) and (is_domain or bit < 0x2000 or bit > 0x4000))
        if is_domain and not bits & AUTHORIZED_MANAGEMENT and self.chance(.5):
            bits |= DELEGATED_MANAGEMENT
        if self.chance(.06):
            bits ^= self.pick(GRANTED + HELD + NOBODYS + [SECURITY_DOMAIN, DELEGATED_MANAGEMENT])
        short = bits & 0xFFFF == 0 and self.chance(.7)
        return f"{bits >> 16:02x}" if short else f"{bits:06x}"

    def parameters(self) -> str:
        if self.chance(.9):
            return self.pick(["c900", "c9021234", "ef04c8020100c900", "c90100ef00"])
        return self.pick(["-", "c9", "c90112ff", "c98101ff", "5f5001aa", "ea02", self.bytes(1, 127).hex()])

    def install(self) -> None:
        self.use_token()
        is_domain = self.chance(.5)
        file, module = (FACTORY_FILE, FACTORY_MODULE) if is_domain else (self.some_file(), self.pick(APPLICATIONS))
        new = self.pick(DOMAINS if is_domain else APPLICATIONS) if self.chance(.97) else self.some_entry()
        p1 = self.pick(["04", "0c", "0c", "0c"])
        self.write(f"install {p1} {file.hex()} {module.hex()} {new.hex()} {self.privileges(is_domain)} {self.parameters()}")

    def selectable(self) -> None:
        self.use_token()
        aid = self.entry_in_charge(lambda entry: entry.state == 0x03)
        if self.chance(.7):
            return void(self.write("selectable " + aid.hex()))
        given = self.pick([b"\x00", b"\x80", bytes(3), b"\x80\x00\x00"])
        self.send("e6", "08", "00", b"".join(map(with_length, [b"", b"", aid, given, b"", b""])))

    def extradite(self) -> None:
        self.use_token()
        to = self.entry_in_charge(lambda entry: entry.state == PERSONALIZED) if self.chance(.8) else self.some_domain()
        thing = self.thing_in_charge()
        self.write(f"extradite {thing.hex()} {(thing if self.chance(.06) else to).hex()}")

    def size(self) -> int:
        return self.pick(SIZES) if self.chance(.97) else self.pick(LARGE)

    def load(self) -> None:
        self.use_token()
        file = self.pick(FILES) if self.chance(.97) else self.thing_in_charge()
        to = "-" if self.chance(.5) else self.entry_in_charge(lambda entry: entry.is_domain).hex()
        size = self.size()
        content = f"fill {size} {self.random.randrange(256):02x}" if size > 200 else self.bytes(size, size).hex()
        self.write(f"load {file.hex()} {to} {self.pick(['none', 'sha1', 'sha256'])} {content}")

    def begin_load(self) -> None:
        """A load session that goes on while other lines come, on this channel or on another one."""
        fields = [self.pick(FILES), b"", b"", b"", b""]
        self.send("e6", "02", "00", b"".join(map(with_length, fields)))
        self.to_channel(self.random.randrange(4))

    def load_by_hand(self) -> None:
        """A load session by single commands, where some are left out, come twice or are cut."""
        file, content = self.pick(FILES), self.bytes(1, 600)
        hash_field = self.pick([b"", self.random.randbytes(20), self.random.randbytes(32)]) if self.chance(.3) else b""
        fields = [file, b"" if self.chance(.6) else self.some_domain(), hash_field, b"", b""]
        self.send("e6", "02", "00", b"".join(with_length(part) for part in fields))
        whole = self.pick([b"\xc4"] * 20 + [b"\xc5"]) + element_length(len(content) + (self.chance(.05))) + content
        blocks = [whole[at:at + 200] for at in range(0, len(whole), 200)]
        for number, block in enumerate(blocks):
            if self.chance(.05):
                self.anything()
            if self.chance(.04):
                number = self.random.randrange(256)
            last = number == len(blocks) - 1
            self.send("e8", "80" if last != self.chance(.03) else "00", f"{number:02x}", block)

    def delete(self) -> None:
        self.use_token()
        self.write(f"delete {self.thing_in_charge().hex()} {self.pick(['00', '00', '80']) if self.chance(.98) else '40'}")

    def own_versions(self) -> list[int]:
        return [] if self.domain is None else self.registry.versions(self.domain.aid)

    def put_key(self) -> None:
        sets = [version for version in self.own_versions() if version < TOKEN_KEY]
        old = self.pick(sets) if sets and self.chance(.4) else 0
        new = old if old and self.chance(.6) else self.random.randint(1, 0x6F)
        if self.chance(.05):
            old, new = self.random.randrange(256), self.random.randrange(256)
        size = self.pick([16, 16, 24, 32])
        keys = " ".join(self.random.randbytes(size).hex() for _ in range(3))
        self.write(f"putkey {old:02x} {new:02x} {keys}")

    def put_one_key(self) -> None:
        new = self.pick([TOKEN_KEY, RECEIPT_KEY])
        old = new if new in self.own_versions() and self.chance(.9) else 0
        self.write(f"putkey {old:02x} {new:02x} {self.random.randbytes(self.pick([16, 24, 32])).hex()}")

    def delete_key(self) -> None:
        versions = self.own_versions()
        version = self.pick(versions) if versions and self.chance(.9) else self.random.randrange(256)
        data = bytes([0xD2, 1, version])
        if self.chance(.3):
            part = bytes([0xD0, 1, self.random.randrange(4)])
            data = data + part if self.chance(.5) else part + data
        self.send("e4", "00", self.pick(["00", "00", "80"]), data)

    def element(self) -> bytes:
        tag = self.pick(TAGS)
        least, most = TAGS[tag]
        value = self.bytes(least, most) if self.chance(.9) else self.bytes(0, 125)
        return bytes.fromhex(tag) + element_length(len(value)) + value

    def store(self) -> None:
        elements = b"".join(self.element() for _ in range(self.pick([1, 1, 1, 2, 3])))
        if self.chance(.7):
            self.write("store " + elements[:247].hex())
        else:
            self.send("e2", self.pick(["00", "80", "10", "90", "08"]), f"{self.random.randrange(256):02x}", elements)

    def life(self) -> None:
        p1 = self.pick(["40", "40", "60"])
        state = self.pick(["07", "0f", "0f", "80", "87", "8f", "00", "03"]) if self.chance(.95) else f"{self.random.randrange(256):02x}"
        aid = self.entry_in_charge(lambda entry: entry.is_domain or state != "0f")
        self.write(f"life {p1} {state} {aid.hex()}")

    def card_life(self) -> None:
        state = self.pick(["07", "0f", "7f", "0f", "07"]) if self.chance(.97) else "ff"
        self.write(f"life 80 {state}")

    def listing(self) -> None:
        partial = self.some_entry()[:self.random.randint(1, 6)] if self.chance(.5) else b""
        kind = self.pick(["80", "40", "20", "10"])
        if self.chance(.8):
            self.write(f"list {kind}" + (f" {partial.hex()}" if len(partial) else ""))
        else:
            wanted = self.pick([b"", b"\x5c\x01\x4f", b"\x5c\x03\x4f\x9f\x70", b"\x5c"])
            self.send("f2", kind, self.pick(["02", "03", "02", "00"]), b"\x4f" + bytes([len(partial)]) + partial + wanted)

    def more(self) -> None:
        kind = self.pick(["40", "40", "20", "10"])
        self.write(f"list {kind}")
        for _ in range(self.random.randint(1, 6)):
            if self.write(f"more {kind}") is None or self.chance(.1):
                break

    def change_token(self) -> None:
        words = [f"tokenkey {self.right_token()}", "tokenkey none", f"tokenkey {self.random.randbytes(16).hex()}"]
        if self.right_token() != "none":
            words += [f"badtoken {self.right_token()}", words[0], words[0]]
        word = self.pick(words)
        self.token = word.split()[1] if word.startswith("tokenkey") else "bad"
        self.write(word)

    def send(self, ins: str, p1: str, p2: str, data: bytes) -> None:
        data = data[:247]
        body = f"{len(data):02x}{data.hex()}" if data else ""
        self.write(f"send 80{ins}{p1}{p2}{body}{self.pick(['', '', '00'])}")

    def wrong_check(self) -> None:
        """PUT KEY of a token key whose check value is not that of the key."""
        dek = self.player.sessions[self.player.channel].keys.static_dek
        field = host.key_field(self.random.randbytes(16), dek)
        self.send("d8", "00", "01", bytes([TOKEN_KEY]) + field[:-1] + bytes([field[-1] ^ 1]))

    def bad_padding(self) -> None:
        """A command of the session whose C-MAC is right, and whose data field can't be deciphered."""
        session = copy.copy(self.player.sessions[self.player.channel])
        sent = session.sign(host.Command(0xE2, 0x90, 0x00), self.random.randbytes(self.pick([16, 32, 15])))
        self.write(f"raw {host.on_channel(sent, self.player.channel).hex()}")

    def load_and_move(self) -> None:
        """A file is loaded for a domain below, which moves away before the last block comes."""
        below = [aid for aid in (self.below(self.domain.aid) if self.domain else []) if self.registry.entries[aid].is_domain]
        if not below:
            return self.load()
        self.use_token()
        moving, file, here, keys = self.pick(below), self.pick(FILES), self.player.channel, self.keys
        signed = b"".join(map(with_length, [file, moving, hashlib.sha1(b"\x01\x02\x03").digest(), b""]))
        token = b"" if self.token in ("none", "bad") else script.token_under(bytes.fromhex(self.token), 0x02, 0x00, signed)
        self.send("e6", "02", "00", signed + with_length(token))
        self.send("e8", "00", "00", b"\xc4\x03\x01")
        self.to_channel((here + 1) % 4)
        self.in_session_of(self.pick([ISSUER, self.registry.entries[moving].domain]))
        if self.has_session:
            self.write(f"extradite {moving.hex()} {moving.hex()}")
        self.to_channel(here)
        if keys is not None:
            self.use_keys(keys)
        if here in self.player.sessions:
            self.send("e8", "80", "01", b"\x02\x03")

    def bad(self) -> None:
        self.write("bad 80ca00e0")

    def noise(self) -> None:
        ins = self.pick(["d8", "e2", "e4", "e6", "e8", "f0", "f2", "ca", "50", "82", "a4", "70", "ff"])
        self.send(ins, f"{self.random.randrange(256):02x}", f"{self.random.randrange(256):02x}", self.bytes(0, 60))

    def reset(self) -> None:
        self.write("reset")

    # ---- Lines in plain

    def in_plain(self) -> None:
        kinds = [self.select, self.get_data, self.manage_channel, self.raw_noise, self.authenticate, self.wrong_mac]
        self.random.choices(kinds, [4, 4, 2, 2, 2, 1])[0]()

    def select(self) -> None:
        if self.chance(.1):
            return void(self.write("select"))
        aid = self.some_entry()
        if self.chance(.3):
            number = self.player.channel if self.chance(.5) else self.random.randrange(4)
            part = aid[:self.random.randint(0, len(aid))]
            self.write(f"raw 0{number}a40400{len(part):02x}{part.hex()}" if part else f"raw 0{number}a40400")
        else:
            self.write("select " + aid.hex())

    def get_data(self) -> None:
        number = self.player.channel if self.chance(.7) else self.random.randrange(4)
        self.write(f"raw {self.pick('08')}{number}ca{self.pick(READ_TAGS)}{self.pick(['', '00'])}")

    def manage_channel(self) -> None:
        number = self.random.randrange(4)
        self.write(self.pick([f"raw 0{number}700000", f"raw 0{number}7080{self.random.randrange(5):02x}"]))

    def authenticate(self) -> None:
        number = self.random.randrange(4)
        first = f"raw 8{number}5000000008{self.random.randbytes(8).hex()}"
        second = f"raw 8{number + 4:x}82{self.pick(LEVELS)}0010{self.random.randbytes(16).hex()}"
        for line in self.pick([[first], [second], [first, second]]):
            self.write(line)

    def wrong_mac(self) -> None:
        """An EXTERNAL AUTHENTICATE with the right cryptogram and a wrong C-MAC, or with both right and another class byte."""
        challenge, number = self.random.randbytes(8), self.player.channel
        reply = bytes.fromhex(self.write("raw " + host.on_channel(host.initialize_update(0, challenge), number).hex()))
        if len(reply) != 34 or self.keys is None:
            return
        _, command = host.Offer(host.Keys(*self.keys), challenge, reply[:-2]).answer(self.random.choice(crypto.LEVELS))
        command = host.on_channel(command, number)
        wrong = command[:-1] + bytes([command[-1] ^ 1])
        self.write(f"raw {(wrong if self.chance(.7) else command).hex()}")

    def raw_noise(self) -> None:
        head = bytes([self.pick([0, 1, 3, 0x80, 0x81, 0x84, 0x87, 0x40, 0xFF]), self.random.randrange(256)])
        self.write("raw " + (head + self.bytes(0, 40)).hex())

    # ---- Scenes

    def anything(self) -> None:
        if self.has_session:
            kind = self.random.choices(list(self.weights), list(self.weights.values()))[0]
            getattr(self, kind)()
        else:
            self.pick([self.reopen, self.reopen, self.reopen, self.in_plain, self.change_channel])()

    def personalise(self, aid: bytes, version: int = 0x20) -> None:
        """Gives a security domain that was just installed keys of its own, and makes it PERSONALIZED."""
        self.in_session_of(aid)
        keys = " ".join(self.random.randbytes(self.size_of_keys).hex() for _ in range(3))
        self.write(f"- putkey 00 {version:02x} {keys}")
        self.write(f"- life 40 0f {aid.hex()}")

    def issuer_keys(self) -> None:
        self.open("01")
        for version in (TOKEN_KEY, RECEIPT_KEY):
            self.write(f"- putkey 00 {version:02x} {self.random.randbytes(self.size_of_keys).hex()}")
        self.write("- store 420301020345080102030405060708")

    def new_domain(self, aid: bytes, privileges: str) -> None:
        self.use_token()
        self.write(f"- install 0c {FACTORY_FILE.hex()} {FACTORY_MODULE.hex()} {aid.hex()} {privileges} c900")

    def forest(self) -> None:
        """Providers with Delegated and with Authorized Management, domains below them, and below these."""
        self.issuer_keys()
        first, second, third, fourth = DOMAINS[:4]
        self.new_domain(first, self.pick(["a0", "a00000", "b8"]))
        self.new_domain(second, self.pick(["80c000", "80fe80", "a00080"]))
        self.personalise(first)
        self.new_domain(third, self.pick(["a0", "80"]))
        self.personalise(third, 0x21)
        self.new_domain(fourth, "80")
        if self.chance(.5):
            self.personalise(fourth, 0x22)
        if self.chance(.4):
            self.in_session_of(ISSUER)
            self.write(f"- extradite {second.hex()} {second.hex()}")
        if self.chance(.3):
            self.in_session_of(ISSUER)
            self.write(f"- life 40 80 {self.pick([first, third]).hex()}")

    def many_entries(self) -> None:
        self.open("01")
        self.write(f"- load {FILES[0].hex()} - none 616263")
        for aid in (DOMAINS + APPLICATIONS)[6:6 + self.random.randint(27, 30)]:
            file, module = (FACTORY_FILE, FACTORY_MODULE) if aid in DOMAINS else (FILES[0], APPLICATIONS[0])
            self.write(f"- install 0c {file.hex()} {module.hex()} {aid.hex()} {'80' if aid in DOMAINS else '00'} c900")

    def many_files(self) -> None:
        """So many Executable Load Files that nearly no slot, or nearly no load page, is left."""
        self.open("01")
        large = self.chance(.4)
        for number, aid in enumerate(FILES[:4 if large else 14]):
            size = 32_768 - (number == 3) * self.random.randrange(1200) if large else self.random.randint(1, 400)
            self.write(f"- load {aid.hex()} - none fill {size} {number:02x}")

    def many_keys(self) -> None:
        self.open("01")
        for aid in DOMAINS[:5]:
            self.new_domain(aid, "80")
            self.in_session_of(aid)
            for version in range(1, self.pick([3, 4, 5])):
                keys = " ".join(self.random.randbytes(16).hex() for _ in range(3))
                self.write(f"- putkey 00 {version:02x} {keys}")
                self.open("01")
            self.in_session_of(ISSUER)

    def many_objects(self) -> None:
        self.open("01")
        for aid in DOMAINS[:5]:
            self.new_domain(aid, "80")
            self.in_session_of(aid)
            for tag, (_, most) in TAGS.items():
                if self.chance(.8):
                    value = self.random.randbytes(most)
                    self.write(f"- store {tag}{len(value):02x}{value.hex()}")
            self.in_session_of(ISSUER)

    def locked_card(self) -> None:
        """A forest on a card that is CARD_LOCKED, with sessions that were open before."""
        self.forest()
        self.to_channel(1)
        self.in_session_of(self.some_domain())
        self.to_channel(0)
        self.in_session_of(ISSUER)
        for state in ("07", "0f", "7f"):
            self.write(f"- life 80 {state}")
        self.weights["card_life"] = 4

    def nothing(self) -> None:
        """The card as it was."""

    def compose(self, count: int) -> None:
        """A scene, and then random lines, `count` lines or a few more."""
        self.weights = dict(WEIGHTS)
        self.size_of_keys = self.pick([16, 16, 24, 32])
        self.weights["card_life"] = self.pick([0, 0, 1, 3])
        for kind in self.random.sample(list(self.weights), 4):
            self.weights[kind] *= 3
        scenes = [self.nothing, self.forest, self.locked_card, self.many_entries, self.many_files, self.many_keys, self.many_objects]
        self.random.choices(scenes, [2, 6, 1, 1, 1, 1, 1])[0]()
        while len(self.lines) < count and (self.registry.card_state != TERMINATED or self.chance(.9)):
            self.anything()


def factory_card() -> bytes:
    return image.write_image(image.factory_registry())


def start_of(seed: int) -> bytes:
    """The card that a script begins with: the factory's, or one that was used, with numbers near their limits."""
    chosen = random.Random(f"start of {seed}")
    if chosen.random() < .6:
        return factory_card()
    author = Author(seed + (1 << 32), factory_card())
    author.compose(150)
    used = author.registry
    for name in used.counters:
        used.counters[name] = chosen.choice([used.counters[name], LAST_COUNTER - 2, LAST_COUNTER])
    for entry in used.entries.values():
        if entry.holds(RECEIPT_GENERATION):
            entry.receipts = chosen.choice([entry.receipts, LAST_RECEIPT - 3, LAST_RECEIPT])
    used.device = image.lay_out(used)
    return image.write_image(used)


def void(_: object) -> None:
    """For a line after which nothing more is to be done."""


def element_length(count: int) -> bytes:
    """The length of a BER-TLV element, as short as it can be."""
    if count < 0x80:
        return bytes([count])
    return bytes([0x81, count]) if count < 0x100 else b"\x82" + count.to_bytes(2)


def with_length(data: bytes) -> bytes:
    return bytes([len(data)]) + data
