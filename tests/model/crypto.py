"""AES, CMAC and SCP03: both ends of a session use this room.

FIPS 197, SP 800-38A (CBC), SP 800-38B (CMAC), SP 800-108 as SCP03 uses it (Amendment D, 4.1.5 and 6.2).
"""

from dataclasses import dataclass
from functools import lru_cache

from cryptography.hazmat.primitives.ciphers import Cipher, algorithms, modes

BLOCK = 16
ZEROS = bytes(BLOCK)
ALL_NUMBERS = (1 << 128) - 1

# Derivation constants of SCP03.
CARD_CRYPTOGRAM, HOST_CRYPTOGRAM, CARD_CHALLENGE, S_ENC, S_MAC, S_RMAC = 0x00, 0x01, 0x02, 0x04, 0x06, 0x07

# The bits of a security level.
C_MAC, C_DECRYPTION, R_MAC, R_ENCRYPTION = 0x01, 0x02, 0x10, 0x20
LEVELS = (0x01, 0x03, 0x11, 0x13, 0x33)


def aes_ecb(key: bytes, block: bytes) -> bytes:
    """One block under AES, or some blocks, each for itself."""
    return Cipher(algorithms.AES(key), modes.ECB()).encryptor().update(block)


def cbc_encrypt(key: bytes, iv: bytes, data: bytes) -> bytes:
    return Cipher(algorithms.AES(key), modes.CBC(iv)).encryptor().update(data)


def cbc_decrypt(key: bytes, iv: bytes, data: bytes) -> bytes:
    return Cipher(algorithms.AES(key), modes.CBC(iv)).decryptor().update(data)


@lru_cache(maxsize=256)
def _subkeys(key: bytes) -> tuple[int, int]:
    def double(value: int) -> int:
        return (value << 1) & ALL_NUMBERS ^ (0x87 if value >> 127 else 0)
    first = double(int.from_bytes(aes_ecb(key, ZEROS), "big"))
    return first, double(first)


def cmac(key: bytes, message: bytes) -> bytes:
    """The whole CMAC, 16 bytes: the last block of CBC over the message with its last block masked."""
    first, second = _subkeys(key)
    cut = max(0, (len(message) - 1) // BLOCK * BLOCK)
    last = message[cut:]
    if len(last) == BLOCK:
        masked = int.from_bytes(last, "big") ^ first
    else:
        masked = int.from_bytes(pad(last), "big") ^ second
    return cbc_encrypt(key, ZEROS, message[:cut] + masked.to_bytes(BLOCK, "big"))[-BLOCK:]


def derive(key: bytes, constant: int, bits: int, context: bytes) -> bytes:
    """The key derivation of SCP03: eleven 00 and the constant, 00, how many bits, a counter from 1 on, the context."""
    label = bytes(11) + bytes((constant, 0)) + bits.to_bytes(2, "big")
    derived = b""
    for number in range(1, -(-bits // 128) + 1):
        derived += cmac(key, label + bytes((number,)) + context)
    return derived[:bits // 8]


def pad(data: bytes) -> bytes:
    """80, and 00 up to the end of a block."""
    return data + b"\x80" + bytes(-(len(data) + 1) % BLOCK)


def unpad(data: bytes) -> bytes | None:
    """What was padded, or None where the last block has no such padding."""
    plain = data.rstrip(b"\x00")
    if not plain.endswith(b"\x80") or len(data) % BLOCK or len(data) - len(plain) >= BLOCK:
        return None
    return plain[:-1]


def key_check_value(key: bytes) -> bytes:
    return aes_ecb(key, b"\x01" * BLOCK)[:3]


def card_challenge(key_enc: bytes, counter: int, aid: bytes) -> bytes:
    """The pseudo-random card challenge: from Key-ENC, the sequence counter and the AID that is selected."""
    return derive(key_enc, CARD_CHALLENGE, 64, counter.to_bytes(3, "big") + aid)


@dataclass(slots=True)
class SessionKeys:
    """What the static keys and both challenges give: three session keys, which are made when they are asked for."""

    static_enc: bytes
    static_mac: bytes
    static_dek: bytes
    context: bytes
    _made: dict[int, bytes]

    def _session_key(self, static: bytes, constant: int) -> bytes:
        key = self._made.get(constant)
        if key is None:
            key = self._made[constant] = derive(static, constant, 8 * len(static), self.context)
        return key

    @property
    def enc(self) -> bytes:
        return self._session_key(self.static_enc, S_ENC)

    @property
    def mac(self) -> bytes:
        return self._session_key(self.static_mac, S_MAC)

    @property
    def rmac(self) -> bytes:
        return self._session_key(self.static_mac, S_RMAC)

    def card_cryptogram(self) -> bytes:
        return derive(self.mac, CARD_CRYPTOGRAM, 64, self.context)

    def host_cryptogram(self) -> bytes:
        return derive(self.mac, HOST_CRYPTOGRAM, 64, self.context)


def session_keys(enc: bytes, mac: bytes, dek: bytes, host_challenge: bytes, challenge: bytes) -> SessionKeys:
    return SessionKeys(enc, mac, dek, host_challenge + challenge, {})


def chain(keys: SessionKeys, chaining: bytes, header: bytes, sent: bytes) -> bytes:
    """The next MAC chaining value: of a command whose header is four bytes, and whose Lc counts the C-MAC."""
    return cmac(keys.mac, chaining + bytes((header[0] & 0xFC,)) + header[1:4] + bytes((len(sent) + 8,)) + sent)


def reply_mac(keys: SessionKeys, chaining: bytes, data: bytes, status: bytes) -> bytes:
    return cmac(keys.rmac, chaining + data + status)[:8]


def command_icv(keys: SessionKeys, number: int) -> bytes:
    return aes_ecb(keys.enc, (number & ALL_NUMBERS).to_bytes(BLOCK, "big"))


def reply_icv(keys: SessionKeys, number: int) -> bytes:
    return aes_ecb(keys.enc, b"\x80" + (number & ALL_NUMBERS).to_bytes(BLOCK, "big")[1:])


def is_warning_or_fine(status: bytes) -> bool:
    """Whether a reply with this status has an R-MAC: 9000, 62xx and 63xx."""
    return status == b"\x90\x00" or status[0] in (0x62, 0x63)
