"""Keys of QUIC packets (RFC 9001, RFC 9369), and the secrets of a key log. qpk-capture reads it."""

import hmac
from typing import Dict, Iterable, Iterator, List, NamedTuple, Optional, Tuple

from qpk.libcrypto import AES_128, AES_128_CCM, AES_256, CHACHA20, SAMPLE, Masks, Payloads, Suite, payloads_of

SUITES = {32: (AES_128, CHACHA20, AES_128_CCM), 48: (AES_256,)}  # by the length of a secret
SHORTEST = 4 + SAMPLE  # bytes of a packet from its number on
MOST_SECRETS = 1 << 16  # connections of a key log that are kept; the others are left out
LONGEST_SECRET = 64  # bytes
UPPER_PARTS = {1: 256, 2: 16, 3: 2, 4: 1}  # of a packet number that are tried where none is known, by the bytes written
AHEAD = 1  # generations of keys, after the newest that opened a packet, that are tried


class Version(NamedTuple):
    """A version of QUIC: what its keys are made with, and the types of its long headers."""

    number: int
    salt: bytes
    prefix: bytes  # of the labels
    types: Tuple[str, str, str, str]  # by the two bits of the first byte


INITIAL, EARLY, HANDSHAKE, RETRY = "initial", "early", "handshake", "retry"
VERSION_1 = Version(1, bytes.fromhex("38762cf7f55934b34d179ae6a4c80cadccbb7f0a"), b"quic", (INITIAL, EARLY, HANDSHAKE, RETRY))
VERSION_2 = Version(
    0x6B3343CF, bytes.fromhex("0dede3def700a6db819381be6e269dcbf9bd2ed9"), b"quicv2", (RETRY, INITIAL, EARLY, HANDSHAKE)
)
VERSIONS = {it.number: it for it in (VERSION_1, VERSION_2)}


# ---- Secrets


def expand(secret: bytes, label: bytes, size: int, digest: str) -> bytes:
    """Returns HKDF-Expand-Label of a secret, without a context (RFC 8446, section 7.1)."""
    info = size.to_bytes(2, "big") + bytes([6 + len(label)]) + b"tls13 " + label + b"\0"
    out, block = b"", b""
    for number in range(1, 256):
        if len(out) >= size:
            break
        block = hmac.new(secret, block + info + bytes([number]), digest).digest()
        out += block
    return out[:size]


def initial_secrets(version: Version, target: bytes) -> Dict[str, bytes]:
    """Returns the secrets of Initial packets, by the marks of their senders (RFC 9001, section 5.2).

    They are made of the connection ID that the client chose for the server.
    """
    secret = hmac.new(version.salt, target, "sha256").digest()
    return {">": expand(secret, b"client in", 32, "sha256"), "<": expand(secret, b"server in", 32, "sha256")}


class KeyLog:
    """The secrets of connections, by their client's random, as SSLKEYLOGFILE names them."""

    NAMES = {">": "CLIENT_TRAFFIC_SECRET_0", "<": "SERVER_TRAFFIC_SECRET_0", EARLY: "CLIENT_EARLY_TRAFFIC_SECRET"}

    def __init__(self) -> None:
        self.secrets: Dict[str, Dict[str, bytes]] = {}
        self.lines = 0  # that are of a key log

    def learn(self, text: str) -> None:
        """Takes the lines of a key log. Other lines are skipped."""
        for line in text.splitlines():
            words = line.split()
            if len(words) == 3 and not line.startswith("#"):
                self.learn_line(*words)

    def learn_line(self, name: str, random: str, digits: str) -> None:
        """Takes a line of a key log."""
        try:
            bytes.fromhex(random)
            secret = bytes.fromhex(digits)
        except ValueError:
            return
        self.lines += 1
        if name in self.NAMES.values() and len(secret) <= LONGEST_SECRET:
            random = random.lower()
            if random in self.secrets or len(self.secrets) < MOST_SECRETS:
                self.secrets.setdefault(random, {})[name] = secret

    def secret_of(self, random: str, which: str) -> Optional[bytes]:
        """Returns a secret of a connection: that of an end by its mark, or that of early data."""
        return self.secrets.get(random, {}).get(self.NAMES[which])


# ---- Packets


class Opened(NamedTuple):
    """A packet that a key opened: its number, its payload, and where it ended."""

    number: int
    payload: bytes
    end: int


class Header(NamedTuple):
    """A header without its mask, and its packet number as it was written."""

    first: int
    size: int
    number: int
    head: bytes


def whole_number(written: int, size: int, largest: int) -> int:
    """Returns a packet number of which the last bytes were written (RFC 9000, appendix A.3)."""
    window = 1 << (8 * size)
    expected = largest + 1
    number = (expected & ~(window - 1)) | written
    if number <= expected - window // 2 and number < (1 << 62) - window:
        return number + window
    if number > expected + window // 2 and number >= window:
        return number - window
    return number


class Keys:
    """The keys of packets of one direction, and the numbers of those that they opened."""

    def __init__(self, secret: bytes, suite: Suite, version: Version) -> None:
        self.suite, self.version = suite, version
        self.masks = Masks(suite, self.derive(secret, b" hp", suite.size))
        self.largest = -1
        self.generation = 0  # of the newest keys that opened a packet (RFC 9001, section 6)
        self.newest_secret = secret  # of the last of these
        self.payloads: List[Optional[Payloads]] = [self.payloads_of(secret)]

    def derive(self, secret: bytes, label: bytes, size: int) -> bytes:
        """Returns what a secret gives for a label of this version."""
        return expand(secret, self.version.prefix + label, size, self.suite.digest)

    def payloads_of(self, secret: bytes) -> Payloads:
        """Returns what opens payloads by the keys of a secret."""
        return payloads_of(self.suite, self.derive(secret, b" key", self.suite.size), self.derive(secret, b" iv", 12))

    def at_generation(self, number: int) -> Optional[Payloads]:
        """Returns what opens payloads of a generation. Each is made of the one before it; old ones are left out."""
        while len(self.payloads) <= number:
            self.newest_secret = self.derive(self.newest_secret, b" ku", len(self.newest_secret))
            self.payloads.append(self.payloads_of(self.newest_secret))
        return self.payloads[number] if number >= 0 else None

    def unmask(self, packet: bytes, begin: int, at: int) -> Optional[Header]:
        """Returns the header of a packet that begins at an offset, and whose packet number begins at another."""
        if len(packet) < at + SHORTEST:
            return None
        mask = self.masks.of(packet[at + 4 : at + SHORTEST])
        first = packet[begin] ^ (mask[0] & (0x0F if packet[begin] & 0x80 else 0x1F))
        size = (first & 3) + 1
        number = int.from_bytes(packet[at : at + size], "big") ^ int.from_bytes(mask[1 : 1 + size], "big")
        head = bytes([first]) + packet[begin + 1 : at] + number.to_bytes(size, "big")
        return Header(first, size, number, head)

    def generations(self, header: Header) -> Tuple[int, ...]:
        """Returns the generations of keys that may open a packet, by its key phase bit (RFC 9001, section 6.3)."""
        if header.first & 0x80 or (header.first >> 2 & 1) == self.generation & 1:
            return (self.generation,)
        return (self.generation + AHEAD, self.generation - 1)

    def open(self, packet: bytes, begin: int, at: int, ends: Iterable[int]) -> Optional[Opened]:
        """Opens a packet that begins at an offset, whose number begins at another, and that ends at one of some."""
        header = self.unmask(packet, begin, at)
        if header is None:
            return None
        number = whole_number(header.number, header.size, self.largest)
        generations = self.generations(header)
        for end in ends:
            opened = self.open_by(header, number, packet[at + header.size : end], generations)
            if opened is not None:
                return Opened(number, opened, end)
        return None

    def open_by(self, header: Header, number: int, sealed: bytes, generations: Iterable[int]) -> Optional[bytes]:
        """Opens what is sealed in the packet with a number, by keys of one of some generations."""
        for generation in generations:
            payloads = self.at_generation(generation)
            payload = payloads.open(number, header.head, sealed) if payloads else None
            if payload is not None:
                self.note(number, generation)
                return payload
        return None

    def note(self, number: int, generation: int) -> None:
        """Notes what opened a packet. Keys older than those before these open no more."""
        self.largest = max(self.largest, number)
        if generation > self.generation:
            self.generation = generation
            for old in range(generation - 1):
                self.payloads[old] = None

    def search(self, packet: bytes, begin: int, at: int) -> Iterator[Optional[Opened]]:
        """Tries to open a short packet, if many packets before it are not there. Yields each try.

        The upper bytes of its number are not known, so small ones are tried. Before the first packet its generation is not
        known either.
        """
        header = self.unmask(packet, begin, at)
        if header is None or header.first & 0x18:  # reserved bits, which are 0 (RFC 9000, section 17.3.1)
            return
        phase = header.first >> 2 & 1
        generations = (phase, phase + 2) if self.largest < 0 else self.generations(header)
        window = 1 << (8 * header.size)
        for number in range(header.number, window * UPPER_PARTS[header.size], window):
            payload = self.open_by(header, number, packet[at + header.size :], generations)
            yield None if payload is None else Opened(number, payload, len(packet))
            if payload is not None:
                return


def keys_of(secret: bytes, versions: Iterable[Version]) -> List[Keys]:
    """Returns the keys that a secret may give, by the suites of its length."""
    return [Keys(secret, suite, version) for version in versions for suite in SUITES.get(len(secret), ())]
