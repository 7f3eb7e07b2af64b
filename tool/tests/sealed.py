"""Makes captures of QUIC for the tests: packets that it seals by libcrypto, and files of pcap and pcapng around them."""
import ctypes
import hashlib
import struct

# captures.py puts tool/ into the path of modules.
from qpk.keys import EARLY, INITIAL, RETRY, VERSION_1, expand, initial_secrets
from qpk.libcrypto import AES_128, AES_128_CCM, AES_256, CHACHA20, Library

CLIENT, SERVER = (bytes([10, 0, 0, 1]), 50000), (bytes([10, 0, 0, 2]), 443)
SECRET_NAMES = {">": "CLIENT_TRAFFIC_SECRET_0", "<": "SERVER_TRAFFIC_SECRET_0", EARLY: "CLIENT_EARLY_TRAFFIC_SECRET"}
OWN_STREAMS = {">": {"s": 2, "e": 6, "d": 10}, "<": {"s": 3, "e": 7, "d": 11}}
STREAM_TYPES = {"s": b"\0", "e": b"\2", "d": b"\3"}


def integer(number):
    """Returns an integer of variable length (RFC 9000, section 16)."""
    for bits, size in enumerate((1, 2, 4, 8)):
        if number < 1 << (8 * size - 2):
            return (number | bits << (8 * size - 2)).to_bytes(size, "big")
    raise ValueError(number)


def library():
    """Returns libcrypto, with the functions that seal."""
    found = Library.get()
    found.EVP_EncryptFinal_ex.argtypes = [ctypes.c_void_p, ctypes.c_char_p, ctypes.POINTER(ctypes.c_int)]
    return found


def seal(suite, key, nonce, head, payload):
    """Returns a payload that is sealed, with its tag."""
    crypto, size = library(), ctypes.c_int()
    context = crypto.EVP_CIPHER_CTX_new()
    crypto.EVP_EncryptInit_ex(context, getattr(crypto, suite.cipher)(), None, None, None)
    if suite is AES_128_CCM:  # which has to know the lengths before the bytes
        crypto.EVP_CIPHER_CTX_ctrl(context, 0x9, len(nonce), None)
        crypto.EVP_CIPHER_CTX_ctrl(context, 0x11, 16, None)
    crypto.EVP_EncryptInit_ex(context, None, None, key, nonce)
    if suite is AES_128_CCM:
        crypto.EVP_EncryptUpdate(context, None, ctypes.byref(size), None, len(payload))
    crypto.EVP_EncryptUpdate(context, None, ctypes.byref(size), head, len(head))
    room, tag = ctypes.create_string_buffer(len(payload) + 16), ctypes.create_string_buffer(16)
    crypto.EVP_EncryptUpdate(context, room, ctypes.byref(size), payload, len(payload))
    crypto.EVP_EncryptFinal_ex(context, None, ctypes.byref(size))
    crypto.EVP_CIPHER_CTX_ctrl(context, 0x10, 16, tag)
    crypto.EVP_CIPHER_CTX_free(context)
    return room.raw[: len(payload)] + tag.raw


def mask_of(suite, key, sample):
    """Returns the mask of a header."""
    crypto, size = library(), ctypes.c_int()
    context, room = crypto.EVP_CIPHER_CTX_new(), ctypes.create_string_buffer(32)
    block = suite is not CHACHA20
    crypto.EVP_EncryptInit_ex(context, getattr(crypto, suite.mask)(), None, key, None if block else sample)
    crypto.EVP_EncryptUpdate(context, room, ctypes.byref(size), sample if block else bytes(5), 16 if block else 5)
    crypto.EVP_CIPHER_CTX_free(context)
    return room.raw[:5]


class Sealer:
    """Seals packets by the keys of a secret."""

    def __init__(self, secret, suite=AES_128, version=VERSION_1):
        self.suite, self.version, self.secret, self.phase = suite, version, secret, 0
        self.mask_key = self.derive(b" hp", suite.size)

    def derive(self, label, size):
        """Returns what the secret gives for a label."""
        return expand(self.secret, self.version.prefix + label, size, self.suite.digest)

    def update(self):
        """Goes on with the next keys (RFC 9001, section 6)."""
        self.secret = self.derive(b" ku", len(self.secret))
        self.phase += 1

    def seal(self, head, number, size, payload):
        """Returns a packet of a header without its number, of which some bytes are written."""
        payload += bytes(max(0, 4 - size - len(payload)) + 4)
        key, iv = self.derive(b" key", self.suite.size), self.derive(b" iv", 12)
        head += (number & ((1 << 8 * size) - 1)).to_bytes(size, "big")
        nonce = (int.from_bytes(iv, "big") ^ number).to_bytes(12, "big")
        packet = bytearray(head + seal(self.suite, key, nonce, head, payload))
        at = len(head) - size
        mask = mask_of(self.suite, self.mask_key, bytes(packet[at + 4 : at + 20]))
        packet[0] ^= mask[0] & (0x0F if packet[0] & 0x80 else 0x1F)
        for index in range(size):
            packet[at + index] ^= mask[1 + index]
        return bytes(packet)

    def short(self, number, target, payload, size=2, grease=0x40):
        """Returns a packet with a short header."""
        return self.seal(bytes([grease | (self.phase & 1) << 2 | size - 1]) + target, number, size, payload)

    def long(self, kind, number, target, source, payload, token=b"", size=2):
        """Returns a packet with a long header."""
        payload += bytes(8)
        first = 0xC0 | self.version.types.index(kind) << 4 | size - 1
        head = bytes([first]) + self.version.number.to_bytes(4, "big")
        head += bytes([len(target)]) + target + bytes([len(source)]) + source
        head += integer(len(token)) + token if kind == INITIAL else b""
        return self.seal(head + integer(size + len(payload) + 4 + 16), number, size, payload)


def crypto_frame(data, offset=0):
    """Returns a CRYPTO frame."""
    return b"\x06" + integer(offset) + integer(len(data)) + data


def stream_frame(number, offset, data):
    """Returns a STREAM frame."""
    return b"\x0e" + integer(number) + integer(offset) + integer(len(data)) + data


def ack_frame(first, last, *others, counts=()):
    """Returns an ACK frame of a range of numbers and others before it, and with counts of congestion if there are any."""
    frame = bytes([3 if counts else 2]) + integer(last) + integer(0) + integer(len(others)) + integer(last - first)
    for one, other in others:
        frame += integer(first - other - 2) + integer(other - one)
        first = one
    return frame + b"".join(map(integer, counts))


def settings_frame(capacity, blocked):
    """Returns a SETTINGS frame of HTTP/3 with the two limits of QPACK."""
    settings = integer(1) + integer(capacity) + integer(7) + integer(blocked)
    return b"\x04" + integer(len(settings)) + settings


class Made:
    """A connection that is made: datagrams with their times and addresses, and its key log."""

    def __init__(self, name="made", suite=AES_128, version=VERSION_1, client_id=b"client", server_id=b"serverid"):
        self.suite, self.version = suite, version
        self.ids = {">": server_id, "<": client_id}  # in packets that this end sends
        self.random = hashlib.sha256(name.encode()).digest()
        size = 48 if suite is AES_256 else 32
        self.secrets = {it: hashlib.sha512((name + it).encode()).digest()[:size] for it in SECRET_NAMES}
        self.sealers = {it: Sealer(self.secrets[it], suite, version) for it in SECRET_NAMES}
        self.ends = {">": CLIENT, "<": SERVER}
        self.first_target = hashlib.sha256(name.encode() + b"first").digest()[:8]
        self.numbers, self.offsets, self.time = {">": 0, "<": 0}, {}, 0
        self.datagrams = []  # time in nanoseconds, source, target, bytes

    def keys(self):
        """Returns the key log."""
        return "".join(f"{SECRET_NAMES[it]} {self.random.hex()} {self.secrets[it].hex()}\n" for it in SECRET_NAMES)

    def hello(self):
        """Returns the first bytes of the client's handshake."""
        return b"\x01\0\0\x28\x03\x03" + self.random + bytes(6)

    def initial(self, mark, payload, version=None, target=None, number=0, token=b""):
        """Returns an Initial packet."""
        version = version or self.version
        sealer = Sealer(initial_secrets(version, self.first_target)[mark], AES_128, version)
        targets = {">": self.first_target, "<": self.ids["<"]}
        sources = {">": self.ids["<"], "<": self.ids[">"]}
        return sealer.long(INITIAL, number, targets[mark] if target is None else target, sources[mark], payload, token)

    def send(self, mark, data):
        """Sends a datagram, a millisecond after the one before."""
        self.time += 1_000_000
        self.datagrams.append((self.time, self.ends[mark], self.ends[">" if mark == "<" else "<"], data))

    def begin(self):
        """Sends the Initial packets of both ends."""
        self.send(">", self.initial(">", crypto_frame(self.hello())))
        self.send("<", self.initial("<", crypto_frame(b"\x02\0\0\0")))
        return self

    def packet(self, mark, payload, **more):
        """Returns the next short packet of an end."""
        self.numbers[mark] += 1
        return self.sealers[mark].short(self.numbers[mark] - 1, self.ids[mark], payload, **more)

    def frames(self, mark, words):
        """Returns the STREAM frame of the words of a line of a recording."""
        kind, *rest = words.split()
        if kind == "b":
            number, data = int(rest[0]), bytes.fromhex(rest[1])
            data = b"\x01" + integer(len(data)) + data
        else:
            number = OWN_STREAMS[mark][kind]
            data = settings_frame(*map(int, rest)) if kind == "s" else bytes.fromhex(rest[0])
            data = (b"" if (mark, number) in self.offsets else STREAM_TYPES[kind]) + data
        offset = self.offsets.get((mark, number), 0)
        self.offsets[mark, number] = offset + len(data)
        return stream_frame(number, offset, data)

    def take(self, lines, acknowledge=4):
        """Sends a packet for each line of a recording, and acknowledgments with every few."""
        for count, line in enumerate(lines):
            _, mark, words = line.split(" ", 2)
            payload = self.frames(mark, words)
            peer = self.numbers["<" if mark == ">" else ">"]
            if acknowledge and peer and count % acknowledge == 0:
                payload = ack_frame(0, peer - 1) + payload
            self.send(mark, self.packet(mark, payload))
        for mark, peer in ((">", "<"), ("<", ">")):
            if acknowledge and self.numbers[peer]:
                self.send(mark, self.packet(mark, ack_frame(0, self.numbers[peer] - 1)))
        return self

    def retry(self, token=b"token", source=b"retried"):
        """Sends a first Initial packet, and the Retry packet that answers it."""
        self.send(">", self.initial(">", crypto_frame(self.hello())))
        head = bytes([0xC0 | self.version.types.index(RETRY) << 4]) + self.version.number.to_bytes(4, "big")
        head += bytes([len(self.ids["<"])]) + self.ids["<"] + bytes([len(source)]) + source
        self.send("<", head + token + bytes(16))
        self.first_target = source
        return self


# ---- Files


def checksum_free_ip(source, target, payload, kind=17, fragment=0, identity=1):
    """Returns a packet of IP, of the version of its addresses."""
    if len(source) == 4:
        head = struct.pack(">BBHHHBBH", 0x45, 0, 20 + len(payload), identity, fragment, 64, kind, 0)
        return head + source + target + payload
    return struct.pack(">IHBB", 0x60000000, len(payload), kind, 64) + source + target + payload


def udp(source, target, data):
    """Returns a datagram of UDP."""
    return struct.pack(">HHHH", source[1], target[1], 8 + len(data), 0) + data


def ip_packets(datagrams):
    """Returns the packets of IP of datagrams, with their times."""
    return [(time, checksum_free_ip(one[0], other[0], udp(one, other, data))) for time, one, other, data in datagrams]


def pcap(packets, link=101, order="<", is_nano=True, snap=262144):
    """Returns a file of pcap."""
    out = [struct.pack(order + "IHHIIII", 0xA1B23C4D if is_nano else 0xA1B2C3D4, 2, 4, 0, 0, snap, link)]
    for time, data in packets:
        part = time % 10**9 if is_nano else time % 10**9 // 1000
        out.append(struct.pack(order + "IIII", time // 10**9, part, len(data[:snap]), len(data)) + data[:snap])
    return b"".join(out)


def block(kind, body, order="<"):
    """Returns a block of pcapng."""
    body += bytes(-len(body) % 4)
    size = struct.pack(order + "I", 12 + len(body))
    return struct.pack(order + "I", kind) + size + body + size


def pcapng(packets, link=101, secrets="", order="<", resolution=9):
    """Returns a file of pcapng, with the secrets before its packets."""
    options = struct.pack(order + "HHBxxxHH", 9, 1, resolution, 0, 0)
    out = [block(0x0A0D0D0A, struct.pack(order + "IHHq", 0x1A2B3C4D, 1, 0, -1), order)]
    out.append(block(1, struct.pack(order + "HHI", link, 0, 0) + options, order))
    if secrets:
        out.append(block(10, struct.pack(order + "II", 0x544C534B, len(secrets)) + secrets.encode(), order))
    for time, data in packets:
        count = time * 10**resolution // 10**9
        head = struct.pack(order + "IIIII", 0, count >> 32, count & 0xFFFFFFFF, len(data), len(data))
        out.append(block(6, head + data, order))
    return b"".join(out)
