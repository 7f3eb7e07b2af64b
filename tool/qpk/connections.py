"""A QUIC connection in a capture: its keys, what was seen of it, and its lines. qpk-capture reads it."""

from typing import Dict, List, NamedTuple, Set, Tuple

from qpk.datagrams import Address, Datagram
from qpk.keys import VERSION_1, KeyLog, Keys, Opened, Version, initial_secrets, keys_of
from qpk.libcrypto import AES_128
from qpk.lines import PEER
from qpk.quic import ACK, CLOSE_BY_APPLICATION, CRYPTO, NEW_CONNECTION_ID, RESET_STREAM, STREAM
from qpk.quic import Frame, Numbers, read_frames
from qpk.seen import SeenOfEnd
from qpk.streams import SourceError, Stream, Streams

MOST_FAULTS = 8  # of a connection that are told
QPACK_ERRORS = (0x200, 0x201, 0x202)  # RFC 9204, section 6
CLIENT_HELLO, RANDOM_AT, RANDOM_END = 1, 6, 38  # in the bytes of the handshake (RFC 8446, section 4.1.2)
Pair = Tuple[Address, Address]  # the sender and the receiver of a datagram


def shown_time(nanoseconds: int) -> str:
    """Returns a time as lines of a recording have it: seconds, and six digits of their parts."""
    sign = "-" if nanoseconds < 0 else ""
    return f"{sign}{abs(nanoseconds) // 10**9}.{abs(nanoseconds) % 10**9 // 1000:06}"


class Kept(NamedTuple):
    """A packet, when it came, and where it begins in its datagram. Some are kept until there are keys."""

    time: int
    datagram: Datagram
    begin: int


class QuicConnection:
    """A connection: its keys, what was seen of it, and its lines."""

    def __init__(self, client: Address, server: Address) -> None:
        self.client, self.server = client, server
        self.random = ""  # of the client, in hexadecimal
        self.versions: List[Version] = [VERSION_1]
        self.initial: Dict[Tuple[str, int], Keys] = {}
        self.first_target = b""  # the connection ID that the client chose for the server
        self.hello = Stream(0)
        self.hello_bytes = b""
        self.candidates: Dict[str, List[Keys]] = {}  # by marks, and those of early data, until one opens a packet
        self.ids: Dict[str, Set[bytes]] = {">": set(), "<": set()}  # in short packets that this end sends
        self.kept: List[Kept] = []
        self.is_answered = False  # whether a packet of the server was opened
        self.is_late = False  # whether its first packets are not in the capture
        self.streams = Streams()
        self.lines: List[str] = []
        self.packets: List[int] = []  # in the capture, by the lines that they made whole
        self.line_numbers: Dict[str, List[Tuple[int, int]]] = {">": [], "<": []}  # of lines, and of their packets
        self.heard = {">": 0, "<": 0}  # how many lines there were with the last acknowledgments of this end
        self.early = {">": Numbers(), "<": Numbers()}  # packets that were acknowledged before they were in the file
        self.seen = {">": Numbers(), "<": Numbers()}
        self.acknowledged = {">": Numbers(), "<": Numbers()}
        self.unread = {">": 0, "<": 0}  # packets that no key opened
        self.lengths: Dict[str, Set[int]] = {">": set(), "<": set()}  # of the connection IDs
        self.new_ids: List[Tuple[str, bytes]] = []  # that an end told its peer to use, with the mark of that
        self.in_a_row = {">": 0, "<": 0}  # packets that no key opened, since the last that one opened
        self.has_settings = {">": False, "<": False}
        self.faults: List[str] = []  # frames of HTTP/3 that can't be read
        self.is_refused = False  # whether an end closed the connection with an error of QPACK

    def begin(self, version: Version, target: bytes) -> None:
        """Takes the connection ID that the client chose, of which the keys of Initial packets are made."""
        self.versions, self.first_target, self.initial = [version], target, {}

    def initial_keys(self, mark: str, version: Version) -> Keys:
        """Returns the keys of Initial packets that an end sends. The server may choose another version."""
        if version not in self.versions:
            self.versions.append(version)
        if (mark, version.number) not in self.initial:
            secret = initial_secrets(version, self.first_target)[mark]
            self.initial[mark, version.number] = Keys(secret, AES_128, version)
        return self.initial[mark, version.number]

    def take_hello(self, payload: bytes) -> None:
        """Takes the handshake's bytes of an Initial packet of the client, up to its random."""
        for frame in read_frames(payload):
            if frame.kind == CRYPTO and len(self.hello_bytes) < RANDOM_END:
                self.hello_bytes += self.hello.receive(frame.offset, frame.data)
                if len(self.hello_bytes) >= RANDOM_END and self.hello_bytes[0] == CLIENT_HELLO:
                    self.random = self.hello_bytes[RANDOM_AT:RANDOM_END].hex()

    def keys(self, which: str, log: KeyLog) -> List[Keys]:
        """Returns the keys that may open packets of an end, or of early data. None are there without their secret."""
        if which not in self.candidates:
            secret = log.secret_of(self.random, which)
            if secret is None:
                return []
            self.candidates[which] = keys_of(secret, self.versions)
        return self.candidates[which]

    def choose(self, which: str, keys: Keys) -> None:
        """Keeps the keys that opened a packet, and no others."""
        self.candidates[which] = [keys]

    def take(self, came: Kept, mark: str, packet: Opened) -> None:
        """Takes a packet that was opened, which came in a datagram, and adds the lines that are whole by then."""
        self.seen[mark].add(packet.number, packet.number)
        self.is_answered = self.is_answered or mark == "<"
        self.in_a_row[mark] = 0
        has_heard = False
        for frame in read_frames(packet.payload):
            if frame.kind == STREAM:
                self.take_stream(came, mark, packet.number, frame)
            elif frame.kind == ACK:
                self.take_acknowledgment(PEER[mark], frame.number, frame.offset)
                has_heard = True
            elif frame.kind == CLOSE_BY_APPLICATION and frame.number in QPACK_ERRORS:
                self.is_refused = True
            elif frame.kind == RESET_STREAM:
                self.streams.end(mark, frame.number)
            elif frame.kind == NEW_CONNECTION_ID:
                self.new_ids.append((PEER[mark], frame.data))
        if has_heard:
            self.heard[mark] = len(self.lines)

    def take_stream(self, came: Kept, mark: str, number: int, frame: Frame) -> None:
        """Takes a STREAM frame of the packet with a number. A frame of HTTP/3 in it that can't be read is left out."""
        try:
            for words in self.streams.take(mark, frame.number, frame.offset, frame.data):
                self.lines.append(f"@{shown_time(came.time)} {mark} {words}")
                self.packets.append(came.datagram.packet)
                self.line_numbers[mark].append((len(self.lines), number))
                self.has_settings[mark] |= words.startswith("s ")
        except SourceError as error:
            if len(self.faults) < MOST_FAULTS:
                self.faults.append(f"{mark} {error}, and is left out")

    def take_acknowledgment(self, mark: str, first: int, last: int) -> None:
        """Takes the numbers of packets of an end that the peer acknowledged. Notes those that are not in the file yet."""
        self.acknowledged[mark].add(first, last)
        for one, other in self.seen[mark].missing_between(first, last):
            self.early[mark].add(one, other)

    def fail(self, mark: str) -> None:
        """Counts a packet of an end that no key opened."""
        self.unread[mark] += 1
        self.in_a_row[mark] += 1

    def is_read(self) -> bool:
        """Whether a packet of its streams was opened."""
        return any(it.firsts for it in self.seen.values())

    def seen_of(self, mark: str) -> SeenOfEnd:
        """Returns what was seen of an end."""
        missing = self.acknowledged[mark].without(self.seen[mark])
        early = self.early[mark].count() - sum(last - first + 1 for first, last in self.early[mark].without(self.seen[mark]))
        gaps = self.streams.count_gaps(mark)
        counts = (self.seen[mark].count(), missing, self.unread[mark], gaps, self.has_settings[mark], early)
        if self.is_refused:  # a peer that refuses a line acknowledges it no more
            return SeenOfEnd(*counts)
        last = self.acknowledged[mark].lasts[-1] if self.acknowledged[mark].lasts else -1
        line = next((line for line, number in reversed(self.line_numbers[mark]) if number <= last), 0)
        return SeenOfEnd(*counts, line, self.heard[mark])
