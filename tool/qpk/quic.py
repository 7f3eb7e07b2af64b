"""Headers and frames of QUIC packets (RFC 9000, RFC 9369), and which packet numbers were seen. qpk-capture reads it."""

from bisect import bisect_right
from typing import Iterator, List, NamedTuple, Optional, Tuple

from qpk.keys import INITIAL, RETRY, VERSIONS, Version
from qpk.streams import NotWhole, read_integer

LONGEST_ID = 20  # bytes of a connection ID
FIXED_BIT = 0x40  # of the first byte of a packet, which most programs set (RFC 9287)
MOST_RANGES = 1 << 14  # of packet numbers that are kept; with more, gaps between them are closed
MOST_LOOKED_AT = 16  # ranges in which a number is looked for that was acknowledged
# Types of frames (RFC 9000, section 19; RFC 9221).
PADDING, PING, ACK, ACK_ECN, RESET_STREAM, STOP_SENDING, CRYPTO, NEW_TOKEN = 0, 1, 2, 3, 4, 5, 6, 7
STREAM, STREAM_END = 8, 15  # the first and the last type of STREAM frames
HAS_OFFSET, HAS_LENGTH = 4, 2  # bits of the type of a STREAM frame
NEW_CONNECTION_ID, PATH_CHALLENGE, PATH_RESPONSE, CLOSE, CLOSE_BY_APPLICATION = 0x18, 0x1A, 0x1B, 0x1C, 0x1D
DATAGRAM, DATAGRAM_WITH_LENGTH = 0x30, 0x31
# How many integers a frame has that is nothing else.
INTEGERS = {0x10: 1, 0x11: 2, 0x12: 1, 0x13: 1, 0x14: 1, 0x15: 2, 0x16: 1, 0x17: 1, 0x19: 1, 0x1E: 0, 0xAF: 4}
INTEGERS.update({RESET_STREAM: 3, STOP_SENDING: 2})


# ---- Headers


class LongHeader(NamedTuple):
    """A long header: its connection IDs, where its packet number begins, and where its packet ends."""

    version: Version
    kind: str
    target: bytes  # the connection ID of the end that receives it
    source: bytes
    number_at: int
    end: int


def is_long(data: bytes, begin: int) -> bool:
    """Whether the packet at an offset has a long header."""
    return data[begin] & 0x80 != 0


def read_long_header(data: bytes, begin: int) -> Optional[LongHeader]:
    """Returns the long header at an offset, or nothing if it is of another version or is cut."""
    version = VERSIONS.get(int.from_bytes(data[begin + 1 : begin + 5], "big"))
    if version is None or len(data) < begin + 7:
        return None
    at = begin + 6 + data[begin + 5]
    target = data[begin + 6 : at]
    if len(target) > LONGEST_ID or at >= len(data):
        return None
    source = data[at + 1 : at + 1 + data[at]]
    at += 1 + data[at]
    if len(source) > LONGEST_ID or at > len(data):
        return None
    kind = version.types[data[begin] >> 4 & 3]
    if kind == RETRY:
        return LongHeader(version, kind, target, source, len(data), len(data))
    try:
        if kind == INITIAL:
            size, at = read_integer(data, at)
            at += size
        size, at = read_integer(data, at)
    except NotWhole:
        return None
    return LongHeader(version, kind, target, source, at, at + size) if at + size <= len(data) else None


# ---- Frames


class Frame(NamedTuple):
    """A frame: its type, the number that it is about, an offset, and its bytes."""

    kind: int
    number: int = 0  # of a stream; of an acknowledgment the first packet
    offset: int = 0  # of the bytes; of an acknowledgment the last packet
    data: bytes = b""


def read_frames(data: bytes) -> Iterator[Frame]:
    """Yields what is read of the frames of a packet, to the first that is unknown or cut."""
    try:
        at = 0
        while at < len(data):
            if data[at] in (PADDING, PING):
                at += 1
                continue
            kind, at = read_integer(data, at)
            if STREAM <= kind <= STREAM_END:
                frame, at = read_stream(kind, data, at)
                yield frame
            elif kind in (ACK, ACK_ECN):
                found, at = read_acknowledgment(kind, data, at)
                yield from found
            else:
                frame, at = read_other(kind, data, at)
                yield frame
    except NotWhole:
        return


def take(data: bytes, at: int, size: int) -> Tuple[bytes, int]:
    """Returns as many bytes from an offset on, and the offset after them."""
    if at + size > len(data):
        raise NotWhole
    return data[at : at + size], at + size


def read_stream(kind: int, data: bytes, at: int) -> Tuple[Frame, int]:
    """Returns a STREAM frame, after its type, and the offset after it."""
    stream, at = read_integer(data, at)
    offset = 0
    if kind & HAS_OFFSET:
        offset, at = read_integer(data, at)
    size = len(data) - at
    if kind & HAS_LENGTH:
        size, at = read_integer(data, at)
    part, at = take(data, at, size)
    return Frame(STREAM, stream, offset, part), at


def read_acknowledgment(kind: int, data: bytes, at: int) -> Tuple[List[Frame], int]:
    """Returns a frame for each range of an ACK frame, after its type, and the offset after it."""
    last, at = read_integer(data, at)
    _, at = read_integer(data, at)  # the delay
    count, at = read_integer(data, at)
    size, at = read_integer(data, at)
    ranges = [Frame(ACK, last - size, last)]
    for _ in range(count):
        gap, at = read_integer(data, at)
        last = ranges[-1].number - gap - 2
        size, at = read_integer(data, at)
        ranges.append(Frame(ACK, last - size, last))
    for _ in range(3 if kind == ACK_ECN else 0):
        _, at = read_integer(data, at)
    return [it for it in ranges if 0 <= it.number <= it.offset], at


def read_other(kind: int, data: bytes, at: int) -> Tuple[Frame, int]:
    """Returns a frame of another type, after that, and the offset after it."""
    if kind == CRYPTO:
        offset, at = read_integer(data, at)
        size, at = read_integer(data, at)
        part, at = take(data, at, size)
        return Frame(kind, 0, offset, part), at
    if kind == NEW_CONNECTION_ID:
        _, at = read_integer(data, at)
        _, at = read_integer(data, at)
        size, at = take(data, at, 1)
        part, at = take(data, at, size[0])
        _, at = take(data, at, 16)
        return Frame(kind, 0, 0, part), at
    if kind == CLOSE_BY_APPLICATION:
        code, _ = read_integer(data, at)
        return Frame(kind, code), skip(kind, data, at)
    if kind in INTEGERS:
        numbers = []
        for _ in range(INTEGERS[kind]):
            number, at = read_integer(data, at)
            numbers.append(number)
        return Frame(kind, numbers[0] if numbers else 0), at
    return Frame(kind), skip(kind, data, at)


def skip(kind: int, data: bytes, at: int) -> int:
    """Returns the offset after a frame of which nothing is read, after its type. None follows one that is unknown."""
    if kind in (PATH_CHALLENGE, PATH_RESPONSE):
        return at + 8
    if kind == DATAGRAM:
        return len(data)
    before = {CLOSE: 2, CLOSE_BY_APPLICATION: 1, NEW_TOKEN: 0, DATAGRAM_WITH_LENGTH: 0}.get(kind)
    if before is None:
        raise NotWhole
    for _ in range(before):
        _, at = read_integer(data, at)
    size, at = read_integer(data, at)
    return at + size


# ---- Packet numbers


class Numbers:
    """A set of packet numbers, as ranges in order."""

    def __init__(self) -> None:
        self.firsts: List[int] = []
        self.lasts: List[int] = []

    def add(self, first: int, last: int) -> None:
        """Adds the numbers from a first to a last one. Ranges that touch become one."""
        begin = bisect_right(self.lasts, first - 2) if self.lasts and self.lasts[-1] >= first - 1 else len(self.lasts)
        end = bisect_right(self.firsts, last + 1, begin)
        if end > begin:
            first, last = min(first, self.firsts[begin]), max(last, self.lasts[end - 1])
        elif len(self.firsts) >= MOST_RANGES:
            begin = min(begin, len(self.firsts) - 1)  # the gap between this range and a neighbour is closed
            end = begin + 1
            first, last = min(first, self.firsts[begin]), max(last, self.lasts[begin])
        self.firsts[begin:end] = [first]
        self.lasts[begin:end] = [last]

    def missing_between(self, first: int, last: int) -> List[Tuple[int, int]]:
        """Returns the ranges from a first to a last number that are not in the set, among the newest ranges alone."""
        begin = max(len(self.firsts) - MOST_LOOKED_AT, 0)
        first = max(first, self.firsts[begin]) if begin else first
        found = []
        for one, other in zip(self.firsts[begin:], self.lasts[begin:]):
            if first < one:
                found.append((first, min(one - 1, last)))
            first = max(first, other + 1)
            if first > last:
                return found
        return [*found, (first, last)]

    def ranges(self) -> Iterator[Tuple[int, int]]:
        """Yields the first and the last number of each range."""
        return zip(self.firsts, self.lasts)

    def count(self) -> int:
        """Returns how many numbers are in the set."""
        return sum(last - first + 1 for first, last in self.ranges())

    def without(self, other: "Numbers") -> List[Tuple[int, int]]:
        """Returns the ranges of numbers that are not in another set."""
        found = []
        at, others = 0, list(other.ranges())
        for first, last in self.ranges():
            while at < len(others) and others[at][1] < first:
                at += 1
            here = at
            while first <= last:
                if here >= len(others) or others[here][0] > last:
                    found.append((first, last))
                    break
                if others[here][0] > first:
                    found.append((first, others[here][0] - 1))
                first = others[here][1] + 1
                here += 1
        return found
