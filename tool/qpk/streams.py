"""Streams of HTTP/3 that come in pieces, and the lines of a recording that their bytes are. qpk-capture reads it."""

from dataclasses import dataclass, field
from heapq import heappop, heappush
from io import BytesIO, TextIOWrapper
from typing import BinaryIO, Dict, Iterable, Iterator, List, Optional, Set, Tuple

from qpk.main import Refusal, printable
from qpk.seen import Seen

HEADERS, SETTINGS, PUSH_PROMISE = 1, 4, 5  # types of frames (RFC 9114, section 7.2)
# Types of unidirectional streams (RFC 9114, section 6.2; RFC 9204, section 4.2).
CONTROL, PUSH, ENCODER, DECODER = 0, 1, 2, 3
MAX_TABLE_CAPACITY, BLOCKED_STREAMS = 1, 7  # settings (RFC 9204, section 5)
FRAMES_OF_QPACK = (HEADERS, SETTINGS, PUSH_PROMISE)  # whose payload is kept until it is whole; the others are skipped
LONGEST_INTEGER = 8  # bytes of an integer of variable length (RFC 9000, section 16)
MOST_PAYLOAD = 1 << 20  # bytes of a frame that is read; a longer one is left out
MOST_WAITING = 1 << 24  # bytes of a stream that are kept after a gap; with more, the stream ends at the gap
MOST_STREAMS = 1 << 17  # of a connection that are read; others are left out


class SourceError(Refusal):
    """A capture or a trace can't be read, for this reason."""


def to_bytes(text: str) -> bytes:
    """Returns the bytes of a text. Those that were not UTF-8 are as they were."""
    return text.encode("utf-8", "surrogateescape")


def to_text(data: bytes) -> str:
    """Returns the text of bytes."""
    return data.decode("utf-8", "surrogateescape")


class NotWhole(Exception):
    """More bytes are needed."""


def read_integer(data: bytes, at: int) -> Tuple[int, int]:
    """Returns the integer of variable length at an offset, and the offset after it (RFC 9000, section 16)."""
    if at >= len(data):
        raise NotWhole
    first = data[at]
    if first < 0x40:  # most are of one byte
        return first, at + 1
    end = at + (1 << (first >> 6))
    if end > len(data):
        raise NotWhole
    return int.from_bytes(data[at:end], "big") & ((1 << (8 * (end - at) - 2)) - 1), end


def read_settings(payload: bytes) -> Dict[int, int]:
    """Returns the settings of a SETTINGS frame."""
    settings, at = {}, 0
    while at < len(payload):
        name, at = read_integer(payload, at)
        settings[name], at = read_integer(payload, at)
    return settings


@dataclass
class Frames:
    """The frames of a stream, whose bytes come in pieces. Each byte is copied once, and only of frames that are kept."""

    head: bytes = b""  # the type and the length of a frame, as far as they came
    kind: Optional[int] = None  # of the frame whose payload comes
    left: int = 0  # how many bytes of that are still to come
    parts: Optional[List[bytes]] = None  # of its payload, if it is kept
    too_long: int = 0  # how many frames were left out, as they are longer than MOST_PAYLOAD

    def take(self, data: bytes) -> Iterator[Tuple[int, bytes]]:
        """Takes bytes, and yields each frame that is whole by then and may have anything of QPACK: type and payload."""
        at = 0
        while True:
            if self.kind is None:
                at = self.take_head(data, at)
            if self.kind is None:
                return
            end = min(at + self.left, len(data))
            if self.parts is not None:
                self.parts.append(data[at:end])
            self.left -= end - at
            at = end
            if self.left:
                return
            if self.parts is not None:
                yield self.kind, b"".join(self.parts)
            self.kind = None

    def take_head(self, data: bytes, begin: int) -> int:
        """Takes the type and the length of a frame from an offset on, and returns the offset after what was taken."""
        head = self.head + data[begin : begin + 2 * LONGEST_INTEGER]
        try:
            kind, at = read_integer(head, 0)
            size, at = read_integer(head, at)
        except NotWhole:
            self.head = head
            return len(data)
        begin += at - len(self.head)
        self.head, self.kind, self.left = b"", kind, size
        self.parts = [] if kind in FRAMES_OF_QPACK and size <= MOST_PAYLOAD else None
        self.too_long += kind in FRAMES_OF_QPACK and size > MOST_PAYLOAD
        return begin


@dataclass
class Stream:
    """What an end sent on a stream."""

    number: int
    pieces: Dict[int, bytes] = field(default_factory=dict)  # that came before those at their front, by their offset
    offsets: List[int] = field(default_factory=list)  # theirs, as a heap
    waiting: int = 0  # how many bytes they have
    is_given_up: bool = False  # as they had more than MOST_WAITING
    taken: int = 0
    head: bytes = b""  # the type of the stream, and a push ID, if they are not whole
    kind: Optional[int] = None
    frames: Frames = field(default_factory=Frames)

    def is_one_way(self) -> bool:
        """Whether only the end that opened it sends."""
        return self.number & 2 != 0

    def receive(self, offset: int, data: bytes) -> bytes:
        """Takes a piece, and returns the bytes that are next in order by then."""
        if not self.is_given_up:
            self.keep(offset, data)
        got = []
        while self.offsets and self.offsets[0] <= self.taken:
            start = heappop(self.offsets)
            piece = self.pieces.pop(start)
            self.waiting -= len(piece)
            part = piece[self.taken - start :]
            got.append(part)
            self.taken += len(part)
        if self.waiting > MOST_WAITING:
            self.is_given_up = True
            self.pieces, self.offsets, self.waiting = {}, [], 0
        return b"".join(got)

    def keep(self, offset: int, data: bytes) -> None:
        """Keeps a piece, unless one from the same offset on is as long."""
        before = self.pieces.get(offset)
        if len(data) <= len(before or b""):
            return
        if before is None:
            heappush(self.offsets, offset)
        self.pieces[offset] = data
        self.waiting += len(data) - len(before or b"")

    def has_gap(self) -> bool:
        """Whether bytes of it are missing before others, or are left out."""
        return self.is_given_up or bool(self.offsets) or bool(self.frames.too_long)

    def left_out(self) -> Iterator[str]:
        """Yields which of its bytes are not read."""
        if self.is_given_up:
            yield f"bytes from {self.taken} on are left out: more than {MOST_WAITING} came after a gap there"
        elif self.offsets:
            yield f"bytes from {self.taken} to {self.offsets[0]} are missing"
        if self.frames.too_long:
            yield f"frames that are longer than {MOST_PAYLOAD} bytes, which are left out: {self.frames.too_long}"

    def without_head(self, data: bytes) -> bytes:
        """Returns bytes without the type of the stream, and without the push ID of a push stream."""
        if not self.is_one_way() or self.kind is not None:
            return data
        self.head += data
        try:
            kind, at = read_integer(self.head, 0)
            if kind == PUSH:
                _, at = read_integer(self.head, at)
        except NotWhole:
            return b""
        data = self.head[at:]
        self.head, self.kind = b"", kind
        return data


def lines_of(stream: Stream, data: bytes) -> Iterator[str]:
    """Yields the words of the lines that bytes of a stream are."""
    if stream.kind in (ENCODER, DECODER):
        if data:
            yield f"{'e' if stream.kind == ENCODER else 'd'} {data.hex()}"
    elif stream.kind in (None, CONTROL, PUSH) and (stream.kind is not None or not stream.is_one_way()):
        for kind, payload in stream.frames.take(data):
            yield from line_of_frame(stream, kind, payload)


def line_of_frame(stream: Stream, kind: int, payload: bytes) -> Iterator[str]:
    """Yields the words of the line that a frame is, if it has anything of QPACK."""
    try:
        if stream.kind == CONTROL and kind == SETTINGS:
            settings = read_settings(payload)
            yield f"s {settings.get(MAX_TABLE_CAPACITY, 0)} {settings.get(BLOCKED_STREAMS, 0)}"
        elif stream.kind != CONTROL and kind == HEADERS:
            yield f"b {stream.number} {payload.hex()}"
        elif stream.kind is None and kind == PUSH_PROMISE:
            _, at = read_integer(payload, 0)
            yield f"b {stream.number} {payload[at:].hex()}"
    except NotWhole:
        raise SourceError(f"stream {stream.number} has a frame of type {kind} that ends within an integer") from None


@dataclass
class Streams:
    """The streams of a connection, by the mark of the end that sends on them, and their number."""

    streams: Dict[Tuple[str, int], Stream] = field(default_factory=dict)
    left_out: int = 0  # pieces of streams above MOST_STREAMS
    ended: Set[Tuple[str, int]] = field(default_factory=set)  # streams that their sender gave up (RFC 9000, section 3.1)

    def take(self, mark: str, number: int, offset: int, data: bytes) -> Iterator[str]:
        """Takes bytes of a stream, and yields the words of the lines that are whole by then."""
        stream = self.streams.get((mark, number))
        if stream is None:
            if len(self.streams) >= MOST_STREAMS:
                self.left_out += 1
                return
            stream = self.streams[mark, number] = Stream(number)
        yield from lines_of(stream, stream.without_head(stream.receive(offset, data)))

    def end(self, mark: str, number: int) -> None:
        """Notes that the sender of a stream gave it up, so that what is missing of it never comes."""
        if (mark, number) in self.streams:
            self.ended.add((mark, number))

    def count_gaps(self, mark: str) -> int:
        """Returns how many streams of an end have a gap, of those that it did not give up."""
        return sum(it.has_gap() for at, it in self.streams.items() if at[0] == mark and at not in self.ended)

    def taken(self, mark: str, number: int) -> int:
        """Returns the offset up to which a stream was taken."""
        return self.streams[mark, number].taken if (mark, number) in self.streams else 0

    def numbers(self) -> Dict[Tuple[str, str], int]:
        """Returns the numbers of the streams of instructions, by the marks of their ends and the words of their lines."""
        kinds = {ENCODER: "e", DECODER: "d"}
        return {(mark, kinds[it.kind]): number for (mark, number), it in self.streams.items() if it.kind in kinds}

    def gaps(self) -> Iterator[str]:
        """Yields which bytes are missing, or are left out."""
        for (mark, number), stream in sorted(self.streams.items()):
            for it in stream.left_out():
                is_ended = (mark, number) in self.ended
                yield f"{mark} stream {number}: {it}{', and its sender gave it up' if is_ended else ''}"
        if self.left_out:
            yield f"there are more than {MOST_STREAMS} streams, of which the others are left out"


@dataclass
class Connection:
    """A connection, what is said about it, the lines that qpk reads of it, and what is missing."""

    number: int
    about: Dict[str, str]  # its ends, or what the trace is called; empty for a recording
    lines: List[str] = field(default_factory=list)
    missing: List[str] = field(default_factory=list)
    data: Optional[bytes] = None  # of a recording, which has its lines
    seen: Optional[Seen] = None  # of the packets of a capture
    packets: List[int] = field(default_factory=list)  # of a capture, by the lines that they made whole; from 1
    streams: Dict[Tuple[str, str], int] = field(default_factory=dict)  # of instructions: their numbers

    def name(self) -> str:
        """Returns its number and its ends."""
        return printable(f"connection {self.number}, {' > '.join(self.about.values())}")

    def write(self, file: BinaryIO) -> None:
        """Writes the recording that qpk reads."""
        if self.data is None:
            file.writelines(to_bytes(f"{it}\n") for it in self.lines)
        else:
            file.write(self.data)

    def all_lines(self) -> Iterable[str]:
        """Returns the lines of the recording."""
        return self.lines if self.data is None else TextIOWrapper(BytesIO(self.data), "utf-8", "surrogateescape", "\n")
