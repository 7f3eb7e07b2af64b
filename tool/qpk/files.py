"""Captures as files: pcap and pcapng, compressed or not, from a file or a pipe. qpk-capture reads it.

A capture is read to where it is cut or damaged. What is compressed may hold any file.
"""

import importlib
import lzma
import shutil
import struct
import subprocess
import tempfile
import zlib
from typing import Any, BinaryIO, Callable, Dict, Iterator, List, NamedTuple, Optional, Tuple

from qpk.lines import GZIP, XZ, ZSTD
from qpk.streams import SourceError

MOST_PACKET = 1 << 18  # bytes of a packet that is read, as the snap length of captures has it; a longer one is damage
MOST_BLOCK = 1 << 24  # bytes of a block of pcapng that is read; a longer one is damage
MOST_INTERFACES = 1 << 12  # of a section of pcapng whose link types are kept; more are damage
PIECE = 1 << 12  # bytes that are decompressed at once
NANOSECOND = 10**9
# Files of pcap, by their first four bytes: the order of bytes, and how many nanoseconds a unit of their times has.
PCAP = {
    bytes.fromhex("d4c3b2a1"): ("<", 1000),
    bytes.fromhex("a1b2c3d4"): (">", 1000),
    bytes.fromhex("4d3cb2a1"): ("<", 1),
    bytes.fromhex("a1b23c4d"): (">", 1),
}
# Blocks of pcapng, by their types.
SECTION, INTERFACE, OLD_PACKET, SIMPLE_PACKET, ENHANCED_PACKET, SECRETS = 0x0A0D0D0A, 1, 2, 3, 6, 10
TLS_KEY_LOG = 0x544C534B  # the kind of secrets that is a key log
OPTION_RESOLUTION, OPTION_OFFSET = 9, 14  # of an interface: the unit of its times, and the seconds to be added


class Packet(NamedTuple):
    """A packet of a capture."""

    number: int  # from 1, as Wireshark numbers them
    time: int  # in nanoseconds
    link: int  # the type of the link (LINKTYPE_)
    data: bytes
    is_short: bool  # whether the snap length cut it


# ---- What is compressed


class Headed:
    """A file some of whose first bytes were read. They are read again."""

    def __init__(self, head: bytes, file: Any) -> None:
        self.head, self.file = head, file

    def read(self, size: int = -1) -> bytes:
        """Returns the next bytes, fewer only at the end."""
        if size < 0:
            head, self.head = self.head, b""
            return head + self.file.read()
        head, self.head = self.head[:size], self.head[size:]
        return head + self.file.read(size - len(head)) if len(head) < size else head


class Decompressed:
    """What is compressed in a file. It ends where that is cut or damaged."""

    def __init__(self, file: Any, make: Callable[[], Any]) -> None:
        self.file, self.make, self.decompressor = file, make, make()
        self.parts: List[bytes] = []
        self.size = 0
        self.is_at_end = False

    def fill(self) -> None:
        """Decompresses the next piece. After the end of a stream another one may follow."""
        piece = self.file.read(PIECE)
        self.is_at_end = not piece
        while piece:
            try:
                part = self.decompressor.decompress(piece)
            except Exception:  # pylint: disable=broad-except # each module has errors of its own for damage
                self.is_at_end = True
                return
            self.parts.append(part)
            self.size += len(part)
            piece = b""
            if self.decompressor.eof:
                piece = getattr(self.decompressor, "unused_data", b"").lstrip(b"\0")
                self.decompressor = self.make()

    def read(self, size: int = -1) -> bytes:
        """Returns the next bytes, fewer only at the end."""
        while not self.is_at_end and (size < 0 or self.size < size):
            self.fill()
        data = b"".join(self.parts)
        if size < 0 or len(data) <= size:
            self.parts, self.size = [], 0
            return data
        self.parts, self.size = [data[size:]], len(data) - size
        return data[:size]


def open_zstd(file: Any) -> Any:
    """Returns what zstd compressed in a file, by a module of Python that is there, or by the program."""
    for name, maker in (("compression.zstd", "ZstdDecompressor"), ("zstandard", "ZstdDecompressor")):
        try:
            module = importlib.import_module(name)
        except ImportError:
            continue
        make = getattr(module, maker)
        return Decompressed(file, make if name != "zstandard" else lambda: make().decompressobj())
    if not shutil.which("zstd"):
        raise SourceError("the file is compressed by zstd: install zstd, or decompress it first")
    spooled = tempfile.TemporaryFile()  # pylint: disable=consider-using-with # the program reads it to the end
    shutil.copyfileobj(file, spooled)
    spooled.seek(0)
    words = ["zstd", "-dcq"]
    # pylint: disable-next=consider-using-with # it ends with its output
    return subprocess.Popen(words, stdin=spooled, stdout=subprocess.PIPE, stderr=subprocess.DEVNULL).stdout


def open_plain(file: BinaryIO, length: int) -> Tuple[bytes, Any]:
    """Returns the first bytes of a file, as many as a length, and the file. What is compressed in it takes its place."""
    head = file.read(length)
    plain: Any = Headed(head, file)
    if head.startswith(GZIP):
        plain = Decompressed(plain, lambda: zlib.decompressobj(31))
    elif head.startswith(XZ):
        plain = Decompressed(plain, lzma.LZMADecompressor)
    elif head.startswith(ZSTD):
        plain = open_zstd(plain)
    else:
        return head, plain
    head = plain.read(length)
    if not head:
        raise SourceError("the file can't be decompressed, or has nothing in it: name another file")
    return head, Headed(head, plain)


# ---- Packets


class Capture:
    """The packets of a capture, and what was seen of the file. Secrets in it go to a function as they come."""

    def __init__(self, file: Any, learn: Callable[[str], None]) -> None:
        self.file, self.learn = file, learn
        self.count = 0  # packets
        self.short = 0  # packets that the snap length cut
        self.longest_short = 0  # bytes that are left of the longest of these
        self.damage = ""  # where the file is cut or damaged

    def packets(self) -> Iterator[Packet]:
        """Yields the packets."""
        magic = self.file.read(4)
        if magic in PCAP:
            yield from self.packets_of_pcap(*PCAP[magic])
        elif len(magic) == 4 and int.from_bytes(magic, "big") == SECTION:
            yield from self.packets_of_pcapng(magic)
        else:
            raise SourceError("the file is no capture: name a file of tcpdump, dumpcap or Wireshark")

    def packet(self, time: int, link: int, data: bytes, size: int) -> Packet:
        """Counts a packet, and returns it."""
        self.count += 1
        is_short = len(data) < size
        if is_short:
            self.short += 1
            self.longest_short = max(self.longest_short, len(data))
        return Packet(self.count, time, link, data, is_short)

    def read_whole(self, size: int) -> Optional[bytes]:
        """Returns as many bytes, or nothing at the end of the file, which is noted if it cuts something."""
        data = self.file.read(size)
        if len(data) == size:
            return data
        if data:
            self.damage = self.damage or f"the capture is cut after packet {self.count}, and was read to there"
        return None

    def stop_at_damage(self) -> None:
        """Notes that nothing can be read from here on."""
        self.damage = self.damage or f"the capture is damaged after packet {self.count}, and was read to there"

    def packets_of_pcap(self, order: str, unit: int) -> Iterator[Packet]:
        """Yields the packets of a file of pcap."""
        head = self.read_whole(20)
        if head is None:
            return
        link = struct.unpack(order + "I", head[16:])[0] & 0xFFFF
        record = struct.Struct(order + "IIII")
        while True:
            head = self.read_whole(record.size)
            if head is None:
                return
            seconds, units, kept, size = record.unpack(head)
            if kept > MOST_PACKET:
                self.stop_at_damage()
                return
            data = self.read_whole(kept)
            if data is None:
                self.damage = self.damage or f"the capture is cut after packet {self.count}, and was read to there"
                return
            yield self.packet(seconds * NANOSECOND + units * unit, link, data, size)

    def packets_of_pcapng(self, magic: bytes) -> Iterator[Packet]:
        """Yields the packets of a file of pcapng."""
        order = "<"
        interfaces: List[Interface] = []
        for block in iter(lambda: self.read_block(order, magic), None):
            magic, kind, order, body = b"", block[0], block[1], block[2]
            try:
                if kind == SECTION:
                    interfaces = []
                elif kind == INTERFACE and len(interfaces) < MOST_INTERFACES:
                    interfaces.append(Interface(order, body))
                elif kind in (OLD_PACKET, SIMPLE_PACKET, ENHANCED_PACKET):
                    yield self.packet_of_block(kind, order, body, interfaces)
                elif kind == SECRETS:
                    self.learn_secrets(order, body)
            except (IndexError, OverflowError, struct.error):
                self.stop_at_damage()
                return

    def read_block(self, order: str, begin: bytes) -> Optional[Tuple[int, str, bytes]]:
        """Returns the type of the next block, its order of bytes and its body. Some of its bytes may have been read."""
        rest = self.read_whole(12 - len(begin))
        if rest is None:
            return None
        head = begin + rest
        kind = struct.unpack(order + "I", head[:4])[0]
        if kind == SECTION:
            order = "<" if head[8:] == bytes.fromhex("4d3c2b1a") else ">"
        size = struct.unpack(order + "I", head[4:8])[0]
        if not 12 <= size <= MOST_BLOCK or size % 4:
            self.stop_at_damage()
            return None
        if size == 12:
            return kind, order, b""
        body = self.read_whole(size - 12)
        if body is None:
            self.damage = self.damage or f"the capture is cut after packet {self.count}, and was read to there"
            return None
        return kind, order, head[8:] + body[:-4]

    def packet_of_block(self, kind: int, order: str, body: bytes, interfaces: List["Interface"]) -> Packet:
        """Returns the packet of a block."""
        if kind == SIMPLE_PACKET:
            size = struct.unpack(order + "I", body[:4])[0]
            data = body[4 : 4 + size]
            return self.packet(0, interfaces[0].link, data, min(size, interfaces[0].snap_length or size))
        number, high, low, kept, size = struct.unpack(order + ("IIIII" if kind == ENHANCED_PACKET else "HxxIIII"), body[:20])
        interface = interfaces[number]
        return self.packet(interface.time((high << 32) + low), interface.link, body[20 : 20 + kept], size)

    def learn_secrets(self, order: str, body: bytes) -> None:
        """Passes on the secrets of a block."""
        kind, size = struct.unpack(order + "II", body[:8])
        if kind == TLS_KEY_LOG:
            self.learn(body[8 : 8 + size].decode("utf-8", "replace"))


class Interface:
    """An interface of a section of pcapng: the type of its link, and the unit of its times."""

    def __init__(self, order: str, body: bytes) -> None:
        self.link, self.snap_length = struct.unpack(order + "HxxI", body[:8])
        options = options_of(order, body[8:])
        resolution = (options.get(OPTION_RESOLUTION) or b"\x06")[0]
        self.units = 1 << (resolution & 0x7F) if resolution & 0x80 else 10**resolution
        offset = options.get(OPTION_OFFSET, b"")
        self.offset = struct.unpack(order + "q", offset)[0] if len(offset) == 8 else 0

    def time(self, count: int) -> int:
        """Returns a count of units in nanoseconds."""
        return count * NANOSECOND // self.units + self.offset * NANOSECOND


def options_of(order: str, data: bytes) -> Dict[int, bytes]:
    """Returns the options of a block by their codes."""
    found: Dict[int, bytes] = {}
    at = 0
    while at + 4 <= len(data):
        code, size = struct.unpack(order + "HH", data[at : at + 4])
        if code == 0:
            break
        found[code] = data[at + 4 : at + 4 + size]
        at += 4 + (size + 3) // 4 * 4
    return found
