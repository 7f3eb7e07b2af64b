"""Datagrams of UDP in the packets of a capture: links, IP and its fragments. qpk-capture reads it."""

import socket
from collections import OrderedDict
from typing import Dict, NamedTuple, Optional, Tuple

MOST_FRAGMENTED = 64  # datagrams whose fragments are kept at once; the oldest is left out for another
MOST_FRAGMENTS = 1 << 13  # of a datagram, which has at most 2^16 bytes; with more it is left out
MOST_HEADERS = 16  # extension headers of IPv6 before the datagram; with more the packet is left out
UDP = 17  # the protocol, in IP
HOP_BY_HOP, ROUTING, FRAGMENT, DESTINATION = 0, 43, 44, 60  # extension headers of IPv6 (RFC 8200, section 4)
# Where the packet of IP begins, by the type of the link: BSD loopback, raw IP, Linux cooked capture.
HEADS = {0: 4, 108: 4, 12: 0, 14: 0, 101: 0, 228: 0, 229: 0, 113: 16, 276: 20}
ETHERNET = 1
VLAN = (0x8100, 0x88A8, 0x9100)  # types of Ethernet before which a tag of four bytes stands

Address = Tuple[bytes, int]


class Datagram(NamedTuple):
    """A datagram of UDP."""

    source: Address
    target: Address
    data: bytes
    is_short: bool  # whether bytes of it are not in the capture
    packet: int = 0  # the number of its packet in the capture, or of its last fragment's; from 1, as in Wireshark


def text_of(address: Address) -> str:
    """Returns an address and its port as text."""
    host, port = address
    family = {4: socket.AF_INET, 16: socket.AF_INET6}.get(len(host))
    return f"{socket.inet_ntop(family, host) if family else host.decode(errors='replace')}:{port}"


def begin_of_ip(link: int, data: bytes) -> int:
    """Returns where the packet of IP begins in one of a link, or -1 if the link is of another type."""
    if link != ETHERNET:
        return HEADS.get(link, -1)
    at = 12
    while int.from_bytes(data[at : at + 2], "big") in VLAN:
        at += 4
    return at + 2


class Fragmented:
    """A datagram whose fragments come."""

    def __init__(self) -> None:
        self.pieces: Dict[int, bytes] = {}
        self.size = 0  # of all pieces
        self.end: Optional[int] = None  # where the last fragment ends

    def take(self, offset: int, data: bytes, is_last: bool) -> Optional[bytes]:
        """Takes a fragment, and returns the datagram if it is whole by then."""
        self.size += len(data) - len(self.pieces.get(offset, b""))
        self.pieces[offset] = data
        if is_last:
            self.end = offset + len(data)
        return self.whole() if self.end is not None and self.size >= self.end else None

    def whole(self) -> bytes:
        """Returns the datagram, or nothing of one that has a gap, as pieces that overlap may leave."""
        parts, taken = [], 0
        for offset in sorted(self.pieces):
            if offset > taken:
                return b""
            part = self.pieces[offset][taken - offset :]
            parts.append(part)
            taken += len(part)
        return b"".join(parts)


class Datagrams:
    """Finds the datagrams of UDP in packets."""

    def __init__(self) -> None:
        self.count = 0
        self.fragmented: "OrderedDict[Tuple[bytes, ...], Fragmented]" = OrderedDict()

    def of_packet(self, link: int, data: bytes) -> Optional[Datagram]:
        """Returns the datagram of a packet, if it has one, or is the last fragment of one."""
        at = begin_of_ip(link, data)
        if at < 0 or len(data) < at + 20:
            return None
        version = data[at] >> 4
        found = self.of_version_4(data[at:]) if version == 4 else self.of_version_6(data[at:]) if version == 6 else None
        if found:
            self.count += 1
        return found

    def of_version_4(self, data: bytes) -> Optional[Datagram]:
        """Returns the datagram of a packet of IPv4 (RFC 791)."""
        head, size = (data[0] & 15) * 4, int.from_bytes(data[2:4], "big")
        if data[9] != UDP or head < 20:
            return None
        part = int.from_bytes(data[6:8], "big")
        payload = data[head:size] if size >= head else data[head:]  # of a packet that a segmenting device sends it is 0
        if part & 0x3FFF:
            key = (data[12:16], data[16:20], data[4:6])
            return self.fragment(key, (part & 0x1FFF) * 8, payload, not part & 0x2000)
        return datagram_of(data[12:16], data[16:20], payload)

    def of_version_6(self, data: bytes) -> Optional[Datagram]:
        """Returns the datagram of a packet of IPv6 (RFC 8200)."""
        size, kind, at = int.from_bytes(data[4:6], "big"), data[6], 40
        data = data[: 40 + size] if size else data
        for _ in range(MOST_HEADERS):
            if kind == UDP:
                return datagram_of(data[8:24], data[24:40], data[at:])
            if len(data) < at + 8:
                return None
            if kind == FRAGMENT and data[at] == UDP:
                part = int.from_bytes(data[at + 2 : at + 4], "big")
                key = (data[8:24], data[24:40], data[at + 4 : at + 8])
                return self.fragment(key, part & 0xFFF8, data[at + 8 :], not part & 1)
            if kind not in (HOP_BY_HOP, ROUTING, DESTINATION):
                return None
            kind, at = data[at], at + 8 + data[at + 1] * 8
        return None

    def fragment(self, key: Tuple[bytes, ...], offset: int, data: bytes, is_last: bool) -> Optional[Datagram]:
        """Takes a fragment, and returns its datagram if that is whole by then."""
        it = self.fragmented.setdefault(key, Fragmented())
        whole = it.take(offset, data, is_last)
        if whole is not None or len(it.pieces) > MOST_FRAGMENTS:
            del self.fragmented[key]
        while len(self.fragmented) > MOST_FRAGMENTED:
            self.fragmented.popitem(last=False)
        return datagram_of(key[0], key[1], whole) if whole else None


def datagram_of(source: bytes, target: bytes, data: bytes) -> Optional[Datagram]:
    """Returns the datagram of UDP that bytes are (RFC 768)."""
    if len(data) < 8:
        return None
    ports = int.from_bytes(data[:2], "big"), int.from_bytes(data[2:4], "big")
    size = int.from_bytes(data[4:6], "big")
    payload = data[8:size] if size >= 8 else data[8:]
    return Datagram((source, ports[0]), (target, ports[1]), payload, size > len(data))
