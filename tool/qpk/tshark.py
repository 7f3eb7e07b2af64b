"""Captures as tshark reads them: the packets that it prints, as lines of a recording. qpk-capture reads it."""

import os
import re
import subprocess
import tempfile
import xml.etree.ElementTree as ElementTree
from dataclasses import dataclass
from typing import BinaryIO, Dict, Iterator, List, Optional, Tuple

from qpk.main import open_file
from qpk.streams import Connection, SourceError, Streams

Address = Tuple[str, str]
TIME = re.compile(r"(-?\d+(?:\.\d{1,6})?)\d*|")  # in seconds, of which more than six digits are not kept


# ---- Connections of a capture


@dataclass
class Piece:
    """Bytes of a stream, in a packet."""

    time: str
    source: Address
    target: Address
    stream: int
    offset: int
    data: bytes
    packet: int = 0  # its number in the capture


def server_of(pieces: List[Piece]) -> Address:
    """Returns the server of a connection: on a stream that goes one way, the number says who opened it."""
    for piece in pieces:
        if piece.stream & 2:
            return piece.source if piece.stream & 1 else piece.target
    return pieces[0].target


def connect(number: int, pieces: List[Piece]) -> Connection:
    """Makes a connection of its pieces."""
    server = server_of(pieces)
    client = next((it.source for it in pieces if it.source != server), pieces[0].target)
    streams, lines, packets = Streams(), [], []
    for piece in pieces:
        mark = "<" if piece.source == server else ">"
        for words in streams.take(mark, piece.stream, piece.offset, piece.data):
            lines.append(f"@{piece.time} {mark} {words}")
            packets.append(piece.packet)
    about = {"client": ":".join(client), "server": ":".join(server)}
    return Connection(number, about, lines, list(streams.gaps()), packets=packets, streams=streams.numbers())


# ---- The packets that tshark prints


def read_pieces(pdml: BinaryIO) -> Dict[int, List[Piece]]:
    """Returns the pieces of each connection, in the order of the packets."""
    connections: Dict[int, List[Piece]] = {}
    packets = 0
    try:
        for _, packet in ElementTree.iterparse(pdml):
            if packet.tag == "packet":
                packets += 1
                for number, piece in pieces_of(packet):
                    connections.setdefault(number, []).append(piece)
                packet.clear()
    except ElementTree.ParseError as error:
        raise SourceError(f"what tshark printed is no PDML: {error}") from None
    except ValueError as error:
        raise SourceError(f"packet {packets} of what tshark printed has a value of another kind: {error}") from None
    return connections


def shown(packet: ElementTree.Element, *names: str) -> str:
    """Returns what the first field of these names shows, or nothing."""
    for name in names:
        for it in packet.iter("field"):
            if it.get("name") == name:
                return it.get("show", "")
    return ""


def time_of(text: str) -> str:
    """Returns the time of a packet, which is a word of the lines that qpk reads."""
    found = TIME.fullmatch(text)
    if not found:
        raise ValueError(f"{text!r} is no time in seconds")
    return found[1] or ""


def pieces_of(packet: ElementTree.Element) -> Iterator[Tuple[int, Piece]]:
    """Yields the pieces of streams in a packet, each with the number of its connection."""
    time = time_of(shown(packet, "frame.time_relative"))
    source = (shown(packet, "ip.src", "ipv6.src"), shown(packet, "udp.srcport"))
    target = (shown(packet, "ip.dst", "ipv6.dst"), shown(packet, "udp.dstport"))
    number, stream, offset = 0, None, 0
    in_packet = int(shown(packet, "frame.number", "num") or 0)
    for it in packet.iter("field"):
        name = it.get("name")
        if name == "quic.connection.number":
            number = int(it.get("show", "0"))
        elif name == "quic.stream.stream_id":
            stream, offset = int(it.get("show", "0")), 0
        elif name == "quic.stream.offset":
            offset = int(it.get("show", "0"))
        elif name == "quic.stream_data" and stream is not None:
            yield number, Piece(time, source, target, stream, offset, bytes.fromhex(it.get("value", "")), in_packet)
            stream = None


def run_tshark(capture: str, keys: Optional[str]) -> Dict[int, List[Piece]]:
    """Returns the pieces of each connection in a capture."""
    words = [os.environ.get("TSHARK", "tshark"), "-r", capture, "-Y", "quic", "-T", "pdml"]
    if keys is not None:
        open_file(keys).close()  # tshark goes on without a file that it can't read
        words += ["-o", f"tls.keylog_file:{os.path.abspath(keys)}"]
    with tempfile.TemporaryFile() as complaints:  # a pipe that is not read would stop tshark once it is full
        try:
            with subprocess.Popen(words, stdout=subprocess.PIPE, stderr=complaints) as tshark:
                assert tshark.stdout
                pieces = read_pieces(tshark.stdout)
        except FileNotFoundError:
            raise SourceError("tshark is not in PATH: install it, or name it in the variable TSHARK") from None
        except SourceError:
            if tshark.returncode <= 0:
                raise
        complaints.seek(0)
        said = complaints.read().decode(errors="replace").strip()
    if tshark.returncode:
        raise SourceError(f"tshark can't read {capture}: {said.splitlines()[-1] if said else tshark.returncode}")
    return pieces
