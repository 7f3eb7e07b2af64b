"""Chrome's net log: the datagrams in it, if it has raw bytes, and its header lists. qpk-capture reads it.

chrome://net-export writes it, with the choice to include raw bytes. So does --log-net-log, with
--net-log-capture-mode=Everything. It has an event a line, and may end anywhere.
"""

import base64
import json
import socket
from typing import Any, Dict, Iterable, Iterator, Optional, Tuple

from qpk.datagrams import Address, Datagram
from qpk.lists import HeaderList, fields_of_lines
from qpk.streams import SourceError

CONNECT, LOCAL_ADDRESS, SENT, RECEIVED = "UDP_CONNECT", "UDP_LOCAL_ADDRESS", "UDP_BYTES_SENT", "UDP_BYTES_RECEIVED"
LISTS = {"HTTP3_HEADERS_SENT": ">", "HTTP3_HEADERS_DECODED": "<", "HTTP3_PUSH_PROMISE_DECODED": "<"}
MOST_SOCKETS = 1 << 16  # whose addresses are kept
MILLISECOND = 10**6  # in nanoseconds


def is_net_log(head: bytes) -> bool:
    """Whether a file that begins with these bytes is a net log."""
    return head.lstrip().startswith(b'{"constants"')


def read_address(text: str) -> Address:
    """Returns an address and its port, of text."""
    host, _, port = text.rpartition(":")
    for family, part in ((socket.AF_INET, host), (socket.AF_INET6, host.strip("[]"))):
        try:
            return socket.inet_pton(family, part), int(port)
        except (OSError, ValueError):
            continue
    return host.encode(), int(port) if port.isascii() and port.isdigit() and len(port) < 6 else 0


class NetLog:
    """Reads the lines of a net log."""

    def __init__(self, lines: Iterable[str]) -> None:
        self.lines = iter(lines)
        self.names = self.read_names()
        self.own: Dict[int, Address] = {}  # addresses by sockets
        self.peer: Dict[int, Address] = {}
        self.without_bytes = 0  # datagrams

    def read_names(self) -> Dict[int, str]:
        """Returns the names of events by their numbers, of the first line."""
        first = next(self.lines, "").strip()
        try:
            types = json.loads(first.rstrip(",") + "}")["constants"]["logEventTypes"]
            return {number: name for name, number in types.items()}
        except (AttributeError, KeyError, TypeError, ValueError):
            raise SourceError("the net log has no events: name a file as Chrome wrote it") from None

    def events(self) -> Iterator[Tuple[str, int, int, Dict[str, Any]]]:
        """Yields each event: its name, its source, its time in nanoseconds, and its parameters."""
        for line in self.lines:
            text = line.strip().rstrip(",")
            try:
                it = json.loads(text[:-2] if text.endswith("]}") and not text.endswith("]}}") else text)
            except ValueError:
                continue  # the line before the events, and a last one that is cut
            if not isinstance(it, dict) or not isinstance(it.get("params"), dict):
                continue
            source = it.get("source")
            number = source.get("id") if isinstance(source, dict) else None
            time = str(it.get("time"))
            if isinstance(number, int) and isinstance(it.get("type"), int) and time.isascii() and time[:18].isdigit():
                yield self.names.get(it["type"], ""), number, int(time[:18]) * MILLISECOND, it["params"]

    def read(self) -> Iterator[Tuple[Optional[HeaderList], int, Optional[Datagram]]]:
        """Yields header lists, and datagrams with their times."""
        for name, number, time, params in self.events():
            if name in (SENT, RECEIVED):
                datagram = self.datagram(name, number, params)
                if datagram:
                    yield None, time, datagram
            elif name in LISTS:
                stream = params.get("stream_id")
                fields = fields_of_lines(params.get("headers"))
                if isinstance(stream, int) and fields:
                    yield HeaderList(LISTS[name], stream, fields, f"source {number}"), time, None
            elif isinstance(params.get("address"), str) and len(self.own) + len(self.peer) < MOST_SOCKETS:
                if name == CONNECT:
                    self.peer[number] = read_address(params["address"])
                elif name == LOCAL_ADDRESS:
                    self.own[number] = read_address(params["address"])

    def datagram(self, name: str, number: int, params: Dict[str, Any]) -> Optional[Datagram]:
        """Returns the datagram of an event, if it has its bytes."""
        text = params.get("bytes")
        if not isinstance(text, str):
            self.without_bytes += 1
            return None
        try:
            data = base64.b64decode(text)
        except ValueError:
            return None
        own = self.own.get(number, (b"socket %d" % number, 0))
        peer = self.peer.get(number) or read_address(str(params.get("address", "server:0")))
        return Datagram(own, peer, data, False) if name == SENT else Datagram(peer, own, data, False)
