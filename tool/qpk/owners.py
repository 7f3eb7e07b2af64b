"""Which connection of a capture a packet is of: by its connection ID, and else by its addresses. qpk-capture reads it."""

from typing import Dict, Iterator, List, Optional, Tuple

from qpk.connections import Pair, QuicConnection
from qpk.datagrams import Address, Datagram
from qpk.lines import PEER
from qpk.quic import LONGEST_ID

MOST_IDS = 1 << 16  # connection IDs that are kept of a capture
MOST_PAIRS = 1 << 16  # pairs of addresses whose connection is kept
MOST_NAMELESS = 32  # connections without a connection ID that are tried for a packet from a new address

Owner = Tuple[QuicConnection, str]  # a connection, and the mark of the end that sends


class Owners:
    """The connections of a capture by what their packets have."""

    def __init__(self) -> None:
        self.by_id: Dict[bytes, List[Owner]] = {}
        self.lengths: List[int] = []  # of these connection IDs, the longest first
        self.by_pair: Dict[Pair, Owner] = {}
        self.nameless: Dict[Address, List[QuicConnection]] = {}  # by servers, those whose packets may have no ID

    def forget(self, pair: Pair) -> None:
        """Forgets whose packets those between two addresses are."""
        self.by_pair.pop(pair, None)
        self.by_pair.pop((pair[1], pair[0]), None)

    def name(self, connection: QuicConnection, mark: str, target: bytes) -> None:
        """Notes the connection ID of packets that an end sends."""
        ids = connection.ids[mark]
        if target in ids or len(self.by_id) >= MOST_IDS:
            return
        ids.add(target)
        connection.lengths[mark].add(len(target))
        if not target:
            nameless = self.nameless.setdefault(connection.server, [])
            if connection not in nameless:
                nameless.insert(0, connection)
                del nameless[MOST_NAMELESS:]
            return
        self.by_id.setdefault(target, []).insert(0, (connection, mark))
        del self.by_id[target][MOST_NAMELESS:]
        if len(target) not in self.lengths:
            self.lengths = sorted([*self.lengths, len(target)], reverse=True)

    def join(self, pair: Pair, connection: QuicConnection, mark: str) -> None:
        """Notes that packets between two addresses are those of a connection, whose client may have moved."""
        if self.by_pair.get(pair, (None,))[0] is connection or len(self.by_pair) >= MOST_PAIRS:
            return
        self.by_pair[pair] = connection, mark
        self.by_pair[pair[1], pair[0]] = connection, PEER[mark]

    def find_by_id(self, target: bytes) -> Optional[Owner]:
        """Returns the newest connection that has a connection ID, and the mark of the end that sends to it."""
        return self.by_id[target][0] if target in self.by_id else None

    def of_short(self, datagram: Datagram, begin: int) -> Iterator[Tuple[QuicConnection, str, int]]:
        """Yields the connections that a short packet may be of, the mark of its sender, and the length of its ID."""
        data = datagram.data
        for length in self.lengths:
            for connection, mark in self.by_id.get(data[begin + 1 : begin + 1 + length], ()):
                yield connection, mark, length
        own = self.by_pair.get((datagram.source, datagram.target))
        if own:
            for length in own[0].lengths[own[1]] or range(LONGEST_ID + 1):
                yield own[0], own[1], length
        for server, mark in ((datagram.source, "<"), (datagram.target, ">")):
            for connection in self.nameless.get(server, ()):
                if b"" in connection.ids[mark] and (not own or connection is not own[0]):
                    yield connection, mark, 0
