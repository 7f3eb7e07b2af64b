"""Reads the QUIC packets in the datagrams of a capture. qpk-capture reads it.

A connection is found by the connection IDs of its packets, and else by the addresses of its ends. Its keys are those of the
client's random, which Initial packets have. Without these, each secret of the key log is tried.
"""

import re
from typing import Dict, Iterator, List, Optional, Set

from qpk.connections import Kept, Pair, QuicConnection
from qpk.datagrams import Datagram, text_of
from qpk.keys import EARLY, INITIAL, RETRY, SHORTEST, VERSIONS, KeyLog, Keys, Opened, initial_secrets
from qpk.libcrypto import AES_128
from qpk.lines import PEER
from qpk.owners import Owner, Owners
from qpk.quic import FIXED_BIT, LongHeader, is_long, read_long_header
from qpk.seen import Seen
from qpk.strangers import ENOUGH, Found, Room, Strangers
from qpk.streams import Connection

MOST_CONNECTIONS = 1 << 12  # that are read; Initial packets of more are left out
LEAST_SEGMENT, MOST_SEGMENT = 1200, 1500  # bytes of a datagram of those that were captured as one
MOST_SIZES = 8  # of these datagrams, between two addresses
ZEROS = re.compile(rb"\0*")


class Reader:
    """Reads the datagrams of a capture."""

    def __init__(self, log: KeyLog) -> None:
        self.log = log
        self.connections: List[QuicConnection] = []
        self.owners = Owners()
        self.room = Room()
        self.strangers = Strangers(log, self.room)
        self.early: Dict[Pair, List[Kept]] = {}  # packets of early data before those that begin their connection
        self.sizes: Dict[Pair, Set[int]] = {}  # of datagrams that were captured as one
        self.first_time: Optional[int] = None
        self.others: Set[int] = set()  # versions that are not read
        self.quic = 0  # datagrams that look like QUIC
        self.left_out = 0  # connections above the most

    # ---- Datagrams

    def read(self, time: int, datagram: Datagram) -> None:
        """Reads a datagram."""
        self.quic += len(datagram.data) > SHORTEST and datagram.data[0] & FIXED_BIT != 0
        self.read_from(time, datagram, 0)

    def read_from(self, time: int, datagram: Datagram, begin: int) -> None:
        """Reads the packets of a datagram from an offset on."""
        data = datagram.data
        while begin < len(data):
            if is_long(data, begin):
                end = self.read_long(time, datagram, begin)
            else:
                end = self.read_short(time, datagram, begin) or self.end_of_filling(data, begin)
            if not end:
                self.note_unread(time, datagram, begin)
                return
            begin = end

    def end_of_filling(self, data: bytes, begin: int) -> int:
        """Returns where the zeros end that fill a datagram behind its packets, or 0 if there are none."""
        end = ZEROS.match(data, begin).end() if begin else 0  # type: ignore[union-attr] # it always matches
        return end if end > begin else 0

    def note_unread(self, time: int, datagram: Datagram, begin: int) -> None:
        """Counts a packet that no key opens, or keeps it if it is of no connection."""
        own = self.owner_of(datagram, begin)
        if own and not (own[0].is_late and own[1] not in own[0].candidates):
            own[0].fail(own[1])
        elif not begin and not is_long(datagram.data, begin):
            self.meet(Kept(time, datagram, begin))

    def owner_of(self, datagram: Datagram, begin: int) -> Optional[Owner]:
        """Returns the connection that a packet is of, as its addresses or its connection ID tell."""
        own = self.owners.by_pair.get((datagram.source, datagram.target))
        if own or is_long(datagram.data, begin):
            return own
        return next(((it, mark) for it, mark, _ in self.owners.of_short(datagram, begin)), None)

    def relative(self, time: int) -> int:
        """Returns a time since the first packet of the capture."""
        return time - (self.first_time or 0)

    # ---- Long headers

    def read_long(self, time: int, datagram: Datagram, begin: int) -> int:
        """Reads a packet with a long header, and returns where it ends, or 0."""
        header = read_long_header(datagram.data, begin)
        if header is None:
            self.note_version(datagram.data, begin)
            return 0
        pair = (datagram.source, datagram.target)
        found = self.owners.find_by_id(header.target) or self.owners.by_pair.get(pair)
        if header.kind == INITIAL:
            found = self.read_initial(datagram, begin, header, found)
        if not found:
            if header.kind == EARLY:
                self.room.keep(self.early.setdefault(pair, []), Kept(time, datagram, begin))
            return header.end
        connection, mark = found
        if header.version not in connection.versions:
            connection.versions.append(header.version)
        self.owners.join(pair, connection, mark)
        if header.kind == RETRY and not connection.is_answered:
            connection.begin(header.version, header.source)
        self.owners.name(connection, PEER[mark], header.source)
        if header.kind == EARLY:
            self.read_early(Kept(time, datagram, begin), header, connection)
        if connection.random and connection.kept:
            self.read_kept(connection)
        return header.end

    def note_version(self, data: bytes, begin: int) -> None:
        """Notes the version of a packet that can't be read, if it is one."""
        number = int.from_bytes(data[begin + 1 : begin + 5], "big")
        if len(data) >= LEAST_SEGMENT and number and number not in VERSIONS and len(self.others) < ENOUGH:
            self.others.add(number)

    def read_initial(self, datagram: Datagram, begin: int, header: LongHeader, found: Optional[Owner]) -> Optional[Owner]:
        """Reads an Initial packet, and returns its connection, which it may begin, and the mark of its sender."""
        data, at = datagram.data, header.number_at
        if found:
            connection, mark = found
            packet = connection.initial_keys(mark, header.version).open(data, begin, at, (header.end,))
            if packet:
                self.take_initial(connection, mark, packet)
                return found
        keys = Keys(initial_secrets(header.version, header.target)[">"], AES_128, header.version)
        packet = keys.open(data, begin, at, (header.end,))
        if not packet:
            return found
        if not found or found[1] == "<" or found[0].is_answered:
            if len(self.connections) >= MOST_CONNECTIONS:
                self.left_out += 1
                return None
            found = QuicConnection(datagram.source, datagram.target), ">"
            self.connections.append(found[0])
            # A connection before it between the same ends is over. Packets that came before it may be its own.
            pair = (datagram.source, datagram.target)
            self.owners.forget(pair)
            early = self.early.pop(pair, [])
            self.room.release(early)
            for it in sorted([*early, *self.forget(pair)], key=lambda it: it.time):
                self.room.keep(found[0].kept, it)
        found[0].begin(header.version, header.target)  # after a Retry again, whose packet may be missing
        self.owners.name(found[0], ">", header.target)
        self.take_initial(found[0], ">", packet)
        return found

    def take_initial(self, connection: QuicConnection, mark: str, packet: Opened) -> None:
        """Takes an Initial packet that was opened."""
        if mark == ">":
            connection.take_hello(packet.payload)
        else:
            connection.is_answered = True

    def read_early(self, kept: Kept, header: LongHeader, connection: QuicConnection) -> None:
        """Reads a packet of early data, or keeps it until the client's random is known."""
        if not connection.random:
            self.room.keep(connection.kept, kept)
            return
        for keys in connection.keys(EARLY, self.log):
            packet = keys.open(kept.datagram.data, kept.begin, header.number_at, (header.end,))
            if packet:
                connection.choose(EARLY, keys)
                connection.take(kept._replace(time=self.relative(kept.time)), ">", packet)
                return

    def read_kept(self, connection: QuicConnection) -> None:
        """Reads the packets that were kept."""
        kept, connection.kept = connection.kept, []
        self.room.release(kept)
        for it in kept:
            if is_long(it.datagram.data, it.begin):
                header = read_long_header(it.datagram.data, it.begin)
                if header:
                    self.read_early(it, header, connection)
            else:
                self.read_short(it.time, it.datagram, it.begin)

    # ---- Short headers

    def read_short(self, time: int, datagram: Datagram, begin: int) -> int:
        """Reads a packet with a short header, and returns where it ends, or 0."""
        pair = (datagram.source, datagram.target)
        for connection, mark, length in self.owners.of_short(datagram, begin):
            if connection.is_late and mark not in connection.candidates:
                continue  # its keys are looked for
            if not connection.random:
                self.room.keep(connection.kept, Kept(time, datagram, begin))
                return len(datagram.data)
            packet = self.open_short(connection, mark, datagram, begin, length)
            if packet:
                self.owners.join(pair, connection, mark)
                if not connection.ids[mark]:
                    self.owners.name(connection, mark, datagram.data[begin + 1 : begin + 1 + length])
                connection.take(Kept(self.relative(time), datagram, begin), mark, packet)
                while connection.new_ids:
                    self.owners.name(connection, *connection.new_ids.pop())
                return packet.end
        return 0

    def open_short(
        self, connection: QuicConnection, mark: str, datagram: Datagram, begin: int, length: int
    ) -> Optional[Opened]:
        """Opens a short packet with a connection ID of some length by the keys of an end."""
        pair, data, at = (datagram.source, datagram.target), datagram.data, begin + 1 + length
        for keys in connection.keys(mark, self.log):
            packet = keys.open(data, begin, at, self.likely_ends(pair, data, begin, length))
            if not packet and connection.in_a_row[mark] < ENOUGH:
                packet = self.open_after_gap(connection, mark, keys, data, begin, at)
            if packet:
                connection.choose(mark, keys)
                sizes = self.sizes.setdefault(pair, set()) if not begin and packet.end < len(data) else set()
                if len(sizes) < MOST_SIZES:
                    sizes.add(packet.end)
                return packet
        return None

    def open_after_gap(
        self, connection: QuicConnection, mark: str, keys: Keys, data: bytes, begin: int, at: int
    ) -> Optional[Opened]:
        """Opens a short packet that is captured with others as one, or comes after many that are not in the capture."""
        if len(data) - begin > LEAST_SEGMENT:
            packet = keys.open(data, begin, at, self.possible_ends(data, begin))
            if packet:
                return packet
        largest, known = keys.largest, connection.acknowledged[mark].lasts
        if known and known[-1] > largest:
            keys.largest = known[-1]  # the peer tells of packets that are not here
            packet = keys.open(data, begin, at, (len(data),))
            if packet:
                return packet
            keys.largest = largest
        for packet in keys.search(data, begin, at) if largest >= 0 else ():
            if packet or not self.room.may_try():
                return packet
        return None

    def likely_ends(self, pair: Pair, data: bytes, begin: int, length: int) -> Iterator[int]:
        """Yields where a short packet may end: with the datagram, or before another one that was captured with it."""
        known = [end for end in ((begin // size + 1) * size for size in self.sizes.get(pair, ())) if end < len(data)]
        yield from known
        yield len(data)
        target = data[begin + 1 : begin + 1 + length]
        at = data.find(target, begin + 1 + length) if length >= 4 else -1
        while at > 0 and self.room.may_try():
            yield at - 1
            at = data.find(target, at + 1)

    def possible_ends(self, data: bytes, begin: int) -> Iterator[int]:
        """Yields where a short packet may end, if nothing tells how long the datagrams are that were captured as one."""
        for end in range(min(len(data) - 1, begin + MOST_SEGMENT), begin + LEAST_SEGMENT - 1, -1):
            if not self.room.may_try():
                return
            yield end

    # ---- Connections without their first packets

    def meet(self, kept: Kept) -> None:
        """Keeps a short packet of no connection. Looks for its keys once there are enough between its addresses."""
        pair = (kept.datagram.source, kept.datagram.target)
        if self.strangers.meet(pair, kept):
            self.find_keys(pair)

    def forget(self, pair: Pair) -> List[Kept]:
        """Returns the packets that were kept between two addresses, in both directions, in the order of their times."""
        kept = self.strangers.forget(pair) + self.strangers.forget((pair[1], pair[0]))
        return sorted(kept, key=lambda it: it.time)

    def find_keys(self, pair: Pair) -> None:
        """Looks for the keys of short packets between two addresses, and reads these if it finds them."""
        own = self.owners.by_pair.get(pair)
        found = self.strangers.find(pair, (own[0].random, own[1]) if own else None)
        if found is None or not self.begin_late(found, pair):
            self.strangers.give_up(pair)
            return
        back = (pair[1], pair[0])
        if back in self.strangers.kept:
            found = self.strangers.find(back, (found.random, PEER[found.mark]))
            if found:
                self.begin_late(found, back)
        for it in self.forget(pair):
            self.read_from(it.time, it.datagram, it.begin)

    def begin_late(self, found: Found, pair: Pair) -> bool:
        """Begins a connection whose first packets are not in the capture, or goes on with it. Returns whether it does."""
        connection = next((it for it in self.connections if it.random == found.random), None)
        if connection is None:
            if len(self.connections) >= MOST_CONNECTIONS:
                self.left_out += 1
                return False
            client, server = pair if found.mark == ">" else (pair[1], pair[0])
            connection = QuicConnection(client, server)
            connection.random, connection.is_late, connection.versions = found.random, True, [found.keys.version]
            self.connections.append(connection)
        connection.choose(found.mark, found.keys)
        self.owners.join(pair, connection, found.mark)
        self.owners.name(connection, found.mark, found.target)
        return True

    # ---- What was read

    def finish(self) -> None:
        """Looks for the keys of what is left, once all packets came. Counts the packets that no key opened."""
        for pair in list(self.strangers.kept):
            if pair in self.strangers.kept:
                self.find_keys(pair)
        for connection in self.connections:
            for kept in connection.kept:
                connection.fail(">" if kept.datagram.target == connection.server else "<")

    def connections_read(self) -> Iterator[Connection]:
        """Yields the connections of which a packet was opened."""
        for number, it in enumerate(self.connections):
            about = {"client": text_of(it.client), "server": text_of(it.server)}
            if it.is_read():
                seen = Seen({">": it.seen_of(">"), "<": it.seen_of("<")}, it.is_late)
                gaps, numbers = [*it.streams.gaps(), *it.faults], it.streams.numbers()
                yield Connection(number, about, it.lines, gaps, seen=seen, packets=it.packets, streams=numbers)
