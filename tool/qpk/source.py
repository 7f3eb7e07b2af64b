"""What a file is, and which connections are in it. qpk-capture reads it."""

import tempfile
from io import TextIOWrapper
from shutil import copyfileobj
from typing import Any, BinaryIO, Dict, Iterator, List, NamedTuple, Optional

import qpk.qlog
from qpk.datagrams import Datagrams
from qpk.files import Capture, open_plain
from qpk.keys import KeyLog
from qpk.libcrypto import Library
from qpk.lines import PLAIN_CAPTURES
from qpk.lists import MOST_LISTS, HeaderList, OnlyLists, is_har, lists_of_har
from qpk.main import complain, open_file
from qpk.netlog import NetLog, is_net_log
from qpk.reader import Reader
from qpk.streams import Connection, SourceError, to_text
from qpk.tshark import connect, run_tshark

HEAD = 64  # bytes of a file that say what it is
MOST_KEY_LINE = 1 << 12  # characters of a line of a key log; a longer one is read in parts, of which none is of a key log
MOST_JSON = 1 << 29  # bytes of a trace that is read
LIBCRYPTO, TSHARK = "libcrypto", "tshark"  # what may decrypt a capture
CAPTURE_AGAIN = "capture again with `dumpcap -s 0 -f 'udp port 443'`"


class Wanted(NamedTuple):
    """How a file is read."""

    keys: Optional[str] = None  # the name of the key log
    by: Optional[str] = None  # what decrypts
    is_qif: bool = False


def read_file(file: BinaryIO, wanted: Wanted) -> List[Connection]:
    """Returns the connections of a file."""
    if wanted.is_qif:
        return [Connection(0, {}, data=file.read())]
    head, plain = open_plain(file, HEAD)
    if head.startswith(PLAIN_CAPTURES):
        return read_capture(plain, wanted)
    if is_net_log(head):
        return read_net_log(plain, wanted)
    if wanted.keys is not None and not head:
        raise SourceError(f"the file is empty: {CAPTURE_AGAIN}")
    if wanted.keys is not None and not qpk.qlog.is_trace(head):
        raise SourceError("the file is no capture: name one of tcpdump, dumpcap or Wireshark, or leave out --keys")
    data = plain.read(MOST_JSON + 1)
    if not qpk.qlog.is_trace(head):
        return [Connection(0, {}, data=data)]
    if len(data) > MOST_JSON:
        raise SourceError(f"the trace is longer than {MOST_JSON} bytes: name a part of it")
    return read_trace(to_text(data))


def read_capture(plain: Any, wanted: Wanted) -> List[Connection]:
    """Returns the connections of a capture."""
    if wanted.by == TSHARK or wanted.by is None and Library.get() is None:
        with tempfile.NamedTemporaryFile(suffix=".pcap") as copy:
            copyfileobj(plain, copy)
            copy.flush()
            pieces = run_tshark(copy.name, wanted.keys)
        return [connect(it, pieces[it]) for it in sorted(pieces)]
    log = read_key_log(wanted)
    capture, datagrams, reader = Capture(plain, log.learn), Datagrams(), Reader(log)
    for packet in capture.packets():
        if reader.first_time is None:
            reader.first_time = packet.time
        datagram = datagrams.of_packet(packet.link, packet.data)
        if datagram:
            reader.read(packet.time, datagram._replace(packet=packet.number))
    reader.finish()
    connections = list(reader.connections_read())
    if capture.damage:
        complain(f"qpk-capture: {capture.damage}")
    if not connections:
        raise SourceError(why_no_packets(capture, datagrams) or why_nothing(reader, log))
    if capture.short:
        complain(f"qpk-capture: {cut_packets(capture)}")
    tell_left_out(reader)
    return connections


def read_key_log(wanted: Wanted) -> KeyLog:
    """Returns the secrets of the key log that is named."""
    if Library.get() is None:
        raise SourceError("libcrypto can't be loaded: install OpenSSL, or name it by the variable LIBCRYPTO")
    log = KeyLog()
    if wanted.keys is not None:
        with open_file(wanted.keys) as file:
            text = TextIOWrapper(file, "utf-8", "replace")
            for line in iter(lambda: text.readline(MOST_KEY_LINE), ""):
                log.learn(line)
        if not log.lines:
            raise SourceError(f"{wanted.keys} has no line of a key log: name the file that SSLKEYLOGFILE named")
    return log


def tell_left_out(reader: Reader) -> None:
    """Says which connections are not read."""
    for number, it in enumerate(reader.connections):
        if it.random and not it.is_read():
            why = "no secrets" if it.random not in reader.log.secrets else "no packets that its secrets open"
            complain(f"qpk-capture: connection {number} is left out: {why} for the client random {it.random}")
    if reader.left_out:
        complain(f"qpk-capture: connections above {len(reader.connections)} are left out: {reader.left_out}")


# ---- Why there is nothing


def cut_packets(capture: Capture) -> str:
    """Returns how many packets the snap length cut, and what to do."""
    return f"{capture.short} of {capture.count} packets are cut to {capture.longest_short} bytes: {CAPTURE_AGAIN}"


def why_no_packets(capture: Capture, datagrams: Datagrams) -> str:
    """Returns why a capture has no datagram that can be read, or nothing."""
    if not capture.count:
        return f"the capture has no packets: {CAPTURE_AGAIN}"
    if capture.short * 2 > capture.count:
        return cut_packets(capture)
    if not datagrams.count:
        return f"none of the {capture.count} packets is a datagram of UDP: {CAPTURE_AGAIN}"
    return ""


def why_nothing(reader: Reader, log: KeyLog) -> str:
    """Returns why no packet of QUIC was read."""
    randoms = [it.random for it in reader.connections if it.random]
    if reader.others:
        versions = ", ".join(f"{it:#x}" for it in sorted(reader.others))
        if not randoms:
            return f"its versions of QUIC are not read: {versions}; this reads versions 1 and 2"
    if not reader.connections:
        if not reader.quic:
            return f"no datagram is QUIC of version 1 or 2: {CAPTURE_AGAIN}"
        if not log.secrets:
            return "there are no secrets: name the key log by --keys, which the program writes where SSLKEYLOGFILE says"
        return (
            "it has no first packet of a connection, and no secret of the key log opens the others: start the capture"
            " before the connection"
        )
    if not log.secrets:
        return f"there are no secrets for the client random {first_of(randoms)}: name the key log by --keys"
    known = [it for it in randoms if it in log.secrets]
    if known:
        return f"the secrets for the client random {known[0]} open none of its packets: capture both directions, to the end"
    return (
        f"the key log has secrets of {len(log.secrets)} other connections, and none for the client random"
        f" {first_of(randoms)}: name the log that was written during this capture"
    )


def first_of(randoms: List[str]) -> str:
    """Returns the first client random as text."""
    return randoms[0] if randoms else "of its connections"


# ---- Net logs and traces


def lines_of(plain: Any) -> Iterator[str]:
    """Yields the lines of a file."""
    parts: List[bytes] = []  # of the line that is not whole yet
    size = 0
    for data in iter(lambda: plain.read(1 << 16), b""):
        first, *others = data.split(b"\n")
        parts.append(first)
        size += len(first)
        if size > MOST_JSON:
            raise SourceError(f"a line of the net log is longer than {MOST_JSON} bytes: name another file")
        for it in others:
            yield to_text(b"".join(parts))
            parts, size = [it], len(it)
    yield to_text(b"".join(parts))


def read_net_log(plain: Any, wanted: Wanted) -> List[Connection]:
    """Returns the connections of a net log."""
    log = read_key_log(wanted)
    net_log, reader = NetLog(lines_of(plain)), Reader(log)
    lists: List[HeaderList] = []
    for header_list, time, datagram in net_log.read():
        if reader.first_time is None:
            reader.first_time = time
        if datagram:
            reader.read(time, datagram)
        elif header_list and len(lists) < MOST_LISTS:
            lists.append(header_list)
    reader.finish()
    connections = list(reader.connections_read())
    if connections:
        tell_left_out(reader)
        return connections
    if reader.connections:
        raise SourceError(why_nothing(reader, log))
    if lists:
        raise OnlyLists(lists)
    raise SourceError("the net log has no raw bytes: export it again with the choice to include raw bytes")


def read_trace(text: str) -> List[Connection]:
    """Returns the connections of a trace, of a log of the example server, or why it has none."""
    records = qpk.qlog.read_records(text)
    first = records[0] if records else None
    if is_har(first):
        lists = list(lists_of_har(first))[:MOST_LISTS]
        if not lists:
            raise SourceError("the HAR has no header lists: export it again from the browser's network panel")
        raise OnlyLists(lists)
    if isinstance(first, dict) and "event" in first and "connection" in first:
        return connections_of_log(records)
    return qpk.qlog.connections_of_records(records)


# ---- The log of the example server


def connections_of_log(records: List[dict]) -> List[Connection]:
    """Returns the connections of a log of examples/http3-server, as --log writes it.

    The server logs a section before the instructions that it needs, and sends them before it. So they come first here.
    """
    found: Dict[int, Connection] = {}
    sections: Dict[int, List[str]] = {}  # that were logged, and whose instructions may follow
    try:
        for it in records:
            number = int(it["connection"])
            connection = found.setdefault(number, Connection(number, {"log": "the example server"}))
            words = words_of_event(it)
            if it["event"] != "sent":
                connection.lines += sections.pop(number, [])
            if it["event"] == "section sent":
                sections[number] = [words]
            elif words:
                connection.lines.append(words)
        for number, waiting in sections.items():
            found[number].lines += waiting
    except (AttributeError, KeyError, OverflowError, TypeError, ValueError) as error:
        raise SourceError(f"the log can't be read, as a value is of another kind: {error!r}") from None
    connections = [it for it in found.values() if it.lines]
    if not connections:
        raise SourceError("the log has no bytes of QPACK: have a browser open a page of the server")
    return connections


def words_of_event(it: Dict[str, Any]) -> str:
    """Returns the line that an event of the server is, or nothing."""
    kind = it["event"]
    if kind in ("begin", "settings"):
        return f"{'<' if kind == 'begin' else '>'} s {int(it['capacity'])} {int(it['blocked'])}"
    mark = "<" if str(kind).endswith("sent") else ">"
    if kind in ("sent", "received") and it["type"] in (2, 3):
        return f"{mark} {'e' if it['type'] == 2 else 'd'} {bytes.fromhex(it['hex']).hex()}"
    if kind in ("section sent", "section received"):
        return f"{mark} b {int(it['id'])} {bytes.fromhex(it['hex']).hex()}"
    return ""
