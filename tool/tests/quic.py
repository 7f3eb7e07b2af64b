#!/usr/bin/env python3
"""Tests how tool/qpk-capture reads packets of QUIC by libcrypto: keys, versions, connection IDs, and hostile peers.

    tool/tests/quic.py

Its connections are made by tool/tests/sealed.py. Without libcrypto nothing is tested. It ends with a line 'quic: N tests ..
passed', and with status 1 if a test failed.
"""
import hmac
import random
import sys
import time

from captures import mutated
from connections import LINES, WORDS, assert_whole, file_of, joined, made, read, run_with_libcrypto, words_of
from running import assert_linear
from slowness import measure_slowness

# These are in tool/, which captures.py puts into the path of modules, as it does tests/.
import qpk.datagrams
import qpk.keys
import qpk.libcrypto
import qpk.quic
import qpk.reader
import qpk.strangers
from qpk.streams import SourceError
from sealed import CLIENT, SERVER, Made, ack_frame, crypto_frame, ip_packets, pcapng, stream_frame

RFC_9001 = "8394c8f03e515708"  # the client's connection ID in its appendix A, and in that of RFC 9369
SUITES = qpk.libcrypto.ALL
VERSIONS = (qpk.keys.VERSION_1, qpk.keys.VERSION_2)


def test_vectors_of_the_standards():
    """The keys of RFC 9001, appendix A, and of RFC 9369, appendix A; and the packet with ChaCha20 of both."""
    for version, key, iv, mask_key in (
        (0, "1f369613dd76d5467730efcbe3b1a22d", "fa044b2f42a3fd3b46fb255c", "9f50449e04a0e810283a1e9933adedd2"),
        (1, "8b1a0bc121284290a29e0971b5cd045d", "91f73e2351d8fa91660e909f", "45b95e15235d6f45a6b19cbcb0294ba9"),
    ):
        secret = qpk.keys.initial_secrets(VERSIONS[version], bytes.fromhex(RFC_9001))[">"]
        keys = qpk.keys.Keys(secret, qpk.libcrypto.AES_128, VERSIONS[version])
        derived = [keys.derive(secret, label, size).hex() for label, size in ((b" key", 16), (b" iv", 12), (b" hp", 16))]
        assert derived == [key, iv, mask_key], version
    secret = bytes(range(48))  # of the suite that has no vector there: its hash is that of RFC 8446, appendix B.4
    keys = qpk.keys.Keys(secret, qpk.libcrypto.AES_256, qpk.keys.VERSION_1)
    info = b"\0\x20\x0etls13 quic key\0\1"
    assert keys.derive(secret, b" key", 32) == hmac.new(secret, info, "sha384").digest()[:32]
    secret = bytes.fromhex("9ac312a7f877468ebe69422748ad00a15443f18203a07d6060f688f30f21632b")
    for version, packet in enumerate(
        ("4cfe4189655e5cd55c41f69080575d7999c25a5bfb", "5558b1c60ae7b6b932bc27d786f4bc2bb20f2162ba")
    ):
        keys = qpk.keys.Keys(secret, qpk.libcrypto.CHACHA20, VERSIONS[version])
        keys.largest = 654360563
        opened = keys.open(bytes.fromhex(packet), 0, 1, (21,))
        assert opened and (opened.number, opened.payload) == (654360564, b"\1"), version


def test_packet_numbers_that_are_written_in_part():
    """The example of RFC 9000, appendix A.3; and numbers before and after a multiple of what is written."""
    for written, size, largest, whole in (
        (0x9B32, 2, 0xA82F30EA, 0xA82F9B32),
        (5, 1, 0xFE, 0x105),
        (0xFF, 1, 0x100, 0xFF),
        (0x80, 1, -1, 0x80),
        (0, 4, (1 << 32) - 1, 1 << 32),
    ):
        assert qpk.keys.whole_number(written, size, largest) == whole, (written, size, largest)


def test_a_retry_of_the_standards():
    """The Retry packets of both appendices are read: the client goes on with the connection ID that they choose."""
    for version, packet in enumerate(
        (
            "ff000000010008f067a5502a4262b5746f6b656e04a265ba2eff4d829058fb3f0f2496ba",
            "cf6b3343cf0008f067a5502a4262b5746f6b656ec8646ce8bfe33952d955543665dcc7b6",
        )
    ):
        header = qpk.quic.read_long_header(bytes.fromhex(packet), 0)
        assert (header.version, header.kind, header.source.hex()) == (VERSIONS[version], "retry", "f067a5502a4262b5")


def test_suites_and_versions():
    """Each suite with each version; a server that answers in the other version; a Retry, also one that is missing."""
    for suite in SUITES:
        for version in VERSIONS:
            assert_whole(made(suite=suite, version=version))
    connection = Made(version=qpk.keys.VERSION_2)
    connection.send(">", connection.initial(">", crypto_frame(connection.hello()), qpk.keys.VERSION_1))
    connection.send("<", connection.initial("<", crypto_frame(b"\2\0\0\0")))
    assert_whole(connection.take(LINES))
    for version in VERSIONS:
        for left_out in ((), (0,), (1,), (0, 1)):
            connection = Made(version=version).retry().begin().take(LINES)
            connection.datagrams = [it for at, it in enumerate(connection.datagrams) if at not in left_out]
            found = assert_whole(connection)
            assert found.number == 0


def test_a_hello_in_pieces():
    """The handshake's first bytes may come in several packets, in any order, and after the server's."""
    connection = Made()
    hello = connection.hello()
    for number, (begin, end) in enumerate(((20, 40), (0, 4), (40, len(hello)), (4, 20))):
        connection.send(">", connection.initial(">", crypto_frame(hello[begin:end], begin), number=number))
    assert_whole(connection.take(LINES))


def test_connection_ids():
    """Of any length, new ones, and those that are told in a packet and used from another port."""
    for client, server in ((0, 8), (1, 1), (3, 18), (20, 20), (8, 0), (0, 0)):
        assert_whole(made(client_id=b"c" * client, server_id=b"s" * server))
    connection = Made().begin().take(LINES[:40])
    connection.send("<", connection.packet("<", b"\x18\x01\0\x0bnew one too" + bytes(16)))
    connection.ids[">"], connection.ends[">"] = b"new one too", (bytes([10, 0, 0, 9]), 1234)
    connection.take(LINES[40:], acknowledge=0)
    assert_whole(connection)
    # Empty ones: a moved port is that of a connection with the same server.
    connection = Made(client_id=b"").begin().take(LINES[:40])
    connection.ends[">"] = (bytes([10, 0, 0, 9]), 1234)
    other = Made(name="other", client_id=b"").begin().take(LINES[:10])
    other.ends[">"] = (bytes([10, 0, 0, 3]), 1)
    for when, *ends, data in other.datagrams:
        connection.datagrams.append((when, *(other.ends[">"] if end == CLIENT else end for end in ends), data))
    connection.take(LINES[40:], acknowledge=0)
    first, second = read(pcapng(ip_packets(connection.datagrams), secrets=connection.keys() + other.keys()))
    assert words_of(first) == WORDS and words_of(second) == WORDS[:10]


def test_key_updates():
    """Several in each direction, with packets of old keys that come after those of new ones."""
    connection = Made().begin()
    late = []
    for at, line in enumerate(LINES):
        _, mark, words = line.split(" ", 2)
        if at % 14 == 13:
            for sealer in connection.sealers.values():
                sealer.update()
        packet = connection.packet(mark, connection.frames(mark, words))
        if at % 14 in (11, 12):
            late.append((mark, packet))
            continue
        connection.send(mark, packet)
        while late and at % 14 == 7:
            connection.send(*late.pop())
    for it in late:
        connection.send(*it)
    (found,) = read(file_of(connection))
    assert joined(words_of(found)) == joined(WORDS) and not found.seen.lacks(), found.seen


def test_early_data():
    """It is read from the client's hello on, also where it comes before that."""
    for turn in (1, -1):
        connection = Made()
        sealer = connection.sealers["early"]
        hello = (">", connection.initial(">", crypto_frame(connection.hello())))
        early = []
        own = [words[2:] for words in WORDS if words[0] == ">"][:3]
        for number, words in enumerate(own):
            payload = connection.frames(">", words)
            early.append((">", sealer.long("early", number, connection.first_target, b"client", payload)))
        for it in [hello, *early][::turn]:
            connection.send(*it)
        connection.numbers[">"] = len(early)
        connection.send("<", connection.initial("<", crypto_frame(b"\2\0\0\0")))
        rest = [line for line in LINES if line.split(" ", 2)[2] not in own]
        connection.take(rest)
        (found,) = read(file_of(connection))
        expected = [f"> {it}" for it in own]
        assert sorted(words_of(found)[:3]) == sorted(expected) and len(found.lines) == len(LINES), (turn, found.lines[:3])
        assert not found.seen.lacks()


def test_packets_before_their_keys():
    """Short packets that come before the hello are kept until it is there."""
    connection = made()
    hello, answer, *rest = connection.datagrams
    times = [it[0] for it in connection.datagrams]
    for order in ([answer, *rest[:5], hello, *rest[5:]], [*rest[:3], hello, answer, *rest[3:]]):
        connection.datagrams = [(when, *it[1:]) for when, it in zip(times, order)]
        assert_whole(connection)


def test_datagrams_captured_as_one():
    """Those that a device was to separate are told apart, with and without connection IDs, and with a reserved bit."""
    for target in (b"", b"client"):
        for grease in (0x40, 0x00):
            connection = Made(client_id=target).begin()
            waiting = b""
            for line in LINES:
                _, mark, words = line.split(" ", 2)
                payload = connection.frames(mark, words)
                if mark == ">":
                    connection.send(mark, connection.packet(mark, payload))
                    continue
                packet = connection.packet(mark, payload + bytes(1200 - len(payload)), grease=grease)
                waiting += packet
                if len(waiting) > 4000:
                    connection.send(mark, waiting)
                    waiting = b""
            if waiting:
                connection.send("<", waiting)
            (found,) = read(file_of(connection))
            assert sorted(words_of(found)) == sorted(WORDS), (target, grease, len(found.lines))
            assert not found.seen.lacks()


def test_streams_that_are_given_up():
    """A gap in a stream that its sender resets is none of the file."""
    connection = Made().begin()
    connection.send(">", connection.packet(">", stream_frame(4, 100, b"late")))
    assert read(file_of(connection))[0].seen.ends[">"].gaps == 1
    connection.send(">", connection.packet(">", b"\x04\x04\0\x40\x68"))
    (found,) = read(file_of(connection))
    missing = ["> stream 4: bytes from 0 to 100 are missing, and its sender gave it up"]
    assert not found.seen.lacks() and found.missing == missing


def test_several_connections():
    """Each has its own lines, also where a second one is between the same ends."""
    one, other = made(), Made(name="other").begin().take(LINES[:20])
    data = pcapng(ip_packets(one.datagrams + other.datagrams), secrets=one.keys() + other.keys())
    first, second = read(data)
    assert (words_of(first), words_of(second)) == (WORDS, WORDS[:20]) and (first.number, second.number) == (0, 1)
    (only,) = read(pcapng(ip_packets(one.datagrams + other.datagrams), secrets=other.keys()))
    assert words_of(only) == WORDS[:20] and only.number == 1


# ---- Hostile peers


def test_hostile_peers():
    """Sealed packets with any frames, streams and offsets: no exception, and the other lines are there."""
    for seed in range(150):
        choice, connection = random.Random(seed), Made().begin().take(LINES[:20])
        for _ in range(12):
            mark, kind = choice.choice("><"), choice.randrange(4)
            payload = bytes(choice.randrange(256) for _ in range(choice.randrange(60)))
            number = 4 * choice.randrange(1000) + 400 if choice.random() < 0.5 else choice.randrange(1 << 62)
            if kind == 0:
                payload = stream_frame(number, choice.choice((0, 1, 1 << 61, (1 << 62) - 1)), payload)
            elif kind == 1:
                payload = ack_frame(number // 2, number) + payload
            elif kind == 2:
                payload = stream_frame(choice.choice((2, 3)) + 400, 0, b"\0\4" + payload)
            connection.send(mark, connection.packet(mark, payload))
        for connection in read(file_of(connection)):
            assert set(WORDS[:20]) <= set(words_of(connection)), (seed, connection.missing)
    connection = Made().begin()
    connection.send("<", connection.packet("<", stream_frame(3, 0, b"\0\4\1\x41")))
    (found,) = read(file_of(connection))
    assert found.missing == ["< stream 3 has a frame of type 4 that ends within an integer, and is left out"]


def test_mutated_packets():
    """Packets of which some have bytes changed: those are not opened, and no line changes."""
    connection = made()
    for seed in range(30):
        choice = random.Random(seed)
        packets = ip_packets(connection.datagrams)
        packets = [(when, mutated(choice, data) if choice.random() < 0.2 else data) for when, data in packets]
        try:
            found = read(pcapng(packets, secrets=connection.keys()))
        except SourceError:
            continue
        for it in found:
            assert set(words_of(it)) <= set(WORDS) or it.seen.lacks(), seed


def test_bounds_of_a_hostile_capture():
    """Many connections, packets without keys and strangers: the time is linear, and tables keep to their bounds."""
    junk = [b"\x41" + bytes([it % 256, it // 256]) + bytes(40) for it in range(3000)]
    log = qpk.keys.KeyLog()
    log.learn("".join(Made(name=str(it)).keys() for it in range(50)))
    begin = time.process_time()
    reader = qpk.reader.Reader(log)
    for at, data in enumerate(junk):
        reader.read(at, qpk.datagrams.Datagram((bytes(4), at % 900), (bytes(4), 443), data, False))
    reader.finish()
    assert reader.room.tries <= qpk.strangers.MOST_TRIES + 64 * 50
    assert time.process_time() - begin < 20 * measure_slowness()

    def many(size):
        reader = qpk.reader.Reader(qpk.keys.KeyLog())
        for number in range(size):
            it = Made(name=str(number))
            data = it.initial(">", crypto_frame(it.hello()))
            reader.read(number, qpk.datagrams.Datagram((bytes(4), number), (bytes(4), 443), data, False))
        reader.finish()

    assert_linear(many, 60)

    def one(size):
        (connection,) = [Made().begin()]
        reader = qpk.reader.Reader(log)
        for when, source, target, data in connection.datagrams:
            reader.read(when, qpk.datagrams.Datagram(source, target, data, False))
        for number in range(size):
            reader.read(number, qpk.datagrams.Datagram(CLIENT, SERVER, b"\x41serverid" + bytes(60), False))

    assert_linear(one, 400)


def test_tries_have_a_bound():
    """Long packets that no key opens, between others, are tried with each length, until as much was tried as may be."""
    connection = Made(client_id=b"").begin()
    for number in range(20):
        connection.send("<", connection.packet("<", b"\1" + bytes(number)))
        connection.send("<", b"\x41" + bytes(1600))
    most, qpk.strangers.MOST_TRIES = qpk.strangers.MOST_TRIES, 1000
    try:
        log = qpk.keys.KeyLog()
        log.learn(connection.keys())
        reader = qpk.reader.Reader(log)
        for when, source, target, data in connection.datagrams:
            reader.read(when, qpk.datagrams.Datagram(source, target, data, False))
    finally:
        qpk.strangers.MOST_TRIES = most
    assert 1000 < reader.room.tries < 1200, reader.room.tries
    assert reader.connections[0].seen["<"].count() == 20 and reader.connections[0].unread["<"] == 20


def test_a_payload_that_is_too_long():
    """A net log may have a datagram that is longer than UDP allows: its packet is not opened."""
    connection = Made()
    sealer = connection.sealers[">"]
    keys = qpk.keys.Keys(connection.secrets[">"], connection.suite, connection.version)
    for size, is_open in ((qpk.libcrypto.MOST_PAYLOAD - 8, True), (qpk.libcrypto.MOST_PAYLOAD + 1, False), (1 << 22, False)):
        packet = sealer.short(0, b"", bytes(size))
        assert (keys.open(packet, 0, 1, (len(packet),)) is not None) == is_open, size


def test_packet_numbers():
    """The set of numbers is that of a set, whatever is added, and keeps to its bound."""
    for seed in range(200):
        choice, sets = random.Random(seed), []
        for _ in range(2):
            numbers, expected = qpk.quic.Numbers(), set()
            for _ in range(choice.randrange(12)):
                first = choice.randrange(40)
                last = first + choice.randrange(6)
                numbers.add(first, last)
                expected |= set(range(first, last + 1))
            assert [it for one, other in numbers.ranges() for it in range(one, other + 1)] == sorted(expected)
            sets.append((numbers, expected))
        (one, first), (other, second) = sets
        assert {it for begin, end in one.without(other) for it in range(begin, end + 1)} == first - second
    numbers = qpk.quic.Numbers()
    for it in range(3 * qpk.quic.MOST_RANGES):
        numbers.add(2 * it, 2 * it)
    assert len(numbers.firsts) <= qpk.quic.MOST_RANGES and numbers.lasts == sorted(numbers.lasts)


def test_many_requests():
    """1,000 requests are read in at most 2.5 seconds of a usual processor, which is five times what it takes."""
    connection = Made().begin()
    connection.take([f"@0 {mark} s 4096 16" for mark in "<>"])
    for number in range(1000):
        for mark in "><":
            frames = ack_frame(0, 1) + connection.frames(mark, f"b {4 * number} 0000d1d7")
            connection.send(mark, connection.packet(mark, frames))
    begin = time.process_time()
    (found,) = read(file_of(connection))
    assert len(found.lines) == 2002 and time.process_time() - begin < 2.5 * measure_slowness()


if __name__ == "__main__":
    sys.exit(run_with_libcrypto(globals(), "quic"))
