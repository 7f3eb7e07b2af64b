#!/usr/bin/env python3
"""Tests what tool/qpk-capture says of what a capture lacks, and which findings that may explain.

    tool/tests/lacking.py

Packets are left out of the captures in tests/captured, and of connections that tool/tests/sealed.py makes. Without libcrypto
nothing is tested. It ends with a line 'lacking: N tests .. passed', and with status 1 if a test failed.
"""
import json
import os
import random
import subprocess
import sys
import tempfile
from pathlib import Path

from captures import CAPTURED, ask
from connections import LINES, WHOLE, WORDS, assert_whole, file_of, made, marker_of, packets_of, read, run_with_libcrypto
from connections import words_of
from program import PROGRAM
from running import TOP

# These are in tool/, which captures.py puts into the path of modules, as it does tests/.
import qpk.seen
import qpk.source
from qpk.lines import ENDS
from sealed import CLIENT, SERVER, Made, ack_frame, ip_packets, pcapng


# A decoder that acknowledges no section, while its end sends other lines.
SILENT = "\n".join(
    ["> e 3fe11f6294e7838c767f", *(f"> b {4 * it} 020080" for it in range(16)), *(f"< b {4 * it} 0000d9" for it in range(16))]
)


def test_packets_left_out():
    """1 % of the packets, in 15 trials each: no end is accused, and what is missing is named."""
    seen = set()
    for name in WHOLE:
        first = 4 if name == "ngtcp2-gso.pcapng" else 16
        link, packets, keys = packets_of(name)
        for seed in range(15):
            choice = random.Random(seed)
            kept = [it for at, it in enumerate(packets) if at < first or choice.random() > 0.01]
            for connection in read(pcapng(kept, link, keys)):
                marker, lines, status = marker_of(connection)
                assert not marker.certain and status in (0, 4), (name, seed, lines)
                assert status == 0 or connection.seen.lacks() and len(kept) < len(packets), (name, seed, lines)
                seen.add((status, connection.seen.lacks()))
    assert {(0, False), (4, True)} <= seen, seen


def test_packets_that_are_named():
    """Of a connection that is made: each number that the peer acknowledged, and that is not there, and no other one."""
    for seed in range(15):
        choice, connection = random.Random(seed), made()
        begin = len(connection.datagrams) - sum(connection.numbers.values())
        left_out = sorted(choice.sample(range(begin, len(connection.datagrams) - 2), 3))
        numbers = {">": [], "<": []}
        counts = {">": 0, "<": 0}
        for at, (_, source, _, _) in enumerate(connection.datagrams[begin:], begin):
            mark = ">" if source == CLIENT else "<"
            numbers[mark] += [counts[mark]] if at in left_out else []
            counts[mark] += 1
        connection.datagrams = [it for at, it in enumerate(connection.datagrams) if at not in left_out]
        (found,) = read(file_of(connection))
        for mark in "><":
            lacking = [it for one, other in found.seen.ends[mark].missing for it in range(one, other + 1)]
            assert lacking == numbers[mark], (seed, mark, lacking, numbers)
            assert not numbers[mark] or f"not in the file: {ENDS[mark]} {numbers[mark][0]}" in found.seen.line()
        marker, lines, _ = marker_of(found)
        assert not marker.certain, (seed, lines)


def test_acknowledgments():
    """All ranges of a frame count, also with counts of congestion, and what is between them does not."""
    for counts in ((), (1, 2, 300)):
        connection = Made().begin()
        for number in range(10):
            connection.send(">", connection.packet(">", b"\1"))
        connection.datagrams = [it for at, it in enumerate(connection.datagrams) if at - 2 not in (1, 4, 6, 9)]
        connection.send("<", connection.packet("<", ack_frame(8, 9, (5, 6), (0, 2), counts=counts) + b"\1"))
        (found,) = read(file_of(connection))
        assert found.seen.ends[">"].missing == [(1, 1), (6, 6), (9, 9)], found.seen
        assert found.seen.line().startswith("packets: client 6 of 9, server 1 of 1; not in the file: client 1, 6, 9")


def test_numbers_that_are_skipped():
    """A number that an end leaves out, and that nobody acknowledged, is no gap."""
    connection = Made().begin()
    for at, line in enumerate(LINES):
        _, mark, words = line.split(" ", 2)
        connection.numbers[mark] += at % 3
        connection.send(mark, connection.packet(mark, connection.frames(mark, words)))
    assert_whole(connection)


def test_many_packets_in_a_row_left_out():
    """After them the numbers are found again: by what the peer acknowledged, or by trying."""
    for middle, size in ((300, 1), (70_000, 2)):
        for acknowledge in (0, 4):
            connection = Made().begin().take(LINES[:30], acknowledge)
            for mark in "><":
                connection.numbers[mark] += middle
            for line in LINES[30:]:
                _, mark, words = line.split(" ", 2)
                frames = ack_frame(middle, middle) if acknowledge else b""
                connection.send(mark, connection.packet(mark, frames + connection.frames(mark, words), size=size))
            (found,) = read(file_of(connection))
            assert words_of(found) == WORDS, (middle, acknowledge, len(found.lines))
            assert not any(it.unread for it in found.seen.ends.values())
            assert found.seen.lacks() == bool(acknowledge), found.seen
    # A number that is too large to be tried, and that the peer told of.
    connection = Made().begin().take(LINES[:30])
    connection.numbers[">"] += 5_000_000
    connection.send("<", connection.packet("<", ack_frame(connection.numbers[">"] - 1, connection.numbers[">"] - 1)))
    connection.take(LINES[30:], acknowledge=0)
    (found,) = read(file_of(connection))
    assert words_of(found) == WORDS and not any(it.unread for it in found.seen.ends.values())


def test_a_start_in_the_middle():
    """Without its first packets a connection is found by each secret of the key log, also with a new port."""
    others = "".join(Made(name=f"other {it}").keys() for it in range(3))
    for client_id, server_id in ((b"", b"serverid"), (b"cc", b""), (b"", b""), (b"client", b"s" * 20)):
        connection = made(client_id=client_id, server_id=server_id)
        for mark in "><":
            connection.numbers[mark] += 1000
        begin = len(connection.datagrams)
        connection.offsets = {}
        connection.take(LINES)
        connection.datagrams = connection.datagrams[begin:]
        (found,) = read(pcapng(ip_packets(connection.datagrams)), keys=others + connection.keys())
        assert words_of(found) == WORDS and found.seen.is_late, (client_id, server_id, len(found.lines))
        ends = {"client": "10.0.0.1:50000", "server": "10.0.0.2:443"}
        assert found.about == ends
        one_way = [it for it in connection.datagrams if it[1] == SERVER]
        (found,) = read(pcapng(ip_packets(one_way)), keys=others + connection.keys())
        assert found.about == ends and words_of(found) == [it for it in WORDS if it[0] == "<"]
    status, output, said = ask("check", CAPTURED / "chromium-moved.pcapng")
    lines = output.decode().splitlines()
    assert status == 4 and lines[1].startswith("packets: client 161 of "), lines[:2]
    assert lines[1].endswith("; its first packets are not in the file")
    assert all(it.startswith("perhaps: line ") for it in lines[2:]) and b"stream 2: bytes from 0 to " in said


def test_which_findings_are_perhaps():
    """What is missing explains some findings, and others not; without a gap each is certain."""
    whole = qpk.seen.SeenOfEnd()
    gap, none = whole._replace(missing=[(1, 1)]), whole._replace(has_settings=False)
    missing = {"nothing": (whole, whole), "client": (gap, whole), "server": (whole, gap), "limits": (whole, none)}
    for lines, explained in (
        ("> b 0 0000ff24", ()),  # a static index
        ("> b 0 00", ()),
        ("> b 0 02", ()),
        ("< s 4096 0\n> b 0 020080", ("client", "limits")),
        ("< s 4096 9\n> e 3fe11f\n> b 0 ff7f8010", ("client", "limits")),
        ("> e 6294e7838c767f", ()),  # the capacity is 0
        ("< s 100 0\n> e 3fe11f", ("limits",)),
        ("> e 3fe11f00", ()),
        ("< d 84", ("client",)),
        ("< d 00", ()),
        ("< d 01", ("client",)),
        ("< s 64 9\n> e 3f216294e7838c767f\n> b 0 020080\n< d 01\n> e c1017a", ("client", "server")),  # evicted early
        ("> e 3fe11f6294e7838c767f20\n< d 44", ("client", "server")),  # the same, of an insertion
        ("< s 4096 0\n> e 3fe11f6294e7838c767f\n> b 0 020080\n< d 80", ("client", "server", "limits")),  # could be blocked
        (SILENT, ("client", "server")),
        ("> b 0 0000d1", ("client",)),  # a request without :scheme
        ("> b 0 020080", ("nothing", "client", "server", "limits")),  # blocked to the end
        ("> e 3f", ("nothing", "client", "server", "limits")),
    ):
        for name, (client, server) in missing.items():
            for is_late in (False, True):
                connection = qpk.source.Connection(0, {}, lines.split("\n"))
                connection.seen = qpk.seen.Seen({">": client, "<": server}, is_late)
                marker, printed, status = marker_of(connection)
                assert marker.certain + marker.explained == 1, (lines, printed)
                late = is_late and bool(explained) and ("client" in explained)
                assert status == (4 if name in explained or late else 1), (lines, name, is_late, printed)
                assert printed[0].startswith("perhaps: line " if status == 4 else "line "), printed


def test_packets_in_another_order():
    """A file whose packets are not in the order in which they were sent accuses no end, nor does one with a hole."""
    seen = set()
    for name in WHOLE:
        link, packets, keys = packets_of(name)
        files = []
        for seed in range(4):
            choice = random.Random(seed)
            files.append([it for _, it in sorted((at + choice.random() * 4, it) for at, it in enumerate(packets))])
            hole = choice.randrange(3, len(packets) - 8)
            files.append(packets[:hole] + packets[hole + 6 :])
            files.append([it for it in packets for _ in range(choice.choice((1, 2)))])
        for kept in files:
            for connection in read(pcapng(kept, link, keys)):
                marker, lines, status = marker_of(connection)
                assert not marker.certain, (name, connection.seen, lines)
                assert "acknowledged before they came: " in connection.seen.line() or status != 4 or len(kept) < len(packets)
                seen.add(status)
    assert seen == {0, 4}


def test_findings_behind_the_last_acknowledgment():
    """A finding is certain once the peer acknowledged its packet, or closed the connection with an error of QPACK."""
    section, instruction = "> b 0 020080", "< d 84"
    close = b"\x1d\x42\x00\x00"
    for words, mark, payload, expected in (
        (section, "<", b"\1", 4),
        (section, "<", ack_frame(0, 1), 1),
        (section, "<", ack_frame(0, 0), 4),
        (section, "<", close, 1),
        (section, "<", b"\x1d\x41\x00\x00", 4),
        (instruction, "<", b"\1", 4),
        (instruction, "<", ack_frame(0, 0), 1),
        (instruction, ">", ack_frame(0, 1), 4),
        (instruction, ">", close, 1),
    ):
        connection = Made().begin().take(["@0 < s 4096 0", "@0 > s 4096 0", f"@0 {words}"], acknowledge=0)
        connection.send(mark, connection.packet(mark, payload))
        (found,) = read(file_of(connection))
        marker, lines, status = marker_of(found)
        assert status == expected and marker.certain + marker.explained == 1, (words, mark, payload, lines)


def test_settings_that_are_missing():
    """A capacity above the maximum is certain only if the peer's SETTINGS are in the file."""
    for settings, expected in (("@0 > s 0 0", 4), ("@0 < s 4096 0", 1)):
        connection = Made().begin().take([settings, "@0 > e 3fe1ff03"], acknowledge=0)
        connection.send("<", connection.packet("<", ack_frame(0, connection.numbers[">"] - 1)))
        (found,) = read(file_of(connection))
        _, lines, status = marker_of(found)
        assert status == expected and "section 4.3.1" in lines[0], (settings, lines)


def test_statuses_and_colours():
    """A certain finding has status 1 beside others; JSON has a member, and a terminal another colour."""
    lines = ["< s 4096 0", "> s 0 0", "> b 0 020080", "< b 8 0000d9"]
    certain = "> b 4 0000ff24"
    with tempfile.TemporaryDirectory() as room:
        path = Path(room) / "a.pcapng"
        for words, expected in (([*lines, certain], 1), (lines, 4)):
            connection = Made().begin()
            connection.take([f"@0 {it}" for it in words], acknowledge=0)
            connection.send("<", connection.packet("<", ack_frame(0, connection.numbers[">"] - 1)))
            del connection.datagrams[3]
            path.write_bytes(file_of(connection))
            status, output, _ = ask("check", path)
            count = len(words) - 3
            seen = b"packets: client %d of %d, server 3 of 3; not in the file: client 0" % (count, count + 1)
            assert output.splitlines()[1] == seen, output
            assert status == expected and output.count(b"\nperhaps: line ") == 1, output
            front = [TOP / "tool" / "qpk-front", "check", path, "--color=always"]
            ran = subprocess.run(front, capture_output=True, env={**os.environ, "QPK_PROGRAM": str(PROGRAM)}, check=False)
            assert ran.returncode == expected and b"\x1b[33mit waits for" in ran.stdout, ran
            assert (b"\x1b[31mstatic index" in ran.stdout) == (expected == 1), ran
            objects = [json.loads(it) for it in ask("check", "--json", path)[1].splitlines()]
            client = objects[1]["packets"]["client"]
            assert (client.pop("read"), client.pop("missing")) == (count, [[0, 0]]) and not objects[1]["begins_late"]
            assert client == {"unread": 0, "acknowledged_early": 0, "streams_with_gaps": 0}
            assert [it.get("perhaps") for it in objects[2:]] == [True, None][: len(objects) - 2], objects


if __name__ == "__main__":
    sys.exit(run_with_libcrypto(globals(), "lacking"))
