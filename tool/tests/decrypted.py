#!/usr/bin/env python3
"""Tests how tool/qpk-capture reads captures by libcrypto: whole ones, forms of files, links, logs, and why there is nothing.

    tool/tests/decrypted.py

In tests/captured are captures that contain their secrets: firefox.pcapng, of Firefox 153 with its default settings;
ngtcp2-gso.pcapng and ngtcp2-update.pcapng, of the programs of ngtcp2 0.12 as Debian has them, the latter with early data,
a key update and a new port; chromium-moved.pcapng, 210 packets of Chromium 156 from the middle of a connection that moved
its port; and the begin of a net log of Chromium. tool/tests/sealed.py makes others, of the lines in chromium.txt. Without
libcrypto nothing is tested. It ends with a line 'decrypted: N tests .. passed', and with status 1 if a test failed.
"""
import gzip
import json
import lzma
import os
import random
import shutil
import subprocess
import sys
import tempfile
from pathlib import Path
from urllib.parse import unquote

from captures import CAPTURED, ENVIRONMENT, KEPT, SCRIPT, ask, ask_fork, logged, mutated
from connections import LINES, WHOLE, assert_whole, file_of, made, read, refusal, run_with_libcrypto
from running import assert_linear, cost_of, shows_no_fault_of_a_script

# These are in tool/, which captures.py puts into the path of modules, as it does tests/.
import qpk.datagrams
from sealed import CLIENT, SERVER, Made, checksum_free_ip, ip_packets, pcap, pcapng, udp


# ---- Captures of programs


def test_whole_captures():
    """Each is read whole: nothing is missing, nothing is found, and nothing is said on standard error."""
    for name, counts in WHOLE.items():
        status, output, said = ask("check", CAPTURED / name)
        lines = output.decode().splitlines()
        assert (status, said) == (0, b""), (name, said)
        for (sections, encoder, decoder), (head, seen, verdict) in zip(counts, zip(*[iter(lines)] * 3)):
            expected = f"nothing found: sections {sections}, encoder instructions {encoder}, decoder instructions {decoder}"
            assert head.startswith("connection ") and verdict == expected, (name, verdict)
            counted = [it.split(" of ") for it in seen.replace("packets: client ", "").split(", server ")]
            assert all(read_of == whole for read_of, whole in counted), (name, seen)
        assert len(lines) == 3 * len(counts), (name, lines)


def test_lines_of_tshark():
    """The lines of the capture of Chromium are those that tshark gave."""
    assert ask("lines", CAPTURED / "chromium.pcapng")[1].decode() == KEPT.read_text("utf-8")


def test_by_tshark():
    """With --by tshark, and without libcrypto, the lines are the same."""
    if not shutil.which("tshark"):
        print("not shown: that tshark and libcrypto read the same, without tshark")
        return
    for words, more in ((("--by", "tshark"), {}), ((), {"env": {**ENVIRONMENT, "LIBCRYPTO": "none.so"}})):
        assert ask("lines", *words, CAPTURED / "chromium.pcapng", **more)[1].decode() == KEPT.read_text("utf-8"), words


def test_without_libcrypto():
    """tshark is asked then; where --by libcrypto wants the library, a line says what to do."""
    with tempfile.TemporaryDirectory() as room:
        program = Path(room) / "tshark"
        program.write_text("#!/bin/sh\necho it was asked >&2\nexit 2\n", encoding="utf-8")
        program.chmod(0o755)
        variables = {**ENVIRONMENT, "LIBCRYPTO": "none.so", "TSHARK": str(program)}
        said = ask("show", CAPTURED / "chromium.pcapng", env=variables)[2]
        assert said.startswith(b"qpk-capture: tshark can't read ") and said.endswith(b"it was asked\n"), said
        said = ask("show", "--by", "libcrypto", CAPTURED / "chromium.pcapng", env=variables)[2]
        assert said.startswith(b"qpk-capture: libcrypto can't be loaded: install OpenSSL"), said


def unescaped(line):
    """Returns a field of a net log as it was."""
    return unquote(line.replace("%ESCAPED:\u200b ", "")) if line.startswith("%ESCAPED") else line


def test_net_log():
    """Each list of fields is that of the log itself, nothing is missing, and nothing is found."""
    path, keys = CAPTURED / "chromium-net-log.json.gz", CAPTURED / "chromium-net-log.keys"
    lists = {"client": {}, "server": {}}
    status, output, said = ask("show", "--json", "--keys", keys, path)
    assert (status, said) == (0, b""), said
    for it in map(json.loads, output.splitlines()):
        if "lines" in it:
            cookies = [field["value"] for field in it["lines"] if field["name"] == "cookie"]  # which the log has as one
            fields = [field for field in it["lines"] if field["name"] != "cookie"]
            fields += [{"name": "cookie", "value": "; ".join(cookies)}] if cookies else []
            lists[it["from"]][it["section"]] = logged(fields)
    lines = gzip.decompress(path.read_bytes()).decode().splitlines()
    names = {number: name for name, number in json.loads(lines[0][:-1] + "}")["constants"]["logEventTypes"].items()}
    expected = {"client": {}, "server": {}}
    for it in (json.loads(line.rstrip(",")) for line in lines[2:]):
        if names[it["type"]].startswith("HTTP3_HEADERS"):
            end = "client" if names[it["type"]].endswith("SENT") else "server"
            expected[end][it["params"]["stream_id"]] = sorted(map(unescaped, it["params"]["headers"]))
    # A list that is logged when it is sent or decoded may be of a datagram behind the end of the file, and the other way.
    for end, own in lists.items():
        assert len(own) >= 8 and len(set(own) ^ set(expected[end])) <= 1, (end, set(own) ^ set(expected[end]))
        assert all(fields == expected[end][stream] for stream, fields in own.items() if stream in expected[end])
    status, output, _ = ask("check", "--keys", keys, path)
    assert status == 0 and output.startswith(b"connection 0, 127.0.0.1:47170 > 127.0.0.1:4461\n"), output
    assert b"\nnothing found: " in output, output


# ---- Files


def test_forms_of_a_file():
    """pcap and pcapng in both orders of bytes, with all units, compressed, and by a pipe, have the same lines."""
    connection = made()
    packets, keys = ip_packets(connection.datagrams), connection.keys()
    files = [pcap(packets, order=order, is_nano=is_nano) for order in "<>" for is_nano in (True, False)]
    files += [pcapng(packets, order=order, resolution=it) for order in "<>" for it in (3, 6, 9)]
    files.append(pcapng(packets[:40]) + pcapng(packets[40:], order=">"))
    files += [gzip.compress(files[0]), lzma.compress(files[1]), gzip.compress(files[5])]
    half = len(files[0]) // 2
    files.append(gzip.compress(files[0][:half]) + gzip.compress(files[0][half:]))
    expected = assert_whole(connection).lines
    for at, data in enumerate(files):
        assert assert_whole(connection, data, keys=keys).lines == expected, at
    if shutil.which("zstd"):
        packed = subprocess.run(["zstd", "-qc"], input=files[0], capture_output=True, check=True).stdout
        assert assert_whole(connection, packed, keys=keys).lines == expected
    else:
        print("not shown: that a capture is read that zstd compressed, without zstd")
    lines = "".join(f"{it}\n" for it in expected).encode()
    assert ask("lines", "--by", "libcrypto", "-", data=file_of(connection))[1].partition(b"\n")[2] == lines


def test_a_file_that_is_cut():
    """It is read to the packet before, and a line says so."""
    connection = made()
    expected = assert_whole(connection).lines
    connection.send(">", connection.packet(">", b"\1" * 50))
    packets = ip_packets(connection.datagrams)
    for whole in (pcap(packets), pcapng(packets), gzip.compress(pcap(packets))):
        for left in (len(whole) - 9, len(whole) - 60):
            with tempfile.NamedTemporaryFile("w") as log:
                log.write(connection.keys())
                log.flush()
                status, output, said = ask("lines", "--keys", log.name, "-", data=whole[:left])
            assert (status, output.decode().splitlines()[1:]) == (0, expected), said
            if whole[:2] != b"\x1f\x8b":
                assert b"the capture is cut after packet " in said and said.endswith(b", and was read to there\n"), said
    damaged = pcap(packets) + b"\xff" * 40
    assert assert_whole(connection, damaged, keys=connection.keys())


def test_zstd_without_its_program():
    """A line says what to install."""
    data = bytes.fromhex("28b52ffd") + bytes(20)
    said = ask("show", "-", data=data, env={**ENVIRONMENT, "PATH": os.path.dirname(sys.executable)})[2]
    if b"decompressed, or has nothing" not in said:  # a module of Python may be there
        assert said == b"qpk-capture: the file is compressed by zstd: install zstd, or decompress it first\n", said


def test_links():
    """Ethernet with tags, raw IP, cooked captures and loopback, of IPv4 and IPv6, have the same lines."""
    connection = made()
    plain = ip_packets(connection.datagrams)
    keys = connection.keys()
    for link, head in (
        (1, bytes(12) + b"\x08\x00"),
        (1, bytes(12) + b"\x81\x00\x00\x01\x08\x00"),
        (1, bytes(12) + b"\x88\xa8\x00\x01\x81\x00\x00\x02\x08\x00"),
        (0, b"\2\0\0\0"),
        (108, b"\0\0\0\2"),
        (101, b""),
        (228, b""),
        (113, bytes(14) + b"\x08\x00"),
        (276, b"\x08\x00" + bytes(18)),
    ):
        assert_whole(connection, pcapng([(when, head + it) for when, it in plain], link), keys=keys)
    connection = Made()
    connection.ends = {">": (b"\x20\x01" + bytes(13) + b"\1", 50000), "<": (b"\x20\x01" + bytes(13) + b"\2", 443)}
    found = assert_whole(connection.begin().take(LINES))
    assert found.about == {"client": "2001::1:50000", "server": "2001::2:443"}


def test_fragments():
    """Fragments of IPv4 and IPv6 in any order are put together. Those of a datagram that lacks one are left out."""
    for size in (4, 16):
        connection = Made()
        ends = [(bytes([10] + [0] * (size - 2) + [it]), port) for it, port in ((1, 50000), (2, 443))]
        connection.ends = dict(zip("><", ends))
        connection.begin().take(LINES)
        packets = []
        for number, (when, source, target, data) in enumerate(connection.datagrams):
            whole = udp(source, target, data)
            parts = [(at, whole[at : at + 64], at + 64 >= len(whole)) for at in range(0, len(whole), 64)]
            random.Random(number).shuffle(parts)
            for at, part, is_last in parts:
                if size == 4:
                    flags = at // 8 | (0 if is_last else 0x2000)
                    packets.append((when, checksum_free_ip(source[0], target[0], part, 17, flags, number + 1)))
                else:
                    head = bytes([17, 0]) + (at | (not is_last)).to_bytes(2, "big") + number.to_bytes(4, "big")
                    packets.append((when, checksum_free_ip(source[0], target[0], head + part, 44)))
        assert_whole(connection, pcapng(packets, secrets=connection.keys()))
        (found,) = read(pcapng(packets[:-1], secrets=connection.keys()))
        assert len(found.lines) <= len(LINES)


def test_fragments_that_never_end():
    """As many are kept as the bounds say, and the time is linear in them."""
    part = bytes(8)

    def fill(size):
        datagrams = qpk.datagrams.Datagrams()
        for number in range(size):
            packet = checksum_free_ip(CLIENT[0], SERVER[0], part, 17, 0x2001 + number // 100 % 4096, number % 50_000)
            assert datagrams.of_packet(101, packet) is None
            assert len(datagrams.fragmented) <= qpk.datagrams.MOST_FRAGMENTED

    assert_linear(fill, 4000)


def test_a_key_log_with_a_long_line():
    """What has no end of a line for long, as a file that is no key log, takes no memory, and the lines after it are read."""
    connection = made()
    with tempfile.TemporaryDirectory() as room:
        capture, log = Path(room) / "a.pcapng", Path(room) / "keys"
        capture.write_bytes(pcapng(ip_packets(connection.datagrams)))
        with open(log, "wb") as file:
            file.truncate(64 << 20)
            file.seek(0, os.SEEK_END)
            file.write(b"\n" + connection.keys().encode())
        with open(Path(room) / "output", "wb") as output:
            words = [SCRIPT, "check", capture, "--keys", log]
            _, kilobytes = cost_of(words, subprocess.DEVNULL, output, env=ENVIRONMENT)
        said = (Path(room) / "output").read_bytes()
    assert said.endswith(b"nothing found: sections 18, encoder instructions 110, decoder instructions 24\n"), said
    assert kilobytes < 60 << 10, kilobytes


# ---- Why there is nothing


def test_why_nothing_is_read():
    """Each reason has a line of its own, which says what to do."""
    connection, other = made(), made(name="other")
    packets, keys = ip_packets(connection.datagrams), connection.keys()
    tcp = [(when, data[:9] + b"\6" + data[10:]) for when, data in packets]
    noise = ip_packets([(it[0], it[1], it[2], b"\x01noise") for it in connection.datagrams])
    drafts = ip_packets([(0, CLIENT, SERVER, b"\xc0\xff\0\0\x1d" + bytes(1300))])
    wrong = keys.replace(connection.secrets[">"].hex(), "11" * 32).replace(connection.secrets["<"].hex(), "22" * 32)
    for data, log, reason in (
        (pcap([]), keys, "the capture has no packets: "),
        (pcap(tcp), keys, f"none of the {len(packets)} packets is a datagram of UDP: "),
        (pcap(packets, snap=60), keys, " packets are cut to 60 bytes: "),
        (pcap(noise), keys, "no datagram is QUIC of version 1 or 2: "),
        (pcap(drafts), keys, "its versions of QUIC are not read: 0xff00001d"),
        (pcap(packets), "", f"there are no secrets for the client random {connection.random.hex()}: "),
        (pcap(packets), other.keys(), f"and none for the client random {connection.random.hex()}: "),
        (pcap(packets), wrong, f"the secrets for the client random {connection.random.hex()} open none of its packets: "),
        (pcap(packets[2:]), other.keys(), "it has no first packet of a connection, and no secret "),
        (pcap(packets[2:]), "", "there are no secrets: name the key log by --keys"),
        (pcap(packets), "no key log\n", " has no line of a key log: name the file "),
        (b"hello", keys, "the file is no capture: "),
        (b"", keys, "the file is empty: capture again with "),
        (gzip.compress(b""), keys, "the file can't be decompressed, or has nothing in it: "),
    ):
        said = refusal(data, log)
        assert reason in said and "\n" not in said, (reason, said)


def test_packets_that_are_cut():
    """If the snap length cut some packets, that is said beside what the others have, and no end is accused."""
    connection = made()
    packets = ip_packets(connection.datagrams)
    whole = len(packets) // 2
    data = pcap(packets[:whole]) + pcap(packets[whole:], snap=40)[len(pcap([])) :]
    with tempfile.NamedTemporaryFile("w", suffix=".keys") as log:
        log.write(connection.keys())
        log.flush()
        status, output, said = ask("check", "-", "--keys", log.name, data=data)
    reason = f"{len(packets) - whole} of {len(packets)} packets are cut to 40 bytes: capture again with `dumpcap -s 0 "
    assert status in (0, 4) and said.startswith(f"qpk-capture: {reason}".encode()), (status, said)
    assert not any(it.startswith(b"line ") for it in output.splitlines()), output


# ---- Traces and logs without bytes


def test_header_lists_without_bytes():
    """They are counted, and shown; check has nothing to judge."""
    frame = {"frame_type": "headers", "headers": [{"name": ":method", "value": "GET"}, {"name": "a", "value": "b\x1b"}]}
    events = [{"time": 1, "name": "http3:frame_created", "data": {"stream_id": 4, "frame": frame}}] * 2
    fields = {"frame_type": "headers", "header_fields": [{"name": ":status", "value": "200"}]}
    events.append({"time": 2, "name": "http3:frame_parsed", "data": {"stream_id": 4, "frame": fields}})
    trace = json.dumps({"traces": [{"vantage_point": {"type": "client"}, "events": events}]})
    own, other = [{"name": "Accept", "value": "*/*"}], [{"name": "a", "value": "b"}]
    har = json.dumps({"log": {"entries": [{"request": {"headers": own}, "response": {"headers": other}}]}})
    types = json.dumps({"constants": {"logEventTypes": {"HTTP3_HEADERS_SENT": 1, "HTTP3_HEADERS_DECODED": 2}}})[:-1]
    params = [{"stream_id": 0, "headers": [":method: GET"]}, {"stream_id": 0, "headers": [":status: 200"]}]
    rest = {"source": {"id": 1}, "time": "5"}
    logged_events = [json.dumps({"type": at, **rest, "params": it}) for at, it in enumerate(params, 1)]
    net_log = types + ',\n"events": [\n' + ",\n".join(logged_events) + "]}\n"
    for text, first in (
        (trace, b"> stream 4: fields 2\n  :method: GET\n  a: b\\x1b\n< stream 4: fields 1\n"),
        (har, b"> stream 0: fields 1\n  accept: */*\n< stream 0: fields 1\n"),
        (net_log, b"> stream 0: fields 1\n  :method: GET\n< stream 0: "),
    ):
        status, output, said = ask("show", "-", data=text.encode())
        assert status == 0 and output.startswith(first), output
        assert b"it has 2 header lists and no QPACK bytes: " in said, said
        objects = [json.loads(it) for it in ask("show", "--json", "-", data=text.encode())[1].splitlines()]
        assert [it["from"] for it in objects] == ["client", "server"]
        status, output, said = ask("check", "-", data=text.encode())
        assert (status, output) == (1, b"") and b"2 header lists and no QPACK bytes" in said, said
    assert ask("show", "--stream", "8", "-", data=trace.encode())[1] == b""


def test_the_log_of_the_example_server():
    """Its events are lines of a recording, and instructions come before the section that needs them."""
    events = [
        {"event": "begin", "capacity": 4096, "blocked": 16},
        {"event": "settings", "capacity": 4096, "blocked": 16},
        {"event": "received", "type": 2, "hex": "3fe11f6294e7838c767f"},
        {"event": "section received", "id": 0, "required": 1, "hex": "020080", "fields": [["foo", "bar"]]},
        {"event": "section sent", "id": 0, "required": 1, "hex": "020080", "fields": [["foo", "bar"]]},
        {"event": "sent", "type": 2, "hex": "3fe11f6294e7838c767f"},
        {"event": "sent", "type": 3, "hex": "80"},
        {"event": "report", "text": "{}"},
        {"event": "received", "type": 3, "hex": "80"},
        {"event": "end", "code": 256, "why": "idle"},
    ]
    text = "".join(json.dumps({"connection": 3, **it}) + "\n" for it in events)
    status, output, said = ask("lines", "-", data=text.encode())
    assert (status, said) == (0, b"") and output.decode().splitlines() == [
        "# connection 3, the example server",
        "< s 4096 16",
        "> s 4096 16",
        "> e 3fe11f6294e7838c767f",
        "> b 0 020080",
        "< e 3fe11f6294e7838c767f",
        "< d 80",
        "< b 0 020080",
        "> d 80",
    ]
    status, output, said = ask("check", "-", data=text.encode())
    assert status == 0 and b"nothing found: sections 2, " in output, output


# ---- Hostile files


def test_hostile_files():
    """Captures and net logs with bytes changed, cut, added and moved: no traceback, no control byte, in ten seconds."""
    connection = made()
    packets = ip_packets(connection.datagrams)
    small = pcapng([(when, data) for when, data in packets[:30]], secrets=connection.keys())
    net_log = gzip.decompress((CAPTURED / "chromium-net-log.json.gz").read_bytes())[:60_000]
    server_log = b'{"connection":0,"event":"sent","type":2,"hex":"3fe11f"}\n' * 3
    kinds = [
        (("check", "--by", "libcrypto", "-"), [small, (CAPTURED / "ngtcp2-gso.pcapng").read_bytes()]),
        (("show", "--by", "libcrypto", "-"), [gzip.compress(small), lzma.compress(small)]),
        (("check", "--keys", str(CAPTURED / "chromium-net-log.keys"), "-"), [net_log]),
        (("show", "-"), [server_log, b'{"log":{"entries":[{"request":{"headers":[{"name":"a"}]}}]}}']),
    ]
    for seed, (words, inputs) in enumerate(kinds):
        choice, seen = random.Random(seed), set()
        for _ in range(50):
            data = mutated(choice, choice.choice(inputs))
            status, output, said = ask_fork(words, data)
            assert status in (0, 1, 2, 4), (seed, status, said)
            assert shows_no_fault_of_a_script(output) and shows_no_fault_of_a_script(said), (seed, output, said)
            seen.add(status)
        assert len(seen) > 1, (seed, seen)


if __name__ == "__main__":
    sys.exit(run_with_libcrypto(globals(), "decrypted"))
