#!/usr/bin/env python3
"""Tests what tool/qpk-capture adds to the findings of qpk check: packets, filters, what follows, and lines for a terminal.

    tool/tests/findings.py

Recordings of a few lines are judged by hand. Connections that tool/tests/sealed.py makes have a packet for each line. Without
libcrypto nothing is tested. It ends with a line 'findings: N tests .. passed', and with status 1 if a test failed.
"""
import json
import os
import random
import re
import shutil
import subprocess
import sys
import tempfile
from pathlib import Path

from captures import CAPTURED, KEPT, SCRIPT, ask, ask_fork, mutated
from connections import file_of, packets_of, run_with_libcrypto
from program import PROGRAM
from running import on_terminal, shows_no_fault_of_a_script

# These are in tool/, which captures.py puts into the path of modules, as it does tests/.
from qpk.findings import Causes, marked, read_finding, read_printed
from sealed import Made, ip_packets, pcapng

INSERT = "3fe11f6294e7838c767f"  # the capacity 4096, and an insertion
SETTINGS = "< s 4096 4\n"
# Recordings; which findings are listed, by their lines; and how many follow from each.
FOLLOWING = [
    # Sections that wait for the same insertion, or for a later one.
    ("> b 4 020080\n> b 8 030080\n> b 12 020080\n", [2], [2]),
    ("> b 4 030080\n> b 8 020080\n", [3], [1]),
    # What waits at the end after an error, which ended the connection; and what is cut.
    (f"> e {INSERT}\n> b 4 0380\n> b 8 0000ff24\n", [4], [1]),
    (f"> e {INSERT}\n> b 8 0000ff24\n> e 6f\n", [3], [1]),
    # A count that is read by insertions, after an instruction that is refused; the same before it, which is not so.
    (f"> e 05\n> e {INSERT}\n> b 4 ff7f80\n", [2], [1]),
    (f"> b 4 ff7f80\n> e {INSERT}\n> e 0508\n", [2, 4], [0, 0]),
    # Faults that rest on no table follow from none.
    ("> e ff2400\n> b 4 0000ff24\n> b 8 0000510a61\n< d 00\n", [2, 3, 4, 5], [0] * 4),
    ("> e ff2400\n> b 4 000080\n", [2, 3], [0, 0]),
    # An acknowledgment of a section whose prefix is refused, and one of another stream.
    (f"> e {INSERT}\n> b 4 ff7f80\n< d 84\n", [3], [1]),
    (f"> e {INSERT}\n> b 4 ff7f80\n< d 88\n", [3, 4], [0, 0]),
    # Lists in which an index hits another entry, and one that is no message by itself.
    (f"> e {INSERT}\n> b 4 0200d1d780\n> b 8 0200d1d780\n> b 12 0000d1\n", [3, 5], [1, 0]),
    # What is no error of the connection ends nothing.
    (f"> e {INSERT}\n> b 4 0000d1\n> b 8 0380\n", [3, 4], [0, 0]),
    # The tables of both ends are apart.
    ("> s 4096 4\n> b 4 0000ff24\n< b 4 020080\n", [3, 4], [0, 0]),
]


def findings_of(text):
    """Returns what qpk check finds in a recording."""
    ran = subprocess.run([PROGRAM, "check", "--json", "-"], input=text.encode(), capture_output=True, check=False)
    assert not ran.stderr, ran.stderr
    return [it for it in map(read_finding, map(json.loads, ran.stdout.splitlines())) if it]


def test_what_follows():
    """Each rule has its rows, and a finding that rests on nothing else is listed."""
    for text, lines, counts in FOLLOWING:
        findings = findings_of(SETTINGS + text)
        causes = Causes(findings)
        firsts = [causes.first_of(number) for number in range(len(findings))]
        listed = sorted((it.line, number) for number, it in enumerate(findings) if firsts[number] == number)
        assert [line for line, _ in listed] == lines, (text, findings)
        assert [firsts.count(number) - 1 for _, number in listed] == counts, (text, findings)


def test_nothing_follows_from_what_may_be_none():
    """After a finding that may be none, another one about its table is listed; only what waits follows from what waits."""
    findings = findings_of(f"{SETTINGS}> e {INSERT}\n> b 4 0380\n> b 8 0000ff24\n> b 12 0380\n")
    assert [it.line for it in findings] == [4, 3, 5]
    causes = Causes([findings[0]._replace(is_perhaps=True), *findings[1:]])
    assert [causes.first_of(number) for number in range(3)] == [0, 1, 1]


def test_what_follows_in_hostile_recordings():
    """Of recordings with bytes changed: what a finding follows from is listed itself, and no recording lacks a first one."""
    text = KEPT.read_text("utf-8").partition("\n")[2].encode()
    seen = set()
    for seed in range(60):
        choice = random.Random(seed)
        lines = [re.sub(rb"(?<= )[0-9a-f]{4,}$", lambda it: changed(choice, it[0]), it) for it in text.splitlines()]
        findings = findings_of(b"\n".join([*lines, b""]).decode("utf-8", "replace"))
        causes = Causes(findings)
        for number in range(len(findings)):
            first = causes.first_of(number)
            assert causes.first_of(first) == first and findings[first].table == findings[number].table
            seen.add(first == number)
        assert not findings or any(causes.first_of(number) == number for number in range(len(findings)))
    assert seen == {False, True}


def changed(choice, digits):
    """Returns hexadecimal with a byte changed, seldom."""
    if choice.random() > 0.2:
        return digits
    at = choice.randrange(len(digits) // 2) * 2
    return digits[:at] + b"%02x" % choice.randrange(256) + digits[at + 2 :]


def test_text_and_objects():
    """A finding that is read of a line of text is that of its object, marked or not, also of a record."""
    recordings = [((), f"{SETTINGS}@12:00 {text}".encode()) for text, *_ in FOLLOWING]
    recordings.append((("--qif",), bytes(7) + b"\x04" + bytes(3) + b"\x09\0\0\xd1"))
    subjects = set()
    for words, data in recordings:
        texts, objects = (
            subprocess.run([PROGRAM, "check", *words, *more, "-"], input=data, stdout=subprocess.PIPE, check=False).stdout
            for more in ((), ("--json",))
        )
        for text, line in zip(texts.splitlines(True), objects.splitlines(True)):
            for own, other in ((text, line), (marked(text), marked(line))):
                found, expected = read_printed(own), read_printed(other)
                at = expected.at if expected.subject == "section" else 0
                left_out = {"time": "", "at": at, "offset": 0, "instruction": 0, "code": "", "cause": ""}
                assert found == expected._replace(**left_out), (own, other)
                assert found.is_perhaps == (own is not text), own
            subjects.add(found.subject)
        assert len(texts.splitlines()) == len(objects.splitlines())
    assert subjects == {"section", "encoder", "decoder", "record"}, subjects
    assert read_printed(b"nothing found: sections 1\n") is None and read_printed(b'{"findings":0}\n') is None


# ---- Packets and filters

FAULTS = ["< s 4096 0", "> s 4096 0", f"> e {INSERT}", "> b 4 0000ff24", "< d 00", "> e ff2400", "< b 8 020080", "> d 7f"]
FAULTS += ["< b 12 0000d9"]


def test_packets():
    """Each finding names the packet that made its line whole, and a filter with its stream, in text and in JSON."""
    connection = Made().begin().take([f"@0 {it}" for it in FAULTS], acknowledge=0)
    data = file_of(connection)
    begin = len(connection.datagrams) - len(FAULTS)
    expected = {4: "quic.stream.stream_id == 4", 5: "quic.stream.stream_id == 11", 6: "quic.stream.stream_id == 6"}
    expected.update({7: "quic.stream.stream_id == 8", 8: "quic.stream.stream_id == 10"})
    status, output, said = ask("check", "-", data=data)
    assert (status, said) == (1, b""), said
    seen = {}
    for line in output.decode().splitlines()[2:]:
        found = re.fullmatch(
            r"(?:perhaps: )?line (\d+), #(\d+): .*; likely cause: .*; in Wireshark: (.*) \|\| frame.number == (\d+)", line
        )
        assert found and found[2] == found[4], line
        # What the end cuts has the last line of all, and the packet of its own last line.
        assert int(found[2]) == begin + (8 if ": cut at the end " in line else int(found[1])), line
        seen[int(found[2]) - begin] = found[3]
    assert seen == expected, seen
    for it in map(json.loads, ask("check", "--json", "-", data=data)[1].splitlines()[2:]):
        assert it["filter"] == f"{seen[it['packet'] - begin]} || frame.number == {it['packet']}"


def test_packets_of_captures():
    """Without some packets of a capture of Firefox, tshark shows for each filter the packet that the finding names."""
    link, packets, keys = packets_of("firefox.pcapng")
    choice = random.Random(1)
    kept = [it for at, it in enumerate(packets) if at < 16 or choice.random() > 0.02]
    with tempfile.NamedTemporaryFile(suffix=".pcapng") as file:
        file.write(pcapng(kept, link, keys))
        file.flush()
        objects = [json.loads(it) for it in ask("check", "--json", file.name)[1].splitlines()]
        findings = [it for it in objects if "fault" in it]
        assert findings and all(it["perhaps"] and 0 < it["packet"] <= len(kept) for it in findings), objects
        if not shutil.which("tshark"):
            print("not shown: that tshark takes the filters of findings, without tshark")
            return
        for it in findings[:3]:
            words = ["tshark", "-r", file.name, "-Y", it["filter"], "-T", "fields", "-e", "frame.number"]
            shown = subprocess.run(words, capture_output=True, encoding="utf-8", check=True).stdout.split()
            assert str(it["packet"]) in shown and len(shown) < len(kept), (it, shown)


def test_packets_of_fragments():
    """A line of a datagram in fragments is that of the last one's packet; a recording and a net log have no packets."""
    connection = Made().begin().take([f"@0 {it}" for it in FAULTS], acknowledge=0)
    packets = ip_packets(connection.datagrams)
    more = [it for packet in packets for it in ((packet[0], bytes(20)), packet)]  # each behind one that is no IP
    objects = ask("check", "--json", "-", data=pcapng(more, secrets=connection.keys()))[1].splitlines()
    begin = len(packets) - len(FAULTS)
    for it in map(json.loads, objects[2:]):
        assert it["packet"] == 2 * (begin + (8 if it["rfc9204"] == "4.2" else it["line"])), it
    net_log = [CAPTURED / "chromium-net-log.json.gz", "--keys", CAPTURED / "chromium-net-log.keys"]
    for words, data in (((*net_log,), b""), (("-",), "\n".join(FAULTS).encode())):
        assert b"Wireshark" not in ask("check", *words, data=data)[1]


# ---- A terminal


def short_lines(text, *words):
    """Returns the lines of a terminal for a recording."""
    status, output, said = ask("check", "--terminal", *words, "-", data=text.encode())
    assert not said, said
    return status, output.decode().splitlines()


def test_short_lines():
    """A finding is its place, what is wrong, the bytes with a mark, the rule, and the cause; then what follows is counted."""
    text = f"{SETTINGS}@12:00 > e {INSERT}\n> b 4 0200d1d7ff24\n> b 8 0380\n"
    assert short_lines(text) == (
        1,
        [
            "1. line 3: the client's section of stream 4, byte 4",
            "  found   static index 99 is past the static table, which ends at 98",
            "  bytes   02 00 d1 d7 ff 24",
            "                      ^^",
            "  rule    RFC 9204, section 3.1: 0x0200 QPACK_DECOMPRESSION_FAILED",
            "  cause   static indexes begin at 0; or a dynamic index has the bit of a static",
            "          one",
            "  follow  1 more, which --all lists",
            "",
        ],
    )
    status, lines = short_lines(text, "--all")
    assert status == 1 and [it for it in lines if it.startswith("2. ")] == [
        "2. line 4: the client's section of stream 8, byte 0"
    ]
    assert short_lines("b 4 0000d1\n") == (0, ["nothing found: sections 1, encoder instructions 0, decoder instructions 0"])


def test_marks():
    """The mark is under the byte that JSON names, of a section and of a stream in pieces, also of one that was blocked."""
    blocked = "< s 4096 4\n> b 4 0200d1d7c1d1d7c1d1d7c1ff24\n"
    for text in (
        f"{SETTINGS}> e 3fe1\n> e 1f62\n> e {INSERT[8:]}\n> e bf\n> e 0800\n",
        f"{SETTINGS}> e {INSERT}\n< d 4141414141\n< d 414141410101\n",
        f"{blocked}> e {INSERT}\n",
        f"{SETTINGS}> b 4 00\n",
    ):
        findings = findings_of(text)
        _, lines = short_lines(text, "--all")
        found = [(it, mark) for it, mark in zip(lines, lines[1:]) if it.startswith("  bytes   ")]
        for finding, (shown, mark) in zip(sorted(findings, key=lambda it: it.line), found):
            if not mark.strip() == "^^":
                assert finding.fault.startswith("the bytes end within"), (text, mark)
                continue
            own = [
                it.split()[-1]
                for it in text.splitlines()
                if f" {finding.subject[0] if finding.subject != 'section' else 'b'} " in it
            ]
            data = bytes.fromhex("".join(own))
            at = mark.index("^^")
            assert int(shown[at : at + 2], 16) == data[finding.offset], (text, shown, finding)
        assert found, text


def test_widths_and_hostile_words():
    """No line is wider than 80 columns but for a word that is, no control character passes, and no input has a traceback."""
    text = KEPT.read_bytes()
    for seed in range(40):
        choice = random.Random(seed)
        status, output, said = ask_fork(("check", "--terminal", "-"), mutated(choice, text[:4000]))
        assert status in (0, 1), (seed, status, said)
        assert shows_no_fault_of_a_script(output) and shows_no_fault_of_a_script(said), (seed, output, said)
        assert all(len(it) <= 80 or "\\x" in it for it in output.decode().splitlines()), (seed, output)
    many = "".join(f"> b {4 * number} 0000ff24\n" for number in range(300))
    status, lines = short_lines(many)
    assert status == 1 and lines[-1] == "200 more findings: --all lists them" and len(short_lines(many, "--all")[1]) > 2000


def test_the_front_on_a_terminal():
    """On a terminal check has the short lines, and colours; piped, it has the program's lines."""
    front = SCRIPT.parent / "qpk-front"
    with tempfile.TemporaryDirectory() as room:
        path = Path(room) / "recording"
        path.write_text(f"{SETTINGS}> b 4 0000ff24\n")
        variables = {**os.environ, "QPK_PROGRAM": str(PROGRAM)}
        for words in (("check", path), ("check", "--all", path)):
            status, output = on_terminal(front, *words, QPK_PROGRAM=str(PROGRAM), NO_COLOR="1")
            expected = ask("check", "--terminal", *words[1:])[1]
            assert status == 1 and output == expected, output
            piped = subprocess.run([front, *words], capture_output=True, env=variables, check=False)
            plain = subprocess.run([PROGRAM, "check", "-"], input=path.read_bytes(), capture_output=True, check=False)
            assert (piped.returncode, piped.stdout, piped.stderr) == (1, plain.stdout, b""), piped


if __name__ == "__main__":
    sys.exit(run_with_libcrypto(globals(), "findings"))
