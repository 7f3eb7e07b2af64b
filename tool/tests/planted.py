#!/usr/bin/env python3
"""Plants twelve faults in recordings of other programs, and holds what qpk check says of each to a table.

    tool/tests/planted.py

The table is tool/tests/planted/faults.tsv, and the recordings are captures of Firefox and ngtcp2 in tests/captured. Nothing else
may be listed of a recording: what follows from the fault is counted. Without libcrypto nothing is tested. It ends with a
line 'planted: N tests .. passed', and with status 1 if a test failed.
"""
import json
import subprocess
import sys

from captures import CAPTURED
from connections import read, run_with_libcrypto
from program import PROGRAM
from running import TOP

# These are in tool/, which captures.py puts into the path of modules, as it does tests/.
from qpk.findings import Causes, read_finding
from qpk.lines import ENDS, MARKS, PEER, pieces_of_lines

TABLE = TOP / "tool" / "tests" / "planted" / "faults.tsv"
COLUMNS = ("fault", "recording", "where", "end", "subject", "byte", "section", "code", "cause")
CONNECTIONS = {"chromium": 0, "firefox": 0, "ngtcp2-gso": 0, "ngtcp2-update": 2}
NEW_STREAM = 4000
KINDS = {"encoder": "e", "decoder": "d"}


def integer(first, bits, number):
    """Returns an integer with a prefix of some bits, after the first bits of its byte (RFC 9204, section 4.1.1)."""
    most = (1 << bits) - 1
    if number < most:
        return bytes([first | number])
    data, number = [first | most], number - most
    while number >= 128:
        data.append(number % 128 + 128)
        number //= 128
    return bytes([*data, number])


class Before:
    """A recording up to where a fault is planted: what each end inserted, the maximum capacities, and the streams' bytes."""

    def __init__(self, lines):
        self.inserted = dict.fromkeys(("client", "server"), 0)
        self.bytes = {}
        for it in ask("show", lines):
            if "entry" in it:
                self.inserted[it["from"]] += 1
        for it in pieces_of_lines(lines):
            self.bytes[it.end, it.kind] = self.bytes.get((it.end, it.kind), 0) + len(it.data)
        found = (it.split()[1:3] + it.split()[3:] for it in lines if it.split()[2] == "s")
        self.capacity = {ENDS[PEER[mark]]: int(capacity) for mark, _, capacity, _ in found}


def ask(command, lines):
    """Returns the objects that the program prints of lines."""
    text = "".join(f"{it}\n" for it in lines).encode()
    ran = subprocess.run([PROGRAM, command, "--json", "-"], input=text, capture_output=True, check=False)
    assert not ran.stderr, ran.stderr
    return [json.loads(it) for it in ran.stdout.splitlines()]


def section(required, base, lines):
    """Returns a section: as many entries are required as are there, or fewer, of at most 256."""
    sign, delta = (0, base - required) if base >= required else (0x80, required - base - 1)
    return integer(0, 8, required % 256 + 1 if required else 0) + integer(sign, 7, delta) + lines


# What each fault is, in the bytes that its end sends: of a section on a new stream, or of a stream of instructions.
FAULTS = {
    "static index 99 in a section": lambda it: section(0, 0, integer(0xC0, 6, 99)),
    "a required insert count of 5000 as it is, and not modulo MaxEntries": lambda it: integer(0, 8, 5000) + b"\0\xd1",
    "a base below 0": lambda it: section(it.inserted["client"], -1, b"\x80"),
    "a required insert count that is too low by 1": lambda it: section(
        it.inserted["client"] - 1, it.inserted["client"] - 1, b"\x10"
    ),
    "a value that is longer than its section": lambda it: section(0, 0, b"\x51\x0aabc"),
    "an insertion with the name of static 99": lambda it: integer(0xC0, 6, 99) + b"\0",
    "a capacity that is larger than SETTINGS allow by 1": lambda it: integer(0x20, 5, it.capacity["client"] + 1),
    "a duplicate of an entry that is not there": lambda it: integer(0, 5, it.inserted["server"] + 7),
    "an entry that is larger than the table by 1 byte": lambda it: b"\x41b"
    + integer(0, 7, it.capacity["client"] - 32)
    + bytes(it.capacity["client"] - 32),
    "an increment of 0": lambda it: b"\0",
    "an increment of all insertions again": lambda it: integer(0, 6, it.inserted["server"]),
    "an acknowledgment of a section without references": lambda it: integer(0x80, 7, NEW_STREAM),
}


def read_table():
    """Returns the rows of the table."""
    rows = [line.split("\t") for line in TABLE.read_text("utf-8").splitlines() if not line.startswith("#")]
    return [dict(zip(COLUMNS, row)) for row in rows]


def lines_of(name):
    """Returns the lines of a recording."""
    connections = read((CAPTURED / f"{name}.pcapng").read_bytes())
    return connections[CONNECTIONS[name]].lines


def planted(row):
    """Returns the lines of a recording with a fault, and what was before it."""
    lines = lines_of(row["recording"])
    at = len(lines) if row["where"] == "end" else len(lines) // 2
    before = Before(lines[:at])
    data, mark, peer = FAULTS[row["fault"]](before).hex(), MARKS[row["end"]], PEER[MARKS[row["end"]]]
    kind = KINDS.get(row["subject"])
    own = [f"@9 {mark} {kind} {data}" if kind else f"@9 {mark} b {NEW_STREAM} {data}"]
    if row["fault"] == "an acknowledgment of a section without references":
        own = [f"@9 {peer} b {NEW_STREAM} 0000d1d7c1500161", *own]
    return lines[:at] + own + lines[at:], at + len(own), before


def findings_of(lines):
    """Returns what qpk check finds in lines."""
    return [it for it in map(read_finding, ask("check", lines)) if it]


def test_recordings_are_right():
    """Nothing is found in a recording before a fault is planted."""
    for name in CONNECTIONS:
        assert not findings_of(lines_of(name)), name


def test_planted_faults():
    """Each is found: the end, the byte, the section of RFC 9204, the code and the cause; and nothing else is listed."""
    table = read_table()
    assert {it["fault"] for it in table} == set(FAULTS) and len(table) == 12
    for row in table:
        lines, line, before = planted(row)
        findings = findings_of(lines)
        causes = Causes(findings)
        listed = [it for number, it in enumerate(findings) if causes.first_of(number) == number]
        assert len(listed) == 1, (row["fault"], listed)
        (found,) = listed
        byte = int(row["byte"])
        if row["byte"].startswith("+"):
            byte += before.bytes.get((row["end"], KINDS[row["subject"]]), 0)
        assert (found.line, ENDS[found.mark], found.subject, found.offset) == (line, row["end"], row["subject"], byte), found
        assert found.subject != "section" or found.at == NEW_STREAM, found
        assert (found.section, found.code[:6]) == (row["section"], row["code"]), found
        assert row["cause"] in found.cause, found


def test_the_table_tells_faults_apart():
    """With the bytes of another fault in the same recording and stream, what is found is not what the row has."""
    table = read_table()
    tried = wrong = 0
    for row in table:
        for other in table:
            if other is row or (other["subject"], other["section"]) == (row["subject"], row["section"]):
                continue
            if other["subject"] == row["subject"] and other["recording"] == row["recording"]:
                lines, _, _ = planted({**row, "fault": other["fault"]})
                listed = findings_of(lines)
                tried += 1
                wrong += not any(it.section == row["section"] and row["cause"] in it.cause for it in listed)
    assert tried == wrong >= 8, (tried, wrong)


if __name__ == "__main__":
    sys.exit(run_with_libcrypto(globals(), "planted"))
