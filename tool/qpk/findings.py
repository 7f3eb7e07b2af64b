"""Findings of qpk check: what each is, which may be none, which packet each is in, and which follow from another.

qpk-capture reads it. What a finding is, is said by the program qpk alone. A finding is about bytes that are in the file. Some
would be none with bytes that are not: those get the word `perhaps`. Which ones these are follows from the place and the
section of RFC 9204.
"""

import json
import re
from typing import Any, Dict, Iterable, Iterator, List, NamedTuple, Optional, Tuple

from qpk.lines import ENDS, MARKS, PEER
from qpk.seen import Seen, SeenOfEnd
from qpk.streams import Connection, to_bytes, to_text

FOUND, PERHAPS = 1, 4  # statuses of check
WORD_FOUND, WORD_PERHAPS = "found", "perhaps"  # of a finding that is certain, and of one that may be none
# A finding as qpk check prints it, perhaps marked: its line, whose it is, what it is about, a stream, what is wrong, and the
# section of its standard. What is added of a packet goes between PLACE and REST.
PRINTED = re.compile(
    rf"(?P<place>(?P<perhaps>{WORD_PERHAPS}: )?line (?P<line>\d+))"
    r"(?P<rest>: (?:\S+ (?=[<>] ))?(?:(?P<mark>[<>]) )?(?P<subject>encoder|decoder|section|record)\b"
    r"(?: of stream (?P<stream>\d+))?[^:]*: (?P<fault>.*) \[RFC (?P<standard>9204|9114), section (?P<section>[\d.]+).*)"
)
NAMED_STREAM = re.compile(r"\bstream (\d+)\b")
SUBJECTS = ("encoder", "decoder", "section", "record")
QPACK, HTTP = "9204", "9114"  # the RFCs that findings cite
CUT, WAITS = "4.2", "to the end"  # the section of what the end of a recording cuts, and how a fault of what waits ends
CUT_AT_THE_END = "cut at the end"
BEFORE_LINES = ("4.5.1", "4.5.1.1", "4.5.1.2")  # sections of faults before the field lines
NO_COUNT = "no encoder could have written"  # the first words of faults and of a cause
NO_ENTRY = "references an entry that is not in the table"
COUNT_OF_0 = "the encoder writes a required insert count of 0"
# Sections of RFC 9204 of findings that are none ..
OF_SECTIONS = ("2.1.2", "2.2.3", "4.5.1.1", "4.5.1.2")  # if an insertion is not in the file, about a section
OF_SETTINGS = ("2.1.2", "2.2.3", "4.3.1", "4.5.1.1", "4.5.1.2")  # with other limits
OF_DECODERS = ("4.4.1", "4.4.3")  # if a section or an insertion of the peer is not in the file
OF_ACKNOWLEDGMENTS = ("2.1.1", "2.2.2.1")  # if an acknowledgment is not in the file
AT_RISK = "streams that could be blocked"  # the first words of a fault that is none with one too
WRONG_ENTRY = "an index hits another entry"  # the first words of a cause
OF_CONNECTIONS = "0x02"  # how the codes of errors begin that end the connection


# ---- Findings


class Finding(NamedTuple):
    """A finding as an object of qpk check has it."""

    line: int
    time: str
    mark: str  # of the end that sent it
    subject: str
    at: int  # the stream of a section; else the offset
    offset: int  # on the stream of instructions, or in the section
    instruction: int  # its number on that stream, from 1
    fault: str
    section: str  # of its standard
    code: str  # with its name; empty where no code ends the connection
    cause: str
    is_perhaps: bool = False
    packet: int = 0
    filter: str = ""
    standard: str = QPACK  # the number of the RFC

    @property
    def table(self) -> str:
        """The mark of the end whose encoder's table it is about."""
        return PEER[self.mark] if self.subject == "decoder" else self.mark

    @property
    def is_of_the_end(self) -> bool:
        """Whether the end of the recording makes it."""
        return self.rfc() == (QPACK, CUT) or self.fault.endswith(WAITS)

    def rfc(self) -> Tuple[str, str]:
        """Returns the standard that says what is wrong, and its section."""
        return self.standard, self.section

    def rests_on_acknowledgments(self) -> bool:
        """Whether it may be none with an acknowledgment that was not read."""
        return self.section in OF_ACKNOWLEDGMENTS or self.fault.startswith(AT_RISK)

    def waits_for(self) -> Optional[int]:
        """Returns the insertion that a section waits for to the end, if it does."""
        found = re.fullmatch(r"blocked until insertion (\d+) to the end", self.fault)
        return int(found[1]) if found else None

    def rests_on_table(self) -> bool:
        """Whether a fault of a section may be none with insertions that were not read."""
        if self.standard == HTTP:
            return self.cause.startswith(WRONG_ENTRY)
        if self.section == "2.2.3":
            return NO_ENTRY in self.fault and not self.cause.startswith(COUNT_OF_0)
        return self.section == "4.5.1.2" or self.section == "4.5.1.1" and self.fault.startswith(NO_COUNT)


def read_finding(it: Dict[str, Any]) -> Optional[Finding]:
    """Returns the finding that an object of qpk check is, if it is one."""
    if "fault" not in it:
        return None
    subject = next((name for name in SUBJECTS if name in it), "record")
    code = f"{it['code']:#06x} {it['code_name']}" if "code" in it else ""
    at = int(it.get(subject, 0))
    standard = HTTP if f"rfc{HTTP}" in it else QPACK
    return Finding(
        *(int(it["line"]), str(it.get("time", "")), MARKS.get(it.get("from", ""), ""), subject, at),
        *(int(it.get("offset", at)), int(it.get("instruction_number", 0)), it["fault"]),
        *(it[f"rfc{standard}"], code, it["cause"]),
        *(bool(it.get(WORD_PERHAPS)), int(it.get("packet", 0)), it.get("filter", ""), standard),
    )


def is_object(line: bytes) -> bool:
    """Whether a line that qpk check printed is an object of JSON, and no text."""
    return line.startswith(b"{")


def read_printed(line: bytes) -> Optional[Finding]:
    """Returns the finding that a line of qpk check is, if it is one. Of a text it has no cause, code, time or offset."""
    if is_object(line):
        return read_finding(json.loads(line))
    it = PRINTED.match(to_text(line))
    if not it:
        return None
    return Finding(
        *(int(it["line"]), "", it["mark"] or "", it["subject"], int(it["stream"] or 0), 0, 0, it["fault"], it["section"]),
        *("", "", bool(it["perhaps"]), 0, "", it["standard"]),
    )


# ---- Which may be none


def explains(seen: Seen, it: Finding) -> bool:
    """Whether a finding may be none, with what is not in the file.

    A packet that is missing is known by a later acknowledgment. So after the last of these each may be.
    """
    if it.is_of_the_end:
        return True
    own, peer = seen.ends.get(it.mark), seen.ends.get(PEER[it.mark])
    if own is None or peer is None:
        return seen.lacks()
    if it.rests_on_acknowledgments():
        is_lacking = own.lacks() or peer.lacks() or seen.is_late
        has_limit = peer.has_settings or not it.fault.startswith(AT_RISK)
        return is_lacking or not has_limit or it.line > (peer if it.subject == "decoder" else own).heard_to
    if it.standard == HTTP:
        return own.lacks() or seen.is_late or it.line > own.acknowledged_to
    if it.subject == "section":
        is_lacking = own.lacks() or seen.is_late or it.line > own.acknowledged_to
        return it.section in OF_SECTIONS and is_lacking or it.section in OF_SETTINGS and not peer.has_settings
    if it.subject == "encoder":
        return it.section == "4.3.1" and not peer.has_settings
    is_lacking = peer.lacks() or seen.is_late or it.line > own.heard_to
    return it.section in OF_DECODERS and "increment of 0" not in it.fault and is_lacking


# What was seen of a connection whose packets are not known, as of a trace, where something is missing.
WITH_GAPS = Seen({mark: SeenOfEnd(gaps=1, has_settings=False) for mark in ENDS})


class Marker:
    """Marks the findings of a connection that what is missing may explain, and counts both kinds."""

    def __init__(self, seen: Optional[Seen], has_gaps: bool = False) -> None:
        self.seen = seen or (WITH_GAPS if has_gaps else None)  # nothing of a recording, in which nothing is missing
        self.certain = self.explained = 0

    def lines(self, printed: Iterable[bytes]) -> Iterator[bytes]:
        """Yields lines of qpk check, of text or JSON, with their marks."""
        for line in printed:
            found = read_printed(line)
            if found is None:
                yield line
            elif self.seen is None or not explains(self.seen, found):
                self.certain += 1
                yield line
            else:
                self.explained += 1
                yield marked(line)

    def status(self, status: int) -> int:
        """Returns the status for one of the program."""
        if status != FOUND or not self.explained + self.certain:
            return status
        return FOUND if self.certain else PERHAPS


def marked(line: bytes) -> bytes:
    """Returns a line that is a finding with the mark that it may be none."""
    word = WORD_PERHAPS.encode()
    return b'{"%b":true,%b' % (word, line[1:]) if is_object(line) else b"%b: %b" % (word, line)


# ---- In a capture


class Places:
    """The packets of the lines of a connection, and the numbers of its streams of instructions."""

    def __init__(self, connection: Connection) -> None:
        self.packets, self.streams = connection.packets, connection.streams
        self.lasts: Dict[Tuple[str, str], int] = {}  # the packets of the last lines of streams of instructions
        for packet, line in zip(self.packets, connection.lines):
            mark, kind = line.split(" ", 3)[1:3]
            self.lasts[mark, kind] = packet

    def packet_of(self, it: Finding) -> int:
        """Returns the number of the packet that made a line whole, or 0 if there is none. Of what the end of the file cuts it
        is the last packet of its stream."""
        if it.fault.startswith(CUT_AT_THE_END):
            return self.lasts.get((it.mark, it.subject[0]), 0)
        return self.packets[it.line - 1] if 0 < it.line <= len(self.packets) else 0

    def filter_of(self, packet: int, it: Finding) -> str:
        """Returns a filter for Wireshark: the packet, and the stream that a finding names, or is on."""
        named = NAMED_STREAM.search(it.fault)
        own = it.at if it.subject == "section" else self.streams.get((it.mark, it.subject[0]))
        number = int(named[1]) if named else own
        parts = [] if number is None else [f"quic.stream.stream_id == {number}"]
        return " || ".join([*parts, f"frame.number == {packet}"])

    def lines(self, printed: Iterable[bytes]) -> Iterator[bytes]:
        """Yields lines of qpk check, of text or JSON, with the packet and the filter of each finding."""
        for line in printed:
            found = read_printed(line) if self.packets else None
            packet = self.packet_of(found) if found else 0
            yield with_packet(line, packet, self.filter_of(packet, found)) if found and packet else line


def with_packet(line: bytes, packet: int, wanted: str) -> bytes:
    """Returns a line that is a finding with its packet and a filter: of an object as members."""
    if is_object(line):
        added = json.dumps({"packet": packet, "filter": wanted}, separators=(",", ":"))
        return line.rstrip()[:-1] + b"," + added[1:].encode() + b"\n"
    found = PRINTED.match(to_text(line))
    assert found
    return to_bytes(f"{found['place']}, #{packet}{found['rest']}; in Wireshark: {wanted}\n")


# ---- What follows from another finding


class Causes:
    """Which findings follow from another one, by rules that hold whatever else is wrong:

    - Insertions come in their order. So a section that waits to the end for one follows from another that waits for it,
      or for an earlier one.
    - An error of QPACK ends the connection. So what waits or is cut at the end follows from one about the same table.
    - After an instruction of an encoder that is refused the table is not known. So a fault that rests on it follows.
    - Nobody acknowledges a section whose prefix is refused. So an acknowledgment of its stream follows.
    - Where an index hits another entry, later ones do so too. So a list follows from one before it.

    From a finding that may be none, only one that waits too follows.
    """

    def __init__(self, findings: List[Finding]) -> None:
        self.findings = findings
        self.ended: Dict[str, int] = {}  # by the marks of tables: the instruction of the encoder that is refused
        self.errors: Dict[str, int] = {}  # and the first error
        self.waiting: Dict[str, int] = {}  # and the section that waits for the earliest insertion
        self.refused: Dict[Tuple[str, int], int] = {}  # and the section of a stream whose prefix is refused
        self.misread: Dict[str, int] = {}  # and the first list that may have other entries
        for number, it in enumerate(findings):
            self.note(number, it)

    def note(self, number: int, it: Finding) -> None:
        """Notes what others may follow from."""
        before = self.waiting.get(it.table)
        wanted = it.waits_for()
        if wanted is not None and (before is None or wanted < (self.findings[before].waits_for() or 0)):
            self.waiting[it.table] = number
        if it.is_perhaps or not it.code:
            return
        if not it.code.startswith(OF_CONNECTIONS):
            if it.rests_on_table():
                self.misread.setdefault(it.table, number)
            return
        first = self.errors.setdefault(it.table, number)
        if it.line < self.findings[first].line:
            self.errors[it.table] = number
        if it.subject == "encoder":
            self.ended.setdefault(it.table, number)
        if it.subject == "section" and it.section in BEFORE_LINES:
            self.refused.setdefault((it.table, it.at), number)

    def cause_of(self, number: int) -> Optional[int]:
        """Returns the number of the finding that one follows from, if it does."""
        it = self.findings[number]
        cause: Optional[int] = None
        if it.is_of_the_end:
            cause = self.errors.get(it.table, self.waiting.get(it.table) if it.waits_for() is not None else None)
        elif it.standard == HTTP:
            cause = self.misread.get(it.table) if it.rests_on_table() else None
        elif it.subject == "section" and it.rests_on_table():
            cause = self.ended.get(it.table)
        elif it.subject == "decoder" and it.section == "4.4.1":
            named = NAMED_STREAM.search(it.fault)
            cause = self.refused.get((it.table, int(named[1]))) if named else None
        if cause is None or cause == number or not it.is_of_the_end and self.findings[cause].line > it.line:
            return None
        return cause

    def first_of(self, number: int) -> int:
        """Returns the number of the finding that one follows from at last, or its own."""
        cause = self.cause_of(number)
        while cause is not None:  # an end follows from an acknowledgment, that from a section, and that from an instruction
            number, cause = cause, self.cause_of(cause)
        return number
