"""A recording with other values: qpk strip. qpk-capture reads it.

Each value that a line or an instruction has in its bytes becomes another one, with as many bytes and as many when it is
Huffman-coded. So no byte moves. Equal values become equal ones. Which ones follows from a key that is made for each run.
"""

import hmac
import json
import random
import re
import subprocess
import tempfile
from io import BytesIO
from typing import Any, Dict, Iterable, Iterator, List, Set, Tuple

from qpk.huffman import LENGTHS, OF_BITS, bits_of, decode, encode, has_end
from qpk.lines import LINE, bytes_of, digits_of
from qpk.streams import Connection, SourceError, to_bytes, to_text

TOKEN = re.compile(rb":?[!#$%&'*+.^_`|~0-9A-Za-z-]+")  # a name of a field (RFC 9110, section 5.1)
PLAIN = {bits: bytes.fromhex(OF_BITS[bits]).replace(b" ", b"") for bits in (5, 6, 7, 8)}  # of which new values are made
TRIES = 16  # to find a value that no other one has become
LONGEST_INTEGER = 11  # bytes that one with a prefix may have, of 64 bits


class NotWhole(Exception):
    """The bytes end before an integer or a string does, or an integer is too large."""


class Values:
    """The new values, by those that they stand for."""

    def __init__(self, key: bytes) -> None:
        self.key = key
        self.found: Dict[bytes, bytes] = {}
        self.taken: Set[bytes] = set()

    def other(self, value: bytes) -> bytes:
        """Returns the value that takes the place of one, as long as that in both codings."""
        if value not in self.found:
            made = value
            for attempt in range(TRIES if value else 0):
                made = self.make(value, attempt)
                if made not in self.taken and made != value:
                    break
            self.found[value] = made
            self.taken.add(made)
        return self.found[value]

    def make(self, value: bytes, attempt: int) -> bytes:
        """Makes a value, of which nothing but the lengths is known without the key."""
        choice = random.Random(hmac.new(self.key, bytes([attempt]) + value, "sha256").digest())
        size, bits = len(value), bits_of(value)
        most = (bits + 7) // 8 * 8
        if bits > 8 * size:  # bytes that are seldom: they change places, and each becomes one whose code is as long
            lengths = [LENGTHS[it] for it in value]
            choice.shuffle(lengths)
            return bytes(choice.choice(bytes.fromhex(OF_BITS[it])) for it in lengths)
        wanted = choice.randint(max(5 * size, most - 7), min(most, 8 * size))
        lengths = [5] * size
        for at in choice.sample(range(3 * size), wanted - 5 * size):
            lengths[at // 3] += 1
        return bytes(choice.choice(PLAIN[it]) for it in lengths)


def broken(data: bytes) -> bytes:
    """Returns a string that can't be decoded either: with the code of EOS, or with last bits that are no code and no padding."""
    size = len(data)
    if has_end(data):
        return b"\xff" * size
    return bytes(size) if size * 8 % 5 else bytes([0x50]) + bytes(size - 1)  # codes of five bits, or one of six first


class Bytes:
    """Bytes of a section or a stream of instructions, in which values become other ones."""

    def __init__(self, data: bytes, values: Values) -> None:
        self.data, self.values, self.at = bytearray(data), values, 0

    def integer(self, bits: int) -> int:
        """Reads an integer whose prefix has some bits."""
        begin, most = self.at, (1 << bits) - 1
        if begin >= len(self.data):
            raise NotWhole
        number = self.data[begin] & most
        self.at += 1
        if number < most:
            return number
        for shift in range(0, 7 * LONGEST_INTEGER, 7):
            if self.at >= len(self.data):
                raise NotWhole
            byte = self.data[self.at]
            self.at += 1
            number += (byte & 0x7F) << shift
            if byte < 0x80:
                return number
        raise NotWhole

    def string(self, bits: int, is_name: bool = False) -> None:
        """Passes over a string whose length has a prefix of some bits. A value, or a name that is none, becomes another."""
        if self.at >= len(self.data):
            raise NotWhole
        is_coded = self.data[self.at] >> bits & 1
        size = self.integer(bits)
        if size > len(self.data) - self.at:
            raise NotWhole
        own = bytes(self.data[self.at : self.at + size])
        value = decode(own) if is_coded else own
        if value is None:
            self.put(broken(own))
        elif not (is_name and TOKEN.fullmatch(value)):
            other = self.values.other(value)
            self.put(encode(other) if is_coded else other)
        else:
            self.at += size

    def put(self, data: bytes) -> None:
        """Puts bytes in the place of as many."""
        self.data[self.at : self.at + len(data)] = data
        self.at += len(data)

    def clear(self) -> None:
        """Puts zeros in the place of what can't be read, which no end reads either."""
        self.put(bytes(len(self.data) - self.at))

    def instructions(self) -> None:
        """Passes over the instructions of an encoder (RFC 9204, section 4.3)."""
        while self.at < len(self.data):
            first = self.data[self.at]
            if first >= 0x80:
                self.integer(6)
                self.string(7)
            elif first >= 0x40:
                self.string(5, is_name=True)
                self.string(7)
            else:
                self.integer(5)

    def section(self) -> None:
        """Passes over the prefix and the field lines of a section (RFC 9204, section 4.5)."""
        self.integer(8)
        self.integer(7)
        while self.at < len(self.data):
            first = self.data[self.at]
            if first >= 0x80:
                self.integer(6)
            elif first >= 0x40:
                self.integer(4)
                self.string(7)
            elif first >= 0x20:
                self.string(3, is_name=True)
                self.string(7)
            elif first >= 0x10:
                self.integer(4)
            else:
                self.integer(3)
                self.string(7)

    def stripped(self, kind: str) -> bytes:
        """Returns the bytes with other values, of a section or of the instructions of an encoder."""
        try:
            if kind == "b":
                self.section()
            else:
                self.instructions()
        except NotWhole:
            self.clear()
        return bytes(self.data)


# ---- A recording


class Line:
    """A line of a recording: what is before its bytes, whose they are, and the bytes."""

    def __init__(self, text: str) -> None:
        found = LINE.match(text)
        self.front, self.end, self.kind, digits = (found[1], found[2], found[3], found[5]) if found else (text, "", "", "")
        self.data = bytes_of(digits)
        self.half = "0" * (len(digits_of(digits)) % 2)  # of a byte, which the end of the recording cuts

    def text(self) -> str:
        """Returns the line. Comments are left out, and what has no bytes is as it was."""
        if self.kind:
            return f"{self.front} {self.data.hex()}{self.half}"
        return "" if self.front.lstrip().startswith("#") else self.front


def strip_lines(texts: Iterable[str], values: Values) -> Iterator[str]:
    """Yields the lines of a recording with other values."""
    lines = [Line(it) for it in texts]
    streams: Dict[str, List[Line]] = {}
    for it in lines:
        if it.kind == "b":
            it.data = Bytes(it.data, values).stripped("b")
        elif it.kind == "e":
            streams.setdefault(it.end or "", []).append(it)
    for own in streams.values():
        stream, at = Bytes(b"".join(it.data for it in own), values).stripped("e"), 0
        for it in own:
            it.data, at = stream[at : at + len(it.data)], at + len(it.data)
    return (it.text() for it in lines)


def said_of(program: str, rest: List[str], data: bytes) -> Tuple[bytes, int, List[Any]]:
    """Returns what qpk check says of a recording, its status, and what qpk show says without values."""
    with tempfile.TemporaryFile() as file:
        file.write(data)
        answers = []
        for command in (["check"], ["show", "--json"]):
            file.seek(0)
            ran = subprocess.run([program, *command, *rest, "-"], stdin=file, capture_output=True, check=False)
            if ran.stderr:
                raise SourceError(re.sub(r"^qpk: ", "", to_text(ran.stderr).strip().splitlines()[-1]))
            answers.append(ran)
    checked, shown = answers
    return checked.stdout, checked.returncode, [without_values(json.loads(it)) for it in shown.stdout.splitlines()]


def without_values(it: Any) -> Any:
    """Returns an object of qpk show without its values, and without names that are no tokens."""
    if isinstance(it, list):
        return [without_values(part) for part in it]
    if not isinstance(it, dict):
        return it
    kept = {key: without_values(part) for key, part in it.items() if key != "value"}
    name = it.get("name")
    if name is not None and not (isinstance(name, str) and TOKEN.fullmatch(name.encode("utf-8", "surrogatepass"))):
        kept["name"] = ""
    return kept


def strip(program: str, rest: List[str], connection: Connection, key: bytes) -> bytes:
    """Returns the recording of a connection with other values, of which qpk says the same."""
    with BytesIO() as file:
        connection.write(file)
        before = file.getvalue()
    lines = (it.rstrip("\r") for it in to_text(before).split("\n"))
    after = to_bytes("\n".join(strip_lines(lines, Values(key))))
    if said_of(program, rest, before) != said_of(program, rest, after):
        raise SourceError("with other values qpk says something else of it, so nothing is written: send its findings alone")
    return after
