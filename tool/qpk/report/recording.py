"""Recordings and captures: what qpk says of them, and their bytes."""

import json
import os
import re
import subprocess
import tempfile
from contextlib import contextmanager
from dataclasses import dataclass
from io import BytesIO, TextIOWrapper
from pathlib import Path
from typing import BinaryIO, Iterable, Iterator, List, Optional, Protocol, Sequence

from qpk.lines import Piece, is_capture, pieces_of_lines
from qpk.main import standard_input
from qpk.places import find_program
from qpk.qlog import is_trace

from . import ReportError
from .lines import NEXT, Object, Objects

HEAD_OF_RECORD = 12  # bytes before those of a record of the offline interop: 8 for the stream, 4 for the length
MOST_BYTES = 64 << 20  # of an object that qpk prints: a section with its fields, in memory some three times as much
MOST_LINES = 200_000  # of a section: each takes some 800 bytes in memory


@dataclass(frozen=True)
class Source:
    """What the words of a command name."""

    file: str
    keys: Optional[str] = None
    pdml: Optional[str] = None
    connection: Optional[int] = None
    max_capacity: Optional[int] = None
    max_blocked: Optional[int] = None
    is_qif: bool = False
    by: Optional[str] = None  # what decrypts a capture

    def limits(self) -> List[str]:
        """Returns the words of qpk that have the limits."""
        given = {"--max-capacity": self.max_capacity, "--max-blocked": self.max_blocked}
        return [word for name, number in given.items() if number is not None for word in (name, str(number))]


class Judge(Protocol):
    """Adds what a capture has beside its lines to what qpk check prints of these."""

    def lines(self, printed: Iterable[bytes]) -> Iterator[bytes]:
        """Yields the objects that qpk check prints of the capture, a line each."""


@dataclass(frozen=True)
class Recording:
    """A recorded connection, and the words with which qpk reads it."""

    name: str
    data: bytes
    words: Sequence[str]
    number: Optional[int] = None  # of a connection of a capture
    judge: Optional["Judge"] = None  # of a capture
    packets: Sequence[int] = ()  # of a capture, by its lines

    def show(self) -> Iterator[Object]:
        """Yields what qpk shows, an object a line. Its lines are parts."""
        objects = Objects()
        return (objects.read(it) for it in self._printed("show", (0, 2)))

    def check(self) -> Iterator[Object]:
        """Yields what qpk check prints, as objects."""
        printed = self._printed("check", (0, 1))
        return map(json.loads, self.judge.lines(printed) if self.judge else printed)

    def _printed(self, command: str, statuses: Sequence[int]) -> Iterator[bytes]:
        with tempfile.TemporaryFile() as recording:
            recording.write(self.data)
            recording.seek(0)
            with qpk_on([command, "--json", *self.words, "-"], recording, statuses) as printed:
                for line in iter(lambda: printed.readline(MOST_BYTES), b""):
                    yield bounded(line, command)

    def pieces(self) -> Iterator[Piece]:
        """Yields the lines that have bytes. Which lines there may be is checked by qpk."""
        data = BytesIO(self.data)
        if "--qif" in self.words:
            return pieces_of_records(data)
        return pieces_of_lines(TextIOWrapper(data, errors="replace", encoding="utf-8", newline="\n"))


def bounded(line: bytes, command: str) -> bytes:
    """Returns a line that a command of qpk printed, of no more than MOST_BYTES and MOST_LINES."""
    if len(line) == MOST_BYTES or len(line) > MOST_LINES and line.count(NEXT) > MOST_LINES:
        raise ReportError(
            f"a section is too large: over {MOST_LINES} lines, or {MOST_BYTES >> 20} MB as JSON; read it by qpk {command}"
        )
    return line


@contextmanager
def qpk_on(words: Sequence[str], file: BinaryIO, statuses: Sequence[int] = (0,)) -> Iterator[BinaryIO]:
    """Runs qpk on a file, which ends with one of these statuses. What it prints is read as it comes."""
    program = find_program()
    with tempfile.TemporaryFile() as complaints:
        try:
            ran = subprocess.Popen([program, *words], stdin=file, stdout=subprocess.PIPE, stderr=complaints)
        except (FileNotFoundError, PermissionError):
            raise ReportError(f"{program} can't be run: install qpk, or name it in the variable QPK") from None
        with ran:
            assert ran.stdout
            try:
                yield ran.stdout
            except BaseException:
                ran.kill()
                raise
        complaints.seek(0)
        said = complaints.read().decode(errors="replace").strip().splitlines()
    if ran.returncode not in statuses or ran.returncode == 1 and said:
        raise ReportError(re.sub(r"^qpk: ", "", said[-1]) if said else f"{program} ended with status {ran.returncode}")


# ---- The bytes of a recording of the interop


def pieces_of_records(file: BinaryIO) -> Iterator[Piece]:
    """Yields the pieces of the records of the offline interop."""
    number = 0
    head = file.read(HEAD_OF_RECORD)
    while len(head) == HEAD_OF_RECORD:
        stream, size = int.from_bytes(head[:8], "big"), int.from_bytes(head[8:], "big")
        number += 1
        yield Piece(number, "", "b" if stream else "e", file.read(size))
        head = file.read(HEAD_OF_RECORD)


# ---- What a word of a command names


def read_recordings(source: Source) -> List[Recording]:
    """Returns the recordings that a command is about: one, or one for each connection of a capture."""
    if source.pdml is not None:
        return read_capture(source, None)
    if source.file != "-" and not os.path.isfile(source.file):
        raise ReportError(f"{source.file} is not a file that can be read")
    data = standard_input() if source.file == "-" else Path(source.file).read_bytes()
    has_words = source.keys is not None or source.connection is not None or source.by is not None
    if has_words or not source.is_qif and is_scripted(data[:64]):
        return read_capture(source, data)
    words = [*source.limits(), *(["--qif"] if source.is_qif else [])]
    name = "standard input" if source.file == "-" else os.path.basename(source.file)
    return [Recording(name.encode(errors="replace").decode(), data, words)]


def is_scripted(head: bytes) -> bool:
    """Whether a file that begins with these bytes is a capture or a trace."""
    return is_capture(head) or is_trace(head)


def read_capture(source: Source, data: Optional[bytes]) -> List[Recording]:
    """Returns the recordings that the connections of a capture are, or of what tshark printed. Says what is missing."""
    # Of a recording these modules, which decrypt, would take a tenth of a second.
    from .capture import recordings_of  # pylint: disable=import-outside-toplevel

    return list(recordings_of(source, data))
