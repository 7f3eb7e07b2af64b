"""A recording or a log that grows: qpk show --follow FILE. qpk-capture reads it.

What came is shown again from its begin each time that the file grew, and what is new of it is printed. So what a line says is
what qpk show says of the whole. How often that is follows from how long it takes. A file has a bound, and so has the memory.
"""

import hashlib
import json
import subprocess
import tempfile
import time
from typing import Any, BinaryIO, Callable, Dict, Iterator, List, Tuple

from qpk.main import complain
from qpk.streams import Connection, SourceError, to_bytes, to_text

MOST = 1 << 25  # bytes of a file that is followed
PAUSE, SHARE = 0.2, 4  # seconds between two looks; and how many times as long as the last answer took


class Shown:
    """What was printed of a connection."""

    def __init__(self) -> None:
        self.size, self.sum = 0, hashlib.sha256()

    def new(self, output: BinaryIO, size: int) -> Tuple[bool, Iterator[bytes]]:
        """Returns whether what was printed is still the begin of what qpk prints, and what is to be printed."""
        before = hashlib.sha256()
        left = self.size
        for piece in iter(lambda: output.read(min(left, 1 << 16)), b""):
            before.update(piece)
            left -= len(piece)
        is_same = not left and before.digest() == self.sum.digest()
        if not is_same:
            output.seek(0)
            self.size, self.sum = 0, hashlib.sha256()
        return is_same, self.rest(output, size)

    def rest(self, output: BinaryIO, size: int) -> Iterator[bytes]:
        """Yields what is not printed yet, up to a size."""
        while self.size < size:
            piece = output.read(min(size - self.size, 1 << 16))
            if not piece:
                return
            self.size += len(piece)
            self.sum.update(piece)
            yield piece


def is_of_the_end(line: bytes, is_json: bool) -> bool:
    """Whether a line that qpk show printed is about the end of its input."""
    if is_json:
        said = json.loads(line)
        return "cut" in said or "left_out" in said
    return b": cut at the end of the input" in line or b" at the end of the input is left out" in line


def show(program: str, words: List[str], connection: Connection, is_json: bool) -> Tuple[BinaryIO, int]:
    """Returns what qpk shows of a connection, and how many bytes of it stay when more comes."""
    output: Any = tempfile.TemporaryFile()  # pylint: disable=consider-using-with # its reader closes it
    with tempfile.TemporaryFile() as recording:
        connection.write(recording)
        recording.seek(0)
        ran = subprocess.run(
            [program, "show", *words, "-"], stdin=recording, stdout=output, stderr=subprocess.PIPE, check=False
        )
    if ran.stderr:
        output.close()
        raise SourceError(to_text(ran.stderr).strip())
    output.seek(0)
    size = 0
    for line in output:
        if is_of_the_end(line, is_json):
            break
        size += len(line)
    output.seek(0)
    return output, size


def whole_lines(data: bytes) -> bytes:
    """Returns the lines that are whole."""
    return data[: data.rfind(b"\n") + 1]


class Follower:
    """Prints what is new of a file."""

    def __init__(self, program: str, words: List[str], read: Callable[[bytes], List[Connection]]) -> None:
        self.program, self.words, self.read = program, words, read
        self.is_json = "--json" in words
        self.shown: Dict[int, Shown] = {}
        self.last = -1  # the connection of the last line that was printed

    def print_new(self, data: bytes, write: Callable[[bytes], Any]) -> None:
        """Prints what is new of the connections of a file."""
        for connection in self.read(data):
            shown = self.shown.setdefault(connection.number, Shown())
            output, size = show(self.program, self.words, connection, self.is_json)
            with output:
                had_lines = shown.size > 0
                is_same, rest = shown.new(output, size)
                if had_lines and not is_same:
                    complain("qpk-capture: what came changes what is above, as SETTINGS do; it is shown again from its begin")
                for piece in rest:
                    if connection.about and connection.number != self.last and not self.is_json:
                        write(to_bytes(f"{connection.name()}\n"))
                    self.last = connection.number
                    write(piece)


def follow(file: BinaryIO, follower: Follower, write: Callable[[bytes], Any], flush: Callable[[], Any]) -> None:
    """Prints what is new of a file as it grows, until an interrupt ends it or the file is too long."""
    seen, data = 0, b""
    while True:
        begin = time.monotonic()
        data += file.read(MOST + 1 - len(data))
        if len(data) > MOST:
            raise SourceError(f"the file is longer than {MOST} bytes, to which it is followed: show it without --follow")
        whole = whole_lines(data)
        if len(whole) > seen:
            seen = len(whole)
            follower.print_new(whole, write)
            flush()
        time.sleep(max(PAUSE, SHARE * (time.monotonic() - begin)))
