"""What a capture is, and the lines of a recording that have bytes. qpk-capture and qpk-report read it.

Which lines there may be (qpk.1, RECORDING) is checked by qpk, before they are read here.
"""

import re
from typing import Iterable, Iterator, List, NamedTuple, Optional

# What a file begins with that is compressed.
GZIP, XZ, ZSTD = (bytes.fromhex(it) for it in ("1f8b08", "fd377a58", "28b52ffd"))
# What a capture begins with: pcapng, and pcap in either order of bytes with either unit of time.
PLAIN_CAPTURES = tuple(bytes.fromhex(it) for it in ("0a0d0d0a", "d4c3b2a1", "a1b2c3d4", "4d3cb2a1", "a1b23c4d"))
# What a file begins with that qpk-capture reads, if it is no trace. tool/qpk-front has the same list.
CAPTURES = (*PLAIN_CAPTURES, GZIP, XZ, ZSTD)
# The marks of lines: the ends that they stand for, the mark of each, and that of the other end.
ENDS = {">": "client", "<": "server", "": ""}
MARKS = {end: mark for mark, end in ENDS.items()}
PEER = {">": "<", "<": ">", "": ""}
# What is before the bytes: a time; a mark, which the kind may follow at once; the kind; of a section its stream. And the
# words of hexadecimal.
LINE = re.compile(r"(\s*(?:@\S*\s+)?(?:([<>])\s*)?([edb])(?:(?<=b)\s+(\S+))?)(?!\S)(.*)")


class Piece(NamedTuple):
    """A line of a recording that has bytes, or a record."""

    line: int
    end: str  # client, server, or nothing if the recording has one direction
    kind: str  # e, d or b
    data: bytes
    stream: str = ""  # the word that has the number of a section's stream


def is_capture(head: bytes) -> bool:
    """Whether a file that begins with these bytes is a capture, or is compressed."""
    return head.startswith(CAPTURES)


def pieces_of_lines(lines: Iterable[str]) -> Iterator[Piece]:
    """Yields the pieces of lines."""
    for number, line in enumerate(lines, 1):
        piece = piece_of_words(number, line.split()) or piece_of_line(number, line)
        if piece:
            yield piece


def piece_of_words(number: int, words: List[str]) -> Optional[Piece]:
    """Returns the piece of a line as most are, with a blank after each part: a time, a mark, a kind, a stream, and bytes."""
    at = 1 if words and words[0].startswith("@") else 0
    marks = 1 if len(words) > at and words[at] in (">", "<") else 0
    *kind, digits = words[at + marks :] or [""]
    if not (kind in (["e"], ["d"]) or len(kind) == 2 and kind[0] == "b"):
        return None
    try:
        data = bytes.fromhex(digits)
    except ValueError:
        return None
    return Piece(number, ENDS[words[at] if marks else ""], kind[0], data, kind[1] if len(kind) == 2 else "")


def piece_of_line(number: int, line: str) -> Optional[Piece]:
    """Returns the piece of a line in any of its forms."""
    found = LINE.match(line)
    if not found:
        return None
    _, mark, kind, stream, digits = found.groups()
    return Piece(number, ENDS[mark or ""], kind, bytes_of(digits), stream or "")


def digits_of(text: str) -> str:
    """Returns the digits that words of hexadecimal have."""
    return re.sub(r"\b0[xX]|[:\s]", "", text)


def bytes_of(text: str) -> bytes:
    """Returns the bytes that words of hexadecimal have. Half a byte at the end is left out."""
    digits = digits_of(text)
    return bytes.fromhex(digits[: len(digits) // 2 * 2])
