"""Findings of qpk check as a terminal has them: a few short lines each, and the bytes with a mark under the culprit.

qpk-capture reads it.
"""

import textwrap
from collections import Counter
from typing import Dict, Iterable, Iterator, List, Tuple

from qpk.findings import WORD_FOUND, WORD_PERHAPS, Causes, Finding
from qpk.lines import ENDS, Piece
from qpk.main import printable

WIDTH = 80  # of a line
LABEL = 10  # the columns before what a line says
BEFORE, AFTER = 6, 10  # bytes that are shown before the culprit, and from it on
MOST_LISTED = 100  # findings; the others are counted
KINDS = {"encoder": "e", "decoder": "d", "section": "b"}


class Bytes:
    """The bytes around the findings that are listed, as the lines of the recording have them."""

    def __init__(self, findings: List[Finding], pieces: Iterable[Piece]) -> None:
        self.sections: Dict[Finding, bytes] = {}
        of_lines: Dict[int, List[Finding]] = {}  # those about sections
        last: Dict[Tuple[str, str], bytes] = {}  # the last section of each stream, which may have waited
        self.streams: Dict[Tuple[str, str], Dict[int, bytearray]] = {}  # by end and kind: the bytes around an offset
        for it in findings:
            if it.subject == "section":
                of_lines.setdefault(it.line, []).append(it)
            elif it.subject != "record":
                self.streams.setdefault((ENDS[it.mark], KINDS[it.subject]), {})[it.offset] = bytearray()
        taken: Counter = Counter()
        for piece in pieces:
            if piece.kind == "b":
                last[piece.end, piece.stream.lstrip("0")] = piece.data
            for it in of_lines.get(piece.line, ()):
                self.sections[it] = last.get((ENDS[it.mark], str(it.at).lstrip("0")), b"")
            begin = taken[piece.end, piece.kind]
            taken[piece.end, piece.kind] += len(piece.data)
            for offset, kept in self.streams.get((piece.end, piece.kind), {}).items():
                kept += piece.data[max(0, offset - BEFORE - begin) : max(0, offset + AFTER - begin)]

    def around(self, it: Finding) -> Tuple[bytes, int]:
        """Returns bytes around a finding, and which of them it is at. There are none where the lines lack them."""
        if it.subject == "section":
            begin = max(0, it.offset - BEFORE)
            return self.sections.get(it, b"")[begin : it.offset + AFTER], it.offset - begin
        kept = self.streams.get((ENDS[it.mark], KINDS.get(it.subject, "")), {}).get(it.offset, b"")
        return bytes(kept), min(it.offset, BEFORE)


def labelled(label: str, text: str) -> Iterator[str]:
    """Yields a text in lines that are no wider than a terminal, behind a label."""
    lines = textwrap.wrap(printable(text), WIDTH - LABEL, break_on_hyphens=False) or [""]
    for at, line in enumerate(lines):
        yield f"  {label if at == 0 else '':{LABEL - 2}}{line}"


def place_of(it: Finding) -> str:
    """Returns where a finding is."""
    end = f"the {ENDS[it.mark]}'s " if it.mark else ""
    if it.subject == "section":
        what = f"{end}section of stream {it.at}, byte {it.offset}"
    elif it.subject == "record":
        what = f"record at byte {it.at}"
    else:
        what = f"{end}{it.subject} stream, byte {it.offset}, instruction {it.instruction}"
    packet = f"#{it.packet}, " if it.packet else ""
    return f"{packet}line {it.line}{f', at {it.time}' if it.time else ''}: {what}"


def lines_of_bytes(it: Finding, around: Bytes) -> Iterator[str]:
    """Yields the bytes of a finding, with a mark under the one that it is at."""
    data, at = around.around(it)
    if not data:
        return
    front = ".. " if it.offset > BEFORE else ""
    yield from labelled("bytes", front + data.hex(" "))
    if at < len(data):
        yield " " * (LABEL + len(front) + 3 * at) + "^^"


def lines_of(number: int, it: Finding, around: Bytes) -> Iterator[str]:
    """Yields the lines of a finding."""
    yield from textwrap.wrap(f"{number}. {printable(place_of(it))}", WIDTH, subsequent_indent="  ")
    yield from labelled(WORD_PERHAPS if it.is_perhaps else WORD_FOUND, it.fault)
    yield from lines_of_bytes(it, around)
    yield from labelled("rule", f"RFC {it.standard}, section {it.section}{f': {it.code}' if it.code else ''}")
    yield from labelled("cause", it.cause)
    if it.filter:
        yield from labelled("filter", it.filter)


def written(findings: List[Finding], pieces: Iterable[Piece], has_all: bool) -> Iterator[str]:
    """Yields the lines of findings in the order of their lines. What follows from another is counted, or listed too."""
    causes = Causes(findings)
    firsts = [causes.first_of(number) for number in range(len(findings))]
    listed = [number for number, first in enumerate(firsts) if has_all or first == number]
    listed.sort(key=lambda number: (findings[number].line, number))
    left_out = len(listed) - MOST_LISTED
    listed = listed if has_all else listed[:MOST_LISTED]
    around = Bytes([findings[it] for it in listed], pieces)
    follow = Counter(first for number, first in enumerate(firsts) if first != number)
    for at, number in enumerate(listed, 1):
        yield from lines_of(at, findings[number], around)
        if follow[number] and not has_all:
            yield from labelled("follow", f"{follow[number]} more, which --all lists")
        yield ""
    if left_out > 0 and not has_all:
        yield f"{left_out} more findings: --all lists them"
