"""What was seen of the packets of a connection in a capture, and so what the file lacks. qpk-capture reads it."""

import json
from typing import Any, Dict, List, NamedTuple, Tuple

from qpk.lines import ENDS

MOST_NAMED = 8  # ranges of packet numbers that are named of an end; the others are counted
MOST_LINES = 1 << 62


class SeenOfEnd(NamedTuple):
    """What was seen of the packets that an end sent."""

    packets: int = 0
    missing: List[Tuple[int, int]] = []  # ranges of numbers that the peer acknowledged, and that are not in the file
    unread: int = 0  # packets that no key opened
    gaps: int = 0  # streams with a gap
    has_settings: bool = True
    early: int = 0  # packets that the peer acknowledged before they are in the file
    acknowledged_to: int = MOST_LINES  # the last line that it sent in a packet that the peer acknowledged
    heard_to: int = MOST_LINES  # how many lines there are before its last acknowledgment

    def lacks(self) -> bool:
        """Whether something that it sent may not have been read."""
        return bool(self.missing or self.unread or self.gaps or self.early)

    def count_missing(self) -> int:
        """Returns how many packets are known to be missing."""
        return sum(last - first + 1 for first, last in self.missing)


class Seen(NamedTuple):
    """What was seen of a connection in a capture, by the marks of its ends."""

    ends: Dict[str, SeenOfEnd]
    is_late: bool = False  # whether its first packets are not in the file

    def line(self) -> str:
        """Returns it as a line."""
        counts = [f"{ENDS[mark]} {it.packets} of {it.packets + it.count_missing()}" for mark, it in self.ends.items()]
        parts = [f"packets: {', '.join(counts)}"]
        for mark, it in self.ends.items():
            if it.missing:
                parts.append(f"not in the file: {ENDS[mark]} {numbers_of(it.missing)}")
            if it.unread:
                parts.append(f"opened by no key: {ENDS[mark]} {it.unread}")
            if it.early:
                parts.append(f"acknowledged before they came: {ENDS[mark]} {it.early}")
            if it.gaps:
                parts.append(f"streams with a gap: {ENDS[mark]} {it.gaps}")
        if self.is_late:
            parts.append("its first packets are not in the file")
        return "; ".join(parts)

    def text(self, is_json: bool) -> str:
        """Returns what check prints before its findings."""
        return json.dumps(self.as_object(), separators=(",", ":")) + "\n" if is_json else self.line() + "\n"

    def as_object(self) -> Dict[str, Any]:
        """Returns it as an object of JSON."""
        ends = {
            ENDS[mark]: {
                "read": it.packets,
                "missing": it.missing,
                "unread": it.unread,
                "acknowledged_early": it.early,
                "streams_with_gaps": it.gaps,
            }
            for mark, it in self.ends.items()
        }
        return {"packets": ends, "begins_late": self.is_late}

    def lacks(self) -> bool:
        """Whether something is missing."""
        return self.is_late or any(it.lacks() for it in self.ends.values())


def numbers_of(ranges: List[Tuple[int, int]]) -> str:
    """Returns ranges of numbers as text."""
    named = [str(first) if first == last else f"{first} to {last}" for first, last in ranges[:MOST_NAMED]]
    more = sum(last - first + 1 for first, last in ranges[MOST_NAMED:])
    return ", ".join([*named, *([f"and {more} more"] if more else [])])
