"""The verdict of the page on each connection: what qpk check prints of it."""

from dataclasses import dataclass, field
from typing import Any, Dict, Iterable, List, Optional

from qpk.findings import WORD_PERHAPS
from qpk.lines import MARKS
from qpk.seen import Seen, SeenOfEnd

from .lines import Object

MOST_FAULTS = 1_000  # of a connection that the page lists


@dataclass
class Verdict:
    """The findings on a connection, or the first ones, and what the file lacks."""

    faults: List[Object] = field(default_factory=list)
    certain: int = 0
    explained: int = 0  # by what the file lacks
    seen: Optional[Seen] = None  # of the packets of a capture

    def take(self, printed: Iterable[Object]) -> None:
        """Takes what qpk check printed, as objects."""
        for it in printed:
            if "packets" in it and "fault" not in it:
                self.seen = seen_of(it)
            elif "fault" in it:
                self.explained += bool(it.get(WORD_PERHAPS))
                self.certain += not it.get(WORD_PERHAPS)
                if len(self.faults) < MOST_FAULTS:
                    self.faults.append(it)

    @property
    def number(self) -> int:
        """How many findings there are."""
        return self.certain + self.explained

    def data(self) -> Dict[str, Any]:
        """Returns it for the page."""
        found: Dict[str, Any] = {"certain": self.certain, "explained": self.explained}
        return {**found, "seen": self.seen.line(), "lacks": self.seen.lacks()} if self.seen else found


def seen_of(it: Object) -> Seen:
    """Returns what was seen of a connection, of the object that qpk check prints of it."""
    ends = {
        MARKS[end]: SeenOfEnd(
            packets=own["read"],
            missing=[(first, last) for first, last in own["missing"]],
            unread=own["unread"],
            gaps=own["streams_with_gaps"],
            early=own["acknowledged_early"],
        )
        for end, own in it["packets"].items()
    }
    return Seen(ends, it["begins_late"])
