"""A connection, put together from what qpk shows: its events with their bytes, its entries, and its tables."""

from bisect import bisect_right
from collections import deque
from dataclasses import dataclass, field
from typing import Deque, Dict, Iterable, Iterator, List, NamedTuple, Optional, Tuple

from .lines import NO_LINES, Field, Lines, Object, field_of, lines_of
from .recording import Piece, Recording

ENTRY_OVERHEAD = 32  # bytes that an entry counts beside its name and value (RFC 9204, section 3.2.1)
PLACES = ("encoder", "decoder", "section", "record")  # where a finding may be
OTHER = {"client": "server", "server": "client", "": ""}


class Event:
    """An object that qpk printed: an instruction, a section, SETTINGS, or what ended them."""

    __slots__ = ("number", "said", "line", "end", "of", "stream", "is_list", "data", "arrival", "lines", "field", "evicted")

    def __init__(self, number: int, said: Object) -> None:
        self.number, self.said = number, said
        self.line: int = said["line"]  # of the recording
        self.end: str = said.get("from", "")  # that sent it
        # Which stream of instructions it is of, and the end whose encoder it is about: what is not of an encoder is written
        # by the decoder of the other end.
        self.stream = "encoder" if "encoder" in said else "decoder" if "decoder" in said else None
        self.of = self.end if self.stream == "encoder" or "section" in said else OTHER[self.end]
        self.is_list = "lines" in said and "refused" not in said  # a section that was decoded whole
        self.data = b""  # of the instruction or the section
        self.arrival: Optional["Event"] = None  # of a section that was blocked: when it came
        self.lines = NO_LINES  # of a section
        self.field: Optional[Field] = None  # that an instruction inserts
        self.evicted = 0  # how many entries of its encoder's table were, up to it

    @property
    def seconds(self) -> Optional[float]:
        """Its time, if that is a number."""
        try:
            return float(self.said["time"])
        except (KeyError, ValueError):
            return None


def size_of(it: Field) -> int:
    """Returns what an entry takes of the capacity."""
    return it.length + ENTRY_OVERHEAD


@dataclass
class Entry:
    """An entry of a dynamic table, from its insertion on."""

    number: int
    field: Field
    inserted: Event
    lines: List[Tuple[Event, int]] = field(default_factory=list)  # that reference it: the section, and which line
    instructions: List[Event] = field(default_factory=list)  # that reference it
    evicted: Optional[Event] = None

    @property
    def size(self) -> int:
        """What it takes of the capacity."""
        return size_of(self.field)

    @property
    def last_referenced(self) -> int:
        """The number of the last event that references it, or else of its insertion."""
        references = [*(it for it, _ in self.lines), *self.instructions]
        return max(it.number for it in [self.inserted, *references])

    def is_draining(self, moment: int) -> bool:
        """Whether it is evicted later, and no event after a moment references it."""
        return self.evicted is not None and self.last_referenced <= moment


class Table(NamedTuple):
    """A dynamic table from an event on: its entries are those after the evicted ones, up to the last inserted."""

    event: int
    capacity: int
    size: int
    inserted: int
    evicted: int


@dataclass
class Direction:
    """An encoder of the connection: what it sent, and the decoder stream that answers it."""

    end: str
    entries: List[Entry] = field(default_factory=list)
    tables: List[Table] = field(default_factory=lambda: [Table(-1, 0, 0, 0, 0)])

    def table_at(self, moment: int) -> Table:
        """Returns the table after the event of a number."""
        return self.tables[bisect_right([it.event for it in self.tables], moment) - 1]

    def entries_of(self, table: Table) -> List[Entry]:
        """Returns the entries of a table, the newest first."""
        return self.entries[table.evicted : table.inserted][::-1]

    def apply(self, event: Event) -> None:
        """Applies an event: an instruction changes the table, and a section references entries."""
        for place, shape in enumerate(event.lines.shapes):
            if shape.entry is not None:
                self.entries[shape.entry - 1].lines.append((event, place))
        said, table = event.said, self.tables[-1]
        if event.stream != "encoder" or "refused" in said:
            return
        if said.get("instruction") == "set capacity":
            self.resize(event, table._replace(event=event.number, capacity=said["capacity"]))
        elif "entry" in said:
            referenced = referenced_by(said)
            if referenced is not None:
                self.entries[referenced - 1].instructions.append(event)
            assert event.field
            entry = Entry(said["entry"], event.field, event)
            self.entries.append(entry)
            self.resize(event, table._replace(event=event.number, size=table.size + entry.size, inserted=entry.number))

    def resize(self, event: Event, table: Table) -> None:
        """Makes a table the last one. The oldest entries are evicted that do not fit (RFC 9204, section 3.2.2)."""
        while table.size > table.capacity:
            oldest = self.entries[table.evicted]
            oldest.evicted = event
            table = table._replace(size=table.size - oldest.size, evicted=oldest.number)
        self.tables.append(table)


def referenced_by(said: Object) -> Optional[int]:
    """Returns the entry that an insertion references, for its name at least."""
    entry: Optional[int] = said.get("of", said.get("name_from", {})).get("entry")
    return entry


# ---- Events, as qpk shows them


@dataclass
class Instructions:
    """The bytes of a stream of instructions, of which each ends where the next begins."""

    waiting: bytearray = field(default_factory=bytearray)  # those from the last instruction on
    begin: int = 0  # the offset of the first of them
    last: Optional[Event] = None
    size: int = 0  # of the stream

    def add(self, data: bytes) -> None:
        """Adds the next bytes."""
        self.waiting += data
        self.size += len(data)

    def end(self, offset: int) -> None:
        """Gives the last instruction its bytes, which end at an offset."""
        if self.last:
            self.last.data = bytes(self.waiting[: offset - self.begin])
        del self.waiting[: offset - self.begin]
        self.begin = offset


class Reading:
    """What qpk shows of a recording, read once, with the bytes of the recording."""

    def __init__(self, shown: Iterable[Object], pieces: Iterable[Piece]) -> None:
        self.shown, self.pieces = shown, iter(pieces)
        self.piece: Optional[Piece] = None  # the last one
        self.streams: Dict[Tuple[str, str], Instructions] = {}  # by the end whose encoder each is about, and its name
        self.windows: Dict[str, Window] = {}  # by the end of the encoder
        self.blocked: Dict[Tuple[str, int], Deque[Event]] = {}
        self.has_ends = False
        self.is_refused = False  # something in the recording

    def events(self) -> Iterator[Event]:
        """Yields the events. An instruction has its bytes once the next one of its stream was yielded, or all."""
        for number, said in enumerate(self.shown):
            event = Event(number, said)
            self.has_ends = self.has_ends or event.end != ""
            self.is_refused = self.is_refused or "refused" in said
            self.read_up_to(event.line)
            if event.stream:
                self.take_instruction(event, event.stream)
            elif "given_up" in said:
                self.blocked.pop((event.of, said["given_up"]), None)
            elif "section" in said:
                self.give_section(event)
            yield event
        for piece in self.pieces:
            self.take(piece)
        for stream in self.streams.values():
            stream.end(stream.size)

    def take_instruction(self, event: Event, name: str) -> None:
        """Ends the instruction before one on its stream. Applies one of an encoder to the window of the table."""
        stream = self.stream(event.of, name)
        stream.end(event.said[name])
        stream.last = event
        if name == "encoder" and "instruction" in event.said and "refused" not in event.said:
            window = self.windows.setdefault(event.of, Window())
            event.field = window.apply(event.said)
            event.evicted = window.evicted

    def ends(self) -> List[str]:
        """Returns the ends of which there are events, once all were read."""
        return ["client", "server"] if self.has_ends else [""]

    def stream(self, owner: str, name: str) -> Instructions:
        """Returns a stream of instructions."""
        found = self.streams.get((owner, name))
        if found is None:
            found = self.streams[owner, name] = Instructions()
        return found

    def read_up_to(self, line: int) -> None:
        """Takes the pieces up to a line, and the next one if there is none in that line."""
        while self.piece is None or self.piece.line < line:
            piece = next(self.pieces, None)
            if piece is None:
                return
            self.take(piece)

    def take(self, piece: Piece) -> None:
        """Takes a piece: of a stream of instructions, or a section."""
        self.piece = piece
        self.has_ends = self.has_ends or piece.end != ""
        if piece.kind == "e":
            self.stream(piece.end, "encoder").add(piece.data)
        elif piece.kind == "d":
            self.stream(OTHER[piece.end], "decoder").add(piece.data)

    def give_section(self, event: Event) -> None:
        """Gives a section its bytes, its lines, and when it came if it was blocked."""
        said, key = event.said, (event.of, event.said["section"])
        if said.get("was_blocked"):
            event.arrival = self.blocked[key].popleft()
            event.data = event.arrival.data
        elif self.piece:
            event.data = self.piece.data
        if "blocked_until" in said and "refused" not in said:
            self.blocked.setdefault(key, deque()).append(event)
        if "lines" in said:
            event.lines = said["lines"] if isinstance(said["lines"], Lines) else lines_of(said["lines"])


# ---- How much is in a table


@dataclass
class Window:
    """A dynamic table by its sizes alone."""

    capacity: int = 0
    size: int = 0
    sizes: Deque[int] = field(default_factory=deque)  # of its entries, the oldest first
    evicted: int = 0  # how many entries were

    def apply(self, said: Object) -> Optional[Field]:
        """Applies an instruction, and returns the field that it inserts, if it does."""
        added: Optional[Field] = None
        if said["instruction"] == "set capacity":
            self.capacity = said["capacity"]
        elif "entry" in said:
            added = field_of(said)
            self.sizes.append(size_of(added))
            self.size += self.sizes[-1]
        while self.size > self.capacity:
            self.size -= self.sizes.popleft()
            self.evicted += 1
        return added


# ---- What is kept of a connection


@dataclass
class Connection:
    """A recorded connection: all its events."""

    recording: Recording
    events: List[Event] = field(default_factory=list)
    directions: List[Direction] = field(default_factory=list)

    def take(self, event: Event) -> None:
        """Keeps an event."""
        event.said.pop("lines", None)  # which it has itself
        self.events.append(event)

    def finish(self, ends: List[str]) -> None:
        """Makes the directions, once all events were taken."""
        directions = {end: Direction(end) for end in ends}
        for event in self.events:
            directions[event.of].apply(event)
        self.directions = list(directions.values())

    def moment_of(self, line: Optional[int]) -> int:
        """Returns the number of the last event up to a line of the recording, or of all; -1 if there is none."""
        return max((it.number for it in self.events if line is None or it.line <= line), default=-1)


class Finder:
    """Finds the event of a finding of qpk check, of the events of its line."""

    def __init__(self, events: List[Event]) -> None:
        self.near: Dict[Tuple[int, str, str], Event] = {}  # the last event of a line, an end and a kind
        self.same: Dict[Tuple[int, str, str, int], Event] = {}  # and of an offset, or a stream
        for event in events:
            for place in PLACES:
                if place in event.said:
                    self.near[event.line, event.end, place] = event
                    self.same[event.line, event.end, place, event.said[place]] = event

    def find(self, finding: Object) -> Optional[Event]:
        """Returns the event of a finding, if it is there."""
        place = next(it for it in PLACES if it in finding)
        key = (finding["line"], finding.get("from", ""), place)
        return self.same.get((*key, finding[place]), self.near.get(key))
