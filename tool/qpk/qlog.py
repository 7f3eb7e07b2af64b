"""Traces in qlog: QPACK's bytes in them, as lines of a recording. qpk-capture reads it.

A trace is read as JSON, or as JSON-SEQ, whose records begin with the byte 1e or are a line each. These events are
read, of draft-ietf-quic-qlog-main-schema, -quic-events and -h3-events, and of draft-marx-qlog-main-schema and
draft-marx-qlog-event-definitions-quic-h3 before them, whose other names are in brackets:

    qpack:instruction_created, instruction_parsed      instruction, raw [instruction_sent, instruction_received]
    qpack:headers_encoded, headers_decoded             stream_id, raw
    http3:frame_created, frame_parsed                  stream_id, frame, raw [h3:, http:]
    http3:parameters_set                               initiator [owner], max_table_capacity, blocked_streams_count
    quic:stream_data_moved                             stream_id, offset, from, to, raw [transport:data_moved, data]

raw is hexadecimal, or an object whose data is. Bytes that are cut are left out, and so is what has none.
"""

import json
from collections import Counter
from dataclasses import dataclass, field
from typing import Dict, Iterator, List, Optional, Set, Tuple

from qpk.lines import PEER
from qpk.lists import MOST_LISTS, HeaderList, OnlyLists, fields_of_lines
from qpk.streams import BLOCKED_STREAMS, HEADERS, MAX_TABLE_CAPACITY, PUSH_PROMISE, SETTINGS
from qpk.streams import Connection, NotWhole, SourceError, Streams, read_integer

SEPARATOR = "\x1e"
# Older names of categories and events.
CATEGORIES = {"h3": "http3", "http": "http3", "transport": "quic"}
EVENTS = {
    "instruction_sent": "instruction_created",
    "instruction_received": "instruction_parsed",
    "data_moved": "stream_data_moved",
}
GROUPS = ("group_id", "odcid", "ODCID")  # which connection an event is of
# What this end did, of the events in pairs. In the others the peer did it.
OWN = ("instruction_created", "headers_encoded", "frame_created")
DECODER_INSTRUCTIONS = ("section_ack", "header_ack", "stream_cancellation", "insert_count_increment")
ENCODER_INSTRUCTIONS = ("set_dynamic_table_capacity", "insert_with", "duplicate")
FRAMES = {"headers": HEADERS, "push_promise": PUSH_PROMISE, "settings": SETTINGS}
LISTS = ("headers", "header_fields", "fields")  # members that have a header list
MOST_REPEATED = 8  # lists after one that may be the same again, of another event
SECTIONS = ("frame", "section", "stream")  # where a section may come from, the best first
# Names of the two settings, the last by its number.
CAPACITY_NAMES = ("settings_qpack_max_table_capacity", "max_table_capacity", str(MAX_TABLE_CAPACITY))
BLOCKED_NAMES = ("settings_qpack_blocked_streams", "blocked_streams_count", str(BLOCKED_STREAMS))


# ---- Files


def is_trace(head: bytes) -> bool:
    """Whether a file that begins with these bytes may be a trace."""
    return head.lstrip()[:1] in (b"{", SEPARATOR.encode())


def read_records(text: str) -> List[dict]:
    """Returns the objects of a file: one, or one a record. A last record that is cut is left out."""
    separator = SEPARATOR if text.lstrip(" \t\r\n").startswith(SEPARATOR) else "\n"
    try:
        return [json.loads(text)]
    except ValueError:
        pass
    texts = [it for it in text.split(separator) if it.strip()]
    records = []
    for number, it in enumerate(texts, 1):
        try:
            records.append(json.loads(it))
        except ValueError as error:
            if number == 1 or number < len(texts):
                raise SourceError(f"record {number} of the trace is no JSON: {error}") from None
    return records


def read_traces(records: List[dict]) -> List[dict]:
    """Returns the traces of the records of a file, each with its events."""
    if not records:
        raise SourceError("the trace has no record")
    first, *events = records
    if not all(isinstance(it, dict) for it in records):
        raise SourceError("a record of the trace is no object")
    if "traces" in first:
        return [it for it in first["traces"] if "events" in it]
    trace = first.get("trace", {})
    if "events" in trace:
        return [trace]
    return [{**trace, "title": first.get("title", trace.get("title")), "events": events}]


# ---- Events


@dataclass
class Event:
    """An event: when it was in seconds, its group, its name and its data."""

    time: float
    group: str
    name: str
    data: dict


class Clock:
    """The times of a trace: since its reference, or if they are absolute, since its first event."""

    def __init__(self, trace: dict) -> None:
        self.common = trace.get("common_fields", {})
        self.unit = 1e-6 if trace.get("configuration", {}).get("time_units") == "us" else 1e-3
        self.before = 0.0
        self.first: Optional[float] = None

    def read(self, it: dict) -> float:
        """Returns when an event was, in seconds."""
        time = float(it.get("time", it.get("relative_time", it.get("delta_time", 0))))
        form = str(it.get("time_format", self.common.get("time_format", "")))
        is_absolute = form in ("", "absolute", "relative_to_epoch") and "time" in it
        if form in ("delta", "relative_to_previous_event") or "delta_time" in it:
            time += self.before
        if self.first is None:
            self.first = time if is_absolute else 0.0
        self.before = time
        return (time - self.first) * self.unit


def name_of(it: dict) -> str:
    """Returns the name of an event, with its category, as the newest draft has it."""
    category, _, kind = str(it.get("name", "")).lower().rpartition(":")
    category = category or str(it.get("category", "")).lower()
    kind = kind or str(it.get("event", it.get("event_type", it.get("type", "")))).lower()
    return f"{CATEGORIES.get(category, category)}:{EVENTS.get(kind, kind)}"


def events_of(trace: dict) -> Iterator[Event]:
    """Yields the events of a trace."""
    clock = Clock(trace)
    names = [it.lower() for it in trace.get("event_fields", [])]
    for record in trace["events"]:
        it = dict(zip(names, record)) if isinstance(record, list) else record
        group = next((place[key] for place in (it, clock.common) for key in GROUPS if key in place), "")
        yield Event(clock.read(it), str(group), name_of(it), it.get("data") or {})


def bytes_of(*places: object) -> Optional[bytes]:
    """Returns the bytes of the first of these values that has them whole: hexadecimal, or an object whose data is."""
    for it in places:
        size = it.get("length", it.get("payload_length")) if isinstance(it, dict) else None
        digits = it.get("data") if isinstance(it, dict) else it
        if isinstance(digits, str):
            data = bytes.fromhex(digits[2:] if digits[:2] in ("0x", "0X") else digits)
            if size is None or len(data) >= int(size):
                return data
    return None


def payload_of(kind: int, data: bytes) -> bytes:
    """Returns the payload of a frame of a type, whose bytes may be the whole frame or the payload alone."""
    try:
        found, at = read_integer(data, 0)
        size, at = read_integer(data, at)
        if found == kind and size == len(data) - at:
            data = data[at:]
        return data[read_integer(data, 0)[1] :] if kind == PUSH_PROMISE else data
    except NotWhole:
        return data


def limits_of(values: Dict[str, object]) -> Optional[Tuple[int, int]]:
    """Returns the two limits among settings by their names, or none if neither is there."""
    found = [next((values[it] for it in names if it in values), None) for names in (CAPACITY_NAMES, BLOCKED_NAMES)]
    if found == [None, None]:
        return None
    return int(found[0] or 0), int(found[1] or 0)  # type: ignore[call-overload]


# ---- Lines


@dataclass
class Reader:
    """Reads the events of one connection from the side of one end."""

    own: str  # the mark of this end
    streams: Streams = field(default_factory=Streams)
    found: List[Tuple[float, str, str, str]] = field(default_factory=list)  # time, mark, words, source
    limited: Set[str] = field(default_factory=set)  # the marks of the ends whose SETTINGS were found
    without_bytes: int = 0
    cut: Set[Tuple[str, str]] = field(default_factory=set)  # the streams of which an instruction has no bytes
    lists: List[HeaderList] = field(default_factory=list)  # of sections that have no bytes

    def read(self, event: Event) -> None:
        """Reads an event, if it is one of those with bytes or limits."""
        category, _, kind = event.name.partition(":")
        mark = self.own if kind in OWN else self.peer()
        if kind in ("instruction_created", "instruction_parsed") and category == "qpack":
            self.read_instruction(event, mark)
        elif kind in ("headers_encoded", "headers_decoded") and category == "qpack":
            self.add_section(event, mark, "section", bytes_of(event.data.get("raw")))
        elif kind in ("frame_created", "frame_parsed") and category == "http3":
            self.read_frame(event, mark)
        elif kind == "parameters_set" and category == "http3":
            is_peer = event.data.get("initiator", event.data.get("owner")) == "remote"
            self.add_limits(event, self.peer() if is_peer else self.own, limits_of(event.data))
        elif kind == "stream_data_moved" and category in ("quic", "http3"):
            self.read_stream(event)

    def peer(self) -> str:
        """Returns the mark of the other end."""
        return PEER[self.own]

    def add(self, event: Event, mark: str, source: str, words: str, data: Optional[bytes]) -> None:
        """Adds a line with bytes, or counts an event that has none."""
        if data is None:
            self.without_bytes += 1
        else:
            self.found.append((event.time, mark, f"{words} {data.hex()}", source))

    def add_section(self, event: Event, mark: str, source: str, data: Optional[bytes]) -> None:
        """Adds a line of a section, or counts an event without its bytes or its stream."""
        stream = event.data.get("stream_id")
        self.add(event, mark, source, f"b {int(stream or 0)}", None if stream is None else data)
        if data is None and stream is not None and len(self.lists) < MOST_LISTS:
            self.add_list(mark, int(stream), event.data)

    def add_list(self, mark: str, stream: int, data: dict) -> None:
        """Adds the header list of a section that has no bytes, once."""
        frame = data.get("frame")
        places = [it.get(name) for it in (data, frame if isinstance(frame, dict) else {}) for name in LISTS]
        fields = next((it for it in map(fields_of_lines, places) if it), [])
        found = HeaderList(mark, stream, fields)
        if fields and found not in self.lists[-MOST_REPEATED:]:
            self.lists.append(found)

    def add_limits(self, event: Event, mark: str, limits: Optional[Tuple[int, int]]) -> None:
        """Adds a line of SETTINGS. An end sends them once."""
        if limits and mark not in self.limited:
            self.limited.add(mark)
            self.found.append((event.time, mark, f"s {limits[0]} {limits[1]}", "settings"))

    def read_instruction(self, event: Event, mark: str) -> None:
        """Reads an instruction, whose type says on which stream it is."""
        kind = str(event.data.get("instruction", {}).get("instruction_type", "")).lower()
        raw = bytes_of(event.data.get("raw"), event.data.get("instruction", {}).get("raw"))
        if not kind.startswith(ENCODER_INSTRUCTIONS + DECODER_INSTRUCTIONS):
            return
        name = "e" if kind.startswith(ENCODER_INSTRUCTIONS) else "d"
        if raw is None:
            self.cut.add((mark, name))
        # After bytes that are missing nothing means what it would.
        self.add(event, mark, "instruction", name, None if (mark, name) in self.cut else raw)

    def read_frame(self, event: Event, mark: str) -> None:
        """Reads a frame that has a section, or SETTINGS."""
        frame = event.data.get("frame", {})
        kind = FRAMES.get(str(frame.get("frame_type", "")).lower())
        if kind == SETTINGS:
            settings = frame.get("settings", [])
            values = {str(it.get("name", it.get("name_bytes"))).lower(): it["value"] for it in settings}
            self.add_limits(event, mark, limits_of(values) or (0, 0))
        elif kind is not None:
            raw = bytes_of(frame.get("raw"), event.data.get("raw"))
            self.add_section(event, mark, "frame", None if raw is None else payload_of(kind, raw))

    def read_stream(self, event: Event) -> None:
        """Reads bytes of a stream, which may have been moved more than once, and then have their offset."""
        it = event.data
        ends = (it.get("from"), it.get("to"))
        is_received = ends[0] == "network" or ends[1] in ("application", "user")
        mark = self.peer() if is_received else self.own
        raw, stream, offset = bytes_of(it.get("raw"), it.get("data")), it.get("stream_id"), it.get("offset")
        if offset is None and {"application", "user"}.intersection(ends):
            offset = self.streams.taken(mark, int(stream or 0))
        if raw is None or stream is None or offset is None:
            self.without_bytes += 1
            return
        for words in self.streams.take(mark, int(stream), int(offset), raw):
            if words.startswith("s "):
                self.add_limits(event, mark, (int(words.split()[1]), int(words.split()[2])))
            else:
                self.found.append((event.time, mark, words, "stream"))

    def lines(self) -> List[str]:
        """Returns the lines, each once, though events of several kinds have its bytes."""
        left_out = self.sections_twice() | self.instructions_twice()
        kept = (it for at, it in enumerate(self.found) if at not in left_out)
        return [f"@{time:.6f} {mark} {words}" for time, mark, words, _ in kept]

    def sections_twice(self) -> Set[int]:
        """Returns the numbers of sections that a better source has too."""
        twice: Set[int] = set()
        before: Counter = Counter()  # how often the better sources have each section
        for source in SECTIONS:
            now: Counter = Counter()
            for at, (_, mark, words, it) in enumerate(self.found):
                if it == source and words.startswith("b "):
                    now[mark, words] += 1
                    if now[mark, words] <= before[mark, words]:
                        twice.add(at)
            before |= now
        return twice

    def instructions_twice(self) -> Set[int]:
        """Returns the numbers of instructions that the bytes of their stream have too, or the other way round."""
        there = {(mark, words[0], source) for _, mark, words, source in self.found}
        worse = {}
        for mark, name, _ in there:
            is_both = {(mark, name, "instruction"), (mark, name, "stream")} <= there
            if name in ("e", "d") and is_both:
                worse[mark, name] = "instruction" if (mark, name) in self.cut else "stream"
        return {at for at, (_, mark, words, it) in enumerate(self.found) if worse.get((mark, words[0])) == it}

    def missing(self) -> Iterator[str]:
        """Yields what is missing."""
        yield from self.streams.gaps()
        for mark, name in sorted(self.cut):
            yield f"{mark} {'encoder' if name == 'e' else 'decoder'} stream: an instruction has no bytes"
        if self.without_bytes:
            yield f"events without their bytes, or after such, which are left out: {self.without_bytes}"


def mark_of(trace: dict) -> str:
    """Returns the mark of the end from whose side a trace was made."""
    point = trace.get("vantage_point", {})
    point = point if isinstance(point, dict) else {"type": point}
    return "<" if "server" in (point.get("type"), point.get("flow")) else ">"


def connections_of_records(records: List[dict]) -> List[Connection]:
    """Returns the connections of the records of a file of traces."""
    connections: List[Connection] = []
    lists: List[HeaderList] = []
    try:
        for trace in read_traces(records):
            readers: Dict[str, Reader] = {}
            for event in events_of(trace):
                readers.setdefault(event.group, Reader(mark_of(trace))).read(event)
            for group, reader in readers.items():
                names = ", ".join(it for it in (str(trace.get("title") or "a trace"), group) if it)
                about = {"trace": "".join(it if it.isprintable() else " " for it in names)}
                lists += [it._replace(connection=about["trace"]) for it in reader.lists]
                if reader.found or any(reader.streams.gaps()):
                    connections.append(Connection(len(connections), about, reader.lines(), list(reader.missing())))
    except (AttributeError, KeyError, OverflowError, TypeError, ValueError, NotWhole) as error:
        raise SourceError(f"the trace can't be read, as a value is of another kind: {error!r}") from None
    if lists and not any(" b " in line for it in connections for line in it.lines):
        raise OnlyLists(lists)
    if not connections:
        raise SourceError("the trace has no bytes of QPACK: have the program that wrote it log raw bytes")
    return connections
