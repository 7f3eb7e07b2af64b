"""A trace in qlog of what qpk shows, as JSON-SEQ. qpk-capture reads it.

Its events are qpack:instruction_created, instruction_parsed, headers_encoded, headers_decoded and stream_state_updated,
with the bytes that they are about, and http:parameters_set, in the terms of draft-marx-qlog-event-definitions-quic-h3 and
of the first drafts after it.
"""

import json
from typing import Dict, Iterable, Iterator, List, Optional, Tuple

from qpk.lines import pieces_of_lines
from qpk.qlog import SEPARATOR
from qpk.streams import Connection
from qpk.report.connection import Event, Reading


def named(it: dict) -> dict:
    """Returns the name and the value of an object of qpk as those of a field."""
    texts = {key: it[key] for key in ("name", "value") if isinstance(it.get(key), str)}
    others = {f"{key}_bytes": it[key]["hex"] for key in ("name", "value") if isinstance(it.get(key), dict)}
    return {**texts, **others}


def instruction_of(it: dict) -> Optional[dict]:
    """Returns an instruction of qpk in the terms of a trace, or none for bytes that are no instruction."""
    kind, source = it.get("instruction"), it.get("name_from", {})
    if kind == "insert":
        if source.get("type") == "literal":
            return {"instruction_type": "insert_without_name_reference", **named(it)}
        reference = {"table_type": source.get("type"), "name_index": source.get("index")}
        return {"instruction_type": "insert_with_name_reference", **reference, **named(it)}
    if kind == "duplicate":
        return {"instruction_type": "duplicate", "index": it.get("of", {}).get("index")}
    kinds = {
        "set capacity": ("set_dynamic_table_capacity", "capacity", "capacity"),
        "acknowledge": ("section_acknowledgement", "stream_id", "stream"),
        "cancel": ("stream_cancellation", "stream_id", "stream"),
        "increment": ("insert_count_increment", "increment", "by"),
    }
    if kind not in kinds:
        return None
    name, key, member = kinds[kind]
    return {"instruction_type": name, key: it[member]}


def line_of(it: dict) -> dict:
    """Returns a field line of qpk in the terms of a trace."""
    form = it["form"]
    is_literal = form["type"] == "literal"
    source = form.get("name_from", {}) if is_literal else form
    table = {"table_type": "static" if source.get("type") == "static" else "dynamic"}
    post_base = {"is_post_base": True} if source.get("type") == "post-base" else {}
    if not is_literal:
        return {"header_field_type": "indexed_header", **table, "index": form["index"], **post_base}
    literal = {"preserve_literal": bool(form.get("never_indexed"))}
    if "index" not in source:
        return {"header_field_type": "literal_without_name", **literal, **named(it)}
    rest = named({"value": it["value"]})
    index = {"name_index": source["index"], **post_base}
    return {"header_field_type": "literal_with_name", **literal, **table, **index, **rest}


def raw_of(data: bytes) -> dict:
    """Returns bytes as events have them."""
    return {"length": len(data), "data": data.hex()}


def written(events: List[Event]) -> Iterator[Tuple[Event, Optional[float], str, dict]]:
    """Yields what a trace has of events, each with its event, its time if that is known, its name and its data.

    It is from the side of the client, or without marks of the encoder. The sections that wait at the end come last.
    """
    for event in events:
        for name, data in written_of(event):
            yield event, event.seconds, name, data
    for event in still_waiting(events):
        yield event, None, name_of_section(event), {"stream_id": event.said["section"], "raw": raw_of(event.data)}


def written_of(event: Event) -> Iterator[Tuple[str, dict]]:
    """Yields the names and the data that a trace has of an event."""
    said = event.said
    instruction = instruction_of(said) if event.stream and "cut" not in said else None
    if "section" in said:
        yield from written_of_section(event)
    elif instruction:
        is_own = event.end == "client" if event.end else event.stream == "encoder"
        raw = raw_of(event.data)
        data = {"instruction": instruction, "length": raw["length"], "raw": raw}
        yield f"qpack:instruction_{'created' if is_own else 'parsed'}", data
    elif "max_capacity" in said:
        owner = "local" if event.end == "client" else "remote"
        limits = {"max_table_capacity": said["max_capacity"], "blocked_streams_count": said["max_blocked"]}
        yield "http:parameters_set", {"owner": owner, **limits}


def written_of_section(event: Event) -> Iterator[Tuple[str, dict]]:
    """Yields what a trace has of a section: that it waits, that it waits no longer, and its fields."""
    said = event.said
    data = {"stream_id": said["section"]}
    if "blocked_until" in said:
        yield "qpack:stream_state_updated", {**data, "state": "blocked"}
        return
    if event.arrival:
        yield "qpack:stream_state_updated", {**data, "state": "unblocked"}
    if "lines" in said:
        required, base = said["required_insert_count"], said["base"]
        sign = int(base < required)
        base_of = {"sign_bit": bool(sign), "delta_base": abs(base - required) - sign}
        data["headers"] = [named(line) for line in said["lines"]]
        data["block_prefix"] = {"required_insert_count": required, **base_of}
        data["header_block"] = [line_of(line) for line in said["lines"]]
    raw = raw_of(event.data)
    yield name_of_section(event), {**data, "length": raw["length"], "raw": raw}


def name_of_section(event: Event) -> str:
    """Returns what a trace calls a section."""
    return f"qpack:headers_{'decoded' if event.end == 'server' else 'encoded'}"


def still_waiting(events: List[Event]) -> List[Event]:
    """Returns the sections that were blocked, and read no more, by their streams."""
    blocked: Dict[Tuple[str, int], List[Event]] = {}
    for event in events:
        if "blocked_until" in event.said:
            blocked.setdefault((event.end, event.said["section"]), []).append(event)
    ended = {it.arrival.number for it in events if it.arrival}
    return [event for of_stream in blocked.values() for event in of_stream if event.number not in ended]


def is_about(said: dict, stream: int) -> bool:
    """Whether an object of qpk is about a stream."""
    return stream in (said.get("section"), said.get("stream"), said.get("given_up"))


def write_trace(shown: Iterable[Tuple[Connection, str]], stream: Optional[int] = None) -> Iterator[str]:
    """Yields the records of a trace of connections, each with the objects that qpk printed, a line each.

    If there is a stream, the trace has only what is about it.
    """
    trace = {
        "vantage_point": {"name": "qpk", "type": "network", "flow": "client"},
        "common_fields": {"time_format": "relative", "reference_time": 0, "protocol_type": ["QUIC", "HTTP3"]},
    }
    yield record_of({"qlog_version": "0.3", "qlog_format": "JSON-SEQ", "title": "qpk show --qlog", "trace": trace})
    for connection, text in shown:
        group = {"group_id": connection.name()} if connection.about else {}
        objects = (json.loads(it) for it in text.split("\n")[:-1])
        events = list(Reading(objects, pieces_of_lines(connection.all_lines())).events())
        last = 0.0  # the time of what has none
        for event, seconds, name, data in written(events):
            if stream is None or is_about(event.said, stream):
                last = last if seconds is None else seconds * 1000
                yield record_of({"time": round(last, 6), "name": name, **group, "data": data})


def record_of(it: dict) -> str:
    """Returns an object as a record."""
    return f"{SEPARATOR}{json.dumps(it, separators=(',', ':'))}\n"
